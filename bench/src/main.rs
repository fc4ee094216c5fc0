//! The call and the published Rust on the same commands: how long each takes. `bench/run` puts the answers into a table.

#[path = "../../oracle/src/batch.rs"]
mod batch;
mod clock;
#[path = "../../oracle/src/codes.rs"]
mod codes;
mod collisions;
#[path = "../../oracle/src/commands.rs"]
mod commands;
#[path = "../../oracle/src/hex.rs"]
mod hex;
mod hostile;
#[path = "../../oracle/src/internal/mod.rs"]
mod internal;
mod native;
mod ours;
mod published;
mod shapes;

use std::hint::black_box;
use std::time::Duration;

use serde::Serialize;

use internal::error::Result;
use internal::schema::tracer::Tracer;
use internal::schema::SerdeArrowSchema;
use native::{Sailing, Soundings};
use ours::Lent;
use published::Records;
use shapes::{Batch, Shape, Size};

const USAGE: &str = "usage: bench shapes | times [SHAPE...] | once SHAPE ours|rust|native | hostile [SHAPE]";

/// How often each side is timed, by turns, and for how long at least.
const ROUNDS: usize = 21;
const ROUND: Duration = Duration::from_millis(4);
/// The same of hostile shapes, of which a call is long. After one that takes longer than they may, the side is not called again.
const HOSTILE_ROUNDS: usize = 3;
const LONGEST: Duration = Duration::from_secs(1);

fn trace(samples: impl Serialize, options: u16) -> Result<SerdeArrowSchema> {
    Tracer::from_samples(samples, codes::options(options))?.to_schema()
}

// What is measured; the profiler counts between entering and leaving these.

#[no_mangle]
#[inline(never)]
fn bench_ours(lent: &mut Lent, batch: &Batch) {
    black_box(lent.trace(batch));
}

#[no_mangle]
#[inline(never)]
fn bench_rust(records: &Records, options: u16) {
    drop(black_box(trace(black_box(records), options)));
}

#[no_mangle]
#[inline(never)]
fn bench_native(records: &Native, options: u16) {
    match records {
        Native::Sailings(records) => drop(black_box(trace(black_box(records), options))),
        Native::Soundings(records) => drop(black_box(trace(black_box(records), options))),
    }
}

enum Native {
    Sailings(Vec<Sailing>),
    Soundings(Vec<Soundings>),
}

impl Native {
    fn new(shape: Shape, records: usize) -> Option<Self> {
        match shape {
            Shape::Typical => Some(Native::Sailings((0..records).map(Sailing::new).collect())),
            Shape::Numbers => Some(Native::Soundings((0..records).map(Soundings::new).collect())),
            _ => None,
        }
    }

    fn schema(&self, options: u16) -> Result<SerdeArrowSchema> {
        match self {
            Native::Sailings(records) => trace(records, options),
            Native::Soundings(records) => trace(records, options),
        }
    }
}

/// A batch with what each side needs of it.
struct Case {
    batch: Batch,
    lent: Lent,
    records: Records,
    native: Option<Native>,
}

#[derive(Clone, Copy)]
enum Side {
    Ours,
    Rust,
    Native,
}

impl Case {
    fn new(shape: Shape, size: Size) -> Self {
        let (batch, records) = shape.batch(size);
        let case = Case {
            lent: Lent::new(ours::BUFFERS),
            records: Records::new(&batch),
            native: Native::new(shape, records),
            batch,
        };
        case.checked(shape)
    }

    /// All sides must give one and the same schema, but for the mark.
    fn checked(mut self, shape: Shape) -> Self {
        let answer = self.lent.trace(&self.batch);
        assert_eq!(answer.refusal, 0, "{shape} is refused");
        let options = self.batch.options;
        let mut schemas = vec![trace(&self.records, options)];
        schemas.extend(self.native.as_ref().map(|native| native.schema(options)));
        for schema in schemas {
            let schema = schema.expect("shapes are accepted");
            let mut rust = batch::Answer::default();
            schema.fields.iter().for_each(|field| rust.add(field, 0));
            assert_eq!(
                self.lent.unmarked(answer),
                (&rust.records[..], &rust.names[..]),
                "{shape} differs"
            );
            assert_eq!(answer.columns as usize, rust.columns);
        }
        if let Shape::Wide(width) | Shape::Alike(width) | Shape::Shuffled(width) | Shape::Nested(width) = shape {
            assert_eq!(answer.columns as usize, width, "names are not told apart");
        }
        self
    }

    fn has(&self, side: Side) -> bool {
        !matches!(side, Side::Native) || self.native.is_some()
    }

    fn run(&mut self, side: Side) {
        match (side, &self.native) {
            (Side::Ours, _) => bench_ours(&mut self.lent, &self.batch),
            (Side::Native, Some(native)) => bench_native(native, self.batch.options),
            _ => bench_rust(&self.records, self.batch.options),
        }
    }

    /// How long so many runs take.
    fn time(&mut self, side: Side, runs: u32) -> Duration {
        let start = clock::processor_time();
        for _ in 0..runs {
            self.run(side);
        }
        clock::processor_time() - start
    }

    /// How many runs a round takes.
    fn runs(&mut self, side: Side) -> u32 {
        let mut runs = 1;
        while self.time(side, runs) < ROUND {
            runs *= 2;
        }
        runs
    }

    /// The median of nanoseconds a run for each of the sides, which are timed by turns.
    fn medians(&mut self, sides: &[Side]) -> Vec<f64> {
        let runs: Vec<u32> = sides.iter().map(|&side| self.runs(side)).collect();
        let mut times = vec![Vec::new(); sides.len()];
        for _ in 0..ROUNDS {
            for (i, &side) in sides.iter().enumerate() {
                times[i].push(self.time(side, runs[i]).as_nanos() as f64 / f64::from(runs[i]));
            }
        }
        times.into_iter().map(median).collect()
    }

    /// A hostile batch, and how long ours took at first. Both sides must give one schema, or one refusal and place.
    fn hostile(batch: Batch) -> (Self, Duration) {
        let mut lent = Lent::new(ours::ENOUGH);
        let start = clock::processor_time();
        let answer = lent.trace(&batch);
        let first = clock::processor_time() - start;
        let question = batch::Question::new(batch.options, &batch.commands, &batch.text).expect("edition 1");
        match batch::answer(&question, ours::ENOUGH.0, ours::ENOUGH.1) {
            Ok(rust) => {
                assert_eq!((answer.refusal, answer.columns as usize), (0, rust.columns));
                assert!(
                    lent.unmarked(answer) == (&rust.records[..], &rust.names[..]),
                    "the schemas differ"
                );
            }
            Err((number, place)) => assert_eq!((answer.refusal, answer.place as usize), (number.into(), place)),
        }
        let case = Case {
            lent,
            records: Records::new(&batch),
            native: None,
            batch,
        };
        (case, first)
    }
}

fn median(mut times: Vec<f64>) -> f64 {
    times.sort_by(f64::total_cmp);
    times[times.len() / 2]
}

fn named(shape: Shape, size: Size) -> String {
    format!("{shape}, {size}")
}

/// A line a shape: its name, commands, and nanoseconds a run of each side, parted by tabs.
fn times(only: &[&str]) {
    let is_asked = |&(shape, size): &(Shape, Size)| only.is_empty() || only.contains(&named(shape, size).as_str());
    for (shape, size) in shapes::all().into_iter().filter(is_asked) {
        let mut case = Case::new(shape, size);
        let sides: Vec<Side> = [Side::Ours, Side::Rust, Side::Native]
            .into_iter()
            .filter(|&s| case.has(s))
            .collect();
        let medians: Vec<String> = case.medians(&sides).iter().map(|time| format!("{time:.0}")).collect();
        println!(
            "{}\t{}\t{}",
            named(shape, size),
            case.records.count(),
            medians.join("\t")
        );
    }
}

/// How long testing takes that all names and texts are UTF-8, as whoever hands the Rust bytes must.
fn utf8_time(records: &Records) -> Duration {
    let start = clock::processor_time();
    for part in records.parts() {
        black_box(std::str::from_utf8(black_box(part.as_bytes()))).expect("shapes are UTF-8");
    }
    clock::processor_time() - start
}

/// A line for a hostile shape: its name, commands, and nanoseconds of a call of ours, of the Rust, and of testing for UTF-8.
fn hostile_times(name: &str) {
    let (mut case, first) = Case::hostile(hostile::named(name));
    let is_short = |times: &[Duration]| times.last().map_or(true, |&time| time < LONGEST);
    let mut times = [Vec::new(), Vec::new(), Vec::new()];
    times[0].extend(Some(first).filter(|&time| time >= LONGEST));
    for _ in 0..HOSTILE_ROUNDS {
        for (times, side) in times.iter_mut().zip([Side::Ours, Side::Rust]) {
            if is_short(times) {
                times.push(case.time(side, 1));
            }
        }
        times[2].push(utf8_time(&case.records));
    }
    let [ours, rust, utf8] = times.map(|times| median(times.iter().map(|time| time.as_nanos() as f64).collect()));
    println!("{name}\t{}\t{ours:.0}\t{rust:.0}\t{utf8:.0}", case.records.count());
}

fn once(name: &str, side: Side) {
    let found = shapes::all()
        .into_iter()
        .find(|&(shape, size)| named(shape, size) == name);
    let mut case = match found {
        Some((shape, size)) => Case::new(shape, size),
        None => Case::hostile(hostile::named(name)).0,
    };
    case.run(side);
}

fn main() {
    let arguments: Vec<String> = std::env::args().skip(1).collect();
    match arguments.iter().map(String::as_str).collect::<Vec<_>>()[..] {
        ["shapes"] => shapes::all()
            .iter()
            .for_each(|&(shape, size)| println!("{}", named(shape, size))),
        ["times", ref only @ ..] => times(only),
        ["once", name, "ours"] => once(name, Side::Ours),
        ["once", name, "rust"] => once(name, Side::Rust),
        ["once", name, "native"] => once(name, Side::Native),
        ["hostile"] => hostile::all().iter().for_each(|(name, _)| println!("{name}")),
        ["hostile", name] => hostile_times(name),
        _ => {
            eprintln!("{USAGE}");
            std::process::exit(1);
        }
    }
}
