//! The whole call, answered by the published Rust: field records or a refusal with its place.

use std::io::{self, BufRead, Write};

use marrow::datatypes::{DataType, Field};

use crate::codes;
use crate::commands::{Batch, Records, Refused, POINTS};
use crate::hex;
use crate::internal::error::Error;
use crate::internal::schema::tracer::Tracer;
use crate::internal::schema::{get_strategy_from_metadata, Strategy};

const MAP_AS_STRUCT: u16 = 1 << 1;
const EDITION_2: u16 = 1 << 10;
const OPTIONS: u16 = 1 << 11;
const MAX_BYTES: usize = 65_535;
const MAX_PLACES: usize = 1024;

/// The refusal that an error of the Rust stands for, by how its message begins.
const ERRORS: [(&str, u8); 11] = [
    ("cannot interpret key as string", 6),
    ("too deeply nested type detected", 7),
    ("mismatched types", 8),
    ("incompatible names for variant", 9),
    ("mismatched primitive types", 10),
    ("encountered null only field", 12),
    ("encountered enums without data", 13),
    ("integer conversion failed", 14),
    ("the root type cannot be nullable", 15),
    ("no records found to determine schema", 16),
    ("schema tracing is not directly supported for the root data type", 17),
];

fn refusal_of(error: &Error) -> u8 {
    let found = ERRORS.iter().find(|(start, _)| error.message().starts_with(start));
    found.unwrap_or_else(|| panic!("no refusal stands for {error}")).1
}

/// The places of a tracer: it and all below it.
fn places(tracer: &Tracer) -> usize {
    1 + match tracer {
        Tracer::Unknown(_) | Tracer::Primitive(_) => 0,
        Tracer::List(list) => places(&list.item_tracer),
        Tracer::Map(map) => places(&map.key_tracer) + places(&map.value_tracer),
        Tracer::Struct(fields) => fields.fields.iter().map(|field| places(&field.tracer)).sum(),
        Tracer::Tuple(tuple) => tuple.field_tracers.iter().map(places).sum(),
        Tracer::Union(union) => union
            .variants
            .iter()
            .flatten()
            .map(|variant| places(&variant.tracer))
            .sum(),
    }
}

pub struct Question<'a> {
    word: u16,
    commands: &'a [u8],
    text: &'a [u8],
}

impl<'a> Question<'a> {
    /// A question that the Rust can be asked: it knows edition 1 alone.
    pub fn new(word: u16, commands: &'a [u8], text: &'a [u8]) -> io::Result<Self> {
        if word < OPTIONS && word & EDITION_2 != 0 {
            return Err(io::Error::other(format!("the Rust has no edition 2: {word:04x}")));
        }
        Ok(Question { word, commands, text })
    }

    /// A run up to a point, with the offsets of the commands that it read.
    fn run(&self, until: usize) -> (Result<Tracer, Refused>, Vec<usize>) {
        let batch = Batch::new(self.commands, self.text, self.word & MAP_AS_STRUCT != 0, until);
        let traced = Tracer::from_samples(Records(&batch), codes::options(self.word))
            .map_err(|error| batch.refused().unwrap_or_else(|| (refusal_of(&error), batch.last())));
        (traced, batch.into_read())
    }

    /// What a run up to a point is refused for, if anything. 11 is counted here: the Rust has no bound.
    fn refusal(&self, until: usize, offsets: &[usize]) -> Option<Refused> {
        match self.run(until).0 {
            Ok(tracer) if places(&tracer) > MAX_PLACES => Some((11, offsets[until / POINTS])),
            Ok(_) => None,
            Err(refused) => Some(refused),
        }
    }

    /// The traced root, or the first of refusals 4 to 11.
    fn trace(&self) -> Result<Tracer, Refused> {
        let (traced, offsets) = self.run(usize::MAX);
        if traced.as_ref().is_ok_and(|tracer| places(tracer) <= MAX_PLACES) {
            return traced;
        }
        // the first point at which a run is refused, or the end of what was read
        let (mut low, mut high) = (0, offsets.len() * POINTS);
        let mut first = None;
        while low < high {
            let middle = (low + high) / 2;
            match self.refusal(middle, &offsets) {
                None => low = middle + 1,
                refused => (high, first) = (middle, refused),
            }
        }
        first.map_or(traced, Err)
    }

    /// The root's fields, or the first of refusals 1 and 3 to 17.
    fn schema(&self) -> Result<Vec<Field>, Refused> {
        if self.word >= OPTIONS {
            return Err((1, 0));
        }
        if self.commands.len() > MAX_BYTES || self.text.len() > MAX_BYTES {
            return Err((3, 0));
        }
        let schema = self
            .trace()?
            .to_schema()
            .map_err(|error| (refusal_of(&error), self.commands.len()))?;
        Ok(schema.fields)
    }
}

#[derive(Default)]
pub struct Answer {
    pub records: Vec<u8>,
    pub names: Vec<u8>,
    pub columns: usize,
}

impl Answer {
    pub fn add(&mut self, field: &Field, variant: i8) {
        let strategy = match get_strategy_from_metadata(&field.metadata) {
            Ok(None) => 0,
            Ok(Some(Strategy::TupleAsStruct)) => 1,
            Ok(Some(Strategy::MapAsStruct)) => 2,
            Ok(Some(Strategy::UnknownVariant)) => 3,
            other => panic!("document 01 has no code for {other:?}"),
        };
        let children: Vec<(i8, &Field)> = match &field.data_type {
            DataType::Struct(fields) => fields.iter().map(|child| (0, child)).collect(),
            DataType::List(child) | DataType::LargeList(child) | DataType::Map(child, _) => vec![(0, child)],
            DataType::Union(fields, _) => fields.iter().map(|(number, child)| (*number, child)).collect(),
            _ => Vec::new(),
        };
        let code = codes::code_of(&field.data_type);
        // the Rust has no mark of widened places: the nullable byte is 0 or 1
        self.records
            .extend([code, field.nullable as u8, strategy, variant as u8]);
        for length in [field.name.len(), children.len()] {
            self.records
                .extend(u16::try_from(length).expect("at most 65,535").to_le_bytes());
        }
        self.names.extend(field.name.bytes());
        // the Rust counts no columns: document 02's rule, 6/14
        self.columns += (children.is_empty() && !matches!(field.data_type, DataType::Struct(_))) as usize;
        for (number, child) in children {
            self.add(child, number);
        }
    }
}

/// The whole call with buffers of those lengths.
pub fn answer(question: &Question, record_bytes: usize, name_bytes: usize) -> Result<Answer, Refused> {
    let mut answer = Answer::default();
    for field in question.schema()? {
        answer.add(&field, 0);
    }
    if answer.records.len() > record_bytes || answer.names.len() > name_bytes {
        return Err((18, question.commands.len()));
    }
    Ok(answer)
}

/// For each line `OPTIONS COMMANDS TEXT`, options of four digits: `ok RECORDS NAMES COLUMNS`, or `refused NUMBER PLACE`.
pub fn answers(out: &mut impl Write, record_bytes: usize, name_bytes: usize) -> io::Result<()> {
    for line in io::stdin().lock().lines() {
        let line = line?;
        let words: Vec<&str> = line.split_whitespace().collect();
        let [word, commands, text] = words[..] else {
            return Err(io::Error::other(format!("not three words: {line}")));
        };
        let word = u16::from_str_radix(word, 16).map_err(io::Error::other)?;
        let (commands, text) = (hex::read(commands)?, hex::read(text)?);
        let question = Question::new(word, &commands, &text)?;
        match answer(&question, record_bytes, name_bytes) {
            Ok(a) => writeln!(
                out,
                "ok {} {} {}",
                hex::write(&a.records),
                hex::write(&a.names),
                a.columns
            )?,
            Err((number, place)) => writeln!(out, "refused {number} {place}")?,
        }
    }
    Ok(())
}
