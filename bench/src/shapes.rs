//! What is measured: batches of several shapes.

use std::collections::HashMap;

use crate::native;

pub const MOST: usize = 65_535;

/// The Rust's default options, and those that are added to them.
pub const DEFAULT: u16 = 30;
const COERCE_NUMBERS: u16 = 1 << 6;
pub const GUESS_DATES: u16 = 1 << 8;

/// Commands as a host writes them: a field's name stands once in the text, a value's text once for each value.
#[derive(Default)]
pub struct Batch {
    pub options: u16,
    pub commands: Vec<u8>,
    pub text: Vec<u8>,
    known: HashMap<String, usize>,
}

impl Batch {
    fn operands(&mut self, offset: usize, length: usize) {
        for operand in [offset, length] {
            let operand = u16::try_from(operand).expect("at most 65,535");
            self.commands.extend(operand.to_le_bytes());
        }
    }

    fn add(&mut self, name: &str) -> usize {
        let offset = self.text.len();
        self.text.extend(name.bytes());
        self.known.insert(String::from(name), offset);
        offset
    }

    pub fn value(&mut self, code: u8) {
        self.commands.push(code);
    }

    /// A field or a text, wherever it stands in the text slice.
    pub fn part(&mut self, code: u8, offset: usize, length: usize) {
        self.value(code);
        self.operands(offset, length);
    }

    /// A newtype variant, whose value follows, by its name's offset and length.
    pub fn numbered(&mut self, number: usize, offset: usize, length: usize) {
        self.value(0x19);
        self.commands
            .extend(u16::try_from(number).expect("at most 65,535").to_le_bytes());
        self.operands(offset, length);
    }

    pub fn structure(&mut self) {
        self.value(0x15);
    }

    pub fn sequence(&mut self) {
        self.value(0x12);
    }

    pub fn map(&mut self) {
        self.value(0x14);
    }

    pub fn end(&mut self) {
        self.value(0x17);
    }

    pub fn field(&mut self, name: &str) {
        let offset = match self.known.get(name) {
            Some(&offset) => offset,
            None => self.add(name),
        };
        self.part(0x16, offset, name.len());
    }

    /// A newtype variant, whose value follows.
    pub fn variant(&mut self, number: usize, name: &str) {
        let offset = match self.known.get(name) {
            Some(&offset) => offset,
            None => self.add(name),
        };
        self.numbered(number, offset, name.len());
    }

    /// A text of its own, or an equal one before it once the text slice is full.
    pub fn text(&mut self, text: &str) {
        let offset = if self.text.len() + text.len() <= MOST {
            self.add(text)
        } else {
            self.known[text]
        };
        self.part(0x0D, offset, text.len());
    }
}

/// How long a batch is.
#[derive(Clone, Copy)]
pub enum Size {
    Records(usize),
    /// As many records as this has room for.
    KiB(usize),
}

impl std::fmt::Display for Size {
    fn fmt(&self, f: &mut std::fmt::Formatter) -> std::fmt::Result {
        match self {
            Size::Records(count) => write!(f, "{count} records"),
            Size::KiB(count) => write!(f, "{count} KiB"),
        }
    }
}

/// A batch of records, and how many they are.
pub fn batch(options: u16, size: Size, record: impl Fn(&mut Batch, usize)) -> (Batch, usize) {
    let (records, bytes) = match size {
        Size::Records(count) => (count, MOST),
        Size::KiB(count) => (usize::MAX, MOST.min(count * 1024)),
    };
    let mut batch = Batch {
        options,
        ..Batch::default()
    };
    let mut made = 0;
    while made < records {
        let before = batch.commands.len();
        record(&mut batch, made);
        if batch.commands.len() > bytes {
            batch.commands.truncate(before);
            break;
        }
        made += 1;
    }
    (batch, made)
}

#[derive(Clone, Copy, PartialEq)]
pub enum Shape {
    /// 20 fields, some of them nested.
    Typical,
    /// A list of 100 numbers a record.
    Numbers,
    /// Texts, tried as dates.
    Dates,
    /// Maps of 20 keys, each key a text of its own.
    MapMode,
    /// 19 structs one inside another.
    Deep,
    /// So many fields, whose names differ early.
    Wide(usize),
    /// So many fields of names that are equally long and begin alike.
    Alike(usize),
    /// So many fields, in another order in each record.
    Shuffled(usize),
    /// So many fields, each a struct of one field.
    Nested(usize),
    /// Twenty fields, and in the first record a struct of 900 before them.
    SeenOnce,
    /// One of so many variants a record, by turns.
    Variants(usize),
}

impl std::fmt::Display for Shape {
    fn fmt(&self, f: &mut std::fmt::Formatter) -> std::fmt::Result {
        match self {
            Shape::Typical => write!(f, "typical return"),
            Shape::Numbers => write!(f, "lists of numbers"),
            Shape::Dates => write!(f, "texts, guess_dates"),
            Shape::MapMode => write!(f, "maps as structs"),
            Shape::Deep => write!(f, "19 deep"),
            Shape::Wide(width) => write!(f, "{width} wide"),
            Shape::Alike(width) => write!(f, "{width} wide, names alike"),
            Shape::Shuffled(width) => write!(f, "{width} shuffled"),
            Shape::Nested(width) => write!(f, "{width} nested"),
            Shape::SeenOnce => write!(f, "wide struct seen once"),
            Shape::Variants(width) => write!(f, "{width} variants"),
        }
    }
}

pub fn name(i: usize) -> String {
    const SYLLABLES: [&str; 16] = [
        "ka", "ro", "min", "te", "sul", "va", "dor", "i", "pen", "ga", "lu", "bre", "no", "ta", "she", "or",
    ];
    // each digit once, the lowest first, so that neighbours differ early
    format!(
        "{}{}{}",
        SYLLABLES[i % 16],
        SYLLABLES[(i / 16 + 5) % 16],
        SYLLABLES[(i / 256 + i) % 16]
    )
}

/// Fields with numbers for values, each of the type that goes with its name.
pub fn fields(b: &mut Batch, order: impl IntoIterator<Item = usize>, name: impl Fn(usize) -> String) {
    for i in order {
        b.field(&name(i));
        b.value(2 + (i % 10) as u8);
    }
}

pub fn wide(b: &mut Batch, order: impl IntoIterator<Item = usize>, name: impl Fn(usize) -> String) {
    b.structure();
    fields(b, order, name);
    b.end();
}

/// The numbers below a width, in an order that is the record's own. The first record has them as they come.
fn shuffled(width: usize, record: usize) -> Vec<usize> {
    let mut order: Vec<usize> = (0..width).collect();
    let mut seed = record as u64 + 1;
    for i in (1..width).rev().filter(|_| record > 0) {
        seed = seed.wrapping_mul(6364136223846793005).wrapping_add(1442695040888963407);
        order.swap(i, (seed >> 33) as usize % (i + 1));
    }
    order
}

fn nested(b: &mut Batch, width: usize) {
    b.structure();
    for i in 0..width {
        b.field(&name(i));
        b.structure();
        b.field("x");
        b.value(0x04);
        b.end();
    }
    b.end();
}

fn seen_once(b: &mut Batch, record: usize) {
    b.structure();
    if record == 0 {
        b.field("manifest");
        wide(b, 0..900, name);
    }
    fields(b, 0..20, name);
    b.end();
}

fn dates(b: &mut Batch, i: usize) {
    let (day, hour) = (1 + i % 28, i % 24);
    b.structure();
    b.field("booked");
    b.text(&format!("2024-05-{day:02}"));
    b.field("sailed");
    b.text(&format!("2024-05-{day:02}T{hour:02}:15:00Z"));
    b.field("boarding");
    b.text(&format!("{hour:02}:05:00"));
    b.field("vessel");
    b.text(&format!("Vessel {day}"));
    b.end();
}

fn map(b: &mut Batch, _: usize) {
    b.map();
    for i in 0..20 {
        b.text(&name(i));
        b.value(2 + (i % 10) as u8);
    }
    b.end();
}

fn deep(b: &mut Batch, _: usize) {
    const LEVELS: usize = 19;
    for level in 0..LEVELS {
        b.structure();
        b.field("number");
        b.value(0x04);
        b.field(&format!("inner_{level}"));
    }
    b.value(0x01);
    for _ in 0..LEVELS {
        b.end();
    }
}

fn variants(b: &mut Batch, i: usize, width: usize) {
    b.structure();
    b.field("event");
    b.variant(i % width, &name(i % width));
    b.value(0x04);
    b.end();
}

fn numbers(b: &mut Batch, i: usize) {
    native::Soundings::new(i).write(b);
}

impl Shape {
    pub fn batch(self, size: Size) -> (Batch, usize) {
        match self {
            Shape::Typical => batch(DEFAULT | COERCE_NUMBERS, size, |b, i| native::Sailing::new(i).write(b)),
            Shape::Numbers => batch(DEFAULT, size, numbers),
            Shape::Dates => batch(DEFAULT | GUESS_DATES, size, dates),
            Shape::MapMode => batch(DEFAULT, size, map),
            Shape::Deep => batch(DEFAULT, size, deep),
            Shape::Wide(width) => batch(DEFAULT, size, |b, _| wide(b, 0..width, name)),
            Shape::Alike(width) => batch(DEFAULT, size, |b, _| wide(b, 0..width, |i| format!("column_{i:04}"))),
            Shape::Shuffled(width) => batch(DEFAULT, size, |b, i| wide(b, shuffled(width, i), name)),
            Shape::Nested(width) => batch(DEFAULT, size, |b, _| nested(b, width)),
            Shape::SeenOnce => batch(DEFAULT, size, seen_once),
            Shape::Variants(width) => batch(DEFAULT, size, |b, i| variants(b, i, width)),
        }
    }
}

/// All that is measured.
pub fn all() -> Vec<(Shape, Size)> {
    let mut all = vec![
        (Shape::Typical, Size::Records(100)),
        (Shape::Typical, Size::Records(12)),
    ];
    for shape in [
        Shape::Typical,
        Shape::Numbers,
        Shape::Dates,
        Shape::MapMode,
        Shape::Deep,
        Shape::Wide(8),
        Shape::Wide(32),
    ] {
        all.extend([4, 16, 64].map(|size| (shape, Size::KiB(size))));
    }
    all.extend([2, 4, 16, 64, 128, 256, 512, 1_000].map(|width| (Shape::Wide(width), Size::KiB(64))));
    all.extend([8, 32, 64, 128, 256, 512, 1_000].map(|width| (Shape::Alike(width), Size::KiB(64))));
    all.extend([20, 64, 256, 1_000].map(|width| (Shape::Shuffled(width), Size::KiB(64))));
    all.extend([64, 256, 500].map(|width| (Shape::Nested(width), Size::KiB(64))));
    all.push((Shape::SeenOnce, Size::KiB(64)));
    all.extend([4, 32, 128].map(|width| (Shape::Variants(width), Size::KiB(64))));
    all
}
