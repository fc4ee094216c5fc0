//! The encoder: what it writes is read back, and it stops at 65,535 bytes.

mod common;

use common::{encode, trees, Random, Tree};
use fasthrom::{trace, Full, Records, TracingOptions, Work, INPUT_LIMIT};

/// Reads commands back, by document 01's words and by nothing that the encoder has.
struct Reader<'a> {
    commands: &'a [u8],
    text: &'a [u8],
}

impl Reader<'_> {
    fn byte(&mut self) -> u8 {
        let (byte, rest) = self.commands.split_first().expect("a command");
        self.commands = rest;
        *byte
    }

    fn operand(&mut self) -> u16 {
        u16::from(self.byte()) + 256 * u16::from(self.byte())
    }

    fn name(&mut self) -> String {
        let (offset, length) = (usize::from(self.operand()), usize::from(self.operand()));
        String::from_utf8(self.text[offset..offset + length].to_vec()).expect("UTF-8")
    }

    /// Whether the end of a container stands here; then it is read.
    fn ends(&mut self) -> bool {
        let ends = self.commands[0] == 0x17;
        if ends {
            self.byte();
        }
        ends
    }

    fn until_end<T>(&mut self, part: impl Fn(&mut Self) -> T) -> Vec<T> {
        let mut parts = Vec::new();
        while !self.ends() {
            parts.push(part(self));
        }
        parts
    }

    fn field(&mut self) -> (String, Tree) {
        assert_eq!(self.byte(), 0x16);
        (self.name(), self.value())
    }

    fn counted(&mut self) -> Vec<Tree> {
        (0..self.operand()).map(|_| self.value()).collect()
    }

    fn value(&mut self) -> Tree {
        match self.byte() {
            0x0D => Tree::Text(self.name()),
            0x10 => Tree::Some(Box::new(self.value())),
            0x11 => Tree::Newtype(Box::new(self.value())),
            0x12 => Tree::Sequence(self.until_end(Self::value)),
            0x13 => Tree::Tuple(self.counted()),
            0x14 => Tree::Map(self.until_end(|r| (r.value(), r.value()))),
            0x15 => Tree::Struct(self.until_end(Self::field)),
            0x18 => Tree::Unit(self.operand(), self.name()),
            0x19 => Tree::NewtypeVariant(self.operand(), self.name(), Box::new(self.value())),
            0x1A => Tree::TupleVariant(self.operand(), self.name(), self.counted()),
            0x1B => Tree::StructVariant(self.operand(), self.name(), self.until_end(Self::field)),
            byte => Tree::Plain(byte),
        }
    }
}

#[test]
fn random_records_are_read_back() {
    for seed in 0..3_000 {
        let written = trees(&mut Random::new(seed));
        let records = encode(&written);
        let mut reader = Reader {
            commands: records.commands(),
            text: records.text(),
        };
        let mut read = Vec::new();
        while !reader.commands.is_empty() {
            read.push(reader.value());
        }
        assert_eq!(read, written, "seed {seed}");
    }
}

#[test]
fn what_is_written_is_well_formed() {
    let mut work = Work::new();
    // a map's keys may be anything
    let options = TracingOptions::default().map_as_struct(false);
    for seed in 0..3_000 {
        let records = encode(&trees(&mut Random::new(seed)));
        if let Err(refused) = trace(options, records.commands(), records.text(), &mut work) {
            assert!(refused.refusal.number() > 6, "seed {seed}: {refused}");
        }
    }
}

#[test]
fn equal_names_share_an_offset() {
    let mut records = Records::new();
    for _ in 0..2 {
        records
            .add(|r| r.structure(|f| f.field("berth", |v| v.text("berth"))))
            .unwrap();
    }
    assert_eq!(records.text(), b"berth");
    let one = [0x15, 0x16, 0, 0, 5, 0, 0x0D, 0, 0, 5, 0, 0x17];
    assert_eq!(records.commands(), [one, one].concat());
    records.clear();
    assert!(records.commands().is_empty() && records.text().is_empty());
}

#[test]
fn commands_past_the_limit_are_refused_and_taken_back() {
    let mut records = Records::new();
    while records.commands().len() < INPUT_LIMIT - 1 {
        records
            .add(|r| r.tuple(|_| ()))
            .unwrap_or_else(|_| panic!());
    }
    // 65,535 is three times 21,845, and an empty tuple has three bytes
    assert_eq!(records.commands().len(), INPUT_LIMIT);
    let before = records.commands().to_vec();
    let refused = records.add(|r| {
        r.structure(|f| {
            f.field("new", |v| v.unit());
            f.field("newer", |v| v.tuple(|items| items.item(|v| v.u8())));
        })
    });
    assert_eq!(refused, Err(Full::Commands));
    assert_eq!(records.commands(), before);
    assert!(records.text().is_empty());
}

#[test]
fn texts_past_the_limit_are_refused_and_taken_back() {
    let mut records = Records::new();
    let long = "x".repeat(INPUT_LIMIT - 3);
    records.add(|r| r.text(&long)).unwrap();
    let refused = records.add(|r| {
        r.sequence(|items| {
            items.item(|v| v.text("abc"));
            items.item(|v| v.text("d"));
        })
    });
    assert_eq!(refused, Err(Full::Text));
    assert_eq!(records.text().len(), INPUT_LIMIT - 3);

    // what was taken back is not taken for there, and what fits still goes in
    records.add(|r| r.text("abc")).unwrap();
    assert_eq!(records.text().len(), INPUT_LIMIT);
    assert!(records.text().ends_with(b"abc"));
    records.add(|r| r.text(&long)).unwrap();
    records.add(|r| r.text("")).unwrap();
    assert_eq!(records.add(|r| r.text("d")), Err(Full::Text));

    let longer = "x".repeat(2 * INPUT_LIMIT);
    assert_eq!(Records::new().add(|r| r.text(&longer)), Err(Full::Text));
}

#[test]
fn tuples_count_their_items() {
    let mut records = Records::new();
    records
        .add(|r| {
            r.tuple(|items| {
                for _ in 0..258 {
                    items.item(|v| v.bool());
                }
            })
        })
        .unwrap();
    records
        .add(|r| r.tuple_variant(7, "moved", |items| items.item(|v| v.tuple(|_| ()))))
        .unwrap();
    assert_eq!(records.commands()[..3], [0x13, 2, 1]);
    let variant = [0x1A, 7, 0, 0, 0, 5, 0, 1, 0, 0x13, 0, 0];
    assert_eq!(records.commands()[3 + 258..], variant);
}
