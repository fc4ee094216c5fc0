//! Random records, the same for the same seed.

use fasthrom::{Done, Records, Value};

/// xorshift64*: enough to choose tests by.
pub struct Random(u64);

impl Random {
    pub fn new(seed: u64) -> Self {
        Random(seed.wrapping_mul(0x9E37_79B9_7F4A_7C15) | 1)
    }

    /// A number below the limit.
    pub fn below(&mut self, limit: usize) -> usize {
        self.0 ^= self.0 >> 12;
        self.0 ^= self.0 << 25;
        self.0 ^= self.0 >> 27;
        (self.0.wrapping_mul(0x2545_F491_4F6C_DD1D) >> 33) as usize % limit
    }

    pub fn one_in(&mut self, count: usize) -> bool {
        self.below(count) == 0
    }

    pub fn choose<'a, T>(&mut self, from: &'a [T]) -> &'a T {
        &from[self.below(from.len())]
    }
}

/// Few names, so that places meet; one with a dot, one empty, one not ASCII, and texts that are dates.
const NAMES: [&str; 9] = [
    "a",
    "b",
    "length",
    "a.b",
    "",
    "Ærø",
    "2024-01-02",
    "03:04:05",
    "2024-01-02T03:04:05Z",
];

/// The commands that are one byte and one value.
const PLAIN: [u8; 15] = [0, 1, 2, 3, 4, 5, 6, 7, 8, 9, 10, 11, 12, 14, 15];

/// A value as the commands tell it.
#[derive(Clone, Debug, PartialEq, Eq)]
pub enum Tree {
    /// A command of one byte.
    Plain(u8),
    Text(String),
    Some(Box<Tree>),
    Newtype(Box<Tree>),
    Sequence(Vec<Tree>),
    Tuple(Vec<Tree>),
    Map(Vec<(Tree, Tree)>),
    Struct(Vec<(String, Tree)>),
    Unit(u16, String),
    NewtypeVariant(u16, String, Box<Tree>),
    TupleVariant(u16, String, Vec<Tree>),
    StructVariant(u16, String, Vec<(String, Tree)>),
}

fn name(random: &mut Random) -> String {
    random.choose(&NAMES).to_string()
}

fn items(random: &mut Random, levels: usize) -> Vec<Tree> {
    (0..random.below(4)).map(|_| tree(random, levels)).collect()
}

fn fields(random: &mut Random, levels: usize) -> Vec<(String, Tree)> {
    (0..random.below(4))
        .map(|_| (name(random), tree(random, levels)))
        .collect()
}

/// A random value with at most so many levels of containers.
pub fn tree(random: &mut Random, levels: usize) -> Tree {
    if levels == 0 || random.one_in(3) {
        return match random.below(4) {
            0 => Tree::Text(name(random)),
            _ => Tree::Plain(*random.choose(&PLAIN)),
        };
    }
    let number = random.below(3) as u16;
    let below = levels - 1;
    match random.below(11) {
        0 => Tree::Some(Box::new(tree(random, below))),
        1 => Tree::Newtype(Box::new(tree(random, below))),
        2 => Tree::Sequence(items(random, below)),
        3 => Tree::Tuple(items(random, below)),
        4 => Tree::Map(
            (0..random.below(3))
                .map(|_| (tree(random, below), tree(random, below)))
                .collect(),
        ),
        5 => Tree::Unit(number, name(random)),
        6 => Tree::NewtypeVariant(number, name(random), Box::new(tree(random, below))),
        7 => Tree::TupleVariant(number, name(random), items(random, below)),
        8 => Tree::StructVariant(number, name(random), fields(random, below)),
        _ => Tree::Struct(fields(random, below)),
    }
}

fn write_plain(byte: u8, value: Value<'_>) -> Done<'_> {
    match byte {
        0x00 => value.unit(),
        0x01 => value.bool(),
        0x02 => value.i8(),
        0x03 => value.i16(),
        0x04 => value.i32(),
        0x05 => value.i64(),
        0x06 => value.u8(),
        0x07 => value.u16(),
        0x08 => value.u32(),
        0x09 => value.u64(),
        0x0A => value.f32(),
        0x0B => value.f64(),
        0x0C => value.char(),
        0x0E => value.bytes(),
        0x0F => value.none(),
        _ => panic!("not a command of one byte: {byte}"),
    }
}

fn write_items(items: &[Tree], to: &mut fasthrom::Items<'_>) {
    items.iter().for_each(|item| to.item(|v| write(item, v)));
}

fn write_fields(fields: &[(String, Tree)], to: &mut fasthrom::Fields<'_>) {
    fields
        .iter()
        .for_each(|(name, value)| to.field(name, |v| write(value, v)));
}

/// Writes a value by the crate's encoder.
pub fn write<'a>(tree: &Tree, value: Value<'a>) -> Done<'a> {
    match tree {
        Tree::Plain(byte) => write_plain(*byte, value),
        Tree::Text(text) => value.text(text),
        Tree::Some(inner) => value.some(|v| write(inner, v)),
        Tree::Newtype(inner) => value.newtype_struct(|v| write(inner, v)),
        Tree::Sequence(all) => value.sequence(|to| write_items(all, to)),
        Tree::Tuple(all) => value.tuple(|to| write_items(all, to)),
        Tree::Map(all) => value.map(|to| {
            for (key, value) in all {
                to.entry(|v| write(key, v), |v| write(value, v));
            }
        }),
        Tree::Struct(all) => value.structure(|to| write_fields(all, to)),
        Tree::Unit(number, name) => value.unit_variant(*number, name),
        Tree::NewtypeVariant(number, name, inner) => {
            value.newtype_variant(*number, name, |v| write(inner, v))
        }
        Tree::TupleVariant(number, name, all) => {
            value.tuple_variant(*number, name, |to| write_items(all, to))
        }
        Tree::StructVariant(number, name, all) => {
            value.struct_variant(*number, name, |to| write_fields(all, to))
        }
    }
}

/// A batch of a few random records. Most are structs, which is what can be accepted.
pub fn trees(random: &mut Random) -> Vec<Tree> {
    (0..random.below(5))
        .map(|_| match random.below(8) {
            0 => tree(random, 4),
            _ => Tree::Struct(fields(random, 3)),
        })
        .collect()
}

pub fn encode(trees: &[Tree]) -> Records {
    let mut records = Records::new();
    for tree in trees {
        records
            .add(|record| write(tree, record))
            .expect("a short batch");
    }
    records
}
