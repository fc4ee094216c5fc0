//! The published Rust, driven by the same commands. They are taken apart before anything is measured, so that the Rust is
//! handed kinds and names that are known to be UTF-8, as it would be by values of its own.

use std::cell::Cell;
use std::collections::HashSet;

use serde::ser::{
    SerializeMap, SerializeSeq, SerializeStruct, SerializeStructVariant, SerializeTuple, SerializeTupleVariant,
};
use serde::{Serialize, Serializer};

use crate::shapes::Batch;

enum Command {
    Unit,
    Bool,
    I8,
    I16,
    I32,
    I64,
    U8,
    U16,
    U32,
    U64,
    F32,
    F64,
    Char,
    Text(&'static str),
    Bytes,
    None,
    Some,
    Newtype,
    Sequence,
    Tuple(usize),
    Map,
    Struct,
    Field(&'static str),
    End,
    UnitVariant(u32, &'static str),
    NewtypeVariant(u32, &'static str),
    TupleVariant(u32, &'static str, usize),
    StructVariant(u32, &'static str),
}

/// Takes a batch's bytes apart. Serde wants the names of fields and variants to live forever, and so the text does; equal names are
/// handed as one.
struct Reader<'a> {
    batch: &'a Batch,
    text: &'static [u8],
    at: usize,
    known: HashSet<&'static str>,
}

impl<'a> Reader<'a> {
    fn operand(&mut self) -> usize {
        self.at += 2;
        usize::from(u16::from_le_bytes([
            self.batch.commands[self.at - 2],
            self.batch.commands[self.at - 1],
        ]))
    }

    fn name(&mut self) -> &'static str {
        let (offset, length) = (self.operand(), self.operand());
        let name = std::str::from_utf8(&self.text[offset..offset + length]).expect("shapes are UTF-8");
        let known = self.known.get(name).copied();
        known.unwrap_or_else(|| {
            self.known.insert(name);
            name
        })
    }

    fn command(&mut self) -> Command {
        self.at += 1;
        match self.batch.commands[self.at - 1] {
            0x00 => Command::Unit,
            0x01 => Command::Bool,
            0x02 => Command::I8,
            0x03 => Command::I16,
            0x04 => Command::I32,
            0x05 => Command::I64,
            0x06 => Command::U8,
            0x07 => Command::U16,
            0x08 => Command::U32,
            0x09 => Command::U64,
            0x0A => Command::F32,
            0x0B => Command::F64,
            0x0C => Command::Char,
            0x0D => Command::Text(self.name()),
            0x0E => Command::Bytes,
            0x0F => Command::None,
            0x10 => Command::Some,
            0x11 => Command::Newtype,
            0x12 => Command::Sequence,
            0x13 => Command::Tuple(self.operand()),
            0x14 => Command::Map,
            0x15 => Command::Struct,
            0x16 => Command::Field(self.name()),
            0x17 => Command::End,
            0x18 => Command::UnitVariant(self.operand() as u32, self.name()),
            0x19 => Command::NewtypeVariant(self.operand() as u32, self.name()),
            0x1A => Command::TupleVariant(self.operand() as u32, self.name(), self.operand()),
            0x1B => Command::StructVariant(self.operand() as u32, self.name()),
            byte => panic!("no command {byte:02x}"),
        }
    }
}

/// The records of a batch, and how far they are read.
pub struct Records {
    commands: Vec<Command>,
    at: Cell<usize>,
}

impl Records {
    pub fn new(batch: &Batch) -> Self {
        let mut reader = Reader {
            batch,
            text: batch.text.clone().leak(),
            at: 0,
            known: HashSet::new(),
        };
        let mut commands = Vec::new();
        while reader.at < batch.commands.len() {
            commands.push(reader.command());
        }
        Records {
            commands,
            at: Cell::new(0),
        }
    }

    pub fn count(&self) -> usize {
        self.commands.len()
    }

    /// The names and texts, each as often as it is handed.
    pub fn parts(&self) -> impl Iterator<Item = &'static str> + '_ {
        self.commands.iter().filter_map(|command| match *command {
            Command::Text(part) | Command::Field(part) => Some(part),
            Command::UnitVariant(_, part) | Command::NewtypeVariant(_, part) => Some(part),
            Command::TupleVariant(_, part, _) | Command::StructVariant(_, part) => Some(part),
            _ => None,
        })
    }

    fn next(&self) -> &Command {
        let at = self.at.get();
        self.at.set(at + 1);
        &self.commands[at]
    }

    /// Reads an end, if one stands here.
    fn is_end(&self) -> bool {
        let at = self.at.get();
        match self.commands[at] {
            Command::End => {
                self.at.set(at + 1);
                true
            }
            _ => false,
        }
    }

    /// Fields up to the end, each handed to `field`.
    fn fields<E>(&self, mut field: impl FnMut(&'static str, &Value) -> Result<(), E>) -> Result<(), E> {
        while let Command::Field(name) = self.next() {
            field(name, &Value(self))?;
        }
        Ok(())
    }
}

impl Serialize for Records {
    fn serialize<S: Serializer>(&self, s: S) -> Result<S::Ok, S::Error> {
        self.at.set(0);
        let mut records = s.serialize_seq(None)?;
        while self.at.get() < self.commands.len() {
            records.serialize_element(&Value(self))?;
        }
        records.end()
    }
}

/// The value that stands next.
struct Value<'a>(&'a Records);

impl Serialize for Value<'_> {
    fn serialize<S: Serializer>(&self, s: S) -> Result<S::Ok, S::Error> {
        let records = self.0;
        match *records.next() {
            Command::Unit => s.serialize_unit(),
            Command::Bool => s.serialize_bool(false),
            Command::I8 => s.serialize_i8(0),
            Command::I16 => s.serialize_i16(0),
            Command::I32 => s.serialize_i32(0),
            Command::I64 => s.serialize_i64(0),
            Command::U8 => s.serialize_u8(0),
            Command::U16 => s.serialize_u16(0),
            Command::U32 => s.serialize_u32(0),
            Command::U64 => s.serialize_u64(0),
            Command::F32 => s.serialize_f32(0.0),
            Command::F64 => s.serialize_f64(0.0),
            Command::Char => s.serialize_char('0'),
            Command::Text(text) => s.serialize_str(text),
            Command::Bytes => s.serialize_bytes(&[]),
            Command::None => s.serialize_none(),
            Command::Some => s.serialize_some(&Value(records)),
            Command::Newtype => s.serialize_newtype_struct("", &Value(records)),
            Command::Sequence => {
                let mut sequence = s.serialize_seq(None)?;
                while !records.is_end() {
                    sequence.serialize_element(&Value(records))?;
                }
                sequence.end()
            }
            Command::Tuple(count) => {
                let mut tuple = s.serialize_tuple(count)?;
                for _ in 0..count {
                    tuple.serialize_element(&Value(records))?;
                }
                tuple.end()
            }
            Command::Map => {
                let mut map = s.serialize_map(None)?;
                while !records.is_end() {
                    map.serialize_entry(&Value(records), &Value(records))?;
                }
                map.end()
            }
            Command::Struct => {
                let mut fields = s.serialize_struct("", 0)?;
                records.fields(|name, value| fields.serialize_field(name, value))?;
                fields.end()
            }
            Command::UnitVariant(number, name) => s.serialize_unit_variant("", number, name),
            Command::NewtypeVariant(number, name) => s.serialize_newtype_variant("", number, name, &Value(records)),
            Command::TupleVariant(number, name, count) => {
                let mut tuple = s.serialize_tuple_variant("", number, name, count)?;
                for _ in 0..count {
                    tuple.serialize_field(&Value(records))?;
                }
                tuple.end()
            }
            Command::StructVariant(number, name) => {
                let mut fields = s.serialize_struct_variant("", number, name, 0)?;
                records.fields(|name, value| fields.serialize_field(name, value))?;
                fields.end()
            }
            Command::Field(_) | Command::End => unreachable!("shapes are well-formed"),
        }
    }
}
