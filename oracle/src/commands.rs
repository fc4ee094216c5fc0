//! Commands (document 01, "Commands and texts") as Serde's calls. The reader of the commands gives refusals 4 and 5;
//! all else is the tracer's.
//!
//! A run can stop early, so that the places made so far can be counted. Each command has three points: its place is
//! reached; the variant that it names is there; it is done. Past the last point a value that is due is a none, which
//! makes no place, and contents end where they are.

use std::cell::{Cell, RefCell};
use std::collections::HashSet;

use serde::ser::{
    Error, SerializeMap, SerializeSeq, SerializeStruct, SerializeStructVariant, SerializeTuple, SerializeTupleVariant,
};
use serde::{Serialize, Serializer};

/// The points of a command.
pub const REACHED: usize = 0;
pub const VARIANT: usize = 1;
pub const DONE: usize = 2;
pub const POINTS: usize = 3;

const TEXT: u8 = 0x0D;
const LAST_VALUE: u8 = 0x15;
const FIELD: u8 = 0x16;
const END: u8 = 0x17;
const UNIT_VARIANT: u8 = 0x18;
const STRUCT_VARIANT: u8 = 0x1B;

/// A refusal's number and place.
pub type Refused = (u8, usize);

pub struct Batch<'a> {
    commands: &'a [u8],
    text: &'a [u8],
    map_as_struct: bool,
    /// The last point to go to.
    until: usize,
    /// Whether the run stopped there.
    stopped: Cell<bool>,
    /// The offset of the next command.
    at: Cell<usize>,
    /// The offsets of the commands read.
    read: RefCell<Vec<usize>>,
    /// What the reader refused.
    refused: Cell<Option<Refused>>,
}

/// One command taken apart; operands that it does not have are 0 and empty.
struct Command {
    code: u8,
    number: u32,
    name: &'static str,
    count: usize,
    /// How far to go with it.
    point: usize,
}

/// What can stand at a place.
#[derive(Clone, Copy)]
enum Due {
    Value,
    FieldOrEnd,
}

impl Due {
    fn allows(self, code: u8) -> bool {
        match self {
            Due::Value => code <= LAST_VALUE || (UNIT_VARIANT..=STRUCT_VARIANT).contains(&code),
            Due::FieldOrEnd => code == FIELD || code == END,
        }
    }
}

/// Serde wants the names of fields and variants to live forever.
fn forever(name: &str) -> &'static str {
    thread_local!(static NAMES: RefCell<HashSet<&'static str>> = RefCell::default());
    NAMES.with_borrow_mut(|names| match names.get(name) {
        Some(known) => known,
        None => {
            let made: &'static str = String::from(name).leak();
            names.insert(made);
            made
        }
    })
}

impl<'a> Batch<'a> {
    pub fn new(commands: &'a [u8], text: &'a [u8], map_as_struct: bool, until: usize) -> Self {
        Batch {
            commands,
            text,
            map_as_struct,
            until,
            stopped: Cell::new(false),
            at: Cell::new(0),
            read: RefCell::default(),
            refused: Cell::new(None),
        }
    }

    /// The offsets of the commands read.
    pub fn into_read(self) -> Vec<usize> {
        self.read.into_inner()
    }

    /// The place of the command read last.
    pub fn last(&self) -> usize {
        self.read.borrow().last().copied().unwrap_or(0)
    }

    pub fn refused(&self) -> Option<Refused> {
        self.refused.get()
    }

    /// Whether the run goes to this point of the next command; if not, it has stopped.
    fn goes_to(&self, point: usize) -> bool {
        if self.read.borrow().len() * POINTS + point > self.until {
            self.stopped.set(true);
        }
        !self.stopped.get()
    }

    fn is_at_end(&self) -> bool {
        self.at.get() == self.commands.len()
    }

    fn refuse(&self, number: u8, place: usize) -> Refused {
        self.refused.set(Some((number, place)));
        (number, place)
    }

    /// The next command; 4 before 5.
    fn command(&self, due: Due) -> Result<Command, Refused> {
        let at = self.at.get();
        let Some(&code) = self.commands.get(at) else {
            return Err(self.refuse(4, at));
        };
        if !due.allows(code) {
            return Err(self.refuse(4, at));
        }
        let (has_number, has_name, has_count) = match code {
            TEXT | FIELD => (false, true, false),
            0x13 => (false, false, true),
            0x1A => (true, true, true),
            UNIT_VARIANT..=STRUCT_VARIANT => (true, true, false),
            _ => (false, false, false),
        };
        let mut operands = self.commands[at + 1..].chunks_exact(2);
        let mut operand = |has: bool| match has {
            true => operands
                .next()
                .map(|low_high| usize::from(low_high[0]) + 256 * usize::from(low_high[1])),
            false => Some(0),
        };
        let (Some(number), Some(offset), Some(length), Some(count)) = (
            operand(has_number),
            operand(has_name),
            operand(has_name),
            operand(has_count),
        ) else {
            return Err(self.refuse(4, at));
        };
        let name = self
            .text
            .get(offset..offset + length)
            .and_then(|bytes| std::str::from_utf8(bytes).ok());
        let name = match name {
            Some(name) => forever(name),
            None if has_name => return Err(self.refuse(5, at)),
            None => "",
        };
        let mut read = self.read.borrow_mut();
        let point = DONE.min(self.until - read.len() * POINTS);
        read.push(at);
        self.at
            .set(at + 1 + 2 * (usize::from(has_number) + 2 * usize::from(has_name) + usize::from(has_count)));
        Ok(Command {
            code,
            number: number as u32,
            name,
            count,
            point,
        })
    }

    /// Reads an end, if one stands here.
    fn is_end(&self) -> bool {
        self.commands.get(self.at.get()) == Some(&END) && self.command(Due::FieldOrEnd).is_ok()
    }

    /// Fields up to the end, each handed to `field`.
    fn fields<E: Error>(&self, mut field: impl FnMut(&'static str, &Value) -> Result<(), E>) -> Result<(), E> {
        while self.goes_to(DONE) {
            let command = self.command(Due::FieldOrEnd).map_err(custom)?;
            if command.code == END {
                break;
            }
            field(command.name, &Value(self))?;
        }
        Ok(())
    }

    /// So many values, each handed to `value`.
    fn values<E: Error>(&self, count: usize, mut value: impl FnMut(&Value) -> Result<(), E>) -> Result<(), E> {
        for _ in 0..count {
            if !self.goes_to(REACHED) {
                break;
            }
            value(&Value(self))?;
        }
        Ok(())
    }

    fn map<M: SerializeMap>(&self, map: &mut M) -> Result<(), M::Error> {
        // under map_as_struct a none for the key would itself be an error
        let point = if self.map_as_struct { DONE } else { REACHED };
        while self.goes_to(point) && !self.is_end() {
            map.serialize_key(&Value(self))?;
            map.serialize_value(&Value(self))?;
        }
        Ok(())
    }
}

fn custom<E: Error>((number, place): Refused) -> E {
    E::custom(format!("refusal {number} at {place}"))
}

/// All records.
pub struct Records<'a, 'b>(pub &'b Batch<'a>);

impl Serialize for Records<'_, '_> {
    fn serialize<S: Serializer>(&self, s: S) -> Result<S::Ok, S::Error> {
        let mut records = s.serialize_seq(None)?;
        while self.0.goes_to(REACHED) && !self.0.is_at_end() {
            records.serialize_element(&Value(self.0))?;
        }
        records.end()
    }
}

/// A none.
struct Nothing;

impl Serialize for Nothing {
    fn serialize<S: Serializer>(&self, s: S) -> Result<S::Ok, S::Error> {
        s.serialize_none()
    }
}

/// The value that stands next in the commands.
struct Value<'a, 'b>(&'b Batch<'a>);

impl Serialize for Value<'_, '_> {
    fn serialize<S: Serializer>(&self, s: S) -> Result<S::Ok, S::Error> {
        let batch = self.0;
        if !batch.goes_to(REACHED) {
            return Nothing.serialize(s);
        }
        let Command {
            code,
            number,
            name,
            count,
            point,
        } = batch.command(Due::Value).map_err(custom)?;
        if point == VARIANT && code >= UNIT_VARIANT {
            return s.serialize_newtype_variant("", number, name, &Nothing);
        }
        if point != DONE {
            return Nothing.serialize(s);
        }
        match code {
            0x00 => s.serialize_unit(),
            0x01 => s.serialize_bool(false),
            0x02 => s.serialize_i8(0),
            0x03 => s.serialize_i16(0),
            0x04 => s.serialize_i32(0),
            0x05 => s.serialize_i64(0),
            0x06 => s.serialize_u8(0),
            0x07 => s.serialize_u16(0),
            0x08 => s.serialize_u32(0),
            0x09 => s.serialize_u64(0),
            0x0A => s.serialize_f32(0.0),
            0x0B => s.serialize_f64(0.0),
            0x0C => s.serialize_char('0'),
            TEXT => s.serialize_str(name),
            0x0E => s.serialize_bytes(&[]),
            0x0F => s.serialize_none(),
            0x10 => s.serialize_some(&Value(batch)),
            0x11 => s.serialize_newtype_struct("", &Value(batch)),
            0x12 => {
                let mut sequence = s.serialize_seq(None)?;
                while batch.goes_to(REACHED) && !batch.is_end() {
                    sequence.serialize_element(&Value(batch))?;
                }
                sequence.end()
            }
            0x13 => {
                let mut tuple = s.serialize_tuple(count)?;
                batch.values(count, |value| tuple.serialize_element(value))?;
                tuple.end()
            }
            0x14 => {
                let mut map = s.serialize_map(None)?;
                batch.map(&mut map)?;
                map.end()
            }
            0x15 => {
                let mut fields = s.serialize_struct("", 0)?;
                batch.fields(|name, value| fields.serialize_field(name, value))?;
                fields.end()
            }
            UNIT_VARIANT => s.serialize_unit_variant("", number, name),
            0x19 => s.serialize_newtype_variant("", number, name, &Value(batch)),
            0x1A => {
                let mut tuple = s.serialize_tuple_variant("", number, name, count)?;
                batch.values(count, |value| tuple.serialize_field(value))?;
                tuple.end()
            }
            STRUCT_VARIANT => {
                let mut fields = s.serialize_struct_variant("", number, name, 0)?;
                batch.fields(|name, value| fields.serialize_field(name, value))?;
                fields.end()
            }
            _ => unreachable!("the reader allows values only"),
        }
    }
}
