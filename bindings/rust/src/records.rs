//! Records turned into the commands and the text that the call reads.

use std::collections::HashMap;
use std::error::Error;
use std::fmt;
use std::marker::PhantomData;

use crate::INPUT_LIMIT;

mod byte {
    pub const UNIT: u8 = 0x00;
    pub const BOOL: u8 = 0x01;
    pub const I8: u8 = 0x02;
    pub const I16: u8 = 0x03;
    pub const I32: u8 = 0x04;
    pub const I64: u8 = 0x05;
    pub const U8: u8 = 0x06;
    pub const U16: u8 = 0x07;
    pub const U32: u8 = 0x08;
    pub const U64: u8 = 0x09;
    pub const F32: u8 = 0x0A;
    pub const F64: u8 = 0x0B;
    pub const CHAR: u8 = 0x0C;
    pub const TEXT: u8 = 0x0D;
    pub const BYTES: u8 = 0x0E;
    pub const NONE: u8 = 0x0F;
    pub const SOME: u8 = 0x10;
    pub const NEWTYPE_STRUCT: u8 = 0x11;
    pub const SEQUENCE: u8 = 0x12;
    pub const TUPLE: u8 = 0x13;
    pub const MAP: u8 = 0x14;
    pub const STRUCT: u8 = 0x15;
    pub const FIELD: u8 = 0x16;
    pub const END: u8 = 0x17;
    pub const UNIT_VARIANT: u8 = 0x18;
    pub const NEWTYPE_VARIANT: u8 = 0x19;
    pub const TUPLE_VARIANT: u8 = 0x1A;
    pub const STRUCT_VARIANT: u8 = 0x1B;
}

/// A batch that grows record by record. Its commands and text are those of whole records.
///
/// Equal names and texts stand in the text once.
#[derive(Clone, Debug, Default)]
pub struct Records {
    commands: Vec<u8>,
    text: Vec<u8>,
    /// Where each name stands. The empty one needs no entry.
    offsets: HashMap<String, u16>,
    /// While a record is added: that it does not fit, and nothing more is written.
    full: Option<Full>,
}

impl Records {
    /// No records yet.
    pub fn new() -> Self {
        Records::default()
    }

    /// Adds a record, which the closure writes. One that would make commands or text longer than the call takes is refused,
    /// and the batch is as it was.
    pub fn add(&mut self, record: impl FnOnce(Value<'_>) -> Done<'_>) -> Result<(), Full> {
        let (commands, text) = (self.commands.len(), self.text.len());
        self.value(record);
        let Some(full) = self.full.take() else {
            return Ok(());
        };
        self.commands.truncate(commands);
        self.text.truncate(text);
        self.offsets.retain(|_, offset| usize::from(*offset) < text);
        Err(full)
    }

    /// The commands of all records.
    pub fn commands(&self) -> &[u8] {
        &self.commands
    }

    /// The names and texts that the commands speak of.
    pub fn text(&self) -> &[u8] {
        &self.text
    }

    /// Takes all records out, keeping the memory.
    pub fn clear(&mut self) {
        self.commands.clear();
        self.text.clear();
        self.offsets.clear();
    }

    fn command(&mut self, byte: u8, operands: &[u16]) {
        let length = self.commands.len() + 1 + 2 * operands.len();
        if length > INPUT_LIMIT {
            self.full.get_or_insert(Full::Commands);
        }
        if self.full.is_some() {
            return;
        }
        self.commands.push(byte);
        for operand in operands {
            self.commands.extend(operand.to_le_bytes());
        }
    }

    /// The offset and the length of a name, which is put into the text if it is not there.
    fn name(&mut self, name: &str) -> [u16; 2] {
        if name.is_empty() || self.full.is_some() {
            return [0, 0];
        }
        let end = self.text.len() + name.len();
        let offset = match self.offsets.get(name) {
            Some(&offset) => offset,
            None if end > INPUT_LIMIT => {
                self.full = Some(Full::Text);
                return [0, 0];
            }
            None => {
                let offset = self.text.len() as u16;
                self.text.extend_from_slice(name.as_bytes());
                self.offsets.insert(name.to_owned(), offset);
                offset
            }
        };
        // no conversion cuts anything off: what stands in the text ends within 65,535 bytes
        [offset, name.len() as u16]
    }

    fn value(&mut self, value: impl FnOnce(Value<'_>) -> Done<'_>) {
        value(Value { records: self });
    }

    fn variant(&mut self, byte: u8, number: u16, name: &str) {
        let [offset, length] = self.name(name);
        self.command(byte, &[number, offset, length]);
    }

    /// What follows a struct's command, or a struct variant's.
    fn fields(&mut self, fields: impl FnOnce(&mut Fields<'_>)) {
        fields(&mut Fields { records: self });
        self.command(byte::END, &[]);
    }

    /// What follows a tuple's command, or a tuple variant's, whose last operand says how many items there are.
    fn counted(&mut self, items: impl FnOnce(&mut Items<'_>)) {
        let end = self.commands.len();
        let mut tuple = Items {
            records: self,
            count: 0,
        };
        items(&mut tuple);
        let count = tuple.count;
        if self.full.is_none() {
            // an item has one byte at least, so there are no more than 65,535
            self.commands[end - 2..end].copy_from_slice(&(count as u16).to_le_bytes());
        }
    }
}

/// That a value was written. Only writing one gives it, and for that value alone, so a closure that is to write a value
/// writes just one. Anything else does not compile:
///
/// ```compile_fail
/// fasthrom::Records::new().add(|record| ()); // no value
/// ```
/// ```compile_fail
/// fasthrom::Records::new().add(|record| {
///     record.bool();
///     record.bool() // a second one
/// });
/// ```
/// ```compile_fail
/// fasthrom::Records::new().add(|record| {
///     let mut other = None;
///     fasthrom::Records::new().add(|inner| {
///         other = Some(inner.bool()); // another's
///         record.bool()
///     });
///     other.unwrap()
/// });
/// ```
pub struct Done<'a>(PhantomData<fn(&'a ()) -> &'a ()>);

/// Where a value is to be written. Of most values only the kind is told.
pub struct Value<'a> {
    records: &'a mut Records,
}

impl<'a> Value<'a> {
    fn done(self) -> Done<'a> {
        Done(PhantomData)
    }

    fn plain(self, byte: u8) -> Done<'a> {
        self.records.command(byte, &[]);
        self.done()
    }

    /// A unit or a unit struct.
    pub fn unit(self) -> Done<'a> {
        self.plain(byte::UNIT)
    }

    /// A bool.
    pub fn bool(self) -> Done<'a> {
        self.plain(byte::BOOL)
    }

    /// An i8.
    pub fn i8(self) -> Done<'a> {
        self.plain(byte::I8)
    }

    /// An i16.
    pub fn i16(self) -> Done<'a> {
        self.plain(byte::I16)
    }

    /// An i32.
    pub fn i32(self) -> Done<'a> {
        self.plain(byte::I32)
    }

    /// An i64.
    pub fn i64(self) -> Done<'a> {
        self.plain(byte::I64)
    }

    /// A u8.
    pub fn u8(self) -> Done<'a> {
        self.plain(byte::U8)
    }

    /// A u16.
    pub fn u16(self) -> Done<'a> {
        self.plain(byte::U16)
    }

    /// A u32.
    pub fn u32(self) -> Done<'a> {
        self.plain(byte::U32)
    }

    /// A u64.
    pub fn u64(self) -> Done<'a> {
        self.plain(byte::U64)
    }

    /// An f32.
    pub fn f32(self) -> Done<'a> {
        self.plain(byte::F32)
    }

    /// An f64.
    pub fn f64(self) -> Done<'a> {
        self.plain(byte::F64)
    }

    /// A char, which is traced as a number.
    pub fn char(self) -> Done<'a> {
        self.plain(byte::CHAR)
    }

    /// A text. It is told whole, since it may be a date or a key.
    pub fn text(self, text: &str) -> Done<'a> {
        let name = self.records.name(text);
        self.records.command(byte::TEXT, &name);
        self.done()
    }

    /// Bytes.
    pub fn bytes(self) -> Done<'a> {
        self.plain(byte::BYTES)
    }

    /// No value where there may be one.
    pub fn none(self) -> Done<'a> {
        self.plain(byte::NONE)
    }

    /// A value where there may be none.
    pub fn some(self, value: impl FnOnce(Value<'_>) -> Done<'_>) -> Done<'a> {
        self.records.command(byte::SOME, &[]);
        self.records.value(value);
        self.done()
    }

    /// A struct that wraps one value.
    pub fn newtype_struct(self, value: impl FnOnce(Value<'_>) -> Done<'_>) -> Done<'a> {
        self.records.command(byte::NEWTYPE_STRUCT, &[]);
        self.records.value(value);
        self.done()
    }

    /// A sequence.
    pub fn sequence(self, items: impl FnOnce(&mut Items<'_>)) -> Done<'a> {
        self.records.command(byte::SEQUENCE, &[]);
        items(&mut Items {
            records: self.records,
            count: 0,
        });
        self.plain(byte::END)
    }

    /// A tuple or a tuple struct.
    pub fn tuple(self, items: impl FnOnce(&mut Items<'_>)) -> Done<'a> {
        self.records.command(byte::TUPLE, &[0]);
        self.records.counted(items);
        self.done()
    }

    /// A map.
    pub fn map(self, entries: impl FnOnce(&mut Entries<'_>)) -> Done<'a> {
        self.records.command(byte::MAP, &[]);
        entries(&mut Entries {
            records: self.records,
        });
        self.plain(byte::END)
    }

    /// A struct.
    pub fn structure(self, fields: impl FnOnce(&mut Fields<'_>)) -> Done<'a> {
        self.records.command(byte::STRUCT, &[]);
        self.records.fields(fields);
        self.done()
    }

    /// A variant without data.
    pub fn unit_variant(self, number: u16, name: &str) -> Done<'a> {
        self.records.variant(byte::UNIT_VARIANT, number, name);
        self.done()
    }

    /// A variant that wraps one value.
    pub fn newtype_variant(
        self,
        number: u16,
        name: &str,
        value: impl FnOnce(Value<'_>) -> Done<'_>,
    ) -> Done<'a> {
        self.records.variant(byte::NEWTYPE_VARIANT, number, name);
        self.records.value(value);
        self.done()
    }

    /// A variant with positions.
    pub fn tuple_variant(
        self,
        number: u16,
        name: &str,
        items: impl FnOnce(&mut Items<'_>),
    ) -> Done<'a> {
        let [offset, length] = self.records.name(name);
        self.records
            .command(byte::TUPLE_VARIANT, &[number, offset, length, 0]);
        self.records.counted(items);
        self.done()
    }

    /// A variant with fields.
    pub fn struct_variant(
        self,
        number: u16,
        name: &str,
        fields: impl FnOnce(&mut Fields<'_>),
    ) -> Done<'a> {
        self.records.variant(byte::STRUCT_VARIANT, number, name);
        self.records.fields(fields);
        self.done()
    }
}

/// The items of a sequence or a tuple.
pub struct Items<'a> {
    records: &'a mut Records,
    count: usize,
}

impl Items<'_> {
    /// The next item.
    pub fn item(&mut self, value: impl FnOnce(Value<'_>) -> Done<'_>) {
        self.count += 1;
        self.records.value(value);
    }
}

/// The fields of a struct.
pub struct Fields<'a> {
    records: &'a mut Records,
}

impl Fields<'_> {
    /// The next field.
    pub fn field(&mut self, name: &str, value: impl FnOnce(Value<'_>) -> Done<'_>) {
        let name = self.records.name(name);
        self.records.command(byte::FIELD, &name);
        self.records.value(value);
    }
}

/// The entries of a map.
pub struct Entries<'a> {
    records: &'a mut Records,
}

impl Entries<'_> {
    /// The next entry. Under map_as_struct the key must be a text.
    pub fn entry(
        &mut self,
        key: impl FnOnce(Value<'_>) -> Done<'_>,
        value: impl FnOnce(Value<'_>) -> Done<'_>,
    ) {
        self.records.value(key);
        self.records.value(value);
    }
}

/// That a record does not fit any more.
#[derive(Clone, Copy, Debug, PartialEq, Eq, Hash)]
pub enum Full {
    /// The commands would exceed 65,535 bytes.
    Commands,
    /// The text would.
    Text,
}

impl fmt::Display for Full {
    fn fmt(&self, f: &mut fmt::Formatter<'_>) -> fmt::Result {
        let what = match self {
            Full::Commands => "commands",
            Full::Text => "text",
        };
        write!(
            f,
            "with this record the batch's {what} would exceed 65,535 bytes"
        )
    }
}

impl Error for Full {}
