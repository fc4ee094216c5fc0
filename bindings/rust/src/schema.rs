//! What a batch was traced to.

use std::fmt::{self, Write};

use crate::data_type::{DataType, Strategy};

/// Bytes of a field record.
pub(crate) const RECORD: usize = 8;

/// Bits of its nullable byte.
const NULLABLE: u8 = 1;
const WIDENED: u8 = 2;

/// A schema: the field records and the names that the call gave.
///
/// Two schemas are equal when their bytes are, which is the equality that the library's theorem speaks of: it holds exactly
/// when a census of the one batch's records says the same as that of the other's. The order of struct fields counts.
#[derive(Clone, PartialEq, Eq, Hash)]
pub struct Schema {
    records: Vec<u8>,
    names: Vec<u8>,
    // told by the records, so that comparing it too changes nothing
    columns: usize,
}

impl Schema {
    pub(crate) fn new(records: &[u8], names: &[u8], columns: usize) -> Self {
        Schema {
            records: records.to_vec(),
            names: names.to_vec(),
            columns,
        }
    }

    /// The field records, eight bytes each, as they are kept and compared.
    pub fn records(&self) -> &[u8] {
        &self.records
    }

    /// The names of all field records, one after another.
    pub fn names(&self) -> &[u8] {
        &self.names
    }

    /// How many fields have no children and are not Struct: a struct without fields is no column.
    pub fn columns(&self) -> usize {
        self.columns
    }

    /// The fields under the root, as a tree.
    pub fn fields(&self) -> Vec<Field> {
        let mut reader = Reader {
            records: &self.records,
            names: &self.names,
        };
        let mut fields = Vec::new();
        while !reader.records.is_empty() {
            fields.push(reader.field(false));
        }
        fields
    }
}

/// One line a field, those below it further in.
impl fmt::Display for Schema {
    fn fmt(&self, f: &mut fmt::Formatter<'_>) -> fmt::Result {
        self.fields().iter().try_for_each(|field| field.list(f, 0))
    }
}

impl fmt::Debug for Schema {
    fn fmt(&self, f: &mut fmt::Formatter<'_>) -> fmt::Result {
        f.debug_struct("Schema")
            .field("fields", &self.fields())
            .field("columns", &self.columns)
            .finish()
    }
}

/// A field of a schema, with all below it.
#[derive(Clone, Debug, PartialEq, Eq, Hash)]
pub struct Field {
    /// As the records spell it, or one of those that containers give: `element`, `key`, `value`, `entries`, a position.
    /// Empty for a variant that was never seen.
    pub name: String,
    /// The type.
    pub data_type: DataType,
    /// Whether a value may be missing.
    pub nullable: bool,
    /// Whether the values there were of two or more types, Null not counted: `data_type` is the one that they have in common.
    pub widened: bool,
    /// How it is to be read, where Arrow has no direct match.
    pub strategy: Option<Strategy>,
    /// Of a union's child, the number of the variant.
    pub variant: Option<u8>,
    /// The fields below it, in order.
    pub children: Vec<Field>,
}

impl Field {
    fn list(&self, f: &mut fmt::Formatter<'_>, level: usize) -> fmt::Result {
        write!(f, "{:1$}", "", 2 * level)?;
        if let Some(number) = self.variant {
            write!(f, "variant {number} ")?;
        }
        self.list_name(f)?;
        write!(f, ": {}", self.data_type)?;
        if self.nullable {
            f.write_str(", nullable")?;
        }
        if self.widened {
            f.write_str(", widened")?;
        }
        if let Some(strategy) = self.strategy {
            write!(f, ", {strategy:?}")?;
        }
        writeln!(f)?;
        self.children
            .iter()
            .try_for_each(|child| child.list(f, level + 1))
    }

    /// The name on one line, whatever it holds.
    fn list_name(&self, f: &mut fmt::Formatter<'_>) -> fmt::Result {
        if self.name.is_empty() {
            return f.write_str("\"\"");
        }
        self.name.chars().try_for_each(|letter| {
            if letter.is_control() {
                write!(f, "{}", letter.escape_default())
            } else {
                f.write_char(letter)
            }
        })
    }
}

/// Reads fields in preorder off what is left of the bytes. The library is proved to give whole fields with names that are
/// UTF-8, so what would be otherwise is a fault here and no matter of input.
struct Reader<'a> {
    records: &'a [u8],
    names: &'a [u8],
}

impl Reader<'_> {
    fn field(&mut self, in_union: bool) -> Field {
        let (record, rest) = self
            .records
            .split_first_chunk::<RECORD>()
            .expect("as many field records as are counted");
        self.records = rest;
        let &[code, nullable, strategy, variant, ..] = record;
        let name_length = u16::from_le_bytes([record[4], record[5]]);
        let child_count = u16::from_le_bytes([record[6], record[7]]);
        let name = self.name(usize::from(name_length));
        let data_type = DataType::from_code(code).expect("a type's code");
        let children = (0..child_count)
            .map(|_| self.field(data_type == DataType::Union))
            .collect();
        Field {
            name,
            data_type,
            nullable: nullable & NULLABLE != 0,
            widened: nullable & WIDENED != 0,
            strategy: Strategy::from_code(strategy).expect("a strategy's code"),
            variant: in_union.then_some(variant),
            children,
        }
    }

    fn name(&mut self, length: usize) -> String {
        let (name, rest) = self.names.split_at(length);
        self.names = rest;
        String::from_utf8(name.to_vec()).expect("a name in UTF-8")
    }
}
