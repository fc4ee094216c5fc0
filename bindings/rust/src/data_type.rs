//! The types and strategies of field records.

use std::fmt;

/// Whether a timestamp has a zone.
#[derive(Clone, Copy, Debug, PartialEq, Eq, Hash)]
pub enum Zone {
    /// None is told.
    Naive,
    /// UTC.
    Utc,
}

/// The type of a field, by the names of Arrow.
#[derive(Clone, Copy, Debug, PartialEq, Eq, Hash)]
#[allow(missing_docs)] // Arrow's names say it
pub enum DataType {
    Null,
    Boolean,
    Int8,
    Int16,
    Int32,
    Int64,
    UInt8,
    UInt16,
    UInt32,
    UInt64,
    Float32,
    Float64,
    Utf8,
    LargeUtf8,
    Binary,
    LargeBinary,
    Date32,
    /// In nanoseconds.
    Time64,
    /// In milliseconds.
    Timestamp(Zone),
    /// UInt32 keys to Utf8.
    DictionaryUtf8,
    /// UInt32 keys to LargeUtf8.
    DictionaryLargeUtf8,
    List,
    LargeList,
    Struct,
    Map,
    /// Dense.
    Union,
}

impl DataType {
    /// All types in the order of their codes.
    pub const ALL: [DataType; 27] = [
        DataType::Null,
        DataType::Boolean,
        DataType::Int8,
        DataType::Int16,
        DataType::Int32,
        DataType::Int64,
        DataType::UInt8,
        DataType::UInt16,
        DataType::UInt32,
        DataType::UInt64,
        DataType::Float32,
        DataType::Float64,
        DataType::Utf8,
        DataType::LargeUtf8,
        DataType::Binary,
        DataType::LargeBinary,
        DataType::Date32,
        DataType::Time64,
        DataType::Timestamp(Zone::Naive),
        DataType::Timestamp(Zone::Utc),
        DataType::DictionaryUtf8,
        DataType::DictionaryLargeUtf8,
        DataType::List,
        DataType::LargeList,
        DataType::Struct,
        DataType::Map,
        DataType::Union,
    ];

    pub(crate) fn from_code(code: u8) -> Option<Self> {
        DataType::ALL.get(usize::from(code)).copied()
    }
}

impl fmt::Display for DataType {
    fn fmt(&self, f: &mut fmt::Formatter<'_>) -> fmt::Result {
        match self {
            DataType::Timestamp(Zone::Naive) => f.write_str("Timestamp(ms)"),
            DataType::Timestamp(Zone::Utc) => f.write_str("Timestamp(ms, UTC)"),
            DataType::Time64 => f.write_str("Time64(ns)"),
            DataType::DictionaryUtf8 => f.write_str("Dictionary(UInt32, Utf8)"),
            DataType::DictionaryLargeUtf8 => f.write_str("Dictionary(UInt32, LargeUtf8)"),
            plain => write!(f, "{plain:?}"),
        }
    }
}

/// How a field without a direct match in Arrow is to be read.
#[derive(Clone, Copy, Debug, PartialEq, Eq, Hash)]
pub enum Strategy {
    /// A Struct that stands for a tuple, with a field for each position.
    TupleAsStruct,
    /// A Struct that stands for a map, with a field for each key, in the order of the keys' bytes.
    MapAsStruct,
    /// A Null that stands for a variant that was never seen.
    UnknownVariant,
}

impl Strategy {
    /// All strategies in the order of their codes, which count from 1.
    pub const ALL: [Strategy; 3] = [
        Strategy::TupleAsStruct,
        Strategy::MapAsStruct,
        Strategy::UnknownVariant,
    ];

    /// The strategy that a code stands for; 0, that there is none.
    pub(crate) fn from_code(code: u8) -> Option<Option<Self>> {
        match code {
            0 => Some(None),
            code => Strategy::ALL.get(usize::from(code) - 1).copied().map(Some),
        }
    }
}
