//! Document 01's numbers for the Rust's types and options.

use marrow::datatypes::{DataType, TimeUnit};

use crate::internal::schema::TracingOptions;

/// The types that a sample's value can observe: codes 0 to 19.
pub fn primitive_types() -> Vec<DataType> {
    vec![
        DataType::Null,
        DataType::Boolean,
        DataType::Int8,
        DataType::Int16,
        DataType::Int32,
        DataType::Int64,
        DataType::UInt8,
        DataType::UInt16,
        DataType::UInt32,
        DataType::UInt64,
        DataType::Float32,
        DataType::Float64,
        DataType::Utf8,
        DataType::LargeUtf8,
        DataType::Binary,
        DataType::LargeBinary,
        DataType::Date32,
        DataType::Time64(TimeUnit::Nanosecond),
        DataType::Timestamp(TimeUnit::Millisecond, None),
        DataType::Timestamp(TimeUnit::Millisecond, Some(String::from("UTC"))),
    ]
}

/// The type byte of a field record.
pub fn code_of(data_type: &DataType) -> u8 {
    if let Some(code) = primitive_types().iter().position(|t| t == data_type) {
        return code as u8;
    }
    match data_type {
        DataType::Dictionary(key, value) if **key == DataType::UInt32 => match **value {
            DataType::Utf8 => 20,
            DataType::LargeUtf8 => 21,
            _ => panic!("a dictionary to {value:?}"),
        },
        DataType::List(_) => 22,
        DataType::LargeList(_) => 23,
        DataType::Struct(_) => 24,
        DataType::Map(_, false) => 25,
        DataType::Union(_, marrow::datatypes::UnionMode::Dense) => 26,
        other => panic!("document 01 has no code for {other:?}"),
    }
}

/// The options of an options word.
pub fn options(word: u16) -> TracingOptions {
    let bit = |n: u32| word >> n & 1 == 1;
    TracingOptions::new()
        .allow_null_fields(bit(0))
        .map_as_struct(bit(1))
        .sequence_as_large_list(bit(2))
        .strings_as_large_utf8(bit(3))
        .bytes_as_large_binary(bit(4))
        .string_dictionary_encoding(bit(5))
        .coerce_numbers(bit(6))
        .allow_to_string(bit(7))
        .guess_dates(bit(8))
        .enums_without_data_as_strings(bit(9))
}
