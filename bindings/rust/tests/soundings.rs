//! What document 01 says of examples, through the static library.

use fasthrom::{
    trace, DataType, Done, Field, Records, Refusal, Refused, Schema, Strategy, TracingOptions,
    Value, Work, Zone,
};

fn defaults() -> TracingOptions {
    TracingOptions::default()
}

fn traced(options: TracingOptions, records: &Records) -> Result<Schema, Refused> {
    trace(
        options,
        records.commands(),
        records.text(),
        &mut Work::new(),
    )
}

type Write = fn(Value<'_>) -> Done<'_>;

/// The values of one struct field over the records.
fn column(options: TracingOptions, values: &[Write]) -> Result<Field, Refusal> {
    let mut records = Records::new();
    for value in values {
        records
            .add(|record| record.structure(|fields| fields.field("column", value)))
            .unwrap();
    }
    let schema = traced(options, &records).map_err(|refused| refused.refusal)?;
    let [field] = schema.fields().try_into().expect("one field");
    Ok(field)
}

fn column_type(options: TracingOptions, values: &[Write]) -> Result<DataType, Refusal> {
    column(options, values).map(|field| field.data_type)
}

fn root(record: Write) -> Result<Schema, Refusal> {
    let mut records = Records::new();
    records.add(record).unwrap();
    traced(defaults().allow_null_fields(true), &records).map_err(|refused| refused.refusal)
}

#[test]
fn the_sounding() {
    let commands = [
        0x15, 0x16, 0, 0, 6, 0, 0x0B, 0x16, 6, 0, 4, 0, 0x0D, 6, 0, 4, 0, 0x17, 0x15, 0x16, 0, 0,
        6, 0, 0x08, 0x17,
    ];
    let options = TracingOptions::from_word(94);
    assert_eq!(options, defaults().coerce_numbers(true));
    let schema = trace(options, &commands, b"lengthname", &mut Work::new()).unwrap();
    assert_eq!(
        schema.records(),
        [11, 2, 0, 0, 6, 0, 0, 0, 13, 1, 0, 0, 4, 0, 0, 0]
    );
    assert_eq!(schema.names(), b"lengthname");
    assert_eq!(schema.columns(), 2);
    assert_eq!(
        schema.to_string(),
        "length: Float64, widened\nname: LargeUtf8, nullable\n"
    );
    let marks = schema.fields().into_iter().map(|f| (f.nullable, f.widened));
    assert!(marks.eq([(false, true), (true, false)]));

    // the encoder writes the same bytes
    let mut records = Records::new();
    records
        .add(|record| {
            record.structure(|fields| {
                fields.field("length", |v| v.f64());
                fields.field("name", |v| v.text("name"));
            })
        })
        .unwrap();
    records
        .add(|record| record.structure(|fields| fields.field("length", |v| v.u32())))
        .unwrap();
    assert_eq!(records.commands(), commands);
    assert_eq!(records.text(), b"lengthname");
}

#[test]
fn p1_to_p6_numbers() {
    let coerce = defaults().coerce_numbers(true);
    let (u8, u16, i8, f32): (Write, Write, Write, Write) =
        (|v| v.u8(), |v| v.u16(), |v| v.i8(), |v| v.f32());
    assert_eq!(column_type(defaults(), &[u8, u8]), Ok(DataType::UInt8));
    assert_eq!(column_type(coerce, &[u8, u16]), Ok(DataType::UInt64));
    assert_eq!(column_type(coerce, &[u8, i8]), Ok(DataType::Int64));
    assert_eq!(column_type(coerce, &[f32, f32]), Ok(DataType::Float32));
    assert_eq!(column_type(coerce, &[f32, i8]), Ok(DataType::Float64));
    assert_eq!(column_type(defaults(), &[u8, u16]), Err(Refusal::NoJoint));
}

/// Document 02, 1/14.
#[test]
fn columns_that_were_widened() {
    let widened = |options, values: &[Write]| {
        let field = column(options, values).unwrap();
        (field.data_type, field.nullable, field.widened)
    };
    let coerce = defaults().coerce_numbers(true);
    let (u8, u16, u32, f64): (Write, Write, Write, Write) =
        (|v| v.u8(), |v| v.u16(), |v| v.u32(), |v| v.f64());
    let (char, none, text, bool): (Write, Write, Write, Write) =
        (|v| v.char(), |v| v.none(), |v| v.text("five"), |v| v.bool());
    let (uint64, float64) = (DataType::UInt64, DataType::Float64);
    assert_eq!(widened(coerce, &[u16, f64]), (float64, false, true));
    assert_eq!(widened(coerce, &[f64, u32]), (float64, false, true));
    assert_eq!(widened(coerce, &[u8, none, u16]), (uint64, true, true));
    let null = widened(coerce, &[none, u8, u8]);
    assert_eq!(null, (DataType::UInt8, true, false));
    let one_type = widened(coerce, &[u32, char]);
    assert_eq!(one_type, (DataType::UInt32, false, false));
    let dictionary = DataType::DictionaryLargeUtf8;
    let strings = defaults()
        .string_dictionary_encoding(true)
        .allow_to_string(true);
    assert_eq!(widened(strings, &[text, bool]), (dictionary, false, true));
    let enums = defaults().enums_without_data_as_strings(true);
    let states: [Write; 2] = [|v| v.unit_variant(0, "a"), |v| v.unit_variant(1, "b")];
    assert_eq!(widened(enums, &states), (dictionary, false, false));
}

/// Document 02, 4/14.
#[test]
fn numbers_in_edition_2() {
    let edition_2 = defaults().edition_2(true);
    let coerce = edition_2.coerce_numbers(true);
    let to_string = coerce.allow_to_string(true);
    let (u8, u16, u32, i8): (Write, Write, Write, Write) =
        (|v| v.u8(), |v| v.u16(), |v| v.u32(), |v| v.i8());
    let (f32, f64, char, text): (Write, Write, Write, Write) =
        (|v| v.f32(), |v| v.f64(), |v| v.char(), |v| v.text("five"));
    assert_eq!(column_type(coerce, &[f64, u32]), Err(Refusal::NoJoint));
    assert_eq!(column_type(coerce, &[char, f32]), Err(Refusal::NoJoint));
    assert_eq!(column_type(coerce, &[u8, i8]), Ok(DataType::Int64));
    assert_eq!(column_type(coerce, &[f32, f64]), Ok(DataType::Float64));
    assert_eq!(column_type(coerce, &[u8, u16]), Ok(DataType::UInt64));
    assert_eq!(column_type(edition_2, &[u8, u16]), Err(Refusal::NoJoint));
    let between = column_type(to_string, &[u8, text, f64]);
    assert_eq!(between, Ok(DataType::LargeUtf8));
    let behind = column_type(to_string, &[u8, f64, text]);
    assert_eq!(behind, Err(Refusal::NoJoint));
}

#[test]
fn p7_and_p8_strings() {
    let to_string = defaults().allow_to_string(true);
    let (bool, text, i32): (Write, Write, Write) = (|v| v.bool(), |v| v.text("five"), |v| v.i32());
    let p7 = column_type(to_string, &[bool, text, i32]);
    assert_eq!(p7, Ok(DataType::LargeUtf8));
    let p8 = column_type(to_string, &[bool, i32, text]);
    assert_eq!(p8, Err(Refusal::NoJoint));
}

#[test]
fn p9_and_p10_dates() {
    let guess = defaults().guess_dates(true);
    let p9 = column_type(guess, &[|v| v.text("2024-01-02 03:04:05")]);
    assert_eq!(p9, Ok(DataType::LargeUtf8));
    let p10 = column_type(guess, &[|v| v.text("2024-01-02 03:04:05Z")]);
    assert_eq!(p10, Ok(DataType::Timestamp(Zone::Utc)));
}

#[test]
fn p11_and_p12_variants() {
    let p11 = column(
        defaults(),
        &[|v| v.newtype_variant(127, "last", |v| v.i32())],
    );
    let p11 = p11.unwrap();
    assert_eq!(p11.data_type, DataType::Union);
    assert_eq!(p11.children.len(), 128);
    let numbers = p11.children.iter().map(|child| child.variant);
    assert!(numbers.eq((0..128).map(Some)));
    let gap = &p11.children[0];
    assert_eq!(gap.strategy, Some(Strategy::UnknownVariant));
    assert!(gap.name.is_empty() && gap.nullable && gap.data_type == DataType::Null);
    let last = &p11.children[127];
    assert_eq!(
        (last.name.as_str(), last.data_type),
        ("last", DataType::Int32)
    );

    let p12 = column(
        defaults(),
        &[|v| v.newtype_variant(128, "past", |v| v.i32())],
    );
    assert_eq!(p12, Err(Refusal::TooManySlots));
}

#[test]
fn roots() {
    let empty = traced(defaults(), &Records::new());
    assert_eq!(empty.unwrap_err().refusal, Refusal::NullField);
    let empty = traced(defaults().allow_null_fields(true), &Records::new());
    assert_eq!(empty.unwrap_err().refusal, Refusal::NullRoot);
    let wrapped = root(|record| record.some(|v| v.structure(|_| ())));
    assert_eq!(wrapped, Err(Refusal::NullableRoot));
    assert_eq!(root(|record| record.bool()), Err(Refusal::RootNotStruct));
    let wrapped = root(|record| record.newtype_struct(|v| v.structure(|_| ())));
    assert_eq!(wrapped.unwrap().columns(), 0);
}

/// Document 02, 6/14: the board draws no column for a struct without fields.
#[test]
fn empty_structs_are_no_columns() {
    let columns = |remarks: Write| {
        let mut records = Records::new();
        records
            .add(|record| record.structure(|fields| fields.field("remarks", remarks)))
            .unwrap();
        let schema = traced(defaults().allow_null_fields(true), &records).unwrap();
        (schema.fields().len(), schema.columns())
    };
    assert_eq!(columns(|v| v.structure(|_| ())), (1, 0));
    assert_eq!(columns(|v| v.tuple(|_| ())), (1, 0));
    assert_eq!(columns(|v| v.map(|_| ())), (1, 0));
    assert_eq!(columns(|v| v.unit()), (1, 1));
}

/// Structs in structs, with the last value so many fields down.
fn nest(value: Value<'_>, levels: usize, last: Write) -> Done<'_> {
    match levels {
        0 => last(value),
        _ => value.structure(|fields| fields.field("in", |v| nest(v, levels - 1, last))),
    }
}

#[test]
fn depth() {
    let at = |levels, last: Write| {
        let mut records = Records::new();
        records.add(|record| nest(record, levels, last)).unwrap();
        traced(defaults(), &records).map_err(|refused| refused.refusal)
    };
    assert!(at(19, |v| v.structure(|_| ())).is_ok());
    assert_eq!(at(20, |v| v.structure(|_| ())), Err(Refusal::TooDeep));
    assert!(at(20, |v| v.bool()).is_ok());
}

#[test]
fn dates_and_plain_texts_do_not_meet() {
    let guess = defaults().guess_dates(true);
    let both = column_type(guess, &[|v| v.text("2024-01-02"), |v| v.text("soon")]);
    assert_eq!(both, Err(Refusal::NoJoint));
    assert_eq!(
        column_type(guess, &[|v| v.text("99:99:99")]),
        Ok(DataType::Time64)
    );
}

#[test]
fn options_have_the_bits_of_the_documents() {
    let off = TracingOptions::from_word(0);
    let all = [
        off.allow_null_fields(true),
        off.map_as_struct(true),
        off.sequence_as_large_list(true),
        off.string_as_large_utf8(true),
        off.bytes_as_large_binary(true),
        off.string_dictionary_encoding(true),
        off.coerce_numbers(true),
        off.allow_to_string(true),
        off.guess_dates(true),
        off.enums_without_data_as_strings(true),
        off.edition_2(true),
    ];
    for (bit, options) in all.into_iter().enumerate() {
        assert_eq!(options.word(), 1 << bit);
    }
    assert_eq!(defaults().word(), 30);
    let words = format!("{:?}", TracingOptions::from_word(2048 + 1024 + 64));
    assert_eq!(words, "{coerce_numbers, edition_2, bit 11}");
    assert_eq!(
        defaults().coerce_numbers(true).coerce_numbers(false),
        defaults()
    );
}

/// A sequence, a tuple, a map and a variant.
fn containers(record: Value<'_>) -> Done<'_> {
    record.structure(|fields| {
        fields.field("stops", |v| v.sequence(|items| items.item(|v| v.u16())));
        fields.field("size", |v| {
            v.tuple(|items| {
                items.item(|v| v.f32());
                items.item(|v| v.bytes());
            })
        });
        fields.field("fares", |v| {
            v.map(|entries| entries.entry(|k| k.text("car"), |v| v.some(|v| v.i64())))
        });
        fields.field("state", |v| v.newtype_variant(1, "Late", |v| v.char()));
    })
}

#[test]
fn one_of_each_container() {
    let mut records = Records::new();
    records.add(containers).unwrap();
    let schema = traced(defaults(), &records).unwrap();
    let listing = "\
stops: LargeList
  element: UInt16
size: Struct, TupleAsStruct
  0: Float32
  1: LargeBinary
fares: Struct, MapAsStruct
  car: Int64, nullable
state: Union
  variant 0 \"\": Null, nullable, UnknownVariant
  variant 1 Late: UInt32
";
    assert_eq!(schema.to_string(), listing);
    assert_eq!(schema.columns(), 6);

    let schema = traced(TracingOptions::from_word(0), &records).unwrap();
    let listing = schema.to_string();
    assert!(listing.starts_with("stops: List\n"), "{listing}");
    let map = "fares: Map\n  entries: Struct\n    key: Utf8\n    value: Int64, nullable\n";
    assert!(listing.contains(map), "{listing}");
}

#[test]
fn a_listing_has_a_line_a_field() {
    let mut records = Records::new();
    records
        .add(|r| r.structure(|f| f.field("Ærø's\nberth", |v| v.bool())))
        .unwrap();
    let schema = traced(defaults(), &records).unwrap();
    assert_eq!(schema.to_string(), "Ærø's\\nberth: Boolean\n");
    assert_eq!(schema.fields()[0].name, "Ærø's\nberth");
}

#[test]
fn equal_when_the_records_say_the_same() {
    let batch = |order: &[usize]| {
        let writers: [Write; 3] = [
            |v| {
                v.structure(|f| {
                    f.field("a", |v| v.u8());
                    f.field("b", |v| v.bool())
                })
            },
            |v| v.structure(|f| f.field("a", |v| v.f32())),
            |v| {
                v.structure(|f| {
                    f.field("a", |v| v.i16());
                    f.field("b", |v| v.none())
                })
            },
        ];
        let mut records = Records::new();
        for &i in order {
            records.add(writers[i]).unwrap();
        }
        traced(defaults().coerce_numbers(true), &records).unwrap()
    };
    assert_eq!(batch(&[0, 1, 2]), batch(&[2, 0, 1, 1]));
    assert_ne!(batch(&[0, 2]), batch(&[0]));
    assert!(format!("{:?}", batch(&[0])).contains("Boolean"));
}
