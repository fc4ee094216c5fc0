//! Each refusal by a batch that has it, and what is said of it.

use fasthrom::{trace, Refusal, TracingOptions, Work, INPUT_LIMIT};

fn said(options: u16, commands: &[u8], text: &[u8]) -> (Refusal, String) {
    let options = TracingOptions::from_word(options);
    let refused = trace(options, commands, text, &mut Work::new()).unwrap_err();
    (refused.refusal, refused.to_string())
}

/// A record with one field, named by the text's first byte, whose value is given by commands.
fn field(value: &[u8]) -> Vec<u8> {
    [&[0x15, 0x16, 0, 0, 1, 0], value, &[0x17]].concat()
}

/// Two such records.
fn fields(first: &[u8], second: &[u8]) -> Vec<u8> {
    [field(first), field(second)].concat()
}

fn check(options: u16, commands: &[u8], refusal: Refusal, words: &str) {
    assert_eq!(said(options, commands, b"ab"), (refusal, words.to_string()));
}

#[test]
fn before_the_commands_are_read() {
    check(
        2048,
        &[],
        Refusal::UnknownOption,
        "an options bit above 10 is set",
    );
    check(
        30,
        &[0; INPUT_LIMIT + 1],
        Refusal::LongInput,
        "the commands or the text exceed 65,535 bytes",
    );
}

#[test]
fn no_batch() {
    let bad = "a command is unknown, cut off, or cannot stand there, at byte";
    let due = format!("{bad} 7 of the commands");
    check(30, &field(&[1])[..7], Refusal::BadCommand, &due);
    let unknown = format!("{bad} 6 of the commands");
    check(30, &field(&[0x1C]), Refusal::BadCommand, &unknown);
    let not_utf8 = "a name ends past the text, or is not UTF-8, at byte 1 of the commands";
    assert_eq!(
        said(30, &field(&[1]), &[0xFF]),
        (Refusal::BadName, not_utf8.to_string())
    );
    check(
        30,
        &field(&[0x14, 1, 1, 0x17]),
        Refusal::BadKey,
        "a map's key is not a text, as map_as_struct asks, at byte 7 of the commands",
    );
}

#[test]
fn where_values_meet() {
    check(
        30,
        &fields(&[1], &[0x12, 0x17]),
        Refusal::Mismatch,
        "a container meets another kind of container, or a value that is no container, \
         at byte 14 of the commands",
    );
    let (a, b) = ([0x18, 0, 0, 0, 0, 1, 0], [0x18, 0, 0, 1, 0, 1, 0]);
    check(
        30,
        &fields(&a, &b),
        Refusal::TwoNames,
        "a variant number has two names, at byte 20 of the commands",
    );
    check(
        30,
        &fields(&[6], &[7]),
        Refusal::NoJoint,
        "two types meet that have no type in common, at byte 14 of the commands",
    );
}

#[test]
fn past_a_bound() {
    let mut deep = vec![0x12; 21];
    deep.resize(42, 0x17);
    check(
        30,
        &deep,
        Refusal::TooDeep,
        "a container or a variant stands at depth 20 or more, at byte 20 of the commands",
    );
    // a first tuple makes all its positions at once
    let mut wide = vec![0x13, 0, 4];
    wide.resize(3 + 1024, 1);
    check(
        30,
        &wide,
        Refusal::TooManyPlaces,
        "there are more than 1,024 places, at byte 0 of the commands",
    );
}

#[test]
fn of_a_field() {
    check(
        30,
        &field(&[0]),
        Refusal::NullField,
        "a place was seen with nulls only or never, and allow_null_fields is off",
    );
    check(
        30,
        &field(&[0x18, 0, 0, 0, 0, 1, 0]),
        Refusal::DatalessUnion,
        "no variant of an enum has data, and neither enums_without_data_as_strings nor \
         allow_null_fields is on",
    );
    check(
        30,
        &field(&[0x19, 128, 0, 0, 0, 1, 0, 1]),
        Refusal::TooManySlots,
        "an enum has a variant number above 127",
    );
}

#[test]
fn of_the_root_and_the_buffers() {
    check(
        30,
        &[0x10, 0x15, 0x17],
        Refusal::NullableRoot,
        "a record is null or may be",
    );
    check(
        31,
        &[],
        Refusal::NullRoot,
        "there are no records, or only nulls",
    );
    check(
        30,
        &[1],
        Refusal::RootNotStruct,
        "the records are not structs",
    );
    let short = trace(
        TracingOptions::default(),
        &field(&[1]),
        b"a",
        &mut Work::fixed(7, 1),
    );
    assert_eq!(
        short.unwrap_err().to_string(),
        "the schema does not fit the buffers that were lent"
    );
    // a `Work` never lends a short table
    assert_eq!(
        Refusal::ShortTable.to_string(),
        "the work table has fewer than 16,384 words"
    );
}
