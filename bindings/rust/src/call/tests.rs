//! The call on damaged and random input, over a table and buffers that hold a pattern, so that all it changes is seen.

#[path = "../../tests/common/mod.rs"]
mod common;

use super::{call, Answer};
use crate::schema::{Schema, RECORD};
use crate::{trace, Refusal, Refused, TracingOptions, Work, INPUT_LIMIT};
use common::{encode, trees, Random};

const TABLE: usize = 16_384;
/// Batches of each sort; each is put to the call two to five times.
const CASES: usize = 5_000;

/// The type byte of a Struct.
const STRUCT: u8 = 24;

const BYTE: u8 = 0xA5;
const WORD: u32 = 0xA5A5_A5A5;

struct Question {
    options: u16,
    commands: Vec<u8>,
    text: Vec<u8>,
}

/// What is lent. This, the commands and the text are allocations that are just as long as the call is told, so that valgrind sees
/// what is read or written past them.
struct Lent {
    table: Box<[u32]>,
    fields: Box<[u8]>,
    names: Box<[u8]>,
}

fn lend(table: usize, fields: usize, names: usize) -> Lent {
    Lent {
        table: vec![WORD; table].into(),
        fields: vec![BYTE; fields].into(),
        names: vec![BYTE; names].into(),
    }
}

fn ask(question: &Question, lent: &mut Lent) -> Answer {
    let commands: Box<[u8]> = question.commands.as_slice().into();
    let text: Box<[u8]> = question.text.as_slice().into();
    let Lent {
        table,
        fields,
        names,
    } = lent;
    call(question.options, &commands, &text, table, fields, names)
}

/// Whether all are the same as one: the first is, and each is as the one before it, which is fast to compare.
fn all_are<T: PartialEq>(all: &[T], one: T) -> bool {
    all.is_empty() || all[0] == one && all[1..] == all[..all.len() - 1]
}

/// What must hold of every answer.
fn check(answer: &Answer, lent: &Lent) {
    let (zeroed, rest) = lent.table.split_at(TABLE.min(lent.table.len()));
    let before_reading = (1..=3).contains(&answer.refusal);
    assert!(all_are(zeroed, if before_reading { WORD } else { 0 }));
    assert!(all_are(rest, WORD));

    let records = answer.field_records as usize * RECORD;
    let names = answer.name_bytes as usize;
    assert!(all_are(&lent.fields[records..], BYTE));
    assert!(all_are(&lent.names[names..], BYTE));
    if answer.refusal != 0 {
        assert_eq!((records, names, answer.columns), (0, 0, 0));
        return;
    }
    assert_eq!(answer.place, 0);
    let columns = lent.fields[..records]
        .chunks(RECORD)
        .filter(|record| record[6..] == [0, 0] && record[0] != STRUCT);
    assert_eq!(columns.count(), answer.columns as usize);
    let schema = Schema::new(
        &lent.fields[..records],
        &lent.names[..names],
        answer.columns as usize,
    );
    let lines = schema.to_string().lines().count();
    assert_eq!(lines, answer.field_records as usize);
}

/// The call with room enough, with a table one word short, and with buffers that just fit or are one byte short.
fn ask_all(question: &Question) -> Answer {
    let mut lent = lend(TABLE + 1, 4096, 4096);
    let answer = ask(question, &mut lent);
    check(&answer, &lent);

    let mut short = lend(TABLE - 1, 8, 8);
    let refused = ask(question, &mut short);
    check(&refused, &short);
    assert_eq!(refused.refusal, if answer.refusal == 1 { 1 } else { 2 });

    if answer.refusal == 0 {
        ask_tight(question, &answer, &lent);
    }
    answer
}

fn ask_tight(question: &Question, answer: &Answer, roomy: &Lent) {
    let records = answer.field_records as usize * RECORD;
    let names = answer.name_bytes as usize;
    let mut tight = lend(TABLE, records, names);
    assert_eq!(ask(question, &mut tight), *answer);
    check(answer, &tight);
    assert_eq!(*tight.fields, roomy.fields[..records]);
    assert_eq!(*tight.names, roomy.names[..names]);
    let shorter = [
        (records.checked_sub(1), Some(names)),
        (Some(records), names.checked_sub(1)),
    ];
    for (fields, names) in shorter {
        if let (Some(fields), Some(names)) = (fields, names) {
            let mut short = lend(TABLE, fields, names);
            let refused = ask(question, &mut short);
            check(&refused, &short);
            assert_eq!(refused.refusal, Refusal::ShortBuffer.number());
            assert_eq!(refused.place as usize, question.commands.len());
        }
    }
}

/// Mostly words with no unknown bit, and mostly those under which much is accepted.
fn options(random: &mut Random) -> u16 {
    match random.below(20) {
        0 => random.below(65_536) as u16,
        1..=6 => random.below(2048) as u16,
        _ => 30 + 64 + random.below(2) as u16,
    }
}

/// A batch of random records.
fn sound(random: &mut Random) -> Question {
    let records = encode(&trees(random));
    Question {
        options: options(random),
        commands: records.commands().to_vec(),
        text: records.text().to_vec(),
    }
}

/// The same with some bytes changed, cut off, put in or taken out.
fn damaged(random: &mut Random) -> Question {
    let mut question = sound(random);
    for _ in 0..=random.below(3) {
        let bytes = match random.below(4) {
            0 => &mut question.text,
            _ => &mut question.commands,
        };
        let byte = match random.below(4) {
            0 => random.below(256) as u8,
            _ => random.below(0x1D) as u8,
        };
        let at = random.below(bytes.len() + 1);
        match random.below(4) {
            0 => bytes.truncate(at),
            1 => bytes.insert(at, byte),
            _ if at == bytes.len() => bytes.push(byte),
            2 => bytes[at] = byte,
            _ => drop(bytes.remove(at)),
        }
    }
    question
}

/// Bytes that were never a batch: commands with operands that are mostly small.
fn noise(random: &mut Random) -> Question {
    let length = random.below(60);
    let commands = (0..length)
        .map(|_| match random.below(8) {
            0 => random.below(256) as u8,
            1 | 2 => 0,
            _ => random.below(0x1D) as u8,
        })
        .collect();
    let text = (0..random.below(40))
        .map(|_| match random.below(30) {
            0 => random.below(256) as u8,
            _ => *random.choose(b"abc.-:T0123456789"),
        })
        .collect();
    Question {
        options: options(random),
        commands,
        text,
    }
}

/// How often each refusal is said, accepted first.
fn tally(seed: u64, count: usize, question: fn(&mut Random) -> Question) -> [usize; 19] {
    let random = &mut Random::new(seed);
    let mut said = [0; 19];
    for _ in 0..count {
        let answer = ask_all(&question(random));
        said[answer.refusal as usize] += 1;
    }
    println!("{said:?}");
    said
}

#[test]
fn random_records() {
    let said = tally(1, CASES, sound);
    assert!(said[0] > 100 && said[4] == 0 && said[5] == 0);
}

#[test]
fn damaged_records() {
    let said = tally(2, CASES, damaged);
    assert!(said[0] > 10 && said[4] > 100 && said[5] > 100);
}

#[test]
fn random_bytes() {
    let said = tally(3, CASES, noise);
    assert!(said[4] > 100);
}

#[test]
fn lengths_at_the_limit() {
    let refusal = |commands, text, table| {
        let question = Question {
            options: 30,
            commands: vec![0x0F; commands],
            text: vec![b'x'; text],
        };
        let mut lent = lend(table, 0, 0);
        let answer = ask(&question, &mut lent);
        check(&answer, &lent);
        Refusal::from_number(answer.refusal)
    };
    let long = Some(Refusal::LongInput);
    let nulls = Some(Refusal::NullField);
    assert_eq!(refusal(INPUT_LIMIT, INPUT_LIMIT, TABLE), nulls);
    assert_eq!(refusal(INPUT_LIMIT + 1, 0, TABLE), long);
    assert_eq!(refusal(0, INPUT_LIMIT + 1, TABLE), long);
    assert_eq!(refusal(0, 0, 0), Some(Refusal::ShortTable));
}

#[test]
fn trace_answers_as_the_call_does() {
    let random = &mut Random::new(4);
    let work = &mut Work::new();
    for _ in 0..1_000 {
        let question = damaged(random);
        let mut lent = lend(TABLE, 4096, 4096);
        let answer = ask(&question, &mut lent);
        let options = TracingOptions::from_word(question.options);
        let expected = match Refusal::from_number(answer.refusal) {
            None => Ok(Schema::new(
                &lent.fields[..answer.field_records as usize * RECORD],
                &lent.names[..answer.name_bytes as usize],
                answer.columns as usize,
            )),
            Some(refusal) => Err(Refused {
                refusal,
                place: answer.place,
            }),
        };
        let traced = trace(options, &question.commands, &question.text, work);
        assert_eq!(traced, expected);
    }
}
