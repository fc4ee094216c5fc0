//! Answers the questions of `oracle batch` in its format, by the call. For each question the call is made several times, with
//! buffers of several lengths and with a table that is too short; where something that must hold of every answer does
//! not, the line is `broken` and what it is.

mod call;
#[path = "../../oracle/src/hex.rs"]
mod hex;

use std::io::{self, BufRead, BufWriter, Write};

use call::{call, Answered, Broken, Lent, Question, TABLE};

/// The buffers of schema-list.
const USUAL: usize = 65_536;
/// No schema needs more: 2^18 field records, 2^27 name bytes.
const RECORDS: usize = 1 << 21;
const NAMES: usize = 1 << 27;

const UNKNOWN_OPTION: u32 = 1;
const SHORT_TABLE: u32 = 2;
const SHORT_BUFFER: u32 = 18;

fn refused(number: u32, place: usize) -> Answered {
    Answered::Refused {
        number,
        place: place as u32,
    }
}

fn expect(question: &Question, lent: Lent, wanted: &Answered, otherwise: Broken) -> Result<(), Broken> {
    if call(question, lent)? == *wanted {
        Ok(())
    } else {
        Err(otherwise)
    }
}

/// A schema needs just its own bytes of both buffers, and one byte less of either is too short.
fn check_buffers(question: &Question, schema: &Answered, fields: usize, names: usize) -> Result<(), Broken> {
    let table = TABLE;
    expect(question, Lent { table, fields, names }, schema, "another answer in buffers that just fit")?;
    let short = refused(SHORT_BUFFER, question.commands.len());
    for lent in [
        Lent { table, fields: fields.wrapping_sub(1), names },
        Lent { table, fields, names: names.wrapping_sub(1) },
    ] {
        if lent.fields != usize::MAX && lent.names != usize::MAX {
            expect(question, lent, &short, "a buffer one byte short is not refused")?;
        }
    }
    Ok(())
}

fn check_short_table(question: &Question) -> Result<(), Broken> {
    let number = if question.options >> 11 != 0 { UNKNOWN_OPTION } else { SHORT_TABLE };
    let lent = Lent { table: TABLE - 1, fields: 8, names: 8 };
    expect(question, lent, &refused(number, 0), "a table one word short is not refused")
}

fn answer(question: &Question) -> Result<Answered, Broken> {
    check_short_table(question)?;
    let usual = Lent { table: TABLE + 1, fields: USUAL, names: USUAL };
    let mut answered = call(question, usual)?;
    if answered == refused(SHORT_BUFFER, question.commands.len()) {
        answered = call(question, Lent { table: TABLE, fields: RECORDS, names: NAMES })?;
    }
    if let Answered::Schema { records, names, .. } = &answered {
        check_buffers(question, &answered, records.len(), names.len())?;
    }
    Ok(answered)
}

fn answer_line(line: &str, out: &mut impl Write) -> io::Result<()> {
    let words: Vec<&str> = line.split_whitespace().collect();
    let [options, commands, text] = words[..] else {
        return Err(io::Error::other(format!("not three words: {line}")));
    };
    let question = Question {
        options: u16::from_str_radix(options, 16).map_err(io::Error::other)?,
        commands: &hex::read(commands)?,
        text: &hex::read(text)?,
    };
    match answer(&question) {
        Ok(Answered::Schema { records, names, columns }) => {
            writeln!(out, "ok {} {} {columns}", hex::write(&records), hex::write(&names))
        }
        Ok(Answered::Refused { number, place }) => writeln!(out, "refused {number} {place}"),
        Err(broken) => writeln!(out, "broken {broken}"),
    }
}

fn main() -> io::Result<()> {
    let mut out = BufWriter::new(io::stdout().lock());
    for line in io::stdin().lock().lines() {
        answer_line(&line?, &mut out)?;
    }
    out.flush()
}
