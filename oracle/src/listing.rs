//! The listing of document 01's "Soundings", of the return in a folder, as `schema-list` gives it.

use std::fs;
use std::io::{self, Write};
use std::path::Path;

use crate::batch::{answer, Answer, Question};

const BUFFER: usize = 65_536;
const RECORD: usize = 8;

/// A line for each field record: level, type, nullable, strategy, variant, children, name.
fn records(out: &mut impl Write, answer: &Answer) -> io::Result<()> {
    // how many records are due at each level
    let mut due = vec![usize::MAX];
    let mut names = &answer.names[..];
    for record in answer.records.chunks_exact(RECORD) {
        let two = |at: usize| usize::from(u16::from_le_bytes([record[at], record[at + 1]]));
        let (name, rest) = names.split_at(two(4));
        names = rest;
        let [data_type, nullable, strategy, variant, ..] = *record else {
            unreachable!("a record has eight bytes")
        };
        let (level, children) = (due.len() - 1, two(6));
        write!(out, "{level} {data_type} {nullable} {strategy} {variant} {children} ")?;
        out.write_all(name)?;
        writeln!(out)?;
        due[level] -= 1;
        due.push(children);
        while due.last() == Some(&0) {
            due.pop();
        }
    }
    Ok(())
}

pub fn list(out: &mut impl Write, directory: &str) -> io::Result<()> {
    let read = |name: &str| {
        fs::read(Path::new(directory).join(name)).map_err(|error| io::Error::other(format!("{name}: {error}")))
    };
    let [low, high] = read("options.bin")?[..] else {
        return Err(io::Error::other("options.bin: not two bytes long"));
    };
    let (commands, text) = (read("commands.bin")?, read("text.bin")?);
    let question = Question::new(u16::from_le_bytes([low, high]), &commands, &text)?;
    match answer(&question, BUFFER, BUFFER) {
        Ok(answer) => {
            records(out, &answer)?;
            writeln!(out, "accepted {} {}", answer.records.len() / RECORD, answer.columns)
        }
        Err((number, place)) => writeln!(out, "refused {number} {place}"),
    }
}
