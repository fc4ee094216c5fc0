//! Asks the published Rust of serde_arrow 0.15.1 (see README.md). Byte strings are read and written as hexadecimal,
//! `-` for an empty one, a question to a line.

mod batch;
mod codes;
mod coerce;
mod commands;
mod hex;
mod internal;
mod listing;
mod texts;

use std::io::{self, BufWriter, Write};

const USAGE: &str = "usage: oracle texts | utf8 | coerce | batch [RECORD-BYTES NAME-BYTES] | list DIRECTORY";

/// A chain of 65,535 somes is 65,535 calls of the serializer, one inside another.
const STACK: usize = 1 << 30;

fn run(arguments: &[String]) -> io::Result<()> {
    let mut out = BufWriter::new(io::stdout().lock());
    match arguments.iter().map(String::as_str).collect::<Vec<_>>()[..] {
        ["texts"] => texts::matchers(&mut out)?,
        ["utf8"] => texts::utf8(&mut out)?,
        ["coerce"] => coerce::table(&mut out)?,
        ["batch"] => batch::answers(&mut out, usize::MAX, usize::MAX)?,
        ["batch", records, names] => {
            let length = |s: &str| s.parse().map_err(io::Error::other);
            batch::answers(&mut out, length(records)?, length(names)?)?
        }
        ["list", directory] => listing::list(&mut out, directory)?,
        _ => return Err(io::Error::other(USAGE)),
    }
    out.flush()
}

fn main() {
    let arguments: Vec<String> = std::env::args().skip(1).collect();
    let work = std::thread::Builder::new()
        .stack_size(STACK)
        .spawn(move || run(&arguments))
        .expect("a thread is started");
    match work.join() {
        Ok(Ok(())) => {}
        Ok(Err(error)) => {
            eprintln!("{error}");
            std::process::exit(1);
        }
        // it has said why
        Err(_) => std::process::exit(2),
    }
}
