//! The four matchers of chrono.rs with the type that a text observes, and from_utf8.

use std::io::{self, BufRead, Write};

use crate::codes;
use crate::hex;
use crate::internal::chrono;
use crate::internal::schema::tracer::Tracer;

const STRING_AS_LARGE_UTF8: u16 = 1 << 3;
const GUESS_DATES: u16 = 1 << 8;

/// The type byte of the one text that a root has seen.
fn observed(text: &str, word: u16) -> u8 {
    let tracer = Tracer::from_samples([text], codes::options(word)).expect("a text is traced");
    let Tracer::Primitive(tracer) = tracer else {
        panic!("a text observed {:?}", tracer.get_type());
    };
    codes::code_of(&tracer.item_type)
}

/// For each text: naive datetime, UTC datetime, time, date as digits 0 or 1; then the type observed under guess_dates,
/// without and with string_as_large_utf8. For bytes that are no text: `-`.
pub fn matchers(out: &mut impl Write) -> io::Result<()> {
    for line in io::stdin().lock().lines() {
        let bytes = hex::read(line?.trim())?;
        let Ok(text) = std::str::from_utf8(&bytes) else {
            writeln!(out, "-")?;
            continue;
        };
        writeln!(
            out,
            "{}{}{}{} {} {}",
            chrono::matches_naive_datetime(text) as u8,
            chrono::matches_utc_datetime(text) as u8,
            chrono::matches_naive_time(text) as u8,
            chrono::matches_naive_date(text) as u8,
            observed(text, GUESS_DATES),
            observed(text, GUESS_DATES | STRING_AS_LARGE_UTF8),
        )?;
    }
    Ok(())
}

/// For each byte string: whether it is UTF-8, 0 or 1.
pub fn utf8(out: &mut impl Write) -> io::Result<()> {
    for line in io::stdin().lock().lines() {
        let bytes = hex::read(line?.trim())?;
        writeln!(out, "{}", std::str::from_utf8(&bytes).is_ok() as u8)?;
    }
    Ok(())
}
