//! Byte strings as hexadecimal, `-` for an empty one.

use std::io;

pub fn read(word: &str) -> io::Result<Vec<u8>> {
    if word == "-" {
        return Ok(Vec::new());
    }
    let bad = || io::Error::other(format!("not hexadecimal: {word}"));
    if word.len() % 2 != 0 || !word.is_ascii() {
        return Err(bad());
    }
    (0..word.len())
        .step_by(2)
        .map(|i| u8::from_str_radix(&word[i..i + 2], 16).map_err(|_| bad()))
        .collect()
}

pub fn write(bytes: &[u8]) -> String {
    if bytes.is_empty() {
        return String::from("-");
    }
    bytes.iter().map(|b| format!("{b:02x}")).collect()
}
