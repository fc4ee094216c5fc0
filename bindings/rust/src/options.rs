//! The options word, by the names of the Rust, and the edition of the exchange standard, which the Rust does not have.

use std::fmt;

/// How a batch is traced. Each method gives the same options with one of them switched.
#[derive(Clone, Copy, PartialEq, Eq, Hash)]
pub struct TracingOptions(u16);

/// The options in the order of their bits.
const NAMES: [&str; 11] = [
    "allow_null_fields",
    "map_as_struct",
    "sequence_as_large_list",
    "string_as_large_utf8",
    "bytes_as_large_binary",
    "string_dictionary_encoding",
    "coerce_numbers",
    "allow_to_string",
    "guess_dates",
    "enums_without_data_as_strings",
    "edition_2",
];

impl TracingOptions {
    /// The options that an options word says. A word with a bit above 10 is refused by the call, not here.
    pub const fn from_word(word: u16) -> Self {
        TracingOptions(word)
    }

    /// The options word.
    pub const fn word(self) -> u16 {
        self.0
    }

    const fn with(self, bit: u32, on: bool) -> Self {
        let rest = self.0 & !(1 << bit);
        TracingOptions(rest | (on as u16) << bit)
    }

    /// Fields of which only nulls were seen are given as Null instead of being refused. Off by default.
    pub const fn allow_null_fields(self, on: bool) -> Self {
        self.with(0, on)
    }

    /// A map is a Struct with a field for each key, which must be a text. On by default.
    pub const fn map_as_struct(self, on: bool) -> Self {
        self.with(1, on)
    }

    /// A sequence is a LargeList, else a List. On by default.
    pub const fn sequence_as_large_list(self, on: bool) -> Self {
        self.with(2, on)
    }

    /// A text is a LargeUtf8, else a Utf8. On by default.
    pub const fn string_as_large_utf8(self, on: bool) -> Self {
        self.with(3, on)
    }

    /// Bytes are a LargeBinary, else a Binary. On by default.
    pub const fn bytes_as_large_binary(self, on: bool) -> Self {
        self.with(4, on)
    }

    /// Texts are dictionary encoded. Off by default.
    pub const fn string_dictionary_encoding(self, on: bool) -> Self {
        self.with(5, on)
    }

    /// Unequal number types at one place give a common one instead of being refused. Off by default.
    pub const fn coerce_numbers(self, on: bool) -> Self {
        self.with(6, on)
    }

    /// Texts meeting bools or numbers at one place give texts instead of being refused. Off by default.
    pub const fn allow_to_string(self, on: bool) -> Self {
        self.with(7, on)
    }

    /// Texts that look like dates, times or timestamps are taken for those. Off by default.
    pub const fn guess_dates(self, on: bool) -> Self {
        self.with(8, on)
    }

    /// Enums of which no variant has data are dictionaries of their variants' names. Off by default.
    pub const fn enums_without_data_as_strings(self, on: bool) -> Self {
        self.with(9, on)
    }

    /// Edition 2 of the exchange standard, else edition 1: integers and floats that meet at one place are refused even with
    /// `coerce_numbers`. Off by default.
    pub const fn edition_2(self, on: bool) -> Self {
        self.with(10, on)
    }
}

/// The Rust's: 30.
impl Default for TracingOptions {
    fn default() -> Self {
        TracingOptions(30)
    }
}

/// The options that are on, and any bit that is no option.
impl fmt::Debug for TracingOptions {
    fn fmt(&self, f: &mut fmt::Formatter<'_>) -> fmt::Result {
        let mut set = f.debug_set();
        for bit in (0..16).filter(|bit| self.0 >> bit & 1 == 1) {
            match NAMES.get(bit) {
                Some(name) => set.entry(&format_args!("{name}")),
                None => set.entry(&format_args!("bit {bit}")),
            };
        }
        set.finish()
    }
}
