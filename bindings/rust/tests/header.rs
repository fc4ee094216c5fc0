//! The C header has the same numbers as this crate.

use std::collections::HashMap;

use fasthrom::{DataType, Refusal, Strategy, TracingOptions, INPUT_LIMIT};

const HEADER: &str = include_str!("../../../include/fasthrom.h");

/// The header's constants by name, without the prefix that all have.
fn constants() -> HashMap<&'static str, usize> {
    let number = |text: &str| match text.strip_prefix("0x") {
        Some(hex) => usize::from_str_radix(hex, 16).unwrap(),
        None => text.parse().unwrap(),
    };
    HEADER
        .lines()
        .filter_map(|line| line.trim().strip_prefix("FASTHROM_")?.split_once(" = "))
        .map(|(name, rest)| (name, number(rest.split([',', ' ']).next().unwrap())))
        .collect()
}

/// `Timestamp(Utc)` as `TIMESTAMP_UTC`, `LargeUtf8` as `LARGE_UTF8`, `UInt8` as `UINT8`.
fn screaming(name: &str) -> String {
    let mut out = String::new();
    let mut last_upper = true;
    for letter in name.chars().filter(|c| c.is_alphanumeric()) {
        if letter.is_uppercase() && !last_upper {
            out.push('_');
        }
        last_upper = letter.is_uppercase();
        out.push(letter.to_ascii_uppercase());
    }
    out
}

#[test]
fn types_strategies_and_refusals() {
    let constants = constants();
    let count = |prefix: &str| constants.keys().filter(|k| k.starts_with(prefix)).count();
    for (code, data_type) in DataType::ALL.iter().enumerate() {
        let name = format!("TYPE_{}", screaming(&format!("{data_type:?}")));
        assert_eq!(constants.get(name.as_str()), Some(&code), "{name}");
    }
    assert_eq!(count("TYPE_"), DataType::ALL.len());
    for (index, strategy) in Strategy::ALL.iter().enumerate() {
        let name = format!("STRATEGY_{}", screaming(&format!("{strategy:?}")));
        assert_eq!(constants.get(name.as_str()), Some(&(index + 1)), "{name}");
    }
    assert_eq!(count("STRATEGY_"), Strategy::ALL.len() + 1);
    for refusal in Refusal::ALL {
        let name = format!("REFUSED_{}", screaming(&format!("{refusal:?}")));
        let number = refusal.number() as usize;
        assert_eq!(constants.get(name.as_str()), Some(&number), "{name}");
    }
    assert_eq!(count("REFUSED_"), Refusal::ALL.len());
}

#[test]
fn options_and_sizes() {
    let constants = constants();
    for bit in 0..11 {
        let options = format!("{:?}", TracingOptions::from_word(1 << bit));
        let name = options.trim_matches(['{', '}']).to_uppercase();
        assert_eq!(constants.get(name.as_str()), Some(&(1 << bit)), "{name}");
    }
    let default = usize::from(TracingOptions::default().word());
    assert_eq!(constants["DEFAULT_OPTIONS"], default);
    assert_eq!(constants["INPUT_LIMIT"], INPUT_LIMIT);
    assert_eq!(constants["TABLE_WORDS"], 16_384);
    assert_eq!((constants["NULLABLE"], constants["WIDENED"]), (1, 2));
    assert_eq!(constants["COMMAND_STRUCT_VARIANT"], 0x1B);
}
