//! Returns made to take long: 64 KiB of commands, most of them with names or texts of 60,000 bytes that overlap in the text slice.

use crate::collisions;
use crate::shapes::{self, Batch, Size, DEFAULT, GUESS_DATES, MOST};

const FULL: Size = Size::KiB(64);
const WIDTH: usize = 1_000;
const LONG: usize = 60_000;
/// The variants that a union can have.
const VARIANTS: usize = 128;
/// The places that a batch can have.
const PLACES: usize = 1_024;

const TEXT: u8 = 0x0D;
const FIELD: u8 = 0x16;

/// A name or a text by its offset and length.
type Part = (usize, usize);

/// The long parts of the text from offsets that are so far from one another.
fn long_parts(count: usize, apart: usize) -> Vec<Part> {
    (0..count).map(|i| (i * apart, LONG)).collect()
}

/// A text of one letter over and over, with another one at an offset.
fn text_of(letter: &str, other: &str, at: usize) -> Vec<u8> {
    let mut text = letter.repeat(MOST / letter.len()).into_bytes();
    text.splice(at..at + other.len(), other.bytes());
    text
}

fn number(b: &mut Batch) {
    b.value(0x04);
}

fn empty_struct(b: &mut Batch) {
    b.structure();
    b.end();
}

fn fields(b: &mut Batch, names: &[Part], value: impl Fn(&mut Batch)) {
    b.structure();
    for &(offset, length) in names {
        b.part(FIELD, offset, length);
        value(b);
    }
    b.end();
}

fn entries(b: &mut Batch, keys: &[Part]) {
    b.map();
    for &(offset, length) in keys {
        b.part(TEXT, offset, length);
        number(b);
    }
    b.end();
}

/// A record with a list under a name of one letter, which has so many bytes.
fn list(b: &mut Batch, letter: usize, elements: impl Fn(&mut Batch)) {
    b.structure();
    b.part(FIELD, 0, letter);
    b.sequence();
    elements(b);
    b.end();
    b.end();
}

/// Records over a text.
fn over(text: Vec<u8>, options: u16, size: Size, record: impl Fn(&mut Batch)) -> Batch {
    let (mut batch, _) = shapes::batch(options, size, |b, _| record(b));
    batch.text = text;
    batch
}

fn structs(text: Vec<u8>, names: Vec<Part>, value: impl Fn(&mut Batch)) -> Batch {
    over(text, DEFAULT, FULL, |b| fields(b, &names, &value))
}

fn maps(text: Vec<u8>, size: Size, keys: Vec<Part>) -> Batch {
    over(text, DEFAULT, size, |b| entries(b, &keys))
}

/// Lists of texts, each from another letter, which has so many bytes.
fn texts(text: Vec<u8>, letter: usize, options: u16) -> Batch {
    let parts = long_parts(WIDTH, letter);
    let elements = |b: &mut Batch| parts.iter().for_each(|&(offset, length)| b.part(TEXT, offset, length));
    over(text, options, FULL, |b| list(b, letter, elements))
}

/// Variants by turns, each of which has the name from the offset that goes with a turn.
fn variants(text: Vec<u8>, offset: impl Fn(usize) -> usize) -> Batch {
    let element = |b: &mut Batch, turn: usize| {
        b.numbered(turn % VARIANTS, offset(turn), LONG);
        number(b);
    };
    over(text, DEFAULT, FULL, |b| {
        list(b, 1, |b| (0..WIDTH).for_each(|turn| element(b, turn)))
    })
}

/// Names one after another, and where they stand.
fn joined(names: Vec<Vec<u8>>) -> (Vec<u8>, Vec<Part>) {
    let parts = names.iter().scan(0, |end, name| {
        *end += name.len();
        Some((*end - name.len(), name.len()))
    });
    let parts = parts.collect();
    (names.concat(), parts)
}

/// The last name first: then each differs from those before it at another byte.
fn overlapping() -> (Vec<u8>, Vec<Part>) {
    let (text, length) = collisions::overlapping(WIDTH);
    (text, (0..WIDTH).rev().map(|i| (8 * i, length)).collect())
}

fn with_one_tag((text, names): (Vec<u8>, Vec<Part>)) -> Batch {
    structs(text, names, number)
}

/// Names of dots, and a struct under the last of them, which is too deep.
fn refused_at_the_end() -> Batch {
    let mut batch = structs(text_of(".", "b", 59_990), long_parts(WIDTH, 1), number);
    fields(&mut batch, &[(0, LONG)], empty_struct);
    batch
}

/// So many fields, and before them, in the first record, a struct that takes most of the places.
fn behind(count: usize) -> Batch {
    let record = |b: &mut Batch, i: usize| {
        b.structure();
        if i == 0 {
            b.field("wide");
            shapes::wide(b, 0..PLACES - 4 - count, shapes::name);
        }
        shapes::fields(b, 0..count, shapes::name);
        b.end();
    };
    shapes::batch(DEFAULT, FULL, record).0
}

/// Structs with equal fields that were first seen by turns: the fields of each stand apart from one another.
fn by_turns(count: usize, width: usize) -> Batch {
    let record = |b: &mut Batch, i: usize| {
        b.structure();
        for structure in 0..count {
            b.field(&format!("struct_{structure}"));
            let seen = if i < width { i..i + 1 } else { 0..width };
            shapes::wide(b, seen, shapes::name);
        }
        b.end();
    };
    shapes::batch(DEFAULT, FULL, record).0
}

/// A name, and how the batch is made.
pub type Hostile = (String, Box<dyn Fn() -> Batch>);

fn hostile(name: &str, make: impl Fn() -> Batch + 'static) -> Hostile {
    (String::from(name), Box::new(make))
}

/// Names that are alike but for one byte.
fn alike(place: &str, at: usize) -> Vec<Hostile> {
    let text = move || text_of("a", "b", at);
    let names = || long_parts(WIDTH, 1);
    vec![
        hostile(&format!("names that differ {place}, structs"), move || {
            structs(text(), names(), number)
        }),
        hostile(&format!("names that differ {place}, one map"), move || {
            maps(text(), Size::Records(1), names())
        }),
        hostile(&format!("names that differ {place}, maps"), move || {
            maps(text(), FULL, names())
        }),
    ]
}

/// Names that are equal, letters of three bytes, texts, variants.
fn long() -> Vec<Hostile> {
    const EQUAL: usize = 5_000;
    let equal = || text_of("a", "a", 0);
    let letters = || text_of("€", "₤", 59_970);
    let late = || text_of("a", "b", 59_990);
    vec![
        hostile("equal names, structs", move || {
            structs(equal(), long_parts(EQUAL, 1), number)
        }),
        hostile("equal names, maps", move || maps(equal(), FULL, long_parts(EQUAL, 1))),
        hostile("names of three-byte letters", move || {
            structs(letters(), long_parts(WIDTH, 3), number)
        }),
        hostile("keys of three-byte letters, maps", move || {
            maps(letters(), FULL, long_parts(WIDTH, 3))
        }),
        hostile("texts of three-byte letters", move || texts(letters(), 3, DEFAULT)),
        hostile("texts of digits, guess_dates", || {
            texts(text_of("1", "1", 0), 1, DEFAULT | GUESS_DATES)
        }),
        hostile("variants", move || variants(late(), |turn| turn % VARIANTS)),
        hostile("variants, equal names", move || variants(equal(), |turn| turn)),
    ]
}

/// Names whose dots are counted, since a container follows, and names of dots.
fn dotted() -> Vec<Hostile> {
    let early = || {
        let mut text = text_of("a", "b", 59_990);
        text[WIDTH] = b'.';
        text
    };
    let names = || long_parts(WIDTH, 1);
    vec![
        hostile("structs under long names", move || {
            structs(text_of("a", "b", 59_990), names(), empty_struct)
        }),
        hostile("structs under names with a dot", move || {
            structs(early(), names(), empty_struct)
        }),
        hostile("names of dots", move || {
            structs(text_of(".", "b", 59_990), names(), number)
        }),
        hostile("names of dots, refused at the end", refused_at_the_end),
    ]
}

/// Names that share a tag, and fields that stand far from one another.
fn searched() -> Vec<Hostile> {
    vec![
        hostile("one tag, names of 12 bytes", || {
            with_one_tag(joined(collisions::short(WIDTH)))
        }),
        hostile("one tag, names of 64 bytes", || {
            with_one_tag(joined(collisions::long(WIDTH, 64)))
        }),
        hostile("one tag, overlapping names", || with_one_tag(overlapping())),
        hostile("60 fields behind a wide struct", || behind(60)),
        hostile("15 structs of 64 fields, seen by turns", || by_turns(15, 64)),
    ]
}

/// All that is tried.
pub fn all() -> Vec<Hostile> {
    let alike = [("early", 1_000), ("in the middle", 30_000), ("late", 59_990)].map(|(place, at)| alike(place, at));
    alike
        .into_iter()
        .flatten()
        .chain(long())
        .chain(dotted())
        .chain(searched())
        .collect()
}

/// The batch of that name.
pub fn named(name: &str) -> Batch {
    let found = all().into_iter().find(|(shape, _)| shape == name);
    let (_, make) = found.unwrap_or_else(|| panic!("no shape is named {name}"));
    make()
}
