//! Names that share a tag. The call keeps a word for each field's name, made of its bytes, and compares names only where these are equal.
//! Whoever knows how the word is made can make names that have it in common: this does, for the worst that a return can ask. The word is
//! the one that mixes whole names, and is told once more here: names are made for it, whichever the library has.
//!
//! Each step of the word multiplies modulo 2^48 and keeps the upper 32 bits. An odd number has an inverse there, so the four bytes that
//! lead to a wanted word can be computed from each of the 65,536 lower parts that are dropped; one of sixteen is ASCII.

const MODULUS: u64 = 1 << 48;
/// The multipliers of the first, the middle and the last four bytes of a name of up to twelve.
const FIRST: u64 = 506832829;
const MIDDLE: u64 = 668265263;
const LAST: u64 = 374761393;
/// The multiplier of a step over a longer name.
const STEP: u64 = 1540483477;
/// Where names meet; any word will do.
const MEETING: u64 = 0x5eed;

fn four(bytes: &[u8]) -> u64 {
    bytes[..4]
        .iter()
        .rev()
        .fold(0, |sum, &byte| 256 * sum + u64::from(byte))
}

fn mixed(state: u64, more: u64) -> u64 {
    (state + more) * STEP / 65_536 % (1 << 32)
}

fn long_tag(bytes: &[u8]) -> u64 {
    let end = &bytes[bytes.len() - 8..];
    let (mut one, mut two) = (bytes.len() as u64, 0);
    for eight in bytes.chunks_exact(8).chain([end]) {
        one = mixed(one, four(eight));
        two = mixed(two, four(&eight[4..]));
    }
    mixed(one, two)
}

/// The word of a name of at least four bytes.
fn tag(bytes: &[u8]) -> u64 {
    let n = bytes.len();
    if n > 12 {
        return long_tag(bytes);
    }
    (four(bytes) * FIRST + four(&bytes[n / 2 - 2..]) * MIDDLE + four(&bytes[n - 4..]) * LAST) / 65_536 % (1 << 32)
}

fn inverse(odd: u64) -> u64 {
    // each round doubles the bits that are right
    (0..6).fold(odd, |x, _| x.wrapping_mul(2u64.wrapping_sub(odd.wrapping_mul(x)))) % MODULUS
}

/// Four bytes of ASCII that bring a state to a word: (before + bytes * multiplier) / 65,536 is the word.
fn steering(before: u64, multiplier: u64, word: u64) -> Option<[u8; 4]> {
    let inverse = inverse(multiplier);
    let sums = (word << 16)..(word + 1) << 16;
    sums.map(|sum| sum.wrapping_sub(before).wrapping_mul(inverse) % MODULUS)
        .filter_map(|bytes| u32::try_from(bytes).ok())
        .map(u32::to_le_bytes)
        .find(|bytes| bytes.is_ascii())
}

/// Four bytes that bring a lane of a longer name from one state to another.
fn step(from: u64, to: u64) -> Option<[u8; 4]> {
    steering(from * STEP, STEP, to)
}

/// Four letters that go with a number, the lowest digit first.
fn letters(i: usize) -> [u8; 4] {
    [0, 1, 2, 3].map(|place| b'a' + (i / 26usize.pow(place) % 26) as u8)
}

/// Names, which must all have the tag of the first.
fn one_tag(names: Vec<Vec<u8>>) -> Vec<Vec<u8>> {
    assert!(names.iter().all(|name| tag(name) == tag(&names[0])), "tags differ");
    names
}

/// Names of twelve bytes, whose middle ones bring them together: the first four and the last are equal, which are compared first.
pub fn short(count: usize) -> Vec<Vec<u8>> {
    let name = |i| {
        let [a, b, c, _] = letters(i);
        let (first, last) = (*b"name", [a, b, c, b's']);
        let middle = steering(four(&first) * FIRST + four(&last) * LAST, MIDDLE, MEETING)?;
        Some([first, middle, last].concat())
    };
    let names: Vec<_> = (0..26usize.pow(3)).filter_map(name).take(count).collect();
    assert_eq!(names.len(), count, "there are no more");
    one_tag(names)
}

/// Eight bytes each, so many, of which four letters are free and four bring a lane to one and the same state.
fn meeting(count: usize, state: u64) -> Vec<[[u8; 4]; 2]> {
    let pair = |i| Some([letters(i), step(mixed(state, four(&letters(i))), MEETING)?]);
    (0..).filter_map(pair).take(count).collect()
}

/// Names of so many bytes, a multiple of eight: they differ in the sixteen before the last eight. The lanes are free of one another.
pub fn long(count: usize, length: usize) -> Vec<Vec<u8>> {
    let shared = "shared__".repeat(length / 8 - 3).into_bytes();
    let (mut one, mut two) = (length as u64, 0);
    for eight in shared.chunks_exact(8) {
        (one, two) = (mixed(one, four(eight)), mixed(two, four(&eight[4..])));
    }
    let side = (1..).find(|side| side * side >= count).expect("it is finite");
    let (ones, twos) = (meeting(side, one), meeting(side, two));
    let name = |i: usize| {
        let ([a, b], [c, d]) = (ones[i / side], twos[i % side]);
        [&shared[..], &a, &c, &b, &d, b"the end."].concat()
    };
    one_tag((0..count).map(name).collect())
}

/// A text and a length: the parts of that length from each eighth offset, so many of them, have one tag, and any two of them are
/// alike for 40,000 bytes and more. The text is eight bytes over and over that leave both lanes as they are at a name's start, with
/// others once, near the end of each name, that bring the lanes back.
pub fn overlapping(count: usize) -> (Vec<u8>, usize) {
    let most = (65_535 - 8 * count) / 8;
    let (length, same) = (0..most)
        .map(|less| 8 * (most - less))
        .find_map(|length| Some((length, step(length as u64, length as u64)?)))
        .expect("one of sixteen");
    let state = length as u64;
    let [free, back] = (0..)
        .find_map(|i| Some([letters(i), step(mixed(state, four(&letters(i))), state)?]))
        .expect("one of sixteen");
    let eight = |word: [u8; 4]| [word, [0; 4]].concat();
    let mut text = eight(same).repeat(length / 8 + count);
    // each name ends with the eight bytes
    text.splice(length - 24..length - 8, [eight(free), eight(back)].concat());
    one_tag((0..count).map(|i| text[8 * i..8 * i + length].to_vec()).collect());
    (text, length)
}
