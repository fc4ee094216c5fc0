"""Document 01's examples, and one or more for each point at which it is read closely, as listings.

A batch is given as hexadecimal commands and a text. What it must give is `refused NUMBER PLACE`, or the lines of its
listing with `/` between them, where `...` stands for any lines.
"""

from ..answer import Lent, answer
from ..listing import listing

ALLOW_NULL_FIELDS, MAP_AS_STRUCT, DEFAULT = 1, 2, 30
STRING_DICTIONARY, COERCE, TO_STRING, GUESS_DATES, ENUMS_AS_STRINGS, EDITION_2 = 32, 64, 128, 256, 512, 1024

# the names a and b of a text that begins so
A, B = "0000 0100", "0100 0100"


def over_records(*values, of=A):
    """A batch, "the values being those of one struct field over the records"."""
    return " ".join(f"15 16 {of} {value} 17" for value in values)


def variants(count):
    """A sequence of unit variants, each with the name a."""
    return "12" + "".join(f"18 {number:02x}00 {A}" for number in range(count)) + "17"


SOUNDINGS = [
    ("the listing", 94, "15 16 00 00 06 00 0B 16 06 00 04 00 0D 06 00 04 00 17 15 16 00 00 06 00 08 17", b"lengthname",
     "0 11 2 0 0 0 length/0 13 1 0 0 0 name/accepted 2 2"),
    ("P1", DEFAULT, over_records("06", "06"), b"a", "0 6 0 0 0 0 a/accepted 1 1"),
    ("P2", DEFAULT | COERCE, over_records("06", "07"), b"a", "0 9 2 0 0 0 a/accepted 1 1"),
    ("P3", DEFAULT | COERCE, over_records("06", "02"), b"a", "0 5 2 0 0 0 a/accepted 1 1"),
    ("P4", DEFAULT | COERCE, over_records("0A", "0A"), b"a", "0 10 0 0 0 0 a/accepted 1 1"),
    ("P5", DEFAULT | COERCE, over_records("0A", "02"), b"a", "0 11 2 0 0 0 a/accepted 1 1"),
    ("P6", DEFAULT, over_records("06", "07"), b"a", "refused 10 14"),
    ("P7", DEFAULT | TO_STRING, over_records("01", f"0D {A}", "04"), b"a", "0 13 2 0 0 0 a/accepted 1 1"),
    ("P8", DEFAULT | TO_STRING, over_records("01", "04", f"0D {A}"), b"a", "refused 10 14"),
    ("P9", DEFAULT | GUESS_DATES, over_records("0D 0100 1300"), b"a2024-01-02 03:04:05",
     "0 13 0 0 0 0 a/accepted 1 1"),
    ("P10", DEFAULT | GUESS_DATES, over_records("0D 0100 1400"), b"a2024-01-02 03:04:05Z",
     "0 19 0 0 0 0 a/accepted 1 1"),
    ("P11", DEFAULT, over_records(f"19 7F00 {A} 04"), b"a", "0 26 0 0 0 128 a/.../1 4 0 0 127 0 a/accepted 129 128"),
    ("P12", DEFAULT, over_records(f"19 8000 {A} 04"), b"a", "refused 14 15"),
    ("an empty batch", DEFAULT, "", b"", "refused 12 0"),
    ("an empty batch, bit 0", DEFAULT | ALLOW_NULL_FIELDS, "", b"", "refused 16 0"),
    ("a struct at depth 19", DEFAULT, over_records("15 17", of="0000 1200"), b"." * 18, ".../accepted 1 0"),
    ("a struct at depth 20", DEFAULT, over_records("15 17", of="0000 1300"), b"." * 19, "refused 7 6"),
    ("a bool at depth 20", DEFAULT, over_records("01", of="0000 1300"), b"." * 19, ".../accepted 1 1"),
    ("a date and a plain text", DEFAULT | GUESS_DATES, over_records("0D 0100 0500", f"0D {A}"), b"a1-2-3",
     "refused 10 18"),
    ("the name a.b adds two dots", DEFAULT, over_records("12" * 18 + "01" + "17" * 18, of="0000 0300"), b"a.b",
     ".../accepted 19 1"),
    ("and one more", DEFAULT, over_records("12" * 19 + "01" + "17" * 19, of="0000 0300"), b"a.b", "refused 7 24"),
    ("129 dataless variants, option 9", DEFAULT | ENUMS_AS_STRINGS, over_records(variants(129)), b"a",
     "0 23 0 0 0 1 a/1 21 0 0 0 0 element/accepted 2 1"),
]

# Where document 01 must be read closely: what is read, options, commands, text, what it gives.
READINGS = [
    ("4 before 6: a key cut off", 2, "14 13", b"", "refused 4 1"),
    ("5 before 6: a key's bad name", 2, "14 18 0000 0100 0000", b"", "refused 5 1"),
    ("6: a key that is a variant", 2, "14 18 0000 0000 0000", b"", "refused 6 1"),
    ("6: a some before a text is no 0D", 2, "14 10 0D 0000 0000", b"", "refused 6 1"),
    ("4 before 5: cut off, and a bad name", DEFAULT, "1A 0000 0000 0100", b"", "refused 4 0"),
    ("4 before 5: misplaced, and a bad name", DEFAULT, "16 0000 0100", b"", "refused 4 0"),
    ("4: an end still due", DEFAULT, "15", b"", "refused 4 1"),
    ("a name of length 0 at the text's end", 0, "15 16 0100 0000 01 17", b"a", "0 1 0 0 0 0 /accepted 1 1"),
    ("5: one further", 0, "15 16 0200 0000 01 17", b"a", "refused 5 1"),
    ("5: offset plus length past 16 bits", 0, "15 16 FFFF 0200 01 17", b"a", "refused 5 1"),
    ("5 looks at the name's own bytes", 0, over_records("01"), b"a\xff", "0 1 0 0 0 0 a/accepted 1 1"),
    ("the first tuple makes its positions at once", 0, "13 0004", b"", "refused 11 0"),
    ("and these are not too many", 0, "13 FF03", b"", "refused 4 3"),
    ("a tuple of none is the first", 0, "13 0000 13 0004" + "01" * 1024, b"", "refused 11 1029"),
    ("a later tuple makes each at its value", 0, "13 0000 13 0004" + "01" * 1023, b"", "refused 4 1029"),
    ("at its first command, a 10 included", 0, "13 0000 13 0004" + "01" * 1023 + "10 15 17", b"", "refused 11 1029"),
    ("but 4 goes first there", 0, "13 0000 13 0004" + "01" * 1023 + "16", b"", "refused 4 1029"),
    ("an empty sequence needs its element", 0, "13 FF03" + "01" * 1022 + "12 17", b"", "refused 11 1025"),
    ("an empty struct needs nothing", 0, "13 FF03" + "01" * 1022 + "15 17", b"", ".../accepted 1023 1022"),
    ("a variant at depth 20", 31, "15 16 0000 1200 18 0000 0000 0000 17", b"." * 18,
     "0 26 0 0 0 1 ................../1 0 1 0 0 0 /accepted 2 1"),
    ("7: its contents there", 31, "15 16 0000 1200 1B 0000 0000 0000 17 17", b"." * 18, "refused 7 6"),
    ("13 needs every slot seen", DEFAULT, "15 16 0000 0000 18 0100 0000 0000 17", b"", "refused 12 14"),
    ("so does option 9", 542, "15 16 0000 0000 18 0100 0000 0000 17", b"", "refused 12 14"),
    ("13", DEFAULT, over_records(f"18 0000 {A}"), b"a", "refused 13 14"),
    ("14 after the 12 of a slot below", 0, over_records(f"12 18 0000 {A} 18 8000 {A} 17"), b"a", "refused 12 23"),
    ("14 before the slot's own 12", 0, over_records(f"18 8000 {A}"), b"a", "refused 14 14"),
    ("17 looks at the emitted type: a tuple", 0, "13 0100 01", b"", "0 1 0 0 0 0 0/accepted 1 1"),
    ("an empty struct", 0, "15 17", b"", "accepted 0 0"),
    ("an empty tuple", 0, "13 0000", b"", "accepted 0 0"),
    ("an empty map as struct", 2, "14 17", b"", "accepted 0 0"),
    ("17: a map", 1, "14 17", b"", "refused 17 2"),
    ("15: a unit", 1, "00", b"", "refused 15 1"),
    ("15: a none", 1, "0F", b"", "refused 15 1"),
    ("12: a unit", 0, "00", b"", "refused 12 1"),
    ("17: a dictionary", STRING_DICTIONARY, f"0D {A}", b"a", "refused 17 5"),
    ("17: an enum as a dictionary", ENUMS_AS_STRINGS, f"18 0000 {A}", b"a", "refused 17 7"),
    ("a shorter tuple leaves no position nullable", 0, "13 0200 01 01 13 0100 01", b"",
     "0 1 0 0 0 0 0/0 1 0 0 0 0 1/accepted 2 2"),
    ("a field twice in one sample is held once", 0, f"15 16 {A} 01 16 {A} 01 17 15 17", b"a",
     "0 1 1 0 0 0 a/accepted 1 1"),
    ("first sight in a later sample", 0, f"15 17 15 16 {A} 01 17", b"a", "0 1 1 0 0 0 a/accepted 1 1"),
    ("an element never seen is not nullable", 1, over_records("12 17"), b"a",
     "0 22 0 0 0 1 a/1 0 0 0 0 0 element/accepted 2 1"),
    ("a nullable map key", 29, over_records("14 0F 04 17"), b"a",
     "0 25 0 0 0 1 a/1 24 0 0 0 2 entries/2 0 1 0 0 0 key/2 4 0 0 0 0 value/accepted 4 2"),
    ("a gap has its slot, and no 12", 0, over_records(f"19 0100 {A} 04"), b"a",
     "0 26 0 0 0 2 a/1 0 1 3 0 0 /1 4 0 0 1 0 a/accepted 3 2"),
    ("map mode: the walk goes by first sight", 2, over_records(f"14 0D {B} 19 8000 {A} 04 0D {A} 00 17"), b"ab",
     "refused 14 28"),
    ("the other way round", 2, over_records(f"14 0D {A} 00 0D {B} 19 8000 {A} 04 17"), b"ab", "refused 12 28"),
    ("map mode: the fields are sorted", 2, over_records(f"14 0D {B} 04 0D {A} 01 17"), b"ab",
     "0 24 0 2 0 2 a/1 1 0 0 0 0 a/1 4 0 0 0 0 b/accepted 3 2"),
    ("the first sight fixes the mode: map", 2, over_records(f"14 0D {A} 01 17", f"15 16 {B} 04 17"), b"ab",
     "0 24 0 2 0 2 a/1 1 1 0 0 0 a/1 4 1 0 0 0 b/accepted 3 2"),
    ("the first sight fixes the mode: struct", 2, over_records(f"15 16 {B} 04 17", f"14 0D {A} 01 17"), b"ab",
     "0 24 0 0 0 2 a/1 4 1 0 0 0 b/1 1 1 0 0 0 a/accepted 3 2"),
    ("a none at a variant is lost in a dictionary", 542, "15 16 0000 0000 19 0000 0000 0000 0F 17", b"",
     "0 21 0 0 0 0 /accepted 1 1"),
    ("8", 0, over_records("15 17", "12 17"), b"a", "refused 8 15"),
    ("9", 1, over_records(f"18 0000 {A}", f"18 0000 {B}"), b"ab", "refused 9 20"),
    ("6/14: an empty struct is no column", 31, over_records("15 17"), b"r", "0 24 0 0 0 0 r/accepted 1 0"),
    ("6/14: nor is an empty tuple", 31, over_records("13 0000"), b"r", "0 24 0 1 0 0 r/accepted 1 0"),
    ("6/14: nor an empty map-mode struct", 31, over_records("14 17"), b"r", "0 24 0 2 0 0 r/accepted 1 0"),
    ("6/14: an empty map has its key and value", 29, over_records("14 17"), b"r",
     "0 25 0 0 0 1 r/1 24 0 0 0 2 entries/2 0 0 0 0 0 key/2 0 0 0 0 0 value/accepted 4 2"),
    ("6/14: a Null field is a column", 31, over_records("00"), b"r", "0 0 1 0 0 0 r/accepted 1 1"),
    ("char coerces as a number", COERCE, over_records("0C", "02"), b"a", "0 5 2 0 0 0 a/accepted 1 1"),
    ("a chain of any length", 0, "11" * 65_533 + "15 17", b"", "accepted 0 0"),
    ("15 at its end", 0, "10" * 65_534 + "01", b"", "refused 15 65535"),
    ("values of any depth are read", 0, "12" * 65_535, b"", "refused 7 20"),
    ("variants of any number", 0, over_records(f"18 FFFF {A}"), b"a", "refused 14 14"),
    ("4/14: the listing, its u32 after an f64", 94 | EDITION_2,
     "15 16 00 00 06 00 0B 16 06 00 04 00 0D 06 00 04 00 17 15 16 00 00 06 00 08 17", b"lengthname", "refused 10 24"),
    ("4/14: u8 and i8", COERCE | EDITION_2, over_records("06", "02"), b"a", "0 5 2 0 0 0 a/accepted 1 1"),
    ("4/14: f32 and f64", COERCE | EDITION_2, over_records("0A", "0B"), b"a", "0 11 2 0 0 0 a/accepted 1 1"),
    ("4/14: u8 and u16", COERCE | EDITION_2, over_records("06", "07"), b"a", "0 9 2 0 0 0 a/accepted 1 1"),
    ("4/14: char is an integer", COERCE | EDITION_2, over_records("0C", "0A"), b"a", "refused 10 14"),
    ("4/14: without bit 6", EDITION_2, over_records("06", "07"), b"a", "refused 10 14"),
    ("4/14: equal number types", EDITION_2, over_records("0A", "0A"), b"a", "0 10 0 0 0 0 a/accepted 1 1"),
    ("4/14: a text between", COERCE | TO_STRING | EDITION_2, over_records("04", f"0D {A}", "0B"), b"a",
     "0 12 2 0 0 0 a/accepted 1 1"),
    ("4/14: a text behind", COERCE | TO_STRING | EDITION_2, over_records("04", "0B", f"0D {A}"), b"a", "refused 10 14"),
    ("4/14: bit 10 alone is no refusal 1", EDITION_2, "15 17", b"", "accepted 0 0"),
    ("1/14: an f64 stays Float64, and is widened", COERCE, over_records("0B", "08"), b"a", "0 11 2 0 0 0 a/accepted 1 1"),
    ("1/14: Null is no other type", COERCE, over_records("00", "06", "0F"), b"a", "0 6 1 0 0 0 a/accepted 1 1"),
    ("1/14: nullable and widened", COERCE, over_records("06", "0F", "07"), b"a", "0 9 3 0 0 0 a/accepted 1 1"),
    ("1/14: nullable by a lack", COERCE, "15 17" + over_records("06", "07"), b"a", "0 9 3 0 0 0 a/accepted 1 1"),
    ("1/14: u32 and char are one type", COERCE, over_records("08", "0C"), b"a", "0 8 0 0 0 0 a/accepted 1 1"),
    ("1/14: so are texts of one form", GUESS_DATES, over_records("0D 0000 0500", "0D 0500 0500"), b"1-2-34-5-6",
     "0 16 0 0 0 0 1/accepted 1 1"),
    ("1/14: timestamps of both zones are two", GUESS_DATES, over_records("0D 0000 0B00", "0D 0000 0C00"), b"1-2-3T4:5:6Z",
     "0 12 2 0 0 0 1/accepted 1 1"),
    ("1/14: a string's dictionary has the mark", STRING_DICTIONARY | TO_STRING, over_records(f"0D {A}", "01"), b"a",
     "0 20 2 0 0 0 a/accepted 1 1"),
    ("1/14: an enum's has none", ENUMS_AS_STRINGS, over_records(f"18 0000 {A}", f"18 0100 {B}"), b"ab",
     "0 20 0 0 0 0 a/accepted 1 1"),
    ("1/14: a variant has it, but no gap and no union", COERCE, over_records(f"19 0100 {A} 06", f"19 0100 {A} 07"), b"a",
     "0 26 0 0 0 2 a/1 0 1 3 0 0 /1 9 2 0 1 0 a/accepted 3 2"),
    ("1/14: key and value have it, but no map and no entries", COERCE, over_records("14 06 0A 07 0B 17"), b"a",
     "0 25 0 0 0 1 a/1 24 0 0 0 2 entries/2 9 2 0 0 0 key/2 11 2 0 0 0 value/accepted 4 2"),
    ("1/14: an element, beside the positions of a tuple", COERCE, "13 0200 12 06 07 17 06", b"",
     "0 22 0 0 0 1 0/1 9 2 0 0 0 element/0 6 0 0 0 0 1/accepted 3 2"),
    ("1/14: 15 does not look at the mark", COERCE, "06 07", b"", "refused 17 2"),
    ("1/14: nor goes 17 first", COERCE, "06 10 07", b"", "refused 15 3"),
    ("1", 2048, "", b"", "refused 1 0"),
    ("3", 0, "01" * 65_536, b"", "refused 3 0"),
]


def fits(lines, wanted):
    """Whether the lines are those wanted, where `...` stands for any lines."""
    if "..." not in wanted:
        return lines == wanted
    at = wanted.index("...")
    behind = wanted[at + 1:]
    return lines[:at] == wanted[:at] and lines[len(lines) - len(behind):] == behind


def check_listings(cases):
    for what, options, commands, text, wanted in cases:
        given = listing(answer(options, bytes.fromhex(commands), text)).decode()
        assert fits(given.split("\n")[:-1], wanted.split("/")), f"{what}: {given!r} and not {wanted!r}"
    return len(cases)


def check_lengths():
    """Refusals 2 and 18, which are about what is lent; and 1 to 3 in order. 18 compares both lengths at the end."""
    _, options, commands, text, _ = SOUNDINGS[0]
    commands = bytes.fromhex(commands)
    cases = [
        (options, Lent(records=16, names=10), (0, 0, True)),
        (options, Lent(records=15, names=10), (18, len(commands), True)),
        (options, Lent(records=16, names=9), (18, len(commands), True)),
        (options, Lent(table=16_383), (2, 0, False)),
        (options | EDITION_2, Lent(table=16_383), (2, 0, False)),
        (options | 2048, Lent(table=16_383), (1, 0, False)),
    ]
    for word, lent, wanted in cases:
        given = answer(word, commands, text, lent)
        assert (given.refusal, given.place, given.table_is_zeroed) == wanted, f"{lent}: {given}"
    return len(cases)


def check():
    yield "soundings of document 01", check_listings(SOUNDINGS)
    yield "points at which it is read closely", check_listings(READINGS) + check_lengths()
