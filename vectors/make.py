"""Makes the stored vectors anew: the lists of texts, of byte strings and of pairs of types, each with the oracle's
answers, and of pairs in edition 2 with the account's (README.md has the layouts). Run in any folder; the oracle is brought
up to date first:

    python3 vectors/make.py

The lists depend on nothing but this file: a second run writes the same bytes.
"""

import itertools
import random
import subprocess
import sys

import published
from batches import EDITION_2
from published import ORACLE, TOP

sys.path.insert(0, str(TOP))
from account.coerce import differ, joint as joint_of  # noqa: E402
from account.datatype import STRINGS  # noqa: E402
from account.options import Options  # noqa: E402

PROGRAM = TOP / "crates" / "record_vectors"


def ask(question, byte_strings=()):
    """The oracle's answers, a line for each byte string."""
    lines = "".join((b.hex() or "-") + "\n" for b in byte_strings)
    done = subprocess.run([ORACLE, question], input=lines, capture_output=True, text=True, check=True)
    return done.stdout.splitlines()


def store(name, what, records):
    """A file of the program's data, each record behind a byte that counts it: gives the line that it is to write."""
    path = PROGRAM / "data" / name
    path.parent.mkdir(parents=True, exist_ok=True)
    path.write_bytes(b"".join(bytes([len(r)]) + r for r in records))
    print(f"{path.relative_to(TOP)}: {len(records)} {what}, {path.stat().st_size} bytes")
    return f"{len(records)} {what} in {path.stat().st_size} bytes, 0 differ\n"


def unique(items):
    return list(dict.fromkeys(items))


# ------------------------------------------------------------------ texts

# The slots of the forms: for each the entries that fit, the usual one first, and entries that do not.
SIGN = (["", "+", "-"], ["++", "+-", "--", " ", "\u2212"])
YEAR = (["2024", "0", "10", "999", "12345", "0" * 22 + "2024"], ["", "20x4", "20 4", "２０２４", "٢٠٢٤"])
DASH = (["-"], ["", "--", "/", ".", ",", "_", ":", "\u2013"])
PAIR = (["01", "9", "00", "99"], ["", "012", "0x", "x0", " 1", "+1", "１", "¹"])
BETWEEN = (["T", " "], ["t", "", "TT", "  ", "T ", " T", "_", "\t", "U", "S", "!", "\u00a0"])
COLON = ([":"], ["", "::", ";", ".", "-", "9", "："])
FRACTION = (["", ".5", ".123456789", "." + "0" * 30 + "1"], [".", "..5", ".5.5", ",5", ".x", ".5x", ".-5", ".٥"])
ZONE = (["Z", "z", "+0000", "-0000", "+00:00", "-00:00"],
        ["Y", "y", "[", "{", "ZZ", "Zz", "Z ", " Z", "UTC", "+00", "-00", "+0", "+", "-", "+000", "+00000", "+00:0", "+00:000",
         "+00:00Z", "+0000Z", "Z+0000", "+0100", "+01:00", "-00:01", "+0001", "+00.00", "+0:000", "*0000", ",0000", "00:00",
         "\u221200:00", "+００:00"])

DATE_SLOTS = [SIGN, YEAR, DASH, PAIR, DASH, PAIR]
TIME_SLOTS = [PAIR, COLON, PAIR, COLON, PAIR, FRACTION]
FORMS = [
    DATE_SLOTS,
    TIME_SLOTS,
    DATE_SLOTS + [BETWEEN] + TIME_SLOTS,
    DATE_SLOTS + [BETWEEN] + TIME_SLOTS + [ZONE],
]

# Texts that fit, for the damages byte by byte.
GOOD = ["2024-01-02", "-7-8-9", "+12345-1-31", "03:04:05", "3:4:5", "23:59:59.123", "9-9-9T9:9:9",
        "2024-01-02T03:04:05.6", "2024-01-02T03:04:05Z", "1-2-3 4:5:6z", "2024-01-02 03:04:05.06+00:00",
        "-2024-1-02T03:4:05-0000", "2024-12-1 13:14:5+0000", "+0-0-0T0:0:0-00:00"]

# The bytes beside each byte of the grammar, and some characters that look like one.
BESIDE = [chr(c + d) for c in b"09-+:.TZz " for d in (-1, 0, 1)] + ["t", "\0", "\x7f", "\u0080", "é", "５", "\U0001f550"]


def one_slot_off(slots):
    """Each slot in turn with each of its entries, the others as usual."""
    usual = [good[0] for good, _ in slots]
    for i, (good, bad) in enumerate(slots):
        for entry in good + bad:
            yield "".join(usual[:i] + [entry] + usual[i + 1:])


def slots_off(rng, slots, off, count):
    """So many slots with an entry that does not fit, the others with any that does."""
    for _ in range(count):
        wrong = rng.sample(range(len(slots)), off)
        yield "".join(rng.choice(slot[1] if i in wrong else slot[0]) for i, slot in enumerate(slots))


def damages(text):
    """Each character dropped, doubled, swapped with the next, changed, or another put before it; and each prefix."""
    for i in range(len(text) + 1):
        yield text[:i]
        for other in BESIDE:
            yield text[:i] + other + text[i:]
            yield text[:i] + other + text[i + 1:]
        if i < len(text):
            yield text[:i] + text[i + 1:]
            yield text[:i] + text[i] + text[i:]
            yield text[:i] + text[i + 1:i + 2] + text[i] + text[i + 2:]


def texts():
    rng = random.Random(1)
    always = GOOD + [""]
    for slots in FORMS:
        always += one_slot_off(slots)
        for off in (0, 1, 2):
            always += slots_off(rng, slots, off, 400)
    always += ["1" * n + "-1-1" for n in (50, 248)] + ["1:1:1." + "1" * 246, "1" * 252, "-" * 252]
    damaged = unique(d for text in GOOD for d in damages(text))
    return unique(always + rng.sample(damaged, 2300))


def make_texts():
    listed = [t.encode() for t in texts()]
    records = []
    for text, answer in zip(listed, ask("texts", listed), strict=True):
        matchers, utf8, large_utf8 = answer.split()
        bits = sum(1 << i for i, digit in enumerate(matchers) if digit == "1")
        records.append(bytes([bits, int(utf8), int(large_utf8)]) + text)
    return store("texts.bin", "texts", records)


# ------------------------------------------------------------------ UTF-8

# The ends of each range of Table 3-7 (The Unicode Standard, "Well-Formed UTF-8 Byte Sequences"), and one beyond.
FIRST = [0x00, 0x41, 0x7F, 0x80, 0xBF, 0xC0, 0xC1, 0xC2, 0xDF, 0xE0, 0xE1, 0xEC, 0xED, 0xEE, 0xEF, 0xF0, 0xF1, 0xF3, 0xF4,
         0xF5, 0xF7, 0xF8, 0xFB, 0xFC, 0xFD, 0xFE, 0xFF]
SECOND = [0x00, 0x7F, 0x80, 0x8F, 0x90, 0x9F, 0xA0, 0xBF, 0xC0, 0xC2, 0xFF]
THIRD = [0x41, 0x7F, 0x80, 0xBF, 0xC0, 0xE0]
FOURTH = [0x7F, 0x80, 0xBF, 0xC0]

# The ends of the ranges of scalar values, by length of encoding, and the surrogates' neighbours.
SCALARS = [0x00, 0x7F, 0x80, 0x7FF, 0x800, 0xFFF, 0x1000, 0xCFFF, 0xD000, 0xD7FF, 0xE000, 0xFFFD, 0xFFFF, 0x10000, 0x3FFFF,
           0x40000, 0xFFFFF, 0x100000, 0x10FFFF]
SURROGATES = [bytes([0xED, 0xA0 + high, low]) for high in (0, 0xF, 0x10, 0x1F) for low in (0x80, 0xBF)]
OVERLONG = [bytes.fromhex(h) for h in ("c080", "c1bf", "e08080", "e09fbf", "f0808080", "f08fbfbf", "f8888080", "fc84808080",
                                       "f4908080", "f7bfbfbf", "f88080808080")]


def byte_damages(text):
    """Each byte dropped, doubled, changed to an end of a range, or one put before it; and each part."""
    for i in range(len(text) + 1):
        yield text[:i]
        yield text[i:]
        for other in unique(FIRST + SECOND):
            yield text[:i] + bytes([other]) + text[i:]
            yield text[:i] + bytes([other]) + text[i + 1:]
        if i < len(text):
            yield text[:i] + text[i + 1:]
            yield text[:i + 1] + text[i:]


def byte_strings():
    rng = random.Random(2)
    every = [bytes([b]) + b"\x80" * n for b in range(256) for n in range(4)]
    short = [bytes(s) for s in itertools.product(FIRST, SECOND)]
    short += [bytes(s) for s in itertools.product(FIRST, SECOND, THIRD)]
    long = [bytes(s) for s in itertools.product([f for f in FIRST if 0xE0 <= f <= 0xF8], SECOND, THIRD, FOURTH)]
    scalars = [chr(s).encode() for s in SCALARS]
    pairs = [a + b for a, b in itertools.product(scalars, repeat=2)]
    mixed = [b"".join(rng.choice(scalars) for _ in range(rng.randrange(3, 9))) for _ in range(60)]
    broken = [a + m + b for m in SURROGATES + OVERLONG for a in (b"", b"a", "é".encode()) for b in (b"", b"z", "é".encode())]
    damaged = unique(d for text in mixed for d in byte_damages(text))
    tall = [b"a" * 254, "é".encode() * 126 + b"\xc3", "\u20ac".encode() * 84, "\U0001f550".encode() * 62 + b"\xf0\x9f\x95"]
    return unique([b""] + every + short + long + scalars + pairs + mixed + broken + tall + rng.sample(damaged, 3000))


def make_byte_strings():
    listed = byte_strings()
    answers = ask("utf8", listed)
    return store("names.bin", "byte strings", [bytes([int(a)]) + b for b, a in zip(listed, answers, strict=True)])


# ----------------------------------------------------------------- joints

NONE = 255
# where two types differ (document 02, 1/14), which the Rust does not tell
DIFFER = 32


def joint_record(word, first, second, joint):
    given = NONE if joint is None else joint + DIFFER * differ(first, second)
    return word.to_bytes(2, "little") + bytes([first, second, given])


def make_joints():
    """Those of edition 1; then those of edition 2 under the same words, but for the string type that the options do not give. Whether
    two types differ is the account's in both."""
    asked = [[None if word == "-" else int(word) for word in line.split()] for line in ask("coerce")]
    records = [joint_record(*one) for one in asked]
    for word, first, second, _ in asked:
        options = Options(word | EDITION_2)
        if {first, second} & STRINGS <= {options.string_type()}:
            records.append(joint_record(options.word, first, second, joint_of(options, first, second)))
    return store("joints.bin", "joints", records)


if __name__ == "__main__":
    published.ready()
    (PROGRAM / "stdout").write_text(make_texts() + make_byte_strings() + make_joints())
