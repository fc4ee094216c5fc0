"""Questions to the whole call, with the answers of the published Rust, to which the account (../account) adds the mark of widened
places, and, in edition 2, with the account's, for `answers_vectors`. Run in any folder; the oracle is brought up to date first:

    python3 vectors/answers.py

Writes crates/answers_vectors/data/*.bin and crates/answers_vectors/stdout. A question is the options word (two bytes), ten
numbers (three bytes each; the low byte is first), the commands, the text, and the answer's field records and names. The
numbers: words of the table lent, length of commands and of text, bytes of both buffers lent; then the answer's refusal,
place, field records, name bytes and columns.

Refusals 2 and 18 are lengths, compared here; all else is the oracle's or the account's. The Rust has no mark (document 02,
1/14): where an answer of its differs in more from the account's, none is stored. The lists depend on nothing but
this file, batches.py and edges.py: a second run writes the same bytes.
"""

import itertools
import random
import subprocess
import sys

import batches
import edges
import published
from published import ORACLE, TOP, unmarked

sys.path.insert(0, str(TOP))
from account.answer import answer as account_of  # noqa: E402

PROGRAM = TOP / "crates" / "answers_vectors"
# what the program has room for
FILE, BUFFER, TABLE, TABLE_USED = 262_144, 16_384, 16_400, 16_384


def oracle(questions):
    """For each (options, commands, text): (refusal, place), or (field records, names, columns)."""
    lines = "".join(f"{o:04x} {c.hex() or '-'} {t.hex() or '-'}\n" for o, c, t in questions)
    done = subprocess.run([ORACLE, "batch"], input=lines, capture_output=True, text=True, check=True)
    for line in done.stdout.splitlines():
        what, *rest = line.split()
        if what == "refused":
            yield int(rest[0]), int(rest[1])
        else:
            records, names = (b"" if word == "-" else bytes.fromhex(word) for word in rest[:2])
            yield records, names, int(rest[2])


def account(questions):
    """The same of the account."""
    for options, commands, text in questions:
        given = account_of(options, commands, text)
        yield (given.refusal, given.place) if given.refusal else (given.records, given.names, given.columns)


def both(questions):
    """The account's, once the oracle's are the same but for the mark."""
    for asked, rust, marked in zip(questions, oracle(questions), account(questions), strict=True):
        plain = (unmarked(marked[0]), *marked[1:]) if len(marked) == 3 else marked
        assert rust == plain, asked
        yield marked


def lend(rng, needed):
    """Bytes of a buffer: what is needed, one less, or more; any where it is not known."""
    if needed is None:
        return rng.choice([0, 7, 8, 100, BUFFER])
    pick = rng.random()
    if pick < 0.4:
        return needed
    if pick < 0.5:
        return max(needed - 1, 0)
    return min(needed + rng.choice([1, 7, 8, 300]), BUFFER)


def three(n):
    return n.to_bytes(3, "little")


def question(rng, asked, answer):
    """A question's bytes, and its refusal."""
    options, commands, text = asked
    needed = (len(answer[0]), len(answer[1])) if len(answer) == 3 else (None, None)
    record_bytes, name_bytes = lend(rng, needed[0]), lend(rng, needed[1])
    words = rng.randrange(TABLE_USED) if rng.random() < 0.01 else rng.choice([TABLE_USED, TABLE_USED + 3, TABLE])
    if rng.random() < 0.02:
        words = TABLE_USED - 1
    if words < TABLE_USED and options < 1 << 11:
        answer = (2, 0)
    elif len(answer) == 3 and (record_bytes < needed[0] or name_bytes < needed[1]):
        answer = (18, len(commands))
    refusal, place, records, names, columns = (*answer, b"", b"", 0) if len(answer) == 2 else (0, 0, *answer)
    numbers = [words, len(commands), len(text), record_bytes, name_bytes,
               refusal, place, len(records) // 8, len(names), columns]
    return options.to_bytes(2, "little") + b"".join(map(three, numbers)) + commands + text + records + names, refusal


# ------------------------------------------------------------------ which questions


def few_names(made):
    """A handful of names, so that a batch's text is short."""
    made.take(made.rng.sample(batches.NAMES, 4))


def shaped(seed):
    made = batches.Batches(seed)
    while True:
        few_names(made)
        commands = made.shaped()
        if len(commands) < 400:
            yield made.options(), commands, made.text


def damaged():
    made = batches.Batches(102)
    while True:
        few_names(made)
        commands = made.any_bytes() if made.chance(10) else made.damaged(made.shaped())
        if len(commands) < 400:
            yield made.options(), commands, made.text


SMALL_TEXT = b"ab2024-01-02T03:04:05Zv7"


def of(*values):
    """A record for each, with it in the one field."""
    return b"".join(edges.field(value) for value in values)


def small():
    """Small batches over SMALL_TEXT, one for each thing that an option decides."""
    a, b, date, v, digit = (edges.name(*span) for span in [(0, 1), (1, 1), (2, 20), (22, 1), (23, 1)])

    def variant(form, number, name, contents=b""):
        return bytes([form]) + edges.u16(number) + name + contents

    return [
        b"",
        b"\x00",
        b"\x15\x17",
        of(b"\x0f"),
        of(b"\x10\x00", b"\x04"),
        of(b"\x06", b"\x07"),
        of(b"\x06", b"\x02"),
        of(b"\x0a", b"\x0a"),
        of(b"\x0a", b"\x09"),
        of(b"\x01", b"\x0d" + a, b"\x04"),
        of(b"\x01", b"\x04"),
        of(b"\x0d" + digit, b"\x0c"),
        of(b"\x0d" + date),
        of(b"\x0d" + date, b"\x0d" + edges.name(2, 19)),
        of(b"\x0d" + edges.name(2, 10)),
        of(b"\x0d" + edges.name(2, 10), b"\x0d" + a),
        of(b"\x0d" + edges.name(13, 8)),
        of(b"\x0e"),
        of(b"\x12\x0d" + a + b"\x17"),
        of(b"\x12\x17"),
        of(b"\x13\x02\x00\x01\x0d" + b, b"\x13\x03\x00\x01\x0d" + b + b"\x0e"),
        of(b"\x14\x0d" + b + b"\x04\x0d" + a + b"\x01\x17", b"\x14\x0d" + a + b"\x01\x17"),
        of(b"\x14\x06\x0d" + a + b"\x17"),
        of(b"\x14\x0f\x0f\x17"),
        of(b"\x14\x17", b"\x15\x16" + b + b"\x01\x17"),
        of(variant(0x18, 0, a), variant(0x18, 1, b)),
        of(variant(0x18, 1, b)),
        of(variant(0x18, 0, a), variant(0x19, 2, v, b"\x0d" + date)),
        of(variant(0x1A, 0, a, b"\x01\x00\x0f"), variant(0x1B, 1, b, b"\x16" + v + b"\x04\x17")),
        of(b"\x12" + b"".join(variant(0x18, i, a) for i in range(129)) + b"\x17"),
    ]


LENGTHS = bytes.fromhex("15 16 00000600 0B 16 06000400 0D 06000400 17 15 16 00000600 08 17"), b"lengthname"


def each_option():
    """The small batches under words of edition 1 that differ in each bit."""
    words = [0, 30, 1023] + [base ^ 1 << bit for base in (0, 30, 1023) for bit in range(10)]
    for commands in small():
        for options in words:
            yield options, commands, SMALL_TEXT
    for bit in range(11, 16):
        yield 30 | 1 << bit, b"\x15\x17", SMALL_TEXT
    # document 01's sounding, over tables and buffers of several lengths
    for _ in range(4):
        yield 94, *LENGTHS


def edition_2():
    """Document 01's sounding, each two number types, and with a text between and behind; the small batches; random ones."""
    coerce, to_string = 1 << 6, 1 << 7
    for options in (94, 30, 95, 127):
        yield options | batches.EDITION_2, *LENGTHS
    text = b"\x0d" + edges.name(0, 1)
    for pair in itertools.product(batches.NUMBERS, repeat=2):
        first, second = (bytes([command]) for command in pair)
        yield coerce | batches.EDITION_2, of(first, second), SMALL_TEXT
        yield coerce | to_string | batches.EDITION_2, of(first, text, second), SMALL_TEXT
        yield coerce | to_string | batches.EDITION_2, of(first, second, text), SMALL_TEXT
    for commands in small():
        for options in (0, 30, 94, 1023):
            yield options | batches.EDITION_2, commands, SMALL_TEXT
    for options, commands, text in shaped(105):
        yield options | batches.EDITION_2, commands, text


def limits():
    rng = random.Random(104)
    yield edges.ALLOW_NULL_FIELDS, edges.field(b"\x01"), b"x" * 65_536
    for commands in edges.slots():
        for options in (edges.ALLOW_NULL_FIELDS, edges.ENUMS_AS_STRINGS, 30):
            yield options, commands, edges.TEXT
    for commands in rng.sample([edges.field(value) for value in edges.depths()], 180):
        yield rng.choice([edges.ALLOW_NULL_FIELDS, edges.ALLOW_NULL_FIELDS | edges.MAP_AS_STRUCT]), commands, edges.TEXT
    full = [commands for commands in edges.full_tables(range(1019, 1024), edges.field) if len(commands) < 3000]
    for commands in rng.sample(full, 50):
        yield edges.ALLOW_NULL_FIELDS, commands, edges.TEXT


def lengths():
    yield edges.ALLOW_NULL_FIELDS, edges.field(b"\x10" * 65_527 + b"\x04"), edges.TEXT
    yield edges.ALLOW_NULL_FIELDS, b"\x01" * 65_536, edges.TEXT
    yield edges.ALLOW_NULL_FIELDS, edges.field(b"\x01"), b"x" * 65_535


# ------------------------------------------------------------------ files


def ask(name, who, batch_list, count, seed):
    """The first questions of a list, as many as asked for and as there is room for, with the answers of the account or of both."""
    rng = random.Random(seed)
    asked = [b for b, _ in zip(batch_list, range(count))]
    made, refusals = b"", []
    for one, answer in zip(asked, who(asked), strict=True):
        if len(answer) == 3 and max(len(answer[0]), len(answer[1])) > BUFFER:
            continue
        more, refusal = question(rng, one, answer)
        if len(made) + len(more) <= FILE:
            made += more
            refusals.append(refusal)
    (PROGRAM / "data" / name).write_bytes(made)
    print(f"{name}: {len(refusals)} questions, {refusals.count(0)} accepted, {len(made)} bytes")
    return refusals


LISTS = [
    ("shaped.bin", both, shaped(101), 1700, "batches of a shape"),
    ("damaged.bin", both, damaged(), 1200, "damaged batches"),
    ("options.bin", both, each_option(), 10_000, "batches under each option"),
    ("limits.bin", both, limits(), 10_000, "batches near the limits"),
    ("lengths.bin", both, lengths(), 3, "batches of the greatest length"),
    ("edition_2.bin", account, edition_2(), 1200, "batches in edition 2"),
]


def main():
    (PROGRAM / "data").mkdir(parents=True, exist_ok=True)
    said, all_refusals = "", []
    for seed, (name, who, batch_list, count, what) in enumerate(LISTS):
        refusals = ask(name, who, batch_list, count, seed)
        said += f"{len(refusals)} {what} in {(PROGRAM / 'data' / name).stat().st_size} bytes, 0 differ\n"
        all_refusals += refusals
    (PROGRAM / "stdout").write_text(said)
    for number in range(19):
        print(f"refusal {number}: {all_refusals.count(number)}")
        assert number in all_refusals


if __name__ == "__main__":
    published.ready()
    main()
