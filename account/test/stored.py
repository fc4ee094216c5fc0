"""The account held to the stored answers of the published Rust, and in the mark of widened places and in edition 2 to its own as they
are stored (vectors/README.md has the layouts)."""

import pathlib

from ..answer import Lent, answer
from ..chrono import FORMS, text_type
from ..coerce import differ, joint
from ..commands import is_utf8
from ..datatype import STRINGS
from ..listing import list_files, list_return
from ..options import Options

TOP = pathlib.Path(__file__).resolve().parent.parent.parent
CRATES = TOP / "crates"
GUESS_DATES, LARGE_UTF8 = 256, 8
# what stands for no joint, and what is added to a joint's code where the types differ
NO_JOINT = 255
DIFFER = 32


def records(file):
    """Each record stands behind a byte that counts it."""
    data = (CRATES / "record_vectors" / "data" / file).read_bytes()
    while data:
        yield data[1:1 + data[0]]
        data = data[1 + data[0]:]


def check_texts():
    count = 0
    for count, record in enumerate(records("texts.bin"), 1):
        text = record[3:]
        # the forms that fit, as bits in the order in which they are tried
        fits = sum(1 << i for i, (form, _) in enumerate(FORMS) if form.fullmatch(text))
        types = [text_type(Options(GUESS_DATES | large), text) for large in (0, LARGE_UTF8)]
        assert bytes([fits, *types]) == record[:3], text
    return count


def check_names():
    count = 0
    for count, record in enumerate(records("names.bin"), 1):
        assert is_utf8(record[1:]) == bool(record[0]), record
    return count


def check_joints():
    """Pairs without a string type that the options do not give: no batch shows one."""
    count = 0
    for record in records("joints.bin"):
        options = Options(int.from_bytes(record[:2], "little"))
        first, second, given = record[2:]
        if {first, second} & STRINGS <= {options.string_type()}:
            count += 1
            both = joint(options, first, second)
            wanted = NO_JOINT if both is None else both + DIFFER * differ(first, second)
            assert given == wanted, (options, first, second)
    return count


def questions(data):
    """The stored questions to the whole call, each with its answer."""
    while data:
        word = int.from_bytes(data[:2], "little")
        numbers = [int.from_bytes(data[at:at + 3], "little") for at in range(2, 32, 3)]
        table, commands, text, records_lent, names_lent, refusal, place, field_records, name_bytes, columns = numbers
        data = data[32:]
        parts = []
        for length in (commands, text, 8 * field_records, name_bytes):
            parts.append(data[:length])
            data = data[length:]
        asked = (word, parts[0], parts[1], Lent(table, records_lent, names_lent))
        yield asked, (refusal, place, columns, parts[2], parts[3])


def check_answers():
    count = 0
    for file in sorted((CRATES / "answers_vectors" / "data").iterdir()):
        for asked, wanted in questions(file.read_bytes()):
            count += 1
            given = answer(*asked)
            assert (given.refusal, given.place, given.columns, given.records, given.names) == wanted, (file.name, asked)
            assert given.table_is_zeroed == (given.refusal not in (1, 2, 3)), asked
    return count


def check_listings():
    """Those that the gate lists one after another, and the example's."""
    program = CRATES / "schema_list"
    files = [program / "data" / name for name in (program / "args").read_text().split()]
    returns = [files[i:i + 3] for i in range(0, len(files), 3)]
    assert b"".join(list_files(*paths) for paths in returns) == (program / "stdout").read_bytes(), program
    ferries = TOP / "examples" / "ferries"
    assert list_return(ferries) == (ferries / "listing").read_bytes(), ferries
    return len(returns) + 1


def check():
    yield "texts, with the matchers' answers", check_texts()
    yield "byte strings, UTF-8 or not", check_names()
    yield "pairs of types, with their joint", check_joints()
    yield "questions to the whole call", check_answers()
    yield "listings", check_listings()
