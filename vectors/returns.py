"""The returns that the gate lists with `schema_list`. Run in any folder; the oracle is brought up to date first:

    python3 vectors/returns.py

Writes crates/schema_list/data (the returns' files), crates/schema_list/args (which three files each return is, one after
another) and crates/schema_list/stdout (what the oracle lists for each, with the mark of widened places that the account adds, and
in edition 2 the account alone: nothing where a file is missing or the options word is not two bytes long, which the program says
on standard error). A second run writes the same bytes.
"""

import pathlib
import re
import shutil
import subprocess
import sys
import tempfile

import published
from batches import EDITION_2
from published import ORACLE, TOP

sys.path.insert(0, str(TOP))
from account.listing import list_return  # noqa: E402

PROGRAM = TOP / "crates" / "schema_list"
DEFAULT, ALLOW_NULL_FIELDS, COERCE_NUMBERS, GUESS_DATES = 30, 1, 64, 256
# one byte more than the call takes
TOO_LONG = 65_536

BOOL, I8, U8, U32, F32, F64, END = b"\x01", b"\x02", b"\x06", b"\x08", b"\x0a", b"\x0b", b"\x17"


def u16(n):
    return n.to_bytes(2, "little")


class Return:
    """Commands and text of a return: each record is a struct, given as a dict of values."""

    def __init__(self, *records):
        self.text = b""
        self.commands = b"".join(map(self.value, records))

    def name(self, s):
        s = s.encode()
        if s not in self.text:
            self.text += s
        return u16(self.text.index(s)) + u16(len(s))

    def value(self, v):
        """Bytes are a command, a string is a text, a list a sequence, a tuple a tuple, an int and a string a unit variant."""
        if isinstance(v, bytes):
            return v
        if isinstance(v, str):
            return b"\x0d" + self.name(v)
        if isinstance(v, list):
            return b"\x12" + b"".join(map(self.value, v)) + END
        if isinstance(v, dict):
            return b"\x15" + b"".join(b"\x16" + self.name(k) + self.value(x) for k, x in v.items()) + END
        if isinstance(v[0], int):
            return b"\x18" + u16(v[0]) + self.name(v[1])
        return b"\x13" + u16(len(v)) + b"".join(map(self.value, v))


# levels that rise and fall, a gap among variants, a field that a record lacks
DECKS = Return(
    {
        "length": F64,
        "name": "name",
        "decks": [{"lanes": [U8, U8], "open": BOOL}],
        "berth": {"quay": {"bollards": U8}, "side": (1, "Port")},
        "calls": (U8, F64),
    },
    {"length": U32},
)

# dates, a name and a child count above 255, and levels that fall by several at once: 4 to 2, and 3 to 0
LONG_NAME = "quays" * 60
BERTHS = {f"berth{i}": {"free": BOOL, "since": {"day": "2026-03-01", "at": "08:15:00"}} if i % 100 == 50 else U8 for i in range(300)}
DATES = Return(
    {
        "departs": "2026-03-01T08:15:00Z",
        LONG_NAME: {"north": {"first": {"depth": {"low": F64, "high": F64}}, "second": U8}, "south": [[U8]]},
        "berths": BERTHS,
        "arrives": "2026-03-01T09:30:00",
    },
)

# the field `r`, by the file of its commands: a struct, a tuple and a map-mode struct without fields are no columns, and a Null is one
REMARKS = {
    "struct": Return({"r": {}}),
    "tuple": Return({"r": b"\x13\0\0"}),
    "map": Return({"r": b"\x14" + END}),
    "null": Return({"r": b"\0"}),
}

# document 01's return, an f64 and then a u32, which edition 1 widens and edition 2 refuses; and one whose numbers have a joint there
LENGTHS = Return({"length": F64, "name": "name"}, {"length": U32})
MILLIMETRES = Return({"length": U8, "draught": F32}, {"length": I8, "draught": F64})

FILES = {
    "decks/options.bin": u16(DEFAULT | ALLOW_NULL_FIELDS | COERCE_NUMBERS),
    "decks/commands.bin": DECKS.commands,
    "decks/text.bin": DECKS.text,
    "dates/options.bin": u16(DEFAULT | GUESS_DATES),
    "dates/commands.bin": DATES.commands,
    "dates/text.bin": DATES.text,
    "remarks/options.bin": u16(DEFAULT | ALLOW_NULL_FIELDS),
    "remarks/text.bin": b"r",
    **{f"remarks/{name}.bin": remarks.commands for name, remarks in REMARKS.items()},
    "lengths/options.bin": u16(DEFAULT | COERCE_NUMBERS),
    "edition_2/options.bin": u16(DEFAULT | COERCE_NUMBERS | EDITION_2),
    "edition_2/lengths.bin": LENGTHS.commands,
    "edition_2/lengths_text.bin": LENGTHS.text,
    "edition_2/millimetres.bin": MILLIMETRES.commands,
    "edition_2/millimetres_text.bin": MILLIMETRES.text,
    "wrong/one.bin": b"\x5f",
    "wrong/three.bin": b"\x5f\0\0",
    "wrong/commands.bin": b"\x15\x17" * (TOO_LONG // 2),
    "wrong/text.bin": b"t" * TOO_LONG,
}

# each return by its three files; those that are turned down stand between others, so that the run goes on after them
RETURNS = [
    ("decks/options.bin", "decks/commands.bin", "decks/text.bin"),
    ("wrong/three.bin", "decks/commands.bin", "decks/text.bin"),
    ("wrong/one.bin", "decks/commands.bin", "decks/text.bin"),
    ("decks/options.bin", "decks/commands.bin", "wrong/none.bin"),
    ("dates/options.bin", "dates/commands.bin", "dates/text.bin"),
    ("decks/options.bin", "wrong/commands.bin", "decks/text.bin"),
    ("decks/options.bin", "decks/commands.bin", "wrong/text.bin"),
    *(("remarks/options.bin", f"remarks/{name}.bin", "remarks/text.bin") for name in REMARKS),
    ("lengths/options.bin", "edition_2/lengths.bin", "edition_2/lengths_text.bin"),
    *(("edition_2/options.bin", f"edition_2/{name}.bin", f"edition_2/{name}_text.bin") for name in ("lengths", "millimetres")),
]


def unmarked(listing):
    """A listing with the mark taken off its nullable bytes, which the Rust does not have."""
    return re.sub(rb"(?m)^(\d+ \d+) ([23]) ", lambda line: b"%s %d " % (line[1], int(line[2]) - published.WIDENED), listing)


def listed(files):
    """What the account lists, in edition 1 once the oracle lists the same but for the mark; nothing for a return that is none."""
    if any(name not in FILES for name in files) or len(FILES[files[0]]) != 2:
        return b""
    with tempfile.TemporaryDirectory() as folder:
        for name, source in zip(("options.bin", "commands.bin", "text.bin"), files):
            pathlib.Path(folder, name).write_bytes(FILES[source])
        told = list_return(folder)
        if not int.from_bytes(FILES[files[0]], "little") & EDITION_2:
            rust = subprocess.run([ORACLE, "list", folder], capture_output=True, check=True).stdout
            assert rust == unmarked(told), files
        return told


def main():
    shutil.rmtree(PROGRAM / "data", ignore_errors=True)
    for name, content in FILES.items():
        path = PROGRAM / "data" / name
        path.parent.mkdir(parents=True, exist_ok=True)
        path.write_bytes(content)
    (PROGRAM / "args").write_text("".join(f"{name}\n" for files in RETURNS for name in files))
    (PROGRAM / "stdout").write_bytes(b"".join(map(listed, RETURNS)))


if __name__ == "__main__":
    published.ready()
    main()
