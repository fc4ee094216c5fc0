"""Writes options.bin, commands.bin and text.bin beside this file: what a host makes of the five records below."""

import pathlib

HERE = pathlib.Path(__file__).resolve().parent
MAP_AS_STRUCT, LARGE_LIST, LARGE_UTF8, LARGE_BINARY, COERCE_NUMBERS, GUESS_DATES = 2, 4, 8, 16, 64, 256
OPTIONS = MAP_AS_STRUCT | LARGE_LIST | LARGE_UTF8 | LARGE_BINARY | COERCE_NUMBERS | GUESS_DATES

NONE, SOME, SEQUENCE, STRUCT, FIELD, END, TEXT = b"\x0f", b"\x10", b"\x12", b"\x15", b"\x16", b"\x17", b"\x0d"
U8, U16, F32 = b"\x06", b"\x07", b"\x0a"

text = b""


def u16(n):
    return n.to_bytes(2, "little")


def name(s):
    """Offset and length of a text, which is put at the end of text.bin unless it stands there already."""
    global text
    if s.encode() not in text:
        text += s.encode()
    return u16(text.index(s.encode())) + u16(len(s.encode()))


def string(s):
    return TEXT + name(s)


def sequence(*values):
    return SEQUENCE + b"".join(values) + END


def struct(**fields):
    return STRUCT + b"".join(FIELD + name(field) + value for field, value in fields.items()) + END


def berth(harbour, quay):
    return struct(harbour=string(harbour), quay=quay)


RECORDS = [
    struct(vessel=string("Fulmar"), departs=string("2026-03-01T08:15:00Z"), passengers=U8, berth=berth("Stromness", U8),
           lorries=sequence(F32, F32)),
    struct(vessel=string("Fulmar"), departs=string("2026-03-01T10:40:00Z"), passengers=U16, berth=berth("Scrabster", U8),
           lorries=sequence(F32), delay=SOME + U8),
    struct(vessel=string("Kittiwake"), departs=string("2026-03-01T11:05:00Z"), passengers=U8, berth=berth("Lyness", NONE),
           lorries=sequence()),
    struct(vessel=string("Kittiwake"), departs=string("2026-03-01T12:30:00Z"), passengers=U8, berth=berth("Flotta", U8),
           lorries=sequence(), delay=NONE),
    struct(vessel=string("Fulmar"), departs=string("2026-03-01T16:00:00Z"), passengers=U16, berth=berth("Stromness", U8),
           lorries=sequence(F32, U8)),
]

HERE.joinpath("options.bin").write_bytes(u16(OPTIONS))
HERE.joinpath("commands.bin").write_bytes(b"".join(RECORDS))
HERE.joinpath("text.bin").write_bytes(text)
