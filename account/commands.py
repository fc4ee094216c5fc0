"""Document 01, "Commands and texts": from bytes to values, and refusals 1 and 3 to 6.

    read(options, commands, text)     the records of a batch, and where the reading stopped, if it did

The call reads and traces at the same time; here a batch is read through first. It comes to the same: a command that
cannot be read makes no value, so whatever tracing refuses stands at an earlier command and goes first.
"""

import sys
from typing import NamedTuple

from . import datatype as t
from . import kinds
from .chrono import text_type
from .refusal import BAD_COMMAND, BAD_KEY, BAD_NAME, Refused
from .values import Part, Value

# Values nest as deep as commands are long.
sys.setrecursionlimit(400_000)

LONGEST = 65_535

UNIT, TEXT, BYTES, NONE, SOME, NEWTYPE_STRUCT = 0x00, 0x0D, 0x0E, 0x0F, 0x10, 0x11
SEQUENCE, TUPLE, MAP, STRUCT, FIELD, END = 0x12, 0x13, 0x14, 0x15, 0x16, 0x17
UNIT_VARIANT, NEWTYPE_VARIANT, TUPLE_VARIANT, STRUCT_VARIANT = VARIANTS = 0x18, 0x19, 0x1A, 0x1B

# "01 bool; 02 to 05 i8 i16 i32 i64; 06 to 09 u8 u16 u32 u64; 0A f32; 0B f64; 0C char (UInt32)"
PLAIN_TYPES = {
    0x01: t.BOOLEAN, 0x02: t.INT8, 0x03: t.INT16, 0x04: t.INT32, 0x05: t.INT64, 0x06: t.UINT8, 0x07: t.UINT16,
    0x08: t.UINT32, 0x09: t.UINT64, 0x0A: t.FLOAT32, 0x0B: t.FLOAT64, 0x0C: t.UINT32,
}

# "One byte, hexadecimal, then u16 operands, low byte first." A name is "an offset and a length in the text slice".
OPERANDS = {
    TEXT: ["name"], TUPLE: ["count"], FIELD: ["name"], UNIT_VARIANT: ["number", "name"],
    NEWTYPE_VARIANT: ["number", "name"], TUPLE_VARIANT: ["number", "name", "count"], STRUCT_VARIANT: ["number", "name"],
}
WIDTH = {"number": 2, "name": 4, "count": 2}
LENGTH = {code: 1 + sum(WIDTH[operand] for operand in OPERANDS.get(code, [])) for code in range(0x1C)}

# which commands can stand where a value is due, a value or an end, a field or an end
VALUE = set(LENGTH) - {FIELD, END}
VALUE_OR_END = VALUE | {END}
FIELD_OR_END = {FIELD, END}


class Command(NamedTuple):
    """One command taken apart."""
    at: int
    code: int
    number: int = 0
    name: bytes = b""
    count: int = 0


class Reading(NamedTuple):
    """The records, and the refusal at which the reading stopped, None if it came to the end. All that was read before
    that is in the records; what was not is missing from the last one."""
    records: list
    stopped: Refused | None


def is_utf8(name):
    try:
        name.decode("utf-8")
    except UnicodeDecodeError:
        return False
    return True


def is_too_long(commands, text):
    """Refusal 3: "commands or text exceed 65,535 bytes"."""
    return len(commands) > LONGEST or len(text) > LONGEST


def is_well_formed(options, commands, text):
    """Whether, "read through without tracing, none of refusals 1 and 3 to 6 applies"."""
    if options.has_unknown_bit() or is_too_long(commands, text):
        return False
    return read(options, commands, text).stopped is None


def read(options, commands, text):
    """The records of a batch: "a batch is values up to the end, each a record at the root"."""
    reader = Reader(options, commands, text)
    records = []
    try:
        while reader.at < len(commands):
            command = reader.command(VALUE)
            records.append(Value())
            reader.fill(records[-1], command)
    except Refused as stopped:
        return Reading(records, stopped)
    return Reading(records, None)


class Reader:
    """The commands and an offset. Each method below `command` fills a value with what stands there."""

    def __init__(self, options, commands, text):
        self.options = options
        self.commands = commands
        self.text = text
        self.at = 0

    # ---- one command

    def command(self, due):
        """The command here, one of those due. "Place is the byte offset of the command read, also when its operands
        are cut off; the commands' length where they end with a command or an end still due". 4 goes before 5."""
        at = self.at
        code = self.commands[at] if at < len(self.commands) else None
        if code not in due or at + LENGTH[code] > len(self.commands):
            raise Refused(BAD_COMMAND, at)
        operands = {}
        behind = at + 1
        for operand in OPERANDS.get(code, ()):
            operands[operand] = self.name(at, behind) if operand == "name" else self.u16(behind)
            behind += WIDTH[operand]
        self.at = behind
        return Command(at, code, **operands)

    def u16(self, at):
        return self.commands[at] | self.commands[at + 1] << 8

    def name(self, command, at):
        """Refusal 5: "a name's offset plus length exceeds the text, or it is not UTF-8"."""
        offset, length = self.u16(at), self.u16(at + 2)
        name = self.text[offset:offset + length]
        if offset + length > len(self.text) or not is_utf8(name):
            raise Refused(BAD_NAME, command)
        return name

    # ---- the value that a command begins

    def fill(self, value, command):
        """The value that begins with this command. At "10 some, 11 newtype struct: one value follows", at the same
        place, for "10 and 11 make no step"; some marks it."""
        while command.code in (SOME, NEWTYPE_STRUCT):
            value.null |= command.code == SOME
            command = self.command(VALUE)
        value.at = command.at
        if command.code in (UNIT, NONE):
            value.null = True
        elif command.code in PLAIN_TYPES:
            value.kind = PLAIN_TYPES[command.code]
        elif command.code == TEXT:
            value.kind = text_type(self.options, command.name)
        elif command.code == BYTES:
            value.kind = self.options.binary_type()
        elif command.code in VARIANTS:
            self.variant(value, command)
        else:
            self.container(value, command)

    def container(self, value, command):
        """12 to 15. Under map_as_struct a map is a struct in map mode."""
        if command.code == SEQUENCE:
            self.sequence(value)
        elif command.code == TUPLE:
            self.tuple(value, command.count)
        elif command.code == STRUCT:
            self.struct(value)
        elif self.options.map_as_struct():
            self.map_as_struct(value)
        else:
            self.map(value)

    def variant(self, value, command):
        """18 to 1B: "operands are the variant number, then the name, for 1A then n; contents as for the plain form"."""
        value.kind = kinds.UNION
        contents = self.below(value, command.at, kinds.variant(command.number), command.name)
        contents.at = command.at
        if command.code == UNIT_VARIANT:
            contents.null = True                # "a unit variant at its variant, observes Null"
        elif command.code == NEWTYPE_VARIANT:
            self.fill(contents, self.command(VALUE))
        elif command.code == TUPLE_VARIANT:
            self.tuple(contents, command.count)
        else:
            self.struct(contents)

    # ---- the parts of a container

    def below(self, value, at, step, name):
        """A part of a value, still to be filled."""
        part = Part(at, step, name, Value())
        value.parts.append(part)
        return part.value

    def value_below(self, value, step, command):
        """A part that begins with its value's first command."""
        self.fill(self.below(value, command.at, step, kinds.name_of(step)), command)

    def named_below(self, value, command):
        """A part that begins with its name: 16, or a key."""
        self.fill(self.below(value, command.at, kinds.field(command.name), command.name), self.command(VALUE))

    def sequence(self, value):
        """12: values, then 17 (end)."""
        value.kind = kinds.SEQUENCE
        while (command := self.command(VALUE_OR_END)).code != END:
            self.value_below(value, kinds.ELEMENT, command)

    def tuple(self, value, count):
        """13: "n values, no end"."""
        value.kind = kinds.TUPLE
        value.positions = count
        for i in range(count):
            self.value_below(value, kinds.position(i), self.command(VALUE))

    def map(self, value):
        """14: "keys each with a value, then 17 (end)"."""
        value.kind = kinds.MAP
        while (command := self.command(VALUE_OR_END)).code != END:
            self.value_below(value, kinds.KEY, command)
            self.value_below(value, kinds.VALUE, self.command(VALUE))

    def struct(self, value):
        """15: "fields, each 16 (name) and a value, then 17"."""
        value.kind = kinds.STRUCT
        while (command := self.command(FIELD_OR_END)).code != END:
            self.named_below(value, command)

    def map_as_struct(self, value):
        """14 where "under map_as_struct a key command makes its field's place, as 16 does". Refusal 6, after the key's
        own 4 and 5: "under map_as_struct a key is not 0D"."""
        value.kind = kinds.MAP_MODE
        while (command := self.command(VALUE_OR_END)).code != END:
            if command.code != TEXT:
                raise Refused(BAD_KEY, command.at)
            self.named_below(value, command)
