"""Batches at the edges of the bounds, for `oracle batch`, a line `OPTIONS COMMANDS TEXT` each:

    python3 vectors/edges.py

Commands and text of the greatest length and one more, the 1,024th and the 1,025th place made by every kind of command,
containers and variants at depths around 20, unions of around 128 slots, many children that are put in order.
"""

import random

TEXT = b"a" + b"." * 30
ALLOW_NULL_FIELDS, MAP_AS_STRUCT, ENUMS_AS_STRINGS = 1, 2, 512


def u16(n):
    return bytes([n & 255, n >> 8])


def name(offset, length):
    return u16(offset) + u16(length)


A = name(0, 1)
END = b"\x17"


def field(value, of=A):
    """A record with one field."""
    return b"\x15\x16" + of + value + END


def tuple_of(values):
    return b"\x13" + u16(len(values)) + b"".join(values)


def lengths():
    yield b"\x10" * 65_535
    yield b"\x10" * 65_534 + b"\x01"
    yield b"\x11" * 65_533 + b"\x15\x17"
    yield field(b"\x10" * 65_000 + b"\x04")
    yield b"\x01" * 65_536


def containers(of):
    """Commands that make places, at a variant of that name where they name one."""
    yield b"\x12" + END
    yield b"\x13" + u16(0)
    yield b"\x13" + u16(1) + b"\x12" + END
    yield b"\x14\x0d" + A + b"\x01" + END
    yield field(b"\x01")
    yield b"\x18" + u16(0) + of
    yield b"\x19" + u16(0) + of + b"\x01"
    yield b"\x19" + u16(0) + of + b"\x12" + END
    yield b"\x1a" + u16(0) + of + u16(0)
    yield b"\x1a" + u16(0) + of + u16(1) + b"\x01"
    yield b"\x1b" + u16(0) + of + END
    yield b"\x1b" + u16(0) + of + b"\x16" + A + b"\x01" + END


def full_tables(counts=range(1016, 1025), record=lambda value: value):
    """The last positions of a tuple that all but fills the table, each tuple a record or in one."""
    for count in counts:
        others = [b"\x01"] * (count - 1)
        for last in list(containers(A)) + list(containers(name(0, 20))):
            yield record(tuple_of(others + [last]))
            yield record(tuple_of(others)) + record(tuple_of(others + [last]))
            yield record(tuple_of(others)) + record(tuple_of(others + [b"\x10" + last]))
            yield record(tuple_of(others + [b"\x18" + u16(0) + A])) + record(tuple_of(others + [last]))
    yield record(b"\x13" + u16(65_535))
    yield record(b"\x13" + u16(1) + b"\x01") + record(b"\x13" + u16(65_535) + b"\x01" * 65_000)


def depths():
    for depth in range(17, 23):
        for value in [b"\x01"] + list(containers(A)) + list(containers(name(0, 2))):
            yield field(value, name(1, depth))
            yield b"\x12" * depth + value + END * depth


def slots():
    for count in (127, 128, 129, 300):
        yield field(b"\x12" + b"".join(b"\x18" + u16(i) + A for i in range(count)) + END)
        for contents in (b"\x01", b"\x00", b"\x0f"):
            yield field(b"\x19" + u16(count - 1) + A + contents)
    yield field(b"\x18" + u16(65_535) + A)


def orders():
    """Map-mode fields and variants seen in any order, in one record or in two: (options, commands, text)."""
    rng = random.Random(3)
    for count in (1, 2, 3, 4, 5, 7, 8, 9, 15, 16, 17, 31, 33, 64, 100, 127, 255, 256, 512, 1022):
        texts = [b"".join(b"%04d" % i for i in rng.sample(range(2000), count)), bytes(rng.choices(b"ab", k=count + 40))]
        for text in texts:
            spans = [(4 * i, 4) for i in range(count)] if text is texts[0] else [(i, rng.randrange(40)) for i in range(count)]
            keys = [b"\x0d" + name(*span) + b"\x01" for span in spans]
            again = rng.sample(keys, len(keys))
            yield MAP_AS_STRUCT, field(b"\x14" + b"".join(keys) + END), text
            yield MAP_AS_STRUCT, field(b"\x14" + b"".join(keys[: count // 2]) + END) + field(b"\x14" + b"".join(again) + END), text
        numbers = rng.sample(range(128), min(count, 128))
        variants = [field(b"\x19" + u16(number) + A + b"\x04") for number in numbers]
        yield ALLOW_NULL_FIELDS, b"".join(variants), TEXT
        yield ENUMS_AS_STRINGS, b"".join(field(b"\x18" + u16(number) + A) for number in numbers), TEXT


def main():
    batches = [*lengths(), *full_tables(), *depths(), *slots()]
    for word in (ALLOW_NULL_FIELDS, ALLOW_NULL_FIELDS | MAP_AS_STRUCT, ENUMS_AS_STRINGS):
        for commands in batches:
            print(f"{word:04x} {commands.hex() or '-'} {TEXT.hex()}")
        for text in (b"x" * 65_535, b"x" * 65_536):
            print(f"{word:04x} {field(bytes([1])).hex()} {text.hex()}")
    for word, commands, text in orders():
        print(f"{word:04x} {commands.hex()} {text.hex()}")


if __name__ == "__main__":
    main()
