"""Random batches in edition 1 for `oracle batch`, a line `OPTIONS COMMANDS TEXT` each:

    python3 vectors/batches.py SEED COUNT

Most batches come of a random shape, whose records then fit together; some have parts of no shape, some are damaged, some
are any bytes. Some begin with a tuple that leaves few of the 1,024 places, and some with names of many dots.
"""

import random
import sys

NAMES = [b"a", b"b", b"c", b"key", b"element", b"a.b", b".", b"", b"0", "é".encode(), "€.".encode(), b"d" * 30,
         b"2024-01-02", b"1:2:3", b"2024-01-02T03:04:05", b"2024-01-02T03:04:05Z", b"1-2-3 4:5:6+00:00", b"." * 9, b"." * 18]
NOT_UTF8 = b"\xff\xc3"
# names that every text has
ALWAYS = [b"a", b"." * 18]

EDITION_2 = 1 << 10

PRIMITIVES = list(range(0x00, 0x10))
NUMBERS = list(range(0x02, 0x0D))


def u16(n):
    return bytes([n & 255, n >> 8])


class Batches:
    def __init__(self, seed, names=NAMES):
        self.rng = random.Random(seed)
        self.take(names)

    def take(self, names):
        """Later batches have these names."""
        self.names = names
        self.text = b"".join(names) + b"".join(name for name in ALWAYS if name not in names) + NOT_UTF8

    def chance(self, percent):
        return self.rng.random() * 100 < percent

    # -- operands

    def name(self, name):
        if self.chance(0.1):
            return u16(self.rng.randrange(len(self.text) + 2)) + u16(self.rng.randrange(6))
        return u16(self.text.index(name)) + u16(len(name))

    def any_name(self):
        return self.rng.choice(self.names)

    def number(self):
        if self.chance(5):
            return self.rng.choice([126, 127, 128, 129, 300])
        return self.rng.choice([0, 0, 0, 1, 1, 2, 3, 5])

    # -- shapes: (kind, ...)

    def shape(self, depth):
        pick = self.rng.random()
        if depth == 0 or pick < 0.45:
            return ("primitive", self.rng.choices(self.rng.choice([PRIMITIVES, NUMBERS, [0x0D], [0x00, 0x0F]]),
                                                  k=self.rng.choice([1, 1, 2])))
        if pick < 0.55:
            return ("sequence", self.shape(depth - 1))
        if pick < 0.63:
            return ("tuple", [self.shape(depth - 1) for _ in range(self.rng.randrange(4))])
        if pick < 0.72:
            return ("map", self.shape(0) if self.chance(30) else ("primitive", [0x0D]), self.shape(depth - 1))
        if pick < 0.86:
            return self.struct(depth)
        return ("union", {self.number(): self.variant(depth) for _ in range(self.rng.choice([1, 1, 2, 3]))})

    def struct(self, depth):
        return ("struct", [(self.any_name(), self.shape(depth - 1)) for _ in range(self.rng.randrange(5))])

    def variant(self, depth):
        form = self.rng.choice([0x18, 0x18, 0x19, 0x1A, 0x1B])
        if form == 0x18:
            shape = None
        elif form == 0x19:
            shape = self.shape(depth - 1)
        elif form == 0x1A:
            shape = ("tuple", [self.shape(depth - 1) for _ in range(self.rng.randrange(3))])
        else:
            shape = self.struct(depth)
        return (self.any_name(), form, shape)

    # -- values of a shape

    def value(self, shape, nullable=True):
        out = b""
        while self.chance(8):
            out += self.rng.choice([b"\x10", b"\x11"]) if nullable else b"\x11"
        if nullable and self.chance(4):
            return out + self.rng.choice([b"\x00", b"\x0f"])
        if self.chance(1):
            shape = self.shape(2)
        kind = shape[0]
        if kind == "primitive":
            return out + self.primitive(self.rng.choice(shape[1]))
        if kind == "sequence":
            return out + b"\x12" + b"".join(self.value(shape[1]) for _ in range(self.rng.randrange(4))) + b"\x17"
        if kind == "tuple":
            return out + b"\x13" + self.positions(shape)
        if kind == "map":
            return out + b"\x14" + b"".join(self.value(shape[1]) + self.value(shape[2])
                                            for _ in range(self.rng.randrange(3))) + b"\x17"
        if kind == "struct":
            return out + b"\x15" + self.fields(shape)
        number = self.rng.choice(list(shape[1]))
        name, form, contents = shape[1][number]
        if self.chance(2):
            name = self.any_name()
        out += bytes([form]) + u16(number) + self.name(name)
        return out + {0x18: lambda: b"", 0x19: lambda: self.value(contents), 0x1A: lambda: self.positions(contents),
                      0x1B: lambda: self.fields(contents)}[form]()

    def primitive(self, code):
        return bytes([code]) + (self.name(self.any_name()) if code == 0x0D else b"")

    def positions(self, shape):
        shapes = list(shape[1])
        while self.chance(10):
            shapes.append(self.shape(1))
        if self.chance(5):
            shapes = shapes[:-1]
        return u16(len(shapes)) + b"".join(map(self.value, shapes))

    def fields(self, shape):
        fields = [f for f in shape[1] if not self.chance(10)]
        if self.chance(10):
            self.rng.shuffle(fields)
        if self.chance(3):
            fields.append((self.any_name(), self.shape(1)))
        return b"".join(b"\x16" + self.name(name) + self.value(s) for name, s in fields) + b"\x17"

    # -- batches

    def options(self):
        if self.chance(1):
            return self.rng.randrange(1 << 16) & ~EDITION_2
        word = self.rng.randrange(1 << 10)
        return word | 1 if self.chance(60) else word

    def shaped(self):
        root = self.struct(4) if self.chance(94) else self.shape(4)
        if self.chance(8):
            root = ("struct", [(b"." * self.rng.choice([9, 18]), root), (b"." * 9, self.shape(3))])
        out = b""
        if self.chance(4):
            left = self.rng.randrange(12)
            out += b"\x15\x16" + self.name(b"a") + b"\x13" + u16(1022 - left) + b"\x01" * (1022 - left) + b"\x17"
        nullable = self.chance(4)
        return out + b"".join(self.value(root, nullable) for _ in range(self.rng.choice([0] + 6 * [1, 2, 3, 5])))

    def damaged(self, commands):
        commands = bytearray(commands)
        for _ in range(self.rng.choice([1, 1, 2, 3])):
            at = self.rng.randrange(len(commands) + 1)
            what = self.rng.randrange(5)
            if what == 0:
                del commands[at:]
            elif what == 1:
                del commands[at:at + 1]
            elif what == 2:
                commands[at:at + 1] = bytes([self.rng.randrange(0x1D)])
            elif what == 3:
                commands[at:at] = bytes([self.rng.randrange(0x1D)])
            else:
                commands[at:at] = commands[at:at + self.rng.randrange(12)]
        return bytes(commands)

    def any_bytes(self):
        return bytes(self.rng.randrange(0x1C) for _ in range(self.rng.randrange(20)))

    def line(self):
        if self.chance(5):
            commands = self.any_bytes()
        else:
            commands = self.shaped()
            if self.chance(20):
                commands = self.damaged(commands)
        return f"{self.options():04x} {commands.hex() or '-'} {self.text.hex()}"


def main():
    words = sys.argv[1:]
    if len(words) != 2 or not all(word.isascii() and word.isdigit() for word in words):
        print("usage: python3 vectors/batches.py SEED COUNT", file=sys.stderr)
        sys.exit(2)
    batches = Batches(int(words[0]))
    for _ in range(int(words[1])):
        print(batches.line())


if __name__ == "__main__":
    main()
