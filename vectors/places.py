"""Batches for `samples_vectors`, and the places that tracing them must leave, as the account has them (../account):

    python3 vectors/places.py

Writes crates/samples_vectors/data/batches.bin (a batch is the options word, the lengths of commands and text, each of
two bytes, low byte first, then both) and crates/samples_vectors/stdout. There a batch is `places COUNT` and a line for
each place, behind `refused NUMBER PLACE` where tracing is refused: then the places are those of the tree as it stands
half-traced. A line is the place's words, the two links of one word with a slash between them, the name as the offset
and the length of where the text first gave it; NULL is 1 where null was seen, and 2 more where the place was widened:

    KIND NULL SAMPLES FIRST/LAST ROOT/BLOCK LEFT/RIGHT NEXT/PARENT STEP OFFSET+LENGTH HELD MARK TAG POSITION

The last line is how many bytes batches.bin has.
"""

import random
import sys
from dataclasses import dataclass

import batches
import published
from published import TOP

PROGRAM = TOP / "crates" / "samples_vectors"
WANTED = 160
LONGEST = 250

sys.path.insert(0, str(TOP))
from account import kinds  # noqa: E402
from account.commands import read  # noqa: E402
from account.datatype import NULL  # noqa: E402
from account.options import Options  # noqa: E402
from account.places import Place, Tracer  # noqa: E402
from account.refusal import Refused  # noqa: E402

# a tuple whose last position would be the 1,025th place
TOO_MANY_PLACES = (0, bytes([0x13, 0x00, 0x04]), b"")

# a short one to read: two records with a struct and an enum, refused at the last value, a text where a number stood. The
# `some` before it has marked its place by then.
HALFWAY = (0, bytes.fromhex(
    "15 16 00000200 08 16 02000300 15 16 05000100 0B 16 06000100 0B 17 16 07000400 18 0000 0B000400 17"
    "15 16 00000200 08 16 07000400 18 0100 0F000400 16 02000300 15 16 05000100 0B 16 06000100 10 0D 05000200"
), b"idposxymodesailmoor")

# how the tracer's words have a kind, and a step: positions and variants go by turns
KINDS = {kinds.SEQUENCE: 22, kinds.STRUCT: 24, kinds.MAP: 25, kinds.UNION: 26, kinds.TUPLE: 27, kinds.MAP_MODE: 28}
STEPS = {"element": 0, "key": 1, "value": 2, "field": 3}

# how many bytes behind a command's first the name stands that it gives to the place at a step
NAME_BEHIND = {"field": 1, "variant": 3}


def step_code(step):
    if step.to == "position":
        return 4 + 2 * step.by
    if step.to == "variant":
        return 5 + 2 * step.by
    return STEPS[step.to]


def four(name, at):
    return int.from_bytes(name[at:at + 4], "little")


def mixed(*products):
    """The upper 32 of the lower 48 bits of a sum of products."""
    return sum(products) // 65536 % 2**32


def tag(name):
    """As the definition has it (crates/text/specs/Tag.antt): of up to three bytes the length and all of them, of up to twelve the first,
    middle and last four mixed, of a longer name all bytes in two lanes, the last eight once more."""
    n = len(name)
    if n == 0:
        return 0
    if n < 4:
        return int.from_bytes([n, name[0], name[n // 2], name[n - 1]], "little")
    if n <= 12:
        return mixed(four(name, 0) * 506832829, four(name, n // 2 - 2) * 668265263, four(name, n - 4) * 374761393)
    one, two = n, 0
    for at in [*range(0, n - 7, 8), n - 8]:
        one, two = mixed((one + four(name, at)) * 1540483477), mixed((two + four(name, at + 4)) * 1540483477)
    return mixed((one + two) * 1540483477)


@dataclass(slots=True, eq=False)
class Child:
    """What a place is to its parent: the words that the account's own place does not have."""
    number: int
    parent: Place
    step: kinds.Step
    offset: int = 0         # where the text first gave its name, and the name
    name: bytes = b""
    held: int = 0           # how many of the parent's samples hold it, the present one as soon as it does
    mark: int = 0           # the number of the last that does


class HalfTraced(Tracer):
    """The account's tracer, and what it knows of each place at every command: also where it is refused at the next."""

    def __init__(self, options, commands, text):
        super().__init__(options)
        self.commands, self.text = commands, text
        self.as_child = {self.root: Child(0, self.root, kinds.ELEMENT)}     # it stands for itself, at step 0
        self.announced = {}     # of a tuple that came to an unknown place: the positions that are to be made at once

    def observe(self, place, value):
        """The account counts a sample's parts, and marks null, behind a value's refusals; the tracer before them, for
        the commands that say so stand before it."""
        self.touch(place)
        place.null |= value.null
        if value.kind == kinds.TUPLE and place.kind == NULL:
            self.announced[place] = value.positions
        super().observe(place, value)

    def touch(self, place):
        child = self.as_child[place]
        if place is not self.root and child.mark != child.parent.samples:
            child.mark = child.parent.samples
            child.held += 1

    def child(self, place, step, name, at):
        number = len(self.places)
        child = super().child(place, step, name, at)
        if number < len(self.places):
            self.as_child[child] = Child(number, place, step, *self.given(step, at))
        return child

    def given(self, step, at):
        """Where the text gives the name that stands in the command at that offset, and its bytes."""
        if step.to not in NAME_BEHIND:
            return 0, b""
        operands = at + NAME_BEHIND[step.to]
        offset, length = (int.from_bytes(self.commands[i:i + 2], "little") for i in (operands, operands + 2))
        return offset, self.text[offset:offset + length]

    # ---- the links

    def numbers(self, place):
        """The numbers of its children, in the order in which they were made."""
        return [self.as_child[child].number for child in place.children.values()]

    def together(self, place):
        """How many of its children are positions that were made at once."""
        return min(self.announced.get(place, 0), len(place.children))

    def links(self):
        """Of each place, by the links' names, where they lead, 0 being nowhere; and its position among its siblings."""
        links = [dict.fromkeys(("first", "last", "root", "block", "left", "right", "next", "position"), 0) for _ in self.places]
        for place, own in zip(self.places, links):
            numbers = self.numbers(place)
            if numbers:
                own["first"], own["last"] = numbers[0], numbers[-1]
            for number, following in zip(numbers, numbers[1:]):
                links[number]["next"] = following
            # positions made at once are a block, if there was room for all; other numbered children stand in a tree
            if self.together(place) == self.announced.get(place):
                own["block"] = self.together(place)
            for before, number in zip([None, *numbers], numbers):
                if number in numbers[self.together(place):]:
                    # one behind the last before it; positions made at once are given none
                    links[number]["position"] = 0 if before is None else links[before]["position"] + 1
                    self.enter(links, own, number)
        return links

    def enter(self, links, own, number):
        """A child in the tree of numbered children: at the first link that is free, where the bits of its number, the
        lowest first, tell which link to take."""
        step = self.as_child[self.places[number]].step
        if step.to not in ("position", "variant"):
            return
        at, link, bits = own, "root", step_code(step) // 2
        while at[link]:
            at, link, bits = links[at[link]], ("left", "right")[bits % 2], bits // 2
        at[link] = number

    # ---- the lines

    def lines(self):
        return [f"places {len(self.places)}"] + [self.line(*both) for both in zip(self.places, self.links())]

    def line(self, place, to):
        child = self.as_child[place]
        return " ".join(map(str, (
            KINDS.get(place.kind, place.kind), place.null + 2 * place.widened, place.samples,
            f"{to['first']}/{to['last']}", f"{to['root']}/{to['block']}", f"{to['left']}/{to['right']}",
            f"{to['next']}/{self.as_child[child.parent].number}", step_code(child.step),
            f"{child.offset}+{len(child.name)}", child.held, child.mark, tag(child.name), to["position"])))


def expected(word, commands, text):
    """The lines of a batch. Where all of it is traced, the account counts what is held too."""
    tracer = HalfTraced(Options(word), commands, text)
    reading = read(tracer.options, commands, text)
    try:
        for record in reading.records:
            tracer.observe(tracer.root, record)
    except Refused as refused:
        return refusal(refused) + tracer.lines()
    if reading.stopped:
        return refusal(reading.stopped) + tracer.lines()
    assert all(place.held == tracer.as_child[place].held for place in tracer.places)
    return tracer.lines()


def refusal(refused):
    return [f"refused {refused.number} {refused.place}"]


def two(n):
    return n.to_bytes(2, "little")


def choose():
    """The batches: about a third of them refused, and few that give hardly a place."""
    chosen, refused, seed = [TOO_MANY_PLACES], 1, 0
    rng = random.Random(4)
    while len(chosen) < WANTED:
        options, commands, text = batches.Batches(seed).line().split(" ")
        seed += 1
        batch = (int(options, 16), bytes.fromhex(commands.strip("-")), bytes.fromhex(text))
        if LONGEST < len(batch[1]):
            continue
        said = expected(*batch)
        if said[0].startswith("refused"):
            if refused * 3 > len(chosen) or rng.random() < 0.3:
                continue
            refused += 1
        elif len(said) < 4 and rng.random() < 0.7:
            continue
        chosen.append(batch)
    return chosen + [HALFWAY], refused + 1


def main():
    published.no_arguments()
    chosen, refused = choose()
    made, lines = b"", []
    for options, commands, text in chosen:
        made += two(options) + two(len(commands)) + two(len(text)) + commands + text
        lines += expected(options, commands, text)
    (PROGRAM / "data").mkdir(parents=True, exist_ok=True)
    (PROGRAM / "data" / "batches.bin").write_bytes(made)
    (PROGRAM / "stdout").write_text("\n".join(lines + [f"{len(made)} bytes"]) + "\n")
    print(len(chosen), "batches,", refused, "refused,", len(made), "bytes,", len(lines), "lines")


if __name__ == "__main__":
    main()
