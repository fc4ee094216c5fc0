"""Document 01, "Census": what is said of each place, counted off the values that stand there. Nothing is merged, and
nothing is taken from places.py: that the schema and the census say the same of a batch is demand 3.

    census(options, records)      for each place, as a list of steps, what is said of it
    places_of_batch(records)      how many places a batch has, refused or not
"""

from typing import NamedTuple

from . import datatype as t
from . import kinds


class Said(NamedTuple):
    """What the census says of a place. "Censuses are equal when they have the same places and say the same of each":
    that is, as dictionaries from places to this."""
    kind: int | str | None      # kind and mode of a container, or type
    null: bool                  # whether null is admitted
    widened: bool               # whether "two different non-null primitive types" were seen (document 02, 1/14)
    children: object            # what is said of those, in the form that `children` gives them


def census(options, records):
    """What is said "for every place, from commands, text and options alone"; a place is the steps down to it."""
    said = {}
    waiting = [((), False, records)]
    while waiting:
        steps, lacking, values = waiting.pop()
        kind = kind_seen(options, values)
        null = lacking or any(value.null for value in values)
        said[steps] = Said(kind, null, len(types_seen(values)) > 1, children(kind, values))
        for step, standing in below(values).items():
            waiting.append((steps + (step,), kind in kinds.STRUCTS and is_lacking(step, values), standing))
    return said


# ---- the values that stand at a place

def below(values):
    """The values one step down, by that step: "equal steps, in any record, are one place". "A sequence's element, and a
    map's key and value, are places even if unseen"."""
    standing = {}
    for value in values:
        for step in steps_shown(value):
            standing.setdefault(step, [])
        for part in value.parts:
            standing[part.step].append(part.value)
    return standing


def steps_shown(value):
    """The steps to the places that one value shows below its own, in order."""
    if value.kind == kinds.TUPLE:
        return [kinds.position(i) for i in range(value.positions)]
    return kinds.FIXED_STEPS.get(value.kind) or [part.step for part in value.parts]


# ---- what is said of a place

def kind_seen(options, values):
    """What a place is: "container kind and mode, or a type read off the set of non-null types seen". Of two modes it is
    the first sight's; demand 3 leaves such places out."""
    shown = [value.kind for value in values if value.kind in kinds.CONTAINERS]
    return shown[0] if shown else type_seen(options, types_seen(values))


def types_seen(values):
    """The set of non-null types seen."""
    return {value.kind for value in values} - kinds.CONTAINERS - {t.NULL}


def type_seen(options, types):
    """The type read off a set: "none: Null; one: itself; several numbers: Float64 with a float among them, else Int64
    with a signed one, else UInt64; timestamps of both zones, or with strings: the string type". Others are refused, and
    so are integers with floats in edition 2."""
    if not types:
        return t.NULL
    if len(types) == 1:
        return min(types)
    if types <= t.NUMBERS:
        return t.FLOAT64 if types & t.FLOATS else t.INT64 if types & t.SIGNED else t.UINT64
    if types <= t.TIMESTAMPS | t.STRINGS:
        return options.string_type()
    return None


def is_lacking(step, samples):
    """Whether "fewer samples of its struct hold it than exist", a sample being each value that shows the struct."""
    return any(all(part.step != step for part in value.parts) for value in samples if value.kind in kinds.STRUCTS)


def children(kind, values):
    """What is said of the places below: "struct names in order of first sight, map-mode names as a set, longest tuple,
    variant numbers with names". Those of a sequence and of a map are the same everywhere."""
    names = dict.fromkeys((part.step, part.name) for value in values for part in value.parts)
    if kind == kinds.STRUCT:
        return tuple(name for _, name in names)
    if kind == kinds.MAP_MODE:
        return frozenset(name for _, name in names)
    if kind == kinds.TUPLE:
        return max(value.positions for value in values)
    if kind == kinds.UNION:
        return frozenset((step.by, name) for step, name in names)
    return None


# ---- how many places there are

def places_of_batch(records):
    """How many different lists of steps there are where the census says anything: the root's, and those of all that
    some record shows. A variant's step is its number, whatever its name; a tuple shows the positions it announces."""
    numbers = {}    # a number for each list but the root's, found by that of the list one step shorter and the step
    waiting = [(0, record) for record in records]
    while waiting:
        place, value = waiting.pop()
        for step in steps_shown(value):
            numbers.setdefault((place, step), len(numbers) + 1)
        waiting.extend((numbers[place, part.step], part.value) for part in value.parts)
    return 1 + len(numbers)


# ---- demand 3's premises

def is_struct_batch(records):
    """Whether every record is a struct record: "a struct record is a 15, past any 10 and 11"."""
    return all(record.kind == kinds.STRUCT for record in records)


def shows_both(records):
    """Whether some place is shown both as struct and as map: "15, or 1B at its variant, shows a place as struct, 14 as
    map"."""
    waiting = [records]
    while waiting:
        values = waiting.pop()
        shown = {value.kind for value in values}
        if kinds.STRUCT in shown and shown & {kinds.MAP, kinds.MAP_MODE}:
            return True
        waiting.extend(below(values).values())
    return False
