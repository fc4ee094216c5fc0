"""Demand 3 tried on random batches: a sanity check of the census, which is counted apart from what it is held to.

"For every options word with allow_to_string and enums_without_data_as_strings off, and every two batches of struct
records accepted under it, [...] the two schemas are equal exactly when the two censuses are, provided neither batch
shows one place both as struct and as map. [...] Put such a batch's records in any other order, [...] and it is accepted
again, with nothing changed in its schema but the order of struct fields."

Of each batch by itself it is tried that the schema can be written down from the census alone, and the census from the
schema alone. Any two batches with one the same then have the other the same.
"""

from .. import datatype as t
from .. import kinds
from ..answer import answer
from ..census import Said, census, is_struct_batch, places_of_batch, shows_both
from ..commands import read
from ..fields import Field
from ..options import Options
from ..places import trace
from .random_batches import Batches

TO_STRING, ENUMS_AS_STRINGS = 128, 512
BATCHES_OF_A_SHAPE = 20


# ---- the schema, from the census alone

class FromCensus:
    def __init__(self, options, said):
        self.options = options
        self.said = said

    def field(self, steps, name):
        kind, null, widened, children = self.said[steps]
        if kind not in kinds.CONTAINERS:
            is_dictionary = kind in t.STRINGS and self.options.string_dictionary_encoding()
            type_ = self.options.dictionary_type() if is_dictionary else kind
            return Field(type_, null, name, widened=widened)
        if kind == kinds.UNION:
            return Field(t.UNION, null, name, self.slots(steps, dict(children)))
        below = [self.field(steps + (step,), kinds.name_of(step)) for step in steps_in_order(kind, children)]
        if kind == kinds.SEQUENCE:
            return Field(self.options.list_type(), null, name, below)
        if kind == kinds.MAP:
            return Field(t.MAP, null, name, [Field(t.STRUCT, False, b"entries", below)])
        strategy = {kinds.TUPLE: t.TUPLE_AS_STRUCT, kinds.MAP_MODE: t.MAP_AS_STRUCT, kinds.STRUCT: t.NO_STRATEGY}[kind]
        return Field(t.STRUCT, null, name, below, strategy)

    def slots(self, steps, names):
        """`names`: those of the variants seen, by their numbers."""
        slots = [Field(t.NULL, True, b"", [], t.UNKNOWN_VARIANT, number) for number in range(max(names) + 1)]
        for number, name in names.items():
            slots[number] = self.field(steps + (kinds.variant(number),), name)
            slots[number].variant = number
        return slots


def steps_in_order(kind, children):
    if kind == kinds.TUPLE:
        return [kinds.position(i) for i in range(children)]
    if kind in kinds.STRUCTS:
        return [kinds.field(name) for name in (children if kind == kinds.STRUCT else sorted(children))]
    return kinds.FIXED_STEPS[kind]


# ---- the census, from the schema alone

class FromSchema:
    def __init__(self, options, fields):
        self.options = options
        self.said = {}
        self.place((), Field(t.STRUCT, False, b"$", fields))

    def place(self, steps, field):
        """What the field of a place says of it, and of all below it."""
        kind = self.kind(field)
        seen = [child for child in field.children if child.strategy != t.UNKNOWN_VARIANT]
        names = [child.name for child in seen]
        children = None
        if kind in kinds.STRUCTS:
            children = tuple(names) if kind == kinds.STRUCT else frozenset(names)
            below = map(kinds.field, names)
        elif kind == kinds.TUPLE:
            children = len(seen)
            below = map(kinds.position, range(children))
        elif kind == kinds.UNION:
            children = frozenset((child.variant, child.name) for child in seen)
            below = [kinds.variant(child.variant) for child in seen]
        else:
            below = kinds.FIXED_STEPS.get(kind, ())
            if kind == kinds.MAP:
                seen = seen[0].children
        self.said[steps] = Said(kind, field.nullable, field.widened, children)
        for step, child in zip(below, seen, strict=True):
            self.place(steps + (step,), child)

    def kind(self, field):
        if field.type == t.STRUCT:
            return {t.TUPLE_AS_STRUCT: kinds.TUPLE, t.MAP_AS_STRUCT: kinds.MAP_MODE}.get(field.strategy, kinds.STRUCT)
        if field.type in (t.DICTIONARY, t.LARGE_DICTIONARY):
            return self.options.string_type()
        containers = {t.LIST: kinds.SEQUENCE, t.LARGE_LIST: kinds.SEQUENCE, t.MAP: kinds.MAP, t.UNION: kinds.UNION}
        return containers.get(field.type, field.type)


# ---- the records in another order

def in_name_order(field):
    """A field with the fields of every struct, each with all below it, in the order of their names."""
    children = [in_name_order(child) for child in field.children]
    if field.type == t.STRUCT and field.strategy == t.NO_STRATEGY:
        children.sort(key=lambda child: child.name)
    return Field(field.type, field.nullable, field.name, children, field.strategy, field.variant, field.widened)


def same_but_order(one, other):
    return in_name_order(Field(t.STRUCT, False, b"$", one)) == in_name_order(Field(t.STRUCT, False, b"$", other))


# ---- random batches

def plain_word(made):
    """An options word of either edition with those two off, and with allow_null_fields mostly on."""
    word = made.rng.randrange(1 << 11) & ~(TO_STRING | ENUMS_AS_STRINGS)
    return word | 1 if made.chance(80) else word


def check_batch(made, word, records):
    """Whether demand 3 speaks of a batch; and that all is as it says."""
    options, commands = Options(word), b"".join(records)
    given, reading = answer(word, commands, made.text), read(options, commands, made.text)
    if given.refusal or not is_struct_batch(reading.records) or shows_both(reading.records):
        return False
    said, fields = census(options, reading.records), list(given.fields)
    assert FromCensus(options, said).field((), b"$").children == fields, (word, commands)
    assert FromSchema(options, fields).said == said, (word, commands)
    assert len(trace(options, reading).places) == len(said) == places_of_batch(reading.records), (word, commands)
    again = answer(word, b"".join(made.rng.sample(records, len(records))), made.text)
    assert again.refusal == 0 and same_but_order(fields, list(again.fields)), (word, commands)
    return True


def check(count, seed=1):
    made = Batches(seed)
    found = 0
    for _ in range(max(count // BATCHES_OF_A_SHAPE, 1)):
        word, shape = plain_word(made), made.struct(3)
        for _ in range(BATCHES_OF_A_SHAPE):
            records = [made.value(shape, nullable=False) for _ in range(made.rng.choice([1, 1, 2, 3, 4]))]
            found += check_batch(made, word, records)
    yield "accepted batches whose schema and census say the same, in any order of records", found
