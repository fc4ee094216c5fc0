"""Document 01, "Places": the tree of places that values leave, and refusals 7 to 11.

    trace(options, reading)     the Tracer that has observed all that was read, with its root and all its places
"""

from dataclasses import dataclass, field

from . import datatype as t
from . import kinds
from .coerce import differ, joint
from .refusal import MISMATCH, NO_JOINT, TOO_DEEP, TOO_MANY_PLACES, TWO_NAMES, Refused

PLACES = 1024       # "At most 1,024, root counted"
DEPTH = 20          # "a container or variant stands at depth 20 or more" is refused


@dataclass(slots=True, eq=False)
class Place:
    """What is known of a place: "a node of the tree: root, struct field, sequence element, tuple position, map key, map
    value, variant"."""
    name: bytes
    depth: int
    null: bool = False          # none or some seen there, or Null observed
    widened: bool = False       # it "saw two different non-null primitive types" (document 02, 1/14)
    kind: int | str = t.NULL    # Null while unknown: "an unknown place is a Null with its own nullability"
    samples: int = 0            # how many containers were observed there
    held: int = 0               # how many of its parent's samples had it
    children: dict = field(default_factory=dict)    # by their steps, in order of first sight


def trace(options, reading, limit=PLACES):
    """All records at the root: "a trace starts from an unseen root, and each record meets what the last left". Where
    the reading stopped, all that was read before has been met by then: refusals 4 to 6 come in their turn."""
    tracer = Tracer(options, limit)
    for record in reading.records:
        tracer.observe(tracer.root, record)
    if reading.stopped:
        raise reading.stopped
    return tracer


class Tracer:
    """The tree of places, which grows while values are observed."""

    def __init__(self, options, limit=PLACES):
        self.options = options
        self.limit = limit
        self.root = Place(b"$", 0)      # "Root has [depth] 0"; its name is nowhere emitted
        self.places = [self.root]       # in the order in which they were made

    # ---- one value at its place

    def observe(self, place, value):
        """The order of tests at one command is the order of this: "11 for a tuple position it is first to reach" is
        behind us; "then 7, 8 or 10" where kinds meet, "9, 11 for its own place" where places below are found or made;
        "a variant then 7, 8, 11 for its contents", for they are a union's only part."""
        was_unknown = place.kind == t.NULL
        place.kind = self.meet(place, value)
        place.null |= value.null
        if value.kind not in kinds.CONTAINERS:
            return
        place.samples += 1
        for step in made_at_once(value, was_unknown):
            self.child(place, step, kinds.name_of(step), value.at)
        for part in value.parts:
            self.observe(self.child(place, part.step, part.name, part.at), part.value)
        for step in {part.step for part in value.parts}:    # twice in one sample counts once
            place.children[step].held += 1

    def meet(self, place, value):
        """What a place becomes by a value: refusals 7, and 8 or 10."""
        if value.kind in kinds.CONTAINERS and place.depth >= DEPTH:
            raise Refused(TOO_DEEP, value.at)
        if place.kind not in kinds.CONTAINERS and value.kind not in kinds.CONTAINERS:
            return self.meet_primitive(place, value)
        if value.kind == t.NULL:            # "Null on a container only marks it"
            return place.kind
        if place.kind == t.NULL:            # "a container on an unknown or Null place turns it into that container"
            return value.kind
        if place.kind == value.kind or {place.kind, value.kind} <= kinds.STRUCTS:
            return place.kind               # "the first sight of a struct place fixes its mode, struct or map"
        raise Refused(MISMATCH, value.at)

    def meet_primitive(self, place, value):
        """Refusal 10: "two primitive types have no joint". A place has the first type that it saw until another comes, so that two
        that meet differ as soon as two that were seen do."""
        both = joint(self.options, place.kind, value.kind)
        if both is None:
            raise Refused(NO_JOINT, value.at)
        place.widened |= differ(place.kind, value.kind)
        return both

    # ---- the places below a place

    def child(self, place, step, name, at):
        """The place at a step, found or made. Refusal 9: "a variant number has two names"."""
        found = place.children.get(step)
        if found is None:
            found = place.children[step] = self.make(place, name, at)
        elif found.name != name:
            raise Refused(TWO_NAMES, at)
        return found

    def make(self, parent, name, at):
        """A new place, needed by the command at that offset. Refusal 11: "a 1,025th place is needed". "Depth is the
        number of dots in its path, and a name's own dots count"."""
        if len(self.places) == self.limit:
            raise Refused(TOO_MANY_PLACES, at)
        place = Place(name, parent.depth + 1 + name.count(b"."))
        self.places.append(place)
        return place


def made_at_once(value, was_unknown):
    """The steps to the places that a container makes at its own command: "a tuple then makes all its positions, and a
    longer later one adds more. A sequence makes one child, a map two". Fields, variants, and the positions that a later
    tuple adds, are made where they are read."""
    if value.kind == kinds.TUPLE and was_unknown:
        return (kinds.position(i) for i in range(value.positions))
    return kinds.FIXED_STEPS.get(value.kind, ())


def is_lacking(parent, place):
    """Whether it is "a struct field missing from any of that struct's samples", which "becomes nullable, first sight
    in a later sample included"."""
    return parent.kind in kinds.STRUCTS and place.held < parent.samples
