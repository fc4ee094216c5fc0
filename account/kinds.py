"""What a place can be, and the steps between places (document 01, "Places" and "Census")."""

from typing import NamedTuple

# A kind is the number of a primitive type, Null (0) while nothing else was seen, or one of these containers. A struct
# has two modes: shown by 15 or 1B, or by 14 under map_as_struct.
SEQUENCE, TUPLE, MAP, STRUCT, MAP_MODE, UNION = (
    "sequence", "tuple", "map", "struct", "struct in map mode", "union")
STRUCTS = {STRUCT, MAP_MODE}
CONTAINERS = {SEQUENCE, TUPLE, MAP, UNION} | STRUCTS


class Step(NamedTuple):
    """A step down: "each a field's name [...], the element, a position, the map key or value, or a variant number"."""
    to: str
    by: bytes | int | None = None


ELEMENT, KEY, VALUE = Step("element"), Step("key"), Step("value")


def field(name):
    return Step("field", name)


def position(number):
    return Step("position", number)


def variant(number):
    return Step("variant", number)


def name_of(step):
    """The name of a place, which its field record has: "the fixed names element, key, value and entries are byte
    strings, tuple positions decimal". A variant's name is not in its step."""
    if step.to == "field":
        return step.by
    if step.to == "position":
        return b"%d" % step.by
    return step.to.encode()


# "A sequence makes one child, a map two": places even if unseen
FIXED_STEPS = {SEQUENCE: [ELEMENT], MAP: [KEY, VALUE]}
