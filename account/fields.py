"""Document 01, "Field records": from the tree of places to the fields of the schema, and refusals 12 to 17.

    to_schema(options, root, end)     the root's fields; `end` is the commands' length, the place of these refusals
"""

from dataclasses import dataclass, field

from . import datatype as t
from . import kinds
from .places import is_lacking
from .refusal import (
    DATALESS_UNION, NULL_FIELD, NULL_ROOT, NULLABLE_ROOT, ROOT_NOT_STRUCT, TOO_MANY_SLOTS, Refused)

SLOTS = 128         # refusal 14: "emission reaches variant slot 128"


@dataclass(slots=True)
class Field:
    """One field with all below it."""
    type: int
    nullable: bool
    name: bytes
    children: list = field(default_factory=list)
    strategy: int = t.NO_STRATEGY
    variant: int = 0            # "variant number, else 0"
    widened: bool = False

    @property
    def nullable_byte(self):
        """"Nullable 0 or 1", and (document 02, 1/14) "the nullable byte gets 2 added where a place saw two different non-null
        primitive types"."""
        return self.nullable + 2 * self.widened

    def record(self):
        """Its 8 bytes: "type; nullable 0 or 1; strategy [...]; variant number, else 0; name length u16; child count
        u16". These numbers have their low byte first, as in the commands."""
        return (bytes([self.type, self.nullable_byte, self.strategy, self.variant])
                + len(self.name).to_bytes(2, "little") + len(self.children).to_bytes(2, "little"))

    def is_column(self):
        """Whether it counts as a column: "a column being a field record without children", but (document 02, 6/14) "a
        Struct record without children no longer counts as a column"."""
        return not self.children and self.type != t.STRUCT


def preorder(fields, level=0):
    """These fields and all below them in "preorder under the root", each with its level."""
    for each in fields:
        yield level, each
        yield from preorder(each.children, level + 1)


def to_schema(options, root, end):
    """The root's fields. "15 to 18 follow in order", after the walk, of the field that the root would be."""
    emitted = Emission(options, end).field(root)
    if emitted.nullable:
        raise Refused(NULLABLE_ROOT, end)
    if emitted.type == t.NULL:
        raise Refused(NULL_ROOT, end)
    if emitted.type != t.STRUCT:
        raise Refused(ROOT_NOT_STRUCT, end)
    return emitted.children


class Emission:
    """The walk over the places: "12 to 14 come in the order of the walk"."""

    def __init__(self, options, end):
        self.options = options
        self.end = end

    def field(self, place, lacking=False):
        """The field of a place with all below it. None but a primitive's place is widened."""
        nullable = place.null or lacking
        if place.kind == t.NULL:
            return self.null(place, nullable)
        if place.kind == kinds.UNION:
            return self.union(place, nullable)
        if place.kind in kinds.CONTAINERS:
            return self.container(place, nullable)
        return Field(self.primitive_type(place.kind), nullable, place.name, widened=place.widened)

    def null(self, place, nullable):
        """Refusal 12: "a Null or unknown place is emitted without allow_null_fields"."""
        if not self.options.allow_null_fields():
            raise Refused(NULL_FIELD, self.end)
        return Field(t.NULL, nullable, place.name)

    def primitive_type(self, type_):
        """The type as it is emitted: "a string under option 5 [...] is a dictionary without children"."""
        if type_ in t.STRINGS and self.options.string_dictionary_encoding():
            return self.options.dictionary_type()
        return type_

    def container(self, place, nullable):
        """Sequence, map, tuple or struct. "The walk visits map-mode fields in order of first sight; the finished fields
        are then sorted by name bytes"."""
        children = [self.field(child, is_lacking(place, child)) for child in place.children.values()]
        if place.kind == kinds.SEQUENCE:
            return Field(self.options.list_type(), nullable, place.name, children)
        if place.kind == kinds.MAP:
            entries = Field(t.STRUCT, False, b"entries", children)
            return Field(t.MAP, nullable, place.name, [entries])
        if place.kind == kinds.TUPLE:
            return Field(t.STRUCT, nullable, place.name, children, t.TUPLE_AS_STRUCT)
        if place.kind == kinds.MAP_MODE:
            children.sort(key=lambda child: child.name)
            return Field(t.STRUCT, nullable, place.name, children, t.MAP_AS_STRUCT)
        return Field(t.STRUCT, nullable, place.name, children)

    def union(self, place, nullable):
        """A dense union, but "under option 9 a union of only dataless variants without gaps, is a dictionary without
        children". Refusal 13: such a union "has neither option 9 nor option 0"; "a union tests 13 before its
        children"."""
        highest = max(step.by for step in place.children)
        slots = [place.children.get(kinds.variant(number)) for number in range(highest + 1)]
        if all(slot is not None and slot.kind == t.NULL for slot in slots):
            if self.options.enums_without_data_as_strings():
                return Field(self.options.dictionary_type(), nullable, place.name)
            if not self.options.allow_null_fields():
                raise Refused(DATALESS_UNION, self.end)
        return Field(t.UNION, nullable, place.name, [self.slot(number, slot) for number, slot in enumerate(slots)])

    def slot(self, number, variant):
        """Refusal 14: "emission reaches variant slot 128"; "a union slot never seen is an unnamed nullable Null with
        strategy 3"."""
        if number == SLOTS:
            raise Refused(TOO_MANY_SLOTS, self.end)
        if variant is None:
            return Field(t.NULL, True, b"", strategy=t.UNKNOWN_VARIANT, variant=number)
        emitted = self.field(variant)
        emitted.variant = number
        return emitted
