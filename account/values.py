"""What commands are read as: values, each with its parts."""

from dataclasses import dataclass, field

from . import datatype as t


@dataclass(slots=True, eq=False)
class Value:
    """One value, past any 10 and 11. It is filled in while it is read: where the reading stops before its own command,
    it stays as it begins here, and observes nothing.

    "Values carry kinds only": a primitive's type, or what container it is."""
    at: int = 0                 # the offset of its command
    null: bool = False          # "None and some mark the place nullable; unit, and a unit variant [...], observes Null"
    kind: int | str = t.NULL
    positions: int = 0          # of a tuple: how many values were announced
    parts: list = field(default_factory=list)


@dataclass(slots=True, eq=False)
class Part:
    """A value below another: the step to it, and the name of the place there. A union has one part, its variant: "a
    variant's contents stand at the variant"."""
    at: int                     # the offset of the first command of it: 16 or a key, the variant, or the value's own
    step: tuple
    name: bytes
    value: Value
