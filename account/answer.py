"""The whole call: the schema, or one of eighteen refusals and a place.

    answer(word, commands, text, lent)     what the call answers, and what it leaves in the buffers
"""

from dataclasses import dataclass
from typing import NamedTuple

from .commands import is_too_long, read
from .fields import preorder, to_schema
from .options import Options
from .places import trace
from .refusal import LONG_INPUT, SHORT_BUFFER, SHORT_TABLE, UNKNOWN_OPTION, Refused

TABLE_WORDS = 16_384
# no schema needs more
ENOUGH = 1 << 30


class Lent(NamedTuple):
    """How long the work table is in words, and the two output buffers in bytes."""
    table: int = TABLE_WORDS
    records: int = ENOUGH
    names: int = ENOUGH


@dataclass(frozen=True)
class Answer:
    """What the call answers and leaves: "on a refusal every count is 0; on success refusal and place are 0". The
    buffers begin with `records` and `names`, and "past them the buffers are untouched": a refusal changes neither. The
    table's first 16,384 words are zeros then, or it is left alone."""
    refusal: int = 0
    place: int = 0
    fields: tuple = ()
    table_is_zeroed: bool = True

    @property
    def records(self):
        return b"".join(field.record() for _, field in preorder(self.fields))

    @property
    def names(self):
        """The name bytes: "names stand one after another in the second buffer"."""
        return b"".join(field.name for _, field in preorder(self.fields))

    # ---- "The answer adds three counts: field records, name bytes, and columns"

    @property
    def field_records(self):
        return sum(1 for _ in preorder(self.fields))

    @property
    def name_bytes(self):
        return len(self.names)

    @property
    def columns(self):
        return sum(field.is_column() for _, field in preorder(self.fields))


def answer(word, commands, text, lent=Lent()):
    """The call. "1 to 3 are tested in order" and "leave the work table alone"; their place is 0."""
    options = Options(word)
    if options.has_unknown_bit():
        return Answer(UNKNOWN_OPTION, table_is_zeroed=False)
    if lent.table < TABLE_WORDS:
        return Answer(SHORT_TABLE, table_is_zeroed=False)
    if is_too_long(commands, text):
        return Answer(LONG_INPUT, table_is_zeroed=False)
    try:
        given = Answer(fields=tuple(schema_of(options, commands, text)))
    except Refused as refused:
        return Answer(refused.number, refused.place)
    if lent.records < len(given.records) or lent.names < len(given.names):
        return Answer(SHORT_BUFFER, len(commands))
    return given


def schema_of(options, commands, text):
    """Tracer::from_samples and then Tracer::to_schema: the root's fields, or refusal 4 to 17."""
    tracer = trace(options, read(options, commands, text))
    return to_schema(options, tracer.root, len(commands))
