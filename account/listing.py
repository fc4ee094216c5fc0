"""Document 01, "Soundings": what the program schema-list prints."""

import pathlib

from .answer import Lent, answer
from .fields import preorder

# "its two output buffers have 65,536 bytes each"
BUFFER = 65_536


def listing(given):
    """A line for each field: "level (0 for the root's fields), type, nullable, strategy, variant, children, name; last
    line: accepted, field records, columns; or only: refused, number, place". A name is written as its bytes."""
    if given.refusal:
        return b"refused %d %d\n" % (given.refusal, given.place)
    lines = [b"%d %d %d %d %d %d %s\n" % (level, field.type, field.nullable_byte, field.strategy, field.variant,
                                         len(field.children), field.name)
             for level, field in preorder(given.fields)]
    return b"".join(lines) + b"accepted %d %d\n" % (given.field_records, given.columns)


def list_files(options, commands, text):
    """A return in three files: nothing where one cannot be read, or the options word is not two bytes long."""
    if not all(path.is_file() for path in (options, commands, text)):
        return b""
    word = options.read_bytes()
    if len(word) != 2:
        return b""
    lent = Lent(records=BUFFER, names=BUFFER)
    return listing(answer(int.from_bytes(word, "little"), commands.read_bytes(), text.read_bytes(), lent))


def list_return(folder):
    """The program: it "reads options.bin (2 bytes, low first), commands.bin and text.bin"."""
    return list_files(*(pathlib.Path(folder, name) for name in ("options.bin", "commands.bin", "text.bin")))
