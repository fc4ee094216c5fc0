"""Batches of vectors/batches.py and vectors/edges.py, read."""

import pathlib
import sys

from .. import commands
from ..options import Options

sys.path.insert(0, str(pathlib.Path(__file__).resolve().parent.parent.parent / "vectors"))
import edges  # noqa: E402
from batches import Batches  # noqa: E402


def any_readings(seed, count):
    """Well-formed and damaged batches under any options word of edition 1 that is known: options, what was read."""
    made = Batches(seed)
    for _ in range(count):
        word, written, text = made.line().split(" ")
        options = Options(int(word, 16))
        if not options.has_unknown_bit():
            yield options, commands.read(options, bytes.fromhex(written.strip("-")), bytes.fromhex(text))


def full_readings():
    """Batches around 1,024 places: options, what was read."""
    for word in (0, edges.MAP_AS_STRUCT):
        for written in edges.full_tables(range(1021, 1025)):
            yield Options(word), commands.read(Options(word), written, edges.TEXT)
