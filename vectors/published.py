"""The oracle, which the scripts that store or compare its answers ask (see ../oracle/README.md)."""

import pathlib
import subprocess
import sys

TOP = pathlib.Path(__file__).resolve().parent.parent
ORACLE = TOP / "oracle" / "target" / "release" / "oracle"

# of a nullable byte: the place saw two different non-null primitive types (document 02, 1/14)
WIDENED = 2


def unmarked(records):
    """Field records with the mark taken off, which the Rust does not have."""
    records = bytearray(records)
    records[1::8] = bytes(nullable & ~WIDENED for nullable in records[1::8])
    return bytes(records)


def no_arguments():
    """For a script that takes none."""
    if len(sys.argv) > 1:
        print(f"usage: python3 vectors/{pathlib.Path(sys.argv[0]).name}", file=sys.stderr)
        sys.exit(2)


def ready():
    """Brings the oracle up to date, for a script that takes no arguments."""
    no_arguments()
    status = subprocess.run([TOP / "bin" / "build", "oracle"]).returncode
    if status != 0:
        sys.exit(status)
