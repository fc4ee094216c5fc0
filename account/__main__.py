"""The account from the command line, run in the repository's folder:

    python3 -m account DIRECTORY     the listing of the return there, as `bin/schema-list` gives it
    python3 -m account batch         for each line `OPTIONS COMMANDS TEXT` the answer, as `oracle batch` gives it
"""

import sys

from .answer import answer
from .listing import list_return


def answer_line(line):
    """A batch in hexadecimal, `-` for nothing: `ok RECORDS NAMES COLUMNS` or `refused NUMBER PLACE`."""
    word, commands, text = line.split()
    given = answer(int(word, 16), *(bytes.fromhex(part.strip("-")) for part in (commands, text)))
    if given.refusal:
        return f"refused {given.refusal} {given.place}"
    return f"ok {given.records.hex() or '-'} {given.names.hex() or '-'} {given.columns}"


def main(asked):
    if len(asked) != 1 or asked[0] in ("-h", "--help"):
        print("usage: python3 -m account (DIRECTORY | batch)", file=sys.stderr)
        sys.exit(2)
    if asked == ["batch"]:
        for line in sys.stdin:
            print(answer_line(line))
    else:
        sys.stdout.buffer.write(list_return(asked[0]))


if __name__ == "__main__":
    main(sys.argv[1:])
