"""Tests of the account, run in the repository's folder:

    python3 -m account.test [COUNT]     COUNT random batches of each kind
"""

import sys

from . import demand3, examples, places, stored

COUNT = 5000


def main():
    words = sys.argv[1:]
    if len(words) > 1 or not all(word.isascii() and word.isdigit() for word in words):
        print("usage: python3 -m account.test [COUNT]", file=sys.stderr)
        sys.exit(2)
    count = int(words[0]) if words else COUNT
    for checks in (examples.check(), stored.check(), demand3.check(count), places.check(count)):
        for what, how_many in checks:
            print(f"{how_many} {what}", flush=True)


main()
