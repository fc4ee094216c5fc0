#!/usr/bin/env python3
"""Spells the repository's own choice by a test `when .. then .. else ..` where it was `if .. then .. else ..`: rt ci lets no other
definition stand under the name of the library's operator.

    python3 tools/when.py      at the top of the repository, once, after tools/snake_names.py"""
import re
import subprocess
from pathlib import Path

listed = subprocess.run(["git", "ls-files", "crates"], capture_output=True, text=True, check=True).stdout.split("\n")
CHOICE = re.compile(r"(?<![^\s(\[{,])if(?=\s|$)")
CLAUSE = re.compile(r"(?<![^\s(\[{,])if(?= [^{}\n]* then )")


def antt(text):
    lines = []
    for line in text.split("\n"):
        m = re.search(r"(^|\s)--(\s|$)", line)
        code, rest = (line[: m.start()], line[m.start():]) if m else (line, "")
        lines.append(CHOICE.sub("when", code) + rest)
    return "\n".join(lines)


for name in listed:
    f = Path(name)
    if f.suffix not in (".antt", ".rt", ".edit") or "/data/" in name:
        continue
    text = old = f.read_text()
    if f.suffix == ".antt":
        text = antt(text)
    elif f.suffix == ".rt":
        text = "\n".join(l if l.lstrip().startswith("//") else CLAUSE.sub("when", l) for l in text.split("\n"))
    elif "file: specs/" in text:
        text = "\n".join(re.sub(CHOICE, "when", l) if l.startswith(("old:", "new:")) else l for l in text.split("\n"))
    text = text.replace("if◌then◌else◌", "when◌then◌else◌")
    if text != old:
        f.write_text(text)
