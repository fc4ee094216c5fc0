#!/usr/bin/env python3
"""Brings the names of the repository's own definitions, lemmas, constructors and record fields to snake case: in
specs/ and proofs/, in the clauses of src/, in must-fail edits, and between backticks in the pages.

    python3 tools/snake_names.py [--dry]      at the top of the repository

Names that begin with a capital, names of Rattle's own making (invariant-.., decreases-..), functions of src/, exported
names and strings stay. Where two names would fall together the definition keeps the name, and the lemma gets _lem."""
import re
import subprocess
import sys
from pathlib import Path

PATH = re.compile(r"[^\s(){},;\"`«»\[\]]+")
MADE = re.compile(r"^(invariant|decreases)-|^returns(-\d+)?$")
SIGNATURE = re.compile(r"^\s*(?:pub |abbrev |unfoldable |opaque |package )*([^\s(){}.,;:λ]+(?: [^\s(){}.,;:λ]+)*) :(?: |$)")
RECORD = re.compile(r"^(\s*)(?:pub )?record\b.*\bwhere\s*$")
# where neither rule gives a name
OTHER = {"record-bytes": "bytes_of_records"}
# facts in the context of a lemma that would hide what they speak of
LOCAL = {"is_at": "at_there", "byte_of": "of_byte"}


def files(*patterns):
    listed = subprocess.run(["git", "ls-files"], capture_output=True, text=True, check=True).stdout.split("\n")
    return [Path(f) for f in listed if f and any(Path(f).match(p) for p in patterns) and "/data/" not in f]


def is_to_turn(name):
    return bool(re.match(r"^[a-zμ]", name)) and bool(re.search(r"[A-Z]|-", name)) and not MADE.match(name) and "->" not in name


def snake(name):
    name = re.sub(r"([a-z0-9₀-₉'])([A-Z])", lambda m: m.group(1) + "_" + m.group(2).lower(), name)
    name = re.sub(r"([A-Z])", lambda m: m.group(1).lower(), name)
    return name.replace("-", "_")


def declared(text):
    """All names with a signature, and among them the fields of records."""
    names, fields, inside = set(), set(), None
    for line in text.split("\n"):
        if line.lstrip().startswith("--") or not line.strip():
            continue
        indent = len(line) - len(line.lstrip())
        if inside is not None and indent <= inside:
            inside = None
        m = SIGNATURE.match(line)
        if m:
            names |= set(m.group(1).split(" "))
            if inside is not None:
                fields |= set(m.group(1).split(" "))
        m = RECORD.match(line)
        if m:
            inside = len(m.group(1))
    return names, fields


def table_of(antt):
    names, fields = set(), set()
    for f in antt:
        n, k = declared(f.read_text())
        names |= n
        fields |= k
    groups = {}
    for n in names:
        if is_to_turn(n):
            groups.setdefault(snake(n), set()).add(n)
    table, lemmas = {}, {}
    for new, olds in groups.items():
        camel = [n for n in olds if "-" not in n]
        if new in names and camel:
            lemmas[new] = new + "_lem"  # the definition was spelled apart from this lemma
        for old in olds:
            if old in OTHER:
                table[old] = OTHER[old]
            elif "-" in old and (camel or new in names) and old not in fields:
                table[old] = new + "_lem"
            else:
                table[old] = new
    return table, lemmas, fields


def rename(text, table, fields):
    def turned(m):
        path = m.group(0)
        if path.startswith("..") or "." not in path.strip("."):
            core = path.strip(".")
            return path.replace(core, table.get(core, core)) if core else path
        parts = path.split(".")
        out = []
        for i, name in enumerate(parts):
            head = next((p for p in parts if p), "")
            # behind a value stands a field, or a step of a proof, which is no name of ours; behind a module anything
            own = (i == 0 or (i == 1 and parts[0] == "")) or name in fields or head[:1].isupper()
            if i == 1 and parts[0] == "" and m.start() and text[m.start() - 1] in ")}":
                own = name in fields
            out.append(table.get(name, name) if own else name)
        return ".".join(out)

    return PATH.sub(turned, text)


def rename_source(text, table, fields):
    parts = re.split(r'("(?:[^"\\\n]|\\.)*")', text)
    return "".join(p if i % 2 else rename(p, table, fields) for i, p in enumerate(parts))


def rename_page(text, table, fields):
    return re.sub(r"`[^`\n]+`", lambda m: rename(m.group(0), table, fields), text)


IMPORT = re.compile(r"^\s*(?:ghost )?use ([^\s{]+?)\.\{([^}]*)\}", re.M)


def of_library(text, crates):
    """The names that a file imports from a library, which stay."""
    names = set()
    for path, listed in IMPORT.findall(text):
        parts = path.split(".")
        if not (parts[0] == "Rattle" and len(parts) > 1 and parts[1] in crates):
            names |= {n.strip().split(" as ")[0] for n in listed.split(",")}
            names |= {n.strip().split(" as ")[-1] for n in listed.split(",")}
    return names


def main():
    crates = {p.name for p in Path("crates").iterdir()}
    dry = "--dry" in sys.argv
    antt, sources, edits, pages = files("*.antt"), files("*.rt"), files("*.edit"), files("*.md")
    table, lemmas, fields = table_of(antt)
    both = dict(table)
    both.update(lemmas)
    both.update(LOCAL)
    values = {}
    for old, new in both.items():
        values.setdefault(new, []).append(old)
    for new, olds in sorted(values.items()):
        if len(olds) > 1:
            print("together:", new, olds)
    for f in antt:
        body = "\n".join(l.split("-- ")[0] for l in f.read_text().split("\n"))
        have = {n for p in PATH.findall(body) if not p.startswith("Rattle") for n in p.split(".")}
        for n in sorted(have & set(both)):
            if both[n] in have and both[n] not in lemmas and both[n] not in both:
                print("met:", f, n, both[n])
    print(len(both), "names,", len(lemmas), "of them lemmas that were in snake case")
    if dry:
        return
    for f in antt:
        text = f.read_text()
        kept = of_library(text, crates)
        f.write_text(rename(text, {o: n for o, n in both.items() if o not in kept}, fields))
    for f in sources + edits:
        text = f.read_text()
        kept = of_library(text, crates)
        f.write_text(rename_source(text, {o: n for o, n in table.items() if o not in kept}, fields))
    for f in pages:
        f.write_text(rename_page(f.read_text(), table, fields))


main()
