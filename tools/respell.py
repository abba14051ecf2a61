#!/usr/bin/env python3
"""Spells this repository's own definitions and lemmas as today's Rattle does: words in snake case, a dash only between two names.

usage: tools/respell.py [--list]        at the top, once, on what /opt/rattle/port/port.py made of the older tree

It goes by a table that it works out from the antt files: every name that they declare (proof files that walk the code aside) and that
has a capital or a dash. The kit's snake.py turns whole words by it. --list prints the table, and what falls together, and writes nothing.
"""
import glob
import os
import re
import subprocess
import sys
import tempfile

SNAKE = "/opt/rattle/port/notes/2026-11-18-names-are-in-snake-case/snake.py"
WORD = r"[A-Za-z_][A-Za-z0-9_'₀-₉]*(?:-[A-Za-z0-9_'₀-₉ℕ]+)*"
DECLARED = re.compile(rf"^\s*(?:(?:abbrev|unfoldable|pub|data|record) )*«?({WORD})»?((?: {WORD})*) :(?= )")
# Words of the library that a lemma's name puts beside another name.
WORDS_OF_STD = "length drop take append map reverse replicate concat set get_or filter sum cons mod div add mul sub".split()


def read(path):
    with open(path, encoding="utf-8") as f:
        return f.read()


def antt_files():
    return [p for p in sorted(glob.glob("crates/*/*/**/*.antt", recursive=True)) if "/out/" not in p]


def declared():
    """Each name that the antt files declare, with whether one of specs/ does."""
    names = {}
    for path in antt_files():
        if os.path.basename(path) == "Proof.antt":
            continue
        for line in read(path).splitlines():
            if line.lstrip().startswith("--"):
                continue
            m = DECLARED.match(line)
            if m:
                for name in [m[1]] + m[2].split():
                    names[name] = names.get(name, False) or "/specs/" in path
    return names


def snake(word):
    word = re.sub(r"(?<=[a-z0-9])([A-Z])", lambda m: "_" + m[1].lower(), word)
    return word.lower() if word.isupper() else word


def spelled(name, known):
    if re.fullmatch(r"[A-Z0-9-]+", name):
        return name.replace("-", "_").lower()
    parts = [snake(p) for p in name.split("-")]
    out = parts[0]
    for before, part in zip(parts, parts[1:]):
        out += ("-" if before in known and part in known else "_") + part
    return out


def table():
    names = declared()
    known = set(WORDS_OF_STD) | {snake(n) for n, in_specs in names.items() if in_specs and "-" not in n}
    rows = {}
    for name in names:
        if re.match(r"[a-z].*([A-Z]|-)", name) or re.fullmatch(r"[A-Z0-9]+(-[A-Z0-9]+)+", name):
            new = spelled(name, known)
            if new != name:
                rows[name] = new
    return rows, names


def rust_words():
    """Fields, parameters, variables and modules: a clause would take such a word for the definition of that name."""
    words = set()
    for path in sorted(glob.glob("crates/*/src/*.rt")):
        text = read(path)
        words |= set(re.findall(r"\b(\w+): ", text)) | set(re.findall(r"\b(?:mod|let|let mut|for) (\w+)", text))
    return words


def taken(rows, names):
    """What a new spelling would meet: another row, a name of the texts that stays, an import from a library, a word of the Rust."""
    met = {}
    by_new = {}
    for old, new in rows.items():
        by_new.setdefault(new, []).append(old)
    for new, olds in by_new.items():
        if len(olds) > 1:
            met.setdefault(new, []).append("both")
        if new in names and new not in rows:
            met.setdefault(new, []).append("declared")
    words = rust_words()
    for new in by_new:
        if new in words:
            met.setdefault(new, []).append("a word of the Rust")
    imported = set()
    for path in antt_files() + sorted(glob.glob("crates/*/src/*.rt")):
        for head, items in re.findall(r"use ([\w.·]+)\.\{([^}]*)\}", read(path)):
            if not head.startswith("Rattle.") or head.startswith("Rattle.std"):
                imported |= {i.split(" as ")[-1].strip() for i in items.split(",")}
    for new in by_new:
        if new in imported:
            met.setdefault(new, []).append("imported")
    return met


def main(argv):
    rows, names = table()
    met = taken(rows, names)
    for new in met:
        # Names that would fall together: all but one get the word that the library adds in such a case. A definition of specs/ goes first.
        olds = sorted((o for o, n in rows.items() if n == new), key=lambda o: (not names[o], "-" in o, o))
        for old in olds if met[new] != ["both"] else olds[1:]:
            rows[old] = new + "_lem"
    again = {}
    for old, new in rows.items():
        again.setdefault(new, []).append(old)
    for new, olds in again.items():
        if len(olds) > 1:
            for i, old in enumerate(sorted(olds)):
                rows[old] = new if i == 0 else new + str(i + 1)
    if "--list" in argv:
        for old, new in sorted(rows.items()):
            print(old, new, " ".join(met.get(new.removesuffix("_lem"), [])), sep="\t")
        return 0
    with tempfile.NamedTemporaryFile("w", suffix=".tsv", delete=False, encoding="utf-8") as f:
        f.writelines(f"{old}\t{new}\n" for old, new in sorted(rows.items()))
    status = subprocess.run([sys.executable, SNAKE, "--table", f.name, "--only", "antt,rt", "crates"]).returncode
    os.unlink(f.name)
    return status


if __name__ == "__main__":
    raise SystemExit(main(sys.argv[1:]))
