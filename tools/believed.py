#!/usr/bin/env python3
"""Prints docs/believed.md, made from the first lines of the files of specs/.

    tools/believed.py > docs/believed.md

The first line of such a file is one of these:

    -- Believed: WHAT IT SAYS. Hold it against WHAT.
    -- Serves the proof: WHAT IT SAYS.
"""
import pathlib
import re

BELIEVED = re.compile(r"-- Believed: (?P<says>.*\S)[.:] Hold it against (?P<against>.*\S)\.")
SERVES = re.compile(r"-- Serves the proof: (?P<says>.*\S)\.")

HEAD = """# What must be believed

A proof says that the code does what the definitions say. Whether the definitions say what they should, only a reader can tell. These are the files to read, the lowest crate first, each with
what to hold it against; the other files of `specs/` serve the proof, and a mistake in one of them would make a proof fail and nothing else. Made by `tools/believed.py` from the first line of each file.
"""


def crates(root):
    """The names of the crates, lowest first."""
    lines = (line.split("#")[0] for line in (root / "crates.txt").read_text().splitlines())
    return [line.split(":")[0].split()[0] for line in lines if ":" in line]


def spec_files(root):
    """Each file of definitions, with its crate: all files of specs/ but Lib.antt, which lists the others."""
    for crate in crates(root):
        for path in sorted((root / "crates" / crate / "specs").rglob("*.antt")):
            if path.name != "Lib.antt":
                yield crate, path


def first_line(path):
    return (path.read_text().splitlines() or [""])[0]


def page(root):
    """The text of docs/believed.md."""
    rows, told, others, files = [], 0, 0, 0
    for crate, path in spec_files(root):
        lines = len(path.read_text().splitlines())
        believed = BELIEVED.fullmatch(first_line(path))
        if believed:
            name = path.relative_to(root).as_posix()
            rows.append(f"| [{crate} {path.stem}](../{name}) | {believed['says']} | {believed['against']} | {lines} |")
            told += lines
        else:
            others += lines
            files += 1
    table = ["| file | says | hold it against | lines |", "|---|---|---|---|", *rows]
    last = f"Together {told:,} lines in {len(rows)} files. Beside them {others:,} lines in {files} files serve the proof."
    return "\n".join([HEAD, *table, "", last, ""])


if __name__ == "__main__":
    print(page(pathlib.Path(__file__).resolve().parent.parent), end="")
