#!/usr/bin/env python3
"""What a reader has to believe leans on nothing that is computed or inside; a line for each file that does, and exit 1.

In a crate's specs/, Reader.antt holds what is computed and Inside.antt what private functions promise each other: proofs tie both
to the rest. Every other file is to be believed and imports no Reader and no Inside, of any crate. The crate examples is the
exception: its lists say what the computations answer.

At the end, how many lines of definitions there are: comments, blank lines and `use` lines are not counted.
"""
import pathlib
import re
import sys

PROVED = ("Reader", "Inside")
IMPORT = re.compile(r"(?:pub )?use Rattle\.\w+\.specs\.(\w+)")


def main():
    found = False
    lines = {"believed": 0, "proved": 0, "examples": 0}
    for file in sorted(pathlib.Path("crates").glob("*/specs/**/*.antt")):
        if file.stem == "Lib":
            continue
        kind = "examples" if file.parts[1] == "examples" else "proved" if file.stem in PROVED else "believed"
        for at, text in enumerate(file.read_text().split("\n"), 1):
            line = text.strip()
            module = IMPORT.match(line)
            if module and module[1] in PROVED and kind == "believed":
                found = True
                print(f"{file}:{at}: is to be believed, and imports {module[1]}")
            if line and not line.startswith("--") and not re.match(r"(pub )?use\b", line):
                lines[kind] += 1
    print(f"{lines['believed']} lines of definitions are to be believed, {lines['proved']} are computed or inside, {lines['examples']} are examples")
    sys.exit(found)


main()
