#!/usr/bin/env python3
"""Each public function of the library has an `ensures` and no `requires`, and its `ensures` say what is in all memory lent to it
afterwards: `NAME.new` for each `&mut` parameter NAME. A line for each that falls short, and exit 1.

The programs that rt ci runs have no public functions, and are passed over.
"""
import pathlib
import re
import sys


def heads(lines):
    """The line and the text of each public function's signature and clauses, up to its body."""
    at = 0
    while at < len(lines):
        if not re.match(r'\s*pub (?:extern "C" )?fn ', lines[at]):
            at += 1
            continue
        start, text = at, []
        while at < len(lines):
            line = lines[at].strip()
            text.append(line)
            at += 1
            if line.endswith("{") and not re.match(r"(requires|ensures|ghost)\b", line):
                break
        yield start + 1, text


def clauses(text):
    """Of a head its signature, and its clauses with the lines that go on with them."""
    found = [""]
    for line in text:
        if re.match(r"(requires|ensures|ghost)\b", line):
            found.append("")
        found[-1] += line + " "
    return found[0], found[1:]


def faults(text):
    signature, rest = clauses(text)
    if any(clause.startswith("requires") for clause in rest):
        yield "has a requires"
    ensures = [clause for clause in rest if clause.startswith("ensures")]
    if not ensures:
        yield "has no ensures"
    for name in re.findall(r"(\w+): &(?:'\w+ )?mut\b", signature):
        if not any(re.search(rf"(?<!\w)«?{name}»?\.new\b", clause) for clause in ensures):
            yield f"does not say what is in {name} afterwards"


def main():
    found = False
    for file in sorted(pathlib.Path("crates").glob("*/src/**/*.rt")):
        crate = file.parts[1]
        if crate.startswith("run_"):
            continue
        for line, text in heads(file.read_text().split("\n")):
            for fault in faults(text):
                found = True
                print(f"{file}:{line}: {text[0]} {fault}")
    sys.exit(found)


main()
