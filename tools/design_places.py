#!/usr/bin/env python3
"""design_places.py [POINT..]: the places in crates/*/src that docs/DESIGN-PASS.md counts, a line each, and how many there are.

Run at the top of a checkout, of any commit. Point 1: enums of the shape of Option or Result, a verdict beside values, functions that
give a number for an enum's variant. 2: functions that are alike but for names, types and numbers. 3: loops other than for. 4: functions
that only convert, compare or print. 5: facts required of three functions or more, and parameters that three functions or more have
together. 6: arrays and slices with a place or a length beside. 7: matches of which each arm is another call. 8: the size of proofs/.
"""
import collections
import pathlib
import re
import sys

ABSENT = {
    "Missing", "NotGiven", "Unknown", "Few", "Short", "Slow", "Fine", "Refused", "Stop", "NoUnit", "NoRow", "TooLong", "TooMany",
    "TooWide", "Full", "Faulty",
}
# What stands as the error of a Result, and is none itself.
ERRORS = {"Reason", "Fault", "Refusal"}
# Made by scripts/tables.
GENERATED = {"packed.rt", "next3.rt", "next4.rt", "next5.rt"}


def sources():
    for path in sorted(pathlib.Path("crates").glob("*/src/**/*.rt")):
        lines = [re.sub(r"(^|\s)//.*", "", line) for line in path.read_text().split("\n")]
        yield path, lines


def blocks(lines, head):
    """Each item whose first line matches `head`, to the brace that closes it at the same indent: its name, its first line, its text."""
    for i, line in enumerate(lines):
        m = re.match(head, line)
        if m:
            indent = re.match(r" *", line).group()
            if line.rstrip().endswith((";", "}")) and "{" not in line.rstrip()[:-1]:
                yield m.group("name"), i + 1, line
                continue
            end = next((j for j in range(i, len(lines)) if lines[j].startswith(indent + "}")), i)
            yield m.group("name"), i + 1, "\n".join(lines[i:end + 1])


FN = r'^ *(?:pub(?:\([a-z]+\))? )?(?:const )?(?:extern "C" )?fn (?P<name>\w+)'


def functions():
    for path, lines in sources():
        for name, line, text in blocks(lines, FN):
            yield path, name, line, text


def body(text):
    """What stands in a function's braces."""
    m = re.search(r"(?:^|\s)\{\n(.*)\n *\}$", re.sub(r"(?m)^ *(requires|ensures)\b.*$", "", text), re.S)
    return m.group(1) if m else ""


def clauses(text, word):
    return re.findall(r"(?m)^ *" + word + r"\b[^{]*\{ (.*) \}$", text)


def point1():
    for path, lines in sources():
        for name, line, text in blocks(lines, r"^(?:pub )?enum (?P<name>\w+)"):
            variants = re.findall(r"(?m)^    (\w+)", text)
            bare = re.findall(r"(?m)^    (\w+),", text)
            carrying = len(variants) - len(bare)
            if name in ERRORS or name.endswith("Error"):
                continue
            if carrying and (ABSENT & set(variants) or (len(variants) == 2 and len(bare) == 1)):
                yield path, line, f"enum {name}: {', '.join(variants)}"
        for name, line, text in blocks(lines, r"^(?:pub )?struct (?P<name>\w+)"):
            if re.search(r"\bverdict:", text):
                yield path, line, f"struct {name}: a verdict with values beside it"
    for path, name, line, text in functions():
        if re.search(r"-> u32\b", text) and re.match(r"\s*match \w+ \{", body(text)):
            arms = re.findall(r"(?m)=> (.*),$", body(text))
            if arms and all(re.fullmatch(r"\d+|[A-Z_]+", arm) or "(" in arm for arm in arms) and any(arm.isdigit() for arm in arms):
                if sum(arm.isdigit() for arm in arms) * 2 > len(arms):
                    yield path, line, f"fn {name}: a number for each variant"


def shape(text):
    """A function's text without its name, and with names, types and numbers as one sign each."""
    text = re.sub(r"(?m)^ *(requires|ensures)\b.*$", "", text)
    text = re.sub(r"\bfn \w+", "fn", text)
    words = re.findall(r"[A-Za-z_]\w*|\d[\w.]*|\"[^\"]*\"|'[^']*'|\S", text)
    keep = {"fn", "pub", "let", "mut", "if", "else", "while", "for", "in", "match", "return", "as", "loop", "impl"}
    return " ".join(w if w in keep or not re.match(r"[A-Za-z_0-9\"']", w) else "x" for w in words)


def point2():
    alike = collections.defaultdict(list)
    for path, name, line, text in functions():
        key = shape(text)
        if len(key.split()) >= 24:
            alike[key].append((path, line, name))
    for group in alike.values():
        if len(group) > 1:
            first = group[0]
            for path, line, name in group[1:]:
                yield path, line, f"fn {name}: as {first[0].parts[1]}'s {first[2]}"


def point3():
    for path, lines in sources():
        for i, line in enumerate(lines):
            if re.match(r"^\s*(while|loop)\b", line):
                yield path, i + 1, line.strip()


def point4():
    for path, name, line, text in functions():
        b = body(text).strip()
        if re.fullmatch(r"[\w.]+ as \w+", b) or re.fullmatch(r"if (\w+) < (\w+) \{\s*\1\s*\} else \{\s*\2\s*\}|if (\w+) < (\w+) \{ \w+ \} else \{ \w+ \}", b):
            yield path, line, f"fn {name}: {' '.join(b.split())}"
        elif path.parts[1].startswith("run_") and re.search(r"\bsay\(rt, b\"|rt\.write_all|\btext::put", b) and len(b.split("\n")) <= 6:
            yield path, line, f"fn {name}: prints"


def point5():
    facts = collections.defaultdict(set)
    together = collections.defaultdict(set)
    for path, name, line, text in functions():
        crate = path.parts[1]
        for clause in clauses(text, "requires"):
            for fact in clause.split(" × "):
                facts[(crate, fact.strip("() "))].add(name)
        head = text.split("{")[0]
        params = re.findall(r"\b(\w+): (&(?:mut )?(?:'\w+ )?[\w\[\]]+|[\w:]+)", head)
        for i, one in enumerate(params):
            for other in params[i + 1:]:
                together[(crate, one, other)].add(name)
    for (crate, fact), names in sorted(facts.items()):
        if len(names) >= 3:
            yield pathlib.Path("crates") / crate, 0, f"{len(names)} functions require {fact}"
    for (crate, one, other), names in sorted(together.items()):
        if len(names) >= 3 and not crate.startswith("run_") and crate != "avsplus":
            yield pathlib.Path("crates") / crate, 0, f"{len(names)} functions take {one[0]}: {one[1]} and {other[0]}: {other[1]}"


def point6():
    for path, lines in sources():
        if path.name in GENERATED:
            continue
        for i, line in enumerate(lines):
            if re.search(r"\[\d+u?\d*; \w+\]|: \[[\w:]+; \d+\]", line) and not re.match(r"^(pub )?(const|static)", line):
                yield path, i + 1, line.strip()
            elif re.search(r"fn \w+\((.*, )?\w+: &mut \[\w+\], \w+: usize", line):
                yield path, i + 1, line.strip()


def point7():
    for path, name, line, text in functions():
        b = body(text).strip()
        if re.match(r"match (which|layout)\b", b):
            arms = re.findall(r"=> (.*),$", b, re.M)
            yield path, line, f"fn {name}: {len(arms)} arms"


def point8():
    for folder in sorted(pathlib.Path("crates").glob("*/proofs")):
        files = list(folder.rglob("*.antt"))
        lines = sum(len(file.read_text().split("\n")) - 1 for file in files)
        lemmas = sum(len(re.findall(r"(?m)^ *(?:pub )?[\w'-]+ : ", file.read_text())) for file in files if len(file.relative_to(folder).parts) == 1)
        yield folder, 0, f"{len(files)} files, {lines} lines, {lemmas} statements outside the functions' folders"


def main():
    points = sys.argv[1:] or "12345678"
    for point in points:
        found = list(globals()["point" + point]())
        print(f"point {point}: {len(found)}")
        for path, line, what in found:
            print(f"  {path}{':' + str(line) if line else ''}: {what}")


main()
