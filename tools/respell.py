#!/usr/bin/env python3
"""Spells the repository's own names as today's Rattle does, after the kit's port.py: words in snake case, types as they are.

usage: tools/respell.py [FOLDER]     the top of the repository, before any edit by hand; it was run once, in the commit that docs/PORT.md names

    headerValues, few-steps, NO-ROW, ◌is-a◌  ->  header_values, few_steps, NO_ROW, ◌is_a◌

A name of the repository's own is one that its specs/ or proofs/ declare, but for what a whole proof of a function (Proof.antt) declares for
itself. It is respelled wherever it stands for that: not in a file that imports the same word from a library. Of .rt files only contracts
and `ghost use` lines change. Names that would fall together stop the script.
"""

import collections
import glob
import os
import re
import sys

TOKEN = re.compile(r"[^\s(){}.;,@\"«»\[\]\\:`'→×]+")
DECLARED = re.compile(r"^\s*(?:unfoldable |abbrev |pub )*(?:pub )?([^\s(){}.;,@\"«»\[\]:]+(?: [^\s(){}.;,@\"«»\[\]:]+)*) :(?: |$)")
IMPORT = re.compile(r"^(?:pub )?(?:ghost )?use ([\w.+'·-]+)\.\{([^}]*)\};?$", re.M)
# the words of a pattern's binders and of Rattle that a line may begin with
NOT_NAMES = {"let", "in", "elim", "λ", "record", "module", "use", "mod", "pub"}

# lemmas that port.py gave the name that a definition gets here
LEMMAS = {"crates/bodies/proofs/ExtensionLaws.antt": {"by_number": "by_number_lem"}}

# a constructor, a lemma of it, and an operator beside the definition `stands_for`
CHOSEN = {"at-bit": "at_bit", "atBit": "at_bit_lem", "stands-for": "stands_as", "◌stands-for◌": "◌stands_as◌"}


def snake(name):
    """A name in snake case; of a type or a fact nothing but its dashes changes."""
    if re.match(r"^◌?[a-z]", name):
        name = re.sub(r"(?<=[a-z0-9])([A-Z])(?=[a-z])", lambda m: "_" + m.group(1).lower(), name)
        name = re.sub(r"(?<=[a-z0-9])([A-Z])(?![a-z])", lambda m: "_" + m.group(1).lower(), name)
    return re.sub(r"(?<=\w)-(?=\w)", "_", name)


def texts(top, endings):
    for path in sorted(glob.glob(os.path.join(top, "crates", "**", "*"), recursive=True)):
        if "/out/" not in path and os.path.isfile(path) and path.endswith(endings):
            yield path


def read(path):
    with open(path, encoding="utf-8") as it:
        return it.read()


def declared(text):
    for line in text.splitlines():
        found = DECLARED.match(line)
        if found:
            yield from (n for n in found.group(1).split(" ") if n not in NOT_NAMES)


def table(top):
    """Each name with its new spelling. A lemma that would have a definition's name gets `_lem`."""
    all_names = {n for path in texts(top, ".antt") if not path.endswith("/Proof.antt") for n in declared(read(path))}
    taken = {snake(n) for n in all_names if "-" not in n}
    names = {}
    for name in sorted(all_names):
        for part in {name, *(name.split("◌") if "◌" in name else ())} - {""}:
            if snake(part) != part:
                names[part] = snake(part) + ("_lem" if "-" in part and snake(part) in taken else "")
    return names | CHOSEN


def of_libraries(text):
    found = set()
    for module, names in IMPORT.findall(text):
        if not re.match(r"Rattle\.(?!std\b)", module):
            found |= {n.strip().split(" as ")[0] for n in names.split(",")}
    return found


def respelled(text, names, but=frozenset()):
    def new(m):
        it = m.group()
        if it not in names or it in but:
            return it
        # behind a dot stands a field, or a step of a function's proof
        return snake(it) if text[m.start() - 1 : m.start()] == "." else names[it]

    return TOKEN.sub(new, text)


def contracts(text, names):
    """A source file: its `ghost use` lines and its clauses."""
    lines, depth, out = text.split("\n"), 0, []
    for line in lines:
        code = line.split("//")[0]
        ghost = depth > 0 or re.match(r"\s*(?:pub )?ghost\b|\s*(?:requires|ensures)\b", code)
        if ghost:
            depth = max(0, depth + code.count("{") - code.count("}"))
            line = respelled(line, names)
        elif line.strip().startswith("//"):
            line = respelled(line, {a: b for a, b in names.items() if "-" not in a})
        out.append(line)
    return "\n".join(out)


def quoted(text, names):
    """A page: what stands between backticks."""
    return re.sub(r"`[^`\n]+`", lambda m: respelled(m.group(), names), text)


def meet(top, names):
    """Names that would fall together in one file."""
    bad = []
    for path in texts(top, ".antt"):
        text = read(path)
        seen = collections.defaultdict(set)
        for name in declared(text):
            seen[names.get(name, name)].add(name)
        for module, imported in IMPORT.findall(text):
            for n in (n.strip().split(" as ")[-1] for n in imported.split(",")):
                seen[n if not re.match(r"Rattle\.(?!std\b)", module) else names.get(n, n)].add(n)
        bad += [f"{path}: {sorted(v)} would be {k}" for k, v in seen.items() if len(v) > 1]
    return bad


def main():
    top = sys.argv[1] if len(sys.argv) > 1 else "."
    for name, lemma in LEMMAS.items():
        path = os.path.join(top, name)
        text = read(path)
        with open(path, "w", encoding="utf-8") as it:
            it.write(respelled(text, lemma))
    names = table(top)
    bad = meet(top, names)
    if bad:
        print("\n".join(bad))
        return 1
    todo = {}
    for path in texts(top, (".antt", ".rt", ".edit")):
        text = read(path)
        if path.endswith(".antt"):
            new = respelled(text, names, of_libraries(text))
        elif path.endswith(".rt"):
            new = contracts(text, names)
        else:
            new = respelled(text, names)
        todo[path] = (text, new)
    pages = ["README.md"] + sorted(os.path.relpath(p, top) for p in glob.glob(os.path.join(top, "docs", "**", "*.md"), recursive=True))
    for page in pages:
        text = read(os.path.join(top, page))
        todo[os.path.join(top, page)] = (text, quoted(text, names))
    for path in sorted(glob.glob(os.path.join(top, "tests", "*.py"))):
        todo[path] = (read(path), respelled(read(path), names))
    for path, (text, new) in todo.items():
        if new != text:
            with open(path, "w", encoding="utf-8") as it:
                it.write(new)
    print(f"respell: {len(names)} names, {sum(a != b for a, b in todo.values())} files")
    return 0


if __name__ == "__main__":
    sys.exit(main())
