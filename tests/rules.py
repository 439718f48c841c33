#!/usr/bin/env python3
"""The tables of docs/RULES.md, the bits of its refusals and its formulas of macroblocks, are those of the definitions.

Nothing else compares them: a caller who has only the page goes by it. Both sides are made into rows of words, in order, so that a
row that is missing, added or moved differs too. A line for each difference, and exit 1.
"""
import itertools
import re
import sys

PAGE = "docs/RULES.md"

# The words of the page that are not those of the definitions in lower case.
WORDS = {"FrameRate": "frame rate code", "IPicture": "I picture", "PBPicture": "P or B picture"}

# What a field that is judged may be, in the page's words.
ALLOWED = {"Only": "only {}", "But": "not {}", "Within": "{} to {}", "WithinBut": "{} to {}, not {}"}

# A definition's list of fields, the section that it stands in, which of that section's tables it is, and what its bodies are called.
LAYOUTS = [
    ("header_fields", "Sequence header", 0, "sequence header"),
    ("display_fields", "Display extension", 0, "display extension, colour not given"),
    ("coloured_fields", "Display extension", 1, "display extension, colour given"),
    ("copyright_fields", "Copyright extension", 0, "copyright extension"),
]

# Fields that choose their layout: the case of the definitions that goes on to it, and what this asks of the body.
CHOOSING = {
    ("display_fields", "Number"): ("display", "HasNumber"),
    ("display_fields", "ColourGiven"): ("plain", "ColourGiven"),
    ("coloured_fields", "Number"): ("display", "HasNumber"),
    ("coloured_fields", "ColourGiven"): ("coloured", "ColourGiven"),
    ("copyright_fields", "Number"): ("copyright", "HasNumber"),
}

# The refusals of the rules across a copyright extension's fields, and the fields that each is about: its bit is the first one's.
ACROSS = {"VALUE_COPYRIGHT_OWNER": ["Owner"], "VALUE_COPYRIGHT_NUMBER": ["PartOne", "PartTwo", "PartThree"]}


def read(path):
    return open(path).read()


def spoken(name):
    """A name of the definitions as the page has it: HorizontalSize is horizontal size."""
    return WORDS.get(name, re.sub(r"(?<=[a-z])(?=[A-Z])", " ", name).lower())


# ── the page ──


def section(heading):
    """The text below a heading, up to the next one of any depth."""
    found = re.findall(rf"^#+ {heading}\n(.*?)(?=^#|\Z)", read(PAGE), re.M | re.S)
    return found[0] if len(found) == 1 else ""


def table(heading, columns, number=0):
    """The rows of one of the section's tables that have these columns; none where there is no such table."""
    found = []
    for block in re.findall(r"(?:^\|.*\n?)+", section(heading), re.M):
        head, _, *rows = [tuple(cell.strip() for cell in line.strip("|").split("|")) for line in block.splitlines()]
        found += [rows] if head == tuple(columns.split(", ")) else []
    return found[number] if number < len(found) else []


def large_numbers(text):
    """Those with thousands set apart by commas, which the page uses from 10,000 on."""
    return [int(n.replace(",", "")) for n in re.findall(r"\b\d{1,3}(?:,\d{3})+\b", text)]


def formulas(heading):
    """What is defined by an indented line of the section, the formula, and where it holds, if not everywhere."""
    return re.findall(r"^    (\w[\w ]*?) +=  (.*?)(?: +(where .*))?$", section(heading), re.M)


# ── the definitions ──


def numbers():
    """The number of each refusal by its name in the definitions."""
    return dict(re.findall(r"^([A-Z_]+) = (\d+)$", read("crates/answers/specs/Answers.antt"), re.M))


def refusal(name):
    """A refusal's name as the page has it: OUT_OF_PLACE is OUT OF PLACE, and VALUE_SLICE_ROW is VALUE of slice row."""
    field = re.fullmatch("VALUE_(.*)", name)
    return f"VALUE of {field[1].lower()}".replace("_", " ") if field else name.replace("_", " ")


def refusals():
    """Number 0 has no definition of its own: it is an answer that is done."""
    yield "0", "FILED / done"
    yield from ((number, refusal(name)) for name, number in numbers().items())


def codes(first, last):
    return f"{first:02X}" if first == last else f"{first:02X} to {last:02X}"


def kinds():
    """Each kind with its code bytes, and UNKNOWN for those between and after them, which no kind has."""
    following = 0
    text = read("crates/startcode/specs/Kinds.antt")
    for first, last, kind in re.findall(r"\bcodes? 0x(\w\w) (?:0x(\w\w) )?([A-Z]\w+)$", text, re.M):
        first, last = int(first, 16), int(last or first, 16)
        if following < first:
            yield codes(following, first - 1), "UNKNOWN"
        yield codes(first, last), spoken(kind)
        following = last + 1
    yield codes(following, 0xFF), "UNKNOWN"


def layout_fields(layout):
    """First bit, width, name, and the words of its rule; a field begins where the one before it ends."""
    text = read("crates/layout/specs/Layouts.antt")
    (body,) = re.findall(rf"^{layout} =\n(.*?)\[\]", text, re.M | re.S)
    (marker,) = re.findall(r"^marker = (field .*)$", text, re.M)
    at = 0
    for item in body.replace("marker", marker).split("∷")[:-1]:
        name, width, rule = re.fullmatch(r"field (\w+) (\d+) (.*)", item.strip()).groups()
        yield at, int(width), name, re.findall(r"\w+", rule.replace("value.", ""))
        at += int(width)


def chosen(layout, name):
    """The value that a field has in every body that is read by this layout, where it chooses the layout."""
    case, asks = CHOOSING[layout, name]
    (value,) = re.findall(rf"^  {case} : .*\b{asks} body (\d+) →", read("crates/bodies/specs/Breaks.antt"), re.M)
    return value


def allowed(layout, name, rule):
    """What a field may be: a marker is set, a field that is judged has a rule for its values, and any other is any."""
    if rule[0] == "Judged":
        _, _, values, *limits = rule
        return ALLOWED[values].format(*limits)
    if rule == ["Any"] and (layout, name) in CHOOSING:
        return f"always {chosen(layout, name)}"
    return {"Any": "any", "Set": "1"}[rule[0]]


def fields(layout):
    for at, width, name, rule in layout_fields(layout):
        yield str(at), str(width), spoken(name), allowed(layout, name, rule)


def judged():
    """Each refusal that is about fields, with the bodies that have them, and of each field its name, first bit and width."""
    for layout, _, _, body in LAYOUTS:
        for at, width, name, rule in layout_fields(layout):
            if rule[0] in ("Set", "Judged"):
                yield "MARKER" if rule[0] == "Set" else f"VALUE_{rule[1].upper()}", body, [(name, at, width)]
    places = {name: (name, at, width) for at, width, name, _ in layout_fields("copyright_fields")}
    yield from ((name, "copyright extension", [places[field] for field in about]) for name, about in ACROSS.items())


def across():
    """The rules across a copyright extension's fields: the refusal, and the field whose first bit it has."""
    text = read("crates/layout/specs/Breaks.antt")
    for field, judged_field in re.findall(r"\bBegins Copyright (\w+) at → why ≡ fault\.Value (\w+) at\b", text):
        yield "VALUE_" + re.sub(r"(?<=[a-z])(?=[A-Z])", "_", judged_field).upper(), field


def bits():
    """Number, body, field and bit of each refusal that carries one, and where in the body's bytes the bit is. No layout has a slice's
    code byte: its bit is 0."""
    rows = []
    for name, body, about in judged():
        field, at, _ = about[0]
        rows.append((numbers()[name], body, spoken(field), str(at), f"{0x80 >> at % 8:02X} in byte {at // 8}"))
    for name in ("VALUE_SLICE_ORDER", "VALUE_SLICE_ROW"):
        rows.append((numbers()[name], "slice", "code byte", "0", "the code byte is at offset + 3"))
    return sorted(rows, key=lambda row: int(row[0]))


def spans():
    """The bits of the fields that each refusal from 20 on is about."""
    found = {}
    for name, _, about in judged():
        found.setdefault(numbers()[name], []).extend((str(at), str(at + width - 1)) for _, at, width in about)
    return [(number, found[number]) for number in sorted(found, key=int) if int(number) >= 20]


def ratios(name, others):
    """The codes of a table of fractions, and what is said of every code that has none."""
    text = read("crates/ratios/specs/Ratios.antt")
    (body,) = re.findall(rf"^{name} =(.*?)\[\]", text, re.M | re.S)
    (begins,) = re.findall(rf"= entry_of (\d+) {name} ", text)
    fractions = [n if d == "1" else f"{n}/{d}" for n, d in re.findall(r"(\d+) over (\d+)", body)]
    yield from ((str(int(begins) + i), said) for i, said in enumerate(fractions))
    yield "any other", others


def said(formula):
    """A formula over a header record h in the page's words."""
    return re.sub(r"h\.(\w+)", r"\1 size", formula).replace("*", "×")


def macroblocks():
    """Columns and rows; these have two formulas, by progressive, which is one bit."""
    text = read("crates/macroblocks/specs/Macroblocks.antt")
    (columns,) = re.findall(r"^macroblock_columns h = (.*)$", text, re.M)
    ((interlaced, progressive),) = re.findall(r"^macroblock_rows h = cond \(eqb h\.progressive 0\) \((2.*)\) \((\(h.*)\)$", text, re.M)
    yield "macroblock columns", said(columns), ""
    yield "macroblock rows", said(interlaced), "where progressive is 0"
    yield "macroblock rows", said(progressive), "where progressive is 1"


def limits():
    return [int(n.replace("_", "")) for n in re.findall(r"^\w+ = ([\d_]+)$", read("crates/answers/specs/Limits.antt"), re.M)]


# ── both ──


def pairs():
    """What is compared, as the definitions have it, and as the page has it."""
    listed = table("Refusal numbers", "No, Name, Given exactly when, What to look at")
    yield "refusals", refusals(), [row[:2] for row in listed]
    yield "places across fields", across(), [(name, about[0]) for name, about in ACROSS.items()]
    yield "bits of refusals", bits(), table("What a refusal carries", "No, In, Field, Bit, Value and byte")
    looked_at = [(row[0], re.findall(r"\b(\d+) to (\d+)\b", row[3])) for row in listed if int(row[0]) >= 20]
    yield "bits to look at", spans(), [(number, found) for number, found in looked_at if found]
    yield "code bytes", kinds(), table("Units", "Code, Kind")
    for layout, heading, number, _ in LAYOUTS:
        yield layout, fields(layout), table(heading, "First bit, Width, Field, Allowed", number)
    heading = "Frame rates and display ratios"
    yield "frame rates", ratios("frame_rates", "none"), table(heading, "Code, Frames a second")
    # aspect 1 stands in a comment of the definitions alone
    aspects = [("1", "square samples, no ratio"), *ratios("display_ratios", "no ratio")]
    yield "display ratios", aspects, table(heading, "Aspect, Says")
    yield "macroblocks", macroblocks(), [row for row in formulas("Grammar of a stream") if row[0].startswith("macroblock")]
    yield "limits", limits(), large_numbers(section("Limits"))
    yield "limits of TOO LONG", limits()[:2], large_numbers(" ".join(" ".join(row) for row in listed if row[1] == "TOO LONG"))


def main():
    differ = False
    for what, defined, written in pairs():
        for here, there in itertools.zip_longest(defined, written):
            if here != there:
                differ = True
                print(f"{what}: defined {here}, the page has {there}")
    sys.exit(differ)


main()
