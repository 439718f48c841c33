#!/usr/bin/env python3
"""The C header and the Rust declarations have the exported functions, the structs and the numbers of the sources.

Nothing else compares them: a C or Rust caller goes by its own declaration. Functions and structs are read from the code, numbers
from the definitions that the contracts use. A line for each that differs, and exit 1.
"""
import re
import sys

# What a type of the source is to C and to Rust; a slice is a pointer and then a length.
TYPES = {
    "&[u8]": ("const uint8_t*,size_t", "*const u8,usize"),
    "&[u32]": ("const uint32_t*,size_t", "*const u32,usize"),
    "&mut [u8]": ("uint8_t*,size_t", "*mut u8,usize"),
    "&mut [u32]": ("uint32_t*,size_t", "*mut u32,usize"),
    "&mut [u64]": ("uint64_t*,size_t", "*mut u64,usize"),
    "u8": ("uint8_t", "u8"),
    "u32": ("uint32_t", "u32"),
    "usize": ("size_t", "usize"),
    "i32": ("int32_t", "i32"),
    "bool": ("bool", "bool"),
    "Answer": ("avsplus_answer", "Answer"),
    "Part": ("avsplus_part", "Part"),
    "Number": ("avsplus_golomb", "Golomb"),
    "SignedNumber": ("avsplus_signed_number", "SignedNumber"),
    "State": ("avsplus_state", "State"),
    "Context": ("avsplus_context", "Context"),
    "Begun": ("avsplus_started", "Started"),
    "PlainBin": ("avsplus_plain_bin", "PlainBin"),
    "Bin": ("avsplus_bin", "Bin"),
    "PairBin": ("avsplus_pair_bin", "PairBin"),
}

# The words of the header that are not those of the sources in capitals.
WORDS = {
    "horizontal": "HORIZONTAL_SIZE",
    "vertical": "VERTICAL_SIZE",
    "chroma": "CHROMA_FORMAT",
    "rate": "FRAME_RATE_CODE",
    "bitrate": "BIT_RATE",
    "delay": "LOW_DELAY",
    "buffer": "BUFFER_SIZE",
    "Extension": "EXTENSION_UNIT",
}

# An exported function: its name, parameters and result.
EXPORTED = r'#\[unsafe\(no_mangle\)\]\npub extern "C" fn (\w+)\(([^)]*)\) -> (\w+)'

# Values that are written as names.
NAMED = {
    "UINT32_MAX": 2**32 - 1,
    "u32::MAX": 2**32 - 1,
    "INT32_MIN": -(2**31),
    "i32::MIN": -(2**31),
    "SIZE_MAX": 2**64 - 1,
    "usize::MAX": 2**64 - 1,
}


def read(path):
    return open(path).read()


def split(parameters):
    return [p.strip() for p in parameters.split(",") if p.strip()]


def capitals(word):
    """A word of the sources as the header has it: SequenceHeader and sequence_header are SEQUENCE_HEADER."""
    parted = re.sub(r"(?<=[a-z])(?=[A-Z])|(?<=[A-Z])(?=[A-Z][a-z])", "_", word)
    return WORDS.get(word, parted.upper())


# ── functions and structs ──


def exported():
    """Of each exported function its parameters' types and its result, as C and as Rust has them."""
    for name, parameters, result in re.findall(EXPORTED, read("crates/avsplus/src/lib.rt")):
        types = [TYPES[p.split(": ", 1)[1]] for p in split(parameters)]
        yield name, [(",".join(t[k] for t in types), TYPES[result][k]) for k in (0, 1)]


def source_structs():
    text = "".join(read(f"crates/{crate}/src/lib.rt") for crate in ("statuses", "marked", "contexts", "aec"))
    for name, body in re.findall(r"#\[repr\(C\)\]\n(?:#\[derive[^\n]*\n)?pub struct (\w+) \{(.*?)\n\}", text, re.S):
        yield name, [re.match(r"pub (\w+): (\w+),", line.strip()).groups() for line in body.strip().split("\n")]


# ── numbers ──


def clauses(text, function):
    """Pattern and right side of each clause of a definition."""
    return re.findall(rf"^{function}\b ?(.*?) ?=\s(.*?)(?=^\S|\Z)", text, re.M | re.S)


def value(text, function, pattern=""):
    """The number that a definition's clause is."""
    (found,) = [right.strip() for left, right in clauses(text, function) if left == pattern]
    negative = re.fullmatch(r"neg_ℤ \(pos (\d+)\)", found)
    return -int(negative[1]) if negative else int(found)


def items(text, function, pattern, without):
    """The words that a definition lists in order, each after what it belongs to: HEADER_LEVEL. Lists in it are expanded; those in
    `without` are not given."""
    wanted = "None" if function in without else pattern
    right = next(right for left, right in clauses(text, function) if wanted in left)
    prefix = capitals(function.replace("_numbers", ""))
    for item in re.split(r"∷|\+\+", right):
        inner = re.match(r"\s*(\w+_numbers) ", item)
        if inner:
            yield from items(text, inner[1], "", without)
        elif item.strip() not in ("[]", "words rs"):
            word = re.search(r"\.(\w+)", item) or re.match(r"\s*(\w+)", item)
            yield f"{prefix}_{capitals(word[1])}"


def listed(function, pattern="", without=()):
    return list(items(read("crates/handover/specs/Numbers.antt"), function, pattern, without))


def statuses():
    yield "DONE", int(re.search(r"^counted \(done n\) = record \{ status = (\d+);", read("crates/statuses/specs/Answers.antt"), re.M)[1])
    for name, number in re.findall(r"^([A-Z_]+) = (\d+)$", read("crates/answers/specs/Answers.antt"), re.M):
        yield capitals(name), int(number)


def kinds():
    text = read("crates/statuses/specs/Answers.antt")
    for name, number in clauses(text, "kind_number"):
        yield capitals(name), int(number)
    yield "NO_KIND", value(text, "kind_answer", "(refused number carried)")


def indices():
    """The index of each word and number that is handed over, and how many there are."""
    row = list(items(read("crates/grammar/specs/Rows.antt"), "words", "(r ∷ rs)", ()))
    yield from ((word.replace("WORDS", "ROW"), i) for i, word in enumerate(row))
    yield "ROW_WORDS", len(row)
    for function, count in (("header_numbers", "HEADER_NUMBERS"), ("ratio_numbers", "RATIO_NUMBERS")):
        yield from ((word, i) for i, word in enumerate(listed(function)))
        yield count, len(listed(function))
    for i, word in enumerate(listed("group_numbers")):
        yield word if word.startswith("HEADER_") else f"GROUP_{word}", i
    for pattern in ("(extensionBody.Display d)", "(extensionBody.Copyright c)"):
        for i, word in enumerate(listed("extension_numbers", pattern)):
            yield "EXTENSION_NUMBER" if i == 0 else f"EXTENSION_{word}", i


def counts():
    """The counts of a group and of an extension."""
    yield "GROUP_PLAIN", len(listed("group_numbers", without=("shown_numbers",)))
    yield "GROUP_WITH_DISPLAY", len(listed("group_numbers", without=("colour_numbers",)))
    yield "GROUP_WITH_COLOUR", len(listed("group_numbers"))
    yield "EXTENSION_OPAQUE", len(listed("extension_numbers", "(extensionBody.Opaque number)"))
    yield "EXTENSION_COPYRIGHT", len(listed("extension_numbers", "(extensionBody.Copyright c)"))
    yield "EXTENSION_DISPLAY", len(listed("extension_numbers", "(extensionBody.Display d)", ("colour_numbers",)))
    yield "EXTENSION_WITH_COLOUR", len(listed("extension_numbers", "(extensionBody.Display d)"))


def named():
    """Numbers that a definition names."""
    for path, functions in (
        ("crates/avsplus/specs/Interface.antt", ["version"]),
        ("crates/answers/specs/Limits.antt", ["longest_stream", "longest_payload"]),
        ("crates/statuses/specs/Answers.antt", ["no_bit"]),
        ("crates/marked/specs/Payloads.antt", ["no_number", "no_signed_number", "no_bin", "no_lg"]),
    ):
        yield from ((capitals(function), value(read(path), function)) for function in functions)


def source_numbers():
    for part in (statuses(), kinds(), indices(), counts(), named()):
        yield from ((f"AVSPLUS_{name}", number) for name, number in part)


# ── what is declared ──


def number(text):
    """A number as C and Rust write it; the text itself where it is none."""
    plain = re.fullmatch(r"(\d[\d_]*)u?", text)
    return int(plain[1]) if plain else NAMED.get(text, text)


def declared_in_c():
    text = re.sub(r"/\*.*?\*/", "", read("include/avsplus.h"), flags=re.S)
    for result, name, parameters in re.findall(r"^(\w+) (avsplus_\w+)\(([^)]*)\);", text, re.M):
        types = [re.sub(r"\b\w+$", "", p).strip().replace(" *", "*") for p in split(parameters) if p != "void"]
        yield name, (",".join(types), result)
    for body, name in re.findall(r"typedef struct \{(.*?)\} (\w+);", text, re.S):
        yield name, [tuple(reversed(line.strip().rstrip(";").split(" "))) for line in body.strip().split("\n")]
    for body in re.findall(r"enum \{(.*?)\}", text, re.S):
        for name, is_, given in (entry.partition("=") for entry in split(body)):
            yield name.strip(), number(given.strip())
    for name, given in re.findall(r"^#define (AVSPLUS_\w+) +(.*?) *$", text, re.M):
        yield name, number(given)


def declared_in_rust():
    text = re.sub(r"//[^\n]*", "", read("rust/avsplus-sys/src/lib.rs"))
    for name, parameters, result in re.findall(r"pub fn (avsplus_\w+)\(([^)]*)\) -> (\w+);", text):
        yield name, (",".join(p.split(": ", 1)[1] for p in split(parameters)), result)
    for name, body in re.findall(r"#\[repr\(C\)\]\s*(?:#\[derive[^\n]*\n)?\s*pub struct (\w+) \{(.*?)\n\}", text, re.S):
        yield name, re.findall(r"pub (\w+): (\w+),", body)
    for name, given in re.findall(r"pub const (\w+): \w+ = (.*?);", text):
        yield name, number(given)


def all_of(declared):
    """As a dictionary; what is declared twice and otherwise is a difference of its own."""
    found = {}
    for name, form in declared:
        found[name] = form if found.get(name, form) == form else ("twice", found[name], form)
    return found


def main():
    functions, structs, numbers = dict(exported()), dict(source_structs()), all_of(source_numbers())
    differ = False
    for k, declared in ((0, all_of(declared_in_c())), (1, all_of(declared_in_rust()))):
        wanted = {name: forms[k] for name, forms in functions.items()}
        wanted.update({TYPES[s][k]: [(f, TYPES[t][k]) for f, t in fs] for s, fs in structs.items()})
        wanted.update(numbers)
        for name in sorted(wanted.keys() | declared.keys()):
            if wanted.get(name) != declared.get(name):
                differ = True
                print(f"{('C', 'Rust')[k]}: {name}: wanted {wanted.get(name)}, declared {declared.get(name)}")
    sys.exit(differ)


main()
