#!/usr/bin/env python3
"""The answers that documents 01 and 02 ask for the questions of crates/run_units, worked out from these papers alone.

Reads the questions (not the code) from crates/run_units/src/main.rt and prints what the program must print. The gate holds
this to crates/run_units/stdout, and rt ci holds the program to that file.

A refusal is its number and its bit, - where it carries none.
    unit STATE AT                   the unit's end, its row's length and the state after it; none and the refusal; none for no unit
    body 0 BYTES                    header for a good sequence header, or the refusal
    body 1 to 3 BYTES               whether the number is 2, whether that is too short, whether it is opaque in a head and after a
                                    picture; then, read in a head and after a picture: display, copyright, opaque and the number,
                                    or the refusal
A state is 0 before all, 1 in a head, 2 in a picture, 3 after a slice, 4 after B1, 5 after B7; 1 to 3 with the slices' rule
(tested, rows) and whether a display extension was read (1) or the least slice that may follow (3).
"""
from questions import Questions, bits_of, hexed

ASKED = Questions("run_units")
PREFIX = b"\0\0\1"
CUT, OVERLAP, UNKNOWN, OUT_OF_PLACE, SHORT, MARKER = range(2, 8)
STUFFING, TWICE = 9, 10
COPYRIGHT_OWNER, COPYRIGHT_NUMBER, SLICE_ORDER, SLICE_ROW = range(29, 33)
START, HEAD, PICTURE, SLICES, ENDED, CLOSED = range(6)


class Refused(Exception):
    """A refusal: its number and its bit."""


def refuse(good, number, bit="-"):
    if not good:
        raise Refused(number, bit)


# ── layouts ──

# a field is its name, its width and which values it may have; other values are refused with the number that its name has here
VALUE = {"horizontal": 20, "vertical": 21, "chroma": 22, "precision": 23, "aspect": 24, "rate": 25, "transfer": 26, "matrix": 27,
         "stereo": 28}
ANY = None
HEADER = [("profile", 8, ANY), ("level", 8, ANY), ("progressive", 1, ANY), ("horizontal", 14, lambda v: v != 0),
          ("vertical", 14, lambda v: v != 0), ("chroma", 2, lambda v: v in (1, 2)), ("precision", 3, lambda v: v == 1),
          ("aspect", 4, lambda v: 1 <= v <= 4), ("rate", 4, lambda v: 1 <= v <= 8), ("low", 18, ANY), ("marker", 1, ANY),
          ("high", 12, ANY), ("delay", 1, ANY), ("marker", 1, ANY), ("buffer", 18, ANY), ("reserved", 3, ANY)]
COLOURED = [("number", 4, ANY), ("format", 3, ANY), ("range", 1, ANY), ("given", 1, ANY), ("primaries", 8, ANY),
            ("transfer", 8, lambda v: v not in (0, 3) and v <= 10), ("matrix", 8, lambda v: v not in (0, 3) and v <= 7),
            ("width", 14, ANY), ("marker", 1, ANY), ("height", 14, ANY), ("stereo", 2, lambda v: v != 3)]
PLAIN = [field for field in COLOURED if field[0] not in ("primaries", "transfer", "matrix")]
COPYRIGHT = [("number", 4, ANY), ("flag", 1, ANY), ("owner", 8, ANY), ("original", 1, ANY), ("reserved", 7, ANY),
             ("marker", 1, ANY), ("one", 20, ANY), ("marker", 1, ANY), ("two", 22, ANY), ("marker", 1, ANY), ("three", 22, ANY)]


def first_bit(layout, name):
    before = [field[0] for field in layout].index(name)
    return sum(width for _, width, _ in layout[:before])


def fields(body, layout):
    """The record of a body's fields, or its first fault in bit order."""
    bits, at, record = bits_of(body), 0, {}
    for name, width, allowed in layout:
        value = int(bits[at:at + width], 2)
        if name == "marker":
            refuse(value == 1, MARKER, at)
        elif allowed:
            refuse(allowed(value), VALUE[name], at)
        record[name] = value
        at += width
    return record


def stuffed(body, layout):
    """After the fields, which end at a byte's end: a 1, zeros to the byte's end, zero bytes."""
    end = sum(width for _, width, _ in layout) // 8
    refuse(body[end] == 0x80 and not any(body[end + 1:]), STUFFING)


def read_header(body):
    refuse(len(body) >= 15, SHORT)
    record = fields(body, HEADER)
    stuffed(body, HEADER)
    return record


def display_short(body):
    return len(body) < 6 or (body[1] >= 0x80 and len(body) < 9)


def read_display(body):
    refuse(not display_short(body), SHORT)
    layout = COLOURED if body[1] >= 0x80 else PLAIN
    fields(body, layout)
    stuffed(body, layout)
    return ["display"]


def read_copyright(body):
    refuse(len(body) >= 12, SHORT)
    c = fields(body, COPYRIGHT)
    number = c["one"] * 2 ** 44 + c["two"] * 2 ** 22 + c["three"]
    refuse(c["flag"] == 1 or c["owner"] == 0, COPYRIGHT_OWNER, first_bit(COPYRIGHT, "owner"))
    refuse(c["owner"] != 0 or number == 0, COPYRIGHT_NUMBER, first_bit(COPYRIGHT, "one"))
    stuffed(body, COPYRIGHT)
    return ["copyright"]


def is_opaque(body, head):
    return not body or body[0] >> 4 not in ((2, 4) if head else (4,))


def read_extension(body, head):
    refuse(body, SHORT)
    if is_opaque(body, head):
        return ["opaque", body[0] >> 4]
    return read_copyright(body) if body[0] >> 4 == 4 else read_display(body)


def answer(read, *asked):
    try:
        return read(*asked)
    except Refused as why:
        return why.args


def bodies():
    for kind, lent, place, byte in ASKED.table("BODIES"):
        body = bytearray(ASKED.constant(("HEADER", "PLAIN", "COLOURED", "COPYRIGHT")[kind]))
        body[place] = byte
        body = bytes(body[:lent])
        if kind == 0:
            said = answer(lambda: read_header(body) and ["header"])
        else:
            said = [int(body[:1] and body[0] >> 4 == 2 or 0), int(display_short(body)), int(is_opaque(body, True)), int(is_opaque(body, False)),
                    *answer(read_extension, body, True), *answer(read_extension, body, False)]
        print("body", kind, hexed(body), *said)


# ── units ──


def take_header(body):
    header = read_header(body)
    vertical = header["vertical"]
    rows = (vertical + 15) // 16 if header["progressive"] else 2 * ((vertical + 31) // 32)
    return [HEAD, int(vertical <= 2800), rows, 0]


def take_extension(state, body):
    display = state[0] == HEAD and body[:1] and body[0] >> 4 == 2
    if display:
        refuse(not display_short(body), SHORT)
        refuse(not state[3], TWICE)
    read_extension(body, state[0] == HEAD)
    return [*state[:3], 1] if display else state


def take_slice(state, code, body):
    at, tested, rows, least = state
    refuse(any(body), SHORT)
    refuse(not tested or at == PICTURE or code >= least, SLICE_ORDER, 0)
    refuse(not tested or code < rows, SLICE_ROW, 0)
    return [SLICES, tested, rows, code + 1]


def take(state, code, body):
    """The state after a unit."""
    at = state[0]
    if code <= 0xAF and at in (PICTURE, SLICES):
        return take_slice(state, code, body)
    if code == 0xB0 and at in (START, SLICES):
        return take_header(body)
    if code == 0xB2 and at in (HEAD, PICTURE):
        return state
    if code == 0xB5 and at in (HEAD, PICTURE):
        return take_extension(state, body)
    if code == 0xB3 and at in (HEAD, SLICES) or code == 0xB6 and at == SLICES:
        refuse(any(body), SHORT)
        return [PICTURE, *state[1:3], 0]
    if code == 0xB1 and at == SLICES or code == 0xB7 and at in (SLICES, ENDED):
        refuse(not body, STUFFING)
        return [ENDED if code == 0xB1 else CLOSED]
    raise Refused(OUT_OF_PLACE, "-")


def unit(stream, state, at):
    if stream[at:at + 3] != PREFIX:
        return []
    refuse(len(stream) > at + 3, CUT)
    end = stream.find(PREFIX, at + 3)
    refuse(end != at + 3, OVERLAP)
    end = len(stream) if end < 0 else end
    code, body = stream[at + 3], stream[at + 4:end]
    refuse(code <= 0xB3 or 0xB5 <= code <= 0xB7, UNKNOWN)
    after = take(state, code, body)
    whole = code == 0xB2 or code == 0xB5 and is_opaque(body, state[0] == HEAD)
    return [end, len(body) if whole else len(body.rstrip(b"\0")), *after]


# the program's STATES; no stream leads to the last, in which slice 5 breaks both order and row
STATES = [[START], [HEAD, 1, 68, 0], [HEAD, 1, 68, 1], [PICTURE, 1, 68, 0], [SLICES, 1, 68, 6], [SLICES, 0, 176, 68], [ENDED], [CLOSED],
          [SLICES, 1, 5, 6]]


def units():
    for k, state in enumerate(STATES):
        for at in ASKED.words("PLACES"):
            try:
                said = unit(ASKED.constant("STREAM"), state, at) or ["none"]
            except Refused as why:
                said = ["none", *why.args]
            print("unit", k, at, *said)


units()
bodies()
