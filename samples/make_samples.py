#!/usr/bin/env python3
"""Writes two-groups.avs, an AVS+ recording of two groups, into this script's own folder.

make_samples.py            writes the file
make_samples.py --check    compares it instead; exit status 1 where it differs
"""

import sys
from pathlib import Path

FOLDER = Path(__file__).resolve().parent
PREFIX = b"\x00\x00\x01"

SEQUENCE_HEADER = 0xB0
SEQUENCE_END = 0xB1
USER_DATA = 0xB2
I_PICTURE = 0xB3
EXTENSION = 0xB5
PB_PICTURE = 0xB6
EDIT_CODE = 0xB7

# Extension numbers.
DISPLAY = 2
COPYRIGHT = 4
PICTURE_DISPLAY = 7
CAMERA = 11


class BitWriter:
    """Packs fields, most significant bit first."""

    def __init__(self):
        self.bits = ""

    def put(self, value, width):
        if not 0 <= value < 1 << width:
            raise ValueError(f"{value} does not fit {width} bits")
        self.bits += format(value, f"0{width}b")

    def stuffed(self):
        """The bytes after the closing 1 bit and its zeros."""
        bits = self.bits + "1"
        bits += "0" * (-len(bits) % 8)
        return bytes(int(bits[i : i + 8], 2) for i in range(0, len(bits), 8))


def body(fields):
    """A body from a list of (name, value, width)."""
    writer = BitWriter()
    for _, value, width in fields:
        writer.put(value, width)
    return writer.stuffed()


def unit(code, content=b""):
    """A unit, which holds a start code at its beginning only."""
    whole = PREFIX + bytes([code]) + content
    if PREFIX in whole[1:]:
        raise ValueError(f"a start code inside unit {code:02X}")
    return whole


def sequence_header(width, height, aspect, rate, bit_rate, low_delay, buffer_size):
    return body([
        ("profile", 0x48, 8),
        ("level", 0x40, 8),
        ("progressive", 0, 1),
        ("horizontal size", width, 14),
        ("vertical size", height, 14),
        ("chroma format", 1, 2),
        ("precision", 1, 3),
        ("aspect", aspect, 4),
        ("frame rate code", rate, 4),
        ("bit rate low", bit_rate % (1 << 18), 18),
        ("marker", 1, 1),
        ("bit rate high", bit_rate >> 18, 12),
        ("low delay", low_delay, 1),
        ("marker", 1, 1),
        ("buffer size", buffer_size, 18),
        ("reserved", 0, 3),
    ])


def display_extension(width, height, colour=None):
    fields = [
        ("number", DISPLAY, 4),
        ("format", 1, 3),
        ("range", 0, 1),
        ("colour given", 0 if colour is None else 1, 1),
    ]
    if colour is not None:
        primaries, transfer, matrix = colour
        fields += [("primaries", primaries, 8), ("transfer", transfer, 8), ("matrix", matrix, 8)]
    return body(fields + [
        ("width", width, 14),
        ("marker", 1, 1),
        ("height", height, 14),
        ("stereo", 0, 2),
    ])


def copyright_extension(owner, number):
    return body([
        ("number", COPYRIGHT, 4),
        ("flag", 1, 1),
        ("owner", owner, 8),
        ("original", 1, 1),
        ("reserved", 0, 7),
        ("marker", 1, 1),
        ("part one", number >> 44, 20),
        ("marker", 1, 1),
        ("part two", number >> 22 & 0x3FFFFF, 22),
        ("marker", 1, 1),
        ("part three", number & 0x3FFFFF, 22),
    ])


def opaque_extension(number, content):
    return bytes([number << 4 | content[0] & 0x0F]) + content[1:]


def filler(seed, length):
    """Bytes that look like a coded body and are the same every time; none is 00."""
    state, content = seed, []
    for _ in range(length):
        state = (state * 1103515245 + 12345) % (1 << 31)
        content.append(1 + (state >> 16) % 255)
    return bytes(content)


def first_group():
    return [
        unit(SEQUENCE_HEADER, sequence_header(1920, 1080, aspect=3, rate=3, bit_rate=20000, low_delay=0, buffer_size=64)),
        # The zero byte at its end belongs to user data.
        unit(USER_DATA, b"two groups\x00"),
        unit(EXTENSION, display_extension(1920, 1080, colour=(1, 1, 1))),
        unit(EXTENSION, copyright_extension(owner=7, number=0x0123456789ABCDEF)),
        unit(I_PICTURE, filler(1, 12)),
        unit(0x00, filler(2, 90)),
        # Zero bytes after a slice are not counted to it.
        unit(0x01, filler(3, 80) + b"\x00\x00"),
        unit(0x02, filler(4, 70)),
        unit(PB_PICTURE, filler(5, 14)),
        unit(EXTENSION, opaque_extension(PICTURE_DISPLAY, filler(6, 9))),
        unit(EXTENSION, opaque_extension(CAMERA, filler(7, 20))),
        # After a picture header number 2 is no display extension.
        unit(EXTENSION, opaque_extension(DISPLAY, filler(8, 3))),
        unit(0x00, filler(9, 40)),
        unit(0x22, filler(10, 30)),
        unit(0x43, filler(11, 20)),
    ]


def second_group():
    return [
        unit(SEQUENCE_HEADER, sequence_header(720, 576, aspect=2, rate=3, bit_rate=270000, low_delay=1, buffer_size=112)),
        unit(EXTENSION, display_extension(720, 576)),
        unit(I_PICTURE, filler(12, 10)),
        unit(0x00, filler(13, 60)),
        unit(0x12, filler(14, 50)),
    ]


def two_groups():
    ending = [unit(SEQUENCE_END), unit(EDIT_CODE)]
    return b"".join(first_group() + second_group() + ending)


SAMPLES = {"two-groups.avs": two_groups}


def differs(name, content):
    path = FOLDER / name
    if path.is_file() and path.read_bytes() == content:
        return False
    print(f"{name} differs from what make_samples.py writes", file=sys.stderr)
    return True


def main(arguments):
    if arguments not in ([], ["--check"]):
        print(__doc__.strip(), file=sys.stderr)
        return 2
    contents = {name: make() for name, make in SAMPLES.items()}
    if arguments:
        return 1 if any([differs(name, content) for name, content in contents.items()]) else 0
    for name, content in contents.items():
        (FOLDER / name).write_bytes(content)
    return 0


if __name__ == "__main__":
    sys.exit(main(sys.argv[1:]))
