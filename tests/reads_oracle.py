#!/usr/bin/env python3
"""The answers that documents 01 and 02 ask for the questions of crates/run_reads, worked out from these papers alone.

Reads the questions (not the code) from crates/run_reads/src/main.rt and prints what the program must print. The gate holds
this to crates/run_reads/stdout, and rt ci holds the program to that file.

    read BYTES COUNT PLACE WIDTH    the bit there or none; the number, how many of its bits are missing, or wide
    prefix AT                       whether 00 00 01 stands there
    macroblocks PROGRESSIVE WIDTH HEIGHT
                                    columns, rows, whether slices are tested
    row LENT I                      whether it exists, and its body
"""
from questions import Questions, bits_of, hexed

ASKED = Questions("run_reads")
PREFIX = b"\0\0\1"


# ── bits and prefixes ──


def reads():
    for lent, count, place, width in ASKED.table("READS"):
        data = ASKED.constant("HELD")[:lent]
        bits = bits_of(data)[:count]
        bit = bits[place] if place < len(bits) else "none"
        taken = bits[place:place + width]
        if width > 32:
            value = "wide"
        elif len(taken) < width:
            value = f"missing {width - len(taken)}"
        else:
            value = int(taken or "0", 2)
        print("read", hexed(data), count, place, width, bit, value)


def prefixes():
    for at in ASKED.words("PREFIX_PLACES"):
        print("prefix", at, int(ASKED.constant("PREFIXES")[at:at + 3] == PREFIX))


# ── macroblocks and rows ──


def macroblocks():
    for progressive, horizontal, vertical in ASKED.table("PICTURES"):
        rows = (vertical + 15) // 16 if progressive else 2 * ((vertical + 31) // 32)
        print("macroblocks", progressive, horizontal, vertical, (horizontal + 15) // 16, rows, int(vertical <= 2800))


def rows():
    words = ASKED.words("WORDS")
    held = list(zip(words[0::3], words[1::3], words[2::3]))
    for lent, i in ASKED.table("ROWS"):
        stream = ASKED.constant("UNITS")[:lent]
        exists = i < len(held) and held[i][1] + 4 + held[i][2] <= len(stream)
        body = stream[held[i][1] + 4:][:held[i][2]] if exists else b""
        print("row", len(stream), i, int(exists), hexed(body))


reads()
prefixes()
macroblocks()
rows()
