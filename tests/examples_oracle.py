#!/usr/bin/env python3
"""What crates/run_examples must print: header H and examples 1 to 7 of document 01's "Table of proved examples", as it gives them,
but for example 7's refusal, which is that of document 02's E1.

A refusal is its number, its offset and its bit, - where it carries none; 0 is FILED, with the number of units. Where the papers
leave a number out, a rule of theirs gives it: a refusal leaves the words lent (9 each) as found, its offset is 0 for NO CODE and
FULL and the unit's for STUFFING, its bit is 0 for a slice's row.
"""
NUMBER = {"NO CODE": 1, "CUT": 2, "STUFFING": 9, "UNENDED": 11, "FULL": 12, "slice row": 32}
ROWS = "176 0 15 179 19 1 {} 24 1 177 29 0"


def filed(example, units, words):
    print("example", example, 0, units, words)


def refused(example, reason, offset, words, bit="-"):
    print("example", example, NUMBER[reason], offset, bit, words)


def lent(words):
    return " ".join("9" * words)


print("H 1920 1080 20000 120 68")
filed(1, 4, ROWS.format(0))
refused(2, "FULL", 0, lent(11))
refused(3, "UNENDED", 29, lent(12))
refused(4, "CUT", 29, lent(12))
refused(5, "NO CODE", 0, lent(12))
refused(6, "STUFFING", 0, lent(12))
refused(7, "slice row", 24, lent(12), bit=0)
filed(7, 4, ROWS.format(0x43))
