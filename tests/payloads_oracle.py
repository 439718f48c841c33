#!/usr/bin/env python3
"""What crates/run_payloads must print: examples 8 to 12 of document 01's "Table of proved examples", as it gives them; and what
belongs to a rate by document 01's "Update", with the tables of document 02, E9.

Where the table leaves a number out, a rule of the documents gives it: after a bin that is not p rS is 0; and lg does not pass 1023 in
example 11, so that mps stays 0.
"""
PAYLOAD_OUT = 14

print("example 8", 30, "00000300")
for number, signed in ((0, 0), (1, 1), (2, -1)):
    print("example 9", number, signed)
# the bins; rS, rT, valueS, valueT, place; mps, lg, cycno
print("example 10", 1, 0, 254, 8, 0, 18, 1, 827, 1)
print("example 11", 0, 0, 1, 0, 188, 0, 28, 12, 0, 927, 2)
# the bin reads bit by bit, so one is missing (document 02, E13)
print("example 12", PAYLOAD_OUT, 1)


def next_lg(w, lg):
    """Where the bin was mps lg loses lg/2^w and lg/2^(w+2)."""
    return lg - lg // 2**w - lg // 2 ** (w + 2)


# w by the cycno, what lg gains, and the next lg at the end of the table and past it; from cycno 3 on w is 5
for cycno, w, gain in ((0, 3, 197), (1, 3, 197), (2, 4, 95), (3, 5, 46), (4, 5, 46)):
    print("cycno", cycno, w, gain, *(next_lg(w, lg) for lg in (1023, 1024, 2**32 - 1)))
for w in (3, 4, 5):
    print("table", w, *(next_lg(w, lg) for lg in range(1024)))
