#!/usr/bin/env python3
"""Prints the table by which both programs draw skewed numbers, for zipf.rt and zipf.rs.

usage: bench/zipf.py [rt]

By Zipf's law with exponent 0.99 the number n of a million, counted from 0, is drawn as often as 1 / (n + 1)^0.99 says. The numbers stand in
blocks: each of the first sixteen alone, and of each power of two sixteen of one size. The table has the share of all blocks up to each one,
in units of 2^-32; within a block each number is drawn as often. Floats are used here alone, so both programs draw the same.
"""
import sys

COUNT, EXPONENT = 1_000_000, 0.99


def blocks():
    """Gives the first number of each block, and of the one behind it."""
    for number in range(16):
        yield number, number + 1
    size = 1
    while 16 * size < COUNT:
        for first in range(16 * size, 32 * size, size):
            if first < COUNT:
                yield first, min(first + size, COUNT)
        size *= 2


def main():
    weights = [sum(1 / (number + 1) ** EXPONENT for number in range(first, end)) for first, end in blocks()]
    whole, sums, so_far = sum(weights), [], 0.0
    for weight in weights:
        so_far += weight
        sums.append(round(so_far / whole * 2**32))
    kind = "static" if "rt" in sys.argv else "pub static"
    print(f"{kind} ENDS: [u64; {len(sums)}] = [")
    for at in range(0, len(sums), 8):
        print("    " + " ".join(f"{it}," for it in sums[at : at + 8]))
    print("];")


if __name__ == "__main__":
    main()
