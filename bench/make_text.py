#!/usr/bin/env python3
"""Prints a program text of 20,000 lines, the same each time: with `labels`, half of the lines define labels and
half use one, spread over the text; with `numbers`, there are none. usage: make_text.py labels|numbers"""
import random
import sys

LINES = 20_000
NAMES = ["add", "sub", "and", "or", "xor", "mull", "udiv", "shl"]


def register():
    return f"r{random.randrange(16)}"


def arithmetic():
    return f"{random.choice(NAMES)} {register()}, {register()}, {random.randrange(2**32)}"


def labelled(line):
    """A line that defines a label, one that doesn't, or one that jumps to one, by turns."""
    somewhere = f"_line.{4 * random.randrange(LINES // 4) + random.randrange(2)}"
    return [
        f"_line.{line}: {arithmetic()}",
        f"_line.{line}: ; here",
        f"        cjmp {somewhere} ; go on",
        f"        mov {register()}, {somewhere}",
    ][line % 4]


random.seed(1)
for line in range(LINES):
    print(labelled(line) if sys.argv[1] == "labels" else "        " + arithmetic())
