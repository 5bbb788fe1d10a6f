#!/usr/bin/env python3
"""Writes a system of this many constraints, a witness that satisfies it, and its tape.

usage: make_system.py FOLDER CONSTRAINTS [TERMS]

Each constraint multiplies two combinations of earlier wires and defines a wire of its own. With TERMS each of
the three combinations has that many terms; else the first two have four, and the third has one. The numbers are
the same at each run.
"""

import pathlib
import random
import struct
import sys

P = 2**64 - 2**32 + 1
INPUTS = 64


def section(kind, size):
    return struct.pack("<IQ", kind, size)


def container(magic, version, header, sections):
    """The beginning of a file, with all of section 1; the rest is for others to write."""
    start = magic + struct.pack("<II", version, sections)
    return start + section(1, len(header)) + header


def combination(rng, values, terms):
    """Terms over the wires that have values, as numbers in turn, and their value."""
    wires, uniform, bits = len(values), rng.random, rng.getrandbits
    flat, total = [], 0
    for _ in range(terms):
        wire, coefficient = int(uniform() * wires), bits(64) % P
        flat += (wire, coefficient)
        total += coefficient * values[wire]
    return flat, total % P


def rows(count, terms, values):
    """The bytes of each constraint; the value of its wire is put after the others."""
    rng = random.Random(1)
    values += [rng.randrange(P) for _ in range(INPUTS)]
    a, b, c = terms
    row = struct.Struct("<" + "".join("I" + n * "IQ" for n in terms))
    for _ in range(count):
        left, x = combination(rng, values, a)
        right, y = combination(rng, values, b)
        others, known = combination(rng, values, c - 1)
        wire = len(values)
        values.append((x * y - known) % P)
        yield row.pack(a, *left, b, *right, c, *others, wire, 1)


def main(folder, count, terms=None):
    folder, count = pathlib.Path(folder), int(count)
    terms = 3 * (int(terms),) if terms else (4, 4, 1)
    wires = 1 + INPUTS + count
    values = [1]
    with open(folder / "system.r1cs", "wb") as file:
        header = struct.pack("<IQIIIIQI", 8, P, wires, 0, INPUTS, count, wires, count)
        file.write(container(b"r1cs", 1, header, 3) + section(2, (12 + 12 * sum(terms)) * count))
        file.writelines(rows(count, terms, values))
        file.write(section(3, 8 * wires) + struct.pack(f"<{wires}Q", *range(wires)))
    with open(folder / "witness.wtns", "wb") as file:
        header = struct.pack("<IQI", 8, P, wires)
        file.write(container(b"wtns", 2, header, 2) + section(2, 8 * wires))
        file.write(struct.pack(f"<{wires}Q", *values))
    (folder / "public.tape").write_text("".join(f"{value}\n" for value in values[1 : 1 + INPUTS]))
    size = (folder / "system.r1cs").stat().st_size
    print(f"{size} bytes, {count} constraints, {wires} wires")


main(*sys.argv[1:])
