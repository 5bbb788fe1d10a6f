#!/usr/bin/env python3
"""Writes a system of this many terms as a compiler of circuits leaves it, a witness that satisfies it, and its tape.

usage: make_chains.py KIND FOLDER TERMS

`rounds`: rounds of a cipher in components. Each round's input is a wire of its own that is equal to the output before it,
the sum of it, the key and a constant is another, and its fifth power takes three products; so of six constraints, of 20
terms, three are linear. `chain`: each wire is one more than the wire before it. `dense`: each constraint is linear, over
60 of 120 wires. `hub`: each constraint but the first says that one wire is the sum of three others, and the first, the
square of a sum of 127 wires, that one among them, would have more than 128 terms in a combination with any of these in
its place. The numbers are the same at each run.
"""

import pathlib
import random
import struct
import sys

P = 2**64 - 2**32 + 1


def section(kind, size):
    return struct.pack("<IQ", kind, size)


def container(magic, version, header, sections):
    """The beginning of a file, with all of section 1; the rest is for others to write."""
    start = magic + struct.pack("<II", version, sections)
    return start + section(1, len(header)) + header


def row(*combinations):
    """The bytes of a constraint, of three lists of wires with their coefficients."""
    return b"".join(
        struct.pack("<I", len(terms)) + b"".join(struct.pack("<IQ", wire, by) for wire, by in terms)
        for terms in combinations
    )


def equal(terms, wire):
    """1 times these terms is this wire."""
    return row([(0, 1)], terms, [(wire, 1)])


def product(a, b, wire):
    return row([(a, 1)], [(b, 1)], [(wire, 1)])


def rounds(count, values):
    """The constraints of this many rounds, each with its terms, over the public wires 1, the input, and 2, the key."""
    out = 1
    for number in range(count):
        w = len(values)
        x, key, constant = values[out], values[2], number + 1
        t = (x + key + constant) % P
        values += [x, t, t * t % P, pow(t, 4, P), pow(t, 5, P), pow(t, 5, P)]
        yield 3, equal([(out, 1)], w)
        yield 5, equal([(0, constant), (2, 1), (w, 1)], w + 1)
        yield 3, product(w + 1, w + 1, w + 2)
        yield 3, product(w + 2, w + 2, w + 3)
        yield 3, product(w + 3, w + 1, w + 4)
        yield 3, equal([(w + 4, 1)], w + 5)
        out = w + 5


def chain(count, values):
    """The constraints of a chain, each with its terms."""
    for _ in range(count):
        w = len(values)
        values.append((values[w - 1] + 1) % P)
        yield 4, equal([(0, 1), (w - 1, 1)], w)


def dense(count, values):
    """The constraints of a dense linear system, each with its terms."""
    numbers = random.Random(1)
    values += [numbers.randrange(P) for _ in range(120)]
    for _ in range(count):
        terms = [(wire, numbers.randrange(1, P)) for wire in sorted(numbers.sample(range(3, 123), 60))]
        yield 62, row([(0, 1)], terms, [(0, sum(by * values[wire] for wire, by in terms) % P)])


def hub(count, values):
    """The constraints of one wire that none can replace, each with its terms."""
    numbers, wide, first = random.Random(1), range(3, 129), 130
    count -= 51  # as many terms as the first constraint has
    middle, out = first + 3 * count, numbers.randrange(P)
    values += [numbers.randrange(P) for _ in wide]
    total = (sum(values[3:]) + out) % P
    values.append(total * total % P)
    for _ in range(count):
        some = [numbers.randrange(P), numbers.randrange(P)]
        values += [*some, (out - sum(some)) % P]
    values.append(out)
    terms = [(wire, 1) for wire in (*wide, middle)]
    yield 255, row(terms, terms, [(129, 1)])
    for at in range(first, middle, 3):
        yield 5, equal([(at, 1), (at + 1, 1), (at + 2, 1)], middle)


KINDS = {"rounds": (rounds, 20), "chain": (chain, 4), "dense": (dense, 62), "hub": (hub, 5)}


def main(kind, folder, most):
    folder, (rows, each) = pathlib.Path(folder), KINDS[kind]
    values = [1, 3, 5]
    made = list(rows(int(most) // each, values))
    terms, wires = sum(n for n, _ in made), len(values)
    with open(folder / "system.r1cs", "wb") as file:
        header = struct.pack("<IQIIIIQI", 8, P, wires, 0, 2, wires - 3, wires, len(made))
        size = 12 * (len(made) + terms)
        file.write(container(b"r1cs", 1, header, 3) + section(2, size))
        file.writelines(bytes for _, bytes in made)
        file.write(section(3, 8 * wires) + struct.pack(f"<{wires}Q", *range(wires)))
    with open(folder / "witness.wtns", "wb") as file:
        header = struct.pack("<IQI", 8, P, wires)
        file.write(container(b"wtns", 2, header, 2) + section(2, 8 * wires))
        file.write(struct.pack(f"<{wires}Q", *values))
    (folder / "public.tape").write_text("3\n5\n")
    print(f"{kind}: {terms} terms, {len(made)} constraints, {wires} wires")


main(*sys.argv[1:])
