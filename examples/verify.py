#!/usr/bin/env python3
"""Checks a witness against a system as many readers of the r1cs format do.

    verify.py SYSTEM WITNESS

reads both binary files by their public description: SYSTEM in the r1cs format, version 1, and WITNESS in the wtns
format, version 2, whatever their prime. Each linear combination becomes a table with one coefficient a wire, so a wire
that stood in it twice would keep its last coefficient alone; a sum of both is what the other readers take. The files
that `tinyr1cs` writes mean the same to both kinds, since each combination is normal: its wires rise, and no coefficient
is 0. Prints how many constraints hold and ends with 0 if all do, and if every combination is normal; else it says what
it found first and ends with 1.
"""
import struct
import sys


def sections(path, magic):
    """Returns the content of each section of a binary file, by its type."""
    with open(path, "rb") as file:
        data = file.read()
    if data[:4] != magic:
        sys.exit(f"{path}: another magic")
    found, at = {}, 12
    for _ in range(struct.unpack_from("<I", data, 8)[0]):
        kind, size = struct.unpack_from("<IQ", data, at)
        found[kind] = data[at + 12 : at + 12 + size]
        at += 12 + size
    return found


def combination(data, at, size):
    """Returns a linear combination as a table from wires to coefficients, whether it is normal, and where it ends."""
    count = struct.unpack_from("<I", data, at)[0]
    table, normal, before = {}, True, -1
    for term in range(at + 4, at + 4 + count * (4 + size), 4 + size):
        wire = struct.unpack_from("<I", data, term)[0]
        table[wire] = int.from_bytes(data[term + 4 : term + 4 + size], "little")
        normal = normal and wire > before and table[wire] != 0
        before = wire
    return table, normal, at + 4 + count * (4 + size)


def main(system, witness):
    """Evaluates each constraint of a system on the values of a witness."""
    head, body = (sections(system, b"r1cs")[kind] for kind in (1, 2))
    size = struct.unpack_from("<I", head)[0]
    prime = int.from_bytes(head[4 : 4 + size], "little")
    constraints = struct.unpack_from("<I", head, 28 + size)[0]
    values = sections(witness, b"wtns")[2]
    z = [int.from_bytes(values[i : i + size], "little") for i in range(0, len(values), size)]
    at = 0
    for number in range(constraints):
        sums = []
        for name in "ABC":
            table, normal, at = combination(body, at, size)
            if not normal:
                sys.exit(f"constraint {number}: {name} is not normal")
            sums.append(sum(coefficient * z[wire] for wire, coefficient in table.items()) % prime)
        if sums[0] * sums[1] % prime != sums[2]:
            sys.exit(f"constraint {number}: it does not hold")
    print(f"{constraints} constraints hold")


if __name__ == "__main__":
    main(*sys.argv[1:])
