"""Builds the constraint system of a program and the witness of a run through the library as a shared object, evaluates
every constraint by itself, and compares its verdict with that of `check`: for the witness, and for it with one value
changed.

    check.py LIBRARY PROGRAM TAPE AUX STEPS        the files are read here; a name `-` is an empty file

The last line is `python: N passed, M failed`, and the status 1 where one failed."""

import ctypes
import sys

P = 2**64 - 2**32 + 1
SHORT = 17
WORD = ctypes.c_uint64


class Handle(ctypes.Structure):
    _fields_ = [("opened", WORD), ("session", ctypes.c_void_p)]


class Session:
    """An open session of the library: the functions that include/tinyr1cs.h declares."""

    def __init__(self, path):
        self.library = ctypes.CDLL(path)
        text, size, handle = ctypes.c_char_p, ctypes.c_size_t, ctypes.POINTER(Handle)
        self.library.tinyr1cs_c_open.argtypes = [handle]
        self.library.tinyr1cs_c_close.argtypes = [handle]
        self.library.tinyr1cs_c_close.restype = None
        self.library.tinyr1cs_c_set.argtypes = [handle, text, size, text, size]
        self.library.tinyr1cs_c_word.argtypes = [handle, text, size]
        self.library.tinyr1cs_c_run.argtypes = [handle]
        self.library.tinyr1cs_c_copy.argtypes = [handle, text, size, WORD, text, size, ctypes.POINTER(WORD)]
        self.library.tinyr1cs_c_line.argtypes = [handle, text, size, ctypes.POINTER(WORD)]
        self.handle = Handle()
        if self.library.tinyr1cs_c_open(self.handle):
            raise MemoryError

    def close(self):
        self.library.tinyr1cs_c_close(self.handle)

    def set(self, name, contents):
        return self.library.tinyr1cs_c_set(self.handle, name.encode(), len(name.encode()), contents, len(contents))

    def run(self, *words):
        for word in words:
            status = self.library.tinyr1cs_c_word(self.handle, word.encode(), len(word.encode()))
            if status:
                return status
        return self.library.tinyr1cs_c_run(self.handle)

    def copied(self, call):
        has = WORD()
        room = ctypes.create_string_buffer(1)
        status = call(room, 0, has)
        if status == SHORT:
            room = ctypes.create_string_buffer(has.value)
            status = call(room, has.value, has)
        if status:
            raise OSError(status)
        return room.raw[: has.value]

    def get(self, name):
        name = name.encode()
        return self.copied(lambda *into: self.library.tinyr1cs_c_copy(self.handle, name, len(name), 0, *into))

    def line(self):
        return self.copied(lambda *into: self.library.tinyr1cs_c_line(self.handle, *into)).decode().rstrip("\n")


def number(data, at, size):
    return int.from_bytes(data[at : at + size], "little")


def first_failing(system, witness):
    """The first constraint that fails, or None. Both files are as the library writes them (docs/FORMATS.md)."""
    values = [number(witness, at, 8) for at in range(12 + 12 + 16 + 12, len(witness), 8)]
    at = 12 + 12 + 40 + 12
    for constraint in range(number(system, 12 + 12 + 36, 4)):
        sums = []
        for _ in range(3):
            end = at + 4 + 12 * number(system, at, 4)
            terms = range(at + 4, end, 12)
            sums.append(sum(number(system, i + 4, 8) * values[number(system, i, 4)] for i in terms) % P)
            at = end
        if sums[0] * sums[1] % P != sums[2]:
            return constraint
    return None


def main(path, program, tape, aux, steps):
    counts = {True: 0, False: 0}

    def expect(holds, what):
        counts[holds] += 1
        if not holds:
            print(f"python: {what}", file=sys.stderr)

    def read(name):
        if name == "-":
            return b""
        with open(name, "rb") as file:
            return file.read()

    session = Session(path)
    tape = read(tape)
    for name, contents in ("program", read(program)), ("tape", tape), ("aux", read(aux)):
        expect(session.set(name, contents) == 0, "setting a file")
    expect(session.run("run", "program", "tape", "aux", steps) == 0, "run")
    expect(session.set("public", session.line().split()[1].encode() + b" " + tape) == 0, "setting the public list")
    expect(session.run("build", "program", str(len(tape.split())), steps, "system") == 0, "build")
    expect(session.run("witness", "program", "tape", "aux", steps, "witness") == 0, "witness")
    system, witness = session.get("system"), bytearray(session.get("witness"))
    for what in "check of the witness", "check of a changed witness":
        failing = first_failing(system, witness)
        line = "yes" if failing is None else f"no: constraint {failing}"
        expect(session.set("witness", bytes(witness)) == 0, "setting the witness")
        status = session.run("check", "system", "witness", "public")
        expect(status == int(failing is not None) and session.line() == line, what)
        witness[-8] ^= 1
    session.close()
    print(f"python: {counts[True]} passed, {counts[False]} failed")
    return int(counts[False] != 0)


sys.exit(main(*sys.argv[1:]))
