"""Checks that what the documents name exists: python3 docs/names.py

Each text between backticks of a document is looked at: a path has to be a file or a folder of the repository, from its
top or from a folder of a crate; a name in CamelCase or with an underscore has to stand in the sources. Code blocks and
docs/STATEMENT.md, which is made from the sources, are left out. Prints each name that isn't there, and ends with 1 if
there is one.
"""
import glob
import os
import re
import sys

TOP = os.path.dirname(os.path.dirname(os.path.abspath(__file__)))
DOCUMENTS = ("README.md", "CHANGELOG.md", "docs/*.md", "bench/README.md", "examples/README.md")
SOURCES = ("crates/*/src/**/*.rt", "crates/*/specs/**/*.antt", "crates/*/proofs/**/*.antt", "include/*", "bin/*", "tests/*")
SOURCES += ("docs/*.py", "bench/*", "crates.txt", "examples/*")
FOREIGN = {"sync_all"}  # of the standard library


def files(patterns):
    found = {file for it in patterns for file in glob.glob(f"{TOP}/{it}", recursive=True) if os.path.isfile(file)}
    return sorted(found)


def text(file):
    with open(file, encoding="utf-8", errors="replace") as it:
        return it.read()


def is_path(name, paths):
    """Whether it is a file or folder, by its name from the top, or by the last parts of one."""
    return any(it == name or it.endswith(f"/{name}") for it in paths)


def main():
    paths = set()
    for folder, below, names in os.walk(TOP):
        below[:] = [it for it in below if it not in (".git", "out", "__pycache__")]
        at = os.path.relpath(folder, TOP)
        paths.update(os.path.normpath(os.path.join(at, it)) for it in below + names)
    words = {word for file in files(SOURCES) for word in re.findall(r"\w+", text(file))} | FOREIGN
    words |= {part for it in paths for part in re.split(r"[/.]", it)}
    missing = 0
    for file in files(DOCUMENTS):
        if file.endswith("STATEMENT.md"):
            continue
        prose = re.sub(r"^(```.*?^```|    .*?)$", "", text(file), flags=re.M | re.S)
        for name in re.findall(r"`([^`\n]+)`", prose):
            if re.search(r"NAME|Name|FILE|^\./", name):
                continue  # stands for any name
            if re.fullmatch(r"[\w.-]+(/[\w.-]+)+/?|\w[\w-]*\.(rt|antt|md|py|sh|asm|rs|c|h|txt|svg)", name):
                there = is_path(name.rstrip("/"), paths) or name.startswith("out/")
            elif re.fullmatch(r"[A-Za-z]\w*_\w*|[A-Z][a-z]+[A-Z]\w*", name):
                there = name in words or name.endswith("_") and any(it.startswith(name) for it in words)
            else:
                continue
            if not there:
                print(f"{os.path.relpath(file, TOP)}: `{name}` isn't there")
                missing += 1
    sys.exit(missing > 0)


main()
