"""Writes docs/STATEMENT.md, the whole claim and every definition that it rests on:

    python3 docs/statement.py            writes the page and its length in README.md
    python3 docs/statement.py --check    fails where one of these isn't what the specifications say now

The page is made from the specifications (crates/*/specs/) and from the types and constants of the sources that they
cite. It begins with the clauses of `command` that are the whole claim, and follows each name that a definition uses,
but for those of NAMES, which the claim itself says all of that it needs. Each file that is reached has a part of the
page in PARTS, each name of the language's library a line in LIBRARY, each definition a comment: without one of these
the script fails.
"""

import re
import sys
import textwrap
from pathlib import Path

ROOT = Path(__file__).resolve().parent.parent
PAGE = ROOT / "docs" / "STATEMENT.md"
README = ROOT / "README.md"

# ---- what the page begins with, and where it ends

# the claim over bytes, and then the clauses of `Commands` that are the whole claim over files, and what leads from one
# to the other
HEADLINE = ("tv_top.Headline.Headline",)
CLAUSES = (
    *("tv_top.Build.OnBuild", "tv_top.Witness.OnWitness", "tv_plan.Check.OnCheck", "tv_top.Extract.OnExtract"),
    *("tv_top.Done.BuildLeads", "tv_top.Done.WitnessLeads", "tv_top.Done.CheckLeads", "tv_top.Done.ExtractLeads"),
)
WHOLE = ("tv_top.Commands.Commands",)

# the names that stay names: why that suffices, and the law that says of each what the claim needs
NAMES = {
    "tv_layout.Systems.system_of": (
        "the system of a program's runs: `Reduces` says what it means, and a reader of its file gets it back",
        "`systems_reduce` and `systems_come_back`",
    ),
    "tv_layout.Layout.layout": ("the same system, by the circuit of one step", "`systems_reduce`"),
    "tv_block.Block.block_of": ("the circuit of one step, of which that system is made", "`systems_reduce`"),
    "tv_layout.Blocks.BlockCircuit": ("the type of that circuit", "`systems_reduce`"),
    "tv_layout.Systems.run_values": (
        "the values that `witness` writes: `Sat`, `Extends` and the words taken are all that is claimed of them",
        "`systems_are_complete`",
    ),
    "tv_layout.Layout.taken_of": (
        "the words that an assignment takes of its auxiliary tape: they are those that the run reads",
        "`systems_are_sound` and `systems_are_complete`",
    ),
    "tv_layout.Layout.taken_wires": ("the wires of these words", "`systems_are_sound`"),
    "tv_check.Verdict.judge": (
        "the verdict: it is yes exactly to an assignment that satisfies the system and extends the public numbers",
        "`verdicts_are_exact`",
    ),
    "tv_r1cs_write.Bytes.system_bytes": ("the bytes of a written system: it is read of them", "`systems_come_back`"),
    "tv_wtns.Bytes.assignment_bytes": (
        "the bytes of a written assignment: it is read of them",
        "`assignments_come_back`",
    ),
    "tv_r1cs_write.Shrunken.Shrunken": ("what `shrink` leaves of a system; no command of this page does", "`shrink`"),
    "tv_r1cs_write.Shrunken.shrunken_bytes": ("its bytes", "`systems_come_back`"),
}

# names in the claim over bytes alone, which the clauses of `command` open: what the four commands come to, of which
# that claim says all, and the reasons of refusals, since it is about what isn't refused
LATER = (
    *("tv_top.Build.build_ends", "tv_top.Witness.witness_ends"),
    *("tv_plan.Check.check_ends", "tv_top.Extract.extract_ends"),
    *("tv_asm.src/fault.AsmWhy", "tv_asm.src/fault.AsmFault", "tv_container.src/why.ReadWhy"),
    *("tv_tape.src/items.TapeFault", "tv_plan.src/refusal.Finish", "tv_step.src/not_run.NotRun"),
)

# ---- the parts of the page

# the parts in reading order: title, what comes there, and the crates whose definitions it has
PARTS = (
    (
        "Words",
        "Words of w bits, w being 16 or 32, as numbers below 2^w, what the machine's operations make of them, and "
        "numbers in digits.",
        ("tv_word",),
    ),
    (
        "The machine",
        "An instruction in two words, memory, one step by the table of the 29 instructions, and a run. A run ends by "
        "an answer, by an opcode that isn't used, or silent after so many steps.",
        ("tv_isa", "tv_mem", "tv_step"),
    ),
    (
        "Program texts",
        "From the bytes of a program text to the words of its image, or to its first fault.",
        ("tv_asm",),
    ),
    (
        "Constraints",
        "Rank-1 constraints, what satisfies them, the two networks by name, the limits, and what it means that a "
        "system reduces a program's runs.",
        ("tv_core", "tv_stages", "tv_layout"),
    ),
    (
        "The files",
        "What the bytes of a system, of an assignment and of a tape are read as, or their first fault.",
        ("tv_container", "tv_r1cs_read", "tv_wtns", "tv_tape"),
    ),
    (
        "The claim over bytes",
        "What the four commands leave of texts and files, and what that is read as: `Headline`, at the end, is the "
        "claim. `build_ends`, `witness_ends`, `check_ends` and `extract_ends` are what each command comes to; all that "
        "has to be known of them stands here. The reasons of refusals (`AsmWhy`, `ReadWhy`, `TapeFault`) are in the "
        "last part, since this claim is about what isn't refused. It is proved as the law `headline` in "
        "`crates/tv_top/src/laws.rt`.",
        ("tv_check", "tv_plan", "tv_top"),
    ),
)
LAST = (
    "The commands",
    "What a call of `command` promises, over files whose contents are known: `OnBuild`, `OnWitness`, `OnCheck` and "
    "`OnExtract`, its clauses. Each says when the call is done, and what its status, its line and the files then are; "
    "`BuildLeads` and its like, that a call which is done leaves what the claim over bytes speaks of.",
    (
        *("tv_word", "tv_asm", "tv_step", "tv_core", "tv_layout", "tv_files", "tv_container", "tv_tape"),
        *("tv_extract", "tv_check", "tv_plan", "tv_top"),
    ),
)

# where the public has these things from
SOURCES = {
    "tv_word.Operations": "TinyRAM architecture specification, version 2.000; what differs: `docs/MACHINE.md`",
    "tv_isa.Table": "TinyRAM architecture specification, version 2.000; the opcodes: `docs/MACHINE.md`",
    "tv_isa.Instruction": "`docs/MACHINE.md`",
    "tv_step.Rows": "TinyRAM architecture specification, version 2.000; what differs: `docs/MACHINE.md`",
    "tv_step.Machine": "vnTinyRAM: Ben-Sasson, Chiesa, Tromer and Virza, 2014; `docs/MACHINE.md`",
    "tv_asm.Assembly": "`docs/ASSEMBLY.md`; the same line by line, as a law: `texts_mean_their_lines` of `tv_asm`",
    "tv_core.Constraints": "rank-1 constraint systems, as in the literature on arguments for circuits",
    "tv_core.Normal": "the public description of circom's r1cs format",
    "tv_container.Sections": "circom's binary formats; `docs/FORMATS.md`",
    "tv_r1cs_read.R1cs": "circom's r1cs format, version 1; `docs/FORMATS.md`",
    "tv_wtns.Wtns": "circom's wtns format, version 2; `docs/FORMATS.md`",
    "tv_plan.Codes": "the printed lines: `docs/COMMANDS.md`",
    "tv_plan.Status": "the statuses: `docs/COMMANDS.md`",
}

# what the names of the language's library mean, by the file of the kit that has them
LIBRARY = {
    "core/specs/Prelude.antt": {
        "ℕ": "the natural numbers",
        "zero": "0, as a pattern",
        "suc": "the number after another one, as a pattern",
        "◌+◌": "the sum",
        "◌-◌": "the difference, and 0 where it would be negative",
        "◌*◌": "the product",
        "◌/◌": "the quotient, rounded down",
        "◌%◌": "the remainder",
        "◌^◌": "the power",
        "◌<◌": "less, as a statement",
        "◌≤◌": "at most, as a statement",
        "min": "the lesser of two numbers",
        "◌≡◌": "the two are equal, as a statement",
        "◌≢◌": "the two aren't equal",
        "◌⊎◌": "one of the two statements, or both",
        "◌↔◌": "each of the two statements from the other",
        "Bool": "a truth value",
        "true": "the truth value of what holds",
        "false": "the other one",
        "not": "the other truth value",
        "◌&&◌": "both",
        "◌||◌": "one of the two, or both",
        "◌==◌": "whether two numbers are equal, as a truth value",
        "nat_eq": "the same",
        "nat_lt": "whether the first number is less than the second",
        "nat_le": "whether it is at most the second",
        "if◌then◌else◌": "the first where the test holds, else the second",
        "ℤ": "the integers",
        "pos": "a natural number as an integer",
        "negsuc": "`negsuc n` is the integer - n - 1, as a pattern",
        "◌-ℤ◌": "the difference of integers",
        "◌*ℤ◌": "the product of integers",
        "int_lt": "whether the first integer is less than the second",
        "int_le": "whether it is at most the second",
        "bit_and": "bitwise and of two numbers",
        "bit_or": "bitwise or",
        "bit_xor": "bitwise exclusive or",
    },
    "core/specs/List.antt": {
        "List": "a list; `[]` is empty, `x ∷ xs` is x before xs",
        "◌∷◌": "an element before a list",
        "[]": "the empty list",
        "◌++◌": "one list after another",
        "length": "how many elements a list has",
        "map": "a function of each element",
        "take": "the first n elements, or all where there are fewer",
        "drop": "what is left without them",
        "replicate": "n times the same element",
        "filter": "the elements that pass a test",
        "find": "the first element that passes a test, if there is one",
        "flat_map": "the lists that a function makes of the elements, one after another",
        "All": "a statement holds of each element",
        "AllByRecursion": "the same",
        "sum_by": "the sum of a function over the elements",
        "count_by": "how many elements pass a test",
        "list_all": "whether each element passes a test",
        "list_any": "whether some element does",
        "slice_get": "the element at a place, counted from 0, if there is one",
        "slice_index": "the number at a place, and 0 past the end",
        "slice_index_or": "the element at a place, and another one past the end",
        "slice_set": "the list with another element at a place",
        "slice_split": "the pieces between the elements that pass a test, empty ones too",
        "before_first": "what stands before the first element that passes a test, or all where none does",
        "take_while": "the elements from the front on that pass a test, up to the first that doesn't",
        "prefix_len": "how many elements at the front pass a test",
        "suffix_len": "how many elements at the end do",
        "starts_with": "whether a list begins with another one",
        "range_with_len": "n numbers in a row, from a first one on",
    },
    "core/specs/Option.antt": {
        "Option": "`Some x`, or `None`",
        "Some": "there is one",
        "None": "there is none",
        "is_some": "whether there is one",
        "option_map": "a function of it, where there is one",
        "option_map_or": "a function of it where there is one, else the last argument",
        "option_and_then": "what a function makes of it, where there is one",
        "ok_or": "`Ok x` of `Some x`, else `Err` of the second argument",
    },
    "core/specs/Result.antt": {
        "Result": "`Ok x`, or `Err e`",
        "Ok": "a good result",
        "Err": "a refusal",
        "IfOk": "where the result is good, a statement holds of it",
    },
    "core/specs/Str.antt, core/specs/Char.antt, core/specs/Fmt.antt": {
        "codes": "the bytes of a text",
        "bytes_eq": "whether two lists of bytes are equal",
        "decimal": "the text of a number in decimal",
        "strip_carriage_return": "a line without the one carriage return at its end, where it has one",
        "digit_value": "the value of a digit or letter, from 0 for `0` to 35 for `z`, and 36 for any other byte",
        "is_digit": "whether a byte is a digit of a base",
        "is_ascii_alphanumeric": "whether a byte is a letter of ASCII or a digit",
        "digits_of": "the digits of a number in a base, the highest first, and none for 0",
    },
    "std_collections/specs/Map.antt": {
        "update": "a function with another value at one argument, told by an equality of arguments",
    },
}

# ---- reading the specifications

START = re.compile(r"^ *(?:abbrev|unfoldable|pub record|pub data)\b")
NAME = re.compile(r"^ *(?:(?:abbrev|unfoldable|pub|record|data) )*(◌[^\s◌]+◌|[A-Za-zℕℤ][\w']*)")
WORD = re.compile(r"(?<![\w.'◌])[A-Za-zℕℤ][\w']*")
OPERATOR = re.compile(r"[^\s\w(){}\[\].,;\"'◌]+")
USE = re.compile(r"use Rattle\.([\w.]+?)(?:\.\{(.*)\}| as (\w+))$")
RUST_ITEM = re.compile(r"^pub(?:\(crate\))? (?:struct|enum|const) (\w+)")
RUST_USE = re.compile(r"^use (crate|tv_\w+)::(?:[\w:]*::)?(?:\{([^}]*)\}|(\w+));", re.M)


class Definition:
    """A definition: its file, its name, the comment above it, its text, and what it uses."""

    def __init__(self, module, name, path, comment, text):
        self.module, self.name, self.path = module, name, path
        self.comment, self.text, self.uses = comment, text, None
        self.key = module + "." + name


def imported(module, body, names):
    """Adds to `names` what `use module.{body}` brings: from the local name to module and name there."""
    depth, part = 0, ""
    for ch in body + ",":
        depth += (ch == "{") - (ch == "}")
        if ch != "," or depth:
            part += ch
            continue
        inner = re.match(r"([^\s.{}]+)\.\{(.*)\}$", part.strip())
        if inner:
            imported(module + "." + inner[1], inner[2], names)
        else:
            there, _, here = part.strip().partition(" as ")
            names[here or there] = (module, there)
        part = ""


class Specs:
    """The definitions by their keys; and by file: those of it in order, the names that it brings, and its head."""

    def __init__(self):
        self.definitions, self.order, self.names, self.heads = {}, {}, {}, {}
        for path in sorted(ROOT.glob("crates/*/specs/**/*.antt")):
            if path.name != "Lib.antt":
                self.read(path.relative_to(ROOT), path.read_text().split("\n"))

    def add(self, definition):
        self.definitions[definition.key] = definition
        self.order.setdefault(definition.module, []).append(definition)
        return definition.key

    def read(self, path, lines):
        module = path.parts[1] + "." + ".".join(path.parts[3:])[: -len(".antt")]
        names, comment, now = {}, [], None
        self.names[module], self.order[module] = names, []
        for line in lines:
            used = USE.match(line)
            if used:
                self.heads.setdefault(module, comment)
                comment = []
                target = used[1].replace(".specs.", ".", 1)
                if used[2]:
                    imported(target, used[2], names)
                else:
                    names[used[3]] = (target, None)
            elif START.match(line):
                now = Definition(module, NAME.match(line)[1], path, comment, [line])
                self.add(now)
                comment = []
            elif now and line.strip():
                now.text.append(line)
            elif line.strip().startswith("--"):
                comment.append(line.strip()[3:])
            elif not line.startswith(("infixl", "module")):
                now, comment = None, []

    # ---- what a name stands for: the key of a definition, a name of the library as a pair, or nothing

    def target(self, module, name):
        if name not in self.names[module]:
            return module + "." + name if module + "." + name in self.definitions else None
        where, there = self.names[module][name]
        if where.startswith("std."):
            return (where, there)
        crate, declared, rest = where.partition(".declared.")
        if declared:
            parts = rest.split(".")
            if parts[-1] == "TheConstants":
                return self.rust_item(crate, "/".join(parts[:-1]), there)
            if parts[-1] == "TheVariants":
                parts.pop()
            return self.rust_item(crate, "/".join(parts[:-1]), parts[-1])
        for key in ("%s.%s" % (where, there), where):
            if key in self.definitions:
                return key
        return None

    def rust_item(self, crate, module, name):
        """The type or constant of a source, with its doc comment and without its attributes."""
        key = "%s.src/%s.%s" % (crate, module, name)
        if key in self.definitions:
            return key
        path = Path("crates") / crate / "src" / (module + ".rt")
        comment, text = [], []
        for line in (ROOT / path).read_text().split("\n"):
            item = RUST_ITEM.match(line)
            if text or (item and item[1] == name):
                text.append(line)
                if line == "}" or re.search(r"^\S.*;$", line):
                    break
            elif line.startswith("///"):
                comment.append(line[4:])
            elif not line.startswith("#["):
                comment = []
        self.heads.setdefault("%s.src/%s" % (crate, module), [])
        return self.add(Definition("%s.src/%s" % (crate, module), name, path, comment, text))

    def rust_type(self, crate, name):
        for path in sorted((ROOT / "crates" / crate / "src").rglob("*.rt")):
            if re.search(r"^pub(?:\(crate\))? (?:struct|enum) %s\b" % name, path.read_text(), re.M):
                return self.rust_item(crate, "/".join(path.relative_to(ROOT).parts[3:])[: -len(".rt")], name)
        return None

    # ---- what a definition uses

    def uses(self, definition):
        if definition.uses is None:
            rust = definition.path.suffix == ".rt"
            targets = self.rust_uses(definition) if rust else self.spec_uses(definition)
            definition.uses = [t for t in dict.fromkeys(targets) if t and t != definition.key]
        return definition.uses

    def spec_uses(self, definition):
        for line in definition.text:
            line = re.sub(r'--.*$|"[^"]*"|^ *pub \w+ (?=:)', "", line)
            words = WORD.findall(line)
            marks = ["◌%s◌" % mark for mark in OPERATOR.findall(line)]
            marks += ["◌>>=◌"] * line.rstrip().endswith(" do") + ["if◌then◌else◌"] * ("if" in words)
            for word in marks + words:
                if word != definition.name:
                    yield self.target(definition.module, word)

    def rust_uses(self, definition):
        source = (ROOT / definition.path).read_text()
        crate = definition.path.parts[1]
        brought = {
            word: crate if used[0] == "crate" else used[0]
            for used in RUST_USE.findall(source)
            for word in re.findall(r"\w+", used[1] or used[2])
        }
        for line in definition.text[1:]:
            for word in re.findall(r"\b[A-Z]\w+", line.split("//")[0]):
                if re.search(r"^pub (?:struct|enum) %s\b" % word, source, re.M):
                    yield self.rust_type(crate, word)
                elif word in brought:
                    yield self.rust_type(brought[word], word)

    # ---- reach

    def reach(self, roots, names):
        """The definitions that the roots lead to, each after those that it is made of, and the library's names."""
        found, library, seen = [], set(), set(names)

        def visit(key):
            if isinstance(key, tuple):
                library.add(key[1])
            elif key not in seen:
                seen.add(key)
                for used in self.uses(self.definitions[key]):
                    visit(used)
                found.append(self.definitions[key])

        for root in roots:
            visit(root)
        return found, library


# ---- the page


def fail(why):
    sys.exit("docs/statement.py: " + why)


def in_order(specs, found, crates):
    """The files of the definitions that were found, crate by crate, each after those that it is made of."""
    keys = {definition.key for definition in found}
    files = {}

    def visit(module):
        if module in files:
            return
        files[module] = None
        for definition in specs.order[module]:
            if definition.key in keys:
                for used in definition.uses:
                    if used in keys:
                        visit(specs.definitions[used].module)
        files[module] = files.pop(module)

    for definition in found:
        visit(definition.module)
    return [module for crate in crates for module in files if module.split(".")[0] == crate]


# what the operator of `do` means, where no comment says it
DO = "`do`: each step goes on with what the one before it made, up to the first refusal"


def block(specs, module, keys):
    """The definitions of a file that were found, as they stand, under their comments."""
    mark = "/// " if ".src/" in module else "-- "
    lines, comment, shown = [], [], False
    for definition in specs.order[module]:
        if definition.comment:
            comment, shown = definition.comment, False
        if definition.key not in keys:
            continue
        if definition.name == "◌>>=◌" and not definition.comment:
            comment, shown = [DO], False
        if not comment:
            fail("no comment says what %s means" % definition.key)
        indent = re.match(" *", definition.text[0])[0]
        lines.append("")
        if not shown:
            lines += [(indent + mark + line).rstrip() for line in comment]
        lines += definition.text
        shown = True
    return lines[1:]


def prose(text):
    return ["", *textwrap.wrap(text, 120, break_on_hyphens=False)] if text else []


def elsewhere(specs, module, keys):
    """The names that this file uses of another one, and that a third one on the page has too."""
    homonyms = {}
    for definition in specs.definitions.values():
        if definition.key in keys:
            homonyms.setdefault(definition.name, []).append(definition)
    used = {key for d in specs.order[module] if d.key in keys for key in d.uses if key in keys}
    used = [specs.definitions[key] for key in used]
    here = {definition.name: definition.path for definition in used if definition.module != module}
    here.pop("◌>>=◌", None)
    several = ["`%s` of `%s`" % (n, p) for n, p in sorted(here.items()) if len(homonyms[n]) > 1]
    return "Meant here: %s." % ", ".join(several) if several else ""


def table(head, rows):
    return ["| %s |" % " | ".join(row) for row in [head, ["---"] * len(head)] + rows]


INTRODUCTION = """# The statement

What `tinyr1cs` claims, and every definition that the claim rests on. Whoever accepts them has read all that has to be
read: that the program meets the claim is what the prover checks. Parts 1 to {before} are the claim over bytes:
{count} definitions in {lines} lines, with their comments. Part {last} is what `command` promises over files, and leads
to it: with that it is {all_count} definitions in {all_lines} lines. The other six commands, and what every call
promises, have no place here; with them there are {ten_count} definitions, in {ten_lines} lines.

`docs/statement.py` makes this page from the sources, whose text stands here as it stands there, by following each name
that a definition uses. `.ci/run` refuses a page that isn't what the sources say.

> For every program text that assembles, answer v, primary tape and step bound T within the limits: the system that
> `build` writes has a satisfying assignment whose public wires are v and that tape exactly where some auxiliary tape
> makes the machine answer v within T steps; `witness` writes one for every such run; `check` says yes exactly to the
> satisfying assignments with the given public values; `extract` turns any of them back into such a run.

## How to read a definition

`abbrev` and `unfoldable` begin a definition, and `pub` says that other files see it: these words are for the prover.
Then come its name and type, and its equations, of which the first that fits counts.

| text | meaning |
|---|---|
| `f x y` | f of x and y |
| `A → B` | functions from A to B; between statements: if A, then B |
| `(x : A) → B` | for each x of A, B |
| `(x : A) × B` | some x of A, and with it B |
| `A × B` | both statements, or a pair, whose parts are `p.0` and `p.1` |
| `Type 0` | the statements, and the types of values |
| `record R .. where` | a value, or a statement, of parts that each have a name; `r.f` is part f of r |
| `record r {{ f = v }}` | r with v as its part f |
| `data D .. where`, `enum` | a value of one of these forms; `bad.Tape` is the form `Tape` of the type `Bad` |
| `λ x. e` | the function that makes e of x |
| `do x ← a; e` (one step a line) | e by the x that a finds, or what a is refused for |
| `elim v [ .. ↦ .. ]` | by the form of v |
| `Unit`, `tt` | what always holds, and the value that says no more |
| `⊥`, `¬ A` | what never holds; that A doesn't |
| `{{A : Type 0}}` | an argument that a reader can infer |

Texts and files are lists of bytes, which are numbers, as are words. A `struct` or `enum` of the sources stands here as
Rust has it: a definition sees its numbers as natural numbers, and its lists and texts as lists.
"""


def part(specs, number, title, text, modules, keys):
    """A part of the page, how many lines of definitions it has, and of how many files."""
    body, lines = ["", "## %d. %s" % (number, title)] + prose(text), 0
    for module in modules:
        code = block(specs, module, keys)
        path = next(d.path for d in specs.order[module] if d.key in keys)
        body += ["", "### `%s`" % path] + prose(" ".join(specs.heads.get(module, [])))
        body += prose("Source: %s." % SOURCES[module] if module in SOURCES else "")
        body += prose(elsewhere(specs, module, keys))
        body += ["", "```rust" if ".src/" in module else "```"] + code + ["```"]
        lines += sum(map(bool, code))
    return body, lines


def parts(specs, found, more):
    """All parts: those of the claim over bytes, and the last."""
    body, lines, seen = [], [], set()
    for number, (title, text, crates) in enumerate((*PARTS, LAST), 1):
        of = more if number > len(PARTS) else found
        modules = in_order(specs, of, crates)
        new, count = part(specs, number, title, text, modules, {definition.key for definition in of})
        body, lines, seen = body + new, lines + [count], seen | {d.key for d in of if d.module in modules}
    for definition in found + more:
        if definition.key not in seen:
            fail("no part of the page has " + definition.key)
    return body, lines


def names(specs):
    rows = []
    for key, (why, law) in NAMES.items():
        if key not in specs.definitions:
            fail("%s is no definition any more" % key)
        definition = specs.definitions[key]
        rows.append(["`%s`" % definition.name, "`%s`" % definition.path, why, law])
    text = "No more is claimed of these than the definitions above say, so their own aren't needed."
    return ["", "## Names that stay names"] + prose(text) + [""] + table(["name", "file", "why it may stay one", "law"], rows)


def library(cited):
    body = ["", "## The library"]
    body += prose("What the definitions use of Rattle's library, by the file of the kit that has it.")
    for name in sorted(cited - {name for meanings in LIBRARY.values() for name in meanings}):
        fail("LIBRARY doesn't say what %s means" % name)
    for place, meanings in LIBRARY.items():
        rows = [(name.replace("◌", " ").strip(), text) for name, text in meanings.items() if name in cited]
        rows = [["`%s`" % name.replace("|", "\\|"), text] for name, text in rows]
        if rows:
            body += ["", "`%s`" % place, ""] + table(["name", "meaning"], rows)
    return body


def length(definitions):
    return sum(len(definition.comment) + len(definition.text) for definition in definitions)


def page():
    """The page, and how many definitions and lines it has."""
    specs = Specs()
    found, cited = specs.reach(HEADLINE, (*NAMES, *LATER))
    known = {definition.key for definition in found}
    more, cited_more = specs.reach(CLAUSES, NAMES)
    more = [definition for definition in more if definition.key not in known]
    whole, _ = specs.reach(WHOLE, NAMES)
    body, lines = parts(specs, found, more)
    counts = {
        "count": len(found),
        "lines": "{:,}".format(sum(lines[:-1])),
        "all_count": len(found) + len(more),
        "all_lines": "{:,}".format(sum(lines)),
        "ten_count": len(whole),
        "ten_lines": "{:,}".format(length(whole)),
        "last": len(lines),
        "before": len(lines) - 1,
    }
    body += names(specs) + library(cited | cited_more)
    return INTRODUCTION.format(**counts) + "\n".join(body) + "\n", counts


def main():
    text, counts = page()
    said = "What you have to read: {lines} lines".format(**counts)
    readme = re.sub(r"What you have to read: [\d,]+ lines", said, README.read_text())
    if sys.argv[1:] == ["--check"]:
        if not PAGE.exists() or PAGE.read_text() != text or README.read_text() != readme:
            fail("docs/STATEMENT.md or README.md isn't what the specifications say: run python3 docs/statement.py")
    else:
        PAGE.write_text(text)
        README.write_text(readme)
    said = "statement: {count} definitions in {lines} lines, with the commands {all_count} in {all_lines}"
    print(said.format(**counts))


if __name__ == "__main__":
    main()
