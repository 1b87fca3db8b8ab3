#!/usr/bin/env python3
"""Writes docs/CRATES.md from the sources: the groups of crates.txt with their crates, what each
crate is and on which it stands, its files of definitions with what each says first, and its public
functions, each with what its docstring says first and the names of the clauses of its contract.
Usage: make_crates.py [FOLDER], which is docs/ if none is given."""
import pathlib
import re
import sys

ROOT = pathlib.Path(__file__).resolve().parent.parent
CRATES, PAGE = ROOT / "crates.txt", "CRATES.md"
HEAD = """# The crates: what each defines and promises

Made by `man/make_crates.py` from `crates.txt` and the sources: change these, then run it. \
[ARCHITECTURE.md](ARCHITECTURE.md) says how
data goes through the crates, and [PROVED.md](PROVED.md) what all of it proves of the program \
and of the library.

- **Definitions**: each file of `crates/CRATE/specs`, with what it says first.
- **Functions**: each public function whose contract has clauses with names, with what its \
docstring says first. Clause and whole
  docstring stand in its source. A law is a function with an empty body: its clauses are theorems.
- **One clause**: functions with one clause and no name for it, which mostly says what the result \
is equal to.
- **No clause**: functions of which nothing is proved but that they are safe and end. Tests show \
what they do.
"""


def standing(text):
    """Each crate of a text in the form of crates.txt, with the crates of this repository that it
    stands on and those of the kit."""
    ours = {path.name for path in (ROOT / "crates").iterdir()}
    for crate, below in re.findall(r"^(\w+)(?: staticlib)?:(.*)", text, re.M):
        yield crate, [name for name in below.split() if name in ours], [
            name for name in below.split() if name not in ours]


def groups():
    """Of each group of crates.txt its name, what its crates do, and the crates."""
    head, *rest = re.split(r"^# (\w+): (.*)$", CRATES.read_text(), flags=re.M)
    if list(standing(head)):
        raise ValueError("crates.txt has a crate above its first group")
    yield from zip(rest[::3], rest[1::3], map(list, map(standing, rest[2::3])))


def needed(below):
    """Of the crates that a crate stands on, those on which no other of them stands."""
    tree = {crate: ours for crate, ours, _ in standing(CRATES.read_text())}

    def all_below(crate):
        return set(tree[crate]).union(*map(all_below, tree[crate]))

    return [crate for crate in below if not any(crate in all_below(other) for other in below)]


def first_sentence(lines, mark):
    """What a comment says first, as one line."""
    text = re.sub(
        r"\[(`[^`]*`)\](?!\()", r"\1",
        " ".join(line.strip().removeprefix(mark).strip() for line in lines))
    return re.split(r"(?<=\.)\s+(?=[A-Z`])", text, maxsplit=1)[0].rstrip(".:").replace("|", r"\|")


def head_of(path, mark):
    """The comment with which a file begins."""
    lines = []
    for line in path.read_text().splitlines():
        if not line.startswith(mark):
            break
        lines.append(line)
    return lines


def definitions(crate):
    """A line of each file of definitions."""
    specs = ROOT / "crates" / crate / "specs"
    for path in sorted(specs.rglob("*.antt")):
        if path.name != "Lib.antt":
            yield (f"- `{'.'.join(path.relative_to(specs).with_suffix('').parts)}`: "
                   f"{first_sentence(head_of(path, '--'), '--')}\n")


def exported(crate):
    """The names that a crate passes on from its modules, and its public modules."""
    text = (ROOT / "crates" / crate / "src/lib.rt").read_text()
    names = {name for one in re.findall(r"^pub use ([^;]*);", text, re.M) for name in re.findall(
                 r"\w+", one)}
    return names, set(re.findall(r"^pub mod (\w+);", text, re.M))


def functions(path):
    """Of each public function of a file: the type or trait that it is of, its name, its docstring,
    and the names of its clauses, '' for one without a name."""
    kind, in_trait, comment, found = "", False, [], []
    clauses = []
    for line in path.read_text().splitlines():
        if header := re.match(r"(?:impl(?:<.*?>)? (?:.* for )?|pub (trait) )(\w+)", line):
            kind, in_trait = header[2], bool(header[1])
        elif line == "}":
            kind, in_trait = "", False
        if line.lstrip().startswith("///"):
            comment.append(line)
        elif begun := re.match(r'( *)(pub(?:\(\w+\))? )?(?:extern "C" )?fn (\w+)', line):
            clauses = []
            if begun[2] == "pub " or in_trait:
                found.append((kind if begun[1] else "", begun[3], comment, clauses))
            comment = []
        elif clause := re.match(r"\s*ensures (\w*) ?\{", line):
            clauses.append(clause[1])
        elif line.strip() and not line.lstrip().startswith("#["):
            comment = []
    return found


def promises(crate):
    """The rows of a crate's functions whose clauses have names, the names of its other functions
    with a clause, and of those without."""
    source, rows, others, without = ROOT / "crates" / crate / "src", [], [], []
    names, modules = exported(crate) if (source / "lib.rt").exists() else (set(), set())
    for path in sorted(source.rglob("*.rt")):
        for kind, name, comment, clauses in functions(path):
            parts = path.relative_to(source).with_suffix("").parts
            if "tests" in parts or not ((kind or name) in names or parts[0] in modules):
                continue
            called = f"`{kind}::{name}`" if kind else f"`{name}`"
            if any(clauses):
                listed = ", ".join(f"`{clause}`" for clause in clauses if clause)
                rows.append(f"| {called} | {first_sentence(comment, '///')} | {listed} |\n")
            else:
                (others if clauses else without).append(called)
    return rows, others, without


def summary(crates):
    """The table of the crates of a group."""
    yield "| Crate | Stands on | Of the kit | What it is |\n|---|---|---|---|\n"
    for crate, below, of_kit in crates:
        source = ROOT / "crates" / crate / "src"
        words = first_sentence(
            head_of(
                next(path for path in (source / "lib.rt", source / "main.rt") if path.exists()),
                "//!"),
            "//!")
        listed = [", ".join(f"`{name}`" for name in names) for names in (needed(below), of_kit)]
        yield f"| `{crate}` | {listed[0]} | {listed[1]} | {words} |\n"


def section(crate):
    """What a crate defines and promises, if it does."""
    specs, (rows, others, without) = list(definitions(crate)), promises(crate)
    if not specs and not rows and not others and not without:
        return
    yield f"\n### {crate}\n"
    if specs:
        yield "\nDefinitions:\n\n"
        yield from specs
    if rows:
        yield "\n| Function | What it does | Clauses |\n|---|---|---|\n"
        yield from rows
    if others:
        yield f"\nOne clause: {', '.join(others)}.\n"
    if without:
        yield f"\nNo clause: {', '.join(without)}.\n"


def page():
    yield HEAD
    for name, words, crates in groups():
        yield f"\n## {name.capitalize()}\n\n{words[0].upper()}{words[1:]}.\n\n"
        yield from summary(crates)
        for crate, _, _ in crates:
            yield from section(crate)


def main():
    folder = pathlib.Path(sys.argv[1]) if len(sys.argv) > 1 else ROOT / "docs"
    (folder / PAGE).write_text("".join(page()))


if __name__ == "__main__":
    main()
