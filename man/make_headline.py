#!/usr/bin/env python3
"""Writes docs/HEADLINE.md: the contract of `ps_linkfile::link`, and each definition of specs/ that
it rests on, after those that it uses. The last chapter has those that only one clause uses which
follows from the others by a law. Fails on a word of a file of specs/ that stands nowhere, and on
what man/headline_words.py lacks or has too much.
Usage: make_headline.py [FOLDER], which is docs/ if none is given."""
import functools
import pathlib
import re
import sys

from headline_words import PHRASES, SIGNS, TWINS, WORDS

ROOT = pathlib.Path(__file__).resolve().parent.parent
CRATES = ROOT / "crates"
LINK = CRATES / "ps_linkfile/src/linked.rt"
# This clause follows from `first`, by the law `first_of_all` of ps_laws.
FOLLOWS = "error"
HEADER = re.compile(r"(?:(?:pub|abbrev|unfoldable|opaque) )*(?:record |data )?([^\s:({]+)")
WORD = re.compile(r"[\s(){}\[\],;]+")
# A comment with a number begins a part of its file, of more than the definition below it.
NUMBERED = re.compile(r"-- \d+\. |--   ")
# The law that says which number each constant has.
NUMBERS = CRATES / "ps_laws/src/numbers.rt"
# Where the types and constants of the code have their names from, and which modules are none of
# this repository's.
DECLARED, KIT = ".specs.declared.", re.compile(r"Rattle\.(?!ps_)")

# Of each chapter its title, what a reader learns there, and the files whose definitions it has,
# unless one of them uses a later chapter.
CHAPTERS = [
    (
        "Words",
        "Two bytes are a word in the byte order of a file, and an operand of two bytes has its "
        "high byte first.",
        ["ps_words/specs/Words"],
    ),
    (
        "The segment dictionary",
        "Block 0 of a file says what its sixteen slots have, where their codes are, and in which "
        "byte order it is written.",
        ["ps_codefile/specs/Dictionary", "ps_codefile/specs/Roles"],
    ),
    (
        "Code and procedures",
        "The end of a code says where its procedures are, and which of its places are no "
        "operand's.",
        ["ps_codefile/specs/Procedures"],
    ),
    (
        "Records",
        "Behind a code stands its link information: records with names, and the offsets of the "
        "operands that refer to them.",
        ["ps_linkinfo/"],
    ),
    (
        "Segments",
        "A segment of a link comes from the host, from a library that has the unit which a slot "
        "wants, or from one that has a requested unit.",
        ["ps_reading/specs/"],
    ),
    (
        "What a reference becomes",
        "A name stands for a value, a private variable has words of its own, and the byte of a "
        "linked code is told place by place.",
        [
            "ps_resolve/specs/Symbols",
            "ps_resolve/specs/Privates",
            "ps_resolve/specs/References",
            "ps_resolve/specs/Operands",
            "ps_resolve/specs/Linking",
            "ps_resolve/specs/LinkedBytes",
            "ps_reading/specs/Standing/Phrases",
        ],
    ),
    (
        "Faults and their order",
        "Each step of a link has its faults, each fault has a key, and the first fault is that of "
        "the smallest key.",
        ["ps_reading/specs/Standing", "ps_resolve/specs/", "ps_words/specs/Fault"],
    ),
    (
        "The linked file",
        "The linked file is a list of facts, and no two files have them all: that is the law "
        "`linked_file_is_one`.",
        ["ps_linkfile/", "ps_writing/"],
    ),
]
LAST = "The first fault, computed"


class Definition:
    """A definition as its file has it, with the comment above it."""

    def __init__(self, file, place, name, comment):
        self.file, self.place, self.name, self.comment, self.lines = file, place, name, comment, []

    def words(self):
        text = re.sub(r"--.*", "", "\n".join(self.lines))
        parts = {part for word in WORD.split(text) for part in (word, *word.split("."))}
        return parts - {self.name}

    def parts(self):
        """The variants and fields that it declares."""
        declares = re.match(r"pub (?:record|data) ", self.lines[0])
        return (
            re.findall(r"^ +(?:pub )?(\S+) : ", "\n".join(self.lines[1:]), re.M) if declares else []
        )

    def count(self):
        return sum(1 for line in self.lines if re.sub(r"--.*", "", line).strip())


class Spec:
    """A file of specs/: what it defines, and where the names that it uses come from."""

    def __init__(self, path):
        text = path.read_text()
        self.name = path.relative_to(CRATES).with_suffix("").as_posix()
        self.uses = {}
        for module, names in re.findall(r"use (Rattle\.[\w.]+)\.\{([^}]*)\}", text):
            for word in filter(None, (name.strip() for name in names.split(","))):
                name, _, other = word.partition(" as ")
                self.uses[other or name] = (module, name)
        self.passed = re.findall(r"^pub use (Rattle\.[\w.]+)$", text, re.M)
        self.defined, self.owners = {}, {}
        self.read(text.splitlines())
        for definition in self.defined.values():
            self.owners.update(dict.fromkeys(definition.parts(), definition))

    def read(self, lines):
        comment, current = [], None
        for place, line in enumerate(lines):
            if line.startswith("--"):
                comment += [] if NUMBERED.match(line) else [line]
            elif not line.strip() or re.match(r"(pub )?(use|mod) ", line):
                comment, current = [], None if line.strip() else current
            elif line[0] != " " and self.is_header(line):
                name = HEADER.match(line)[1]
                current = self.defined[name] = Definition(self.name, place, name, comment)
                current.lines.append(line)
                comment = []
            elif current is not None:
                current.lines += comment + [line]
                comment = []

    @staticmethod
    def is_header(line):
        return re.match(r"(pub|abbrev|unfoldable|opaque|record|data) ", line) or re.match(
            r"[^\s:(]+ : ", line
        )


class Book:
    """The definitions that stand under some words of the contract."""

    def __init__(self):
        # the files by their paths, and the names of the kit and of the code that are used, in the
        # order in which they are met
        self.specs, self.others = {}, {}

    def spec(self, module):
        path = CRATES.joinpath(*module.split(".")[1:]).with_suffix(".antt")
        if path not in self.specs:
            self.specs[path] = Spec(path) if path.is_file() else self.passed_on(module)
        return self.specs[path]

    def passed_on(self, module):
        """The file of another crate that this one passes on under the same name."""
        parts = module.split(".")
        lib = CRATES.joinpath(*parts[1:3], "Lib.antt")
        if len(parts) > 3 and lib.is_file():
            for passed in re.findall(r"^pub use (Rattle\.[\w.]+)$", lib.read_text(), re.M):
                if passed.split(".")[-1] == parts[-1] and passed != module:
                    return self.spec(passed)
        return None

    def find(self, module, name):
        """The definition of this name, wherever the module has it from; none of a name of the kit,
        and of a type of the code."""
        if KIT.match(module) or DECLARED in module:
            self.others.setdefault((module, name))
            return None
        spec = self.spec(module)
        if spec is None or not self.has(module, name):
            raise ValueError(f"{module} has no {name}")
        if name in spec.uses:
            return self.find(*spec.uses[name])
        if name in spec.defined or name in spec.owners:
            return spec.defined.get(name) or spec.owners[name]
        return next(self.find(passed, name) for passed in spec.passed if self.has(passed, name))

    def has(self, module, name):
        spec = self.spec(module)
        return spec is not None and (
            name in {*spec.defined, *spec.uses, *spec.owners}
            or any(self.has(passed, name) for passed in spec.passed)
        )

    @functools.cache
    def used_by(self, definition):
        spec = self.specs[CRATES / f"{definition.file}.antt"]
        module = "Rattle." + definition.file.replace("/", ".")
        own = {*spec.defined, *spec.uses}
        found = [
            self.find(module, word)
            for word in sorted(definition.words())
            if word in own or any(self.has(passed, word) for passed in spec.passed)
        ]
        return [other for other in found if other is not None and other is not definition]

    def under(self, roots):
        """All definitions under these, each after those that it uses."""
        done, order = set(), []

        def visit(definition):
            if definition not in done:
                done.add(definition)
                for other in sorted(self.used_by(definition), key=lambda it: (it.file, it.place)):
                    visit(other)
                order.append(definition)

        for root in roots:
            visit(root)
        return order


def contract():
    """The clauses of `link`, by their names, and the definitions of its file's names."""
    text = LINK.read_text()
    stated = re.search(r"^pub fn link<.*?^\{", text, re.S | re.M)[0].removesuffix("{")
    clauses = dict(re.findall(r"ensures (\w+) \{(.*?)\}\n(?=    ensures|\Z)", stated, re.S))
    names = {}
    for module, said in re.findall(r"ghost use (Rattle\.[\w.]+)\.\{([^}]*)\}", text):
        for word in said.split(","):
            name, _, other = word.strip().partition(" as ")
            names[other or name] = (module, name)
    return stated, clauses, names


def is_word_of(name, clauses, names):
    """Whether the clauses have the word that stands for this name."""
    said = {word for text in clauses.values() for word in WORD.split(text)}
    return any(names[word][1] == name for word in said if word in names)


def headline(definitions):
    """The sentence of README, and which names of the page say each of its phrases."""
    sentence = re.search(
        r"^> (Where `link` answers Ok.*)$", (ROOT / "README.md").read_text(), re.M
    )[1]
    known = {part for it in definitions for part in (it.name, *it.parts())}
    rest = sentence
    yield f"## The headline\n\n> {sentence}\n\n| Phrase | What says it |\n|---|---|\n"
    for phrase, names in PHRASES:
        if phrase not in rest:
            raise ValueError(f"the headline of README has no '{phrase}' in its place")
        if missing := [name for name in names if name not in known and name not in WORDS]:
            raise ValueError(f"nothing on the page is called {missing}")
        rest = rest.split(phrase, 1)[1]
        yield f"| {phrase} | {', '.join(f'`{name}`' for name in names)} |\n"


def twins(definitions):
    known = {it.name for it in definitions}
    if missing := {name for pair in TWINS for name in pair} - known:
        raise ValueError(f"nothing on the page is called {missing}")
    yield ("Which segments a link has is computed: tests find the library that has a unit, and "
           "`reading` gives the records. Faults speak of the same by facts: read these. ")
    yield ("The law `segments_have_origins` of `ps_laws` says by the facts where each segment "
           "comes from, and `one_reading` of `ps_linkinfo` that link information has one "
           "reading.\n\n")
    yield "| Read | Computed |\n|---|---|\n" + "".join(
        f"| `{facts}` | `{computed}` |\n" for facts, computed in TWINS
    )


def glossary(others):
    """The signs, and the words of the kit that the page has."""
    used = {
        name
        for module, name in others
        if KIT.match(module) and re.match(r"\w", name) and name != "Bor"
    }
    if used != set(WORDS):
        raise ValueError(
            f"man/headline_words.py and the page differ in {sorted(used ^ set(WORDS))}"
        )
    yield ("## Words of the kit\n\nA definition without a comment on these uses them so. The first "
           "table has signs of the language.\n\n| Sign | What it says |\n|---|---|\n")
    yield "".join(f"| {sign} | {meaning} |\n" for sign, meaning in SIGNS.items())
    yield "\n| Word | What it is |\n|---|---|\n"
    yield "".join(f"| `{word}` | {WORDS[word]} |\n" for word in sorted(WORDS, key=str.lower))


def source_of(module):
    """The file of the code that a name is declared in, and the name of the type, where it is of
    one."""
    crate, path = module.removeprefix("Rattle.").split(DECLARED)
    words = path.removesuffix(".TheVariants").split(".")
    kept = words if words[-1] == "TheConstants" or not words[-1][0].isupper() else words[:-1]
    file = (
        CRATES / crate / "src" / ("/".join(word for word in kept if word != "TheConstants") + ".rt")
    )
    return file, words[-1]


def declared_types(others):
    """The types of the code that definitions name, and those of the same files that their fields
    have, each as its file declares it."""
    wanted = sorted(
        {
            source_of(module)
            for module, _ in others
            if DECLARED in module and not module.endswith("TheConstants")
        }
    )
    texts = (
        re.sub(r"^ *(?:///|#\[).*\n", "", file.read_text(), flags=re.M)
        for file in dict.fromkeys(file for file, _ in wanted)
    )
    types = {
        it[2]: it[0]
        for text in texts
        for it in re.finditer(r"^pub (struct|enum) (\w+)[^{;]*\{\n.*?^\}", text, re.S | re.M)
    }
    needed, left = set(), {name for _, name in wanted}
    while left:
        needed |= left
        left = {
            other for other in types for name in left if re.search(rf"\b{other}\b", types[name])
        } - needed
    yield ("## Types of the code\n\nThe types that definitions name, as the code declares them. In "
           "a definition a number of any type is one of ℕ, and a name or a list of references is a "
           "list. ")
    yield ("`rec` is the number of a record, and a `Name` is eight bytes.\n\n```text\n"
           + "\n\n".join(
               types[it] for it in types if it in needed
           ) + "\n```\n")


def constants(others):
    used = {name for module, name in others if module.endswith("TheConstants")}
    stated = dict(
        re.findall(r"\((\w+) ≡ (\d+)\)", NUMBERS.read_text())
        + re.findall(r"\{ (\w+) ≡ (\d+) \}", NUMBERS.read_text())
    )
    if missing := used - stated.keys():
        raise ValueError(f"{NUMBERS.name} says of no number that it is {sorted(missing)}")
    yield ("## Constants\n\nThe law `numbers_of_the_format` of `ps_laws` says which number each "
           "is.\n\n| Constant | Number |\n|---|---|\n")
    yield "".join(f"| `{name}` | {stated[name]} |\n" for name in sorted(used))


def chapter_of(definition):
    fits = [
        number
        for number, (_, _, files) in enumerate(CHAPTERS)
        if any(definition.file.startswith(file) for file in files)
    ]
    # (a file of a folder that two chapters name stands where its longer name does)
    if not fits:
        raise ValueError(f"{definition.file}: no chapter has it")
    return max(
        fits,
        key=lambda number: max(
            len(file) for file in CHAPTERS[number][2] if definition.file.startswith(file)
        ),
    )


def in_chapters(book, order):
    """The definitions by chapter: each in that of its file, or the latest of those that it uses."""
    found = {}
    for definition in order:
        found[definition] = max(
            [
                chapter_of(definition),
                *(found[other] for other in book.used_by(definition) if other in found),
            ]
        )
    return [
        in_rows(book, [it for it in order if found[it] == number])
        for number in range(len(CHAPTERS))
    ]


def in_rows(book, definitions):
    """The same definitions, each still after those that it uses, with as many of one file in a row
    as can be."""
    left, rows, file = set(definitions), [], None
    place_of = lambda definition: (definition.file != file, definition.file, definition.place)
    while left:
        ready = [it for it in left if not left.intersection(book.used_by(it))]
        rows.append(min(ready, key=place_of))
        file = rows[-1].file
        left.remove(rows[-1])
    return rows


def blocks(definitions):
    """The definitions as code, those of one file in a row below its name."""
    file = None
    for definition in definitions:
        if definition.file != file:
            if file is not None:
                yield "```\n\n"
            file = definition.file
            yield f"`{file}.antt`\n\n```text\n"
        else:
            yield "\n"
        yield from (line + "\n" for line in [*definition.comment, *definition.lines])
    yield "```\n\n"


def page():
    stated, clauses, names = contract()
    book = Book()
    roots = lambda texts: list(
        filter(
            None,
            (
                book.find(*names[word])
                for text in texts
                for word in WORD.split(text)
                if word in names
            ),
        )
    )
    needed = book.under(roots([text for name, text in clauses.items() if name != FOLLOWS]))
    every = book.under(roots(clauses.values()))
    rest = [it for it in every if it not in needed]
    size = lambda definitions: f"{sum(it.count() for it in definitions):,}"
    yield "# The headline, word for word\n\n"
    yield ("For a reader who wants to know what was proved, and not how. This page has the "
           "contract of `ps_linkfile::link` and each definition under it. ")
    yield "`man/make_headline.py` makes it from the files, and the gate compares it.\n\n"
    yield (f"**{len(needed)} definitions, {size(needed)} lines**, in "
           f"{len({it.file for it in needed})} files, say what a link is. ")
    yield (f"The clause `{FOLLOWS}` alone uses {len(rest)} more, of {size(rest)} lines: the same "
           "first fault, as it is computed. ")
    yield ("It follows from the clause `first`, by the law `first_of_all` of `ps_laws`, so the "
           f"[last chapter](#{LAST.lower().replace(',', '').replace(' ', '-')}) can be left "
           "out.\n\n")
    yield ("Each definition stands after those that it uses. A definition with an arrow (`→`) has "
           "arguments, `×` is *and*, `⊎` is *or*, and `≡` is *equal*. ")
    yield ("Other words are in [Words of the kit](#words-of-the-kit), [Types of the "
           "code](#types-of-the-code) and [Constants](#constants), before the chapters.\n\n")
    yield "".join(headline(needed))
    yield f"\n## The contract\n\n```text\n{stated}```\n\n"
    others = {
        **book.others,
        **{place: None for place in names.values() if is_word_of(place[1], clauses, names)},
    }
    yield "\n".join(
        "".join(part) for part in (glossary(others), declared_types(others), constants(others))
    ) + "\n"
    yield "## Said twice\n\n" + "".join(twins(needed)) + "\n"
    for (title, about, _), definitions in zip(CHAPTERS, in_chapters(book, needed)):
        yield (f"## {title}\n\n{about} *{len(definitions)} definitions, {size(definitions)} "
               "lines.*\n\n")
        yield from blocks(definitions)
    yield (f"## {LAST}\n\nThe steps of a link, one after another, each with its first fault. "
           f"*{len(rest)} definitions, {size(rest)} lines.*\n\n")
    yield from blocks(in_rows(book, rest))


def main():
    folder = pathlib.Path(sys.argv[1]) if len(sys.argv) > 1 else ROOT / "docs"
    (folder / "HEADLINE.md").write_text("".join(page()).rstrip("\n") + "\n")


main()
