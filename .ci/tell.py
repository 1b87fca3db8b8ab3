"""Runs the linker of linker.py and the wrong ones of wrong_linkers.py over the test vectors, in a
few processes: which of them answers each case as its description says, and which cases tell the
others."""
import contextlib
import functools
import heapq
import inspect
import itertools
import multiprocessing
import pathlib
import re
import signal
import textwrap
import types

import linker
import wrong_linkers

SOURCE = (pathlib.Path(linker.__file__)).read_text()
SECONDS = 30  # for one linker over one case, on a machine that has other work
LIKELY = 40  # questions that are asked first
OF_SHOWS = {"show", "link_lines", "record_line"}  # functions that no link calls
READ_ONCE = functools.lru_cache(maxsize=20000)(linker.CodeFile)


class Row:
    """A wrong linker: what is wrong, and what is changed where."""

    def __init__(self, what, *items):
        self.what = what
        if len(items) % 3:
            items = [item for k in range(1, len(items), 2) for item in (
                         items[0], *items[k : k + 2])]
        self.changes = {}
        for function, old, new in (items[k : k + 3] for k in range(0, len(items), 3)):
            text = self.changes.get(function, source_of(function))
            if text.count(old) != 1:
                raise SystemExit(f"wrong_linkers.py, '{what}': {function} has not once: {old}")
            self.changes[function] = text.replace(old, new)
        self.is_of_shows = self.changes.keys() <= OF_SHOWS

    @contextlib.contextmanager
    def linker(self):
        """The linker with these changes, until the end of the block."""
        if "" in self.changes:
            yield module_of(self.changes[""])
            return
        places = {owner_of(function): text for function, text in self.changes.items()}
        right = {(owner, name): vars(owner)[name] for owner, name in places}
        # (a dictionary that is read as ever is read once)
        if not {owner for owner, _ in places} & {linker.Slot, linker.CodeFile}:
            right[linker, "CodeFile"], linker.CodeFile = linker.CodeFile, READ_ONCE
        try:
            for (owner, name), text in places.items():
                made = {}
                exec(textwrap.dedent(text), vars(linker), made)
                is_static = isinstance(right[owner, name], staticmethod)
                setattr(owner, name, staticmethod(made[name]) if is_static else made[name])
            yield linker
        finally:
            for (owner, name), function in right.items():
                setattr(owner, name, function)


def owner_of(function):
    """The module or the class that has a function, and its name there. A method that one class has
    may stand without the class."""
    owner, _, name = function.rpartition(".")
    if owner:
        return getattr(linker, owner), name
    if hasattr(linker, name):
        return linker, name
    [owner] = [one for one in vars(linker).values() if isinstance(one, type) and name in vars(one)]
    return owner, name


@functools.cache
def source_of(function):
    """The text of a function, or of the whole file for \"\"."""
    if not function:
        return SOURCE
    owner, name = owner_of(function)
    found = inspect.getattr_static(owner, name)
    # (before Python 3.10 a static method itself has no source)
    return inspect.getsource(getattr(found, "__func__", found)).removeprefix("    @staticmethod\n")


def module_of(source):
    module = types.ModuleType("linker")
    exec(compile(source, "linker.py", "exec"), vars(module))
    return module


def rows():
    """The wrong linkers that the cases that are kept tell."""
    for table in wrong_linkers.KEPT:
        yield from (Row(*row) for row in wrong_linkers.TABLES[table])
    for looseness, form in wrong_linkers.LOOSE.items():
        for what, *items in wrong_linkers.COMPARED:
            loose = [re.sub(r"\{([\w.]+)\}", lambda match: form.format(match[1]), item)
                     for item in items]
            yield Row(f"{what} are compared {looseness}", *loose)


class Case:
    """A case of the index: its files, and what is expected of a link and of each show."""

    def __init__(self, case):
        def read(name):
            return (case["top"] / case["folder"] / name).read_bytes()

        self.name, self.words = case["name"], words_of(f"{case['name']} {case['about']}")
        self.files = read(case["host"]), [read(name) for name in case["libraries"]]
        self.linked = case["stderr"] if case["fault"] else (
            case["stdout"], read(case["linked"]), read(case["map"]).decode())
        self.shows = [(read(name),
                       read(show["stdout"]).decode() if show["stdout"] else show["stderr"])
                      for name, show in case["shows"].items()]
        self.cost = sum(len(record) for record, _ in self.shows) + 2000 * len(case["libraries"])

    def is_linked_by(self, linker):
        """The link is as expected: its summary, its bytes and its map, or its fault."""
        try:
            link = linker.Link(*self.files)
            answer = f"{link.summary()}\n", link.file()[0], "".join(
                f"{line}\n" for line in link.map())
        except linker.Fault as fault:
            answer = f"pslink: {fault.line()}\n"
        return answer == self.linked

    def is_shown_by(self, linker):
        for data, wanted in self.shows:
            try:
                answer = "".join(f"{line}\n" for line in linker.show(data))
            except linker.Fault as fault:
                answer = f"pslink: {fault.line()}\n"
            if answer != wanted:
                return False
        return True


def words_of(text):
    return set(re.findall(r"\w+", text.lower()))


def asked(row):
    """The questions for a wrong linker: each show if no link can tell it, or else each link and
    then each show. Before them come those about cases whose names and sentences share most words
    with what is wrong."""
    words, questions = words_of(row.what), SHOWS if row.is_of_shows else LINKS
    first = heapq.nlargest(
        LIKELY, questions, key=lambda question: len(words & question.__self__.words))
    return itertools.chain(first, questions, [] if row.is_of_shows else SHOWS)


def is_right(answers, linker):
    """Whether a question is answered as expected. A linker that has no answer in some seconds is
    wrong. One that fails is not told by that: its failure is none of the rule, but of its few
    words."""
    signal.alarm(SECONDS)
    try:
        return answers(linker)
    except TimeoutError:
        return False
    except Exception:
        return True
    finally:
        signal.alarm(0)


def stopped(*_):
    raise TimeoutError


def differing(linker, questions):
    """The first of these questions that a linker answers otherwise than expected, or None."""
    return next((question for question in questions if not is_right(question, linker)), None)


def large_rows():
    """The wrong linkers that the cases of megabytes tell."""
    return (Row(*row) for row in wrong_linkers.TABLES["LARGE"])


def tell(cases, wrong_ones):
    """The wrong linkers, the cases that tell them, and what is wrong: a right linker that differs,
    a wrong one that does not."""
    signal.signal(signal.SIGALRM, stopped)
    loaded, found = sorted(map(Case, cases), key=lambda case: case.cost), []
    LINKS[:], SHOWS[:], ROWS[:] = [case.is_linked_by for case in loaded], [
        case.is_shown_by for case in loaded], wrong_ones
    if question := next((question for question in [*LINKS, *SHOWS] if not question(linker)), None):
        found.append(f"linker.py answers {question.__self__.name} otherwise")
    with multiprocessing.get_context("fork").Pool() as pool:
        told = dict(pool.imap_unordered(told_by, range(len(ROWS)), chunksize=4))
    for what, name in told.items():
        if name is None and what not in wrong_linkers.UNTOLD:
            found.append(f"no case tells the linker '{what}'")
        if name is not None and what in wrong_linkers.UNTOLD:
            found.append(f"the linker '{what}' is told, by {name}, and is to be told by none")
    return told, found


# the links and the shows of the cases, those of small files first, and the rows, which each process
# has
LINKS, SHOWS, ROWS = [], [], []


def told_by(index):
    """What is wrong in a row, and the case that tells it, which is asked first from then on; or
    None."""
    row = ROWS[index]
    with row.linker() as wrong:
        question = differing(wrong, asked(row))
    for questions in (LINKS, SHOWS):
        if question in questions:
            questions.remove(question)
            questions.insert(0, question)
    return row.what, question and question.__self__.name
