"""The Linker of UCSD Pascal II.0 for Pascal units, from memory to memory.

    import pslink
    linked = pslink.link("host.code", ["library.code"])

A file is the path of a code file, which is read; or bytes, or whatever else has bytes, with a whole
one; or a pair of a name and one of these. Texts call a file by its name, or else by its path, or
else `file 0`, `file 1` and so on. The files' fault, if they have one, is raised as `Refused`.

The shared object is the file that PSLINK_LIBRARY names, or else libpslink.so.3 in this package, or
else in the folder `lib` beside `bindings`, as in an archive of pslink that is unpacked, or else
where the system's loader finds it, or else where pkg-config has it. If there is none, or one of
another interface or one that is too old for this package, the import of this package is an
ImportError.
"""

import array
import ctypes
import json as _json
import mmap
import os
import subprocess
from typing import TYPE_CHECKING, Iterable, List, Literal, NamedTuple, Optional, Tuple, Union

if TYPE_CHECKING:
    # (what has bytes, for those who check types: Python 3.8 has no name for it)
    from _typeshed import ReadableBuffer

# (`map` is not among them, so that `import *` keeps Python's own)
__all__ = [
    "File", "FileType", "Finding", "Refused", "Report", "Summary", "Text", "check", "fault_meaning",
    "fault_name", "fault_remedy",
    "file_type", "link", "link_with_summary", "release_number", "show", "text",
    "units_wanted", "units_had",
]
__version__ = "0.4.0"
# The interface that this package calls, by the node of the library's symbols, and the number of the
# first release that has all of it.
_NODE = b"PSLINK_3"
_FIRST_RELEASE_NUMBER = 300

# What has a whole code file, or names one.
if TYPE_CHECKING:
    _Contents = Union[ReadableBuffer, str, "os.PathLike[str]", "os.PathLike[bytes]"]
else:
    # (where a program asks for the hints; Python 3.8 says no more of `array` and `PathLike`)
    _Contents = Union[bytes, bytearray, memoryview, array.array, mmap.mmap, ctypes.Array, str,
                      os.PathLike]
File = Union[_Contents, Tuple[str, _Contents]]

# What `text` makes, as the commands of the program call it: `references` is the map with them,
# `units` is `check --unit`, `findings` is what a `check` finds, one by one.
Text = Literal["map", "references", "show", "check", "list", "units", "findings"]
_TEXTS = {"map": 0, "references": 1, "show": 2, "check": 3, "list": 4, "units": 5, "findings": 6}
# those that have no document
_PLAIN = {"wanted": 7, "had": 8, "type": 9}
_JSON = 256
_NAME, _MEANING, _REMEDY = 0, 1, 2
_NAME_LENGTH = 8

_DONE, _REFUSED, _MISUSE, _NO_MEMORY, _TOO_SMALL = 0, 1, 2, 4, 5
_LIBRARY = "libpslink.so.3"

# A linked file has at most so many bytes. A text that is longer than this guess is made again.
_LINKED_MAX = 524800
_TEXT_GUESS = 4096
_FAULT_TEXT_MAX = 160


class _File(ctypes.Structure):
    _fields_ = [("name", ctypes.c_char_p), ("bytes", ctypes.c_char_p), ("length", ctypes.c_size_t)]


class _Answer(ctypes.Structure):
    _fields_ = [
        ("status", ctypes.c_uint32),
        ("fault", ctypes.c_uint32),
        ("file", ctypes.c_ssize_t),
        ("record", ctypes.c_ssize_t),
        ("reference", ctypes.c_ssize_t),
        ("slot", ctypes.c_int32),
        ("kind", ctypes.c_int32),
        ("about", ctypes.c_uint8 * (_NAME_LENGTH + 1)),
        ("segments", ctypes.c_uint32),
        ("private_words", ctypes.c_uint32),
        ("blocks", ctypes.c_uint32),
        ("warnings", ctypes.c_uint32),
        ("size", ctypes.c_size_t),
        ("reserved", ctypes.c_uint32 * 8),
    ]


_FILES = [ctypes.POINTER(_File), ctypes.c_size_t]
_ROOM = [ctypes.c_void_p, ctypes.c_size_t]
_ANSWER = [ctypes.POINTER(_Answer)]
_FUNCTIONS = {
    "pslink_link": ([*_FILES, *_ROOM, *_ANSWER], ctypes.c_uint32),
    "pslink_text": ([ctypes.c_uint32, *_FILES, *_ROOM, *_ANSWER], ctypes.c_uint32),
    "pslink_fault_text": ([*_ANSWER, *_ROOM], ctypes.c_size_t),
    "pslink_fault": ([ctypes.c_uint32, ctypes.c_uint32], ctypes.c_char_p),
    "pslink_status": ([ctypes.c_uint32], ctypes.c_char_p),
    "pslink_release_number": ([], ctypes.c_uint32),
}


def _candidates():
    """The paths of the shared object, the likeliest first."""
    if named := os.environ.get("PSLINK_LIBRARY"):
        yield named
        return
    here = os.path.dirname(os.path.abspath(__file__))
    own = [os.path.join(here, _LIBRARY), os.path.join(here, "..", "..", "..", "lib", _LIBRARY)]
    yield from filter(os.path.exists, own)
    yield _LIBRARY
    command = [os.environ.get("PKG_CONFIG", "pkg-config"), "--variable=libdir", "pslink"]
    try:
        found = subprocess.run(command, stdout=subprocess.PIPE, stderr=subprocess.DEVNULL,
                               check=True)
    except (OSError, RuntimeError, subprocess.CalledProcessError):
        # (an isolated subinterpreter starts no program)
        return
    folder = os.fsdecode(found.stdout).strip()
    yield os.path.join(folder, _LIBRARY)
    # (a blank may have a backslash, by where pslink.pc is)
    yield os.path.join(folder.replace("\\ ", " "), _LIBRARY)


def _open():
    why = None
    for path in _candidates():
        try:
            return path, ctypes.CDLL(path)
        except OSError as error:
            why = why or error
    raise ImportError(f"{why}: name the shared object in PSLINK_LIBRARY") from why


def _has_node(library):
    """The loader finds a function of this library by its name and the node of the interface."""
    find = ctypes.CDLL(None).dlvsym
    find.argtypes, find.restype = [ctypes.c_void_p, ctypes.c_char_p,
                                   ctypes.c_char_p], ctypes.c_void_p
    return find(library._handle, b"pslink_link", _NODE) is not None


def _load():
    path, library = _open()
    try:
        for name, (arguments, result) in _FUNCTIONS.items():
            function = getattr(library, name)
            function.argtypes, function.restype = arguments, result
    except AttributeError as error:
        raise ImportError(f"{path} is no library of pslink {__version__}: {error}") from error
    release = library.pslink_release_number()
    if not _has_node(library):
        raise ImportError(f"{path}, of release {release}, has another interface: its symbols lack "
                          f"the node {_NODE.decode()}")
    if release < _FIRST_RELEASE_NUMBER:
        raise ImportError(f"{path} is too old: it is of release {release}, and this package calls "
                          f"those from {_FIRST_RELEASE_NUMBER} on")
    return library


_library = _load()


def _said(number, part):
    """What the library has of the fault of this number; '' where there is none."""
    said = _library.pslink_fault(number, part) if 0 <= number < 1 << 32 else None
    return said.decode("ascii") if said else ""


def fault_name(number: int) -> str:
    """The name of the fault of this number, as 'MissingUnit'; '' where there is none."""
    return _said(number, _NAME)


def fault_meaning(number: int) -> str:
    """What the fault of this number means, as 'No segment of the file is a host program.'; '' where
    there is none."""
    return _said(number, _MEANING)


def fault_remedy(number: int) -> str:
    """What to do about it, as 'Keep one of them in the file.', where `the file` is the one at
    fault."""
    return _said(number, _REMEDY)


def release_number() -> int:
    """The release of the library as a number to compare, as 300 for 0.3.0: 10000 times its first
    part, 100 times its second, and its third."""
    return int(_library.pslink_release_number())


class Refused(Exception):
    """The files are refused. Its text is that of the fault, as 'refused 13 MissingUnit file 0 slot
    7'.

    number: the number of the fault, from 1. name: its name. file: the file at fault, 0 for the
    host, k for the k-th library. path: what texts call that file. kind, slot, record, reference:
    numbers, each None where the fault has none. about: the name of that unit, segment, symbol or
    variable which is at fault, as 'UTIL', after MissingUnit that of the unit to look for; None
    where the fault is of none. `meaning` and `remedy` are sentences: what the fault is, and what to
    do about it.
    """

    def __init__(
        self,
        text: str,
        number: int,
        name: str,
        file: int,
        path: str,
        kind: Optional[int] = None,
        slot: Optional[int] = None,
        record: Optional[int] = None,
        reference: Optional[int] = None,
        about: Optional[str] = None,
    ) -> None:
        # (these are what is pickled)
        super().__init__(text, number, name, file, path, kind, slot, record, reference, about)
        self.text = text
        self.number = number
        self.name = name
        self.file = file
        self.path = path
        self.kind = kind
        self.slot = slot
        self.record = record
        self.reference = reference
        self.about = about

    @property
    def meaning(self) -> str:
        """What the fault means, as `fault_meaning`."""
        return fault_meaning(self.number)

    @property
    def remedy(self) -> str:
        """What to do about it, as `fault_remedy`."""
        return fault_remedy(self.number)

    def __str__(self) -> str:
        return self.text

    def __eq__(self, other: object) -> bool:
        return self.args == other.args if isinstance(other, Refused) else NotImplemented

    def __hash__(self) -> int:
        return hash(self.args)


class Summary(NamedTuple):
    """What a linked file has: how many segments, words of private variables, and blocks of 512
    bytes."""

    segments: int
    private_words: int
    blocks: int


class FileType(NamedTuple):
    """What a file is for, and its byte order.

    contents: 'host'; 'library'; 'linked'; or 'mixed', which has linked segments and others and no
    host program. order: 'little' or 'big'. Both are None of a file that is no code file.
    """

    contents: Optional[str]
    order: Optional[str]


class Finding(NamedTuple):
    """What a check finds in files and is no fault.

    weight: 'warning', which is certain; 'note', a guess; or 'harmless', which changes no link.
    path: what the report calls the file. segment: the name of the segment that it is in, as 'UTIL',
    or None. record: the index of the record, or None. text: what is said of it.
    """

    weight: str
    path: str
    segment: Optional[str]
    record: Optional[int]
    text: str


class Report(NamedTuple):
    """What a check says of files.

    text: the report, for a person. fault: why the files are refused, not raised here, or None.
    summary: what their linked file would have, or None where they are refused. findings: what else
    is found, one by one, in the order of its lines. `verdict` is the fault or the summary, `ok`
    whether the files are linked, and `warnings` and `notes` are the findings of these weights. A
    report is true where it is ok; two are equal if they hold the same.
    """

    text: str
    fault: Optional[Refused]
    summary: Optional[Summary]
    findings: Tuple[Finding, ...]

    @property
    def verdict(self) -> Union[Refused, Summary, None]:
        """The fault, or else the summary."""
        return self.summary if self.fault is None else self.fault

    @property
    def ok(self) -> bool:
        """Whether the files are linked."""
        return self.fault is None

    @property
    def warnings(self) -> List[Finding]:
        """The findings that are warnings: with one, the program's `check --strict` ends with 1."""
        return [finding for finding in self.findings if finding.weight == "warning"]

    @property
    def notes(self) -> List[Finding]:
        """The findings that are notes."""
        return [finding for finding in self.findings if finding.weight == "note"]

    def __bool__(self) -> bool:
        return self.ok


def _name(eight_bytes):
    """A name of a code file, without the blanks that fill it. (A byte above 127 is the character of
    its number.)"""
    return eight_bytes.decode("latin-1").rstrip(" ")


def _contents(file):
    """The bytes of a file."""
    # (a class of one's own may have another length than its bytes)
    if type(file) is bytes:
        return file
    if isinstance(file, (str, os.PathLike)):
        with open(file, "rb") as stream:
            return stream.read()
    try:
        return memoryview(file).tobytes()
    except TypeError:
        kind = type(file).__name__
        raise TypeError("a file is bytes, a path, or a pair of a name and one of these, and not "
                        f"{kind}") from None


def _opened(file):
    """What a file is called, or None, and its bytes."""
    if isinstance(file, tuple):
        if len(file) != 2 or not isinstance(file[0], str):
            raise TypeError("a pair is of a name, which is str, and of bytes or a path")
        if "\0" in file[0]:
            raise ValueError("a name has no null character")
        return file[0], _contents(file[1])
    is_path = isinstance(file, (str, os.PathLike))
    return os.fsdecode(os.fspath(file)) if is_path else None, _contents(file)


def _is_one_file(libs):
    """Whether these libraries are one file in place of a list."""
    if isinstance(libs, (str, os.PathLike)):
        return True
    try:
        memoryview(libs)
    except TypeError:
        return False
    return True


class _Files:
    """A host and its libraries, read, as the library takes them."""

    def __init__(self, host, libs=()):
        if _is_one_file(libs):
            raise TypeError(f"the libraries are a list of files, and not one {type(libs).__name__}")
        opened = [_opened(file) for file in (host, *libs)]
        self.names = [f"file {number}" if name is None else name
                      for number, (name, _) in enumerate(opened)]
        self.length = sum(len(data) for _, data in opened)
        self._count = len(opened)
        # (a name of a path may be no text)
        named = [(name.encode("utf-8", "backslashreplace"), data)
                 for name, (_, data) in zip(self.names, opened)]
        self._array = (_File * self._count)(*((name, data, len(data)) for name, data in named))

    def refusal(self, answer):
        """The fault of an answer."""
        room = ctypes.create_string_buffer(_FAULT_TEXT_MAX)
        size = _library.pslink_fault_text(answer, room, len(room))
        about = bytes(answer.about)[:_NAME_LENGTH]
        parts = [None if part < 0 else part
                 for part in (answer.kind, answer.slot, answer.record, answer.reference)]
        return Refused(
            room.raw[: max(1, size) - 1].decode("ascii"),
            answer.fault,
            fault_name(answer.fault),
            answer.file,
            self.names[answer.file],
            *parts,
            _name(about) if any(about) else None,
        )

    def made(self, function, *what, size=_TEXT_GUESS):
        """What a function of the library puts in a room of so many bytes, or of as many as it then
        asks for, and its answer. (It asks once.)"""
        answer = _Answer(size=size)
        for _ in range(2):
            size = answer.size
            room = ctypes.create_string_buffer(max(1, size))
            status = function(*what, self._array, self._count, room, size, answer)
            if status != _TOO_SMALL:
                break
        if status == _DONE:
            return ctypes.string_at(room, answer.size), answer
        if status == _REFUSED:
            raise self.refusal(answer)
        if status == _NO_MEMORY:
            raise MemoryError("pslink: out of memory")
        if status == _MISUSE:
            raise ValueError("pslink: there is no such text, or it has no document")
        raise RuntimeError(f"pslink: the library answered {status}")

    def text(self, what):
        """A text of these files, and the answer."""
        made, answer = self.made(_library.pslink_text, what)
        return made.decode("utf-8"), answer

    def units(self, which):
        """Names of units."""
        names, _ = self.made(_library.pslink_text, which)
        return [_name(names[at : at + _NAME_LENGTH]) for at in range(0, len(names), _NAME_LENGTH)]


def _summary(answer):
    return Summary(answer.segments, answer.private_words, answer.blocks)


def link_with_summary(host: File, libs: Iterable[File] = ()) -> Tuple[bytes, Summary]:
    """The linked file as of `link`, and what it has."""
    files = _Files(host, libs)
    # (a linked file is longer than all that is linked only where segments share their code)
    linked, answer = files.made(_library.pslink_link, size=min(_LINKED_MAX, files.length))
    return linked, _summary(answer)


def link(host: File, libs: Iterable[File] = ()) -> bytes:
    """The linked file of a host and of the units that it uses, which the libraries have.

    Of the libraries that have a unit, the first is used. Raises Refused, MemoryError, and OSError
    for a path that cannot be read.
    """
    return link_with_summary(host, libs)[0]


def _finding(item):
    segment = item["segment"]
    name = _name(bytes.fromhex(segment["name_hex"])) if segment else None
    return Finding(item["weight"], item["path"], name, item["record"], item["text"])


def check(host: File, libs: Iterable[File] = ()) -> Report:
    """The report on a host and its libraries: whether they are linked, and what is wrong with them.
    Raises what `link` raises but Refused."""
    files = _Files(host, libs)
    lines, answer = files.text(_TEXTS["check"])
    document, _ = files.text(_TEXTS["findings"] | _JSON)
    findings = tuple(_finding(item) for item in _json.loads(document)["findings"])
    fault = files.refusal(answer) if answer.fault else None
    return Report(lines, fault, None if fault else _summary(answer), findings)


def text(what: Text, host: File, libs: Iterable[File] = (), json: bool = False) -> str:
    """What the program prints of these files by its command of this name, as lines, or as one JSON
    document.

    `references` is a map with what the link stores at each place; `units` is a list and what is
    wrong with each unit by itself; `findings` is what a check finds, a line for each. Of a `list`
    and of `units` all files are equal; of a `show` there is one. Raises what `link` raises, Refused
    for a map, its references and a show alone, and ValueError for what is no such text.
    """
    if what not in _TEXTS:
        raise ValueError(f"a text is one of {', '.join(_TEXTS)}, and not {what!r}")
    return _Files(host, libs).text(_TEXTS[what] | (_JSON if json else 0))[0]


def map(host: File, libs: Iterable[File] = ()) -> str:
    """The map of a link, as text: what it puts where. Raises what `link` raises."""
    return text("map", host, libs)


def show(file: File) -> str:
    """What a code file has, of any contents, as text. Raises Refused with fault 1 or 2 only; else
    what `link` raises."""
    return text("show", file)


def file_type(file: File) -> FileType:
    """What a file of any contents is for, and its byte order, as FileType('library', 'little').
    Raises what `link` raises but Refused; and ValueError over a library of release 0.4.0 or an
    earlier one, which has no such text."""
    line, _ = _Files(file).text(_PLAIN["type"])
    words = line.split()
    return FileType(*words) if len(words) == 2 else FileType(None, None)


# made by man/make_constants.py from crates/ps_c_texts/src/kinds.rt: the names of units
def units_wanted(host: File, libs: Iterable[File] = ()) -> List[str]:
    """The names of the units that a link takes from libraries, or would take if a library had them,
    each once, as 'UTIL'.

    First come those that the slots of the host want, by slot. Then come those that a record
    requests, of the host or of a unit that was found, and no slot of the host has: in the order of
    their requests, ten of these at most. They are told as far as a link reads: a segment that
    cannot be read requests none, and no unit is looked for after one that is missing. There is none
    where the host is linked already, or where its list says that it is something else than a code
    file. Raises what `show` raises.
    """
    return _Files(host, libs).units(_PLAIN["wanted"])


def units_had(file: File) -> List[str]:
    """The names of the units whose code the file has, by slot, as 'UTIL'.

    There is none where the file is linked already, or where its list says that it is something else
    than a code file. Raises what `show` raises.
    """
    return _Files(file).units(_PLAIN["had"])


# end
