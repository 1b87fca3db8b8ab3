#!/usr/bin/env python3
"""Writes sets of files, and what the shared library answers to each, for compare.mjs: a JSON object
a line, with `files` and `answers`. A file has its bytes in base64, and how many zeros follow these.
An answer has its fields in the order of pslink_answer, where null is a part that there is not, the
line of the fault, and the SHA-256 of what was made. Usage: native.py LIBRARY VECTORS With --faults
in place of VECTORS it writes what the library says of the faults 0 to 99, as pslink.mjs gives
it."""
import base64
import ctypes
import hashlib
import json
import sys

import cases

sys.path.insert(0, str(cases.ROOT / "man"))
import make_constants

TEXTS = {int(kind.number): kind.word for kind in make_constants.TEXTS + make_constants.PLAIN}
JSON_FORM, LINKED_MAX, LINE_MAX = 256, 524800, 160
INDEXES, NUMBERS = ("file", "record", "reference"), ("slot", "kind")
COUNTS = ("segments", "private_words", "blocks", "warnings")


class File(ctypes.Structure):
    """pslink_file"""
    _fields_ = [("name", ctypes.c_char_p), ("bytes", ctypes.c_char_p), ("length", ctypes.c_size_t)]


class Answer(ctypes.Structure):
    """pslink_answer"""
    _fields_ = [("status", ctypes.c_uint32), ("fault", ctypes.c_uint32),
                *((part, ctypes.c_ssize_t) for part in INDEXES),
                *((part, ctypes.c_int32) for part in NUMBERS), ("name", ctypes.c_uint8 * 9),
                *((part, ctypes.c_uint32) for part in COUNTS), ("size", ctypes.c_size_t),
                ("reserved", ctypes.c_uint32 * 8)]


class Library:
    def __init__(self, path):
        self.calls = ctypes.CDLL(path)
        self.calls.pslink_fault_text.restype = ctypes.c_size_t
        self.calls.pslink_fault.restype = ctypes.c_char_p
        self.room = ctypes.create_string_buffer(LINKED_MAX)

    def told(self, answer):
        """What is in the answer, the line of its fault, and what was made."""
        line = ctypes.create_string_buffer(LINE_MAX)
        has_line = self.calls.pslink_fault_text(ctypes.byref(answer), line, LINE_MAX) != 0
        parts = [value if value >= 0 else None
                 for value in (getattr(answer, part) for part in (*INDEXES, *NUMBERS))]
        name = bytes(answer.name)[:8].decode("latin-1") if any(answer.name) else None
        made = ctypes.string_at(self.room, answer.size) if answer.status == 0 else b""
        fields = [answer.status, answer.fault, *parts, name,
                  *(getattr(answer, part) for part in COUNTS), answer.size]
        return [*fields, line.value.decode() if has_line else None,
                hashlib.sha256(made).hexdigest()]

    def text(self, what, files):
        answer = Answer()
        call = (what, files, len(files))
        self.calls.pslink_text(*call, self.room, len(self.room), ctypes.byref(answer))
        if answer.status == 5:
            self.room = ctypes.create_string_buffer(answer.size)
            self.calls.pslink_text(*call, self.room, len(self.room), ctypes.byref(answer))
        return self.told(answer)

    def answers(self, given):
        """The answers to a link and to each text in both forms, by the words that compare.mjs calls
        them by."""
        named = [(name if name is None else name.encode(), content + bytes(zeros))
                 for name, content, zeros in given]
        files = (File * len(named))(*[File(name, content, len(content)) for name, content in named])
        answer = Answer()
        self.calls.pslink_link(files, len(files), self.room, len(self.room), ctypes.byref(answer))
        found = {"link": self.told(answer)}
        for number, text in TEXTS.items():
            found[text] = self.text(number, files)
            found[f"{text} json"] = self.text(number | JSON_FORM, files)
        return found

    def fault(self, number):
        """What there is to say of a fault; None where there is no such fault."""
        found = {part: self.calls.pslink_fault(number, at)
                 for at, part in enumerate(("name", "meaning", "remedy"))}
        return {"number": number,
                **{part: text.decode() for part, text in found.items()}} if found["name"] else None


def main():
    library = Library(sys.argv[1])
    if sys.argv[2] == "--faults":
        print(json.dumps([library.fault(number) for number in range(100)]))
        return
    for name, given in cases.every(sys.argv[2]):
        files = [{"name": name, "bytes": base64.b64encode(content).decode(), "zeros": zeros}
                 for name, content, zeros in given]
        print(json.dumps({"name": name, "files": files, "answers": library.answers(given)}))


main()
