#!/usr/bin/env python3
"""Has each call of the system fail in turn, in the commands of a program that is linked with
failing.c: where a file or a stream could not be opened, read, written or closed, the command ends
with 3 and says so; where only what is known of a file could not be had, it does as without. A call
that a signal breaks off is made again. Prints each difference, and counts. Usage: failing.py
PROGRAM SAMPLES"""
import errno
import os
import pathlib
import subprocess
import sys
import tempfile

COMMANDS = [
    "link -o out host library", "link host out library", "link -q -o out --map mapped host library",
    "map host library", "show library", "check host library", "list host library",
]
# The statuses that a command may end with where this call fails, by its kind and what it is of. A
# report of files, or a list, goes on beside a file that cannot be read.
FAILED = {"open": {3}, "create": {3}, "read": {3}, "write": {3}, "close created": {3}}
HARMLESS = ("stat", "fstat", "close opened")


class Folder:
    """A folder with the samples, and what a command leaves there."""

    def __init__(self, program, samples):
        self.program = program
        self.files = {name: (samples / f"{name}.code").read_bytes() for name in ("host", "library")}

    def run(self, words, **environment):
        """The status, both streams, the files that are left, and which call failed."""
        with tempfile.TemporaryDirectory() as room:
            folder = pathlib.Path(room, "in")
            folder.mkdir()
            for name, content in self.files.items():
                (folder / name).write_bytes(content)
            failed = pathlib.Path(room, "failed")
            given = {**os.environ, "FAILED": str(failed), **environment}
            done = subprocess.run([self.program, *words.split()], cwd=folder, env=given,
                                  capture_output=True)
            left = {path.name: path.read_bytes() for path in folder.iterdir()}
            call = failed.read_text().split() if failed.exists() else None
        return (done.returncode, done.stdout, done.stderr, left), call


def wrong(call, found, wanted):
    """What is wrong with what a command did whose call failed; None where nothing is."""
    kind = f"close {call[2]}" if call[0] == "close" else call[0]
    status, out, error, left = found
    if b"Sanitizer" in error or b"runtime error" in error:
        return error.decode(errors="replace")
    if kind in HARMLESS:
        return None if found == wanted else "it does otherwise"
    # (there is nowhere to say that standard error failed)
    if call[:2] == ["write", "2"]:
        return None if status == wanted[0] else "its status is another"
    if status not in FAILED[kind]:
        return f"its status is {status}"
    if not error.startswith(b"pslink: cannot ") or error.count(b"\n") != 1:
        return f"it says {error!r}"
    if any(left.get(name) != content
           for name, content in {"host": wanted[3]["host"],
                                 "library": wanted[3]["library"]}.items()):
        return "an input is changed"
    return None


def of_command(folder, words):
    """What differs in a command, each of whose calls fails in turn; gives how many there are."""
    wanted, _ = folder.run(words)
    if wanted[0] != 0:
        yield f"'{words}' ends with {wanted[0]}: {wanted[2]}"
    number = 0
    while True:
        number += 1
        found, call = folder.run(words, FAIL_AT=str(number))
        if call is None:
            return number - 1
        what = wrong(call, found, wanted)
        if what:
            yield f"'{words}', where {' '.join(call)} fails: {what}"
        if call[0] in ("open", "create", "read", "write"):
            found, call = folder.run(words, FAIL_AT=str(number), FAIL_WITH=str(errno.EINTR))
            if found != wanted:
                yield f"'{words}', where {' '.join(call)} is broken off: it does otherwise"


def main():
    program, samples = map(pathlib.Path, sys.argv[1:])
    folder, differences, calls = Folder(program.resolve(), samples), 0, 0
    for words in COMMANDS:
        tried = of_command(folder, words)
        while True:
            try:
                print(f"failing: {next(tried)}")
                differences += 1
            except StopIteration as ended:
                calls += ended.value
                break
    print(f"failing: {calls} calls failed in turn, {differences} differences")
    return 1 if differences or calls < 60 else 0


if __name__ == "__main__":
    sys.exit(main())
