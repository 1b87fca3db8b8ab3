"""Runs a program of the commands link, map, show and check on many sets of files: for the scripts
beside, and for library/tests."""
import contextlib
import os
import subprocess
import sys
import tempfile
import typing


def room():
    """A new folder, in memory where there is a place: files that are written again and again wait
    for no disk there."""
    return tempfile.TemporaryDirectory(dir="/dev/shm" if os.access("/dev/shm", os.W_OK) else None)


class Answer(typing.NamedTuple):
    """The status, what is printed on the two streams, and after a link what is at OUT, or None if
    that is as it was before."""

    status: int
    printed: str
    error: str
    out: typing.Optional[bytes]


class Commands:
    """Runs a program in a folder, with the files HOST, LIB1, LIB2 and so on. A command over the
    same files is run once. A program that serves is started once, as 'PROGRAM serve STDOUT STDERR':
    it reads commands, one a line and with tabs between the words, writes to these two files what
    each prints, and prints its status."""

    BEFORE = b"as before"

    def __init__(self, program, serves=False):
        self.program, self.room, self.there, self.kept = program, room(), {}, {}
        self.folder = self.room.name
        how = {"cwd": self.folder, "text": True, "bufsize": 1, "stdin": subprocess.PIPE,
               "stdout": subprocess.PIPE}
        self.server = subprocess.Popen(
            [program, "serve", "stdout", "stderr"], **how) if serves else None

    def __enter__(self):
        return self

    def __exit__(self, *_):
        if self.server:
            self.server.communicate()
        self.room.cleanup()

    def __call__(self, command, host, libraries=(), *flags):
        key = command, host, tuple(libraries), flags
        if key not in self.kept:
            self.kept[key] = self.answer(*key)
        return self.kept[key]

    def answer(self, command, host, libraries, flags):
        names = ["HOST", *(f"LIB{k}" for k in range(1, 1 + len(libraries)))]
        for name, content in zip(names, [host, *libraries]):
            self.put(name, content)
        if command != "link":
            return Answer(*self.run(command, *flags, *names), None)
        self.put("OUT", self.BEFORE)
        ended = self.run(command, *flags, names[0], "OUT", *names[1:])
        self.there["OUT"] = self.read("OUT")
        return Answer(*ended, None if self.there["OUT"] == self.BEFORE else self.there["OUT"])

    def put(self, name, content):
        """Writes a file, unless it is there. It is a new one: to cut a file off may wait for the
        disk."""
        if self.there.get(name) != content:
            with contextlib.suppress(FileNotFoundError):
                os.unlink(f"{self.folder}/{name}")
            with open(f"{self.folder}/{name}", "wb") as file:
                file.write(content)
            self.there[name] = content

    def read(self, name):
        with open(f"{self.folder}/{name}", "rb") as file:
            return file.read()

    def run(self, *words):
        """The status of a command, and what it prints."""
        status = self.served(words) if self.server else self.started(words)
        return status, self.read("stdout").decode(), self.read("stderr").decode()

    def started(self, words):
        with open(f"{self.folder}/stdout", "wb") as out, open(
                f"{self.folder}/stderr", "wb") as error:
            return subprocess.call(
                [self.program, *words], cwd=self.folder, stdout=out, stderr=error)

    def served(self, words):
        print(*words, sep="\t", file=self.server.stdin)
        status = self.server.stdout.readline()
        return int(status) if status else sys.exit(
            f"{self.program} has ended at: {' '.join(words)}")
