#!/usr/bin/env python3
"""Runs a command on a terminal of its own, and prints the lines that stand there, without blanks:
what moves a cursor over one, as wine does, or hides it is left out. Ends with the command's status.
Usage: terminal.py COMMAND.."""
import os
import pty
import re
import sys
import termios

CONTROLS = re.compile(r"\x1b\[[?0-9;]*[A-Za-z]|\x1b[=>]|[ \r]")


def main():
    process, terminal = pty.fork()
    if process == 0:
        termios.tcsetwinsize(0, (25, 80))
        os.execvp(sys.argv[1], sys.argv[1:])
    told = b""
    while True:
        try:
            part = os.read(terminal, 65536)
        except OSError:  # (as Linux says that the other end is closed)
            break
        if not part:
            break
        told += part
    print(CONTROLS.sub("", told.decode(errors="replace")), end="")
    return os.waitstatus_to_exitcode(os.waitpid(process, 0)[1])


if __name__ == "__main__":
    sys.exit(main())
