#!/usr/bin/env python3
"""The program pslink over the Python package: as program.c beside."""
import pathlib
import sys

sys.path.insert(0, str(pathlib.Path(__file__).resolve().parents[2] / "bindings/python"))
import pslink  # noqa: E402

PARTS = ["kind", "file", "slot", "record", "reference"]


def refusal(fault):
    """The line of a refusal, whose text and parts are one."""
    parts = [f"refused {fault.number} {fault.name}",
             *(f"{name} {getattr(fault, name)}"
               for name in PARTS
               if getattr(fault, name) is not None)]
    return (f"pslink: {fault}\n" if " ".join(parts) == str(fault)
            else f"pslink: {parts} is not {fault}\n")


def of_link(host, libs):
    """The fault of a link, as text, or its summary."""
    try:
        return pslink.link_with_summary(host, libs)[1]
    except pslink.Refused as fault:
        return str(fault)


def checked(host, libs, strict):
    """What the program's check answers, whose verdict is that of a link."""
    report = pslink.check(host, libs)
    verdict = report.summary if report.fault is None else str(report.fault)
    wrong = ("" if verdict == of_link(host, libs)
             else f"pslink: {verdict} is not the verdict of a link\n")
    said = sum(line.startswith("warning: ") for line in report.text.splitlines())
    wrong += (""
              if len(report.warnings) == said
              else f"pslink: {len(report.warnings)} warnings are told, and {said} said\n")
    return 0 if report.ok and not (strict and report.warnings) else 1, report.text, wrong, None


def answer(command, host, libs, names=None, flags=()):
    """What the program answers: its status, its output and its error output, and of a link the
    file. (Of a report, a list and its units as texts the status is 0.)"""
    strict, texts = "--strict" in flags, [flag for flag in flags if flag != "--strict"]
    if names is not None:
        host, *libs = zip(names, [host, *libs])
    try:
        if texts or command == "list":
            what = {"--references": "references", "--unit": "units"}.get(
                texts[0] if texts else "", command)
            return 0, pslink.text(what, host, libs, "--json" in texts), "", None
        if command == "check":
            return checked(host, libs, strict)
        if command == "map":
            return 0, pslink.map(host, libs), "", None
        if command == "show":
            return 0, pslink.show(host), "", None
        linked, summary = pslink.link_with_summary(host, libs)
    except pslink.Refused as fault:
        return 1, "", refusal(fault), None
    numbers = (f"segments {summary.segments} private words {summary.private_words} blocks "
               f"{summary.blocks}\n")
    return 0, numbers, "", linked


def answered(words):
    """What the command of these words answers, as above, and the file to write. (Paths are read by
    the package, and are the names in a report.)"""
    command, *paths = words
    flags = [path for path in paths if path.startswith("--")]
    paths = [path for path in paths if path not in flags]
    out = paths.pop(1) if command == "link" else None
    status, printed, error, linked = answer(command, paths[0], paths[1:], None, flags)
    if linked is not None:
        pathlib.Path(out).write_bytes(linked)
    return status, printed, error


def serve(*streams):
    """Answers the commands that come on standard input, as .ci/commands.py says."""
    for line in sys.stdin:
        status, *texts = answered(line.rstrip("\n").split("\t"))
        for stream, text in zip(streams, texts):
            pathlib.Path(stream).write_text(text)
        print(status, flush=True)


def main():
    if sys.argv[1] == "serve":
        return serve(*sys.argv[2:])
    status, printed, error = answered(sys.argv[1:])
    sys.stdout.write(printed)
    sys.stderr.write(error)
    return status


if __name__ == "__main__":
    sys.exit(main())
