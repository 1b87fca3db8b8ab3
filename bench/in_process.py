#!/usr/bin/env python3
"""Times links in one process, through the library in C, Python and Rust, beside runs of the
program: the sample pair, the same host without a library, a file of no bytes, and sixteen segments
all of whose bytes are operands; and checks of the first two. Where valgrind is there, also the
instructions that a call in C takes; where there is no cargo, Rust is left out. The archive of
another library, if one is given, is measured beside, in C, below the same library/pslink.c: it
needs pslink_link_nonnull alone, whose status is all that is read."""
import argparse
import os
import re
import shutil
import subprocess
import sys
import tempfile
import time
from pathlib import Path

from large_files import files_full_of_operands

ROOT = Path(__file__).resolve().parent.parent
RUNS = 20
# library/pslink.c over another archive, without the functions that a link does not call
OVER_OTHER = ["-DNO_CHECK", "-ffunction-sections", "-Wl,--gc-sections", f"-I{ROOT}/library",
              ROOT / "library/pslink.c"]
MANIFEST = f"""[package]
name = "in_process"
version = "0.0.0"
edition = "2021"
[[bin]]
name = "in_process"
path = "{ROOT}/bench/in_process.rs"
[dependencies]
pslink = {{ path = "{ROOT}/bindings/rust" }}
"""


def cases():
    """What is linked or checked, how often, and the files by their names, the host first."""
    host, library = ((ROOT / f"samples/{name}.code").read_bytes() for name in ("host", "library"))
    yield "the sample pair", "link", 20_000, {"host": host, "library": library}
    yield "a refused link", "link", 20_000, {"host": host}
    yield "a file of no bytes", "link", 20_000, {"host": b""}
    yield "sixteen full segments", "link", 20, files_full_of_operands()
    yield "the sample pair", "check", 20_000, {"host": host, "library": library}
    yield "files that are refused", "check", 20_000, {"host": host}


def built_in_c(folder, archive, *flags):
    """The program in C over an archive."""
    timer = Path(tempfile.mkdtemp(dir=folder)) / "in_c"
    compiler = [os.environ.get("CC", "cc"), "-O2", f"-I{ROOT}/include", f"-I{ROOT}/library/tests"]
    subprocess.run(
        [*compiler, *flags, ROOT / "bench/in_process.c", archive, "-lpthread", "-ldl", "-lm", "-o",
         timer],
        check=True)
    return timer


def built_in_rust(folder, archive):
    """The program in Rust over an archive; None where there is no cargo."""
    if not shutil.which("cargo"):
        return None
    (folder / "rust").mkdir()
    (folder / "rust/Cargo.toml").write_text(MANIFEST)
    env = {**os.environ, "PSLINK_LIB_DIR": str(archive.parent),
           "CARGO_TARGET_DIR": str(folder / "target")}
    subprocess.run(
        ["cargo", "build", "--release", "--quiet", "--offline"], cwd=folder / "rust", env=env,
        check=True)
    return folder / "target/release/in_process"


def microseconds(folder, timer, command, turns, names):
    ran = subprocess.run(
        [timer, str(turns), command, *names], cwd=folder, capture_output=True, text=True,
        check=True)
    return float(ran.stdout)


def instructions(folder, timer, command, turns, names):
    """The instructions of a call: what more turns take more."""
    few, many = 1, 1 + min(turns, 100)
    counts = []
    for number in (few, many):
        words = ["valgrind", "--tool=callgrind", "--callgrind-out-file=/dev/null", timer,
                 str(number), command, *names]
        ran = subprocess.run(words, cwd=folder, capture_output=True, text=True, check=True)
        counts.append(int(re.search(r"Collected : (\d+)", ran.stderr)[1]))
    return (counts[1] - counts[0]) / (many - few)


def of_python(command, turns, files):
    """The microseconds of a call in Python, in this process."""
    import pslink

    call = getattr(pslink, command)
    host, *libraries = files.values()
    start = time.perf_counter()
    for _ in range(turns):
        try:
            call(host, libraries)
        except pslink.Refused:
            pass
    return 1e6 * (time.perf_counter() - start) / turns


def of_program(folder, pslink, command, runs, names):
    host, *libraries = names
    words = [pslink, command, host, *(["out"] if command == "link" else []), *libraries]
    start = time.perf_counter()
    for _ in range(runs):
        subprocess.run(words, cwd=folder, capture_output=True, check=False)
    return 1e6 * (time.perf_counter() - start) / runs


def report(folder, pslink, in_c, in_rust, other, once):
    for what, command, turns, files in cases():
        turns = 1 if once else turns
        for name, data in files.items():
            (folder / name).write_bytes(data)
        call = [command, turns, list(files)]
        said = [f"C {microseconds(folder, in_c, *call):.2f}",
                f"Python {of_python(command, min(turns, 5000), files):.2f}"]
        if in_rust:
            said.append(f"Rust {microseconds(folder, in_rust, *call):.2f}")
        said.append(
            f"the program {of_program(folder, pslink, command, min(turns, RUNS), list(files)):.0f}")
        if other and command == "link":
            said.append(f"the other library {microseconds(folder, other, *call):.2f}")
        print(f"{what}, microseconds a {command}: {', '.join(said)}", flush=True)
        if shutil.which("valgrind") and not once:
            counts = [f"{instructions(folder, in_c, *call):.0f}"]
            if other and command == "link":
                counts.append(f"of the other library {instructions(folder, other, *call):.0f}")
            print(f"{what}, instructions a {command} in C: {', '.join(counts)}", flush=True)


def main():
    parser = argparse.ArgumentParser(prog="in_process.py", description=__doc__)
    parser.add_argument(
        "--once", action="store_true",
        help="make each call once, and count no instructions: whether all of this still runs")
    parser.add_argument("pslink", metavar="PSLINK", type=Path, help="the program")
    parser.add_argument(
        "built", metavar="FOLDER", type=Path, help="the folder with libpslink.a and libpslink.so.3")
    parser.add_argument("other", metavar="ARCHIVE", type=Path, nargs="?", help="the other archive")
    given = parser.parse_args()
    pslink, built = given.pslink.resolve(), given.built.resolve()
    os.environ["PSLINK_LIBRARY"] = str(built / "libpslink.so.3")
    sys.path.insert(0, str(ROOT / "bindings/python"))
    sys.dont_write_bytecode = True
    with tempfile.TemporaryDirectory() as name:
        folder = Path(name)
        other = built_in_c(folder, given.other.resolve(), *OVER_OTHER) if given.other else None
        archive = built / "libpslink.a"
        report(
            folder, pslink, built_in_c(folder, archive), built_in_rust(folder, archive), other,
            given.once)


if __name__ == "__main__":
    main()
