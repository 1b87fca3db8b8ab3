#!/usr/bin/env python3
"""Plants bugs in copies of the hosts of the command line and of the two crates over them, one in
each, and sees that host_test.c or host_test.mjs, the calls that fail in turn, or the commands of
.ci/program tell it. Prints what told each, and each that nothing tells. It takes seconds for each
of a host, and minutes for each of a crate, which everywhere/build proves anew over the crates that
the gate proved. Of the crates' functions only those have none that no command calls (`flush`, `var`
and `var_at`), and those whose type allows one body (`new` and `alloc`). Usage: host_bugs.py [PART],
of the bugs whose name has PART. host_bugs.py --texts only sees that each can be planted"""
import os
import pathlib
import shutil
import subprocess
import sys
import tempfile

TESTS = pathlib.Path(__file__).resolve().parent
TOP = TESTS.parent.parent
C, WEB, OUT = TESTS.parent / "c", TOP / "web", TESTS.parent / "out"
CRATES = TESTS.parent / "crates"
SECONDS = 60
WRAPPED = [f"-Wl,--wrap={name}" for name in "read write close open64 stat64 fstat64".split()]
MINGW = ["x86_64-w64-mingw32-gcc", "-std=c11", "-D_WIN32_WINNT=0x0601", "-O2"]
SANITIZED = ["gcc", "-std=gnu11", "-O1",
             "-fsanitize=address,undefined", "-fno-sanitize-recover=undefined"]

# What is wrong, the file, the text there, and the text in its place.
UNIX, COMMON, WINDOWS = "host_unix.c", "host.c", "host_windows.c"
NODE, NODE_FILES = "host.mjs", "files.mjs"
CRATE, COMMAND = "host_files/lib.rt.txt", "pslink_command/lib.rt.txt"
# (wine takes arguments by the locale)
WINE = {"WINEDEBUG": "-all", "LC_ALL": "C.UTF-8"}
HOMES = {UNIX: C, COMMON: C, WINDOWS: C, NODE: WEB, NODE_FILES: WEB, CRATE: CRATES,
         COMMAND: CRATES}
BUGS = [
    ("a short read taken as whole", UNIX,
     "return count < 0 ? why(errno) : (int64_t)count;\n}\n\nint64_t host_write",
     "return count <= 0 ? count : (int64_t)size;\n}\n\nint64_t host_write"),
    ("a write that is cut off taken as whole", UNIX,
     "count = write((int)file, bytes, size < MOST_AT_ONCE ? size : MOST_AT_ONCE);",
     "count = write((int)file, bytes, size < 40 ? size : 40) < 0 ? -1 : (ssize_t)size;"),
    ("a file that is there is not emptied", UNIX, "O_WRONLY | O_CREAT | O_TRUNC",
     "O_WRONLY | O_CREAT"),
    ("only a new file is created", UNIX, "O_WRONLY | O_CREAT | O_TRUNC",
     "O_WRONLY | O_CREAT | O_EXCL"),
    ("the status of a close is lost", UNIX,
     "return close((int)file) == 0 || errno == EINTR ? 0 : why(errno);",
     "return close((int)file), 0;"),
    ("a read that is broken off fails", UNIX,
     "    do\n        count = read((int)file, room, size < MOST_AT_ONCE ? size : "
     "MOST_AT_ONCE);\n    while (count < 0 && errno == EINTR);",
     "    count = read((int)file, room, size < MOST_AT_ONCE ? size : MOST_AT_ONCE);"),
    ("a write that is broken off fails", UNIX,
     "    do\n        count = write((int)file, bytes, size < MOST_AT_ONCE ? size : "
     "MOST_AT_ONCE);\n    while (count < 0 && errno == EINTR);",
     "    count = write((int)file, bytes, size < MOST_AT_ONCE ? size : MOST_AT_ONCE);"),
    ("an open that is broken off fails", UNIX, "    while (file < 0 && errno == EINTR);",
     "    while (0);"),
    ("no two paths lead to one file", UNIX, "S_ISREG(one.st_mode) && are_one(&one, &two)",
     "S_ISREG(one.st_mode) && 0"),
    ("all files of a device are one", UNIX, "one->st_ino == two->st_ino && one->st_dev",
     "one->st_dev"),
    ("pipes are one file", UNIX, "S_ISREG(one.st_mode) && are_one", "are_one"),
    ("no path leads to standard output", UNIX,
     "fstat(STDOUT_FILENO, &two) == 0 && are_one(&one, &two)", "0"),
    ("standard error is taken for standard output", UNIX, "fstat(STDOUT_FILENO, &two)",
     "fstat(STDERR_FILENO, &two)"),
    ("a pipe that nobody reads ends the process", UNIX, "    signal(SIGPIPE, SIG_IGN);\n",
     "    signal(SIGPIPE, SIG_DFL);\n"),
    ("a read that failed is the end", UNIX,
     "return count < 0 ? why(errno) : (int64_t)count;\n}\n\nint64_t host_write",
     "return count < 0 ? 0 : (int64_t)count;\n}\n\nint64_t host_write"),
    ("an argument too far", COMMON, "strlen(texts[number]);",
     "strlen(texts[number + 1 < (size_t)arguments ? number + 1 : number]);"),
    ("the last argument is left out", COMMON, "if (number >= (size_t)arguments)",
     "if (number + 1 >= (size_t)arguments && number > 1)"),
    ("an argument is cut to the room", COMMON, "        return -2;\n", "        length = size;\n"),
    ("an argument ends with its 0", COMMON, "length = strlen(texts[number]);",
     "length = strlen(texts[number]) + 1;"),
    ("a missing file is one that may not be read", COMMON, "        return HOST_MISSING;",
     "        return HOST_FORBIDDEN;"),
    ("a folder is missing", COMMON, "        return HOST_FOLDER;", "        return HOST_MISSING;"),
    ("a path with a 0 is cut there", COMMON,
     "    if (memchr(path, 0, length) != NULL)\n        return HOST_NO_PATH;\n", ""),
    ("a path has no end", COMMON, "    text[length] = '\\0';\n",
     "    text[length] = 'x', text[length + 1] = '\\0';\n"),
    ("text is written with CR LF", WINDOWS, "        _setmode(k, _O_BINARY);",
     "        _setmode(k, _O_TEXT);"),
    ("files are read as text", WINDOWS, "flags | _O_BINARY | _O_NOINHERIT",
     "flags | _O_TEXT | _O_NOINHERIT"),
    ("arguments are of the code page", WINDOWS, "WideCharToMultiByte(CP_UTF8, 0, wide, -1, text",
     "WideCharToMultiByte(CP_ACP, 0, wide, -1, text"),
    ("a folder may not be read", WINDOWS, "        return HOST_FOLDER;\n    file",
     "        return HOST_FORBIDDEN;\n    file"),
    ("/dev/stdin is no path", WINDOWS, 'INPUT_PATH[] = "/dev/stdin"',
     'INPUT_PATH[] = "/dev/input"'),
    ("no two names are one file", WINDOWS,
     "identify_path(other, other_length, &two) && are_one(&one, &two)", "0 && are_one(&one, &two)"),
    ("a folder is created", UNIX,
     "    return file < 0 ? why(errno) : file;\n}\n\nint64_t host_open",
     "    return file < 0 && errno == EISDIR ? 1 : file < 0 ? why(errno) : file;\n}\n\nint64_t "
     "host_open"),
    ("no length is known", UNIX, "S_ISREG(state.st_mode) && state.st_size > 0 ?", "0 ?"),
    ("a file that another has is missing", WINDOWS,
     "return file < 0 ? why(errno) : file;\n}\n\nstatic int64_t duplicate",
     "return file < 0 ? HOST_MISSING : file;\n}\n\nstatic int64_t duplicate"),
    ("a long path lacks its drive", WINDOWS, "    wcscat(wide, whole);",
     "    wcscat(wide, whole + 2);"),
    ("a console gets bytes of UTF-8", WINDOWS, "(file == 1 || file == 2) && GetConsoleMode",
     "0 && GetConsoleMode"),
    ("half a character goes to a console", WINDOWS,
     "return needed > back ? size - back : size;", "return size + 0 * needed;"),
    ("both streams have one half of a character", WINDOWS, "&begun[file - 1]", "&begun[0]"),
    ("node: a short read taken as whole", NODE,
     "attempt(() => readSync(Number(file), this.#bytes(room, size)))",
     "attempt(() => readSync(Number(file), this.#bytes(room, size)) && size)"),
    ("node: a file that is there is not emptied", NODE, 'opened(this.#text(path, length), "w")',
     'opened(this.#text(path, length), "a")'),
    ("node: an argument that is no UTF-8 is U+FFFD", NODE, "Buffer.of(0xff)",
     'Buffer.from("\\uFFFD")'),
    ("node: a stream that takes none at the moment fails", NODE_FILES,
     'if (error.code !== "EAGAIN") throw error;', "throw error;"),
    ("node: no path leads to standard output", NODE, "statOf(this.#streams[OUTPUT])) ? 1 : 0",
     "null) ? 1 : 0"),
    ("node: no two paths lead to one file", NODE, "one?.isFile() && areOne",
     "!one?.isFile() && areOne"),
    ("node: memory that was given out is given out again", NODE,
     "    this.#free = end;\n    return place;", "    this.#free = place;\n    return place;"),
    ("node: a folder is missing", NODE, "EISDIR: FOLDER", "EISDIR: MISSING"),
    ("node: a path with a 0 is another failure", NODE, "ERR_INVALID_ARG_VALUE: NO_PATH",
     "ERR_INVALID_ARG_VALUE: OTHER"),
    ("node: standard error goes to standard output", NODE, "[ERROR]: error", "[ERROR]: output"),
    ("node: the status of a close is lost", NODE,
     "host_close: (file) => attempt(() => (closeSync(Number(file)), 0)),",
     "host_close: (file) => (attempt(() => (closeSync(Number(file)), 0)), 0n),"),
    ("node: a write that is cut off taken as whole", NODE_FILES, "return writeSync(file, bytes);",
     "return (writeSync(file, bytes.subarray(0, 3)), bytes.length);"),
    ("crate: the status of a close is lost", CRATE, "            answer => Err(error_of(answer)),",
     "            _ => Ok(()),"),
    ("crate: a file that was read stays open", CRATE,
     "    fn drop(self) {\n        let HostFile { number } = self;\n        let _ = "
     "host::host_close(number);",
     "    fn drop(self) {\n        let HostFile { number } = self;\n        let _ = number;"),
    ("crate: standard output is standard error", CRATE, "HostOutput { number: OUTPUT }",
     "HostOutput { number: ERROR }"),
    ("crate: standard error is standard output", CRATE, "HostOutput { number: ERROR }",
     "HostOutput { number: OUTPUT }"),
    ("crate: a missing file may not be read", CRATE, "MISSING => io::ErrorKind::NotFound",
     "MISSING => io::ErrorKind::PermissionDenied"),
    ("crate: a folder is missing", CRATE, "FOLDER => io::ErrorKind::IsADirectory",
     "FOLDER => io::ErrorKind::NotFound"),
    ("crate: a file that may not be read is missing", CRATE,
     "FORBIDDEN => io::ErrorKind::PermissionDenied", "FORBIDDEN => io::ErrorKind::NotFound"),
    ("crate: a path with a 0 is missing", CRATE, "NO_PATH => io::ErrorKind::InvalidInput",
     "NO_PATH => io::ErrorKind::NotFound"),
    ("crate: a count past the room is taken", CRATE, "Ok(n) if n <= most => Ok(n),",
     "Ok(n) => Ok(n),"),
    ("crate: a full room is a failure", CRATE, "Ok(n) if n <= most => Ok(n),",
     "Ok(n) if n < most => Ok(n),"),
    ("crate: a file of the number 0 is none", CRATE, "    if answer < 0 {", "    if answer <= 0 {"),
    ("crate: nothing is read", CRATE, "count_of(host::host_read(self.number, buf), buf.len())",
     "count_of(0, buf.len())"),
    ("crate: a short write to a file is whole", CRATE,
     "impl Write for HostFile {\n    fn write(&mut self, buf: &[u8]) -> io::Result<usize> {\n   "
     "     count_of(host::host_write(self.number, buf), buf.len())",
     "impl Write for HostFile {\n    fn write(&mut self, buf: &[u8]) -> io::Result<usize> {\n   "
     "     let _ = host::host_write(self.number, buf);\n        Ok(buf.len())"),
    ("crate: a short write to a stream is whole", CRATE,
     "impl Write for HostOutput {\n    fn write(&mut self, buf: &[u8]) -> io::Result<usize> {\n "
     "       count_of(host::host_write(self.number, buf), buf.len())",
     "impl Write for HostOutput {\n    fn write(&mut self, buf: &[u8]) -> io::Result<usize> {\n "
     "       let _ = host::host_write(self.number, buf);\n        Ok(buf.len())"),
    ("crate: a file that is read is created", CRATE, "host::host_open(path.as_bytes())",
     "host::host_create(path.as_bytes())"),
    ("crate: a file that is written is opened", CRATE, "host::host_create(path.as_bytes())",
     "host::host_open(path.as_bytes())"),
    ("crate: no two paths lead to one file", CRATE,
     "host::host_are_one(path.as_bytes(), other.as_bytes()) == 1",
     "host::host_are_one(path.as_bytes(), other.as_bytes()) == 2"),
    ("crate: no path leads to standard output", CRATE,
     "host::host_leads_to_output(path.as_bytes()) == 1",
     "host::host_leads_to_output(path.as_bytes()) == 2"),
    ("crate: no length is known", CRATE,
     "usize::try_from(host::host_length(file.number)).unwrap_or(0)",
     "if file.number < 0 { 1 } else { 0 }"),
    ("crate: an argument too early", CRATE, "host::host_arg(i, buf)",
     "host::host_arg(if i > 0 { i - 1 } else { i }, buf)"),
    ("crate: an argument that is too long is none", CRATE,
     "Err(_) => Err(FillError::TooLong),", "Err(_) => Err(FillError::NotPresent),"),
    ("crate: another failure is a missing file", CRATE, "_ => io::ErrorKind::Other",
     "_ => io::ErrorKind::NotFound"),
    ("crate: the command loses the status of a close", CRATE, "        file.close()\n",
     "        let _ = file.close();\n        Ok(())\n"),
    ("command: its status is lost", COMMAND,
     "    u32::from(run_given(&mut files, &mut out, &mut err))",
     "    let _ = run_given(&mut files, &mut out, &mut err);\n    0"),
    ("command: its streams are exchanged", COMMAND, "run_given(&mut files, &mut out, &mut err)",
     "run_given(&mut files, &mut err, &mut out)"),
    ("crate: the last argument is too long", CRATE, "Err(_) if answer == NO_ARGUMENT =>",
     "Err(_) if answer != NO_ARGUMENT =>"),
]


def run(*words, folder=TOP, **environment):
    done = subprocess.run([*map(str, words)], cwd=folder,
                          env={**os.environ, **environment}, stdout=subprocess.PIPE,
                          stderr=subprocess.STDOUT)
    return done.returncode, done.stdout.decode(errors="replace")


def built(*words):
    status, printed = run(*words)
    assert status == 0, printed


def first(printed, start):
    """The first line that begins so, or that there is."""
    lines = printed.splitlines()
    return next((line for line in lines if line.startswith(start)), lines[0] if lines else "")[:120]


def told_by_program(system, command, room):
    """The first difference of .ci/program over this command, which then need not go on; None where
    there is none."""
    environment = {**os.environ, **WINE, "RUNNER": system, "TMPDIR": str(room)}
    with subprocess.Popen([TOP / ".ci/program", command], cwd=TOP, env=environment,
                          stdout=subprocess.PIPE, stderr=subprocess.DEVNULL) as program:
        for line in program.stdout:
            said = line.decode(errors="replace").strip()
            ends = (" checks passed", f" were not tried over {system}")
            if not said.endswith(ends) and not said.startswith("left out: "):
                program.terminate()
                return f".ci/program: {said[:120]}"
    return None if program.returncode == 0 else ".ci/program: its status"


def told_by_host_test(folder, *runner):
    """What is wrong with a host by the program host_test.exe of this folder."""
    (folder / "empty").mkdir()
    program = [*runner, folder / "host_test.exe"]
    words = [*program, "one", "two ä"]
    try:
        done = subprocess.run(words, cwd=folder / "empty", env={**os.environ, **WINE},
                              stdin=subprocess.DEVNULL, capture_output=True, timeout=SECONDS)
    except subprocess.TimeoutExpired:
        return "host_test.c: it does not end"
    if done.returncode:
        said = first(done.stderr.decode(errors="replace"), "host_test: ")
        return f"host_test.c: {said} (status {done.returncode})"
    if done.stdout != b"to the output\n":
        return f"host_test.c: its output is {done.stdout}"
    _, shown = run(TESTS / "terminal.py", *program, "terminal", **WINE)
    if shown != "café5€\ncafé5€\né\né\n":
        return f"host_test.c: on a terminal stands {shown!r}"
    return None


def told_by_command(folder, archive):
    """What tells a bug of the command over the host of a Unix, with sanitizers and without."""
    files = [folder / name for name in ("main.c", COMMON, UNIX, "heap.c")]
    built(*SANITIZED, *files, TESTS / "failing.c", archive,
          "-Wl,--gc-sections", *WRAPPED, "-o", folder / "sanitized")
    built("gcc", "-std=c11", "-O2", *files, archive, "-Wl,--gc-sections", "-o", folder / "pslink")
    status, printed = run(TESTS / "failing.py", folder / "sanitized", TOP / "samples")
    if status:
        return f"failing.py: {first(printed, 'failing: ')}"
    return (told_by_program("sanitized", folder / "sanitized", folder)
            or told_by_program("host", folder / "pslink", folder))


def in_c(folder):
    """What tells a bug of the host of a Unix, which is in this folder."""
    built(*SANITIZED, f"-I{folder}", TESTS / "host_test.c", folder /
          COMMON, folder / UNIX, "-o", folder / "host_test.exe")
    return told_by_host_test(folder) or told_by_command(folder, OUT / "x86_64/libpslink_command.a")


def on_windows(folder):
    """The same of the host of Windows, by wine."""
    program, objects = folder / "pslink.exe", [OUT / "windows/module.o", OUT / "windows/heap.o"]
    built(*MINGW, f"-I{folder}", TESTS / "host_test.c", folder / COMMON,
          folder / WINDOWS, "-lshell32", "-o", folder / "host_test.exe")
    built(*MINGW, *[folder / name for name in ("main.c", COMMON, WINDOWS)],
          *objects, "-lshell32", "-Wl,--gc-sections", "-o", program)
    script = folder / "run"
    script.write_text(f'#!/bin/sh\nexec wine {program} "$@"\n')
    script.chmod(0o755)
    return told_by_host_test(folder, "wine") or told_by_program("windows", script, folder)


def over_node(folder):
    (folder / "empty").mkdir()
    status, printed = run("node", TESTS / "host_test.mjs", folder / NODE, folder=folder / "empty")
    if status:
        return f"host_test.mjs: {first(printed, 'host_test: ')}"
    script = folder / "run"
    script.write_text(f'#!/bin/sh\nexec node {folder}/pslink.mjs "$@"\n')
    script.chmod(0o755)
    shutil.copy(OUT / "pslink_command.wasm", folder)
    return told_by_program("node", script, folder)


def over_crate(folder):
    """What tells a bug of the crates of this folder: that one is not proved any more, or what tells
    one of a host."""
    copy = folder / "copy"
    for name in ("everywhere", "library", "include"):
        shutil.copytree(TOP / name, copy / name, ignore=shutil.ignore_patterns("out"))
    for name in ("LICENSE", "NOTICES"):
        shutil.copy(TOP / name, copy)
    shutil.copytree(folder / "crates", copy / "everywhere/crates", dirs_exist_ok=True)
    status, printed = run(copy / "everywhere/build", "x86_64", PROVED=str(TOP))
    if status:
        return f"everywhere/build: {first(printed, 'everywhere/build: ')}"
    for path in C.glob("*.[ch]"):
        shutil.copy(path, folder)
    return told_by_command(folder, copy / "everywhere/out/x86_64/libpslink_command.a")


def told(name, folder):
    by = {NODE: over_node, NODE_FILES: over_node, WINDOWS: on_windows, CRATE: over_crate,
          COMMAND: over_crate}
    return by.get(name, in_c)(folder)


def untold(bugs):
    """Plants each of these bugs, prints what tells it, and gives the number of those that nothing
    tells."""
    count = 0
    for what, name, text, other in bugs:
        source = HOMES[name]
        with tempfile.TemporaryDirectory() as room:
            folder = pathlib.Path(room)
            for path in [*source.glob("*.[ch]"), *source.glob("*.mjs")]:
                shutil.copy(path, folder)
            home = folder
            if source == CRATES:
                home = folder / "crates"
                shutil.copytree(CRATES, home)
            (home / name).write_text((source / name).read_text().replace(text, other))
            teller = told(name, folder)
        count += teller is None
        print(f"hosts: {what}: {teller or 'NOTHING TELLS IT'}", flush=True)
    return count


def main():
    part = sys.argv[1] if len(sys.argv) > 1 else ""
    places = [(what, (HOMES[name] / name).read_text().count(text)) for what, name, text, _ in BUGS]
    found = [f"'{what}' cannot be planted: its text is there {count} times" for what,
             count in places if count != 1]
    print("".join(f"hosts: {line}\n" for line in found), end="")
    if found or part == "--texts":
        return 1 if found else 0
    bugs = [bug for bug in BUGS if part in bug[0]]
    count = untold(bugs)
    print(f"hosts: {len(bugs)} planted bugs, {count} that nothing tells")
    return 1 if count or not bugs else 0


if __name__ == "__main__":
    sys.exit(main())
