"""Sets of files for native.py: the samples, the test vectors, generated files and some that came to
harm, and files that are no code files. A file is its name, which may be None, its bytes, and how
many zeros follow these."""
import json
import pathlib
import random
import sys

ROOT = pathlib.Path(__file__).resolve().parents[2]
sys.dont_write_bytecode = True
sys.path[:0] = [str(ROOT / "vectors"), str(ROOT / ".ci")]
from damaged_files import swapped
from generated_links import generated

BLOCK = 512
GENERATED = 120
# a name of a unit of which each byte is odd: no letter, no ASCII, no UTF-8
ODD = b"\n\xc3\xa9\xff\x00\x80\r\x01"
# names that a text shows, escapes or measures
NAMES = ["host.code", None, 'a "b"\\c.code', "ünïcode \U0001f4be.code", "line\nend\ttab\x7f", "",
         "..", "x" * 300, "\ufeffmark", "\u2028</script>"]


def of_samples():
    """Each sample by itself, each pair of them, and all."""
    files = [(path.name, path.read_bytes(), 0)
             for path in sorted((ROOT / "samples").glob("*.code"))]
    for one in files:
        yield f"samples/{one[0]}", [one]
        yield from ((f"samples/{one[0]} {two[0]}", [one, two]) for two in files)
    yield "samples/all", files
    yield "samples/odd names", [(name, content.replace(b"UTIL    ", ODD), 0)
                                for name, content, _ in files
                                if name in ("host.code", "library.code")]


def of_vectors(folder):
    """The cases that vectors/make_vectors.py wrote there."""
    folder = pathlib.Path(folder)
    for case in json.loads((folder / "index.json").read_text())["cases"]:
        at = folder / case["folder"]
        yield f"vectors/{case['name']}", [(name, (at / name).read_bytes(), 0)
                                          for name in (case["host"], *case["libraries"])]


def harmed(numbers, content):
    """A file that lacks its end, has other bytes in its dictionary or anywhere, or has each pair of
    bytes swapped."""
    harm = numbers.randrange(4)
    if harm == 0:
        return content[: numbers.randrange(len(content))]
    if harm == 1:
        return swapped(content)
    content = bytearray(content)
    for _ in range(numbers.randrange(1, 6)):
        content[numbers.randrange(BLOCK if harm == 2 else len(content))] = numbers.randrange(256)
    return bytes(content)


def of_generated():
    """Links that are generated, and each of them with harm to one of its files."""
    for seed in range(GENERATED):
        numbers = random.Random(seed)
        files = [(numbers.choice(NAMES), content, 0) for content in generated(numbers)]
        yield f"generated/{seed}", files
        at = numbers.randrange(len(files))
        name, content, _ = files[at]
        yield f"harmed/{seed}", [*files[:at], (name, harmed(numbers, content), 0), *files[at + 1 :]]


def of_others():
    """Files that are no code files, as host and as library."""
    numbers = random.Random("others")
    host = ("host.code", (ROOT / "samples/host.code").read_bytes(), 0)
    contents = {
        "nothing": b"", "one byte": b"\0", "a byte less than a block": bytes(511),
        "a block of zeros": bytes(512), "a block of ones": b"\xff" * 512,
        "a page": (ROOT / "README.md").read_bytes(),
        "a program": pathlib.Path(sys.executable).read_bytes()[:200_000],
        "noise": numbers.randbytes(5000), "a text with CR": b"program demo;\r" * 100,
        "a long line": b"A" * 70_000,
    }
    for what, content in contents.items():
        other = (what, content, 0)
        yield f"others/{what}", [other]
        yield f"others/{what} as a library", [host, other]
        yield f"others/{what} twice", [other, other]


def of_large():
    """Files of megabytes, and many files."""
    host, library = (((f"{name}.code", (ROOT / f"samples/{name}.code").read_bytes()))
                     for name in ("host", "library"))
    yield "large/a library of 64 MiB", [(*host, 0), (*library, 64 << 20)]
    yield "large/a host of 80 MiB", [(*host, 80 << 20), (*library, 0)]
    yield "large/3000 libraries before that with the unit", [
        (*host, 0), *[(None, bytes(BLOCK), 0)] * 3000, (*library, 0)]
    yield "large/3000 libraries of nothing", [(*host, 0), *[("empty", b"", 0)] * 3000]


def every(vectors):
    yield from of_samples()
    yield from of_others()
    yield from of_large()
    yield from of_generated()
    yield from of_vectors(vectors)
