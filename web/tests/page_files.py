"""Files and volumes for the tests of the page, and what a person does with them."""
import pathlib

import volumes

ROOT = pathlib.Path(__file__).resolve().parent.parent.parent
SAMPLES = ROOT / "samples"
MEGABYTE = 1 << 20
LINKS = ["host.code", "library.code"]
# one call of the module waits until the test lets it go: the one of this number from now on
HELD = """(() => { const made = WebAssembly.instantiate; let calls = 0, held = 0;
  window.hold = (number) => { calls = 0; held = number; };
  WebAssembly.instantiate = async (...given) => {
    if (++calls === held) await new Promise((end) => { window.letGo = end; });
    return made(...given); }; })()"""


def at(folder, *names):
    return [folder / name for name in names]


def linked_as(desk, name):
    """Presses the button that saves the linked file, and takes what is saved under this name."""
    desk.press("#save")
    return desk.browser.took(name)


def disk(folder, name="DISK", **how):
    """A volume of 280 blocks with the samples, a text, and free blocks between and behind."""
    contents = [(SAMPLES / it).read_bytes() for it in LINKS]
    files = [
        volumes.File(
            "HOST.CODE", 10, 13, 512, 2, volumes.date_word({"year": 1983, "month": 5, "day": 12})
        ),
        volumes.File("NOTES.TEXT", 14, 18, 512, 3),
        volumes.File("LIBRARY.CODE", 20, 23, 512, 2),
    ]
    image = bytearray(how.pop("blocks", 280) * 512)
    image[10 * 512 : 13 * 512], image[20 * 512 : 23 * 512] = contents
    return volumes.Volume(name, len(image) // 512, files, bytes(image), **how)


BOXES = ".volume .entries li:nth-child({}) label"


def take_both(desk):
    desk.press(BOXES.format(2))
    desk.press(BOXES.format(1))


def today(desk):
    year, month, day = desk.value(
        "(() => { const now = new Date(); return [now.getFullYear(), now.getMonth() + 1, "
        "now.getDate()]; })()")
    return {"year": year, "month": month, "day": day}


def many(count, name="MANY"):
    """A volume with so many files, the host and the library at its end."""
    contents = [(SAMPLES / it).read_bytes() for it in LINKS]
    given = [contents[1] if k % 2 else contents[0] for k in range(count)]
    files = [volumes.File(f"FILE{k:02}.CODE", 6 + 3 * k, 9 + 3 * k, 512, 2) for k in range(count)]
    image = bytes(6 * 512) + b"".join(given)
    blocks = len(image) // 512 + 40
    return volumes.Volume(name, blocks, files, image.ljust(512 * blocks, b"\0"))
