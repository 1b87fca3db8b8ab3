#!/usr/bin/env python3
"""Opens the page from file:// in a browser as a person would, and compares what it shows and saves
with the program. Prints each difference, and last 'N passed, M failed'."""
import argparse
import pathlib
import re
import sys
import tempfile
import time

import browsers
import desk as desks
import volumes
from browsers import ALT
from page_files import BOXES, HELD, LINKS, MEGABYTE, SAMPLES, at, disk, linked_as, take_both, today
import page_picture
import page_points

NO_MEMORY = "WebAssembly.Memory.prototype.grow = () => { throw new RangeError('no memory'); };"
TRAPS = """(() => { const made = WebAssembly.instantiate;
  const pslink_link_nonnull = () => { throw new WebAssembly.RuntimeError("unreachable"); };
  WebAssembly.instantiate = async (...given) => {
    const {exports} = await made(...given);
    return {exports: {...exports, pslink_link_nonnull}}; }; })()"""
NO_MODULE = ("WebAssembly.compile = async () => { throw new WebAssembly.CompileError('this browser "
             "compiles nothing'); };")
ODD_NAMES = ["<img src=x onerror=document.title=1>.code", "\"quotes'&amp;.code", "two\nlines.code",
             "\u202egnp.edoc", "  .code", "no ending", "déjà ☃.code", "<script>document.title=1<",
             "..code", "zero\u200bwidth.code", "tab\there"]
SHOWN_NAMES = ["<img src=x onerror=document.title=1>.code", "\"quotes'&amp;.code",
               "\"two\\nlines.code\"", "\"\\u{202e}gnp.edoc\"", "  .code", "no ending",
               "déjà ☃.code", "<script>document.title=1<", "..code", "\"zero\\u{200b}width.code\"",
               "\"tab\\there\""]


# ---- Texts and linked files

CASES = (  # (a host and its libraries, the kind of the outcome, and the units of each row)
    (["host.code", "library.code"], "good", ["wants UTIL", "has UTIL"]),
    (["host.code"], "bad", ["wants UTIL"]),
    (["host.code", "using.code", "used.code"], "good", ["wants UTIL, AUX", "has UTIL", "has AUX"]),
    (["host.code", "using.code"], "bad", ["wants UTIL, AUX", "has UTIL"]),
    (["nine.code"], "good", None),
    (["using.code", "used.code"], "bad", None),
    (["two_units.code"], "good", None),
    (["big_host.code", "big_library.code"], "good", ["wants UTIL", "has UTIL"]),
    (["big_host.code", "library.code"], "bad", None),
    (["procedures.code", "library.code"], "good", None),
    (["library.code"], "bad", ["has UTIL"]),
    (["README.md"], "bad", None),
)


def whole(desk, folder, names, kind, units=None):
    """A host and its libraries, from the choice of files to all that can be saved."""
    what = " ".join(names)
    desk.begin()
    desk.choose(*at(folder, *names))
    desk.open_texts()
    desk.same(f"{what}: the files are listed", names, desk.order())
    desk.same(f"{what}: the kind of the outcome", kind, desk.kind())
    if units:
        desk.same(f"{what}: the units of the files", units, [row[3] for row in desk.rows()])
    for text in desks.TEXTS:
        desk.same(f"{what}: {text}", desk.wanted_texts(folder, text, names), desk.shown(text))
    wanted = desk.linked(folder, names)
    desk.same(
        f"{what}: whether there is a linked file", wanted is not None, desk.is_seen("#saving"))
    if wanted:
        name = names[0].replace(".code", ".linked.code")
        desk.check(
            f"{what}: the outcome", desk.summary(folder, names) in desk.outcome(), desk.outcome())
        desk.same(f"{what}: the linked file", wanted, linked_as(desk, name))
        desk.same(f"{what}: what is told of it", f"Saved: {name}.", desk.told())
    else:
        desk.check(
            f"{what}: the outcome", desk.outcome()[0] == "The files are refused.", desk.outcome())


def texts(desk, folder):
    for names, kind, units in CASES:
        whole(desk, SAMPLES, names, kind, units)
    documents(desk)
    host, library = ((SAMPLES / name).read_bytes() for name in LINKS)
    # two libraries with a unit of one name: the first is used
    for name, content in (("host.code", host), ("library.code", library),
                          ("other.code", library[:518] + bytes(2) + library[520:])):
        (folder / name).write_bytes(content)
    whole(desk, folder, ["host.code", "other.code", "library.code"], "good")
    desk.press("#files li:nth-child(3) .up")
    desk.same(
        "the other library first", desk.linked(SAMPLES, LINKS), linked_as(desk, "host.linked.code"))
    # a host and a library that have a warning, a note and what is harmless, and a library that is
    # no code file
    (folder / "warned.code").write_bytes(host[:64 + 40] + b"NOBODY  " + host[64 + 48:])
    (folder / "padded.code").write_bytes(library + b"\x1a\x1a")
    (folder / "zeros.code").write_bytes(bytes(2048))
    whole(desk, folder, ["warned.code", "padded.code", "zeros.code"], "warned")
    desk.same("warnings: the headline", "The files link, with warnings.", desk.outcome()[0])
    first = [line for line in desk.printed(folder, "check", [
        "warned.code", "padded.code", "zeros.code"]).splitlines() if line.startswith("warning: ")]
    desk.same(
        "warnings: the first in its words, and their number",
        [*first[:1], "The report has 1 warning and 1 note."], desk.outcome()[1:3])
    manual(desk)


def documents(desk):
    """Texts and JSON documents that are saved. (Chromium asks a person before a page saves more
    than ten files.)"""
    for number, kind in enumerate(desks.TEXTS):
        if number % 4 == 0:
            desk.begin()
            desk.choose(*at(SAMPLES, *LINKS))
            desk.open_texts()
        wanted = {"txt": desk.printed(SAMPLES, kind, LINKS[:1] if kind == "show" else LINKS),
                  "json": desk.printed(
                      SAMPLES, kind, LINKS[:1] if kind == "show" else LINKS, "--json")}
        for k, ending in ((1, "txt"), (2, "json")):
            desk.press(f"#texts details[data-text={kind}] .acts button:nth-child({k})")
            saved = desk.browser.took(f"host.{kind}.{ending}")
            desk.same(f"{kind}: saved as {ending}", wanted[ending], saved and saved.decode())


def manual(desk):
    """Each link of the report leads to a part of the manual that is then seen."""
    links = desk.value(
        "[...document.querySelectorAll('#texts [data-text=check] pre a')].map((it) => "
        "[it.textContent, it.hash])")
    desk.same(
        "the report leads to the manual", ["WARNINGS", "harmless", "note", "warning"],
        sorted(text for text, _ in links))
    terms = [[text, desk.text(place).split("(")[-1]] for text, place in links if text != "WARNINGS"]
    desk.same(
        "each line leads to a term of its weight", [[text, f"{text})"] for text, _ in terms], terms)
    # (the list of what MiniBrowser saved leaves its page hardly any height)
    for text, place in links:
        desk.press(f"#texts [data-text=check] pre a[href='{place}']")
        inside = (f"(() => {{ const {{top, bottom}} = "
                  f"document.querySelector('{place}').getBoundingClientRect(); return top >= -1 "
                  f"&& top < Math.max(innerHeight, 100); }})()")
        desk.check(
            f"{text} leads to {place}, which is seen",
            desk.browser.until(
                f"document.querySelector('{place}').checkVisibility() && {inside}", 2))
    desk.begin()
    desk.choose(SAMPLES / "host.code")
    desk.press("#outcome a[href='#manual-diagnostics-13']")
    desk.check(
        "a fault leads to the manual",
        desk.text("#manual-diagnostics-13 b") == "MissingUnit" and desk.browser.until(
            "document.querySelector('#manual-diagnostics-13').checkVisibility()", 2))


# ---- Giving files, and their order

def order(desk, folder):
    desk.begin()
    desk.choose(SAMPLES / "library.code")
    desk.same(
        "a library alone", ["The files are refused.", "No segment of the file is a host program."],
        desk.outcome()[:2])
    desk.choose(SAMPLES / "host.code")
    desk.same("the only host is put first", LINKS, desk.order())
    desk.check(
        "what was done is told, and what comes of it",
        desk.told().startswith("Added: host.code. The files link. 2 segments,"), desk.told())
    desk.press("#files li:nth-child(2) .up")
    desk.same("Up moves a file up", LINKS[::-1], desk.order())
    desk.same("the focus stays with the file", "Move library.code down", desk.focus())
    desk.check(
        "a move is told",
        desk.told().startswith(
            "library.code is now the host. The files are refused. No segment of"),
        desk.told())
    desk.check("there is nothing to save then", not desk.is_seen("#saving"))
    desk.press("#files li:nth-child(1) .down")
    desk.same("Down moves a file down", LINKS, desk.order())
    desk.same("the focus stays with the file that moved down", "Move library.code up", desk.focus())
    desk.press("#files li:nth-child(2) .remove")
    desk.same("Remove removes a file", ["host.code"], desk.order())
    desk.same("the focus is on the next file", "Remove host.code", desk.focus())
    desk.check(
        "a removal is told",
        desk.told().startswith("library.code is removed. The files are refused."), desk.told())
    desk.press("#files li:nth-child(1) .remove")
    desk.same("no file is left", ([], None, "choose"), (desk.order(), desk.outcome(), desk.focus()))
    desk.check(
        "nothing is shown of no files",
        not any(map(desk.is_seen, ("#texts", "#saving", "#keeping", "#outcome"))))
    desk.same("that is told", "host.code is removed. There are no files.", desk.told())
    # of two hosts none is put first; the same file twice; and what was written as a name stays
    desk.choose(*at(SAMPLES, "library.code", "host.code", "nine.code"))
    desk.same(
        "of two hosts none is put first", ["library.code", "host.code", "nine.code"], desk.order())
    desk.begin()
    desk.choose(*at(SAMPLES, "host.code", "library.code", "library.code"))
    desk.same("a file twice", ["host.code", "library.code", "library.code"], desk.order())
    desk.same(
        "a file twice: the report",
        [desk.printed(SAMPLES, "check", ["host.code", "library.code", "library.code"])],
        desk.shown("check"))
    desk.value("document.querySelector('#files li:nth-child(2) .remove').focus()")
    desk.choose(SAMPLES / "used.code")
    desk.same(
        "the focus stays where it is when a file is added", "Remove library.code", desk.focus())
    desk.press("#files li:nth-child(4) .remove")
    desk.write("#save-name", "mine.code")
    desk.press("#files li:nth-child(3) .remove")
    desk.same(
        "a name that was written is kept", desk.linked(SAMPLES, LINKS),
        linked_as(desk, "mine.code"))


def dropped(desk, folder):
    """Drops: files, a folder, files with odd names, an empty file, and one that is too long."""
    desk.begin()
    desk.drop(*at(SAMPLES, "library.code", "host.code"))
    desk.same("files that are dropped", (LINKS, "good"), (desk.order(), desk.kind()))
    (folder / "empty.code").write_bytes(b"")
    whole(desk, folder, ["empty.code"], "bad")
    names(desk, folder)
    if desk.browser.has_drags:
        lost(desk, folder)


def lost(desk, folder):
    """A folder, and a file that is too long."""
    desk.begin()
    desk.choose(*at(SAMPLES, *LINKS))
    desk.drop(SAMPLES)
    desk.same(
        "a folder that is dropped",
        (LINKS, "samples: The file cannot be read. It may be a folder, or gone."),
        (desk.order(), desk.text("#lost")))
    desk.check(
        "a folder is told", desk.told().startswith("samples: The file cannot be read."),
        desk.told())
    long = folder / "long.code"
    with open(long, "wb") as file:
        file.truncate(64 * MEGABYTE + 1)
    desk.drop(long)
    desk.same(
        "a file that is too long", (LINKS, "long.code: The file is longer than 67108864 bytes."),
        (desk.order(), desk.text("#lost")))


def names(desk, folder):
    """Names that look like HTML, and such as have characters that are not seen."""
    given = []
    for k, name in enumerate(ODD_NAMES):
        path = folder / name
        path.write_bytes((SAMPLES / LINKS[k > 0]).read_bytes())
        given.append(path)
    desk.begin()
    desk.drop(*given)
    desk.open_texts()
    desk.same("odd names in the list", SHOWN_NAMES, desk.order())
    for kind in ("check", "list"):
        desk.same(
            f"odd names: {kind}", desk.wanted_texts(folder, kind, ODD_NAMES), desk.shown(kind))
    desk.same(
        "odd names are no HTML", [0, "pslink: links code files of UCSD Pascal II.0"],
        desk.value(
            "[document.querySelectorAll('img, body script:not([type])').length, document.title]"))
    desk.same(
        "an odd name to save by", desk.linked(folder, ODD_NAMES),
        linked_as(desk, "_img src=x onerror=document.title=1_.linked.code"))


# ---- The keyboard alone

def keyboard(desk, folder):
    """From the choice of files to the saved file without a mouse: Tab, Enter, Space, and the keys
    of a row."""
    desk.begin()
    tab_to(desk, "choose")
    desk.browser.choosing(
        at(SAMPLES, "host.code", "library.code"), lambda: desk.browser.key("Enter"))
    desk.browser.until("document.querySelectorAll('#files li').length === 2")
    desk.settle()
    desk.same("files by the keyboard", LINKS, desk.order())
    tab_to(desk, "Move host.code down")
    desk.key("Enter")
    desk.same("Enter on a button", (LINKS[::-1], "Move host.code up"), (desk.order(), desk.focus()))
    desk.key("ArrowUp")
    desk.same("an arrow alone moves nothing", LINKS[::-1], desk.order())
    desk.key("ArrowUp", ALT)
    desk.same("Alt and an arrow move the file up", (LINKS, "Move host.code down"), (
        desk.order(), desk.focus()))
    desk.key("ArrowDown", ALT)
    desk.same("Alt and an arrow move the file down", (LINKS[::-1], "Move host.code up"), (
        desk.order(), desk.focus()))
    desk.key("ArrowDown", ALT)
    desk.same("the last file stays where it is", LINKS[::-1], desk.order())
    desk.key("Space")
    desk.same("Space on a button", LINKS, desk.order())
    tab_to(desk, "save-name")
    desk.value("document.activeElement.select()")
    desk.browser.write("typed")
    desk.key("Enter")
    desk.same("Enter in the field saves", desk.linked(SAMPLES, LINKS), desk.browser.took("typed"))
    tab_to(desk, "Map of the linked file")
    desk.key("Enter")
    desk.same("Enter opens a text", desk.wanted_texts(SAMPLES, "map", LINKS), desk.shown("map"))
    desk.begin()
    desk.choose(*at(SAMPLES, *LINKS))
    tab_to(desk, "Remove library.code")
    desk.key("Delete")
    desk.same("Delete removes the file of its row", (["host.code"], "Remove host.code"), (
        desk.order(), desk.focus()))


def tab_to(desk, name, most=60):
    """Presses Tab until what has this name has the focus."""
    for _ in range(most):
        desk.browser.key("Tab")
        if desk.focus() == name:
            return
    desk.check(f"Tab leads to {name}", False, desk.focus())


# ---- Volumes

LISTED = ["DISK:",
          [["HOST.CODE", "1536 bytes", "1983-05-12", "code: little-endian, host"],
           ["LIBRARY.CODE", "1536 bytes", "no date", "code: little-endian, library"],
           ["NOTES.TEXT", "2048 bytes", "no date",
            "text: little-endian, no segment, a file of the byte 00 alone"]]]
OF_DISK = ["DISK:HOST.CODE", "DISK:LIBRARY.CODE"]


def images(desk, folder):
    """Images of each form, in and out."""
    forms = (("disk.po", {}, volumes.in_order),
             ("disk.dsk", {}, volumes.by_sectors(volumes.BY_DOS)),
             ("disk.2mg", {}, volumes.two_img(volumes.in_order, 1)),
             ("disk.image", {"big": True, "end": 10}, volumes.disk_copy()))
    for name, how, form in forms:
        volume = disk(folder, **how)
        (folder / name).write_bytes(form(volume.bytes()))
        desk.begin()
        desk.choose(folder / name)
        desk.same(f"{name}: the files of the volume", [LISTED], desk.volumes())
        desk.same(f"{name}: no file is taken yet", [], desk.order())
        take_both(desk)
        desk.same(f"{name}: the files that are chosen, the host first", OF_DISK, desk.order())
        desk.same(f"{name}: the kind of the outcome", "good", desk.kind())
        put_there(desk, folder, name, form, volume)
    of_volume(desk, folder)
    refused(desk, folder)
    larger(desk, folder)


def put_there(desk, folder, name, form, volume):
    """The linked file as a new file, in place of another, and in place of the host: each goes onto
    the copy before it."""
    linked, before = desk.linked(SAMPLES, LINKS), (folder / name).read_bytes()
    copy = name.replace("disk.", "disk.linked.")
    for on_it, said, warned in (
            ("HOST.L.CODE", "As a new file of DISK.", ""),
            ("library.code", "In place of LIBRARY.CODE, 1536 bytes, no date.", ""),
            ("HOST.CODE", "In place of HOST.CODE, 1536 bytes, 1983-05-12.",
             "It is the host: the unlinked host is then in the old image alone.")):
        if on_it != "HOST.L.CODE":
            desk.write("#put-name", on_it)
        desk.same(f"{name}: {on_it} by itself, and where it gets", (on_it, said, warned), (
            desk.value("document.getElementById('put-name').value"), desk.text("#put-what"),
            desk.text("#put-warnings")))
        desk.press("#put")
        after, place = volumes.put(volume, on_it, linked, today(desk))
        desk.same(f"{name}: the copy with {on_it}", form(after.bytes()), desk.browser.took(copy))
        how = "in place of the old one" if place["replaced"] else "as a new file"
        desk.same(
            f"{name}: what is told of {on_it}",
            f"Saved: {copy}. On DISK, {on_it.upper()} is in blocks {place['first']} to "
            f"{place['first'] + 2}, {how}. "
            f"{name} is as it was.",
            desk.told())
        volume = after
    desk.same(f"{name}: the image that was given", before, (folder / name).read_bytes())


def of_volume(desk, folder):
    """Boxes and rows say the same, names are those of the host, and a volume is closed."""
    (folder / "disk.po").write_bytes(disk(folder).bytes())
    desk.begin()
    desk.drop(folder / "disk.po")
    take_both(desk)
    checked = "[...document.querySelectorAll('.entries input')].map((it) => it.checked)"
    desk.same("boxes of what is chosen", [True, True, False], desk.value(checked))
    desk.press("#files li:nth-child(2) .remove")
    desk.same("a box of what is removed", [True, False, False], desk.value(checked))
    desk.press(BOXES.format(2))
    desk.press(BOXES.format(1))
    desk.same("a box that is cleared removes the file", ["DISK:LIBRARY.CODE"], desk.order())
    desk.press(BOXES.format(1))
    desk.same(
        "the report on files of a volume", [renamed(desk.printed(SAMPLES, "check", LINKS))],
        desk.shown("check"))
    desk.same(
        "a linked file of a volume to save", desk.linked(SAMPLES, LINKS),
        linked_as(desk, "HOST.LINKED.CODE"))
    desk.press(".volume .title button")
    desk.same("a volume that is closed takes its files along", ([], [], False, "choose"), (
        desk.volumes(), desk.order(), desk.is_seen("#putting"), desk.focus()))
    desk.same(
        "that is told",
        "DISK is closed. Removed: DISK:HOST.CODE, DISK:LIBRARY.CODE. There are no files.",
        desk.told())
    # a file from outside, and two volumes: the copy is of the one that is chosen
    other = disk(folder, "OTHER")
    (folder / "other.po").write_bytes(other.bytes())
    desk.begin()
    desk.choose(*at(SAMPLES, *LINKS), folder / "disk.po", folder / "other.po")
    desk.value(
        "(() => { const it = document.getElementById('put-volume'); it.selectedIndex = 1; "
        "it.dispatchEvent(new Event('change')); })()")
    desk.same(
        "the name of the copy follows the volume", "other.linked.po",
        desk.value("document.getElementById('put-image').value"))
    desk.press("#put")
    after, _ = volumes.put(other, "HOST.L.CODE", desk.linked(SAMPLES, LINKS), today(desk))
    desk.same(
        "the copy is of the volume that is chosen", after.bytes(),
        desk.browser.took("other.linked.po"))


def renamed(report):
    return report.replace("host.code", "DISK:HOST.CODE").replace(
        "library.code", "DISK:LIBRARY.CODE")


def refused(desk, folder):
    """What cannot be put is told before the button can be pressed, and nothing is saved."""
    volume = disk(folder, blocks=24)
    volume.files += [volumes.File("FULL.DATA", 6, 10, 512, 5),
                     volumes.File("FULLER.DATA", 18, 19, 512, 5)]
    volume.files.sort(key=lambda file: file.first)
    (folder / "full.po").write_bytes(volume.bytes())
    damaged = bytearray(disk(folder).bytes())
    # the end of the second file, behind the beginning of the third
    damaged[2 * 512 + 26 * 2 + 2] = 30
    (folder / "damaged.po").write_bytes(damaged)
    for name, on_it, said in (
            ("full.po", "NEW.CODE",
             "The file has 3 blocks, and the volume DISK has 1 free together, 3 in all."),
            ("full.po", "A NAME", "A file cannot have the name \"A NAME\""),
            ("damaged.po", "NEW.CODE", "Nothing is put onto the volume DISK, as it is not sound.")):
        desk.begin()
        desk.choose(*at(SAMPLES, *LINKS), folder / name)
        desk.write("#put-name", on_it)
        before = sorted(desk.browser.saved.iterdir())
        told = desk.text("#put-what")
        desk.check(
            f"{name}: {on_it} is refused",
            told.startswith(said) and desk.value("document.getElementById('put').disabled"), told)
        desk.browser.click("#put-name")
        desk.key("Enter")
        desk.same(f"{name}: {on_it} is not saved", before, sorted(desk.browser.saved.iterdir()))
    # an image that is no volume, and one that ends before a file does
    (folder / "short.po").write_bytes(disk(folder).bytes()[:21 * 512])
    desk.begin()
    desk.choose(folder / "short.po")
    boxes = desk.value("[...document.querySelectorAll('.entries input')].map((it) => it.disabled)")
    desk.same("a file that is not whole cannot be chosen", [False, True, False], boxes)
    desk.check(
        "why it cannot be chosen",
        "The file LIBRARY.CODE ends before block 23, and the image has 21 blocks."
        in desk.volumes()[0][1][1][3],
        desk.volumes())
    (folder / "noise.po").write_bytes(bytes(range(256)) * 560)
    whole(desk, folder, ["noise.po"], "bad")


def larger(desk, folder):
    """Files of 20 MB: a library, and an image."""
    library = (SAMPLES / "library.code").read_bytes()
    (folder / "large.code").write_bytes(library + bytes(20 * MEGABYTE - len(library)))
    (folder / "host.code").write_bytes((SAMPLES / "host.code").read_bytes())
    names = ["host.code", "large.code"]
    desk.begin()
    began = time.monotonic()
    desk.choose(*at(folder, *names))
    print(f"20 MB: from the choice to the report {time.monotonic() - began:.1f} s", flush=True)
    desk.same("20 MB: the report", desk.wanted_texts(folder, "check", names), desk.shown("check"))
    desk.same(
        "20 MB: the linked file", desk.linked(folder, names), linked_as(desk, "host.linked.code"))
    volume = disk(folder, blocks=40960)
    (folder / "large.po").write_bytes(volume.bytes())
    desk.begin()
    desk.choose(folder / "large.po")
    take_both(desk)
    desk.press("#put")
    after, _ = volumes.put(volume, "HOST.L.CODE", desk.linked(SAMPLES, LINKS), today(desk))
    desk.check("20 MB: the copy of an image", after.bytes() == desk.browser.took("large.linked.po"))


# ---- What fails, and what comes late

def failures(desk, folder):
    if not desk.browser.has_scripts:
        return
    for script, headline, sentence in ((NO_MEMORY, "There is not enough memory for these files.",
                                        "Close other pages, or give fewer files."),
                                       (TRAPS, "The module stopped.",
                                        "That is a fault of pslink or of the browser, and not of "
                                        "the files. Nothing was linked.")):
        before = desk.browser.before_each_page(script)
        desk.begin()
        desk.choose(*at(SAMPLES, *LINKS))
        desk.same("a module that fails", ([headline, sentence], "bad"), (
            desk.outcome()[:2], desk.kind()))
        desk.check(
            "a module that fails is told, and nothing can be saved",
            headline in desk.told() and not desk.is_seen("#saving"), desk.told())
        desk.browser.no_more(before)
    desk.same("what the browser says of it", "The browser says: unreachable", desk.outcome()[2])
    before = desk.browser.before_each_page(NO_MODULE)
    desk.browser.go("about:blank")
    desk.browser.go(desk.page.as_uri())
    desk.browser.until("document.getElementById('verdict')?.hidden === false")
    desk.same(
        "a browser that takes no module",
        ["This page failed.", "this browser compiles nothing",
         "Load the page again. The files are as they were."],
        desk.outcome())
    desk.browser.no_more(before)


def late(desk, folder):
    """Answers that come after the files were changed again are not shown, and nothing older is
    saved."""
    if not desk.browser.has_scripts:
        return
    before = desk.browser.before_each_page(HELD)
    desk.begin()
    desk.choose(SAMPLES / "host.code")
    desk.open_texts()
    # a file that is added is looked at by three calls; then come the link, the report, and the
    # units that the host wants; and then the texts
    for call, what in ((4, "a link that comes late"), (5, "a report that comes late"),
                       (8, "a map that comes late"), (12, "a show that comes late")):
        desk.value(f"hold({call})")
        desk.browser.give("#choose", [SAMPLES / "library.code"])
        desk.check(
            f"{what}: it waits",
            desk.browser.until(
                "document.querySelectorAll('#files li').length === 2 && Boolean(window.letGo)"))
        desk.browser.click("#files li:nth-child(2) .remove")
        desk.check(
            f"{what}: the newer one is there",
            desk.browser.until(
                f"document.getElementById('outcome').className === 'bad' && {NO_LIBRARY}"))
        desk.value("(() => { letGo(); window.letGo = null; })()")
        desk.settle()
        is_refused(desk, what)
    # and while an answer is waited for, the older linked file cannot be saved
    desk.choose(SAMPLES / "library.code")
    desk.value("hold(1)")
    desk.browser.click("#files li:nth-child(2) .remove")
    desk.check("a link is waited for", desk.browser.until("Boolean(window.letGo)"))
    desk.browser.click("#save")
    desk.same("an older linked file is not saved", None, desk.browser.took("host.linked.code", 0.5))
    desk.same(
        "that is told", "library.code is removed. The files are still being looked at.",
        desk.told())
    desk.value("letGo()")
    desk.settle()
    is_refused(desk, "after a removal")
    desk.browser.no_more(before)


NO_LIBRARY = ("[...document.querySelectorAll('#texts pre')].every((it) => "
              "!it.textContent.includes('library.code'))")


def is_refused(desk, what):
    desk.same(f"{what}: the outcome", ("bad", "The files are refused.", False), (
        desk.kind(), desk.outcome()[0], desk.is_seen("#saving")))
    for kind in desks.TEXTS:
        desk.same(
            f"{what}: {kind}", desk.wanted_texts(SAMPLES, kind, ["host.code"]), desk.shown(kind))


# ---- How it looks, and what it may do

LOOKS = (  # (the width, whether it is dark, the files, and a picture with its height)
    (1000, False, ["host.code", "library.code"], "links.png", 1180),
    (1000, True, ["host.code"], "refused.png", 1180),
    (1000, False, ["disk.po"], "volume.png", 1540),
    (380, False, ["host.code", "library.code"], "narrow.png", 1400),
    (320, True, ["host.code", "disk.po"], None, None),
)


def looks(desk, folder):
    """Contrast, room and names in light and dark, wide and narrow; and the pictures."""
    for width, is_dark, files, picture, height in LOOKS:
        desk.browser.look(width, 900, is_dark)
        desk.begin()
        desk.choose(*at(SAMPLES, *files))
        if files[0] == "disk.po":
            take_both(desk)
        what = (f"{width} wide, {'dark' if is_dark and desk.browser.has_looks else 'light'}, "
                f"{' '.join(files)}")
        if desk.pictures and picture and desk.browser.has_looks:
            desk.value("document.activeElement.blur()")
            desk.browser.shot(desk.pictures / picture, height)
        # (at the top of the page, where the verdict is not above what is scrolled)
        desk.value(
            "(() => { document.querySelectorAll('details').forEach((it) => { it.open = true; }); "
            "scrollTo(0, 0); })()")
        desk.settle()
        desk.same(f"{what}: no text is hard to read", [], desk.value(desks.CONTRASTS))
        desk.same(f"{what}: nothing overlaps", [], desk.value(desks.OVERLAPS))
        desk.same(f"{what}: each control has a name", [], desk.value(desks.UNNAMED))
    desk.browser.look()


DIRECTIVES = ["connect-src", "img-src", "script-src-attr", "script-src-elem", "style-src-elem"]


def closed(desk, folder):
    """The policy of the page lets nothing in and nothing out; and what the browser has asked for
    and complained of until now."""
    # (WebDriver does not tell what WebKitGTK asks for, nor BiDi which files Firefox reads)
    desk.begin()
    urls = {it for it in desk.browser.requested() if not it.startswith(
                ("blob:", "about:", "data:"))}
    desk.same(
        "nothing was requested but the page", set(), urls - {desk.page.as_uri(), *desk.opened})
    desk.check(
        "the browser tells what is requested",
        desk.page.as_uri() in urls or not desk.browser.has_looks)
    desk.same("the browser has no complaint", [], desk.browser.complaints())
    tried = """(async () => {
      const refused = new Set();
      document.addEventListener("securitypolicyviolation",
        (it) => refused.add(it.effectiveDirective));
      const made = (name, given) => {
        const it = document.createElement(name);
        for (const [key, value] of Object.entries(given)) it.setAttribute(key, value);
        return it;
      };
      const script = document.createElement("script"), style = document.createElement("style");
      script.textContent = "window.ran = 'a script'";
      style.textContent = "h1 { color: rgb(1, 2, 3) }";
      document.body.append(script, style,
        made("img", {src: "http://127.0.0.1:9/", onerror: "window.ran = 'an attribute'"}),
        made("link", {rel: "stylesheet", href: "http://127.0.0.1:9/"}));
      await fetch("http://127.0.0.1:9/").catch(() => {});
      await new Promise((end) => setTimeout(end, 200));
      const color = getComputedStyle(document.querySelector("h1")).color;
      return [window.ran ?? "nothing", color === "rgb(1, 2, 3)", [...refused].sort()];
    })()"""
    desk.same("the policy of the page", ["nothing", False, DIRECTIVES], desk.value(tried))


def footer(desk, folder):
    """What the foot of the page says, and the release of the module."""
    desk.begin()
    version = desk.run(folder, "--version").stdout.decode().strip()
    desk.same("the release", version, desk.text("#release"))
    foot = desk.text("footer")
    desk.check(
        "the foot says where the newest release stands",
        f"This page is of the release {version}. The newest stands in the repository of pslink, in "
        "its folder releases"
        in foot,
        foot)
    desk.check(
        "the foot asks for files",
        "drop them on this page, save the report as JSON, and attach all to an issue" in foot, foot)
    words = desk.value(
        "[...document.querySelectorAll('main, footer > p')].map((it) => it.textContent).join(' ')")
    desk.same(
        "no word of the page is the name of a manual page", [], re.findall(r"pslink\(\d\)", words))
    for word in ("Proved", "Tested only", "Trusted"):
        desk.check(f"the foot has {word}", f"{word}:" in desk.text("footer"))


PARTS = [texts, order, dropped, keyboard, images, failures, late, footer, looks, *page_points.PARTS,
         *page_picture.PARTS, closed]


def arguments():
    parser = argparse.ArgumentParser(
        description=__doc__, formatter_class=argparse.RawDescriptionHelpFormatter)
    parser.add_argument("page", help="the page")
    parser.add_argument("program", help="the program pslink")
    parser.add_argument(
        "--browser", default="chromium",
        help="chromium, firefox-esr, or the path of WebKitGTK's MiniBrowser")
    parser.add_argument(
        "--pictures", type=pathlib.Path, help="a folder to which pictures of the page are written")
    parser.add_argument(
        "--part", choices=[part.__name__ for part in PARTS], action="append",
        help="one part of the tests")
    return parser.parse_args()


def main(given):
    desk = desks.Desk(
        browsers.opened(given.browser), given.page, pathlib.Path(given.program).resolve(),
        given.pictures)
    try:
        for part in PARTS:
            if part.__name__ in (given.part or [part.__name__]):
                with tempfile.TemporaryDirectory() as folder:
                    part(desk, pathlib.Path(folder))
    finally:
        desk.browser.close()
    print(f"page: {desk.passed} passed, {desk.failed} failed in {desk.browser.version}")
    return 1 if desk.failed or not desk.passed else 0


if __name__ == "__main__":
    sys.exit(main(arguments()))
