"""The picture of a link on the page: what it shows, how it is used by mouse and keyboard, how it
looks, and what is saved of it."""
import json
import re
import subprocess
import xml.etree.ElementTree as xml

import page_ledger
from page_files import HELD, LINKS, ROOT, SAMPLES, at, many

LARGE = 4 << 20
WIDE = 1000  # a window in which the picture has the width that the command gives it

# areas of paths in a strip: each is of rectangles M x y h width v height
AREAS = """[...document.querySelectorAll({selector!r})].map((it) => [
  ...it.getAttribute('d').matchAll(/M([\\d.-]+) ([\\d.-]+)h([\\d.-]+)v([\\d.-]+)/g)]
  .map((found) => found.slice(1).map(Number)))"""
CHOICES = ("[...document.querySelectorAll('#picture .choice')].map((it) => "
           "[it.getAttribute('aria-label'), it.getAttribute('aria-checked'), "
           "it.getAttribute('tabindex')])")
OUTSIDE = """[...document.querySelectorAll('#picture svg')].flatMap((svg) => {
  const box = svg.getBoundingClientRect();
  const texts = [...svg.querySelectorAll('text')];
  return texts.filter((it) => it.getClientRects().length && it.textContent).filter((it) => {
    const {left, right, top, bottom} = it.getBoundingClientRect();
    return left < box.left - 1 || right > box.right + 1 || top < box.top - 1
      || bottom > box.bottom + 1; }).map((it) => it.textContent); })"""
WIDER = "document.documentElement.scrollWidth - document.documentElement.clientWidth"


def into_view(desk):
    """Brings the picture into view, and waits until it is drawn."""
    desk.value("document.getElementById('pictured').scrollIntoView()")
    drawn = desk.browser.until("document.querySelector('#picture svg') !== null", 10)
    desk.settle()
    return drawn


def links(desk, folder, names):
    """What the program prints of a link: its documents."""
    read = lambda *words: json.loads(desk.run(folder, *words).stdout)
    return read("map", "--references", "--json", "--", *names)


# ---- What is shown


def of_samples(desk):
    """One choice for each segment and for block 0, in the order of the map; the sums of the table;
    and each part to scale."""
    for names in (
        LINKS,
        ["host.code", "using.code", "used.code"],
        ["two_units.code"],
        ["nine.code"],
        ["big_host.code", "big_library.code"],
        ["procedures.code", "library.code"],
    ):
        what = " ".join(names)
        desk.begin()
        desk.choose(*at(SAMPLES, *names))
        desk.check(f"{what}: it is drawn when it comes into view", into_view(desk))
        document = links(desk, SAMPLES, names)
        segments = document["segments"]
        stored = [
            sum(it["slot"] == one["slot"] for it in document["references"]) for one in segments
        ]
        labels = [label for label, _, _ in desk.value(CHOICES)]
        desk.check(
            f"{what}: block 0 is the first choice",
            labels[0].startswith("Block 0, the segment dictionary, 512 bytes, "),
            labels,
        )
        wanted = [(
                      f"Slot {one['slot']}, {one['name'].rstrip()}",
                      f"from {names[one['file']]}, {one['length']} bytes, {count} "
                      f"place{'s' * (count != 1)} stored",
                  )
                  for one, count in zip(segments, stored)]
        desk.check(
            f"{what}: a choice for each segment, in the order of the map",
            len(labels) == len(wanted) + 1
            and all(
                label.startswith(first) and label.endswith(last)
                for label, (first, last) in zip(labels[1:], wanted)
            ),
            (labels, wanted),
        )
        table = desk.value(
            "[...document.querySelectorAll('#picture-table tr')].slice(1).map((it) => "
            "[...it.cells].map((one) => one.textContent))")
        desk.same(
            f"{what}: the table",
            [
                [
                    f"{one['slot']:02}",
                    one["name"].rstrip(),
                    f"{names[one['file']]}, entry {one['entry']}",
                    str(one["block"]),
                    str(one["length"]),
                    str(count),
                ]
                for one, count in zip(segments, stored)
            ],
            [[row[0], row[1], *row[3:7]] for row in table],
        )
        to_scale(desk, what, segments, stored)


def to_scale(desk, what, segments, stored):
    """The area of each code is its length, and each mark is in the rows of its code."""
    row = desk.value(
        "(() => { const it = document.querySelectorAll('#picture .strip .paper'); return "
        "Number(it[it.length - 1].getAttribute('width')); })()")
    codes, marks = (
        desk.value(AREAS.format(selector=f"#picture .segment .{kind}"))
        for kind in ("code", "marks")
    )
    areas = [round(sum(width for _, _, width, _ in code) * 512 / row) for code in codes]
    desk.same(f"{what}: codes are to scale", [one["length"] for one in segments], areas)
    for one, count, code, mark in zip(segments, stored, codes, marks[1:]):
        top, bottom = code[0][1], code[-1][1] + code[-1][3]
        desk.check(
            f"{what}: the marks of {one['name']} are in its rows",
            len(mark) >= count
            and all(top <= y and y + high <= bottom + 0.1 for _, y, _, high in mark),
            (code, mark),
        )


def of_bytes(desk):
    """By the keyboard from place to place: each sentence is what the program's map has."""
    desk.browser.look(WIDE, 900)
    desk.begin()
    desk.choose(*at(SAMPLES, *LINKS))
    into_view(desk)
    desk.value("document.querySelector('#picture .choice[tabindex=\"0\"]').focus()")
    for key, wanted in (
        ("ArrowDown", 1),
        ("ArrowDown", 2),
        ("ArrowDown", 0),
        ("ArrowUp", 2),
        ("Home", 0),
        ("End", 2),
    ):
        desk.key(key)
        checked = [
            k for k, (_, is_checked, _) in enumerate(desk.value(CHOICES)) if is_checked == "true"
        ]
        focus = desk.value(
            "[...document.querySelectorAll('#picture .choice')].indexOf(document.activeElement)"
        )
        desk.same(
            f"{key} chooses {wanted}, which has the focus", ([wanted], wanted), (checked, focus)
        )
    desk.check(
        "the bytes of UTIL are shown",
        desk.text("#picture-segment h3") == "07 UTIL, wanted unit",
        desk.text("#picture-segment"),
    )
    document = links(desk, SAMPLES, LINKS)
    at_util = [it for it in document["references"] if it["slot"] == 7]
    desk.value("document.querySelector('pre.hex').focus()")
    told = []
    for _ in at_util:
        desk.key("ArrowRight")
        told.append(desk.text("#picture-segment .place"))
    pairs = lambda digits: " ".join(re.findall("..", digits))
    # in the order of the map: COUNT is base offset 3, and STATE 8
    values = {
        "COUNT": "displacement 0 + base offset 3 = 3",
        "STATE": "displacement 2 + base offset 8 = 10",
    }
    for number, (sentence, it) in enumerate(zip(told, at_util)):
        change = (
            f"{pairs(it['was'])} becomes {pairs(it['is'])}"
            if it["was"] != it["is"]
            else f"{pairs(it['is'])} is stored, as it was"
        )
        start = (f"{number + 1} of {len(at_util)}. Byte {it['at']} ({1024 + it['at']} of the "
                 f"linked file): {change}.")
        end = (
            f"{values[it['record']['name'].rstrip()]}."
            if it["record"]
            else "It is the number of the segment."
        )
        desk.check(
            f"what is told of place {number}",
            sentence.startswith(start) and sentence.endswith(end),
            (sentence, start, end),
        )
    desk.same(
        "each place is named by its operand",
        ["COUNT", "STATE+2", "number"],
        desk.value("[...document.querySelectorAll('pre.hex b')].map((it) => it.title)"),
    )
    desk.check(
        "the place is seen in the strip",
        desk.value("document.querySelector('#picture .here').getAttribute('d').length") > 10,
    )
    # the focus stays on the segment after the picture is drawn anew
    desk.value("document.querySelector('#picture .choice[aria-checked=\"true\"]').focus()")
    desk.browser.look(WIDE - 100, 900)
    desk.browser.until("document.querySelector('#picture svg').getAttribute('width') !== '912'")
    desk.same(
        "the focus stays after a redraw",
        2,
        desk.value(
            "[...document.querySelectorAll('#picture .choice')].indexOf(document.activeElement)"
        ),
    )
    desk.key("Escape")
    desk.check("Escape chooses none", not desk.is_seen("#picture-segment"))


def of_dictionary(desk):
    """Block 0 before and after, field by field."""
    desk.browser.look(WIDE, 900)
    desk.begin()
    desk.choose(*at(SAMPLES, "host.code", "using.code", "used.code"))
    into_view(desk)
    desk.press("#picture .choice .name.plain")
    desk.same(
        "block 0 is chosen", "Block 0, the segment dictionary", desk.text("#picture-segment h3")
    )
    # UTIL gets an address and a length in slot 7, AUX a whole entry in slot 8, and the kinds become
    # 0
    wanted = [
        "address of slot 7",
        "length of slot 7",
        "address of slot 8",
        "length of slot 8",
        "name of slot 8",
        "kind of slot 1",
        "kind of slot 7",
    ]
    desk.same(
        "each field that the link changes",
        wanted,
        desk.value(
            "[...new Map([...document.querySelectorAll('pre.hex b')].map((it) => "
            "[it.dataset.place, it.title])).values()]"),
    )
    desk.value("document.querySelector('pre.hex').focus()")
    desk.key("Home")
    desk.same(
        "what is told of a field",
        "1 of 7. Byte 28 (28 of the linked file): 00 00 becomes 02 00. It is the address of slot "
        "7.",
        desk.text("#picture-segment .place"),
    )


# ---- Files that are refused


def rectangles(start, size):
    """How many rectangles some bytes of a strip are: whole rows that follow one another are one."""
    before = min(size, -start % 512)
    whole, after = divmod(size - before, 512)
    return (before > 0) + (whole > 0) + (after > 0)


def of_refused(desk, folder):
    """Where the fault is: the entry and the record have a frame, and words beside it."""
    (folder / "cut.code").write_bytes((SAMPLES / "using.code").read_bytes()[:1070])
    (folder / "text.code").write_text("program demo;\n" * 60)
    for names, told, rows in (
        (["host.code", "cut.code"], "entry 2 UTIL, record 1", [(1, 1056, 14)]),
        (
            ["host.code"],
            "entry 7 UTIL",
            [(0, 28, 2), (0, 30, 2), (0, 120, 8), (0, 206, 2), (0, 238, 2)],
        ),
        (["host.code", "text.code"], "the file", [(1, 0, 840)]),
    ):
        (folder / "host.code").write_bytes((SAMPLES / "host.code").read_bytes())
        what = " ".join(names)
        desk.browser.look(WIDE, 900)
        desk.begin()
        desk.choose(*at(folder, *names))
        into_view(desk)
        desk.same(
            f"{what}: what has a frame",
            f"The files are refused. The frame is around {told} of {names[rows[0][0]]}.",
            desk.text("#picture-told"),
        )
        desk.same(f"{what}: the words beside it", told, desk.text("#picture text.wrong"))
        x, y, width, unit = desk.value(
            f"(() => {{ const it = document.querySelectorAll('#picture .strip "
            f".paper')[{5 + rows[0][0]}], of = (name) => Number(it.getAttribute(name)); "
            "return [of('x'), of('y'), of('width'), of('height') / "
            f"{-(-(folder / names[rows[0][0]]).stat().st_size // 512)}]; }})()")
        frames = desk.value(AREAS.format(selector="#picture path.fault"))[0]
        left, top = min(it[0] for it in frames), min(it[1] for it in frames)
        first = min(start for _, start, _ in rows)
        desk.check(
            f"{what}: the frame is where the bytes are",
            abs(left - x - width * (first % 512) / 512) < 0.1
            and abs(top - y - unit * (first // 512)) < 0.1,
            (frames, x, y, width, unit),
        )
        desk.same(
            f"{what}: so many frames",
            sum(rectangles(start, size) for _, start, size in rows),
            len(frames),
        )
        desk.check(
            f"{what}: there is nothing to choose",
            desk.value(CHOICES) == [] and not desk.is_seen("#picture-table"),
        )


def of_large(desk, folder):
    """A word where there is no picture, and a picture only once it comes into view."""
    (folder / "large.code").write_bytes((SAMPLES / "library.code").read_bytes() + bytes(LARGE))
    desk.browser.look(1280, 757)
    desk.begin()
    desk.choose(SAMPLES / "host.code", folder / "large.code")
    desk.same(
        "why there is no picture",
        "There is no picture of files of more than 4 MiB: large.code.",
        desk.text("#picture-told"),
    )
    desk.check(
        "and none is there",
        desk.value("document.querySelector('#picture svg')") is None
        and not desk.is_seen("#save-picture"),
    )
    (folder / "many.po").write_bytes(many(77).bytes())
    desk.begin()
    desk.choose(folder / "many.po", *at(SAMPLES, *LINKS))
    desk.value("scrollTo(0, 0)")
    desk.settle()
    desk.check(
        "nothing is drawn before it comes into view",
        desk.value("document.querySelector('#picture svg')") is None and desk.is_seen("#pictured"),
    )
    desk.check("it is drawn then", into_view(desk))
    desk.press("#remove-all")
    desk.check("no picture is left of no files", not desk.is_seen("#pictured"))


# ---- What is saved


def of_saved(desk, folder):
    """The file that is saved is that of the command for node, stands by itself, and has names as
    text."""
    odd = "<b>&\"quotes'.code"
    (folder / odd).write_bytes((SAMPLES / "host.code").read_bytes())
    (folder / "library.code").write_bytes((SAMPLES / "library.code").read_bytes())
    (folder / "cut.code").write_bytes((SAMPLES / "using.code").read_bytes()[:1070])
    for names, status in (([odd, "library.code"], 0), ([odd, "cut.code"], 1)):
        desk.browser.look(WIDE, 900)
        desk.begin()
        desk.choose(*at(folder, *names))
        into_view(desk)
        desk.press("#save-picture")
        saved = desk.browser.took("_b_&_quotes'.picture.svg")
        made = subprocess.run(
            ["node", ROOT / "web/pslink.mjs", "picture", "-o", "made.svg", "--", *names],
            cwd=folder,
            capture_output=True,
            check=False,
        )
        desk.same(f"{names[1]}: the status of the command", status, made.returncode)
        desk.same(
            f"{names[1]}: the command writes what the page saves",
            (folder / "made.svg").read_bytes(),
            saved,
        )
        root = xml.fromstring(saved or b"<none/>")
        names_of = {it.tag.split("}")[1] for it in root.iter()}
        desk.check(
            f"{names[1]}: it has shapes, words and styles alone",
            names_of
            <= {"svg", "title", "desc", "style", "g", "path", "rect", "text", "defs", "pattern"},
            names_of,
        )
        desk.same(
            f"{names[1]}: no address is in it",
            ["http://www.w3.org/2000/svg"],
            re.findall(r"\w+://[^\s\"]+", (saved or b"").decode()),
        )
        desk.check(
            f"{names[1]}: a name is text",
            odd in [f"{it.text or ''}"[2:] for it in root.iter() if it.tag.endswith("}text")],
        )
        if desk.browser.has_looks:
            by_itself(desk, folder / "made.svg", names[1])


PAPER = "getComputedStyle(document.documentElement).backgroundColor"


def by_itself(desk, path, what):
    """The file opened by itself is light or dark, as the window is."""
    papers = []
    for is_dark in (False, True):
        desk.browser.look(WIDE, 900, is_dark)
        desk.opened.add(path.as_uri())
        desk.browser.go(path.as_uri())
        desk.browser.until("document.querySelector('svg text') !== null")
        papers.append(desk.value(PAPER))
    desk.same(
        f"{what}: its paper in light and dark", ["rgb(255, 255, 255)", "rgb(22, 23, 27)"], papers
    )
    desk.browser.look()


# ---- How it looks

LOOKS = (
    # (the width, whether it is dark, the files, the segment that is chosen, and a picture with its
    # height)
    (1000, False, "ledger", None, "picture.png", 1420),
    (1000, True, "ledger", 8, "picture-segment.png", 1420),
    (375, True, "ledger", 7, "picture-narrow.png", 1420),
    (1000, False, "refused", None, "picture-refused.png", 840),
    (320, False, "ledger", 16, None, 0),
    (850, False, "ledger", 1, None, 0),
    (905, True, "samples", 7, None, 0),
)


def of_looks(desk, folder):
    """No word is outside of its panel, and the page is not too wide, from a phone to a desk, in
    light and dark; and the pictures."""
    for name, content in page_ledger.ledger().items():
        (folder / name).write_bytes(content)
    (folder / "cut_base.code").write_bytes(page_ledger.ledger()["base.code"][:4700])
    files = {
        "ledger": at(folder, "ledger.code", "terminal.code", "base.code", "old_base.code"),
        "samples": at(SAMPLES, *LINKS),
        "refused": at(folder, "ledger.code", "terminal.code", "cut_base.code"),
    }
    for width, is_dark, given, slot, picture, height in LOOKS:
        what = f"{width} wide, {'dark' if is_dark else 'light'}, {given}"
        desk.browser.look(width, 900, is_dark)
        desk.begin()
        desk.choose(*files[given])
        into_view(desk)
        if slot is not None:
            desk.press(f"#picture .choice[data-slot='{slot}'] .name")
        desk.same(f"{what}: no word is outside of its panel", [], desk.value(OUTSIDE))
        desk.same(f"{what}: nothing is too wide", 0, desk.value(WIDER))
        if desk.pictures and picture and desk.browser.has_looks:
            desk.value("document.activeElement.blur()")
            desk.browser.shot_of("#pictured", desk.pictures / picture, height)
    desk.browser.look()


def drawing(desk, folder):
    of_samples(desk)
    of_bytes(desk)
    of_dictionary(desk)
    of_refused(desk, folder)
    of_large(desk, folder)
    of_saved(desk, folder)
    of_looks(desk, folder)


# ---- Files that change while they are looked at


def late_picture(desk, folder):
    """While files are looked at there is no picture of the ones before, and one that comes late is
    not drawn."""
    if not desk.browser.has_scripts:
        return
    before = desk.browser.before_each_page(HELD)
    desk.begin()
    desk.choose(*at(SAMPLES, *LINKS))
    into_view(desk)
    desk.value("hold(1)")
    desk.value("document.querySelector('#files li:nth-child(2) .remove').click()")
    desk.check("a link is waited for", desk.browser.until("Boolean(window.letGo)"))
    desk.same(
        "there is no picture of the files before",
        (None, [], ""),
        (
            desk.value("document.querySelector('#picture svg')"),
            desk.value(CHOICES),
            desk.text("#picture-told"),
        ),
    )
    desk.value("letGo()")
    desk.settle()
    into_view(desk)
    desk.check(
        "it is of the newer files then",
        desk.text("#picture-told").startswith("The files are refused. "),
        desk.text("#picture-told"),
    )
    # a file that is added is looked at by three calls; then come the link, the report, and the
    # units; and then the documents of the picture
    desk.value("(() => { window.letGo = null; hold(7); })()")
    desk.browser.give("#choose", [SAMPLES / "library.code"])
    desk.check("a document is waited for", desk.browser.until("Boolean(window.letGo)"))
    desk.value("document.querySelector('#files li:nth-child(2) .remove').click()")
    desk.check(
        "the newer picture is there",
        desk.browser.until(
            "document.getElementById('picture-told').textContent.startsWith('The files are "
            "refused. ')"),
    )
    desk.value("letGo()")
    desk.settle()
    desk.check(
        "and stays",
        desk.text("#picture-told").startswith("The files are refused. ")
        and desk.value(CHOICES) == [],
        desk.text("#picture-told"),
    )
    desk.browser.no_more(before)


PARTS = [drawing, late_picture]
