"""What a person sees and does on the page, by what is on the screen of a desk and of a phone."""
import gzip

import page_forms
import volumes
from page_files import BOXES, SAMPLES, at, disk, linked_as, many, today

SCREENS = ((1280, 757), (375, 812))  # a window of 1280x900 has this much for a page

RECTANGLE = ("(() => {{ const it = document.querySelector({}).getBoundingClientRect(); return "
             "[it.left, it.top, it.right, it.bottom]; }})()")
COVERED = """[...document.querySelectorAll('.entries input')].filter((it) => {
  const {left, top, width, height} = it.getBoundingClientRect();
  const [x, y] = [left + width / 2, top + height / 2];
  return it === document.activeElement && y > 0 && y < innerHeight
    && document.elementFromPoint(x, y) !== it; }).length"""


def volume_of(contents, name="DISK", blocks=280):
    """A volume with these code files one behind the other, by their names."""
    files, image = [], bytearray(6 * 512)
    for file, content in contents.items():
        first = len(image) // 512
        image += content.ljust(-(-len(content) // 512) * 512, b"\0")
        files.append(volumes.File(file, first, len(image) // 512, len(content) % 512 or 512, 2))
    return volumes.Volume(name, blocks, files, bytes(image.ljust(512 * blocks, b"\0")))


def screens(desk):
    """Each screen in turn, if the browser can have it; and else the window that it has."""
    if not desk.browser.has_windows:
        yield tuple(desk.value("[innerWidth, innerHeight]"))
        return
    for width, height in SCREENS:
        desk.browser.look(width, height)
        yield width, height
    desk.browser.look()


def rectangle(desk, selector):
    return desk.value(RECTANGLE.format(repr(selector)))


def is_in_window(desk, selector, size):
    if not desk.browser.has_windows:
        return True
    left, top, right, bottom = rectangle(desk, selector)
    return 0 <= left < right <= size[0] and 0 <= top < bottom <= size[1]


def tick(desk, number):
    """Ticks a box where it is in the window, without moving the page, as a mouse does."""
    left, top, right, bottom = rectangle(desk, BOXES.format(number))
    desk.browser.click_at(round((left + right) / 2), round((top + bottom) / 2))
    desk.settle()


# ---- The verdict


def verdict(desk, folder):
    """After each tick the verdict is in the window with what it says, and neither a box nor what is
    above it has moved."""
    (folder / "many.po").write_bytes(many(77).bytes())
    for size in screens(desk):
        for first in (1, 40, 76):
            desk.begin()
            desk.choose(folder / "many.po")
            desk.value(
                f"document.querySelector({BOXES.format(first)!r}).scrollIntoView({{block: "
                f"'center'}})")
            what = f"{size[0]} wide, file {first}"
            desk.check(
                f"{what}: the verdict says what to do",
                desk.outcome()[0] == "Choose the files to link."
                and is_in_window(desk, "#verdict", size),
                desk.outcome(),
            )
            for number, kind in (
                (first, "bad"),
                (first + 1, "good"),
                (first + 1, "bad"),
                (first, ""),
            ):
                before = [
                    rectangle(desk, it) for it in (BOXES.format(number), "#verdict", "#drop", "h1")
                ]
                tick(desk, number)
                desk.same(
                    f"{what}, tick {number}: nothing moves",
                    before,
                    [
                        rectangle(desk, it)
                        for it in (BOXES.format(number), "#verdict", "#drop", "h1")
                    ],
                )
                desk.check(
                    f"{what}, tick {number}: the verdict is in the window",
                    is_in_window(desk, "#outcome strong", size),
                    rectangle(desk, "#outcome strong"),
                )
                desk.same(
                    f"{what}, tick {number}: what is ticked is not covered", 0, desk.value(COVERED)
                )
                desk.same(f"{what}, tick {number}: the kind of the verdict", kind, desk.kind())
                if kind == "good":
                    desk.check(
                        f"{what}: the button that saves is in the window",
                        is_in_window(desk, "#save", size),
                        rectangle(desk, "#save"),
                    )
    verdict_of_files(desk, folder)


def of_low(desk, folder):
    """At 200 % a window is low, and the verdict leaves room for boxes."""
    desk.browser.look(640, 378)
    desk.begin()
    desk.choose(folder / "many.po")
    desk.value(f"document.querySelector({BOXES.format(9)!r}).scrollIntoView({{block: 'end'}})")
    before = rectangle(desk, BOXES.format(9))
    tick(desk, 9)
    _, top, _, bottom = rectangle(desk, "#verdict")
    same = before == rectangle(desk, BOXES.format(9))
    desk.check("200 %: the verdict takes less than half of the window, and no box moves",
               top >= 0 and bottom - top < 378 * 0.45 and same, (top, bottom, before))
    desk.browser.look()


def verdict_of_files(desk, folder):
    """The verdict on files that are dropped, on many libraries, and its first warning."""
    host = (SAMPLES / "host.code").read_bytes()
    (folder / "warned.code").write_bytes(host[:104] + b"NOBODY  " + host[112:])
    libraries = []
    for k in range(200):
        libraries.append(folder / f"library{k}.code")
        libraries[-1].write_bytes((SAMPLES / "library.code").read_bytes())
    for size in screens(desk):
        desk.begin()
        desk.choose(SAMPLES / "host.code", *libraries)
        desk.check(
            f"{size[0]} wide, 200 libraries: the verdict and its button are in the window",
            is_in_window(desk, "#outcome strong", size) and is_in_window(desk, "#save", size),
            rectangle(desk, "#save"),
        )
        desk.begin()
        desk.choose(folder / "warned.code", SAMPLES / "library.code")
        line = next(
            it
            for it in desk.printed(
                folder, "check", ["warned.code", str(SAMPLES / "library.code")]
            ).splitlines()
            if it.startswith("warning: ")
        )
        desk.check(
            f"{size[0]} wide: the verdict has the first warning's words",
            desk.outcome()[:2] == ["The files link, with warnings.", line]
            and is_in_window(desk, "#outcome p", size),
            desk.outcome(),
        )
    if desk.browser.has_windows:
        of_low(desk, folder)
    # a control that has the focus is not under the verdict
    desk.begin()
    desk.choose(folder / "many.po")
    for k in range(3, 12):
        desk.value(
            f"(() => {{ scrollTo(0, "
            f"document.querySelector({BOXES.format(k)!r}).getBoundingClientRect().top + scrollY); "
            f"}})()")
        desk.value(f"document.querySelector('.entries li:nth-child({k}) input').focus()")
        desk.same(f"the focus on file {k} is not covered", 0, desk.value(COVERED))


# ---- A volume that helps to choose

UNITS = ("[...document.querySelectorAll('.entries li')].map((it) => "
         "[it.querySelector('.name').textContent, it.querySelector('.units').textContent])")


def choosing(desk, folder):
    """What entries have and want, what has a unit that is missing, and each file of a volume by
    itself."""
    contents = {
        "HOST.CODE": "host.code",
        "USING.CODE": "using.code",
        "USED.CODE": "used.code",
        "LIBRARY.CODE": "library.code",
        "PAIR.CODE": "two_units.code",
    }
    image = volume_of({name: (SAMPLES / sample).read_bytes() for name, sample in contents.items()})
    (folder / "disk.po").write_bytes(image.bytes())
    for size in screens(desk):
        desk.begin()
        desk.choose(folder / "disk.po")
        desk.same(
            "what each entry has and wants",
            [
                ["HOST.CODE", "wants UTIL"],
                ["USING.CODE", "wants AUX; has UTIL"],
                ["USED.CODE", "has AUX"],
                ["LIBRARY.CODE", "has UTIL"],
                ["PAIR.CODE", "has UTIL, AUX"],
            ],
            desk.value(UNITS),
        )
        desk.press(BOXES.format(1))
        desk.same(
            "what has the unit is named",
            [
                "DISK:USING.CODE has UTIL.",
                "DISK:LIBRARY.CODE has UTIL.",
                "DISK:PAIR.CODE has UTIL.",
            ],
            desk.outcome()[2:5],
        )
        desk.check(
            "and it is in the window",
            is_in_window(desk, "#outcome p:nth-child(3)", size),
            rectangle(desk, "#outcome p:nth-child(3)"),
        )
        desk.check(
            "so is its button",
            is_in_window(desk, "#offers button", size)
            and desk.text("#offers button") == "Take DISK:USING.CODE",
            desk.text("#offers"),
        )
        desk.press("#offers button:nth-child(1)")
        desk.same(
            "its button takes it, and what that wants is named",
            (
                ["DISK:HOST.CODE", "DISK:USING.CODE"],
                ["DISK:USED.CODE has AUX.", "DISK:PAIR.CODE has AUX."],
            ),
            (desk.order(), desk.outcome()[2:4]),
        )
        desk.same(
            "its box is ticked",
            [True, True, False, False, False],
            desk.value("[...document.querySelectorAll('.entries input')].map((it) => it.checked)"),
        )
        desk.press("#offers button:nth-child(1)")
        desk.same(
            "and so is what that wants",
            ("good", ["DISK:HOST.CODE", "DISK:USING.CODE", "DISK:USED.CODE"], 0),
            (
                desk.kind(),
                desk.order(),
                desk.value("document.querySelectorAll('#offers button').length"),
            ),
        )
        desk.same("the focus stays with the verdict", "outcome", desk.focus())
    for number, (name, sample) in enumerate(contents.items()):
        desk.press(f".entries li:nth-child({number + 1}) button")
        desk.same(
            f"{name} is saved as it is", (SAMPLES / sample).read_bytes(), desk.browser.took(name)
        )
    desk.same("that is told", "Saved: PAIR.CODE of DISK.", desk.told())
    of_rows(desk)


def of_rows(desk):
    """A file that was removed has the unit; any file as the host; and all files away."""
    desk.begin()
    desk.choose(*at(SAMPLES, "host.code", "library.code"))
    desk.press("#files li:nth-child(2) .remove")
    desk.same(
        "a file that was removed has it",
        ("library.code has UTIL.", "Take library.code"),
        (desk.outcome()[2], desk.text("#offers")),
    )
    desk.press("#offers button")
    desk.same(
        "it is taken again", (["host.code", "library.code"], "good"), (desk.order(), desk.kind())
    )
    desk.begin()
    desk.choose(*at(SAMPLES, "host.code", "library.code", "nine.code", "two_units.code"))
    desk.press("#files li:nth-child(4) .host")
    desk.same(
        "the fourth file as host",
        (["two_units.code", "host.code", "library.code", "nine.code"], "good"),
        (desk.order(), desk.kind()),
    )
    desk.check(
        "that is told",
        desk.told().startswith("two_units.code is now the host. The files link."),
        desk.told(),
    )
    desk.same(
        "the host has no such button",
        True,
        desk.value("document.querySelector('#files li .host').disabled"),
    )
    desk.press("#remove-all")
    desk.same("no file is left", ([], None, "choose"), (desk.order(), desk.outcome(), desk.focus()))
    desk.same("that is told", "All files are removed. There are no files.", desk.told())


# ---- Files that are no code files as they are


def converted(desk, folder):
    """What the page offers for a file that is no code file, and the program's answer for what comes
    of it."""
    host, library = ((SAMPLES / name).read_bytes() for name in ("host.code", "library.code"))
    (folder / "host.code").write_bytes(host)
    for number, (name, make, told, words, named) in enumerate(page_forms.FORMS):
        (folder / name).write_bytes(make(library))
        if number % 8 == 0:
            desk.browser.look(*SCREENS[number // 8 % 2])
        size = SCREENS[number // 8 % 2]
        desk.begin()
        desk.choose(folder / "host.code", folder / name)
        desk.same(
            f"{name}: what the page says of it",
            ["The files are refused.", f"{name} {told}."],
            desk.outcome()[:2],
        )
        desk.same(
            f"{name}: its row says it", f"It {told}.", desk.text("#files li:nth-child(2) .warning")
        )
        desk.check(
            f"{name}: its button is in the window",
            is_in_window(desk, "#offers button", size),
            rectangle(desk, "#offers"),
        )
        desk.same(f"{name}: the button", words, desk.text("#offers button"))
        desk.press("#offers button" if number % 2 else "#files li:nth-child(2) .convert")
        own = f"{name}, {named}"
        (folder / own).write_bytes(library)
        desk.same(f"{name}: a row of its own in its place", ["host.code", own], desk.order())
        desk.same(
            f"{name}: what the program says of what comes of it",
            [desk.printed(folder, "check", ["host.code", own])],
            desk.shown("check"),
        )
        desk.same(
            f"{name}: the linked file",
            desk.linked(folder, ["host.code", own]),
            linked_as(desk, "host.linked.code"),
        )
    desk.browser.look()
    as_host(desk, folder)
    other_images(desk, folder)


def as_host(desk, folder):
    """A host that is packed is put first, and names are made of its own; an image that is packed is
    opened; and what is cut is left as it is."""
    host = (SAMPLES / "host.code").read_bytes()
    (folder / "program.code.gz").write_bytes(gzip.compress(host))
    (folder / "disk.po.gz").write_bytes(gzip.compress(disk(folder).bytes()))
    (folder / "cut.code.gz").write_bytes(gzip.compress(host)[:-30])
    desk.begin()
    desk.choose(SAMPLES / "library.code", folder / "program.code.gz")
    desk.press("#files li:nth-child(2) .convert")
    desk.same(
        "a host that was packed is first",
        (["program.code.gz, unpacked", "library.code"], "good"),
        (desk.order(), desk.kind()),
    )
    desk.same(
        "the name of the linked file is made of its own",
        desk.linked(SAMPLES, ["host.code", "library.code"]),
        linked_as(desk, "program.linked.code"),
    )
    desk.begin()
    desk.choose(folder / "disk.po.gz")
    desk.press("#offers button")
    desk.same(
        "an image that was packed is opened",
        ([], ["DISK:"]),
        (desk.order(), [name for name, _ in desk.volumes()]),
    )
    desk.begin()
    desk.choose(folder / "cut.code.gz")
    desk.check(
        "what cannot be unpacked is told",
        desk.outcome()[1] == "cut.code.gz: This is a gzip file. Unpack it first."
        and desk.value("document.querySelectorAll('#offers button, .convert').length") == 0,
        desk.outcome(),
    )


def other_images(desk, folder):
    """An image in an order that is not opened is told as what it is, and not as a code file."""
    image = disk(folder).bytes()
    (folder / "cpm.dsk").write_bytes(volumes.by_sectors(volumes.BY_CPM)(image))
    (folder / "disk.dsk").write_bytes(volumes.by_sectors(volumes.ON_DISK)(image))
    (folder / "nibbles.nib").write_bytes(bytes(range(200, 232)) * 7280)
    said = ("This image has its sectors in the order of CP/M, or as they lie on the disk. Make an "
            "image of it that has its blocks in order.")
    for name in ("cpm.dsk", "disk.dsk"):
        desk.begin()
        desk.choose(folder / name)
        desk.same(
            f"{name}: an image in another order",
            ["The files are refused.", f"{name}: {said}"],
            desk.outcome()[:2],
        )
        desk.same(f"{name}: its row says it too", said, desk.text("#files li .warning"))
    desk.begin()
    desk.choose(folder / "nibbles.nib")
    desk.same(
        "an image of nibbles",
        "nibbles.nib: This may be a disk image of nibbles. Make an image of it that has its blocks "
        "in order.",
        desk.outcome()[1],
    )


# ---- A sample


def sample(desk, folder):
    """One click shows a link of the disk that the samples have."""
    disk_bytes = (SAMPLES / "disk.po").read_bytes()
    (folder / "sample.po").write_bytes(disk_bytes)
    for size in screens(desk):
        desk.begin()
        desk.check(
            "the button is in the window",
            is_in_window(desk, "#sample", size),
            rectangle(desk, "#sample"),
        )
        desk.press("#sample")
        desk.same(
            "a volume with a program and its units is open, and they link",
            (["DISK:"], ["DISK:HOST.CODE", "DISK:LIBRARY.CODE"], "good", True),
            (
                [name for name, _ in desk.volumes()],
                desk.order(),
                desk.kind(),
                is_in_window(desk, "#outcome strong", size),
            ),
        )
        desk.same(
            "the linked file is that of the samples",
            desk.linked(SAMPLES, ["host.code", "library.code"]),
            linked_as(desk, "HOST.LINKED.CODE"),
        )
        desk.check("nothing is offered to begin with then", not desk.is_seen("#sample"))
    before = desk.volumes()
    desk.begin()
    desk.choose(folder / "sample.po")
    desk.same("it is the disk of the samples, each byte of it", before, desk.volumes())
    desk.press(BOXES.format(1))
    desk.press(BOXES.format(2))
    desk.press("#put")
    put = desk.browser.took("sample.linked.po")
    desk.begin()
    desk.press("#sample")
    desk.press("#put")
    desk.same("also where no file is", put, desk.browser.took("sample.linked.po"))


# ---- The linked file onto a volume, again and again


def copies(desk, folder):
    """A second program goes onto the copy that was made last, under a name that no file of it has;
    and what cannot be put is said before."""
    names = {
        "PAYROLL.CODE": "two_units.code",
        "PAYROLL2.CODE": "nine.code",
        "PAYROLLED.CODE": "procedures.code",
        "LIBRARY.CODE": "library.code",
    }
    volume = volume_of({name: (SAMPLES / sample).read_bytes() for name, sample in names.items()})
    (folder / "disk.po").write_bytes(volume.bytes())
    for size in screens(desk):
        current, offered = volume, []
        desk.begin()
        desk.choose(folder / "disk.po")
        for number, host, files in (
            (1, "PAYROLL.CODE", ["two_units.code"]),
            (2, "PAYROLL2.CODE", ["nine.code"]),
            (3, "PAYROLLED.CODE", ["procedures.code", "library.code"]),
        ):
            desk.press(BOXES.format(number))
            if len(files) > 1:
                desk.press(BOXES.format(4))
            desk.value("document.getElementById('put').scrollIntoView({block: 'center'})")
            offered.append(desk.value("document.getElementById('put-name').value"))
            desk.check(
                f"{size[0]} wide, {host}: where it gets is in the window with the button",
                desk.text("#put-what") == "As a new file of DISK."
                and is_in_window(desk, "#put-what", size)
                and is_in_window(desk, "#put", size),
                desk.text("#put-what"),
            )
            desk.press("#put")
            current, _ = volumes.put(current, offered[-1], desk.linked(SAMPLES, files), today(desk))
            desk.same(
                f"{host}: the copy has it, and what was put before",
                current.bytes(),
                desk.browser.took("disk.linked.po"),
            )
            desk.check(
                f"{host}: the page says with which image it goes on",
                is_in_window(desk, "#put-last", size)
                and desk.text("#put-last").startswith(
                    f"It goes on with disk.linked.po, which has {', '.join(offered)}. "
                ),
                desk.text("#put-last"),
            )
            desk.press(BOXES.format(number))
        desk.same(
            "no two names that are offered are the same",
            ["PAYROLL.L.CODE", "PAYROLL2.L.CODE", "PAYROLLE.L.CODE"],
            offered,
        )
    go_back(desk, folder, volume)
    warned(desk, folder)
    refusals(desk, folder)


def go_back(desk, folder, volume):
    """A person can go back to the image that was given; and a name that was written is for one
    host."""
    desk.press(BOXES.format(4))
    desk.press(BOXES.format(2))
    desk.same(
        "a name that is taken on the copy is not offered",
        "PAYROLL3.L.CODE",
        desk.value("document.getElementById('put-name').value"),
    )
    desk.press("#put-last button")
    desk.check("the image that was given is gone on with", not desk.is_seen("#put-last"))
    desk.press("#put")
    after, _ = volumes.put(
        volume, "PAYROLL3.L.CODE", desk.linked(SAMPLES, ["nine.code"]), today(desk)
    )
    desk.same("the next copy is of that alone", after.bytes(), desk.browser.took("disk.linked.po"))
    desk.write("#save-name", "mine.code")
    desk.press(BOXES.format(2))
    desk.press(BOXES.format(1))
    desk.same(
        "a name that was written is not for another host",
        "PAYROLL.LINKED.CODE",
        desk.value("document.getElementById('save-name').value"),
    )
    desk.choose(folder / "disk.po")
    desk.same(
        "an image that is open twice has two names",
        ["DISK: of disk.po", "DISK: of disk.po (2)"],
        desk.value(
            "[...document.querySelectorAll('#put-volume option')].map((it) => it.textContent)"
        ),
    )


STYLE = "getComputedStyle(document.querySelector({!r})).{}"


def warned(desk, folder):
    """That the unlinked host is lost looks like a warning; and so does a name that the p-System
    does not run."""
    desk.begin()
    desk.press("#sample")
    desk.write("#put-name", "HOST.CODE")
    desk.same(
        "the host would be replaced",
        ("It is the host: the unlinked host is then in the old image alone.", False),
        (desk.text("#put-warnings"), desk.value("document.getElementById('put').disabled")),
    )
    look = [
        desk.value(STYLE.format("#put-warnings p", part)) for part in ("color", "backgroundColor")
    ]
    plain = [desk.value(STYLE.format("#put-what", part)) for part in ("color", "backgroundColor")]
    desk.check(
        "it looks like a warning", look[0] != plain[0] and look[1] != plain[1], (look, plain)
    )
    desk.press("#put")
    desk.browser.took("sample.linked.po")
    desk.same("on the copy it is the linked file", "", desk.text("#put-warnings"))
    desk.write("#put-name", "DEMO")
    desk.same(
        "a name without its ending",
        "A file that the p-System runs has a name that ends with .CODE.",
        desk.text("#put-warnings"),
    )
    # a volume of small letters
    small = volume_of({"host.code": (SAMPLES / "host.code").read_bytes()}, "small")
    (folder / "small.po").write_bytes(small.bytes())
    desk.begin()
    desk.choose(folder / "small.po", SAMPLES / "host.code", SAMPLES / "library.code")
    for name in ("HOST.CODE", "Host.Code"):
        desk.write("#put-name", name)
        desk.check(
            f"{name} is in place of the file in small letters",
            desk.text("#put-what").startswith("In place of host.code, 1536 bytes,")
            and desk.text("#put-warnings").startswith("It is the host: "),
            desk.text("#put-what"),
        )


def refusals(desk, folder):
    """What a put would refuse is said before the button."""
    equal = volume_of({"A.CODE": b"1", "B.CODE": b"2", "C.CODE": b"3"})
    for file in equal.files:
        file.name = "HOST.CODE"
    damaged = bytearray(disk(folder).bytes())
    damaged[2 * 512 + 26 * 2 + 2] = 30
    given = {
        "full.po": (
            many(77).bytes(),
            "NEW.CODE",
            "The directory of MANY is full: it has 77 files, and no room for another.",
        ),
        "damaged.po": (
            bytes(damaged),
            "NEW.CODE",
            "Nothing is put onto the volume DISK, as it is not sound.",
        ),
        "equal.po": (
            equal.bytes(),
            "HOST.CODE",
            'The volume DISK has 3 files "HOST.CODE". Remove all but one of them.',
        ),
    }
    for name, (content, on_it, said) in given.items():
        (folder / name).write_bytes(content)
        for size in screens(desk):
            desk.begin()
            desk.choose(folder / name, SAMPLES / "host.code", SAMPLES / "library.code")
            desk.write("#put-name", on_it)
            desk.value("document.getElementById('put').scrollIntoView({block: 'center'})")
            desk.check(
                f"{name}: the refusal is said before the button",
                desk.text("#put-what").startswith(said)
                and is_in_window(desk, "#put-what", size)
                and desk.value("document.getElementById('put').disabled"),
                desk.text("#put-what"),
            )


# ---- Back, long work, and what is said


def returning(desk, folder):
    """Back leads to what was seen before a link to the manual was followed, and forward to the
    manual again."""
    link = "#outcome a[href='#manual-diagnostics-13']"
    top = "document.querySelector('#manual-diagnostics-13').getBoundingClientRect().top"
    is_shown = f"{top} > -1 && {top} < innerHeight / 2"
    for width, height in screens(desk):
        desk.begin()
        desk.choose(SAMPLES / "host.code")
        desk.value(f"document.querySelector({link!r}).scrollIntoView({{block: 'center'}})")
        before = desk.value("scrollY")
        desk.press(link)
        desk.check(
            f"{width} wide: the link leads to the manual",
            desk.browser.until(f"scrollY > 1000 && {is_shown}"),
            (before, desk.value("scrollY"), desk.value(top)),
        )
        desk.value("history.back()")
        desk.check(
            f"{width} wide: back comes back",
            desk.browser.until(f"Math.abs(scrollY - {before}) < 2", 3),
            (before, desk.value("scrollY")),
        )
        desk.value("history.forward()")
        desk.check(
            f"{width} wide: and forward goes forth",
            desk.browser.until(f"scrollY > 1000 && {is_shown}", 3),
            (before, desk.value("scrollY"), desk.value(top)),
        )


def closing(desk, folder):
    """Flaws of a volume are three and a number; a volume that is closed takes its files along, and
    leaves the others."""
    wrong = bytearray(disk(folder).bytes())
    wrong[2 * 512 + 16] = 73  # 70 files more than there are
    (folder / "wrong.po").write_bytes(wrong)
    (folder / "disk.po").write_bytes(disk(folder).bytes())
    for size in screens(desk):
        desk.begin()
        desk.choose(folder / "wrong.po")
        desk.same(
            "three flaws and a number",
            (3, "and 67 more", False),
            (
                desk.value("document.querySelectorAll('.volume > .warning').length"),
                desk.text(".volume .flaws summary"),
                desk.is_seen(".volume .flaws p"),
            ),
        )
        desk.value("document.querySelector('.volume').scrollIntoView()")
        desk.press(".volume .flaws summary")
        desk.same(
            "the others are shown when one asks",
            (67, True),
            (
                desk.value("document.querySelectorAll('.volume .flaws p').length"),
                desk.is_seen(".volume .flaws p"),
            ),
        )
    desk.choose(folder / "disk.po", SAMPLES / "library.code")
    desk.press(".volume:nth-child(1) .entries li:nth-child(1) label")
    desk.press(".volume:nth-child(2) .entries li:nth-child(2) label")
    desk.press(".volume:nth-child(1) .title button")
    desk.same(
        "a closed volume takes its files along, and no other",
        ["library.code", "DISK:LIBRARY.CODE"],
        desk.order(),
    )
    desk.check(
        "that is told",
        desk.told().startswith("DISK is closed. Removed: DISK:HOST.CODE. "),
        desk.told(),
    )
    (folder / "byte.code").write_bytes(b"1")
    (folder / "one.po").write_bytes(volume_of({"ONE.CODE": b"1"}).bytes())
    desk.begin()
    desk.choose(folder / "byte.code", folder / "one.po")
    told = desk.value(
        "[...document.querySelectorAll('#files .what, .entries .size, .entries .what')].map((it) "
        "=> it.textContent)")
    desk.check(
        "one byte is 1 byte",
        not any("1 bytes" in it for it in told) and sum("1 byte" in it for it in told) > 1,
        told,
    )


SHOWN = """(() => { window.shown = []; const draw = () => {
  const it = document.querySelector('#outcome strong');
  const {top, bottom} = it?.getBoundingClientRect() ?? {};
  if (it && top >= 0 && bottom <= innerHeight && window.shown.at(-1) !== it.textContent)
    window.shown.push(it.textContent);
  requestAnimationFrame(draw); }; draw(); })()"""


def working(desk, folder):
    """What is under way is on the screen while files of many megabytes are read and linked."""
    given = []
    for number in range(3):
        given.append(folder / f"large{number}.code")
        given[-1].write_bytes((SAMPLES / "library.code").read_bytes() + bytes(12 << 20))
    for size in screens(desk):
        desk.begin()
        desk.value(SHOWN)
        desk.choose(SAMPLES / "host.code", *given)
        wanted = [
            "Reading file 1 of 4: host.code ..",
            *(f"Reading file {k + 2} of 4: large{k}.code .." for k in range(3)),
            "Linking 4 files of 37 MiB ..",
            "Writing the report ..",
            "The files link.",
        ]
        desk.browser.until("window.shown.at(-1)?.startsWith('The files')", 3)
        desk.same(
            f"{size[0]} wide: what is under way is in the window",
            wanted,
            desk.value("window.shown"),
        )
    desk.begin()
    desk.value(SHOWN)
    desk.choose(SAMPLES / "host.code")
    desk.browser.until("window.shown.at(-1)?.startsWith('The files')", 3)
    desk.same(
        "nothing flickers where it is not long",
        ["The files are refused."],
        desk.value("window.shown"),
    )


def left(desk, folder):
    """The line of a file that was not read goes when other files are given."""
    if not desk.browser.has_drags:
        return
    desk.begin()
    desk.drop(SAMPLES)
    desk.same(
        "a folder is not read",
        "samples: The file cannot be read. It may be a folder, or gone.",
        desk.text("#lost"),
    )
    desk.browser.give("#choose", [SAMPLES / "host.code"])
    desk.browser.until("document.querySelectorAll('#files li').length === 1")
    desk.settle()
    desk.same(
        "its line is gone with the next files",
        ("", False),
        (desk.text("#lost"), desk.is_seen("#lost")),
    )


PARTS = [verdict, choosing, converted, sample, copies, returning, closing, working, left]
