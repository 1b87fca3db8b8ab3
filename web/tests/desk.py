"""What a person does on the page, in words, over a browser; what the page shows; and what the
program prints of the same files."""
import json
import pathlib
import re
import subprocess

WORDS = {"check": ["check"], "map": ["map"], "references": ["map", "--references"],
         "list": ["list"], "units": ["check", "--unit"], "show": ["show"]}
TEXTS = list(WORDS)

# The lines of the texts of a kind, one text after another: a line is an element, and a page shows
# the end of a line between two.
SHOWN = ("[...document.querySelectorAll('#texts details[data-text={kind}] pre')].map((it) => "
         "it.textContent + '\\n')")

CONTRASTS = """(() => {
  const parts = (color) => color.match(/[\\d.]+/g).map(Number);
  const luminance = (color) => parts(color).slice(0, 3).map((it) => it / 255)
    .map((it) => it <= 0.04045 ? it / 12.92 : ((it + 0.055) / 1.055) ** 2.4)
    .reduce((sum, it, k) => sum + it * [0.2126, 0.7152, 0.0722][k], 0);
  const behind = (it) => {
    for (; it; it = it.parentElement) {
      const color = getComputedStyle(it).backgroundColor;
      if ((parts(color)[3] ?? 1) > 0) return color;
    }
  };
  const ratio = (it) => {
    const [a, b] = [getComputedStyle(it).color, behind(it)].map(luminance).sort();
    return (b + 0.05) / (a + 0.05);
  };
  const walker = document.createTreeWalker(document.body, NodeFilter.SHOW_TEXT), low = [];
  for (let node; (node = walker.nextNode());) {
    const it = node.parentElement;
    if (node.data.trim() && it.checkVisibility() &&
        !it.closest("script, button:disabled, option") && ratio(it) < 4.5)
      low.push([node.data.trim(), ratio(it)]);
  }
  return low;
})()"""

OVERLAPS = """(() => {
  const kinds = "button, input:not(.unseen), select, summary, label, pre";
  const all = [...document.querySelectorAll(kinds)]
    .filter((it) => it.checkVisibility() && !it.matches(".entries input"));
  const box = (it) => it.getBoundingClientRect(), found = [];
  const name = (it) => it.id || it.getAttribute("aria-label") || it.textContent.slice(0, 40);
  all.forEach((a, k) => all.slice(k + 1).forEach((b) => {
    const [p, q] = [box(a), box(b)];
    if (!a.contains(b) && !b.contains(a) && p.left < q.right - 1 && q.left < p.right - 1 &&
        p.top < q.bottom - 1 && q.top < p.bottom - 1) found.push([name(a), name(b)]);
  }));
  const wide = document.documentElement.scrollWidth - document.documentElement.clientWidth;
  return wide > 0 ? [...found, ["the page is too wide by", wide]] : found;
})()"""

UNNAMED = """[...document.querySelectorAll(
  "button, input, select, summary, pre, ul, ol, section")].filter((it) => it.checkVisibility()
  && !it.matches("footer pre, ol:not([aria-labelledby])")
  && !(it.getAttribute("aria-label") || it.getAttribute("aria-labelledby")
       || it.textContent.trim() || it.labels?.length)).map((it) => it.outerHTML.slice(0, 200))"""

FOCUS = ("document.activeElement.id || document.activeElement.getAttribute('aria-label') || "
         "document.activeElement.textContent.trim().slice(0, 60)")


class Desk:
    """A browser with the page, and the program beside it."""

    def __init__(self, browser, page, program, pictures=None):
        self.browser, self.page, self.program, self.pictures = browser, pathlib.Path(
            page).resolve(), program, pictures
        self.passed = self.failed = 0
        self.opened = set()  # what was opened beside the page

    def check(self, what, is_right, told=""):
        if is_right:
            self.passed += 1
        else:
            self.failed += 1
            print(f"page: {what}: {told}"[:3000], flush=True)

    def same(self, what, wanted, got):
        if isinstance(wanted, bytes) and isinstance(got, bytes) and wanted != got:
            at = next(
                (k for k, (one, other) in enumerate(zip(wanted, got)) if one != other),
                min(len(wanted), len(got)))
            self.check(
                what, False,
                f"{len(wanted)} bytes are wanted, {len(got)} are there, and the first that differs "
                f"is byte {at}")
        else:
            self.check(
                what, wanted == got, f"\n--- wanted\n{wanted!r:.1200}\n--- got\n{got!r:.1200}")

    # ---- what is done

    def begin(self):
        """Opens the page anew."""
        self.browser.go("about:blank")
        self.browser.go(self.page.as_uri())
        return self.browser.until("document.documentElement.dataset.ready === 'yes'")

    def settle(self):
        self.value("new Promise((end) => setTimeout(() => setTimeout(end)))")
        if not self.browser.until("document.body.getAttribute('aria-busy') === 'false'", 60):
            self.check("the page comes to rest", False, self.value("document.body.innerText"))

    def value(self, expression):
        return self.browser.value(expression)

    def choose(self, *paths):
        """Gives files by the button, and waits until they are all there: as rows, as volumes, or as
        lost."""
        self.given(lambda: self.browser.give("#choose", paths), paths)

    def drop(self, *paths):
        self.given(lambda: self.browser.drop("#drop", paths), paths)

    def given(self, give, paths):
        there = ("document.querySelectorAll('#files li, .volume').length + "
                 "(document.getElementById('lost').hidden ? 0 : "
                 "document.getElementById('lost').textContent.split('\\n').length)")
        self.value("(() => { document.getElementById('lost').hidden = true; })()")
        before = self.value(there)
        give()
        if not self.browser.until(f"{there} === {before + len(paths)}"):
            self.check("files are taken", False, [
                *map(str, paths), self.value("document.body.innerText")])
        self.settle()

    def press(self, selector):
        self.browser.click(selector)
        self.settle()

    def key(self, key, held=0):
        self.browser.key(key, held)
        self.settle()

    def write(self, selector, text):
        """Writes into a field, in place of what is there."""
        self.browser.click(selector)
        self.value(f"document.querySelector({json.dumps(selector)}).select()")
        self.browser.write(text)

    def open_texts(self):
        for kind in TEXTS[1:]:
            self.press(f"#texts details[data-text={kind}] summary")
            self.browser.until(
                f"document.querySelector('#texts details[data-text={kind}] pre') !== null")
            self.settle()

    # ---- what is shown

    def order(self):
        return self.value(
            "[...document.querySelectorAll('#files .name')].map((it) => it.textContent)")

    def rows(self):
        return self.value(
            "[...document.querySelectorAll('#files li')].map((it) => ['role', 'name', 'what', "
            "'units'].map((part) => it.querySelector('.' + part).textContent))")

    def outcome(self):
        """The headline, and the sentences below it; None where there is none."""
        return self.value(
            "document.getElementById('verdict').hidden ? null : "
            "[...document.getElementById('outcome').children].map((it) => it.textContent)")

    def kind(self):
        return self.value("document.getElementById('outcome').className")

    def told(self):
        return self.value("document.getElementById('told').textContent")

    def text(self, selector):
        return self.value(f"document.querySelector({json.dumps(selector)}).textContent")

    def is_seen(self, selector):
        return self.value(f"document.querySelector({json.dumps(selector)}).checkVisibility()")

    def focus(self):
        return self.value(FOCUS)

    def shown(self, kind):
        return self.value(SHOWN.format(kind=kind))

    def volumes(self):
        return self.value("""[...document.querySelectorAll('.volume')].map((it) => [
          it.querySelector('h3').textContent,
          [...it.querySelectorAll('.entries label')].map((one) =>
            ['name', 'size', 'date', 'what'].map(
              (part) => one.querySelector('.' + part).textContent))])""")

    # ---- what the program prints

    def run(self, folder, *words):
        return subprocess.run(
            [self.program, *words], cwd=folder, stdin=subprocess.DEVNULL, capture_output=True,
            check=False)

    def printed(self, folder, kind, names, *flags):
        ran = self.run(folder, *WORDS[kind], *flags, "--", *names)
        return (ran.stdout + ran.stderr).decode()

    def wanted_texts(self, folder, kind, names):
        """What the page is to show: a show of each file, and otherwise one text of all. The manual
        is below, on the page."""
        printed = [self.printed(folder, kind, [name]) for name in names] if kind == "show" else [
            self.printed(folder, kind, names)]
        return [re.sub(r" (in|of) pslink\(1\)", " below", text) for text in printed]

    def linked(self, folder, names):
        """The linked file by the program, or None."""
        out = pathlib.Path(folder) / "linked by the program"
        done = self.run(folder, "link", "-q", "-o", out.name, "--", *names).returncode == 0
        made = out.read_bytes() if done else None
        out.unlink(missing_ok=True)
        return made

    def summary(self, folder, names):
        """The words of the outcome of a link, from what the program prints of it."""
        line = self.run(folder, "link", "-o", "/dev/stdout", "--", *names).stderr.decode()
        segments, words, blocks = map(
            int, re.fullmatch(r"segments (\d+) private words (\d+) blocks (\d+)\n", line).groups())
        many = lambda number, what: f"{number} {what}" + "s" * (number != 1)
        return (f"{many(segments, 'segment')}, {many(words, 'private word')}, "
                f"{many(blocks, 'block')}: {512 * blocks} bytes.")
