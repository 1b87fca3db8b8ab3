#!/usr/bin/env python3
"""Looks at the page as a file: what its policy allows, that it has the module and the scripts that
it is made from, that no part of it leads out of it, that each link leads to a place in it, and that
it is made again as the same bytes in another folder and another language. Prints each difference.
Usage: made_page.py MODULE PAGE"""
import base64
import hashlib
import html
import html.parser
import os
import pathlib
import re
import shutil
import subprocess
import sys
import tempfile

ROOT = pathlib.Path(__file__).resolve().parent.parent.parent
NEEDED = ["web/page", *(f"web/{path.name}" for path in (ROOT / "web").glob("*.mjs")),
          "man/pslink.1", "LICENSE", "NOTICES", "samples/disk.po"]
# what would make HTML or code of a text
MAKERS = (
    r"innerHTML|outerHTML|insertAdjacentHTML|createContextualFragment|parseFromString|setHTML|"
    r"document\.write|\beval\(|new Function|javascript:|srcdoc")
# what would speak to others, or keep anything
SPEAKERS = (
    r"XMLHttpRequest|\bfetch\(|WebSocket|EventSource|sendBeacon|localStorage|sessionStorage|"
    r"indexedDB|document\.cookie|serviceWorker|postMessage")


class Parts(html.parser.HTMLParser):
    """The tags of a page with their attributes, the text of each script and style, and the text of
    each term."""

    def __init__(self, text):
        super().__init__()
        self.tags, self.inside, self.current = [], [], None
        self.feed(text)

    def handle_starttag(self, tag, attrs):
        self.tags.append((tag, dict(attrs)))
        if tag in ("script", "style"):
            self.current = [tag, dict(attrs), ""]
            self.inside.append(self.current)

    def handle_endtag(self, tag):
        self.current = None

    def handle_data(self, data):
        if self.current:
            self.current[2] += data


def sha256(text):
    return base64.b64encode(hashlib.sha256(text.encode()).digest()).decode()


def policy_flaws(parts):
    policies = [given["content"]
                for tag, given in parts.tags
                if tag == "meta" and given.get("http-equiv") == "Content-Security-Policy"]
    scripts = [text for tag, given, text in parts.inside if tag == "script" and given.get(
                   "type") == "module"]
    styles = [text for tag, _, text in parts.inside if tag == "style"]
    if len(scripts) != 1 or len(styles) != 1:
        yield f"it has {len(scripts)} scripts and {len(styles)} styles"
        return
    wanted = {"default-src 'none'", f"script-src 'sha256-{sha256(scripts[0])}' 'wasm-unsafe-eval'",
              f"style-src 'sha256-{sha256(styles[0])}'", "img-src data:", "base-uri 'none'",
              "form-action 'none'"}
    if len(policies) != 1 or set(policies[0].split("; ")) != wanted:
        yield f"its policy is {policies}, and not {sorted(wanted)}"
    for pattern in (MAKERS, SPEAKERS):
        yield from (f"its script has {found!r}" for found in re.findall(pattern, scripts[0]))


def tag_flaws(parts):
    ids = [given["id"] for _, given in parts.tags if "id" in given]
    yield from (f"it has two elements {it}"
                for it in sorted({it for it in ids if ids.count(it) > 1}))
    for tag, given in parts.tags:
        for name, value in given.items():
            if name in ("src", "srcset", "action", "style", "background") or name.startswith("on"):
                yield f"its tag {tag} has the attribute {name}"
            if name == "href" and value != "data:," and not (
                    value.startswith("#") and value[1:] in ids):
                yield f"a link leads to {value}"
            if name in ("for", "aria-labelledby", "aria-describedby", "list") and value not in ids:
                yield f"its tag {tag} names {value}, which is not there"


def content_flaws(parts, page, module):
    for name in ("LICENSE", "NOTICES"):
        if html.escape((ROOT / name).read_text().strip()) not in page:
            yield f"it does not have {name}, each character as a text"
    modules = [text for _, given, text in parts.inside if given.get("id") == "module"]
    if len(modules) != 1 or base64.b64decode(modules[0]) != module:
        yield "the module in it is another one"
    for title in ("manual-warnings", "manual-damaged-files",
                  *(f"manual-diagnostics-{number}" for number in range(1, 36))):
        if ("id", title) not in {("id", given.get("id")) for _, given in parts.tags}:
            yield f"the manual in it has no part {title}"
    words = page.replace(base64.b64encode(module).decode(), "")
    yield from (f"it names a file of this machine: {found}"
                for found in re.findall(r"/(?:root|home|tmp|work)/\S+", words))


def made_elsewhere(module):
    with tempfile.TemporaryDirectory() as folder:
        tree = pathlib.Path(folder) / "another folder"
        for name in NEEDED:
            to = tree / name
            to.parent.mkdir(parents=True, exist_ok=True)
            (shutil.copytree if (ROOT / name).is_dir() else shutil.copy)(ROOT / name, to)
        (tree / "module").write_bytes(module)
        how = {**os.environ, "PYTHONHASHSEED": "7", "LC_ALL": "C", "TZ": "Asia/Tokyo",
               "PYTHONUTF8": "0"}
        subprocess.run(
            [sys.executable, "-B", "web/page/make_page.py", "module", "page"], cwd=tree, env=how,
            check=True)
        return (tree / "page").read_bytes()


def main(module, page):
    module, page = (pathlib.Path(it).read_bytes() for it in (module, page))
    parts = Parts(page.decode())
    found = [*policy_flaws(parts), *tag_flaws(parts), *content_flaws(parts, page.decode(), module)]
    if made_elsewhere(module) != page:
        found.append("it is made as other bytes in another folder")
    for line in found:
        print(f"page: {line}")
    return 1 if found else 0


sys.exit(main(*sys.argv[1:3]))
