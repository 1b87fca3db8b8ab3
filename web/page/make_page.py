#!/usr/bin/env python3
"""Writes the page: one file with the module, the scripts and parts of the manual in it. It is the
same bytes wherever it is made.
Usage: make_page.py [MODULE [PAGE]], which are web/out/pslink.wasm and web/out/pslink.html if they
are not given."""
import base64
import hashlib
import html
import json
import pathlib
import re
import sys

import manual

HERE = pathlib.Path(__file__).resolve().parent
WEB = HERE.parent
ROOT = WEB.parent
SHARED = ["pslink.mjs", "volume.mjs", "names.mjs", "elements.mjs", "pictured.mjs",
          "picture_style.mjs", "strips.mjs", "picture.mjs"]
PARTS = ["common.mjs", "lines.mjs", "forms.mjs", "verdict.mjs", "volume_box.mjs", "putting.mjs",
         "texts.mjs", "segment.mjs", "picture_box.mjs", "page.mjs"]
SCRIPTS = [*(WEB / name for name in SHARED), *(HERE / name for name in PARTS)]
SECTIONS = ["WARNINGS", "DAMAGED FILES", "DIAGNOSTICS", "ORDER OF FAULTS", "TEXTS"]
IMPORT = re.compile(
    r'^import \{([^}]*)\} from "\./([^"]*)";\n|^import \{([^}]*)\} from "\.\./([^"]*)";\n', re.M)
EXPORT = re.compile(r"^export ((?:async )?(?:function|class|const) (\w+))", re.M)
POLICY = ("default-src 'none'; script-src 'sha256-{script}' 'wasm-unsafe-eval'; style-src "
          "'sha256-{style}'; img-src data:; "
          "base-uri 'none'; form-action 'none'")


def read(path):
    return path.read_text(encoding="utf-8")


def scope(path, before):
    """A module as a part of the one script, with its names to itself but for those that it exports.
    What it imports is before it."""
    source = read(path)
    for first, from_here, second, from_above in IMPORT.findall(source):
        lacking = {name.strip() for name in (first or second).split(",")} - before.get(
            from_here or from_above, set())
        if lacking:
            raise SystemExit(
                f"{path.name} imports {', '.join(sorted(lacking))} of {from_here or from_above}, "
                "which does not export it")
    source = IMPORT.sub("", source)
    if re.search(r"^(import|export (default|\{|\*|let|var))", source, re.M):
        raise SystemExit(f"{path.name} has an import or export that is not known here")
    names = [name for _, name in EXPORT.findall(source)]
    before[path.name] = set(names)
    inside = EXPORT.sub(r"\1", source).strip()
    if not names:
        return inside
    listed = ", ".join(names)
    return f"const {{{listed}}} = await (async () => {{\n{inside}\nreturn {{{listed}}};\n}})();"


def script():
    before = {}
    return "\n" + "\n\n".join(scope(path, before) for path in SCRIPTS) + "\n"


def runs(content):
    """The bytes of a disk that are not zero, as JSON: how many bytes it has, and each run by its
    place and in base64. (What zlib makes is another one with another release of it.)"""
    found = re.finditer(rb"(?:[^\0]|\0{1,15}(?!\0))+", content)
    return json.dumps(
        [len(content), [[run.start(), base64.b64encode(run[0]).decode()] for run in found]],
        separators=(",", ":"))


def own_words(text):
    """The manual without the names of its pages, of which this page has none."""
    text = re.sub(r"\s(in|of)\s+pslink\(1\)", " below", text)
    return re.sub(
        r"differs from that of\s+<b>pslink</b>\(5\)", "is not the one that pslink reads", text)


def digest(text):
    return base64.b64encode(hashlib.sha256(text.encode()).digest()).decode()


def page(module):
    code, style = script(), re.search("`(.*)`", read(WEB / "picture_style.mjs"), re.S)[1] + read(
        HERE / "page.css")
    if re.search("</script|<!--", code, re.I) or "</style" in style:
        raise SystemExit("the script or the style has a tag that would end it")
    parts = {
        "POLICY": POLICY.format(script=digest(code), style=digest(style)),
        "STYLE": style,
        "MANUAL": own_words(manual.manual(read(ROOT / "man/pslink.1"), SECTIONS)),
        "LICENSE": html.escape(read(ROOT / "LICENSE").strip()),
        "NOTICES": html.escape(read(ROOT / "NOTICES").strip()),
        "MODULE": base64.b64encode(module).decode(),
        "SAMPLE": runs((ROOT / "samples/disk.po").read_bytes()),
        "SCRIPT": code,
    }
    made = read(HERE / "page.html")
    if sorted(re.findall(r"@([A-Z]+)@", made)) != sorted(parts):
        raise SystemExit("page.html does not have each mark once")
    return re.sub(r"@([A-Z]+)@", lambda mark: parts[mark[1]], made)


def main(module=WEB / "out/pslink.wasm", to=WEB / "out/pslink.html"):
    pathlib.Path(to).write_bytes(page(pathlib.Path(module).read_bytes()).encode())


if __name__ == "__main__":
    main(*sys.argv[1:3])
