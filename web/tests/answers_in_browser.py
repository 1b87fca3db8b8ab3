#!/usr/bin/env python3
"""Compares what the module answers in a browser with what native.py wrote of the same files, as
compare.mjs does in node: each field, the line of the fault, and the SHA-256 of what is made; and
prints how long a link took. By hand: the gate does it in node.
Usage: answers_in_browser.py BROWSER MODULE ANSWERS, of a browser as for test_page.py. The last line
is 'N passed, M failed'"""
import base64
import itertools
import json
import pathlib
import sys
import time

import browsers

WEB = pathlib.Path(__file__).resolve().parent.parent
EACH = 50  # sets of files that are handed over at once
TELL = """
export async function told({answer, reason, fault = null, bytes = new Uint8Array()}) {
  if (answer === null) return [reason];
  const {status, fault: number, file, record, reference, slot, kind, about} = answer;
  const {segments, privateWords, blocks, warnings, size} = answer;
  const digest = new Uint8Array(await crypto.subtle.digest("SHA-256", bytes));
  return [status, number, file, record, reference, slot, kind, about, segments, privateWords,
    blocks, warnings, size, fault,
    [...digest].map((it) => it.toString(16).padStart(2, "0")).join("")];
}
export const bytesOf = (text) => Uint8Array.from(atob(text), (it) => it.charCodeAt(0));
export async function answersOf(pslink, sets) {
  const all = [];
  for (const {files, names} of sets) {
    const given = files.map(({name, bytes, zeros}) => {
      const content = bytesOf(bytes), whole = new Uint8Array(content.length + zeros);
      whole.set(content);
      return {...(name === null ? {} : {name}), bytes: whole};
    });
    const made = {}, began = performance.now();
    await pslink.link(given);
    const milliseconds = performance.now() - began;
    for (const name of names) {
      const [kind, form] = name.split(" ");
      made[name] = await told(kind === "link" ? await pslink.link(given)
        : await pslink.text(kind, given, {json: form === "json"}));
    }
    all.push({made, milliseconds});
  }
  return all;
}
"""


def prepare(browser, module):
    """Loads the module in a page without a policy."""
    blank = browser.room / "blank.html"
    blank.write_text("<!doctype html><title>blank</title>")
    browser.go(blank.as_uri())
    browser.until("document.title === 'blank'")
    for text in ((WEB / "pslink.mjs").read_text(), TELL):
        source = base64.b64encode(text.encode()).decode()
        browser.value(
            "(async () => Object.assign(window, await "
            f"import('data:text/javascript;base64,{source}')) && 1)()")
    browser.value(
        f"(async () => {{ window.pslink = await "
        f"load(bytesOf('{base64.b64encode(module).decode()}')); }})()")


def compare(browser, sets):
    """What differs of these sets of files, how many answers there are, and the milliseconds of each
    link."""
    given = json.dumps([{"files": it["files"], "names": list(it["answers"])} for it in sets])
    differing, count, times = [], 0, []
    for wanted, got in zip(sets, browser.value(f"answersOf(pslink, {given})")):
        times.append(got["milliseconds"])
        count += len(wanted["answers"])
        differing += [(wanted["name"], name, answer, got["made"][name])
                      for name, answer in wanted["answers"].items()
                      if got["made"][name] != answer]
    return differing, count, times


def main(name, module, answers):
    differing, count, times, began = [], 0, [], time.monotonic()
    browser = browsers.opened(name)
    try:
        prepare(browser, pathlib.Path(module).read_bytes())
        with open(answers, encoding="utf-8") as lines:
            while sets := [json.loads(line) for line in itertools.islice(lines, EACH)]:
                found, number, milliseconds = compare(browser, sets)
                differing, count, times = differing + found, count + number, times + milliseconds
    finally:
        browser.close()
    for each in differing[:20]:
        print(*each, sep="\n  ")
    print(
        f"{browser.version}: {len(times)} sets of files in {time.monotonic() - began:.0f} s, a "
        f"link {sorted(times)[len(times) // 2]:.2f} ms in the middle")
    print(f"{count - len(differing)} passed, {len(differing)} failed")
    return 1 if differing or not count else 0


sys.exit(main(*sys.argv[1:4]))
