#!/usr/bin/env python3
"""Writes the table 'What a file is' of docs/OUTPUT.md from the phrases and the remedies of
crates/ps_filetype, so that they have one home. Usage: make_file_types.py [FOLDER], which is docs/
if none is given."""
import pathlib
import re
import sys

ROOT = pathlib.Path(__file__).resolve().parent.parent
SOURCE, PAGE = ROOT / "crates/ps_filetype/src", ROOT / "docs/OUTPUT.md"
HEAD = "| TYPE | The way to the code file |\n|---|---|\n"
# An arm of a match: its patterns, and the text that it gives or writes.
ARM = re.compile(r'((?:\|?\s*\w+::\w+(?:\([^)]*\)|\s*\{[^}]*\})?\s*)+)=>\s*\{?\s*'
                 r'(?:(?:f\.)?write(?:_str|!)\((?:f,\s*)?)?"((?:[^"\\]|\\.)*)"')
# An arm of the match over the files of which a command makes another one: its patterns, and what is
# said around the command.
STEPS = re.compile(r'((?:\|?\s*FileType::\w+(?:\s*\{[^}]*\})?\s*)+)=>\s*Some\(Steps \{'
                   + "".join(rf'\s*{part}: "([^"]*)",'
                             for part in ("before", "between", "after", "end")))


def texts(file, enum):
    """The texts of the arms over this enum in a file of the source, in order: of each its patterns
    and the text."""
    for patterns, text in ARM.findall((SOURCE / file).read_text()):
        found = re.findall(rf"\b{enum}::(\w+)(\([^)]*\)|\s*\{{[^}}]*\}})?", patterns)
        yield from ((name, detail.strip(), text) for name, detail in found)


def shown(text):
    """A text with the names of its parts in capitals."""
    return re.sub(r"\{(\w+)(:[^}]*)?\}", lambda part: part[1].upper(),
                  text.replace('\\"', '"').replace("|", "\\|"))


def variants():
    """The variants of FileType but for that of code files, in order."""
    body = (SOURCE / "file_type.rt").read_text().split("pub enum FileType {", 1)[1].split(
        "\n}\n", 1)[0]
    return [name for name in re.findall(r"^    (\w+)", body, re.M) if name != "Code"]


def phrases(variant):
    """What is said of files of a variant."""
    if variant == "Disk":
        return [f"{text}, of the volume NAME" for _, _, text in texts("images.rt", "Image")]
    # a variant with a part has its text in Display, and one without has it in phrase: the last of
    # the two
    found = {detail if "Release" in detail else "": text
             for name, detail, text in texts("file_type.rt", "FileType")
             if name == variant}
    if variant == "Converted":
        return [found[""].format(line_ends=text)
                for _, _, text in texts("line_ends.rt", "LineEnds")]
    return list(found.values())


def commands():
    """The commands of remedies: for each variant, the number of its detail and the image, if it has
    them, the sentences around it."""
    found = {}
    for patterns, *parts in STEPS.findall((SOURCE / "remedy.rt").read_text()):
        before, between, after, end = parts
        for name, detail in re.findall(r"\bFileType::(\w+)(\s*\{[^}]*\})?", patterns):
            for image in re.findall(r"Image::(\w+)", detail) or [""]:
                found[name, "" if image else re.sub(r"\D", "", detail), image] = (
                    f"{before}PATH{between}PATH.whole{after}PATH.whole{end}")
    return found


def images():
    """The image of each phrase of a disk image, by the phrase."""
    return {f"{text}, of the volume NAME": name for name, _, text in texts("images.rt", "Image")}


def rows():
    by_command, by_phrase = commands(), images()
    sentences = {(name, image): text
                 for name, detail, text in texts("remedy.rt", "FileType")
                 for image in re.findall(r"Image::(\w+)", detail) or [""]}
    for variant in variants():
        details = (sorted((detail
                           for name, detail, image in by_command
                           if name == variant and not image), reverse=True)
                   or [""])
        for phrase in phrases(variant):
            # a header of so many bytes has a remedy of its own
            for bytes in details:
                image = by_phrase.get(phrase, "")
                remedy = (by_command.get((variant, bytes, image)) or sentences.get((variant, image))
                          or sentences[variant, ""])
                yield f"| {shown(phrase.replace('{bytes}', bytes or '512'))} | {shown(remedy)} |\n"


def main():
    folder = pathlib.Path(sys.argv[1]) if len(sys.argv) > 1 else ROOT / "docs"
    before, rest = PAGE.read_text().split(HEAD, 1)
    (folder / PAGE.name).write_text(before + HEAD + "".join(rows())
                                    + re.sub(r"\A(?:\|.*\n)+", "", rest))


if __name__ == "__main__":
    main()
