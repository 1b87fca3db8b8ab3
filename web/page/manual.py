"""Sections of a manual page as HTML, for the macros and escapes that man/pslink.1 has there: any
other is an error, so nothing is lost."""
import html
import re

# what each macro of fonts does with its words in turn
FONTS = {".B": "B", ".I": "I", ".BR": "BR", ".BI": "BI", ".IR": "IR", ".IB": "IB", ".RB": "RB",
         ".RI": "RI"}
TAGS = {"B": "b", "I": "i"}
ESCAPES = {r"\-": "-", r"\&": "", r"\e": "\\"}


class ManualError(Exception):
    """The manual has what is not known here."""


def sections(source):
    """The lines of each section, by its title."""
    found = {}
    for line in source.splitlines():
        if line.startswith(".SH "):
            lines = found.setdefault(line[4:].strip('"'), [])
        elif found and not line.startswith('.\\"'):
            lines.append(line)
    return found


def anchor(title):
    return "manual-" + title.lower().replace(" ", "-")


def inline(text, font="R"):
    """The text with its fonts as tags; a font ends where the text ends."""
    made = before = ""
    for part in re.split(r"(\\f[BIRP]|\\.)", text):
        if part.startswith("\\f"):
            font, before = (before or "R") if part[2] == "P" else part[2], font
        elif part.startswith("\\") and part not in ESCAPES:
            raise ManualError(f"the escape {part} is not known")
        elif plain := html.escape(ESCAPES.get(part, part)):
            made += f"<{TAGS[font]}>{plain}</{TAGS[font]}>" if font in TAGS else plain
    return re.sub("</([bi])><\\1>", "", made)


def words_of(line):
    """The words of a macro: what is in quotes is one word."""
    return [quoted or plain for quoted, plain in re.findall(r'"([^"]*)"|(\S+)', line)]


def text_of(line):
    """A line of text, or one of a macro of fonts."""
    if not line.startswith("."):
        return inline(line)
    macro, _, rest = line.partition(" ")
    if macro not in FONTS:
        raise ManualError(f"the line {line!r} is not known")
    words, fonts = words_of(rest), FONTS[macro]
    between = " " if len(fonts) == 1 else ""
    return between.join(inline(word, fonts[k % len(fonts)]) for k, word in enumerate(words))


def running(lines):
    """Lines of text as one: a font of an escape goes on to the next line, one of a macro does
    not."""
    made, plain = [], []
    for line in [*lines, None]:
        if line is not None and not line.startswith("."):
            plain.append(line)
            continue
        made += [inline("\n".join(plain))] if plain else []
        made += [text_of(line)] if line else []
        plain = []
    return "\n".join(made)


def cells_of(lines):
    """The rows of a table: each is a list of cells, which are lists of lines. A long cell is
    between T{ and T}."""
    layout, *lines = lines[1:]  # the first says that | is between cells
    while not layout.endswith("."):
        layout, *lines = lines
    rows, cell, row = [], None, []
    for line in lines:
        parts = line.split("|") if cell is None else [line]
        if cell is not None and line[:2] == "T}":
            row.append(cell)
            cell, parts = None, line[2:].split("|")[1:]
        elif cell is not None:
            cell.append(line)
            continue
        if parts and parts[-1] == "T{":
            cell = []
            parts.pop()
        row += [[part] for part in parts]
        if cell is None:
            rows.append(row)
            row = []
    return rows


class Section:
    """One section as HTML. The terms of its lists and the rows that begin with a number have names,
    to which a line can lead."""

    def __init__(self, title, lines):
        self.name, self.lines, self.made, self.open = anchor(title), list(lines), [], ""
        while self.lines:
            self.block(self.lines.pop(0))
        self.close()

    def close(self):
        if self.open:
            self.made.append(f"</{self.open}>")
        self.open = ""

    def enter(self, tag):
        if self.open != tag:
            self.close()
            self.made.append(f"<{tag}>")
            self.open = tag

    def taken_to(self, end):
        """The lines up to the one that ends them, which is taken too."""
        at = self.lines.index(end)
        taken, self.lines = self.lines[:at], self.lines[at + 1:]
        return taken

    def text(self):
        """The lines of text from here on, up to the next macro of blocks."""
        at = 0
        while at < len(self.lines) and (not self.lines[at].startswith(".")
                                        or self.lines[at].split(" ")[0] in FONTS):
            at += 1
        taken, self.lines = self.lines[:at], self.lines[at:]
        return running(taken)

    def block(self, line):
        macro, _, rest = line.partition(" ")
        blocks = {".PP": self.paragraph, ".TP": self.term, ".SS": self.heading, ".TS": self.table,
                  ".IP": self.item, ".RS": self.indented}
        if macro in blocks:
            blocks[macro](rest)
        else:
            self.lines.insert(0, line)
            self.paragraph("")

    def paragraph(self, _):
        self.close()
        if self.lines and (text := self.text()):
            self.made.append(f"<p>{text}</p>")
        elif self.lines and self.lines[0].split(" ")[0] not in (".TS", ".RS", ".TP"):
            raise ManualError(f"the line {self.lines[0]!r} is not known")

    def heading(self, title):
        self.close()
        self.made.append(f"<h4>{inline(title)}</h4>")

    def term(self, _):
        self.enter("dl")
        name = f"{self.name}-{1 + sum(it.startswith('<dt ') for it in self.made)}"
        self.made.append(f'<dt id="{name}">{text_of(self.lines.pop(0))}</dt>')
        self.made.append(f"<dd>{self.text()}</dd>")

    def item(self, words):
        if words != r"\(bu 2" and not re.fullmatch(r"\d+\. 4", words):
            raise ManualError(f"an item of {words!r} is not known")
        self.enter("ul" if words == r"\(bu 2" else "ol")
        self.made.append(f"<li>{self.text()}</li>")

    def indented(self, _):
        self.close()
        self.made.append(f"<p class=\"example\">{running(self.taken_to('.RE'))}</p>")

    def table(self, _):
        self.close()
        head, *rows = cells_of(self.taken_to(".TE"))
        self.made.append("<table>")
        self.made.append(
            "<tr>" + "".join(f'<th scope="col">{self.cell(it)}</th>' for it in head) + "</tr>")
        for row in rows:
            name = f' id="{self.name}-{row[0][0]}"' if row[0][0].isdigit() else ""
            self.made.append(
                f"<tr{name}>" + "".join(f"<td>{self.cell(it)}</td>" for it in row) + "</tr>")
        self.made.append("</table>")

    @staticmethod
    def cell(lines):
        return inline("\n".join(lines))


def linked(made, titles):
    """The same with each title of a section in it as a link to that section."""
    title = "|".join(map(re.escape, sorted(titles, key=len, reverse=True)))
    return re.sub(rf"\b({title})\b", lambda it: f'<a href="#{anchor(it[1])}">{it[1]}</a>', made)


def manual(source, titles):
    """These sections of the manual page as HTML, each to be opened."""
    found = sections(source)
    made = []
    for title in titles:
        if title not in found:
            raise ManualError(f"there is no section {title}")
        text = linked("\n".join(Section(title, found[title]).made), [
            it for it in titles if it != title])
        made.append(
            f'<details id="{anchor(title)}"><summary>{title}</summary>\n<div class="text">\n'
            f'{text}\n</div></details>')
    return "\n".join(made)
