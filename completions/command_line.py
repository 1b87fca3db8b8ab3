"""Reads what the command line accepts, with its texts, from
crates/ps_arguments/src/command_line.rt: the commands, their arguments and their help, as values."""
import pathlib
import re

HERE = pathlib.Path(__file__).resolve().parent
SOURCE = HERE.parent / "crates/ps_arguments/src/command_line.rt"
TOKEN = re.compile(
    r"""\s+|//[^\n]*|(?P<text>"(?:[^"\\]|\\.)*")|'(?P<letter>[^'\\])'|"""
    r"(?P<word>\w+(?:::\w+)*)|(?P<sign>.)",
    re.S)
ESCAPES = {'\\"': '"', "\\\\": "\\", "\\n": "\n"}


class Source:
    """The constants of a file of Rattle, as values: a text, a list, a struct as a dictionary, and a
    call as its name and its values."""

    def __init__(self, text):
        self.text, self.known = text, {}

    def constant(self, name):
        if name not in self.known:
            begun = re.search(rf"^(?:const|static) {name}: [^=]*=", self.text, re.M)
            self.known[name] = self.value(Tokens(self.text[begun.end():]))
        return self.known[name]

    def value(self, left):
        """The value with which the tokens begin; a reference of it is the value itself."""
        kind, word = next(left)
        if word == "&":
            return self.value(left)
        if kind in ("text", "letter"):
            return word
        if word == "[":
            return self.values(left, "]")
        after = next(left)[1]
        if after == "(":
            return (word, self.values(left, ")"))
        if after == "{":
            return dict(self.members(left))
        left.put_back(after)
        return word.split("::")[1] if "::" in word else self.constant(word)

    def values(self, left, closing):
        found = []
        while not left.takes(closing):
            found.append(self.value(left))
            left.takes(",")
        return found

    def members(self, left):
        while not left.takes("}"):
            name = next(left)[1]
            assert left.takes(":"), name
            yield name, self.value(left)
            left.takes(",")


class Tokens:
    """The tokens of a text, of which the last may be put back."""

    def __init__(self, text):
        self.found = ((match.lastgroup, match[match.lastgroup]) for match in TOKEN.finditer(
                          text) if match.lastgroup)
        self.kept = []

    def __next__(self):
        kind, word = self.kept.pop() if self.kept else next(self.found)
        if kind == "text":
            word = re.sub(r"\\.", lambda escape: ESCAPES[escape[0]], word[1:-1])
        return kind, word

    def put_back(self, word):
        self.kept.append(("sign", word))

    def takes(self, wanted):
        """Whether the next token is this sign, which is then taken."""
        token = self.kept.pop() if self.kept else next(self.found)
        if token == ("sign", wanted):
            return True
        self.kept.append(token)
        return False


def argument(form):
    """An argument of a command, by the name of its form and the values of it."""
    kind, values = form
    named = {"id": values[0], "help": values[-1]}
    if kind in ("File", "Files", "AnyFiles"):
        return {**named, "positional": True, "required": kind != "AnyFiles", "many": kind != "File"}
    if kind in ("Flag", "LetteredFlag"):
        return {**named, "long": values[0], "short": values[1] if kind == "LetteredFlag" else None}
    return {**named, "long": values[1], "short": values[2] if kind == "LetteredValue" else None,
            "valued": True}


def of_ending(source, function, ending):
    """The text that this function gives for an ending, or None."""
    body = re.search(rf"fn {function}\(self\).*?\n    }}\n", source.text, re.S)[0]
    found = re.search(rf"Ending::{ending} => (?:Some\()?([A-Z_]+)\b", body)
    return source.constant(found[1]) if found else None


def command(source, form):
    return {"name": form["name"], "about": form["about"],
            "ending": of_ending(source, "text", form["ending"]),
            "usage": of_ending(source, "usage", form["ending"]),
            "arguments": [argument(one) for one in form["arguments"]]}


def program():
    """The program with its commands."""
    source = Source(SOURCE.read_text())
    about = re.search(r'\.about\("([^"]*)"\)', source.text)[1]
    name = re.search(r'Command::new\(heap, "([^"]*)"\)', source.text)[1]
    commands = [command(source, form) for form in source.constant("FORMS")]
    return {"name": name, "about": about, "ending": source.constant("ENDING"), "commands": commands}
