#!/usr/bin/env python3
"""Writes into the completions of zsh, bash and fish each command and each option, as
crates/ps_arguments/src/command_line.rt has them. Usage: make_completions.py [FOLDER], by default
the folder of this script"""
import pathlib
import re
import sys

sys.dont_write_bytecode = True
HERE = pathlib.Path(__file__).resolve().parent
sys.path.insert(0, str(HERE))
import command_line


def options_of(command):
    return [argument for argument in command["arguments"] if not argument.get("positional")]


def replaced(text, pattern, made):
    """The text with what is made in the place of the lines of this pattern, which are there
    once."""
    text, count = re.subn(pattern, lambda _: made, text, flags=re.M)
    assert count == 1, pattern
    return text


def option_of_zsh(option):
    """The parts of an option for its letter and for its name, of which one alone is given."""
    letter, name, words = option["short"], f"--{option['long']}", option["help"]
    both, taken = (f"(-{letter} {name})" if letter else "",
                   f":{option['id']}:_files" if "valued" in option else "")
    if letter:
        yield f"{both}-{letter}{'+' if taken else ''}[{words}]{taken}"
    yield f"{both}{name}{'=' if taken else ''}[{words}]{taken}"


def for_zsh(text, commands):
    made = "".join(f"        '{command['name']}:{command['about']}'\n" for command in commands)
    text = replaced(text, r"(?<=    commands=\(\n)(?:        '\w+:.*'\n)*(?=        'help:)", made)
    for command in commands:
        made = "".join(
            f"                        '{part}' \\\n"
            for option in options_of(command)
            for part in option_of_zsh(option))
        before = (rf"                {command['name']}\)\n                    _arguments -S \$help "
                  r"\\\n")
        text = replaced(text, rf"(?<={before})(?: +'[(-].*' \\\n)*", made)
    return text


def for_bash(text, commands):
    for command in commands:
        names = sorted(["--help", *(f"--{option['long']}" for option in options_of(command))])
        text = replaced(
            text, rf"(?<=        {command['name']}\) options=').*(?=' ;;)", " ".join(names))
    return text


def option_of_fish(option):
    letter, value = f"-s {option['short']} " if option[
        "short"] else "", "-r -F " if "valued" in option else ""
    return f"{letter}-l {option['long']} {value}-d '{option['help']}'"


def for_fish(text, commands):
    first, names = "complete -c pslink -n ", " ".join(command["name"] for command in commands)
    made = "".join(
        f"{first}\"__pslink_has_words 1\" -a {command['name']} -d '{command['about']}'\n"
        for command in commands)
    text = replaced(text, rf'(?:^{first}"__pslink_has_words 1" -a (?!help)\w.*\n)+', made)
    made = "".join(
        f'{first}"__pslink_runs {command["name"]}" {option_of_fish(option)}\n'
        for command in commands
        for option in options_of(command))
    return replaced(
        text, rf'(?<={first}"__pslink_runs {names}" -F\n)(?:{first}"__pslink_runs \w+" .*\n)*',
        made)


def main():
    folder = pathlib.Path(sys.argv[1] if len(sys.argv) > 1 else HERE)
    program = command_line.program()
    for name, made in (("_pslink", for_zsh), ("pslink.bash", for_bash), ("pslink.fish", for_fish)):
        (folder / name).write_text(made((HERE / name).read_text(), program["commands"]))


if __name__ == "__main__":
    main()
