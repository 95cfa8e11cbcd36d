"""The plant's words: the lines of commands, and the values that are words of a list. The code has them once."""
import pathlib
import re

Lines = dict[str, list[str]]

ROOT = pathlib.Path(__file__).resolve().parent.parent
CRATES = ROOT / "crates"
COMMANDS = ROOT / "docs" / "commands.md"


def lines_of_code() -> Lines:
    """The names of the values of each command, in order."""
    source = (CRATES / "toll_plant" / "src" / "line.rt").read_text()
    names = dict(re.findall(r'const (\w+): Argument<.*?> = argument!\("(.*?)"', source))
    lines = re.findall(r'line_of!\(\s*"([a-z-]+)" => \w+, ([A-Z_ ]+)\s*\)', source)
    return {name: [names[key] for key in values.split()] for name, values in lines}


def lines_of_page() -> Lines:
    """The same, as docs/commands.md has them."""
    lines = re.findall(r"^    ([a-z-]+) ([A-Z].*)$", COMMANDS.read_text(), re.M)
    return {name: values.split() for name, values in lines}


def choices_of_code() -> Lines:
    """The words of each value that is one of a list."""
    argument = (CRATES / "toll_plant" / "src" / "argument.rt").read_text()
    functions = dict(re.findall(r"^fn (\w+)\((.*?)^}", argument, re.M | re.S))
    commands = (CRATES / "toll_base" / "src" / "state_command.rt").read_text()
    return {
        "USE": re.findall(r'is_word\(word, "(\w+)"\)', functions["role_of"]),
        "WAY": re.findall(r'is_word\(word, "(\w+)"\)', functions["way_of"]),
        "COMMAND": re.findall(r'StateCommand::\w+ => "(\w+)"', commands),
    }


def choices_of_page() -> Lines:
    """The same, as docs/commands.md has them."""
    rows = re.findall(r"^- ([A-Z]+): ((?:`[a-z]+`(?:, | or )?)+)$", COMMANDS.read_text(), re.M)
    return {name: re.findall(r"`(\w+)`", words) for name, words in rows}


def differences() -> list[str]:
    """What docs/commands.md and the code don't have in common, a line each."""

    def texts(lines: Lines, choices: Lines) -> set[str]:
        of_choices = {f"{name}: {', '.join(words)}" for name, words in choices.items()}
        return of_choices | {" ".join([name, *values]) for name, values in lines.items()}

    code, page = texts(lines_of_code(), choices_of_code()), texts(lines_of_page(), choices_of_page())
    return [f"docs/commands.md and the code don't both have: {difference}" for difference in sorted(code ^ page)]
