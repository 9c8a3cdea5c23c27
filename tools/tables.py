"""What a program takes, as its own help prints it (`PROGRAM help COMMAND`), for manual pages and completions."""

import re
import subprocess
from dataclasses import dataclass

# The command that prints help, which is no work of its own.
HELP = "help"
SECONDS = 20
TITLE = re.compile(r"(Commands|Arguments|Options):\n")
# An option's names, and how help calls its value; a word's value.
OPTION = re.compile(r"(?:(-\w), )?(--[\w-]+|-\w)(?: <(\w+)>)?")
WORD = re.compile(r"[<\[](\w+)[>\]](?:\.\.\.)?")
# What stands between what a command does and an example of it.
EXAMPLE = ", as in: "


@dataclass
class Row:
    """An argument, or a command's line: its names (none for a word), its value's name or '', and what is said of it."""

    names: list
    value: str
    about: str


@dataclass
class Command:
    """A command, or the program itself where it has no name."""

    name: str
    about: str
    example: str
    usage: str
    commands: list
    words: list
    options: list
    more: str


def help_of(program, name=""):
    """The text that a program prints for a command, or for itself."""
    return subprocess.run([program, HELP, *name.split()], stdin=subprocess.DEVNULL, stdout=subprocess.PIPE, check=True, text=True, timeout=SECONDS).stdout


def row(title, line):
    """A line of a table of help: two columns, at least two spaces apart."""
    what, _, about = re.sub(r"^ +", "", line).partition("  ")
    about = about.strip().partition(EXAMPLE)[0]
    if title == "Commands":
        return Row([what], "", about)
    found = (OPTION if title == "Options" else WORD).fullmatch(what)
    if not found:
        raise ValueError(f"help has a line that isn't understood: {line}")
    return Row([it for it in found.groups()[:2] if it], found[3] or "", about) if title == "Options" else Row([], found[1], about)


def command(name, text):
    """What a text of help says: paragraphs, of which the first two are what it does and its usage; then its tables; then what is said besides."""
    about, usage, *rest = text.rstrip("\n").split("\n\n")
    about, _, example = about.partition(EXAMPLE)
    tables = {"Commands": [], "Arguments": [], "Options": []}
    while rest and TITLE.match(rest[0]):
        title, *lines = rest.pop(0).split("\n")
        tables[title[:-1]] = [row(title[:-1], it) for it in lines]
    return Command(name, about, example, usage.removeprefix("Usage: "), *tables.values(), "\n\n".join(rest))


def of(program):
    """The program, and each of its commands."""
    whole = command("", help_of(program))
    return whole, [command(it.names[0], help_of(program, it.names[0])) for it in whole.commands]


def version_of(program):
    """The version that a program tells."""
    return subprocess.run([program, "--version"], stdin=subprocess.DEVNULL, stdout=subprocess.PIPE, check=True, text=True, timeout=SECONDS).stdout.split()[1]
