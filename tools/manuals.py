"""Manual pages of a program, of its tables and of the page of docs/ on it."""

import os
import re
import textwrap
import tables

# Where the pages of docs/ lie.
FOLDER = "/usr/share/doc/aamediate"
LINK = re.compile(r"\[([^\]]*)\]\(([^)]*)\)")
# What of a paragraph is written in bold, between its marks.
BOLD = re.compile(r"`([^`]+)`|\*\*([^*]+)\*\*")
ITEM = re.compile(r"(-|\d+\.) +(.*)")
# Signs that a text as it is typed has to keep, which roff would write as others.
TYPED = {"\\": "\\e", "-": "\\-", "'": "\\(aq", "`": "\\(ga", "^": "\\(ha", "~": "\\(ti"}
# The tables at a page's beginning whose rows stand in sections of their own, by their first head.
COMMANDS, STATUSES = "command", "status"
# A line of help on an exit status.
STATUS = re.compile(r"  (\d+)  (.*)")


def typed(text):
    return "".join(TYPED.get(it, it) for it in text)


def bold(text):
    return f"\\fB{typed(text)}\\fR"


def prose(text):
    """A text's words, where what is typed is bold."""
    said, at = [], 0
    text = LINK.sub(r"\1", text)
    for it in BOLD.finditer(text):
        said += [text[at : it.start()].replace("\\", "\\e"), bold(it[1] or it[2])]
        at = it.end()
    return "".join([*said, text[at:].replace("\\", "\\e")])


def line(text):
    """A line of text, which is no request of roff's."""
    return f"\\&{text}" if text.startswith((".", "'")) else text


def cells(text):
    return [it.strip().replace("\\|", "|") for it in re.split(r"(?<!\\)\|", text.strip().strip("|"))]


def kind_of(text):
    for kind, mark in (("heading", "#"), ("table", "|"), ("code", "    ")):
        if text.startswith(mark):
            return kind
    return "list" if ITEM.match(text) else "prose"


def blocks(text):
    """The blocks of a page, each with its kind and its lines."""
    found, is_open = [], False
    for it in text.splitlines():
        if it.startswith("<!-- "):
            continue
        kind = kind_of(it)
        goes_on = is_open and (kind == found[-1][0] or found[-1][0] == "list" and it.startswith("  "))
        if it and not goes_on:
            found.append((kind, []))
        if it:
            found[-1][1].append(it)
        is_open = bool(it)
    return found


def roff_of_code(lines):
    return [".PP", ".RS 4", ".EX", *(line(typed(it)) for it in textwrap.dedent("\n".join(lines)).split("\n")), ".EE", ".RE"]


def roff_of_table(lines):
    """A row is a paragraph under its first cell. Of several other cells each has its head before it."""
    _, *heads = cells(lines[0])
    said = []
    for first, *others in map(cells, lines[2:]):
        told = [it if len(heads) == 1 else f"{head}: {it}" for head, it in zip(heads, others) if it]
        said += [".TP", line(prose(first))] if first else [".IP"]
        said.append(line(prose("; ".join(told))) if told else "\\&")
    return [*said, ".PP"]


def roff_of_list(lines):
    said = []
    for it in lines:
        found = ITEM.match(it)
        said += [".IP " + found[1].replace("-", "\\(bu") + " 3", line(prose(found[2]))] if found else [line(prose(it.strip()))]
    return [*said, ".PP"]


def roff_of_prose(lines):
    return [".PP", line(prose(" ".join(lines)))]


def title_of(text):
    return prose(text.lstrip("# ")).replace("\\fB", "").replace("\\fR", "")


def roff_of_heading(lines):
    return [f".SS {title_of(lines[0])}"]


ROFF = {"heading": roff_of_heading, "table": roff_of_table, "code": roff_of_code, "list": roff_of_list, "prose": roff_of_prose}


def roff(found):
    return [it for kind, lines in found for it in ROFF[kind](lines)]


def sections(text):
    """The sections of a page: the heading and the blocks of each, and first what stands before them all, under ''."""
    found = [("", [])]
    for kind, lines in blocks(text):
        if kind == "heading" and lines[0].startswith("## "):
            found.append((lines[0], []))
        elif not lines[0].startswith("# "):
            found[-1][1].append((kind, lines))
    return found


def usage_of(command):
    """How a command is called: what is to be typed is bold, and what stands for a value slanted."""
    said = re.sub(r"-*\b[a-z][\w-]*", lambda it: bold(it[0]), command.usage)
    return re.sub(r"<?\b([A-Z]{2,}|[A-Z]\b)>?", r"\\fI\1\\fR", said)


def options_of(command):
    said = []
    for it in command.words:
        said += [".TP", f"\\fI{it.value}\\fR", line(prose(it.about))]
    for it in command.options:
        names = ", ".join(bold(name) for name in it.names)
        said += [".TP", f"{names} \\fI{it.value}\\fR" if it.value else names, line(prose(it.about))]
    return said


def more_of(command):
    """What help says behind its tables: paragraphs and texts as they are typed; and the exit statuses."""
    said, statuses = [], []
    for it in filter(None, command.more.split("\n\n")):
        first, *others = it.split("\n")
        found = [STATUS.fullmatch(other) for other in others]
        if found and all(found):
            statuses += [part for status in found for part in (".TP", *status.groups())]
        elif it.startswith("  "):
            said += roff_of_code([first, *others])
        else:
            said += roff_of_prose([first, *others])
    return said, statuses


def sentence(text):
    return [line(prose(f"{text}."))]


def is_table_of(block, *heads):
    return block[0] == "table" and cells(block[1][0])[0] in heads


def statuses_of(lines):
    """A table of exit statuses, under what its second head says."""
    return [f"{prose(cells(lines[0])[1]).capitalize()}:", *roff_of_table(lines)]


class Manual:
    """The manual pages of a program, whose commands have pages of their own or stand on its page."""

    def __init__(self, program, page, has_pages, date):
        self.name = os.path.basename(program)
        self.whole, self.commands = tables.of(program)
        self.has_pages = has_pages
        self.head = f'1 {date} "{self.name} {tables.version_of(program)}" "User Commands"'
        (_, self.beginning), *self.sections = sections(page)
        self.statuses = next((statuses_of(it[1]) for it in self.beginning if is_table_of(it, STATUSES)), [])

    def page_of(self, command):
        """The name of a command's page."""
        return f"{self.name}-{command.name}" if self.has_pages and command.name != tables.HELP else self.name

    def is_on(self, heading, command):
        """Whether a section is on a command, and so on its page."""
        return self.page_of(command) != self.name and re.search(rf"`{self.name} {command.name}[` ]", heading)

    def sections_on(self, command):
        """What the page of docs/ says of a command."""
        return [it for heading, found in self.sections if self.is_on(heading, command) for it in found]

    def own_sections(self):
        return [(heading, found) for heading, found in self.sections if not any(self.is_on(heading, it) for it in self.commands)]

    def written(self, name, command, parts):
        """A page, of those parts that say something."""
        about = command.about[:1].lower() + command.about[1:]
        said = [f".TH {name.upper()} {self.head}", ".SH NAME", f"{typed(name)} \\- {prose(about)}"]
        others = sorted({self.name, *map(self.page_of, self.commands)} - {name})
        parts.append(("SEE ALSO", [f"{bold(it)}(1)," for it in others] + [f"and the pages in {bold(FOLDER)}; paths below tests/ are those of the sources."]))
        for title, lines in parts:
            said += [f".SH {title}", *lines] if lines else []
        return "\n".join([*said, ""])

    def page_on(self, command):
        more, statuses = more_of(command)
        return self.written(self.page_of(command), command, [
            ("SYNOPSIS", [usage_of(command)]),
            ("DESCRIPTION", sentence(command.about) + more + roff(self.sections_on(command))),
            ("OPTIONS", options_of(command)),
            ("EXIT STATUS", statuses or self.statuses),
            ("EXAMPLES", roff_of_code([command.example]) if command.example else []),
        ])

    def on_own_page(self, command):
        """A command, as it stands on the program's page."""
        if self.page_of(command) != self.name:
            return [".TP", f"{bold(self.page_of(command))}(1)", *sentence(command.about)]
        return [f".SS {title_of(command.name)}", *sentence(command.about), ".PP", usage_of(command), *options_of(command), *more_of(command)[0]]

    def main_page(self):
        more, statuses = more_of(self.whole)
        beginning = [it for it in self.beginning if not is_table_of(it, COMMANDS, STATUSES)]
        return self.written(self.name, self.whole, [
            ("SYNOPSIS", [usage_of(self.whole)]),
            ("DESCRIPTION", sentence(self.whole.about) + more + roff(beginning)),
            ("COMMANDS", [it for command in self.commands for it in self.on_own_page(command)]),
            ("OPTIONS", options_of(self.whole)),
            ("EXIT STATUS", statuses or self.statuses),
            *((title_of(heading.upper()), roff(found)) for heading, found in self.own_sections()),
        ])

    def pages(self):
        """The pages, by their paths."""
        found = {self.page_of(it): self.page_on(it) for it in self.commands if self.page_of(it) != self.name}
        return {f"usr/share/man/man1/{name}.1": text for name, text in {self.name: self.main_page(), **found}.items()}
