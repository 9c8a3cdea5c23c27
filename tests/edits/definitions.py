"""The definitions that a contract rests on: with one of them another, a body that was wrong may be right."""
import os
import re

# The words of a text (the marks of an operator's places are none), and what only readers read.
WORDS = re.compile(r"[^\W\d][\w'-]*|[^\w\s(){}\[\],.;\"'◌]+")
COMMENTS = re.compile(r"(?m)(?:^|\s)(?:--|//).*$")
# What a line brings in from a module; how a definition of specs/ begins, and its fields or cases in the lines below; and how a type, a trait or what is said
# of one does in a source.
BROUGHT = re.compile(r"\buse Rattle\.([\w.]+?)(?:\.\{([^}]*)\}|(?: as (\w+))?;?$)", re.M)
USES = re.compile(r"(?m)^\s*(?:pub(?:\(\w+\))? |ghost )*use [^;]*;$|^\s*#!?\[.*\]$")
DEFINED = re.compile(r"(?m)^(?:(?:abbrev|unfoldable|mutual|pub|record|data|infix[lr]? \d+) )*([^\s{}]+)")
WITHIN = re.compile(r"(?m)^\s+(?:pub )?([^\s{}]+)(?: [^:\n]*)? : ")
DECLARED = re.compile(r"\b(?:struct|enum|union|trait|type|const|static)\s+(\w+)|\bimpl\b(?:<[^{]*?>(?= \w))? (?:[^{]*? for )?(\w+)[^{]*\{")
# Between two of them.
APART = re.compile(r"\n\s*\n(?=\S)")


def words_of(text):
    return set(WORDS.findall(text))


class Scope:
    """What the words of a file stand for: its own definitions, where it has a module's name, and what it brings in."""

    def __init__(self, module, text):
        self.module, self.names, self.modules = module, {}, {}
        for path, names, other in BROUGHT.findall(text):
            for row in names.split(",") if names else ():
                old, _, new = row.strip().partition(" as ")
                for word in words_of(new or old):
                    self.names.setdefault(word, []).append((path.split("."), words_of(old)))
            if not names:
                self.modules.setdefault(other or path.split(".")[-1], []).append(path.split("."))


class Definitions:
    """The definitions of some crates, those of specs/ by module and word and those of the sources, which are types and traits, by word."""

    def __init__(self, crates, sources):
        self.stated, self.declared, self.seen = {}, {}, {}
        for crate in crates:
            self.read_specs(crate)
            self.read_sources(crate, sources(crate))

    def read_specs(self, crate):
        for at, _, files in sorted(os.walk(f"{crate.folder}/specs")):
            for file in sorted(files):
                with open(f"{at}/{file}", encoding="utf-8") as it:
                    text = COMMENTS.sub("", it.read())
                scope = Scope(file.partition(".")[0], text)
                for part in APART.split(BROUGHT.sub("", text)):
                    for word in words_of(" ".join([*DEFINED.findall(part), *WITHIN.findall(part)])):
                        self.stated.setdefault((scope.module, word), set()).add((crate.name, part, scope))

    def read_sources(self, crate, sources):
        for rows in sources.values():
            scope = scope_of(rows)
            texts = (USES.sub("", COMMENTS.sub("", text.decode())) for function, _, text in rows if not function)
            for part in (part for text in texts for part in APART.split(text)):
                for word in (name or of_impl for name, of_impl in DECLARED.findall(part)):
                    self.declared.setdefault(word, set()).add((crate.name, part, scope))

    def named(self, text, scope):
        """Returns the definitions that a text of a file names. Where a word may stand for several, all of them count."""
        if (text, scope) not in self.seen:
            self.seen[text, scope] = self.looked_up(words_of(text), scope)
        return self.seen[text, scope]

    def looked_up(self, words, scope):
        found = [self.declared.get(it, ()) for it in words] + [self.stated.get((scope.module, it), ()) for it in words]
        for path, olds in (row for it in words for row in scope.names.get(it, ())):
            found += [self.stated.get((module, it), ()) for module in path for it in (*olds, *path)]
            found += [self.declared.get(it, ()) for it in path]
        for path in (row for it in words for row in scope.modules.get(it, ())):
            found += [self.stated.get((module, it), ()) for module in path for it in words]
            found += [self.declared.get(it, ()) for it in path]
        return {row for rows in found for row in rows}

    def behind(self, crates, text, rows):
        """Returns the definitions of these crates that a contract in the source with these pieces names, or that those name."""
        found, left = set(), [(text, scope_of(rows))]
        while left:
            for row in self.named(*left.pop()) - found:
                if row[0] in crates:
                    found.add(row)
                    left.append(row[1:])
        return sorted({text for _, text, _ in found})


def scope_of(rows):
    return Scope(None, "\n".join(text.decode() for function, _, text in rows if not function))
