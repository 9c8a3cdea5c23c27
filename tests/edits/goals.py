"""The goals by which must-fail edits are refused: the file that tells of them, and the answers that ask for them."""
import hashlib
import os
import re

# What leaves the goals of a function to their answers; what may say how rattle tries them, and the words in it that name what it opens and cites.
NO_TACTIC = b"#[tactic(none)]\n"
TACTIC = re.compile(rb"#\[tactic\(.*\)\]\n\s*")
NAMED = r"{}\(([^()]*)\)"
# An answer by one of the ways below, and one to a goal that is not there. Where a function's answers have an error, rattle prints no offers for it,
# for which it would read all again.
ANSWER = """
pub {goal} : {goals}.{goal}
{unfolding}{goal} {words} =
  {how}
"""
NO_ANSWER = """
pub no-goal : {goals}.no-goal
no-goal c = c
"""
# The ways to ask for a goal: by one of the searches that rattle tries first, behind a test by the second; by one of the proofs by steps that it tries then, the
# first of them with the lemmas that the function's own `tactic` names; or by all that it tries.
WAYS = {
    "search": "search {common}.rules",
    "tests": "search ({common}.tests, {common}.rules)",
    "using": "grind ({common}.arith{using}) steps 2000000",
    "steps": "grind ({common}.arith, {grind}.common_steps) steps 2000000",
    "elements": "grind ({common}.arith, {grind}.elements) steps 2000000",
}
WAYS["all"] = f"""first_of
    ({WAYS["search"]},
     {WAYS["tests"]},
{{or_using}}     {WAYS["elements"]},
     search ({{grind}}.pieces, {{common}}.arith) depth 5 fits 300,
     grind ({{common}}.arith, {{grind}}.common_steps) steps 4000000)"""
# How an answer begins in a file of them, with the name of its goal.
ANSWERS = r"(?:--.*\n)*pub (\S+) : \S+\.\1\n"
# In which order they are tried on a goal, those of a round side by side.
ROUNDS = (("search", "tests"), ("using", "steps", "elements"), ("all",))


class Answers:
    """The answers of a proof, to which others are added."""

    def __init__(self, text, crate, proof, tactic):
        self.text, self.crate, self.names, self.uses = text, crate, {}, []
        self.goals = self.name(f"Rattle.{crate}.{proof}.Goals")
        self.common, self.grind = self.name("Rattle.std.proofs.Common"), self.name("Rattle.std.proofs.lemmas.Grind")
        self.using, self.unfolding = self.words(tactic, "using"), self.words(tactic, "unfolding")

    def name(self, module):
        """Returns the name by which the answers know a module: the one that they have for it, or a new one."""
        if module not in self.names:
            found = re.search(rf"(?m)^use {re.escape(module)} as (\S+)$", self.text)
            self.names[module] = found[1] if found else f"rattle_{len(self.names)}"
            self.uses += [] if found else [f"use {module} as {self.names[module]}\n"]
        return self.names[module]

    def words(self, tactic, kind):
        """Returns the definitions or lemmas that a function's own `tactic` names, as the answers know them."""
        found = re.search(NAMED.format(kind), tactic)
        paths = [it.strip().split("::") for it in found[1].split(",") if it.strip()] if found else []
        return [f"{self.name('.'.join(['Rattle', self.crate if crate == 'crate' else crate, *words]))}.{word}" for crate, *words, word in paths]

    def keep(self, wanted):
        """Leaves out the answers to other goals than these, but for those that what is left names."""
        parts = re.split(r"\n\n+", self.text)
        answers = {found[1]: part for part in parts if (found := re.match(ANSWERS, part))}
        kept = [it for it in parts if it not in answers.values()] + [answers[it] for it in wanted if it in answers]
        for part in kept:
            named = (answers[it] for it in re.findall(r"[^\s(),{}]+", part) if it in answers)
            kept += [it for it in dict.fromkeys(named) if it not in kept]
        self.text = "\n\n".join(it for it in parts if it in kept).rstrip("\n") + "\n"

    def has(self, goal):
        return re.search(rf"(?m)^pub {re.escape(goal)} :", self.text) is not None

    def with_goals(self, asked, way):
        """Returns their text with one more for each of these goals, that way, or with one to a goal that is not there."""
        names = {"goals": self.goals, "common": self.common, "grind": self.grind}
        names["using"] = "".join(f", {it}" for it in self.using)
        names["or_using"] = f"     {WAYS['using'].format(**names)},\n" if self.using else ""
        names["unfolding"] = f"unfolding {' '.join(self.unfolding)}\n" if self.unfolding else ""
        how = WAYS[way].format(**names)
        answers = [ANSWER.format(goal=goal, words=words, how=how, **names) for goal, words in asked] or [NO_ANSWER.format(**names)]
        return "".join([*self.uses, self.text, *answers])


class Note:
    """By which goal an edit is refused: how that is asked for (`own`, where the function's own proof answers it), the words that its answer takes, and
    a stamp of the texts of the function and of the edit, for which this was noted."""

    def __init__(self, stamp, way, goal, words):
        self.stamp, self.way, self.goal, self.words = stamp, way, goal, words


def stamp_of(texts):
    return hashlib.sha256(b"\0".join(texts)).hexdigest()[:12]


class Notes:
    """The goals by which edits were refused, in a file with a line `CRATE/EDIT STAMP WAY GOAL WORDS` each."""

    def __init__(self, file):
        self.file, self.known = file, {}
        if os.path.exists(file):
            with open(file, encoding="utf-8") as it:
                rows = [line.rstrip("\n").split(" ", 4) for line in it]
            self.known = {edit: Note(stamp, way, goal, "".join(words)) for edit, stamp, way, goal, *words in rows}

    def write(self, crate, noted):
        """Writes by what the edits of a crate are refused, in place of what is told of that crate."""
        self.known = {**{name: note for name, note in self.known.items() if not name.startswith(f"{crate}/")}, **noted}
        rows = ((name, it.stamp, it.way, it.goal, it.words) for name, it in sorted(self.known.items()))
        with open(self.file, "w", encoding="utf-8") as it:
            it.writelines(" ".join(row).rstrip() + "\n" for row in rows)
