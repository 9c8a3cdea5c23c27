"""A plain mediator of small policies: it answers each request by the rules of docs/LANGUAGE.md, section 7, one rule after another, with what is reported and
whether the environment is scrubbed. A policy is a dictionary of profiles by their full names; the label of a task without a profile is `None`."""

import functools
import itertools
import typing

from decider import SPECIAL, as_regex

# All paths of up to so many bytes behind the first slash.
BYTES, LONGEST = "abc/", 3
PATHS = ["/" + "".join(rest) for length in range(LONGEST + 1) for rest in itertools.product(BYTES, repeat=length)]
KNOWN = set(PATHS)
CAPS = ["chown", "kill", "sys_admin"]
FAMILIES, TYPES = ["unix", "inet", "inet6"], ["stream", "dgram", "raw"]
LETTERS = "rwakm"
regex = functools.lru_cache(maxsize=None)(as_regex)


class Rule(typing.NamedTuple):
    """A rule on a file (its pattern, letters, and how it is executed and behind which name), a capability (names, or none for all), a socket (family and type,
    each perhaps none) or a change (its pattern, or none)."""

    kind: str
    audit: bool
    deny: bool
    owner: bool
    what: object
    letters: str = ""
    how: str | None = None
    target: str | None = None

    def text(self):
        front = "audit " * self.audit + "deny " * self.deny + "owner " * self.owner
        if self.kind == "cap":
            return front + " ".join(["capability", *self.what]) + ","
        if self.kind == "net":
            return front + " ".join(["network", *filter(None, self.what)]) + ","
        if self.kind == "change":
            return front + "change_profile" + (f" -> {self.what}" if self.what else "") + ","
        return f"{front}{self.what} {self.letters}{self.how or ''}" + (f" -> {self.target}" if self.target else "") + ","

    def perms(self):
        """What it names: a capability and its like as `it`."""
        if self.kind != "file":
            return {"it"}
        return set(self.letters) | ({"a"} if "w" in self.letters else set()) | ({"x"} if self.how else set())

    def applies(self, what, is_owned):
        if self.kind == "file":
            return (is_owned or not self.owner) and regex(self.what).fullmatch(what) is not None
        if self.kind == "cap":
            return not self.what or what in self.what
        if self.kind == "net":
            return self.what[0] in (None, what[0]) and self.what[1] in (None, what[1])
        return self.what is None or regex(self.what).fullmatch(what) is not None


class Profile(typing.NamedTuple):
    name: str
    parent: str | None
    attachment: str | None
    complain: bool
    audit: bool
    rules: tuple

    def lines(self, policy):
        flags = [name for name, has in (("complain", self.complain), ("audit", self.audit)) if has]
        head = self.name.split("//")[-1] + (f" {self.attachment}" if self.attachment else "") + (f" flags=({', '.join(flags)})" if flags else "")
        children = [line for it in policy.values() if it.parent == self.name for line in it.lines(policy)]
        return [f"profile {head} {{", *(f"  {it.text()}" for it in self.rules), *children, "}"]


class Said(typing.NamedTuple):
    """What the rules that apply say: the sets of LANGUAGE.md, and how an execution goes on and whether that is reported, or none."""

    allow: frozenset
    deny: frozenset
    loud: frozenset
    audited: frozenset
    way: tuple | None
    is_way_audited: bool

    def granted(self):
        return self.allow - self.deny

    def rights(self):
        """As far as any reply depends on it."""
        way = (self.way, self.is_way_audited) if self.way and "x" not in self.deny else None
        return self.granted(), self.deny, self.loud, self.audited & self.granted(), way


class Answer(typing.NamedTuple):
    granted: bool
    label: str | None
    scrub: bool
    note: tuple | None


def text_of(policy):
    return "".join(line + "\n" for it in policy.values() if it.parent is None for line in it.lines(policy))


def said_by(rules, kind, what, is_owned):
    holding = [it for it in rules if it.kind == kind and it.applies(what, is_owned)]
    sets = [frozenset().union(*(it.perms() for it in holding if it.deny == deny and (it.audit or not audit))) for audit in (False, True) for deny in (False, True)]
    executing = [it for it in holding if it.how and not it.deny]
    chosen = [it for it in executing if not SPECIAL.search(it.what)] or executing
    way = (chosen[0].how, chosen[0].target) if chosen else None
    return Said(sets[0], sets[1], sets[3], sets[2], way, any(it.audit for it in chosen))


class Mediator:
    def __init__(self, policy, is_enforced=False):
        self.policy, self.is_enforced, self.seen, self.found = policy, is_enforced, {}, {}

    def said(self, label, kind, what, is_owned=True):
        key = label, kind, what, is_owned
        if key not in self.seen:
            self.seen[key] = said_by(self.policy[label].rules, kind, what, is_owned)
        return self.seen[key]

    def attached(self, parent, path):
        """The profile without a parent, or with that, which is attached to a path."""
        if (parent, path) not in self.found:
            found = [it for it in self.policy.values() if it.parent == parent and it.attachment and regex(it.attachment).fullmatch(path)]
            literal = [it.name for it in found if not SPECIAL.search(it.attachment)]
            lengths = [SPECIAL.search(it.attachment).start() for it in found if SPECIAL.search(it.attachment)]
            best = literal or [it.name for it in found if SPECIAL.search(it.attachment).start() == max(lengths)]
            self.found[parent, path] = best[0] if len(best) == 1 else None
        return self.found[parent, path]

    def answer(self, label, asked, missing, denied, loud, reported, after=None):
        """The answer of a profile, by what is missing and denied, and the label and scrubbing after it."""
        profile = self.policy[label]
        complain = profile.complain and not self.is_enforced
        blocked = missing & denied if complain else missing
        if blocked:
            told = blocked if profile.audit else blocked - (denied - loud)
            return Answer(False, label, False, ("DENIED", told) if told else None)
        moved, scrub = after or (label, False)
        if missing:
            return Answer(True, moved, scrub, ("ALLOWED", missing))
        told = asked if profile.audit else reported
        return Answer(True, moved, scrub, ("AUDIT", told) if told else None)

    def by_said(self, label, asked, said, missing, reported, after=None):
        return self.answer(label, asked, missing, missing & said.deny, said.loud, reported, after)

    def use(self, label, path, mask, is_owned):
        if label is None:
            return Answer(True, None, False, None)
        said = self.said(label, "file", path, is_owned)
        return self.by_said(label, mask, said, mask - said.granted(), mask & said.audited)

    def link(self, label, path, target, is_owned):
        if label is None:
            return Answer(True, None, False, None)
        here, there = (self.said(label, "file", it, is_owned) for it in (path, target))
        missing = {"l"} - here.granted() | (here.granted() - {"l", "x"} - there.granted())
        if "x" in here.granted() and ("x" not in there.granted() or here.way != there.way):
            missing = missing | {"x"}
        asked = frozenset("l")
        return self.answer(label, asked, frozenset(missing), missing & here.deny & asked, here.loud, asked & here.audited)

    def led(self, label, path, said):
        """The label and scrubbing after an execution, or none where it leads nowhere."""
        if said.way is None:
            return None
        how, target = said.way
        is_scrubbed, kind = how[0].isupper(), how.lower()
        if kind in ("ix", "ux"):
            return (label, False) if kind == "ix" else (None, is_scrubbed)
        if kind[0] == "p":
            to = self.attached(None, path) if target is None else target if target in self.policy else None
        elif self.policy[label].parent:
            to = None
        else:
            to = self.attached(label, path) if target is None else f"{label}//{target}" if f"{label}//{target}" in self.policy else None
        if to is not None:
            return to, is_scrubbed
        if len(kind) == 3:
            return (label, False) if kind[1] == "i" else (None, is_scrubbed)
        return None

    def execute(self, label, path, is_owned):
        if label is None:
            return Answer(True, self.attached(None, path), False, None)
        said, asked = self.said(label, "file", path, is_owned), frozenset("x")
        after = None if "x" in said.deny else self.led(label, path, said)
        return self.by_said(label, asked, said, frozenset() if after else asked, asked if said.is_way_audited else frozenset(), after)

    def plain(self, label, kind, what):
        if label is None:
            return Answer(True, None, False, None)
        said, asked = self.said(label, kind, what), frozenset({"it"})
        return self.by_said(label, asked, said, asked - said.granted(), asked & said.audited)

    def change(self, label, name):
        to, is_there = None if name == "unconfined" else name, name == "unconfined" or name in self.policy
        if label is None:
            return Answer(is_there, to if is_there else None, False, None)
        said, asked = self.said(label, "change", name), frozenset({"it"})
        missing = asked - said.granted() if is_there else asked
        return self.by_said(label, asked, said, missing, asked & said.audited, (to if is_there else label, False))

    def reply(self, label, request):
        kind, *rest = request
        return {"file": self.use, "l": self.link, "x": self.execute, "change": self.change}[kind](label, *rest) if kind not in ("cap", "net") else self.plain(label, kind, *rest)


def request_of(word, is_owned=False):
    """The request of a word of `ask`."""
    if word.startswith("owned:"):
        return request_of(word.removeprefix("owned:"), True)
    kind, what = word.split(":", 1)
    if kind in ("cap", "change"):
        return kind, what
    if kind == "net":
        return kind, tuple(what.split("/"))
    if kind == "l":
        return (kind, *what.split("->"), is_owned)
    return (kind, what, is_owned) if kind == "x" else ("file", what, frozenset(kind), is_owned)


def requests_of(policies):
    """Requests over the alphabet: of files by a single permission, since what one by several is answered is what those of its permissions are; of links each
    path of those of which all rules say the same, so one of each sort is enough."""
    names = sorted({name for it in policies for name in it.policy} | {"unconfined", "z", "a//z"})
    found = [("change", it) for it in names] + [("cap", it) for it in CAPS] + [("net", it) for it in itertools.product(FAMILIES, TYPES)]
    for path, is_owned in itertools.product(PATHS, (True, False)):
        found += [("file", path, frozenset(it), is_owned) for it in LETTERS] + [("x", path, is_owned)]
    return found


def links_of(label, policies):
    """Links at a label, one for each sort of path and of target."""
    found = []
    for is_owned in (True, False):
        sorts = {}
        for path in PATHS:
            sorts.setdefault(tuple(it.said(label, "file", path, is_owned) for it in policies), path)
        found += [("l", path, target, is_owned) for path, target in itertools.product(sorts.values(), repeat=2)]
    return found
