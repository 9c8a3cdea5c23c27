"""A plain decider of small policies: patterns are read with Python's `re`, and rules as apparmor.d(5) has them. A policy is a dictionary of profiles by
their full names, and `None` is the label of a task without a profile."""

import itertools
import re

# All paths of up to so many bytes behind the first slash.
BYTES, LONGEST = "ab/", 5
PATHS = ["/" + "".join(rest) for length in range(LONGEST + 1) for rest in itertools.product(BYTES, repeat=length)]
KNOWN = set(PATHS)
# those without a component that is empty, . or ..
CLEAN = [path for path in PATHS if not re.search(r"/(\.{0,2}/|\.{1,2}$)", path)]
SPECIAL = re.compile(r"[?*\[{]")


def piece(chance):
    kind = chance.random()
    if kind < 0.45:
        return chance.choice("ab")
    if kind < 0.60:
        return "/"
    if kind < 0.80:
        return chance.choice(["*", "**", "?"])
    if kind < 0.90:
        return chance.choice(["[ab]", "[^a]", "[a/]"])
    return chance.choice(["{a,b}", "{,a}", "{a/,}"])


def pattern(chance):
    while True:
        text = "/" + "".join(piece(chance) for _ in range(chance.randint(1, 3)))
        # (runs of slashes become one, also those that a choice makes)
        if "//" not in text and "{a/,}/" not in text and "/[a/]" not in text:
            return text


def as_regex(text):
    """The regular expression of a pattern."""
    found, pieces = "", re.findall(r"\*+|\?|\[[^\]]*\]|\{[^}]*\}|.", text)
    for at, it in enumerate(pieces):
        is_placed = at > 0 and pieces[at - 1] == "/" and (at + 1 == len(pieces) or pieces[at + 1] == "/")
        if it[0] == "*":
            one = "[^/]" if len(it) == 1 else "(?:[^/].*)"
            found += (one + ("+" if len(it) == 1 else "")) if is_placed else "[^/]*" if len(it) == 1 else ".*"
        elif it == "?":
            found += "[^/]"
        elif it[0] == "{":
            found += "(?:" + it[1:-1].replace(",", "|") + ")"
        else:
            found += it if it[0] == "[" else re.escape(it)
    return re.compile(found, re.DOTALL)


def letters(mode):
    return set(mode) | ({"a"} if "w" in mode else set())


class Decider:
    """What rules grant: of a path the letters, for the owner and for others."""

    def __init__(self, rules):
        self.rules = [(is_denied, is_owners, as_regex(text), letters(mode)) for is_denied, is_owners, text, mode in rules]

    def granted(self, path):
        found = []
        holding = [it for it in self.rules if it[2].fullmatch(path)]
        for is_owned in (True, False):
            allowed, denied = (set().union(*(it[3] for it in holding if it[0] == is_denied and (is_owned or not it[1]))) for is_denied in (False, True))
            found.append(allowed - denied)
        return found


class Profile:
    """A profile with rules on files, on executions (denied, the owner's, pattern, how, target), on changes (denied, pattern or none), on capabilities (denied,
    their names or none for all) and on sockets (denied, family or none, type or none)."""

    def __init__(self, name, parent, attachment, complains, files, execs, changes, caps=(), nets=()):
        self.name, self.parent, self.attachment, self.complains = name, parent, attachment, complains
        self.files, self.execs, self.changes, self.caps, self.nets = files, execs, changes, caps, nets
        self.decider = Decider(files)
        self.attached = as_regex(attachment) if attachment else None
        self.how = [(*it, as_regex(it[2])) for it in execs]
        self.names = [(is_denied, as_regex(text) if text else re.compile(".*", re.DOTALL)) for is_denied, text in changes]

    def text(self, children):
        head = self.name.split("//")[-1] + (f" {self.attachment}" if self.attachment else "") + (" flags=(complain)" if self.complains else "")
        lines = [f"{'deny ' * is_denied}{'owner ' * is_owners}{text} {mode}," for is_denied, is_owners, text, mode in self.files]
        for is_denied, is_owners, text, how, target in self.execs:
            lines.append(f"{'deny ' * is_denied}{'owner ' * is_owners}{text} {'x' if is_denied else how}{f' -> {target}' if target else ''},")
        lines += [f"{'deny ' * is_denied}change_profile{f' -> {text}' if text else ''}," for is_denied, text in self.changes]
        lines += [f"{'deny ' * is_denied}{' '.join(['capability', *names])}," for is_denied, names in self.caps]
        lines += [f"{'deny ' * is_denied}{' '.join(['network', *filter(None, sockets)])}," for is_denied, *sockets in self.nets]
        lines += [line for it in children for line in it.text([]).splitlines()]
        return f"profile {head} {{\n" + "".join(f"  {line}\n" for line in lines) + "}\n"


class Policy:
    def __init__(self, profiles):
        self.profiles = {it.name: it for it in profiles}

    def text(self):
        return "".join(it.text([child for child in self.profiles.values() if child.parent == it.name]) for it in self.profiles.values() if it.parent is None)

    def attached(self, parent, path):
        """The profile without a parent, or with that, which is attached to a path."""
        found = [it for it in self.profiles.values() if it.parent == parent and it.attached and it.attached.fullmatch(path)]
        literal = [it.name for it in found if not SPECIAL.search(it.attachment)]
        if literal:
            return literal[0]
        lengths = [SPECIAL.search(it.attachment).start() for it in found]
        best = [it.name for it, length in zip(found, lengths) if length == max(lengths)]
        return best[0] if len(best) == 1 else None

    def executed(self, label, path, is_owned):
        """Whether an execution is granted, the label after it, and whether complain mode alone grants it."""
        if label is None:
            return True, self.attached(None, path), False
        profile = self.profiles[label]
        holding = [it for it in profile.how if (is_owned or not it[1]) and it[5].fullmatch(path)]
        if any(it[0] for it in holding):
            return False, label, False
        chosen = [it for it in holding if not SPECIAL.search(it[2])] or holding
        if not chosen:
            return profile.complains, label, profile.complains
        how, target = chosen[0][3].lower(), chosen[0][4]
        if how in ("ix", "ux"):
            return True, label if how == "ix" else None, False
        if how[0] == "p":
            found = self.attached(None, path) if target is None else target if target in self.profiles else None
        else:
            found = None if profile.parent else self.attached(label, path) if target is None else f"{label}//{target}" if f"{label}//{target}" in self.profiles else None
        if found is not None:
            return True, found, False
        if len(how) == 3:
            return True, label if how[1] == "i" else None, False
        return profile.complains, label, profile.complains

    def changed(self, label, name):
        """The same of a change of profile."""
        there = name == "unconfined" or name in self.profiles
        to = None if name == "unconfined" else name
        if label is None:
            return there, to if there else label, False
        profile = self.profiles[label]
        holding = {is_denied for is_denied, regex in profile.names if regex.fullmatch(name)}
        if there and holding == {False}:
            return True, to, False
        granted = profile.complains and True not in holding
        return granted, to if granted and there else label, granted

    def enables(self, label, name):
        """Whether the rules allow a capability."""
        if label is None:
            return True
        return {is_denied for is_denied, names in self.profiles[label].caps if not names or name in names} == {False}

    def opens(self, label, family, kind):
        """Whether they allow a socket."""
        if label is None:
            return True
        return {is_denied for is_denied, *sockets in self.profiles[label].nets if sockets[0] in (None, family) and sockets[1] in (None, kind)} == {False}

    def answered(self, label, word):
        """The same of a request word to execute or to change."""
        is_owned, rest = word.startswith("owned:"), word.removeprefix("owned:")
        kind, name = rest.split(":", 1)
        return self.executed(label, name, is_owned) if kind == "x" else self.changed(label, name)

    def near(self, label, is_enforced, paths=PATHS):
        """To each other label to which one request leads, the shortest path of an execution that leads there, or none where a change does."""
        found = {}
        for path, is_owned in itertools.product(paths, (True, False)):
            granted, after, by_complaining = self.executed(label, path, is_owned)
            if granted and after != label and not (is_enforced and by_complaining):
                found.setdefault(after, path)
        for name in ["unconfined", *self.profiles]:
            granted, after, by_complaining = self.changed(label, name)
            if granted and after != label and not (is_enforced and by_complaining):
                found.setdefault(after, None)
        return found
