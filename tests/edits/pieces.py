"""Cuts a .rt source into pieces: what stands outside functions, and of each function what stands before `fn`, its head and its body."""
import copy
import re
import subprocess
import tempfile

# The attributes that a function of another name may have as well.
PLAIN = ("tactic", "inline", "must_use", "allow", "cold", "doc")


class Function:
    """A function of a crate, as its source names it."""

    def __init__(self, modules, scopes, name, attributes, words, head):
        self.modules = modules + [word for kind, word in scopes if kind == "mod"]
        self.types = next((word for kind, word in reversed(scopes) if kind.endswith("impl")), [""])
        self.name = name
        self.cycle = next((it[2] for it in attributes if it[:2] == ["cycle", "("]), None)
        # A constant function's value, and a type that a body decides, can change what other proofs say.
        is_seen_through = "const" in words or re.search(r"-> impl\b", head.replace("- >", "->"))
        self.stands_alone = not is_seen_through and all(kind in ("mod", "impl", "trait impl") for kind, _ in scopes)
        # Whether a function of another name may stand beside it and be proved by itself.
        is_plain = all(it[0] in PLAIN for it in attributes) and all(kind != "trait impl" for kind, _ in scopes)
        self.is_copied = self.stands_alone and is_plain

    def unit(self):
        """Returns what has one proof: the function, or the cycle of calls that it is in."""
        return (*self.modules, f"+{self.cycle}") if self.cycle else (*self.modules, self.types[0], self.name)

    def named(self, name):
        """Returns a function like this one under another name."""
        other = copy.copy(self)
        other.name = name
        return other

    def is_named(self, printed):
        """Tells whether rattle prints the function so, or a closure of it, in the words between `::` below the crate's name. (A method stands
        in the module of its type, wherever its impl is.)"""
        for type_name in self.types:
            own = [type_name, self.name] if type_name else [*self.modules, self.name]
            closures = [[*printed[:at], *printed[at + 1 : at + 1 + size]] for at, it in enumerate(printed) if it == "fn" for size in (1, len(own))]
            if any(it[-len(own) :] == own and (type_name or it == own) for it in [printed, *closures]):
                return True
        return False


def tokens_of(rattle, texts):
    """Returns the tokens of each text that are code: no comment, no literal, no clause."""
    with tempfile.TemporaryDirectory(prefix="edits-") as room:
        files = [f"{room}/{at}.rt" for at in range(len(texts))]
        for file, text in zip(files, texts):
            with open(file, "w", encoding="utf-8") as it:
                it.write(text)
        ran = subprocess.run([rattle, "fmt", "--tokens", *files], stdin=subprocess.DEVNULL, capture_output=True)
    rows = re.split(rb"(?m)^file \d+\n", ran.stdout)[1:]
    if ran.returncode or len(rows) != len(texts):
        return None
    token = re.compile(rb'(?m)^\d+ (\d+) (\d+) Code (".*")$')
    return [[(int(it[1]), int(it[2]), it[3].decode()[1:-1]) for it in token.finditer(row)] for row in rows]


def modules_of(path):
    """Returns the modules that a file below src/ stands for."""
    words = path[: -len(".rt")].split("/")[1:]
    return words[:-1] if words[-1] in ("lib", "main", "mod") else words


def closing(tokens, at):
    """Returns the index of the token that closes the one at `at`."""
    depth = 0
    for index in range(at, len(tokens)):
        depth += {"{": 1, "(": 1, "[": 1, "}": -1, ")": -1, "]": -1}.get(tokens[index][2], 0)
        if not depth:
            return index
    return len(tokens) - 1


def opening(tokens, at):
    """Returns the index of the brace that opens the body of the function at `at`, or of the semicolon of one that has none."""
    while at < len(tokens) and tokens[at][2] not in ("{", ";"):
        at = closing(tokens, at) + 1 if tokens[at][2] in ("(", "[") else at + 1
    return at


def divided(words):
    """Divides the words before an item's brace into its attributes and the rest."""
    attributes, rest = [], []
    while words:
        if words[0] == "#" and "[" in words[:3]:
            end, depth = words.index("["), 0
            for end in range(end, len(words)):
                depth += {"[": 1, "]": -1}.get(words[end], 0)
                if not depth:
                    break
            attributes.append(words[words.index("[") + 1 : end])
            words = words[end + 1 :]
        else:
            rest.append(words[0])
            words = words[1:]
    return attributes, rest


def outside_angles(words):
    """Returns each word with whether it stands outside all angle brackets."""
    found, depth, last = [], 0, ""
    for word in words:
        depth -= word == ">" and last != "-"
        found.append((word, depth == 0 and word not in "<>"))
        depth += word == "<"
        last = word
    return found


def is_word(text):
    return re.fullmatch(r"[A-Za-z_]\w*", text) is not None


def impl_names(words):
    """Returns the names that rattle may give to an impl with these words before its brace."""
    words = outside_angles(words[words.index("impl") + 1 :])
    plain = [it for it, is_outside in words if is_outside]
    if "where" in plain:
        words = words[: words.index(("where", True))]
    cut = next((at for at, it in enumerate(words) if it == ("for", True)), None)
    of_type = [it for it, is_outside in words[0 if cut is None else cut + 1 :] if is_outside and is_word(it)]
    type_name = of_type[-1] if of_type else ""
    if cut is None:
        return [type_name]
    outer = [it for it, is_outside in words[:cut] if is_outside and is_word(it)]
    trait = outer[-1] if outer else ""
    behind = [it for it, _ in words[:cut]]
    inner = [it for it in behind[len(behind) - behind[::-1].index(trait) :] if is_word(it)] if trait else []
    return [f"{type_name}{trait}{''.join(inner[:count])}" for count in range(len(inner) + 1)]


def scope_of(words):
    """Returns what the brace behind these words opens: its kind and its name."""
    rest = divided(words)[1]
    if "mod" in rest and is_word(rest[-1]):
        return "mod", rest[-1]
    if "impl" in rest:
        return "trait impl" if ("for", True) in outside_angles(rest) else "impl", impl_names(rest)
    return "other", ""


def cut(path, text, tokens):
    """Returns the pieces of a file, as (function, part, text): part is front, head or body, and empty outside functions."""
    data = text.encode()
    found, scopes, before, front, at, end = [], [], [], 0, 0, 0
    while at < len(tokens):
        start, _, word = tokens[at]
        if word == "fn" and at + 1 < len(tokens) and is_word(tokens[at + 1][2]):
            opens = opening(tokens, at)
            if opens < len(tokens) and tokens[opens][2] == "{":
                closes = closing(tokens, opens)
                attributes, words = divided(before)
                head, body = data[start : tokens[opens][0]], data[tokens[opens][0] : tokens[closes][1]]
                shown = " ".join(it for _, _, it in tokens[at:opens])
                function = Function(modules_of(path), scopes, tokens[at + 1][2], attributes, words, shown)
                front = front if before else start
                found += [(None, "", data[end:front]), (function, "front", data[front:start])]
                found += [(function, "head", head), (function, "body", body)]
                end, at = tokens[closes][1], closes
            else:
                at = opens
            before = []
        elif word == "{":
            scopes, before = [*scopes, scope_of(before)], []
        elif word in ("}", ";"):
            scopes, before = scopes[:-1] if word == "}" else scopes, []
        else:
            front = front if before else start
            before.append(word)
        at += 1
    return [*found, (None, "", data[end:])]


def changed(old, new):
    """Returns the indexes of the pieces that differ, or None where the functions are not the same."""
    shape = lambda pieces: [(it and it.unit(), part) for it, part, _ in pieces]
    if shape(old) != shape(new):
        return None
    return [at for at, (a, b) in enumerate(zip(old, new)) if a[2] != b[2]]
