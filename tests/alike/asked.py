"""Confirms by `aapolicy ask` what `diff`, `who`, `assert` and `reach` say.

What a call says is taken from its JSON, and the lines of its text must be those of it. Where files are skipped, `ask` has to answer as a line says or to
leave it undecided. Other forms must have each request.
"""

import collections
import html
import json
import re

from programs import AAPOLICY, job_of, output_of, replies_of, request_of, values_of

Call = collections.namedtuple("Call", "folder args stored")
VALUED = ("-b", "-I", "--states", "--old-base", "--profile", "--known", "--format", "--from", "--to", "--undecided", "--also")
ONLY = "only at unclean paths "
# A line that tells of an answer, of `diff` behind its heading.
TOLD = {
    "diff": re.compile(r".*\n  [-+~] |profile .* is (gone|new), and with it "),
    "who": re.compile(rf'(every|some) |{ONLY}("|unconfined|[0-9A-F])'),
    "assert": re.compile(rf"\S+:\d+: (broken|{ONLY.strip()}): "),
    "reach": re.compile(rf'(from \S+: )?({ONLY})?("[^"]*"|unconfined|[0-9A-F]+)( \S+[:=]|$)'),
}
WORD = re.compile(r"(owned:|other:)?(\w+)([:=].*)")


def shown(name):
    """A label as it is printed."""
    if name is None:
        return "unconfined"
    return f'"{name}"' if re.fullmatch(r"[!#-~]+", name) else name.encode().hex().upper()


def named_in(args):
    """The files and the words of a call."""
    return [word for before, word in zip(args, args[1:]) if not word.startswith("-") and before not in VALUED]


def options_of(args, base="-b"):
    """The options by which `ask` reads what a call reads."""
    return [word for name, values in (("-b", values_of(args, base) or values_of(args, "-b")), *((it, values_of(args, it)) for it in ("-I", "--states")))
            for value in values for word in (name, value)]


def said_by(call):
    """What a call says in JSON, and nothing where it answers nothing."""
    if "--json" in call.args:
        text = call.stored
    else:
        form = values_of(call.args, "--format")
        plain = [word for word in call.args if word not in ("--html", "--format", *form)]
        text, _ = output_of([AAPOLICY, *plain, "--json"], call.folder) if "--dot" not in plain else ("", 0)
    said = json.loads(text) if text else {}
    return {} if "fault" in said else said


def see_lines(call, wanted):
    """Sees that a text has these lines, and none else that tells of an answer; in other forms, the requests of these."""
    if "--json" in call.args:
        return
    if {"--html", "--format"} & {*call.args}:
        text = html.unescape(call.stored)
        words = [word for line in wanted for word in re.findall(r" ((?:owned:|other:)?\w+[:=]\S+)", line)]
        assert all(word in text for word in words), f"of {words} it hasn't all"
        return
    heading, found = "", []
    for line in call.stored.splitlines():
        if not line.startswith(" "):
            heading = line
        # (deeper stand rules)
        told = line if line == heading else f"{heading}\n{line}" if not line.startswith("   ") else ""
        found += [told] if TOLD[call.args[0]].match(told) else []
    assert sorted(found) == sorted(wanted), f"its lines are {found}, and in JSON {wanted}"


def ask(call, files, options, label, words, *more):
    """What `ask` answers at a label."""
    also = [word for file in files[1:] for word in ("--also", file)]
    more += ("--skip-refused",) if "--skip-refused" in call.args else ()
    text, _ = output_of([AAPOLICY, "ask", files[0], *words, *also, *options, *more, "--json", "--profile", label or "unconfined"], call.folder)
    answers = json.loads(text)
    assert isinstance(answers, list), f"{words} at {label}: {answers}"
    return answers


def is_decided(answer):
    return answer["granted"] is not None


def is_granted(answer):
    """Whether rules grant it, and not complain mode alone."""
    return answer["granted"] and not answer["complain"]


def is_answered(told, answer):
    """Whether `ask` answers as it is told where rules are enforced. Of what complain mode alone grants it doesn't say what is missing."""
    if answer["complain"]:
        answer = {**answer, "granted": False, "complain": False}
        told = {key: value for key, value in told.items() if key != "missing"}
    return not is_decided(answer) or told == answer


# What `diff` says.


def words_of(line):
    """The words for `ask` of what a line of `diff` tells of: each letter, and both owners where both are answered alike."""
    whose, kind, rest = WORD.fullmatch(line["request"]).groups()
    if kind in ("cap", "net", "change"):
        return [line["request"]]
    fronts = [whose] if whose else ["owned:", "other:"]
    return [f"{front}{letter}{rest}" for front in fronts for letter in ([kind] if kind in ("x", "l") else kind)]


def answer_word(answer, label, tells):
    """An answer as `diff` words it, which tells labels where one of both sides changes it."""
    if not answer["granted"]:
        return "denied"
    after = answer.get("label", label or "unconfined")
    return ("granted" if not tells else "unconfined" if after == "unconfined" else f"label {shown(after)}") + " scrubbed" * answer["scrub"]


def see_reports(call, sides, label, differences):
    """Sees that requests which both sides answer alike are reported otherwise."""
    reports = []
    for file, options in sides:
        job = job_of(call.folder, options, [file])
        job["tasks"] = [{"label": label or "unconfined", "requests": [request_of(word, False)]} for word, *_ in differences]
        found = replies_of(job)
        reports.append([found[at, 0][1] for at in range(len(differences))])
    for (word, sign, change), *both in zip(differences, *reports):
        words = ["not reported" if it is None else "granted by complain mode" if "ALLOWED" in it else "reported" for it in both]
        assert both[0] != both[1], f"{word}, {change}, is reported alike"
        assert sign == "~" and change in ("reported otherwise", " -> ".join(words)), f"{sign} {word}, {change}, is {words}"


def see_differences(call, sides, label, lines):
    """Sees that each request of lines of `diff` at a label is answered as its line says, and tells how many these are."""
    differences = [(word, line["sign"], line["change"]) for line in lines for word in words_of(line)]
    words, alike = [word for word, *_ in differences], []
    for (word, sign, change), *answers in zip(differences, *(ask(call, [file], options, label, words) for file, options in sides), strict=True):
        if not all(map(is_decided, answers)):
            continue
        tells = any(it["granted"] and it.get("label", label) != label for it in answers)
        old, new = (answer_word(it, label, tells) for it in answers)
        if old != new:
            assert change == f"{old} -> {new}", f"{word}, {change}, is {old} -> {new} by ask"
            assert (sign == "+" or old != "denied") and (sign == "-" or new != "denied"), f"{sign} {word} is {old} -> {new} by ask"
        else:
            assert "report" in change, f"{word}, {change}, is {old} on both sides by ask"
            alike.append((word, sign, change))
    if alike and "--skip-refused" not in call.args:
        see_reports(call, sides, label, alike)
    return len(words)


def see_gone(call, sides, said):
    """Sees that an unconfined task can change to profiles of one side alone there, and tells their lines."""
    lines = []
    for side, key, word in ((0, "gone_profiles", "gone"), (1, "new_profiles", "new")):
        for name in said[key]:
            change = f"change:{name}" if shown(name).startswith('"') else f"change={shown(name)}"
            for at, (file, options) in enumerate(sides):
                (answer,) = ask(call, [file], options, None, [change])
                assert not is_decided(answer) or answer["granted"] == (at == side), f"{name} is {word}, and {change} is answered {answer} by ask"
            lines.append(f"profile {shown(name)} is {word}, and with it {change}")
    return lines


def compare_diff(call):
    """Asks each request of each line of both sides, and tells how many these are."""
    said = said_by(call)
    if "lines" not in said:
        return 0
    old, new = named_in(call.args)
    sides = [(old, options_of(call.args, "--old-base")), (new, options_of(call.args))]
    wanted, at = see_gone(call, sides, said), {}
    for front, line in [("", it) for it in said["lines"]] + [(ONLY, it) for it in said.get("unclean", [])]:
        heading = "unconfined" if line["profile"] is None else f"profile {shown(line['profile'])}"
        more = f", and {line['more']} more" if line["more"] else ""
        wanted.append(f"{heading}\n  {line['sign']} {front}{line['request']} {line['change']}{more}")
        at.setdefault(line["profile"], []).append(line)
    see_lines(call, wanted)
    return len(wanted) + sum(see_differences(call, sides, label, lines) for label, lines in at.items())


# What `who` says.


def who_line(word, it, is_apart):
    name, example = shown(it["profile"]), f" as {it['as']['request']}"
    if is_apart:
        line = f"{ONLY}{name} {word}{example}"
    elif it["every"]:
        line = f"every {name} {word}" + (f", {ONLY}not {it['not_unclean']}" if "not_unclean" in it else "")
    else:
        line = f"some {name} {word}{example}, not {it['not']}"
    return line + " complains" * it["complains"]


def compare_who(call):
    """Asks what is said to be granted and to be refused, and tells of how many profiles this was."""
    said, wanted = said_by(call), []
    also = values_of(call.args, "--also")
    for answer in said.get("answers", []):
        for is_apart, it in [(False, it) for it in answer["granted"]] + [(True, it) for it in answer.get("unclean", [])]:
            refused = [it[key] for key in ("not", "not_unclean") if key in it]
            first, *others = ask(call, [named_in(call.args)[0], *also], options_of(call.args), it["profile"], [it["as"]["request"], *refused])
            assert it["as"]["granted"] and is_answered(it["as"], first), f"{it['as']} is answered {first} by ask"
            for other in others:
                assert not is_granted(other), f"{it['profile']} isn't granted {other['request']}, and is by ask"
            wanted.append(who_line(answer["word"], it, is_apart))
    see_lines(call, wanted)
    return len(wanted)


# What `assert` says.


def see_broken(call, it):
    """Sees that a claim is broken as it is said, and tells how its line ends."""
    claims, *files = named_in(call.args)
    options = options_of(call.args)
    files += values_of(call.args, "--also")
    complains = " complains" * it["complains"]
    if "as" in it:
        (answer,) = ask(call, files, options, it["profile"], [it["as"]["request"]])
        assert is_answered(it["as"], answer), f"{it} is answered {answer} by ask"
        return f" {it['as']['request']}{complains}"
    if "by" in it:
        answers = ask(call, files, options, it["profile"], it["by"], "--sequence")
        label = next((answer["label"] for answer in reversed(answers) if "label" in answer), it["profile"])
        if all(map(is_decided, answers)):
            assert all(map(is_granted, answers)), f"{it}: not all is granted by ask"
            assert label == (it["reaches"] or "unconfined"), f"{it}: it leads to {label}"
        return f" reaches {shown(it['reaches'])}: {' '.join(it['by'])}{complains}"
    # (what no rule speaks of is granted by complain mode alone)
    (answer,) = ask(call, files, options, it["profile"], ["rwakm:/no/rule/speaks/of/this"])
    assert not is_decided(answer) or answer["complain"], f"{it['profile']} doesn't complain"
    return complains


def compare_assert(call):
    """Asks each request and each list by which a claim is broken, and tells how many these are."""
    said, wanted = said_by(call), []
    for claim in said.get("claims", []):
        place = f"{named_in(call.args)[0]}:{claim['line']}: "
        for front, it in [("broken", it) for it in claim["broken"]] + [(ONLY.strip(), it) for it in claim.get("unclean", [])]:
            wanted.append(f"{place}{front}: {shown(it['profile'])}{see_broken(call, it)}")
    see_lines(call, wanted)
    return len(wanted)


# What `reach` says.


def compare_reach(call):
    """Asks each list of requests, by both programs where no file is skipped, and sees to which label it leads."""
    said, wanted = said_by(call), []
    answers, files, options = said.get("answers", []), named_in(call.args), options_of(call.args)
    is_skipping = "--skip-refused" in call.args
    job = job_of(call.folder, options, files) if answers and not is_skipping else {}
    for answer in answers:
        front = f"from {shown(answer['from'])}: " if "--to" in call.args and len(answers) > 1 else ""
        routes = [("", it) for it in answer["reached"]] + [(ONLY, it) for it in answer.get("unclean", [])]
        for only, route in routes:
            turns = route["requests"]
            words = [it["request"] for it in turns]
            marked = [it["request"] + " complain" * it["complain"] for it in turns]
            wanted.append(" ".join([f"{front}{only}{shown(route['profile'])}", *marked]))
            asked = ask(call, files, options, answer["from"], words, "--sequence") if words else []
            labels = [answer["from"] or "unconfined"]
            for turn, it in zip(turns, asked):
                assert not is_decided(it) or it["granted"] and it["complain"] == turn["complain"], f"{words}: {it} by ask"
                labels.append(it.get("label", labels[-1]))
            assert not all(map(is_decided, asked)) or labels[-1] == (route["profile"] or "unconfined"), f"{words} lead to {labels[-1]}"
            if words and not is_skipping:
                job["tasks"] = [{"label": labels[0], "requests": [request_of(word, False) for word in words]}]
                found = [verdict for verdict, _ in replies_of(job).values()]
                assert found == [(True, label, it["scrub"]) for label, it in zip(labels[1:], asked)], f"{words} are answered {found} by run"
    see_lines(call, wanted)
    return len(wanted)


COMPARED = {"diff": compare_diff, "who": compare_who, "assert": compare_assert, "reach": compare_reach}
