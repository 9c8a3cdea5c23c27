"""Texts that are short and ask for much, by rules of how they are made. Of each what may come of it, and how much time and memory.

`wanted` is how many seconds a processor of 2.5 GHz is to work for it at the most, and `memory` how many KiB the program may have.
"""

import json
from collections import namedtuple

Case = namedtuple("Case", "name program arguments given wanted memory status out err files", defaults=[0, "", "", {}])

GIGABYTE = 1 << 20
NO_MEMORY = {"status": 3, "err": "no memory\n"}
LETTERS = "abcdefghijklmnopqrstuvwxyzABCDEFGHIJKLMNOPQRSTUVWXYZ0123456789!#$%&'()+.:;<=>@_`|~"


def job(policy, states=65535, tasks=(), **others):
    return json.dumps({"policy": policy, "states": states, "tasks": list(tasks), **others}, separators=(",", ":"))


def numbers(seed):
    """A row of numbers below 2^31 that never changes."""
    while True:
        seed = (seed * 1103515245 + 12345) % 2**31
        yield seed >> 8


def classes(paths, each, left_out):
    """Paths of so many classes each, which all differ: a class is all letters but for some."""
    row, seen = numbers(1), set()
    for _ in range(paths):
        path = ""
        while path.count("[") < each:
            letters = "".join(sorted({LETTERS[next(row) % len(LETTERS)] for _ in range(left_out)}))
            if letters not in seen:
                seen.add(letters)
                path += f"[^{letters}]"
        yield path


def ok(rules):
    return f"ok 1 profiles {rules} file rules 0 passed over\n"


def branches(count):
    """Each branch may be empty, so each place is reached from each before it."""
    return "profile p { /" + "{,a}" * count + " r, }"


def differing(paths, each):
    """A state for each place and each set of the paths that still match there."""
    return "profile p {\n" + "".join(f"/{path} r,\n" for path in classes(paths, each, 12)) + "}"


def long_values(rules):
    """A path of one long value for each of 1,024 short ones, as their begin or as their end."""
    short = " ".join(f"{number:03x}" for number in range(1024))
    return f"@{{LONG}}={'v' * 15900}\n@{{SHORT}}={short}\nprofile p {{\n{rules}}}\n"


def own_rules(count):
    """A rule for each of as many requests."""
    return "profile p {\n" + "".join(f"/{number} r,\n" for number in range(count)) + "}\n"


def own_requests(count):
    return "".join(f"r:/{number}\n" for number in range(count))


def own_answers(count):
    """Each request's answer, and where its rule stands."""
    return "".join(f"granted r:/{number}\n    policy:{number + 2}:1: allows r: /{number} r,\n" for number in range(count))


def long_labels(tasks):
    """Tasks under the longest name there may be, of which each line of output has it, and each denied request two."""
    name = "p" * 1024
    return job(f"profile {name} {{ }}", tasks=[{"label": name, "requests": [{"cap": "kill"}] * 60_000}] * tasks)


def cases():
    yield Case("3,000 branches that may be empty", "aamediate", ["check"], job(branches(3000)), 0.4, 400_000, out=ok(1))
    yield Case("10 paths of 800 classes that all differ", "aamediate", ["check"], job(differing(10, 800), 1_000_000), 5, GIGABYTE, out=ok(10))
    yield Case("a value of 15,900 bytes before each of 1,024", "aamediate", ["check"], job(long_values("/@{LONG}@{SHORT} r,\n")), 2, 634_000, out=ok(1))
    yield Case("such a value behind each, in little memory", "aamediate", ["check"], job(long_values("/@{SHORT}@{LONG} r,\n")), 1, 200_000, **NO_MEMORY)
    files = {"policy": own_rules(16000), "requests": own_requests(16000)}
    yield Case("16,000 rules of which each is named", "aapolicy", ["ask", "policy", "--from", "requests"], "", 1, 200_000, out=own_answers(16000), files=files)
    yield Case("a label of 1,024 bytes in 780,000 answers", "aamediate", ["run"], long_labels(13), 1, GIGABYTE, **NO_MEMORY)
