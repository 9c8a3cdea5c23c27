"""The crates that programs are made of, and what the scripts that build them share."""

import fcntl
import os
import re
import shutil
import subprocess
import sys

SUMS = os.path.join(os.path.dirname(os.path.abspath(__file__)), "sums")
PROGRAMS = ("aamediate", "aapolicy")
# The crate that is built as a static library for other languages.
LIBRARY = "aa_library"
# What a proved program is made of, and what one without proofs is.
ALL, CODE = ("src", "specs", "proofs"), ("src",)
# For a guess alone: what a crate's proof takes of a processor, in seconds, and each of its lines.
SECONDS, SECONDS_A_LINE = 38, 0.034


def say(name, text):
    print(f"{name}: {text}", file=sys.stderr, flush=True)


def alone(name, made):
    """Waits until no other start of these scripts builds the same; none does as long as the file is open."""
    os.makedirs(os.path.dirname(made), exist_ok=True)
    lock = open(f"{made}.lock", "w")
    try:
        fcntl.flock(lock, fcntl.LOCK_EX | fcntl.LOCK_NB)
    except BlockingIOError:
        say(name, "another start is building it, and this one waits")
        fcntl.flock(lock, fcntl.LOCK_EX)
    return lock


def rows(top):
    """Of each crate of crates.txt, its line, and those of the repository that it uses."""
    with open(f"{top}/crates.txt", encoding="utf-8") as file:
        lines = [it for it in file.read().splitlines() if it and not it.startswith("#")]
    found = {re.split(r"[ :]", it)[0]: it for it in lines}
    return {name: (line, [it for it in line.partition(":")[2].split() if it in found]) for name, line in found.items()}


def needed(crates, names, found=None):
    """These crates and those below them, lowest first."""
    found = {} if found is None else found
    for name in names:
        needed(crates, crates[name][1], found)
        found[name] = None
    return list(found)


def copy_to(room, top, crates, names, parts):
    """Copies these parts of these crates, with what a program is run on."""
    for name in names:
        skipped = shutil.ignore_patterns("out", "must-fail", *(it for it in ALL if it not in parts))
        shutil.copytree(f"{top}/crates/{name}", f"{room}/crates/{name}", ignore=skipped)
    shutil.copy(f"{top}/HANDLES", room)
    with open(f"{room}/crates.txt", "w", encoding="utf-8") as file:
        file.writelines(f"{crates[it][0]}\n" for it in names)


def lines_of(top, name):
    files = [f"{at}/{it}" for part in ALL for at, _, found in os.walk(f"{top}/crates/{name}/{part}") for it in found]
    return sum(open(it, encoding="utf-8").read().count("\n") for it in files)


def minutes(top, crates, names):
    """On how many processors these crates are proved, and how many minutes that takes, guessed: no less than all of them divided by the
    processors, nor than the longest chain."""
    seconds = {it: SECONDS + SECONDS_A_LINE * lines_of(top, it) for it in names}
    chains = {}
    for name in names:
        chains[name] = seconds[name] + max((chains[it] for it in crates[name][1]), default=0)
    processors = len(os.sched_getaffinity(0))
    return processors, round(max(sum(seconds.values()) / processors, *chains.values()) / 60)


def sums(*words):
    """What a function of tools/sums prints."""
    return subprocess.run([SUMS, *words], stdin=subprocess.DEVNULL, stdout=subprocess.PIPE, text=True, check=True).stdout.strip()


def sums_of(top, name, parts, program):
    """The record of a program that was made of these parts of these crates by this toolchain: the sums of all three."""
    with open(program, "rb") as file:
        made = subprocess.run([SUMS, "sum"], stdin=file, stdout=subprocess.PIPE, text=True, check=True).stdout.strip()
    return f"{sums('sources_sum', top, name, *parts)} {sums('toolchain_sum') or '-'} {made}\n"


def is_current(top, name, parts, made):
    """Whether a program is the one that was made of these parts by this toolchain."""
    try:
        with open(f"{made}.record", encoding="utf-8") as file:
            return file.read() == sums_of(top, name, parts, made)
    except OSError:
        return False


def put(program, made, record):
    """Puts a program and its record in the places of earlier ones."""
    os.makedirs(os.path.dirname(made), exist_ok=True)
    os.replace(shutil.copy2(program, f"{made}.new"), made)
    with open(f"{made}.record.new", "w", encoding="utf-8") as file:
        file.write(record)
    os.replace(f"{made}.record.new", f"{made}.record")
