"""The two programs, the job of files as `aapolicy job` prints it, and what `aamediate run` answers to a job."""

import json
import os
import re
import subprocess

HERE = os.path.dirname(os.path.abspath(__file__))
TOP = os.path.dirname(os.path.dirname(HERE))
AAPOLICY = os.path.join(TOP, "crates", "aapolicy", "out", "aapolicy")
AAMEDIATE = os.path.join(TOP, "crates", "aamediate", "out", "aamediate")
VERDICT = re.compile(r'(\d+) (\d+) (granted|denied) label=("[^"]*"|[0-9A-F]+)(?: policy=\d+)?( scrub)?$')
# What packages leave beside profiles.
LEFT = re.compile(r"\.(?:dpkg-(?:new|old|dist|bak|remove)|pacsave|pacnew)$")


def output_of(command, folder, given=None):
    """What a command writes, and its status."""
    done = subprocess.run(command, cwd=folder, input=given, stdout=subprocess.PIPE, stderr=subprocess.PIPE, text=True, timeout=120)
    return done.stdout, done.returncode


def path_of(text):
    return text if text.startswith("/") else bytes.fromhex(text).decode()


def request_of(word, owned):
    """The item of a job that a request word is."""
    if word.startswith("owned:"):
        word, owned = word[len("owned:"):], True
    elif word.startswith("other:"):
        word, owned = word[len("other:"):], False
    if word.startswith("change="):
        return {"change": bytes.fromhex(word[len("change="):]).decode()}
    kind, rest = word.split(":", 1)
    if kind == "cap":
        return {"cap": rest}
    if kind == "net":
        family, type = rest.split("/")
        return {"net": family, "type": type}
    if kind == "change":
        return {"change": rest}
    if kind == "x":
        return {"exec": path_of(rest), "owned": owned}
    if kind == "l":
        link, target = rest.split("->")
        return {"link": path_of(link), "to": path_of(target), "owned": owned}
    return {"file": path_of(rest), "mask": kind, "owned": owned}


def files_of(folder, profile, base=""):
    """The files that an argument stands for."""
    path = os.path.join(folder, profile)
    if not os.path.isdir(path):
        return [profile]
    disabled = os.path.join(folder, base, "disable")
    names = sorted(name for name in os.listdir(path) if name != "README" and not LEFT.search(name) and os.path.isfile(os.path.join(path, name))
                   and not os.path.exists(os.path.join(disabled, name)))
    return [os.path.join(profile, name) for name in names]


def apart(text, number):
    """A file's text with its variables under names of their own."""
    return re.sub(r"@\{(\w+)\}", lambda found: f"@{{{found[1]}{number}}}", text)


def job_of(folder, options, profiles, logs=()):
    """The job of files, which are one policy, and logs."""
    jobs = []
    for profile in (file for it in profiles for file in files_of(folder, it)):
        text, status = output_of([AAPOLICY, "job", *options, profile, *logs], folder)
        assert status == 0, f"job ended with status {status}"
        jobs.append(json.loads(text))
    if len(jobs) == 1:
        return jobs[0]
    lines = [line for number, job in enumerate(jobs) for line in apart(job["policy"], number).splitlines()]
    # (all assignments stand before the first profile)
    policy = "\n".join(sorted(lines, key=lambda line: not line.startswith("@{")))
    includes = {name: text for job in jobs for name, text in job["includes"].items()}
    return {**jobs[0], "policy": policy, "includes": includes, "tasks": [task for job in jobs for task in job["tasks"]]}


def replies_of(job):
    """The verdict, label and scrubbing of each request of a job, and its audit line or None, by its task and number."""
    text, status = output_of([AAMEDIATE, "run"], HERE, json.dumps(job))
    assert status == 0, f"run ended with status {status}"
    found, at = {}, None
    for line in text.splitlines():
        told = VERDICT.match(line)
        if told:
            label = told[4].strip('"') if told[4].startswith('"') else bytes.fromhex(told[4]).decode()
            at = int(told[1]), int(told[2])
            found[at] = (told[3] == "granted", label, told[5] is not None), None
        else:
            found[at] = found[at][0], line
    return found


def verdicts_of(job):
    """The verdict, label and scrubbing of each request of a job by its task and number."""
    return {at: verdict for at, (verdict, _) in replies_of(job).items()}


def values_of(args, option):
    """An option's values."""
    return [args[at + 1] for at, word in enumerate(args) if word == option]
