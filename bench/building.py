#!/usr/bin/env python3
"""Builds a bench's program and prints its path, or only that where neither a source nor the toolchain has changed.

Usage: bench/building.py FOLDER 'NAME: LIBRARY ..'     (the folder of the crate, and what would be its line of crates.txt)

The program stays in out/bench. It is proved in a temporary folder over copies of the repository's crates that it uses, of which
what this machine has proved before is taken (tools/build). Its sources end in .of, so that the gate doesn't take them for its own.
How far it is goes to standard error.
"""

import contextlib
import hashlib
import os
import re
import shutil
import signal
import subprocess
import sys
import tempfile

TOP = os.path.dirname(os.path.dirname(os.path.abspath(__file__)))
BUILD = os.path.join(TOP, "tools", "build")
BUILT = os.path.join(TOP, "out", "bench")
PARTS = ("src", "specs", "proofs")


def lines_of_crates():
    """The line and the libraries of each crate of crates.txt."""
    with open(os.path.join(TOP, "crates.txt")) as file:
        lines = [line.partition("#")[0].strip() for line in file]
    return {line.split()[0].rstrip(":"): (line, line.partition(":")[2].split()) for line in lines if line}


def closure(libraries, known):
    """The repository's crates among these libraries, and those that they use."""
    found = []
    for name in libraries:
        if name in known and name not in found:
            found += [it for it in [*closure(known[name][1], known), name] if it not in found]
    return found


def files_below(folder):
    return sorted(os.path.join(at, name) for at, _, names in os.walk(folder) for name in names)


def sum_of(folder, line, crates, known):
    """A sum over all that the program is made from."""
    version = subprocess.run(["rt", "version"], stdout=subprocess.PIPE, check=True).stdout
    found = hashlib.sha256(repr((version, line, [known[it][0] for it in crates])).encode())
    folders = [folder, *(os.path.join(TOP, "crates", crate, part) for crate in crates for part in PARTS)]
    for path in (it for at in folders for it in files_below(at)):
        with open(path, "rb") as file:
            found.update(repr((os.path.relpath(path, TOP), file.read())).encode())
    return found.hexdigest()


def copy(folder, name, line, crates, known, to):
    """Lays out a repository of the program and copies of the crates."""
    shutil.copy(os.path.join(TOP, "HANDLES"), to)
    with open(os.path.join(to, "crates.txt"), "w") as file:
        file.writelines(f"{it}\n" for it in [*(known[crate][0] for crate in crates), line])
    for crate in crates:
        for part in PARTS:
            source = os.path.join(TOP, "crates", crate, part)
            if os.path.isdir(source):
                shutil.copytree(source, os.path.join(to, "crates", crate, part))
    shutil.copytree(folder, os.path.join(to, "crates", name))
    for path in files_below(os.path.join(to, "crates", name)):
        os.rename(path, re.sub(r"\.of$", "", path))


def build(folder, line):
    """Gives the path of the program, which is built if need be."""
    name, _, libraries = (it.strip() for it in line.partition(":"))
    known = lines_of_crates()
    crates = closure(libraries.split(), known)
    program, record = os.path.join(BUILT, name), os.path.join(BUILT, f"{name}.record")
    wanted = sum_of(folder, line, crates, known)
    with contextlib.suppress(FileNotFoundError):
        with open(record) as file:
            if file.read() == wanted and os.access(program, os.X_OK):
                return program
    with tempfile.TemporaryDirectory(prefix="bench-") as to:
        copy(folder, name, line, crates, known, to)
        subprocess.run([BUILD, "--bench", to, name], stdin=subprocess.DEVNULL, stdout=subprocess.DEVNULL, check=True)
        os.makedirs(BUILT, exist_ok=True)
        shutil.copy(os.path.join(to, "crates", name, "out", name), program)
    with open(record, "w") as file:
        file.write(wanted)
    return program


def main():
    # (so that the temporary folder is removed then too)
    signal.signal(signal.SIGTERM, lambda *_: sys.exit(1))
    if not shutil.which("rt"):
        sys.exit("the command rt is missing: see the README, 'To run it'")
    try:
        print(build(os.path.abspath(sys.argv[1]), sys.argv[2]))
    except subprocess.CalledProcessError:
        sys.exit("the bench's program was not built")


main()
