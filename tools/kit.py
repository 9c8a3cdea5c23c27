"""The kit of Rattle: where it lies, its command rt as a module, for what none of its commands gives, and its compiler of C."""

import functools
import importlib.machinery
import importlib.util
import os
import subprocess
import sys


@functools.cache
def folder():
    page = subprocess.run(["rt", "doc"], stdout=subprocess.PIPE, check=True, text=True).stdout.strip()
    return os.path.dirname(page)


@functools.cache
def rt():
    loader = importlib.machinery.SourceFileLoader("rt", os.path.join(folder(), "bin", "rt"))
    made = importlib.util.module_from_spec(importlib.util.spec_from_loader("rt", loader))
    sys.modules["rt"] = made
    loader.exec_module(made)
    return made


def compile_c(source, *words):
    subprocess.run([f"{folder()}/toolchain/bin/clang", *words, source], check=True)


def library_of(source, to):
    """Compiles a library that a program is started with, which stands before the C library's own calls."""
    compile_c(source, "-O2", "-shared", "-fPIC", "-nostdlib", f"-fuse-ld={folder()}/toolchain/bin/ld.lld", "-o", to)
    return to
