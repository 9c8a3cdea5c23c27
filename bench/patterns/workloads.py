#!/usr/bin/env python3
"""Times the reading and the matching of patterns: as growth in one run, and beside a plain backtracking matcher.

usage: workloads.py PROGRAM PLAIN

PROGRAM is the built program `aa_glob_bench` and PLAIN the matcher of plain/main.rs (bench/patterns/run builds both); both read
rounds, patterns and paths from standard input. Each figure is the median of five runs of the whole process in seconds of the
processor, less that of a run of no round; the programs have to count the same matches.
"""
import os
import resource
import statistics
import subprocess
import sys

sys.path.insert(0, os.path.dirname(os.path.dirname(os.path.abspath(__file__))))
from measuring import row

RUNS = 5
FORMS = (
    "/usr/lib/x86_64-linux-gnu/lib{i}.so*",
    "/usr/{{lib,lib64,share}}/app{i}/**",
    "/etc/app{i}/**.conf",
    "/var/log/app{i}/*.log",
    "/{{,usr/}}bin/tool{i}",
    "/home/*/.config/app{i}/**",
    "/run/user/[0-9]*/app{i}/*",
    "/proc/[1-9]*/{{fd,task/*}}/app{i}",
    "/tmp/app{i}-??????",
    "/**/app{i}/{{cache,data}}/*.db",
)
PATHS = (
    "/usr/lib/x86_64-linux-gnu/lib{i}.so.6",
    "/usr/share/app{i}/icons/48x48/apps/app.png",
    "/etc/app{i}/conf.d/10-first.conf",
    "/var/log/app{i}/error.log",
    "/usr/bin/tool{i}",
    "/home/somebody/.config/app{i}/profiles/default/settings.ini",
    "/run/user/1000/app{i}/socket",
    "/proc/4711/task/4712/app{i}",
    "/tmp/app{i}-Xk29aQ",
    "/srv/data/users/somebody/app{i}/cache/index.db",
)


def of_forms(forms, count):
    return [forms[i % len(forms)].format(i=i) for i in range(count)]


def timed(command, given):
    before = resource.getrusage(resource.RUSAGE_CHILDREN)
    done = subprocess.run([command], input=given, stdout=subprocess.PIPE, check=True)
    after = resource.getrusage(resource.RUSAGE_CHILDREN)
    return after.ru_utime + after.ru_stime - before.ru_utime - before.ru_stime, done.stdout


def median(command, rounds, patterns, paths):
    given = "\n".join([str(rounds), *patterns, "", *paths, ""]).encode()
    results = [timed(command, given) for _ in range(RUNS)]
    return statistics.median(seconds for seconds, _ in results), results[-1][1]


def matching(command, rounds, patterns, paths):
    """The seconds of that many rounds, and what was counted."""
    seconds, said = median(command, rounds, patterns, paths)
    return seconds - median(command, 0, patterns, paths)[0], said


def growth(name, measure):
    """Lengths of 1, 4 and 16 KiB, their seconds, and how many times as long each takes as the one before."""
    before = None
    for length in (1024, 4096, 16384):
        seconds = measure(length)
        grown = f"{seconds / before:8.2f}" if before else ""
        print(f"{name:40} {length:8} {seconds:9.4f} {grown}", flush=True)
        before = seconds


def main():
    program, plain = sys.argv[1:]
    print(f"{'a pattern of so many bytes':40} {'bytes':>8} {'seconds':>9} {'growth a fourfold':>8}")
    empty = median(program, 0, [], [])[0]
    for name, part in (("bytes", "abcdefgh"), ("stars", "/**/a*/?"), ("classes", "/[a-c^]x"), ("choices", "/{a,b*}x")):
        growth("read, " + name, lambda length: median(program, 0, [part * (length // 8)] * 200, [])[0] - empty)
    path = "/a" * 2047
    for name, part in (("stars", "/**/*"), ("classes", "/*[a-c]")):
        growth("match, " + name, lambda length: matching(program, 1, [part * (length // len(part)) + "-"] * 2, [path])[0])
    print(f"\n{'matching 1,000 patterns':40} {'ours s':>8} {'plain s':>9} {'ratio':>7}")
    patterns = of_forms(FORMS, 1000)
    workloads = [("all forms with 100 paths", patterns, of_forms(PATHS, 1000)[::10] + of_forms(PATHS, 90))]
    for form, path in zip(FORMS, PATHS):
        workloads.append((form.replace("{i}", "N").replace("{{", "{").replace("}}", "}"), of_forms([form], 1000), of_forms([path], 100)))
    ratios = []
    for name, patterns, paths in workloads:
        ours, ours_said = matching(program, 20, patterns, paths)
        theirs, theirs_said = matching(plain, 20, patterns, paths)
        if ours_said != theirs_said:
            sys.exit(f"{name}: {ours_said} and {theirs_said}")
        ratios.append(ours / theirs)
        print(f"{name:40} {ours:8.4f} {theirs:9.4f} {ours / theirs:7.2f}  {ours_said.decode().strip()}", flush=True)
    row("`Pattern::matches`: all forms; the best form; the worst", "a backtracking matcher in Rust", [ratios[0], min(ratios[1:]), max(ratios[1:])])


main()
