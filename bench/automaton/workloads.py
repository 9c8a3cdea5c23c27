#!/usr/bin/env python3
"""Times the building of automata beside apparmor_parser on the same patterns.

usage: workloads.py PROGRAM [WORD..]

PROGRAM is the built program `aa_auto_bench` (bench/automaton/run builds it), which reads patterns from standard input, one
a line. With words, only the workloads that have one of them in their names are run. Each figure is the median of five runs
of the whole process, its start included, in seconds of the processor, so that other work on the machine doesn't show; the
ratio is PROGRAM's time over the parser's. Behind it stands how long the regions by these patterns take, over the automaton's time.
"""
import os
import resource
import statistics
import subprocess
import sys
import tempfile

sys.path.insert(0, os.path.dirname(os.path.dirname(os.path.abspath(__file__))))
from measuring import FEATURES, has_parser, row

RUNS = 5


def free(count):
    """A letter anywhere and that many free bytes behind it: about 2 to the power of one more rows."""
    return "/**a" + "?" * count


def mixed(count):
    """Rules with a variable and choices, and the patterns that they stand for."""
    homes = ["/home/*/", "/root/"]
    rules, patterns = [], []
    for i in range(count):
        if i % 4 == 0:
            rest = f".config/app{i}/{{cache,data}}/**"
            rules.append("@{HOME}" + rest)
            patterns += [home + rest for home in homes]
            continue
        text = [None, f"/usr/{{lib,lib64,share}}/pkg{i}/*.so", f"/etc/conf{i}.d/*", f"/var/log/svc{i}/**.log"][i % 4]
        rules.append(text)
        patterns.append(text)
    return "@{HOME}=" + " ".join(homes) + "\n", rules, patterns


def workloads():
    """Name, lines before the profile, the rules' paths, and the patterns. Those of a kind are one row of the table of all benches."""
    for n in (100, 1000, 10000):
        paths = [f"/usr/lib/x/{i}/file" for i in range(n)]
        yield f"{n} literals", "", paths, paths
    for n in (100, 1000, 10000):
        paths = [f"/dir{i}/**" for i in range(n)]
        yield f"{n} trees", "", paths, paths
    for n in (300, 3000):
        paths = [f"/**/lib{i}.so" for i in range(n)]
        yield f"{n} libraries", "", paths, paths
    paths = [f"/{{,usr/}}**/lib{i}.so" for i in range(300)]
    yield "300 behind usr", "", paths, paths
    paths = [f"/run/[0-9]*/app{i}/**" for i in range(300)]
    yield "300 behind run", "", paths, paths
    for k in range(8, 15):
        paths = [free(k)]
        yield f"free bytes {k}", "", paths, paths
    before, rules, patterns = mixed(1000)
    yield "1000 mixed", before, rules, patterns
    paths = [f"/{i:04x}" for i in range(65535)]
    yield "65535 numbers", "", paths, paths


def timed(command, data):
    """The processor's seconds, the exit status and standard output."""
    before = resource.getrusage(resource.RUSAGE_CHILDREN)
    done = subprocess.run(command, input=data, stdout=subprocess.PIPE, stderr=subprocess.PIPE)
    after = resource.getrusage(resource.RUSAGE_CHILDREN)
    seconds = after.ru_utime + after.ru_stime - before.ru_utime - before.ru_stime
    return seconds, done.returncode, done.stdout


def median(command, data=b""):
    results = [timed(command, data) for _ in range(RUNS)]
    return statistics.median(r[0] for r in results), results[-1]


def large(program):
    """The rows of an automaton of nearly a million, and the most memory that building it took, in bytes."""
    patterns = "".join(f"/{k}{free(k)[1:]}\n" for k in (18, 17, 16, 15))
    child = subprocess.Popen([program], stdin=subprocess.PIPE, stdout=subprocess.PIPE)
    child.stdin.write(patterns.encode())
    child.stdin.close()
    said = child.stdout.read().decode().strip()
    _, _, used = os.wait4(child.pid, 0)
    return said, used.ru_maxrss * 1024, used.ru_utime + used.ru_stime


KINDS = {"literals": "literals", "trees": "trees (`DIR/**`)", "libraries": "patterns that begin with `**`", "behind usr": "of `/{,usr/}**/lib{i}.so`",
         "behind run": "of `/run/[0-9]*/app{i}/**`", "free bytes": "free bytes behind a letter anywhere", "mixed": "rules of mixed forms", "numbers": "numbers of four digits"}


def number_in(name):
    return next(int(word) for word in name.split() if word.isdigit())


def kind_of(name):
    """What the patterns of a workload are, in words."""
    return KINDS[" ".join(word for word in name.split() if not word.isdigit())]


def main():
    program = os.path.abspath(sys.argv[1])
    words, is_compared, ratios, by_regions = sys.argv[2:], has_parser(), {}, []
    print(f"{'workload':16} {'patterns':>8} {'ours s':>9} {'parser s':>9} {'ratio':>7} {'regions':>7}  rows and classes")
    for name, before, paths, patterns in workloads():
        if words and not any(w in name for w in words):
            continue
        with tempfile.NamedTemporaryFile("w", suffix=".profile") as profile:
            profile.write(before + "profile p {\n" + "".join(f"  {p} r,\n" for p in paths) + "}\n")
            profile.flush()
            given = "".join(p + "\n" for p in patterns).encode()
            ours, last = median([program], given)
            regions = median([program], b"regions\n" + given)[0] / ours
            by_regions.append(regions)
            beside = f"{'':9} {'':7}"
            if is_compared:
                theirs, other = median(["apparmor_parser", "-QKS", "--features-file", FEATURES, profile.name])
                beside = f"{theirs:9.4f} {ours / theirs:7.2f}" if other[1] == 0 else f"the parser ended with {other[1]}"
                if other[1] == 0:
                    ratios.setdefault(kind_of(name), []).append((number_in(name), ours / theirs))
        print(f"{name:16} {len(patterns):8} {ours:9.4f} {beside} {regions:7.2f}  {last[2].decode().strip()}", flush=True)
    for kind, found in ratios.items():
        row(f"{'; '.join(f'{number:,}' for number, _ in found)} {kind}", "the parser", [ratio for _, ratio in found])
    if by_regions:
        row("regions by all these patterns: the worst", "the automaton that they are of", [max(by_regions)], "3")
    if not is_compared:
        row("automata of literals, trees and what begins with `**`", "the parser", [])
    said, peak, seconds = large(program)
    print(f"a large automaton: {said}, {peak // 1024 // 1024} MiB at most, {seconds:.2f} s")


main()
