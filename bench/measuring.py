"""What the benches of the program share: its jobs, times, and tables of growth.

Times are the processor's, so that other work on the machine doesn't show. The runs that a table compares take turns, and the
median of each counts: a slow moment of the machine meets all of them alike. (The least of a few doesn't do: a short run is
sometimes left alone by the machine, a long one hardly ever.)
"""

import contextlib
import json
import math
import os
import re
import shutil
import statistics
import subprocess
import sys
import tempfile
import time

TOP = os.path.dirname(os.path.dirname(os.path.abspath(__file__)))
PROGRAM = os.path.join(TOP, "crates", "aamediate", "out", "aamediate")
FEATURES = "/usr/share/apparmor-features/features"


# What keeps a processor busy, and ends with whoever started it.
BUSY = "import os, sys\nwhile os.getppid() == int(sys.argv[1]):\n    for _ in range(1_000_000):\n        pass"


def introduce(repeats, program=None):
    """Says what is measured where; ends if the program isn't built."""
    program = program or PROGRAM
    if not os.access(program, os.X_OK):
        sys.exit("prove and build it first: ./aamediate --prove" if program == PROGRAM else f"{program} is no program")
    version = subprocess.run(["rt", "version"], capture_output=True, text=True).stdout.strip()
    usable = len(os.sched_getaffinity(0))
    print(f"{version}; {usable} of {os.cpu_count()} processors; medians of {repeats} runs, which take turns")


def figure(ratio):
    """A ratio as tables have it."""
    return f"{ratio:.2f}" if ratio >= 0.095 else f"{ratio:.2g}"


def row(what, beside, ratios, wanted=""):
    """Notes a row of the table that bench/all writes: what took how many times as long as what stands beside it, and how long is wanted.
    No ratio means that there was nothing to measure beside. Where a bench runs by itself nothing is noted."""
    if "BENCH_ROWS" in os.environ:
        with open(os.environ["BENCH_ROWS"], "a") as file:
            file.write(json.dumps([what, beside, "; ".join(map(figure, ratios)) or "not there", wanted]) + "\n")


def load():
    """How many processes wanted a processor, over the last 1, 5 and 15 minutes."""
    return " ".join(f"{it:.2f}" for it in os.getloadavg())


@contextlib.contextmanager
def busy(count):
    """That many processes that do nothing but keep processors busy, until it ends."""
    started = []
    try:
        for _ in range(count):
            started.append(subprocess.Popen([sys.executable, "-c", BUSY, str(os.getpid())], stdin=subprocess.DEVNULL))
        # (so that all of them have begun)
        time.sleep(1 if count else 0)
        yield
    finally:
        for it in started:
            it.kill()
            it.wait()


def has_parser():
    """Whether apparmor_parser is there with its features file; says so where it isn't."""
    if shutil.which("apparmor_parser") and os.path.isfile(FEATURES):
        return True
    print(f"apparmor_parser or {FEATURES} isn't there (Debian's package apparmor), so its times are left out")
    return False


def job_of(policy, includes=None):
    """A job without tasks, of as many states as a job may ask for."""
    job = {"policy": policy, "states": 1_000_000, "tasks": []}
    if includes:
        job["includes"] = includes
    return json.dumps(job)


def cost_of(command, given, refused=False, found=False):
    """What a command takes of the clock and of the processor with that standard input; it may say that a policy is refused, or that something
    is found, where that is wanted."""
    begun = time.perf_counter()
    child = subprocess.Popen(command, stdin=given, stdout=subprocess.DEVNULL, stderr=subprocess.DEVNULL)
    try:
        _, status, used = os.wait4(child.pid, 0)
    except BaseException:
        child.kill()
        raise
    clock = time.perf_counter() - begun
    child.returncode = status
    if os.waitstatus_to_exitcode(status) not in {0, *([1] if refused else []), *([4] if found else [])}:
        sys.exit(f"{command} ended with {status}")
    return clock, used.ru_utime + used.ru_stime


def seconds_of(command, given, refused=False, found=False):
    """What a command takes of the processor, as `cost_of` has it."""
    return cost_of(command, given, refused, found)[1]


def peak_of(command):
    """The most memory that a command has at a time, in bytes, as looked at every few milliseconds. (What the system counts for a child that
    has ended takes in what its parent had.)"""
    peak = 0
    with subprocess.Popen(command, stdin=subprocess.DEVNULL, stdout=subprocess.DEVNULL, stderr=subprocess.DEVNULL) as child:
        while child.poll() is None:
            with open(f"/proc/{child.pid}/status") as file:
                found = re.search(r"VmHWM:\s+(\d+) kB", file.read())
            peak = max(peak, int(found[1]) * 1024) if found else peak
            time.sleep(0.002)
    if child.returncode:
        sys.exit(f"{command} ended with {child.returncode}")
    return peak


def median_seconds(runs, repeats, refused=False):
    """The median time of each of these pairs of a command and its input."""
    times = [[] for _ in runs]
    with tempfile.TemporaryDirectory() as folder:
        names = []
        for number, (_, text) in enumerate(runs):
            names.append(os.path.join(folder, str(number)))
            with open(names[-1], "w") as file:
                file.write(text)
        for _ in range(repeats):
            for number, (command, _) in enumerate(runs):
                with open(names[number]) as given:
                    times[number].append(seconds_of(command, given, refused))
    return [statistics.median(each) for each in times]


def net_seconds(command, texts, repeats, refused=False):
    """The median time of the command on each text, without the program's start."""
    start, *times = median_seconds([([PROGRAM, "check"], job_of(""))] + [([PROGRAM, command], text) for text in texts], repeats, refused)
    return [max(time - start, 1e-6) for time in times]


def table(title, command, cases, repeats, more=lambda text: ""):
    """Prints how the time grows from case to case. A case is a name, a text and a size."""
    print(f"\n{title}")
    print(f"{'input':>28} {'bytes of job':>13} {'time':>10} {'growth':>7} {'a fourfold':>10}")
    before = None
    for (name, text, size), time in zip(cases, net_seconds(command, [text for _, text, _ in cases], repeats)):
        growth = fourfold = ""
        if before:
            growth = f"{time / before[0]:.2f}"
            fourfold = f"{(time / before[0]) ** (math.log(4) / math.log(size / before[1])):.2f}"
        print(f"{name:>28} {len(text):>13} {time * 1000:>8.1f}ms {growth:>7} {fourfold:>10}{more(text)}", flush=True)
        before = (time, size)
    row(f"`{command}`, {title.partition(' (')[0]}: {name}", "a fourth of them", [float(fourfold)], "4.6")
