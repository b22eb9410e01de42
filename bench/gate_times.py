#!/usr/bin/env python3
"""Runs `rt ci` at the top of the checkout, and then prints the processor minutes that each crate took.

    bench/gate_times.py [--anew] [NAME..]

The words are those of `rt ci`: with --anew nothing that was kept is taken, so the sum is that of a gate from nothing. What
`rt ci` prints passes through, and its status is this script's. The times are read from /proc four times a second, of the
processes that `rt ci` started alone; what isn't seen between two looks, and rt's own time, stand in the line "rt itself".
"""

import os
import re
import resource
import subprocess
import sys
import time

TOP = os.path.dirname(os.path.dirname(os.path.realpath(__file__)))
# What a gate from nothing may take, in processor minutes.
LIMIT = 190
KINDS = ("proof", "tests", "edits", "runs")
TICKS_A_MINUTE = 60 * os.sysconf("SC_CLK_TCK")
RUN = re.compile(r".*/rt-run-\d+-[^/]+/bin/(\w+?)(?:_tests)?")


def processes():
    """Returns, by process id, the parent, the start, and the ticks that it and the children that it waited for took."""
    found = {}
    for name in filter(str.isdigit, os.listdir("/proc")):
        try:
            with open(f"/proc/{name}/stat", encoding="utf-8", errors="replace") as it:
                fields = it.read().rpartition(")")[2].split()
        except OSError:
            continue
        found[int(name)] = int(fields[1]), int(fields[19]), sum(map(int, fields[11:15]))
    return found


def descendants(top, found):
    """Returns the ids of the processes that the one started, and those started, each after its parent."""
    children, below = {}, [top]
    for process, (parent, _, _) in found.items():
        children.setdefault(parent, []).append(process)
    for process in below:
        below += children.get(process, [])
    return below[1:]


def work_of(process):
    """Returns the crate that a process works for and the kind of work, by its words and its folder, or None."""
    try:
        with open(f"/proc/{process}/cmdline", encoding="utf-8", errors="replace") as it:
            words = it.read().split("\0")
        folder = os.readlink(f"/proc/{process}/cwd")
    except OSError:
        return None
    run = next(filter(None, (RUN.fullmatch(it) for it in words)), None)
    if run:
        return run[1], "runs"
    if "--crate-name" in words:
        name = words[words.index("--crate-name") + 1]
        if os.path.basename(folder).startswith("rt-edit-"):
            return name, "edits"
        return name, "tests" if "--test" in words else "proof"
    name = os.path.basename(folder)
    if os.path.basename(os.path.dirname(folder)) != "crates":
        return None
    return name, "tests" if any(f"{name}_tests" in it for it in words) else "proof"


class Times:
    """The ticks of each process that works for a crate, with all that it started; a process is known by its id and start."""

    def __init__(self):
        self.works, self.ticks = {}, {}

    def look(self, top):
        found, owner, sums = processes(), {}, {}
        for process in descendants(top, found):
            parent, start, ticks = found[process]
            key = owner.get(parent)
            if key is None:
                own = process, start
                if own not in self.works:
                    work = work_of(process)
                    if work:
                        self.works[own] = work
                key = own if own in self.works else None
            if key is not None:
                owner[process] = key
                sums[key] = sums.get(key, 0) + ticks
        for key, ticks in sums.items():
            self.ticks[key] = max(ticks, self.ticks.get(key, 0))

    def minutes(self):
        """Returns the minutes by crate and kind."""
        made = {}
        for key, ticks in self.ticks.items():
            name, kind = self.works[key]
            row = made.setdefault(name, dict.fromkeys(KINDS, 0.0))
            row[kind] += ticks / TICKS_A_MINUTE
        return made


def print_table(minutes, whole, seconds):
    """Prints the crates, those that took most first, and the sum against the limit."""
    print(f"\n| crate | {' | '.join(KINDS)} | together |")
    print(f"|---|{'---|' * len(KINDS)}---|")
    for name, row in sorted(minutes.items(), key=lambda it: -sum(it[1].values())):
        print(f"| {name} | {' | '.join(f'{row[it]:.1f}' for it in KINDS)} | {sum(row.values()):.1f} |")
    sums = {kind: sum(row[kind] for row in minutes.values()) for kind in KINDS}
    print(f"| rt itself | {' | ' * (len(KINDS) - 1)} | {max(0.0, whole - sum(sums.values())):.1f} |")
    print(f"| sum | {' | '.join(f'{sums[it]:.1f}' for it in KINDS)} | {whole:.1f} |")
    print(f"\n{whole:.1f} of {LIMIT} processor minutes, {seconds / 60:.1f} minutes by the clock")


def main(words):
    begun, times = time.time(), Times()
    ran = subprocess.Popen(["rt", "ci", *words], cwd=TOP, stdin=subprocess.DEVNULL)
    while ran.poll() is None:
        times.look(ran.pid)
        time.sleep(0.25)
    used = resource.getrusage(resource.RUSAGE_CHILDREN)
    print_table(times.minutes(), (used.ru_utime + used.ru_stime) / 60, time.time() - begun)
    return ran.returncode


if __name__ == "__main__":
    sys.exit(main(sys.argv[1:]))
