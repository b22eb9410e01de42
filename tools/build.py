#!/usr/bin/env python3
"""Proves and builds the program wafreview: the libraries below it side by side, then the program itself.

`rt` locks the folders of a crate and of all below it, so two runs in one checkout wait for each other. So each crate is
proved in a room of its own inside its out/: a copy of its sources and of those below it, into which the libraries that
stand built are linked. What was proved then moves to the crate's out/ in one step, so that a library or the program
stands there whole or not at all, whenever this is stopped; what is whole isn't proved again.
"""

import fcntl
import os
import shutil
import signal
import subprocess
import sys
import time

TOP = os.path.dirname(os.path.dirname(os.path.realpath(__file__)))
PROGRAM = "wafreview"
SOURCES = ("src", "specs", "proofs")
# The bytes of memory that a check is reckoned to take for each of its jobs; processes of 1.5 GB were seen, one more than jobs.
MEMORY_A_JOB = 3_000_000_000
# By how much the crates that are waited for less give way on the processors.
NICENESS = 3


def say(text):
    print(f"wafreview: {text}", file=sys.stderr, flush=True)


def crates_used():
    """Returns the crates that the program stands on and the program, lowest first, each with those that it names."""
    named = {}
    with open(f"{TOP}/crates.txt", encoding="utf-8") as lines:
        for line in lines:
            name, _, libraries = line.partition("#")[0].partition(":")
            if name.strip():
                named[name.split()[0]] = libraries.split()
    used = {}

    def add(name):
        if name not in used:
            own = [it for it in named[name] if it in named]
            for it in own:
                add(it)
            used[name] = own

    add(PROGRAM)
    return used


def below(name, used):
    """Returns the crates that a crate stands on."""
    found = {it for own in used[name] for it in [own, *below(own, used)]}
    return [it for it in used if it in found]


def work_behind(used):
    """Returns for each crate the bytes of code on the longest way from it up to the program."""
    behind = {}
    for name in reversed([*used]):
        own = sum(
            os.path.getsize(f"{at}/{file}")
            for at, _, files in os.walk(f"{TOP}/crates/{name}/src")
            for file in files
        )
        behind[name] = own + max([behind[it] for it in behind if name in used[it]], default=0)
    return behind


def memory_free():
    """Returns the bytes of memory that are free, under the limit of a control group too."""
    with open("/proc/meminfo", encoding="utf-8") as lines:
        free = next(1024 * int(it.split()[1]) for it in lines if it.startswith("MemAvailable:"))
    try:
        with open("/sys/fs/cgroup/memory.max", encoding="utf-8") as limit:
            return min(free, int(limit.read()))
    except (OSError, ValueError):
        return free


def link_or_copy(one, other):
    """Gives a built file a second name: `rt` removes such a file before it makes it anew, and never writes into it."""
    try:
        os.link(one, other)
    except OSError:
        shutil.copyfile(one, other)


def out_of(name):
    return f"{TOP}/crates/{name}/out"


def make_room(name, used):
    """Lays out the room in which a crate is proved, and returns the crate's folder there."""
    room, crates = f"{out_of(name)}/room", [*below(name, used), name]
    shutil.rmtree(room, ignore_errors=True)
    for it in crates:
        for part in SOURCES:
            if os.path.isdir(f"{TOP}/crates/{it}/{part}"):
                shutil.copytree(f"{TOP}/crates/{it}/{part}", f"{room}/crates/{it}/{part}")
        for part in ("rlib", "incremental") if it == name else ("rlib",):
            if os.path.isdir(f"{out_of(it)}/{part}"):
                to = f"{room}/crates/{it}/out/{part}"
                shutil.copytree(f"{out_of(it)}/{part}", to, copy_function=link_or_copy)
    os.makedirs(f"{room}/crates/{name}/out", exist_ok=True)
    for it in (PROGRAM, f"{PROGRAM}.stamp"):
        # (with these `rt run` sees that nothing has changed)
        if os.path.isfile(f"{out_of(name)}/{it}"):
            shutil.copy(f"{out_of(name)}/{it}", f"{room}/crates/{name}/out/{it}")
    shutil.copyfile(f"{TOP}/HANDLES", f"{room}/HANDLES")
    with open(f"{TOP}/crates.txt", encoding="utf-8") as lines:
        rows = [it for it in lines if it.partition(":")[0].strip() in crates]
    with open(f"{room}/crates.txt", "w", encoding="utf-8") as list_of_crates:
        list_of_crates.writelines(rows)
    return f"{room}/crates/{name}"


def keep(name, begun):
    """Moves what was proved in the room to the crate's out/, the program last, dated back to when its sources were read."""
    made = f"{out_of(name)}/room/crates/{name}/out"
    if os.path.isfile(f"{made}/{PROGRAM}"):
        os.utime(f"{made}/{PROGRAM}", (begun, begun))
    for it in sorted(os.listdir(made), key=lambda it: it == PROGRAM):
        to = f"{out_of(name)}/{it}"
        if os.path.isdir(to):
            shutil.rmtree(to)
        os.replace(f"{made}/{it}", to)
    shutil.rmtree(f"{out_of(name)}/room", ignore_errors=True)


class Builder:
    """Proves crates side by side. Each child holds the lock too, so that none outlives it unseen."""

    def __init__(self, used, lock):
        self.used, self.lock, self.running = used, lock, {}
        self.begun = self.told = time.time()
        # (jobs may be up to twice as many as lanes, see below)
        self.lanes = max(1, min(len(os.sched_getaffinity(0)), memory_free() // MEMORY_A_JOB // 2 + 1))

    def start(self, name, jobs, niceness):
        words = ["lib", "--jobs", str(jobs)]
        if name == PROGRAM:
            # (the toolchain leaves a proved program after a run; a failed build shows by the run of the shipped example)
            example = f"{TOP}/examples/first"
            words = ["run", "--jobs", str(jobs), "--"]
            words += ["evaluate", f"{example}/bundle.json", f"{example}/request.json"]
        folder = make_room(name, self.used)
        with open(f"{out_of(name)}/build.log", "wb") as log:
            how = {"stdin": subprocess.DEVNULL, "stdout": log, "stderr": log, "pass_fds": [self.lock.fileno()]}
            self.running[name] = subprocess.Popen(["nice", "-n", str(niceness), "rt", *words], cwd=folder, **how)

    def start_those_ready(self, done, behind):
        """Starts crates, as many as there are lanes, those with the longest way behind them first. All wait for the longest of
        those that are left, so it has as many jobs as there are lanes and goes first on the processors. The others share
        the lanes, since more jobs take more of the processors: four make acl_json 1.5 times as fast in 1.4 times the work."""
        left = sorted((it for it in self.used if it not in done), key=lambda it: -behind[it])
        ready = [it for it in left if it not in self.running and all(own in done for own in self.used[it])]
        chosen = ready[: max(0, self.lanes - len(self.running))]
        share = max(1, self.lanes // max(1, len(self.running) + len(chosen)))
        for name in chosen:
            if name == left[0]:
                self.start(name, self.lanes, 0)
            else:
                self.start(name, share, NICENESS)

    def build(self):
        """Returns the name of the crate that failed, or None."""
        done, behind = [], work_behind(self.used)
        while len(done) < len(self.used):
            self.start_those_ready(done, behind)
            time.sleep(0.2)
            for name in [it for it, ran in self.running.items() if ran.poll() is not None]:
                if self.running.pop(name).returncode:
                    shutil.rmtree(f"{out_of(name)}/room", ignore_errors=True)
                    return name
                keep(name, self.begun)
                done.append(name)
                self.tell(done)
            if time.time() - self.told >= 60:
                self.tell(done)
        return None

    def tell(self, done):
        """Prints how far the build is, at each crate that is done and each minute."""
        self.told = time.time()
        minutes, seconds = divmod(int(self.told - self.begun), 60)
        under_way = f"; under way: {', '.join(self.running)}" if self.running else ""
        say(f"{len(done)} of {len(self.used)} crates, {minutes} min {seconds:02} s{under_way}")

    def stop(self):
        for ran in self.running.values():
            ran.terminate()
        for name, ran in self.running.items():
            ran.wait()
            shutil.rmtree(f"{out_of(name)}/room", ignore_errors=True)


def main():
    signal.signal(signal.SIGTERM, lambda number, _: sys.exit(128 + number))
    used = crates_used()
    os.makedirs(out_of(PROGRAM), exist_ok=True)
    with open(f"{out_of(PROGRAM)}/build.lock", "w", encoding="utf-8") as lock:
        try:
            fcntl.flock(lock, fcntl.LOCK_EX | fcntl.LOCK_NB)
        except BlockingIOError:
            say("waiting for another build in this checkout")
            fcntl.flock(lock, fcntl.LOCK_EX)
        builder = Builder(used, lock)
        say(f"proving and building {len(used)} crates, {builder.lanes} at a time")
        say("from nothing this takes 25 to 45 minutes on 4 processors; what stands proved is kept")
        try:
            failed = builder.build()
        except KeyboardInterrupt:
            return 130
        finally:
            builder.stop()
    if failed:
        say(f"the crate {failed} could not be built; its log is {out_of(failed)}/build.log")
    return 1 if failed else 0


if __name__ == "__main__":
    sys.exit(main())
