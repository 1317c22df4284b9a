#!/usr/bin/env python3
"""Proves and builds crates and those below them, side by side: tools/build.py [CRATE ..] (alloyc, if no other is named)

Each crate is proved as `rt ci` proves it, from nothing and once, without its tests and edits: a library as its statements
alone, which is all that the crates above load. So most take 1 to 2 GB. As many are at work as there are processors, as
far as 8 GB hold them, or what is free of memory where that is less; where fewer are ready, one gets up to four processors,
and the first of the longest chain gets two where that chain is longer than an equal share of what is left. What
bench/RESULTS.md measured of a crate's proof, seconds and memory, is what it is taken to need.

A crate that an earlier start built of the same text over the same libraries is left as it is, and one that `rt ci` passed
on this machine is taken from what it kept, as `rt ci` later takes what is built here, where it would let the text pass.

What is made lies in crates/NAME/out: of a library out/rlib, of a program out/NAME; the log is out/build.log. Standard
error says which crate it is at. It ends with 0 once all are built, and else with 1; a new start goes on behind the crates
that were built.
"""
import hashlib
import importlib.machinery
import importlib.util
import os
import re
import shutil
import subprocess
import sys
import time

sys.dont_write_bytecode = True
TOP = os.path.dirname(os.path.dirname(os.path.abspath(__file__)))
# What all builds may take together, and what is planned for one of them until it takes more, in bytes. A second job and each
# further one adds a part of that.
MOST, EACH, JOB = 8_000_000_000, 1_600_000_000, 0.6
# What a crate is taken to need in seconds that is too short for a row of its own in bench/RESULTS.md.
SHORT = 98


def load_kit():
    """Returns the module of the kit's command rt, set up as for rt ci."""
    command = shutil.which("rt")
    if not command:
        sys.exit("run: the command rt is not on the path: it is part of the kit that README.md names")
    loader = importlib.machinery.SourceFileLoader("rt", os.path.realpath(command))
    rt = importlib.util.module_from_spec(importlib.util.spec_from_loader("rt", loader))
    sys.modules["rt"] = rt
    loader.exec_module(rt)
    rt.Crate.allowed = rt.handles_of(TOP)
    # (the crates above a library load its statements, and not its proofs)
    rt.Crate.cuts_libraries = True
    rt.rtlib.Crate = rt.Crate
    for name in (rt.rtlib.ALLOW_C, rt.rtlib.BACKEND, "RT_SECONDS"):
        os.environ.pop(name, None)
    return rt


def crates_of(rt, names):
    """Returns the crates of these names, each behind those below it, lowest first."""
    crates, found = {it.name: it for it in rt.rtlib.crates_below(TOP)}, {}
    for name in names:
        if name not in crates:
            sys.exit(f"run: crates.txt names no crate {name}")
        for crate in [*crates[name].below(), crates[name]]:
            found.setdefault(crate.name, crate)
    return list(found.values())


def made_of(crate):
    """Returns the file that stands for what is built of a crate: a library's `format` holds the sums of its files."""
    return f"{crate.folder}/out/{crate.name}" if crate.is_program else f"{crate.rlib}/format"


def stamp_of(rt, crate, seen):
    """Returns what a crate's build stands on and what was built: its text, that of those below, and their libraries as they are."""
    found = [rt.stamp_of(crate, seen), *[rt.rtlib.sum_of(made_of(it)) for it in [*crate.below(), crate]]]
    return hashlib.sha256(repr(found).encode()).hexdigest()


def stamp_file(crate):
    """Where the stamp is kept; of a library in a folder that each other build of it removes first."""
    return f"{crate.folder}/out/{crate.name}.built" if crate.is_program else f"{crate.folder}/out/rlib/built"


def is_built(rt, crate, seen):
    return os.path.isfile(made_of(crate)) and rt.rtlib.text_of(stamp_file(crate)) == stamp_of(rt, crate, seen)


def is_in_order(rt, crate):
    """Whether a crate's text is as `rt ci` wants it, whatever its proof says: laid out, and without what is never allowed."""
    code = rt.rtlib.code_of(crate.folder)
    words = [rt.RENAMES, rt.IGNORED, *[reach for it, reach in rt.REACHES.items() if it not in crate.allowed]]
    return not any(re.search(it, code) for it in words) and rt.rtlib.fmt(crate.folder, "--check", sys.stdout) == 0


def build_one(name, jobs):
    """Proves and builds one crate over those below it, which are built. This is a process of its own, which writes to the log."""
    rt = load_kit()
    rt.rtlib.guarded()
    *below, crate = crates_of(rt, [name])
    kept, seen = rt.Kept([*below, crate]), {}
    for it in below:
        kept.is_built(it)
    key, text = kept.key(crate), rt.stamp_of(crate, seen)
    if os.path.isfile(stamp_file(crate)):
        os.remove(stamp_file(crate))
    status = 0
    # (where another run on this machine proves the same, this one waits and takes it)
    with kept.in_turn(crate, False, key):
        if not kept.give(crate, False, key):
            status = crate.ci(["--jobs", jobs], tests=False)
            # (what is kept, `rt ci` takes unseen)
            if not status and is_in_order(rt, crate):
                kept.keep(crate, False, key)
    # (a text that changed meanwhile is built by the next start)
    if not status and text == rt.stamp_of(crate, {}):
        with open(stamp_file(crate), "w", encoding="utf-8") as it:
            it.write(stamp_of(rt, crate, seen))
    return 1 if status else 0


def share_of(pid):
    """Returns the memory in bytes that a process takes, its share alone of what it has in common with others."""
    try:
        with open(f"/proc/{pid}/smaps_rollup") as it:
            return 1024 * sum(int(line.split()[1]) for line in it if line.startswith("Pss:"))
    except (OSError, IndexError, ValueError):
        return 0


def memory_of(pids):
    """Returns the memory in bytes that each of these processes and all below it take now."""
    children = {}
    for name in os.listdir("/proc"):
        if name.isdigit():
            try:
                with open(f"/proc/{name}/stat") as it:
                    children.setdefault(int(it.read().rsplit(")", 1)[1].split()[1]), []).append(int(name))
            except (OSError, IndexError, ValueError):
                pass

    def whole(pid):
        return share_of(pid) + sum(whole(it) for it in children.get(pid, []))

    return {pid: whole(pid) for pid in pids}


def measured():
    """Returns of the longer crates, by their names, what bench/RESULTS.md has of their proofs: processor seconds, and bytes at the peak."""
    with open(f"{TOP}/bench/RESULTS.md", encoding="utf-8") as it:
        rows = re.findall(r"^\| `(\w+)` \| (\d+) \|.* (\d+) \|$", it.read(), re.M)
    return {name: (int(seconds), 1_000_000 * int(peak)) for name, seconds, peak in rows}


class Builds:
    """The crates that are at work, what is left, and what each took so far."""

    def __init__(self, rt, crates):
        self.rt, self.left, self.count = rt, list(crates), len(crates)
        self.done, self.seen, self.running, self.jobs, self.started, self.begun, self.failed = set(), {}, {}, {}, {}, set(), []
        self.most = min(MOST, int(0.85 * rt.free()))
        # (a crate is first that has the longest chain of others above it)
        self.above, self.seconds, self.below = {}, {}, {}
        known = measured()
        self.peaks = {name: peak for name, (_, peak) in known.items()}
        for crate in reversed(crates):
            self.seconds[crate.name], _ = known.get(crate.name, (SHORT, 0))
            self.below[crate.name] = [it.name for it in crate.below()]
            own = self.seconds[crate.name] + self.above.get(crate.name, 0)
            self.above[crate.name] = own
            for name in self.below[crate.name]:
                self.above[name] = max(self.above.get(name, 0), own)

    def note_built(self):
        """Takes out of what is left the crates that are built already, lowest first."""
        for crate in self.left[:]:
            if self.is_ready(crate) and is_built(self.rt, crate, self.seen):
                self.done.add(crate.name)
                self.left.remove(crate)

    def is_ready(self, crate):
        return all(it in self.done for it in self.below[crate.name])

    def is_long(self, crate):
        """Whether the longest chain from a crate up is longer than an equal share of the processors of all that is left."""
        left = sum(self.seconds[it.name] for it in [*self.left, *self.running.values()])
        return self.above[crate.name] * self.rt.processors() > left

    def needs(self, crate, jobs):
        return max(EACH * (1 + JOB * (jobs - 1)), self.peaks.get(crate.name, 0))

    def room(self):
        return self.most - sum(self.needs(it, self.jobs[child]) for child, it in self.running.items())

    def opening(self, crate):
        """Returns in how many seconds what ends makes room for a crate, and how much memory is then left beside it."""
        room, ends = self.room(), []
        for child, it in self.running.items():
            ends.append((self.seconds[it.name] / self.jobs[child] - (time.monotonic() - self.started[child]), self.needs(it, self.jobs[child])))
        for seconds, memory in sorted(ends):
            room += memory
            if room >= self.needs(crate, 1):
                return seconds, room - self.needs(crate, 1)
        return 0, 0

    def start_some(self):
        ready = [it for it in self.left if self.is_ready(it)]
        ready.sort(key=lambda it: -self.above[it.name])
        opening = None
        for at, crate in enumerate(ready):
            idle = self.rt.processors() - sum(self.jobs[it] for it in self.running)
            room = self.room()
            if idle < 1:
                return
            # (where there is no room for a large one, smaller ones go first that don't keep it from what ends makes room for)
            if self.running and self.needs(crate, 1) > room:
                opening = opening or self.opening(crate)
                continue
            if opening and self.seconds[crate.name] > opening[0]:
                if self.needs(crate, 1) > opening[1]:
                    continue
                opening = opening[0], opening[1] - self.needs(crate, 1)
            # (a crate gets the processors that no other waits for; the first one two, where what stands above it is longer
            # than an equal share of all that is left)
            jobs = max(2 if at == 0 and self.is_long(crate) else 1, idle // (len(ready) - at))
            jobs = min(4, idle, jobs)
            while jobs > 1 and self.needs(crate, jobs) > room:
                jobs -= 1
            self.start(crate, jobs)

    def start(self, crate, jobs):
        if crate.name not in self.begun:
            self.begun.add(crate.name)
            print(f"run: {len(self.done) + len(self.running) + 1} of {self.count}: {crate.name}", file=sys.stderr, flush=True)
        os.makedirs(f"{crate.folder}/out", exist_ok=True)
        with open(f"{crate.folder}/out/build.log", "w") as log:
            words = [*self.rt.rtlib.guarded(), sys.executable, os.path.abspath(__file__), "--one", crate.name, str(jobs)]
            child = subprocess.Popen(words, stdin=subprocess.DEVNULL, stdout=log, stderr=subprocess.STDOUT)
        self.left.remove(crate)
        self.running[child], self.jobs[child], self.started[child] = crate, jobs, time.monotonic()

    def watch(self):
        """Notes the memory that the builds take, and ends the one that was begun last where that is too much: it is begun anew once there is room."""
        taken = memory_of([it.pid for it in self.running])
        for child, crate in self.running.items():
            self.peaks[crate.name] = max(taken[child.pid], self.peaks.get(crate.name, 0))
        if sum(taken.values()) > self.most and len(self.running) > 1:
            child = list(self.running)[-1]
            child.kill()
            child.wait()
            self.left.append(self.running.pop(child))

    def take_ended(self):
        for child in [it for it in self.running if it.poll() is not None]:
            crate = self.running.pop(child)
            if child.returncode == 0 and is_built(self.rt, crate, self.seen):
                self.done.add(crate.name)
            else:
                self.failed.append(crate)

    def run(self):
        self.note_built()
        if self.done and self.left:
            print(f"run: {len(self.done)} of {self.count} are built already", file=sys.stderr, flush=True)
        turn = 0
        while self.running or self.left and not self.failed:
            if not self.failed:
                self.start_some()
            time.sleep(0.5)
            turn += 1
            # (reading what all processes take is work too)
            if turn % 10 == 0:
                self.watch()
            self.take_ended()
        return not self.failed

    def end(self):
        for child in self.running:
            child.kill()


def main(names):
    rt = load_kit()
    # (its first call sets a signal's handler)
    rt.rtlib.guarded()
    crates = crates_of(rt, names)
    # (no other command of rt, and no other start, works in these folders meanwhile)
    held = rt.rtlib.lock(crates)
    builds, begun = Builds(rt, crates), time.monotonic()
    try:
        is_well = builds.run()
    except KeyboardInterrupt:
        builds.end()
        print("run: interrupted; a new start goes on from here", file=sys.stderr)
        return 130
    for crate in builds.failed:
        log = f"crates/{crate.name}/out/build.log"
        print(f"run: {crate.name} was not built, or its files changed meanwhile; the end of {log}:", file=sys.stderr)
        with open(f"{TOP}/{log}", errors="replace") as it:
            print("".join(it.readlines()[-20:]), end="", file=sys.stderr)
    if builds.begun and is_well:
        print(f"run: built, in {(time.monotonic() - begun) / 60:.0f} minutes", file=sys.stderr)
    for it in held:
        os.close(it)
    return 0 if is_well else 1


if __name__ == "__main__":
    words = sys.argv[1:]
    if len(words) == 3 and words[0] == "--one":
        sys.exit(build_one(*words[1:]))
    if any(it.startswith("-") for it in words):
        sys.exit(__doc__)
    sys.exit(main(words or ["alloyc"]))
