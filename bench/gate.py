#!/usr/bin/env python3
"""Takes a run of `rt ci` apart: processor time and peak memory of each crate's proof, its tests, its edits and its programs.

  bench/gate.py watch RECORD.json COMMAND WORD ..    runs the command (for instance: rt ci) and notes what its checks took
  bench/gate.py watch RECORD.json                    notes what each check on this machine takes, until it is interrupted
  bench/gate.py table RECORD.json                    prints the table by crate

Each half second the processes that `rt` starts are read from /proc: what one took is its own processor time and that of all
that it started, as last seen. So one that ends between two readings is short by half a second at most, and one that is shorter
than that may be missed. The columns of the table, in seconds of processor time:

  Proof    the check of a crate, which of a library also builds it
  Tests    the check of a crate with its tests, and the build of the tests' program
  Seed     the checks of a crate as it stands that its edits begin with and end with
  Edits    the tries of its edits; Tries is their number, in which an edit counts twice that was tried again from nothing
  Build    both builds of a program, and all linking
  Run      the runs of the tests and of both builds of a program
  Peak     the most memory in MB that one process took, of those that a check forks the largest

What an earlier run passed is taken from what rt keeps and is in no column, so measure with an empty store.
"""
import collections
import json
import os
import re
import resource
import subprocess
import sys
import time

TICKS = os.sysconf("SC_CLK_TCK")
PART = ("proof", "tests", "seed", "edit", "build", "run")


def words_of(pid):
    with open(f"/proc/{pid}/cmdline", errors="replace") as it:
        return it.read().split("\0")


def label_of(pid, words):
    """Returns the crate and the part of a process that is a check, a build or a run, or None."""
    program = os.path.basename(words[0]) if words else ""
    where = os.readlink(f"/proc/{pid}/cwd")
    if program == "rattle" and "--crate-name" in words:
        name = words[words.index("--crate-name") + 1]
        # (rt checks an edit, and what edits begin with, in a copy of the crate)
        if "/rt-edit-" in where:
            over = words[words.index("--incremental") + 1] if "--incremental" in words else ""
            return name, "seed" if os.path.basename(over) == "seed" else "edit"
        if "--test" in words:
            return name, "tests"
        return name, "build" if "--crate-checked" in words else "proof"
    if "/rt-run-" in where:
        found = [it for it in words if re.search(r"/rt-run-[^/]*/bin/", it)]
        return (re.sub(r"_tests$", "", os.path.basename(found[-1])), "run") if found else None
    if program.startswith(("clang", "rattle-link", "ld")):
        found = re.search(r"/crates/([a-z0-9_]+)$", where)
        return (found[1], "build") if found else None
    return None


def seconds_of(pid, children):
    """Returns the processor seconds of a process and of all below it, and the peak memory of the greatest in MB."""
    total, peak, todo = 0.0, 0, [pid]
    while todo:
        one = todo.pop()
        todo += children.get(one, [])
        try:
            with open(f"/proc/{one}/stat") as it:
                fields = it.read().rsplit(")", 1)[1].split()
            total += sum(map(int, fields[11:15])) / TICKS
            with open(f"/proc/{one}/status") as it:
                found = re.search(r"VmHWM:\s+(\d+)", it.read())
            peak = max(peak, int(found[1]) // 1024 if found else 0)
        except (OSError, IndexError):
            pass
    return total, peak


def snapshot(seen, root):
    """Reads all processes once, and notes the checks among them (below the process root, if it is given) in seen, by process and start."""
    children, parents, labels = collections.defaultdict(list), {}, {}
    for name in os.listdir("/proc"):
        if not name.isdigit():
            continue
        pid = int(name)
        try:
            with open(f"/proc/{pid}/stat") as it:
                fields = it.read().rsplit(")", 1)[1].split()
            parents[pid] = int(fields[1])
            children[parents[pid]].append(pid)
            label = label_of(pid, words_of(pid))
            if label:
                labels[pid] = (fields[19], label)
        except (OSError, IndexError, ValueError):
            pass
    for pid, (start, (crate, part)) in labels.items():
        above, one = set(), parents[pid]
        while one in parents and one not in above:
            above.add(one)
            one = parents[one]
        # (what a check starts counts as that check's)
        if above & labels.keys() or (root and root not in above):
            continue
        total, peak = seconds_of(pid, children)
        was = seen.get(f"{pid}-{start}", {"seconds": 0, "peak": 0})
        seen[f"{pid}-{start}"] = {"crate": crate, "part": part, "seconds": max(total, was["seconds"]), "peak": max(peak, was["peak"])}


def write(record, seen, begun, status):
    used = resource.getrusage(resource.RUSAGE_CHILDREN)
    found = {"wall": time.time() - begun, "status": status, "whole": used.ru_utime + used.ru_stime, "checks": list(seen.values())}
    with open(f"{record}.new", "w") as it:
        json.dump(found, it)
    os.replace(f"{record}.new", record)


def watch(record, command):
    seen, begun, written = {}, time.time(), 0.0
    child = subprocess.Popen(command) if command else None
    status = None
    try:
        while status is None:
            time.sleep(0.5)
            snapshot(seen, child.pid if child else None)
            status = child.poll() if child else None
            if time.time() - written > 10:
                written = time.time()
                write(record, seen, begun, status)
    except KeyboardInterrupt:
        status = child.wait() if child else 0
    write(record, seen, begun, status)
    return status


def table(record):
    with open(record) as it:
        found = json.load(it)
    rows = collections.defaultdict(lambda: collections.Counter())
    for check in found["checks"]:
        row = rows[check["crate"]]
        row[check["part"]] += check["seconds"]
        row["tries"] += check["part"] == "edit"
        row["peak"] = max(row["peak"], check["peak"])
    sums = collections.Counter()
    print("| Crate | Proof s | Tests s | Seed s | Edits s | Tries | Build s | Run s | Peak MB |\n|---|---|---|---|---|---|---|---|---|")
    for name, row in sorted(rows.items(), key=lambda it: -sum(it[1][part] for part in PART)):
        sums.update({part: row[part] for part in (*PART, "tries")})
        shown = [f"{row[part]:.0f}" for part in PART]
        print(f"| {' | '.join([name, *shown[:4], str(row['tries']), *shown[4:], str(row['peak'])])} |")
    minutes = [f"{sums[part] / 60:.0f}" for part in PART]
    print(f"| {' | '.join(['**all, minutes**', *minutes[:4], str(sums['tries']), *minutes[4:]])} | |")
    checks, whole = sum(sums[part] for part in PART) / 60, found.get("whole", 0) / 60
    print(f"\nTogether {checks:.0f} processor minutes{f' (of {whole:.0f} that the whole command took)' if whole else ''}, in {found['wall'] / 60:.0f} minutes by the clock.")


if __name__ == "__main__":
    match sys.argv[1:]:
        case ["watch", record, *command]:
            sys.exit(watch(record, command))
        case ["table", record]:
            table(record)
        case _:
            sys.exit(__doc__)
