#!/usr/bin/env python3
"""Times circuits, joins and closures of growing sizes, with the mode circuits of crates/bench_alloyc, and writes a table in Markdown.

    python3 bench/circuits.py crates/bench_alloyc/out/bench_alloyc [--rounds N]

Seconds are of user and system code, the least of the rounds. The last column divides them by what was made: pairs of a join that match,
clauses of a circuit, gates of a closure. It stays about the same where the time is linear in that.
"""
import argparse
import os
import subprocess

RUNS = [
    ("join", 1000, "joined pairs"),
    ("join", 3000, "joined pairs"),
    ("join", 10000, "joined pairs"),
    ("closure", 32, "gates"),
    ("closure", 64, "gates"),
    ("closure", 128, "gates"),
    ("clauses", 100000, "clauses"),
    ("clauses", 300000, "clauses"),
    ("clauses", 1000000, "clauses"),
]


def timed(words, rounds):
    """The least processor time of so many runs, the most memory, and what the last one printed."""
    least, most, said = None, 0, ""
    for _ in range(rounds):
        started = subprocess.Popen(words, stdout=subprocess.PIPE, text=True)
        said = started.stdout.read().strip()
        _, status, usage = os.wait4(started.pid, 0)
        started.returncode = os.waitstatus_to_exitcode(status)
        took = usage.ru_utime + usage.ru_stime
        least = took if least is None or took < least else least
        most = max(most, usage.ru_maxrss // 1024)
        if started.returncode != 0:
            said = f"status {started.returncode}"
    return least, most, said


def made(kind, number, said):
    """How many of what counts were made: of a join ten times ten pairs for each atom in the middle."""
    words = said.split()
    figures = dict(zip(words[::2], words[1::2]))
    count = {"join": 100 * number, "closure": figures.get("gates"), "clauses": figures.get("clauses")}[kind]
    return int(count) if count is not None else 0


def main():
    words = argparse.ArgumentParser(description="Times circuits, joins and closures of growing sizes.")
    words.add_argument("program")
    words.add_argument("--rounds", type=int, default=3)
    given = words.parse_args()
    program = os.path.abspath(given.program)
    print("| Kind | Size | Said | MB | s | Counted | us each |\n|---|---|---|---|---|---|---|")
    for kind, number, counted in RUNS:
        took, memory, said = timed([program, "circuits", kind, str(number)], given.rounds)
        count = made(kind, number, said)
        each = f"{took / count * 1e6:.2f}" if count else "-"
        print(f"| {kind} | {number} | {said} | {memory} | {took:.2f} | {count} {counted} | {each} |", flush=True)


if __name__ == "__main__":
    main()
