#!/usr/bin/env python3
"""Measures long answers: `exec` where a refutation is long, and `replay` of a trace of some megabytes.

usage: answers.py ALLOYC [--choices N] [--atoms N]

The refutation is of random clauses of three literals over N choices, five to a choice, by a fixed seed; the trace has a relation
that holds all triples of N atoms. Each line is the run, its status, the seconds of processor time, the peak memory in MB, and the
size of what it printed in MB. Of a refutation the run that prints its first line alone stands beside.
"""
import argparse
import os
import random
import resource
import subprocess
import sys
import tempfile

TRIPLES = """sig A {{ r : A -> A }}
run {{ r = A -> A -> A }} for exactly {0} A, 1 steps
"""


def choices(number):
    """Returns a model of random clauses of three literals over so many choices."""
    made = random.Random(1)
    names = [f"N{it}" for it in range(number)]
    clauses = []
    for _ in range(5 * number):
        three = made.sample(names, 3)
        clauses.append("  " + " or ".join(f"{it} {made.choice(['in', 'not in'])} Chosen.those" for it in three))
    lines = ["abstract sig Choice {}", f"one sig {', '.join(names)} extends Choice {{}}", "one sig Chosen { those : set Choice }"]
    return "\n".join([*lines, "fact {", *clauses, "}", "run {} for 3", ""])


def measured(words, folder, out):
    """Runs a program with its output in a file; returns status, seconds, MB at the peak, MB of output."""
    with open(os.path.join(folder, out), "wb") as file:
        child = subprocess.Popen(words, cwd=folder, stdin=subprocess.DEVNULL, stdout=file)
        _, code, usage = os.wait4(child.pid, 0)
        child.returncode = os.waitstatus_to_exitcode(code)
    size = os.path.getsize(os.path.join(folder, out))
    return child.returncode, usage.ru_utime + usage.ru_stime, usage.ru_maxrss / 1024, size / 1e6


def main():
    words = argparse.ArgumentParser()
    words.add_argument("alloyc")
    words.add_argument("--choices", type=int, default=200)
    words.add_argument("--atoms", type=int, default=40)
    found = words.parse_args()
    alloyc = os.path.abspath(found.alloyc)
    resource.setrlimit(resource.RLIMIT_STACK, (resource.RLIM_INFINITY, resource.getrlimit(resource.RLIMIT_STACK)[1]))
    print("| Run | Status | s | MB | printed MB |\n|---|---|---|---|---|")
    with tempfile.TemporaryDirectory() as folder:
        with open(f"{folder}/choices.als", "w") as it:
            it.write(choices(found.choices))
        with open(f"{folder}/triples.als", "w") as it:
            it.write(TRIPLES.format(found.atoms))
        runs = [
            ("exec choices, first line", ["exec", "choices.als", "--part", "answer"], "answer"),
            ("exec choices, whole", ["exec", "choices.als"], "whole"),
            ("exec triples", ["exec", "triples.als", "--part", "answer"], "trace"),
            ("replay triples", ["replay", "triples.als", "trace"], "replayed"),
            ("eval triples", ["eval", "triples.als", "trace", "--expr", "#r"], "value"),
        ]
        for name, rest, out in runs:
            status, seconds, peak, size = measured([alloyc, *rest], folder, out)
            print(f"| {name} | {status} | {seconds:.2f} | {peak:.0f} | {size:.2f} |", flush=True)


if __name__ == "__main__":
    sys.exit(main())
