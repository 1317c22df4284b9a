#!/usr/bin/env python3
"""Stands for alloyc in tests of the scripts: prints the texts that docs/FORMATS.md states, for models of a made-up form.

Line N of a model, from 0, is command N: `run LABEL HOW` or `check LABEL HOW`. HOW is trace or none; twisted, a trace that
replay finds broken; weak, a refutation that lrat rejects; unknown, over clauses that have no solution; open, over clauses
that have one; slow, which takes a minute; broken, a refusal; crash.
A model `nonsense` is refused by every mode.
"""
import os
import signal
import sys
import time

CLAUSES = "p cnf 1 2\n1 0\n-1 0\n"
TABLE = "c var 1 A state 0 A$0\nc var 2 A state 0 A$1\n"


def end(text, status):
    print(text)
    sys.exit(status)


def execute(model, number, how, part):
    if how in ("trace", "twisted"):
        end(f"trace states 1 loop 0\nstate 0\nA = {'A$1' if how == 'twisted' else 'A$0'}\nend", 10)
    if how in ("none", "weak"):
        proof = "3 0 1 2 0" if how == "none" else "3 0 1 1 0"
        more = f"\nclauses\n{CLAUSES}refutation\n{proof}\nend" if part == "all" else ""
        end(f"none states 1{more}", 20)
    if how == "unknown":
        end(f"unknown conflicts 0\nclauses\n{CLAUSES}derivation\nend", 30)
    if how == "open":
        end(f"unknown conflicts 0\nclauses\n{TABLE}p cnf 2 1\n1 2 0\nderivation\nend", 30)
    if how == "broken":
        end(f"refused S46 {model}:{number + 1}:1", 3)
    if how == "slow":
        time.sleep(60)
    os.kill(os.getpid(), signal.SIGSEGV)


def main():
    mode, first = sys.argv[1:3]
    options = dict(zip(sys.argv[3:], sys.argv[4:]))
    if mode == "lrat":
        with open(first) as clauses, open(sys.argv[3]) as proof:
            is_well = clauses.read() == CLAUSES and proof.read() == "3 0 1 2 0\n"
        end(*(("refuted", 0) if is_well else ("rejected L3 line 1", 1)))
    with open(first) as model:
        lines = [line.split() for line in model.read().splitlines()]
    if lines == [["nonsense"]]:
        end(f"refused S10 {first}:1:1", 3)
    if mode == "commands":
        for number, (kind, label, _) in enumerate(lines):
            print(number, kind, f"{number + 1}:1", label)
        return
    number = int(options["--command"])
    if mode == "exec":
        execute(first, number, lines[number][2], options["--part"])
    with open(sys.argv[3]) as trace:
        is_well = "A = A$0\n" in trace.read()
    end(*(("scopes ok\ncommand ok\nsatisfied", 0) if is_well else ("scopes ok\ncommand broken\nbroken", 1)))


main()
