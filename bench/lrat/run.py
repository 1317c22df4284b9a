#!/usr/bin/env python3
"""Compares the time and memory of mode lrat with those of a plain C checker.

    run.py PROGRAM [WORD..]

PROGRAM with its words, `lrat` among them, is given the two files last: `run.py ../../crates/alloyc/out/alloyc lrat`. The C
programs of this folder are compiled with `gcc -O2` into a temporary folder, which the refutations are made in too. Each
pair of runs is done three times in turn, and the least processor time of each counts. Where `cadical` is installed, two
refutations are its own, with the hints that `add_hints` finds.
"""
import os
import shutil
import subprocess
import sys
import tempfile

HERE = os.path.dirname(os.path.abspath(__file__))
# variables, clauses and seed of random clauses
RANDOM = [(250, 1150, 1), (270, 1240, 3), (276, 1280, 5)]
# pigeons that are one too many, and variables, clauses and seed of random clauses
PIGEONS = 9
OTHERS = (250, 1150, 1)


def measured(words):
    """The processor seconds, the greatest memory in MB and the output of a run."""
    out = tempfile.TemporaryFile()
    child = subprocess.Popen(words, stdout=out)
    _, status, usage = os.wait4(child.pid, 0)
    child.returncode = os.waitstatus_to_exitcode(status)
    out.seek(0)
    return usage.ru_utime + usage.ru_stime, usage.ru_maxrss / 1024, out.read().decode().strip()


def pigeons(holes, name):
    """Writes the clauses that say that one pigeon more than there are holes has a hole of its own each."""
    def variable(pigeon, hole):
        return pigeon * holes + hole + 1

    clauses = [[variable(p, h) for h in range(holes)] for p in range(holes + 1)]
    clauses += [[-variable(p, h), -variable(q, h)] for h in range(holes) for p in range(holes + 1) for q in range(p)]
    with open(name, "w") as out:
        print("p cnf", (holes + 1) * holes, len(clauses), file=out)
        for clause in clauses:
            print(*clause, 0, file=out)


def random_case(folder, numbers):
    """Random clauses, refuted by `make_proof`."""
    words = [str(number) for number in numbers]
    made = subprocess.run([f"{folder}/make_proof", *words, f"{folder}/f.cnf", f"{folder}/p.lrat"])
    return made.returncode == 0


def cadical_case(folder):
    """The clauses in f.cnf, refuted by cadical."""
    subprocess.run(["cadical", "-q", "--plain", "--no-binary", f"{folder}/f.cnf", f"{folder}/p.drup"], stdout=subprocess.DEVNULL)
    made = subprocess.run([f"{folder}/add_hints", f"{folder}/f.cnf", f"{folder}/p.drup", f"{folder}/p.lrat"])
    return made.returncode == 0


def row(name, folder, program):
    """One line of the table."""
    cnf, proof = f"{folder}/f.cnf", f"{folder}/p.lrat"
    size = os.path.getsize(proof) / 1e6
    with open(proof, "rb") as text:
        lemmas = sum(1 for line in text if b" d " not in line[:24])
    plain, mode = [], []
    for _ in range(3):
        plain.append(measured([f"{folder}/check_plain", cnf, proof]))
        mode.append(measured(program + [cnf, proof]))
    answers = {run[2].split("\n")[0] for run in plain + mode}
    a, b = min(plain), min(mode)
    note = "" if answers == {"refuted"} else f" (answers {sorted(answers)})"
    print(
        f"| {name} | {size:.1f} | {lemmas} | {a[0]:.2f} | {a[1]:.0f} | {b[0]:.2f} | {b[1]:.0f} | {b[0] / a[0]:.2f}{note} |",
        flush=True,
    )


def main():
    if len(sys.argv) < 2:
        sys.exit(__doc__)
    program = sys.argv[1:]
    with tempfile.TemporaryDirectory() as folder:
        for name in ("make_proof", "check_plain", "add_hints"):
            subprocess.run(["gcc", "-O2", "-o", f"{folder}/{name}", f"{HERE}/{name}.c"], check=True)
        print("| clauses | proof, MB | lemmas | plain C, s | MB | mode lrat, s | MB | times |")
        print("|---|---|---|---|---|---|---|---|")
        for numbers in RANDOM:
            if random_case(folder, numbers):
                row(f"{numbers[1]} random ones", folder, program)
        if not shutil.which("cadical"):
            return
        pigeons(PIGEONS, f"{folder}/f.cnf")
        if cadical_case(folder):
            row(f"{PIGEONS + 1} pigeons, cadical", folder, program)
        if random_case(folder, OTHERS) and cadical_case(folder):
            row(f"{OTHERS[1]} random ones, cadical", folder, program)


main()
