#!/usr/bin/env python3
"""Runs every command of models, and writes a table in Markdown: the answer, the time, the memory, and what minisat and
cadical take on the clauses that alloyc prints.

usage: models.py ALLOYC FOLDER [--limit SECONDS] [--only WORD] [--solvers] [--stages BENCH_ALLOYC]

FOLDER has NAME.als files; `alloyc commands` lists what each is asked. Beside a model NAME.expected may stand, whose lines
are `N run 3:1 label SAT` or `.. UNSAT`: then the answer is compared. With --solvers the clauses are printed by a run with a
budget of no conflict, and minisat and cadical (Debian has both) are run on them. With --stages the mode stages
of crates/bench_alloyc is run too: numbers of gates and lemmas, and milliseconds of loading, preparing, circuit, clauses, search.
"""
import argparse
import os
import re
import resource
import shutil
import subprocess
import sys
import tempfile
import time

ANSWERS = {10: "trace", 20: "none", 30: "unknown", 3: "refused", 5: "no memory"}


def run(words, limit, folder):
    """Returns status, output, processor seconds and megabytes of a run; no status where it was cut off."""
    before = resource.getrusage(resource.RUSAGE_CHILDREN)
    with tempfile.TemporaryFile() as out:
        started = subprocess.Popen(words, cwd=folder, stdin=subprocess.DEVNULL, stdout=out, stderr=subprocess.DEVNULL)
        end = time.monotonic() + limit
        status = usage = None
        while status is None and time.monotonic() < end:
            pid, code, usage = os.wait4(started.pid, os.WNOHANG)
            if pid:
                status = os.waitstatus_to_exitcode(code)
            else:
                time.sleep(0.005)
        if status is None:
            started.kill()
            pid, code, usage = os.wait4(started.pid, 0)
            started.returncode = -9
            return None, b"", usage.ru_utime + usage.ru_stime, usage.ru_maxrss / 1024
        started.returncode = status
        out.seek(0)
        return status, out.read(), usage.ru_utime + usage.ru_stime, usage.ru_maxrss / 1024


def commands(alloyc, folder, name):
    status, text, _, _ = run([alloyc, "commands", name], 30, folder)
    return [line.split() for line in text.decode(errors="replace").splitlines()] if status == 0 else []


def wanted(folder, name):
    """Returns the expected answers by the number of the command."""
    file = os.path.join(folder, name[:-4] + ".expected")
    if not os.path.isfile(file):
        return {}
    with open(file, encoding="utf-8") as lines:
        found = [re.match(r"(\d+) .*\b(SAT|UNSAT)\b", line) for line in lines]
    return {it[1]: {"SAT": "trace", "UNSAT": "none"}[it[2]] for it in found if it}


def clauses(alloyc, folder, name, number, limit):
    """Returns the printed clauses, whether or not a budget of no conflict decides."""
    status, text, _, _ = run([alloyc, "exec", name, "--command", number, "--conflicts", "0"], limit, folder)
    found = re.search(rb"^p cnf .*?(?=^(?:derivation|refutation)$)", text, re.M | re.S)
    return found[0] if found else None


def solver(words, text, limit):
    with tempfile.NamedTemporaryFile(suffix=".cnf") as file:
        file.write(text)
        file.flush()
        status, _, seconds, _ = run([*words, file.name], limit, None)
    return f"{seconds:.2f}" if status in (10, 20) else "over"


def with_library(folder):
    """Returns a copy of a folder that has the library modules as files, since bench_alloyc reads files alone."""
    copy = tempfile.mkdtemp()
    shutil.copytree(folder, copy, dirs_exist_ok=True)
    texts = os.path.join(os.path.dirname(os.path.abspath(__file__)), "../crates/base_library/src/texts.rt")
    with open(texts, encoding="utf-8") as file:
        found = re.findall(r'&str = "(module (util/\w+).*?)";', file.read(), re.S)
    os.makedirs(os.path.join(copy, "util"), exist_ok=True)
    for text, name in found:
        with open(os.path.join(copy, name + ".als"), "w", encoding="utf-8") as file:
            file.write(text)
    return copy


def stages(program, folder, name, number, limit):
    """Returns the numbers of gates and lemmas, and the milliseconds of each stage."""
    figures = []
    for kind in ("sizes", "times"):
        status, text, _, _ = run([program, "stages", kind, name, number], limit, folder)
        words = text.decode().split() if status == 0 else []
        figures.append(dict(zip(words[::2], words[1::2])))
    sizes, times = figures
    shown = [sizes.get("gates", "-"), sizes.get("lemmas", "-")]
    return shown + [times.get(it, "-") for it in ("load", "prepare", "circuit", "clauses", "search")]


def main():
    parser = argparse.ArgumentParser()
    parser.add_argument("alloyc")
    parser.add_argument("folder")
    parser.add_argument("--limit", type=float, default=60)
    parser.add_argument("--only", default="")
    parser.add_argument("--solvers", action="store_true")
    parser.add_argument("--stages", default="")
    given = parser.parse_args()
    alloyc = os.path.abspath(given.alloyc)
    program = os.path.abspath(given.stages) if given.stages else ""
    copy = with_library(given.folder) if program else ""
    wrong, total = [], 0.0
    solver_names = ["variables", "clauses", "minisat s", "cadical s"] if given.solvers else []
    stage_names = ["gates", "lemmas", "load", "prepare", "circuit", "clauses", "search"] if program else []
    names = ["Model", "Command", "Answer", "s", "MB", *solver_names, *stage_names]
    print("| " + " | ".join(names) + " |")
    print("|" + "---|" * len(names))
    for name in sorted(it for it in os.listdir(given.folder) if it.endswith(".als") and given.only in it):
        expected = wanted(given.folder, name)
        for command in commands(alloyc, given.folder, name):
            number = command[0]
            status, text, seconds, memory = run([alloyc, "exec", name, "--command", number, "--part", "answer"], given.limit, given.folder)
            answer = ANSWERS.get(status, "over" if status is None else str(status))
            total += seconds
            row = f"| {name[:-4]} | {number} | {answer} | {seconds:.2f} | {memory:.0f} |"
            if given.solvers:
                found = clauses(alloyc, given.folder, name, number, given.limit)
                if found:
                    head = found.split(b"\n", 1)[0].split()
                    row += f" {head[2].decode()} | {head[3].decode()} | {solver(['minisat', '-verb=0'], found, given.limit)} | {solver(['cadical', '-q', '-n'], found, given.limit)} |"
                else:
                    row += " - | - | - | - |"
            if program:
                row += "".join(f" {it} |" for it in stages(program, copy, name, number, given.limit))
            print(row, flush=True)
            if expected.get(number, answer) != answer:
                wrong.append(f"{name} {number}: {answer}, and not {expected[number]}")
    print(f"\nTogether {total:.1f} s.")
    for it in wrong:
        print(f"WRONG: {it}")
    return 1 if wrong else 0


if __name__ == "__main__":
    sys.exit(main())
