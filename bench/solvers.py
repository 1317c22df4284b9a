#!/usr/bin/env python3
"""Runs alloyc's search beside minisat and cadical on the same clauses, and writes a table in Markdown.

usage: solvers.py BENCH_ALLOYC [--limit SECONDS] [--runs N] [--only WORD] [--models ALLOYC FOLDER ..] [CNF ..]

BENCH_ALLOYC is the built program of crates/bench_alloyc, whose mode dimacs is run. minisat and cadical are looked for on the path (Debian has
both). CNF files that are named are run behind the made ones. Each run is cut off behind the limit (60 seconds of its
own processor time), and of several runs the least time counts.

With --models the made clauses are left out. In their place stand those that ALLOYC prints for each command of the models
(NAME.als) of the folders, and of the ring that mode make makes for 3 to 6 nodes. What took no solver 0.05 s is one row
together, and the last row is the sum over those that each solver ended within the limit.
"""
import argparse
import os
import random
import re
import shutil
import subprocess
import sys
import tempfile


def pigeons(count, holes):
    """Each pigeon sits in a hole, and no two in one."""
    number = lambda pigeon, hole: pigeon * holes + hole + 1
    clauses = [[number(p, h) for h in range(holes)] for p in range(count)]
    for hole in range(holes):
        for one in range(count):
            for two in range(one + 1, count):
                clauses.append([-number(one, hole), -number(two, hole)])
    return count * holes, clauses


def random_threes(variables, ratio, seed):
    """Random clauses of three different variables."""
    source = random.Random(seed)
    clauses = []
    for _ in range(round(variables * ratio)):
        names = source.sample(range(1, variables + 1), 3)
        clauses.append([name if source.random() < 0.5 else -name for name in names])
    return variables, clauses


def parity(length, seed, is_odd):
    """Two chains of exclusive ors over the same variables in different orders, which agree or not."""
    source = random.Random(seed)
    order = list(range(1, length + 1))
    count = length
    clauses = []

    def exclusive_or(a, b, c):
        clauses.extend([[-a, -b, -c], [-a, b, c], [a, -b, c], [a, b, -c]])

    ends = []
    for _ in range(2):
        source.shuffle(order)
        last = order[0]
        for name in order[1:]:
            count += 1
            exclusive_or(last, name, count)
            last = count
        ends.append(last)
    clauses.append([ends[0]])
    clauses.append([-ends[1] if is_odd else ends[1]])
    return count, clauses


def chain(length):
    """Each variable forces the next, and the first is true."""
    return length, [[-k, k + 1] for k in range(1, length)] + [[1]]


class Circuit:
    """Gates as clauses, each gate once. A signal is a literal, or True or False."""

    def __init__(self):
        self.count = 0
        self.clauses = []
        self.known = {}

    def variable(self):
        self.count += 1
        return self.count

    def negation(self, a):
        return not a if isinstance(a, bool) else -a

    def both(self, a, b):
        if a is False or b is False:
            return False
        if a is True or b is True:
            return b if a is True else a
        if a == -b:
            return False
        if a == b:
            return a
        pair = (min(a, b), max(a, b))
        if pair not in self.known:
            gate = self.known[pair] = self.variable()
            self.clauses += [[-gate, a], [-gate, b], [gate, -a, -b]]
        return self.known[pair]

    def either(self, a, b):
        return self.negation(self.both(self.negation(a), self.negation(b)))

    def one_of(self, a, b):
        return self.both(self.either(a, b), self.negation(self.both(a, b)))

    def product(self, left, right):
        """The bits of a product, from the least on."""
        total = [False] * (len(left) + len(right))
        for shift, factor in enumerate(right):
            carry = False
            for place in range(shift, len(total)):
                bit = self.both(left[place - shift], factor) if place - shift < len(left) else False
                one = total[place]
                total[place] = self.one_of(self.one_of(one, bit), carry)
                carry = self.either(self.both(one, bit), self.both(carry, self.either(one, bit)))
        return total


def products(bits):
    """Two numbers have different products in the two orders."""
    circuit = Circuit()
    left = [circuit.variable() for _ in range(bits)]
    right = [circuit.variable() for _ in range(bits)]
    differ = False
    for a, b in zip(circuit.product(left, right), circuit.product(right, left)):
        differ = circuit.either(differ, circuit.one_of(a, b))
    return circuit.count, circuit.clauses + [[differ]]


def instances():
    """The made clauses, by name."""
    yield "pigeons 7 into 6", pigeons(7, 6)
    yield "pigeons 8 into 7", pigeons(8, 7)
    yield "pigeons 9 into 8", pigeons(9, 8)
    for variables in (150, 200, 250):
        for seed in range(3):
            yield f"random {variables}, {seed}", random_threes(variables, 4.2, 1000 * variables + seed)
    for length in (12, 16, 20):
        yield f"parity {length}, odd", parity(length, length, True)
    yield "parity 40, even", parity(40, 40, False)
    for bits in (5, 6):
        yield f"products of {bits} bits", products(bits)
    yield "chain of 1,000,000", chain(1000000)


def write_cnf(path, variables, clauses):
    with open(path, "w") as out:
        out.write(f"p cnf {variables} {len(clauses)}\n")
        for clause in clauses:
            out.write(" ".join(map(str, clause)) + " 0\n")


def run_once(words, limit):
    """The seconds in user code, the kilobytes and the text of a run; no seconds where it was cut off.

    GNU time starts the program, so that the kilobytes are those of the program and not of this script.
    """
    with tempfile.TemporaryDirectory() as folder:
        told = os.path.join(folder, "time")
        timed = ["time", "-o", told, "-f", "%U %M", *words]
        limited = ["sh", "-c", 'ulimit -t "$1"; shift; exec "$@"', "sh", str(limit), *timed]
        child = subprocess.run(limited, stdout=subprocess.PIPE, stderr=subprocess.STDOUT)
        with open(told) as lines:
            last = lines.read().split("\n")[-2].split()
        if child.returncode not in (0, 10, 20):
            return None, 0, ""
        return float(last[0]), int(last[1]), child.stdout.decode(errors="replace")


def run(words, limit, runs):
    """The least of some runs; none of them is repeated where one was cut off."""
    best = run_once(words, limit)
    for _ in range(runs - 1):
        if best[0] is None:
            break
        other = run_once(words, limit)
        if other[0] is not None and other[0] < best[0]:
            best = other
    return best


def number_in(text, pattern):
    found = re.search(pattern, text)
    return found.group(1) if found else "-"


def verdict_in(text):
    if "UNSATISFIABLE" in text:
        return "no"
    return "yes" if "SATISFIABLE" in text else "-"


def seconds(value):
    return "over" if value is None else f"{value:.2f}"


SOLVERS = (
    ("minisat", ["minisat", "-verb=1"], r"conflicts\s*:\s*(\d+)"),
    ("minisat -no-pre", ["minisat", "-no-pre", "-verb=1"], r"conflicts\s*:\s*(\d+)"),
    ("cadical", ["cadical"], r"c conflicts:\s+(\d+)"),
)


def row(name, path, program, limit, runs):
    """A row of the table, seconds, conflicts and memory of each solver; and the seconds alone."""
    ours, ours_memory, ours_text = run([program, "dimacs", path], limit, runs)
    cells = [name, verdict_in(ours_text), seconds(ours), number_in(ours_text, r"(\d+) lemmas"), f"{ours_memory // 1024}"]
    times = [ours]
    verdicts = {verdict_in(ours_text)}
    for solver, words, pattern in SOLVERS:
        if not shutil.which(words[0]):
            cells += ["-", "-", "-"]
            times.append(None)
            continue
        took, memory, text = run([*words, path], limit, runs)
        verdicts.add(verdict_in(text))
        times.append(took)
        cells += [seconds(took), number_in(text, pattern), f"{memory // 1024}"]
    ratio = "-"
    if ours is not None and times[1] is not None:
        ratio = f"{ours / max(times[1], 0.01):.1f}"
    cells.append(ratio)
    if len(verdicts - {"-"}) > 1:
        cells.append("THE VERDICTS DIFFER")
    return "| " + " | ".join(cells) + " |", times


def sum_row(name, all_times):
    """A row with the sums of the seconds of several, all of which ended."""
    sums = [sum(column) for column in zip(*all_times)]
    cells = [name, "", seconds(sums[0]), "", ""]
    for one in sums[1:]:
        cells += [seconds(one), "", ""]
    cells.append(f"{sums[0] / max(sums[1], 0.01):.1f}")
    return "| " + " | ".join(cells) + " |"


def printed(alloyc, folders, path):
    """The name of each command of the models of the folders, and of each ring, whose clauses alloyc prints; they lie in the file."""
    for folder in folders:
        for name in sorted(os.listdir(folder)):
            if not name.endswith(".als"):
                continue
            model = os.path.join(folder, name)
            listed = subprocess.run([alloyc, "commands", name], cwd=folder, stdout=subprocess.PIPE, check=False).stdout
            for number in range(len(listed.splitlines())):
                words = [alloyc, "exec", name, "--command", str(number)]
                if print_clauses(words, folder, path):
                    yield f"{os.path.basename(model)[:-4]} {number}"
    for nodes in range(3, 7):
        if print_clauses([alloyc, "make", str(nodes)], None, path):
            yield f"ring of {nodes}"


def print_clauses(words, folder, path):
    """Whether clauses are printed: where a trace is found without a conflict there are none."""
    words = [*words, "--conflicts", "0", "--part", "all"]
    text = subprocess.run(words, cwd=folder, stdout=subprocess.PIPE, stderr=subprocess.DEVNULL, check=False).stdout
    found = re.search(rb"^p cnf .*?(?=^(?:derivation|refutation)$)", text, re.M | re.S)
    with open(path, "wb") as out:
        out.write(found.group(0) if found else b"")
    return bool(found)


def of_models(given, folder):
    """Prints the rows of the clauses of models."""
    alloyc, *folders = given.models
    path, small, every = os.path.join(folder, "printed.cnf"), [], []
    for name in printed(os.path.abspath(alloyc), folders, path):
        if given.only not in name:
            continue
        line, times = row(name, path, given.program, given.limit, given.runs)
        if None not in times:
            every.append(times)
        if all(took is not None and took < 0.05 for took in times):
            small.append(times)
        else:
            print(line, flush=True)
    if small:
        print(sum_row(f"{len(small)} others", small))
    if every:
        print(sum_row(f"all {len(every)} that ended", every))


def processor():
    """The kind of processor."""
    with open("/proc/cpuinfo") as lines:
        return number_in(lines.read(), r"model name\s*:\s*(.*)")


def main():
    words = argparse.ArgumentParser(description=__doc__, formatter_class=argparse.RawDescriptionHelpFormatter)
    words.add_argument("program")
    words.add_argument("--limit", type=int, default=60)
    words.add_argument("--runs", type=int, default=3)
    words.add_argument("--only", default="")
    words.add_argument("--models", nargs="+", default=[])
    words.add_argument("files", nargs="*")
    given = words.parse_args()
    load = os.getloadavg()
    print(f"Seconds in user code (the least of {given.runs} runs), conflicts or lemmas, megabytes.")
    print(f"{processor()}, {os.cpu_count()} processors, load {load[0]:.1f}.\n")
    heads = ["Clauses", "Satisfiable", "alloyc s", "lemmas", "MB"]
    for solver, _, _ in SOLVERS:
        heads += [f"{solver} s", "conflicts", "MB"]
    heads.append("alloyc/minisat")
    print("| " + " | ".join(heads) + " |")
    print("|" + "---|" * len(heads))
    with tempfile.TemporaryDirectory() as folder:
        if given.models:
            of_models(given, folder)
        for name, made in () if given.models else instances():
            if given.only not in name:
                continue
            path = os.path.join(folder, "made.cnf")
            write_cnf(path, *made)
            print(row(name, path, given.program, given.limit, given.runs)[0], flush=True)
        for path in given.files:
            print(row(os.path.basename(path), path, given.program, given.limit, given.runs)[0], flush=True)


if __name__ == "__main__":
    sys.exit(main())
