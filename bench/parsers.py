#!/usr/bin/env python3
"""Times the lexer and the parsers on long texts, with the mode parser of crates/bench_alloyc.

    python3 bench/parsers.py crates/bench_alloyc/out/bench_alloyc [--rounds N]

Each text is written to a file, and the least processor time of the rounds is printed beside what the program says of the text. The
time of no file at all stands first: it is that of the start alone. The times include what the program does beside lexing and
parsing: it reads the file, and a tree that it has got is spelled again and compared.
"""
import argparse
import os
import resource
import subprocess
import tempfile

MOST = 1_048_576

PARAGRAPH = """sig A%d extends B { var f, g: set A%d -> one B, h: lone A%d } { some f => no g else h in this.f.g }
fact f%d { always all disj x, y: A%d | x.f != y.f or some z: B - x | z in x.^(f.g) and #z > 3 until z = y' }
pred p%d[x: A%d, s: set B] { let k = x.f[s] | (k in s implies k = s) and not once (k & s) in none }
fun g%d[x: A%d]: lone B { { z: B | z in x.h and z -> x in f } }
run p%d for 3 but exactly 2 A%d, 4 int
"""


def long_text():
    """As many paragraphs as a text may have, and blanks up to its greatest length."""
    parts, size, number = [], 0, 0
    while True:
        part = PARAGRAPH.replace("%d", str(number))
        if size + len(part) > MOST:
            return ("".join(parts) + " " * (MOST - size)).encode()
        parts.append(part)
        size += len(part)
        number += 1


TEXTS = [
    ("nothing", None),
    ("paragraphs", long_text()),
    ("500,000 parentheses", b"run { " + b"(" * 500_000),
    ("500,000 primes", b"run { some a" + b"'" * 500_000 + b" }"),
    ("one literal", b'run { "' + b"a" * 1_000_000 + b'" = none }'),
    ("one comment", b"/*" + b"*" * 1_000_000 + b"*/"),
    ("one join", b"run { a = a" + b".a" * 500_000 + b" }"),
    ("one block", b"run {" + b" some a" * 140_000 + b" }"),
    ("many names", b"sig A { f" + b", g" * 300_000 + b": A }"),
    ("refused at its end", b"run {" + b" some a" * 140_000 + b" )"),
]


def timed(words, folder, rounds):
    """The least processor time of so many runs, and what the last one printed."""
    least, said = None, b""
    for _ in range(rounds):
        before = resource.getrusage(resource.RUSAGE_CHILDREN)
        done = subprocess.run(words, capture_output=True, cwd=folder)
        after = resource.getrusage(resource.RUSAGE_CHILDREN)
        took = after.ru_utime + after.ru_stime - before.ru_utime - before.ru_stime
        least = took if least is None or took < least else least
        said = done.stdout.strip() if done.returncode == 0 else b"status %d" % done.returncode
    return least, said.decode()


def main():
    words = argparse.ArgumentParser(description="Times the lexer and the parsers on long texts.")
    words.add_argument("program")
    words.add_argument("--rounds", type=int, default=5)
    given = words.parse_args()
    program = os.path.abspath(given.program)
    print("| Text | Bytes | s | Said |\n|---|---|---|---|")
    with tempfile.TemporaryDirectory() as folder:
        for name, text in TEXTS:
            run = [program, "parser"]
            if text is not None:
                with open(os.path.join(folder, "m.als"), "wb") as file:
                    file.write(text)
                run.append("m.als")
            took, said = timed(run, folder, given.rounds)
            print(f"| {name} | {len(text or b'')} | {took:.3f} | {said} |", flush=True)


main()
