#!/usr/bin/env python3
"""Runs alloyc on texts that nobody means, and tells each run that doesn't end with a status of its table in time.

usage: hostile.py ALLOYC texts [--count N] [--seed N] [--limit SECONDS]
       hostile.py ALLOYC traces FOLDER [--count N] [--seed N] [--limit SECONDS]

`texts` writes names, symbols and words of the language in random order, up to 2,000 bytes, and runs `exec` and `commands` on
each. `traces` takes the traces that `exec` prints for the models in FOLDER, changes one byte of each copy, and runs `replay`
and `eval` on it. The last line is 'N runs, M faults'.
"""
import argparse
import collections
import os
import random
import subprocess
import sys
import tempfile
import time

WORDS = (
    "abstract after all always and as assert before but check disj else enum eventually exactly expect extends fact for fun "
    "historically iden iff implies in int Int let lone module no none not once one open or pred private releases run seq set "
    "sig since some String sum this triggered univ until var steps"
).split()
NAMES = "A B C f g r x y p q util/ordering util/integer a/b this/A plus first next".split()
SYMBOLS = "[ ] { } ( ) , . : | ; ' @ / ~ ^ * # & + - ++ -> <: :> = < > =< <= >= ! && || => <=> -- // /* */".split()
OTHERS = ['0', '1', '7', '12', '999999999', '1234567890', '"a"', '""', '"', '\\', '?', '\n', '\t', '\r\n', '\x00', '\xe9', 'fun/add', 'fun/rem']
STATUSES = {"exec": {3, 4, 5, 10, 20, 30}, "commands": {0, 3, 4, 5}, "replay": {0, 1, 3, 4, 5}, "eval": {0, 3, 4, 5}}


def run(words, folder, limit):
    """Returns the status and the seconds of a run; no status where it was cut off."""
    started = time.monotonic()
    try:
        done = subprocess.run(words, cwd=folder, stdin=subprocess.DEVNULL, stdout=subprocess.PIPE, stderr=subprocess.DEVNULL, timeout=limit)
        return done.returncode, done.stdout, time.monotonic() - started
    except subprocess.TimeoutExpired:
        return None, b"", time.monotonic() - started


class Judge:
    def __init__(self, alloyc, folder, limit):
        self.alloyc, self.folder, self.limit = alloyc, folder, limit
        self.statuses, self.runs, self.faults, self.longest = collections.Counter(), 0, 0, 0.0

    def judge(self, words, what, text):
        """Runs the words; prints the text where the run ends otherwise than by a status of its mode."""
        status, out, seconds = run([self.alloyc, *words], self.folder, self.limit)
        self.runs += 1
        self.statuses[words[0], status] += 1
        self.longest = max(self.longest, seconds)
        if status not in STATUSES[words[0]]:
            self.faults += 1
            print(f"{what}: {' '.join(words)} gave {status} after {seconds:.2f} s, {out[:80]!r}\n{text!r}", flush=True)
        return status, out

    def end(self):
        for (mode, status), count in sorted(self.statuses.items(), key=str):
            print(f"{mode} {status}: {count}")
        print(f"longest {self.longest:.2f} s")
        print(f"{self.runs} runs, {self.faults} faults")
        return 1 if self.faults else 0


def jumble(rnd):
    """A text of at most 2,000 bytes: words in random order, some of them in the order of a paragraph."""
    pieces, size, most = [], 0, rnd.randint(1, 2000)
    forms = ("sig A {", "run {", "fact {", "pred p[x: A] {", "fun f: A {", "} for 3", "}", "open util/ordering[A]", "all x: A |", "some x: A |")
    kinds = rnd.choice(((WORDS, NAMES, SYMBOLS), (NAMES, SYMBOLS), (WORDS, NAMES, SYMBOLS, OTHERS), (forms, NAMES, SYMBOLS), (SYMBOLS,)))
    while True:
        piece = rnd.choice(rnd.choice(kinds)) + rnd.choice((" ", " ", " ", "", "\n"))
        size += len(piece.encode("latin-1"))
        if size > most:
            return "".join(pieces).encode("latin-1")
        pieces.append(piece)


def texts(judge, rnd, count):
    for number in range(count):
        text = jumble(rnd)
        with open(os.path.join(judge.folder, "x.als"), "wb") as file:
            file.write(text)
        judge.judge(["exec", "x.als"], f"text {number}", text)
        judge.judge(["commands", "x.als"], f"text {number}", text)


def traces(judge, rnd, count, models):
    """Changes one byte of the traces of models, in turn."""
    found = []
    for name in sorted(os.listdir(models)):
        if name.endswith(".als"):
            with open(os.path.join(models, name), "rb") as file:
                text = file.read()
            with open(os.path.join(judge.folder, name), "wb") as file:
                file.write(text)
    for name in sorted(os.listdir(judge.folder)):
        status, out, _ = run([judge.alloyc, "exec", name], judge.folder, 10 * judge.limit)
        if status == 10:
            found.append((name, out))
    for number in range(count):
        name, trace = found[number % len(found)]
        at = rnd.randrange(len(trace))
        new = rnd.choice((rnd.randrange(256), rnd.choice(b"\n =,$->0123456789AaZ")))
        text = trace[:at] + (b"" if rnd.random() < 0.2 else bytes([new])) + trace[at + 1:]
        with open(os.path.join(judge.folder, "t.txt"), "wb") as file:
            file.write(text)
        judge.judge(["replay", name, "t.txt"], f"trace {number} of {name}", text)
        judge.judge(["eval", name, "t.txt", "--expr", "univ", "--at", str(number % 5)], f"trace {number} of {name}", text)


def main():
    parser = argparse.ArgumentParser()
    parser.add_argument("alloyc")
    parser.add_argument("what", choices=["texts", "traces"])
    parser.add_argument("models", nargs="?")
    parser.add_argument("--count", type=int, default=2000)
    parser.add_argument("--seed", type=int, default=1)
    parser.add_argument("--limit", type=float, default=1)
    given = parser.parse_args()
    rnd = random.Random(given.seed)
    with tempfile.TemporaryDirectory() as folder:
        judge = Judge(os.path.abspath(given.alloyc), folder, given.limit)
        if given.what == "texts":
            texts(judge, rnd, given.count)
        else:
            traces(judge, rnd, given.count, given.models)
        return judge.end()


if __name__ == "__main__":
    sys.exit(main())
