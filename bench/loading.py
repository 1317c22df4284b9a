#!/usr/bin/env python3
"""Times the loading of many modules with the built program.

    loading.py PROGRAM [--modules N] [--bytes N] [--rounds N]

PROGRAM is crates/alloyc/out/alloyc. Writes a root and the modules that it opens into a folder that is removed at the end; each text has about so
many bytes of sigs, facts and predicates. The root has two sigs of one name, so that `exec` ends with S30 as soon as all is loaded: its time is
that of the start, of the loading and of the look for equal names. The time of `commands`, which reads the root alone, stands beside it.
Modules are opened in three ways: all by the root; each by the one before it; and all by the root, each with every earlier one again.
"""
import os, resource, subprocess, sys, tempfile

def option(name, default):
    return int(sys.argv[sys.argv.index(name) + 1]) if name in sys.argv else default

PROGRAM = os.path.abspath(sys.argv[1])
MODULES, BYTES, ROUNDS = option("--modules", 63), option("--bytes", 16384), option("--rounds", 5)
PARAGRAPH = """sig A{0} {{ f{0}, g{0}: set A{0}, h{0}: A{0} -> lone A{0} }}
fact {{ all x, y: A{0} | x.f{0} = y.g{0} implies x in y.*(f{0}) or some x.h{0} }}
pred p{0}[x: A{0}, s: set A{0}] {{ let k = x.f{0} | k in s and not once (k & s) in none }}
"""

def body(size):
    parts, length, number = [], 0, 0
    while length < size:
        parts.append(PARAGRAPH.format(number)); length += len(parts[-1]); number += 1
    return "".join(parts)

def opens(way, number):
    if way == "by the root":
        return range(MODULES) if number is None else []
    if way == "in a row":
        return [0] if number is None else range(number + 1, min(number + 2, MODULES))
    return range(MODULES) if number is None else range(number)

def seconds(words, folder):
    before = resource.getrusage(resource.RUSAGE_CHILDREN)
    done = subprocess.run([PROGRAM, *words], cwd=folder, capture_output=True, text=True)
    after = resource.getrusage(resource.RUSAGE_CHILDREN)
    return after.ru_utime + after.ru_stime - before.ru_utime - before.ru_stime, done.stdout.strip()

for way in ("by the root", "in a row", "by all later ones"):
    with tempfile.TemporaryDirectory() as folder:
        text = body(BYTES)
        for number in range(MODULES):
            with open(f"{folder}/m{number}.als", "w") as file:
                file.write("".join(f"open m{k}\n" for k in opens(way, number)) + text)
        with open(f"{folder}/root.als", "w") as file:
            file.write("".join(f"open m{k}\n" for k in opens(way, None)) + text + "sig Twice {}\nsig Twice {}\nrun {}\n")
        for words in (["exec", "root.als"], ["commands", "root.als"]):
            times = [seconds(words, folder) for _ in range(ROUNDS)]
            print(f"{MODULES + 1} texts of {len(text)} bytes, opened {way}: {words[0]:8} {min(t for t, _ in times):6.3f} s  {times[0][1]}")
