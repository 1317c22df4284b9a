"""Tests of packaging/alloy.tmLanguage.json on the stored models: python3 -m unittest discover -s tools/tests"""
import glob
import json
import os
import re
import unittest

TOP = os.path.join(os.path.dirname(os.path.abspath(__file__)), "../..")

# The tokens of docs/LANGUAGE.md, section 1.
RESERVED = set(
    """abstract after all always and as assert before but check disj else enum eventually exactly expect extends fact for fun
    historically iden iff implies in int Int let lone module no none not once one open or pred private releases run seq set
    sig since some String sum this triggered univ until var""".split()
)
SYMBOLS = "[ ] { } ( ) , . : | ; ' @ / ~ ^ * # & + - ++ -> <: :> = < > =< <= >= ! && || => <=>".split()
LONGEST = "|".join(map(re.escape, sorted(SYMBOLS, key=len, reverse=True)))
TOKEN = re.compile(
    rf"(?P<blank>[\t\n\r ]+)|(?P<comment>//[^\n]*|--[^\n]*|/\*.*?\*/)|(?P<word>[A-Za-z_]\w*)|(?P<number>\d+)"
    rf'|(?P<string>"[ !#-\[\]-~]*")|(?P<symbol>{LONGEST})',
    re.S | re.A,
)
KINDS = {"number": "constant.numeric", "string": "string", "comment": "comment"}


def tokens(text):
    """Yields each token's place in the text, its spelling and what it is."""
    at = 0
    while at < len(text):
        found = TOKEN.match(text, at)
        assert found, (at, text[at : at + 20])
        if found.lastgroup != "blank":
            yield at, found[0], found.lastgroup
        at = found.end()


def scopes(text, patterns):
    """Returns what a grammar says of each character: the scope, and where the piece with that scope begins.

    It goes line by line as editors do: the pattern counts whose match begins first, and of these the one that stands first."""
    said, place, inside = [None] * len(text), 0, None
    for line in text.splitlines(keepends=True):
        at = 0
        while at < len(line):
            if inside:
                pattern, begin = inside
                end = re.compile(pattern["end"]).search(line, at)
                stop, inside = (end.end(), None) if end else (len(line), inside)
            else:
                found = [(it.search(line, at), one) for it, one in patterns]
                found = [(it.start(), order, it, one) for order, (it, one) in enumerate(found) if it]
                if not found:
                    break
                at, _, match, pattern = min(found, key=lambda it: it[:2])
                begin, stop = place + at, match.end()
                inside = (pattern, begin) if "begin" in pattern else None
            for it in range(place + at, place + stop):
                said[it] = (pattern["name"], begin)
            at = stop
        place += len(line)
    return said


class Grammar(unittest.TestCase):
    def setUp(self):
        with open(f"{TOP}/packaging/alloy.tmLanguage.json") as file:
            patterns = json.load(file)["patterns"]
        self.patterns = [(re.compile(it.get("match", it.get("begin"))), it) for it in patterns]

    def wanted(self, spelled, kind, name):
        if kind == "word" and spelled not in RESERVED:
            return name == "variable.other.alloy"
        if kind == "word":
            return name.startswith(("storage.", "keyword.", "constant.language"))
        if kind == "symbol":
            return name in ("keyword.operator.alloy", "punctuation.alloy")
        return name.startswith(KINDS[kind])

    def check(self, text, name):
        said, count = scopes(text, self.patterns), 0
        for at, spelled, kind in tokens(text):
            whole = said[at : at + len(spelled)]
            self.assertIsNotNone(whole[0], (name, at, spelled))
            self.assertEqual(set(whole), {(whole[0][0], at)}, (name, at, spelled))
            self.assertTrue(self.wanted(spelled, kind, whole[0][0]), (name, at, spelled, whole[0][0]))
            count += 1
            for it in range(at, at + len(spelled)):
                said[it] = None
        self.assertEqual([it for it, one in enumerate(said) if one and text[it] != "\n"], [], name)
        return count

    def test_stored_models(self):
        count = 0
        for folder in ("examples", "crates/bench_alloyc/data/models"):
            for name in sorted(glob.glob(f"{TOP}/{folder}/*.als")):
                with open(name, newline="") as file:
                    count += self.check(file.read(), name)
        self.assertGreater(count, 10_000)

    def test_all_words_and_symbols(self):
        self.check(" ".join([*sorted(RESERVED), *SYMBOLS, "seq1", "steps", "_a", "fun_"]), "words")
        self.check('a--b\n/* all\nsome */ x "// no" // "a"\n"--"/**/-- /*\nsig', "comments")


if __name__ == "__main__":
    unittest.main()
