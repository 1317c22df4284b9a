"""Tests of tools/proofs.py: python3 -m unittest discover -s tools/tests"""
import io
import itertools
import os
import random
import sys
import tempfile
import unittest

sys.path.insert(0, os.path.join(os.path.dirname(os.path.abspath(__file__)), ".."))
import proofs


def is_refuted(clauses, text):
    """A checker of LRAT without RAT lines, by the rules of docs/RULES.md: each hint's clause is a unit, or false at last."""
    standing = dict(enumerate(clauses, 1))
    for line in text.splitlines():
        words = line.split()
        if words[1] == "d":
            for it in words[2:-1]:
                del standing[int(it)]
            continue
        numbers = [int(it) for it in words]
        end = numbers.index(0)
        assert numbers[0] > max(standing, default=0)
        true, is_false = {-it for it in numbers[1:end]}, False
        for hint in numbers[end + 1 : -1]:
            free = {it for it in standing[hint] if -it not in true}
            if not free:
                is_false = True
                break
            assert len(free) == 1 and not free & true, line
            true |= free
        assert is_false, line
        standing[numbers[0]] = tuple(numbers[1:end])
        if end == 1:
            return True
    return False


def refutation(clauses, variables):
    """A refutation in LRAT by a tree over all variables, and the text of it."""
    lines, count = [], [len(clauses)]

    def false_under(cube):
        true = set(cube)
        return next((at for at, it in enumerate(clauses, 1) if all(-literal in true for literal in it)), None)

    def below(cube):
        at = false_under(cube)
        if at:
            return at
        if len(cube) == variables:
            raise ValueError("satisfied")
        name = len(cube) + 1
        hints = [below((*cube, -name)), below((*cube, name))]
        count[0] += 1
        # (a clause that is false without the last literal is no unit behind the other)
        whole = [it for it in hints if not is_known(it, cube)] or hints
        lines.append(f"{count[0]} {' '.join(str(-it) for it in cube)} 0 {' '.join(map(str, whole))} 0".replace("  ", " "))
        made[count[0]] = tuple(-it for it in cube)
        return count[0]

    def is_known(hint, cube):
        clause = clauses[hint - 1] if hint <= len(clauses) else made[hint]
        return not all(-it in cube for it in clause)

    made = {}
    below(())
    return "\n".join(lines) + "\n"


class Proofs(unittest.TestCase):
    def setUp(self):
        folder = tempfile.TemporaryDirectory()
        self.addCleanup(folder.cleanup)
        self.file = f"{folder.name}/file"

    def write(self, text):
        with open(self.file, "wb") as file:
            file.write(text if isinstance(text, bytes) else text.encode())
        return self.file

    def clauses(self, clauses, variables, table=()):
        lines = [*table, f"p cnf {variables} {len(clauses)}", *[" ".join(map(str, [*it, 0])) for it in clauses]]
        return proofs.Clauses(self.write("\n".join(lines) + "\n"))

    def test_formats(self):
        for text, said in (
            ("", ""),
            ("5 1 0 1 2 0\n", "lrat"),
            ("5 d 1 2 0\n6 0 5 4 0\n", "lrat"),
            ("d 1 2 0\n-1 0\n0\n", "drat"),
            ("o 1 1 2 0\na 5 1 0 l 1 2 0\n", "frat"),
            (b"a\x02\x05\x00d\x02\x05\x00a\x00", "binary"),
        ):
            self.assertEqual(proofs.format_of(self.write(text)), said, text)

    def test_frat(self):
        name = self.write("o 1 1 2 0\na 5 1 0 l 1 2 0\nd 1 1 2 0\na 6 0 l 5 0\nf 5 1 0\n")
        proofs.write_drat(name, "frat", name + ".text")
        with open(name + ".text") as file:
            self.assertEqual(file.read(), "1 0\nd 1 2 0\n0\n")

    def test_binary(self):
        name = self.write(b"a\x7e\xff\x01\x00d\x02\x05\x00a\x00")
        proofs.write_text(name, name + ".text")
        with open(name + ".text") as file:
            self.assertEqual(file.read(), "63 -127 0\nd 1 -2 0\n0\n")
        with self.assertRaises(proofs.Bad):
            proofs.write_text(self.write(b"a\x02\x00x"), name + ".text")

    def test_a_trace(self):
        table = [
            "c var 1 A state 0 A$0",
            "c var 2 A state 0 A$1",
            "c var 3 A.f state 0 A$0->A$1",
            'c var 4 "a state 0 b" state 0 "a state 0 b"',
            "c var 5 On state 0 A$0",
            "c var 6 On state 1 A$0",
            "c var 7 loop 0",
            "c var 8 loop 1",
        ]
        clauses = self.clauses([(1,)], 9, table)
        said = "trace states 2 loop 1\nstate 0\nA = A$0, A$1\nA.f = A$0->A$1\nOn =\nstate 1\nA = A$0, A$1\nA.f = A$0->A$1\nOn = A$0\nend\n"
        self.assertEqual(proofs.trace_of(clauses, {1, 2, 3, 4, 6, 8}), said)
        self.assertEqual(proofs.states_of(clauses), 2)
        self.assertEqual(proofs.table_variables(clauses), list(range(1, 9)))

    def test_no_rat_lines(self):
        for text in ("5 1 0 -1 2 0\n", "3 1 0 1 0\n", "5 1 0 1 2 0\n", "5 1 0\n"):
            with self.assertRaises(proofs.Bad):
                proofs.read_lemmas(self.write(text), 4)

    def joined(self, clauses, variables, count):
        """The tree of `count` cubes, and the joined refutation."""
        table = [f"c var {it} R state 0 A${it}" for it in range(1, variables + 1)]
        read = self.clauses(clauses, variables, table)
        tree, out = proofs.Splitting(read).tree(count), io.StringIO()

        def lemmas_of(cube):
            under = [*clauses, *[(it,) for it in cube]]
            return proofs.read_lemmas(self.write(refutation(under, variables)), len(under))

        proofs.Joined(read, out).tree(tree, (), lemmas_of)
        return tree, out.getvalue()

    def test_cubes_cover_all(self):
        tree, _ = self.joined([(1, 2), (1, -2), (-1, 3), (-1, -3), (4, 5)], 5, 4)
        for values in itertools.product((1, -1), repeat=5):
            true = {value * name for value, name in zip(values, range(1, 6))}
            self.assertEqual(sum(true.issuperset(it) for it in proofs.leaves(tree)), 1)

    def test_joined_refutations_pass(self):
        source, refuted, cubes = random.Random(1), 0, set()
        while refuted < 60:
            clauses = []
            for _ in range(36):
                names = source.sample(range(1, 8), 3)
                clauses.append(tuple(source.choice((it, -it)) for it in names))
            try:
                refutation(clauses, 7)
            except ValueError:
                continue
            for count in (1, 2, 3, 8):
                tree, text = self.joined(clauses, 7, count)
                self.assertTrue(is_refuted(clauses, text), text)
                cubes.add(len(proofs.leaves(tree)))
            refuted += 1
        self.assertGreater(max(cubes), 3)


if __name__ == "__main__":
    unittest.main()
