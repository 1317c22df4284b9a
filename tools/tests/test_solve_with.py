"""Tests of tools/solve-with on programs that stand for alloyc and for a solver: python3 -m unittest discover -s tools/tests"""
import os
import shutil
import subprocess
import sys
import tempfile
import unittest

HERE = os.path.dirname(os.path.abspath(__file__))
SCRIPT, STUB = f"{HERE}/../solve-with", f"{HERE}/stub_alloyc.py"


class SolveWith(unittest.TestCase):
    def setUp(self):
        self.folder = tempfile.TemporaryDirectory()
        self.addCleanup(self.folder.cleanup)

    def solve(self, how, commands, *words):
        """Runs the script on a command, with a solver that is a few commands of a shell: {proof} stands for its refutation."""
        with open(f"{self.folder.name}/a.als", "w") as file:
            file.write(f"run one {how}\n")
        done = subprocess.run(
            [sys.executable, SCRIPT, f"sh -c '{commands}'", "a.als", "--alloyc", STUB, *words],
            cwd=self.folder.name, capture_output=True, text=True, timeout=500,
        )
        return done.returncode, done.stdout, done.stderr

    def test_a_refutation(self):
        status, out, said = self.solve("unknown", 'echo "3 0 1 2 0" > {proof}; echo s UNSATISFIABLE # {cnf}')
        self.assertEqual((status, out), (20, "none states 1\n"), said)
        self.assertIn("mode lrat says `refuted`", said)

    def test_a_wrong_refutation(self):
        status, out, said = self.solve("unknown", 'echo "3 0 1 1 0" > {proof}; exit 20 # {cnf}')
        self.assertEqual((status, out), (1, ""), said)
        self.assertIn("rejected L3 line 1", said)

    def test_no_refutation(self):
        status, out, said = self.solve("unknown", "exit 20 # {cnf}")
        self.assertEqual((status, out), (21, "none states 1\n"), said)
        self.assertIn("no refutation was checked", said)

    @unittest.skipUnless(shutil.which("gcc"), "gcc adds hints")
    def test_hints_are_added(self):
        for begin in ("0", "d 1 2 0\\n0", "\\141\\000"):
            status, out, said = self.solve("unknown", f'printf "{begin}" > {{proof}}; exit 20 # {{cnf}}')
            self.assertEqual((status, out), (20, "none states 1\n"), said)

    def test_an_assignment(self):
        status, out, said = self.solve("open", "echo s SATISFIABLE; echo v 1 -2; echo v 0 # {cnf}")
        self.assertEqual((status, out), (10, "trace states 1 loop 0\nstate 0\nA = A$0\nend\n"), said)
        status, out, said = self.solve("open", 'printf "SAT\\n1 -2 0\\n" > {model}; exit 10 # {cnf}')
        self.assertEqual((status, out), (10, "trace states 1 loop 0\nstate 0\nA = A$0\nend\n"), said)
        status, out, said = self.solve("open", "echo s SATISFIABLE; echo v -1 2 0 # {cnf}")
        self.assertEqual((status, out), (1, ""), said)
        self.assertIn("command broken", said)
        status, out, said = self.solve("open", "exit 10 # {cnf}")
        self.assertEqual((status, out), (11, ""), said)

    def test_no_answer(self):
        for commands in ("exit 0 # {cnf}", "echo s UNKNOWN; exit 20 # {cnf}", "exec sleep 60 # {cnf}"):
            status, out, said = self.solve("unknown", commands, "--limit", "1")
            self.assertEqual((status, out), (30, ""), said)

    def test_no_clauses(self):
        self.assertEqual(self.solve("trace", "exit 20 # {cnf}")[0], 10)
        status, out, _ = self.solve("broken", "exit 20 # {cnf}")
        self.assertEqual((status, out), (3, "refused S46 a.als:1:1\n"))

    def test_open_cubes_run_again(self):
        # (no cube is decided by propagation)
        commands = 'echo run >> {cnf}.runs; echo s UNKNOWN'
        for times in (1, 2):
            status, _, said = self.solve("open", commands, "--cubes", "2", "--keep", "kept")
            self.assertEqual(status, 30, said)
            with open(f"{self.folder.name}/kept/cube-0.cnf.runs") as file:
                self.assertEqual(len(file.readlines()), times)
        with open(f"{self.folder.name}/kept/cube-1.cnf") as file:
            self.assertEqual(file.read().splitlines()[0], "p cnf 2 2")


if __name__ == "__main__":
    unittest.main()
