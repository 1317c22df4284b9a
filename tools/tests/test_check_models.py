"""Tests of tools/check-models on a program that stands for alloyc: python3 -m unittest discover -s tools/tests"""
import os
import signal
import subprocess
import sys
import tempfile
import time
import unittest
import xml.etree.ElementTree as tree

HERE = os.path.dirname(os.path.abspath(__file__))
SCRIPT, STUB = f"{HERE}/../check-models", f"{HERE}/stub_alloyc.py"


class CheckModels(unittest.TestCase):
    def setUp(self):
        self.folder = tempfile.TemporaryDirectory()
        self.addCleanup(self.folder.cleanup)

    def write(self, name, text):
        with open(f"{self.folder.name}/{name}", "w") as file:
            file.write(text)

    def words(self, *words):
        return [sys.executable, SCRIPT, *words, "--alloyc", STUB, "--jobs", "2"]

    def run_script(self, *words):
        done = subprocess.run(self.words(*words), cwd=self.folder.name, capture_output=True, text=True, timeout=500)
        return done.returncode, done.stdout + done.stderr

    def last(self, *words):
        status, said = self.run_script(*words)
        return status, said.splitlines()[-1]

    def test_all_as_expected(self):
        self.write("a.als", "run one trace\ncheck two none\n")
        self.write("a.expected", "0 run 1:1 one SAT 0.4\n1 check 2:1 two UNSAT\n")
        status, said = self.run_script("a.als", "--replay", "--lrat", "--by-kind")
        self.assertEqual(status, 0, said)
        self.assertIn("trace, satisfied", said)
        self.assertIn("none, refuted", said)
        self.assertTrue(said.endswith("2 as expected, 0 not\n"), said)

    def test_each_fault_is_told(self):
        faults = {"unknown": "unknown", "broken": "refused S46 a.als:1:1", "crash": "signal 11"}
        for how, said in faults.items():
            self.write("a.als", f"run one {how}\n")
            status, text = self.run_script("a.als")
            self.assertEqual(status, 1)
            self.assertIn(f"a.als 0 run 1:1 one: {said}\n", text)

    def test_a_model_that_is_refused(self):
        self.write("a.als", "nonsense\n")
        status, said = self.run_script("a.als")
        self.assertEqual(status, 1)
        self.assertIn("a.als - - - -: refused S10 a.als:1:1\n", said)

    def test_answers_that_differ(self):
        self.write("a.als", "run one trace\n")
        for line, said in (
            ("0 run 1:1 one UNSAT", "trace, and not none"),
            ("0 run 9:9 one SAT", "the expected answer is that of run 9:9 one"),
            ("4 run 1:1 one SAT", "a.als 4 run 1:1 one: no such command"),
        ):
            self.write("a.expected", line + "\n")
            status, text = self.run_script("a.als")
            self.assertEqual(status, 1)
            self.assertIn(said, text)
        self.write("a.expected", "0 run 1:1 one MAYBE\n")
        self.assertEqual(self.run_script("a.als")[0], 2)

    def test_by_kind(self):
        self.write("a.als", "run one none\ncheck two trace\n")
        self.assertEqual(self.last("a.als"), (0, "2 as expected, 0 not"))
        self.assertEqual(self.last("a.als", "--by-kind"), (1, "0 as expected, 2 not"))
        self.write("a.expected", "0 run 1:1 one UNSAT\n")
        self.assertEqual(self.last("a.als", "--by-kind"), (1, "1 as expected, 1 not"))

    def test_what_judges(self):
        self.write("a.als", "run one twisted\nrun two weak\n")
        self.assertEqual(self.last("a.als")[0], 0)
        status, said = self.run_script("a.als", "--replay", "--lrat")
        self.assertEqual(status, 1)
        self.assertIn("one: replay: command broken\n", said)
        self.assertIn("two: lrat: rejected L3 line 1\n", said)

    def test_limit(self):
        self.write("a.als", "run one slow\nrun two trace\n")
        begun = time.monotonic()
        status, said = self.run_script("a.als", "--limit", "5")
        self.assertLess(time.monotonic() - begun, 50)
        self.assertEqual(status, 1)
        self.assertIn("a.als 0 run 1:1 one: over 5 s\n", said)

    def test_nothing_to_run(self):
        self.write("a.als", "run one trace\n")
        self.write("none.als", "")
        for words in (["a.als", "--only", "two"], ["a.als", "--task", "1"], ["none.als"], ["a.als", "--limit", "0"], []):
            self.assertEqual(self.run_script(*words)[0], 2, words)
        self.assertEqual(self.last(".")[0], 0)
        self.write("none.expected", "0 run 1:1 one SAT\n")
        self.assertEqual(self.last(".")[0], 1)

    def test_one_task(self):
        self.write("a.als", "run one trace\nrun two none\n")
        self.assertEqual(self.run_script("a.als", "--list")[1], "0 a.als 0 run 1:1 one\n1 a.als 1 run 2:1 two\n")
        for task in "01":
            self.assertEqual(self.last("a.als", "--task", task, "--results", f"r{task}")[0], 0)
        with open(f"{self.folder.name}/r0") as one, open(f"{self.folder.name}/r1") as two:
            self.write("all", one.read() + two.read())
        self.assertEqual(self.last("a.als", "--kept", "--results", "all"), (0, "2 as expected, 0 not"))
        self.assertEqual(self.last("a.als", "--kept", "--results", "r1"), (1, "1 as expected, 0 not, 1 not run: --resume goes on"))

    def kept(self):
        """How many lines of answers are kept."""
        name = f"{self.folder.name}/check-models.results"
        if not os.path.exists(name):
            return 0
        with open(name) as lines:
            return sum(it.endswith("}\n") for it in lines)

    def test_interrupted_and_resumed(self):
        for sign in (signal.SIGINT, signal.SIGTERM):
            self.write("check-models.results", "")
            self.write("a.als", "run one trace\nrun two none\nrun three slow\n")
            child = subprocess.Popen(self.words("a.als"), cwd=self.folder.name, stdout=subprocess.PIPE, text=True)
            end = time.monotonic() + 200
            while time.monotonic() < end and self.kept() < 2:
                time.sleep(0.05)
            child.send_signal(sign)
            said = child.communicate(timeout=200)[0]
            self.assertEqual(child.returncode, 130)
            self.assertTrue(said.endswith("2 as expected, 0 not, 1 not run: --resume goes on\n"), said)
            # the same model: two answers are taken, and one line is cut off
            with open(f"{self.folder.name}/check-models.results", "a") as kept:
                kept.write('{"model": "a.a')
            self.assertEqual(self.last("a.als", "--resume", "--limit", "5"), (1, "2 as expected, 1 not"))
            self.assertEqual(self.kept(), 3)
            # another model: none is
            self.write("a.als", "run one none\nrun two none\nrun three trace\n")
            status, said = self.run_script("a.als", "--resume", "--lrat")
            self.assertEqual((status, said.count("none, refuted")), (0, 2), said)

    def test_an_opened_file_counts(self):
        self.write("a.als", "run b trace\n")
        self.write("b.als", "run c trace\n")
        self.assertEqual(self.last("a.als")[0], 0)
        self.assertEqual(self.last("a.als", "--resume")[0], 0)
        self.assertEqual(self.kept(), 1)
        self.write("b.als", "run d trace\n")
        self.assertEqual(self.last("a.als", "--resume")[0], 0)
        self.assertEqual(self.kept(), 2)

    def test_report(self):
        self.write("a.als", "check one trace\nrun two broken\nrun <three> none\n")
        self.assertEqual(self.last("a.als", "--by-kind", "--junit", "report.xml")[0], 1)
        suites = tree.parse(f"{self.folder.name}/report.xml").getroot()
        self.assertEqual([it.get("tests") for it in suites], ["3"])
        suite = suites[0]
        self.assertEqual([suite.get(it) for it in ("failures", "errors", "skipped")], ["2", "1", "0"])
        self.assertEqual([[it.tag for it in case] for case in suite], [["failure"], ["error"], ["failure"]])
        self.assertEqual(suite[2].get("name"), "2 run 3:1 <three>")
        self.assertIn("A = A$0", suite[0][0].text)


if __name__ == "__main__":
    unittest.main()
