"""What check-models and solve-with share: the program alloyc, runs side by side within a time, and the parts of an answer.

It needs Linux and Python 3.9 or later.
"""
import os
import resource
import select
import shutil
import signal
import subprocess
import sys
import time
from typing import NamedTuple, Optional

TOP = os.path.dirname(os.path.dirname(os.path.realpath(__file__)))


class Ran(NamedTuple):
    """What a run gave. The status is None where it was ended at its limit, and -N where signal N ended it."""

    status: Optional[int]
    # seconds of processor time, and the most memory at one time in megabytes
    seconds: float
    megabytes: float


class Run:
    """A program that was started, in a session of its own. Its output goes to a file, and if it is wanted, so does its standard error."""

    def __init__(self, words, out, limit=None, is_whole=False):
        self.end = time.monotonic() + limit if limit else None
        with open(out, "wb") as file:
            errors = subprocess.STDOUT if is_whole else subprocess.DEVNULL
            self.child = subprocess.Popen(words, stdin=subprocess.DEVNULL, stdout=file, stderr=errors, start_new_session=True)
        self.handle = os.pidfd_open(self.child.pid)

    def kill(self):
        os.killpg(self.child.pid, signal.SIGKILL)
        return self.ran(0)._replace(status=None)

    def ran(self, how):
        """What it gave, or None where it hasn't ended and isn't waited for."""
        pid, code, usage = os.wait4(self.child.pid, how)
        if not pid:
            return None
        os.close(self.handle)
        self.child.returncode = os.waitstatus_to_exitcode(code)
        return Ran(self.child.returncode, usage.ru_utime + usage.ru_stime, usage.ru_maxrss / 1024)

    def poll(self):
        ran = self.ran(os.WNOHANG)
        return self.kill() if ran is None and self.end and time.monotonic() > self.end else ran


def drive(works, count, tick=lambda running: None):
    """Does works side by side, with at most `count` programs at once.

    A work is a generator. It yields what Run takes, a program at a time, and is sent what that gave. `tick` is called with
    the runs and their works, again and again. Where anything is raised, all programs are ended first.
    """
    waiting, running = iter(works), {}

    def go_on(work, ran=None):
        try:
            run = Run(*work.send(ran))
        except StopIteration:
            return
        running[run] = work

    try:
        is_more = True
        while running or is_more:
            while is_more and len(running) < count:
                work = next(waiting, None)
                is_more = work is not None
                if is_more:
                    go_on(work)
            select.select([it.handle for it in running], [], [], 0.2)
            for run in list(running):
                ran = run.poll()
                if ran is not None:
                    go_on(running.pop(run), ran)
            tick(running)
    finally:
        for run in running:
            run.kill()


def one(words, out, limit=None):
    """Runs one program, and returns what that gave."""
    gave = []

    def work():
        gave.append((yield words, out, limit))

    drive([work()], 1)
    return gave[0]


def set_up():
    """Asks for a stack without limit, as ./run does, and makes an interruption of each signal that ends a program."""
    most = resource.getrlimit(resource.RLIMIT_STACK)[1]
    resource.setrlimit(resource.RLIMIT_STACK, (most, most))

    def interrupt(number, frame):
        raise KeyboardInterrupt

    for it in (signal.SIGTERM, signal.SIGHUP):
        signal.signal(it, interrupt)


def alloyc_of(named):
    """Returns the path of alloyc: the one that is named, or the one that ./run built, or that of this package, or of the path."""
    near = [it for it in (f"{TOP}/crates/alloyc/out/alloyc", f"{TOP}/../../bin/alloyc") if os.path.isfile(it)]
    found = shutil.which(named or [*near, "alloyc"][0])
    if not found:
        sys.exit(f"{os.path.basename(sys.argv[0])}: no program {named or 'alloyc'}: ./run --build makes it, or --alloyc names another")
    return os.path.abspath(found)


def cut(name, clauses, proof):
    """Cuts the answer in a file into its parts: returns the answer part, and writes clauses and proof where there are such."""
    answer, parts = [], iter([(b"clauses\n", clauses), (b"refutation\n", proof)])
    head, to = next(parts)
    into = None
    with open(name, "rb") as lines:
        for line in lines:
            if line == head or (head == b"refutation\n" and line == b"derivation\n"):
                if into:
                    into.close()
                into = open(to, "wb")
                head, to = next(parts, (None, None))
            elif into is None:
                answer.append(line)
            elif head or line != b"end\n":
                into.write(line)
    if into:
        into.close()
    return b"".join(answer)
