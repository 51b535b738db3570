"""Solvers that are kept running: problems go to their standard input, one after the other."""
import statistics
import subprocess
import sys
import threading
import time

WORDS = {"z3": ["z3", "-in", "-smt2"], "cvc5": ["cvc5", "--incremental", "--lang", "smt2"]}


class Solver:
    """A solver's process. It is ended when it has had so many seconds in all."""

    def __init__(self, words, logic, seconds):
        self.child = subprocess.Popen(words, stdin=subprocess.PIPE, stdout=subprocess.PIPE, stderr=subprocess.STDOUT, text=True)
        self.timer = threading.Timer(seconds, self.child.kill)
        self.timer.start()
        self.write(f"(set-logic {logic})\n")

    def __enter__(self):
        return self

    def __exit__(self, *_):
        self.timer.cancel()
        self.child.kill()
        self.child.communicate()

    def write(self, text):
        self.child.stdin.write(text)
        self.child.stdin.flush()

    def check(self, lines):
        """What the solver says, and the seconds from the problem's first byte to that. Nothing where it was ended before."""
        text = "\n".join(["(push 1)", *lines, "(check-sat)\n"])
        begun = time.perf_counter()
        try:
            self.write(text)
            said = self.child.stdout.readline().strip()
            ended = time.perf_counter()
            self.write("(pop 1)\n")
        except BrokenPipeError:
            said = ""
        if said not in ("sat", "unsat", "unknown", ""):
            sys.exit(f"solver: {said}")
        return (said, ended - begun) if said else None


def measure(words, logic, lines, checks, seconds):
    """What a warm solver says of the problem, and the least and the median time of at most so many checks, in so many seconds
    together. The first check isn't counted. Nothing where none ended."""
    with Solver(words, logic, seconds) as solver:
        first = solver.check(lines)
        if first is None:
            return None
        count = max(3, min(checks, int(seconds / 2 / first[1])))
        found = [it for it in (solver.check(lines) for _ in range(count)) if it]
    times = [it for _, it in found]
    return (first[0], min(times), statistics.median(times)) if times else None
