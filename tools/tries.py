"""Counts what was tried, and runs the tools for it: what tools/test and its parts share."""
import os
import subprocess
import sys

TOOLS = os.path.dirname(os.path.abspath(__file__))
ROOT = os.path.dirname(TOOLS)


class Tries:
    """counts what was tried and says what is not as it should be"""

    def __init__(self):
        self.tried, self.wrong = 0, 0

    def same(self, what, got, wanted):
        self.tried += 1
        if got != wanted:
            self.wrong += 1
            print('%s: %.300r in place of %.300r' % (what, got, wanted))

    def true(self, what, holds):
        self.same(what, bool(holds), True)

    def holds(self, what, text, part):
        """a text has a part in it"""
        self.tried += 1
        if part not in text:
            self.wrong += 1
            print('%s: %r is not in %.600r' % (what, part, text))

    def none(self, lines):
        """there is nothing to say"""
        self.tried += 1
        self.wrong += len(lines)
        for line in lines:
            print(line)


def run(*words, text=None, env=None, cwd=ROOT):
    """the status, the output and the errors of a tool"""
    done = subprocess.run([sys.executable, '-B', *words], cwd=cwd, input=text, capture_output=True, text=True, check=False, env={**os.environ, **(env or {})})
    return done.returncode, done.stdout, done.stderr
