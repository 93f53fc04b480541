#!/usr/bin/env python3
"""Runs targets of the Makefile, up to the first one that fails, and adds up what they print.

    tools/results.py [--complete] TARGET ..     MAKE is the command make

A test prints a line for each thing that it skips, and at its end one of what it tried:

    NAME: skipped: WHAT: WHY
    NAME: 12 passed, 0 failed

Python's tests do so by this module, and those of bash by tests/checks.sh. A line "12 passed, 0
failed" without a name is the sum of those before it in a target.

The last lines are what was skipped, what wasn't run, and the sum: "N passed, M failed", and ", K
skipped" if something was. A target that fails counts as one failed test at least, and so does one
that prints neither line. With --complete, so does what was skipped for want of something that could
be installed or built. The status is 0 if nothing failed.
"""
import os
import re
import subprocess
import sys

COUNT = re.compile(r"(?:(\S[^:]*): )?(\d+) passed, (\d+) failed(?:, \d+ skipped)?")
SKIPPED = re.compile(r"\S[^:]*: skipped: .+")
LACKING = re.compile(r".* is not (installed|built)")


def skip(name, what, why):
    """Prints that a test skips something, since this machine can't do it."""
    print(f"{name}: skipped: {what}: {why}", flush=True)


def lacks(name, tool, what):
    """Prints that a test skips something for want of a tool, which `.ci/run` installs."""
    skip(name, what, f"{tool} is not installed")


def report(name, passed, failed):
    """Prints how many checks of a test passed and failed. Returns whether some did, and all."""
    print(f"{name}: {passed} passed, {failed} failed", flush=True)
    return passed > 0 and failed == 0


class Sum:
    """What a target printed: how many tests passed and failed, and the lines on what is skipped."""

    def __init__(self):
        self.passed, self.failed, self.skipped = 0, 0, {}

    def add(self, line):
        count = COUNT.fullmatch(line)
        if count:
            before = (self.passed, self.failed) if count[1] else (0, 0)
            self.passed, self.failed = before[0] + int(count[2]), before[1] + int(count[3])
        elif SKIPPED.fullmatch(line):
            self.skipped[line] = None


def run(target):
    """Runs a target, and returns the sum of the lines that it prints."""
    found, make = Sum(), [os.environ.get("MAKE", "make"), "--no-print-directory", target]
    with subprocess.Popen(make, stdout=subprocess.PIPE) as process:
        try:
            for line in process.stdout:
                sys.stdout.buffer.write(line)
                sys.stdout.flush()
                found.add(line.decode(errors="replace").rstrip("\n"))
        finally:
            if sys.exc_info()[0]:
                process.terminate()
    if process.returncode or not (found.passed or found.failed or found.skipped):
        found.failed = max(found.failed, 1)
    return found


def main():
    is_complete = sys.argv[1:2] == ["--complete"]
    left, passed, failed, skipped = sys.argv[1 + is_complete :], 0, 0, {}
    if not left:
        return __doc__
    while left and not failed:
        target, *left = left
        found = run(target)
        passed, failed = passed + found.passed, failed + found.failed
        skipped |= found.skipped
    if failed:
        print(f"{target} failed; not run: {', '.join(left) or 'none'}")
    lacking = [it for it in skipped if is_complete and LACKING.fullmatch(it)]
    for line in skipped:
        print(f"  {line}{', which counts as failed' * (line in lacking)}")
    failed, others = failed + len(lacking), len(skipped) - len(lacking)
    print(f"{passed} passed, {failed} failed{f', {others} skipped' * (others > 0)}", flush=True)
    return 1 if failed else 0


if __name__ == "__main__":
    from prove import end_by_signals

    end_by_signals()
    sys.exit(main())
