#!/usr/bin/env python3
"""Runs the cases without a proof (`make test`), or every test (`make test-all`).

    tests/quick.py               each worked case once
    tests/quick.py --all         all cases in several ways, the tests, and each stored run
    tests/quick.py NAME ..       those of --all that have these names; RT is Rattle's command

The program that tools/unproved.sh built runs each case without lines about its streams. The crate
test_runner runs the others over memory, and with --all every case. Both stop at a bad index, an
overflow and a bad access. What a task printed is shown only if it failed. None is bounded by the
clock, but one that hangs ends after an hour.
"""
import concurrent.futures
import os
import re
import subprocess
import sys
import time
from pathlib import Path
from typing import NamedTuple, Optional

from cases import TOP, cases_in
from files import text_of
from prove import RT, Commands, end_by_signals, processors, say
from results import report

RUNNER = TOP / "crates" / "test_runner"
TRY = [RT, "try", "--seconds", "3600"]
# Those that take longest come first, so that none of them ends alone.
FIRST = ["cases", "test_runner", "test_text", "test_sections", "test_engine"]
COMMANDS = Commands()


class Task(NamedTuple):
    """A command, with the status and the output that it must have. Without an output, any may."""

    name: str
    directory: Path
    words: list
    status: int = 0
    output: Optional[bytes] = None

    def ends_well(self):
        """Runs the task, prints how it ended, and returns whether it passed."""
        begin, given = time.monotonic(), self.directory / "stdin"
        how = {"cwd": self.directory, "stdout": subprocess.PIPE, "stderr": subprocess.PIPE}
        with open(given if given.exists() else os.devnull, "rb") as source:
            run = COMMANDS.start(self.words, stdin=source, **how)
            out, err = run.communicate()
        if COMMANDS.is_stopped:
            return False
        is_right = run.returncode == self.status and self.output in (None, out)
        told = "ok" if is_right else f"status {run.returncode}, or another output"
        say("test", f"{self.name:<17} {time.monotonic() - begin:4.0f} s  {told}")
        if not is_right:
            sys.stdout.buffer.write(out + err)
            sys.stdout.flush()
        return is_right


def stored_run(directory, arguments):
    """Returns the run of a program with a file `stdout`."""
    status = int(text_of(f"{directory}/status", "0"))
    output = (directory / "stdout").read_bytes()
    return Task(directory.name, directory, [*TRY, "--", *arguments], status, output)


def tasks(is_all):
    every = [it for it in cases_in() if is_all or it.has_streams]
    yield Task("cases", TOP, ["tests/cases.py", "crates/unifdef_cli/out/unproved"])
    yield stored_run(RUNNER, [os.path.relpath(it.path.resolve(), RUNNER) for it in every])
    for directory in sorted((TOP / "crates").iterdir()) if is_all else []:
        texts = (text_of(it) for it in directory.glob("src/**/*.rt"))
        if any(re.search(r"^\s*#\[test\]", it, re.M) for it in texts):
            yield Task(directory.name, directory, [*TRY, "--test"])
        if (directory / "stdout").exists() and directory != RUNNER:
            yield stored_run(directory, text_of(directory / "args", "").splitlines())


def main():
    names = [it for it in sys.argv[1:] if it != "--all"]
    todo = [it for it in tasks(len(sys.argv) > 1) if not names or it.name in names]
    todo.sort(key=lambda it: FIRST.index(it.name) if it.name in FIRST else len(FIRST))
    end_by_signals()
    with concurrent.futures.ThreadPoolExecutor(processors()) as pool:
        try:
            passed = list(pool.map(Task.ends_well, todo))
        finally:
            COMMANDS.stop()
    say("test", "nothing is proved by this")
    return 0 if report("test", sum(passed), len(todo) - sum(passed)) else 1


sys.exit(main())
