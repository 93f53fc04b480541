#!/usr/bin/env python3
"""Runs the merge gate, `rt ci`, and says what has ended (`make check`).

    tools/gate.py [--anew]     RT is Rattle's command, RT_JOBS how many checks run side by side

With --anew, all is proved from nothing. Else what an earlier gate on this machine proved or refused
of the same files is believed. Without RT_JOBS, one check runs for each processor, as far as there
is memory for it. All lines of `rt ci` go to gate.log. What a crate's check says is printed only if
the crate isn't proved. The last line is that of `rt ci`, and so is the status. But an edit that
can't be applied or compiled, which fails nothing there, counts as failed, and is named before it.

`rt ci` runs in a copy of the crates, without the edits that tools/edits.py tries. The programs that
it builds are copied back, with their times; if it succeeds, also to ./unifdef and ./unifdef-tree.
"""
import os
import re
import shutil
import subprocess
import sys
import tempfile

from files import text_of
from prove import CAUGHT, HERE, RT, end_by_signals, free_memory, libraries, processors, say, take

# The memory in bytes of a check. `rt ci` plans up to 7 GB for one, and lets processors wait.
CHECK = 3_000_000_000

PROGRAMS = {"unifdef_cli": "unifdef", "unifdef_tree_cli": "unifdef-tree"}

# The last line of `rt ci`, and the file of all its lines.
COUNT, LOG = re.compile(r"(\d+) passed, (\d+) failed$"), f"{HERE}/gate.log"


def is_of_gate(file):
    """Returns whether the gate tries the edit in this file: one of a definition of ud_model, or one
    of a crate of laws itself, since `rt ci` edits one crate alone."""
    text = text_of(file)
    if "_laws/must-fail/" in file:
        return not text.startswith("file: ../")
    return "/ud_model/must-fail/" in file and text.startswith("file: specs/")


def copy_crates(top):
    """Copies the crates to a directory, with the edits that the gate tries. `rt ci` takes it as the
    top of a repository, since it contains one of the name `.git`."""

    def ignored(directory, names):
        edits = (it for it in names if it.endswith(".edit"))
        others = (it for it in edits if not is_of_gate(f"{directory}/{it}"))
        return {"out", "must-fail-second", *others}

    os.mkdir(f"{top}/.git")
    for it in ("HANDLES", "crates.txt"):
        shutil.copy2(f"{HERE}/{it}", top)
    shutil.copytree(f"{HERE}/crates", f"{top}/crates", ignore=ignored)


def take_programs(top, status):
    for crate in libraries():
        made = f"{top}/crates/{crate}/out/{crate}"
        if os.path.exists(made):
            take(made, f"{HERE}/crates/{crate}/out/{crate}")
            if crate in PROGRAMS and not status:
                take(made, f"{HERE}/{PROGRAMS[crate]}")


def show(lines, log):
    """Prints the lines of `rt ci` as they come, and writes them to the log. Those of a crate are
    kept until it is proved or not, and what is proved goes to the error stream, with the time.
    Returns the last line, which isn't printed, and those about bad edits."""
    block, last, bad = [], "", []
    for line in lines:
        print(line, end="", file=log, flush=True)
        proved = re.match(r"rt: \w+(?:: its tests are)? (proved|NOT PROVED)", line)
        bad += [line] if re.match(r"rt: \S.*: BAD EDIT: ", line) else []
        if line.startswith("== "):
            block = [line]
        elif block and not proved:
            block.append(line)
        elif proved and proved[1] == "proved":
            say("gate", line.removeprefix("rt: ").rstrip())
            block = []
        elif COUNT.match(line):
            last = line
        else:
            print(*block, line, sep="", end="", flush=True)
            block = []
    print(*block, sep="", end="", flush=True)
    return last, bad


def conclude(last, bad, status):
    """Prints bad edits, and the last line with each of them as a failure. Returns the status."""
    passed, failed = map(int, COUNT.match(last).groups() if last else (0, 0))
    failed = max(failed, status != 0) + len(bad)
    for line in bad:
        print(f"gate: {line.removeprefix('rt: ')}", end="")
    print(f"{passed} passed, {failed} failed", flush=True)
    return status or int(failed > 0)


def jobs():
    given = int(os.environ.get("RT_JOBS") or 0)
    return given or max(min(processors(), free_memory() // CHECK), 1)


def run(top, lanes, flags):
    say("gate", f"{lanes} checks side by side; all lines go to gate.log")
    how = {"cwd": top, "env": {**os.environ, "RT_JOBS": str(lanes)}, **CAUGHT}
    with open(LOG, "w", encoding="utf-8") as log, subprocess.Popen([RT, "ci", *flags], **how) as ci:
        try:
            last, bad = show(ci.stdout, log)
        finally:
            if ci.poll() is None and sys.exc_info()[0]:
                ci.terminate()
    return conclude(last, bad, ci.returncode)


def main():
    flags = sys.argv[1:]
    if flags not in ([], ["--anew"]):
        sys.exit(__doc__)
    with tempfile.TemporaryDirectory(prefix=".gate-", dir=HERE) as top:
        copy_crates(top)
        status = run(top, jobs(), flags)
        take_programs(top, status)
    return status


if __name__ == "__main__":
    end_by_signals()
    sys.exit(main())
