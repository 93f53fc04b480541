#!/usr/bin/env python3
"""Tries how .ci/run adds up what its parts print, with a stand-in for make (`make ci-test`).

Each part passes, fails, skips something, or prints nothing. The last lines and the status must be
those of the table. At last, packages are missing that can't be installed. The gate is tried on
lines as `rt ci` prints them.
"""
import contextlib
import io
import os
import subprocess
import sys
import tempfile
from pathlib import Path

from cases import TOP
import gate
from results import report

# make prints the text of the target that is its second argument, and ends with the status there.
# dpkg knows all packages, or none, which then can't be installed.
STANDING_IN = {
    "make": '#!/bin/sh\ncat "$0-$2"\nexit "$(cat "$0-$2-status")"\n',
    "dpkg": '#!/bin/sh\n[ ! -e "$0-none" ]\n',
    "apt-get": "#!/bin/sh\nexit 100\n",
    "sudo": "#!/bin/sh\nexit 1\n",
}

# What the parts print: named counts add up, and one without a name is the sum of those before it.
PASSING = {
    "test": "test: 2 passed, 0 failed\n",
    "check": "gate: ud_text is proved\n73 passed, 0 failed\n",
    "edits": "edits-test: 1 passed, 0 failed\nedits: 210 passed, 0 failed\n",
    "around": "cases: 290 passed, 0 failed\nexamples of a page: 9 passed, 0 failed\n"
    "299 passed, 0 failed\n",
}
LIMIT = "tree-test: skipped: overlays: none can be mounted here"
TOOL = "manuals: skipped: scripts: shellcheck is not installed"
FILE = "faults: skipped: the table: test_memory is not built"
SUMMED = f"a: 1 passed, 0 failed\n{LIMIT}\n  {LIMIT}\n1 passed, 0 failed, 1 skipped\n"
FAILS = ", which counts as failed"

# What is tried, the parts that are others, each with its text and status, and the last lines.
RUNS = [
    ("all pass", {}, ["585 passed, 0 failed"]),
    ("a target fails", {"around": ("299 passed, 0 failed\n", 2)},
     ["around failed; not run: none", "585 passed, 1 failed"]),
    ("a target fails in the middle", {"check": ("70 passed, 3 failed\n", 1)},
     ["check failed; not run: edits, around", "72 passed, 3 failed"]),
    ("a target fails at once", {"test": ("", 2)},
     ["test failed; not run: check, edits, around", "0 passed, 1 failed"]),
    ("a target fails after a part that passes", {"edits": ("edits-test: 1 passed, 0 failed\n", 1)},
     ["edits failed; not run: around", "76 passed, 1 failed"]),
    ("a failed test with status 0", {"edits": ("edits: 9 passed, 1 failed\n", 0)},
     ["edits failed; not run: around", "84 passed, 1 failed"]),
    ("nothing is printed", {"check": ("all is well\n", 0)},
     ["check failed; not run: edits, around", "2 passed, 1 failed"]),
    ("what the machine can't do", {"around": (f"{LIMIT}\n{LIMIT}\n1 passed, 0 failed\n", 0)},
     [f"  {LIMIT}", "287 passed, 0 failed, 1 skipped"]),
    ("a sum with what is skipped", {"around": (SUMMED, 0)},
     [f"  {LIMIT}", "287 passed, 0 failed, 1 skipped"]),
    ("something is skipped alone", {"around": (f"{LIMIT}\n", 0)},
     [f"  {LIMIT}", "286 passed, 0 failed, 1 skipped"]),
    ("a tool is missing", {"test": (f"{TOOL}\n", 0)},
     [f"  {TOOL}{FAILS}", "583 passed, 1 failed"]),
    ("a file isn't built", {"test": (f"{LIMIT}\n{FILE}\ntest: 2 passed, 0 failed\n", 0)},
     [f"  {LIMIT}", f"  {FILE}{FAILS}", "585 passed, 1 failed, 1 skipped"]),
]

# What `rt ci` prints of edits, its status, and how the gate ends.
REFUSED = "rt: must-fail ud_model/a.edit: refused, as it must be: src/a.rt:1:1: it is not proved\n"
UNREAD = "must-fail ud_model/b.edit: BAD EDIT: the prover cannot read the edited text\n"
MISNAMED = "crates/ud_laws/must-fail/c.txt: BAD EDIT: an edit stands right in must-fail/\n"
GATES = [
    ("all is proved", f"{REFUSED}34 passed, 0 failed\n", 0, f"{REFUSED}34 passed, 0 failed\n", 0),
    ("something isn't proved", "33 passed, 1 failed\n", 1, "33 passed, 1 failed\n", 1),
    ("bad edits", f"rt: {UNREAD}rt: {MISNAMED}{REFUSED}34 passed, 0 failed\n", 0,
     f"rt: {UNREAD}rt: {MISNAMED}{REFUSED}gate: {UNREAD}gate: {MISNAMED}34 passed, 2 failed\n", 1),
    ("it is killed", REFUSED, -9, f"{REFUSED}0 passed, 1 failed\n", -9),
]


def gate_results():
    """Yields whether the gate ends as it must, after each run of `rt ci`."""
    for what, given, status, wanted, ends_with in GATES:
        with contextlib.redirect_stdout(io.StringIO()) as said:
            found = gate.conclude(*gate.show(io.StringIO(given), io.StringIO()), status)
        is_right = (said.getvalue(), found) == (wanted, ends_with)
        if not is_right:
            print(f"ci-test: the gate: {what}: status {found}", said.getvalue(), sep="\n")
        yield is_right


def ends(command, top, parts):
    """Runs a command with parts that print these texts. Returns its last lines and the status."""
    for target, text in PASSING.items():
        text, status = parts.get(target, (text, 0))
        Path(f"{top}/make-{target}").write_bytes(text.encode() + b"\xff\n")
        Path(f"{top}/make-{target}-status").write_text(f"{status}\n", encoding="utf-8")
    env = {**os.environ, "MAKE": f"{top}/make", "PATH": f"{top}:{os.environ['PATH']}"}
    done = subprocess.run(command, cwd=TOP, env=env, stdout=subprocess.PIPE, check=False)
    return done.stdout.decode(errors="replace").rstrip("\n").split("\n"), done.returncode


def results(top):
    """Yields whether each run ends as it must."""
    for name, text in STANDING_IN.items():
        Path(top, name).write_text(text, encoding="utf-8")
        Path(top, name).chmod(0o755)
    for what, parts, wanted in RUNS:
        lines, status = ends([".ci/run"], top, parts)
        is_right = lines[-len(wanted) :] == wanted and status == ("0 failed" not in wanted[-1])
        # The line before them is of a part.
        is_right = is_right and lines[-len(wanted) - 1] == "\N{REPLACEMENT CHARACTER}"
        if not is_right:
            print(f"ci-test: {what}: status {status}", *lines, sep="\n")
        yield is_right
    # Outside of .ci/run, a missing tool fails nothing.
    lines, status = ends(["tools/results.py", "test"], top, {"test": (f"{TOOL}\n", 0)})
    yield (lines[-2:], status) == ([f"  {TOOL}", "0 passed, 0 failed, 1 skipped"], 0)
    Path(f"{top}/dpkg-none").touch()
    lines, status = ends([".ci/run"], top, {})
    yield lines == ["0 passed, 1 failed"] and status != 0


def main():
    with tempfile.TemporaryDirectory(prefix="ci-control-") as top:
        found = [*gate_results(), *results(top)]
    return 0 if report("ci-test", found.count(True), found.count(False)) else 1


sys.exit(main())
