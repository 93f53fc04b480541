"""Runs two unifdefs over the C files of a tree and compares what they print, byte for byte.

trees.py PROGRAM RELEASED TREE ARGUMENT..: prints the numbers of files and bytes, the faults of each
program, and how many files have the same output and status. The others are counted by class, which
depends on the outcomes alone (README.md has the causes). Files of class `other` are named.
"""

import os
import re
import subprocess
import sys
from collections import Counter
from concurrent.futures import ThreadPoolExecutor
from pathlib import Path


def outcome(program, path):
    """Returns the output and the status, and the fault without file and line, if there is one."""
    command = [program, *sys.argv[4:], path]
    run = subprocess.run(command, stdin=subprocess.DEVNULL, capture_output=True)
    first = run.stderr.decode("utf-8", "replace").split("\n")[0]
    fault = re.sub(r" \(.*", "", first.split(": ")[-1])
    return run.stdout, run.returncode, None if run.returncode in (0, 1) else fault


def class_of(ours, theirs):
    """Returns the class of two outcomes, or None if they are the same."""
    (output, status, fault), (other, other_status, other_fault) = ours, theirs
    if (output, status) == (other, other_status):
        return None
    if fault and other_fault:
        return f"both: {fault}; {other_fault}"
    if fault or other_fault:
        return f"{'here' if fault else 'there'} alone: {fault or other_fault}"
    if other == output + b"\n":
        return "there a newline after the last line"
    pairs = zip(output.split(b"\n"), other.split(b"\n"))
    line = next((one for one, another in pairs if one != another), b"")
    if re.match(rb"\s*#\s*(el)?if\b.*(\b\d+\W*(&&|\|\|)|(&&|\|\|)[\s(]*\d+)", line):
        return "there a constant operand decides"
    return "other"


def main():
    *programs, tree = sys.argv[1:4]
    every = sorted(Path(tree).rglob("*.[ch]"))
    paths = [it for it in every if it.is_file() and not it.is_symlink()]

    def both(path):
        ours, theirs = (outcome(program, path) for program in programs)
        return path, ours[1:], theirs[1:], class_of(ours, theirs)

    with ThreadPoolExecutor(os.cpu_count()) as pool:
        outcomes = list(pool.map(both, paths))
    print(f"{tree}: {len(paths)} files, {sum(it.stat().st_size for it in paths)} bytes")
    for name, found in zip(("here", "there"), list(zip(*outcomes))[1:3]):
        faults = Counter(fault for _, fault in found if fault)
        changed = sum(status == 1 for status, _ in found)
        print(f"  {name}: {changed} files changed, {sum(faults.values())} with a fault")
        for fault, count in faults.most_common():
            print(f"    {count:6} {fault}")
    classes = Counter(kind for *_, kind in outcomes if kind)
    for path, *_, kind in outcomes:
        if kind == "other":
            print(f"  other: {path}")
    print(f"  the same output and status: {len(paths) - sum(classes.values())} files; others:")
    for kind, count in classes.most_common():
        print(f"    {count:6} {kind}")


main()
