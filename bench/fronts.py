"""Compares a program with a reference on parts of the files of a tree, under random arguments.

fronts.py PROGRAM REFERENCE TREE CASES SEED: tries CASES cases from SEED on. Their output, message
and status must be the same. PROGRAM must end in time, by itself, with status 0, 1 or 2. It runs
with a stack of 1 MiB. The input of a mismatch is kept in the file `mismatch-SEED.c`.
"""

import os
import random
import re
import subprocess
import sys
from concurrent.futures import ThreadPoolExecutor
from pathlib import Path

from selects import report

HANG = 3600
FLAGS = ["-k", "-K", "-b", "-l", "-c", "-n", "-s", "-S", "-t", "-x1", "-x2", "-kK", "-bc", "-cn"]
VALUES = ["", "=0", "=1", "=2", "=201112L", "=0x10", "=", "=A", "=-1", "=1u"]
CONDITION = re.compile(rb"^[ \t]*#[ \t]*(?:if|ifdef|ifndef|elif|elifdef|elifndef)\b(.*)$", re.M)
NAME = re.compile(rb"[A-Za-z_][A-Za-z_0-9]*")


def part_of(dice, text):
    """Returns the text, a prefix of it, or a part from its middle."""
    kind = dice.randrange(8)
    if kind == 0 or not text:
        return text
    end = dice.randrange(len(text) + 1)
    return text[0 if kind < 6 else dice.randrange(end + 1) : end]


def arguments_for(dice, text):
    """Returns some flags, and options for some names of the text's conditions."""
    names = sorted(set(NAME.findall(b" ".join(CONDITION.findall(text)))) - {b"defined"})
    arguments = dice.sample(FLAGS, dice.choice([0, 0, 0, 1, 1, 2]))
    for name in dice.sample(names, min(len(names), dice.choice([0, 1, 2, 4, 8]))):
        option = "-i" if dice.randrange(8) == 0 else "-"
        undefined = dice.randrange(2)
        option += f"U{name.decode()}" if undefined else f"D{name.decode()}{dice.choice(VALUES)}"
        arguments.append(option)
    dice.shuffle(arguments)
    return arguments


def outcome(program, arguments, text, before=()):
    """Returns a program's output, message and status, which is None if it doesn't end in time."""
    how = {"input": text, "capture_output": True, "timeout": HANG}
    try:
        run = subprocess.run([*before, program, *arguments], **how)
    except subprocess.TimeoutExpired:
        return b"", b"", None
    return run.stdout, run.stderr, run.returncode


def compare(job):
    path, seed, program, reference = job
    dice = random.Random(seed)
    text = part_of(dice, path.read_bytes())
    arguments = arguments_for(dice, text)
    ours = outcome(program, arguments, text, ["prlimit", f"--stack={1024 * 1024}"])
    theirs = outcome(reference, ["reference", *arguments], text)
    if ours == theirs and ours[2] in (0, 1, 2):
        return "the same", ""
    Path(f"mismatch-{seed}.c").write_bytes(text)
    of = f"case {seed}, of {path}: arguments {arguments}, input in mismatch-{seed}.c"
    for name, (output, message, status) in (("program", ours), ("reference", theirs)):
        of += f"\n  the {name}: status {status}, {len(output)} bytes, {message!r}"
    return "wrong", of


def main():
    program, reference, tree = sys.argv[1:4]
    cases, seed = map(int, sys.argv[4:6])
    paths = [it for it in sorted(Path(tree).rglob("*")) if it.is_file() and not it.is_symlink()]
    todo = [(paths[it % len(paths)], it, program, reference) for it in range(seed, seed + cases)]
    with ThreadPoolExecutor(os.cpu_count()) as pool:
        sys.exit(report(pool.map(compare, todo), f"cases of {len(paths)} files")[1])


main()
