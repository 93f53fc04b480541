#!/usr/bin/env python3
"""Prints what a reader of a statement has to read: each spec file that it rests on.

    tools/reading.py [FILE ..]     files of specs, or sources with contracts; by default
                                   Answer.antt of ud_model: the answer of the tool
    tools/reading.py --check PAGE  whether the rows of a page that end in `FILE` | N files, M lines
                                   have the numbers of this tree

Prints the files with their lines, each after those that it uses. The types of the code that a file
uses, such as settings and verdicts, aren't counted.
"""
import os
import re
import sys

from files import TOP, text_of

ROW = re.compile(r"`([^`]+)` \| (\d+ files, [\d,]+ lines) \|$", re.MULTILINE)
IMPORT = re.compile(r"^\s*(?:ghost )?use Rattle\.(\w+)\.specs\.([\w.]+?)\.\{", re.MULTILINE)


def path_of(crate, module):
    """Returns the file of a module, or of the nearest module around it that has one."""
    path = f"crates/{crate}/specs/{module.replace('.', '/')}.antt"
    if module and not os.path.isfile(f"{TOP}/{path}"):
        return path_of(crate, module.rpartition(".")[0])
    return module and path


def read_all(paths):
    """Returns the lines of each file that some files rest on, each after those that it uses."""
    lines_of, left = {}, list(reversed(paths))
    while left:
        text = text_of(f"{TOP}/{left[-1]}")
        used = [path_of(*it) for it in IMPORT.findall(text)]
        unread = [it for it in used if it and it not in lines_of and it not in left]
        left += unread[:1]
        if not unread:
            lines_of[left.pop()] = text.count("\n")
    return lines_of


def check(page):
    """Prints each number of a page that isn't that of this tree. Returns whether all are."""
    right, rows = True, ROW.findall(text_of(page))
    for path, written in rows:
        lines_of = read_all([path])
        found = f"{len(lines_of)} files, {sum(lines_of.values()):,} lines"
        if found != written:
            print(f"{page}: {path} rests on {found}, and not on {written}")
            right = False
    return right and rows != []


if sys.argv[1:2] == ["--check"]:
    sys.exit(not check(sys.argv[2]))
files = read_all(sys.argv[1:] or ["crates/ud_model/specs/answer/Answer.antt"])
for file, lines in files.items():
    print(f"{lines:6,} {file}")
print(f"{sum(files.values()):6,} in {len(files)} files")
