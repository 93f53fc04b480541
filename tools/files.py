"""Which files belong to this repository, with git and without, and what is in them."""
import os
import re
import shutil
import subprocess

TOP = os.path.dirname(os.path.dirname(os.path.realpath(__file__)))


def text_of(path, otherwise=None):
    """Returns the text of a file. If there is none, returns `otherwise`, if that is given."""
    if otherwise is not None and not os.path.isfile(path):
        return otherwise
    with open(path, encoding="utf-8", errors="replace") as it:
        return it.read()


def without_code(page):
    """Returns a page with an empty line for each line of its blocks of code."""
    block = re.compile(r"^ *```.*?^ *```$", re.MULTILINE | re.DOTALL)
    return block.sub(lambda found: "\n" * found[0].count("\n"), page)


def tracked():
    """Returns the files that git tracks and that are there. In a tarball: all files."""
    if os.path.exists(f"{TOP}/.git") and shutil.which("git"):
        listed = subprocess.check_output(["git", "ls-files"], cwd=TOP, text=True).split()
        return [it for it in listed if os.path.exists(f"{TOP}/{it}")]
    found = []
    for directory, below, names in os.walk(TOP):
        others = {".git", "out", "__pycache__", "build", "release"}
        below[:] = [it for it in below if it not in others and not it.startswith(".prove-")]
        own = [it for it in names if not it.startswith("libunifdef.")]
        found += [os.path.relpath(os.path.join(directory, it), TOP) for it in own]
    return sorted(found)
