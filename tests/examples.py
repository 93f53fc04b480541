#!/usr/bin/env python3
"""Runs the examples of pages and of the manual with ./unifdef, and compares what they print.

    tests/examples.py [PAGE ..]     README.md, docs/EXAMPLES.md, docs/LIBRARY.md and docs/unifdef.1
                                    by default

An example of a page is a block that begins with ```console: commands after "$ ", with further lines
after "> ", and what each prints, on either stream. The commands run in order, in a directory of
their own with the programs. The rest of a block is skipped if a command needs a tool that isn't
there, or if the block begins with a header of the machine that is another one here.

Under OPTIONS of the manual, a line has the arguments, a colon, two spaces and the input; the line
after it has "gives:", the status and, after two spaces, the output. Under EXAMPLES there are
commands, each of which changes its text.

In docs/LIBRARY.md and the `///` and `//!` comments of all crates, the lines of a ```rust block must
be consecutive lines of a source of crates/test_examples, which is proved and run. Those of a
```text block, or of one without a language, must be consecutive lines of its stdout.
"""
import difflib
import os
import re
import shutil
import subprocess
import sys
import tempfile
from pathlib import Path

from cases import TOP, link_programs, run_in_bash, unescaped
from results import lacks, report, skip

PAGES = ["README.md", "docs/EXAMPLES.md", "docs/LIBRARY.md", "docs/unifdef.1"]
# The tools that may not be there, each with those that it calls.
TOOLS = {"cmake": "make cc"} | dict.fromkeys(("cc", "git", "make", "patch"), "")
BLOCK = re.compile(r"\n```(.*)((?s:.*?))(\n```(?=\n)|\Z)")
# What a command prints on either stream, as text.
BOTH = {"stderr": subprocess.STDOUT, "errors": "replace"}
OPTION = re.compile(r"^(-[^:\n]*):  (.*)\ngives: ([012])(?:  (.*))?$", re.MULTILINE)


class Examples:
    """The examples of a page, which are counted."""

    def __init__(self, page):
        self.page, self.right, self.wrong = page, 0, 0
        self.text = (TOP / page).read_text(encoding="utf-8")

    def compare(self, what, wanted, found):
        """Counts an example, and returns whether it prints what is written."""
        is_right = wanted == found
        self.right, self.wrong = self.right + is_right, self.wrong + (not is_right)
        if not is_right:
            texts = wanted.split("\n"), found.split("\n")
            differences = difflib.unified_diff(*texts, "written", "printed", lineterm="")
            print(f"{self.page}: {what}", *differences, sep="\n")
        return is_right

    def told(self):
        """Says how many examples are right. Returns whether all are, and there are some."""
        return report(f"examples of {self.page}", self.right, self.wrong)


def commands_in(block):
    """Yields each command of a block, and what is to come from it."""
    for part in re.split(r"^\$ ", block, flags=re.MULTILINE)[1:]:
        head, *lines = part.split("\n")
        while lines and lines[0].startswith("> "):
            head += "\n" + lines.pop(0)[2:]
        yield head, "\n".join(lines)


def run_block(examples, block):
    with tempfile.TemporaryDirectory() as work:
        top = place = Path(work, "directory")
        top.mkdir()
        link_programs(top)
        for number, (command, wanted) in enumerate(commands_in(block)):
            needed = [it for it in TOOLS if f" {it} " in f" {command}"]
            needed += [below for it in needed for below in TOOLS[it].split()]
            missing = [it for it in needed if not shutil.which(it)]
            if missing:
                first = command.partition("\n")[0]
                return lacks(examples.page, missing[0], f"'{first}' and what follows")
            found = run_in_bash(f"{command}\npwd > '{work}/at'", place, top, **BOTH).stdout
            place = Path(work, "at").read_text(encoding="utf-8").rstrip("\n")
            if not number and command.startswith("cat /usr/include/") and found != wanted:
                return skip(examples.page, command, "this machine has another header")
            if not examples.compare(command, wanted, found):
                return None


def run_page(examples):
    for block in re.findall(r"^```console\n(.*?)^```$", examples.text, re.MULTILINE | re.DOTALL):
        run_block(examples, block)
    return examples.told()


def run_manual(examples):
    text = examples.text.replace("\\e", "\\")
    options, rest = (text.partition(f"\n.Sh {it}\n")[2] for it in ("OPTIONS", "EXAMPLES"))
    with tempfile.TemporaryDirectory() as top:
        link_programs(Path(top))
        for words, given, status, output in OPTION.findall(options.partition("\n.Sh ")[0]):
            command = [TOP / "unifdef", *words.split()]
            done = subprocess.run(command, input=unescaped(given), capture_output=True, check=False)
            wanted = f"{status} {unescaped(output)}"
            examples.compare(f"{words}: {given}", wanted, f"{done.returncode} {done.stdout}")
        count = examples.right
        for block in re.findall(r"^\$ .*?(?=^\.Ed$)", rest.partition("\n.Sh ")[0], re.M | re.S):
            for command, wanted in commands_in(block):
                # The status is 0 if the pipe ends with another program.
                status = int(command.rpartition("| ")[2].startswith("unifdef "))
                done = run_in_bash(command, top, top, **BOTH)
                examples.compare(command, f"{status} {wanted}", f"{done.returncode} {done.stdout}")
    return examples.told() and count > 10 and examples.right > count


def stripped(text):
    return "\n" + "".join(f"{line.lstrip()}\n" for line in text.splitlines())


def quote(examples):
    """Looks for the code of the library's examples in the crate."""
    library = TOP / "crates" / "test_examples"
    code = "".join(stripped(it.read_text(encoding="utf-8")) for it in library.glob("src/**/*.rt"))
    printed = stripped((library / "stdout").read_text(encoding="utf-8"))
    pages = {examples.page: examples.text}
    for source in sorted(TOP.glob("crates/*/src/**/*.rt")):
        comments = re.findall(r"^\s*//[/!](.*)$", source.read_text(encoding="utf-8"), re.MULTILINE)
        pages[os.path.relpath(source, TOP)] = "\n".join(comments)
    in_page = 0
    for page, text in pages.items():
        # A block without an end is wrong, whatever its lines are.
        for language, block, end in BLOCK.findall(stripped(text)):
            if language != "sh":
                within = {"rust": code, "text": printed, "": printed}.get(language, "")
                is_there = end.strip() and block and f"{block}\n" in within
                examples.compare(f"{page}: not in {library.name}", "", "" if is_there else block)
        in_page = in_page or examples.right
    return examples.told() and examples.right > in_page > 0


KINDS = {"docs/LIBRARY.md": quote, "docs/unifdef.1": run_manual}


def main():
    for it in ("unifdef", "unifdef-tree"):
        if not os.access(TOP / it, os.X_OK):
            return f"examples: {it} is not there: run make {it}"
    return 0 if all([KINDS.get(it, run_page)(Examples(it)) for it in sys.argv[1:] or PAGES]) else 1


sys.exit(main())
