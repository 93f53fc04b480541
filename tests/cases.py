#!/usr/bin/env python3
"""Runs a built program on the case files, each in a process of its own.

    tests/cases.py [PROGRAM] [--case NAME ..]

PROGRAM is ./unifdef by default. NAME is a case file or a directory of them; without it, all cases
of crates/test_runner/data are run, whose README.md describes the files. A case with lines about its
streams is none of them, since these need a reader and a writer over memory: `make test` runs it.
"""

import argparse
import getopt
import os
import re
import subprocess
import sys
import tempfile
from concurrent.futures import ThreadPoolExecutor
from dataclasses import dataclass
from pathlib import Path
from typing import Iterable, Iterator, Optional

TOP = Path(__file__).resolve().parent.parent
sys.path.append(str(TOP / "tools"))

from results import report  # noqa: E402

DATA = TOP / "crates" / "test_runner" / "data"
# The seconds after which a program hangs. No answer depends on how fast it is.
HANG = 3600

# The forms of a line. What 2.10 does instead has that before it.
LINE = re.compile(
    r"#.*|try (?:cuts|failures|again|growths)|unifdef(?P<words>| .*)"
    r"|(?P<who>(?:2\.10)?) ?(?:(?P<copy>output is input)|status (?P<status>\d+)"
    r'|(?P<part>[<>!])(?: (?P<text>.*)|"(?P<literal>.*)"(?: \* (?P<times>\d+))?|))'
    r"|(?P<stream>(?:reads?|writes?|first flush|flush|calls) .*)"
)


class CaseError(ValueError):
    """A case file that can't be read, as FILE:LINE: REASON."""


@dataclass
class Answer:
    """What a program writes, and its exit status."""

    output: bytes = b""
    message: Optional[bytes] = b""  # None if it isn't compared.
    status: int = 0

    def matches(self, found: "Answer") -> bool:
        same = self.output == found.output and self.status == found.status
        return same and self.message in (None, found.message)

    def __str__(self) -> str:
        message = "" if self.message is None else f", message {shown(self.message)}"
        return f"status {self.status}, output {shown(self.output)}{message}"


@dataclass
class Case:
    """A case file. `released` is the answer of unifdef 2.10, if the file has lines about it."""

    path: Path
    sentence: str
    arguments: list[str]
    input: bytes
    answer: Answer
    released: Optional[Answer]
    has_streams: bool


def shown(text: bytes, most: int = 400) -> str:
    """Returns the first `most` bytes as a literal, and the length if there are more."""
    return f"{text!r}" if len(text) <= most else f"{text[:most]!r}.. ({len(text)} bytes)"


def unescaped(inside: str) -> bytes:
    """Returns the bytes for which the inside of a C string literal stands."""
    return inside.encode(errors="surrogateescape").decode("unicode_escape").encode("latin-1")


def read(path: Path) -> Case:
    """Reads a case file. What crates/test_runner checks of its form isn't checked again."""
    lines = path.read_bytes().decode(errors="surrogateescape").removesuffix("\n").split("\n")
    arguments, has_streams = None, False
    texts: dict[str, bytes] = {}  # By the first bytes of their lines.
    statuses: dict[str, int] = {}
    copied = []
    for number, line in enumerate(lines, 1):
        found = LINE.fullmatch(line)
        if not found or (number == 1 and not line.startswith("# ")):
            raise CaseError(f"{path}:{number}: unknown line {line!a}")
        who, has_streams = found["who"], has_streams or found["stream"] is not None
        if found["words"] is not None:
            words = re.findall(r'"([^"\\]*)"|([^\s"]+)', found["words"])
            arguments = ["".join(it) for it in words]
        elif found["copy"]:
            copied.append(who)
        elif found["status"]:
            statuses[who] = int(found["status"])
        elif found["part"]:
            added = ((found["text"] or "") + "\n").encode(errors="surrogateescape")
            if found["literal"] is not None:
                added = unescaped(found["literal"]) * int(found["times"] or 1)
            texts[who + found["part"]] = texts.get(who + found["part"], b"") + added
    if arguments is None:
        raise CaseError(f"{path}: no line begins with 'unifdef'")
    given = texts.get("<", b"")
    texts |= {f"{who}>": given for who in copied}
    answer = Answer(texts.get(">", b""), texts.get("!", b""), statuses.get("", 0))
    released = None
    if any(key.startswith("2.10") for key in (*texts, *statuses)):
        output, status = texts.get("2.10>", answer.output), statuses.get("2.10", answer.status)
        released = Answer(output, texts.get("2.10!"), status)
    return Case(path, lines[0][2:], arguments, given, answer, released, has_streams)


def cases_in(names: Iterable[Path] = (DATA,)) -> Iterator[Case]:
    """Yields the cases of these files, and of the files below these directories."""
    for name in names:
        for path in sorted(name.rglob("*.case")) if name.is_dir() else [name]:
            yield read(Path(os.path.relpath(path)))


def run(program: Path, case: Case) -> Answer:
    """Runs a program on the input of a case: its standard input, or the file of its operand."""
    try:
        operands = getopt.getopt(case.arguments, "bcD:i:KklnSstU:x:")[1]
    except getopt.GetoptError:
        operands = []  # No input is read then.
    how = {"capture_output": True, "timeout": HANG, "input": case.input}
    with tempfile.TemporaryDirectory() as directory:
        if operands and operands[0] not in ("", "-"):
            Path(directory, operands[0]).write_bytes(case.input)
            how["input"] = b""
        done = subprocess.run([str(program), *case.arguments], cwd=directory, **how)
    return Answer(done.stdout, done.stderr, done.returncode)


def run_in_bash(command: str, directory: Path, bin: Path, **how) -> subprocess.CompletedProcess:
    """Runs a command of bash in a directory, with the programs of another one."""
    env = {it: os.environ[it] for it in os.environ.keys() - {"MAKEFLAGS", "MAKELEVEL"}}
    env |= {"LC_ALL": "C", "PATH": f"{bin}:{env['PATH']}"}
    how |= {"cwd": directory, "env": env, "stdin": subprocess.DEVNULL, "stdout": subprocess.PIPE}
    return subprocess.run(["bash", "-c", command], **how)


def link_programs(directory: Path, unifdef: Path = TOP / "unifdef") -> None:
    Path(directory, "unifdef").symlink_to(unifdef)
    Path(directory, "unifdef-tree").symlink_to(TOP / "unifdef-tree")
    Path(directory, "unifdef2").symlink_to(TOP / "packaging" / "unifdef2")


def check(program: Path, case: Case, wanted: Answer, what: str) -> bool:
    """Returns whether the program gives the wanted answer, and prints both if it doesn't."""
    found = run(program, case)
    if not wanted.matches(found):
        both = f"  expected {wanted}\n  found    {found}\n"
        print(f"{what}: {case.path}: {case.sentence}\n{both}", end="")
    return wanted.matches(found)


def main() -> int:
    parser = argparse.ArgumentParser(description="Runs a built program on case files.")
    parser.add_argument("program", nargs="?", type=Path, default=TOP / "unifdef")
    parser.add_argument("--case", nargs="+", type=Path, default=[DATA], metavar="NAME")
    options = parser.parse_args()
    try:
        every = list(cases_in(options.case))
        tried = [it for it in every if not it.has_streams]
        program = options.program.resolve()
        with ThreadPoolExecutor() as pool:
            right = sum(pool.map(lambda it: check(program, it, it.answer, "cases"), tried))
    except (ValueError, OSError, subprocess.TimeoutExpired) as error:
        print(f"cases: {error}", file=sys.stderr)
        return 1
    if len(tried) < len(every):
        print(f"cases: {len(every) - len(tried)} more need streams over memory, as make test has")
    is_right = report("cases", right, len(tried) - right)
    return 0 if is_right or (every and not tried) else 1


if __name__ == "__main__":
    sys.exit(main())
