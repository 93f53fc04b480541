#!/usr/bin/env python3
"""Runs the cases that say what unifdef 2.10 does instead, with both programs, and unifdef2 with
calls that 2.10 takes.

The released programs are the first unifdef on PATH whose -V reports 2.10, and the first one that
reports 2.12. One that isn't there is skipped. Each example of docs/DIFFERENCES.md must be a case.
2.12 gives what the example says of it, or else what 2.10 gives.
"""

import contextlib
import os
import re
import subprocess
import sys
import tempfile
from pathlib import Path
from typing import Iterator, Optional

from cases import TOP, Answer, Case, CaseError, cases_in, check, link_programs, run_in_bash, shown
from cases import unescaped
from results import report, skip

EXAMPLE = re.compile(
    r"^(-[^:\n]*):  (.*)\nhere: ([012])(?:  (.*))?\n2\.10: ([012])(?:  (.*))?$"
    r"(?:\n2\.12: ([012])(?:  (.*))?$)?",
    re.MULTILINE,
)

# What 2.10 is called with, and the command that does the same here.
COMMANDS = re.compile(r"^there: (.*)\nhere:  ((?:.*\n)*?)\.Ed$", re.MULTILINE)

# The files of both commands. Only the first one has blank lines.
FILES = {
    "in.c": b"#ifdef A\na\n\n#else\nb\n#endif\n\n#if B == 2\nc\n#endif\n#ifdef C\nd\n#endif\n",
    "a.c": b"#ifndef A\na\n#endif\nb\n",
    "b.c": b"#if defined(A) || B\na\n#endif\nb\n",
    "defs": b" # define\tA\n#define  B\t 2 \n\t#\tundef  C \n",
}

# Calls of other programs, which unifdef2 takes as 2.10 does. The manual has more, after "there:".
CALLS = [
    "unifdef -x1 -DA -UC -oout.c - < in.c",
    "unifdef -x1 -DQ -oout.c - < in.c",
    "unifdef -s in.c",
    "unifdef -s -x1 in.c",
    "unifdef -B -x 2 -k -UA -o a.c a.c",
    "unifdef -k -I. -f defs -UB in.c",
    "unifdef -UB -f defs -f defs in.c",
    "unifdef -x1 -m -DA a.c b.c",
    "unifdef -x1 -m -DQ a.c; unifdef -x2 a.c -m -DA -- b.c",
    "unifdef -M .old -bcDA a.c b.c; ls",
    "chmod 640 a.c; unifdef -o a.c -iDA in.c; stat -c '%n %a' *",
    "ln -s b.c link; unifdef -UA -o link in.c; stat -c '%n %F' *",
    "printf '#endif\\n' | unifdef -o a.c -; cat a.c",
    "unifdef -M .old -m -DA a.c none b.c; ls",
    "unifdef a.c b.c; unifdef -s -m a.c; unifdef -bB a.c; unifdef -z a.c; unifdef a.c -o",
]

OLD, NEW = "2.10", "2.12"


def is_released(program: Path, version: str) -> bool:
    with contextlib.suppress(OSError):
        done = subprocess.run([program, "-V"], stdin=subprocess.DEVNULL, capture_output=True)
        return f"unifdef-{version}".encode() in done.stdout + done.stderr
    return False


def examples() -> Iterator[tuple[list[str], bytes, Answer, Answer, Answer]]:
    """Yields the arguments, the input and the answers here, of 2.10 and of 2.12 of each example."""
    page = (TOP / "docs" / "DIFFERENCES.md").read_text(encoding="utf-8")
    found_examples = list(EXAMPLE.finditer(page))
    if len(found_examples) != page.count("\nhere: ") or not found_examples:
        raise CaseError("docs/DIFFERENCES.md: an example has another form")
    for found in found_examples:
        arguments, text, *answers = found.groups(default="")
        here, old, new = (
            Answer(unescaped(output), None, int(status)) if status else None
            for status, output in zip(answers[::2], answers[1::2])
        )
        yield arguments.split(), unescaped(text), here, old, new or old


def check_manual(cases: list[Case]) -> Iterator[bool]:
    """Prints each example of the page that is no case, and yields False for it."""
    for arguments, text, here, there, _ in examples():
        same = [case for case in cases if (case.arguments, case.input) == (arguments, text)]
        if not any(here.matches(case.answer) and there.matches(case.released) for case in same):
            reason = f"{same[0].path} has other answers" if same else "no case has it"
            print(f"differences: the page's {' '.join(arguments)}: {shown(text)}: {reason}")
            yield False


def run_command(command: str, program: Path) -> tuple[bytes, Optional[int], dict[str, bytes]]:
    """Returns what a command writes, its status if it is no pipe, and the files then."""
    with tempfile.TemporaryDirectory() as top:
        directory = Path(top, "directory")
        directory.mkdir()
        for name, text in FILES.items():
            (directory / name).write_bytes(text)
        link_programs(Path(top), program)
        done = run_in_bash(command, directory, Path(top), stderr=subprocess.PIPE)
        files = {it.name: it.read_bytes() for it in directory.iterdir()}
    return done.stdout, None if "|" in command else done.returncode, files


def is_told(is_right: bool, *what: object) -> bool:
    """Returns whether something is right, and prints what it is if it isn't."""
    if not is_right:
        print("differences:", *what)
    return is_right


def check_file(program: Path, name: bytes) -> bool:
    """Returns whether `-n` over a file inserts a #line that names the file as `name` does."""
    output, status, _ = run_command("unifdef -n -DA a.c", program)
    is_right = status == 1 and output == b"#line 4" + name + b"\nb\n"
    return is_told(is_right, program, "a file and -n:", status, output)


def check_commands(program: Path, released: Optional[Path]) -> Iterator[bool]:
    """Yields whether each command for users of 2.x does what 2.10 does with its arguments, and
    whether unifdef2 does that by each call. The manual has one with -B."""
    manual = (TOP / "docs" / "unifdef.1").read_text(encoding="utf-8").replace("\\e", "\\")
    section = manual.partition("\n.Ss Coming from 2.x\n")[2].partition("\n.Sh ")[0]
    pairs = COMMANDS.findall(section)
    if len(pairs) != section.count("\nthere: ") or not pairs:
        raise CaseError("docs/unifdef.1: a command for users of 2.x has another form")
    for there, here in pairs:
        found = run_command(here, program)
        wanted = run_command(there, released) if released else found
        if "|" in here:
            wanted = (wanted[0], None, wanted[2])  # The status is that of another program.
        is_right = found == wanted and (found[1] or 0) < 2 and (found[0] or found[2] != FILES)
        # The program itself takes no such arguments.
        is_right = is_right and run_command(there, program)[1] == 2
        yield is_told(is_right, "the manual's", here.strip(), found, "and", there, wanted)
    os.environ["UNIFDEF"] = str(program)
    calls = [there for there, _ in pairs if "-B" not in there] + CALLS
    for call in calls if released else []:
        found, wanted = (run_command(call, it) for it in (TOP / "packaging/unifdef2", released))
        yield is_told(found == wanted, "unifdef2 as", call, found, "and 2.10:", wanted)


def results(program: Path, released: Optional[Path], new: Optional[Path]) -> Iterator[bool]:
    cases = [case for case in cases_in() if case.released]
    yield from check_manual(cases)
    yield from (check(program, it, it.answer, "differences") for it in cases)
    yield check_file(program, b"")
    yield from check_commands(program, released)
    if released:
        yield from (check(released, it, it.released, "differences, 2.10") for it in cases)
        yield check_file(released, b' "a.c"')
    if new:
        yield check_file(new, b' "a.c"')
        for arguments, text, _, _, answer in examples():
            of_page = (it for it in cases if (it.arguments, it.input) == (arguments, text))
            yield from (check(new, it, answer, "differences, 2.12") for it in of_page)


def main() -> int:
    program = TOP / "unifdef"
    programs = [Path(directory) / "unifdef" for directory in os.get_exec_path()]
    released, new = (next((it for it in programs if is_released(it, v)), None) for v in (OLD, NEW))
    for version, there in ((OLD, released), (NEW, new)):
        if not there:
            skip("differences", f"unifdef {version}", "no unifdef on PATH has this version")
    try:
        found = list(results(program, released, new))
    except (ValueError, OSError) as error:
        print(f"differences: {error}", file=sys.stderr)
        return 1
    is_right = report("differences", found.count(True), found.count(False))
    return 0 if is_right and len(found) > 30 else 1


sys.exit(main())
