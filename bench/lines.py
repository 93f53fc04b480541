#!/usr/bin/env python3
"""Compares the numbers that a compiler gives to lines of C before and after ./unifdef -n and -b.

As in selects.py, but a word has `__LINE__` after it, and a third of the files gets carriage
returns. Under -b, each selected line must have its number of the input. So it must under -n, unless
the last `#line` before it is in a group that the compiler skips, and under both, also with -c, if
the conditional directives are taken out. With --fixed the texts are those in this script. The
status is 1 if a line differs.
"""

import multiprocessing
import random
import re
import shutil
import subprocess
import sys
from pathlib import Path

sys.path.append(str(Path(__file__).resolve().parent.parent / "tools"))

import results
from selects import CC, CONDITIONAL, UNIFDEF, WRONG, bare, chosen, code_of, logical_lines, neutral
from selects import parsed, report, selected, shown

WORD = b"line_%d __LINE__ "
MIXED = b"/* a\n * b\n */ c\n#ifdef A\n/* d\n*/\n#endif\ne /* f\n*/ g\n"
MIXED += b"#if defined X && \\\n    1\nh \\\n\ni\n#endif\nj"
# Options and a text. `X` is left undecided, and is defined for the compiler in one of two runs.
FIXED = [
    ("-UA", b"a\n#ifdef A\nb\n#endif\nc\n"),
    ("-UA", b"a\r\n#ifdef A\r\nb\r\n#endif\r\nc\r\n"),
    ("-DA -UB", b"#ifdef A\na\n#ifdef B\nb\n#else\nc\n#endif\nd\n#else\ne\n#endif\nf\n"),
    ("-DA -UB", b"#ifdef X\na\n#if A && !B\nb\n#ifdef B\nc\n#endif\nd\n#endif\ne\n#endif\nf\n"),
    ("-UA", b"#ifdef A\na\n#elif defined X\nb\n#else\nc\n#endif\nd\n"),
    ("-DA", b"#if X\r\na\r\n#elif A\r\nb\r\n#elif Y\r\nc\r\n#else\r\nd\r\n#endif\r\ne\r\n"),
    ("-UA -DB=2", b"#ifdef X\na\n#elif A\nb\n#elif B > 1\nc\n#elif Y\nd\n#endif\ne\n"),
    ("-UA", MIXED),
    ("-UA", b"#ifdef A\na\n#endif\n\n\n#ifdef A\nb\n#endif\n// c \\\nd\ne\n"),
    ("-UA", b"#ifdef A\r\na\r\n#elif X\r\nb\r\n#endif\r\nc\n#ifndef A\nd\n#endif"),
]


def taken(text):
    """Returns the text without its conditional directives. Each line keeps its number."""
    lines = (bare(it) if CONDITIONAL.match(code_of(it)) else it for it in logical_lines(text))
    return b"".join(it for line in lines for it in line)


def numbers(arguments, text):
    """Returns the selected words with their numbers; None if the compiler rejects the text."""
    words = selected(arguments, text)
    return words and list(zip(words[::2], words[1::2]))


def skipped(arguments, text):
    """Returns the words whose last `#line` is in a group that the compiler skips."""
    marked, marks, count = [], {}, 0
    for line in logical_lines(text):
        code = code_of(line)
        if re.match(rb"#line \d+\s*$", code):
            count += 1
            line = [b"mark_%d\n" % count]
        elif not CONDITIONAL.match(code):
            marks.update((word, count) for word in code.split()[:1])
        marked += line
    seen = selected(arguments, b"".join(marked)) or []
    return {word for word, last in marks.items() if last and b"mark_%d" % last not in seen}


def first_difference(expected, found, excused=()):
    """Returns the first difference in words, if there is one."""
    if [word for word, _ in expected] != [word for word, _ in found]:
        return "selected in another way"
    for (word, number), (_, other) in zip(expected, found):
        if number != other and word not in excused:
            return f"{word.decode()}: numbered {other.decode()} in place of {number.decode()}"
    return None


def check(options, arguments, source):
    """Returns what happened, the first difference, and how many lines were compared."""
    before, all_before = numbers(arguments, source), numbers([], taken(source))
    if before is None:
        return "rejected by the compiler", None, 0
    of_word = dict(all_before)
    compared, changed = 0, False
    for flags in (["-b"], ["-n"], ["-c", "-b"], ["-c", "-n"]):
        run = subprocess.run([UNIFDEF, *options, *flags], input=source, capture_output=True)
        if run.returncode == 2:
            return "faulty", None, 0
        after = numbers([], taken(run.stdout))
        difference = first_difference([(word, of_word.get(word, b"?")) for word, _ in after], after)
        compared += len(after)
        if difference is None and "-c" not in flags:
            changed = changed or run.returncode == 1
            lost = skipped(arguments, run.stdout) if "-n" in flags else ()
            difference = first_difference(before, numbers(arguments, run.stdout), lost)
            compared += len(before)
        if difference is not None:
            return "numbered in another way", f"{' '.join(flags)}: {difference}", compared
    return ("changed" if changed else "left as they are"), None, compared


def compare(job):
    """Checks a file, with options and line endings that its seed chooses."""
    path, seed = job
    rng = random.Random(f"{seed} {path}")
    source, conditions = neutral(Path(path).read_bytes(), WORD)
    source = source.replace(b"\r\n", b"\n")
    if rng.randrange(3) == 0:
        source = source.replace(b"\n", b"\r\n")
    options, arguments = chosen(conditions, rng)
    how, difference, compared = check(options, arguments, source)
    return how, f"{path}, seed {seed}: {shown(options)}: {difference}", compared


def compare_fixed():
    """Yields the result of each text in this script, in three worlds of the undecided symbols."""
    for options, text in FIXED:
        source, _ = neutral(text, WORD)
        symbols = options.split()
        for world in ([], ["-DX"], ["-DX", "-DY"]):
            arguments = [o for o in symbols if o.startswith("-D")] + world
            how, difference, compared = check(symbols, arguments, source)
            yield how, f"{options} {' '.join(world)}: {text!r}: {difference}", compared


def run_fixed():
    """Compares the texts in this script, and returns the status."""
    if not shutil.which(CC):
        return results.lacks("lines-test", CC, "all")
    every = list(compare_fixed())
    print(f"{report(every, 'texts')[0][0]} lines compared")
    wrong = sum(kind in WRONG for kind, *_ in every)
    return 0 if results.report("lines-test", len(every) - wrong, wrong) else 1


def main():
    fixed = "the texts in this script"
    options, jobs = parsed("Compares the numbers of lines before and after -n and -b.", fixed=fixed)
    if options.fixed:
        sys.exit(run_fixed())
    with multiprocessing.Pool() as pool:
        sums, status = report(pool.imap_unordered(compare, jobs, chunksize=16), "files")
    print(f"{sums[0]} lines compared")
    sys.exit(status)


if __name__ == "__main__":
    main()
