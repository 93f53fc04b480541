#!/usr/bin/env python3
"""Compares what a compiler selects of C before and after ./unifdef and ./unifdef-tree (README.md).

Of each file, the conditional directives stay as they are, with their comments and continuations,
and every other line becomes one word. Some symbols are chosen at random for options; each other one
is left undefined or given a number. A text that the compiler (CC) rejects is left out, since some
`#if` there has no value. A second run of `unifdef-tree -p` must change nothing.

With --programs, each seed gives a file and some headers, which define and undefine other names than
those of the options, and include each other in sections. If no condition names a symbol of the
options any more, the compiler must select the same without it, and with any other value.

With --least, a symbol that a file compares with a constant is at least such a constant, for
./unifdef-tree with and without -p. The compiler must select the same for each of some values.

The status is 1 if something is selected in another way, or changed by a second run.
"""

import argparse
import multiprocessing
import os
import random
import re
import subprocess
import sys
import tempfile
from collections import Counter
from pathlib import Path

CC = os.environ.get("CC", "cc")
UNIFDEF, UNIFDEF_TREE = map(os.path.realpath, ("unifdef", "unifdef-tree"))

CONDITIONAL = re.compile(rb"\s*#\s*(if|ifn?def|elif|elifn?def|else|endif)(?![A-Za-z0-9_])")
# Comments, literals, splices and newlines. All between them is other text.
LEXEME = re.compile(
    rb"""/\*.*?\*/|//(?:\\\r?\n|[^\n])*|"(?:\\\r?\n|\\.|[^"\\\n])*"?|"""
    rb"""'(?:\\\r?\n|\\.|[^'\\\n])*'?|\\\r?\n|\n|[^\n"'/\\]+|.""",
    re.DOTALL,
)
NAME = re.compile(rb"[A-Za-z_][A-Za-z0-9_]*")
# Their values change with the position of a line, or the compiler has them as operators.
NOT_CHOSEN = re.compile(
    rb"defined$|__(has_|is_|STDC|LINE__|FILE__|COUNTER__|INCLUDE_LEVEL__|DATE__|TIME__)"
)

# A name that is compared with a constant, its digits and its suffix. A value is at most LARGEST.
RELATION = re.compile(
    rb"([A-Za-z_]\w*)\s*(?:[<>]|[<>=!]=)\s*(0[xX][0-9a-fA-F]+|0[0-7]*|[1-9]\d*)([uUlL]*)(?!\w)"
)
LARGEST = 2**63 - 1

# The names of a program, the forms of its conditions, and how these are found.
DECIDED, OTHERS = ("A", "B"), ("C", "D", "E", "F")
FORMS = ("defined({})", "!defined({})", "defined {}", "{}", "!{}", "{} > 1", "({} == 2)")
CONDITION = re.compile(r"^\s*#\s*(?:if|ifdef|ifndef|elif)\b(.*)$", re.MULTILINE)

# The kinds of results that a comparison must not have.
WRONG = ("selected in another way", "changed by a second run", "numbered in another way", "wrong")


def logical_lines(text):
    line = []
    for lexeme in LEXEME.findall(text):
        line.append(lexeme)
        if lexeme == b"\n":
            yield line
            line = []
    yield from [line] if line else []


def code_of(line):
    """Returns a logical line without its splices, and with a space in place of each comment."""
    code = [b" " if it.startswith((b"/*", b"//")) else it for it in line]
    return b"".join(it for it in code if not re.match(rb"\\\r?\n", it))


def bare(line):
    """Returns the comments, the splices and the newline of a logical line."""
    return [it for it in line if it.startswith((b"/*", b"//")) or it.endswith(b"\n")]


def neutral(text, word=b"line_%d "):
    """Returns the text with a word with its number for each other line, and the conditions."""
    out, conditions, number = [], [], 1
    for line in logical_lines(text):
        kept, code = line, code_of(line)
        if CONDITIONAL.match(code):
            conditions.append(code)
        else:
            kept = [word % number, *bare(line)] if code.strip() else bare(line)
        out += kept
        number += sum(p.count(b"\n") for p in kept)
    return b"".join(out), conditions


def chosen(conditions, rng):
    """Returns options for unifdef, and arguments for the compiler that agree with them."""
    found = (n for c in conditions for n in NAME.findall(CONDITIONAL.sub(b"", c)))
    names = sorted({n for n in found if not NOT_CHOSEN.match(n)})
    called = {m for c in conditions for m in re.findall(rb"([A-Za-z_][A-Za-z0-9_]*)\s*\(", c)}
    options = rng.choice([[], [], ["-k"], ["-K"], ["-k", "-K"]])[:]
    arguments = []
    for name in names:
        define = name + b"(...)" if name in called else name
        value = rng.choice([b"0", b"1", b"2", b"7", b"201112L", b"0x10u", b"-1"])
        what = rng.randrange(6)
        if what == 0:
            options.append(b"-U" + name)
        elif what == 1:
            options.append(b"-D" + name + b"=" + value)
            arguments.append(b"-D" + define + b"=" + value)
        elif what in (2, 3):
            arguments.append(b"-D" + define + b"=" + value)
    return options, arguments


def selected(arguments, text=b"", path="-"):
    """Returns the words that the compiler selects of a text or a file; None if it rejects it."""
    command = [CC, "-E", "-P", "-undef", "-nostdinc", "-w", "-x", "c", *arguments, path]
    run = subprocess.run(command, input=text, capture_output=True)
    return run.stdout.split() if run.returncode == 0 else None


def replaced(options, text):
    """Returns what a run makes of a text, its edits, and whether a second run changes nothing."""
    with tempfile.TemporaryDirectory() as directory:
        path = Path(directory, "text.c")
        path.write_bytes(text)
        command = [UNIFDEF_TREE, *options, "--", path]
        runs = [subprocess.run(command, capture_output=True) for _ in range(2)]
        out = path.read_bytes()
    edited = re.search(rb"(\d+) conditions? edited", runs[0].stderr)
    return out, int(edited[1]) if edited else 0, runs[1].returncode == 0


def shown(options):
    return b" ".join(map(os.fsencode, options)).decode("latin-1")


def compare(job):
    path, seed = job
    rng = random.Random(f"{seed} {path}")
    source, conditions = neutral(Path(path).read_bytes())
    options, arguments = chosen(conditions, rng)
    run = subprocess.run([UNIFDEF, *options], input=source, capture_output=True)
    of = f"{path}, seed {seed}: {shown(options)}"
    if run.returncode == 2:
        return "faulty", of
    before = selected(arguments, source)
    if before is None:
        return "rejected by the compiler", of
    if selected(arguments, run.stdout) != before:
        return "selected in another way", of
    how = "changed" if run.returncode else "left as they are"
    # Without a symbol and -k, unifdef-tree refuses to run.
    is_pruned = set(options) - {"-K"}
    out, edited, settled = replaced(["-p", *options], source) if is_pruned else (source, 0, True)
    if not settled:
        return "changed by a second run", of
    if edited and selected(arguments, out) != before:
        return "selected in another way", f"{of} -p"
    return f"{how} and edited" if edited else how, of


def number(digits):
    return int(digits, 8 if digits.startswith(b"0") and digits.isdigit() else 0)


def compare_least(job):
    """Returns what a comparison with a least value found, of what, and with how many values."""
    path, seed = job
    rng = random.Random(f"{seed} {path}")
    source, conditions = neutral(Path(path).read_bytes())
    found = RELATION.findall(b"\n".join(conditions))
    relations = [it for it in found if not NOT_CHOSEN.match(it[0])]
    if not relations:
        return "without a relation", path, 0
    options, arguments = chosen(conditions, rng)
    name, digits, suffix = rng.choice(relations)
    options.append(b"-D%s>=%s%s" % (name, digits, suffix))
    least = number(digits)
    other = number(rng.choice([it[1] for it in relations if it[0] == name]))
    values = {least, least + 1, least + 2, max(least, other), max(least, other + 1), LARGEST}
    defines = [b"-D%s=%d%s" % (name, it, suffix) for it in sorted(values) if it <= LARGEST]
    selected_before = {it: selected([*arguments, it], source) for it in defines}
    # The compiler rejects the text under some, in which a condition has no value.
    selected_before = {it: before for it, before in selected_before.items() if before is not None}
    how = "left as they are"
    for prune in ([], ["-p"]):
        out, _, settled = replaced([*prune, *options], source)
        of = f"{path}, seed {seed}: {shown(prune + options)}"
        if not settled:
            return "faulty" if out == source else "changed by a second run", of, 0
        if any(selected([*arguments, it], out) != before for it, before in selected_before.items()):
            return "selected in another way", of, 0
        how = "changed" if out != source else how
    return how, of, len(selected_before)


def parsed(description, **flags):
    """Returns the options of the command line, and each file with the seed."""
    parser = argparse.ArgumentParser(description=description)
    parser.add_argument("--seed", type=int, default=1)
    parser.add_argument("--count", type=int, default=0, help="that many at random; 0 for all")
    parser.add_argument("paths", nargs="*", default=["/usr/include"])
    for flag, text in flags.items():
        parser.add_argument(f"--{flag}", action="store_true", help=text)
    options = parser.parse_args()
    found = [it for it in options.paths if os.path.isfile(it)]
    for path in filter(os.path.isdir, options.paths):
        found += sorted(it for it in Path(path).rglob("*.[ch]") if it.is_file())
    if options.count and options.count < len(found):
        found = random.Random(options.seed).sample(found, options.count)
    return options, [(str(it), options.seed) for it in found]


def report(results, what):
    """Prints wrong results, and how many are of each kind. Returns the sums, and the status."""
    kinds, sums = Counter(), Counter()
    for kind, of, *numbers in results:
        kinds[kind] += 1
        sums.update(dict(enumerate(numbers)))
        if kind in WRONG:
            print(f"{of}: {kind}", flush=True)
    each = ", ".join(f"{n} {kind}" for kind, n in sorted(kinds.items()))
    print(f"{sum(kinds.values())} {what}: {each}")
    return sums, int(any(it in kinds for it in WRONG))


def expression(rng):
    text, count = "", rng.randrange(1, 4)
    for left in reversed(range(count)):
        text += rng.choice(FORMS).format(rng.choice(DECIDED + OTHERS))
        text += rng.choice([" && ", " || "]) if left else ""
    return text


def opener(rng):
    if rng.randrange(3) == 0:
        return f"#{rng.choice(['ifdef', 'ifndef'])} {rng.choice(DECIDED + OTHERS)}"
    return "#if " + expression(rng)


def lines(rng, name, later, depth=0):
    """Yields the lines of a file: text, definitions, inclusions of later files, and sections."""
    for _ in range(rng.randrange(2, 5)):
        what = rng.randrange(8)
        if what == 0:
            yield f"#define {rng.choice(OTHERS)} {rng.randrange(4)}"
        elif what == 1:
            yield f"#undef {rng.choice(OTHERS)}"
        elif what == 2 and later:
            yield f'#include "{rng.choice(later)}"'
        elif what < 5 and depth < 3:
            yield opener(rng)
            yield from lines(rng, name, later, depth + 1)
            for _ in range(rng.randrange(3)):
                yield "#elif " + expression(rng)
                yield from lines(rng, name, later, depth + 1)
            if rng.randrange(2):
                yield "#else"
                yield from lines(rng, name, later, depth + 1)
            yield "#endif"
        else:
            yield f"{name[0]}_{rng.randrange(10**6)} C D E F;"


def run_tree(arguments, directory):
    command = [UNIFDEF_TREE, "-q", *arguments, "--", directory]
    return subprocess.run(command, capture_output=True).returncode


def compare_program(seed):
    """Returns whether a program is right, what it is, and how many symbols were gone from it."""
    rng = random.Random(seed)
    names = ["main.c", "h1.h", "h2.h", "h3.h"]
    files = {n: "\n".join(lines(rng, n, names[i + 1 :])) + "\n" for i, n in enumerate(names)}
    # Arguments of both, and of the compiler alone.
    options = [rng.choice([f"-U{n}", f"-D{n}={rng.randrange(4)}"]) for n in DECIDED]
    others = [f"-D{n}={rng.randrange(4)}" for n in OTHERS if rng.randrange(2)]
    gone = 0
    for prune in ([], ["-p"]):
        of = f"seed {seed}: {prune} {options}:"
        with tempfile.TemporaryDirectory() as directory:
            for name, text in files.items():
                Path(directory, name).write_text(text, encoding="ascii")
            main_file = f"{directory}/main.c"
            before = selected(options + others, path=main_file)
            if run_tree(prune + options, directory) == 2:
                return "wrong", f"{of} a fault", gone
            if selected(options + others, path=main_file) != before:
                return "selected in another way", of, gone
            if run_tree(prune + options, directory) != 0:
                return "changed by a second run", of, gone
            texts = "".join(it.read_text(encoding="ascii") for it in Path(directory).iterdir())
            named = " ".join(CONDITION.findall(texts))
            for i, name in enumerate(DECIDED):
                if re.search(rf"\b{name}\b", named):
                    continue
                gone += 1
                rest = options[:i] + options[i + 1 :] + others
                for other in ([], [f"-D{name}=0"], [f"-D{name}=3"]):
                    if selected(rest + other, path=main_file) != before:
                        return "wrong", f"{of} {name} isn't gone", gone
    return "right", "", gone


def main():
    programs = "random programs in place of files, 300 by default"
    least = "symbols that are at least a number"
    description = "Compares what a compiler selects before and after."
    options, jobs = parsed(description, programs=programs, least=least)
    first, count = options.seed * 10**6, options.count or 300
    with multiprocessing.Pool() as pool:
        if options.programs:
            results = pool.imap_unordered(compare_program, range(first, first + count), chunksize=8)
            sums, status = report(results, "programs")
            print(f"{sums[0]} times a symbol was gone")
        elif options.least:
            sums, status = report(pool.imap_unordered(compare_least, jobs, chunksize=16), "files")
            print(f"{sums[0]} values of a symbol that is at least a number")
        else:
            _, status = report(pool.imap_unordered(compare, jobs, chunksize=16), "files")
    sys.exit(status)


if __name__ == "__main__":
    main()
