"""Measures unifdef programs and `cat` in turns, and prints tables (README.md).

compare.py WORK NAME=PROGRAM..: keeps texts and outputs in the directory WORK, and compares the
others with the first program, whose memory must be below 2 MiB, and below 3 MiB on a deep text.
"""

import hashlib
import os
import shutil
import statistics
import sys
from concurrent.futures import ThreadPoolExecutor
from pathlib import Path
from typing import NamedTuple

import texts
from texts import counted, finished, peak

BYTES = int(os.environ.get("BENCH_BYTES", "20000000"))
RUNS = int(os.environ.get("BENCH_RUNS", "5"))
FILES = int(os.environ.get("BENCH_FILES", "10000"))
HEADERS = os.environ.get("BENCH_HEADERS", "/usr/include")
SOURCES = os.environ.get("BENCH_SOURCES", "")
EMPTY_LINES = 20_000_000
NOWHERE = Path(os.devnull)

# Numbers of symbols with the options under which each text is measured.
ROWS = {
    "C source": [(50,), (1000,), (50, "-t"), (50, "-s")],
    "C headers": [(50,), (50, "-b"), (50, "-n"), (50, "-s")],
    "comments": [(50,)],
    "conditionals": [(50,), (1000,)],
}


class Case(NamedTuple):
    name: str
    text: Path
    words: list


def row(*cells):
    print("| " + " | ".join(cells) + " |", flush=True)


def heading(title, *cells):
    print(f"\n{title}\n")
    row(*cells)
    row(*["---"] * len(cells))


def text_of(name, symbols, programs):
    """Returns a text, of whole files on which the programs agree or of the lines in texts.py."""
    if name == "C source":
        return texts.files(SOURCES, "*.c", BYTES, programs)
    if name == "C headers":
        return texts.files(HEADERS, "*.h", BYTES, programs)
    if name == "comments":
        return texts.COMMENTS * (BYTES // len(texts.COMMENTS))
    return texts.conditionals(BYTES, symbols)


def cases(work, programs):
    for name, rows in ROWS.items():
        for symbols, *options in rows if SOURCES or name != "C source" else []:
            path, words = work / name, texts.c_words(symbols)
            if name == "conditionals":
                path, words = work / f"{name}{symbols}", texts.conditional_words(symbols)
            if not path.exists():
                path.write_bytes(text_of(name, symbols, list(programs.values())))
            title = [f"{name}, {symbols:,} symbols", *[f"`{it}`" for it in options]]
            yield Case(", ".join(title), path, [*words, *options])


def commands(programs, words, other):
    return {name: [program, *words] for name, program in programs.items()} | {other: [other]}


def best(case, programs, output):
    """Returns the least processor time of each program and `cat`, and the hashes of the outputs."""
    times, outputs = {}, set()
    for _ in range(RUNS):
        for name, command in commands(programs, case.words, "cat").items():
            seconds = finished(command, case.text, output)
            times[name] = min(seconds, times.get(name, seconds))
            if output != NOWHERE:
                if name in programs:
                    outputs.add(hashlib.sha256(output.read_bytes()).digest())
                output.unlink()
    return times, outputs


def speeds(measures, programs, title, output):
    columns = [f"{it} MB/s" for it in (*programs, "cat")]
    columns += ["output"] if output != NOWHERE else []
    heading(title, "text and options", "bytes", *columns)
    for case in measures:
        (times, outputs), size = best(case, programs, output), case.text.stat().st_size
        rates = [f"{size / seconds / 1e6:,.0f}" for seconds in times.values()]
        rates += ["the same" if len(outputs) == 1 else "differs"] if outputs else []
        row(case.name, f"{size:,}", *rates)


def instructions(measures, programs):
    """Prints instructions a byte of the text's first lines, without those of an empty text."""

    def of_byte(job):
        case, program = job
        text, command = case.text.read_bytes(), [program, *case.words]
        text = text[: text.rfind(b"\n", 0, min(BYTES // 10, 1_000_000)) + 1]
        return (counted(command, text) - counted(command, b"")) / len(text)

    if not shutil.which("valgrind"):
        return print("bench: left out: instructions: valgrind is not there", file=sys.stderr)
    heading("Instructions a byte", "text and options", *programs)
    with ThreadPoolExecutor(2) as pool:
        every = [(case, program) for case in measures for program in programs.values()]
        results = pool.map(of_byte, every)
        for case in measures:
            row(case.name, *[f"{next(results):.1f}" for _ in programs])


def starts(programs, work):
    """Prints the median processor time of starting and running a small file, beside `true`."""
    paths = [work / f"{n}.h" for n in range(FILES)]
    times = {}
    for n, path in enumerate(paths):
        path.write_text(texts.SMALL.format(n))
        for name, command in commands(programs, texts.DECIDED, "true").items():
            whole = [*command, path] if name in programs else command
            times.setdefault(name, []).append(finished(whole, os.devnull, os.devnull))
    size = paths[0].stat().st_size
    heading(f"Start: {FILES:,} headers of {size} bytes or a few more", "", *times)
    row("microseconds a file", *[f"{statistics.median(it) * 1e6:.0f}" for it in times.values()])


def memory(measures, programs, work):
    """Prints the peak memory. Returns the most of the first program, and that on a deep text."""
    (work / "empty").write_bytes(b"\n" * EMPTY_LINES)
    name = f"{EMPTY_LINES:,} empty lines, 50 symbols"
    measures = [*measures, Case(name, work / "empty", texts.c_words(50))]
    heading("Peak memory in KiB", "text and options", *programs, "cat")
    most = 0
    for case in measures:
        held = [peak(it, case.text) for it in commands(programs, case.words, "cat").values()]
        most = max(most, held[0])
        row(case.name, *[f"{kib:,}" for kib in held])
    # The condition that takes the most: as long as a line may be, with parentheses.
    nested = b"(" * 32_760 + b"__cplusplus" + b")" * 32_760
    (work / "deep").write_bytes(b"#if " + nested + b"\n#endif\n")
    deep = peak([next(iter(programs.values())), *texts.c_words(1000)], work / "deep")
    row("an `#if` of 65,536 bytes, 1,000 symbols", f"{deep:,}", *[""] * len(programs))
    return most, deep


def main():
    work, programs = Path(sys.argv[1]), dict(argument.split("=", 1) for argument in sys.argv[2:])
    measures = list(cases(work, programs))
    speeds(measures, programs, "Speed, with the output in a file", work / "output")
    speeds(measures, programs, "Speed, with the output going nowhere", NOWHERE)
    instructions(measures, programs)
    starts(programs, work)
    for most, limit in zip(memory(measures, programs, work), (2048, 3072)):
        if most >= limit:
            sys.exit(f"bench: the peak is {most} KiB; it should be less than {limit}")


main()
