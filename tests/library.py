#!/usr/bin/env python3
"""Tries the module for Python, and the library with the cases of the program.

    tests/library.py DEEP FILTER ..     UNIFDEF_LIBRARY is the library

DEEP is a directory of the deepest inputs, which must be the same with a small stack. FILTER is
lib/examples/filter.c, built, each for chunks of another length. Each case that needs no stream of
its own is run through all filters and the module, as a whole and in chunks. Output, message and
status must be those of the case. Then many threads run all cases at once. The rest is what no case
tells of the module: pools, chunks after a fault, buffers, wrong types.

A pool whose result doesn't come back has lost it. An hour for each is a guard against hanging.
"""

import array
import copy
import ctypes.util
import mmap
import multiprocessing
import os
import pickle
import subprocess
import sys
import tempfile
import threading
import typing
from concurrent.futures import ProcessPoolExecutor, ThreadPoolExecutor
from pathlib import Path
from typing import Callable, Iterator

MODULE = str(Path(__file__).resolve().parent.parent / "lib" / "python")
sys.path[:0] = [MODULE]

import cases  # noqa: E402
import unifdef  # noqa: E402

THREADS = 8
CHUNKS = (1, 7, 64)
TEXT = b"#ifdef A\nx\n#endif\ny\n"
FAULTY = b"a\n#ifdef A\nb\n#endif\n#endif\n"
MESSAGE = "unifdef: stdin: 5: Inappropriate #endif"

right, wrong = 0, 0


def check(what: str, holds: bool) -> None:
    global right, wrong
    right, wrong = right + holds, wrong + (not holds)
    if not holds:
        print(f"library: Python: {what}")


def raised(call: Callable[[], object]) -> object:
    try:
        call()
    except Exception as error:  # pylint: disable=broad-except
        return error
    return None


def refuses(what: str, kind: type, call: Callable[[], object], *parts: str) -> None:
    """Checks that a call raises an error of this kind, whose text is this, or has these parts."""
    error = raised(call)
    told = (str(error),) == parts or len(parts) > 1 and all(it in str(error) for it in parts)
    check(f"{what}: {error!r}", isinstance(error, kind) and told)


def is_fault(error: object) -> bool:
    """Returns whether an error is that of the faulty text, with all that it tells."""
    is_told = isinstance(error, unifdef.Trouble) and str(error) == MESSAGE
    return is_told and error.answer == (b"a\nb\n", MESSAGE + "\n", 2)


def pools() -> None:
    """A fault in a worker comes back to the caller."""
    copied = pickle.loads(pickle.dumps(raised(lambda: unifdef.strip(FAULTY, "-DA"))))
    check("a copy of a fault", is_fault(copied))
    # A process that is spawned doesn't share the module's state.
    spawned = multiprocessing.get_context("spawn")
    with spawned.Pool(1) as pool:
        held = pool.apply_async(unifdef.strip, (FAULTY, "-DA"))
        check("a fault in a pool of processes", is_fault(raised(lambda: held.get(cases.HANG))))
    for pool in ProcessPoolExecutor(1, mp_context=spawned), ThreadPoolExecutor(1):
        with pool:
            error = pool.submit(unifdef.strip, FAULTY, "-DA").exception(cases.HANG)
            check(f"a fault under {type(pool).__name__}", is_fault(error))


def chunks() -> None:
    """After a fault, no further chunk is taken."""
    source = iter((b"a\n#ifdef A\n", b"b\n#endif\n#en", b"dif\n", b"c\n", b"d\n"))
    found: list[bytes] = []
    output = unifdef.strip_chunks(source, "-DA")
    refuses("chunks: the fault", unifdef.Trouble, lambda: found.extend(output), MESSAGE)
    check("chunks: the output before a fault", b"".join(found) == b"a\nb\n")
    check("chunks: none after a fault", list(source) == [b"c\n", b"d\n"])
    with unifdef.Stream("-DA") as stream:
        stream.feed(b"a\n")
        check("faulty: not yet", not stream.faulty)
        stream.feed(b"#endif\n")
        check("faulty: at once", stream.faulty)
        stream.finish()
        check("faulty: at the end", stream.faulty)


def streams() -> None:
    """A stream whose text has ended, or that is closed, takes no chunk, and no stream is copied."""
    ended = "the stream is closed, or its text has ended"
    with unifdef.Stream("-DA") as stream:
        for copied in (copy.copy, copy.deepcopy, pickle.dumps):
            reason = "a Stream can't be copied or pickled"
            refuses(f"{copied.__name__} of a stream", TypeError, lambda: copied(stream), reason)
        check("a stream that wasn't copied", stream.feed(b"a\n") == b"a\n")
        stream.finish()
        refuses("a chunk after the end", ValueError, lambda: stream.feed(b"b\n"), ended)
    refuses("a chunk for a closed stream", ValueError, lambda: stream.feed(b"b\n"), ended)


def buffers() -> None:
    """A text is any object with bytes, however long, and stays the caller's."""
    longer, changed = TEXT * 40000, bytearray(TEXT)
    for what, given in (
        ("bytearray", changed),
        ("memoryview", memoryview(b"..." + TEXT)[3:]),
        ("a view of each second byte", memoryview(bytes(it for it in TEXT for _ in "xx"))[::2]),
        ("a view of numbers", memoryview(array.array("H", memoryview(TEXT).cast("H")))),
    ):
        check(what, unifdef.strip(given, "-UA").rstrip() == b"y")
        with unifdef.Stream("-UA") as stream:
            check(f"{what}: a chunk", stream.feed(given).rstrip() == b"y")
    changed.append(0)  # It isn't held.
    for empty in (b"", bytearray(), memoryview(b"")):
        check(f"an empty {type(empty).__name__}", unifdef.strip(empty, "-DA") == b"")
    check("an expression", unifdef.condition(bytearray(b"A > 1"), "-DA=2") is True)
    check("names", unifdef.names(memoryview(b"A || B")) == [b"A", b"B"])
    text = bytearray(b"#if A || X\n#endif\n#ifdef A\nx\n#endif\n")
    check("pruned", unifdef.strip(text, "-UA", prune_conditions=True) == b"#if X\n#endif\n")
    check("not pruned", unifdef.strip(text, "-UA") == b"#if A || X\n#endif\n")
    check("pruned of nothing", unifdef.strip(b"", "-UA", prune_conditions=True) == b"")
    with mmap.mmap(-1, len(longer)) as mapped:
        mapped.write(longer)
        check("mmap", unifdef.strip(mapped, "-UA") == b"y\n" * 40000)


def long_texts() -> None:
    """A text that is fed has the same answer as one that is run in one call."""
    texts = (b"#ifdef A\nx\n#else\ny\n#endif\n" * 30000, b"x" * 65000 + b"\n#if A\n#elif B\n")
    for words in ("-DA",), ("-n", "-UA"), ("-s", "a.c"), ("-S",), ("-DA", "-x1"), ("-q",):
        for begin in texts:
            for end in (b"", b"#endif\n", b"/* "):
                text = begin + b"\n" * unifdef.LONG + end
                whole = unifdef._run_short(text, unifdef._words(words))
                check(f"a long text with {words}", unifdef.run(text, *words) == whole)


class Named:
    def __init__(self, name: str) -> None:
        self.name = name

    def __fspath__(self) -> str:
        return self.name


def arguments() -> None:
    """An argument is a word or a path, and each option is one of its own."""
    for shown, *names in (
        ("sub/a.c", "sub/a.c", b"sub/a.c", Path("sub", "a.c"), Named("sub/a.c")),
        ("./-UA", Path("-UA"), Named("-UA")),
    ):
        for name in names:
            message = unifdef.run(b"#endif\n", "-DA", name).message
            is_named = message == f"unifdef: {shown}: 1: Inappropriate #endif\n"
            check(f"{name!r} names the file {shown}", is_named)
    check("a str is an option", unifdef.strip(TEXT, "-DB", "-UA") == b"y\n")
    check("a path decides nothing", unifdef.strip(TEXT, "-DB", Path("-UA")) == TEXT)
    refused = unifdef.run(b"", os.fsdecode(b"\xff.c")).message
    check("a name that isn't UTF-8", refused == "unifdef: Cannot take arguments\n")
    for what, call in {
        "'-DA -UB'": lambda: unifdef.strip(b"", "-k", "-DA -UB"),
        "b'-DA -UB'": lambda: unifdef.Stream(b"-DA -UB"),
        "'-U A'": lambda: list(unifdef.strip_chunks([], "-U A")),
    }.items():
        refuses(f"{what} is named", unifdef.Trouble, call, f": {what};", "unifdef: ")
        error = raised(call)
        check(f"{what}: a copy", str(pickle.loads(pickle.dumps(error))) == str(error))
    mode = "unifdef: Bad exit mode in word 1: '-x3'"
    refuses("a mode is named", unifdef.Trouble, lambda: unifdef.strip(b"", "-x3"), mode)
    both = "-DA -UB"
    kind = unifdef.Trouble
    check("one `except` is for all wrong values", issubclass(kind, ValueError))
    refuses("it is named", kind, lambda: unifdef.condition(b"A", both), repr(both), "unifdef")


def wrong_types() -> None:
    """What isn't bytes, or no argument, is refused by its name, and what is public has types."""
    for name, kind, call in (
        ("text", "str", lambda: unifdef.strip("#if A\n", "-DA")),
        ("text", "str", lambda: unifdef.run("x" * unifdef.LONG, "-DA")),
        ("text", "NoneType", lambda: unifdef.run(None, "-DA")),
        ("text", "int", lambda: unifdef.run(3, "-DA")),
        ("chunk", "str", lambda: unifdef.Stream("-DA").feed("x")),
        ("chunk", "str", lambda: list(unifdef.strip_chunks("text", "-DA"))),
        ("chunk", "int", lambda: list(unifdef.strip_chunks(b"text", "-DA"))),
        ("expression", "str", lambda: unifdef.condition("A", "-DA")),
        ("expression", "str", lambda: unifdef.names("A")),
        ("argument 1", "list", lambda: unifdef.strip(b"x", ["-DA", "-UB"])),
        ("argument 2", "int", lambda: unifdef.strip(b"x", "-DA", 1)),
        ("argument 1", "NoneType", lambda: unifdef.condition(b"A", None)),
    ):
        refuses(f"{name} that is {kind}", TypeError, call, f"{name} must be ", f", not {kind}")
    zero = "argument 2 has a zero byte"
    refuses("a zero byte", ValueError, lambda: unifdef.run(b"x", "-DA", "a\0b"), zero)
    found = typing.get_type_hints(unifdef.run)
    check("the types of run", found["return"] is unifdef.Answer and "text" in found)
    check("what is public", set(dir(unifdef)) == {*unifdef.__all__, "__version__", "__doc__"})


def as_program() -> None:
    with tempfile.TemporaryDirectory() as work:
        Path(work, "a.c").write_bytes(TEXT)
        for arguments, output, message, status in (
            (["-UA"], b"y\n", b"", 1),
            (["-x2", "-UA", "-"], b"y\n", b"", 0),
            (["-kU", "A", "--", f"{work}/a.c"], b"y\n", b"", 1),
            (["-s"], b"A\n", b"", 0),
            (["-D"], b"", b"unifdef: Option -D needs an argument\n", 2),
            (["-UA", f"{work}/b.c"], b"", b"No such file or directory\n", 2),
        ):
            command = [sys.executable, "-Bm", "unifdef", *arguments]
            done = subprocess.run(command, cwd=MODULE, input=TEXT, capture_output=True)
            said = (done.stdout, done.returncode) == (output, status)
            check(f"python3 -m unifdef {arguments}", said and done.stderr.endswith(message))


def imported(library: str) -> str:
    """Returns what a process prints that imports the module with this library."""
    program = "try: import unifdef\nexcept ImportError as error: print(error)"
    env = {**os.environ, "UNIFDEF_LIBRARY": library, "PYTHONPATH": MODULE}
    return subprocess.check_output([sys.executable, "-Bc", program], env=env, text=True)


def libraries() -> None:
    """What isn't the library is refused with the variable that names it, and no name is none."""
    hint = "unifdef calls this library; UNIFDEF_LIBRARY names it\n"
    check("a library that isn't there", imported("./no-such-library").endswith(hint))
    check("a file that is no library", imported(__file__).endswith(hint))
    check("another library", imported(ctypes.util.find_library("c") or "libc.so.6").endswith(hint))
    check("an empty name", "undefined symbol" not in imported(""))


def in_stack(kib: int, call: Callable[[], object]) -> object:
    """Returns what a call gives in a thread with a stack of this size: its result or its error."""
    threading.stack_size(1024 * kib)
    with ThreadPoolExecutor(1) as pool:
        future = pool.submit(call)
        return future.result() if future.exception() is None else str(future.exception())


def stacks(deep: Path) -> None:
    """The deepest inputs need a stack of 1 MiB, and of 4 MiB to prune."""
    for path in deep.iterdir():
        text = path.read_bytes()
        first = text.partition(b"\n")[0]
        for words in ("-DA", "-kUA", "-SDA"):
            calls = {
                "text": lambda: unifdef.run(text, words),
                "feed": lambda: list(unifdef.strip_chunks([text], words)),
                "prune": lambda: unifdef.strip(text, words, prune_conditions=True),
            }
            if first.startswith(b"#if "):
                calls["condition"] = lambda: unifdef.condition(first[3:], words)
                calls["names"] = lambda: unifdef.names(first[3:])
            for name, call in calls.items():
                small = in_stack(4096 if name == "prune" else 1024, call)
                check(f"{name} of {path.name} under {words}", small == in_stack(65536, call))
    threading.stack_size(0)


def by_filter(program: str, case: cases.Case) -> cases.Answer:
    how = {"input": case.input, "capture_output": True, "timeout": cases.HANG}
    done = subprocess.run([program, *case.arguments], **how)
    return cases.Answer(done.stdout, done.stderr, done.returncode)


def answer_of(answer: unifdef.Answer, before: Iterator[bytes] = ()) -> cases.Answer:
    message = answer.message.encode(errors="surrogateescape")
    return cases.Answer(b"".join([*before, answer.output]), message, answer.status)


def by_module(case: cases.Case) -> cases.Answer:
    return answer_of(unifdef.run(case.input, *case.arguments))


def by_stream(case: cases.Case, most: int) -> cases.Answer:
    """Returns what the module gives for a case in chunks of `most` bytes."""
    text = case.input
    try:
        with unifdef.Stream(*case.arguments) as stream:
            output = [stream.feed(text[at : at + most]) for at in range(0, len(text), most)]
            return answer_of(stream.finish(), output)
    except unifdef.Trouble as trouble:
        return answer_of(trouble.answer)


def all_cases(programs: list[str]) -> bool:
    """Runs all cases in each way, and returns whether all answers are right."""
    tried = [case for case in cases.cases_in() if not case.has_streams]
    found = [("C", it, by_filter(program, it)) for program in programs for it in tried]
    found += [("Python", it, by_module(it)) for it in tried]
    for most in CHUNKS:
        found += [(f"Python in chunks of {most}", it, by_stream(it, most)) for it in tried]
    with ThreadPoolExecutor(THREADS) as pool:
        for way in [by_module, lambda case: by_stream(case, 64)] * THREADS:
            found += [("threads", it, answer) for it, answer in zip(tried, pool.map(way, tried))]
    failed = [it for it in found if not it[1].answer.matches(it[2])]
    for way, case, answer in failed:
        print(f"library: {way}: {case.path}\n  expected {case.answer}\n  found    {answer}")
    wrong = {case.path for _, case, _ in failed}
    return cases.report("library, cases", len(tried) - len(wrong), len(wrong))


def main() -> int:
    for it in chunks, streams, buffers, long_texts, arguments, wrong_types, as_program:
        it()
    libraries()
    pools()
    stacks(Path(sys.argv[1]))
    is_right = cases.report("library, Python", right, wrong)
    return 0 if all_cases(sys.argv[2:]) and is_right else 1


if __name__ == "__main__":
    sys.exit(main())
