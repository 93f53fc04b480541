"""Measures the library's calls on a text in memory beside the program on the same text in a file.

library.py PROGRAM LIBRARY: prints a table of processor time, user and system together. BENCH_BYTES
is the size of the text, of headers of BENCH_HEADERS, and BENCH_RUNS the number of rounds.
"""

import ctypes
import os
import sys
import tempfile
import time
import timeit
from pathlib import Path

import texts

BYTES = int(os.environ.get("BENCH_BYTES", "100000000"))
HEADERS = os.environ.get("BENCH_HEADERS", "/usr/include")
ROUNDS = int(os.environ.get("BENCH_RUNS", "5"))
CHUNK = 65_536
program, os.environ["UNIFDEF_LIBRARY"] = sys.argv[1], os.path.abspath(sys.argv[2])
sys.path.insert(0, str(Path(__file__).resolve().parent.parent / "lib" / "python"))

from unifdef._library import Sizes, StreamState, library  # noqa: E402

text = texts.files(HEADERS, "*.h", BYTES, [program])
words = b"".join(word.encode() + b"\0" for word in texts.DECIDED)
# The buffers stay from round to round.
output, message = ctypes.create_string_buffer(len(text) + 1), ctypes.create_string_buffer(256)


def whole():
    ends = (output, len(output), message, len(message), Sizes())
    assert library.unifdef_text(words, len(words), text, len(text), *ends) in (0, 1)


def stream():
    """Feeds the text in chunks, and takes what has come after each."""
    state, size = StreamState(), ctypes.c_size_t()
    assert library.unifdef_open(state, words, len(words)) == 0
    for at in range(0, len(text), CHUNK):
        chunk = text[at : at + CHUNK]
        assert library.unifdef_feed(state, chunk, len(chunk)) == 0
        library.unifdef_take(state, output, len(output), size)
    library.unifdef_finish(state, message, len(message), size)
    library.unifdef_close(state)


def least_of(work):
    """Returns the least processor time of some rounds."""
    return min(timeit.repeat(work, timer=time.process_time, number=1, repeat=ROUNDS))


with tempfile.NamedTemporaryFile() as file:
    file.write(text)
    file.flush()
    command = [program, *texts.DECIDED]
    of_program = min(texts.finished(command, file.name, os.devnull) for _ in range(ROUNDS))
print(f"\nThe library on {len(text):,} bytes\n\n| | MB/s |\n| --- | --- |")
for name, seconds in {
    "`unifdef_text`, the whole text": least_of(whole),
    f"a stream, chunks of {CHUNK:,} bytes": least_of(stream),
    "the program, from a file to /dev/null": of_program,
}.items():
    print(f"| {name} | {len(text) / seconds / 1e6:,.0f} |")
