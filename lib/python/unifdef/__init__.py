"""unifdef(1) over bytes in memory, with the library libunifdef.

    >>> import unifdef
    >>> unifdef.run(b"#ifdef A\\nx\\n#else\\ny\\n#endif\\n", "-DA").output
    b'x\\n'

`python3 -m unifdef ARGUMENT...` is the filter, and `python3 -m unifdef --test` runs these examples.
The library is the file that the environment's UNIFDEF_LIBRARY names, or the installed one.

A text is any object with bytes: bytes, bytearray, memoryview, mmap. Each option is a separate
argument. So is the operand, the file's name in messages. It may be an os.PathLike, which is never
an option, even if it begins with `-`.

Only a `Stream` keeps anything, so any number of threads may call at once, each with its own
streams. Calls release the interpreter's lock.
"""

from __future__ import annotations

import ctypes
import os
import re
from types import TracebackType
from typing import TYPE_CHECKING, Iterable, Iterator, NamedTuple, NoReturn, Optional, Type, Union

from ._library import (
    BAD_WORDS,
    CLOSED,
    NO_MEMORY,
    TOO_LONG,
    TOO_SMALL,
    TROUBLE,
    Sizes,
    StreamState,
    library,
)

if TYPE_CHECKING:
    from _typeshed import ReadableBuffer
else:  # What typing.get_type_hints finds.
    ReadableBuffer = Union[bytes, bytearray, memoryview]

__all__ = [
    "Answer",
    "Stream",
    "Trouble",
    "condition",
    "names",
    "run",
    "strip",
    "strip_chunks",
    "version",
]
__version__ = "1.0"


def __dir__() -> list[str]:
    """Returns the public names, without the modules that are used here."""
    return [*__all__, "__version__", "__doc__"]


Word = Union[str, bytes, "os.PathLike[str]", "os.PathLike[bytes]"]

# The most bytes to feed or take at once, and the shortest text to feed so.
CHUNK = 65536
LONG = 16 * CHUNK


class Answer(NamedTuple):
    """The program's output and message for a text, and its exit status."""

    output: bytes
    message: str
    status: int


class Trouble(ValueError):
    """The arguments or the text have a fault. `answer` has the output for the text before it."""

    def __init__(self, answer: Answer, *arguments: Word) -> None:
        super().__init__(answer, *arguments)  # A copy is made of these, as in another process.
        self.answer = answer
        self.arguments = arguments

    def __str__(self) -> str:
        """Returns the message, with the argument that it gives by number."""
        message = self.answer.message.rstrip("\n")
        counted = re.fullmatch(r"unifdef: Bad .* in word (\d+)", message)
        if not counted or int(counted[1]) > len(self.arguments):
            return message
        word = self.arguments[int(counted[1]) - 1]
        return f"{message}: {word!r}" + (_EACH if " " in os.fsdecode(word) else "")


def run(text: ReadableBuffer, *arguments: Word) -> Answer:
    """Returns the answer of unifdef(1) to `text` and these arguments, even if it is a fault.

    Raises `ValueError` if an argument has a zero byte.

    >>> run(b"#if A\\nx\\n#endif\\n", "-DA=1")
    Answer(output=b'x\\n', message='', status=1)
    >>> run(b"x\\n#endif\\n", "-DA", "a.c")
    Answer(output=b'x\\n', message='unifdef: a.c: 2: Inappropriate #endif\\n', status=2)
    """
    words = _words(arguments)
    with _view(text, "text") as view:
        if view.nbytes >= LONG:
            return _run_long(view, arguments)
        return _run_short(text if isinstance(text, bytes) else view.tobytes(), words)


def _run_short(text: bytes, words: bytes) -> Answer:
    """Returns the answer of unifdef(1) to a text, in one call."""
    sizes = Sizes(len(text), len(words) + 80)
    while True:
        output = ctypes.create_string_buffer(max(sizes.output, 1))
        message = ctypes.create_string_buffer(max(sizes.message, 1))
        status = library.unifdef_text(
            words, len(words), text, len(text), output, len(output), message, len(message), sizes
        )
        if status != TOO_SMALL:
            written = ctypes.string_at(output, sizes.output)
            return Answer(written, _told(message, sizes.message), status)


def _run_long(text: memoryview, arguments: tuple[Word, ...]) -> Answer:
    """Returns the answer of unifdef(1) to a text by a stream, which is faster for a long text."""
    try:
        with Stream(*arguments) as stream:
            output = stream.feed(text)
            answer = stream.finish()
    except Trouble as trouble:
        return trouble.answer
    return answer._replace(output=output + answer.output if answer.output else output)


def strip(text: ReadableBuffer, *arguments: Word, prune_conditions: bool = False) -> bytes:
    """Returns the output for `text` with these arguments. Raises `Trouble` if there is a fault.

    With `prune_conditions`, also removes operands that the arguments decide from conditions.

    >>> strip(b"#ifndef A\\nx\\n#endif\\ny\\n", "-DA")
    b'y\\n'
    >>> strip(b"#if A || X\\n#endif\\n", "-UA", prune_conditions=True)
    b'#if X\\n#endif\\n'
    >>> strip(b"#ifdef A\\n", "-DA")
    Traceback (most recent call last):
    unifdef.Trouble: unifdef: stdin: 1: Premature EOF (#if line 1)
    >>> strip(b"#ifdef A\\n", "-DA -UB")
    Traceback (most recent call last):
    unifdef.Trouble: unifdef: Bad symbol in word 1: '-DA -UB'; each option is an argument of its own
    """
    answer = run(text, *arguments)
    if answer.status == TROUBLE:
        raise Trouble(answer, *arguments)
    return _pruned(answer.output, _words(arguments)) if prune_conditions else answer.output


def _pruned(text: bytes, words: bytes) -> bytes:
    """Returns a text without the operands that these words, which have no fault, decide."""
    size = ctypes.c_size_t()
    output = ctypes.create_string_buffer(max(len(text), 1))
    pruned = library.unifdef_prune(words, len(words), text, len(text), output, len(output), size)
    if pruned < 0:
        raise _ERRORS[pruned](_REASONS[pruned])
    return ctypes.string_at(output, size.value)


class Stream:
    """unifdef(1) over a text that comes in chunks. A chunk may end anywhere.

    >>> with Stream("-DA") as stream:
    ...     stream.feed(b"#ifdef A\\nx\\n#el"), stream.feed(b"se\\ny\\n#endif\\nz"), stream.finish()
    (b'x\\n', b'', Answer(output=b'z', message='', status=1))

    Memory doesn't grow with the text. A stream is for one thread at a time.
    """

    def __init__(self, *arguments: Word) -> None:
        """Begins a text. Raises `Trouble` if the arguments have a fault."""
        self._stream = StreamState()
        self.faulty = False  # Whether the text so far has a fault.
        self._words = _words(arguments)
        self._buffer = ctypes.create_string_buffer(CHUNK)
        error = library.unifdef_open(self._stream, self._words, len(self._words))
        if error == NO_MEMORY:
            raise MemoryError(_REASONS[error])
        if error != 0:
            raise Trouble(run(b"", *arguments), *arguments)

    def feed(self, chunk: ReadableBuffer) -> bytes:
        """Returns the output for the lines that end in `chunk`.

        After a fault of the text, returns b""; `faulty` is true, and `finish` returns the fault.
        """
        output: list[bytes] = []
        for part in _parts(chunk, "chunk"):
            fed = library.unifdef_feed(self._stream, part, len(part))
            self.faulty = self.faulty or fed == TROUBLE
            if fed == CLOSED:
                raise ValueError("the stream is closed, or its text has ended")
            if fed == NO_MEMORY:
                raise MemoryError(_REASONS[fed])
            output += self._taken()
            if self.faulty:
                break
        return b"".join(output)

    def finish(self) -> Answer:
        """Ends the text. Returns the rest of the output, and the message and status for all."""
        size = ctypes.c_size_t(len(self._words) + 80)
        while True:
            message = ctypes.create_string_buffer(max(size.value, 1))
            status = library.unifdef_finish(self._stream, message, len(message), size)
            if status == CLOSED:
                raise ValueError("the stream is closed")
            if status != TOO_SMALL:
                return Answer(b"".join(self._taken()), _told(message, size.value), status)

    def close(self) -> None:
        """Frees the memory of the stream. Later calls raise `ValueError`."""
        library.unifdef_close(self._stream)

    def _taken(self) -> Iterator[bytes]:
        """Yields the output that can be taken."""
        pending = ctypes.c_size_t(1)
        while pending.value != 0:
            taken = library.unifdef_take(self._stream, self._buffer, CHUNK, pending)
            yield ctypes.string_at(self._buffer, taken)

    def __reduce__(self) -> NoReturn:
        """Refuses copies, which would share the memory of the stream."""
        raise TypeError("a Stream can't be copied or pickled")

    def __enter__(self) -> Stream:
        return self

    def __exit__(
        self,
        kind: Optional[Type[BaseException]],
        error: Optional[BaseException],
        trace: Optional[TracebackType],
    ) -> None:
        self.close()

    def __del__(self) -> None:
        if hasattr(self, "_stream"):
            self.close()


def strip_chunks(chunks: Iterable[ReadableBuffer], *arguments: Word) -> Iterator[bytes]:
    """Yields the output for a text in chunks, as it comes.

    At a fault, takes no further chunk, and raises `Trouble` after the output for the text before.

    >>> b"".join(strip_chunks([b"#ifdef A\\n", b"x\\n#endif", b"\\ny\\n"], "-UA"))
    b'y\\n'
    """
    with Stream(*arguments) as stream:
        for chunk in chunks:
            if output := stream.feed(chunk):
                yield output
            if stream.faulty:
                break
        answer = stream.finish()
        if answer.output:
            yield answer.output
        if answer.status == TROUBLE:
            raise Trouble(answer, *arguments)


def condition(expression: ReadableBuffer, *arguments: Word) -> Optional[bool]:
    """Returns whether the expression of an `#if` is true, or None if the arguments don't decide it.

    Raises `Trouble` if the arguments have a fault.

    >>> condition(b"A && B", "-UA"), condition(b"A && B", "-DA")
    (False, None)
    """
    words, text = _words(arguments), _bytes(expression, "expression")
    found = library.unifdef_condition(words, len(words), text, len(text))
    if found == BAD_WORDS:
        raise Trouble(run(b"", *arguments), *arguments)
    if found < 0:
        raise _ERRORS[found](_REASONS[found])
    return {0: False, 1: True, 2: None}[found]


def names(expression: ReadableBuffer) -> list[bytes]:
    """Returns the names in the expression of an `#if`, or none if it can't be understood.

    >>> names(b"defined(A) && B > F(C)")
    [b'A', b'B', b'F']
    """
    text = _bytes(expression, "expression")
    size = ctypes.c_size_t(2 * len(text) + 1)
    block = ctypes.create_string_buffer(size.value)
    found = library.unifdef_names(text, len(text), block, len(block), size)
    if found < 0:
        raise _ERRORS[found](_REASONS[found])
    return block.raw[: size.value].split(b"\0")[:-1]


def version() -> tuple[int, int]:
    """Returns the version of the library: the numbers before and after the point.

    >>> version() >= (1, 0)
    True
    """
    number = library.unifdef_version()
    return number // 10000, number % 10000 // 100


_ERRORS = {NO_MEMORY: MemoryError, TOO_LONG: ValueError}
_EACH = "; each option is an argument of its own"
_REASONS = {NO_MEMORY: "memory was refused", TOO_LONG: "the expression is too long"}


def _words(arguments: tuple[Word, ...]) -> bytes:
    """Returns the arguments in the library's form: each with a zero byte after it."""
    return b"".join(_word(number, it) + b"\0" for number, it in enumerate(arguments, 1))


def _word(number: int, argument: Word) -> bytes:
    """Returns the bytes of an argument. It has no zero byte, like any argument of a program.

    A path is no option, so one that begins like an option gets `./` before it.
    """
    try:
        word = os.fspath(argument)
    except TypeError:
        kind = type(argument).__name__
        reason = f"argument {number} must be str, bytes or os.PathLike, not {kind}"
        raise TypeError(reason + _EACH) from None
    word = word.encode(errors="surrogateescape") if isinstance(word, str) else word
    if b"\0" in word:
        raise ValueError(f"argument {number} has a zero byte")
    is_path = not isinstance(argument, (str, bytes))
    return b"./" + word if is_path and word.startswith(b"-") else word


def _view(data: ReadableBuffer, name: str) -> memoryview:
    """Returns the bytes of a buffer, copied only if they aren't contiguous."""
    try:
        view = memoryview(data)
    except TypeError:
        kind = type(data).__name__
        reason = f"{name} must be bytes or another buffer, not {kind}"
        raise TypeError(reason + "; encode it" * (kind == "str")) from None
    return view.cast("B") if view.nbytes and view.c_contiguous else memoryview(view.tobytes())


def _bytes(data: ReadableBuffer, name: str) -> bytes:
    """Returns the bytes of a buffer."""
    with _view(data, name) as view:
        return data if isinstance(data, bytes) else view.tobytes()


def _parts(data: ReadableBuffer, name: str) -> Iterator[bytes]:
    """Yields the bytes of a buffer, `CHUNK` at a time, or one empty part if there are none."""
    if isinstance(data, bytes) and len(data) <= CHUNK:
        yield data
        return
    with _view(data, name) as view:
        for begin in range(0, max(view.nbytes, 1), CHUNK):
            yield view[begin : begin + CHUNK].tobytes()


def _told(message: ctypes.Array[ctypes.c_char], size: int) -> str:
    """Returns the message that the library wrote to a buffer."""
    return message.raw[:size].decode(errors="surrogateescape")
