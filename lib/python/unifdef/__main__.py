"""unifdef(1) by the library: python3 -m unifdef [OPTION]... [FILE].

`python3 -m unifdef --test` runs the examples of the module.
"""

import doctest
import getopt
import signal
import sys
from typing import BinaryIO, Optional

import unifdef

# The options of unifdef(1), each with a colon if it has an argument.
LETTERS = "bcD:i:KklnSstU:x:"


def operand(arguments: list[str]) -> Optional[str]:
    """Returns the file among the arguments. Without one, the text is standard input."""
    try:
        files = getopt.getopt(arguments, LETTERS)[1]
    except getopt.GetoptError:  # The library says what is wrong.
        return None
    return files[0] if files and files[0] != "-" else None


def copy(stream: unifdef.Stream, text: BinaryIO) -> None:
    """Writes the output for the lines of a text, up to a fault."""
    while not stream.faulty and (chunk := text.read(unifdef.CHUNK)):
        sys.stdout.buffer.write(stream.feed(chunk))


def main(arguments: list[str]) -> int:
    """Returns the status of unifdef(1) with these arguments."""
    name = operand(arguments)
    try:
        with unifdef.Stream(*arguments) as stream:
            if name is None:
                copy(stream, sys.stdin.buffer)
            else:
                with open(name, "rb", buffering=0) as text:
                    copy(stream, text)
            answer = stream.finish()
    except unifdef.Trouble as trouble:
        answer = trouble.answer
    except OSError as error:
        answer = unifdef.Answer(b"", f"unifdef: {name or 'stdin'}: {error.strerror}\n", 2)
    sys.stdout.buffer.write(answer.output)
    sys.stdout.buffer.flush()
    sys.stderr.write(answer.message)
    return answer.status


if __name__ == "__main__":
    signal.signal(signal.SIGPIPE, signal.SIG_DFL)  # As for any filter.
    if sys.argv[1:] == ["--test"]:
        sys.exit(1 if doctest.testmod(unifdef).failed else 0)
    sys.exit(main(sys.argv[1:]))
