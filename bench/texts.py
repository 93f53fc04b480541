"""The texts on which compare.py and library.py measure, their options, and what a run takes."""

import fcntl
import os
import random
import re
import shutil
import subprocess
import sys
import termios
from concurrent.futures import ThreadPoolExecutor
from pathlib import Path

DECIDED = ["-D__cplusplus", "-U__KERNEL__"]
COMMENTS = b"""/* What the function below does, in words that nobody would leave out;
 * each line begins with a star, as in many a source, and isn't short.
 * Quotes don't matter here, nor does a # at its usual place.
 */
int value; // a comment that ends with its line
"""
SMALL = """#ifndef SMALL_{0}_H\n#define SMALL_{0}_H\n\n/* Small. */\n#ifdef __cplusplus
extern "C" {{\n#endif\nint small_{0}(int value);\n#ifdef __cplusplus\n}}\n#endif\n\n#endif
"""


def c_words(symbols):
    """Returns options for two symbols that real headers test, and others that they don't have."""
    others = [f"-DOCCURS_NOWHERE_{n}={n}" for n in range(symbols - len(DECIDED))]
    return [*DECIDED, *others][:symbols]


def right_body(path, programs):
    """Returns a file's bytes, or nothing if the programs find a fault, or differ but for -s."""
    for mode in ([], ["-t"], ["-s"]):
        commands = ([program, *mode, *DECIDED, path] for program in programs)
        runs = [subprocess.run(command, capture_output=True) for command in commands]
        answers = {(run.returncode, run.stdout) for run in runs}
        differ = len(answers) > 1 and mode != ["-s"]
        if differ or any(status not in (0, 1) for status, _ in answers):
            return b""
    return path.read_bytes() + b"\n"


def files(directory, pattern, limit, programs):
    """Returns at least `limit` bytes of whole files in a fixed random order, repeated as needed."""
    paths = sorted(path for path in Path(directory).rglob(pattern) if path.is_file())
    random.Random(1).shuffle(paths)
    text = bytearray()
    with ThreadPoolExecutor(os.cpu_count()) as pool:
        while paths and len(text) < limit:
            text += b"".join(pool.map(lambda path: right_body(path, programs), paths[:64]))
            del paths[:64]
    if not text:
        raise SystemExit(f"bench: no {pattern} in {directory}")
    return bytes(text) * -(-limit // len(text))


def conditional_words(symbols):
    """Returns options for every other name of `conditionals`: three in four are defined."""
    every = range(0, 2 * symbols, 2)
    return [f"-UNAME_{n:04}" if n % 8 == 0 else f"-DNAME_{n:04}={n % 3}" for n in every]


def conditionals(limit, symbols):
    """Returns conditionals alone, 16 bytes a line, over twice as many names as options."""
    rng = random.Random(symbols)
    form = "#ifdef {}\n#if {} > 1 && {}\n#elif !defined({})\n#endif\n#else\n#endif\n"
    names = (f"NAME_{rng.randrange(2 * symbols):04}" for _ in range(limit // 94 * 4))
    return "".join(form.format(*it) for it in zip(names, names, names, names)).encode()


def check(command, status):
    if status not in (0, 1):
        sys.exit(f"bench: status {status}: {' '.join(map(str, command))[:200]}")


def finished(command, source, output):
    """Returns the processor time of one run in seconds."""
    actions = [
        (os.POSIX_SPAWN_OPEN, 0, source, os.O_RDONLY, 0),
        (os.POSIX_SPAWN_OPEN, 1, output, os.O_WRONLY | os.O_CREAT, 0o600),
    ]
    pid = os.posix_spawn(shutil.which(command[0]), command, os.environ, file_actions=actions)
    _, status, usage = os.wait4(pid, 0)
    check(command, os.waitstatus_to_exitcode(status))
    return usage.ru_utime + usage.ru_stime


def peak(command, source):
    """Returns the peak memory in KiB of a run that has read all of a pipe and waits for more."""
    child = subprocess.Popen(command, stdin=subprocess.PIPE, stdout=subprocess.DEVNULL, bufsize=0)
    with open(source, "rb") as text:
        shutil.copyfileobj(text, child.stdin)
    waits, most = False, 0
    while not waits:
        unread = any(fcntl.ioctl(child.stdin, termios.FIONREAD, bytes(4)))
        state = Path(f"/proc/{child.pid}/status").read_text()
        waits = not unread and "State:\tR" not in state
        most = int((re.findall(r"VmHWM:\s*(\d+)", state) or [0])[0])
    child.stdin.close()
    check(command, child.wait())
    return most


def counted(command, text):
    """Returns the number of instructions of a run on a text, by valgrind's callgrind."""
    valgrind = ["valgrind", "--tool=callgrind", "--callgrind-out-file=/dev/null"]
    ended = subprocess.run([*valgrind, *command], input=text, capture_output=True)
    return int(re.search(rb"Collected : (\d+)", ended.stderr).group(1))
