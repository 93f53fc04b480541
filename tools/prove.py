#!/usr/bin/env python3
"""Proves the program and the crates below it, side by side, and builds the program (`make`).

    tools/prove.py [CRATE ..]     unifdef_cli by default; RT is Rattle's command, `rt` by default;
                                  UNIFDEF_CPU is the processor of a program, x86-64-v2 by default

A crate is proved as soon as the libraries that it uses are. Those with the longest chain above them
come first. What a crate prints is shown only if it fails, and then the others are stopped.

Rattle's command locks the directory of a crate, and those of the crates below it, while it proves
it. So each crate is proved in a directory of its own, with links to its files and to what the
crates below have become, and what it becomes is moved back.
"""
import contextlib
import os
import re
import shutil
import signal
import subprocess
import sys
import tempfile
import threading
import time

from files import TOP as HERE
from files import text_of

# Rattle's command, which is run in other directories.
RT = os.environ.get("RT", "rt")
RT = os.path.abspath(RT) if "/" in RT else RT
CPU = os.environ.get("UNIFDEF_CPU", "")
# How the output of a command comes, on both streams.
CAUGHT = {"stdout": subprocess.PIPE, "stderr": subprocess.STDOUT, "errors": "replace"}

# Those with the longest chain above them, which begin first.
FIRST = """ud_model ud_cond ud_text ud_sections ud_args ud_simplified
ud_io ud_passes ud_engine ud_replace unifdef ud_tree""".split()

# Among how many processors the longest checks are split, which take half as much time again.
SPLIT = {"ud_cond": 2, "ud_engine": 4}

# The free bytes of memory for a crate beside another one, and for a check that is split.
FREE = 6_000_000_000
FREE_FOR_ALL = 10_000_000_000

BEGIN = time.monotonic()


def say(name, text):
    """Prints a line on the error stream, with the time since the start."""
    seconds = int(time.monotonic() - BEGIN)
    print(f"{name}: {seconds // 60:2d}:{seconds % 60:02d}  {text}", file=sys.stderr, flush=True)


def libraries():
    """Returns each crate of crates.txt with the crates of this repository that it uses."""
    text = text_of(f"{HERE}/crates.txt")
    named = dict(re.findall(r"^(\w+)[^:\n#]*:([^\n#]*)", text, re.MULTILINE))
    return {crate: [it for it in used.split() if it in named] for crate, used in named.items()}


def at_or_below(crate, used):
    """Returns the crate and those below it, each after those that it uses."""
    found = []
    for it in used[crate]:
        found += [below for below in at_or_below(it, used) if below not in found]
    return [*found, crate]


def numbers_in(path, pattern=r"(\d+)"):
    """Returns the numbers in a file of the system that a pattern finds: none without the file."""
    every = re.finditer(pattern, text_of(path, ""))
    return [int(number) for found in every for number in found.groups()]


def free_memory():
    """Returns the free bytes of memory, also of the control group: 0 if the system doesn't say."""
    free = [1024 * it for it in numbers_in("/proc/meminfo", r"MemAvailable:\s+(\d+)")]
    limit, held = (numbers_in(f"/sys/fs/cgroup/memory.{it}") for it in ("max", "current"))
    free += [most - now for most, now in zip(limit, held)]
    return max(min(free, default=0), 0)


def processors():
    """Returns how many processors there are for this process, also by its control group's quota."""
    found = len(os.sched_getaffinity(0))
    quota = numbers_in("/sys/fs/cgroup/cpu.max", r"^(\d+) (\d+)")
    return max(min(found, quota[0] // quota[1]), 1) if quota else found


def end_by_signals():
    """Lets a signal end this program by an exception, so that it leaves nothing behind."""
    for number in (signal.SIGHUP, signal.SIGINT, signal.SIGTERM):
        signal.signal(number, lambda number, _: sys.exit(128 + number))


def link(source, target):
    """Links a file, or copies it where the file system has no links."""
    try:
        os.link(source, target)
    except OSError:
        shutil.copy2(source, target)


def take(made, target):
    """Copies a program, with its times, in one step, so that an interrupt leaves no half of it."""
    os.makedirs(os.path.dirname(os.path.abspath(target)), exist_ok=True)
    shutil.copy2(made, f"{target}.new")
    os.replace(f"{target}.new", target)


def found_repository(source, target, crates):
    """Makes a directory the top of a repository with some of the crates of another one."""
    shutil.copy2(f"{source}/HANDLES", target)
    lines = text_of(f"{source}/crates.txt").splitlines(keepends=True)
    with open(f"{target}/crates.txt", "w", encoding="utf-8") as it:
        it.writelines(line for line in lines if re.match(r"\w*", line)[0] in crates)


class Commands:
    """The commands that run in groups of their own, all of which can be stopped."""

    def __init__(self):
        self.lock, self.is_stopped, self.running = threading.Lock(), False, set()

    def start(self, words, **how):
        """Starts a command. Once they are stopped, none is."""
        with self.lock:
            if self.is_stopped:
                sys.exit("stopped")
            process = subprocess.Popen(words, start_new_session=True, **how)
            self.running.add(process)
        return process

    def stop(self):
        """Ends all that run, and what they started."""
        with self.lock:
            self.is_stopped = True
            left = [it for it in self.running if it.poll() is None]
            for number, seconds in ((signal.SIGTERM, 10), (signal.SIGKILL, None)):
                for it in left:
                    with contextlib.suppress(ProcessLookupError):
                        os.killpg(it.pid, number)
                for it in left:
                    with contextlib.suppress(subprocess.TimeoutExpired):
                        it.wait(seconds)
                left = [it for it in left if it.poll() is None]


class Run:
    """The check of one crate, in a directory of its own with those below it."""

    def __init__(self, crate, below, jobs, commands):
        self.crate, self.jobs, self.begin = crate, jobs, time.monotonic()
        self.log, self.top = tempfile.TemporaryFile(), tempfile.mkdtemp(prefix=".prove-", dir=HERE)
        found_repository(HERE, self.top, (*below, crate))
        for it in (*below, crate):
            source, target = f"{HERE}/crates/{it}", f"{self.top}/crates/{it}"
            without = {"ignore": shutil.ignore_patterns("out"), "copy_function": link}
            shutil.copytree(source, target, **without)
            if it != crate:
                shutil.copytree(f"{source}/out/rlib", f"{target}/out/rlib", copy_function=link)
        self.move_out(HERE, self.top)
        directory, words = f"{self.top}/crates/{crate}", ["lib", "--jobs", str(jobs)]
        if os.path.exists(f"{directory}/src/main.rt"):
            # `rt run` proves and builds before it runs. The words of the stored run give status 0.
            words = ["run", *words[1:], *(["--cpu", CPU] if CPU else []), "--"]
            words += text_of(f"{directory}/args", "").splitlines()
        how = {"stdin": subprocess.DEVNULL, "stdout": self.log, "stderr": self.log}
        self.process = commands.start([RT, *words], cwd=directory, **how)

    def move_out(self, source, target):
        """Moves what was made of the crate."""
        made, place = (f"{top}/crates/{self.crate}/out" for top in (source, target))
        if os.path.isdir(made):
            shutil.rmtree(place, ignore_errors=True)
            os.rename(made, place)

    def leave(self):
        """Moves what was made of the crate back, and removes the directory."""
        self.move_out(self.top, HERE)
        shutil.rmtree(self.top, ignore_errors=True)


class Build:
    """All checks of one build. `split` says among how many processors a check may be split."""

    def __init__(self, crates, split=None):
        self.used, self.left, self.split = libraries(), [], SPLIT if split is None else split
        for crate in crates:
            if crate not in self.used:
                sys.exit(f"prove: crates.txt has no crate {crate}")
            self.left += [it for it in at_or_below(crate, self.used) if it not in self.left]
        self.left.sort(key=lambda it: FIRST.index(it) if it in FIRST else len(FIRST))
        self.running, self.done, self.processors = [], set(), processors()
        self.commands = Commands()

    def ready(self):
        return [it for it in self.left if self.done.issuperset(self.used[it])]

    def start(self):
        for crate in self.ready():
            if self.running and (self.busy() >= self.processors or free_memory() < FREE):
                return
            self.left.remove(crate)
            below, jobs = at_or_below(crate, self.used)[:-1], self.jobs_of(crate)
            self.running.append(Run(crate, below, jobs, self.commands))
            say("prove", f"{crate} begins")

    def busy(self):
        return sum(it.jobs for it in self.running)

    def jobs_of(self, crate):
        """Returns among how many processors a check that starts now is split: those that no other
        check can use, if it is one of the longest, or two if nothing can run beside it."""
        others = self.busy() + len(self.ready())
        most = self.split.get(crate, 1 if others or not self.split else 2)
        if most > 1 and free_memory() < FREE_FOR_ALL:
            return 1
        return max(min(most, self.processors - others), 1)

    def end(self, run):
        """Notes that a check has ended, and returns whether the crate is proved."""
        self.running.remove(run)
        run.leave()
        status = run.process.returncode
        if status:
            run.log.seek(0)
            sys.stderr.buffer.write(run.log.read())
        else:
            self.done.add(run.crate)
        how = f"failed with status {status}" if status else "is proved"
        say("prove", f"{run.crate} {how} after {time.monotonic() - run.begin:.0f} s")
        return not status

    def run(self):
        try:
            while self.left or self.running:
                self.start()
                time.sleep(0.1)
                for it in [it for it in self.running if it.process.poll() is not None]:
                    if not self.end(it):
                        return False
            return True
        finally:
            self.commands.stop()
            for it in self.running:
                it.leave()


if __name__ == "__main__":
    end_by_signals()
    sys.exit(0 if Build(sys.argv[1:] or ["unifdef_cli"]).run() else 1)
