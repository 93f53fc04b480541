#!/usr/bin/env python3
"""Tries wrong edits of the crates, many in one check: the prover must refuse each (`make edits`).

    tools/edits.py [--all] [--alone] [CRATE ..]     RT is Rattle's command
    tools/edits.py --read                           reads all edits, and tries none

The edits are those of `must-fail` that the gate doesn't try (tools/gate.py), and with --all those
of `must-fail-second` too. The crates are proved first (tools/prove.py), and edited in copies, where
`rt check` runs over what the proof kept.

Edits of different functions are checked together. Callers rest on a contract and never on a body,
so the goals of a function fail only for its own edit. An edit is refused if such a goal fails: an
obligation inside the function, or an answer in its directory of `proofs`. The others are checked
again without those that are refused; if none is, in halves, and at last each alone. An edit outside
a body is checked alone, and so is each with --alone.

An answer may fail though the contract accepts the body, since it was written for another one. So an
edit of which answers alone fail is checked once more without those answers. It is refused if the
prover finds values at which a goal is false, and else it isn't decided.

An edit may be of definitions of a crate below, in files such as `../ud_model/specs/FILE.antt`. It
is checked alone in each crate from that one up to its own, until one check refuses it.

The status is 1 if an edit is proved or can't be tried: if an old text isn't in its file exactly
once, two edits of a crate have one name, or an edit doesn't compile. It is 1 too if more edits than
MOST_OPEN aren't decided.
"""
import argparse
import collections
import concurrent.futures
import glob
import re
import shutil
import subprocess
import sys
import tempfile
import time
from pathlib import Path

from files import text_of
from gate import is_of_gate, jobs
from prove import CAUGHT, HERE, RT, Build, Commands, at_or_below, end_by_signals
from prove import found_repository, libraries, link
from results import report

REFUSED, OPEN, PROVED, BAD = "refused", "not decided", "PROVED", "BAD EDIT"

# The line on which a function begins. `const fn` is left out: a type may rest on the body.
FUNCTION = re.compile(r'( *)(?:pub(?:\([a-z: ]+\))? )?(?:unsafe )?(?:extern "C" )?fn (\w+)')

# The directories of edits of a crate, those that `.ci/run` tries and further ones, each with the
# most edits of all crates that may stay undecided.
MOST_OPEN = {"must-fail": 20, "must-fail-second": 70}
DIRECTORIES = list(MOST_OPEN)

# A file that an edit may change: one of the crate itself, or definitions of a crate below.
EDITABLE = re.compile(r"(?:(?:src|specs|proofs)|\.\./(\w+)/specs)/(?!.*\.\.)")

# A failed obligation, an error in what is written of a function's proof, and any error.
OBLIGATION = re.compile(r"note: (?:\./)?(src/\S+?\.rt):(\d+):\d+: (?=.*is not proved that)")
ANSWER = re.compile(r"(?:\./)?proofs/(\S+)/(?:Answers|Invariants|Proof)\.antt:\d+:\d+: error: ")
ERROR = re.compile(r"(?:note: )?(?:\./)?\S+:\d+:\d+: error")

# An error in an answer, and what a check says of a goal that is false.
IN_ANSWER = re.compile(r"(?:\./)?(proofs/\S+/Answers\.antt):(\d+):\d+: error: ")
FALSE = "the facts known there allow values at which this goal is false"

# An error that shows only that an edit took away a name, and says little of the contract.
NAME = re.compile(r"has no field|is not in scope|has no `|was not admitted")


# A function, by the numbers of its lines. After `head` come its body, and a law's contract.
Function = collections.namedtuple("Function", "path name first head last")


def functions_of(path, text):
    """Returns the functions of a file: from their attributes to the first brace as deep as `fn`."""
    lines, found = text.split("\n"), []
    for begin, line in enumerate(lines, 1):
        named = FUNCTION.match(line)
        if not named:
            continue
        (deep, name), first = named.groups(), begin
        while first > 1 and re.match(rf"{deep}[^\s}}].*[^;{{}}]$|{deep}\s", lines[first - 2]):
            first -= 1
        below = list(enumerate(lines[begin - 1 :], begin))
        body = next((n for n, it in below if re.match(rf"{deep}(\S.*)?\{{\}}?$", it)), begin)
        ends = (n for n, it in below if re.match(rf"{deep}(\S.*\{{)?\{{?\}}$", it) and n >= body)
        last, head = next(ends, None), first if name.startswith("law_") else body
        if last:
            found.append(Function(path, name, first, head, last))
    return found


class Edit:
    """An edit: pairs of an old and a new text, each with its file."""

    def __init__(self, file):
        self.name, self.pairs = Path(file).stem, []
        self.is_of_gate = is_of_gate(file)
        path = old = None
        for key, text in re.findall("^(file|old|new): ?(.*)", text_of(file), re.MULTILINE):
            if key == "file":
                path = text.strip()
            elif key == "old":
                old = text
            else:
                self.pairs.append((path, old, text))

    def apply(self, texts, read):
        """Returns the texts with this edit, and the functions that it changes: none if something
        else is changed too. Returns None if an old text isn't there exactly once."""
        texts, changed, is_inside = dict(texts), set(), True
        for path, old, new in self.pairs:
            if not old or not EDITABLE.match(path or ""):
                return None
            text = texts.get(path) or read(path)
            if text.count(old) != 1:
                return None
            line = text[: text.index(old)].count("\n") + 1
            functions = functions_of(path, text) if path.startswith("src/") else []
            inside = [it for it in functions if it.head < line < it.last]
            changed |= {(it.path, it.name) for it in inside[-1:]}
            is_inside &= bool(inside)
            texts[path] = text.replace(old, new)
        return (texts, changed if is_inside else set()) if self.pairs else None

    def below(self):
        """Returns the crates below that this edit changes, in their order."""
        named = [EDITABLE.match(path or "") for path, _, _ in self.pairs]
        return list(dict.fromkeys(it[1] for it in named if it and it[1]))


COMMANDS = Commands()


def link_kept(source, target):
    """Links a proof that a check kept, which the next one replaces. Copies any other file."""
    (link if source.endswith(".oantt") else shutil.copy2)(source, target)


class Room:
    """A copy of a crate, with what earlier checks kept of it, beside links to those below it."""

    def __init__(self, place, top, crate, below, edited):
        self.directory, self.checks = f"{place}/crates/{crate}", 0
        # Those below from the first one that is edited, which are all checked again.
        first = min([below.index(it) for it in edited], default=len(below))
        self.below = below[first:]
        found_repository(top, place, (*below, crate))
        for it in (*below, crate):
            # Of what was made of a crate that isn't checked, only the library is needed.
            how = {"ignore": shutil.ignore_patterns("incremental"), "copy_function": link}
            how = {"copy_function": link_kept} if it in (*self.below, crate) else how
            shutil.copytree(f"{top}/crates/{it}", f"{place}/crates/{it}", **how)

    def read(self, path):
        return text_of(f"{self.directory}/{path}", "")

    def write(self, texts):
        for path, text in texts.items():
            Path(self.directory, path).write_text(text, encoding="utf-8")

    def check(self, texts):
        """Returns the status of the check of some texts, and the lines that it prints."""
        own = {path: self.read(path) for path in texts}
        edited = any(path.startswith("../") for path in texts)
        self.write(texts)
        try:
            for crate in [*(f"../{it}" for it in self.below if edited), "."]:
                how = {"cwd": f"{self.directory}/{crate}", "stdin": subprocess.DEVNULL, **CAUGHT}
                check = COMMANDS.start([RT, "check", "--jobs", "1"], **how)
                said, _ = check.communicate()
                self.checks += 1
                if check.returncode:
                    break
        finally:
            self.write(own)
        if COMMANDS.is_stopped:
            sys.exit("edits: stopped")
        return check.returncode, said.rstrip().split("\n")


class Batch:
    """Edits that are checked together, each of functions of its own."""

    def __init__(self):
        self.texts, self.edits, self.names = {}, [], set()

    def add(self, edit, read, alone):
        """Adds an edit if no other one is of a function of the same name. Returns whether it is."""
        applied = edit.apply(self.texts, read)
        names = {name for _, name in applied[1]} if applied else set()
        if self.edits and (alone or not names or not self.names or names & self.names):
            return False
        self.texts, self.names = applied[0], self.names | names
        self.edits.append((edit, applied[1]))
        return True

    def reasons(self, said, room):
        """Returns each edit's failed goals of its functions: none if anything else fails too."""
        every, found = [], {}
        for it in Path(room.directory).glob("src/**/*.rt"):
            path = str(it.relative_to(room.directory))
            every += functions_of(path, self.texts.get(path) or room.read(path))
        for line in said:
            places = owners_of(line, every)
            if places is None:
                continue
            mine = [edit for edit, changed in self.edits if changed & places]
            if not mine:
                return {}
            found.setdefault(mine[0], []).append(line)
        return found


def owners_of(line, every):
    """Returns the path and name of functions that a line calls unproved. None if it's no error."""
    at, answer, owners = OBLIGATION.match(line), ANSWER.match(line), []
    if at:
        owners = [it for it in every if it.path == at[1] and it.first <= int(at[2]) <= it.last][-1:]
    elif answer:
        # MODULE/TYPE/NAME or MODULE/NAME, with the type's module, or none for the crate's root.
        named = [it for it in every if it.name == answer[1].split("/")[-1]]
        module_of = {it: re.sub(r"(^|/)lib$", "", it.path[4:-3]) for it in named}
        owners = [it for it in named if answer[1].startswith(module_of[it])]
        owners = owners or (named if len(named) == 1 else [])
    elif not ERROR.match(line):
        return None
    return {(it.path, it.name) for it in owners}


def batches_of(edits, read, alone):
    """Puts each edit into the first batch that it fits into."""
    found = []
    for edit in edits:
        if not any(it.add(edit, read, alone) for it in found):
            found.append(Batch())
            found[-1].add(edit, read, alone)
    return found


def is_unproved(status, said):
    """Returns whether a check failed for want of a proof, and not before."""
    return status == 1 and any(it.startswith("logic=not-proved") for it in said)


def first_of(goals):
    """Returns the failed goal that says most: if possible, one without a missing name or answer."""
    return min(goals, key=lambda it: (bool(NAME.search(it)), bool(IN_ANSWER.match(it))))


def verdict_of(status, said):
    """Returns the verdict on an edit that was checked alone, and the reasons."""
    if not status:
        return PROVED, ["the contract accepts it"]
    goals = [it for it in said if OBLIGATION.match(it) or ERROR.match(it)]
    unproved = [it for it in said if re.match(r"fn \S+: (?:not proved|no proof)", it)]
    goals = goals or unproved or said[-1:]
    return REFUSED if is_unproved(status, said) else BAD, goals


def try_edits(room, edits, alone):
    """Yields the name of each edit with the verdict and the reason."""
    answered = {}
    for edit, verdict, goals in try_batches(room, edits, alone):
        if verdict == REFUSED and all(map(IN_ANSWER.match, goals)) and edit.apply({}, room.read)[1]:
            answered[edit] = goals
        else:
            yield edit.name, verdict, first_of(goals)
    for batch in batches_of(answered, room.read, alone):
        yield from try_unanswered(room, batch, answered)


def without_answers(text, numbers):
    """Returns a file without the answers of some lines: without any if one is above them all."""
    lines, kept = text.split("\n"), []
    begins = [it for it, line in enumerate(lines) if re.match(r"(?:pub )?\S+ : ", line)]
    if min(numbers) <= min(begins, default=len(lines)):
        return "-- None.\n"
    for begin, end in zip([0, *begins], [*begins, len(lines)]):
        kept += [] if any(begin < it <= end for it in numbers) else lines[begin:end]
    return "\n".join(kept)


def try_unanswered(room, batch, answered):
    """Yields the same for a batch of edits of which answers alone have failed, without these."""
    mine, numbers = [edit for edit, _ in batch.edits], collections.defaultdict(set)
    for goal in (it for edit in mine for it in answered[edit]):
        path, number = IN_ANSWER.match(goal).groups()
        numbers[path].add(int(number))
    left = {path: without_answers(room.read(path), them) for path, them in numbers.items()}
    status, said = room.check({**batch.texts, **left})
    reasons = batch.reasons(said, room) if status else {}
    for edit in mine:
        goals = reasons.get(edit, [])
        false = [it for it in goals if FALSE in it]
        if not status or (reasons and not goals):
            yield edit.name, PROVED, "the contract accepts it without an answer"
        else:
            yield edit.name, REFUSED if false else OPEN, first_of(false or goals or answered[edit])


def try_batches(room, edits, alone):
    """Yields each edit with the verdict and its reasons."""
    left = batches_of(edits, room.read, alone)
    while left:
        batch = left.pop(0)
        status, said = room.check(batch.texts)
        if len(batch.edits) == 1:
            yield batch.edits[0][0], *verdict_of(status, said)
            continue
        reasons = batch.reasons(said, room) if is_unproved(status, said) else {}
        yield from ((edit, REFUSED, goals) for edit, goals in reasons.items())
        again = [edit for edit, _ in batch.edits if edit not in reasons]
        if reasons:
            # The others join the batches to come.
            again += [edit for it in left for edit, _ in it.edits]
            left = batches_of(again, room.read, alone)
            continue
        # If all are proved together, each is still tried alone. If none is refused though the check
        # fails, an edit may have broken it, and the halves show which one.
        half = len(again) // 2 if status else 0
        left += batches_of(again[:half], room.read, alone)
        left += batches_of(again[half:], room.read, alone or not status)


def edits_of(top, crate, directories):
    """Returns the edits in directories of a crate, and messages for those that can't be tried."""
    at, good, bad, names = f"{top}/crates/{crate}", [], [], set()
    files = [it for place in directories for it in sorted(glob.glob(f"{at}/{place}/*.edit"))]
    for edit in map(Edit, files):
        if edit.name in names:
            bad.append(f"{BAD} {crate}/{edit.name}: another edit has this name")
        elif not edit.apply({}, lambda path: text_of(f"{at}/{path}", "")):
            bad.append(f"{BAD} {crate}/{edit.name}: an old text isn't there exactly once")
        else:
            good.append(edit)
        names.add(edit.name)
    return good, bad


def say(*lines):
    """Prints lines, whole ones also if other crates are tried at the same time."""
    print("".join(f"{it}\n" for it in lines), end="", flush=True)


def run(top, crate, below, directories, alone):
    """Tries the edits of a crate that is proved, and returns their names by verdict."""
    found, begin = {REFUSED: [], OPEN: [], PROVED: [], BAD: []}, time.monotonic()
    every, bad = edits_of(top, crate, directories)
    edits = [it for it in every if not it.is_of_gate]
    with tempfile.TemporaryDirectory(prefix=".edits-", dir=top) as place:
        room = Room(place, top, crate, below, {name for it in edits for name in it.below()})
        for name, verdict, reason in try_edits(room, edits, alone):
            found[verdict].append(name)
            by = "a name is missing: " if NAME.search(reason) else ""
            say(f"{verdict:11} {crate}/{name}: {by}{reason[:160]}")
    say(*bad)
    found[BAD] += bad
    spent = time.monotonic() - begin
    say(f"edits: {crate}: {len(edits)} in {room.checks} checks, after {spent:.0f} s")
    return found


def run_all(crates, used, directories, alone):
    """Tries the edits of crates side by side, and returns how many there are of each verdict."""
    order = sorted(crates, key=lambda it: -len(edits_of(HERE, it, directories)[0]))
    count = collections.Counter()
    with concurrent.futures.ThreadPoolExecutor(jobs()) as pool:
        try:
            below = {it: at_or_below(it, used)[:-1] for it in order}
            runs = [pool.submit(run, HERE, it, below[it], directories, alone) for it in order]
            for it in concurrent.futures.as_completed(runs):
                count.update({verdict: len(names) for verdict, names in it.result().items()})
        except BaseException:
            pool.shutdown(wait=False, cancel_futures=True)
            COMMANDS.stop()
            raise
    return count


def conclude(count, directories):
    """Prints how many edits of these directories have each verdict, and returns the status."""
    most = sum(MOST_OPEN[it] for it in directories)
    undecided = f"{count[OPEN]} not decided, of at most {most}"
    print(f"edits: {undecided}; {count[PROVED]} proved, {count[BAD]} can't be tried")
    failed = count[PROVED] + count[BAD] + max(count[OPEN] - most, 0)
    report("edits", count[REFUSED], failed)
    return 1 if failed else 0


def main():
    how = {"usage": argparse.SUPPRESS, "formatter_class": argparse.RawDescriptionHelpFormatter}
    parser = argparse.ArgumentParser(description=__doc__, **how)
    parser.add_argument("crates", nargs="*")
    for flag in ("--all", "--alone", "--read"):
        parser.add_argument(flag, action="store_true")
    options, used = parser.parse_args(), libraries()
    if options.read:
        good, bad = (sum(it, []) for it in zip(*[edits_of(HERE, it, DIRECTORIES) for it in used]))
        say(*bad, f"edits: {len(good)} can be tried, {len(bad)} can't")
        return 1 if bad else 0
    unknown = [it for it in options.crates if it not in used]
    if unknown:
        return f"edits: crates.txt has no crate {unknown[0]}"
    directories = DIRECTORIES if options.all else DIRECTORIES[:1]
    crates = [it for it in options.crates or used if sum(map(len, edits_of(HERE, it, directories)))]
    if not Build(crates, split={}).run():
        return 1
    return conclude(run_all(crates, used, directories, options.alone), directories)


if __name__ == "__main__":
    end_by_signals()
    sys.exit(main())
