#!/usr/bin/env python3
"""Tries tools/edits.py on a crate with wrong and right edits (`make edits-test`).

The wrong ones are to be refused. The right ones change the contract of a law, which stays true,
or a body under its contract, also that of a caller of a function with a wrong edit. They are to be
proved, although all are checked together. Two edits are of bodies with an answer, which then fails:
without it, one is refused, and one isn't decided, as its contract accepts the body. One edit
doesn't compile. Three are of definitions of a crate below: one is refused there, one by the crate
itself, and one is proved.

At last, verdicts are counted. The status must be 1 if an edit is proved or bad, or if more aren't
decided than may be.
"""
import contextlib
import os
import sys
import tempfile
from collections import Counter
from pathlib import Path

sys.path.insert(0, f"{os.path.dirname(os.path.dirname(os.path.realpath(__file__)))}/tools")
from edits import BAD, MOST_OPEN, OPEN, PROVED, REFUSED, conclude, edits_of, run
from results import report

SOURCE = """\
//! Functions with contracts, for wrong and right edits.

#![tactic(auto)]

ghost use Rattle.std.specs.Prelude.{◌≡◌, ◌+◌, ◌<◌, ◌≤◌, ◌^◌, ℕ};
ghost use Rattle.lower.specs.Steps.{step, height};

pub fn lesser(a: u32, b: u32) -> u32
    ensures left { result ≤ a }
    ensures right { result ≤ b }
{
    if a < b { a } else { b }
}

pub fn successor(a: u32) -> u32
    requires { a < 100 }
    ensures { result ≡ a + 1 }
{
    let next = a + 1;
    next
}

pub fn origin() -> u32
    ensures { result ≡ 0 }
{
    let zero = 0;
    zero
}

pub fn same(a: u32) -> u32
    ensures { result ≡ a }
{
    let b = a;
    b
}

pub fn least(a: u32, b: u32, c: u32) -> u32
    ensures first { result ≤ a }
    ensures last { result ≤ c }
{
    lesser(lesser(a, b), c)
}

pub fn second(a: u32) -> u32
    requires { a < 99 }
    ensures { result ≡ a + 2 }
{
    successor(successor(a))
}

pub fn half(a: u32) -> u32
    requires { a < 100 }
    ensures { 2 ^ result ≤ 2 ^ a }
{
    let quotient = a / 2;
    quotient
}

pub fn third(a: u32) -> u32
    requires { a < 100 }
    ensures { 2 ^ result ≤ 2 ^ a }
{
    let quotient = a / 3;
    quotient
}

/// A number is less than the next one.
pub fn law_next()
    ensures { (n : ℕ) → n < n + 1 }
{}

/// A number is not larger than the next one.
pub fn law_order()
    ensures { (n : ℕ) → n ≤ n + 1 }
{}

/// A number is less than the one a step after it.
pub fn law_step()
    ensures more { (n : ℕ) → n < n + step }
    ensures few { height ≤ 5 }
{}
"""

# The crate below, and its definitions.
LOWER = """\
//! Definitions, and a law of them.

#![tactic(auto)]

ghost use Rattle.std.specs.Prelude.{◌≤◌};
ghost use Rattle.lower.specs.Steps.{step, height};

/// No step is as large as 9, and there are some.
pub fn law_small()
    ensures small { step ≤ 8 }
    ensures some { 1 ≤ height }
{}
"""
STEPS = """\
-- Steps: how much a step adds, and how many there are.
use Rattle.std.specs.Prelude.{ℕ}

-- `step`: what a step adds.
abbrev pub step : ℕ
step = 1

-- `height`: the number of steps.
abbrev pub height : ℕ
height = 3
"""

# The answers of the functions whose contracts no search proves, by the divisor of each.
ANSWERS = """\
-- By the order of powers.
use Rattle.std.proofs.Math.Nat.{{div-le_self}}
use Rattle.std.proofs.Math.Pow.{{pow_mono}}
use Rattle.control.proofs.{name}.Goals as goal

pub returns : goal.returns
returns c = pow_mono (div-le_self c.args.a {divisor})
"""

# The verdict on each edit, its name, its old and its new text. The first one breaks its batch.
EDITS = [
    (BAD, "broken_same", "let b = a;", "let b = c;"),
    (REFUSED, "half_is_more", "let quotient = a / 2;", "let quotient = a + 1;"),
    (REFUSED, "law_next_of_the_number_before", "n < n + 1", "n + 1 < n"),
    (REFUSED, "lesser_is_greater", "if a < b { a } else { b }", "if a > b { a } else { b }"),
    (REFUSED, "origin_is_1", "let zero = 0;", "let zero = 1;"),
    (REFUSED, "successor_skips_one", "let next = a + 1;", "let next = a + 2;"),
    (PROVED, "law_order_of_the_next_but_one", "n ≤ n + 1", "n ≤ n + 2"),
    (PROVED, "least_begins_at_the_end", "lesser(lesser(a, b), c)", "lesser(a, lesser(b, c))"),
    (PROVED, "second_calls_once", "successor(successor(a))", "successor(a) + 1"),
    (OPEN, "third_is_a_fourth", "let quotient = a / 3;", "let quotient = a / 4;"),
]
# Those of definitions of the crate below.
EDITS_BELOW = [
    (REFUSED, "law_small_of_large_steps", "step = 1", "step = 9"),
    (REFUSED, "law_step_adds_nothing", "step = 1", "step = 0"),
    (PROVED, "law_step_of_four", "height = 3", "height = 4"),
]
# Those of which one can't be applied, and one has the name of another.
UNREADABLE = [(BAD, "lesser_is_absent", "a % b", "b % a"), (BAD, "origin_is_1", "a / 2", "a / 1")]


def write(file, text):
    Path(file).parent.mkdir(parents=True, exist_ok=True)
    Path(file).write_text(text, encoding="utf-8")


def write_edits(directory, edits, path="src/lib.rt"):
    for _, name, old, new in edits:
        write(f"{directory}/{name}.edit", f"file: {path}\nold: {old}\nnew: {new}\n")


def statuses():
    """Returns whether each count of verdicts gives its status."""
    at_most = MOST_OPEN["must-fail"]
    rows = [
        ("refused edits pass", {REFUSED: 3}, 0),
        ("an edit that is proved fails", {REFUSED: 3, PROVED: 1}, 1),
        ("a bad edit fails", {REFUSED: 3, BAD: 1}, 1),
        ("as many undecided ones as may be pass", {REFUSED: 3, OPEN: at_most}, 0),
        ("one more fails", {REFUSED: 3, OPEN: at_most + 1}, 1),
    ]
    with contextlib.redirect_stdout(None):
        return {it: conclude(Counter(count), ["must-fail"]) == to for it, count, to in rows}


def main():
    with tempfile.TemporaryDirectory(prefix="edits-control-") as top:
        crate, lower = f"{top}/crates/control", f"{top}/crates/lower"
        write(f"{top}/crates.txt", "lower:\ncontrol: lower\n")
        write(f"{top}/HANDLES", "Handles allowed: none.\n")
        write(f"{lower}/src/lib.rt", LOWER)
        write(f"{lower}/specs/Lib.antt", "pub mod Steps\n")
        write(f"{lower}/specs/Steps.antt", STEPS)
        write(f"{crate}/src/lib.rt", SOURCE)
        for name, divisor in {"half": 2, "third": 3}.items():
            write(f"{crate}/proofs/{name}/Answers.antt", ANSWERS.format(name=name, divisor=divisor))
        write_edits(f"{crate}/must-fail", EDITS)
        write_edits(f"{crate}/must-fail", EDITS_BELOW, "../lower/specs/Steps.antt")
        write_edits(f"{crate}/must-fail-second", UNREADABLE)
        found = run(top, "control", ["lower"], ["must-fail"], False)
        unread = edits_of(top, "control", ["must-fail", "must-fail-second"])[1]
    wanted = sorted((verdict, name) for verdict, name, *_ in EDITS + EDITS_BELOW)
    is_right = wanted == sorted((verdict, name) for verdict in found for name in found[verdict])
    checks = {"exactly the wrong edits are refused": is_right and len(unread) == 2, **statuses()}
    for what, holds in checks.items():
        if not holds:
            print(f"edits-test: failed: {what}")
    count = Counter(checks.values())
    return 0 if report("edits-test", count[True], count[False]) else 1


sys.exit(main())
