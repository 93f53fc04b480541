#!/usr/bin/env python3
"""Checks the language of comments and pages (CONTRIBUTING.md, "How we write").

    tools/style.py [FILE ..]     the files, or all of the repository (files.py)

Prints each finding as FILE:LINE: REASON, and exits with 1 if there is one. Text in backquotes is
left out, and counts as one word of its sentence. Rows of tables may be wide; `rt fmt` breaks code.
"""
import re
import sys

from files import text_of, tracked, without_code

COLUMNS = 100

# The most words of a sentence of a page. The rule has 25, and this leaves some to judgement.
WORDS_AT_MOST = 30

# Words and what to write in their place. There are more in pages, and still more in users' pages.
WORDS = {
    r"\b(a|the|each|its|some|this|in|any) front\b|\bfronts? of (the|a|its|all)\b": "prefix",
    r"\bbehind (the|a|its|it|them|these) (\w+ )?(bytes?|letters?|keyword|words?|sign)": "after",
    r"\b(in|of) pieces\b|\bpieces? of (the )?(input|text|at most)\b": "chunk",
    r"\broom for\b|\bhas no room\b|\b(a|long|short) room\b": "capacity, buffer",
    r"\b(is|are|was|were) (told|said|put|seen|had|lent|judged|turned|spoiled)\b": "set, returned",
    r"\bfolders?\b": "directory",
    r"\b(what is (left|seen|said|told|put|kept) of|worth|for good)\b": "the output for, the value",
}
PAGE_WORDS = {r"\bbeside\b": "next to, compared with"}
USER_WORDS = {r"\bfault(s|y)?\b": "error"}
USER_PAGES = re.compile(
    r"README\.md|CHANGELOG\.md|docs/(C|DIFFERENCES|EXAMPLES|PROVED)\.md|docs/.*\.[13]"
)

# How no item's comment begins.
OPENING = re.compile(r"^\s*(///|--) (Whether|What|How many|How far|Where|The same|As) ")

RUST_ITEM = re.compile(r"^\s*pub (?:const fn|fn|struct|enum|trait|const|type|union) (\w+)")
DEFINITION = re.compile(r"^ {0,2}(?:abbrev pub|unfoldable pub|pub data|pub record) ([^\s:({]+)")


# How a file's lines of comment begin. A page is all comment.
MARKS = {"rt": r"\s*//[/!]?(?!/)", "antt": r"\s*--", "script": r"\s*#(?!!)", "page": ""}
KINDS = {"md": "page", "1": "page", "3": "page", "rt": "rt", "antt": "antt"}
KINDS |= dict.fromkeys(("sh", "py", "Makefile", "crates.txt", "run"), "script")


def kind_of(path):
    """Returns how the comments of a file are written, or None if it has none to check."""
    name = path.rpartition("/")[2]
    return KINDS.get(name) or KINDS.get(name.rpartition(".")[2])


def may_be_wide(path, line, comment):
    """Returns whether a line isn't limited here, or can't be broken: a table's row or a link."""
    if path.endswith(".md"):
        return line.startswith("|") or ("](" in line and " " not in line.strip())
    return comment is None if path.endswith(".rt") else not re.search(r"/specs/.*\.antt$", path)


def findings(path, text):
    """Yields each finding, as a line's number and a reason."""
    kind, before = kind_of(path), None
    lines = (without_code(text) if kind == "page" else text).split("\n")
    for number, line in enumerate(lines, 1):
        comment = (re.findall(f"^{MARKS[kind]}(.*)", line) or [None])[0]
        if len(line) > COLUMNS and not may_be_wide(path, line, comment):
            yield number, f"{len(line)} columns, {COLUMNS} at most"
        words = WORDS
        # A manual's list of messages is left out.
        if kind == "page" and not line.startswith('.It "'):
            words = WORDS | PAGE_WORDS | (USER_WORDS if USER_PAGES.fullmatch(path) else {})
        for pattern, better in words.items():
            found = re.search(pattern, re.sub(r"`[^`]*`", "``", comment or ""), re.IGNORECASE)
            if found:
                yield number, f"'{found.group(0)}': {better}"
        if kind in ("rt", "antt") and before is None and OPENING.match(line):
            yield number, "an item's comment begins with a verb or a noun"
        before = comment
    yield from bare_items(path, lines)
    yield from unended_comments(path, lines)
    if path.endswith(".md"):
        yield from long_sentences(lines)


def sentences(lines):
    """Yields the first line of each sentence, and its text. A colon or a semicolon ends one too."""
    begun, text = 0, ""
    for number, line in enumerate([*lines, ""], 1):
        bare = line.strip()
        apart = bare == "" or bare.startswith(("|", "#", "!"))
        if apart or re.match(r"([-*]|\d+\.) ", bare):
            if text:
                yield begun, text
            begun, text = number, ""
        if apart:
            continue
        for part in re.split(r"(?<=[.:;?!])\s|(?<=[.:;?!][*)])\s|(?<=[.:;?!]\*\*)\s", bare):
            text, begun = (text + " " + part, begun) if text else (part, number)
            if re.search(r"[.:;?!][*)]*$", part):
                yield begun, text
                text = ""


def long_sentences(lines):
    for number, text in sentences(lines):
        text = re.sub(r"`[^`]*`", "code", re.sub(r"\]\([^)]*\)", "]", text))
        words = len(re.findall(r"\w[\w'.,-]*", text))
        if words > WORDS_AT_MOST:
            yield number, f"a sentence of {words} words, {WORDS_AT_MOST} at most"


def bare_items(path, lines):
    """Yields each public item without a line that says what it is."""
    if re.search(r"/src/.*\.rt$", path):
        item, mark = RUST_ITEM, "///"
    elif re.search(r"/specs/.*\.antt$", path):
        item, mark = DEFINITION, "--"
    else:
        return
    above = ""  # The last line that is no attribute.
    for number, line in enumerate(lines, 1):
        found = item.match(line)
        if found and not above.startswith(mark):
            yield number, f"no line says what `{found[1]}` is"
        bare = line.strip()
        above = above if bare.startswith("#[") or bare in ("mutual", "abbrev mutual") else bare


def unended_comments(path, lines):
    """Yields each comment of a definition that ends without a period. A row of an index may."""
    if not re.search(r"/specs/.*\.antt$", path):
        return
    for number, (line, after) in enumerate(zip(lines, [*lines[1:], ""]), 1):
        text = re.match(r"\s*--(.*)", line)
        if text and not re.match(r"\s*--", after) and not text[1].startswith("   "):
            if not re.search(r"[.:?!][`)]?$", text[1]):
                yield number, "a comment ends with a period"


def main():
    count = 0
    for path in sys.argv[1:] or tracked():
        if kind_of(path) is None or path.endswith("style.py"):
            continue
        for number, reason in findings(path, text_of(path)):
            print(f"{path}:{number}: {reason}")
            count += 1
    return f"style: {count} findings" if count else 0


sys.exit(main())
