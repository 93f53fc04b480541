#!/usr/bin/env python3
"""Checks that the names and files that the pages cite exist.

    tools/names.py [PAGE ..]     the pages, or README.md and the like, and those of docs, tests and
                                 crates; without PAGE, also the paths in comments of crates

Prints each name that isn't there as PAGE:LINE: NAME, and exits with 1 if there is one. Names are
looked for in backquotes, outside of code blocks:

    docs/DESIGN.md, Answer.antt        a file or directory of the tree, or the end of its path
    make faults                        a target of the Makefile
    Type::method                       both in one source file
    Module.definition                  in the file Module.antt
    law_lines, LineBuffer, Engine      a word of some source, a file's stem, or an edit
    answer, ended                      a clause's label, in a table's column "Clause"

Other words are skipped. A comment is no source. The files and headings to which links lead must be
there too and, without PAGE, each message of the program in the manual under DIAGNOSTICS.
"""
import os
import re
import sys

from files import text_of, tracked, without_code

PAGES = re.compile(r"(README|CONTRIBUTING)\.md|docs/\w+\.md|(bench|tests|crates)/.*README\.md")
SOURCE = re.compile(r"(crates|bench|lib|tests|tools|packaging)/.*|Makefile|crates\.txt")
ENDING = re.compile(r"\.(rt|antt|md|sh|py|txt|svg|c|h|1)$")
PATH = re.compile(r"[\w.+-]*(/[\w.+-]+)*/?")
PAIR = re.compile(r"\b([A-Z]\w*)(::|\.)([a-z]\w*|[A-Z]\w*)\b")
WORD = re.compile(r"[A-Za-z_]\w*")
LABEL = re.compile(r"\b(?:ensures|requires)\*? (\w+) \{")
COMMENTED = re.compile(r"^\s*(?://|--).*?\b(\w+(?:/\w+)+\.(?:antt|rt|md|sh|py))\b", re.MULTILINE)

# Names of C, examples, files that are built, units, Debian and Linux, and what stands for others.
EXCEPTED = {
    *("intmax_t", "uintmax_t", "\\xHH", "a.c", "in.c", "third_party", "include/uapi"),
    *("lib/libunifdef.a", "lib/libunifdef.so", "libunifdef.so.1", "MB/s"),
    *("NAME.antt", "NAME.case", "vVERSION", "step_counts_no_line"),
    *("linux-source-6.1", "make headers", "make headers_install"),
}


def without_comments(path, text):
    mark = {"rt": "//", "antt": "--"}.get(path.rpartition(".")[2], "#")
    return "\n".join(line for line in text.split("\n") if not line.lstrip().startswith(mark))


class Tree:
    """What there is: the files, and the words of each source."""

    def __init__(self):
        self.files = tracked()
        self.ends = set()
        for path in self.files:
            parts, every = path.split("/"), range(path.count("/") + 1)
            self.ends |= {"/".join(parts[a : b + 1]) for a in every for b in every[a:]}
        self.words_of, self.labels, self.commented = {}, set(), []
        for path in filter(SOURCE.fullmatch, self.files):
            if path in ("tools/names.py", "tools/style.py") or path.endswith((".md", ".svg")):
                continue
            whole = text_of(path)
            if path.endswith((".rt", ".antt")):
                self.labels.update(LABEL.findall(whole))
                self.commented += [(path, cited) for cited in COMMENTED.findall(whole)]
            self.words_of[path] = set(WORD.findall(without_comments(path, whole)))
        self.words = EXCEPTED.union(*self.words_of.values())
        self.words.update(end.split(".")[0] for end in self.ends if "/" not in end)
        self.targets = set(re.findall(r"^([\w-]+):", text_of("Makefile"), re.MULTILINE))

    def missing(self, cited):
        if cited in EXCEPTED or re.match(r"[-#$/\"'~.]", cited):
            return  # An option, C text, a shell's variable, a directory of the machine, an ending.
        if PATH.fullmatch(cited) and ("/" in cited or ENDING.search(cited)):
            if cited.rstrip("/") not in self.ends:
                yield cited
            return
        for target in re.findall(r"\bmake ([a-z][\w-]*)", cited):
            if target not in self.targets:
                yield f"make {target}"
        for first, mark, second in PAIR.findall(cited):
            ending = f"/{first}.antt" if mark == "." else ".rt"
            wanted = {second} if mark == "." else {first, second}
            if not any(wanted <= it for path, it in self.words_of.items() if path.endswith(ending)):
                yield first + mark + second
        for word in WORD.findall(cited):
            is_name = "_" in word.strip("_") or re.search(r"[a-z]\w*[A-Z]", word)
            is_name = is_name or (word == cited and re.fullmatch(r"[A-Z]\w*[a-z]\w*", word))
            # C reserves names that begin with two of them.
            if is_name and not word.startswith("__") and word not in self.words:
                yield word


def clauses(text):
    """Yields the line and each lowercase name in the column "Clause", if a table has it second."""
    inside = False
    for line, row in enumerate(text.split("\n"), 1):
        cells = re.split(r"(?<!\\)\|", row)
        inside = len(cells) > 3 and (inside or cells[2].strip() == "Clause")
        for name in re.findall(r"`([a-z_]+)`", cells[2]) if inside else ():
            yield line, name


def headings(page):
    titles = re.findall(r"^#+ (.*)$", without_code(text_of(page)), re.MULTILINE)
    return {re.sub(r"[^\w -]", "", title.lower()).replace(" ", "-") for title in titles}


def is_dead(page, link):
    """Returns whether a link of a page leads to no file or no heading."""
    path, _, anchor = link.partition("#")
    target = os.path.normpath(os.path.join(os.path.dirname(page), path)) if path else page
    is_there = os.path.exists(target) and (not anchor or anchor in headings(target))
    return "://" not in path and not is_there


def problems(tree, page):
    """Yields the position and the reason of what a page cites and isn't there."""
    text = text_of(page)
    bare = without_code(text)
    for found in re.finditer(r"`((?:[^`\n]|\n(?!\n))+)`", bare):
        cited = " ".join(found[1].replace("\\|", "|").split())
        line = bare.count("\n", 0, found.start()) + 1
        yield from (f"{page}:{line}: {name} doesn't exist" for name in tree.missing(cited))
    for found in re.finditer(r"\]\(([^()\s]+)\)", text):
        if is_dead(page, found[1]):
            line = text.count("\n", 0, found.start()) + 1
            yield f"{page}:{line}: {found[1]} leads nowhere"
    for line, name in clauses(text):
        if name not in tree.labels:
            yield f"{page}:{line}: no clause is called {name}"


def unlisted_messages(tree):
    """Yields each part of a message of the program that the manual doesn't have."""
    listed = text_of("docs/unifdef.1").partition("\n.Sh DIAGNOSTICS\n")[2].partition("\n.Sh ")[0]
    for path in filter(re.compile(r"crates/unifdef(_cli)?/src/.*\.rt").fullmatch, tree.files):
        for literal in re.findall(r'"((?:[^"\\]|\\.)*)"', without_comments(path, text_of(path))):
            for part in re.split(r"\{\w+\}|\\n", literal):
                if part.strip(": ") not in listed:
                    yield f"docs/unifdef.1: no message '{part.strip(': ')}' of {path}"


def main():
    tree = Tree()
    pages = sys.argv[1:] or filter(PAGES.fullmatch, tree.files)
    found = [it for page in pages for it in problems(tree, page)]
    if not sys.argv[1:]:
        missing = (it for it in tree.commented if it[1] not in tree.ends)
        found += [f"{path}: {cited} doesn't exist" for path, cited in missing]
        found += unlisted_messages(tree)
    print(*found, sep="\n", end="\n" if found else "")
    return f"names: {len(found)} findings" if found else 0


sys.exit(main())
