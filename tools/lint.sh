#!/usr/bin/env bash
# Checks manuals, scripts, comments and pages (`make manuals`), by the linters that are there.
source "$(dirname "$0")/../tests/checks.sh"
name=manuals rt=${RT:-rt}

files() { find . \( -name .git -o -name crates \) -prune -o -type f "$@"; }

# quiet COMMAND..: the command must print nothing.
quiet() { same "$("$@")" ''; }

# unformatted: prints the files that `rt fmt` changes in a copy of the crates.
unformatted() {
  local copy=$work/copy crate
  mkdir -p "$copy/.git"
  tar -c --exclude=out HANDLES crates.txt crates | tar -x -C "$copy"
  for crate in crates/*; do
    (cd "$copy/$crate" && "$rt" fmt 2>&1) | sed -n "s|^rt: formatted |$crate/|p"
  done
}

# Which other manuals exist depends on the machine. -W style leaves out rules for BSD's manuals.
mandoc_findings() {
  mandoc -T lint -W style docs/*.[13] 2>&1 |
    grep -v -e 'referenced manual not found' -e 'outdated mandoc.db'
}
wide_lines() {
  local manual
  for manual in docs/*.[13]; do
    mandoc -T ascii "$manual" | sed 's/.\x08//g' | awk 'length > 80'
  done
}

# The words are of Rust and of mandoc, names, and parts of texts.
misspelt() {
  codespell -q 3 -S 'out,data,*.svg,*.edit' \
    -L atleast,atmost,caf,crate,crates,fo,nd,nin,readby,readin,reate,te,upto \
    ./*.md docs bench tests tools packaging lib crates
}

check_by mandoc 'the manuals' quiet mandoc_findings
check_by mandoc 'the width of the manuals' quiet wide_lines
mapfile -t scripts < <(files -exec grep -lE '^#!.*[/ ](sh|bash)$' {} + | sort)
scripts+=(packaging/completions/unifdef.bash tests/tree/*.sh)
check_by shellcheck scripts shellcheck "${scripts[@]}"
mapfile -t modules < <(files -name '*.py' -print | sort)
check_by flake8 'files of Python' flake8 "${modules[@]}"
check_by codespell spelling quiet misspelt
check 'the language' python3 tools/style.py
check 'names in pages' python3 tools/names.py
check 'numbers in PROVED.md' python3 tools/reading.py --check docs/PROVED.md
check 'edits' python3 tools/edits.py --read
check_by "$rt" 'the layout of the crates' quiet unformatted
finish
