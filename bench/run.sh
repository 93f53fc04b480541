#!/usr/bin/env bash
# Measures ./unifdef beside the released program and `cat` (README.md in this directory).
#
# BENCH_BYTES: the size of each text. BENCH_RUNS, BENCH_FILES: how many rounds and small files.
# BENCH_HEADERS, BENCH_SOURCES: directories of headers and C sources. BENCH_NEWER: a newer unifdef.
source "$(dirname "$0")/common.sh"
program=$top/unifdef
needs "$program"

# Unpacks the program of Debian 13, and tries it: it may need another C library.
newer() {
  local apt
  [ -z "${BENCH_NEWER:-}" ] || return 0
  lists_of deb trixie && cd "$work" && $apt download unifdef && dpkg -x unifdef_*.deb newer &&
    newer/usr/bin/unifdef -V
}

# Builds the released program from its source.
rebuilt() { source_of unifdef && cd unifdef-*/ && "${CC:-cc}" -O2 -o "$work/rebuilt" unifdef.c; }

# got WHAT COMMAND..: returns whether a command succeeds, and prints its last message if it doesn't.
got() {
  ("${@:2}") > "$work/log" 2>&1 && return
  echo "bench: left out: $1: $(tail -n 1 "$work/log")" >&2
  return 1
}

# add NAME PROGRAM: adds a program, or leaves it out.
programs=("this=$program")
add() { ! got "the $1 unifdef" "$1" || programs+=("$1=$2"); }
add released /usr/bin/unifdef
add rebuilt "$work/rebuilt"
add newer "${BENCH_NEWER:-$work/newer/usr/bin/unifdef}"
if [ -z "${BENCH_SOURCES:-}" ] && got 'C source' source_of postgresql-15; then
  BENCH_SOURCES=$work/source/postgresql-15
fi
export BENCH_SOURCES
python3 "$here/compare.py" "$work" "${programs[@]}"
