#!/usr/bin/env bash
# Measures the processor time of ./unifdef-tree over a directory, beside programs that read the same
# files, by hyperfine. README.md in this directory describes it. No run changes a file.
#
# BENCH_HEADERS: a directory, of which there are seven copies. BENCH_RUNS: the number of runs.
source "$(dirname "$0")/common.sh"
program=$top/unifdef-tree
needs "$program" hyperfine
mkdir "$work/headers"
for n in {1..7}; do
  cp -r "${BENCH_HEADERS:-/usr/include}" "$work/headers/$n"
done
cd "$work/headers"
# A name that no file has, so that nothing changes, and one that most headers have.
nowhere=-UNOFILEHASIT common=-U__cplusplus cat='find . -type f -exec cat {} +'
commands=(-N -i --style none -w 1 -r "${BENCH_RUNS:-5}" --export-json "$work/times")
for words in $nowhere "-q $nowhere" "-r $nowhere" "-p $nowhere" "-p -q $nowhere" -s "-n $nowhere" \
  "-n $common" "-n -p $common"; do
  commands+=(-n "unifdef-tree $words" "$program $words -- .")
done
released="find . -name *.[ch] -exec unifdef -m $nowhere {} +"
for other in 'rg -uuu -j1 -l NOFILEHASIT .' "$released" "$cat"; do
  [ "$other" != "$released" ] || command -v unifdef > /dev/null || continue
  ! command -v "${other%% *}" > /dev/null || commands+=(-n "$other" "$other")
done
find . -type f -printf '%s\n' | awk '{ n += $1 } END { print NR " files, " n " bytes" }'
# Before the released program, which makes files of symbolic links.
{ "$program" -n $nowhere -- . 2>&1 > /dev/null || true; } | grep 'would change'
hyperfine "${commands[@]}" 2> /dev/null
printf '\n| command, in that directory | seconds | times `cat` |\n| --- | --- | --- |\n'
python3 -c 'import json, sys
rows = [(it["command"], it["user"] + it["system"]) for it in json.load(sys.stdin)["results"]]
for command, seconds in rows:
    print(f"| `{command}` | {seconds:.2f} | {seconds / rows[-1][1]:.2f} |")' < "$work/times"
