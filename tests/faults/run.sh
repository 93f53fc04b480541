#!/usr/bin/env bash
# Runs ./unifdef with failing reads and writes of the system, with a small stack, and with each
# growth of memory refused in turn. README.md in this directory describes it.
# shellcheck disable=SC2086 # Words of options are split.
source "$(dirname "$0")/../checks.sh"
name=faults
needs ./unifdef
program=$here/unifdef table=$here/crates/test_memory/out/test_memory
out=$work/out err=$work/err
write_error='unifdef: stdin: Write error\n' read_error='unifdef: stdin: Read error\n'

# Runs the program. If it hangs for an hour, the status is 124; if a signal ends it, 128 or more.
limited() { timeout 3600 "$program" "$@"; }

# told WHAT COMMAND..: checks a command, with the last run's status, output and message.
told() {
  local seen
  seen="$1: status $status, $(head -c 200 "$out" | od -An -c | head -n 3), $(head -c 200 "$err")"
  check "$seen" "${@:2}"
}
has_outcome() {
  [ "$status" = "$1" ] && printf '%b' "$2" | cmp - "$out" && printf '%b' "$3" | cmp - "$err"
}

# fails WHAT STATUS OUTPUT MESSAGE COMMAND: what a command of the shell must give.
fails() {
  status=0
  : > "$out"
  (eval "$5") > "$out" 2> "$err" < /dev/null || status=$?
  told "$1" has_outcome "$2" "$3" "$4"
}

# --- Streams of the system that fail.

for count in 1 100000; do
  seq 1 $count > "$work/in"
  for how in '> /dev/full' '>&-'; do
    fails "$how, $count lines" 2 '' "$write_error" 'limited -DA < "$work/in" '"$how"
  done
  fails ">&- 2>&-, $count lines" 2 '' '' 'limited -DA < "$work/in" >&- 2>&-'
done
for how in '2>&-' '2> /dev/full'; do
  fails "$how" 2 'x\n' '' 'printf "#ifdef A\nx\n" | limited -DA '"$how"
done
fails 'a full error stream at a fault of the arguments' 2 '' '' 'limited -B 2> /dev/full'
fails 'a closed input' 2 '' "$read_error" 'limited -DA <&-'
fails 'a directory as input' 2 '' "$read_error" 'limited -DA < "$work"'
mkdir "$work/directory"
fails 'a directory' 2 '' 'unifdef: directory: Read error\n' 'cd "$work" && limited -DA directory'
fails 'a file that is not there' 2 '' 'unifdef: none: Cannot open\n' 'limited -DA none'
fails 'no UTF-8' 2 '' 'unifdef: Cannot take arguments\n' 'limited -DA $'"'\\xff'"

# A pipe whose reader closes it, or that nobody reads: a write error, and no signal.
for reader in 'head -c 1' true; do
  fails "a pipe to $reader" 2 '' "$write_error" '
    seq 1 100000 2> /dev/null | limited -DA | exec '"$reader"' > /dev/null
    exit "${PIPESTATUS[1]}"'
done

# An input that a killed writer truncates is a shorter text.
fails 'a killed writer' 2 'a\nb\nc' 'unifdef: stdin: 4: Premature EOF (#if line 2)\n' '
  (printf "a\n#ifdef A\nb\nc"; kill -KILL "$BASHPID") 2> /dev/null | limited -DA
  exit "${PIPESTATUS[1]}"'

# --- The deepest inputs, with a stack of 1 MiB.

# as_wanted: whether the last run is like the one before it, which is in $work/wanted_*.
as_wanted() {
  [ $status = $wanted ] && [ $status -le 2 ] && cmp "$out" "$work/wanted_out" &&
    cmp "$err" "$work/wanted_err"
}
for kind in $(deep); do
  deep "$kind" > "$work/in"
  for words in -DA '-UA -k' '-S -DA'; do
    wanted=0 status=0
    limited $words < "$work/in" > "$work/wanted_out" 2> "$work/wanted_err" || wanted=$?
    (ulimit -s 1024; limited $words < "$work/in" > "$out" 2> "$err") || status=$?
    told "$kind under $words with a small stack; status $wanted with a large one" as_wanted
  done
done

# --- Each growth of memory refused in turn.

# growths COMMAND..: prints the number of growths in a run over the input.
growths() {
  : > "$work/count"
  REFUSE_COUNT=$work/count LD_PRELOAD=$work/refuse.so "$@" > /dev/null 2>&1
  wc -c < "$work/count"
}

# refused FROM TO COMMAND..: runs with these growths refused, and keeps what it didn't read.
refused() {
  status=0
  local how=(REFUSE_FROM="$1" REFUSE_TO="$2" LD_PRELOAD="$work/refuse.so")
  {
    timeout 3600 env "${how[@]}" "${@:3}" > "$out" 2> "$err" || status=$?
    cat > "$work/left"
  } < "$work/in"
}

# A run with refused memory has status 2, wrote nothing and read nothing. `main` reports the lack of
# memory while it collects its arguments, and the plan of the symbols after that.
is_refusal() {
  [ $status = 2 ] && [ ! -s "$out" ] && cmp "$work/left" "$work/in" || return
  case $(cat "$err") in
    "unifdef: Cannot take arguments") [ $reported = no ] ;;
    "unifdef: Out of memory") reported=yes ;;
    *) false ;;
  esac
}

# refuse_each PLANNED ARGUMENT..: refuses each growth, alone and with all later ones. If PLANNED is
# yes, the plan of the symbols reports it. No text makes a further growth.
refuse_each() {
  local planned=$1 all at to reported=no wanted=0
  shift
  all=$(growths "$program" "$@" < /dev/null)
  check "some memory under $*" test "$all" -gt 0
  check "no more for a text under $*" same "$(growths "$program" "$@" < "$work/deep")" "$all"
  for at in $(seq 1 "$all"); do
    for to in "$at" 1000000; do
      refused "$at" "$to" "$program" "$@"
      told "growth $at to $to refused under $*" is_refusal
    done
  done
  check "the plan reports a lack of memory under $*" same $reported "$planned"
  "$program" "$@" < "$work/in" > "$work/wanted_out" 2> "$work/wanted_err" || wanted=$?
  refused $((all + 1)) 1000000 "$program" "$@"
  told "no growth refused under $*" as_wanted
}

# If a growth of a symbol is refused, its earlier value stays. A bad name is always reported.
is_of_table() {
  local no="out of memory/A isn't listed/" first="-DA=1: taken/A is 1/" second='A is 22, ignoring/'
  case $(tr '\n' '/' < "$out") in
    "-DA=1: $no-iDA=22: $no-D1A: bad name/A isn't listed/") ;;
    "-DA=1: $no-iDA=22: taken/$second-D1A: bad name/$second") ;;
    "$first-iDA=22: out of memory/A is 1/-D1A: bad name/A is 1/") ;;
    "$first-iDA=22: taken/$second-D1A: bad name/$second") [ "$at" -gt "$all" ] ;;
    *) false ;;
  esac
}
refuse_table() {
  local all at to
  all=$(growths "$table")
  for at in $(seq 1 $((all + 1))); do
    for to in "$at" 1000000; do
      refused "$at" "$to" "$table"
      told "the table with growth $at to $to refused" is_of_table
    done
  done
}

if has "${cc[0]}"; then
  check 'refuse.c' "${cc[@]}" -O1 -shared -fPIC -o "$work/refuse.so" tests/faults/refuse.c -ldl
  printf '#ifdef A\nx\n#endif\n' > "$work/in"
  { deep sections; deep longest; deep comment; seq 1 100000; } > "$work/deep"
  # The arguments of the cases that ask for it, and those that have a fault or no symbol.
  mapfile -t every < <(grep -l '^try growths$' crates/test_runner/data/*/*.case |
    xargs sed -n 's/^unifdef //p')
  check 'some cases ask for it' test "${#every[@]}" -gt 0
  for words in "${every[@]}" '-DA -UB -DC=1' '-DA -B'; do
    refuse_each yes $words
  done
  refuse_each no -B -DA
  refuse_each no -tk -x2
  if [ -x "$table" ]; then refuse_table; else skip 'the table' 'test_memory is not built'; fi
else
  lacks "${cc[0]}" 'refused memory'
fi
finish
