#!/usr/bin/env bash
# Builds a program without a proof, in half a minute: unproved.sh CRATE FILE writes it to the file.
# RT is Rattle's command.
#
# `rt try` builds the program with checks of each index, overflow and access, runs it, and removes
# it. So here the program is run on a text that takes it some seconds, and is copied meanwhile.
set -eu
fail() { echo "unproved: $1" >&2; exit 1; }
[ -e /proc/self/cmdline ] || fail '/proc is not mounted, where the program is found while it runs'
file=$(realpath -m "$2") work=$(mktemp -d) program=''
cd "$(dirname "$0")/../crates/$1"
yes '' | head -n 20000000 > "$work/text.c"
TMPDIR=$work "${RT:-rt}" try -- -s "$work/text.c" < /dev/null > "$work/said" 2>&1 &
run=$!
trap 'kill "$run" 2> /dev/null || true; wait; rm -rf "$work"' EXIT

# started: prints the first word of each process that is a file there.
started() { grep -ahz -m 1 "^$work/" /proc/[0-9]*/cmdline 2> /dev/null | tr '\0' '\n'; }
until program=$(started | grep -m 1 '/program$'); do
  kill -0 "$run" 2> /dev/null || { cat "$work/said" >&2; fail 'rt try built no program'; }
  sleep 0.05
done
mkdir -p "$(dirname "$file")"
# The time is now, so that it is newer than its sources.
cp "$program" "$file.new"
mv "$file.new" "$file"
