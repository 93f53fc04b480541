#!/bin/sh
# Warns if the unifdef in a directory comes before a released one on PATH: warn.sh DIRECTORY.
set -u
directory=$1
seen=no
IFS=:
for entry in $PATH; do
  if [ "$entry" = "$directory" ]; then
    seen=yes
  elif [ "$seen" = yes ] && [ -x "$entry/unifdef" ] &&
    "$entry/unifdef" -V 2>&1 < /dev/null | grep -q '^Version: '; then
    echo "install: $directory/unifdef now comes before the released $entry/unifdef on PATH." >&2
    echo "install: DIFFERENCES in unifdef(1) lists what it does in another way." >&2
  fi
done
