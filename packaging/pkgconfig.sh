#!/bin/sh
# Prints unifdef.pc, by which pkg-config finds the library: pkgconfig.sh PREFIX LIBDIR INCLUDEDIR.
#
# Directories below the prefix are named by it, so `pkg-config --define-prefix` finds a moved copy.
set -eu
cd "$(dirname "$0")/.."

# escaped PATH: prints a path as pkg-config reads it, which sed puts in the place of a word.
escaped() { printf '%s\n' "$1" | sed -e "s/[ \"'\\\\#]/\\\\&/g" -e 's/[\\&|]/\\&/g'; }

# below PREFIX PATH: prints a path in the same way, by the variable `prefix` if it is below PREFIX.
below() {
  case $2 in
    "$1"/*) printf '$%s%s\n' '{prefix}' "$(escaped "${2#"$1"}")" ;;
    *) escaped "$2" ;;
  esac
}

sed -e "s|@PREFIX@|$(escaped "$1")|" -e "s|@LIBDIR@|$(below "$1" "$2")|" \
  -e "s|@INCLUDEDIR@|$(below "$1" "$3")|" -e "s|@VERSION@|$(packaging/version.sh)|" lib/unifdef.pc.in
