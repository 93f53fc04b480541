#!/usr/bin/env bash
# Counts the conditions of real sources that still name a removed symbol, after a run of
# ./unifdef-tree without -p and with it. README.md in this directory describes it.
source "$(dirname "$0")/common.sh"
program=$top/unifdef-tree
needs "$program"

# run WORD..: runs the program in the directory of a source.
run() { (cd "$directory" && "$program" -x2 "$@" -- .) > /dev/null 2> "$work/said"; }

unchanged() { grep -q '^unifdef-tree: 0 changed' "$work/said"; }
failed() { cat "$work/said" <(echo "pruned: $1") >&2; exit 1; }

# counted WORDS: prints the number in the last line of a run that has these words, or 0.
counted() { awk -v words="$1" 'index($0, words) { n = $2 } END { print n + 0 }' "$work/said"; }

# unpacked PACKAGE: sets `directory` to the released source of a Debian package, unpacked anew.
unpacked() {
  [ -d "$work/source/$1" ] || (source_of "$1" --tar-only) > "$work/log" 2>&1 || return
  rm -rf "$work/tree" && mkdir "$work/tree" &&
    tar -C "$work/tree" -xf "$work/source/$1"/*.orig.tar.*[z2] 2>> "$work/log" &&
    directory=$(find "$work/tree" -mindepth 1 -maxdepth 1 -type d)
}

# squeezed OPTION..: -B must change blank lines alone of what -p made, and nothing in a second run.
squeezed() {
  local pruned=$directory directory=$work/copy
  { run -B -p "$@" && diff -rB --no-dereference "$pruned" "$directory" > "$work/said" &&
    run -B -p "$@" && unchanged; } || failed "-B fails: ${pruned##*/}"
}

# pruned PACKAGE OPTION..: prints a row of the table.
pruned() {
  local package=$1 directory without
  shift
  unpacked "$package" ||
    { echo "pruned: left out: $package: $(tail -n 1 "$work/log")" >&2; return 0; }
  run -n "$@" || true # A directive over several lines that would go is a fault without -p.
  without=$(counted 'still name')
  rm -rf "$work/copy" && cp -a "$directory" "$work/copy"
  run -p -r "$@" || failed "$package"
  printf '| %s | `%s` | %s | %s | %s |\n' "${directory##*/}" "$*" \
    "$without" "$(counted edited)" "$(counted 'still name')"
  { run -p "$@" && unchanged; } || failed "a second run changes $package"
  squeezed "$@"
}

echo '| Sources | Options | Without `-p` | Edited with `-p` | Left with `-p` |'
echo '|---|---|---|---|---|'
pruned vim -UVMS -UAMIGA -UMSWIN -UMACOS_X
pruned vim -U__TANDEM -U__QNX__ -U_MSC_VER -U__MINGW32__ -U__CYGWIN__ -U_WIN64
pruned nethack -UVMS -UAMIGA -UMAC -UTOS -UWIN32 -UMSDOS -UOS2
pruned nethack -USYSV -UULTRIX -UHPUX -U__BEOS__ -USUNOS4 -U_MSC_VER
pruned openssl -U_WIN32 -UOPENSSL_SYS_WINDOWS -UOPENSSL_SYS_VMS
pruned openssl -U_MSC_VER -U_WIN32_WCE -U__TANDEM -UOPENSSL_SYS_UEFI -UOPENSSL_SYS_MSDOS
pruned zlib -U_WIN32 -UWIN32 -UMSDOS -UVMS
pruned zlib -U_MSC_VER -U__BORLANDC__ -UOS2 -UWINDOWS -URISCOS -U_WIN32_WCE
pruned bash -U__CYGWIN__ -U__BEOS__ -U__OPENNT
pruned bash -U_WIN32 -U__MSDOS__ -U__EMX__ -U__DJGPP__ -U__TANDEM -U_AIX -UCRAY
pruned curl -UWIN32 -U_WIN32 -U_WIN32_WCE -UMSDOS -U__VMS -U__OS400__
pruned curl -U_MSC_VER -U__MINGW32__ -U__BORLANDC__ -U__AMIGA__ -UUSE_WIN32_LDAP
pruned unzip -UVMS -UWIN32 -UMACOS -UQDOS -UCMS_MVS -UAMIGA -URISCOS -UOS2
pruned unzip -UWINDLL -U_WIN32_WCE -U__BORLANDC__ -U_MSC_VER -U__WATCOMC__ -U__EMX__ -UTHEOS
pruned tcl8.6 -U_WIN32 -UWIN32 -U__CYGWIN__ -UMSDOS
pruned tcl8.6 -U_MSC_VER -U__BORLANDC__ -UMAC_OSX_TCL -UOS2 -UDJGPP
pruned less -UOS2 -UWIN32
pruned less -UMSDOS_COMPILER -DMSOFTC=1 -DBORLANDC=2 -DWIN32C=3 -DDJGPPC=4
