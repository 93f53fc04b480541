#!/usr/bin/env bash
# What the tests and tools/lint.sh share. They read this file, and are then at the top of the
# repository, with a directory of their own in $work.
# shellcheck disable=SC2034,SC2154 # Some names are for the scripts that read this file, or theirs.
set -u -o pipefail
export LC_ALL=C
unset MAKEFLAGS MAKELEVEL
cd "$(dirname "${BASH_SOURCE[0]}")/.." || exit 1
here=$PWD make=${MAKE:-make} name=$(basename "$0" .sh) passed=0 failed=0
read -ra cc <<< "${CC:-cc}"
work=$(mktemp -d)
version=$(packaging/version.sh) || failed=1
trap 'rm -rf "$work"' EXIT

has() { command -v "$1" > /dev/null; }

# skip WHAT WHY: says that something is skipped, since this machine can't do it. lacks TOOL WHAT: the
# same for want of a tool. tools/results.py has both for Python.
skip() { echo "$name: skipped: $1: $2"; }
lacks() { skip "$2" "$1 is not installed"; }

# lacks_none WHAT TOOL..: succeeds if each tool is there. Else what follows is skipped.
lacks_none() {
  local it
  for it in "${@:2}"; do
    has "$it" || { lacks "$it" "$1"; return 1; }
  done
}

# needs FILE|TOOL..: fails if a file of ./ isn't there, and skips all for want of a tool, or of a
# file that `make` hasn't built.
needs() {
  local it
  for it; do
    if has "$it" || [ -e "$it" ]; then continue; fi
    case $it in
      ./*) echo "$name: $it is not there"; exit 1 ;;
      */*) skip all "$it is not built"; exit ;;
      *) lacks "$it" all; exit ;;
    esac
  done
}

# check WHAT COMMAND..: the command must succeed.
check() {
  if "${@:2}" > "$work/said" 2>&1; then
    passed=$((passed + 1))
  else
    failed=$((failed + 1))
    echo "$name: failed: $1"
    cat "$work/said"
  fi
}

# check_by TOOL WHAT COMMAND..: checks a command, or skips it for want of the tool.
check_by() { if has "$1"; then check "${@:2}"; else lacks "$1" "$2"; fi; }
same() { [ "$1" = "$2" ] || { printf '%s\n---\n%s\n' "$1" "$2"; false; }; }

# lines WORD..: prints a line for each. files_in DIRECTORY TEST..: prints what find finds, in order.
lines() { printf '%s\n' "$@"; }
files_in() { find "$@" | sed 's|^\./||' | sort; }

# finish: says how many checks passed and failed, and fails if one did.
finish() {
  echo "$name: $passed passed, $failed failed"
  [ "$failed" -eq 0 ]
}

# shows MANUAL: checks the version in the footer of a manual, whose form `make manuals` checks.
shows() { gzip -cdf "$1" | grep -qx "\\.Os unifdef $version"; }

# The version of packages, in which 1.0~dev comes before 1.0. The library is for one architecture.
deb_version=${version/-/\~}
packages=({unifdef-{tree,proved},libunifdef{1,-dev}}"_${deb_version}_amd64.deb"
  "python3-unifdef_${deb_version}_all.deb")

# A directory with a list of packages of its own, and what is tried of each package.
root=$work/root
new_root() {
  mkdir -p "$root"/var/lib/dpkg/{info,updates,triggers}
  touch "$root"/var/lib/dpkg/{status,available}
}
in_root() {
  local forced=(--force-not-root --force-depends --force-script-chrootless)
  dpkg --root="$root" --log=/dev/null "${forced[@]}" "$@"
}
quiet_lintian() { same "$(lintian --allow-root "$1" 2>&1 | grep '^[EW]:')" ''; }

# makes_packages: makes ${packages[@]} of what is built. lintian must find nothing in them.
makes_packages() {
  local it
  for it in ./unifdef ./unifdef-tree lib/libunifdef.a; do
    [ -e "$it" ] || { skip 'Debian packages' "$it is not built"; return 1; }
  done
  lacks_none 'Debian packages' dh objdump || return
  rm -f "${packages[@]}"
  check deb "$make" -s -o unifdef -o unifdef-tree -o lib/libunifdef.a deb
  for it in "${packages[@]}"; do
    check_by lintian "$it: lintian" quiet_lintian "$it"
  done
}

# times TEXT COUNT ..: prints each text so many times.
times() {
  local text
  while [ $# -gt 0 ]; do
    printf -v text '%*s' "$2" ''
    printf '%s' "${text// /$1}"
    shift 2
  done
}

# deep [KIND]: prints the deepest input of a kind that the limits allow, or the kinds.
deep() {
  local end=$'\nx\n#endif\n'
  case ${1:-} in
    '')
      lines sections removed parentheses negations operators mixed arguments comment splices longest
      ;;
    sections) times $'#ifdef X\n' 256 $'#endif\n' 256 ;;
    removed) times $'#ifdef A\n' 1 $'#if X\n#else\n' 255 $'#endif\n' 255 $'#endif\nx\n' 1 ;;
    parentheses) times '#if ' 1 '(' 32000 A 1 ')' 32000 "$end" 1 ;;
    negations) times '#if ' 1 '!' 65520 "A$end" 1 ;;
    operators) times '#if A' 1 '||A' 21840 "$end" 1 ;;
    mixed) times '#if ' 1 '-(~(!(' 10000 1 1 ')))' 1840 "$end" 1 ;;
    arguments) times '#if A' 1 '(A' 16000 ')' 16000 "$end" 1 ;;
    comment) times '/*' 1 '*' 65530 $'\n' 1 $'*\n' 2000 $'*/\n' 1 ;;
    splices) times $'\\\n' 50000 $'x\n' 1 ;;
    longest) times a 65535 $'\n' 1 ;;
  esac
}
