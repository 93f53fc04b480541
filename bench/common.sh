#!/usr/bin/env bash
# What the scripts of this directory share: they read this file.
# shellcheck disable=SC2034 # Some of these are for the scripts that read it.
set -eu -o pipefail
export LC_ALL=C
here=$(cd "$(dirname "$0")" && pwd)
top=$(dirname "$here") name=$(basename "$0" .sh)
work=$(mktemp -d)
trap 'rm -rf "$work"' EXIT

# needs PROGRAM..: fails if one isn't there.
needs() {
  type -P "$@" > /dev/null || { echo "$name: $* must be there" >&2; exit 1; }
}

# Installs Debian's program, if it is missing.
released() {
  [ -x /usr/bin/unifdef ] ||
    $([ "$(id -u)" -eq 0 ] || echo sudo) apt-get install --yes --no-install-recommends unifdef
}

# lists_of KIND RELEASE: sets `apt` to an apt-get with package lists of its own, in the temporary
# directory: those of packages (deb) or of sources (deb-src) of a release of Debian.
lists_of() {
  local key=/usr/share/keyrings/debian-archive-keyring.gpg own=$work/$2-$1
  apt="apt-get -o Dir::Etc::SourceList=$own/list -o Dir::Etc::SourceParts=/dev/null"
  apt+=" -o Dir::State::Lists=$own/lists -o Dir::Cache=$own/cache -o APT::Sandbox::User=root"
  [ -e "$own/updated" ] || { mkdir -p "$own/lists/partial" "$own/cache/archives/partial" &&
    echo "$1 [signed-by=$key] http://deb.debian.org/debian $2 main" > "$own/list" &&
    $apt update && touch "$own/updated"; }
}

# source_of PACKAGE [OPTION..]: fetches the source of a Debian package into the temporary directory.
source_of() {
  local apt
  lists_of deb-src "$(sed -n 's/^VERSION_CODENAME=//p' /etc/os-release)" &&
    mkdir -p "$work/source/$1" && cd "$work/source/$1" && $apt source "${@:2}" "$1"
}
