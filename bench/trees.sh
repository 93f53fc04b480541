#!/usr/bin/env bash
# Runs ./unifdef over the C files of real trees, beside the released unifdef (README.md here).
#
# TREES_WORDS: the options. TREES_INCLUDE: the headers. TREES_SOURCE: a source tree, or Debian's.
source "$(dirname "$0")/common.sh"
read -r -a words <<< "${TREES_WORDS:--U__KERNEL__ -DCONFIG_SMP}"
program=$top/unifdef source=${TREES_SOURCE:-}
needs "$program"
released >&2

# Fetches the C files of the kernel's source as Debian packs it. The package isn't installed.
if [ -z "$source" ]; then
  package=$(apt-cache depends linux-source | sed -n 's/^ *Depends: *//p' | head -n 1)
  [ -n "$package" ] ||
    { echo "trees: no package of the kernel's source: run apt-get update" >&2; exit 1; }
  echo "trees: fetching $package" >&2
  (cd "$work" && apt-get download "$package" > /dev/null 2>&1 && dpkg-deb -x ./*.deb package)
  mkdir "$work/source"
  tar -C "$work/source" -xf "$work"/package/usr/src/linux-source-*.tar.xz --wildcards '*.c' '*.h'
  source=$work/source
fi

for tree in "${TREES_INCLUDE:-/usr/include}" "$source"; do
  python3 "$here/trees.py" "$program" /usr/bin/unifdef "$tree" "${words[@]}"
done
