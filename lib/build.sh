#!/usr/bin/env bash
# Makes lib/libunifdef.a and lib/libunifdef.so.MAJOR of the proved object. `make lib` runs it.
#
#   build.sh OBJECTS HEAP     the library of the crate unifdef_c, and the kit's C functions
#
# Both export the functions of lib/unifdef.map alone. The same objects give the same bytes.
set -eu -o pipefail
export LC_ALL=C
objects=$(realpath "$1")
heap=$(realpath "$2")
cd "$(dirname "$0")"
version=$(../packaging/version.sh)
major=${version%%.*}
work=$(mktemp -d)
trap 'rm -rf "$work"' EXIT

# One object, of which only the exported functions can be seen.
names=$(sed -n 's/^ *\(unifdef_[a-z_]*\);.*/\1/p' unifdef.map)
undefined=() kept=()
for name in $names; do
  undefined+=(-u "$name")
  kept+=("--keep-global-symbol=$name")
done
ld -r "${undefined[@]}" -o "$work/unifdef.o" "$objects" "$heap"
objcopy "${kept[@]}" --strip-unneeded --remove-section=.comment "$work/unifdef.o"
rm -f libunifdef.a
ar rcsD libunifdef.a "$work/unifdef.o"
read -ra cc <<< "${CC:-cc}" # It may have a word before the compiler.
"${cc[@]}" -shared -Wl,--version-script=unifdef.map -Wl,-soname,"libunifdef.so.$major" \
  -Wl,-z,defs -Wl,-z,relro -Wl,-z,now -Wl,--build-id=none -s \
  -o "libunifdef.so.$major" "$work/unifdef.o"
ln -sf "libunifdef.so.$major" libunifdef.so
