#!/usr/bin/env bash
# Installs the library in directories of its own, makes its packages twice, and builds with them.
source "$(dirname "$0")/checks.sh"
needs lib/libunifdef.a "${cc[0]}"
text=$'#ifdef A\nx\n#endif'
names_in='import unifdef; print(unifdef.names(b"A || B"))'

# make_lib TARGET WORD..: runs make over the library that is built.
make_lib() { "$make" -s -o lib/libunifdef.a "$@" LDCONFIG="$work/ldconfig"; }

# built_by SOURCE: builds a program with what pkg-config prints. It must need the shared library.
built_by() {
  local flags
  read -ra flags <<< "$(pkg-config --cflags --libs unifdef)"
  "${cc[@]}" -o "$work/filter" "$1" "${flags[@]}" &&
    objdump -p "$work/filter" | grep -q "NEEDED *libunifdef.so.1$"
}
filtered() { LD_LIBRARY_PATH=$1 "$work/filter" -DA <<< "$text"; }

# builds_modules PYTHON: makes a virtual environment. It must build a module without the network.
builds_modules() {
  "$1" -m venv --clear --system-site-packages "$work/environment" > /dev/null 2>&1 &&
    "$work/environment/bin/python" -c '
from importlib.util import find_spec
built = any(map(find_spec, ("wheel", "setuptools.command.bdist_wheel")))
raise SystemExit(not (built and find_spec("pip")))' 2> /dev/null
}

# in_an_environment LIBRARIES: pip installs the module into a virtual environment, beside the
# installed library. The python3 on PATH may lack what Debian's has.
in_an_environment() {
  local python=$work/environment/bin/python site
  if ! builds_modules python3 && ! builds_modules /usr/bin/python3; then
    lacks 'venv, pip, setuptools or wheel' 'pip install'
    return
  fi
  # pip writes to the directory that it installs.
  cp -R lib/python "$work/module"
  check 'pip install' "$python" -m pip -q install --no-build-isolation --no-index --no-deps \
    "$work/module"
  site=$(cd "$work/environment/lib"/python3*/site-packages && pwd -P)
  check 'pip install: runs' same "$(cd "$work/environment" && LD_LIBRARY_PATH=$1 "$python" -c '
import unifdef; print(unifdef.__version__, unifdef.__file__, unifdef.names(b"A || B"))')" \
    "$version $site/unifdef/__init__.py [b'A', b'B']"
  check 'pip install: the examples' env LD_LIBRARY_PATH="$1" "$python" -m unifdef --test
  check 'pip install: types' test -e "$site/unifdef/py.typed"
}

# Only root, and only without DESTDIR, refreshes the list of the machine's libraries.
prefix=$work/library refreshed=ldconfig
[ "$(id -u)" -eq 0 ] || refreshed=''
printf '#!/bin/sh\necho ldconfig >> "%s/refreshed"\n' "$work" > "$work/ldconfig"
chmod +x "$work/ldconfig"
check 'install-lib: DESTDIR' make_lib install-lib DESTDIR="$work/target"
check 'install-lib: DESTDIR refreshes nothing' test ! -e "$work/refreshed"
check install-lib make_lib install-lib PREFIX="$prefix"
check 'install-lib: ldconfig' same "$(grep -xs ldconfig "$work/refreshed")" "$refreshed"
modules=(lib/python3/dist-packages/unifdef/{__init__.py,__main__.py,_library.py,py.typed})
check 'install-lib: files' same "$(cd "$prefix" && files_in . ! -type d)" \
  "$(lines include/unifdef.h lib/{libunifdef.{a,so,so.1},pkgconfig/unifdef.pc} "${modules[@]}" \
    share/man/man3/unifdef.3)"
check 'install-lib: the manual' shows "$prefix/share/man/man3/unifdef.3"
odd="$work/b&c|d #e"
private() { (umask 077; "$@"); }
check 'install-lib: odd names' private make_lib install-lib PREFIX="$odd"
check 'install-lib: modes' same "$(find "$odd" -type f ! -perm 644)" ''
if has pkg-config; then
  export PKG_CONFIG_PATH=$prefix/lib/pkgconfig
  check 'install-lib: the version' same "$(pkg-config --modversion unifdef)" "$version"
  check 'install-lib: builds' built_by lib/examples/filter.c
  check 'install-lib: runs' same "$(filtered "$prefix/lib")" x
  PKG_CONFIG_PATH=$odd/lib/pkgconfig
  check 'install-lib: odd flags' same "<-I$odd/include><-L$odd/lib><-lunifdef>" \
    "$(eval "printf '<%s>' $(pkg-config --cflags --libs unifdef)")"
else
  lacks pkg-config unifdef.pc
fi
check 'install-lib: Python' same "[b'A', b'B']" "$(LD_LIBRARY_PATH=$prefix/lib \
  PYTHONPATH=$prefix/lib/python3/dist-packages python3 -Bc "$names_in")"
in_path() { python3 -c 'import sys; sys.exit(sys.argv[1] not in sys.path)' "$1"; }
python_prefix=$(python3 -c 'import sys; print(sys.prefix)')
for it in "$python_prefix" "$python_prefix/"; do
  check 'install-lib: where Python looks' in_path "$(packaging/pythondir.sh "$it")"
done
# python3 looks in the directory of a user if it is there.
export PYTHONUSERBASE=$work/user
mkdir -p "$(python3 -c 'import site; print(site.getusersitepackages())')"
if [ "$(python3 -c 'import site; print(site.ENABLE_USER_SITE)')" = True ]; then
  check 'install-lib: where Python looks for a user' \
    in_path "$(packaging/pythondir.sh "$PYTHONUSERBASE")"
else
  skip "a user's modules" 'python3 looks for none'
fi
unset PYTHONUSERBASE
in_an_environment "$prefix/lib"
rm -f "$work/refreshed"
touch "$prefix/lib/libunifdef.so.0"
check uninstall-lib make_lib uninstall-lib PREFIX="$prefix"
check 'uninstall-lib: ldconfig' same "$(grep -xs ldconfig "$work/refreshed")" "$refreshed"
check 'uninstall-lib: files' same "$(files_in "$prefix" ! -type d)" "$prefix/lib/libunifdef.so.0"
# The link of another version stays.
ln -s libunifdef.so.0 "$prefix/lib/libunifdef.so"
check 'uninstall-lib: again' make_lib uninstall-lib PREFIX="$prefix"
check 'uninstall-lib: another one' same "$(readlink "$prefix/lib/libunifdef.so")" libunifdef.so.0
rm -r "$prefix"
check 'uninstall-lib: nothing' make_lib uninstall-lib PREFIX="$prefix"
makes_packages || { finish; exit; }

# An unpacked tarball within the repository of somebody else gives the same packages, also if nobody
# else can read it, if it has an old file, and in another time zone.
copy="$work/theirs/a copy"
mkdir -p "$copy"
tar -c --exclude=.git --exclude=out --exclude='*.deb' . | tar -x -C "$copy"
if has git; then
  git init -q "$work/theirs"
  git -C "$work/theirs" -c user.name=They -c user.email=they@localhost commit -q --allow-empty -m it
fi
chmod -R go= "$copy"
touch -d 2001-02-03 "$copy/CHANGELOG.md"
package_in_copy() { (umask 077 && cd "$copy" && TZ=Asia/Tokyo DEBDIR=. debian/rules binary); }
check 'a tarball' package_in_copy
check 'a tarball: the same bytes' same "$(cd "$copy" && sha256sum "${packages[@]}")" \
  "$(sha256sum "${packages[@]}")"

# A compiler with a word before it links the same library.
check 'CC of two words' env CC="env ${cc[*]}" "$copy/lib/build.sh" lib/libunifdef.a lib/libunifdef.a
check 'CC of two words: the same bytes' cmp lib/libunifdef.so "$copy/lib/libunifdef.so"

# What is installed.
new_root
directory=usr/lib/$("${cc[@]}" -print-multiarch)
check 'installs' in_root -i "${packages[@]:2}"
check 'installs: files' same "$(cd "$root/usr" && files_in . ! -type d ! -path '*/doc/*')" \
  "$(lines include/unifdef.h "${directory#usr/}"/{libunifdef.{a,so,so.1},pkgconfig/unifdef.pc} \
    "${modules[@]}" share/man/man3/unifdef.3.gz | sort)"
symbols=$(dpkg-deb -I "${packages[2]}" symbols)
check 'symbols: each function' same "$(grep -c ' unifdef_.*@UNIFDEF_1 ' <<< "$symbols")" \
  "$(objdump -T lib/libunifdef.so.1 | grep -c ' UNIFDEF_1 *unifdef_')"
check 'symbols: the rest' same "$(grep -v ' unifdef_' <<< "$symbols")" \
"libunifdef.so.1 libunifdef1 #MINVER#
 UNIFDEF_1@UNIFDEF_1 $deb_version"

# C and Python, as after an installation to /.
example=$root/usr/share/doc/libunifdef-dev/examples/filter.c
check 'installs: the examples' test -e "$example"
if has pkg-config; then
  export PKG_CONFIG_SYSROOT_DIR=$root PKG_CONFIG_PATH=$root/$directory/pkgconfig
  export PKG_CONFIG_ALLOW_SYSTEM_CFLAGS=1 PKG_CONFIG_ALLOW_SYSTEM_LIBS=1
  check 'C: builds' built_by "$example"
  check 'C: runs' same "$(filtered "$root/$directory")" x
fi
module=$root/usr/lib/python3/dist-packages
check 'Python: runs' same "[b'A', b'B']" "$(LD_LIBRARY_PATH=$root/$directory PYTHONPATH=$module \
  PYTHONDONTWRITEBYTECODE='' PYTHONPYCACHEPREFIX='' python3 -c "$names_in")"
check 'Python: is compiled' test -e "$module/unifdef/__pycache__"
check 'goes away' in_root --purge python3-unifdef libunifdef-dev libunifdef1
check 'leaves no module' test ! -e "$root/usr/lib/python3/dist-packages/unifdef"
check 'leaves nothing' same "$(files_in "$root" -type f ! -path "$root/var/*")" ''
finish
