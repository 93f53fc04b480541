#!/usr/bin/env bash
# Tries lib/libunifdef.a and lib/libunifdef.so: the examples and calls of tests/library_calls.c
# under sanitizers, the module for Python with its examples, and all cases through both, also in
# chunks. `make lib-test` runs it. The first failure ends it.
source "$(dirname "$0")/checks.sh"
set -e
needs "${cc[0]}"
warned=(-Wall -Wextra -Wpedantic -Werror -Ilib)
flags=(-std=c99 -D_POSIX_C_SOURCE=200809L "${warned[@]}" -g)
checked=(-O1 -fsanitize=address -fsanitize=undefined -fno-sanitize-recover=all)

# fail WORD..: ends the test with a message.
fail() {
  echo "library: $*"
  exit 1
}

# build NAME WORD..: builds a program with the archive under sanitizers.
build() { "${cc[@]}" "${flags[@]}" "${checked[@]}" -o "$work/$1" "${@:2}" lib/libunifdef.a; }

# The header alone, for C and for C++.
for language in c:-std=c99 c++:-std=c++11; do
  "${cc[@]}" -x "${language%%:*}" "${language#*:}" "${warned[@]}" -fsyntax-only lib/unifdef.h
done

# Only the functions of the header are exported, by both libraries.
declared=$(sed -n 's/^[a-z].* \**\(unifdef_[a-z_]*\)(.*/\1/p' lib/unifdef.h | sort)
for found in "$(nm -g --defined-only lib/libunifdef.a | sed -n 's/.* T //p' | sort)" \
  "$(nm -D --defined-only lib/libunifdef.so | sed -n 's/.* T \([^@]*\).*/\1/p' | sort)"; do
  [ "$found" = "$declared" ] || fail "exported are"$'\n'"$found"
done

build calls -Wl,--wrap=malloc,--wrap=realloc,--wrap=free -pthread tests/library_calls.c
"$work/calls"
filters=()
for chunk in 1 7 64 65536; do
  build filter$chunk -DCHUNK=$chunk lib/examples/filter.c
  filters+=("$work/filter$chunk")
done

# gives STATUS OUTPUT PROGRAM..: what a program must give. An hour is a guard against hanging.
gives() {
  local status=0
  timeout 3600 "${@:3}" > "$work/out" 2> "$work/err" || status=$?
  if [ "$status" -ne "$1" ] || [ "$(cat "$work/out")" != "$2" ]; then
    cat "$work/out" "$work/err"
    fail "${*:3}: status $status"
  fi
}

# A read error is no end of the text. A fault and a full output end an endless text.
filter=$work/filter65536
gives 1 x "$filter" -DA < <(printf '#ifdef A\nx\n#endif\n')
gives 2 x "$filter" -DA < <(echo x; yes '#endif' 2> /dev/null)
status=0
yes 2> /dev/null | timeout 3600 "$filter" -DA > /dev/full 2> "$work/err" || status=${PIPESTATUS[1]}
[ "$status" -eq 2 ] || fail "the filter with a full output: status $status"
gives 2 '' "$filter" -DA < "$work"
[ "$(cat "$work/err")" = 'filter: Read error' ]

# C++, with the warnings that its compiler has for C's null pointers.
cxx=${CXX:-c++}
if has "$cxx"; then
  warned+=(-Wzero-as-null-pointer-constant -Wold-style-cast)
  printf '%s\n' '#include <unifdef.h>' 'int main() {' 'unifdef_stream it = UNIFDEF_STREAM_INIT;' \
    'unifdef_close(&it);' 'return it.state != nullptr;' '}' > "$work/init.cpp"
  for source in "$work/init.cpp" lib/examples/strip.cpp; do
    for standard in c++11 c++17; do
      "$cxx" -std=$standard "${warned[@]}" -g "${checked[@]}" -o "$work/strip" "$source" \
        lib/libunifdef.a
    done
  done
  gives 2 '' "$work/strip" -DA < "$work"
  [ "$(cat "$work/err")" = 'strip: stdin: Is a directory' ]
  gives 2 x "$work/strip" -DA < <(printf 'x\n#endif\n')
  filters+=("$work/strip")
else
  lacks "$cxx" C++
fi

# Through the shared library: what pkg-config prints is what a program needs.
"${cc[@]}" "${flags[@]}" -O2 -o "$work/shared" lib/examples/filter.c -Llib -lunifdef
[ "$(printf '#ifdef A\nx\n#endif\n' | LD_LIBRARY_PATH=lib "$work/shared" -DA)" = x ]

# The example of the manual, and what it prints.
sed -n '/^\.Sh EXAMPLES/,/^\.Sh ERRORS/p' docs/unifdef.3 | sed 's/\\e/\\/g' > "$work/examples"
awk '/^\.Bd/ { n++; next } /^\.Ed/ { next } n == 1 && !/^\./' "$work/examples" | sed '/^}$/q' \
  > "$work/example.c"
awk '/^\.Bd/ { n++; next } /^\.Ed/ { n += n > 1 } n == 2' "$work/examples" > "$work/wanted"
build example "$work/example.c"
"$work/example" | diff -u "$work/wanted" - || fail 'the example of unifdef(3) prints this'

export UNIFDEF_LIBRARY=$PWD/lib/libunifdef.so.1 PYTHONDONTWRITEBYTECODE=1
(cd lib/python && python3 -m unifdef --test)
if has mypy; then
  (cd lib/python && mypy --strict --cache-dir=/dev/null unifdef)
else
  lacks mypy 'types of the module'
fi
mkdir "$work/deep"
for kind in $(deep); do
  deep "$kind" > "$work/deep/$kind"
done
tests/library.py "$work/deep" "${filters[@]}"
