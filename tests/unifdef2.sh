#!/usr/bin/env bash
# Runs packaging/unifdef2 by several shells: the calls of programs that use unifdef 2.x, the rules
# of -f, faults, and what another user may do to a directory meanwhile. What must come out follows
# from the manual of 2.10, or from the text.
source "$(dirname "$0")/checks.sh"
needs ./unifdef
export UNIFDEF=$here/unifdef
umask 022
script=$here/packaging/unifdef2

# fresh: makes the files of a case anew, and goes to them.
fresh() {
  rm -rf "$work/files"
  mkdir "$work/files"
  cd "$work/files" || exit 1
  printf '#ifdef A\na\n#else\nb\n#endif\n' | tee a.c c.c > in.c
  printf 'x\n' > same.c
  printf 'x\n#endif\n' > bad.c
}

# run ARGUMENT..: runs the script in the files of the case with in.c as its input. Sets `status`.
by=(timeout 60)
run() {
  status=0
  "${by[@]}" "${shell[@]}" "$script" "$@" < in.c > "$work/out" 2> "$work/message" || status=$?
}

# in_shell WHAT COMMAND..: a check, which names the shell if it fails.
in_shell() { check "${shell[*]}: $1" "${@:2}"; }

# gives STATUS OUTPUT ARGUMENT..: runs the script, which must have no message.
gives() {
  run "${@:3}"
  in_shell "${*:3}" same "$status, $(cat "$work/message"), $(cat "$work/out")" "$1, , $2"
}

# holds FILE TEXT ..: checks files that the last run wrote.
holds() {
  while [ $# -gt 0 ]; do
    in_shell "$1" same "$(cat -- "$1" 2>&1)" "$2"
    shift 2
  done
}

# makes FILE TEXT STATUS ARGUMENT..: what a run must make of a file, without output.
makes() {
  gives "$3" '' "${@:4}"
  holds "$1" "$2"
}

# listed: prints what a run may change of the files.
listed() { find . -mindepth 1 -printf '%p %i %m %s %t\n' | sort; }

# refuses MESSAGE ARGUMENT..: runs the script, which must leave all files as they are.
refuses() {
  listed > "$work/before"
  run "${@:2}"
  in_shell "${*:2}" refused "$1"
}
refused() {
  cat "$work/message"
  same "$status $(cat "$work/out")" '2 ' && grep -qxF -e "$1" "$work/message" &&
    listed | diff "$work/before" -
}

# decides HEADER TEXT OUTPUT: -f with a header must make this of a text, both as printf reads them.
decides() {
  fresh
  printf '%b' "$1" > header
  printf '%b' "$2" > in.c
  gives 0 "$(printf '%b' "$3")" -x2 -f header in.c
}

clients() {
  # WebKit's generate-api-header.py: the text comes by a pipe, and the status is 0 if it changed.
  fresh
  makes out.h a 0 -DA -UB -x1 -oout.h -
  makes out.h "$(cat in.c)" 1 -DQ -x1 -oout.h -
  # C-Vise and C-Reduce: the file of -o is there, or is the input.
  fresh
  printf '\n#if 0\nz\n#endif\n' >> in.c
  gives 0 A -s in.c
  echo old > old.c
  makes old.c $'b\n\n#if 0\nz\n#endif' 0 -B -x 2 -UA -o old.c in.c
  makes in.c $'#ifdef A\na\n#else\nb\n#endif' 0 -B -x 2 -k -o in.c in.c
  gives 1 '' -B -x 0 -DA -o in.c in.c
  # unifdefall: later options override those of a header.
  fresh
  printf '#undef A\n#undef B\n' > undefs
  printf '#define A 1\n#define F(c) c\n' > defs
  printf '#if A && !defined(B) && defined F\ny\n#endif\n' > in.c
  gives 1 y -k -f undefs -f defs in.c
  gives 1 y -k -I/usr/include -I . -f undefs -f defs in.c
  gives 1 '' -k -f undefs -f defs -UA in.c
  gives 1 y -k -UA -f undefs -f defs in.c
}

options() {
  local line
  # In place, with all options after the files, too.
  fresh
  gives 1 '' -m -DA a.c same.c c.c
  holds a.c a same.c x c.c a
  fresh
  makes a.c a 0 a.c -x1 -m same.c -DA
  fresh
  gives 1 '' -x1 -m same.c
  gives 0 '' -m same.c
  gives 0 '' -x2 -m -DA same.c a.c
  gives 1 a -m -DA -
  # With the old text under another name, which the group of letters ends with.
  fresh
  chmod 640 a.c
  ln -s c.c a.c.bak
  gives 1 '' -bM .bak -DA a.c same.c
  holds a.c $'\na' a.c.bak "$(cat in.c)" same.c.bak x c.c "$(cat in.c)"
  in_shell 'the modes of -M' same "$(stat -c %a a.c a.c.bak)" $'640\n640'
  makes c.c a 1 -M '' -DA c.c
  in_shell 'an empty suffix' test ! -e c.c.bak
  # Standard input and output, and what is no regular file.
  fresh
  gives 1 a -DA
  gives 1 a -DA -
  gives 1 a -DA in.c -o -
  run -o/dev/fd/3 -DA in.c 3> out
  holds out a
  mkfifo pipe
  exec 4<> pipe
  gives 1 '' -o pipe -UA in.c
  read -r -t 10 -u 4 line
  in_shell 'a pipe' same "$line $(stat -c %F pipe)" 'b fifo'
  exec 4>&-
  # Modes, and the links of the file of -o, which get no new text.
  fresh
  chmod 751 c.c
  ln c.c hard
  ln -s c.c soft
  gives 1 '' -DA -o c.c in.c
  gives 1 '' -UA -o soft in.c
  gives 1 '' -DA -o new in.c
  holds c.c a hard "$(cat in.c)" soft b
  in_shell 'the modes of -o' same "$(stat -c %a c.c new soft)" $'751\n644\n751'
  (umask 077; run -DA -o private in.c)
  in_shell 'the mode of a new file' same "$(stat -c %a private; cat private)" $'600\na'
  # Letters with their words attached or apart.
  fresh
  makes out.c a 0 -x2 -DA -oout.c a.c
  makes out.c b 0 -Bx 2 -o out.c -UA a.c
  gives 1 '' -m -DA a.c c.c
  holds a.c a c.c a
  # Bytes of a name and of a value, and words that begin with a hyphen.
  fresh
  local odd=$'-n a\n\'"$(x)`y`\\*'
  cp in.c "./$odd"
  makes "./$odd" a 1 -m -DA -- "$odd"
  makes "./$odd" b 1 "-o$odd" -UA in.c
  gives 1 a -D "A=\$(x) \"'*" in.c
  gives 1 b -U A -i DB=1 -iUC in.c
  # A name that isn't UTF-8, which yash takes for an empty one.
  if [ "${shell[0]}" != yash ]; then
    cp in.c $'\377.c'
    makes $'\377.c' a 1 -m -DA $'\377.c'
    rm $'\377.c'
  fi
  in_shell 'the files that are left' same "$(ls -A)" "$odd"$'\na.c\nbad.c\nc.c\nin.c\nsame.c'
  # What has no effect, and options that unifdef has itself.
  gives 1 $'\na' -dedb -DA in.c
  gives 1 $'#ifdef A\n#else\nb\n#endif' -cDA -I. in.c
  gives 0 "unifdef2 $version" -V -z
  informs
}

# informs: the version, the usage and the settings of a header, for which no program has to be
# there. A file may have the name of a long option.
informs() {
  local option
  UNIFDEF=none gives 0 "unifdef2 $version" --version -z
  for option in -h --help; do
    UNIFDEF=none run -DA "$option" -z
    in_shell "$option" same "$status $(cat "$work/message"; head -n 1 "$work/out" | cut -c 1-15)" \
      '0 usage: unifdef2'
  done
  cp in.c ./--help
  gives 1 a -DA -- --help
  rm ./--help
  # The settings of a header, each on a line.
  printf '#ifndef H\n#define H\n#define A 1\n#define S "x y"\n/* #undef B */\n#endif\n' > h.h
  UNIFDEF=none gives 0 $'-DA=1\n-DS=\n-UB' -DA --settings h.h -z
  : > h.h
  gives 0 '' --settings h.h
  echo '#if A' > h.h
  refuses 'unifdef2: h.h: An #if has no #endif' --settings h.h
  refuses 'unifdef2: none.h: Cannot be read' --settings none.h
  refuses 'unifdef2: Option --settings needs a header' --settings
  rm h.h
}

headers() {
  local ask='#if A == 2\n2\n#elif defined A\nyes\n#else\nno\n#endif\n'
  # A value is a word. Others, and that of a macro with arguments, only say that there is a macro.
  decides '#define A 2\n' "$ask" '2\n'
  decides ' # \tdefine\fA\v 2 /* two */ // 2\n' "$ask" '2\n'
  decides '#define A 2\r\n' "$ask" '2\n'
  decides '#define A 2' "$ask" '2\n'
  decides '#def\\\nine A\\\n 2\\' "$ask" '2\n'
  decides '#define A 2 /* one\n and a half */\n' "$ask" '2\n'
  decides '#define A 1 /* one */ /*\n*/ + 1\n' "$ask" '#if A == 2\n2\n#else\nyes\n#endif\n'
  decides '#define A B\n#define B 2\n' "$ask" '2\n'
  decides '#define A -2\n' '#if A == -2\n-2\n#endif\n' '-2\n'
  decides '#define A 0x2UL\n' "$ask" '2\n'
  decides '#define A "2"\n' '#ifdef A\na\n#endif\n#if A\n#endif\n' 'a\n#if A\n#endif\n'
  decides '#define A caf\0351\n' '#ifdef A\na\n#endif\n' 'a\n'
  decides '#define A\n' '#ifdef A\na\n#endif\n#if A\n#endif\n' 'a\n#if A\n#endif\n'
  decides '#define A(x) 2\n' '#ifdef A\na\n#endif\n#if A(1)\n#endif\n' 'a\n#if A(1)\n#endif\n'
  # What isn't defined, also as autoconf and CMake write it.
  decides '#undef A\n' "$ask" 'no\n'
  decides '/* #undef A */\n' "$ask" 'no\n'
  decides ' /*\t# undef\tA*/ \n' "$ask" 'no\n'
  decides '/* here: #undef A */\n' "$ask" "$ask"
  decides '/*\n#undef A */\n#\n' "$ask" "$ask"
  decides '/*\n/* #undef A */\n#define A 2\n' "$ask" '2\n'
  decides '// #undef A\n' "$ask" "$ask"
  # The last one counts. A comment is none if the header has another one.
  decides '#define A 1\n#define A 2\n' "$ask" '2\n'
  decides '#define A 2\n#undef A\n' "$ask" 'no\n'
  decides '/* #undef A */\n#define A 2\n' "$ask" '2\n'
  decides '#define A 2\n/* #undef A */\n' "$ask" '2\n'
  # A condition may hold or not, but an include guard holds. Its own name is no setting.
  decides '#define A 1\n#ifdef B\n#define A 2\n#endif\n' "$ask" "$ask"
  decides '#ifdef B\n#undef A\n#endif\n#define A 2\n' "$ask" "$ask"
  decides '#if 1\n/* #undef A */\n#else\n#endif\n' "$ask" "$ask"
  decides '/* c */\n#pragma once\n#ifndef G\n#define G\n#define A 2\n#endif // G\n\n' "$ask" '2\n'
  decides '/* #undef B */\n#ifndef G\n#define A 2\n#endif\n/* #undef C */\n' "$ask" '2\n'
  decides '#ifndef G\n#define G 1\n#if G\n#define B\n#endif\n#define A 2\nint x;\n#endif\n' "$ask#ifdef B\n#endif\n" '2\n#ifdef B\n#endif\n'
  decides '#ifndef G\n#define G 1\n#endif\n' '#ifndef G\n#endif\n' '#ifndef G\n#endif\n'
  decides '#ifndef A\n#define A 2\n#endif\n#define B 1\n' "$ask" "$ask"
  decides '#ifndef G\n#define A 2\n#else\n#endif\n' "$ask" "$ask"
  decides '#ifndef G\n#define A 2\n#endif\nint x;\n' "$ask" "$ask"
  decides 'int x;\n#ifndef G\n#define A 2\n#endif\n' "$ask" "$ask"
  decides '#ifdef A\n#endif\n#define A 2\n' "$ask" '2\n'
  decides '#if !G\n#define A 2\n#endif\n' "$ask" "$ask"
  # Comments, strings and characters as C has them, and what else may be in a header.
  decides '/*\n#define A 2\n*/ /* */ // /*\n#define B 1\n' "$ask" "$ask"
  decides '#define/**/A/**/2\n' "$ask" '2\n'
  decides '#define S "\\"/*"\n#define A 2\n' "$ask" '2\n'
  decides "#define C '\\\\'', '/*'\n#define A 2\n" "$ask" '2\n'
  decides '#define S "/*"\n#define T "\\\\"/* " */\n#define A 2\n' "$ask" '2\n'
  decides "#define C '\"'/*\n#define A 1\n*/\n#define D '\\\\\\\\'\n#define A 2\n" "$ask" '2\n'
  decides "don't /*\n#define A 2\n" "$ask" '2\n'
  decides '#include <x.h>\n#error "x"\n#\n#define\n#define 2 A\n#define B$ 1\n#define defined\n#define A 2\n' "$ask#ifdef B\n#endif\n" '2\n#ifdef B\n#endif\n'
  decides '' "$ask" "$ask"
  # A header as autoconf writes it, whose conditions and macros with arguments decide nothing.
  decides '/* #undef HAVE_A */\n#ifndef GUARD\n#define GUARD\n#define HAVE_B\t\t1 /* yes */\n#define E
#define F(x) x\n#ifdef __cplusplus\n#define inline\n#endif\n#define HAVE_B 2\n#endif\n' \
    '#ifdef HAVE_A\na\n#endif\n#if HAVE_B > 1\nb\n#endif\n#if F(1)\nf\n#endif\n#ifdef inline\ni\n#endif\n' \
    'b\n#if F(1)\nf\n#endif\n#ifdef inline\ni\n#endif\n'
  # Several headers, and their place among the options.
  fresh
  echo '#define A' > s.h
  echo '#undef A' > u.h
  gives 1 a -fs.h in.c
  gives 0 a -fs.h -x2 -
  gives 1 b -fs.h -f u.h in.c
  gives 1 a -UA -fs.h in.c
  gives 1 b -fs.h -UA in.c
}

faults() {
  fresh
  refuses 'unifdef: bad.c: 2: Inappropriate #endif' -o a.c bad.c
  refuses 'unifdef: bad.c: 2: Inappropriate #endif' -o new bad.c
  refuses 'unifdef: bad.c: 2: Inappropriate #endif' -m -DA bad.c a.c
  refuses 'unifdef: bad.c: 2: Inappropriate #endif' -M.bak bad.c
  mkdir a.c.bak
  refuses 'unifdef2: a.c.bak: Is a directory' -M.bak -DA a.c
  refuses 'unifdef2: Several files need -m or -M' -DA a.c c.c
  refuses "unifdef2: -o and -m don't go together" -m -o new a.c
  refuses "unifdef2: -B and -b don't go together" -Bb a.c
  refuses "unifdef2: -B and -b don't go together" -l a.c -B
  refuses "unifdef2: -s doesn't go with -m, -M and -o" -s -m a.c
  refuses "unifdef2: -s doesn't go with -m, -M and -o" -S -o new a.c
  refuses 'unifdef2: -m and -M need a file' -m
  refuses 'unifdef2: Option -o needs an argument' a.c -o
  refuses 'unifdef2: Option -o needs a file' -o '' a.c
  refuses 'unifdef2: Unknown option -z; -h prints the options' -bz a.c
  refuses 'unifdef2: Bad exit mode: 3' -x3 a.c
  refuses 'unifdef2: none: Is no regular file' -m none
  refuses 'unifdef2: none/new: Cannot be written' -DA -o none/new in.c
  refuses 'unifdef2: a.c.bak: Cannot be written' -DA -o a.c.bak in.c
  refuses 'unifdef2: none: Cannot be read' -f none in.c
  refuses 'unifdef2: .: Cannot be read' -f . in.c
  refuses 'unifdef2: bad.c: An #endif has no #if' -f bad.c in.c
  printf '#if 1\n' > "$work/if"
  refuses "unifdef2: $work/if: An #if has no #endif" -f "$work/if" in.c
  printf '#define A 1 /* x\n' > "$work/comment"
  refuses "unifdef2: $work/comment: A comment does not end" -f "$work/comment" in.c
  # Without the program, or with the script in its place.
  UNIFDEF=none refuses 'unifdef2: none: No such program; the variable UNIFDEF can name it' in.c
  UNIFDEF=./in.c refuses 'unifdef2: ./in.c: No such program; the variable UNIFDEF can name it' in.c
  cp "$script" "$work/unifdef"
  UNIFDEF=$work/unifdef refuses \
    "unifdef2: $work/unifdef: Is unifdef2 itself; the variable UNIFDEF must name unifdef" in.c
  # A program that ends in the middle.
  printf '#!/bin/sh\nprintf ha\nkill -9 $$\n' > half
  chmod +x half
  listed > "$work/before"
  UNIFDEF=./half run -o a.c in.c
  in_shell 'a program that is killed' same "$status$(listed | diff "$work/before" -)" 2
  # A full disk. No test has a device as the file of -o: a script with a mistake could replace it.
  if [ -w /dev/full ]; then
    "${shell[@]}" "$script" -DA in.c > /dev/full 2> "$work/message"
    in_shell 'a full disk' same "$? $(grep -c . "$work/message")" '2 1'
  else
    skip 'a full disk' '/dev/full is not there'
  fi
}

# What a file keeps of its mode.
modes() {
  local mode
  fresh
  for mode in 4755 2755 1755 6711; do
    cp in.c c.c
    chmod "$mode" c.c
    makes c.c a 1 -m -DA c.c
    in_shell "the mode $mode" same "$(stat -c %a c.c)" "${mode#?}"
  done
}

# In the directory of another user, a new file has another owner, and maybe another group, which
# gets what all others have. No list of that user lets him read what he couldn't read before.
foreign_directory() {
  if [ "$(id -u)" -ne 0 ]; then
    skip 'the directory of another user' 'only root may change owners'
    return
  fi
  fresh
  mkdir d
  cp in.c d/a.c
  cp in.c d/b.c
  chown 65534:65533 d d/a.c
  chmod 2755 d
  chmod 4755 d/a.c
  chmod 640 d/b.c
  gives 1 '' -m -DA d/a.c d/b.c
  in_shell 'the modes of another user' same "$(stat -c '%u:%g %a' d/a.c d/b.c)" \
    $'0:65533 755\n0:65533 600'
  cp in.c d/a.c
  has setfacl || { lacks setfacl 'an access control list'; return; }
  if ! setfacl -d -m u:65534:rw d 2> /dev/null; then
    skip 'an access control list' 'this file system has none'
    return
  fi
  chmod 600 d/a.c
  run -m -DA d/a.c
  in_shell 'an access control list' same "$status $(cat "$work/message"; ls d; cat d/a.c)" \
    "2 unifdef2: d/a.c: Cannot be replaced: the owner of its directory lets others read new files
a.c
b.c
$(cat in.c)"
  chmod 644 d/a.c
  makes d/a.c a 1 -m -DA d/a.c
}

# Without /proc, nothing can be done by a descriptor.
without_proc() {
  local by=(unshare -m sh -c 'mount -t tmpfs none /proc && exec "$@"' -)
  if ! "${by[@]}" true 2> /dev/null; then
    skip 'unifdef2 without /proc' 'this user may not cover it'
    return
  fi
  fresh
  refuses 'unifdef2: a.c: Cannot be replaced without /proc' -m -DA a.c
  refuses 'unifdef2: new: Cannot be replaced without /proc' -o new -DA in.c
  informs
}

# meanwhile COMMAND ACTION: makes a command that does an action before each call, as the owner of the
# directory d may. There, $new is the new file, and `swap` puts what $it makes in its place.
meanwhile() {
  printf '%s\n' '#!/bin/sh' 'PATH=${PATH#*:}' "it='$it'" 'new=$(ls -d ./a.c.??????)' \
    'swap() { rm -rf "$new"; $it "$new"; }' "$2" "exec $(command -v "$1") \"\$@\"" \
    > "$work/meanwhile/${1##*/}"
  chmod +x "$work/meanwhile/${1##*/}"
}

# attacked STATUS MESSAGE OPTION..: runs the script so on d/a.c. No file outside of d may change.
attacked() {
  PATH=$work/meanwhile:$PATH UNIFDEF=$program run "${@:3}" -DA d/a.c
  rm -f "$work"/meanwhile/*
  in_shell "$it: the run" same "$status $(cat "$work/message")" "$1 $2"
  in_shell "$it: other files" same "$(stat -c %a precious; cat precious; ls e; cat e/a.c)" \
    $'640\nprecious\na.c\n'"$(cat in.c)"
}

# victims: makes the files of an attack: d is the attacker's, and the others aren't.
victims() {
  fresh
  mkdir -p d e "$work/meanwhile"
  echo precious > precious
  chmod 640 precious
  cp in.c e/a.c
  cp in.c d/a.c
}

# Whoever owns a directory may put something else in the place of the new file at any time: before
# it is made, before anything is written, and while the program runs.
attacks_on_new() {
  local it program=$UNIFDEF changes='Cannot be replaced: its directory changes meanwhile'
  for it in 'ln -s ../precious' 'ln -s none' 'ln -s /dev/null' 'ln ../precious' mkfifo 'cp ../in.c'; do
    victims
    meanwhile mktemp '$it ./a.c.guess; echo ./a.c.guess; exit'
    attacked 2 'unifdef2: d/a.c: Cannot be written' -m
    holds d/a.c "$(cat in.c)"
    rm d/a.c.guess
    meanwhile stat swap
    attacked 2 "unifdef2: d/a.c: $changes" -m
    in_shell "$it: what is left" same "$(ls -A d; cat d/a.c)" a.c$'\n'"$(cat in.c)"
    meanwhile "$UNIFDEF" swap
    program=$work/meanwhile/unifdef attacked 1 '' -m
  done
  victims
  it='a second name'
  meanwhile stat '[ -e second ] || ln "$new" second'
  attacked 2 "unifdef2: d/a.c: $changes" -m
}

# The same with the old file, whose mode counts if it was read, its directory, and the name of -M.
attacks_on_old() {
  local it program=$work/meanwhile/unifdef
  victims
  it='another old file'
  chmod 600 d/a.c
  meanwhile "$UNIFDEF" 'rm a.c; echo other > a.c; chmod 666 a.c'
  attacked 1 '' -m
  in_shell "$it" same "$(stat -c %a d/a.c; cat d/a.c)" $'600\na'
  victims
  it='another directory'
  meanwhile "$UNIFDEF" 'mv ../d ../gone; ln -s e ../d'
  attacked 1 '' -m
  holds gone/a.c a
  victims
  it='a link to a directory' program=$UNIFDEF
  meanwhile mv 'ln -sfn ../e a.c'
  attacked 1 '' -m
  holds d/a.c a
  victims
  it='a link under the suffix'
  meanwhile ln 'ln -sfn ../e a.c.bak'
  attacked 1 '' -M .bak
  holds d/a.c a d/a.c.bak "$(cat in.c)"
  victims
  ln -s ../e d/a.c.bak
  attacked 2 'unifdef2: d/a.c.bak: Is a directory' -M .bak
}

# Finds the program: beside the script to which a link leads, or else on PATH.
finds() {
  fresh
  mkdir "$work/a bin" "$work/lib"
  cp "$script" "$work/a bin"
  ln -s '../a bin/unifdef2' "$work/lib/unifdef"
  ln -s "$UNIFDEF" "$work/a bin/unifdef"
  unset UNIFDEF
  in_shell 'a program beside it' same "$(PATH="$work/lib:$PATH" unifdef -x2 -DA in.c)" a
  mkdir "$work/bin"
  mv "$work/a bin/unifdef" "$work/bin"
  in_shell 'a program on PATH' same "$(PATH="$work/bin:$PATH" "$work/lib/unifdef" -x2 -DA in.c)" a
}

# Debian 13 has no yash, and a fresh Debian no ksh.
shells=(dash 'bash --posix' 'busybox sh' mksh 'zsh --emulate sh')
for shell in yash ksh; do
  if has "$shell"; then shells+=("$shell"); else skip "unifdef2 by $shell" "no $shell is on PATH"; fi
done
for shell in "${shells[@]}"; do
  read -ra shell <<< "$shell"
  has "${shell[0]}" || { lacks "${shell[0]}" "unifdef2 by ${shell[*]}"; continue; }
  clients
  options
  headers
  faults
  modes
  foreign_directory
  without_proc
  attacks_on_new
  attacks_on_old
done
shell=(sh)
finds
finish && [ "$passed" -gt 150 ]
