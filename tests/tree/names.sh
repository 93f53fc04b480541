# Names, kinds and patterns of files, names in messages, and paths from the input.

test_names() {
  fresh
  local versioned=(src/{.git,.hg,.svn,.bzr,CVS,.pc}) bad=src/$'\x81\x88\xff.c'
  local odd=('a b.c' $'line\nfeed.c' $'ends in\n.h' '-n.c' '*.c' "it's.c" '$(x).h' 'back\slash.c'
    '(.c' '!.c' 'a=b.c')
  local chosen=("${odd[@]/#/src/}" src/{x.cc,x.hpp,x.h.in,-DB/y.C,directory.c/z.H})
  local others=(src/a.txt src/a.c.new "${versioned[@]/%//hook.c}")
  mkdir src/-DB src/directory.c "${versioned[@]}"
  put "${chosen[@]}" "${others[@]}" "$bad" "$text"
  mkfifo src/pipe.c
  run 2 -DA -- src
  says "src/\\x81\\x88\\xff.c: Its name isn't UTF-8" '16 changed, 0 unchanged, 1 faulty'
  is "$bad" "$text"
  rm "$bad"
  after '0 -DA -- src' is "${chosen[@]}" 'yes\n' and "${others[@]}" "$text"
  none_left
  run 1 -DA -g '*.txt' -g '*.new' src/a.txt src
  says '2 changed, 0 unchanged, 0 faulty'
  put ./-x.c "$text"
  after '1 -DA -- -x.c' is ./-x.c 'yes\n'
}

test_named_files() {
  fresh src/a.txt src/x.cc
  mkfifo src/pipe.c
  refused 'No file matches' -DA -g '*.none' src
  is src/a.txt "$text"
  after '1 -DA src/a.txt' is src/a.txt 'yes\n'
  put src/a.txt src/b.txt "$text"
  after '1 -DA -g a.txt src/b.txt' is src/b.txt 'yes\n' and src/a.txt "$text"
  refused 'src/pipe.c: Is no regular file' -DA src/x.cc src/pipe.c
  is src/x.cc "$text"
}

# Messages show control characters of names, and each is one write.
test_messages() {
  local sealed=src/$'del\177 and\nline.c'
  fresh "$sealed"
  put src/$'bell\a.c' '#endif\n'
  chmod 0 "$sealed"
  mkfifo src/$'tab\t.c'
  refused 'src/tab\x09.c: Is no regular file' -DA src/$'tab\t.c'
  refused 'src/\x1b[31mred.c: No such file or directory' -DA src/$'\e[31mred.c'
  refused $'src/\xc2\xa0\xc3\x85\\xc2\\x80\\xc2\\x9f: No such file or directory' \
    -DA $'src/\xc2\xa0\xc3\x85\xc2\x80\xc2\x9f'
  refused 'Bad symbol: -DA\x0a1' -D$'A\n1' src
  run 2 -DA src
  holds_that grep -qxF 'unifdef: src/bell\x07.c: 1: Inappropriate #endif' "$work/err"
  is_root || says 'src/del\x7f and\x0aline.c: Cannot be read: Permission denied'
  can_trace 'messages in one call' || return 0
  under 2 strace -f -s 200 -o "$work/calls" -e trace=write -- -DA src
  holds_that same "$(grep 'write(2' "$work/calls" | grep -cv 'write(2, "unifdef.*\\n"')" 0
}

# Paths from the input are read by the program alone.
test_paths_from_input() {
  local input=$work/paths option
  fresh src/a.txt src/b.c
  ln -s a.txt src/link
  mkdir src/directory
  put src/directory/c.c "$text"
  mkfifo src/pipe
  printf 'src/a.txt\0src/link\0src/directory\0src/pipe\0src/none\0src/\x81\0' > "$work/paths"
  after '2 -0 -DA' is src/a.txt 'yes\n' and src/b.c src/directory/c.c "$text"
  says 'src/pipe: Is no regular file' 'src/none: No such file or directory' \
    "src/\\x81: Its name isn't UTF-8" '1 changed, 0 unchanged, 3 faulty'
  rm src/pipe
  find src -print0 > "$work/paths"
  after '1 -0 -DA' says_only '2 changed, 1 unchanged, 0 faulty' '8 lines removed'
  find src > "$work/paths"
  refused "Nothing is at a path of several lines; \
-0 wants a NUL after each path (git ls-files -z)" -0 -q -DA
  input=/dev/null run 0 -0 -DA
  says_only '0 changed, 0 unchanged, 0 faulty' 'no condition names A'
  for option in -V --version; do
    run 0 "$option"
    prints "unifdef-tree $version"
  done
  input=. run 2 -0 -DA
  says_only 'stdin: Cannot be read'
}
