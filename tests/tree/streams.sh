# Standard streams that are full, closed or a terminal, and texts in which no directive is found.

# Messages that can't be written.
test_full_messages() {
  fresh src/a.c
  exits 2 "$TREE" -DA src 2> /dev/full
  is src/a.c 'yes\n'
  exits 0 "$TREE" -q -UA src 2> /dev/full
}

# No file of the tree is opened in the place of a closed stream, which is written to.
test_closed_streams() {
  anew mkdir src/.unifdef-tree.a.c
  exits 2 env -C src "$TREE" -DA a.c 2>&-
  is src/a.c "$text"
  exits 2 "$TREE" -DA src >&- 2>&-
  is src/a.c "$text" and src/directory/b.c 'yes\n'
  exits 2 "$TREE" -DA src/a.c <&- >&- 2>&-
  is src/a.c "$text"
  anew ln src/a.c linked.txt
  exits 2 env -C src "$TREE" -q -d -w -DA a.c >&- 2> "$work/err"
  says 'stdout: Cannot be written'
  is src/a.c 'yes\n'
  anew ln src/directory/b.c linked.txt
  exits 2 "$TREE" -w -DA src/directory >&- 2>&-
  is src/directory/b.c 'yes\n'
  small_tree
  exits 1 "$TREE" -DA src/a.c <&- > "$work/out" 2> "$work/err"
  exits 2 "$TREE" -0 -DA <&- 2> "$work/err"
  says_only 'stdin: Cannot be read'
}

# A text in UTF-16, and a directive on a first line after a byte order mark.
test_marks() {
  local name
  fresh
  printf '\377\376#\0i\0f\0d\0e\0f\0 \0A\0\n\0' > src/little.h
  printf '\376\377\0#\0i\0f\0 \0A\0\n' > src/big.h
  put src/first.h '\xef\xbb\xbf # ifdef A\nyes\n#endif\n'
  put src/later.h '\xef\xbb\xbf#pragma once\n#ifdef A\nyes\n#endif\n'
  put src/empty.h '\xef\xbb\xbf'
  cp -r src was
  after '2 -DA src' says_only 'src/big.h: Cannot be read: text in UTF-16' \
    'src/first.h: Cannot be read: byte order mark before #if' \
    'src/little.h: Cannot be read: text in UTF-16' \
    '1 changed, 1 unchanged, 3 faulty' '2 lines removed'
  is src/later.h '\xef\xbb\xbf#pragma once\nyes\n'
  for name in big.h first.h little.h; do
    holds_that cmp "src/$name" "was/$name"
  done
}

# on_terminal STATUS WORDS: runs it on a terminal, with all that it shows in $work/out.
on_terminal() { exits "$1" script -qec "'$TREE' $2" /dev/null < /dev/null > "$work/out"; }
without_returns() { tr -d '\r'; }
without_colours() { tr -d '\r' | sed $'s/\x1b\\[[0-9]*m//g'; }
changed_lines() { tr -d '\r' | sed -n '3,5p;7,8p'; }
counted() { grep -o 'unifdef-tree: [0-9]* of .* files' | tr '\r' '\n'; }

test_counter() {
  local words none='unifdef-tree: 0 changed, 100 unchanged, 0 faulty'
  alone src/{1..100}.c "$text"
  on_terminal 1 '-DA src'
  prints $'unifdef-tree: 0 of 100 files \nunifdef-tree: 64 of 100 files' counted
  holds_that grep -q $'\r\x1b\\[Kunifdef-tree: 100 changed, 0 unchanged, 0 faulty' "$work/out"
  for words in '-q -DB' '-r -DB' -s; do
    on_terminal 0 "$words src"
    prints 0 grep -c -e 'of 100 files' -e $'\x1b'
  done
  TERM=dumb on_terminal 0 '-DB src'
  prints "$none"$'\nunifdef-tree: no condition names B' without_returns
  run 0 -DA src
  holds_that same "$(cat "$work/err")" "$none"$'\nunifdef-tree: no condition names A'
  after '0 -q -DA src' says_only
}

# Removed lines are red, added ones green, and the head is cyan.
test_colours() {
  local esc=$'\x1b' plain
  fresh src/a.c
  after '1 -n -q -UA src' prints 0 grep -c "$esc"
  plain=$(cat "$work/out")
  on_terminal 1 '-n -q -UA src'
  prints "${esc}[36m@@ -1,5 +1 @@${esc}[m
${esc}[31m-#ifdef A${esc}[m
${esc}[31m-yes${esc}[m
 no
${esc}[31m-#endif${esc}[m" changed_lines
  prints "$plain" without_colours
  NO_COLOR=1 on_terminal 1 '-n -q -UA src'
  prints "$plain" without_returns
  # An empty NO_COLOR counts as unset.
  NO_COLOR='' on_terminal 1 '-n -q -UA src'
  holds_that grep -q "$esc" "$work/out"
  TERM=dumb on_terminal 1 '-n -q -UA src'
  prints "$plain" without_returns
}
