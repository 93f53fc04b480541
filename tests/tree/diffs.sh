# The diffs of -n and -d: patch and git apply take them, forwards and back.

# A diff has the changed lines, three lines around them, and no other ones.
test_small_diffs() {
  alone src/a.c "1\\n2\\n3\\n4\\n${text}5\\n6\\n7\\n8\\n"
  after '1 -n -q -DA src' prints '--- src/a.c
+++ src/a.c
@@ -2,11 +2,7 @@
 2
 3
 4
-#ifdef A
 yes
-#else
-no
-#endif
 5
 6
 7'
  put src/a.c "$text"
  after '1 -n -q -c -UA src' prints '--- src/a.c
+++ src/a.c
@@ -1,5 +1,4 @@
 #ifdef A
 yes
 #else
-no
 #endif'
}

# The marks of the lines are those of the output. Here the directives over several lines stay, since
# without DOC, in which a comment begins, the last one would be read in another way.
test_marks_of_output() {
  local text='#if VMS && \\\n  W\n#endif\nx;\n\n\ny;\nz;\n#ifdef DOC\nsrc/*.c\n#endif\n'
  text+='#if X || \\\n  Y\nb;\n#endif\n/* end */\n'
  alone src/a.c "$text"
  after '1 -n -q -p -UVMS -iUDOC src' prints '--- src/a.c
+++ src/a.c
@@ -6,9 +6,6 @@
 
 y;
 z;
-#ifdef DOC
-src/*.c
-#endif
 #if X || \
   Y
 b;'
  run 1 -q -p -B -UVMS -iUDOC src
  is src/a.c "${text/\#ifdef DOC\\nsrc\/\*.c\\n\#endif\\n/}"
}

# applies COMMAND..: the command must take the diff in a copy of the tree, and with -R turn it back.
applies() {
  has "$1" || { lacks "$1" "diffs by $1"; return 0; }
  rm -rf "$work/run"
  cp -r "$work/old" "$work/run"
  cd "$work/run" || exit 1
  "$@" < "$work/diff" > /dev/null 2>&1
  holds_that diff -r . "$work/new"
  "$@" -R < "$work/diff" > /dev/null 2>&1
  holds_that diff -r . "$work/old"
}

# taken WORD..: patch and git take the diff of the last run, which shows what these words change.
# GNU patch 2.8 refuses a name with a newline.
taken() {
  cp "$work/out" "$work/diff"
  cp -r . "$work/old"
  run 0 -q -x2 "$@"
  cp -r . "$work/new"
  compgen -G $'src/*\n*' > /dev/null || applies patch -s -p0 -F0
  applies git apply -p0
  rm -rf "$work/old" "$work/new"
}

# The diffs of -n turn each text into its output, and back. Each text has another trap for them.
test_diffs() {
  local options
  for options in -DA -UA '-b -DA' '-b -UA' '-c -UA' '-b -c -DA' '-l -UA' '-t -DA'; do
    fresh 'src/a name with spaces.c' $'src/tab\t, "quotes" and back\\slash.c'
    put src/plain.c "a\\nb\\nc\\n${text}d\\n"
    put src/whole.c '#ifdef A\nx\n#endif\n'
    put src/open_end.c "${text%\\\\n}"
    put src/open_line.c "x\\n${text}last"
    put src/returns.c '#ifdef A\r
yes\r
#else\r
no\r
#endif\r
x\r
'
    put src/nul.c "a\\0b\\n$text"
    put src/elif.c '#if A
a
#elif B
b
#elif C
c
#endif
'
    put src/far.c "$text$(yes line | head -n 40)\\n$text"
    put src/minus.c '#ifdef A
-- a/x
++ b/x
@@ -1 +1 @@
#endif
-- b
'
    run 1 -n $options src
    taken $options src
  done
  fresh src/a.c $'src/two\nlines.c'
  run 1 -n -DA src
  taken -DA src
}

# No path in a diff begins with ./, and one that begins or ends with a space is quoted.
test_diff_paths() {
  local path
  fresh ' first.c' 'last.c ' src/x.c
  for path in . ./ ././ .//; do
    run 1 -n -q -DA -g '*' -- "$path"
    prints '--- " first.c"
+++ " first.c"
--- "last.c "
+++ "last.c "
--- src/x.c
+++ src/x.c' grep '^[-+][-+][-+] '
  done
  taken -DA -g '*' -- .
}

# No file is changed once its change can't be shown.
test_lost_diffs() {
  fresh src/a.c src/b.c
  put src/c.c '#endif\n'
  exits 2 "$TREE" -d -DA -- src > /dev/full 2> "$work/err"
  says_only 'stdout: Cannot be written' '1 changed, 0 unchanged, 1 faulty' '4 lines removed'
  is src/a.c 'yes\n' and src/b.c "$text"
  exits 2 "$TREE" -DA -- src > /dev/full 2> "$work/err"
  is src/b.c 'yes\n'
}

# patch -R undoes a run with the diff that -d prints of it.
test_undoes() {
  small_tree
  put src/linked.c "$text"
  ln src/linked.c src/other.c
  cp -r src "$work/was"
  after '2 -d -DA src' is src/a.c 'yes\n'
  prints 0 grep -c linked.c
  cp "$work/out" "$work/diff"
  holds_that same "$(grep -c '^--- ' "$work/diff")" 2
  patch -s -R -p0 -i "$work/diff"
  holds_that diff -r "$work/was" src
  after '2 -n -DA src' holds_that cmp "$work/out" "$work/diff"
  after '2 -n -d -DA src' holds_that cmp "$work/out" "$work/diff"
  run 1 -w -d -q -DA src/linked.c
  holds_that same "$(head -n 1 "$work/out" | cut -f 1)" '--- src/linked.c'
  rm -rf "$work/was"
}

# So it does for an absolute path, and for one that begins with ../.
test_undoes_elsewhere() {
  anew run 2 -d -DA "$work/run/src"
  is src/a.c 'yes\n'
  patch -s -R -d / -p1 -i "$work/out"
  is src/a.c "$text"
  exits 2 env -C src "$TREE" -d -DA ../src > "$work/above" 2> "$work/err"
  is src/directory/b.c 'yes\n'
  (cd src && patch -s -R -d .. -p1 -i "$work/above")
  is src/directory/b.c "$text"
}
