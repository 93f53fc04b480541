# Trees of the size that users have. These tests run in one file system alone.

# space MIB WHAT: returns whether there is so much space. Else WHAT is skipped.
space() {
  [ "$(df -k --output=avail "$work" | tail -n 1)" -gt $(($1 * 1024)) ] ||
    { skip "$2" "$work has no $1 MiB"; return 1; }
}

# many COUNT LENGTH: makes so many files of a line, with names of this length.
many() {
  yes 'int a;' | head -n "$1" | split -l 1 -a $(($2 - 2)) -d --additional-suffix=.c - src/
}

# A directory of 20,000 names, of which one call of the system lists a part.
test_scale_names() {
  local changed
  fresh
  many 20000 20
  changed=(src/{000000000000000000,000000000000000799,000000000000000800,000000000000019999}.c)
  put "${changed[@]}" "$text"
  run 1 -DA src
  says_only '4 changed, 19996 unchanged, 0 faulty' '16 lines removed'
  is "${changed[@]}" 'yes\n'
  holds_that same "$(find src -type f -size +7c)" ''
}

# Names of 250 and of 255 bytes, which is the limit for the names of the new files, too.
test_scale_long_names() {
  fresh
  many 400 250
  put src/*.c src/"$(repeat a 253).c" src/"$(repeat a 252)b.c" "$text"
  run 1 -DA src
  says_only '402 changed, 0 unchanged, 0 faulty' '1608 lines removed'
  holds_that same "$(cat src/* | uniq -c)" '    402 yes'
  holds_that same "$(find src -type f | wc -l)" 402
}

# 3,000 directories side by side, and 1,000 of them one in the other.
test_scale_directories() {
  local deep
  deep=src/$(printf 'd/%.0s' {1..1000})
  fresh
  seq -f 'src/%g' 3000 | xargs mkdir -p "$deep"
  put src/{1..3000}/a.c "${deep}a.c" "$text"
  run 1 -DA src
  says_only '3001 changed, 0 unchanged, 0 faulty' '12004 lines removed'
  holds_that same "$(cat src/[1-9]*/a.c "${deep}a.c" | uniq -c)" '   3001 yes'
  holds_that same "$(find src -type f | wc -l)" 3001
}

# between FIRST LAST: prints 60 MiB of lines between two texts.
between() {
  printf '%b' "$1"
  yes 'int x;' | head -n 8988000
  printf '%b' "$2"
}

# A file of 60 MiB is changed at both of its ends.
test_scale_large_file() {
  local first='#if A\n1\n#endif\n' last='#if defined(A) && B\n2\n#endif\n'
  fresh
  space 400 'a file of 60 MiB' || return 0
  between "$first" "$last" > src/a.c
  run 1 -p -DA src
  says_only '1 changed, 0 unchanged, 0 faulty' '2 lines removed' '1 condition edited'
  holds_that cmp <(between '1\n' '#if B\n2\n#endif\n') src/a.c
  between "$first" "$last" > src/a.c
  run 1 -d -DA src
  prints '--- src/a.c
+++ src/a.c
@@ -1,6 +1,4 @@
-#if A
 1
-#endif
 int x;
 int x;
 int x;'
  holds_that cmp <(between '1\n' "$last") src/a.c
  patch -s -R -p0 < "$work/out"
  holds_that cmp <(between "$first" "$last") src/a.c
}

# A fault in line 300,006, and a hunk after line 65,536.
test_scale_lines() {
  fresh
  { seq 300000; printf '%b' "$text#endif\n"; } > src/a.c
  run 2 -DA src
  holds_that same "$(cat "$work/err")" 'unifdef: src/a.c: 300006: Inappropriate #endif
unifdef-tree: 0 changed, 0 unchanged, 1 faulty'
  { printf '%b' "$text"; seq 70000; printf '%b' "$text"; } > src/a.c
  run 1 -n -q -DA src
  prints '--- src/a.c
+++ src/a.c
@@ -1,8 +1,4 @@
-#ifdef A
 yes
-#else
-no
-#endif
 1
 2
 3
@@ -70003,8 +69999,4 @@
 69998
 69999
 70000
-#ifdef A
 yes
-#else
-no
-#endif'
}

# sections COUNT LINES: prints sections of which -DA leaves a number, each with lines after it.
sections() {
  awk -v count="$1" -v lines="$2" 'BEGIN {
    for (i = 1; i <= count; i++) {
      printf "#ifdef A\n%d\n#endif\n", i
      for (j = 0; j < lines; j++) print "y"
    }
  }'
}

# A diff of a file of 2 MiB undoes its run: with one hunk of 400,000 lines, and with 20,000 hunks.
test_scale_diffs() {
  local count lines hunks
  while read -r count lines hunks; do
    fresh
    sections "$count" "$lines" > src/a.c
    cp src/a.c "$work/was"
    run 1 -d -DA src
    says_only '1 changed, 0 unchanged, 0 faulty' "$((2 * count)) lines removed"
    holds_that cmp <(grep -v '#' "$work/was") src/a.c
    holds_that same "$(grep -c '^@@' "$work/out")" "$hunks"
    patch -s -R -p0 < "$work/out"
    holds_that cmp "$work/was" src/a.c
  done <<< $'100000 1 1\n20000 45 20000'
}

# 20,000 symbols that none of 40,000 conditions names, beside one that each names: each of them has a
# line of its own.
test_scale_symbols() {
  local options
  fresh
  yes '#if defined(S) || X' | head -n 2000 | sed 's/$/\nx\n#endif/' | tee src/{1..20}.c > /dev/null
  mapfile -t options < <(seq -f '-DN%.0f' 20000)
  under 0 timeout 30 -- -n -K -DS "${options[@]}" src
  says_first '0 would change, 20 unchanged, 0 faulty'
  holds_that diff <(tail -n +3 "$work/err") <(seq -f 'unifdef-tree: no condition names N%.0f' 20000)
  under 0 timeout 30 -- -n -K "${options[@]}" src
  says_only '0 would change, 20 unchanged, 0 faulty' 'no condition names any of the 20000 symbols'
}

# An image of a disk and a text, of 400 MiB each, beside a source: -r reads neither into memory.
test_scale_noise() {
  alone src/a.c '#if A || B\nx\n#endif\n'
  space 500 'a text of 400 MiB' || return 0
  truncate -s 400M src/disk.img
  yes 'A line of a log' | head -c 400M > src/log.txt
  within 0 -v 300000 -n -r -UA src
  prints 'src/a.c:1: #if A || B'
  says_only '0 would change, 1 unchanged, 0 faulty' '1 condition still names a symbol' \
    '1 file of other names could not be searched'
}
