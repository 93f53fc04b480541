# -p alone, next to each other option, and over several lines. The wanted lines were found by hand.

# A file of which each condition that stays has decided operands under -UVMS.
unpruned='#if defined(UNIX) || defined(VMS)
x
#elif defined(VMS) || (defined(A) && !defined(VMS))
y
#endif
#ifdef VMS
z
#endif
'
pruned='#if defined(UNIX)
x
#elif defined(A)
y
#endif
'

# prunes STATUS BEFORE OPTIONS AFTER: checks what -p with these options makes of a file.
prunes() {
  put src/a.c "$2"
  run "$1" -p $3 src
  is src/a.c "$4"
}

test_pruned_files() {
  local before words
  alone src/a.c "$unpruned"
  put src/only.c '#if X || VMS /* c */\r\n#endif\r\n'
  put src/same.c '#if X\n#endif\n'
  before=$(stat -c '%i %y' src/same.c)
  after '1 -UVMS src' is src/only.c '#if X || VMS /* c */\r\n#endif\r\n'
  put src/a.c "$unpruned"
  after '1 -p -UVMS src' is src/a.c "$pruned" and src/only.c '#if X /* c */\r\n#endif\r\n'
  holds_that same "$(stat -c '%i %y' src/same.c)" "$before"
  says_only '2 changed, 1 unchanged, 0 faulty' '3 lines removed' '3 conditions edited'
  none_left
  after '0 -p -UVMS src' says_first '0 changed, 3 unchanged, 0 faulty'
  is src/a.c "$pruned"
  put src/a.c "$unpruned"
  cp -r src was
  after '1 -n -p -UVMS src' holds_that diff -r was src
  says_only '1 would change, 2 unchanged, 0 faulty' '3 lines removed' '2 conditions edited'
  cp "$work/out" diff
  after '1 -d -p -UVMS src' holds_that cmp "$work/out" diff
  is src/a.c "$pruned"
  patch -s -R -p0 -i diff
  holds_that diff -r was src
  patch -s -p0 -i diff
  is src/a.c "$pruned"
  for words in -b -l; do
    prunes 1 "$unpruned" "$words -UVMS" "$pruned\\n\\n\\n"
  done
  for words in '1 -q' '1 -q -x0' '0 -q -x1' '0 -q -x2'; do
    put src/a.c "$unpruned"
    run $words -p -UVMS src
    says_only
  done
  put src/a.c "$unpruned"
  ln src/a.c src/b.c
  run 2 -p -UVMS src
  after '2 -p -n -UVMS src' is src/b.c "$unpruned"
  after '1 -p -w -UVMS src' is src/b.c "$pruned"
}

# An #elif that becomes an #if. Only without -p do two spaces replace its lost bytes.
test_pruned_openers() {
  local text='#ifdef A\n1\n#elif X\n2\n#endif\n'
  fresh
  prunes 1 "$text" -UA '#if X\n2\n#endif\n'
  after '0 -p -UA src' is src/a.c '#if X\n2\n#endif\n'
  put src/a.c "$text"
  after '1 -UA src' is src/a.c '#if   X\n2\n#endif\n'
  after '0 -p -UA src' is src/a.c '#if   X\n2\n#endif\n'
  prunes 1 '# ifdef A\n1\n# elif  defined(X)\n2\n# endif\n' -UA '# if  defined(X)\n2\n# endif\n'
  prunes 1 '#ifdef A\n#elifdef X // x\n1\n#elifndef Y\n2\n#endif\n' -UA \
    '#ifdef X // x\n1\n#elifndef Y\n2\n#endif\n'
  prunes 1 '#ifdef A\n#elifndef/**/X\n#endif\n' -UA '#ifndef/**/X\n#endif\n'
  prunes 1 '#ifdef A\n#elif!X\n#elif Y\n#endif' -UA '#if!X\n#elif Y\n#endif'
  prunes 1 '#ifdef A\n#elif X || \\\n  Y\n#endif\n' -UA '#if X || \\\n  Y\n#endif\n'
  prunes 1 '#ifdef A\n#elif X || A || Y\n#endif\n' -UA '#if X || Y\n#endif\n'
  prunes 1 '#ifdef A\n1\n#elif X\n#endif\n' '-b -UA' '\n\n#if X\n#endif\n'
}

# The comment of an #else or #endif, which -p reads as a condition.
test_pruned_comments() {
  local text='#if X\n#endif /* VMS || UNIX */\n'
  fresh
  prunes 1 "$text" -UVMS '#if X\n#endif /* UNIX */\n'
  says_only '1 changed, 0 unchanged, 0 faulty' '1 condition edited' 'no condition names VMS'
  after '0 -p -q -UVMS src' is src/a.c '#if X\n#endif /* UNIX */\n'
  put src/a.c "$text"
  after '0 -q -UVMS src' is src/a.c "$text"
  after '0 -r -q -UVMS src' prints 'src/a.c:2: a comment names it: #endif /* VMS || UNIX */'
  prunes 1 '#ifdef X\r\n#else // !VMS && X\r\n#endif/*VMS||X*/ \t\r\n' -UVMS \
    '#ifdef X\r\n#else // X\r\n#endif/*X*/ \t\r\n'
  prunes 1 '#if X\n#endif /* VMS || X//*/\n' -UVMS '#if X\n#endif /* X//*/\n'
  prunes 1 '#if X\n#endif /* VMS ||\n X */\n' -UVMS '#if X\n#endif /* X */\n'
  prunes 1 '#if X\n#endif // Y && (1 || X) && Z\n' '-k -DY' '#if X\n#endif // Z\n'
  # It is decided or not understood, another comment or anything else follows, or a comment is open.
  cat > src/a.c << 'EOT'
#if X
#else /* VMS */
#endif /* see VMS */
#if X
#else /* VMS || X */ /* y */
#endif /* VMS || X /* y */
#if X
#else /* VMS || X */ y
#endif // VMS || X \
EOT
  cp src/a.c was
  after '0 -p -r -q -UVMS src' holds_that cmp was src/a.c
  prints 'src/a.c:2: a comment names it: #else /* VMS */
src/a.c:3: a comment names it: #endif /* see VMS */
src/a.c:5: a comment names it: #else /* VMS || X */ /* y */
src/a.c:6: a comment names it: #endif /* VMS || X /* y */
src/a.c:8: a comment names it: #else /* VMS || X */ y
src/a.c:9: a comment names it: #endif // VMS || X \'
}

# Options that say how conditions are decided, and those that -p refuses.
test_pruned_by_options() {
  local words
  fresh
  prunes 1 '#if X && 1 && B\n#endif\n' -DB=1 '#if X && 1\n#endif\n'
  prunes 1 '#if X && 1\n#endif\n' '-k -DB=1' '#if X\n#endif\n'
  prunes 1 '#if X && 1 && B\n#endif\n#if X || B\n#endif\n' '-K -UB' \
    '#if X && 1 && B\n#endif\n#if X\n#endif\n'
  prunes 1 "#ifdef A\n\"'\n#if X || B\n#endif\n#endif\n#if X || B || A\n#endif\n" '-iUA -UB' \
    '#if X\n#endif\n'
  prunes 1 '#ifndef X\n#if X || B\n#endif\n#endif\n' '-iDA -UB' \
    '#ifndef X\n#if X\n#endif\n#endif\n'
  put src/a.c src/b.txt "$unpruned"
  run 1 -p -g '*.txt' -UVMS src
  is src/b.txt "$pruned" and src/a.c "$unpruned"
  printf 'src/a.c\0' > "$work/paths"
  input=$work/paths run 1 -0 -p -UVMS
  is src/a.c "$pruned"
  prunes 2 "$unpruned#else\n" -UVMS "$unpruned#else\n"
  put src/a.c "$unpruned"
  refused "-p and -s don't go together" -p -s -UVMS src
  refused "-p and -c don't go together: the complement is no C" -p -c -UVMS src
  refused "-p and -t don't go together: plain text has no comments" -p -t -UVMS src
  is src/a.c "$unpruned"
}

# Why a condition stays.
test_unpruned() {
  fresh
  cat > src/a.c << 'EOT'
#if X || V\
MS
#endif
#if!VMS&&X
#endif
#if X ? VMS : 1
#endif
#if X || VMS + Y
#endif
#if F(VMS)
#endif
EOT
  after '0 -p -r -UVMS src' says_only '0 changed, 1 unchanged, 0 faulty' '0 conditions edited' \
    '5 conditions still name a symbol'
  prints 'src/a.c:1: over several lines: #if X || V\
src/a.c:4: its rest would be misread: #if!VMS&&X
src/a.c:6: not understood: #if X ? VMS : 1
src/a.c:8: an operand is unknown: #if X || VMS + Y
src/a.c:10: among arguments of a call: #if F(VMS)'
  after '0 -r -UVMS src' prints 'src/a.c:4: #if!VMS&&X' sed -n 2p
  cat > src/a.c << 'EOT'
#if X
#endif
#if VMS && X
#elif F(VMS) || VMS
#endif
/*
*/ #ifdef X VMS
#elifdef VMS -1
#endif
EOT
  after '1 -p -r -K -UVMS src' prints 'src/a.c:3: an operand is unknown: #if VMS && X
src/a.c:4: among arguments of a call: #elif F(VMS)
src/a.c:7: not understood: */ #ifdef X VMS
src/a.c:8: not understood: #elifdef VMS -1'
  put src/a.c '#ifdef A\n#if VMS /* q */\n#endif\n#endif\n'
  after '1 -p -r -iDA -UVMS src' prints 'src/a.c:1: decided as C: #if VMS /* q */'
}

# stays TEXT [OPTION..]: -p changes nothing in it.
stays() {
  prunes 0 "$1" "-q ${*:2} -UVMS" "$1"
  says_only
}

# folds: checks what -p makes of the file of before_and_after. A second run changes nothing.
folds() {
  before_and_after
  run 1 -q -p -UVMS src
  holds_that diff "$work/wanted" src/a.c
  run 0 -q -p -UVMS src
  says_only
  holds_that diff "$work/wanted" src/a.c
}

# Directives that a backslash or a comment continues.
test_pruned_over_lines() {
  fresh
  folds << 'EOT'
#if defined(UNIX) || \
  defined(VMS)
x
#endif
->
#if defined(UNIX)
x
#endif
EOT
  folds << 'EOT'
#if VMS || A || \
  B
#endif
->
#if A || \
  B
#endif
EOT
  folds << 'EOT'
a
#if defined(VMS) && \
  X
b
#endif
c
->
a
c
EOT
  folds << 'EOT'
#ifdef VMS
a
#else /* no
 VMS */
b
#endif /* x
 y */
->
b
EOT
  folds << 'EOT'
#if VMS || A /* x
 y */
#endif
->
#if A /* x
 y */
#endif
EOT
  # A tab, and carriage returns.
  prunes 1 '#if X || \\\n\tVMS\n#endif\n' '-q -UVMS' '#if X\n#endif\n'
  prunes 1 '#if X || \\\r\n  VMS\r\n#endif\r\n' '-q -UVMS' '#if X\r\n#endif\r\n'
  stays '#if X\r\n#endif\r\n'
}

# Directives over several lines that can't be read as one line.
test_unpruned_over_lines() {
  fresh
  # A backslash splits a word.
  stays '#if X || V\\\nMS\n#endif\n'
  # A quote.
  stays "#if X || VMS || \\\\\n  'a'\n#endif\n"
  # No white space is next to the backslash.
  stays '#if X ||\\\nVMS\n#endif\n'
  # The lines end differently.
  stays '#if X || \\\r\n  VMS\n#endif\n'
  # No condition, and a file with a vertical tab.
  stays '#define A \\\n  VMS\n'
  stays '#if X || \\\n  VMS\n#endif\n\v\n'
  # One such directive would have to be removed, so no lines of the file are joined.
  stays '#if !VMS || \\\n  X\n#elif X ||\\\nY\n#endif\n'
  after '0 -p -r -UVMS src' prints 'src/a.c:1: over several lines: #if !VMS || \'
  stays '#if X || \\\n  VMS\n#endif\n' -b
}

# The list and the diff of directives over several lines.
test_lists_over_lines() {
  local listed='src/a.c:1: among arguments of a call: #if F(VMS, \
src/a.c:4: an operand is unknown: #if A || \
src/a.c:6: a comment names it: #else /* no
src/a.c:8: a comment names it: #endif // VMS'
  fresh
  cat > src/a.c << 'EOT'
#if F(VMS, \
  X)
#endif
#if VMS || A || \
 X + VMS
#else /* no
 VMS */
#endif // VMS
EOT
  after '1 -p -r -UVMS src' prints "$listed"
  says_last '2 conditions still name a symbol'
  after '0 -p -r -b -UVMS src' prints "$listed"
  cat > src/a.c << 'EOT'
#ifdef VMS
a
#else /* no
 VMS */
b
#endif
#if A || \
 VMS || \
 B
q
#endif
EOT
  after '1 -n -p -q -UVMS src' prints '--- src/a.c
+++ src/a.c
@@ -1,11 +1,5 @@
-#ifdef VMS
-a
-#else /* no
- VMS */
 b
-#endif
 #if A || \
- VMS || \
- B
+ B
 q
 #endif'
}
