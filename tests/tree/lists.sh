# The lists of -s and -r, and the last lines. The wanted lines were found by hand.

squeezed() { tr -s ' '; }
listed() { grep '^src'; }

test_names_of_conditions() {
  fresh
  cat > src/a.h << 'EOT'
#if B > 1 && defined(C) // c
#elif A
#endif
#ifdef A
#endif
# if 0
# endif
EOT
  cat > src/b.h << 'EOT'
#if A && \
  D
#elif E ? 1 : 2
#endif
#ifdef X Y
#endif
/*
#if C
*/
#if(A)
#endif
EOT
  put src/c.h '#endif\n'
  after '2 -s src' prints ' 4 A
 1 B
 1 C
 1 D' squeezed
  says '2 files listed, 1 faulty; 2 conditions could not be listed in full; -r lists them'
  after '2 -s -r src' prints 'src/b.h:3: #elif E ? 1 : 2
src/b.h:5: #ifdef X Y
 4 A
 1 B
 1 C
 1 D' squeezed
  says '2 files listed, 1 faulty; 2 conditions could not be listed in full'
  holds_that same "$(grep -c 'names a symbol' "$work/err")" 0
  cat > src/c.h << 'EOT'
#if C
#elif D && D
#endif
#else
#if C && E
#endif
EOT
  after '2 -s src/c.h' prints ' 2 D
 1 C' squeezed
  rm src/*.h
  put src/crlf.h '/*
#if (
*/ #if (\r
#if 1 / 0
#elif 08
#elifdef A B \\

#endif
#else \\

#endif x
'
  after '0 -s -r src' prints 'src/crlf.h:3: */ #if (
src/crlf.h:5: #elif 08
src/crlf.h:6: #elifdef A B \'
  after '0 -s -r -t src' prints 3 grep -c .
  rm src/*.h
  put src/b.h '#ifdef X Y\n#endif\n'
  after '0 -s src' says '1 file listed, 0 faulty; 1 condition could not be listed in full; -r lists it'
  # A name among the arguments of a call isn't listed. Numbers there are no names.
  cat > src/b.h << 'EOT'
#if IS_ENABLED(CONFIG_FOO)
#elif VERSION >= KERNEL_VERSION(2, 6, 0xf)
#elif F (G(1)) /* H */
#elif defined(A) && F()
#elif F(A) && A
#endif
EOT
  after '0 -s -r src' prints 'src/b.h:1: #if IS_ENABLED(CONFIG_FOO)
src/b.h:3: #elif F (G(1)) /* H */
src/b.h:5: #elif F(A) && A
 3 F
 2 A
 1 IS_ENABLED
 1 KERNEL_VERSION
 1 VERSION' squeezed
  says '1 file listed, 0 faulty; 3 conditions could not be listed in full'
  alone src/full.h "#if FULL$(printf '%65527s' '')\\n#endif\\n"
  after '0 -s src' prints ' 1 FULL' squeezed
  says '1 file listed, 0 faulty; 0 conditions could not be listed in full'
}

# Conditions over several lines: each is listed as if it were on one.
test_names_over_lines() {
  fresh
  cat > src/a.c << 'EOT'
#if A && \
  B
#elif C /* c
  d */ || D
#else \

#endif
#ifdef E \

#endif
EOT
  after '0 -s src' prints ' 1 A
 1 B
 1 C
 1 D
 1 E' squeezed
  says '1 file listed, 0 faulty; 0 conditions could not be listed in full'
  after '0 -s -r -t src' prints 'src/a.c:1: #if A && \
src/a.c:3: #elif C /* c
src/a.c:8: #ifdef E \'
  # What isn't understood even so is listed by its first line. A file with a vertical tab, a
  # condition with a quote and one with a split word are read line by line.
  cat > src/a.c << 'EOT'
#if A && \
  B
#endif
#if C D \
  E
#elif F /* x

*/ G
#endif
#if H I
#endif
EOT
  put src/b.c '#if A && \\\r
  B\r
#endif\r
#if C D \\\r
  E\r
#endif\r
#if H I\r
#endif\r
'
  put src/c.c '#if A && \\
  B
#endif
\v
#if C D
#endif
'
  cat > src/d.c << 'EOT'
#if A && "q" \
  B
#elif A \

#endif
#if A\
B
#endif
EOT
  after '0 -s -r src' prints 'src/a.c:4: #if C D \
src/a.c:6: #elif F /* x
src/a.c:10: #if H I
src/b.c:4: #if C D \
src/b.c:7: #if H I
src/c.c:1: #if A && \
src/c.c:5: #if C D
src/d.c:1: #if A && "q" \
src/d.c:6: #if A\
 3 A
 2 B' squeezed
  says '4 files listed, 0 faulty; 9 conditions could not be listed in full'
  # A fault has the number of its line, and then the names are those of each line.
  cat > src/d.c << 'EOT'
#if A && \
  B
#elif C
#endif
#endif
EOT
  after '2 -s src/d.c' prints ' 1 C' squeezed
  holds_that grep -qx 'unifdef: src/d.c: 5: Inappropriate #endif' "$work/err"
}

# What still names a symbol.
test_remaining() {
  local wanted='src/b.c:1: #if A && \
src/b.c:4: #elif VMS ? 1 : 2
src/b.c:5: a comment names it: #endif // VMS
src/c.c:5: the source defines it: #define VMS
src/c.c:7: #if A\'
  fresh
  cat > src/a.c << 'EOT'
#ifdef VMS
x
#endif
#if defined(UNIX) || defined(VMS)
#elif A
#endif
# elif VMS
EOT
  put src/b.c '#if A && \\
  B || V\\
MS\r
#elif VMS ? 1 : 2
#elifdef VMS
#endif // VMS
#if C /* VMS */
#endif
'
  cat > src/c.c << 'EOT'
/*
#if VMS
*/
#if VMS2 + xVMS
#define VMS
#endif
#if A\
 /* c
 */ (VMS
#endif
EOT
  put src/none.c '#ifndef VMS\nx\n#endif\n'
  after '1 -r -n -UVMS src/b.c src/c.c' prints "$wanted" listed
  after '2 -r -UVMS src' prints "$wanted"
  says_last '3 conditions still name a symbol' '1 line of the source defines a symbol'
  cat > src/a.c << 'EOT'
#ifdef VMS
x
#endif
#if defined(UNIX) || defined(VMS)
#elif A
#endif
EOT
  run 1 -UVMS src
  says_last '4 conditions still name a symbol; -r lists them' \
    '1 line of the source defines a symbol; -r lists it'
  prints ''
  after '0 -q -r -UVMS src' prints 'src/a.c:1: #if defined(UNIX) || defined(VMS)' head -n 1
  says_only
  # An `#else` that becomes an `#endif` may make a line that is longer than any line of a text.
  put src/long.c "#if X
1
#elif defined A
2
$(printf '%65530s' '')#else
3
#endif
#if B || X
#endif
"
  after '0 -r -n -x2 -DA -UB src/long.c' prints 'src/long.c:6: #if B || X' listed
  put src/open.c '#ifdef A\n#if X || A /* q\n#endif\n#endif\n'
  after '0 -r -n -x2 -iDA src/open.c' prints 'src/open.c:1: #if X || A /* q' listed
  # A name over two lines is one, and four symbols are looked for in another way than five.
  put src/b.c '#if V\\
MS + 1
#endif
#if !VM\\\r
S\r
#endif
#if V /*
*/MS
#endif
'
  for it in '' '-DB -DC -DD' '-DB -DC -DD -DE'; do
    after "0 -n -r -UVMS $it src/b.c" prints 'src/b.c:1: #if V\
src/b.c:4: #if !VM\' listed
  done
  run 0 -r -DOTHER=1 -UVMS2 src/none.c
  says_only '0 changed, 1 unchanged, 0 faulty' '0 conditions still name a symbol' \
    'no condition names any of the 2 symbols'
}

# The lines of the source that define a symbol.
test_definitions() {
  local both='src/a.c:1: the source defines it: #define VMS 1
src/b.c:1: the source defines it: #define AMIGA'
  local one='1 line of the source defines a symbol; -r lists it'
  alone src/a.c '#define VMS 1\n#ifdef VMS\nimportant();\n#endif\n'
  cat > src/b.c << 'EOT'
#ifndef AMIGA
#define AMIGA
#endif
#ifdef VMS
#undef VMS
#endif
EOT
  after '1 -p -r -n -UVMS -UAMIGA src' prints "$both" listed
  says_only '2 would change, 0 unchanged, 0 faulty' '8 lines removed' '0 conditions edited' \
    '0 conditions still name a symbol' '2 lines of the source define a symbol'
  after '1 -n -UVMS src' says_last "$one"
  after '1 -q -r -UVMS -UAMIGA src' prints "$both"
  says_only
  run 0 -DAMIGA -UVMS src/b.c
  says_last "$one" 'no condition names any of the 2 symbols'
  after '0 -DOTHER src' says_only '0 changed, 2 unchanged, 0 faulty' 'no condition names OTHER'
  # The lines 1, 2, 10, 13, 17 and 23 define a symbol. A comment covers the lines 4 to 6, and a
  # literal the lines 7 and 8. In the lines 12, 15, 18 a comment or a backslash precedes the name.
  rm src/*
  put src/c.c '#undef VMS\r
  # define VMS(a) a
/* #define VMS */
/*
#define VMS
*/
s = "\\
#define VMS";
#define VMS2 VMS
#\tundef\tVMS
x #define VMS
/* */ #define VMS
#define VMS\\
  1
#define /* */ VMS
#defineVMS
#define UNIX
#define \\
VMS
#if X
#endif // VMS2
#define X VMS
#undef VMS/**/'
  after '0 -r -DUNIX -UVMS src' prints 'src/c.c:1: the source defines it: #undef VMS
src/c.c:2: the source defines it:   # define VMS(a) a
src/c.c:10: the source defines it: #	undef	VMS
src/c.c:13: the source defines it: #define VMS\
src/c.c:17: the source defines it: #define UNIX
src/c.c:23: the source defines it: #undef VMS/**/'
  after '0 -t -r -DUNIX -UVMS src' prints 'src/c.c:1: the source defines it: #undef VMS
src/c.c:2: the source defines it:   # define VMS(a) a
src/c.c:5: the source defines it: #define VMS
src/c.c:8: the source defines it: #define VMS";
src/c.c:10: the source defines it: #	undef	VMS
src/c.c:13: the source defines it: #define VMS\
src/c.c:17: the source defines it: #define UNIX
src/c.c:23: the source defines it: #undef VMS/**/'
}

# The comments of `#else` and `#endif` that name a symbol.
test_comments() {
  local wanted='src/a.c:3: a comment names it: #endif /* a
src/a.c:6: a comment names it: # else // !VMS || X
src/a.c:7: a comment names it: #endif VMS'
  alone src/a.c '#if X
#else /* VMS2 */
#endif /* a
 VMS */
#if X // VMS
# else // !VMS || X\r
#endif VMS
#if X || VMS
#endif /*VMS*/
#ifdef VMS
#endif // VMS
'
  after '1 -n -r -UVMS src' prints "$wanted
src/a.c:8: #if X || VMS
src/a.c:9: a comment names it: #endif /*VMS*/" listed
  says_last '1 condition still names a symbol'
  after '1 -p -r -UVMS src' prints "$wanted
src/a.c:9: a comment names it: #endif /*VMS*/"
  holds_that same "$(grep -c VMS src/a.c)" 6
}

# Files of other names that can't be searched are counted. Those that aren't text name no symbol.
test_unsearched() {
  local as=as_nobody counts='0 changed, 1 unchanged, 0 faulty'
  local remains='1 condition still names a symbol' one='1 file of other names could not be searched'
  is_root || as=run
  alone src/a.c '#if A + X\n#endif\n'
  truncate -s 200M src/image.x
  after '0 -r -UA src' says_only "$counts" "$remains"
  put src/closed.x 'int a;\n'
  chmod 0 src/closed.x
  $as 0 -r -UA src
  says_only "$counts" "$remains" "$one"
  prints 'src/a.c:1: #if A + X'
  $as 0 -q -r -UA src
  says_only
  $as 0 -UA src
  says_only "$counts" "$remains; -r lists it"
  put src/little.x '\xff\xfe#\0i\0f\0 \0A\0\n\0'
  put src/big.x '\xfe\xff\0#\0i\0f\0 \0A\0\n'
  $as 0 -r -UA src
  says_only "$counts" "$remains" '3 files of other names could not be searched'
  # A byte order mark of UTF-8 before a condition is no reason, nor is a line over the limit.
  put src/long.x "$(repeat x 65537)\n#if A\n"
  put src/marked.x '\xef\xbb\xbf#ifdef A\n'
  $as 0 -r -UA src
  says_only "$counts" "$remains" '2 files of other names name a symbol, as src/long.x' \
    '3 files of other names could not be searched'
  prints 'src/a.c:1: #if A + X
src/long.x: is not processed, and names a symbol
src/marked.x: is not processed, and names a symbol'
  chmod 644 src/closed.x
}

# A text of 64 MiB is searched, and a larger one is counted. No file is read whole before that.
test_unsearched_for_size() {
  local counts='0 changed, 1 unchanged, 0 faulty' remains='1 condition still names a symbol'
  alone src/a.c '#if A + X\n#endif\n'
  # An image of a file system may be too small for it.
  [ "$(df -k --output=avail . | tail -n 1)" -gt 150000 ] || return 0
  { yes 'int x;' | head -c 67108857; printf '\n#if A\n'; } > src/large.x
  after '0 -r -UA src' says_only "$counts" "$remains" \
    '1 file of other names names a symbol, as src/large.x'
  echo >> src/large.x
  after '0 -r -UA src' says_only "$counts" "$remains" '1 file of other names could not be searched'
  yes 'int y;' | head -c 6M >> src/large.x
  truncate -s 200M src/image.x
  within 0 -v 300000 -r -UA src
  says_only "$counts" "$remains" '1 file of other names could not be searched'
}

# Once the output has failed, files of other names aren't sought.
test_others_after_failed_output() {
  alone src/a.c '#ifdef A\n#endif\n'
  put src/b.x '#ifdef A\n#endif\n'
  after '1 -n -r -UA src' says_last '1 file of other names names a symbol, as src/b.x'
  exec 3> >(:)
  wait "$!"
  exits 2 "$TREE" -n -r -UA src >&3 2> "$work/err"
  exec 3>&-
  says_only 'stdout: Cannot be written' '1 would change, 0 unchanged, 1 faulty' '2 lines removed' \
    '0 conditions still name a symbol'
}

# The number of removed lines: that of all files, and none under -b.
test_removed_lines() {
  fresh src/a.c
  put src/b.c '#ifdef A\nx\n#endif'
  put src/c.c '#if X\n#endif\n'
  after '1 -n -DA src' says '5 lines removed'
  after '1 -DA src/b.c' says '1 line removed'
  after '1 -b -DA src' says_only '1 changed, 2 unchanged, 0 faulty'
  run 0 -s src
  holds_that same "$(grep -c removed "$work/err")" 0
}
