# Symbols that no condition names, and runs without a symbol.

# unnamed NAMES STATUS WORD..: a run says of these symbols, in this order, that no condition names
# them.
unnamed() {
  run "${@:2}"
  holds_that same "$(names_without_condition < "$work/err" | tr '\n' ' ')" "$1"
}
names_without_condition() { sed -n 's/^unifdef-tree: no condition names //p'; }

test_unnamed_symbols() {
  alone src/n.c '#ifdef HAIKU\nx\n#endif\n'
  run 0 -U__HAIKU__ -UVMS src
  says_only '0 changed, 1 unchanged, 0 faulty' 'no condition names any of the 2 symbols'
  run 0 -U__HAIKU__ -U__HAIKU__ src
  says_only '0 changed, 1 unchanged, 0 faulty' 'no condition names __HAIKU__'
  unnamed 'B C E D ' 1 -n -DB=2 -iUC -UE -iDD=1 -UHAIKU -DB -UE src
  unnamed 'E ' 1 -d -n -UHAIKU -UE src
  unnamed 'E ' 1 -p -n -UHAIKU -UE src
  unnamed 'E ' 0 -r -n -UE src
  says_last 'no condition names E'
  unnamed '' 0 -q -n -UE src
  says_only
  unnamed '' 0 -k -n src
  unnamed '' 0 -s src
  cat > src/n.c << 'EOT'
#if A1
#elif defined B1 // C1
#elif 0D1 + E1x + xF1 + "G1"
#else // H1
#endif /* I1 */
#define J1
K1
EOT
  unnamed 'C1 D1 E1 F1 H1 I1 J1 K1 ' \
    1 -n -UA1 -UB1 -UC1 -UD1 -UE1 -UF1 -UG1 -UH1 -UI1 -UJ1 -UK1 src
  cat > src/n.c << 'EOT'
/*
#if A
#endif
*/
#ifndef B
#endif
EOT
  cat > src/m.c << 'EOT'
#if X || \
    C
#endif
#ifdef X /* 
 */ D
#endif
EOT
  unnamed 'A ' 1 -n -UA -UB -UC -UD src
  rm src/m.c
  put src/n.c '#if X || V\\\nMS\n#endif\n'
  unnamed '' 0 -n -UVMS src
  put src/n.c '#if A\n#endif\n'
  unnamed '' 1 -UA src
  unnamed 'A ' 0 -UA src
}

# After an error there is no such line, since a file that wasn't read may name the symbol.
test_unnamed_after_errors() {
  local as=as_nobody counts='0 would change, 1 unchanged, 1 faulty'
  is_root || as=run
  alone src/n.c 'int a;\n'
  mkdir src/closed
  put src/closed/a.c 'int a;\n'
  chmod 0 src/closed
  $as 2 -n -UB src
  says_only 'src/closed/: Cannot be read: Permission denied' "$counts"
  chmod 755 src/closed
  chmod 0 src/closed/a.c
  $as 2 -n -UB src
  says_only 'src/closed/a.c: Cannot be read: Permission denied' "$counts"
  chmod 644 src/closed/a.c
  put src/closed/a.c '\xff\xfe#\0i\0f\0 \0B\0\n\0'
  after '2 -n -UB src' says_only 'src/closed/a.c: Cannot be read: text in UTF-16' "$counts"
  put src/closed/a.c "$(repeat x 65536)\n#if B\n#endif\n"
  run 2 -n -UB src
  holds_that same "$(cat "$work/err")" "unifdef: src/closed/a.c: 1: Line too long
unifdef-tree: $counts"
  put src/closed/a.c '#endif\n'
  run 2 -n -UB src
  holds_that same "$(grep -c 'no condition' "$work/err")" 0
  input=$work/paths
  printf 'src/n.c\0src/gone.c\0' > "$input"
  after '2 -n -0 -UB' says_only 'src/gone.c: No such file or directory' "$counts"
  input=''
  rm -r src/closed
  after '0 -n -UB src' says_only '0 would change, 1 unchanged, 0 faulty' 'no condition names B'
}

# An output that fails is such an error: one that nobody reads any more, and a full one.
test_unnamed_after_failed_output() {
  alone src/a.c '#ifdef A\n#endif\n'
  put src/b.c '#if A + X\n#endif\n'
  exec 3> >(:)
  wait "$!"
  exits 2 "$TREE" -n -UA -UB src >&3 2> "$work/err"
  exec 3>&-
  says_only 'stdout: Cannot be written' '1 would change, 0 unchanged, 1 faulty' '2 lines removed'
  [ -w /dev/full ] || return 0
  exits 2 "$TREE" -n -UA -UB src > /dev/full 2> "$work/err"
  says_only 'stdout: Cannot be written' '1 would change, 0 unchanged, 1 faulty' '2 lines removed'
  exits 2 "$TREE" -r -UA -UB src > /dev/full 2> "$work/err"
  says_only 'stdout: Cannot be written' '1 changed, 1 unchanged, 1 faulty' '2 lines removed' \
    '1 condition still names a symbol'
}

test_no_symbol() {
  local words
  fresh src/n.c
  refused 'src/gone.c: No such file or directory' -DA=1 -DB src/n.c src/gone.c
  for words in src '-K src' '-n src' '-p -r src' '-x2 src' -0; do
    run 2 $words
    says_first 'No symbol; -k decides constants alone, -s lists names'
    holds_that same "$(sed 1d "$work/err" | grep -c '^usage: unifdef-tree ')" 1
    is src/n.c "$text"
  done
  for words in '-k src' '-k -K src' '-s src' '-UB src' '-DB src' '-iUB src' -h -V; do
    run 0 $words
  done
}

# least STATUS OPTIONS TEXT OUTPUT: a run with these options makes this output of the text.
least() {
  alone src/n.c "$3"
  run "$1" -q $2 src
  is src/n.c "$4"
}

# A symbol that is at least a number.
test_least_values() {
  local stays='#if V > 5\na\n#endif\n#if V == 5\n#endif\n#if V < 9\n#endif\n#if V >= 6\n#endif\n'
  least 1 '-DV>=5' '#if V >= 3\na\n#else\nb\n#endif\n' 'a\n'
  least 0 '-DV>=5' "$stays" "$stays"
  stays='#if V + 1 > 3\n#endif\n#if V & 1\n#endif\n#if V == W\n#endif\n#if V >= V\n#endif\n'
  least 0 '-DV>=5 -DW>=7' "$stays" "$stays"
  least 1 '-DV>=5' '#if V < 5\na\n#elif V < 7\nb\n#endif\n' '#if   V < 7\nb\n#endif\n'
  least 1 '-DV>=5 -p' '#if 5 > V || W\na\n#endif\n' '#if W\na\n#endif\n'
  least 1 '-DV>=5' '#if !defined(V) || V < 4\na\n#endif\nz\n' 'z\n'
  least 1 '-p -DV>=0x10101000L' '#if V >= 0x10100000L && !defined(LIBRESSL)\na\n#endif\n' \
    '#if !defined(LIBRESSL)\na\n#endif\n'
  least 0 '-DV>=0' '#if V\na\n#endif\n' '#if V\na\n#endif\n'
  least 1 '-DV>=1' '#if V && !(!V)\na\n#endif\n#ifdef V\nb\n#endif\n' 'a\nb\n'
  least 1 '-DV>=5 -DV=7' '#if V == 7\na\n#endif\n' 'a\n'
  least 1 '-DV>=5 -DW=V' '#if W != 4 && 3 < W\na\n#endif\n' 'a\n'
  least 0 '-DV>=-1' '#if V < 0u\na\n#endif\n' '#if V < 0u\na\n#endif\n'
  least 1 '-DV>=-1' '#if V < -1\na\n#endif\n' ''
  least 1 '-DV>=5u' '#if V > -1\na\n#endif\n#if V > 4\nb\n#endif\n' '#if V > -1\na\n#endif\nb\n'
  put src/n.c '#if V > 5\na\n#endif\n'
  run 0 -r '-DV>=5' src
  prints 'src/n.c:1: #if V > 5'
}
