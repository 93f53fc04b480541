# Arguments, statuses, faults of a text and -n.

test_faults() {
  fresh src/good.c
  put src/bad.c '#endif\n'
  put src/$'very\nbad.c' 'x\n#else\n'
  after '2 -DA src nowhere' says 'nowhere: No such file or directory'
  is src/good.c "$text"
  after '2 -DA src -n' says 'Option after a path: -n'
  is src/good.c "$text"
  after '2 -DA src' says '1 changed, 0 unchanged, 2 faulty'
  holds_that grep -qxF 'unifdef: src/bad.c: 1: Inappropriate #endif' "$work/err"
  is src/bad.c '#endif\n' and src/good.c 'yes\n'
}

test_statuses() {
  alone src/good.c 'yes\n'
  run 0 -DA src
  run 1 -x1 -DA src
  put src/good.c "$text"
  put src/end.c '#ifdef A\nno newline\n#endif'
  cp -r src was
  after '1 -n -DA -- src' says '2 would change, 0 unchanged, 0 faulty'
  holds_that diff -r was src
  cp "$work/out" diff
  run 0 -x2 -DA -- src
  holds_that patch -s -p1 -d was -i ../diff
  holds_that diff -r was src
}

test_usage() {
  local words
  fresh src/good.c
  for words in -h --help '-DA -h src'; do
    run 0 $words
    says_only
    holds_that grep -q '^usage: unifdef-tree ' "$work/out"
    # A line for each option.
    prints -0BDKUVbcdghiklnpqrstwx letters
  done
  exits 2 "$TREE" -h > /dev/full 2> /dev/null
  put src/good.c '#if A == 2\nyes\n#endif\n'
  run 1 -D 'A=1 ' -D 'A=2' -U "B" src
  is src/good.c 'yes\n'
}
letters() { sed -n 's/^  -\(.\).*/\1/p' | sort -u | tr -d '\n'; }

# The message of each fault of the arguments, with the usage where the manual says so.
test_refused_arguments() {
  local words message usage
  fresh src/good.c
  while IFS=: read -r usage words message; do
    run 2 $words
    prints ''
    says_first "$message"
    holds_that same "$(sed 1d "$work/err" | grep -c '^usage: unifdef-tree ')" "$usage"
    [ "$usage" -eq 1 ] || says_only "$message"
  done << 'EOT'
0:-D1A src:Bad symbol: -D1A
0:-Udefined src:Bad symbol: -Udefined
0:-iXA src:Bad symbol: -iXA
0:-iDA>=5 src:Bad symbol: -iDA>=5
0:-UA>=5 src:Bad symbol: -UA>=5
0:-D>=5 src:Bad symbol: -D>=5
0:-DA>= src:Bad symbol: -DA>=; only a least number is taken: write -D'A>=N'
0:-DA>=B src:Bad symbol: -DA>=B; only a least number is taken: write -D'A>=N'
0:-D A>5 src:Bad symbol: -DA>5; only a least number is taken: write -D'A>=N'
0:-DB -DA<=5 src:Bad symbol: -DA<=5; only a least number is taken: write -D'A>=N'
0:-DA==5 src:Bad symbol: -DA==5; only a least number is taken: write -D'A>=N'
0:-DA!=5 src:Bad symbol: -DA!=5; only a least number is taken: write -D'A>=N'
0:-DA>=-5u src:Bad symbol: -DA>=-5u; only a least number is taken: write -D'A>=N'
0:-DA>=9223372036854775808 src:Bad symbol: -DA>=9223372036854775808; only a least number is taken: write -D'A>=N'
0:-x3 src:Bad exit mode: 3
0:-x 3 src:Bad exit mode: 3
0:-x-x1 src:Bad exit mode: -x1
0:-DA -x1x src:Bad exit mode: 1x
1:-L src:Unknown option -L
1:-m src:Unknown option -m: files are changed in place without it
1:-DA -qa src:Unknown option -a
1:--dry-run src:Unknown option --: each option is one letter; -n shows what would change
0:-D:Option -D needs an argument
0:-g:Option -g needs an argument
0:-g !/third -DA src:Bad pattern: !/third; patterns are matched below each path: write !third
0:-DA -g+./a/b src:Bad pattern: +./a/b; patterns are matched below each path: write +a/b
0:-g/.//*.c -DA src:Bad pattern: /.//*.c; patterns are matched below each path: write *.c
0:-DA -g!a/**/b src:Bad pattern: !a/**/b; write * for **, or a name alone for any directory
0:-DA -g lib/ src:Bad pattern: lib/; only ! takes a slash at the end: write lib/*
0:-DA -g +*.h/ src:Bad pattern: +*.h/; only ! takes a slash at the end: write +*.h/*
0:-DA -g ! src:Bad pattern: !; no name is empty: write * for all names
0:-DA -g+ src:Bad pattern: +; no name is empty: write * for all names
0:-DA -g !./ src:Bad pattern: !./; no name is empty: write * for all names
0:-DA -g ok -g !/x/ -g ! src:Bad pattern: !/x/; patterns are matched below each path: write !x/
0:-DA src -x2:Option after a path: -x2
0:-0 src:-0 takes no paths
0:-s -DA src:Symbols and -s don't go together: it lists all names
0:-s -iUA src:Symbols and -s don't go together: it lists all names
0:-p -c src:-p and -c don't go together: the complement is no C
0:-p -t src:-p and -t don't go together: plain text has no comments
0:-B -b src:-B and -b don't go together
0:-B -l src:-B and -l don't go together
0:-c -B src:-B and -c don't go together
0:-t -B src:-B and -t don't go together
1::No path
1:-DA:No path
1:src:No symbol; -k decides constants alone, -s lists names
1:-K src:No symbol; -k decides constants alone, -s lists names
EOT
  for words in -n -d -p -w -B -b -c -K -k -l; do
    refused "$words and -s don't go together" "$words" -s src
    refused "$words and -s don't go together" -s "$words" src
  done
  refused 'Bad symbol: -D' -D '' -UA src
  refused 'Bad pattern: ; no name is empty: write * for all names' -g '' -DA src
  refused "src/\\xff.c: Argument isn't UTF-8; name its directory" -DA $'src/\xff.c'
  refused 'Cannot take arguments' -DA "$(repeat x 5000)"$'\xff.c'
  is src/good.c "$text"
}
