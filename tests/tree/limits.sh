# A full disk, little memory, a small stack, large files and long lines.

# within STATUS LIMIT KIB WORD..: runs it under a limit of ulimit. A file too large is no signal.
within() {
  under "$1" bash -c 'trap "" XFSZ; ulimit "$1" "$2" && exec "${@:3}"' - "$2" "$3" -- "${@:4}"
}

# A full disk: a small file system, or else a limit on the size of files.
test_full_disk() {
  local big limited=(run 2)
  fresh
  big=$(echo '#ifdef B'; seq -f 'int a%.0f;' 10001 19000; printf '#endif\n#ifdef A\n#endif\n')
  mkdir -p "$work/small"
  if mount -t tmpfs -o size=256k none "$work/small" 2> /dev/null; then
    rm -r src
    ln -s "$work/small" src
    printf '%s\n' "$big" > src/c.c
  else
    skip 'a full file system' 'nothing can be mounted here'
    limited=(within 2 -f 40)
  fi
  printf '%s\n' "$big" > src/a.c
  put src/b.c "$text"
  cp -rL src was
  "${limited[@]}" -DA src
  holds_that cmp was/a.c src/a.c
  is src/b.c 'yes\n'
  none_left
  [ -L src ] || return 0
  rm src/c.c
  ln src/a.c src/linked.c
  head -c 200000 /dev/zero > src/filled 2> /dev/null
  # A shorter text, written into a file, takes no space.
  run 1 -DA -w src
  holds_that same "$(wc -l < src/linked.c)" 9002
  rm src/filled src
  umount "$work/small"
}

# deep KIND N: prints an operand A in N bytes of parentheses or operators, which is A again.
deep() {
  local count=$(($2 / (${#1} - 1)))
  printf '%sA%s' "$(repeat "${1%A*}" "$count")" "$(repeat "${1#*A}" "$count")"
}

# The deepest conditions with the stack that the manual names.
test_small_stack() {
  local kind n kib words
  fresh src/plain.c
  within 1 -s 450 -DA src
  is src/plain.c 'yes\n'
  for words in -DA '-p -r -DA'; do
    put src/plain.c "$text$(repeat x 9000)\n"
    within 1 -s 700 $words src
    is src/plain.c "yes\n$(repeat x 9000)\n"
  done
  for kind in '(A)' '!A' '- A'; do
    put src/plain.c "#if $(deep "$kind" 65000)\nx\n#endif\n"
    within 1 -s 1200 -DA src
    is src/plain.c 'x\n'
    while read -r n kib; do
      put src/plain.c "#if X || $(deep "$kind" "$n")\nx\n#endif\n"
      within 1 -s "$kib" -p -UA src
      is src/plain.c '#if X\nx\n#endif\n'
    done <<< $'8180 1200\n65000 2400'
  done
}

# A file of more than one block is read whole, again before it is replaced, and written whole.
test_large_files() {
  local words
  fresh
  # An image of a file system may be too small for them.
  if [ "$(df -k --output=avail . | tail -n 1)" -lt 150000 ]; then
    [ -n "$mounted" ] || skip 'large files' 'there is too little space'
    return
  fi
  { printf '%b' "$text"; yes 'int x;' | head -n 2600000; } > src/a.c
  { echo yes; yes 'int x;' | head -n 2600000; } > "$work/wanted"
  for words in -DA '-p -DA' '-w -DA'; do
    cp src/a.c src/b.c
    run 1 -q $words src/b.c
    holds_that cmp -s src/b.c "$work/wanted"
  done
}

# A file is not read beyond a line over the limit. A line of the limit is read.
test_long_lines() {
  fresh src/a.c
  truncate -s 2G src/long.c
  within 2 -v 200000 -DA src
  says 'src/long.c: Cannot be read: line too long'
  is src/a.c 'yes\n'
  fresh
  put src/a.c "$text$(repeat a 65535)\n"
  put src/b.c "$text$(repeat a 65536)\n"
  run 2 -q -DA src
  holds_that same "$(stat -c %s src/a.c)" 65540
  holds_that grep -qxF 'unifdef: src/b.c: 6: Line too long' "$work/err"
}

# With less and less memory, a list of -r or -s is whole, or there is a message and status 2.
test_little_memory() {
  local i list lines low high limit wrong told listed_or_failed='0 2'
  fresh
  for i in {1..9}; do
    seq -f "#if NAME_${i}_%g || A" 3000 | sed 's/$/\n#endif/' > "src/$i.c"
  done
  for list in '-n -r -UA' '-s'; do
    # Far less than 4,000 KiB, and the system couldn't start the program.
    lines=27000 low=4000 high=400000 wrong=0 told=0
    [ "$list" != '-s' ] || lines=27001
    run 0 $list -- src
    holds_that same "$(wc -l < "$work/out")" "$lines"
    cp "$work/out" "$work/whole"
    while [ $((high - low)) -gt 32 ]; do
      limit=$(((low + high) / 2))
      within "$listed_or_failed" -v "$limit" $list -- src
      if [ "$status" -eq 0 ]; then high=$limit; else low=$limit; fi
    done
    for ((i = 0; i < 16; i++)); do
      within "$listed_or_failed" -v $((high + 64 - 64 * i)) $list -- src
      if [ "$status" -eq 0 ]; then
        cmp -s "$work/out" "$work/whole" || wrong=$((wrong + 1))
      else
        grep -qi 'out of memory$' "$work/err" || wrong=$((wrong + 1))
        ! grep -qxF 'unifdef-tree: stdout: Out of memory' "$work/err" || told=$((told + 1))
      fi
    done
    holds_that same "$wrong" 0
    holds_that test "$told" -gt 0
  done
}

# makes_refusing: builds the library $refusing, by which growths of memory are refused.
makes_refusing() {
  has "${cc[0]}" || { lacks "${cc[0]}" 'refused memory'; return 1; }
  refusing=$work/refuse.so
  holds_that "${cc[@]}" -O1 -shared -fPIC -o "$refusing" "$here/tests/faults/refuse.c" -ldl
}

# Each growth of memory is refused in turn. The run does without it, or has a message and leaves the
# file: no output is another one for want of memory.
test_refused_outcomes() {
  local i refusing told=0
  local gone='a;\n\n#if defined(VMS) && \\\n  X\nv;\n#endif\n\nb;\n'
  makes_refusing || return 0
  alone src/a.c "$gone"
  under 1 env REFUSE_COUNT="$work/count" LD_PRELOAD="$refusing" -- -q -p -B -UVMS src/a.c
  is src/a.c 'a;\n\nb;\n'
  for i in $(seq 1 "$(wc -c < "$work/count")"); do
    put src/a.c "$gone"
    under "$whole_or_failed" env REFUSE_FROM="$i" REFUSE_TO="$i" LD_PRELOAD="$refusing" \
      -- -q -p -B -UVMS src/a.c
    if [ "$status" -eq 1 ]; then
      is src/a.c 'a;\n\nb;\n'
    else
      is src/a.c "$gone"
      told=$((told + 1))
    fi
  done
  holds_that test "$told" -gt 0
  rm "$refusing" "$work/count"
}

# So it is if only the diff of a changed file is lost.
test_lost_for_memory() {
  local i lost=0 untold=0 refusing
  makes_refusing || return 0
  fresh src/a.c
  under 1 env REFUSE_COUNT="$work/count" LD_PRELOAD="$refusing" -- -d -DA src
  prints '--- src/a.c' head -n 1
  cp "$work/out" "$work/whole"
  for i in $(seq 1 "$(wc -c < "$work/count")"); do
    put src/a.c "$text"
    under "$whole_or_failed" env REFUSE_FROM="$i" REFUSE_TO="$i" LD_PRELOAD="$refusing" \
      -- -d -DA src
    if [ "$status" -eq 1 ]; then
      is src/a.c 'yes\n'
      holds_that cmp "$work/out" "$work/whole"
    elif has_text src/a.c 'yes\n' > /dev/null && [ ! -s "$work/out" ]; then
      lost=$((lost + 1))
      grep -qxF 'unifdef-tree: stdout: Out of memory' "$work/err" || untold=$((untold + 1))
    fi
  done
  holds_that test "$lost" -gt 0
  holds_that same "$untold" 0
  rm "$refusing" "$work/count"
}
