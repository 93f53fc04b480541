# Which blank lines go under -B.

# squeezes [WORD..]: checks what -B makes of the file of before_and_after. A second run changes
# nothing.
squeezes() {
  before_and_after
  run 1 -q -B "$@" -UVMS src
  says_only
  holds_that diff "$work/wanted" src/a.c
  run 0 -n -q -B "$@" -UVMS src
  prints ''
}

# What -UVMS removes: with and without a line between the directives.
gone=$'#ifdef VMS\nv();\n#endif'
gone_empty=$'#ifdef VMS\n#endif'

# A line of one NUL byte is a line like others, if it goes. No blank line goes that is far from it.
test_squeezed_nul_lines() {
  alone src/a.c 'a;\n#ifdef VMS\n\0000\n\0000\n#endif\nb;\n\n}\nc;\n'
  run 1 -q -B -UVMS src
  is src/a.c 'a;\nb;\n\n}\nc;\n'
}

# As many blank lines stay as the longest part of a run had that removed lines split.
test_squeezed_gaps() {
  fresh
  squeezes << EOT
a;

$gone

b;
->
a;

b;
EOT
  squeezes << EOT
a;


$gone

b;
$gone

$gone
c;
->
a;


b;

c;
EOT
  # No removed line is next to the first run.
  squeezes << EOT
a;


b;
$gone
c;
->
a;


b;
c;
EOT
  # A carriage return alone makes a blank line.
  put src/a.c 'a;\r\n\r\n#ifdef VMS\r\n#endif\r\n\r\nb;\r\n'
  run 1 -q -B -UVMS src
  says_only
  is src/a.c 'a;\r\n\r\nb;\r\n'
  after '0 -n -q -B -UVMS src' prints ''
}

# After a line that opens, only those stay that came before the removed lines; before a line that
# closes, only those that came after them.
test_squeezed_blocks() {
  fresh
  squeezes << EOT
f() {
$gone

  a;
}
->
f() {
  a;
}
EOT
  squeezes << EOT
f() {
$gone

  a;

$gone
}
->
f() {
  a;
}
EOT
  squeezes << EOT
f() {

$gone

  a;

$gone

}
->
f() {

  a;

}
EOT
  # The beginning of a file opens, and its end closes.
  squeezes << EOT
$gone

a;

$gone
->
a;
EOT
  # Comments don't count.
  squeezes << EOT
f() { /* f */
$gone

  a;
}
->
f() { /* f */
  a;
}
EOT
  squeezes << EOT
a; /* { */
$gone

b;
->
a; /* { */

b;
EOT
}

# A directive neither opens nor closes. None stays of a run that is all that is left of a group, if
# removed lines split it or were next to it.
test_squeezed_groups() {
  fresh
  squeezes << EOT
#if X
$gone

a;

#else

b;
#endif
->
#if X

a;

#else

b;
#endif
EOT
  squeezes << EOT
#if X
a;

$gone
#elif Y
$gone

b;
#endif
->
#if X
a;

#elif Y

b;
#endif
EOT
  squeezes << EOT
#if X
$gone

#else
b;
#endif
->
#if X
#else
b;
#endif
EOT
  squeezes << EOT
#if X

$gone

#endif
->
#if X
#endif
EOT
  squeezes << EOT
#if X
a;
#elif Y

$gone
#else
$gone


#endif
->
#if X
a;
#elif Y
#else
#endif
EOT
  # No removed line is next to the run, or something else is in the group.
  squeezes << EOT
#if X

#endif
$gone
->
#if X

#endif
EOT
  squeezes << EOT
#if X
#if Y
a;
#endif

$gone
#endif
$gone

#if Z
// b
$gone

#endif
->
#if X
#if Y
a;
#endif

#endif

#if Z
// b

#endif
EOT
}

# A blank line stays after a backslash and in a comment.
test_squeezed_inside() {
  fresh
  squeezes << EOT
#define X \\

$gone
}
/* x


 y */
$gone
z;
->
#define X \\

}
/* x


 y */
z;
EOT
  squeezes << EOT
#define X \\

$gone
}
/*


*/
->
#define X \\

}
/*


*/
EOT
}

# With -p, the lines of a directive that it joins are removed lines, too.
test_squeezed_and_pruned() {
  fresh
  squeezes -p << EOT
a;


$gone

b;
$gone

$gone
c;

#if VMS || \\
  X

d;

$gone
#endif

$gone
->
a;


b;

c;

#if X

d;

#endif
EOT
  squeezes -p << EOT
a;


$gone_empty

b;
$gone_empty

$gone_empty
c;

#if VMS || \\
  X
d;

$gone_empty
#endif

$gone_empty
->
a;


b;

c;

#if X
d;

#endif
EOT
}

# The counts, the diffs and the list.
test_squeezed_counts() {
  fresh
  cat > src/a.c << 'EOT'
int a;

#ifdef VMS
int v;
#endif

int b;
void f(void) {
#ifdef VMS
  v();
#endif

  a = 1;

#ifdef VMS
  v();
#endif
}
EOT
  cat > "$work/wanted" << 'EOT'
int a;

int b;
void f(void) {
  a = 1;
}
EOT
  cp src/a.c "$work/before"
  after '1 -n -B -UVMS src' holds_that diff "$work/before" src/a.c
  cp "$work/out" "$work/diff"
  after '1 -B -UVMS src' says_only '1 changed, 0 unchanged, 0 faulty' '12 lines removed'
  holds_that diff "$work/wanted" src/a.c
  cp "$work/before" src/a.c
  after '1 -B -d -UVMS src' holds_that cmp "$work/out" "$work/diff"
  holds_that patch -s -R -p0 -i "$work/diff"
  holds_that diff "$work/before" src/a.c
  holds_that patch -s -p0 -i "$work/diff"
  holds_that diff "$work/wanted" src/a.c
  put src/a.c 'a;\n\n#ifdef Y\n#endif\n\n#if Y(1)\n#endif\n'
  after '1 -B -r -q -UY src' prints 'src/a.c:3: #if Y(1)'
}
