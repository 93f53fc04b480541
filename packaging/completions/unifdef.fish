# Completions of unifdef for fish, and of unifdef-tree or unifdef2, if the file has its name.

# Prints names in conditions of the first C files below the directory, in two seconds at most.
# One of them is for find, since unifdef-tree prints at its end.
function __unifdef_names -a program
    timeout 1 find . -name '.?*' -prune -o -type f \
        -regex '.*\.\([ch]\|[ch]pp\|[ch]xx\|cc\|hh\)' -print0 2> /dev/null |
        if test $program = unifdef-tree
            head -z -n 2000 | timeout 2 unifdef-tree -0 -q -s 2> /dev/null | awk '{ print $2 }'
        else
            head -z -n 200 | timeout 2 xargs -0 -r -n 1 unifdef -s 2> /dev/null
        end | sort -u
end

# Prints each name with the end of a value too, so that no space follows it.
function __unifdef_values -a program
    __unifdef_names $program | sed 'p; s/$/=/'
end

function __unifdef_ignoring -a program
    __unifdef_values $program | sed 's/^/D/'
    __unifdef_names $program | sed 's/^/U/'
end

# Returns whether no path precedes the typed word, since options come before it, but for unifdef2.
function __unifdef_at_options -a program
    test $program != unifdef2; or return 0
    set -l words (commandline -opc)
    set -e words[1]
    set -l value no
    for word in $words
        if test $value = yes
            set value no
        else if string match -qr '^-[^DUixg]*[DUixg]$' -- $word
            set value yes
        else if not string match -qr '^-.' -- $word
            return 1
        end
    end
end

set -l program (basename (status filename) .fish)
set -l option complete -c $program -n "__unifdef_at_options $program"
$option -s b -d 'Leave removed lines blank'
$option -s c -d 'Print only the lines that would be removed'
$option -s D -x -a "(__unifdef_values $program)" -d 'Define a symbol'
$option -s i -x -a "(__unifdef_ignoring $program)" -d 'Ignore text inside sections that a symbol controls'
$option -s K -d 'Leave && and || unknown if an operand is'
$option -s k -d 'Decide constant expressions'
$option -s l -d 'Leave removed lines blank'
$option -s t -d 'Plain text'
$option -s U -x -a "(__unifdef_names $program)" -d 'Undefine a symbol'
$option -s x -x -a '0 1 2' -d 'Meaning of the exit status'
if test $program != unifdef-tree
    $option -s n -d 'Insert #line directives'
    $option -s S -d 'List the names in conditions with their depth'
    $option -s s -d 'List the names in conditions'
end
if test $program = unifdef2
    $option -s f -r -d 'Read settings from a header'
    $option -s h -l help -d 'Print the usage'
    $option -s M -x -d 'Replace each file, and keep it under a suffix'
    $option -s m -d 'Replace each file'
    $option -s o -r -d 'Write to a file'
    $option -l settings -r -d 'Print the settings of a header as options'
    $option -s V -l version -d 'Print the version'
end
if test $program = unifdef-tree
    $option -s B -d 'Leave out blank lines that only stood there because of removed ones'
    $option -s 0 -d 'Read paths from standard input'
    $option -s d -d 'Print a diff of what is changed'
    $option -s g -x -d 'Select files by name, or leave them out after !'
    $option -s h -l help -d 'Print a line for each option'
    $option -s n -d 'Show what would change'
    $option -s p -d 'Remove decided operands from conditions that stay'
    $option -s q -d 'Leave out the counts'
    $option -s r -d 'List the conditions that still name a symbol, and its definitions'
    $option -s s -d 'Count the names in conditions'
    $option -s V -l version -d 'Print the version'
    $option -s w -d 'Write into files that cannot be replaced'
end
