# Completions of unifdef, unifdef-tree and unifdef2 for bash.

# Prints names in conditions of the first C files below the directory, in two seconds at most.
# One of them is for find, since unifdef-tree prints at its end. The program $1 lists them.
_unifdef_names() {
  timeout 1 find . -name '.?*' -prune -o -type f \
    -regex '.*\.\([ch]\|[ch]pp\|[ch]xx\|cc\|hh\)' -print0 2> /dev/null |
    if [ "$1" = unifdef-tree ]; then
      head -z -n 2000 | timeout 2 unifdef-tree -0 -q -s 2> /dev/null | awk '{ print $2 }'
    else
      head -z -n 200 | timeout 2 xargs -0 -r -n 1 unifdef -s 2> /dev/null
    fi | sort -u
}

# Puts the words of $2 that complete the typed word into COMPREPLY, each with its prefix $1.
_unifdef_after() {
  local typed=${COMP_WORDS[COMP_CWORD]}
  mapfile -t COMPREPLY < <(compgen -P "$1" -W "$2" -- "${typed#"$1"}")
}

# Sets `wanted` to the letter of the option whose value is typed, and `prefix` to what precedes the
# value in its word. Without such an option, `wanted` is `option`, or `path` after the options of
# the program $1.
_unifdef_wanted() {
  local line=${COMP_LINE:0:COMP_POINT} typed=${COMP_WORDS[COMP_CWORD]} valued=DfgIiMoUx word
  local -a words
  wanted=option prefix=''
  # COMP_WORDS would have the parts of -DA=1 one by one.
  read -ra words <<< "${line%"${line##*[[:space:]]}"}"
  for word in "${words[@]:1}"; do
    if [[ $wanted != option ]]; then
      wanted=option
    elif [[ $word =~ ^-[^-$valued]*([$valued])$ ]]; then
      wanted=${BASH_REMATCH[1]}
    elif [[ $word == -- || $word != -?* && $1 != unifdef2 ]]; then
      wanted=path
      return
    fi
  done
  if [[ $wanted == option && $typed =~ ^-[^-$valued]*([$valued]) ]]; then
    wanted=${BASH_REMATCH[1]} prefix=${BASH_REMATCH[0]}
  fi
  if [[ $wanted == i && ${typed#"$prefix"} == [DU]* ]]; then
    prefix=${typed:0:${#prefix}+1}
    wanted=${prefix: -1}
  fi
}

_unifdef() {
  local options='-b -c -D -iD -iU -K -k -l -n -s -t -U -x0 -x1 -x2 --'
  local command=${COMP_WORDS[0]##*/} wanted prefix
  COMPREPLY=()
  _unifdef_wanted "$command"
  case $wanted in
    [DU]) _unifdef_after "$prefix" "$(_unifdef_names "$command")" ;;
    i) _unifdef_after "$prefix" 'D U' ;;
    x) _unifdef_after "$prefix" '0 1 2' ;;
    option)
      case $command in
        unifdef) options+=' -S' ;;
        unifdef-tree) options+=' -0 -B -d -g -h -p -q -r -V -w --help --version' ;;
        unifdef2) options+=' -f -h -M -m -o -S -V --help --settings --version' ;;
      esac
      [[ ${COMP_WORDS[COMP_CWORD]} != -* ]] || _unifdef_after '' "$options"
      ;;
  esac
  # A value may follow a name after -D.
  [[ $wanted != [Di] ]] || compopt -o nospace 2> /dev/null || true
}

complete -o bashdefault -o default -F _unifdef unifdef unifdef-tree unifdef2
