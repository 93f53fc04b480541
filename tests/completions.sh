#!/usr/bin/env bash
# Tries the completions in bash, zsh and fish.
source "$(dirname "$0")/checks.sh"
needs ./unifdef ./unifdef-tree
completions=$here/packaging/completions
mkdir -p "$work/bin" "$work/here/below"
ln -s "$here/unifdef" "$here/unifdef-tree" "$here/packaging/unifdef2" "$work/bin"
for it in unifdef unifdef-tree unifdef2; do
  cp "$here/packaging/completions/unifdef.fish" "$work/$it.fish"
done
export PATH=$work/bin:$PATH HOME=$work XDG_CONFIG_HOME=$work XDG_DATA_HOME=$work
cd "$work/here" || exit 1
printf '#if DEBUG > 1 && defined(DEEP)\n#endif\n' > a.h
printf '#ifdef OTHER\n#endif\n' > below/b.c
: > -x.h

# in_SHELL LINE: prints the completions that a shell offers for a line.
in_bash() {
  bash --norc -c '
    . "$1/unifdef.bash"
    read -ra COMP_WORDS <<< "$2"
    [[ "$2" != *" " ]] || COMP_WORDS+=("")
    COMP_CWORD=$((${#COMP_WORDS[@]} - 1))
    COMP_LINE=$2 COMP_POINT=${#2}
    compopt() { printf "%s\n" "$2"; }
    _unifdef
    printf "%s\n" "${COMPREPLY[@]}"' bash "$completions" "$1"
}
in_fish() {
  fish --no-config -c 'source $argv[1]/unifdef.fish; source $argv[1]/unifdef-tree.fish
    source $argv[1]/unifdef2.fish; complete -C $argv[2]' "$work" "$1"
}
# zsh completes only at a terminal, so this script makes one. The shell announces that it is ready
# and, by a second key, that it has completed. An hour for each is a guard against hanging.
cat > "$work/ask.zsh" << 'END'
zmodload zsh/zpty
zpty -b shell zsh -f -i
zpty -w shell 'PS1=; stty -echo cols 200; fpath=('$1' $fpath); autoload -Uz compinit; compinit -u -D
  setopt nobeep; bindkey "^I" list-choices; tell() { zle -I; print fini''shed }; zle -N tell
  bindkey "^T" tell; print rea''dy'
await() {
  shown=''
  repeat 36000; do
    while zpty -r -t shell line; do shown+=$line; done
    [[ $shown != *$1* ]] || break
    sleep 0.1
  done
}
await ready
zpty -w -n shell $2$'\t\x14'
await finished
shown=${shown/finished/}
zpty -d shell
print -r -- $shown
END
in_zsh() {
  timeout 7500 zsh -f "$work/ask.zsh" "$completions" "$1" | tr -d '\r' |
    sed 's/\x1b\[[0-9;]*[A-Za-z]/\n/g' | tr -s ' ' '\n'
}

# offers SHELL LINE WANTED UNWANTED: the completions of a line must have the first word alone.
offers() {
  offered=$("in_$1" "$2" 2>&1 < /dev/null)
  check "$1 for $2" offered_alone "$3" "$4"
}
has_word() { grep -qE -e "^$1([[:space:]]|$)" <<< "$offered"; }
offered_alone() {
  echo "$offered"
  has_word "$1" && ! has_word "$2"
}

for shell in bash zsh fish; do
  has "$shell" || { lacks "$shell" "completions in $shell"; continue; }
  offers "$shell" 'unifdef -' -S -r
  offers "$shell" 'unifdef-tree -' -r -S
  names=-U files=-x.h
  [ "$shell" != zsh ] || names=''
  offers "$shell" 'unifdef -UDE' "${names}DEBUG" "${names}OTHER"
  offers "$shell" 'unifdef -kUDE' "${names/-/-k}DEBUG" "${names/-/-k}OTHER"
  offers "$shell" 'unifdef-tree -kU ' OTHER a.h
  offers "$shell" 'unifdef-tree -U ' OTHER a.h
  offers "$shell" 'unifdef -x ' 2 3
  offers "$shell" 'unifdef -U ' OTHER a.h
  # After a path and after -- there are files. bash adds them itself to an empty list.
  [ "$shell" != bash ] || files=''
  offers "$shell" 'unifdef-tree -DA=1 below -' "$files" '-[knrq]'
  offers "$shell" 'unifdef-tree -D A -b -- -' "$files" '-[knrq]'
  [ "$shell" = zsh ] || offers "$shell" 'unifdef -bU A a.h -' "$files" '-[kn]'
  offers "$shell" 'unifdef-tree -DA=1 -bi DA -' -q OTHER
  # Options of unifdef2 may follow files.
  offers "$shell" 'unifdef2 -' -o -q
  offers "$shell" 'unifdef2 -DA below/b.c -U ' OTHER a.h
  # A value may follow the name after -D, so no space does.
  case $shell in
    bash)
      offers bash 'unifdef -iDDE' -iDDEEP -iDOTHER
      offers bash 'unifdef -DDE' nospace -DOTHER
      offers bash 'unifdef-tree -D DE' nospace OTHER
      offers bash 'unifdef -kDDE' nospace -kDOTHER
      offers bash 'unifdef -UDE' -UDEBUG nospace
      ;;
    zsh) offers zsh 'unifdef -iDDE' DEEP OTHER ;;
    fish)
      offers fish 'unifdef -iDDE' -iDDEEP -iDOTHER
      offers fish 'unifdef-tree -DDE' -DDEBUG= -DOTHER=
      offers fish 'unifdef -UDE' -UDEBUG -UDEBUG=
      ;;
  esac
done
finish
