#!/bin/sh
# Fails if a condition, a definition, or a comment of #else or #endif names a symbol of the options.
# Prints what would change and what would stay: gone.sh -USYMBOL .. -- PATH ..
#
# A hook of pre-commit (.pre-commit-hooks.yaml). A fault of a file fails too.
left=$(unifdef-tree -n -q -r "$@") && [ -z "$left" ] && exit
[ -z "$left" ] || printf '%s\n' "$left"
exit 1
