#!/bin/sh
# Prints the directory below a prefix in which python3 looks for modules: pythondir.sh PREFIX.
#
# Below ~/.local that is the user's directory, in which a virtual environment doesn't look. If there
# is none, prints PREFIX/lib/python3/dist-packages, which PYTHONPATH can name.
prefix=${1%/}
directory=$(python3 -c 'import site, sys
paths = site.getsitepackages() + [site.getusersitepackages()] * bool(site.ENABLE_USER_SITE)
print(next((p for p in paths if p.startswith(sys.argv[1] + "/lib/")), ""))' "$prefix" 2> /dev/null)
printf '%s\n' "${directory:-$prefix/lib/python3/dist-packages}"
