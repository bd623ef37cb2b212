#!/bin/bash
# Installs the built program with its man page, completions, units and pages.
#
# Usage: install/install.sh [PROGRAM]      PROGRAM is the built program: crates/reviewgate/out/reviewgate by default
#
#   PREFIX     where programs and pages go: /usr/local by default; an absolute path of letters, digits and the
#              characters _ . / + -
#   DESTDIR    a folder in whose place all files are put, as the makers of packages need it: none by default
#   UNITS      where the units go: PREFIX/lib/systemd/system by default
#
# It starts nothing and makes no user. `install/install.sh --list` prints the paths without installing anything.
set -eu
unset CDPATH
umask 022
source_folder=$(cd "$(dirname "$0")/.." && pwd)
prefix=${PREFIX-/usr/local}
units=${UNITS:-$prefix/lib/systemd/system}
destination=${DESTDIR:-}
program=$source_folder/crates/reviewgate/out/reviewgate
only_list=

if [ "${1:-}" = --list ]; then
    only_list=1
elif [ $# -gt 0 ]; then
    program=$1
fi
if [[ $prefix == *[^A-Za-z0-9_./+-]* || $prefix == [^/]* ]]; then
    printf 'install.sh: PREFIX is no absolute path, or has a character that units would have to quote: %s\n' "$prefix" >&2
    exit 1
fi
if [ -z "$only_list" ] && [ ! -x "$program" ]; then
    printf 'install.sh: %s is not a program; build it as README.md says\n' "$program" >&2
    exit 1
fi

# Puts a file in its place with a mode.
put() {
    if [ -n "$only_list" ]; then
        printf '%s %s\n' "$1" "$3"
    else
        install -D -m "$1" "$2" "$destination$3"
    fi
}

# Puts a unit in its place, in which programs are those of the prefix.
put_unit() {
    local edited
    edited=$(mktemp)
    sed "s|/usr/local/bin/|$prefix/bin/|g" "$source_folder/examples/$1" >"$edited"
    put 644 "$edited" "$units/$1"
    rm -f "$edited"
}

put 755 "$program" "$prefix/bin/reviewgate"
put 755 "$source_folder/examples/feed" "$prefix/bin/reviewgate-feed"
put 755 "$source_folder/examples/enqueue" "$prefix/bin/reviewgate-enqueue"
put 644 "$source_folder/man/reviewgate.1" "$prefix/share/man/man1/reviewgate.1"
put 644 "$source_folder/completions/reviewgate.bash" "$prefix/share/bash-completion/completions/reviewgate"
put_unit reviewgate.service
put_unit reviewgate-feed.service
for page in README.md CHANGELOG.md LICENSE docs/OPERATING.md docs/SECURITY.md docs/FORMATS.md docs/RULES.md \
    examples/gate.json examples/alerts.yml examples/dashboard.json; do
    put 644 "$source_folder/$page" "$prefix/share/doc/reviewgate/$(basename "$page")"
done
for picture in list.png change.png list-dark.png narrow.png; do
    put 644 "$source_folder/docs/pictures/$picture" "$prefix/share/doc/reviewgate/pictures/$picture"
done
