#!/usr/bin/env bash
# Lists where a name stands, by part of the repository, lowest crate first.
#
# Whoever adds a kind of message, a state, a key, a status or a command gives the name of the one
# beside which it will stand: each file that is listed has to be looked at. CamelCase and snake_case
# are one name; other names that contain it are found too.
#
#     scripts/neighbours.sh LinResponse
set -euo pipefail
cd "$(dirname "$0")/.."
if [ $# -ne 1 ] || [ -z "$1" ]; then
    echo "usage: neighbours.sh NAME" >&2
    exit 2
fi
snake=$(sed -E 's/([a-z0-9])([A-Z])/\1_\2/g' <<<"$1" | tr '[:upper:]' '[:lower:]')
camel=$(sed -E 's/(^|_)([a-z])/\U\2/g' <<<"$snake")
# The folders of the crates in the order of crates.txt, then all else.
crates=$(sed -E -e 's/#.*//' -e '/:/!d' -e 's/[ :].*//' crates.txt)
found=0
look() { # FOLDER PART..
    local folder=$1
    shift
    local lines
    lines=$(git grep -I -i -c -F -e "$1" -e "$2" -- "$folder" | sort) || return 0
    [ -n "$lines" ] || return 0
    found=1
    echo "$folder"
    sed -E "s|^$folder/?|    |" <<<"$lines"
}
for crate in $crates; do
    for part in src specs proofs must-fail; do
        look "crates/$crate/$part" "$snake" "$camel"
    done
done
for folder in docs README.md scripts examples bench .ci; do
    look "$folder" "$snake" "$camel"
done
if [ "$found" = 0 ]; then
    echo "no file names $1"
    exit 1
fi
