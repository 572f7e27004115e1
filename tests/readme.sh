#!/usr/bin/env bash
# The commands of README.md, as a reader would type them: each line '$ COMMAND' of a block ```console is run at the root, and what it prints
# on standard output must be the lines that follow it there.
set -u -o pipefail
cd "$(dirname "$0")/.." || exit 1
place=$(mktemp -d) || exit 1
trap 'rm -rf "$place"' EXIT
: >"$place/command"
ran=0

# Runs the command in hand, if there is one, and compares.
try() {
    [ -s "$place/command" ] || return 0
    bash "$place/command" >"$place/got" 2>"$place/errors" </dev/null
    if ! diff "$place/expected" "$place/got" >"$place/diff"; then
        echo "README.md: $(cat "$place/command") prints something else:"
        cat "$place/diff" "$place/errors"
        exit 1
    fi
    ran=$((ran + 1))
    : >"$place/command"
}

inside=no
while IFS= read -r line; do
    case $inside:$line in
    no:'```console') inside=yes ;;
    yes:'```') try; inside=no ;;
    yes:'$ '*) try; printf '%s\n' "${line#\$ }" >"$place/command"; : >"$place/expected" ;;
    yes:*) printf '%s\n' "$line" >>"$place/expected" ;;
    esac
done <README.md
[ "$ran" -gt 5 ] || { echo "README.md has only $ran commands"; exit 1; }
echo "$ran commands of the README print what it says"
