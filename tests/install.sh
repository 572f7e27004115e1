#!/usr/bin/env bash
# The library as a C user gets it: installed into a folder, and taken out of the packed archive. Each time the C example is linked with it,
# away from the sources, by flags written by hand and, where pkg-config is there, by its flags; and it prints what it should. Needs the
# library in target/staticlib.
set -u
cd "$(dirname "$0")/.." || exit 1
fail() { echo "install: $1" >&2; exit 1; }
place=$(mktemp -d) || exit 1
trap 'rm -rf "$place"' EXIT
cp examples/c/example.c examples/expected.txt "$place" || exit 1

# Links the example with the flags and runs it. The flags are words.
# shellcheck disable=SC2086
link() {
    (cd "$place" && cc -std=c99 -Wall -Wextra -Wpedantic -Werror example.c $2 -o example) || fail "$1: the example cannot be linked"
    "$place/example" | diff "$place/expected.txt" - || fail "$1: the example prints something else"
    linked=$((linked + 1))
}

# Both ways, from a folder; pkg-config with an option or none.
both() {
    local flags
    link "$1, by hand" "-I$2/include -L$2/lib -lpush_down_filter"
    command -v pkg-config >/dev/null || return
    flags=$(PKG_CONFIG_PATH=$2/lib/pkgconfig pkg-config ${3-} --cflags --libs push_down_filter) || fail "$1: pkg-config finds nothing"
    link "$1, by pkg-config" "$flags"
    version=$(PKG_CONFIG_PATH=$2/lib/pkgconfig pkg-config --modversion push_down_filter)
    said=$(sed -n 's/^.define PUSH_DOWN_FILTER_VERSION_[MP][A-Z]* //p' "$2/include/push_down_filter.h" | paste -sd.)
    [ "$version" = "$said" ] || fail "$1: pkg-config says version $version, the header $said"
}

linked=0
make --silent install DESTDIR="$place/root" PREFIX=/usr || fail "make install"
both installed "$place/root/usr" --define-prefix
make --silent uninstall DESTDIR="$place/root" PREFIX=/usr || fail "make uninstall"
left=$(find "$place/root" -type f)
[ -z "$left" ] || fail "make uninstall leaves $left"

packed=$(make --silent dist) && [ -f "$packed" ] || fail "make dist"
mkdir "$place/unpacked" && tar -xzf "$packed" -C "$place/unpacked" || fail "$packed cannot be unpacked"
folder=$place/unpacked/$(basename "$packed" .tar.gz)
(cd "$folder" && sha256sum --quiet -c SHA256SUMS) || fail "a file of $packed is not that of SHA256SUMS"
listed=$(wc -l <"$folder/SHA256SUMS")
there=$(find "$folder" -type f ! -name SHA256SUMS | wc -l)
[ "$listed" = "$there" ] || fail "$packed has $there files, its SHA256SUMS $listed"
both packed "$folder"
echo "installed, uninstalled, packed and unpacked ($there files); the C example linked $linked times and right each time"
