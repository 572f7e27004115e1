#!/usr/bin/env bash
# The header and the C programs: compiled as C99, C11 and C++17 without a warning, by cc and, where it is there, by clang; the example
# prints what it should, and the test of the boundary finds nothing. Needs the library in target/staticlib.
set -u
cd "$(dirname "$0")/.." || exit 1
fail() { echo "c: $1" >&2; exit 1; }
library=target/staticlib/libpush_down_filter.a
[ -f $library ] || fail "$library is not there: ./run makes it"
place=$(mktemp -d) || exit 1
trap 'rm -rf "$place"' EXIT
warnings="-Wall -Wextra -Wpedantic -Wshadow -Wconversion -Werror"

# Compiles both programs by a compiler as a standard; the warnings are words.
# shellcheck disable=SC2086
compile() {
    local compiler=$1 standard=$2 program
    for program in examples/c/example.c tests/c/boundary.c; do
        $compiler -x "${standard%%[0-9]*}" -std="$standard" -O2 $warnings -I include $program -x none $library \
            -o "$place/$(basename $program .c)-$compiler-$standard" || fail "$program by $compiler as $standard"
        compiled=$((compiled + 1))
    done
}

compiled=0
compilers=cc
command -v clang >/dev/null && compilers="cc clang"
for compiler in $compilers; do
    for standard in c99 c11 c++17; do compile "$compiler" "$standard"; done
done
for example in "$place"/example-*; do
    "$example" | diff examples/expected.txt - || fail "$(basename "$example") prints something else"
done
for compiler in $compilers; do
    "$place/boundary-$compiler-c99" || fail "the boundary test by $compiler fails"
done
echo "compiled without a warning: $compiled, two C programs as C99, C11 and C++17 by $compilers"
