#!/bin/sh
# Counts, for the design pass, the places of each of its points in src/ of every crate: `sh tools/places.sh [COMMIT]`.
# A count is of what a pattern finds; docs/DESIGN-PASS.md says what each pattern takes for a place, and what it misses.
set -eu
cd "$(dirname "$0")/.."
commit=${1:-}
tree=$(mktemp -d)
trap 'rm -r "$tree"' EXIT
if [ -n "$commit" ]; then
    git archive "$commit" crates | tar -x -C "$tree"
else
    git ls-files -z crates | xargs -0 tar -c | tar -x -C "$tree"
fi
cd "$tree"
src() { find crates -path '*/src/*.rt' | sort; }
code() { src | xargs cat | grep -v '^ *//' ; }
count() { printf '%-72s %s\n' "$1" "$2"; }
hits() { code | grep -cE "$1" || true; }

echo "1: own enums like Option or Result, flags beside values, numbers for kinds and refusals"
count "  enums" "$(hits '^ *(pub )?enum ')"
count "  enums of an empty variant and one with a value, or of two such" \
    "$(src | xargs perl -0777 -ne 'while (/enum \w+(?:<.*?>)? \{(.*?)\n\}/gs) { my $b = $1; $b =~ s,//.*,,g; my @v = grep { /\w/ } split /,\s*\n/, $b; print "x\n" if @v == 2; }' | grep -c x || true)"
count "  structs with a bool beside other fields" \
    "$(src | xargs perl -0777 -ne 'while (/struct \w+(?:<.*?>)? \{(.*?)\n\}/gs) { my $b = $1; print "x\n" if $b =~ /: bool,/ && ($b =~ tr/,//) > 1; }' | grep -c x || true)"
count "  functions with a bool parameter" "$(code | tr '\n' ' ' | grep -oE 'fn [a-z_0-9]+(<[^(]*>)?\([^)]*: bool[^)]*\)' | wc -l)"
count "  constants that number kinds, words, sorts or letters" "$(hits '^(pub )?const [A-Z_0-9]+: (usize|u8|u32|u64) = ([0-9]+|[A-Z_]+);')"
count "  numbers that stand for none or no room: 0, NO_ROOM, NO_TYPE, ALL compared or returned" \
    "$(hits '(return|Known\(|==|!=) ?\(?(NO_ROOM|NO_TYPE|NEVER|UNKNOWN)|(at|here|first|x|y|n|from|value|link|written|v\.first|p\.written)\)? (==|!=) 0 ')"
echo "2: twins"
twins() {
    if command -v duplicates >/dev/null; then
        plain=$(mktemp -d); src | xargs tar -c | tar -x -C "$plain"
        find "$plain" -name '*.rt' -exec sh -c 'sed -E "$2" "$1" > "${1%.rt}.rs"; rm "$1"' - {} "$1" \;
        duplicates --repo "$plain" --most 200 --seconds 60 | sed -n '1s/ .*//p'; rm -r "$plain"
    else echo -; fi
}
count "  pairs of places of six lines or more that duplicates finds (- where that tool is not)" "$(twins '')"
count "    of them with imports and parameter lists left out" "$(twins '/^ *(pub |ghost )?use /d; /^    [a-z_]+: [^ ].*,$/d; /^\)/d; /^ *(pub )?fn .*\($/d')"
echo "3: loops that count an index or follow a link by hand"
count "  while loops" "$(hits '^ *while ')"
count "    of them from record to record, until a link is 0" "$(hits '^ *while (at|from|here|y) != 0 ')"
count "  loops: for" "$(hits '^ *for ')"
echo "4: equality, order, copying, conversion, printing by hand"
count "  matches of an enum that answer true or false in each arm" \
    "$(src | xargs perl -0777 -ne 'while (/match \w+ \{((?:\s*[\w:]+(?:\([^)]*\))? => (?:true|false),)+)\s*\}/g) { print "x\n" }' | grep -c x || true)"
count "  matches that hand a value on unchanged (E::V(x) => E::V(x))" "$(hits '([A-Z][A-Za-z]*::[A-Z][A-Za-z]*)\(([a-z_, ]+)\) => \1\(\2\)')"
count "  enums and structs that derive no PartialEq" "$(code | grep -E '^ *#\[derive' | grep -vc PartialEq || true)"
count "  casts" "$(hits ' as (u8|u16|u32|u64|usize|i64)\b')"
count "  byte words put together or taken apart" "$(hits '\* 256|/ 256|65536 % 256')"
echo "5: facts that repeat, parameters that travel together"
count "  functions with more than five parameters" \
    "$(src | xargs perl -0777 -ne 'while (/fn (\w+)(?:<[^(]*>)?\(([^)]*)\)/g) { my $p = $2; my $n = () = $p =~ /\w+: /g; print "x\n" if $n > 5; }' | grep -c x || true)"
count "  functions that take a slice and the number of its first record (s, base / part, x / input, y / m, of)" \
    "$(code | tr '\n' ' ' | grep -oE '(s|part|input|a|b|g|m|child|left|right): &\[u8\], *(base|x|y|of|at|gb|top): usize' | wc -l)"
count "  functions that take out, at, level" "$(code | tr '\n' ' ' | grep -oE 'out: &mut \[u8\], *at: usize, *level: usize' | wc -l)"
count "  functions that take a qualifier and a name (q, n)" "$(code | tr '\n' ' ' | grep -oE 'q: usize, *n: usize' | wc -l)"
count "  functions that take types, values, marks" "$(code | tr '\n' ' ' | grep -oE 'values: &\[i64\], *marks: &\[u8\]' | wc -l)"
count "  clauses requires that stand three times or more (kinds of clause / clauses)" \
    "$(code | grep -oE 'requires [a-z_0-9]* ?\{.*\}' | sed -E 's/requires [a-z_0-9]* ?\{ ?//; s/ ?\}$//; s/\b[a-z_]+\.(now|old)\b/S/g' | sort | uniq -c | awk '$1 >= 3 { k++; n += $1 } END { print k + 0 " / " n + 0 }')"
echo "6: buffers with a length, parallel arrays, searches by hand"
count "  struct fields that are arrays" "$(hits '^ *pub [a-z_]+: \[|^ *[a-z_]+: \[.*;.*\],')"
count "  arrays on the stack" "$(hits 'let mut [a-z_]+ = \[0')"
count "  tables of constants" "$(hits '^(pub )?const [A-Z_]+: \[')"
echo "7: switches on which step to run"
count "  chains of three or more tests of one word (functions)" \
    "$(src | xargs perl -0777 -ne 'while (/\nfn (\w+)|\npub fn (\w+)/g) { } my @f = split /\n(?=(?:pub )?fn )/; for (@f) { my %c; $c{$1}++ while /if (\w+(?:\.\w+)?) == [A-Z_]+/g; print "x\n" if grep { $_ >= 3 } values %c; }' | grep -c x || true)"
count "  bool or number parameters that choose a step (volatile, costly, lower, inside, inner, renamed, set)" \
    "$(code | tr '\n' ' ' | grep -oE '\b(volatile|costly|lower|inside|inner|renamed|set|flipped|preserved): bool' | wc -l)"
echo "8: proofs"
count "  lines of proofs" "$(find crates -name '*.antt' -path '*/proofs/*' | xargs cat | wc -l)"
count "  answer files" "$(find crates -name 'Answers.antt' | wc -l)"
count "  invariant files" "$(find crates -name 'Invariants.antt' | wc -l)"
