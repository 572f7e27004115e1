#!/usr/bin/env bash
# Loads pages of passes in Chromium, steps through them by the fragment of the address, by keys, buttons and the slider, and looks at what
# they show. Prints one line. Where no Chromium is installed it says so and exits with 0.
set -u
here=$(cd "$(dirname "$0")" && pwd) || exit 1
plan=${PLAN:-$here/../target/release/plan}
browser=
for name in chromium chromium-browser google-chrome; do
    browser=$(command -v "$name") && break
done
[ -n "$browser" ] || { echo "plan pages: Chromium is not installed, no page was loaded"; exit 0; }
[ -x "$plan" ] || { echo "plan pages: $plan is not there; cargo build --release makes it"; exit 1; }
folder=$(mktemp -d) || exit 1
trap 'rm -rf "$folder"' EXIT
fail() { echo "plan pages: $1"; exit 1; }

# The page as it stands after its script ran. What its script, or the browser, has to say of it goes to $folder/console.
loaded() {
    timeout 60 "$browser" --headless --no-sandbox --disable-gpu --user-data-dir="$folder/profile" --virtual-time-budget=2000 \
        --enable-logging=stderr --dump-dom "file://$folder/$1" 2>>"$folder/console"
}
# The visit that a loaded page shows: the one article that is current.
shown() { grep -o '<article class="step[a-z ]*current" id="step-[0-9]*"' | grep -o 'step-[0-9]*' | paste -sd ' ' -; }
is() { [ "$2" = "$3" ] || fail "$1: '$2' is shown, '$3' was expected"; }

examples="$here/../../../examples/plans"
"$plan" pass --html "$folder/join.html" "$examples/join.plan" >/dev/null || fail "no page of join.plan"
checks=0
for step in 1 2 3 4 5; do
    dom=$(loaded "join.html#step-$step")
    is "join.html#step-$step" "$(shown <<<"$dom")" "step-$step"
    grep -q "<output aria-live=\"polite\">Visit $step of 5</output>" <<<"$dom" || fail "the text beside the slider is not of visit $step"
    checks=$((checks + 2))
done
is "join.html" "$(loaded join.html | shown)" "step-1"
is "a fragment without visit" "$(loaded 'join.html#step-9' | shown)" "step-1"
grep -q '<div class="controls" hidden' "$folder/join.html" || fail "without script the controls are to be seen"
loaded join.html | grep -q '<div class="controls" hidden' && fail "the controls are hidden"

# A script behind the page's own, as a reader would press and pull.
acts() {
    sed "s|^</body>|<script>$1</script></body>|" "$folder/join.html" >"$folder/acts.html"
    is "$1" "$(loaded acts.html | shown)" "$2"
    checks=$((checks + 1))
}
key() { echo "document.body.dispatchEvent(new KeyboardEvent('keydown', { key: '$1', bubbles: true }));"; }
press() { echo "document.querySelector('[data-go=$1]').click();"; }
acts "$(key ArrowRight)$(key ArrowRight)" step-3
acts "$(key ArrowRight)$(key ArrowLeft)" step-1
acts "$(key ArrowLeft)" step-1
acts "$(press next)$(press next)$(press back)" step-2
acts "$(press last)" step-5
acts "$(press last)$(press first)" step-1
acts "$(press change)" step-2
acts "const s = document.querySelector('.controls input'); s.value = 4; s.dispatchEvent(new Event('input'));" step-4
acts "location.hash = '#step-3';" step-3

# Every example has a page that shows its first visit.
pages=0
for file in "$examples"/*.plan; do
    name=$(basename "$file" .plan)
    names=()
    [ "$name" = menu ] && names=(--names "$examples/menu.names")
    "$plan" pass --html "$folder/$name.html" "${names[@]}" "$file" >/dev/null 2>&1 || continue
    pages=$((pages + 1))
    case $name in
    union | menu | stays-limit | or-clause)
        is "$name.html" "$(loaded "$name.html" | shown)" "step-1"
        checks=$((checks + 1))
        ;;
    esac
done
grep CONSOLE "$folder/console" && fail "the console names a trouble"
sed "s|^</body>|<script>document.querySelector('.none').click()</script></body>|" "$folder/join.html" >"$folder/wrong.html"
loaded wrong.html >/dev/null
grep -q CONSOLE "$folder/console" || fail "the console does not show what is wrong"
[ "$pages" -ge 25 ] || fail "only $pages examples have a page"
echo "plan pages: $checks looks at pages in $("$browser" --version 2>/dev/null | head -n 1 | xargs), $pages pages made, all as expected"
