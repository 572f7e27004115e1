# What ./run and ./test share; sourced, from the root of the repository.

library=target/staticlib/libpush_down_filter.a

fail() { echo "$1" >&2; exit 1; }

# The tools that a command needs.
need() {
    local tool
    for tool in "$@"; do
        command -v "$tool" >/dev/null || fail "$tool is not on the PATH: README.md, 'What it needs', says what it is"
    done
    [ "$(uname -sm)" = "Linux x86_64" ] || fail "this is $(uname -sm): the library is compiled for x86-64 Linux"
}

# Two at a time would write over each other in target/. What ./test starts itself goes with it.
alone() {
    [ -z "${PART_OF_TEST-}" ] || return 0
    exec 9<crates.txt
    flock -n 9 || fail "another ./run or ./test is at work here"
}

# Runs a command to its end, as one that is ended with all that it started when this script is. (A signal is not heard before what is in the
# foreground ends.)
started=
follow() {
    set -m
    "$@" &
    started=$!
    set +m
    wait "$started"
}
end() { [ -z "$started" ] || kill -- "-$started" 2>/dev/null; }

# What rt says of each crate and edit, a line each, and its errors; all that it says goes to the file.
told() { # FILE
    tee "$1" | sed -nu -e 's/^\(rt: must-fail .*: refused\), .*/\1/' -e '/^rt: chose/d' -e 's/^rt: //p' \
        -e 's/^crate \([a-z_]*\): .*/\1 checked/p' -e '/: error/p'
}

# Proves what changed since it was proved last, builds the static library and puts it where C and Rust look for it.
build_library() {
    local made=crates/push_down_filter_c/out/libpush_down_filter_c.a
    (cd crates/push_down_filter_c && rt lib) || return
    cmp -s $made $library || { mkdir -p "$(dirname $library)" && cp $made $library; }
}
