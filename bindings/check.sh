#!/bin/sh
# Checks what is outside of the proved library: the C example, the Rust crates, and the comparison
# of the C interface with the model. One line for each thing that passed; everything on a failure.
set -eu
cd "$(dirname "$0")"
root=$(cd .. && pwd)
built=$root/target/bindings
archive=$root/crates/deruvain/out/libderuvain.a
export CARGO_TARGET_DIR="$built"
export RUSTFLAGS="-D warnings"
export RUSTDOCFLAGS="-D warnings"
mkdir -p "$built"

# check WORDS COMMAND...: runs the command, and prints WORDS or, if it fails, all that it wrote.
check() {
    words=$1
    shift
    if "$@" >"$built/check.log" 2>&1; then
        echo "bindings: $words"
    else
        cat "$built/check.log"
        echo "bindings: FAILED: $words"
        exit 1
    fi
}

# Whether the archive is there and no source is newer. Wrong versions for the gate don't count, nor does what rt makes.
is_made() {
    [ -e "$archive" ] && [ ! "$root/crates.txt" -nt "$archive" ] &&
        [ -z "$(cd "$root/crates" && find . \( -name must-fail -o -name out \) -prune -o -path './*/*' -newer "$archive" -print | head -n 1)" ]
}

# rt ci proves the crate and makes no archive of it: that is rt lib's.
make_archive() {
    (cd "$root/crates/deruvain" && rt lib)
}

# All that a program without a C library has to bring.
asks_for_memset() {
    [ "$(nm -u "$archive" | awk 'NF == 2 { print $2 }')" = memset ]
}

c_example() {
    cc -std=c99 -pedantic -Wall -Wextra -Werror -I c c/example.c "$archive" -o "$built/example" &&
        "$built/example" >"$built/example.out" &&
        diff c/example.out "$built/example.out"
}

c_of_the_readme() {
    awk '/^```/ { inside = ($0 == "```c"); next } inside' README.md >"$built/readme.c"
    cc -std=c99 -Wall -Wextra -Werror -I c "$built/readme.c" "$archive" -o "$built/readme" &&
        [ "$("$built/readme" | tr '\n' ' ')" = '0 1 3 ' ]
}

cxx_header() {
    c++ -std=c++11 -pedantic -Wall -Wextra -Werror -fsyntax-only -x c++ c/deruvain.h
}

run() {
    cargo run --quiet --offline --release -p "$@"
}

is_made || check "the archive is made" make_archive
[ -x "$root/crates/listing/out/listing" ] || check "the program listing is made" "$root/deruvain" listing "$root/samples/four-boards.record"
check "the archive asks for memset alone" asks_for_memset
check "the C example prints c/example.out" c_example
check "the C program of README.md prints what it says" c_of_the_readme
check "the header serves C++" cxx_header
check "the tests of the Rust crates pass" cargo test --quiet --offline --workspace
check "the documentation of the Rust crate builds" cargo doc --quiet --offline --no-deps -p deruvain
check "the comparison finds planted flaws" run compare -- --self-test
check "the C interface and the model agree" run compare
tail -n 1 "$built/check.log"
check "the benchmark runs" run bench -- --quick "$built/bench.svg"
