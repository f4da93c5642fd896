#!/bin/sh
# Writes the fixed list that crates/replay is checked by: its stdin and, as the oracle or document 01 has it, its stdout. The port is not asked.
set -eu
cd "$(dirname "$0")"
cases=../crates/replay/stdin
answers=../crates/replay/stdout
: >"$cases"
: >"$answers"

# limit, multiplier, time step
build() {
    COMPARE_DEPTH_LIMIT=$1 COMPARE_MULTIPLIER=$2 COMPARE_TIME_STEP=$3 cargo build --quiet --release --target-dir "target/$1-$2-$3"
    compare="target/$1-$2-$3/release/compare"
}

# what the last build prints, and what is owed on it
add() {
    "$compare" "$@" >target/part
    cat target/part >>"$cases"
    "$compare" expected <target/part >>"$answers"
}

build 16 2 8
add list 1 0
build 1 4294967295 1
add list 1 0
build 2 3 0
add list 1 0
build 4 1 4
add list 1 0
add list-outside 1 0
add list-unread 1
# bad rows in a whole cycle, which the Rust cannot state: answered by hand
cat by_document/cases >>"$cases"
cat by_document/answers >>"$answers"
rm target/part
