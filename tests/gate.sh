#!/usr/bin/env bash
# The gate: each step runs whatever the ones before it gave, and adds what passed and failed.
# The last line is 'N passed, M failed', with M above 0 whenever anything failed.
set -u
cd "$(dirname "${BASH_SOURCE[0]}")/.."
logs=$(mktemp -d)
trap 'rm -rf "$logs"' EXIT
passed=0
failed=0

# One step: a name, a function that reads counts from a log, and a command.
step() {
    local name=$1 count=$2 began=$SECONDS status log
    shift 2
    log=$logs/$name
    echo "== $name: $*"
    "$@" >"$log" 2>&1
    status=$?
    cat "$log"
    local good=0 bad=0
    read -r good bad < <("$count" "$log")
    if [ "$status" -ne 0 ] && [ "${bad:-0}" -eq 0 ]; then bad=1; fi
    if [ "$status" -eq 0 ] && [ "${good:-0}" -eq 0 ]; then bad=1; echo "$name: no test was run"; fi
    passed=$((passed + ${good:-0}))
    failed=$((failed + ${bad:-0}))
    echo "== $name: ${good:-0} passed, ${bad:-0} failed ($((SECONDS - began)) s)"
}

# 'N passed, M failed' as the last line.
last_line() {
    tail -n 1 "$1" | sed -n 's/^\([0-9]*\) passed, \([0-9]*\) failed$/\1 \2/p' | grep . || echo 0 1
}

# The same of rt ci, which says on its line 'rt: ok' how many must-fail edits are bad: each counts as failed.
rt_ci() {
    local good bad edits
    read -r good bad < <(last_line "$1")
    edits=$(sed -n 's/^rt: ok.*, \([0-9]*\) bad.*/\1/p' "$1")
    echo "$good $((bad + ${edits:-0}))"
}

# The sums over cargo's result lines.
cargo_results() {
    awk '/^test result:/ { good += $4; bad += $6 } END { print good + 0, bad + 0 }' "$1"
}

# A command whose exit status is its answer.
status_only() { echo 1 0; }

step proofs rt_ci rt ci
step reference cargo_results cargo test --offline --manifest-path reference/Cargo.toml
# Built again whatever the files' times say: rt knows what has changed.
step archive status_only make -B --no-print-directory archive
step program status_only make -B --no-print-directory cutter
step library last_line bash tests/library.sh
step stack last_line bash tests/stack.sh
step host last_line bash tests/host.sh
step comparison status_only cargo run --offline --quiet --release --manifest-path compare/Cargo.toml --bin compare
step frames status_only cargo run --offline --quiet --release --manifest-path compare/Cargo.toml --bin frames

echo "$passed passed, $failed failed"
[ "$failed" -eq 0 ] && [ "$passed" -gt 0 ]
