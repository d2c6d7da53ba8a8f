#!/usr/bin/env bash
# The host editor under the sanitizers: every command, its messages and exit statuses, and what is installed.
set -u
cd "$(dirname "${BASH_SOURCE[0]}")/.."
root=$PWD
work=$(mktemp -d)
trap 'rm -rf "$work"' EXIT
checked=build/checked
takecut=$root/$checked/takecut
expected=$root/tests/expected
export ASAN_OPTIONS=exitcode=99 UBSAN_OPTIONS=exitcode=99 LC_ALL=C.UTF-8
unset COLUMNS
passed=0
failed=0

# One check: what it is about, and a command.
check() {
    local what=$1
    shift
    if "$@"; then
        passed=$((passed + 1))
    else
        failed=$((failed + 1))
        echo "failed: $what"
    fi
}

# Runs the editor, not for ever; leaves its status, and what it printed in out and err.
run() {
    timeout 120 "$takecut" "$@" >"$work/out" 2>"$work/err" </dev/null
    status=$?
}

# A run that is carried out and says nothing on standard error.
carried_out() {
    run "$@"
    check "done: $* (status $status: $(head -c 300 "$work/err"))" [ "$status" -eq 0 ]
    check "silent: $*" [ ! -s "$work/err" ]
}

# A run that ends with a status and says a text: the whole line on standard error.
ends() {
    local want=$1 text=$2
    shift 2
    run "$@"
    check "status $want, not $status: $*" [ "$status" -eq "$want" ]
    check "says '$text', not '$(head -c 300 "$work/err")'" [ "$(cat "$work/err")" = "takecut: $text" ]
}

# What the last run printed is a stored text.
printed() {
    check "printed as in $1" cmp "$work/out" "$expected/$1"
}

strict='-std=c11 -Wall -Wextra -Werror -g -O1 -fsanitize=address,undefined -fno-sanitize-recover=all'
rm -rf $checked build/plain
make --no-print-directory programs BUILD=$checked CFLAGS="$strict" >"$work/make" 2>&1
status=$?
check "the editor and the demonstration compile ($(tail -n 3 "$work/make"))" [ "$status" -eq 0 ]

# A test program in C: its sources, and the folder for the files that it makes. It counts for itself.
program() {
    local name=$1
    shift
    # shellcheck disable=SC2086
    cc $strict -Iinclude -Ihost "tests/$name.c" "$@" $checked/libzikorewi.a -o "$checked/$name"
    "$checked/$name" "$work" >"$work/log"
    status=$?
    check "$name ends well ($(tail -n 4 "$work/log"))" [ "$status" -eq 0 ]
    read -r good _ bad _ < <(tail -n 1 "$work/log")
    passed=$((passed + ${good:-0}))
    failed=$((failed + ${bad:-1}))
}
program host_files host/messages.c host/midifile.c host/keys.c
program host_pieces host/pieces.c host/session.c host/memory.c

cd "$work" || exit 2
for part in edits files limits shown installed; do
    # shellcheck disable=SC1090
    . "$root/tests/host_$part.sh"
done

echo "$passed passed, $failed failed"
[ "$failed" -eq 0 ] && [ "$passed" -gt 0 ]
