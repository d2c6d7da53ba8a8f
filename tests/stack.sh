#!/usr/bin/env bash
# The stack that each call of the C library takes.
set -eu
cd "$(dirname "${BASH_SOURCE[0]}")/.."
mkdir -p build
cc -std=c11 -D_GNU_SOURCE -Wall -Wextra -Werror -O1 -Iinclude tests/stack.c \
    build/libzikorewi.a -o build/stack-test
build/stack-test
