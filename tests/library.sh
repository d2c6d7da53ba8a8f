#!/usr/bin/env bash
# The C library from a C program, under the sanitizers.
set -eu
cd "$(dirname "${BASH_SOURCE[0]}")/.."
mkdir -p build
cc -std=c11 -Wall -Wextra -Werror -fsanitize=address,undefined -Iinclude tests/library.c \
    build/libzikorewi.a -o build/library-test
build/library-test
