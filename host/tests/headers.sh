#!/bin/sh
# The header in every language that it is for, with every warning an error; and that misuse is warned of.
#   headers.sh ARCHIVE
set -eu
archive=$1
here=$(dirname "$0")
room=$(mktemp -d)
trap 'rm -rf "$room"' EXIT
warnings='-Wall -Wextra -Wpedantic -Wconversion -Wshadow -Werror'
count=0

# try COMPILER STANDARD SOURCE: compiles, links and runs it.
try() {
    # shellcheck disable=SC2086
    "$1" "-std=$2" $warnings -pthread -I"$here/.." "$3" "$archive" -o "$room/program"
    "$room/program" >"$room/out"
    count=$((count + 1))
}

# compile COMPILER STANDARD SOURCE: compiles it alone.
compile() {
    # shellcheck disable=SC2086
    "$1" "-std=$2" $warnings -I"$here/.." -c "$3" -o "$room/object"
    count=$((count + 1))
}

# misuse MACRO: the compiler must refuse that part of misuse.c, and nothing else of it.
misuse() {
    # shellcheck disable=SC2086
    if "$cc" -std=c11 $warnings "-D$1" -I"$here/.." -c "$here/misuse.c" -o "$room/object" 2>"$room/out"; then
        echo "FAILED: $1 of misuse.c compiles without a warning" >&2
        exit 1
    fi
    grep -q "$2" "$room/out" || { cat "$room/out" >&2; echo "FAILED: $1 of misuse.c is refused for another reason" >&2; exit 1; }
    count=$((count + 1))
}

for cc in "${CC:-gcc}" clang; do
    command -v "$cc" >/dev/null || { echo "skipped: $cc is not here, so the header is not compiled with it"; continue; }
    for standard in c99 c11 c17; do
        try "$cc" "$standard" "$here/../example.c"
        try "$cc" "$standard" "$here/../engines.c"
        compile "$cc" "$standard" "$here/calls/header.c"
    done
    compile "$cc" c11 "$here/misuse.c"
    misuse IGNORED_ANSWER 'unused-result'
    misuse IGNORED_WIPE 'unused-result'
    misuse NULL_POINTER 'nonnull'
    misuse NO_CARD_TO_WIPE 'nonnull'
    misuse IGNORED_PLAN 'unused-result'
    misuse IGNORED_PUT 'unused-result'
    misuse NO_MESSAGES 'nonnull'
    misuse NO_TAG 'nonnull'
    misuse IGNORED_JOURNALLED 'unused-result'
    misuse IGNORED_RECOVERY 'unused-result'
    misuse NO_RAISED_ANCHOR 'nonnull'
    misuse NO_JOURNAL 'nonnull'
    misuse NO_DEPTH 'zero.size'
done
for cxx in "${CXX:-g++}" clang++; do
    command -v "$cxx" >/dev/null || { echo "skipped: $cxx is not here, so the header is not compiled with it"; continue; }
    for standard in c++11 c++17 c++20; do
        try "$cxx" "$standard" "$here/header.cpp"
    done
done
echo "pat.h: $count programs compiled, run or refused as they should be"
