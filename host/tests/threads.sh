#!/bin/sh
# The program that compares the engines with pat_write, under the thread sanitizer; skipped where that cannot run. It needs
# addresses that are not too random, and setarch gives such.
#   threads.sh COMPARING WRITES
set -eu
export TSAN_OPTIONS=halt_on_error=1
room=$(mktemp -d)
trap 'rm -rf "$room"' EXIT

# cannot WORDS...: whether the sanitizer does not even start.
cannot() { ! "$@" 1 0 >"$room/out" 2>&1 && grep -q 'ThreadSanitizer: unexpected memory mapping\|setarch: ' "$room/out"; }

if ! cannot "$1"; then
    "$1" "$2" 2
elif ! cannot setarch "$(uname -m)" -R "$1"; then
    setarch "$(uname -m)" -R "$1" "$2" 2
else
    echo 'skipped: the thread sanitizer does not run here, so the engines are not run under it'
fi
