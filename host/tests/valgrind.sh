#!/bin/sh
# A program under valgrind, on buffers of the heap; skipped where valgrind is not here.
#   valgrind.sh PROGRAM
set -eu
if ! command -v valgrind >/dev/null; then
    echo 'skipped: valgrind is not here, so the calls are not run under it'
    exit 0
fi
PAT_TEST_EXACT=1 exec valgrind --quiet --leak-check=full --error-exitcode=9 "$1"
