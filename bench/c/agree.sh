#!/bin/sh
# The plain tree over each CMAC that is here, beside the proved calls.
#   agree.sh ARCHIVE
set -eu
archive=$1
here=$(dirname "$0")
room=$(mktemp -d)
trap 'rm -rf "$room"' EXIT
flags='-std=c11 -O2 -Wall -Wextra -Wpedantic -Wconversion -Wshadow -Werror'

# agree NAME HEADER LIBRARY: skipped with a word where the header is missing.
agree() {
    if ! echo "#include <$2>" | "${CC:-gcc}" -E - >"$room/out" 2>&1; then
        echo "skipped: $2 is not here, so the tree is not compared over $1"
        return
    fi
    # shellcheck disable=SC2086
    "${CC:-gcc}" $flags -I"$here/../../host" "$here/agree.c" "$here/tree.c" "$here/cmac_$1.c" "$archive" "-l$3" -o "$room/agree"
    "$room/agree"
}

agree nettle nettle/cmac.h nettle
agree openssl openssl/evp.h crypto
