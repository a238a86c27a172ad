#!/bin/sh
# The split write of the example: what it prints, that a refusal stops it, and, by a program over its engines, that it leaves what
# pat_write does.
#   engines.sh EXAMPLE COMPARING WRITES
set -eu
example=$1 comparing=$2 writes=$3
room=$(mktemp -d)
trap 'rm -rf "$room"' EXIT
fail() {
    echo "FAILED: $*" >&2
    exit 1
}

cat >"$room/expected" <<'EOF'
block 5: 6 tags from 4 engines, 18 AES calls there and 14 in the plan
    the anchor is kept with T = 3; store of the card 8+16 24+24 96+24 128+16 528+16 544+80
block 2: 6 tags from 4 engines, 18 AES calls there and 14 in the plan
    the anchor is kept with T = 6; store of the card 0+24 32+16 56+16 72+24 304+80 448+16
block 5: the plan is left unfinished; the anchor is kept with T = 6 and H = 9
block 5: 6 tags from 4 engines, 18 AES calls there and 14 in the plan
    the anchor is kept with T = 12; store of the card 8+16 24+24 96+24 128+16 528+16 544+80
block 5: van 9: round 12
EOF
"$example" >"$room/out" || fail 'the example'
diff "$room/expected" "$room/out" >&2 || fail 'the example prints something else'

# ends WORD MESSAGE: with the status 1 and that message.
ends() {
    status=0
    "$comparing" "$1" >"$room/out" 2>&1 || status=$?
    [ "$status" -eq 1 ] || fail "$1: it ends with status $status"
    [ "$(cat "$room/out")" = "engines: $2" ] || { cat "$room/out" >&2; fail "$1: it is not said"; }
}
ends refused 'the plan of block 0 is refused, 8: a tag on the card is wrong, that of node 2'

"$comparing" "$writes" 1
