#!/bin/sh
# The manual page of the library against the header: layout, prototypes, names, refusals and their order, and its example.
#   manual.sh ARCHIVE
set -eu
archive=$1
here=$(dirname "$0")
header=$here/../pat.h
page=$here/../man/pat.3
room=$(mktemp -d)
trap 'rm -rf "$room"' EXIT
fail() {
    echo "FAILED: pat.3: $*" >&2
    exit 1
}
compile() { "${CC:-gcc}" -std=c99 -Wall -Wextra -Wpedantic -Werror -I"$here/.." "$@" || fail 'its C does not compile'; }

# same WHAT: the two lists made before are one.
same() {
    [ -s "$room/header" ] || fail "no $1 found"
    diff "$room/header" "$room/page" >&2 || fail "$1 (< in the header, > in the page)"
}

# section TITLE: its lines.
section() { awk -v title=".SH $1" '/^\.SH / {on = $0 == title; next} on' "$page"; }

# example N: the Nth example of the page, as it is printed.
example() {
    section EXAMPLES | awk -v n="$1" '/^\.EX/ {on = ++k == n; next} /^\.EE/ {on = 0} on' | sed 's/\\e/\\/g'
}

if command -v groff >/dev/null; then
    groff -man -Tutf8 -ww -z "$page" 2>"$room/out" || fail 'groff refuses it'
    [ ! -s "$room/out" ] || { cat "$room/out" >&2; fail 'groff warns of it'; }
else
    echo 'skipped: groff is not here, so the layout of the manual page is not checked'
fi

# The prototypes, declared once more beside the header's.
section SYNOPSIS | grep -v '^\.' >"$room/synopsis.c"
compile -c "$room/synopsis.c" -o "$room/synopsis.o"
sed -n 's/^uint64_t \(pat_[a-z_]*\)(.*/\1/p' "$room/synopsis.c" | sort >"$room/page"
nm -P --defined-only --extern-only "$archive" | awk 'NF > 1 {print $1}' | sort >"$room/header"
same 'the calls that it declares'
while read -r call; do
    [ "$call" = "$(sed -n 's|^\.so man3/pat\.3$|'"$call"'|p' "$here/../man/$call.3")" ] || fail "$call.3 does not lead to it"
done <"$room/header"

# Every name that the header gives, but for its own use, and no other.
names() { grep -o '\<\(pat\|PAT\)_[A-Za-z_]*' "$1" | sort -u | grep -v -x -e PAT_H -e PAT_CALL -e pat_outer_block -e pat_refusals; }
names "$header" >"$room/header"
names "$page" >"$room/page"
same 'names'

sed -n 's/^    \(PAT_REFUSED_[A-Z_]*\) = \([0-9]*\).*/\2 \1/p' "$header" >"$room/header"
section ERRORS | sed -n 's/^\.B \([0-9]\)/\1/p' >"$room/page"
same 'refusal numbers'

# Each call with its refusals in their order; in place it is the write's without the test of the anchor's length.
awk '/Refused/ {on = 1}
    on {
        rest = $0
        while (match(rest, /[0-9]+:/)) {list = list " " substr(rest, RSTART, RLENGTH - 1); rest = substr(rest, RSTART + RLENGTH)}
    }
    /^uint64_t pat_/ {sub(/\(.*/, ""); if (on) print $2 list; if ($2 == "pat_write") write = list; on = 0; list = ""}
    END {print "pat_write_in_place" substr(write, 3)}' "$header" >"$room/header"
section 'RETURN VALUE' | awk '/^\.TP/ {on = 1; next} on && /^\.B / {name = $2; next} on {gsub(/[^0-9 ]/, ""); $1 = $1; print name " " $0}' >"$room/page"
same 'the order of refusals'

example 1 >"$room/example.c"
example 2 >"$room/expected"
compile "$room/example.c" "$archive" -o "$room/example"
"$room/example" >"$room/out" || fail 'its example ends otherwise'
[ -s "$room/expected" ] || fail 'it does not say what its example prints'
diff "$room/expected" "$room/out" >&2 || fail 'its example prints something else'
echo 'pat.3: prototypes, names, refusals and their order, and the example are as the header has them'
