#!/bin/sh
# Installs into a folder of its own, builds and runs the examples from there, and uninstalls.
#   installed.sh ARCHIVE
set -eu
archive=$1
here=$(cd "$(dirname "$0")" && pwd)
room=$(mktemp -d)
trap 'rm -rf "$room"' EXIT
fail() {
    echo "FAILED: $*" >&2
    exit 1
}

# expect FILE MODE: it was installed with that mode.
expect() {
    [ -f "$1" ] || fail "$1 is not installed"
    [ "$(stat -c %a "$1")" = "$2" ] || fail "$1 has the mode $(stat -c %a "$1")"
}

# run_make TARGET: with the folder as its place.
run_make() {
    "${MAKE:-make}" --no-print-directory -s "$1" PAT_ARCHIVE="$archive" PREFIX=/opt/pat DESTDIR="$room/root" >"$room/log" 2>&1 ||
        { cat "$room/log" >&2; fail "make $1"; }
}

# Every file and link, in order.
list() { (cd "$room/root" && find . ! -type d | sort); }

base=$room/root/opt/pat
# Files of others, of which uninstall must take none.
for file in bin/roundcard-other lib/libother.a share/man/man1/other.1 share/bash-completion/completions/other; do
    mkdir -p "$base/${file%/*}"
    echo mine >"$base/$file"
done
others=$(list)
run_make install
expect "$base/bin/roundcard" 755
expect "$base/lib/libpat.a" 644
expect "$base/include/pat.h" 644
expect "$base/lib/pkgconfig/pat.pc" 644
expect "$base/share/bash-completion/completions/roundcard" 644
pages=0
for page in "$here"/../man/*.[13]; do
    expect "$base/share/man/man${page##*.}/${page##*/}" 644
    cmp -s "$page" "$base/share/man/man${page##*.}/${page##*/}" || fail "another page ${page##*/}"
    pages=$((pages + 1))
done
[ "$(list | wc -l)" -eq $((4 + 5 + pages)) ] || fail 'something else is installed'
grep -q '@' "$base/lib/pkgconfig/pat.pc" && fail 'pat.pc has a place left open'

if command -v pkg-config >/dev/null; then
    export PKG_CONFIG_PATH="$base/lib/pkgconfig" PKG_CONFIG_SYSROOT_DIR="$room/root"
    flags=$(pkg-config --cflags --libs pat)
    [ "$(pkg-config --modversion pat)" = "$("$base/bin/roundcard" --version | cut -d' ' -f2)" ] || fail 'two versions'
else
    echo 'skipped: pkg-config is not here, so pat.pc is not read'
    flags="-I$base/include -L$base/lib -lpat"
fi
# shellcheck disable=SC2086
"${CC:-gcc}" -std=c99 -Wall -Wextra -Wpedantic -Werror "$here/../example.c" $flags -o "$room/example"
"$room/example" >"$room/out" || fail 'the example'
grep -q 'cut: refused 8 at node 7' "$room/out" || fail 'the example is not cut'
grep -q 'recovered; block 3: van 7: round 12' "$room/out" || fail 'the example recovers something else'
grep -q 'altered: refused 8 at node 7' "$room/out" || fail 'the example is not refused'
grep -q 'wiped: an empty card' "$room/out" || fail 'the example does not end with an empty card'
# shellcheck disable=SC2086
"${CC:-gcc}" -std=c99 -Wall -Wextra -Wpedantic -Werror -pthread "$here/../engines.c" $flags -o "$room/engines"
"$room/engines" >"$room/out" || fail 'the example with several engines'
grep -q -x 'block 5: van 9: round 12' "$room/out" || fail 'the example with several engines reads something else'

run_make uninstall
[ "$(list)" = "$others" ] || fail "uninstall leaves or takes something: $(list)"
run_make uninstall
echo 'installed: archive, header, tool, pat.pc, man pages and completion; the examples build and run from there; uninstalled'
