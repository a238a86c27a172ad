#!/bin/sh
# Proves a crate and what it needs, and writes its archive. The screen has a line at the begin and one at the end, and a log all that
# the prover says.
#   staticlib.sh NAME      pat: the calls for C, from the crate pat_c; else the crate NAME
set -eu
name=$1
crate=$name
[ "$name" != pat ] || crate=pat_c
log=$PWD/target/log/$name.staticlib
mkdir -p target/log target/staticlib
rm -f "crates/$crate/out/lib$crate.a"
began=$(date +%s)
echo "proving $crate and what it needs; all that the prover says is in $log"
if ! (cd "crates/$crate" && rt lib --cpu x86-64 >"$log" 2>&1); then
    tail -n 30 "$log" >&2
    echo "FAILED: rt lib in crates/$crate; the whole of it is in $log" >&2
    exit 1
fi
cp "crates/$crate/out/lib$crate.a" "target/staticlib/lib$name.a"
echo "proved $crate; target/staticlib/lib$name.a is written ($(($(date +%s) - began)) s)"
