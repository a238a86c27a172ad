#!/bin/sh
# What the archive offers, what it needs, that it has no variables, and the processor that it is for.
#   symbols.sh ARCHIVE
set -eu
archive=$1
offered='pat_check pat_format pat_plan pat_put_tag pat_read pat_recover pat_wipe pat_write pat_write_in_place pat_write_journalled'
allowed='memcpy memset memmove memcmp'
room=$(mktemp -d)
trap 'rm -rf "$room"' EXIT
failed=0
fail() {
    echo "FAILED: $*" >&2
    failed=1
}

defined=$(nm -P --defined-only --extern-only "$archive" | awk 'NF > 1 {print $1}' | sort | xargs)
[ "$defined" = "$offered" ] || fail "the archive offers $defined"

needed=$(nm -P --undefined-only "$archive" | awk 'NF > 1 {print $1}' | sort -u | xargs)
for name in $needed; do
    case " $allowed $offered " in *" $name "*) ;; *) fail "the archive needs $name" ;; esac
done

# Writable data, common or thread-local: state that would outlive a call.
variables=$(nm -P "$archive" | awk 'NF > 1 && $2 ~ /^[BbDdCcSs]$/ {print $1}' | xargs)
[ -z "$variables" ] || fail "the archive has variables: $variables"

kind=$(objdump -f "$archive" | sed -n 's/.*file format //p' | sort -u | xargs)
[ "$kind" = elf64-x86-64 ] || fail "the archive has objects of $kind"

# plain OBJECT: whether a processor with SSE2 and nothing later, without x87 and MMX, has all of its instructions: an
# assembler for such a processor takes them once more. Jumps and calls, whose targets are gone, and padding are left out.
plain() {
    objdump -d --no-show-raw-insn "$1" | sed -n 's/^ *[0-9a-f]*:\t//p' |
        sed -e '/^\(j[a-z]*\|call\) *[0-9a-f]* </d' -e '/nop/d' -e 's/<.*//' >"$room/plain.s"
    [ -s "$room/plain.s" ] && as -march=generic64+no87+nommx "$room/plain.s" -o "$room/plain.o" 2>"$room/out"
}
plain "$archive" || { head -5 "$room/out" >&2; fail 'the archive has instructions that not every x86-64 has'; }
instructions=$(wc -l <"$room/plain.s")
for later in 'vpxor %xmm0,%xmm0,%xmm0' 'aesenc %xmm0,%xmm0' 'pshufb %xmm0,%xmm0' 'fld1'; do
    echo "$later" | as - -o "$room/later.o"
    ! plain "$room/later.o" || fail "$later is taken for an instruction that every x86-64 has"
done

[ "$failed" -eq 0 ] || exit 1
echo "archive: offers $offered; needs ${needed:-nothing}; has no variables"
echo "archive: for x86-64 with SSE2: $instructions instructions, and none that is later"
