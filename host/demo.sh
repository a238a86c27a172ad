#!/bin/sh
# Shows the tool at work on a card image: what it says of a card with old nodes among new ones, and of one from before a wipe, and
# what is left when the power fails in the middle of a write.
#   demo.sh ROUNDCARD FAULTS      FAULTS is loaded before the tool to end it at a system call
set -eu
whole() { echo "$(cd "$(dirname "$1")" && pwd)/$(basename "$1")"; }
tool=$(whole "$1")
faults=$(whole "$2")
room=$(mktemp -d)
trap 'rm -rf "$room"' EXIT
cd "$room"

say() { printf '\n# %s\n' "$*"; }

# Shows a command.
show() {
    printf '$ roundcard'
    for word in "$@"; do
        case $word in *' '*) printf " '%s'" "$word" ;; *) printf ' %s' "$word" ;; esac
    done
    printf '\n'
}

# Shows a command and runs it, and ends the demonstration if its status is not the one expected.
run() {
    expected=$1
    shift
    show "$@"
    status=0
    "$tool" "$@" >out 2>&1 || status=$?
    cat out
    if [ "$status" -ne "$expected" ]; then
        echo "NOT AS EXPECTED: status $status, and not $expected" >&2
        exit 1
    fi
}

# Pulls the plug on a command, before the call of that name that has that number.
unplug() {
    fault=$1
    shift
    show "$@"
    status=0
    LD_PRELOAD=$faults FAULT=$fault:cut "$tool" "$@" >out 2>&1 || status=$?
    cat out
    echo '    ... and the power is gone'
    [ "$status" -eq 99 ] || {
        echo "NOT AS EXPECTED: status $status" >&2
        exit 1
    }
}

# Ends the demonstration if the last command did not say this.
said() {
    grep -qF -- "$1" out || {
        echo "NOT AS EXPECTED: nothing is said of '$1'" >&2
        exit 1
    }
}

# Puts the entry of a node back from the old image: dd with its offset and length.
put_back() {
    printf '$ dd if=old.card of=box.card bs=1 skip=%d seek=%d count=%d conv=notrunc\n' "$1" "$1" "$2"
    dd if=old.card of=box.card bs=1 skip="$1" seek="$1" count="$2" conv=notrunc 2>/dev/null
}

say 'A card with 8 blocks, and the anchor that the chip keeps.'
run 0 format --depth 3 box.anchor box.card

say 'Two rounds. Each write changes a few ranges of the card and gives the anchor a new T.'
run 0 write --text 'van 2: round 4, Harbour' box.anchor box.card 1
run 0 write --text 'van 7: round 12, Old Mill' box.anchor box.card 5
run 0 read --text box.anchor box.card 5
said 'van 7: round 12, Old Mill'
run 0 check box.anchor box.card

say 'A driver switches the box off in the middle of a write. It goes out in four steps: the anchor with
# H raised, a journal, the anchor with the new T, the ranges of the card. Here three ranges are out,
# behind the six of the write before, which every write puts out once more.'
unplug pwrite:10 write --text 'van 2: round 4, Quayside' box.anchor box.card 1
run 8 read --text box.anchor box.card 1
said "'roundcard recover' puts its bytes in their places, and mends it"

say 'Nothing is lost: the new T stands, so the journal has the write, and a recovery finishes it.'
run 0 recover box.anchor box.card
said 'the bytes of the last write are put in their places'
run 0 read --text box.anchor box.card 1
said 'van 2: round 4, Quayside'
run 0 check box.anchor box.card

say 'The plug is pulled earlier, before the new T stands: the card is as it was, and H alone is raised.'
unplug rename:3 write --text 'van 9: round 1, Nowhere' box.anchor box.card 1
run 0 read --text box.anchor box.card 1
said 'van 2: round 4, Quayside'
run 0 recover box.anchor box.card
said 'write the block again'
run 0 show box.anchor
said 'reserved H    12: an attempt after the last change was lost'

say 'Somebody copies the card. Later the round in block 5 changes.'
echo '$ cp box.card old.card'
cp box.card old.card
run 0 write --text 'van 3: round 12, Old Mill' box.anchor box.card 5
cp box.card new.card

say 'They put two old nodes back among the new ones: block 5 is node 13, a leaf at byte
# 24 * (8 - 2) + 80 * 5 = 544 with 80 bytes; its parent is node 6, at 24 * (6 - 2) = 96
# with 24 bytes. The two are right for each other, and no longer for the rest of the card.'
put_back 544 80
put_back 96 24
run 8 read --text box.anchor box.card 5
said 'node 6'
run 8 check box.anchor box.card
said 'node 6'

say 'Blocks whose path does not meet those nodes are still read; a check of all shows which.'
run 8 check --all box.anchor box.card
said '....##..'
run 0 read --text box.anchor box.card 1
said 'van 2: round 4, Quayside'

say 'The whole old card does no better: both children of the root change with every write.'
cp old.card box.card
run 8 read --text box.anchor box.card 5
said 'node 3'

say 'With the card as the last write left it, all is well.'
cp new.card box.card
run 0 read --text box.anchor box.card 5
said 'van 3: round 12, Old Mill'
run 0 check box.anchor box.card
run 0 show box.anchor box.card
said 'changes made  5'

say 'The season is over: a wipe empties the card, under the same key. Without --yes it asks first, on a terminal.'
run 0 wipe --yes box.anchor box.card
run 0 read --text box.anchor box.card 5
[ "$(cat out)" = '' ] || { echo 'NOT AS EXPECTED: the block is not empty' >&2; exit 1; }
run 0 check box.anchor box.card

say 'The card from before the wipe is an old card like any other.'
echo '$ cp new.card box.card'
cp new.card box.card
run 8 read --text box.anchor box.card 5
said 'node 3'
run 8 check box.anchor box.card

printf '\nThe demonstration went as expected.\n'
