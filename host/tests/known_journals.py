#!/usr/bin/env python3
"""Prints known_journals.h: journalled writes with what each leaves, and journals of no write that have a right tag, all computed by
model.py and not by the library."""

from copy import deepcopy

from cipher import Cmac
from known import KEY, block, digest, long_string
from known_plans import start
from model import Card, journal_bytes, packed

# A write that is lost: its raised anchor stood, and nothing else.
LOST = "lost"

# Name, depth, the root nonce at which the card is wiped first, if any, and the blocks that are written, a lost attempt before some.
HISTORIES = [
    ("one", 1, None, [0, 1, LOST, 1]),
    ("two", 2, None, [2, LOST, 0, LOST, LOST, 3, 1]),
    ("three", 3, None, [5, 5, LOST, 2]),
    *((f"depth {depth}", depth, None, [LOST, 2**depth * 5 // 7]) for depth in range(4, 17)),
    ("late", 3, 3 * 2**61, [4, LOST, 5]),
    ("all but spent", 5, 2**64 - 21, [LOST, 30, 2]),
    ("last", 2, 2**64 - 6, [1]),
]


def write_rows(name, depth, wiped, steps):
    """The rows of a history's writes."""
    card, lost = start(depth, wiped), 0
    for count, step in enumerate(steps):
        if step == LOST:
            card.lose()
            lost += 1
            continue
        old = card.root
        raised, journal, ranges = card.journalled(step, block(depth + count))
        assert raised == KEY + b"".join(number.to_bytes(8, "big") for number in (depth, old, card.root))
        assert len(journal) == journal_bytes(depth)
        row = f'    {{"{name}", {depth}, {wiped or 0}u, {lost}, {step}, {old}u, {card.root}u,\n'
        row += f"     0x{digest(bytes(card.bytes)):016x}u,\n"
        row += f'     "{block(depth + count).hex()}",\n     {long_string(packed(ranges).hex())},\n     {long_string(journal.hex())}}},'
        yield row
        lost = 0


def alterations(card, index):
    """Lists of ranges that are no write's, each with what is wrong with it."""
    ranges = card.ranges(index)
    last = len(ranges) - 1

    def put(k, pair):
        return [*ranges[:k], pair, *ranges[k + 1 :]]

    yield "two ranges in each other's place", [ranges[1], ranges[0], *ranges[2:]]
    yield "the first range twice", put(1, ranges[0])
    yield "a start that is moved by one", put(0, (ranges[0][0] + 1, ranges[0][1]))
    yield "a start behind the card", put(last, (len(card.bytes), ranges[last][1]))
    yield "a start of which a sum passes 32 bits", put(last, (2**32 - 1, ranges[last][1]))
    yield "a length of zero", put(0, (ranges[0][0], 0))
    yield "a length that is one too long", put(last, (ranges[last][0], ranges[last][1] + 1))
    yield "a length of all ones", put(last, (ranges[last][0], 2**32 - 1))
    yield "lengths in each other's place", [(start, ranges[k ^ 1][1]) for k, (start, _) in enumerate(ranges)]
    yield "all zeros", [(0, 0)] * len(ranges)
    for other in range(2**card.depth):
        for k in range(0, len(ranges), 2):
            mixed = ranges[:k] + card.ranges(other)[k : k + 2] + ranges[k + 2 :]
            if all(mixed != card.ranges(i) for i in range(2**card.depth)):
                yield f"a level of block {other}", mixed


def strange_rows(depth):
    """Journals that have the anchor's T, a right tag and the ranges of no write, for a card that was written once."""
    card, seen = Card(KEY, depth), set()
    card.write(0, block(depth))
    for index in {0, 2**depth - 1}:
        for why, ranges in alterations(card, index):
            if tuple(ranges) in seen or any(ranges == card.ranges(i) for i in range(2**depth)):
                continue
            seen.add(tuple(ranges))
            told = card.root.to_bytes(8, "big") + packed(ranges) + bytes((7 * k + depth) % 256 for k in range(40 * depth + 56))
            journal = told + Cmac(KEY).tag(told)
            assert len(journal) == journal_bytes(depth) and deepcopy(card).applies(journal)
            yield f'    {{{depth}, "{why}",\n     {long_string(journal.hex())}}},'


def main():
    print("// Written by known_journals.py: some journalled writes and what they leave.")
    print("static const struct known_journal known_journals[] = {")
    for history in HISTORIES:
        for row in write_rows(*history):
            print(row)
    print("};")
    print("// Journals with a right tag and the ranges of no write, for a card of which block 0 was written once.")
    print("static const struct strange_journal strange_journals[] = {")
    for depth in (1, 2, 3, 5):
        for row in strange_rows(depth):
            print(row)
    print("};")


if __name__ == "__main__":
    main()
