#!/usr/bin/env python3
"""Prints known.h: histories of accepted calls, what each leaves, and the AES calls of each depth, all computed by model.py and not by
the library."""

from functools import lru_cache

from model import Card, aes_calls, packed

KEY = bytes(range(0x40, 0x50))

# Steps of a history beside the writes, which are block numbers: a wipe of the card as it is, and of one with other bytes; and a lost
# attempt, of which nothing is left but the raised H.
WIPE, WIPE_OTHER, LOST = "wipe", "wipe of other bytes", "lost"


@lru_cache(maxsize=1)
def digest(data):
    """FNV-1a in 64 bits."""
    value = 0xCBF29CE484222325
    for byte in data:
        value = (value ^ byte) * 0x100000001B3 % 2**64
    return value


def block(seed):
    """64 bytes that differ from seed to seed; text for some."""
    if seed % 3 == 0:
        return f"van {seed}: round {7 * seed}".encode().ljust(64, b"\0")
    return bytes((seed * 59 + 17 * k + k * k) % 256 for k in range(64))


def start(depth, root, made):
    """The row and the card of a start: a format's, its root nonce moved, or made for that root nonce."""
    card = Card(KEY, depth, root if made else 0)
    card.set_nonces(root)
    return ("START", int(made), "", card, ""), card


def write_rows(card, index, seed):
    """A write, and reads of another block and of that one."""
    ranges = card.write(index, block(seed))
    yield "WRITE", index, block(seed).hex(), card, packed(ranges).hex()
    other = (index * 5 + 1) % 2**card.depth
    yield "READ", other, card.read(other).hex(), card, ""
    yield "READ", index, card.read(index).hex(), card, ""


def wipe_rows(card, seed):
    """A wipe, where the seed is not 0 of a card with bytes made from it, a read of the last block and a check."""
    card.wipe()
    yield "WIPE", seed, "", card, ""
    last = 2**card.depth - 1
    yield "READ", last, card.read(last).hex(), card, ""
    card.check()
    yield "CHECK", 0, "", card, ""


def rows(depth, steps, root, made):
    """The rows of a history: its start, its steps, two by two the same block, and a check at the end."""
    first, card = start(depth, root, made)
    yield first
    for count, step in enumerate(steps):
        seed = depth + count // 2
        if step == LOST:
            card.lose()
            yield "LOSE", 0, "", card, ""
        elif step in (WIPE, WIPE_OTHER):
            yield from wipe_rows(card, seed if step == WIPE_OTHER else 0)
        else:
            yield from write_rows(card, step, seed)
    card.check()
    yield "CHECK", 0, "", card, ""


def long_string(text):
    """A C string in pieces."""
    pieces = [text[k : k + 88] for k in range(0, len(text), 88)] or [""]
    return "\n     ".join(f'"{piece}"' for piece in pieces)


# Name, depth, steps, root nonce at the start, and whether the card is made for it: a wipe needs no such card.
HISTORIES = [
    ("one", 1, [0, 1, 1, 0], 0, False),
    ("two", 2, [2, 0, 0, 3, 1], 0, False),
    ("three", 3, [5, 5, 0, 7, 2, 6, 1, 4, 3], 0, False),
    ("seven", 7, [0, 127, 64, 63, 90, 90, 1], 0, False),
    ("sixteen", 16, [0, 65535, 40000, 40001], 0, False),
    ("one, wiped", 1, [1, WIPE, 0, 1, WIPE, WIPE, 1, WIPE_OTHER], 0, False),
    ("two, wiped", 2, [WIPE, 2, 0, WIPE_OTHER, 3, 1, 1, WIPE], 0, False),
    ("three, wiped", 3, [5, 0, WIPE, 5, 7, WIPE_OTHER, 2, 6, 2], 0, False),
    ("seven, wiped", 7, [90, 1, WIPE, 90, 127, WIPE_OTHER, 64], 0, False),
    ("sixteen, wiped", 16, [40000, WIPE, 40001], 0, False),
    ("late", 3, [WIPE_OTHER, 4, 5, WIPE, 3], 3 * 2**61, False),
    ("all ones", 5, [WIPE], 2**64 - 6, False),
    ("one, lost", 1, [LOST, 0, 1, LOST, LOST, 1, WIPE, LOST, 0, LOST], 0, False),
    ("three, lost", 3, [5, LOST, 5, 2, LOST, LOST, WIPE, 6, LOST, 7, 7], 0, False),
    ("seven, lost", 7, [LOST, 90, LOST, WIPE_OTHER, LOST, 64], 0, False),
    ("sixteen, lost", 16, [LOST, 40000], 0, False),
    ("all but spent", 3, [WIPE, LOST, 4], 2**64 - 10, False),
    ("last", 2, [1], 2**64 - 4, True),
]


def main():
    print("// Written by known.py: the calls of some histories and what each leaves.")
    print("static const struct row rows[] = {")
    for name, depth, steps, root, made in HISTORIES:
        for call, index, argument, card, ranges in rows(depth, steps, root, made):
            print(f'    {{"{name}", {depth}, {call}, {index}, "{argument}",')
            print(f"     {card.root}u, {card.reserved}u, 0x{digest(bytes(card.bytes)):016x}u, \"{ranges}\"}},")
    print("};")
    print("// The card from which the history 'last' starts: no format makes it.")
    print("static const char last_card[] =")
    print(f"    {long_string(bytes(Card(KEY, 2, 2**64 - 4).bytes).hex())};")
    print("// The AES calls of accepted calls at each depth.")
    print("static const struct aes_calls aes_calls[] = {")
    for depth in range(1, 17):
        counted = aes_calls(depth)
        print(f"    {{{depth}, {counted['read']}, {counted['write']}, {counted['check']}, {counted['wipe']}}},")
    print("};")


if __name__ == "__main__":
    main()
