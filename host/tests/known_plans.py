#!/usr/bin/env python3
"""Prints known_plans.h: split writes, what a plan and its puts leave, the AES calls of each, and which messages a plan gives, all
computed by model.py and not by the library."""

from copy import deepcopy

from known import KEY, block, digest, long_string
from model import NONCE, Card, packed, place

# A plan that is left unfinished: H is raised, and the card of before is loaded anew.
LEFT = "left"

# Name, depth, the root nonce at which the card is wiped first, if any, and the blocks that are written, each by a plan and its puts.
HISTORIES = [
    ("one", 1, None, [0, 1, 1]),
    ("two", 2, None, [2, 0, 3, 1]),
    ("three", 3, None, [5, 5, 2]),
    *((f"depth {depth}", depth, None, [2**depth * 5 // 7]) for depth in range(4, 17)),
    ("late", 3, 3 * 2**61, [4, 5]),
    ("all ones", 5, 2**64 - 11, [30]),
    ("one, left", 1, None, [LEFT, 1, LEFT, LEFT, 0]),
    ("three, left", 3, None, [5, LEFT, 5, LEFT, LEFT, 1]),
    ("seven, left", 7, None, [LEFT, 90]),
    ("all but spent", 3, 2**64 - 13, [LEFT, 4]),
    ("last", 2, 2**64 - 6, [1]),
]


def start(depth, wiped):
    """A formatted card, or one that is wiped from a root nonce on."""
    card = Card(KEY, depth)
    if wiped is not None:
        card.set_nonces(wiped)
        card.wipe()
    return card


def shuffled(nodes, seed):
    """The order in which the tags come."""
    return sorted(nodes, key=lambda node: digest(bytes([seed % 256]) + node.to_bytes(8, "big")))


def long_hex(data):
    return long_string(data.hex())


def plan_rows(name, depth, wiped, steps):
    """The rows of a history's plans, and those of their puts."""
    card, left = start(depth, wiped), 0
    for count, index in enumerate(steps):
        if index == LEFT:
            left += 1
            card.lose()
            continue
        seed = depth + count
        plain = deepcopy(card) if depth <= 8 else None
        plan = card.plan(index, block(seed))
        ranges = packed(card.ranges(index))
        planned, plan_calls, puts = digest(bytes(card.bytes)), card.cmac.calls, []
        for node in shuffled(plan.nodes, seed):
            tag = plan.tag(node)
            plan.put(node, tag)
            puts.append((node, tag, plan.filled_number(), card.root))
        if plain is not None:
            assert plain.write(index, block(seed)) == card.ranges(index)
            assert (plain.bytes, plain.root) == (card.bytes, card.root), "a split write leaves what a write does"
            assert plain.reserved == card.reserved, "and its H"
        row = f'    {{"{name}", {depth}, {wiped or 0}u, {left}, {index}, {card.root}u,\n'
        row += f"     0x{planned:016x}u, 0x{digest(bytes(card.bytes)):016x}u, {plan_calls}, {card.cmac.calls - plan_calls},\n"
        row += f'     "{block(seed).hex()}",\n     {long_hex(ranges)},\n     {long_hex(b"".join(plan.messages))}}},'
        yield row, puts
        left = 0


def message_rows(depth):
    """For some blocks of a depth, the messages of a plan: node, start and length."""
    for index in sorted({0, 1, 2**depth - 1, 2 ** (depth - 1), 40503 * depth % 2**depth, 0x5555 % 2**depth}):
        path, messages, start = [(2**depth + index) >> above for above in range(depth)], [], 0
        for node in sorted(child for node in path for child in (node, node ^ 1)):
            length = place(depth, node)[1] + NONCE + 1
            messages.append(f"{{{node}, {start}, {length}}}")
            start += length
        yield f"    {{{depth}, {index}, {{{', '.join(messages)}}}}},"


def main():
    rows = [row for history in HISTORIES for row in plan_rows(*history)]
    print("// Written by known_plans.py: some split writes and what their plans and puts leave.")
    print("static const struct known_plan known_plans[] = {")
    for row, _ in rows:
        print(row)
    print("};")
    print("// The puts of these plans, in the order of both.")
    print("static const struct known_put known_puts[] = {")
    for _, puts in rows:
        for node, tag, filled, root in puts:
            print(f'    {{{node}, "{tag.hex()}", {filled:#x}, {root}u}},')
    print("};")
    print("// The messages of plans of some blocks: node, start and length of each.")
    print("static const struct known_messages known_messages[] = {")
    for depth in range(1, 17):
        for row in message_rows(depth):
            print(row)
    print("};")


if __name__ == "__main__":
    main()
