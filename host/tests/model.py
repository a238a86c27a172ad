"""The card of document 01, with the wipe of request T-01, a count of AES calls, the split write of request T-03, and the reserved nonce,
journal and recovery of request T-05, in plain Python, AES-128 and CMAC included, for known answers and for the tool's tests."""

from copy import deepcopy

from cipher import Cmac

KEY, BLOCK, TAG, NONCE = 16, 64, 16, 8


def card_bytes(depth):
    return 104 * 2**depth - 48


def journal_bytes(depth):
    return 56 * depth + 80


def packed(ranges):
    """A list of ranges as a write gives it."""
    return b"".join(number.to_bytes(4, "big") for pair in ranges for number in pair)


def unpacked(data):
    numbers = [int.from_bytes(data[k : k + 4], "big") for k in range(0, len(data), 4)]
    return list(zip(numbers[::2], numbers[1::2]))


def place(depth, node):
    """Where a node's entry starts, and the size of its label."""
    if node < 2**depth:
        return 24 * (node - 2), NONCE
    return 24 * (2**depth - 2) + 80 * (node - 2**depth), BLOCK


def entry(depth, node):
    """The slice of a card that has the node's label and tag."""
    start, size = place(depth, node)
    return slice(start, start + size + TAG)


class Card:
    """A card and its anchor, as honest calls leave them."""

    def __init__(self, key, depth, root=0):
        """A card whose nonces and blocks are all zero, with tags right for the root nonce: a format where that is 0."""
        self.key, self.depth, self.root, self.reserved = key, depth, root, root
        self.bytes = bytearray(card_bytes(depth))
        self.begin()
        self.empty(0)

    def begin(self, nodes=()):
        """The start of an accepted call: the subkeys are made, and the tags of these nodes are right. Cards of many blocks take too long
        to compute every tag."""
        self.cmac = Cmac(self.key, remember=self.depth > 8)
        assert self.first_wrong(nodes) is None, "the call would be refused"

    def empty(self, nonce):
        """Every block zero, every inner node with that nonce, every tag right for the root nonce."""
        for node in range(2, 2**self.depth):
            self.put_label(node, nonce.to_bytes(NONCE, "big"))
        for node in range(2**self.depth, 2 * 2**self.depth):
            self.put_label(node, bytes(BLOCK))
        for node in self.nodes():
            self.put_tag(node, self.cmac.tag(self.message(node)))

    def anchor(self):
        return self.key + b"".join(number.to_bytes(8, "big") for number in (self.depth, self.root, self.reserved))

    def set_nonces(self, root, reserved=None):
        """T and H, which is T where no other is given."""
        self.root, self.reserved = root, root if reserved is None else reserved

    def lose(self):
        """An attempt that is lost: H is raised, and nothing else is left of it."""
        self.reserved += self.depth

    def label(self, node, root=None):
        """A node's nonce or block. The root's nonce is the anchor's, where no other is given."""
        if node == 1:
            return (self.root if root is None else root).to_bytes(8, "big")
        start, size = place(self.depth, node)
        return bytes(self.bytes[start : start + size])

    def message(self, node, root=None):
        return self.label(node) + self.label(node // 2, root) + bytes([node % 2])

    def put_label(self, node, label):
        start, size = place(self.depth, node)
        self.bytes[start : start + size] = label

    def put_tag(self, node, tag):
        start, size = place(self.depth, node)
        self.bytes[start + size : start + size + TAG] = tag

    def nodes(self):
        """All that are on the card."""
        return range(2, 2 * 2**self.depth)

    def path(self, index):
        """u_0 to u_n."""
        leaf = 2**self.depth + index
        return [leaf >> self.depth - y for y in range(self.depth + 1)]

    def before_write(self, index):
        """What a write checks: at each level the path's node and then its sibling, but not the block that it replaces."""
        order = [child for node in self.path(index)[1:] for child in (node, node ^ 1)]
        order.remove(2**self.depth + index)
        return order

    def read(self, index):
        """An accepted read; gives the block."""
        self.begin(self.path(index)[1:])
        return self.block(index)

    def put_labels(self, index, block):
        """The nonces of the path's inner nodes, and the block, as a write gives them."""
        path = self.path(index)
        for y, node in enumerate(path[1:-1], 1):
            self.put_label(node, (self.reserved - y).to_bytes(8, "big"))
        self.put_label(path[-1], block)

    def write(self, index, block):
        """An accepted write; gives the ranges."""
        self.begin(self.before_write(index))
        self.reserved += self.depth
        self.put_labels(index, block)
        self.root = self.reserved
        for node in self.path(index)[1:]:
            for child in (node, node ^ 1):
                self.put_tag(child, self.cmac.tag(self.message(child)))
        return self.ranges(index)

    def plan(self, index, block):
        """An accepted plan: what a write checks and puts, but for the tags and the root nonce."""
        self.begin(self.before_write(index))
        self.reserved += self.depth
        self.put_labels(index, block)
        return Plan(self, index)

    def check(self):
        """An accepted check."""
        self.begin(self.nodes())

    def wipe(self):
        """An accepted wipe."""
        self.begin()
        self.reserved += self.depth
        self.root = self.reserved
        self.empty(self.root)

    def ranges(self, index):
        changed = []
        for node in self.path(index)[1:]:
            start, size = place(self.depth, node)
            changed.append((start, size + TAG))
            start, size = place(self.depth, node ^ 1)
            changed.append((start + size, TAG))
        return sorted(changed)

    def journalled(self, index, block):
        """An accepted journalled write; gives the raised anchor, the journal and the ranges."""
        raised = deepcopy(self)
        raised.lose()
        ranges = self.write(index, block)
        return raised.anchor(), self.journal_of(ranges), ranges

    def journal_of(self, ranges):
        """The journal of a write that left the card as it is."""
        told = self.root.to_bytes(8, "big") + packed(ranges) + b"".join(bytes(self.bytes[s : s + length]) for s, length in ranges)
        return told + Cmac(self.key).tag(told)

    def applies(self, journal):
        """Whether a journal has the anchor's T and a right tag."""
        return journal[:8] == self.root.to_bytes(8, "big") and journal[-TAG:] == Cmac(self.key).tag(journal[:-TAG])

    def recover(self, journal):
        """An accepted recovery; gives whether the journal is applied."""
        assert len(journal) == journal_bytes(self.depth), "the recovery would be refused"
        if not self.applies(journal):
            return False
        ranges, place = unpacked(journal[8 : 8 + 16 * self.depth]), 8 + 16 * self.depth
        assert any(ranges == self.ranges(index) for index in range(2**self.depth)), "the recovery would be refused"
        for start, length in ranges:
            self.bytes[start : start + length] = journal[place : place + length]
            place += length
        return True

    def block(self, index):
        return self.label(2**self.depth + index)

    def first_wrong(self, nodes):
        """The first of the nodes whose tag is wrong, or None."""
        for node in nodes:
            if self.bytes[entry(self.depth, node)][-TAG:] != self.cmac.tag(self.message(node)):
                return node
        return None


class Plan:
    """A split write behind its plan: the nodes that it gives tags to, rising, and their messages under the root nonce to come."""

    def __init__(self, card, index):
        self.card, self.index, self.root, self.filled = card, index, card.reserved, set()
        self.nodes = sorted(child for node in card.path(index)[1:] for child in (node, node ^ 1))
        self.messages = [card.message(node, self.root) for node in self.nodes]

    def tag(self, node):
        """What an engine makes for a node."""
        return self.card.cmac.tag(self.messages[self.nodes.index(node)])

    def put(self, node, tag):
        """An accepted put. The last one moves the card's root nonce."""
        assert node in self.nodes and node not in self.filled, "the put would be refused"
        self.card.put_tag(node, tag)
        self.filled.add(node)
        if len(self.filled) == len(self.nodes):
            self.card.root = self.root

    def filled_number(self):
        """A bit for each node, the lowest node's of value 1."""
        return sum(2**k for k, node in enumerate(self.nodes) if node in self.filled)


def aes_calls(depth):
    """How many AES calls each accepted call makes at a depth, counted twice, on cards that differ: both times as many."""
    card, counted = Card(bytes(KEY), depth), {"read": set(), "write": set(), "check": set(), "wipe": set()}

    def count(name, *arguments):
        getattr(card, name)(*arguments)
        counted[name].add(card.cmac.calls)

    for index in (0, 2**depth - 1):
        count("write", index, bytes(range(index % 192, index % 192 + BLOCK)))
        count("read", index)
        count("check")
        count("wipe")
    return {name: calls for name, (calls,) in counted.items()}
