"""What a refusal for a tag advises is what helps: it is followed, on cards with every set of wrong tags."""

import itertools
import json
import re
import unittest

from support import KEY, Card, ToolCase, block, entry, wiped

BACK = "put back the card as format, write or wipe last left it"
ANEW = "format another card with a new key and write the rounds there"
WIPE = "only where a wipe was cut, or no round on this card is wanted any more, wipe it: that empties all its blocks"
TIME = " (a card of another time than its anchor is refused here)"


class Advice(ToolCase):
    def damaged(self, depth, nodes):
        """A card with these nodes' tags wrong, and no others."""
        card = Card(KEY, depth)
        for node in nodes:
            card.bytes[entry(depth, node).stop - 1] ^= 1
        return card

    def write_refused_at(self, card, index):
        return card.first_wrong(card.before_write(index))

    def expected(self, card, node, written=None):
        """The advice for a node, from the definition of a write."""
        index = node - 2**card.depth
        remark = TIME if node < 4 else ""
        if index < 0:
            return f"{BACK}{remark}; no write mends it: else {ANEW}; {WIPE}"
        hindrance = self.write_refused_at(card, index)
        if hindrance is None and written is not None:
            return f"{BACK}, or write block {index} first and then block {written}"
        if hindrance is None:
            return f"{BACK}, or write block {index} again"
        if hindrance == node ^ 1:
            low, high = sorted((index, index ^ 1))
            return f"{BACK}{remark}; no write mends blocks {low} and {high}, since each needs the other one right: else {ANEW}; {WIPE}"
        return f"{BACK}; no write mends block {index}, since node {hindrance} is wrong too: else {ANEW}; {WIPE}"

    def told(self, *words):
        done = self.tool(words[0], "--json", *words[1:])
        return json.loads(done.stdout)

    def follow(self, card, words):
        """The command's advice is the expected one; where it names a write, that write and then the command are accepted."""
        self.put(card)
        report = self.told(*words)
        if report["accepted"]:
            return
        written = int(words[-1]) if words[0] == "write" else None
        self.assertEqual(report["advice"], self.expected(card, report["node"], written), words)
        named = re.search(r"write block (\d+) ", report["advice"])
        if named is None:
            return
        self.assertTrue(self.told("write", "--text", "mended", *words[-3:-1], named.group(1))["accepted"], words)
        self.assertTrue(self.told(*words)["accepted"], words)

    def follow_to_the_wipe(self, card, report):
        """Where no write mends the card, a wipe does, and it is named behind all that keeps the rounds."""
        self.assertEqual("wipe it" in report["advice"], "no write mends" in report["advice"])
        if "wipe it" not in report["advice"]:
            return
        self.assertTrue(report["advice"].endswith(f"{ANEW}; {WIPE}") and report["advice"].startswith(BACK))
        self.put(card)
        self.accepted("wipe", "--yes", self.anchor, self.card)
        self.accepted("check", self.anchor, self.card)
        self.both_equal(wiped(KEY, card.depth, card.root + card.depth))

    def test_every_set_of_wrong_tags(self):
        for depth in (1, 2):
            nodes = range(2, 2 * 2**depth)
            for count in range(1, len(nodes) + 1):
                for wrong in itertools.combinations(nodes, count):
                    card = self.damaged(depth, wrong)
                    for index in range(2**depth):
                        with self.subTest(depth=depth, wrong=wrong, index=index):
                            self.follow(card, ("write", "--text", "new", self.anchor, self.card, str(index)))
                    self.expect_lost(card)

    def expect_lost(self, card):
        """What the advice rests on: where a block's tag is wrong and its write is refused, no other writes change that."""
        blocks = range(2**card.depth)
        lost = {k for k in blocks if card.first_wrong([2**card.depth + k]) and self.write_refused_at(card, k)}
        for _ in range(2):
            for index in blocks:
                if self.write_refused_at(card, index) is None:
                    card.write(index, block("mended"))
        self.assertEqual(lost, {k for k in blocks if card.first_wrong([2**card.depth + k])})

    def test_reads_and_checks(self):
        for wrong in ((8,), (8, 9), (8, 5), (8, 3), (9, 2), (4,), (2,), (3, 15), (14, 15), (13, 6), (15, 5)):
            card = self.damaged(3, wrong)
            with self.subTest(wrong=wrong):
                for node in wrong:
                    first = node
                    while first < 8:
                        first *= 2
                    self.follow(card, ("read", self.anchor, self.card, str(first - 8)))
                self.put(card)
                report = self.told("check", self.anchor, self.card)
                self.assertEqual(report["advice"], self.expected(card, min(wrong)))
                self.follow_to_the_wipe(card, report)

    def test_both_blocks_of_a_pair(self):
        self.put(self.damaged(3, (12, 13)))
        for index in (4, 5):
            for words in (("read", self.anchor, self.card, str(index)), ("write", "--text", "x", self.anchor, self.card, str(index))):
                node = 8 + index if words[0] == "read" else 8 + (index ^ 1)
                advice = self.refused(8, *words, node=node)["advice"]
                self.assertIn("no write mends blocks 4 and 5", advice)
                self.assertNotRegex(advice, r"write block \d+ (first|again)")

    def test_a_block_beside_the_written_one(self):
        card = self.damaged(3, (12,))
        self.put(card)
        words = "write", "--text", "x", self.anchor, self.card, "5"
        self.refused(8, *words, node=12, says=["or write block 4 first and then block 5"])
        self.accepted("write", "--text", "mended", self.anchor, self.card, "4")
        self.accepted(*words)
        self.accepted("check", self.anchor, self.card)
        card.write(4, block("mended"))
        card.write(5, block("x"))
        self.both_equal(card)


if __name__ == "__main__":
    unittest.main()
