"""A power cut leaves junk: each byte that a write or a recovery was putting out is old, new or junk, in turn and in random mixtures. The
recovery leaves the old card where T is the old one and the new card where it is the new one, never a mixture, and nothing is lost."""

import random
import unittest

from support import KEY, Card, ToolCase, block

OLD, NEW, JUNK = range(3)

# A part of the tears: the tests of the calls have all of them.
PART = 7


class Junk(ToolCase):
    def begin(self, depth, index):
        """A write behind another one, with all that it has on its media before it and after it."""
        self.drawn = random.Random(depth)
        self.model = Card(KEY, depth)
        before = self.model.journalled(2**depth - 1, block("before"))[1]
        self.index, self.old, old_anchor = index, bytes(self.model.bytes), self.model.anchor()
        raised, journal, self.ranges = self.model.journalled(index, block("the new round"))
        self.new = bytes(self.model.bytes)
        self.anchors = {"old": old_anchor, "raised": raised, "new": self.model.anchor()}
        self.journals = before, journal
        self.was = Card(KEY, depth).block(index) if index != 2**depth - 1 else block("before")

    def torn(self, old, new, kinds):
        """Bytes that were being written, each of its kind."""
        def junk(k):
            return next(byte for byte in self.drawn.sample(range(256), 3) if byte not in (old[k], new[k]))

        return bytes((old[k], new[k], junk(k) if kind == JUNK else 0)[kind] for k, kind in enumerate(kinds))

    def tears(self, length, every, mixtures):
        """Which byte is of which kind: new up to every so many-th place and old behind it, the byte there of each kind; and mixtures."""
        for place in range(0, length, every * PART):
            for kind in (OLD, NEW, JUNK):
                yield [NEW] * place + [kind] + [OLD] * (length - place - 1)
        for _ in range(mixtures // PART):
            yield [self.drawn.randrange(3) for _ in range(length)]

    def places(self):
        return [k for start, length in self.ranges for k in range(start, start + length)]

    def torn_card(self, card, kinds):
        data, places = bytearray(card), self.places()
        for place, byte in zip(places, self.torn([card[k] for k in places], [self.new[k] for k in places], kinds)):
            data[place] = byte
        return bytes(data)

    def put_media(self, card, anchor, journal):
        self.card.write_bytes(card)
        self.anchor.write_bytes(self.anchors[anchor])
        self.anchor.chmod(0o600)
        self.journal.write_bytes(journal)

    def expect(self, anchor):
        """What a recovery leaves; now and then a read, a check and a write say so too."""
        self.accepted("recover", self.anchor, self.card)
        self.assertEqual(self.card.read_bytes(), self.new if anchor == "new" else self.old)
        self.assertEqual(self.anchor.read_bytes(), self.anchors[anchor])
        if self.drawn.randrange(40) == 0:
            self.accepted("check", self.anchor, self.card)
            read = self.accepted("read", self.anchor, self.card, str(self.index))
            self.assertEqual(read, block("the new round") if anchor == "new" else self.was)
            self.accepted("write", "--text", "next", self.anchor, self.card, "0")
            self.accepted("check", self.anchor, self.card)

    def cut_journal(self, places, mixtures):
        before, journal = self.journals
        for kinds in self.tears(len(journal), places, mixtures):
            self.put_media(self.old, "raised", self.torn(before, journal, kinds))
            self.expect("raised")

    def cut_ranges(self, places, mixtures):
        for kinds in self.tears(len(self.places()), places, mixtures):
            self.put_media(self.torn_card(self.old, kinds), "new", self.journals[1])
            self.expect("new")

    def test_junk_in_the_journal(self):
        for depth, index, every in ((1, 0, 1), (2, 2, 5)):
            self.begin(depth, index)
            self.cut_journal(every, 50)

    def test_junk_in_the_ranges(self):
        for depth, index, every in ((1, 1, 1), (2, 1, 1), (3, 5, 5)):
            self.begin(depth, index)
            self.cut_ranges(every, 50)

    def test_junk_in_a_recovery_that_is_cut(self):
        self.begin(3, 6)
        length = len(self.places())
        for _ in range(80):
            card = self.torn_card(self.old, [self.drawn.randrange(3) for _ in range(length)])
            for _ in range(self.drawn.randrange(1, 3)):
                card = self.torn_card(card, [self.drawn.randrange(3) for _ in range(length)])
            self.put_media(card, "new", self.journals[1])
            self.expect("new")

    def test_cuts_between_the_steps(self):
        for depth in (1, 2, 3):
            for index in range(2**depth):
                self.begin(depth, index)
                steps = [("old", 0, self.old), ("raised", 0, self.old), ("raised", 1, self.old), ("new", 1, self.old), ("new", 1, self.new)]
                for anchor, journal, card in steps:
                    self.put_media(card, anchor, self.journals[journal])
                    self.expect(anchor)

    def test_the_next_write_recovers_by_itself(self):
        self.begin(3, 5)
        length = len(self.places())
        for _ in range(60):
            anchor = self.drawn.choice(["raised", "new"])
            kinds = [self.drawn.randrange(3) for _ in range(length)]
            self.put_media(self.torn_card(self.old, kinds) if anchor == "new" else self.old, anchor, self.journals[1])
            card = Card(KEY, 3)
            card.bytes = bytearray(self.new if anchor == "new" else self.old)
            card.set_nonces(*(int.from_bytes(self.anchors[anchor][k : k + 8], "big") for k in (24, 32)))
            self.assertEqual(self.tool("write", "--text", "next", self.anchor, self.card, "3").returncode, 0)
            card.write(3, block("next"))
            self.both_equal(card)


if __name__ == "__main__":
    unittest.main()
