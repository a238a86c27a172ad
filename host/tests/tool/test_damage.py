"""Files that are missing, damaged, of another time or no files at all: every command refuses, and changes nothing."""

import os
import unittest

from support import FILE, KEY, Card, ToolCase, block, entry, wiped


class Damage(ToolCase):
    def setUp(self):
        super().setUp()
        self.model = self.made(3, [(5, "the old round"), (1, "another")])
        self.old = bytes(self.model.bytes), self.model.anchor()
        self.model.write(5, block("the new round"))
        self.put(self.model)

    def commands(self, block_number="5"):
        """The commands that look at tags, each with good words."""
        yield "read", self.anchor, self.card, block_number
        yield "write", "--text", "x", self.anchor, self.card, block_number
        yield "check", self.anchor, self.card

    def every(self):
        """All that need anchor and card."""
        yield from self.commands()
        yield "recover", self.anchor, self.card
        yield "wipe", "--yes", self.anchor, self.card
        yield "show", self.anchor, self.card

    def alter(self, path, change):
        data = bytearray(path.read_bytes())
        change(data)
        path.write_bytes(data)

    def test_missing(self):
        for path, name in ((self.anchor, "the anchor file"), (self.card, "the card image")):
            aside = path.rename(self.room / "aside")
            for words in self.every():
                self.fails(FILE, *words, says=[f"cannot open {name} {path}", "No such file or directory"])
            aside.rename(path)

    def test_directory(self):
        for path in (self.anchor, self.card):
            aside = path.rename(self.room / "aside")
            path.mkdir()
            for words in self.every():
                self.fails(FILE, *words, says=[str(path), "Is a directory"])
            path.rmdir()
            aside.rename(path)

    def test_pipe_and_device(self):
        for path in (self.anchor, self.card):
            aside = path.rename(self.room / "aside")
            os.mkfifo(path)
            for words in self.every():
                self.fails(FILE, *words, says=[str(path), "not a regular file"])
            path.unlink()
            path.symlink_to("/dev/zero")
            for words in self.every():
                self.fails(FILE, *words, says=[str(path), "not a regular file"])
            path.unlink()
            aside.rename(path)

    def test_unreadable(self):
        options = self.as_nobody()
        for path in (self.anchor, self.card):
            mode = path.stat().st_mode
            path.chmod(0)
            for words in self.every():
                self.fails(FILE, *words, says=[str(path), "Permission denied"], **options)
            path.chmod(mode)

    def test_folder_in_the_way(self):
        for words in (["read", "none/a", self.card, "5"], ["read", self.anchor, "box.anchor/c", "5"]):
            self.fails(FILE, *words)

    def test_anchor_of_another_length(self):
        right = self.anchor.read_bytes()
        for data in (b"", right[:1], right[:31], right[:39], right + b"\0", right + right, bytes(100000)):
            self.anchor.write_bytes(data)
            says = ["the anchor file has more than 40" if len(data) > 40 else f"the anchor file has {len(data)} bytes, and not 40"]
            for words in self.every():
                self.refused(5, *words, says=says)

    def test_anchor_of_before_there_was_a_reserved_nonce(self):
        self.anchor.write_bytes(self.anchor.read_bytes()[:32])
        for words in self.every():
            says = ["has 32 bytes, and not 40: roundcard made it before version 0.6.0", "no reserved nonce H"]
            advice = self.refused(5, *words, says=says)["advice"]
            self.assertEqual(advice, "read its rounds with the roundcard that made it, format another card with a new key, and write them there")

    def test_card_of_another_length(self):
        right = self.card.read_bytes()
        for data in (b"", right[:1], right[:783], right + b"\0", right + right, right[:368]):
            self.card.write_bytes(data)
            for words in self.every():
                self.refused(3, *words, says=[f"has {len(data)} bytes, and a card of depth 3 has 784"])

    def test_endless_card(self):
        for size in (6815697, 2**33):
            os.truncate(self.card, size)
            for words in (("read", self.anchor, self.card, "5"), ("check", self.anchor, self.card)):
                done = self.tool(*words)
                self.assertEqual(done.returncode, 3)
                self.assertIn(b"longer than any card", done.stderr)
            os.truncate(self.card, 0)

    def test_depth_in_the_anchor(self):
        for depth, number in ((0, 1), (17, 1), (2**32 + 3, 1), (2**63, 1), (1, 3), (9, 3)):
            self.alter(self.anchor, lambda data: data.__setitem__(slice(16, 24), depth.to_bytes(8, "big")))
            for words in self.every():
                self.refused(number, *words)
        self.alter(self.anchor, lambda data: data.__setitem__(slice(16, 24), (2).to_bytes(8, "big")))
        for words in self.every():
            self.refused(2, *words, says=["T is 9, no multiple of the depth 2"])

    def set_nonces(self, root, reserved):
        self.alter(self.anchor, lambda data: data.__setitem__(slice(24, 40), root.to_bytes(8, "big") + reserved.to_bytes(8, "big")))

    def test_nonces_in_the_anchor(self):
        for root, reserved, says in ((8, 9, "T is 8"), (10, 12, "T is 10"), (2**64 - 2, 0, f"T is {2**64 - 2}"), (9, 10, "H is 10, no multiple"),
                                     (9, 8, "H is 8, no multiple"), (9, 6, "H is 6, below the root nonce T, which is 9"), (9, 0, "H is 0, below")):
            self.set_nonces(root, reserved)
            for words in self.every():
                self.refused(2, *words, says=[says])
        for root in (0, 6, 12, 3 * 2**60):
            self.set_nonces(root, root)
            for words in self.commands():
                self.refused(8, *words, node=2 if words[0] == "check" else 3)
            self.accepted("show", self.anchor, self.card)
        for reserved in (9, 12, 3 * 2**60):
            self.set_nonces(9, reserved)
            self.accepted("check", self.anchor, self.card)

    def test_wipe_mends_what_the_others_refuse(self):
        cards = [bytes(784), b"\xff" * 784, os.urandom(784), self.old[0], bytes(Card(bytes(16), 3).bytes)]
        for data in cards:
            self.card.write_bytes(data)
            for words in self.commands():
                self.assertEqual(self.tool(*words).returncode, 8)
            self.accepted("wipe", "--yes", self.anchor, self.card)
            self.model = wiped(KEY, 3, self.model.root + 3)
            self.both_equal(self.model)
            self.accepted("check", "--all", self.anchor, self.card)

    def test_anchor_of_another_key(self):
        for byte in range(16):
            self.anchor.write_bytes(self.model.anchor())
            self.alter(self.anchor, lambda data: data.__setitem__(byte, data[byte] ^ 0x80))
            for words in self.commands():
                self.refused(8, *words, node=2 if words[0] == "check" else 3)

    def test_old_card(self):
        self.card.write_bytes(self.old[0])
        for words in self.commands():
            self.refused(8, *words, node=2 if words[0] == "check" else 3, says=["a card of another time"])

    def test_old_anchor(self):
        self.anchor.write_bytes(self.old[1])
        for words in self.commands():
            self.refused(8, *words, node=2 if words[0] == "check" else 3, says=["a card of another time"])

    def test_card_of_another_anchor(self):
        other = Card(bytes(16), 3)
        self.card.write_bytes(other.bytes)
        for words in self.commands():
            self.refused(8, *words, node=2 if words[0] == "check" else 3)

    def test_old_nodes_among_new_ones(self):
        data = bytearray(self.model.bytes)
        for node in (13, 6, 3):
            data[entry(3, node)] = self.old[0][entry(3, node)]
            self.card.write_bytes(data)
            self.refused(8, "read", self.anchor, self.card, "5", node=node)
            self.refused(8, "check", self.anchor, self.card, node=node)
            self.assertEqual(self.accepted("read", "--text", self.anchor, self.card, "1"), b"another\n")

    def test_a_byte_of_each_node(self):
        for node in range(2, 16):
            places = range(784)[entry(3, node)]
            for place in (places[0], places[-17], places[-1]):
                self.card.write_bytes(self.model.bytes)
                self.alter(self.card, lambda data: data.__setitem__(place, data[place] ^ 1))
                self.refused(8, "check", self.anchor, self.card, node=node)
                for index in range(8):
                    words = "read", self.anchor, self.card, str(index)
                    if node in self.model.path(index):
                        self.refused(8, *words, node=node)
                    else:
                        self.assertEqual(self.accepted(*words), self.model.block(index))

    def test_blocks_named(self):
        names = {2: "over blocks 0 to 3", 3: "over blocks 4 to 7", 5: "over blocks 2 to 3", 8: "block 0", 15: "block 7"}
        for node, name in names.items():
            self.card.write_bytes(self.model.bytes)
            self.alter(self.card, lambda data: data.__setitem__(entry(3, node).stop - 1, 0xAA ^ data[entry(3, node).stop - 1]))
            self.refused(8, "check", self.anchor, self.card, node=node, says=[f"the tag of node {node}, {name}, is wrong"])

    def test_output_file_of_a_refused_read(self):
        output = self.room / "out"
        output.write_bytes(b"kept")
        self.card.write_bytes(self.old[0])
        self.refused(8, "read", "--output", output, self.anchor, self.card, "5", node=3)


if __name__ == "__main__":
    unittest.main()
