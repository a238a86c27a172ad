"""roundcard wipe: an empty card under the same key, whatever was on it."""

import fcntl
import os
import random
import resource
import stat
import subprocess
import time
import unittest

from support import FILE, KEY, TOOL, USAGE, Card, ToolCase, block, entry, wiped


class Wipe(ToolCase):
    def setUp(self):
        super().setUp()
        self.model = self.made(3, [(5, "van 7"), (2, "van 3"), (5, "van 8")])
        self.words = "wipe", "--yes", self.anchor, self.card

    def wipe(self, *words, **options):
        """An accepted wipe, after which both files are those of the definition and nothing lies beside them."""
        output = self.accepted(*self.words, *words, **options)
        self.expect_wiped()
        return output

    def expect_wiped(self):
        self.model = wiped(KEY, self.model.depth, self.model.root + self.model.depth)
        self.both_equal(self.model)
        self.assertLessEqual({path.name for path in self.room.iterdir()}, {"box.anchor", "box.card", "roundcard"})

    def test_files_are_those_of_the_definition(self):
        for depth, root in ((1, 0), (1, 7), (2, 0), (3, 9), (4, 2**40), (6, 60), (16, 2**64 - 32)):
            with self.subTest(depth=depth, root=root):
                self.model = Card(KEY, depth, root)
                self.put(self.model)
                blocks = 2**depth
                self.assertEqual(self.wipe().decode(), f"wiped {self.card}: all {blocks} blocks are empty, T is {root + depth}\n")
                self.accepted("check", self.anchor, self.card)
                for index in {0, 1, blocks // 2, blocks - 1}:
                    self.assertEqual(self.accepted("read", self.anchor, self.card, str(index)), bytes(64))

    def test_writes_and_wipes_go_on(self):
        for index in (0, 5, 5, 7):
            self.accepted("write", "--text", f"round {index}", self.anchor, self.card, str(index))
            self.model.write(index, block(f"round {index}"))
            self.both_equal(self.model)
            if index == 5:
                self.wipe()
        self.wipe()
        self.wipe()
        self.assertEqual(self.report("show", self.anchor, self.card)["changes"], 3 + 4 + 4)

    def test_report(self):
        report = self.report(*self.words)
        self.expect_wiped()
        expected = {"depth": 3, "blocks": 8, "root_nonce": 12, "reserved_nonce": 12, "changes": 4, "card_bytes": 784}
        self.assertEqual({name: report[name] for name in report if name not in ("command", "status", "accepted")}, expected)
        shown = self.report("show", self.anchor, self.card)
        self.assertEqual({name: shown[name] for name in expected}, expected)
        for word in (KEY.hex(), KEY.decode()):
            self.assertNotIn(word, str(report))

    def test_a_card_of_any_bytes(self):
        drawn = random.Random(1)
        for depth in (1, 2, 3, 5):
            self.model = self.made(depth)
            length = len(self.model.bytes)
            for data in (bytes(length), b"\xff" * length, drawn.randbytes(length), drawn.randbytes(length)):
                self.card.write_bytes(data)
                self.wipe()

    def set_anchor(self, depth=3, root=9):
        self.anchor.write_bytes(KEY + b"".join(number.to_bytes(8, "big") for number in (depth, root, root)))

    def test_refusals(self):
        spent = 2**64 - 1
        self.set_anchor(root=spent)
        self.refused(7, *self.words, says=[f"used up: H is {spent}", "format a card under a new key"])
        self.set_anchor(root=10)
        self.refused(2, *self.words, says=["T is 10, no multiple of the depth 3"])
        for depth in (0, 17, 2**32 + 3, 2**63):
            self.set_anchor(depth=depth)
            self.refused(1, *self.words, says=[f"the depth is {depth}"])
        for data in (b"", KEY, bytes(31), bytes(32), bytes(41)):
            self.anchor.write_bytes(data)
            self.refused(5, *self.words, says=["the anchor file has"])
        self.set_anchor()
        right = self.card.read_bytes()
        for data in (b"", right[:-1], right + b"\0", right[:368], bytes(1)):
            self.card.write_bytes(data)
            advice = self.refused(3, *self.words, says=[f"has {len(data)} bytes, and a card of depth 3 has 784"])["advice"]
            self.assertEqual(advice, "give the whole card image that belongs to this anchor")

    def test_refusals_in_their_order(self):
        self.card.write_bytes(bytes(783))
        self.set_anchor(depth=17, root=2**64 - 1)
        self.anchor.write_bytes(self.anchor.read_bytes() + b"\0")
        self.refused(5, *self.words)
        self.set_anchor(depth=17, root=2**64 - 1)
        self.refused(1, *self.words)
        self.set_anchor(depth=3, root=2**64 - 2)
        self.refused(2, *self.words)
        self.set_anchor(depth=3, root=2**64 - 1)
        self.refused(3, *self.words)
        self.card.write_bytes(self.model.bytes)
        self.refused(7, *self.words)

    def test_last_root_nonce(self):
        self.model = Card(KEY, 2, 2**64 - 4)
        self.put(self.model)
        self.wipe()
        self.refused(7, *self.words, says=["used up: H is 18446744073709551614"])
        self.accepted("check", self.anchor, self.card)

    def test_old_card_put_back(self):
        old = [bytes(self.model.bytes)]
        for _ in range(3):
            self.wipe()
            old.append(bytes(self.model.bytes))
        for data in old[:-1]:
            self.card.write_bytes(data)
            for words in (("check",), ("read", "5"), ("read", "0"), ("write", "5", "--text", "x")):
                node = 3 if "5" in words else 2
                self.refused(8, words[0], self.anchor, self.card, *words[1:], node=node, says=["a card of another time"])

    def test_old_nodes_among_the_wiped(self):
        old = bytes(self.model.bytes)
        self.wipe()
        for nodes in ([13], [13, 6], [13, 12, 6], [13, 6, 3], [6], [3], [3, 2], [8, 4, 2], range(2, 8), range(8, 16)):
            torn = Card(KEY, 3, self.model.root)
            torn.bytes = bytearray(self.model.bytes)
            for node in nodes:
                torn.bytes[entry(3, node)] = old[entry(3, node)]
            self.card.write_bytes(torn.bytes)
            self.expect_refused_or_empty(torn)
            self.refused(8, "check", self.anchor, self.card, node=torn.first_wrong(range(2, 16)))

    def expect_refused_or_empty(self, torn):
        """Each read is refused at the first wrong node of its path, or gives an empty block."""
        for index in range(8):
            node = torn.first_wrong(torn.path(index)[1:])
            if node is None:
                self.assertEqual(self.accepted("read", self.anchor, self.card, str(index)), bytes(64))
            else:
                self.refused(8, "read", self.anchor, self.card, str(index), node=node)

    def test_pieces_of_both_cards(self):
        """What a power cut can leave of a card, and that another wipe mends it."""
        drawn = random.Random(2)
        for piece in (8, 16, 64, 512):
            old = self.made(3, [(k, f"round {k}") for k in range(8)])
            new = wiped(KEY, 3, old.root + 3)
            torn = wiped(KEY, 3, old.root + 3)
            for start in range(0, 784, piece):
                kind = drawn.choice([old.bytes, new.bytes, drawn.randbytes(784)])
                torn.bytes[start : start + piece] = kind[start : start + piece]
            self.card.write_bytes(torn.bytes)
            self.anchor.write_bytes(new.anchor())
            self.expect_refused_or_empty(torn)
            self.model = new
            self.wipe()

    def test_yes_is_needed_where_nobody_can_be_asked(self):
        says = ["it needs --yes", "loses every round", "roundcard wipe --help"]
        self.fails(USAGE, "wipe", self.anchor, self.card, says=says)
        for answer in (b"yes\n", b"y\n", b""):
            self.fails(USAGE, "wipe", self.anchor, self.card, says=says, input=answer)
        self.fails(USAGE, "wipe", self.anchor, self.card, preexec_fn=lambda: os.close(0), says=says)

    def test_without_yes_nothing_is_touched(self):
        with open(self.anchor, "rb") as held:
            fcntl.flock(held, fcntl.LOCK_EX)
            start = time.monotonic()
            self.fails(USAGE, "wipe", self.anchor, self.card)
            self.assertLess(time.monotonic() - start, 1.0)
        self.fails(USAGE, "wipe", "none", "neither", says=["it needs --yes"])
        self.assertNotIn("none", self.said)

    def test_wipe_waits_and_takes_the_new_anchor(self):
        for kind in (fcntl.LOCK_EX, fcntl.LOCK_SH):
            self.wait_behind_a_lock(kind, list(self.words), self.replace_both)
            self.expect_wiped()

    def test_wipes_and_writes_take_turns(self):
        last = self.anchor, self.card
        words = [["write", "--text", "x", *last, "1"], ["wipe", "--yes", *last], ["read", *last, "6"], ["check", *last]]
        running = [subprocess.Popen([TOOL, *words[k % 4]], stdout=subprocess.DEVNULL) for k in range(32)]
        self.assertEqual([process.wait(60) for process in running], [0] * 32)
        self.assertEqual(self.report("show", self.anchor)["changes"], 3 + 16)
        self.accepted("check", *last)

    def test_reads_see_no_half_of_a_wipe(self):
        self.made(12)
        both = [self.words, ("check", self.anchor, self.card)]
        running = [subprocess.Popen([TOOL, *words], stdout=subprocess.DEVNULL) for words in both * 6]
        self.assertEqual([process.wait(60) for process in running], [0] * 12)

    def test_files_that_may_not_be_changed(self):
        options = self.as_nobody()
        self.card.chmod(0o444)
        self.fails(FILE, *self.words, says=["box.card for writing", "Permission denied"], **options)
        self.card.chmod(0o644)
        self.anchor.chmod(0o400)
        self.fails(FILE, *self.words, says=["box.anchor", "Permission denied"], **options)
        self.anchor.chmod(0o600)
        self.room.chmod(0o555)
        self.fails(FILE, *self.words, says=["cannot replace the anchor file", "nothing is changed", "Permission denied"], **options)
        self.room.chmod(0o755)
        self.wipe(**options)

    def test_file_size_limits(self):
        def limit(size):
            return {"preexec_fn": lambda: resource.setrlimit(resource.RLIMIT_FSIZE, (size, size))}

        for size in (0, 31, 40, 400, 783):
            self.fails(FILE, *self.words, says=["nothing is changed", "File too large"], **limit(size))
        self.wipe(**limit(784))

    def test_card_stays_the_file_it_was(self):
        self.card.chmod(0o640)
        before = self.card.stat()
        link = self.room / "linked"
        self.card.rename(link)
        self.card.symlink_to(link)
        self.accepted(*self.words)
        after = link.stat()
        self.assertTrue(self.card.is_symlink())
        self.assertEqual((before.st_ino, before.st_mode, before.st_size), (after.st_ino, after.st_mode, after.st_size))

    def test_anchor_keeps_owner_and_place(self):
        folder = self.room / "chip"
        folder.mkdir()
        real = folder / "anchor"
        self.anchor.rename(real)
        self.anchor.symlink_to(real)
        self.give(real, 1234, 1235)
        self.accepted(*self.words, umask=0)
        status = real.stat()
        self.assertEqual((status.st_uid, status.st_gid, stat.S_IMODE(status.st_mode)), (1234, 1235, 0o600))
        self.assertTrue(self.anchor.is_symlink())
        self.assertEqual([path.name for path in folder.iterdir()], ["anchor"])

    def test_what_a_cut_left_beside_is_no_hindrance(self):
        (self.room / "box.anchor.roundcard-new").write_bytes(b"half")
        self.wipe()

    def test_warning_of_an_open_anchor(self):
        self.anchor.chmod(0o644)
        done = self.tool(*self.words)
        self.assertEqual((done.returncode, done.stderr.count(b"can be read by others")), (0, 1))
        self.expect_wiped()
        self.assertEqual(stat.S_IMODE(self.anchor.stat().st_mode), 0o600)

    def test_report_that_cannot_be_printed(self):
        for form in ([], ["--json"]):
            reading, writing = os.pipe()
            os.close(reading)
            for output, reason in ((os.open("/dev/full", os.O_WRONLY), b"No space left"), (writing, b"Broken pipe")):
                done = self.tool(*self.words, *form, stdout=output)
                os.close(output)
                self.assertEqual(done.returncode, FILE)
                self.assertIn(b"roundcard wipe: the card is wiped; cannot write to standard output: " + reason, done.stderr)
                self.expect_wiped()

    def test_closed_standard_places(self):
        for closed in ([0], [1], [2], [0, 1, 2]):
            done = self.tool(*self.words, preexec_fn=lambda: [os.close(place) for place in closed])
            self.assertEqual(done.returncode, FILE if 1 in closed else 0)
            self.expect_wiped()

    def test_report_of_odd_names(self):
        for name, said in (("b\n\033.c", rb"b\n\x1b.c"), ("--odd", b"--odd")):
            (self.room / name).write_bytes(self.card.read_bytes())
            self.assertIn(b"wiped " + said + b": all 8", self.accepted("wipe", "--yes", "--", self.anchor, name))


if __name__ == "__main__":
    unittest.main()
