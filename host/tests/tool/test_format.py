"""roundcard format."""

import fcntl
import os
import resource
import stat
import unittest

from support import FILE, KEY, USAGE, Card, ToolCase


class Format(ToolCase):
    def setUp(self):
        super().setUp()
        self.key = self.room / "key"
        self.key.write_bytes(KEY)
        self.key.chmod(0o600)

    def words(self, *more, depth=3):
        return "format", "--depth", str(depth), *more, self.anchor, self.card

    def test_files_are_those_of_the_definition(self):
        for depth in (1, 2, 3, 5):
            with self.subTest(depth=depth):
                self.accepted(*self.words("--force", "--key-file", self.key, depth=depth))
                self.both_equal(Card(KEY, depth))

    def test_deepest_card(self):
        report = self.report(*self.words(depth=16))
        self.assertEqual((report["depth"], report["blocks"], report["card_bytes"]), (16, 65536, 6815696))
        self.assertEqual(self.card.stat().st_size, 6815696)
        self.accepted("check", self.anchor, self.card)

    def test_report(self):
        self.assertIn(b"depth 3, 8 blocks, 784 bytes", self.accepted(*self.words()))

    def test_drawn_keys_differ(self):
        keys = set()
        for _ in range(4):
            self.accepted(*self.words("--force"))
            anchor = self.anchor.read_bytes()
            self.assertEqual(anchor[16:], (3).to_bytes(8, "big") + bytes(16))
            keys.add(anchor[:16])
            self.assertEqual(self.card.read_bytes(), bytes(Card(anchor[:16], 3).bytes))
        self.assertEqual(len(keys), 4)
        self.assertNotIn(bytes(16), keys)

    def test_only_the_owner_can_read_the_anchor(self):
        self.accepted(*self.words(), umask=0)
        self.assertEqual(stat.S_IMODE(self.anchor.stat().st_mode), 0o600)
        self.assertEqual(stat.S_IMODE(self.card.stat().st_mode), 0o666)
        self.anchor.chmod(0o644)
        self.accepted(*self.words("--force"), umask=0)
        self.assertEqual(stat.S_IMODE(self.anchor.stat().st_mode), 0o600)

    def test_nothing_is_overwritten_unasked(self):
        self.anchor.write_bytes(b"mine")
        self.fails(FILE, *self.words(), says=["box.anchor is there already", "--force"])
        self.anchor.rename(self.card)
        self.fails(FILE, *self.words(), says=["box.card is there already", "--force"])
        self.assertEqual(self.card.read_bytes(), b"mine")

    def test_dangling_link_is_not_followed(self):
        self.anchor.symlink_to(self.room / "elsewhere")
        self.fails(FILE, *self.words(), says=["is there already"])

    def test_force_replaces_the_file_behind_a_link(self):
        real = self.room / "real.anchor"
        real.write_bytes(b"old")
        self.anchor.symlink_to(real)
        self.accepted(*self.words("--force"))
        self.assertTrue(self.anchor.is_symlink())
        self.assertEqual(real.stat().st_size, 40)
        self.accepted("check", self.anchor, self.card)

    def test_force_replaces_one_and_makes_the_other(self):
        self.card.write_bytes(b"old")
        self.accepted(*self.words("--force", "--key-file", self.key))
        self.both_equal(Card(KEY, 3))

    def test_what_a_cut_left_beside_is_no_hindrance(self):
        self.made()
        (self.room / "box.anchor.roundcard-new").write_bytes(b"half")
        self.accepted(*self.words("--force", "--key-file", self.key))
        self.both_equal(Card(KEY, 3))
        self.assertEqual({path.name for path in self.room.iterdir()}, {"key", "box.anchor", "box.card"})

    def test_force_keeps_the_owner(self):
        self.made()
        self.give(self.anchor, 1234, 1234)
        self.accepted(*self.words("--force"))
        self.assertEqual((self.anchor.stat().st_uid, self.anchor.stat().st_gid), (1234, 1234))

    def test_force_waits_for_a_write(self):
        self.made()
        self.wait_behind_a_lock(fcntl.LOCK_EX, list(self.words("--force", "--key-file", self.key)), lambda: None)
        self.both_equal(Card(KEY, 3))

    def test_depths_out_of_range(self):
        for depth in ("0", "17", "256", "4294967299", "18446744073709551615"):
            with self.subTest(depth=depth):
                self.refused(1, *self.words(depth=depth), says=[f"depth is {depth}"])

    def test_depths_that_are_no_numbers(self):
        for depth in ("", "-1", "+3", "3x", "x", "0x3", " 3", "3 ", "3.0", "18446744073709551616", "99999999999999999999"):
            with self.subTest(depth=depth):
                self.fails(USAGE, *self.words(depth=depth), says=["not a number"])
        self.fails(USAGE, "format", self.anchor, self.card, says=["--depth is missing"])

    def test_key_files(self):
        for length in (0, 1, 15, 17, 32, 100000):
            with self.subTest(length=length):
                self.key.write_bytes(bytes(length))
                word = "fewer" if length < 16 else "more"
                self.fails(FILE, *self.words("--key-file", self.key), says=[f"has {word} than 16 bytes"])
        self.fails(FILE, *self.words("--key-file", self.room), says=["Is a directory"])
        self.fails(FILE, *self.words("--key-file", "none"), says=["none", "No such file"])

    def test_key_file_that_cannot_be_read(self):
        self.key.chmod(0)
        self.fails(FILE, *self.words("--key-file", self.key), says=["Permission denied"], **self.as_nobody())

    def test_key_file_that_others_can_read(self):
        self.key.chmod(0o640)
        done = self.tool(*self.words("--key-file", self.key))
        self.assertEqual(done.returncode, 0)
        self.assertIn(b"warning", done.stderr)
        self.assertIn(b"can be read by others", done.stderr)

    def test_key_from_a_pipe(self):
        self.accepted(*self.words("--key-file", "/dev/stdin"), input=KEY)
        self.both_equal(Card(KEY, 3))

    def test_key_from_standard_input_by_name(self):
        self.accepted(*self.words("--key-file", "-"), input=KEY)
        self.both_equal(Card(KEY, 3))

    def test_force_sees_swapped_files(self):
        self.made()
        says = ["box.card has the length of a card", "box.anchor that of an anchor", "swapped"]
        self.fails(USAGE, "format", "--depth=3", "--force", self.card, self.anchor, says=says)
        self.anchor.write_bytes(b"something else")
        self.accepted("format", "--depth=3", "--force", self.card, self.anchor)

    def test_file_size_limit(self):
        for size in (0, 31, 100, 783):
            limit = {"preexec_fn": lambda: resource.setrlimit(resource.RLIMIT_FSIZE, (size, size))}
            self.fails(FILE, *self.words(), says=["cannot write the card image", "File too large"], **limit)
            self.made(4)
            self.fails(FILE, *self.words("--force"), says=["cannot write the card image", "File too large"], **limit)
            self.anchor.unlink()
            self.card.unlink()

    def test_report_that_cannot_be_printed(self):
        for form in ([], ["--json"]):
            with open("/dev/full", "wb") as full:
                done = self.tool(*self.words("--force", *form), stdout=full)
            self.assertEqual(done.returncode, FILE)
            self.assertIn(f"{self.anchor} and {self.card} are made; cannot write", done.stderr.decode())
            self.accepted("check", self.anchor, self.card)

    def test_report_of_odd_names(self):
        self.assertIn(b"formatted b\\n\\x1b.c: depth 1", self.accepted("format", "--depth=1", "a", "b\n\033.c"))
        report = self.report("format", "--force", "--depth=1", "a\n", "b\n\033.c")
        self.assertEqual((report["anchor"], report["card"]), ("a\n", "b\n\033.c"))

    def test_one_file_for_both(self):
        for force in ([], ["--force"]):
            self.fails(USAGE, "format", "--depth", "3", *force, self.card, self.card, says=["the same file"])
        self.card.write_bytes(b"mine")
        self.fails(USAGE, "format", "--depth", "3", "--force", self.card, self.room / "." / "box.card", says=["same file"])

    def test_places_that_cannot_be_written(self):
        self.fails(FILE, "format", "--depth", "3", self.anchor, self.room / "none" / "card", says=["No such file"])
        self.fails(FILE, "format", "--depth", "3", self.room / "none" / "anchor", self.card, says=["No such file"])
        for force in ([], ["--force"]):
            self.fails(FILE, "format", "--depth", "3", *force, self.anchor, self.room)
            self.fails(FILE, "format", "--depth", "3", *force, self.room, self.card)
        options = self.as_nobody()
        self.room.chmod(0o555)
        self.fails(FILE, *self.words(), says=["Permission denied"], **options)

    def test_no_room_for_the_card(self):
        if not os.path.exists("/dev/full"):
            self.skipTest("no /dev/full")
        self.fails(FILE, "format", "--depth", "3", "--force", self.anchor, "/dev/full", says=["not a regular file"])


if __name__ == "__main__":
    unittest.main()
