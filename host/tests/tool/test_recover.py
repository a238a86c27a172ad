"""roundcard recover, and what the other commands do with a journal: of the last write, of others, of other lengths, and of no write."""

import fcntl
import os
import shutil
import stat
import unittest

from support import FILE, KEY, USAGE, Card, Cmac, ToolCase, block, packed


class Recover(ToolCase):
    def setUp(self):
        super().setUp()
        self.model = self.made(3, [(5, "the old round"), (2, "another")])
        self.old = bytes(self.model.bytes)
        self.raised, self.last, self.ranges = self.model.journalled(5, block("the new round"))
        self.new = bytes(self.model.bytes)
        self.words = "recover", self.anchor, self.card

    def place(self, card=None, anchor=None, journal=None):
        """Puts these bytes into the files, the ones behind a whole write where none are given."""
        self.card.write_bytes(self.new if card is None else card)
        self.anchor.write_bytes(self.model.anchor() if anchor is None else anchor)
        self.journal.write_bytes(self.last if journal is None else journal)

    def nothing(self, word, says, **files):
        """A recovery that has nothing to do, and says why."""
        self.place(**files)
        before = self.files()
        self.assertEqual(self.accepted(*self.words).decode(), f"nothing to do: {says}\n")
        report = self.report(*self.words)
        self.assertEqual((report["recovered"], report["journal"], report["ranges"]), (False, word, []))
        self.assertEqual(self.files(), before)
        return report

    def put_back(self):
        name = self.journal.resolve()
        return f"if its last write was cut, put {name} of that write back before anything is written"

    def test_a_write_that_was_cut(self):
        self.place(card=self.old)
        says = "recovered: the bytes of the last write are put in their places; 6 ranges of the card changed\n"
        self.assertEqual(self.accepted(*self.words).decode(), says)
        self.assertEqual(self.card.read_bytes(), self.new)
        self.place(card=self.old)
        report = self.report(*self.words)
        self.assertEqual((report["recovered"], report["journal"]), (True, "put in place"))
        self.assertEqual(report["ranges"], [list(pair) for pair in self.ranges])
        self.assertEqual((report["root_nonce"], report["reserved_nonce"]), (9, 9))
        self.assertEqual((self.anchor.read_bytes(), self.journal.read_bytes()), (self.model.anchor(), self.last))

    def test_nothing_to_do(self):
        lost = "the last write was cut before its new T stood, and the card was not touched: write the block again"
        self.nothing("in place", "all bytes of the last write are in their places")
        report = self.nothing("lost write", lost, card=self.old, anchor=self.raised)
        self.assertEqual((report["root_nonce"], report["reserved_nonce"]), (6, 9))
        later = "; an attempt after the last change was lost: write its block again"
        raised = self.model.anchor()[:32] + (12).to_bytes(8, "big")
        self.nothing("in place", "all bytes of the last write are in their places" + later, anchor=raised)
        later = "; 2 attempts after the last change were lost: write their blocks again"
        raised = self.model.anchor()[:32] + (15).to_bytes(8, "big")
        self.nothing("in place", "all bytes of the last write are in their places" + later, anchor=raised)
        raised = self.raised[:32] + (12).to_bytes(8, "big")
        self.nothing("lost write", lost + later, card=self.old, anchor=raised)
        older = self.raised[:32] + (6).to_bytes(8, "big")
        self.nothing("later write", "the anchor is older than the journal: use the last one", card=self.old, anchor=older)
        self.model.write(1, block("later"))
        self.nothing("earlier write", "the journal is of an earlier write than the anchor's last change", card=bytes(self.model.bytes))
        self.put(self.model)
        says = f"nothing to do: there is no journal beside the card; {self.put_back()}\n"
        self.assertEqual(self.accepted(*self.words).decode(), says)
        self.assertEqual(self.report(*self.words)["journal"], "none")
        self.assertFalse(self.journal.exists())

    def test_a_journal_with_a_wrong_tag(self):
        says = "the journal has a wrong tag: it is damaged, or another card's. Where 'roundcard check' finds the card whole, it is not needed"
        for place in (*range(8), *range(8, 248, 16)):
            spoiled = bytearray(self.last)
            spoiled[place] ^= 0x80
            self.nothing("wrong tag", says, journal=bytes(spoiled), card=self.old)
        for root in (0, 3, 6, 12, 15, 2**64 - 1):
            self.nothing("wrong tag", says, journal=root.to_bytes(8, "big") + self.last[8:], card=self.old)
        other = Card(bytes(16), 3)
        for index in (5, 2, 5, 1):
            journal = other.journalled(index, block("another card's"))[1]
            self.nothing("wrong tag", says, journal=journal, card=self.old)

    def test_zeros_are_no_journal(self):
        self.nothing("none", f"the journal beside the card is all zeros; {self.put_back()}", journal=bytes(248))
        self.model = Card(KEY, 3)
        says = "there is no journal, and none is needed: T is 0"
        self.nothing("none", says, card=bytes(self.model.bytes), journal=bytes(248))
        self.both_equal(self.model)

    def test_damage_that_a_recovery_mends(self):
        for place in (24, 100, 130, 540, 550, 623):
            card = bytearray(self.new)
            card[place] ^= 4
            self.place(card=bytes(card))
            last = self.anchor, self.card
            for words in (("check", *last), ("check", "--all", *last), ("read", *last, "5")):
                done = self.tool(*words)
                if words[0] == "read" and done.returncode == 0:
                    continue
                self.assertIn(b"or is altered since: 'roundcard recover' puts its bytes in their places, and mends it\n", done.stderr)
            self.assertTrue(self.report(*self.words)["recovered"])
            self.accepted("check", self.anchor, self.card)

    def test_damage_besides(self):
        card = bytearray(self.old)
        card[144 + 80 * 4] ^= 1
        self.place(card=bytes(card))
        advice = self.refused(8, "check", self.anchor, self.card, node=2)["advice"]
        self.assertIn("'roundcard recover' puts its bytes in their places, and may mend a part of it; then see what is still refused", advice)
        self.assertIn("and mends it", self.refused(8, "read", self.anchor, self.card, "5", node=3)["advice"])
        advice = self.refused(8, "read", self.anchor, self.card, "4", node=3)["advice"]
        self.assertIn("puts its bytes in their places, and may mend a part of it", advice)
        self.accepted(*self.words)
        self.assertNotIn("recover", self.refused(8, "check", self.anchor, self.card, node=12)["advice"])

    def without_journal(self, journal):
        """A card of which two ranges are out, with this beside it."""
        torn = bytearray(self.old)
        for start, length in self.ranges[:2]:
            torn[start : start + length] = self.new[start : start + length]
        self.place(card=bytes(torn), journal=journal)
        if journal is None:
            self.journal.unlink()

    def test_a_cut_card_without_its_journal(self):
        before = Card(KEY, 3)
        before.write(5, block("the old round"))
        earlier = before.journalled(2, block("another"))[1]
        last = self.anchor, self.card
        for journal in (None, bytes(248), earlier):
            self.without_journal(journal)
            helps = "put back the card as format, write or wipe last left it, or put the journal of its last write beside it and recover it"
            for words, node in ((("check", *last), 6), (("read", *last, "5"), 6), (("write", "--text", "x", *last, "6"), 7)):
                self.assertTrue(self.refused(8, *words, node=node)["advice"].startswith(helps), words)
            done = self.tool("write", "--text", "x", *last, "1")
            says = b"roundcard write: warning: the card is damaged, and the journal of its last write is not beside it: if that write was cut, "
            self.assertEqual(done.returncode, 0)
            self.assertTrue(done.stderr.startswith(says))
            self.assertEqual(self.tool("write", "--text", "y", *last, "1").stderr, b"")
        self.without_journal(self.last)
        self.assertTrue(self.report(*self.words)["recovered"])
        self.journal.unlink()
        self.accepted("write", "--text", "x", *last, "1")

    def test_nothing_takes_the_journal_s_place(self):
        self.place()
        last, name = (self.anchor, self.card), self.journal.name
        for there in (True, False):
            for output in (name, f"./{name}", self.journal):
                self.fails(USAGE, "read", "--output", output, *last, "1", says=["is the card's journal"])
                self.fails(USAGE, "check", "--picture", output, *last, says=["is the card's journal"])
                self.fails(USAGE, "format", "--force", "--depth", "3", output, self.card, says=["would be the card's journal"])
                self.fails(USAGE, "format", "--depth", "3", "new.roundcard-journal", "new", says=["would be the card's journal"])
            if there:
                (self.room / "link").symlink_to(self.journal)
                self.fails(USAGE, "read", "--output", "link", *last, "1", says=["is the card's journal"])
                (self.room / "link").unlink()
                self.journal.unlink()
        (self.room / "other").mkdir()
        self.accepted("read", "--output", f"other/{name}", *last, "5")

    def test_reads_do_not_change_the_card(self):
        self.place(card=self.old)
        before = self.files()
        for words in (("read", self.anchor, self.card, "5"), ("check", self.anchor, self.card), ("show", self.anchor, self.card)):
            self.tool(*words)
        self.assertEqual(self.files(), before)

    def test_lengths(self):
        for length in (0, 1, 136, 192, 247, 249, 304, 976, 977, 100000):
            self.place(card=self.old, journal=bytes(length))
            says = "is longer than any journal" if length > 976 else f"has {length} bytes, and a journal of depth 3 has 248"
            for words in (self.words, ("write", "--text", "x", self.anchor, self.card, "1")):
                advice = self.refused(10, *words, says=[f"the journal file {says}"])["advice"]
                self.assertTrue(advice.startswith("put back the journal as the last write left it; where 'roundcard check' finds the card whole"))
            self.assertNotIn("'roundcard recover'", self.refused(8, "check", self.anchor, self.card, node=2)["advice"])
        self.assertTrue(advice.endswith("; if it is lost, remove it, and see with 'check --all' what is still read"))
        self.place(journal=bytes(17))
        self.accepted("check", self.anchor, self.card)
        self.journal.unlink()
        self.accepted("write", "--text", "x", self.anchor, self.card, "1")

    def test_ranges_of_no_write(self):
        ranges = [*self.ranges[:-1], (self.ranges[-1][0] - 80, 80)]
        told = (9).to_bytes(8, "big") + packed(ranges) + bytes(176)
        self.place(card=self.old, journal=told + Cmac(KEY).tag(told))
        for words in (self.words, ("write", "--text", "x", self.anchor, self.card, "1")):
            self.refused(10, *words, says=["a right tag and ranges that no write has: whoever made it has the key"])

    def test_a_wipe_minds_no_journal(self):
        for journal in (bytes(5), self.last, bytes(248)):
            self.place(card=self.old, journal=journal)
            self.model.wipe()
            self.accepted("wipe", "--yes", self.anchor, self.card)
            self.both_equal(self.model)
            self.assertFalse(self.journal.exists())

    def test_refusals_in_their_order(self):
        self.place(card=self.old[:-1], journal=bytes(1), anchor=KEY + (17).to_bytes(8, "big") + bytes(16))
        self.refused(1, *self.words)
        self.place(card=self.old[:-1], journal=bytes(1), anchor=KEY + (3).to_bytes(8, "big") + bytes(7) + b"\4" + bytes(8))
        self.refused(2, *self.words)
        self.place(card=self.old[:-1], journal=bytes(1))
        self.refused(3, *self.words)
        last = self.anchor, self.card
        for words in (self.words, ("write", "--text", "x", *last, "9"), ("write", "--input", "/dev/null", *last, "1")):
            self.place(journal=bytes(1))
            self.refused(10, *words)
            self.place()
            if words[0] == "write":
                self.refused(4 if words[-1] == "9" else 5, *words)

    def test_a_refused_write_leaves_the_recovery_to_be_made(self):
        self.place(card=self.old)
        self.refused(4, "write", "--text", "x", self.anchor, self.card, "8")
        self.assertEqual(self.card.read_bytes(), self.old)
        self.assertTrue(self.report("write", "--text", "x", self.anchor, self.card, "1")["recovered"])
        self.model.write(1, block("x"))
        self.both_equal(self.model)
        self.assertFalse(self.report("write", "--text", "y", self.anchor, self.card, "1")["recovered"])

    def test_journals_that_cannot_be_read(self):
        self.journal.mkdir()
        words = [self.words, ("write", "--text", "x", self.anchor, self.card, "1"), ("wipe", "--yes", self.anchor, self.card)]
        for command in words:
            self.fails(FILE, *command, says=["cannot open the journal file", "Is a directory"])
        self.accepted("read", self.anchor, self.card, "5")
        self.journal.rmdir()
        self.place(card=self.old)
        self.journal.chmod(0)
        options = self.as_nobody()
        for command in words:
            self.fails(FILE, *command, says=["cannot open the journal file", "Permission denied"], **options)

    def test_format_and_an_old_journal(self):
        self.place()
        self.accepted("format", "--force", "--depth", "2", self.anchor, self.card)
        self.assertFalse(self.journal.exists())
        self.accepted("write", "--text", "x", self.anchor, self.card, "1")
        self.anchor.unlink()
        self.card.unlink()
        says = ["box.card.roundcard-journal is there already, of a card that was here; --force removes it"]
        self.fails(FILE, "format", "--depth", "2", self.anchor, self.card, says=says)
        self.accepted("format", "--force", "--depth", "2", self.anchor, self.card)
        self.assertFalse(self.journal.exists())

    def test_the_journal_goes_with_the_card(self):
        self.place(card=self.old)
        folder = self.room / "elsewhere"
        folder.mkdir()
        for path in (self.card, self.journal):
            shutil.move(path, folder / path.name)
        self.card.symlink_to(folder / "box.card")
        self.assertTrue(self.report(*self.words)["recovered"])
        self.assertEqual((folder / "box.card").read_bytes(), self.new)
        self.accepted("write", "--text", "x", self.anchor, self.card, "1")
        self.assertEqual({path.name for path in folder.iterdir()}, {"box.card", "box.card.roundcard-journal"})

    def test_it_waits_behind_a_read(self):
        self.place(card=self.old)

        def meanwhile():
            self.assertEqual(self.card.read_bytes(), self.old)

        self.assertIn(b"recovered", self.wait_behind_a_lock(fcntl.LOCK_SH, self.words, meanwhile))
        self.assertEqual(self.card.read_bytes(), self.new)

    def test_the_journal_is_as_open_as_the_card(self):
        for mode in (0o600, 0o640, 0o644, 0o666, 0o755):
            self.card.chmod(mode)
            self.accepted("write", "--text", "x", self.anchor, self.card, "1", umask=0o077)
            self.assertEqual(stat.S_IMODE(self.journal.stat().st_mode), mode & 0o666)
        self.give(self.card, 1234, 1235)
        self.accepted("write", "--text", "x", self.anchor, self.card, "1")
        self.assertEqual((self.journal.stat().st_uid, self.journal.stat().st_gid), (1234, 1235))

    def test_names_that_are_too_long_for_a_journal(self):
        for length in (220, 230, 250):
            card = self.room / ("c" * length)
            card.write_bytes(self.old)
            anchor = Card(KEY, 3)
            anchor.write(5, block("the old round"))
            anchor.write(2, block("another"))
            self.anchor.write_bytes(anchor.anchor())
            words = "write", "--text", "x", self.anchor, card, "1"
            if length == 220:
                self.accepted(*words)
            else:
                self.fails(FILE, *words, says=["journal file", "File name too long"])
            self.accepted("check", self.anchor, card)

    def test_folders_that_cannot_be_written(self):
        chip = self.room / "chip"
        chip.mkdir()
        anchor = chip / "anchor"
        self.anchor.rename(anchor)
        options = self.as_nobody()
        self.room.chmod(0o555)
        words = "write", "--text", "x", anchor, self.card, "1"
        self.fails(FILE, *words, says=["cannot make a journal file beside the card image", "nothing is changed", "Permission denied"], **options)
        self.room.chmod(0o755)

    def test_report_that_cannot_be_printed(self):
        self.place(card=self.old)
        with open("/dev/full", "wb") as full:
            done = self.tool(*self.words, stdout=full)
        self.assertEqual(done.returncode, FILE)
        self.assertIn(b"roundcard recover: the card is recovered; cannot write to standard output: No space left", done.stderr)
        self.assertEqual(self.card.read_bytes(), self.new)

    def test_closed_standard_places(self):
        for closed in ([0], [1], [2], [0, 1, 2]):
            self.place(card=self.old)
            done = self.tool(*self.words, preexec_fn=lambda: [os.close(place) for place in closed])
            self.assertEqual(done.returncode, FILE if 1 in closed else 0)
            self.assertEqual(self.card.read_bytes(), self.new)


if __name__ == "__main__":
    unittest.main()
