"""Cuts and failures between the steps of a wipe: what each leaves, and that wiping again mends it."""

import errno
import json
import signal
import stat
import unittest

from support import CUT, FILE, KEY, FaultCase, block, wiped

BESIDE = "box.anchor.roundcard-new"


class WipeCuts(FaultCase):
    def setUp(self):
        super().setUp()
        self.model = self.made(3, [(k, f"round {k}") for k in range(8)])
        self.old = bytes(self.model.bytes), self.model.anchor()
        self.model = wiped(KEY, 3, self.model.root + 3)
        self.new = bytes(self.model.bytes), self.model.anchor()
        self.words = "wipe", "--yes", self.anchor, self.card

    def expect_mended(self):
        """Another wipe makes all good, and leaves nothing beside the files."""
        reserved = int.from_bytes(self.anchor.read_bytes()[32:], "big")
        self.accepted(*self.words)
        self.both_equal(wiped(KEY, 3, reserved + 3))
        self.accepted("check", self.anchor, self.card)
        self.assertEqual({path.name for path in self.room.iterdir()} - {"log"}, {"box.anchor", "box.card"})

    def test_steps(self):
        anchor = [f"write {BESIDE} 40", f"fsync {BESIDE}", f"rename {BESIDE} box.anchor", f"fsync {self.room.name}"]
        steps = ["fsync box.card", *anchor, "pwrite box.card 0 784", "fsync box.card"]
        self.assertEqual(self.steps(*self.words), steps)
        self.assertEqual(self.both(), self.new)
        self.start_again()
        self.journal.write_bytes(bytes(248))
        beside = self.room / f"{self.journal.name}.roundcard-new"
        beside.write_bytes(bytes(17))
        self.assertEqual(self.steps(*self.words), [*steps, f"unlink {self.journal.name}", f"unlink {beside.name}", f"fsync {self.room.name}"])

    def test_the_last_round_is_not_left_in_a_journal(self):
        self.start_again()
        for length in (0, 248, 1000):
            if length == 248:
                self.accepted("write", "--text", "the last round", self.anchor, self.card, "5")
            else:
                self.journal.write_bytes(bytes(length))
            self.accepted(*self.words)
            self.assertFalse(self.journal.exists())
        self.journal.write_bytes(bytes(248))
        done = self.run_with(f"unlink:1:{errno.EACCES}", *self.words)
        self.assertEqual(done.returncode, 0)
        self.assertIn(b"warning: cannot remove the journal file", done.stderr)
        self.accepted("check", self.anchor, self.card)

    def test_cut_before_the_anchor_is_in_place(self):
        for fault in ("write:1", "fsync:2", "rename:1"):
            with self.subTest(fault=fault):
                self.assertEqual(self.run_with(f"{fault}:cut", *self.words).returncode, CUT)
                self.assertEqual(self.both(), self.old)
                self.accepted("check", self.anchor, self.card)
                self.assertEqual(self.accepted("read", "--text", self.anchor, self.card, "5"), b"round 5\n")
                self.assertEqual(stat.S_IMODE((self.room / BESIDE).stat().st_mode), 0o600)
                self.expect_mended()
                self.start_again()

    def test_cut_between_anchor_and_card(self):
        for fault in ("fsync:3", "pwrite:1"):
            with self.subTest(fault=fault):
                self.assertEqual(self.run_with(f"{fault}:cut", *self.words).returncode, CUT)
                self.assertEqual(self.both(), (self.old[0], self.new[1]))
                self.refused(8, "check", self.anchor, self.card, node=2, says=["only where a wipe was cut", "wipe it"])
                for index in range(8):
                    node = 2 + index // 4
                    self.refused(8, "read", self.anchor, self.card, str(index), node=node, says=["only where a wipe was cut"])
                    writing = "write", "--text", "x", self.anchor, self.card, str(index)
                    self.refused(8, *writing, node=node, says=["only where a wipe was cut"])
                self.assertEqual(self.report("show", self.anchor)["changes"], 9)
                self.expect_mended()
                self.start_again()

    def test_cut_among_the_bytes_of_the_card(self):
        inner = 24 * 6
        for done in (0, 1, 8, 23, 24, 48, 100, inner, inner + 1, inner + 64, inner + 80, inner + 400, inner + 560, 783, 784):
            with self.subTest(bytes_out=done):
                self.assertEqual(self.run_with(f"pwrite:1:torn{done}", *self.words).returncode, CUT)
                torn = self.new[0][:done] + self.old[0][done:]
                self.assertEqual(self.both(), (torn, self.new[1]))
                self.expect_seen(torn)
                self.expect_mended()
                self.start_again()

    def expect_seen(self, torn):
        """What reads and check say of a card that is in part the old one."""
        self.model.bytes = bytearray(torn)
        report = json.loads(self.tool("check", "--all", "--json", self.anchor, self.card).stdout)
        lost = {k for run in report["runs"] for k in range(run["first"], run["last"] + 1)}
        self.assertEqual(lost, {k for k in range(8) if self.model.first_wrong(self.model.path(k)[1:])})
        self.assertEqual(report.get("node"), self.model.first_wrong(range(2, 16)))
        self.assertEqual(report["accepted"], torn == self.new[0])
        for index in set(range(8)) - lost:
            self.assertEqual(self.accepted("read", self.anchor, self.card, str(index)), bytes(64))

    def test_cut_after_the_card_is_out(self):
        for fault, status in (("fsync:4:cut", CUT), ("fsync:5:cut", 0)):
            self.assertEqual(self.run_with(fault, *self.words).returncode, status)
            self.assertEqual(self.both(), self.new)
            self.expect_mended()
            self.start_again()

    def test_two_cuts(self):
        for first in ("rename:1:cut", "pwrite:1:cut", "pwrite:1:torn300"):
            for second in ("rename:1:cut", "pwrite:1:cut", "pwrite:1:torn500"):
                self.assertEqual(self.run_with(first, *self.words).returncode, CUT)
                self.assertEqual(self.run_with(second, *self.words).returncode, CUT)
                self.expect_mended()
                self.start_again()

    def test_cut_of_a_wipe_behind_a_write_that_was_cut(self):
        """Until the wipe's anchor stands the write is not lost, and its journal plays no part from then on."""
        self.model = self.made(3, [(k, f"round {k}") for k in range(8)])
        self.model.write(5, block("the last"))
        written = self.model.anchor(), bytes(self.model.bytes)
        done = 0
        for k in range(1, 20):
            self.start_again()
            self.run_with("pwrite:3:cut", "write", "--text", "the last", self.anchor, self.card, "5")
            if self.run_with(f"any:{k}:cut", *self.words).returncode == 0:
                break
            before = self.card.read_bytes()
            report = self.report("recover", self.anchor, self.card)
            if self.anchor.read_bytes() == written[0]:
                self.assertIn(report["journal"], ("put in place", "in place"))
                self.assertEqual(self.card.read_bytes(), written[1])
                self.accepted("check", self.anchor, self.card)
            else:
                self.assertIn(report["journal"], ("earlier write", "none"))
                self.assertEqual(self.card.read_bytes(), before)
                done += 1
            self.expect_mended()
        self.assertGreaterEqual(done, 4)
        self.assertEqual(k, 18)

    def test_cut_of_a_write_is_mended_by_a_wipe(self):
        words = "write", "--text", "x", self.anchor, self.card, "5"
        for done in range(6):
            self.assertEqual(self.run_with(f"pwrite:{done + 1}:cut", *words).returncode, CUT)
            self.expect_mended()
            self.start_again()

    def test_failures_before_the_anchor_is_in_place(self):
        for fault in ("fsync:1", "write:1", "fsync:2", "rename:1"):
            for number in (errno.EIO, errno.ENOSPC):
                self.assertIn("nothing is changed", self.failing(fault, number, *self.words))
                self.assertEqual(self.both(), self.old)
                self.assertEqual({path.name for path in self.room.iterdir()} - {"log"}, {"box.anchor", "box.card"})
        self.failing("flock:1", errno.ENOLCK, *self.words)
        self.give(self.anchor, 1234, 1234)
        self.failing("fchown:1", errno.EPERM, *self.words)
        self.assertEqual(self.both(), self.old)

    def test_failures_after_it(self):
        for fault in ("fsync:3", "pwrite:1", "fsync:4"):
            message = self.failing(fault, errno.EIO, *self.words)
            self.assertIn("box.card could not be written whole: wipe it again: Input/output error", message)
            self.assertEqual(self.anchor.read_bytes(), self.new[1])
            self.expect_mended()
            self.start_again()

    def test_failures_with_json(self):
        done = self.run_with(f"pwrite:1:{errno.EIO}", *self.words, "--json")
        report = json.loads(done.stdout)
        self.assertEqual((report["command"], report["status"], report["accepted"]), ("wipe", FILE, False))
        self.assertIn("wipe it again", report["message"])

    def test_signals_at_every_step_wait_for_the_card(self):
        for number in (signal.SIGINT, signal.SIGTERM, signal.SIGHUP, signal.SIGUSR1, signal.SIGALRM, signal.SIGXCPU):
            for fault in (f"any:{k}" for k in range(1, 8)):
                self.assertEqual(self.signalled(fault, int(number), *self.words), -number)
                self.assertEqual(self.said, "roundcard wipe: the card is wiped, and a signal came meanwhile\n")
                self.assertEqual(self.both(), self.new)
                self.start_again()

    def test_interrupted_and_short_calls_go_on(self):
        for fault in (f"write:1:{errno.EINTR}", f"pwrite:1:{errno.EINTR}", "pwrite:1:short0", "pwrite:1:short1", "pwrite:1:short500"):
            self.assertEqual(self.run_with(fault, *self.words).returncode, 0)
            self.assertEqual(self.both(), self.new)
            self.start_again()


if __name__ == "__main__":
    unittest.main()
