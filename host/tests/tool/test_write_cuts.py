"""Cuts and failures at every system call of a write: what each leaves, and that a recovery leaves the card of before or the new one."""

import errno
import os
import signal
import stat
import subprocess
import unittest

from support import CUT, FAULTS, FILE, TOOL, FaultCase, block


class WriteCuts(FaultCase):
    def setUp(self):
        super().setUp()
        self.model = self.made(3, [(5, "the old round"), (2, "another")])
        self.old = bytes(self.model.bytes), self.model.anchor()
        self.raised, self.new_journal, self.ranges = self.model.journalled(5, block("the new round"))
        self.new = bytes(self.model.bytes), self.model.anchor()
        self.words = "write", "--text", "the new round", self.anchor, self.card, "5"

    def expected_steps(self):
        """The four steps, each synced before the next, behind a card that is synced."""
        def replaced(name, length):
            new = f"{name}.roundcard-new"
            return [f"write {new} {length}", f"fsync {new}", f"rename {new} {name}", f"fsync {self.room.name}"]

        ranges = [f"pwrite box.card {start} {length}" for start, length in self.ranges]
        anchor, journal = replaced("box.anchor", 40), replaced("box.card.roundcard-journal", 248)
        return ["fsync box.card", *anchor, *journal, *anchor, *ranges, "fsync box.card"]

    def test_steps(self):
        self.assertEqual(self.steps(*self.words), self.expected_steps())
        self.assertEqual(self.both(), self.new)
        self.assertEqual(self.journal.read_bytes(), self.new_journal)
        self.assertEqual(stat.S_IMODE(self.journal.stat().st_mode), stat.S_IMODE(self.card.stat().st_mode))

    def place(self, k):
        """What stands after the first k calls: the anchor, and how many ranges of the card are out."""
        anchors = [self.old[1], self.raised, self.new[1]]
        done = self.expected_steps()[:k]
        return anchors[done.count("rename box.anchor.roundcard-new box.anchor")], sum(step.startswith("pwrite") for step in done)

    def torn(self, count):
        card = bytearray(self.old[0])
        for start, length in self.ranges[:count]:
            card[start : start + length] = self.new[0][start : start + length]
        return bytes(card)

    def expect_cut(self, k):
        """What the cut before call k + 1 left, and what the commands say of it."""
        anchor, ranges = self.place(k)
        self.assertEqual(self.both(), (self.torn(ranges), anchor))
        if anchor != self.new[1]:
            self.assertEqual(self.accepted("read", "--text", self.anchor, self.card, "5"), b"the old round\n")
        elif ranges < len(self.ranges):
            advice = self.refused(8, "check", self.anchor, self.card, node=self.first_wrong(self.torn(ranges)))["advice"]
            self.assertRegex(advice, "'roundcard recover' puts its bytes in their places, and mends it$")
        for path in self.room.iterdir():
            self.assertIn(stat.S_IMODE(path.stat().st_mode), (0o600, 0o644))

    def first_wrong(self, card):
        whole, self.model.bytes = self.model.bytes, bytearray(card)
        node = self.model.first_wrong(range(2, 16))
        self.model.bytes = whole
        return node

    def expect_recovered(self):
        """The card that goes with T, old or new; and nothing is left beside it that a next write minds."""
        anchor = self.anchor.read_bytes()
        is_new = anchor[24:32] == self.new[1][24:32]
        self.assertEqual(self.card.read_bytes(), self.new[0] if is_new else self.old[0])
        self.accepted("check", self.anchor, self.card)
        said = b"the new round\n" if is_new else b"the old round\n"
        self.assertEqual(self.accepted("read", "--text", self.anchor, self.card, "5"), said)
        return is_new

    def test_cut_at_every_call(self):
        news = 0
        for k in range(len(self.expected_steps())):
            with self.subTest(calls_made=k):
                self.start_again()
                self.assertEqual(self.run_with(f"any:{k + 1}:cut", *self.words).returncode, CUT)
                self.expect_cut(k)
                anchor, ranges = self.place(k)
                pending = anchor == self.new[1] and ranges < len(self.ranges)
                self.assertEqual(self.report("recover", self.anchor, self.card)["recovered"], pending)
                news += self.expect_recovered()
                self.assertEqual(self.anchor.read_bytes(), anchor)
        self.assertEqual(news, len(self.expected_steps()) - 12)

    def test_the_next_change_recovers(self):
        for k in range(len(self.expected_steps())):
            for words in (("write", "--text", "x", self.anchor, self.card, "4"), ("wipe", "--yes", self.anchor, self.card)):
                self.start_again()
                self.run_with(f"any:{k + 1}:cut", *self.words)
                anchor, ranges = self.place(k)
                pending = anchor == self.new[1] and ranges < len(self.ranges)
                done = self.tool(*words)
                says = b"roundcard write: the write before this one was not all on the card; now it is\n"
                self.assertEqual((done.returncode, done.stderr), (0, says if pending and words[0] == "write" else b""))
                self.expect_next(anchor, words[0])

    def expect_next(self, anchor, command):
        """The card of the model after the cut write, if its T stood, and the next change."""
        is_new = anchor == self.new[1]
        self.model.bytes = bytearray(self.new[0] if is_new else self.old[0])
        self.model.set_nonces(*(int.from_bytes(anchor[k : k + 8], "big") for k in (24, 32)))
        if command == "wipe":
            self.model.wipe()
        else:
            self.model.write(4, block("x"))
        self.both_equal(self.model)
        self.assertEqual(self.journal.exists(), command == "write")
        self.assertEqual({path.name for path in self.room.iterdir()} - {"log", self.journal.name}, {"box.anchor", "box.card"})

    def test_cut_at_every_call_of_a_recovery(self):
        self.run_with("pwrite:4:cut", *self.words)
        cut = self.both(), self.journal.read_bytes()
        ranges = [f"pwrite box.card {start} {length}" for start, length in self.ranges]
        steps = self.steps("recover", self.anchor, self.card)
        self.assertEqual(steps, ["fsync box.anchor", f"fsync {self.room.name}", *ranges, "fsync box.card"])
        for k in range(len(steps)):
            for again in (("recover", self.anchor, self.card), ("write", "--text", "x", self.anchor, self.card, "4")):
                with self.subTest(calls_made=k, again=again[0]):
                    (card, anchor), journal = cut
                    self.card.write_bytes(card)
                    self.anchor.write_bytes(anchor)
                    self.journal.write_bytes(journal)
                    self.assertEqual(self.run_with(f"any:{k + 1}:cut", "recover", self.anchor, self.card).returncode, CUT)
                    self.assertEqual(self.anchor.read_bytes(), anchor)
                    self.assertEqual(self.tool(*again).returncode, 0)
                    if again[0] == "recover":
                        self.assertTrue(self.expect_recovered())
                    else:
                        self.expect_next(anchor, "write")

    def test_a_recovery_puts_out_what_is_read_in_its_place(self):
        """After a sync that failed, what is read may be on no medium, and a sync alone does not put it there."""
        recover = "recover", self.anchor, self.card
        self.assertEqual(self.steps(*recover), ["fsync box.card"])
        self.failing("fsync:8", errno.EIO, *self.words)
        self.assertEqual(self.both(), self.new)
        ranges = [f"pwrite box.card {start} {length}" for start, length in self.ranges]
        settled = ["fsync box.anchor", f"fsync {self.room.name}", *ranges, "fsync box.card"]
        for _ in range(2):
            self.assertEqual(self.steps(*recover), settled)
            self.assertEqual(self.both(), self.new)
        self.assertEqual(self.report(*recover)["journal"], "in place")
        self.assertEqual(self.steps("write", "--text", "x", self.anchor, self.card, "4")[: len(settled)], settled)

    def test_signals_at_every_call_of_a_recovery(self):
        recover = "recover", self.anchor, self.card
        for k in range(1, 10):
            self.start_again()
            self.run_with("pwrite:4:cut", *self.words)
            self.assertEqual(self.signalled(f"any:{k}", int(signal.SIGTERM), *recover), -signal.SIGTERM)
            self.assertEqual(self.said, "roundcard recover: the card is recovered, and a signal came meanwhile\n")
            self.assertEqual(self.both(), self.new)

    def test_a_journal_that_cannot_have_the_card_s_owner(self):
        """Another group gets no rights from that of the card's."""
        self.give(self.card, 1234, 1235)
        self.card.chmod(0o664)
        self.assertEqual(self.run_with(f"fchown:1:{errno.EPERM}", *self.words).returncode, 0)
        self.assertEqual(self.both(), self.new)
        self.assertEqual(stat.S_IMODE(self.journal.stat().st_mode), 0o604)

    def test_two_cuts(self):
        steps = len(self.expected_steps())
        for first in range(0, steps, 6):
            for second in range(first // 6 % 2, steps + 2 + len(self.ranges), 2):
                self.start_again()
                self.run_with(f"any:{first + 1}:cut", *self.words)
                self.run_with(f"any:{second + 1}:cut", *self.words)
                self.accepted("recover", self.anchor, self.card)
                report = self.report("show", self.anchor)
                self.assertIn((report["root_nonce"], report["reserved_nonce"]), [(t, h) for h in (6, 9, 12) for t in (6, 9, 12) if t <= h])
                self.accepted("check", self.anchor, self.card)
                said = b"the old round\n" if report["root_nonce"] == 6 else b"the new round\n"
                self.assertEqual(self.accepted("read", "--text", self.anchor, self.card, "5"), said)

    def test_failures_at_every_call(self):
        steps = self.expected_steps()
        renames = [k for k, step in enumerate(steps) if step.startswith("rename box.anchor")]
        for k in range(len(steps)):
            for number in (errno.EIO, errno.ENOSPC):
                with self.subTest(call=steps[k], number=number):
                    self.start_again()
                    message = self.failing(f"any:{k + 1}", number, *self.words)
                    self.assertFalse([path.name for path in self.room.iterdir() if path.name.endswith("-new")])
                    if k <= renames[0]:
                        self.assertIn("nothing is changed", message)
                        self.assertEqual(self.both(), self.old)
                    elif k <= renames[1]:
                        self.assertIn("the block is not written, and the card is as it was: H alone is raised", message)
                        self.assertEqual(self.both(), (self.old[0], self.raised))
                    else:
                        self.assertIn("box.card could not be written whole: 'roundcard recover' puts the rest in place", message)
                        self.assertEqual(self.anchor.read_bytes(), self.new[1])
                    self.accepted("recover", self.anchor, self.card)
                    self.assertEqual(self.expect_recovered(), k > renames[1])

    def test_failures_of_the_recovery_before(self):
        self.run_with("pwrite:3:cut", *self.words)
        for k in range(1, 10):
            message = self.failing(f"any:{k}", errno.EIO, "write", "--text", "x", self.anchor, self.card, "4")
            self.assertIn("box.card whole: 'roundcard recover' tries again", message)
            self.assertEqual(self.anchor.read_bytes(), self.new[1])
        message = self.failing("write:1", errno.EIO, "write", "--text", "x", self.anchor, self.card, "4")
        self.assertIn("cannot replace the anchor file", message)
        self.assertEqual(self.both(), self.new)
        self.start_again()
        self.run_with("pwrite:3:cut", *self.words)
        message = self.failing("rename:2", errno.ENOSPC, "write", "--text", "x", self.anchor, self.card, "4")
        self.assertIn("the block is not written: H is raised, the last write is recovered, and nothing else is changed", message)
        self.assertEqual(self.card.read_bytes(), self.new[0])

    def stopped(self, fault):
        """A write that stands still at a call, and goes on when it is told."""
        environment = dict(os.environ, LD_PRELOAD=str(FAULTS), FAULT=f"{fault}:signal{int(signal.SIGSTOP)}")
        process = subprocess.Popen([TOOL, *self.words], env=environment, stdout=subprocess.DEVNULL)
        self.addCleanup(process.kill)
        _, status = os.waitpid(process.pid, os.WUNTRACED)
        self.assertTrue(os.WIFSTOPPED(status))
        return process

    def test_nobody_gets_in_between_the_steps(self):
        for k in range(1, len(self.expected_steps()) + 1):
            self.start_again()
            process = self.stopped(f"any:{k}")
            last = self.anchor, self.card
            for words in (("read", *last, "5"), ("write", "--text", "x", *last, "5"), ("recover", *last)):
                done = self.tool(*words, "--wait=0")
                self.assertEqual(done.returncode, FILE, (k, done.stdout))
                self.assertIn(b"another process has the lock", done.stderr)
            process.send_signal(signal.SIGCONT)
            self.assertEqual(process.wait(60), 0)
            self.assertEqual(self.both(), self.new)

    def test_failures_before_anything(self):
        self.start_again()
        self.failing("flock:1", errno.ENOLCK, *self.words)
        self.give(self.anchor, 1234, 1234)
        self.failing("fchown:1", errno.EPERM, *self.words)
        self.assertEqual(self.both(), self.old)

    def test_interrupted_and_short_calls_go_on(self):
        faults = [f"{name}:{errno.EINTR}" for name in ("write:1", "write:2", "write:3", "pwrite:1", "pwrite:6")]
        for fault in [*faults, "write:2:short100", "write:2:short0", "pwrite:2:short7", "pwrite:6:short0"]:
            self.start_again()
            self.assertEqual(self.run_with(fault, *self.words).returncode, 0)
            self.assertEqual(self.both(), self.new)
            self.assertEqual(self.journal.read_bytes(), self.new_journal)

    def test_a_journal_that_is_torn_is_not_in_its_place(self):
        for done in (0, 1, 100, 247, 248):
            self.start_again()
            self.assertEqual(self.run_with(f"write:2:torn{done}", *self.words).returncode, CUT)
            self.assertFalse(self.journal.exists())
            self.assertEqual(os.stat(f"{self.journal}.roundcard-new").st_size, done)
            self.assertEqual(self.both(), (self.old[0], self.raised))
            self.accepted(*self.words)
            self.assertEqual(self.card.stat().st_size, 784)
            self.assertEqual({path.name for path in self.room.iterdir()}, {"box.anchor", "box.card", self.journal.name, "log"})

    def test_a_report_of_a_failure_is_json_where_asked(self):
        done = self.run_with(f"pwrite:2:{errno.EIO}", *self.words, "--json")
        self.assertEqual(done.returncode, FILE)
        self.assertIn(b"'roundcard recover' puts the rest in place", done.stdout)


if __name__ == "__main__":
    unittest.main()
