"""Cuts and failures between the steps of a format and of an output, and signals: what each leaves."""

import errno
import signal
import unittest

from support import CUT, FaultCase, block


class Cuts(FaultCase):
    def setUp(self):
        super().setUp()
        self.model = self.made(3, [(5, "the old round"), (2, "another")])
        self.old = bytes(self.model.bytes), self.model.anchor()
        self.model.write(5, block("the new round"))
        self.new = bytes(self.model.bytes), self.model.anchor()
        self.words = "write", "--text", "the new round", self.anchor, self.card, "5"

    def test_every_signal_waits_for_the_card(self):
        silent = {signal.SIGCHLD, signal.SIGCONT, signal.SIGURG, signal.SIGWINCH, signal.SIGXFSZ, signal.SIGPIPE}
        harmless = silent | {signal.SIGTSTP, signal.SIGTTIN, signal.SIGTTOU}
        for number in sorted(signal.valid_signals() - {signal.SIGKILL, signal.SIGSTOP}):
            for fault in ("rename:1", "rename:3", "pwrite:1"):
                with self.subTest(signal=number, fault=fault):
                    self.assertEqual(self.signalled(fault, int(number), *self.words), 0 if number in harmless else -number)
                    self.assertEqual(self.said, "" if number in silent else "roundcard write: block 5 is written, and a signal came meanwhile\n")
                    self.assertEqual(self.both(), self.new)
                    self.start_again()

    def test_signals_at_every_step_wait_for_the_card(self):
        steps = len(self.steps(*self.words))
        for number in (signal.SIGTERM, signal.SIGUSR1, signal.SIGALRM, signal.SIGXCPU):
            for k in range(1, steps + 1):
                self.start_again()
                self.assertEqual(self.signalled(f"any:{k}", int(number), *self.words), -number)
                self.assertEqual(self.both(), self.new)

    def test_signals_wait_for_a_format(self):
        for fault in ("write:1", "write:2", "fsync:3"):
            self.assertEqual(self.signalled(fault, int(signal.SIGINT), "format", "--depth=1", "a", "c"), -signal.SIGINT)
            self.accepted("check", "a", "c")
            for name in ("a", "c"):
                (self.room / name).unlink()

    def test_signals_wait_for_an_output(self):
        (self.room / "out").write_bytes(b"kept")
        words = "read", "--output", "out", self.anchor, self.card, "5"
        for fault in ("write:1", "fsync:1", "rename:1"):
            self.assertEqual(self.signalled(fault, int(signal.SIGINT), *words), -signal.SIGINT)
            self.assertEqual((self.room / "out").read_bytes(), block("the old round"))
            self.assertEqual({path.name for path in self.room.iterdir()}, {"box.anchor", "box.card", "log", "out"})

    def test_output_is_replaced_whole_or_left(self):
        output = self.room / "out"
        output.write_bytes(b"kept")
        words = "read", "--output", output, self.anchor, self.card, "5"
        for fault in ("write:1", "fsync:1", "rename:1"):
            message = self.failing(fault, errno.EIO, *words)
            self.assertIn("out, which is as it was", message)
            self.assertEqual(output.read_bytes(), b"kept")
            self.assertEqual({path.name for path in self.room.iterdir()} - {"log"}, {"box.anchor", "box.card", "out"})
            self.assertEqual(self.run_with(f"{fault}:cut", *words).returncode, CUT)
            self.assertEqual(output.read_bytes(), b"kept")
            left = [path for path in self.room.iterdir() if path.name.startswith("out.roundcard-")]
            self.assertEqual(len(left), 1)
            left[0].unlink()
        output.unlink()
        self.failing("write:1", errno.ENOSPC, *words)
        self.assertFalse(output.exists())

    def test_keys_are_wiped(self):
        (self.room / "key").write_bytes(bytes(16))
        last = self.anchor, self.card
        commands = [self.words, ("read", *last, "5"), ("check", *last), ("show", *last), ("recover", *last)]
        for words in [*commands, ("format", "--depth=2", "--key-file=key", "a", "c")]:
            self.run_with("", *words)
            wiped = (self.room / "log").read_text().splitlines()
            self.assertIn("wipe 40" if words[0] == "format" else "wipe 41", wiped)
            self.assertEqual("wipe 40" in wiped, words[0] in ("format", "write"))
            self.assertEqual("wipe 17" in wiped, words[0] == "format")
            (self.room / "log").unlink()

    def test_interrupted_calls_go_on(self):
        for fault in ("write:1", "pwrite:1", "pwrite:3"):
            self.assertEqual(self.run_with(f"{fault}:{errno.EINTR}", *self.words).returncode, 0)
            self.assertEqual(self.both(), self.new)
            self.start_again()
        self.assertEqual(self.run_with(f"getrandom:1:{errno.EINTR}", "format", "--depth", "2", "a", "c").returncode, 0)

    def test_owner_that_cannot_be_kept(self):
        self.give(self.anchor, 1234, 1234)
        self.failing("fchown:1", errno.EPERM, *self.words)
        self.assertEqual(self.both(), self.old)

    def test_formats_that_fail_leave_nothing(self):
        for fault in ("write:1", "write:2", "fsync:1", "fsync:2", "getrandom:1"):
            self.failing(fault, errno.EIO, "format", "--depth", "3", "a", "c")
            self.assertEqual({path.name for path in self.room.iterdir()} - {"log"}, {"box.anchor", "box.card"})

    def test_forced_formats_that_fail_change_nothing(self):
        self.start_again()
        for fault in ("write:1", "write:2", "fsync:1", "fsync:2", "rename:1"):
            self.failing(fault, errno.EIO, "format", "--force", "--depth", "3", self.anchor, self.card)
            self.assertEqual(self.both(), self.old)
            self.assertEqual({path.name for path in self.room.iterdir()} - {"log"}, {"box.anchor", "box.card"})
        message = self.failing("rename:2", errno.EIO, "format", "--force", "--depth", "3", self.anchor, self.card)
        self.assertIn("box.card is replaced", message)
        self.assertEqual(self.anchor.read_bytes(), self.old[1])
        message = self.failing("fsync:3", errno.EIO, "format", "--force", "--depth", "3", self.anchor, self.card)
        self.assertIn("may not outlive a power cut", message)

    def test_format_puts_the_card_out_first(self):
        self.run_with("", "format", "--depth", "1", "a", "c")
        steps = (self.room / "log").read_text().splitlines()
        self.assertEqual(steps[:4], ["write c 160", "fsync c", "write a 40", "fsync a"])
        (self.room / "log").unlink()
        self.assertEqual(self.run_with("write:1:cut", "format", "--depth", "1", "b", "d").returncode, CUT)
        self.refused(5, "check", "b", "d", says=["has 0 bytes"])


if __name__ == "__main__":
    unittest.main()
