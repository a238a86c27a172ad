"""The question of a wipe, on a terminal: yes, no, no answer, and what happens meanwhile."""

import errno
import fcntl
import os
import pty
import select
import signal
import subprocess
import termios
import time
import unittest

from support import FAULTS, FILE, KEY, TOOL, UNCONFIRMED, USAGE, ToolCase, block, wiped

QUESTION = "No earlier copy of the card will be accepted again. Type yes to wipe it: "
NOT_YES = "roundcard wipe: the answer is not yes: nothing is changed\n"


class Terminal:
    """A terminal of its own, on which a command runs as if somebody had typed it."""

    def __init__(self, words, typed_before=b"", ignored=(), **options):
        self.parent, child = pty.openpty()
        os.write(self.parent, typed_before)

        def take():
            fcntl.ioctl(child, termios.TIOCSCTTY, 0)
            for number in ignored:
                signal.signal(number, signal.SIG_IGN)

        options = {"stdin": child, "stderr": child, "stdout": child, **options}
        self.process = subprocess.Popen([os.fspath(word) for word in words], start_new_session=True, preexec_fn=take, **options)
        os.close(child)
        self.shown = b""

    def read(self):
        """Takes what is shown next; false at the end."""
        if not select.select([self.parent], [], [], 30)[0]:
            raise AssertionError(f"nothing more is shown behind {self.shown}")
        try:
            part = os.read(self.parent, 4096)
        except OSError as reason:
            if reason.errno != errno.EIO:
                raise
            part = b""
        self.shown += part
        return part != b""

    def until_asked(self):
        while QUESTION.encode() not in self.shown:
            if not self.read():
                raise AssertionError(f"no question: {self.shown}")

    def type(self, keys):
        os.write(self.parent, keys)

    def hang_up(self):
        os.close(self.parent)
        return self.process.wait(60)

    def end(self):
        """The status, with all that was shown in self.text."""
        while self.read():
            pass
        self.text = self.shown.decode(errors="replace").replace("\r\n", "\n")
        return self.hang_up()


class Question(ToolCase):
    def setUp(self):
        super().setUp()
        self.model = self.made(3, [(5, "van 7"), (2, "van 3")])
        self.loss = f"roundcard wipe: every round on the card {self.card} will be lost: all its 8 blocks are emptied\n"

    def terminal(self, *words, **options):
        ToolCase.runs += 1
        return Terminal([TOOL, "wipe", *words, self.anchor, self.card], **options)

    def answer(self, keys, *words, **options):
        """The status after these keys, typed behind the question."""
        terminal = self.terminal(*words, **options)
        terminal.until_asked()
        terminal.type(keys)
        status = terminal.end()
        self.text = terminal.text
        return status

    def unasked(self, *words, **options):
        """The status of a run that must not ask."""
        terminal = self.terminal(*words, **options)
        status = terminal.end()
        self.text = terminal.text
        self.assertNotIn("Type yes", self.text)
        return status

    def expect_unchanged(self):
        self.both_equal(self.model)
        self.assertEqual({path.name for path in self.room.iterdir()} - {"log"}, {"box.anchor", "box.card"})

    def expect_wiped(self):
        self.model = wiped(KEY, 3, self.model.root + 3)
        self.expect_unchanged()

    def test_yes(self):
        self.assertEqual(self.answer(b"yes\n"), 0)
        self.expect_wiped()
        self.assertEqual(self.text, f"{self.loss}{QUESTION}yes\nwiped {self.card}: all 8 blocks are empty, T is 9\n")

    def test_yes_in_other_dress(self):
        for keys in (b"YES\n", b"Yes\n", b"  yes\t \n", b"no\x15yes\n", b"yes\r"):
            self.assertEqual(self.answer(keys), 0, keys)
            self.expect_wiped()

    def test_anything_else(self):
        words = b"no\n", b"\n", b"y\n", b"Y\n", b"ja\n", b"yes please\n", b"yess\n", b"ye s\n", b"--yes\n", b"yes\x16\0\n", b"\x16\0yes\n"
        for keys in (*words, b"y" * 3000 + b"\n"):
            self.assertEqual(self.answer(keys), UNCONFIRMED, keys)
            self.assertTrue(self.text.endswith(NOT_YES), self.text)
            self.expect_unchanged()

    def test_no_then_yes_is_no(self):
        self.assertEqual(self.answer(b"no\nyes\n"), UNCONFIRMED)
        self.expect_unchanged()

    def test_end_of_input(self):
        for keys in (b"\x04", b"yes\x04\x04"):
            self.assertEqual(self.answer(keys), UNCONFIRMED, keys)
            self.assertTrue(self.text.endswith("\n" + NOT_YES), self.text)
            self.expect_unchanged()

    def test_interrupt(self):
        for keys, number in ((b"\x03", signal.SIGINT), (b"ye\x03", signal.SIGINT), (b"\x1c", signal.SIGQUIT)):
            self.assertEqual(self.answer(keys), -number)
            self.expect_unchanged()

    def test_terminal_that_goes_away(self):
        terminal = self.terminal()
        terminal.until_asked()
        self.assertEqual(terminal.hang_up(), -signal.SIGHUP)
        self.expect_unchanged()
        terminal = self.terminal(ignored=[signal.SIGHUP])
        terminal.until_asked()
        self.assertEqual(terminal.hang_up(), UNCONFIRMED)
        self.expect_unchanged()

    def test_what_was_typed_before_is_no_answer(self):
        self.assertEqual(self.answer(b"\n", typed_before=b"yes\n"), UNCONFIRMED)
        self.expect_unchanged()

    def test_not_asked_with_yes(self):
        self.assertEqual(self.unasked("--yes"), 0)
        self.expect_wiped()

    def test_not_asked_with_json(self):
        self.assertEqual(self.unasked("--json"), USAGE)
        self.assertIn('"status": 64, "accepted": false, "message": "a wipe loses every round', self.text)
        self.expect_unchanged()
        self.assertEqual(self.unasked("--json", "--yes"), 0)
        self.expect_wiped()

    def test_not_asked_where_it_is_not_seen_or_not_answered(self):
        for place in ("stdin", "stderr"):
            self.assertEqual(self.unasked(**{place: subprocess.DEVNULL}), USAGE)
            self.expect_unchanged()
        with open(self.room / "out", "wb") as output:
            self.assertEqual(self.answer(b"yes\n", stdout=output), 0)
        self.assertTrue((self.room / "out").read_bytes().startswith(b"wiped "))
        (self.room / "out").unlink()
        self.expect_wiped()

    def test_refused_before_it_is_asked(self):
        right = self.model.anchor(), bytes(self.model.bytes)
        wrong = [(5, right[0][:31], right[1]), (1, KEY + bytes(24), right[1]), (2, right[0][:-1] + b"\7", right[1])]
        wrong += [(2, right[0][:24] + b"\xff" * 8 + bytes(8), right[1])]
        wrong += [(3, right[0], right[1][:-1]), (7, right[0][:32] + b"\xff" * 8, right[1])]
        for number, anchor, card in wrong:
            self.anchor.write_bytes(anchor)
            self.card.write_bytes(card)
            self.assertEqual(self.unasked(), number)
            self.assertIn(f"refused, {number}: ", self.text)
            self.assertEqual((self.anchor.read_bytes(), self.card.read_bytes()), (anchor, card))
        self.card.unlink()
        self.assertEqual(self.unasked(), FILE)

    def test_a_card_that_is_not_whole_is_said(self):
        said = f"roundcard wipe: this card is damaged, or is not the one of the anchor {self.anchor}: a check of it is refused\n"
        self.model.bytes[-1] ^= 1
        self.put(self.model)
        self.assertEqual(self.answer(b"\n"), UNCONFIRMED)
        self.assertEqual(self.text, f"{self.loss}{said}{QUESTION}\n{NOT_YES}")
        self.expect_unchanged()
        self.assertEqual(self.answer(b"yes\n"), 0)
        self.expect_wiped()

    def test_warning_is_said_once(self):
        self.anchor.chmod(0o644)
        self.assertEqual(self.answer(b"yes\n"), 0)
        self.assertEqual(self.text.count("can be read by others"), 1)
        self.expect_wiped()

    def test_names_steer_no_terminal(self):
        self.card = self.card.rename(self.room / "a\033[2J\n.card")
        self.assertEqual(self.answer(b"yes\n"), 0)
        self.assertIn(r"a\x1b[2J\n.card will be lost", self.text)
        self.assertNotIn("\033", self.text)

    def test_no_lock_while_it_asks(self):
        terminal = self.terminal()
        terminal.until_asked()
        self.accepted("write", "--wait=0", "--text", "meanwhile", self.anchor, self.card, "1")
        self.model.write(1, block("meanwhile"))
        terminal.type(b"yes\n")
        self.assertEqual(terminal.end(), UNCONFIRMED)
        self.assertIn(f"another process changed the anchor file {self.anchor} before the answer: nothing is wiped\n", terminal.text)
        self.journal.unlink()
        self.expect_unchanged()

    def test_another_anchor_meanwhile(self):
        for change in ("format", "key", "vanish", "lock"):
            terminal = self.terminal("--wait=0")
            terminal.until_asked()
            with open(self.anchor, "rb") as held:
                if change == "lock":
                    fcntl.flock(held, fcntl.LOCK_EX)
                if change == "vanish":
                    self.anchor.unlink()
                if change == "format":
                    self.accepted("format", "--force", "--depth=3", self.anchor, self.card)
                if change == "key":
                    self.anchor.write_bytes(bytes(16) + self.model.anchor()[16:])
                files = self.files()
                terminal.type(b"yes\n")
                self.assertEqual(terminal.end(), UNCONFIRMED if change in ("format", "key") else FILE, change)
                self.assertEqual(self.files(), files)
            self.put(self.model)

    def test_waits_behind_the_answer(self):
        terminal = self.terminal()
        terminal.until_asked()
        with open(self.anchor, "rb") as held:
            fcntl.flock(held, fcntl.LOCK_SH)
            terminal.type(b"yes\n")
            time.sleep(0.3)
            self.assertIsNone(terminal.process.poll())
            self.both_equal(self.model)
        self.assertEqual(terminal.end(), 0)
        self.expect_wiped()

    @unittest.skipUnless(FAULTS, "nothing can be preloaded before the sanitizers: what is wiped from memory is seen on the plain tool")
    def test_keys_are_wiped(self):
        log = self.room / "log"
        environment = dict(os.environ, LD_PRELOAD=str(FAULTS), FAULT_LOG=str(log))
        self.assertEqual(self.answer(b"no\n", env=environment), UNCONFIRMED)
        self.assertEqual(log.read_text().splitlines(), ["wipe 41", "wipe 40"])
        log.unlink()
        self.assertEqual(self.answer(b"yes\n", env=environment), 0)
        self.assertEqual([line for line in log.read_text().splitlines() if line.startswith("wipe")], ["wipe 41", "wipe 41", "wipe 40"])


if __name__ == "__main__":
    unittest.main()
