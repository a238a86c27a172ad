"""Locks that are held, and pipes in the place of files: nothing is waited for without an end or a word."""

import fcntl
import json
import os
import shutil
import subprocess
import threading
import time
import unittest

from support import FILE, KEY, TOOL, Card, ToolCase, block


class Locks(ToolCase):
    def setUp(self):
        super().setUp()
        self.model = self.made(3)
        self.held = open(self.anchor, "rb")
        self.addCleanup(self.held.close)
        fcntl.flock(self.held, fcntl.LOCK_EX)

    def commands(self):
        last = self.anchor, self.card
        yield "read", *last, "1"
        yield "write", "--text", "x", *last, "1"
        yield "recover", *last
        yield "wipe", "--yes", *last
        yield "check", *last
        yield "check", "--all", *last
        yield "show", *last
        yield "format", "--force", "--depth=3", *last

    def test_no_wait(self):
        for words in self.commands():
            start = time.monotonic()
            says = ["another process has the lock", "box.anchor", "after 0 seconds"]
            self.fails(FILE, *words, "--wait=0", says=says)
            self.assertLess(time.monotonic() - start, 1.0)
            self.assertNotIn("waiting", self.said)

    def test_a_wait_that_ends(self):
        for seconds, speaks in (("1", False), ("2", True)):
            start = time.monotonic()
            done = self.tool("check", "--wait", seconds, self.anchor, self.card)
            self.assertGreaterEqual(time.monotonic() - start, int(seconds))
            self.assertEqual((done.returncode, done.stdout), (FILE, b""))
            self.assertIn(f"still had it after {seconds} seconds", done.stderr.decode())
            self.assertEqual(b"waiting for the lock on the anchor file" in done.stderr, speaks)

    def start(self, *words):
        process = subprocess.Popen([TOOL, *map(os.fspath, words)], stdout=subprocess.PIPE, stderr=subprocess.PIPE)
        end = threading.Timer(30, process.kill)
        end.start()
        self.addCleanup(end.cancel)
        self.addCleanup(process.stdout.close)
        self.addCleanup(process.stderr.close)
        return process

    def test_a_wait_is_said_once(self):
        plain = self.start("read", "--text", self.anchor, self.card, "1")
        bounded = self.start("write", "--json", "--wait=60", "--text=x", self.anchor, self.card, "2")
        endless = self.start("show", "--wait=18446744073709551615", self.anchor)
        for process, name in ((plain, "read"), (bounded, "write"), (endless, "show")):
            line = process.stderr.readline().decode()
            self.assertEqual(line, f"roundcard {name}: waiting for the lock on the anchor file {self.anchor}, which another process has\n")
        time.sleep(0.5)
        fcntl.flock(self.held, fcntl.LOCK_UN)
        for process in (plain, bounded, endless):
            self.assertEqual(process.wait(60), 0)
            self.assertEqual(process.stderr.read(), b"")
        self.assertTrue(json.loads(bounded.stdout.read())["accepted"])

    def test_a_short_wait_is_not_said(self):
        process = self.start("check", self.anchor, self.card)
        time.sleep(0.3)
        self.assertIsNone(process.poll())
        fcntl.flock(self.held, fcntl.LOCK_UN)
        self.assertEqual((process.wait(60), process.stderr.read()), (0, b""))

    def test_no_lock_no_wait(self):
        fcntl.flock(self.held, fcntl.LOCK_UN)
        for words in self.commands():
            self.accepted(*words, "--wait=0")


class Pipes(ToolCase):
    def setUp(self):
        super().setUp()
        self.model = self.made(3)
        self.pipe = self.room / "pipe"
        os.mkfifo(self.pipe)
        self.write = "write", self.anchor, self.card, "3", "--input", self.pipe
        self.format = "format", "--depth=3", "--key-file", self.pipe, "a", "c"

    def feed(self, data, before=0.0):
        """Somebody who writes to the pipe, after a while."""

        def run():
            time.sleep(before)
            with open(self.pipe, "wb") as file:
                file.write(data)

        thread = threading.Thread(target=run)
        thread.start()
        self.addCleanup(thread.join)

    def test_nobody_writes(self):
        for words in (self.write, self.format):
            self.fails(FILE, *words, "--wait=0", says=["nothing came from", "pipe", "for 0 seconds"])
        start = time.monotonic()
        self.assertEqual(self.tool(*self.write, "--wait=1").returncode, FILE)
        self.assertGreaterEqual(time.monotonic() - start, 1)

    def test_nobody_writes_and_no_wait_is_given(self):
        words = [[TOOL, *map(os.fspath, line)] for line in (self.write, self.format)]
        start = time.monotonic()
        running = [subprocess.Popen(line, cwd=self.room, stderr=subprocess.PIPE) for line in words]
        for process in running:
            self.assertEqual(process.wait(20), FILE)
            self.assertIn(b"for 5 seconds", process.stderr.read())
            process.stderr.close()
        self.assertGreaterEqual(time.monotonic() - start, 5)
        self.both_equal(self.model)

    def test_somebody_has_it_open_and_writes_nothing(self):
        held = os.open(self.pipe, os.O_RDWR)
        self.addCleanup(os.close, held)
        for words in (self.write, self.format):
            self.fails(FILE, *words, "--wait=0", says=["nothing came from"])
        os.write(held, bytes(10))
        self.fails(FILE, *self.write, "--wait=0", says=["nothing came from"])

    def test_block_from_a_pipe(self):
        self.feed(bytes(range(64)), 0.3)
        self.accepted(*self.write)
        self.model.write(3, bytes(range(64)))
        self.both_equal(self.model)
        self.feed(bytes(63))
        done = self.tool(*self.write)
        self.assertEqual(done.returncode, 5)
        self.assertIn(b"has 63 bytes, and not 64", done.stderr)

    def test_key_from_a_named_pipe(self):
        self.feed(KEY, 0.3)
        self.accepted(*self.format)
        self.assertEqual((self.room / "c").read_bytes(), bytes(Card(KEY, 3).bytes))

    def test_output_to_a_pipe(self):
        for words in (("read", self.anchor, self.card, "3", "--output"), ("check", self.anchor, self.card, "--picture")):
            self.fails(FILE, *words, self.pipe, says=["nobody reads from the output", "pipe"])
        reader = os.open(self.pipe, os.O_RDONLY | os.O_NONBLOCK)
        self.accepted("read", self.anchor, self.card, "3", "--output", self.pipe)
        self.assertEqual(os.read(reader, 1000), bytes(64))
        os.close(reader)

    def test_output_to_a_pipe_that_is_full(self):
        held = os.open(self.pipe, os.O_RDWR | os.O_NONBLOCK)
        self.addCleanup(os.close, held)
        try:
            while os.write(held, bytes(4096)):
                pass
        except BlockingIOError:
            pass
        self.fails(FILE, "read", self.anchor, self.card, "3", "--output", self.pipe, says=["cannot write the output", "temporarily unavailable"])

    def test_formats_on_a_pipe(self):
        for anchor, card in ((self.pipe, "c"), ("a", self.pipe)):
            self.fails(FILE, "format", "--depth=3", anchor, card, says=["pipe is there already"])
            self.fails(FILE, "format", "--depth=3", "--force", anchor, card, says=["pipe", "not a regular file"])

    @unittest.skipUnless(shutil.which("bash"), "bash is not here, so it substitutes nothing")
    def test_process_substitution(self):
        line = f'"{TOOL}" write "{self.anchor}" "{self.card}" 3 --input <(sleep 0.2; printf %064d 7)'
        done = subprocess.run(["bash", "-c", line], capture_output=True, timeout=60, check=False)
        self.assertEqual((done.returncode, done.stderr), (0, b""))
        self.model.write(3, b"%064d" % 7)
        self.both_equal(self.model)


if __name__ == "__main__":
    unittest.main()
