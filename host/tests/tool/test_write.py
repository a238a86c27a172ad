"""roundcard write on cards that are right."""

import fcntl
import os
import resource
import stat
import subprocess
import time
import unittest

from support import FILE, KEY, TOOL, USAGE, Card, ToolCase, block


class Write(ToolCase):
    def setUp(self):
        super().setUp()
        self.model = self.made(3)

    def write(self, index, *words, **options):
        return self.accepted("write", *words, self.anchor, self.card, str(index), **options)

    def test_from_text_file_and_pipe(self):
        data = self.room / "data"
        data.write_bytes(bytes(range(64)))
        self.assertEqual(self.write(5, "--text", "van 7"), b"wrote block 5: T is 3, 6 ranges of the card changed\n")
        self.model.write(5, block("van 7"))
        self.both_equal(self.model)
        self.write(0, "--input", data)
        self.model.write(0, bytes(range(64)))
        self.both_equal(self.model)
        self.write(7, input=bytes(range(64, 128)))
        self.model.write(7, bytes(range(64, 128)))
        self.both_equal(self.model)

    def test_every_block_of_several_depths(self):
        for depth in (1, 2, 4):
            self.model = self.made(depth)
            for index in [*range(2**depth), 1, 1, 0]:
                self.write(index, "--text", f"round {index}")
                self.model.write(index, block(f"round {index}"))
                self.both_equal(self.model)

    def test_ranges_reported_are_the_ranges_changed(self):
        for depth, index in ((1, 0), (2, 2), (3, 5), (6, 33)):
            self.model = self.made(depth)
            before = self.card.read_bytes()
            report = self.report("write", "--text", "x", self.anchor, self.card, str(index))
            self.assertEqual(report["ranges"], [list(pair) for pair in self.model.ranges(index)])
            self.assertEqual((report["block"], report["root_nonce"], report["changes"]), (index, depth, 1))
            after = self.card.read_bytes()
            places = {k for start, length in report["ranges"] for k in range(start, start + length)}
            changed = {k for k in range(len(before)) if before[k] != after[k]}
            self.assertTrue(changed and changed <= places, (depth, index))

    def test_texts(self):
        for text in ("", "a" * 64, "é" * 32, "tab\tand\nnewline", '"', "--json", "--text"):
            self.write(3, "--text", text)
            self.assertEqual(self.accepted("read", "--text", self.anchor, self.card, "3").decode(), text + "\n")
        self.write(3, "--text=joined=twice")
        self.assertEqual(self.accepted("read", "--text", self.anchor, self.card, "3"), b"joined=twice\n")

    def test_texts_that_do_not_do(self):
        words = "write", self.anchor, self.card, "3", "--text"
        for length in (65, 66, 1000):
            self.fails(USAGE, *words, "a" * length, says=[f"the text has {length} bytes, and a block has 64"])
        self.fails(USAGE, *words, "é" * 33, says=["66 bytes"])
        for text in (b"\x1b[2J", b"\xff", b"a\rb", b"\xc3"):
            self.fails(USAGE, *words, text, says=["not UTF-8, or has control characters"])

    def test_blocks_of_other_lengths(self):
        data = self.room / "data"
        for length in (0, 1, 63, 65, 128, 100000):
            data.write_bytes(bytes(length))
            words = "write", self.anchor, self.card, "3"
            says = ["more than 64 bytes" if length > 64 else f"has {length} bytes, and not 64"]
            self.refused(5, *words, "--input", data, says=says)
            self.refused(5, *words, input=bytes(length), says=says)

    def test_inputs_that_cannot_be_read(self):
        words = "write", self.anchor, self.card, "3"
        self.fails(FILE, *words, "--input", "none", says=["none", "No such file"])
        self.fails(FILE, *words, "--input", self.room, says=["Is a directory"])
        secret = self.room / "secret"
        secret.write_bytes(bytes(64))
        secret.chmod(0)
        self.fails(FILE, *words, "--input", secret, says=["Permission denied"], **self.as_nobody())
        self.fails(USAGE, *words, "--input", "x", "--text", "y", says=["only one of"])

    def test_closed_standard_input(self):
        self.fails(FILE, "write", self.anchor, self.card, "3", preexec_fn=lambda: os.close(0), says=["standard input"])

    def test_closed_standard_output(self):
        words = "write", self.anchor, self.card, "3", "--text", "x"
        for closed in ([1], [2], [1, 2], [0, 1, 2]):
            done = self.tool(*words, preexec_fn=lambda: [os.close(place) for place in closed])
            self.model.write(3, block("x"))
            self.both_equal(self.model)
            self.assertEqual(done.returncode, FILE if 1 in closed else 0)

    def test_text_from_standard_input(self):
        texts = [(b"van 7\n", "van 7"), (b"van 7", "van 7"), (b"", ""), (b"\n", ""), (b"two\nlines\n\n", "two\nlines\n")]
        texts += [(b"a" * 64, "a" * 64), (b"a" * 64 + b"\n", "a" * 64), ("é".encode() * 32 + b"\n", "é" * 32), (b"-", "-")]
        for data, text in texts:
            self.write(3, "--text", "-", input=data)
            self.model.write(3, block(text))
            self.both_equal(self.model)
        words = "write", self.anchor, self.card, "3", "--text=-"
        for data in (b"a" * 65, b"a" * 65 + b"\n", b"a" * 64 + b"\n\n", bytes(100000)):
            self.fails(USAGE, *words, input=data, says=["the text has more than 64 bytes, and a block has 64"])
        for data in (b"\x1b[2J", b"\xff", b"a\0b", b"a\r\n"):
            self.fails(USAGE, *words, input=data, says=["not UTF-8, or has control characters"])
        self.fails(FILE, *words, preexec_fn=lambda: os.close(0), says=["standard input"])

    def test_input_from_standard_input_by_name(self):
        for words in (["--input", "-"], ["--input", "/dev/stdin"]):
            self.write(1, *words, input=bytes(range(64)))
            self.model.write(1, bytes(range(64)))
            self.both_equal(self.model)
        self.assertFalse((self.room / "-").exists())

    def test_report_that_cannot_be_printed(self):
        for form in ([], ["--json"]):
            reading, writing = os.pipe()
            os.close(reading)
            for output, reason in ((os.open("/dev/full", os.O_WRONLY), b"No space left"), (writing, b"Broken pipe")):
                done = self.tool("write", *form, "--text", "x", self.anchor, self.card, "3", stdout=output)
                os.close(output)
                self.assertEqual(done.returncode, FILE)
                self.assertIn(b"roundcard write: block 3 is written; cannot write to standard output: " + reason, done.stderr)
                self.model.write(3, block("x"))
                self.both_equal(self.model)

    def test_failure_whose_object_cannot_be_printed(self):
        for words, says in ((["9", "--text", "x"], "there is no block 9"), (["3", "--input", "none"], "cannot open the input none")):
            with open("/dev/full", "wb") as full:
                done = self.tool("write", "--json", self.anchor, self.card, *words, stdout=full)
            self.assertEqual(done.returncode, FILE)
            self.assertIn(says, done.stderr.decode())
        self.both_equal(self.model)

    def test_file_size_limits(self):
        def limit(size):
            return {"preexec_fn": lambda: resource.setrlimit(resource.RLIMIT_FSIZE, (size, size))}

        words = "write", "--text", "x", self.anchor, self.card, "3"
        for size in (0, 16, 31):
            self.fails(FILE, *words, says=["nothing is changed", "File too large"], **limit(size))
        # The anchor would fit and the card would not: seen before the anchor is replaced.
        for size in (32, 300, 463):
            self.fails(FILE, *words, says=["cannot write the card image", "nothing is changed", "File too large"], **limit(size))
        for size in (464, 784):
            self.accepted(*words, **limit(size))
            self.model.write(3, block("x"))
            self.both_equal(self.model)

    def test_swapped_files(self):
        last = self.card, self.anchor
        commands = ["write", "--text", "x", *last, "1"], ["read", *last, "1"], ["wipe", "--yes", *last], ["check", *last], ["check", "--all", *last]
        for words in commands:
            says = ["the anchor file has 784 bytes, as a card image has, and the card image has 40", "swapped", "give ANCHOR first"]
            self.refused(5, *words, says=says)
            self.assertNotIn("chmod", self.said)
        self.refused(5, "show", self.card, self.anchor, says=["the two are swapped"])
        self.refused(5, "show", self.card, says=["as a card image has", "give ANCHOR first"])
        self.assertNotIn("swapped", self.said)
        self.refused(5, "check", self.card, self.card, says=["as a card image has"])
        self.refused(3, "check", self.anchor, self.anchor, says=["has 40 bytes"])

    def test_block_numbers(self):
        for index in ("8", "18446744073709551615"):
            self.refused(4, "write", "--text", "x", self.anchor, self.card, index)
        for index in ("", "5x", "+5", "18446744073709551616"):
            self.fails(USAGE, "write", "--text", "x", self.anchor, self.card, index, says=["not a block number"])

    def test_last_root_nonce(self):
        self.model = Card(KEY, 2, 2**64 - 4)
        self.put(self.model)
        self.write(1, "--text", "the last")
        self.model.write(1, block("the last"))
        self.both_equal(self.model)
        self.refused(7, "write", "--text", "x", self.anchor, self.card, "1", says=["used up: H is 18446744073709551614"])
        self.assertEqual(self.accepted("read", "--text", self.anchor, self.card, "1"), b"the last\n")

    def test_spoiled_block_can_be_replaced(self):
        data = bytearray(self.card.read_bytes())
        data[144 + 80 * 5 + 3] ^= 1
        self.card.write_bytes(data)
        self.refused(8, "read", self.anchor, self.card, "5", node=13, says=["block 5", "or write block 5 again"])
        self.write(5, "--text", "mended")
        self.model.write(5, block("mended"))
        self.both_equal(self.model)

    def test_anchor_keeps_to_its_owner(self):
        self.anchor.chmod(0o644)
        done = self.tool("write", "--text", "x", self.anchor, self.card, "1")
        self.assertEqual(done.returncode, 0)
        self.assertIn(b"can be read by others", done.stderr)
        self.assertEqual(stat.S_IMODE(self.anchor.stat().st_mode), 0o600)

    def test_anchor_keeps_its_owner(self):
        self.give(self.anchor, 1234, 1235)
        self.write(2, "--text", "y", umask=0)
        self.assertEqual((self.anchor.stat().st_uid, self.anchor.stat().st_gid), (1234, 1235))
        self.assertEqual(stat.S_IMODE(self.anchor.stat().st_mode), 0o600)

    def test_anchor_behind_a_link(self):
        folder = self.room / "chip"
        folder.mkdir()
        real = folder / "anchor"
        self.anchor.rename(real)
        self.anchor.symlink_to(real)
        self.write(1, "--text", "x")
        self.assertTrue(self.anchor.is_symlink())
        self.model.write(1, block("x"))
        self.both_equal(self.model)
        self.assertEqual([path.name for path in folder.iterdir()], ["anchor"])

    def test_names_with_odd_characters(self):
        shown = {b"--odd": "--odd", b"b\xff\"\\": r'b\xff"\\', b"new\nline": r"new\nline", b"\x1b[2J\t": r"\x1b[2J\t"}
        shown[b"\xc2\x9b\xc3\xa9"] = r"\xc2\x9bé"
        for name, said in shown.items():
            anchor, card = (os.fsdecode(name + part) for part in (b".a", b".c"))
            (self.room / anchor).write_bytes(self.anchor.read_bytes())
            (self.room / anchor).chmod(0o600)
            self.accepted("write", "--text", "x", "--", anchor, self.card, "1")
            self.anchor.write_bytes((self.room / anchor).read_bytes())
            if name[:1] != b"-":
                report = self.fails(FILE, "check", "--", anchor, card)
                self.assertEqual(report["message"], f"cannot open the card image {said}.c: No such file or directory")
                self.assertEqual(self.said, f"roundcard check: {report['message']}\n")
            (self.room / anchor).chmod(0o644)
            self.assertIn(f"warning: {said}.a has a key", self.tool("show", "--", anchor).stderr.decode())
            (self.room / anchor).unlink()

    def test_long_names_leave_the_reason(self):
        for length in (300, 5000, 100000):
            self.fails(FILE, "check", self.anchor, "c" * length, says=["File name too long"])

    def test_files_that_may_not_be_changed(self):
        words = "write", "--text", "x", self.anchor, self.card, "1"
        options = self.as_nobody()
        self.card.chmod(0o444)
        self.fails(FILE, *words, says=["box.card for writing", "Permission denied"], **options)
        self.card.chmod(0o644)
        self.anchor.chmod(0o400)
        self.fails(FILE, *words, says=["box.anchor", "Permission denied"], **options)
        self.anchor.chmod(0o600)
        self.room.chmod(0o555)
        self.fails(FILE, *words, says=["cannot make a journal file beside", "nothing is changed", "Permission denied"], **options)
        self.room.chmod(0o333)
        done = self.tool(*words, **options)
        self.room.chmod(0o755)
        self.assertEqual(done.returncode, FILE)
        self.both_equal(self.model)

    def test_writers_take_turns(self):
        words = [[TOOL, "write", "--text", f"round {k}", self.anchor, self.card, str(k % 8)] for k in range(24)]
        running = [subprocess.Popen(word, stdout=subprocess.DEVNULL) for word in words]
        self.assertEqual([process.wait(60) for process in running], [0] * 24)
        self.assertEqual(self.report("show", self.anchor)["changes"], 24)
        self.accepted("check", self.anchor, self.card)

    def test_reads_between_writes(self):
        last = self.anchor, self.card
        words = [["write", "--text", "x", *last, "1"], ["read", *last, "6"], ["check", *last]]
        running = [subprocess.Popen([TOOL, *words[k % 3]], stdout=subprocess.DEVNULL) for k in range(36)]
        self.assertEqual([process.wait(60) for process in running], [0] * 36)

    def test_write_waits_and_takes_the_new_anchor(self):
        words = ["write", "--text", "after", self.anchor, self.card, "1"]
        for kind in (fcntl.LOCK_EX, fcntl.LOCK_SH):
            self.wait_behind_a_lock(kind, words, self.replace_both)
            self.model.write(1, block("after"))
            self.both_equal(self.model)

    def test_read_waits_for_a_write(self):
        words = ["read", "--text", self.anchor, self.card, "4"]
        self.assertEqual(self.wait_behind_a_lock(fcntl.LOCK_EX, words, self.replace_both), b"meanwhile\n")

    def test_no_lock_while_the_input_is_awaited(self):
        waiting = subprocess.Popen([TOOL, "write", self.anchor, self.card, "1"], stdin=subprocess.PIPE, stdout=subprocess.DEVNULL)
        time.sleep(0.2)
        self.write(2, "--text", "meanwhile")
        waiting.communicate(block("at last"), timeout=60)
        self.assertEqual(waiting.returncode, 0)
        self.model.write(2, block("meanwhile"))
        self.model.write(1, block("at last"))
        self.both_equal(self.model)

    def test_reads_do_not_wait_for_each_other(self):
        with open(self.anchor, "rb") as held:
            fcntl.flock(held, fcntl.LOCK_SH)
            self.accepted("read", self.anchor, self.card, "4")
            self.accepted("check", self.anchor, self.card)


if __name__ == "__main__":
    unittest.main()
