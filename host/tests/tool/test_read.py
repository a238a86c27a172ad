"""roundcard read, check and show on cards that are right."""

import os
import pty
import resource
import subprocess
import unittest

from support import DATA, FILE, KEY, TOOL, USAGE, Card, ToolCase, aes_calls, block

BINARY = bytes(range(192, 256))


class Read(ToolCase):
    def setUp(self):
        super().setUp()
        self.model = self.made(3, [(5, "van 7: round 12"), (0, "Käse → 3"), (5, "van 3: round 12")])
        self.model.write(6, BINARY)
        self.model.write(7, block("a" * 64))
        self.put(self.model)

    def test_plain_bytes(self):
        before = self.files()
        for index in range(8):
            self.assertEqual(self.accepted("read", self.anchor, self.card, str(index)), self.model.block(index))
        self.assertEqual(self.files(), before)

    def test_text(self):
        texts = {0: "Käse → 3", 1: "", 5: "van 3: round 12", 7: "a" * 64}
        for index, text in texts.items():
            self.assertEqual(self.accepted("read", "--text", self.anchor, self.card, str(index)).decode(), text + "\n")

    def test_hex(self):
        for index in (0, 6):
            output = self.accepted("read", "--hex", self.anchor, self.card, str(index))
            self.assertEqual(output.decode(), self.model.block(index).hex() + "\n")

    def test_json(self):
        report = self.report("read", self.anchor, self.card, "0")
        self.assertEqual((report["block"], report["hex"]), (0, self.model.block(0).hex()))
        self.assertEqual(report["text"], "Käse → 3")
        report = self.report("read", self.anchor, self.card, "6")
        self.assertEqual((report["hex"], report["text"]), (BINARY.hex(), None))

    def test_json_of_awkward_text(self):
        for text in ('"quoted" \\ back', "two\nlines\tand a tab", "é\U0001f69a"):
            self.model.write(2, block(text))
            self.put(self.model)
            self.assertEqual(self.report("read", self.anchor, self.card, "2")["text"], text)
            self.assertEqual(self.accepted("read", "--text", self.anchor, self.card, "2").decode(), text + "\n")

    def test_blocks_that_are_not_text(self):
        awkward = [BINARY, b"\x1b[2J", b"a\0b", b"\x7f", b"\r", b"\xc2\x9b", b"\xc0\xaf", b"\xed\xa0\x80", b"\xe2\x82", b"\x80"]
        awkward += [b"\xf4\x90\x80\x80", b"\xf8\x88\x80\x80\x80", b"\xe0\x80\xaf", b"\xf0\x80\x80\xaf", b"a" * 63 + b"\xc3"]
        for data in awkward:
            with self.subTest(data=data):
                self.model.write(2, data.ljust(64, b"\0"))
                self.put(self.model)
                done = self.tool("read", "--text", self.anchor, self.card, "2")
                self.assertEqual((done.returncode, done.stdout), (DATA, b""))
                self.assertIn(b"block 2 is not text", done.stderr)
                self.assertIsNone(self.report("read", self.anchor, self.card, "2")["text"])

    def test_output_file(self):
        output = self.room / "out"
        self.assertEqual(self.accepted("read", "--output", output, self.anchor, self.card, "6"), b"")
        self.assertEqual(output.read_bytes(), BINARY)
        output.write_bytes(bytes(1000))
        report = self.report("read", f"--output={output}", self.anchor, self.card, "5")
        self.assertEqual(report["text"], "van 3: round 12")
        self.assertEqual(output.read_bytes(), block("van 3: round 12"))

    def test_output_keeps_what_it_can(self):
        output, link = self.room / "out", self.room / "link"
        words = "read", "--output", link, self.anchor, self.card, "6"
        output.write_bytes(bytes(1000))
        output.chmod(0o640)
        link.symlink_to("out")
        self.give(output, 1234, 1235)
        self.accepted(*words)
        self.assertTrue(link.is_symlink())
        status = output.stat()
        self.assertEqual((status.st_uid, status.st_gid, status.st_mode & 0o7777), (1234, 1235, 0o640))
        self.assertEqual(output.read_bytes(), BINARY)
        self.assertEqual({path.name for path in self.room.iterdir()}, {"box.anchor", "box.card", "out", "link"})
        output.unlink()
        self.fails(FILE, *words, says=["No such file"])

    def test_new_output_has_the_usual_mode(self):
        for mask in (0o022, 0o077):
            self.accepted("read", "--output", "out", self.anchor, self.card, "6", umask=mask)
            self.assertEqual((self.room / "out").stat().st_mode & 0o777, 0o666 & ~mask)
            (self.room / "out").unlink()

    def test_output_that_may_not_be_written(self):
        output = self.room / "out"
        output.write_bytes(b"kept")
        output.chmod(0o444)
        words = "read", "--output", output, self.anchor, self.card, "6"
        options = self.as_nobody()
        self.fails(FILE, *words, says=["which is as it was", "Permission denied"], **options)
        output.chmod(0o644)
        self.room.chmod(0o555)
        self.fails(FILE, *words, says=["which is as it was", "Permission denied"], **options)

    def test_outputs_at_once(self):
        output = self.room / "out"
        words = [[TOOL, "read", "--output", output, self.anchor, self.card, str(5 + k % 2)] for k in range(24)]
        running = [subprocess.Popen(word) for word in words]
        self.assertEqual([process.wait(60) for process in running], [0] * 24)
        self.assertIn(output.read_bytes(), (self.model.block(5), BINARY))
        self.assertEqual({path.name for path in self.room.iterdir()}, {"box.anchor", "box.card", "out"})

    def test_file_size_limit_of_an_output(self):
        (self.room / "out").write_bytes(b"kept")
        limit = {"preexec_fn": lambda: resource.setrlimit(resource.RLIMIT_FSIZE, (10, 10))}
        words = "read", self.anchor, self.card, "6"
        self.fails(FILE, *words, "--output", "out", says=["out, which is as it was", "File too large"], **limit)
        self.fails(FILE, *words, "--output", "new", says=["File too large"], **limit)
        with open(self.room / "report", "wb") as report:
            done = self.tool(*words, stdout=report, **limit)
        self.assertEqual(done.returncode, FILE)
        self.assertIn(b"cannot write to standard output: File too large", done.stderr)

    def test_output_to_standard_output_by_name(self):
        self.assertEqual(self.accepted("read", "--output", "-", self.anchor, self.card, "6"), BINARY)
        self.assertEqual(self.accepted("read", "--output", "/dev/stdout", self.anchor, self.card, "6"), BINARY)
        self.assertFalse((self.room / "-").exists())

    def test_output_that_is_anchor_or_card(self):
        for path in (self.anchor, self.card, "./box.card"):
            self.fails(USAGE, "read", "--output", path, self.anchor, self.card, "5", says=["is the anchor or the card"])
        (self.room / "link").symlink_to(self.card)
        self.fails(USAGE, "read", "--output", "link", self.anchor, self.card, "5")

    def test_output_that_cannot_be_written(self):
        self.fails(FILE, "read", "--output", "none/out", self.anchor, self.card, "5", says=["none/out", "No such file"])
        self.fails(FILE, "read", "--output", self.room, self.anchor, self.card, "5", says=["Is a directory"])
        self.fails(FILE, "read", "--output", "/dev/full", self.anchor, self.card, "5", says=["No space left"])

    def test_standard_output_that_is_full(self):
        for words in (["read"], ["read", "--hex"], ["read", "--text"], ["read", "--json"]):
            with open("/dev/full", "wb") as full:
                done = self.tool(*words, self.anchor, self.card, "5", stdout=full)
            self.assertEqual(done.returncode, FILE)
            self.assertIn(b"cannot write to standard output", done.stderr)

    def test_report_behind_an_output_that_is_written(self):
        with open("/dev/full", "wb") as full:
            done = self.tool("read", "--json", "--output", "out", self.anchor, self.card, "6", stdout=full)
        self.assertEqual(done.returncode, FILE)
        self.assertIn(b"the output out is written; cannot write to standard output", done.stderr)
        self.assertEqual((self.room / "out").read_bytes(), BINARY)

    def test_terminal_gets_hex(self):
        parent, child = pty.openpty()
        done = self.tool("read", self.anchor, self.card, "6", stdout=child)
        os.close(child)
        shown = os.read(parent, 1000)
        os.close(parent)
        self.assertEqual((done.returncode, shown.strip().decode()), (0, BINARY.hex()))

    def test_forms_exclude_each_other(self):
        for forms in (["--text", "--hex"], ["--text", "--output", "x"], ["--hex", "--output", "x"]):
            self.fails(USAGE, "read", *forms, self.anchor, self.card, "5", says=["only one of"])

    def test_block_numbers(self):
        for index in ("8", "9", "256", "4294967296", "18446744073709551615"):
            self.refused(4, "read", self.anchor, self.card, index, says=[f"no block {index}: the last one is 7"])
        for index in ("", "x", "5x", "+5", " 5", "0x5", "5.", "18446744073709551616", "99999999999999999999"):
            self.fails(USAGE, "read", self.anchor, self.card, index, says=["not a block number"])
        self.fails(USAGE, "read", self.anchor, self.card, "-1", says=["unknown option -1"])
        self.assertEqual(self.accepted("read", self.anchor, self.card, "05"), self.model.block(5))

    def test_check(self):
        self.assertEqual(self.accepted("check", self.anchor, self.card), b"whole: the tags of all 14 nodes are right, over 8 blocks\n")
        report = self.report("check", self.anchor, self.card)
        self.assertEqual((report["nodes"], report["blocks"]), (14, 8))

    def lines_of(self, output):
        """What show says, by the name at the start of each line."""
        return {line[:14].strip(): line[14:] for line in output.decode().splitlines()}

    def test_show(self):
        for words in ([self.anchor], [self.anchor, self.card]):
            output = self.accepted("show", *words)
            expected = {"depth": "3", "blocks": "8, numbers 0 to 7", "root nonce T": "15", "reserved H": "15"}
            expected.update({"changes made": "5, writes and wipes together, and attempts that were lost", "card size": "784 bytes"})
            expected["AES calls"] = "read 10, write 32, check 53, wipe 53"
            self.assertEqual(self.lines_of(output), expected)
            report = self.report("show", *words)
            expected = {"depth": 3, "blocks": 8, "root_nonce": 15, "reserved_nonce": 15, "changes": 5, "card_bytes": 784}
            expected["aes_calls"] = {"read": 10, "write": 32, "check": 53, "wipe": 53}
            self.assertEqual({name: report[name] for name in report if name not in ("command", "status", "accepted")}, expected)
            for word in (KEY.hex(), KEY.decode()):
                self.assertNotIn(word, output.decode() + str(report))

    def test_show_tells_the_aes_calls_that_the_model_counts(self):
        for depth in range(1, 17):
            self.anchor.write_bytes(KEY + depth.to_bytes(8, "big") + bytes(16))
            calls = aes_calls(depth)
            said = self.lines_of(self.accepted("show", self.anchor))["AES calls"]
            self.assertEqual(said, ", ".join(f"{name} {count}" for name, count in calls.items()))
            self.assertEqual(self.report("show", self.anchor)["aes_calls"], calls)

    def test_show_of_lost_attempts(self):
        self.model.lose()
        self.model.lose()
        self.put(self.model)
        lines = self.lines_of(self.accepted("show", self.anchor))
        self.assertEqual((lines["root nonce T"], lines["reserved H"]), ("15", "21: 2 attempts after the last change were lost"))
        self.assertEqual(lines["changes made"].split(",")[0], "7")
        report = self.report("show", self.anchor, self.card)
        self.assertEqual((report["root_nonce"], report["reserved_nonce"], report["changes"]), (15, 21, 7))

    def test_show_of_the_last_nonces(self):
        self.put(Card(KEY, 16, 2**64 - 16))
        self.assertEqual(self.report("show", self.anchor)["root_nonce"], 2**64 - 16)

    def test_anchor_that_others_can_read(self):
        for mode, open_to_others in ((0o600, False), (0o400, False), (0o640, True), (0o604, True), (0o644, True), (0o622, False)):
            self.anchor.chmod(mode)
            for words in (["read", self.anchor, self.card, "5"], ["check", self.anchor, self.card], ["show", self.anchor]):
                for form in ([], ["--json"]):
                    done = self.tool(words[0], *form, *words[1:])
                    self.assertEqual(done.returncode, 0)
                    self.assertEqual(b"warning: " in done.stderr and b"chmod 600" in done.stderr, open_to_others)


if __name__ == "__main__":
    unittest.main()
