"""The command line and the help."""

import json
import os
import re
import unittest

from support import LIBRARY, ODD, USAGE, ToolCase

COMMANDS = {
    "format": ["--depth", "--key-file", "--force"],
    "read": ["--output", "--text", "--hex"],
    "write": ["--input", "--text"],
    "recover": [],
    "wipe": ["--yes"],
    "check": ["--all", "--picture"],
    "show": [],
}
WORDS = {"format": 2, "read": 3, "write": 3, "recover": 2, "wipe": 2, "check": 2, "show": 2}


class CommandLine(ToolCase):
    def test_general_help(self):
        for words in (["--help"], ["help"], ["-h"]):
            output = self.accepted(*words).decode()
            for command, options in COMMANDS.items():
                line = re.search(rf"^  roundcard {command} .*$", output, re.MULTILINE).group()
                for option in options:
                    self.assertIn(option, line)
            for status in (1, 2, 3, 4, 5, 7, 8, 10, 64, 65, 70, 74, 77):
                self.assertRegex(output, rf"(?m)^ +{status}  ")
            for who in ("the calling software", "the anchor", "whoever has the card"):
                self.assertIn(who, output)

    def test_help_of_each_command(self):
        for command, options in COMMANDS.items():
            for words in ([command, "--help"], ["help", command], ["--help", command], [command, "x", "--help"], [command, "-h"], ["-h", command]):
                output = self.accepted(*words).decode()
                self.assertTrue(output.startswith(f"usage: roundcard {command} "), words)
                for option in [*options, "--json", "--wait SECONDS", "-h, --help"]:
                    self.assertRegex(output, rf"(?m)^  {option}\b")
                self.assertIn("Refused ", output)
                self.assertLessEqual(max(map(len, output.splitlines())), 88)

    def test_write_says_what_a_cut_leaves(self):
        output = " ".join(self.accepted("help", "write").decode().split())
        for part in ("four steps, each synced before the next", "A cut at any moment loses at most this block", "'roundcard recover'"):
            self.assertIn(part, output)

    def test_recover_says_what_it_cannot_do(self):
        output = " ".join(self.accepted("help", "recover").decode().split())
        for part in ("Every write and wipe recovers first", "After a wipe that was cut it has nothing to do: wipe the card again."):
            self.assertIn(part, output)

    def test_wipe_says_what_is_lost_and_what_a_cut_leaves(self):
        output = " ".join(self.accepted("help", "wipe").decode().split())
        for part in ("Every round on it is lost", "no earlier copy of the card will be accepted again"):
            self.assertIn(part, output)
        self.assertIn("A cut before the new anchor file is in place changes nothing but what the recovery before it does.", output)
        self.assertIn("Wipe it again: that mends it, whatever the cut left.", output)

    def test_version(self):
        self.assertRegex(self.accepted("--version"), rb"^roundcard \d+\.\d+\.\d+\n$")

    def test_no_such_command(self):
        wrong = [([], "a command is missing"), (["frmat"], "no command frmat"), (["help", "x"], "no command x"), ([""], "no command")]
        wrong += [(["help", "read", "x"], "too many: x"), (["--version", "x"], "too many: x"), (["--all", "check"], "the command comes first")]
        for words, says in wrong:
            done = self.tool(*words)
            self.assertEqual((done.returncode, done.stdout), (USAGE, b""))
            self.assertIn(says, done.stderr.decode())
            self.assertIn("roundcard --help", done.stderr.decode())
            told = self.tool(*words, "--json")
            self.assertEqual((told.returncode, told.stderr), (USAGE, b""))
            report = json.loads(told.stdout)
            self.assertEqual((report["command"], report["status"], report["accepted"]), (None, USAGE, False))
            self.assertIn(says if words else "the command comes first", report["message"])

    def test_words_missing_and_too_many(self):
        names = ["ANCHOR", "CARD", "BLOCK"]
        for command, count in WORDS.items():
            fewest = 1 if command == "show" else count
            option = ["--depth=1"] if command == "format" else []
            for given in range(fewest):
                self.fails(USAGE, command, *option, *"abc"[:given], says=[f"{names[given]} is missing", f"roundcard {command} --help"])
            self.fails(USAGE, command, *option, *"abcd"[: count + 1], says=["one word too many: " + "abcd"[count]])

    def test_unknown_options(self):
        every = {option for options in COMMANDS.values() for option in options}
        unknown = ["--jsn", "-H", "-", "--waits=1", "--jsonx", "--json=1", "--help=1", "--dep", "--depths", "--texts=1", "--hexa", "--forced"]
        for command, options in COMMANDS.items():
            for option in [*sorted(every - set(options)), *unknown]:
                self.fails(USAGE, command, "a", option, "c", says=[f"unknown option {option}"])

    def test_options_twice_or_without_value(self):
        self.fails(USAGE, "format", "a", "c", "--depth=1", "--depth", "2", says=["--depth is given twice"])
        self.fails(USAGE, "format", "a", "c", "--force", "--force", says=["--force is given twice"])
        self.fails(USAGE, "format", "a", "c", "--depth", says=["--depth needs a value"])
        self.fails(USAGE, "read", "a", "c", "1", "--hex=yes", says=["--hex takes no value"])
        self.fails(USAGE, "check", "a", "c", "--all", "--all", says=["--all is given twice"])
        self.fails(USAGE, "wipe", "a", "c", "--yes", "--yes", says=["--yes is given twice"])
        self.fails(USAGE, "wipe", "a", "c", "--yes=no", says=["--yes takes no value"])
        self.fails(USAGE, "check", "a", "c", "--wait=1", "--wait=1", says=["--wait is given twice"])
        for seconds in ("", "x", "-1", "1.5", "18446744073709551616"):
            self.fails(USAGE, "show", "a", "--wait", seconds, says=["is not a number of seconds"])

    def test_json_behind_an_error(self):
        for words in (["read", "--foo", "--json"], ["check", "a", "b", "c", "--json"], ["format", "--json"]):
            done = self.tool(*words)
            self.assertEqual((done.returncode, done.stderr), (USAGE, b""))
            self.assertEqual(json.loads(done.stdout)["status"], USAGE)

    @unittest.skipUnless(ODD, "the tool over a library that answers anything is tried beside the plain tool alone")
    def test_answers_that_the_library_does_not_have(self):
        self.made()
        last = self.anchor, self.card
        for answer in (8, 9, 255, 256, 256 + 3, 256 + 8, 16 * 256 + 8, 2**63, 2**63 + 8, 2**64 - 1):
            options = {"program": ODD, "env": dict(os.environ, ANSWER=str(answer))}
            self.fails(LIBRARY, "read", *last, "1", says=[f"unknown answer, {answer}"], **options)
            self.fails(LIBRARY, "write", *last, "1", "--text", "x", **options)
            self.fails(LIBRARY, "recover", *last, **options)
            self.fails(LIBRARY, "wipe", "--yes", *last, **options)
            self.fails(LIBRARY, "check", *last, **options)
            self.fails(LIBRARY, "check", "--all", *last, **options)
            self.fails(LIBRARY, "format", "--depth=2", "a", "c", **options)
        self.refused(6, "write", *last, "1", "--text", "x", program=ODD, env=dict(os.environ, ANSWER="6"))

    @unittest.skipUnless(ODD, "the tool over a library that answers anything is tried beside the plain tool alone")
    def test_reads_and_check_that_do_not_agree(self):
        self.made()
        for check, read in ((0, 9 * 256 + 8), (9 * 256 + 8, 0), (2 * 256 + 8, 3 * 256 + 8)):
            environment = dict(os.environ, ANSWER=str(read), CHECK_ANSWER=str(check))
            says = [f"contradicts itself: a check answers {check}", f"refused is {read // 256}"]
            self.fails(LIBRARY, "check", "--all", "--picture", "p", self.anchor, self.card, says=says, program=ODD, env=environment)
        for read in (1, 4, 5, 6, 7):
            environment = dict(os.environ, ANSWER=str(read), CHECK_ANSWER="0")
            self.fails(LIBRARY, "check", "--all", self.anchor, self.card, says=["unknown answer"], program=ODD, env=environment)

    def test_json_as_another_options_value(self):
        self.made()
        output = self.accepted("write", self.anchor, self.card, "1", "--text", "--json")
        self.assertIn(b"wrote block 1", output)
        self.assertEqual(self.accepted("read", "--text", self.anchor, self.card, "1"), b"--json\n")

    def test_options_anywhere_and_the_end_of_options(self):
        self.made()
        for words in (["--json", self.anchor, self.card], [self.anchor, "--json", self.card], [self.anchor, self.card, "--json"]):
            self.assertTrue(json.loads(self.accepted("check", *words))["accepted"])
        (self.room / "--json").write_bytes(self.card.read_bytes())
        output = self.accepted("check", "--", self.anchor, "--json")
        self.assertTrue(output.startswith(b"whole"))

    def test_no_option_for_the_key(self):
        for option in ("--key", "--key=000102030405060708090a0b0c0d0e0f"):
            self.fails(USAGE, "format", "--depth=1", option, "a", "c", says=["unknown option"])


if __name__ == "__main__":
    unittest.main()
