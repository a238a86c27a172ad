"""The man page and the completion say what the tool takes."""

import os
import re
import shutil
import subprocess
import unittest

from support import HERE, TOOL, ToolCase
from test_command_line import COMMANDS

HOST = HERE.parent.parent
PAGE = HOST / "man" / "roundcard.1"
COMPLETION = HOST / "completion" / "roundcard"
COMMON = ["--json", "--wait", "--help"]


class ManPage(ToolCase):
    def setUp(self):
        super().setUp()
        self.page = re.sub(r"\\f.", "", PAGE.read_text().replace("\\-", "-"))

    def sections(self):
        """The page's part on each command."""
        parts = re.split(r"(?m)^\.SS (\w+)$", self.page.split(".SH OPTIONS OF EVERY COMMAND")[0])
        return dict(zip(parts[1::2], parts[2::2]))

    def test_options_are_those_of_the_tool(self):
        self.assertEqual(list(self.sections()), list(COMMANDS))
        for command, part in self.sections().items():
            self.assertEqual(re.findall(r"(?m)^\.BI? (--[\w-]+)", part), COMMANDS[command])
            line = re.search(rf"(?m)^roundcard {command}\b.*$", self.page).group()
            for option in COMMANDS[command]:
                self.assertIn(option, line)
        common = self.page.split(".SH OPTIONS OF EVERY COMMAND")[1].split(".SH ")[0]
        for option in COMMON:
            self.assertRegex(common, rf'(?m)^\.B.* "?{option}\b')

    def test_statuses_are_those_of_the_help(self):
        statuses = re.findall(r"(?m)^ +(\d+)  ", self.accepted("--help").decode())
        part = self.page.split(".SH EXIT STATUS")[1].split(".SH ")[0]
        self.assertEqual(re.findall(r"(?m)^\.B (\d+)$", part), ["0", *statuses])

    def test_version(self):
        version = self.accepted("--version").decode().strip()
        self.assertIn(f'"{version}"', self.page.splitlines()[0])

    @unittest.skipUnless(shutil.which("groff"), "groff is not here, so the page is not formatted")
    def test_page_formats_without_a_warning(self):
        done = subprocess.run(["groff", "-man", "-ww", "-Tascii", PAGE], capture_output=True, check=False)
        self.assertEqual((done.returncode, done.stderr), (0, b""))
        self.assertIn(b"A file is missing or locked", done.stdout)

    def test_examples_run(self):
        examples = self.page.split(".SH EXAMPLES\n.nf\n")[1].split(".fi")[0]
        script = f'set -e\nroundcard() {{ "{TOOL}" "$@"; }}\n{examples}'
        done = subprocess.run(["sh", "-c", script], cwd=self.room, capture_output=True, check=False)
        self.assertEqual((done.returncode, done.stderr), (0, b""))
        self.assertIn(b"van 7: round 12\n", done.stdout)
        self.assertTrue((self.room / "box.svg").exists())


@unittest.skipUnless(shutil.which("bash"), "bash is not here, so nothing is completed")
class Completion(ToolCase):
    def offers(self, *words):
        """What bash offers for the last word, with the rest before it."""
        script = f'source "{COMPLETION}"; COMP_WORDS=(roundcard "$@"); COMP_CWORD=$#; _roundcard; printf "%s\\n" "${{COMPREPLY[@]}}"'
        done = subprocess.run(["bash", "-c", script, "bash", *words], cwd=self.room, capture_output=True, check=False)
        self.assertEqual(done.stderr, b"")
        return [line for line in done.stdout.decode().splitlines() if line]

    def test_commands(self):
        self.assertEqual(self.offers(""), [*COMMANDS, "help", "--help", "--version", "-h"])
        self.assertEqual(self.offers("sh"), ["show"])
        for word in ("help", "--help", "-h"):
            self.assertEqual(self.offers(word, ""), list(COMMANDS))
            self.assertEqual(self.offers(word, "read", ""), [])
        self.assertEqual(self.offers("frmat", ""), [])

    def test_options(self):
        for command, options in COMMANDS.items():
            self.assertEqual(self.offers(command, "--"), [*options, *COMMON])
        self.assertEqual(self.offers("read", "--t"), ["--text"])

    def test_values_and_files(self):
        for name in ("box.anchor", "box.card", "two words", "key"):
            (self.room / name).touch()
        every = sorted(os.listdir(self.room))
        self.assertEqual(self.offers("format", "--depth", "1"), ["1", *map(str, range(10, 17))])
        self.assertEqual(self.offers("format", "--depth", "=", "1"), ["1", *map(str, range(10, 17))])
        self.assertEqual(self.offers("format", "--key-file", "k"), ["key"])
        self.assertEqual(self.offers("check", "--picture", "=", "two"), ["two words"])
        for words in (["write", "--text", ""], ["check", "--wait", ""], ["write", "--text", "x", "a", "c", ""]):
            self.assertEqual(self.offers(*words), [], words)
        open_to_files = [["read", "--text", ""], ["read", "--text", "a", ""], ["write", "--text", "x", "a", ""], ["show", "--", ""]]
        open_to_files += [["check", "--wait", "1", "--all", ""], ["check", "--wait", "=", "1", "a", ""], ["write", "--text", "=", "x", "a", ""]]
        for words in open_to_files:
            self.assertEqual(sorted(self.offers(*words)), every, words)
        for words in (["read", "--text", "a", "c", ""], ["check", "--wait", "=", "1", "a", "c", ""], ["show", "--", "--wait", "c", ""]):
            self.assertEqual(self.offers(*words), [], words)

    def test_it_loads_as_bash_does(self):
        line = f'source "{COMPLETION}"; complete -p roundcard'
        done = subprocess.run(["bash", "-c", line], capture_output=True, check=False)
        self.assertEqual((done.returncode, done.stdout), (0, b"complete -o filenames -F _roundcard roundcard\n"))


if __name__ == "__main__":
    unittest.main()
