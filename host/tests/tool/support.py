"""What the tool's tests share: a folder of its own for each test, runs of the tool, and files compared byte for byte."""

import atexit
import fcntl
import json
import os
import shutil
import signal
import stat
import subprocess
import sys
import tempfile
import time
import unittest
from pathlib import Path

HERE = Path(__file__).resolve().parent
sys.path.insert(0, str(HERE.parent))

from cipher import Cmac  # noqa: E402, F401
from model import Card, aes_calls, entry, packed  # noqa: E402, F401

TOOL = Path(os.environ["ROUNDCARD"]).resolve()
FAULTS = os.environ.get("FAULTS") and Path(os.environ["FAULTS"]).resolve()
ODD = os.environ.get("ODD") and Path(os.environ["ODD"]).resolve()
KEY = bytes(range(0x40, 0x50))
NOBODY = 65534
USAGE, DATA, LIBRARY, FILE, UNCONFIRMED = 64, 65, 70, 74, 77
CUT = 99


# A check that runs in the background or under nohup has signals ignored, and what it starts inherits that. Here none is, but for the two
# that Python ignores itself and gives back to what it starts.
for number in signal.valid_signals() - {signal.SIGPIPE, signal.SIGXFSZ}:
    if signal.getsignal(number) == signal.SIG_IGN:
        signal.signal(number, signal.SIG_DFL)

atexit.register(lambda: print(f"{TOOL.parent.name}/{TOOL.name}: {ToolCase.runs} runs", flush=True))


def wiped(key, depth, root):
    """The card that a wipe to this root nonce leaves."""
    card = Card(key, depth, root - depth)
    card.wipe()
    return card


def block(text):
    """A text as a block."""
    return text.encode().ljust(64, b"\0")


class ToolCase(unittest.TestCase):
    runs = 0

    def setUp(self):
        self.room = Path(tempfile.mkdtemp(prefix="roundcard-"))
        self.addCleanup(shutil.rmtree, self.room)
        self.addCleanup(self.room.chmod, 0o700)
        self.anchor, self.card = self.room / "box.anchor", self.room / "box.card"
        self.journal = self.room / "box.card.roundcard-journal"

    def tool(self, *words, **options):
        """Runs the tool in the test's folder."""
        options.setdefault("stdin", subprocess.DEVNULL if "input" not in options else None)
        if options["stdin"] is None:
            del options["stdin"]
        options.setdefault("stdout", subprocess.PIPE)
        program = options.pop("program", TOOL)
        words = [program, *map(os.fspath, words)]
        ToolCase.runs += 1
        return subprocess.run(words, cwd=self.room, stderr=subprocess.PIPE, timeout=60, check=False, **options)

    def accepted(self, *words, **options):
        """Runs the tool, which must succeed without a word on standard error; gives its output."""
        done = self.tool(*words, **options)
        self.assertEqual((done.returncode, done.stderr), (0, b""), words)
        return done.stdout

    def fails(self, status, *words, says=(), **options):
        """Runs the tool, plainly and with --json: it must fail with the status, say these things, and change no file."""
        before = self.files()
        done = self.tool(*words, **options)
        self.assertEqual((done.returncode, done.stdout), (status, b""), (words, done.stderr))
        message = self.said = done.stderr.decode(errors="replace")
        for part in says:
            self.assertIn(part, message, words)
        self.assertEqual(self.files(), before, f"{words} changed a file")
        told = self.tool(words[0], "--json", *words[1:], **options)
        self.assertEqual(told.returncode, status, words)
        report = json.loads(told.stdout)
        self.assertEqual((report["command"], report["status"], report["accepted"]), (words[0], status, False))
        self.assertEqual(self.files(), before, f"{words} with --json changed a file")
        # What is said plainly is in the report, and nothing is said twice.
        self.assertIn(report["message"].split(chr(0xFFFD))[0], message)
        self.assertNotIn("refused", told.stderr.decode())
        return report

    def refused(self, number, *words, node=None, **options):
        """Fails with a refusal, and says who can mend it."""
        who = {2: "the anchor", 7: "the anchor", 3: "whoever has the card", 8: "whoever has the card", 10: "whoever keeps the journal"}
        who = who.get(number, "the calling software")
        report = self.fails(number, *words, **options)
        self.assertEqual((report["refusal"], report["who"], report.get("node")), (number, who, node), words)
        self.assertIn(f"refused, {number}: {report['message']}\n{who} can mend it: {report['advice']}\n", self.said)
        if node is not None:
            self.assertIn(f"node {node},", self.said)
        return report

    def report(self, *words, **options):
        """The JSON object that an accepted command gives: one line that json.tool takes."""
        output = self.accepted(words[0], "--json", *words[1:], **options)
        subprocess.run([sys.executable, "-m", "json.tool"], input=output, stdout=subprocess.DEVNULL, check=True)
        self.assertEqual(output.count(b"\n"), 1)
        report = json.loads(output)
        self.assertEqual((report["command"], report["status"], report["accepted"]), (words[0], 0, True))
        return report

    def bytes_of(self, path):
        """A file's bytes, of one that its owner cannot read too."""
        mode = stat.S_IMODE(path.stat().st_mode)
        if mode & stat.S_IRUSR:
            return path.read_bytes()
        path.chmod(0o600)
        data = path.read_bytes()
        path.chmod(mode)
        return data

    def files(self):
        """Every file of the folder: its kind and mode, owner and bytes."""
        found = {}
        for path in sorted(self.room.rglob("*")):
            status = path.lstat()
            regular = stat.S_ISREG(status.st_mode)
            found[str(path)] = status.st_mode, status.st_uid, self.bytes_of(path) if regular else None
        return found

    def put(self, card):
        """Puts a card of the model and its anchor into the two files, as format does, with no journal beside them."""
        self.card.write_bytes(card.bytes)
        self.anchor.write_bytes(card.anchor())
        self.anchor.chmod(0o600)
        self.journal.unlink(missing_ok=True)

    def made(self, depth=3, writes=()):
        """A card of the model with some rounds, in the two files."""
        card = Card(KEY, depth)
        for index, text in writes:
            card.write(index, block(text))
        self.put(card)
        return card

    def both_equal(self, card):
        """The two files are the model's, byte for byte."""
        self.assertEqual(self.anchor.read_bytes(), card.anchor())
        self.assertEqual(self.card.read_bytes(), bytes(card.bytes))

    def give(self, path, user, group):
        """Gives a file to somebody else."""
        try:
            os.chown(path, user, group)
        except OSError as reason:
            self.skipTest(f"files cannot be given away here: {reason}")

    def as_nobody(self):
        """Options for a run without a superuser's rights; the folder is given to that user."""
        if os.geteuid() != 0:
            return {}
        program = self.room / "roundcard"
        if not program.exists():
            shutil.copy(TOOL, program)
        for path in [self.room, *self.room.rglob("*")]:
            self.give(path, NOBODY, NOBODY)
        return {"program": program, "user": NOBODY, "group": NOBODY, "extra_groups": []}

    def replace_both(self):
        """What another process does while it has the lock."""
        self.model.write(4, block("meanwhile"))
        fresh = self.room / "fresh"
        fresh.write_bytes(self.model.anchor())
        fresh.chmod(0o600)
        fresh.rename(self.anchor)
        self.card.write_bytes(self.model.bytes)

    def wait_behind_a_lock(self, kind, words, meanwhile):
        """Starts a command while the anchor file is locked; it must wait until that ends."""
        with open(self.anchor, "rb") as held:
            fcntl.flock(held, kind)
            process = subprocess.Popen([TOOL, *words], stdout=subprocess.PIPE)
            time.sleep(0.3)
            self.assertIsNone(process.poll(), f"{words[0]} does not wait")
            meanwhile()
        self.assertEqual(process.wait(60), 0)
        output = process.stdout.read()
        process.stdout.close()
        return output


@unittest.skipUnless(FAULTS, "nothing can be preloaded before the sanitizers: cuts and failing calls are tried on the plain tool")
class FaultCase(ToolCase):
    """Runs that are cut off or whose calls fail, on two files of which self.old has the bytes."""

    def run_with(self, fault, *words, **options):
        environment = dict(os.environ, LD_PRELOAD=str(FAULTS), FAULT_LOG=str(self.room / "log"), FAULT=fault)
        return self.tool(*words, env=environment, **options)

    def steps(self, *words):
        """A run's calls that change files, in which it succeeds."""
        log = self.room / "log"
        log.unlink(missing_ok=True)
        self.assertEqual(self.run_with("", *words).returncode, 0)
        steps = [line for line in log.read_text().splitlines() if not line.startswith("wipe")]
        log.unlink()
        return steps

    def both(self):
        return self.card.read_bytes(), self.anchor.read_bytes()

    def start_again(self):
        self.card.write_bytes(self.old[0])
        self.anchor.write_bytes(self.old[1])
        for path in (self.journal, *self.room.glob("*.roundcard-new")):
            path.unlink(missing_ok=True)

    def failing(self, fault, number, *words):
        done = self.run_with(f"{fault}:{number}", *words)
        self.assertEqual((done.returncode, done.stdout), (FILE, b""), fault)
        self.assertIn(os.strerror(number), done.stderr.decode())
        return done.stderr.decode()

    def signalled(self, fault, number, *words):
        """The return code of a run that gets the signal at a step; in a session of its own no signal stops it."""
        done = self.run_with(f"{fault}:signal{number}", *words, start_new_session=True)
        self.said = done.stderr.decode()
        return done.returncode
