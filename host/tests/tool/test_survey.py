"""roundcard check --all: the blocks that are refused, as a list, as a map, as a picture and as JSON."""

import errno
import json
import os
import pty
import unittest
from xml.etree import ElementTree

from support import FILE, KEY, USAGE, Card, ToolCase, entry

SVG = "{http://www.w3.org/2000/svg}"


class Survey(ToolCase):
    def damaged(self, depth, *nodes):
        """A card with a wrong byte in each of these nodes' tags."""
        self.model = Card(KEY, depth)
        for node in nodes:
            self.model.bytes[entry(depth, node).stop - 1] ^= 1
        self.put(self.model)
        return "check", "--all", self.anchor, self.card

    def runs(self):
        """The runs that the model finds."""
        found = []
        for index in range(2**self.model.depth):
            node = self.model.first_wrong(self.model.path(index)[1:])
            if node is not None and found and found[-1]["node"] == node:
                found[-1]["last"] = index
            elif node is not None:
                found.append({"first": index, "last": index, "node": node})
        return found

    def both(self, words, status=8):
        """What is printed, and the object, which names what a plain check names."""
        before = self.files()
        done, told, plain = self.tool(*words), self.tool(words[0], "--json", *words[1:]), self.tool("check", *words[-2:])
        self.assertEqual((done.returncode, told.returncode, plain.returncode), (status,) * 3)
        self.assertEqual((done.stderr, told.stderr), (plain.stderr, b""))
        self.assertEqual(self.files(), before)
        return done.stdout.decode(), json.loads(told.stdout)

    def test_whole_card(self):
        for depth, rows in ((1, [".."]), (3, ["." * 8]), (6, ["." * 64]), (7, ["." * 64] * 2)):
            output, report = self.both(self.damaged(depth), 0)
            count = 2**depth
            first = f"whole: the tags of all {2 * count - 2} nodes are right, over {count} blocks, and each block is read"
            self.assertEqual(output.splitlines()[0], first)
            self.assertEqual([line[9:] for line in output.splitlines()[2:]], rows)
            expected = {"nodes": 2 * count - 2, "blocks": count, "refused_blocks": 0, "runs": [], "blocks_per_character": 1, "map": rows}
            self.assertEqual({name: report[name] for name in expected}, expected)

    def test_runs_and_map(self):
        sets = [(8,), (15,), (4,), (2,), (3,), (2, 3), (4, 10), (6, 14), (8, 9), (8, 10), (5, 9, 15), range(8, 16), range(2, 16)]
        for nodes in sets:
            with self.subTest(nodes=nodes):
                output, report = self.both(self.damaged(3, *nodes))
                runs = self.runs()
                self.assertEqual([{name: run[name] for name in ("first", "last", "node")} for run in report["runs"]], runs)
                self.assertEqual((report["refusal"], report["node"]), (8, min(nodes)))
                refused = {index for run in runs for index in range(run["first"], run["last"] + 1)}
                self.assertEqual((report["blocks"], report["refused_blocks"]), (8, len(refused)))
                row = "".join("#" if index in refused else "." for index in range(8))
                self.assertEqual(report["map"], [row])
                self.expect_printed(output, report, row)

    def expect_printed(self, output, report, row):
        lines = output.splitlines()
        count = len(report["runs"])
        self.assertEqual(lines[0], f"refused: {report['refused_blocks']} of 8 blocks, in {count} run{'s' if count > 1 else ''}")
        for run, line in zip(report["runs"], lines[1:]):
            blocks = f"block {run['first']}" if run["first"] == run["last"] else f"blocks {run['first']} to {run['last']}"
            more = "; writing it again mends it" if run["write_mends"] else ""
            self.assertEqual(line, f"  {blocks:22}  at node {run['node']}{more}")
        self.assertTrue(lines[1 + count].startswith("map, a character for each block: "))
        self.assertEqual(lines[2 + count :], [f"      0  {row}"])

    def test_what_a_write_mends(self):
        for nodes, mends in (((8,), [True]), ((8, 9), [False, False]), ((8, 5), [False, False]), ((8, 3), [False, False]), ((8, 12), [True, True])):
            words = self.damaged(3, *nodes)
            runs = self.both(words)[1]["runs"]
            self.assertEqual([run["write_mends"] for run in runs], mends, nodes)
            for run in runs:
                if run["write_mends"]:
                    self.accepted("write", "--text", "x", *words[-2:], str(run["first"]))
            if all(mends):
                self.accepted(*words)

    def test_large_card(self):
        self.assertEqual(self.tool("format", "--depth=16", self.anchor, self.card).returncode, 0)
        data = bytearray(self.card.read_bytes())
        for node in (2**16 + 70, 2**16 + 64 * 63, 2**10 + 65, 2**15 + 32767):
            data[entry(16, node).stop - 1] ^= 1
        self.card.write_bytes(data)
        output, report = self.both(("check", "--all", self.anchor, self.card))
        self.assertEqual((report["blocks"], report["refused_blocks"], report["blocks_per_character"]), (65536, 1 + 1 + 64 + 2, 64))
        rows = ["." * 64] * 16
        rows[0] = "." + "+" + "." * 61 + "+"
        rows[1] = "." + "#" + "." * 62
        rows[15] = "." * 63 + "+"
        self.assertEqual(report["map"], rows)
        printed = output.splitlines()
        self.assertIn("a character for each 64 blocks: . accepted, + some refused, # all refused", printed[5])
        self.assertEqual(printed[6:], [f"{4096 * k:7}  {row}" for k, row in enumerate(rows)])

    def test_refused_for_another_reason(self):
        words = self.damaged(3)
        card, anchor = self.card.read_bytes(), self.anchor.read_bytes()
        for change, number in ((anchor[:16] + bytes(24), 1), (anchor[:39] + b"\1", 2), (anchor[:31], 5)):
            self.anchor.write_bytes(change)
            self.refused(number, *words)
            self.refused(number, *words, "--picture", "p.svg")
        self.anchor.write_bytes(anchor)
        self.card.write_bytes(card[:-1])
        self.refused(3, *words)

    def test_report_that_cannot_be_printed(self):
        words = self.damaged(3, 9)
        for form in ([], ["--json"]):
            with open("/dev/full", "wb") as full:
                done = self.tool(*words, *form, stdout=full)
            self.assertEqual(done.returncode, FILE)
            for part in ("cannot write to standard output", "refused, 8: the tag of node 9, block 1, is wrong", "or write block 1 again"):
                self.assertIn(part, done.stderr.decode())

    def on_a_terminal(self, words, **variables):
        """What a terminal gets."""
        environment = {name: value for name, value in os.environ.items() if name not in ("TERM", "NO_COLOR")}
        parent, child = pty.openpty()
        done = self.tool(*words, stdout=child, env=dict(environment, **variables))
        os.close(child)
        shown = b""
        try:
            while part := os.read(parent, 4096):
                shown += part
        except OSError as reason:
            self.assertEqual(reason.errno, errno.EIO)
        os.close(parent)
        self.assertEqual(done.returncode, 8)
        return shown.decode().replace("\r\n", "\n")

    def test_colours(self):
        words = self.damaged(3, 9, 6)
        plain = self.tool(*words).stdout.decode()
        self.assertNotIn("\033", plain)
        shown = self.on_a_terminal(words, TERM="xterm")
        self.assertIn("\033[32m.\033[0m\033[1;31m#\033[0m\033[32m..\033[0m\033[1;31m##\033[0m\033[32m..\033[0m\n", shown)
        self.assertIn("\033[32m", self.on_a_terminal(words, TERM="xterm", NO_COLOR=""))
        for variables in ({"TERM": "xterm", "NO_COLOR": "1"}, {"TERM": "dumb"}, {"TERM": ""}, {}):
            self.assertEqual(self.on_a_terminal(words, **variables), plain, variables)
        self.assertNotIn("\033", self.on_a_terminal((*words, "--json"), TERM="xterm"))


class Picture(ToolCase):
    damaged = Survey.damaged

    def picture(self, *words):
        """The image, which is whole XML, and its squares by kind."""
        path = self.room / "map.svg"
        done = self.tool(*words, "--picture", path)
        self.assertIn(done.returncode, (0, 8))
        root = ElementTree.fromstring(path.read_text())
        self.assertEqual((root.tag, root.get("role")), (f"{SVG}svg", "img"))
        self.assertEqual(root.get("aria-labelledby"), " ".join(root.find(f"{SVG}{name}").get("id") for name in ("title", "desc")))
        squares = [(rect.get("class"), rect.find(f"{SVG}title").text) for rect in root.iter(f"{SVG}rect") if rect.find(f"{SVG}title") is not None]
        return root, squares

    def test_squares(self):
        root, squares = self.picture(*self.damaged(3, 9, 6))
        refused = {1, 4, 5}
        expected = [("k2", f"block {k}: refused") if k in refused else ("k0", f"block {k}: accepted") for k in range(8)]
        self.assertEqual(squares, expected)
        self.assertEqual(root.find(f"{SVG}title").text, f"Map of the card {self.card}: 3 of 8 blocks refused")
        self.assertEqual(root.find(f"{SVG}desc").text, "Refused: block 1 at node 9; blocks 4 to 5 at node 6.")
        words = [text.text for text in root.iter(f"{SVG}text")]
        for word in ("box.card", "3 of 8 blocks refused; a square is a block", "accepted", "refused", "0"):
            self.assertIn(word, words)

    def test_whole_card_and_without_all(self):
        check, _, *files = self.damaged(2)
        root, squares = self.picture(check, *files)
        self.assertEqual(squares, [("k0", f"block {k}: accepted") for k in range(4)])
        self.assertEqual(root.find(f"{SVG}desc").text, "All blocks are accepted.")

    def test_many_runs(self):
        root, squares = self.picture(*self.damaged(6, *range(64, 128)))
        self.assertEqual(len(squares), 64)
        self.assertTrue(root.find(f"{SVG}desc").text.endswith("block 15 at node 79; and 48 runs more."))

    def test_squares_lie_apart_within_the_image(self):
        for depth in (1, 6, 8):
            root, _ = self.picture(*self.damaged(depth, 2))
            width, height = (int(root.get(name)) for name in ("width", "height"))
            places = [tuple(int(rect.get(name)) for name in ("x", "y", "width", "height")) for rect in root.iter(f"{SVG}rect") if rect.get("class")]
            for x, y, wide, high in places:
                self.assertTrue(0 <= x and x + wide <= width and 0 <= y and y + high <= height)
            self.assertEqual(len({place[:2] for place in places}), len(places))

    def test_names_in_the_picture(self):
        words = self.damaged(2, 4)
        for name in ("<&>.card", "a\033b\n.card", "é\x01.card", os.fsdecode(b"\xff.card")):
            (self.room / name).write_bytes(self.card.read_bytes())
            root, _ = self.picture("check", self.anchor, name)
            shown = name.replace("\033", "\\x1b").replace("\n", "\\n").replace("\x01", "\\x01").replace("\udcff", "\\xff")
            self.assertEqual(root.find(f"{SVG}title").text, f"Map of the card {shown}: 1 of 4 blocks refused")

    def test_picture_is_replaced_whole(self):
        words = self.damaged(3, 9)
        old = self.room / "map.svg"
        old.write_bytes(bytes(300000))
        old.chmod(0o640)
        self.picture(*words)
        self.assertEqual(old.stat().st_mode & 0o777, 0o640)
        self.assertEqual({path.name for path in self.room.iterdir()}, {"box.anchor", "box.card", "map.svg"})

    def test_pictures_that_cannot_be_written(self):
        words = self.damaged(3, 9)
        for path in (self.anchor, self.card, "./box.card"):
            self.fails(USAGE, *words, "--picture", path, says=["is the anchor or the card"])
        self.fails(USAGE, *words, "--picture", "-", says=["--picture needs a file"])
        self.fails(FILE, *words, "--picture", "none/p.svg", says=["none/p.svg", "No such file"])
        self.fails(FILE, *words, "--picture", self.room, says=["Is a directory"])
        self.fails(FILE, *words, "--picture", "/dev/full", says=["No space left"])


if __name__ == "__main__":
    unittest.main()
