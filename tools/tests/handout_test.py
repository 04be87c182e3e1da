"""Tests of `handout`: what is packed runs where it is unpacked."""
import os
import pathlib
import subprocess
import sys
import tempfile
import unittest
import zipfile

from support import pictures_missing, run


class Handout(unittest.TestCase):
    def unpacked(self, folder, *words):
        pack = pathlib.Path(folder, "class.zip")
        self.assertEqual(run("handout", pack, *words), (0, "", ""))
        with zipfile.ZipFile(pack) as file:
            for info in file.infolist():
                path = pathlib.Path(file.extract(info, folder))
                path.chmod(info.external_attr >> 16)
            return pathlib.Path(folder, "class"), file.namelist()

    def test_what_is_packed_runs(self):
        with tempfile.TemporaryDirectory() as folder:
            place, names = self.unpacked(folder, "examples/disagree.txt", "examples/play/session.txt")
            self.assertEqual(len(names), len(set(names)))
            environment = dict(os.environ, BGPNET="./bgpnet")
            for words in (["examples/try", "examples/disagree.txt", "examples/play/session.txt"],
                          ["tools/lint", "examples/play/session.txt"], ["tools/draw", "examples/disagree.txt"]):
                done = subprocess.run([sys.executable, *words], cwd=place, env=environment, capture_output=True, text=True)
                self.assertEqual((done.returncode, done.stderr), (0, ""))
            self.assertIn("examples/play/session.txt", (place / "START.txt").read_text())
            self.assertIn("class/examples/SOLUTIONS.md", names)
            self.assertEqual(pictures_missing(place), [])

    def test_without_answers(self):
        with tempfile.TemporaryDirectory() as folder:
            place, names = self.unpacked(folder, "--without-answers")
            self.assertNotIn("class/examples/SOLUTIONS.md", names)
            sheets = list((place / "examples").rglob("*.txt"))
            self.assertGreater(len(sheets), 40)
            self.assertFalse([path for path in sheets if "# answer: " in path.read_text()])

    def test_files_of_ones_own(self):
        with tempfile.TemporaryDirectory() as folder:
            sheet = pathlib.Path(folder, "sheet.txt")
            sheet.write_text("router 1 10.0.0.1\n# answer: stable\n")
            place, _ = self.unpacked(folder, sheet)
            self.assertEqual((place / "examples/sheet.txt").read_text(), sheet.read_text())

    def test_two_packs_are_the_same(self):
        with tempfile.TemporaryDirectory() as folder:
            packs = [pathlib.Path(folder, name, "class.zip") for name in ("one", "two")]
            for pack in packs:
                pack.parent.mkdir()
                run("handout", pack, "examples/disagree.txt")
            self.assertEqual(*(pack.read_bytes() for pack in packs))

    def test_refusals(self):
        with tempfile.TemporaryDirectory() as folder:
            pack = pathlib.Path(folder, "class.zip")
            self.assertEqual(run("handout", pack, "/nowhere.txt"), (1, "", "handout: /nowhere.txt: No such file or directory\n"))
            self.assertFalse(pack.exists())
            pack.write_bytes(b"x")
            self.assertEqual(run("handout", pack), (1, "", f"handout: {pack} is there\n"))
            self.assertEqual(pack.read_bytes(), b"x")
        self.assertEqual(run("handout")[0], 2)


if __name__ == "__main__":
    unittest.main()
