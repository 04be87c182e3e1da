"""Tests of the package: that pip installs it, what it has, and that its version is that of the program."""
import os
import pathlib
import re
import shutil
import subprocess
import sys
import tempfile
import unittest

from support import TOP, asked_program, program_path

import bgpnet

# Where a Python has the pip that it puts into new environments: Debian has it in python3-venv.
BUNDLED = """import ensurepip, pathlib, sysconfig, venv
folders = [pathlib.Path(ensurepip.__file__).parent / "_bundled", pathlib.Path(sysconfig.get_config_var("WHEEL_PKG_DIR") or "/")]
print(next(wheel for folder in folders for wheel in folder.glob("pip-*.whl")))"""
COMMANDS = re.compile(r'^bgpnet-(\w+) = "bgpnet\.commands\.(\w+):main"$', re.M)


def with_pip():
    """A Python that makes environments, and its pip, or nothing."""
    for path in (sys.executable, "/usr/bin/python3"):
        if os.access(path, os.X_OK):
            done = subprocess.run([path, "-c", BUNDLED], capture_output=True, text=True)
            if done.returncode == 0:
                return path, done.stdout.strip()
    return None


class Installed(unittest.TestCase):
    @classmethod
    def setUpClass(cls):
        found = with_pip()
        if found is None:
            raise unittest.SkipTest("no Python here has venv and ensurepip, so nothing is installed")
        python, pip = found
        cls.folder = tempfile.TemporaryDirectory()
        cls.addClassCleanup(cls.folder.cleanup)
        cls.place, source = pathlib.Path(cls.folder.name, "venv"), pathlib.Path(cls.folder.name, "source")
        shutil.copytree(TOP / "tools/bgpnet", source / "tools/bgpnet", ignore=shutil.ignore_patterns("__pycache__"))
        for name in ("pyproject.toml", "tools/README.md", "tools/build_backend.py"):
            shutil.copy(TOP / name, source / name)
        for words in ([python, "-m", "venv", "--without-pip", cls.place],
                      [cls.place / "bin/python", "-m", "pip", "install", "--no-index", "--no-build-isolation", source]):
            done = subprocess.run(words, capture_output=True, text=True, env=dict(os.environ, PYTHONPATH=pip))
            assert done.returncode == 0, done.stdout + done.stderr

    def run_one(self, *words, **variables):
        """Runs a command of the folder `bin`, with no variable but these, and PATH."""
        done = subprocess.run([self.place / "bin" / words[0], *words[1:]], capture_output=True, text=True, cwd=TOP,
                              env={"PATH": os.defpath, **variables})
        return done.returncode, done.stdout, done.stderr

    def test_nothing_is_left_where_it_was_built(self):
        source = pathlib.Path(self.folder.name, "source")
        self.assertEqual(sorted(path.name for path in source.iterdir()), ["pyproject.toml", "tools"])
        self.assertEqual(sorted(path.name for path in (source / "tools").iterdir() if path.name != "__pycache__"),
                         ["README.md", "bgpnet", "build_backend.py"])

    def test_it_goes_as_it_came(self):
        """What pip has recorded is all that it installed: then nothing is left, and it comes again."""
        place = next(self.place.glob("lib/python*/site-packages"))
        recorded = [line.split(",")[0] for line in next(place.glob("bgpnet-*.dist-info/RECORD")).read_text().splitlines()]
        found = [str(path.relative_to(place)) for path in place.glob("bgpnet*/**/*") if path.is_file()
                 and "__pycache__" not in path.parts]
        self.assertEqual(set(found) - set(recorded), set())
        self.assertTrue(all((place / name).exists() for name in recorded))

    def test_each_command(self):
        for tool, _ in COMMANDS.findall((TOP / "pyproject.toml").read_text()):
            with self.subTest(tool=tool):
                status, out, error = self.run_one(f"bgpnet-{tool}", "--help")
                self.assertEqual((status, error), (0, ""))
                self.assertIn(f"bgpnet-{tool} ", out)
                self.assertNotRegex(out, r"\btools/[a-z]")

    def test_where_the_program_is(self):
        """What BGPNET names, else what is on PATH."""
        words = "bgpnet-lint", "examples/play/reset.txt"
        self.assertEqual(self.run_one(*words)[::2], (1, "bgpnet-lint: no program bgpnet on PATH, and BGPNET names none\n"))
        answer = self.run_one(*words, BGPNET=program_path)
        self.assertIn("examples/play/reset.txt:18: ", answer[1])
        (self.place / "bin/bgpnet").symlink_to(program_path)
        self.addCleanup((self.place / "bin/bgpnet").unlink)
        self.assertEqual(self.run_one(*words, PATH=f"{self.place}/bin:{os.defpath}"), answer)
        self.assertIn("no program at /nowhere", self.run_one(*words, BGPNET="/nowhere")[2])

    def test_the_page_is_there(self):
        status, out, error = self.run_one("bgpnet-player", "examples/cut/disagree.txt", BGPNET=program_path)
        self.assertEqual((status, error), (0, ""))
        self.assertTrue(out.startswith("<!DOCTYPE html>"))

    def test_the_module(self):
        status, out, _ = self.run_one("python", "-c", "import bgpnet; print(bgpnet.__version__, bgpnet.__file__)")
        self.assertEqual((status, out.split()[0]), (0, bgpnet.__version__))
        self.assertIn(str(self.place), out)


class Described(unittest.TestCase):
    def test_each_tool_is_a_command(self):
        """An entry of tools/ that runs a module of the package is a command, and each command is such an entry."""
        commands = COMMANDS.findall((TOP / "pyproject.toml").read_text())
        entries = {path.name for path in (TOP / "tools").iterdir()
                   if path.is_file() and f"\nfrom bgpnet.commands.{path.name} import main\n\nmain()\n" in path.read_text()}
        self.assertEqual(set(commands), {(name, name) for name in entries})
        modules = {path.stem for path in (TOP / "tools/bgpnet/commands").glob("*.py")} - {"__init__"}
        self.assertEqual(modules, entries)

    def test_the_version(self):
        """The program, the package, the changelog and the citation say one."""
        said = asked_program().answer(["--version"], "", "the program")
        self.assertEqual(said, [f"bgpnet {bgpnet.__version__}"])
        self.assertRegex((TOP / "CITATION.cff").read_text(), rf"(?m)^version: {re.escape(bgpnet.__version__)}$")
        newest = re.search("^## (.*)$", (TOP / "CHANGELOG.md").read_text(), re.M)[1]
        self.assertEqual(newest.split(",")[0], bgpnet.__version__)


if __name__ == "__main__":
    unittest.main()
