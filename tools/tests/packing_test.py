"""Tests of `package`: what it packs runs where it is unpacked, is the same octets each time, and lintian has no error."""
import gzip
import os
import pathlib
import shutil
import subprocess
import sys
import tarfile
import tempfile
import unittest
import unittest.mock

from support import TOP, load, pictures_missing, program_path, run

import bgpnet

DEB, TAR = f"bgpnet_{bgpnet.__version__}_amd64.deb", f"bgpnet-{bgpnet.__version__}-linux-amd64.tar.gz"
TIME = "1760000000"


@unittest.skipUnless(shutil.which("dpkg-deb") and shutil.which("objdump"), "there is no dpkg-deb or objdump, so nothing is packed")
class Packed(unittest.TestCase):
    @classmethod
    def setUpClass(cls):
        folder = tempfile.TemporaryDirectory()
        cls.addClassCleanup(folder.cleanup)
        cls.folder = pathlib.Path(folder.name)
        package = load("package")  # one module: it asks each tool for its help once
        for name in ("one", "two"):
            with unittest.mock.patch.dict(os.environ, SOURCE_DATE_EPOCH=TIME):
                status, out, error = run("package", cls.folder / name, module=package)
            assert (status, error) == (0, ""), error
        cls.deb, cls.tar = cls.folder / "one" / DEB, cls.folder / "one" / TAR
        subprocess.run(["dpkg-deb", "-x", cls.deb, cls.folder / "root"], check=True)
        with tarfile.open(cls.tar) as pack:
            pack.extractall(cls.folder)
        cls.unpacked = cls.folder / f"bgpnet-{bgpnet.__version__}"

    def said(self, words, **variables):
        done = subprocess.run(words, capture_output=True, text=True, cwd=self.folder, env={"PATH": os.environ["PATH"], **variables})
        return done.returncode, done.stdout, done.stderr

    def test_two_are_the_same(self):
        for name in (DEB, TAR):
            self.assertEqual((self.folder / "one" / name).read_bytes(), (self.folder / "two" / name).read_bytes(), name)

    def test_lintian(self):
        if shutil.which("lintian") is None:
            self.skipTest("there is no lintian")
        status, out, _ = self.said(["lintian", "--fail-on", "error", "--allow-root", self.deb])
        self.assertEqual((status, [line for line in out.splitlines() if line.startswith("E:")]), (0, []))

    def test_the_package(self):
        """The files of the package, as they stand below `/`."""
        share = self.folder / "root/usr/share"
        example = share / "doc/bgpnet/examples/disagree.txt"
        binary = self.folder / "root/usr/bin"
        where = {"BGPNET": str(binary / "bgpnet"), "PYTHONPATH": str(self.folder / "root/usr/lib/python3/dist-packages")}
        self.assertEqual(pictures_missing(share / "doc/bgpnet"), [])
        codes = []
        for path in (binary / "bgpnet", program_path):
            subprocess.run(["objcopy", "-O", "binary", "--only-section=.text", path, self.folder / "code"], check=True)
            codes.append((self.folder / "code").read_bytes())
        self.assertGreater(len(codes[0]), 10_000)
        self.assertEqual(*codes)
        self.assertEqual(self.said([binary / "bgpnet", "--version"])[:2], (0, f"bgpnet {bgpnet.__version__}\n"))
        self.assertEqual(self.said([sys.executable, binary / "bgpnet-draw", example], **where)[1], run("draw", example)[1])
        for tool in sorted(path.stem for path in (TOP / "tools/bgpnet/commands").glob("*.py") if path.stem != "__init__"):
            self.assertTrue(os.access(binary / f"bgpnet-{tool}", os.X_OK))
            page = gzip.decompress((share / f"man/man1/bgpnet-{tool}.1.gz").read_bytes()).decode()
            self.assertIn(".SH NAME\nbgpnet\\-" + tool + " \\- ", page)
            self.assertIn(f"bgpnet\\-{tool}", page.split(".SH SYNOPSIS")[1])

    def test_the_tar(self):
        """It runs where it is unpacked, without a variable, and finds its own program."""
        example = self.unpacked / "share/doc/bgpnet/examples/whatif/backup.txt"
        status, out, error = self.said([self.unpacked / "bin/bgpnet-whatif", example, "--fail", "1-2"])
        self.assertEqual((status, out, error), (3, run("whatif", example, "--fail", "1-2")[1], ""))
        self.assertEqual(self.said([self.unpacked / "bin/bgpnet-topology", "--help"])[0], 0)

    def test_the_pages(self):
        """Each page has no fault that `man` sees, where it is there, and tells the words of the program."""
        folder = self.folder / "root/usr/share/man/man1"
        page = gzip.decompress((folder / "bgpnet.1.gz").read_bytes()).decode()
        for word in ("DECODE", "CHECK", "STABLE", "SAFE", "PLAY", "CUT", "WHY", "TRACE", "RUN", "RECORD"):
            self.assertIn(f".SH BGPNET {word}\n", page)
        if shutil.which("man"):
            for path in (folder / "bgpnet.1.gz", folder / "bgpnet-whatif.1.gz"):
                status, out, error = self.said(["man", "--warnings", "-l", path], MANWIDTH="100", MANROFFSEQ="", LC_ALL="C.UTF-8")
                self.assertEqual((status, error), (0, ""))
                self.assertGreater(len(out.splitlines()), 40)

    def test_completions(self):
        folder = self.folder / "root/usr/share/bash-completion/completions"
        asked = 'source "$1"; COMP_WORDS=("${@:4}"); COMP_CWORD=$3; "$2"; printf "%s\\n" "${COMPREPLY[@]}"'
        for name, words, wanted in (("bgpnet", ["bgpnet", "st"], ["stable"]), ("bgpnet", ["bgpnet", "stable", "--st"], ["--steps"]),
                                    ("bgpnet-whatif", ["bgpnet-whatif", "x", "--fail"], ["--fail", "--fail-each-link"]),
                                    ("bgpnet-draw", ["bgpnet-draw", "x"], [""])):
            status, out, error = self.said(["bash", "-c", asked, "-", folder / name, "_" + name.replace("-", "_"),
                                            str(len(words) - 1), *words])
            self.assertEqual((status, out.split("\n")[:-1], error), (0, wanted, ""))

    def test_what_is_not_packed(self):
        names = subprocess.run(["dpkg-deb", "--contents", self.deb], capture_output=True, text=True, check=True).stdout
        for name in ("__pycache__", "/tests/", "examples/try", "tools/test"):
            self.assertNotIn(name, names)
        self.assertIn("root/root", names)


if __name__ == "__main__":
    unittest.main()
