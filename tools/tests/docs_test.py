"""Runs what the documents show, as it is written, and compares. Where they name the built program, it is the one of the
test."""
import os
import pathlib
import re
import subprocess
import tempfile
import unittest

from support import TOP, program_path, run

import bgpnet
from bgpnet.program import SAID, Program

DOCUMENTS = [TOP / "README.md", *(path for folder in ("docs", "examples", "tools")
                                  for path in sorted((TOP / folder).glob("*.md")))]
# What is not run here: the kit and the gate, another program, a file of the reader's, what installs.
NOT_RUN = re.compile(r"\brt (?!try -- )|^\.ci/run|\btshark\b|\boctets\.bin\b|\bupdates\.|^git |"
                     r"\bapt install\b|\bpip install\b|/usr/share/doc/|^tools/package ")
PROGRAM = re.compile(r"(?<![\w/])((crates/bgpnet/out/)?bgpnet(?= )|rt try --(?= ))")


def shown(text):
    """The commands of a document, each with the lines that it prints, up to the end of their block. A command goes on in
    lines that begin with `>`, or behind a backslash."""
    found, is_inside = [], False
    for line in text.splitlines():
        is_first = line.startswith("    $ ")
        is_inside = is_first or is_inside and line.startswith("    ")
        if is_first:
            found.append((line[6:], []))
        elif is_inside:
            command, printed = found[-1]
            if not printed and (line.startswith("    > ") or command.endswith("\\")):
                found[-1] = command + "\n" + line[4:].removeprefix("> "), printed
            else:
                printed.append(line[4:])
    return found


class Documents(unittest.TestCase):
    def test_what_they_show(self):
        number = 0
        with tempfile.TemporaryDirectory() as folder:
            for name in ("tools", "examples", "docs", "crates"):
                (pathlib.Path(folder) / name).symlink_to(TOP / name)
            for document in DOCUMENTS:
                for command, wanted in shown(document.read_text()):
                    if not NOT_RUN.search(command):
                        number += 1
                        with self.subTest(document=document.name, command=command):
                            self.run_one(folder, command, wanted)
            self.assertIn("</svg>", (pathlib.Path(folder) / "film.svg").read_text())
        self.assertGreater(number, 20)

    def run_one(self, folder, command, wanted):
        done = subprocess.run(["bash", "-c", PROGRAM.sub(program_path, command)], cwd=folder,
                              env=dict(os.environ, BGPNET=program_path), capture_output=True, text=True)
        printed = done.stdout.splitlines()
        if PROGRAM.search(command) and " run" in command and printed == ["unsettled"]:
            return  # as the timing of the threads has it
        statuses = (0, 3, 4, 5, 6) if command.startswith("tools/") else (0, 1)
        unsaid = SAID.sub("", done.stderr).strip()  # the program says what a refusal means
        self.assertEqual((done.returncode in statuses, printed, unsaid), (True, wanted, ""))

    def test_each_code_is_told(self):
        """Each code that `check` and `play` print is in docs/TEXTS.md, and the program has words for it."""
        text = (TOP / "docs/TEXTS.md").read_text()
        told = set(re.findall(r"\b([NSEVG]\d)\b", text.split("## Statuses")[0] + text.split("## Refusals")[1]))
        said = (TOP / "crates/error_words/src/meanings.rt").read_text()
        self.assertEqual(told, set(re.findall(r'"([A-Z]\d)"', said)))

    def test_the_program_says_what_failed(self):
        """On the standard error, beside an output and a status that stay as they are."""
        def said(given, taker=subprocess.PIPE):
            with tempfile.TemporaryFile() as source:
                source.write(given)
                source.seek(0)
                return ended(source, taker)

        def ended(source, taker=subprocess.PIPE):
            done = subprocess.run([program_path, "check"], stdin=source, stdout=taker, stderr=subprocess.PIPE)
            return done.returncode, done.stdout, done.stderr.decode()

        self.assertEqual(said(b"router 1 10.0.0.1\nlink 1 2\n"),
                         (1, b"refused 2 N3\n", "bgpnet: line 2: N3: a router that no earlier line names: link 1 2\n"))
        folder = os.open("/", os.O_RDONLY)
        self.assertEqual(ended(folder), (4, b"", "bgpnet: the standard input can't be read\n"))
        os.close(folder)
        with open("/dev/full", "wb") as full:
            self.assertEqual(said(b"", full)[::2], (4, "bgpnet: the standard output can't be written\n"))

    def test_the_gate_expects_each_row(self):
        """The gate compares what the run of the rows says with a text, which has the number of cases of each file."""
        rows = TOP / "crates/program_rows"
        wanted = {}
        for line in (rows / "stdout").read_text().splitlines():
            name, number = re.fullmatch(r"(\S+): (\d+) cases, 0 different", line).groups()
            wanted[name] = int(number)
        found = {path.name: sum(line.startswith("== ") for line in path.read_text().splitlines())
                 for path in (rows / "data").glob("*.rows")}
        self.assertEqual(wanted, found)

    def test_the_map_of_the_modules(self):
        """The docstring of the package names each of its modules and folders, and no other."""
        package = TOP / "tools/bgpnet"
        named = set(re.findall("^    ([a-z_]+)/? ", bgpnet.__doc__, re.M))
        self.assertEqual(named, {path.stem for path in package.iterdir()
                                 if path.suffix in ("", ".py") and not path.name.startswith("__")})

    def test_each_tool_has_a_help_with_an_example(self):
        for tool in ("ask", "streams", "topology", "settle", "lint", "whatif", "config", "beside", "beside_frr", "draw", "film",
                     "chart", "player", "handout", "package", "pictures", "test"):
            self.assertTrue(os.access(TOP / "tools" / tool, os.X_OK))
            status, out, error = run(tool, "--help")
            self.assertEqual((status, error), (0, ""))
            self.assertIn(f"    tools/{tool}", out)
            self.assertIn(f"tools/{tool}", (TOP / "tools/README.md").read_text())


class Sweeps(unittest.TestCase):
    def test_words(self):
        """The sweeps over the built program read their words as the tools do, and say what they can't do."""
        for name in ("run", "full", "memory", "stable"):
            with self.subTest(name=name):
                sweep = f"../sweeps/{name}"
                self.assertEqual(run(sweep, "--help")[::2], (0, ""))
                self.assertIn(f"    sweeps/{name} [PROGRAM", (TOP / "sweeps" / name).read_text())
                self.assertEqual(run(sweep, "--frobnicate")[:2], (2, ""))
                status, out, error = run(sweep, "/nowhere")
                self.assertEqual((status, out, error.startswith(f"{name}: no program at /nowhere: ")), (1, "", True), error)


class Sheets(unittest.TestCase):
    """`examples/try FILE ..`, which tries sheets of a reader's own."""

    def tried(self, *texts, words=(), program=None, cwd=None):
        with tempfile.TemporaryDirectory() as folder:
            names = []
            for number, text in enumerate(texts):
                names.append(str(pathlib.Path(folder, f"{number}.txt")))
                pathlib.Path(names[-1]).write_bytes(text if isinstance(text, bytes) else text.encode())
            done = subprocess.run([TOP / "examples/try", *words, *names], cwd=cwd, capture_output=True, text=True,
                                  env=dict(os.environ, BGPNET=program or program_path))
            return done.returncode, done.stdout.replace(folder + "/", ""), done.stderr

    def test_each_word(self):
        network = "router 1 10.0.0.1\norigin 1 10.1.0.0/16\n"
        played = "# answer: now\n# answer: route 1 10.1.0.0/16 1\n" + network
        played += "schedule\noriginate 1 10.1.0.0/16\ndecide 1\n"
        self.assertEqual(self.tried(played), (0, "0.txt: bgpnet play: as it says\n", ""))
        self.assertEqual(self.tried(played.replace("decide 1\n", "")),
                         (1, "0.txt: bgpnet play: not as it says\n    line 2 of the answer: route 1 10.1.0.0/16 1\n", ""))
        self.assertEqual(self.tried(played.replace("decide 1\n", ""), words=["--show"])[1].splitlines()[1:],
                         ["    line 2 of the answer: route 1 10.1.0.0/16 1", "    now", "    route 1 10.1.0.0/16 none"])
        judged = network + "assignment\npath 1 10.1.0.0/16 1\n"
        cut = "# words: 7\n" + network + "schedule\nsnapshot 1 7\noffer 1\n"
        octets = "# answer: keepalive\nffffffffffffffff ffffffffffffffff 0013 04   # a KEEPALIVE\n"
        self.assertEqual(self.tried("# answer: stable\n" + judged, judged, cut, octets), (
            1, "0.txt: bgpnet check: as it says\n1.txt: bgpnet check: no line `# answer:`\n    stable\n"
               "2.txt: bgpnet cut 7: no line `# answer:`\n    cut 7 after 1 of 2\n    route 1 10.1.0.0/16 none\n"
               "3.txt: bgpnet decode: as it says\n", ""))

    NETWORK = "router 1 10.0.0.1\nrouter 2 10.0.0.2\nlink 1 2\norigin 1 10.1.0.0/16\n"

    def test_words_of_a_sheet(self):
        played = self.NETWORK + "schedule\nstart 1 2\nstart 2 1\noriginate 1 10.1.0.0/16\nrounds 40\n"
        why = "# words: why 2\n# answer: router 2\n# answer: peer 1 Established incarnation 1\n" \
              "# answer:   timers HoldTimer 90 KeepaliveTimer 30\n# answer: prefix 10.1.0.0/16 keeps 2-1\n# answer:   from 1 1: 2-1, kept\n# answer:   told 1\n" + played
        trace = "# words: trace\n# answer: router 1 10.0.0.1\n# answer: schedule\n# answer: # line 5: nothing to do\n" \
                "router 1 10.0.0.1\nschedule\ndecide 1\n"
        run = "# words: run --turns 3000\n# answer: route 1 10.1.0.0/16 1\n# answer: route 2 10.1.0.0/16 2-1\n" + self.NETWORK
        status, out, error = self.tried(why, run, run.replace("2-1", "none"))
        self.assertEqual((status, error), (1, ""))
        self.assertEqual(out.splitlines()[:3], ["0.txt: bgpnet why 2: as it says", "1.txt: bgpnet run --turns 3000: as it says",
                                                "2.txt: bgpnet run --turns 3000: not as it says"])
        self.assertIn("0.txt: bgpnet trace: ", self.tried(trace)[1])

    def test_what_is_right_all_the_same(self):
        disagree = (TOP / "examples/disagree.txt").read_text().split("# answer:")[0] + (
            TOP / "examples/disagree.txt").read_text().split("assignment\n")[0].split("stable\n")[-1]
        answer = ("prefix 10.1.0.0/16 stable 2", "route 1 10.1.0.0/16 1  ",
                  "dispute 1 10.1.0.0/16 stable 2 routers 2 3", "choice 2-1 3-2-1", "choice 2-3-1 3-1\t")
        sheet = "".join(f"# answer: {line}\n" for line in answer) + disagree
        self.assertEqual(self.tried(sheet), (0, "0.txt: bgpnet stable: as it says\n", ""))

    def test_sheets_without_an_answer(self):
        status, out, _ = self.tried("#answer: stable\n" + self.NETWORK)
        self.assertEqual((status, out.splitlines()[0]),
                         (1, "0.txt: bgpnet check: no line `# answer:`, but one `#answer:`, without the blank"))

    def test_what_the_program_says_is_shown(self):
        status, out, _ = self.tried("# answer: stable\n" + self.NETWORK.replace("router 1", "Router 1"))
        self.assertEqual((status, out.splitlines()[0]), (1, "0.txt: bgpnet check: not as it says"))
        self.assertIn("    bgpnet: line 2: N1: ", out)

    def test_lines_that_are_kept(self):
        keep = "# keep: link 1 2\n# keep: origin 1 10.1.0.0/16\n"
        good = keep + "# answer: unstable 1 has none best 1\n" + self.NETWORK
        bad = good.replace("\nlink 1 2\n", "\nlink 2 1\n")
        self.assertEqual(self.tried(good, bad)[:2], (1, "0.txt: bgpnet check: as it says\n1.txt: bgpnet check: as it says\n"
                                                        "    not kept: link 1 2\n"))
        with tempfile.TemporaryDirectory() as folder:
            sheet = pathlib.Path(folder, "sheet.txt")
            sheet.write_text(good)
            self.assertIn("    not kept: link 1 2\n", self.tried(bad.replace(keep, ""), words=["--keep", sheet])[1])

    def test_files_and_words(self):
        self.assertEqual(self.tried(words=["/nowhere.txt"]), (1, "", "try: /nowhere.txt: No such file or directory\n"))
        self.assertEqual(self.tried(words=["--help"])[::2], (0, ""))
        self.assertEqual(self.tried(words=["--frobnicate"])[0], 2)
        with tempfile.TemporaryDirectory() as folder:
            pathlib.Path(folder, "bgpnet").symlink_to(program_path)
            self.assertEqual(self.tried("# answer: unstable 1 has none best 1\n" + self.NETWORK, program="./bgpnet",
                                        cwd=folder)[0], 0)
        self.assertRegex(self.tried(self.NETWORK, program="/nowhere")[2], "^try: no program at /nowhere")

    def test_the_naughty_gadget_goes_round(self):
        """What stands behind its last order is what stood before the steps, so they can come again and again."""
        text = (TOP / "examples/play/naughty-gadget.txt").read_text()
        steps = text[text.index("# From here on"):]
        program = Program(program_path)
        ends = [program.answer(["why", number], text + steps * times, "naughty")
                for times in range(3) for number in "2345"]
        self.assertEqual(ends[:4], ends[4:8])
        self.assertEqual(ends[:4], ends[8:])
        events = [line for line in program.trace(text + steps, "naughty") if not line.startswith("#")]
        size = len([line for line in steps.splitlines() if line and not line.startswith("#")])
        self.assertEqual(events[-size:], [line for line in steps.splitlines() if line and not line.startswith("#")])

    def test_each_exercise_has_a_solution(self):
        solutions = (TOP / "examples/SOLUTIONS.md").read_text()
        for path in sorted((TOP / "examples").glob("**/*.txt")):
            if "# Exercise:" in path.read_text():
                name = str(path.relative_to(TOP / "examples").with_suffix(""))
                self.assertIn(f"`{name}`: ", solutions)
        for name in ("`cut/in-flight` ", "`config/wedgie`: ", "`decode/update`: "):
            self.assertIn(name, solutions)
