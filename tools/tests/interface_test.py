"""Tests of the module `bgpnet` as programs use it: its page, its types, and that it answers what the tools print."""
import contextlib
import doctest
import glob
import gzip
import io
import json
import os
import pathlib
import shutil
import subprocess
import sys
import tempfile
import unittest

from support import TOP, asked_program, program_path, run

import bgpnet
from bgpnet.network import path_text, routes_of

PREFIX = "10.1.0.0/16"
# A program whose types mypy has to find, and one with mistakes that it has to find too.
TYPED = """\
from typing import Dict, Optional, Tuple

import bgpnet

network: bgpnet.Network = bgpnet.read_network("net.txt")
count: Optional[int] = network.stable()[0].count
path: Tuple[int, ...] = network.schedule().play().routes[2, "10.1.0.0/16"]
paths: Dict[int, Tuple[int, ...]] = network.run().routes.of("10.1.0.0/16")
fault: Optional[bgpnet.Fault] = bgpnet.decode(b"").fault
rest: Optional[int] = network.whatif(fail="1-2").states[0].rest
picture: str = network.schedule("rounds 1").film().svg
"""
MISTAKEN = """\
import bgpnet

network = bgpnet.read_network(5)
network.stable().nothing
wrong: str = network.schedule().play().snapshots[0].number
"""


class Page(unittest.TestCase):
    """tools/PYTHON.md, whose examples are run in a folder with the examples."""

    def test_its_examples(self):
        text = (TOP / "tools/PYTHON.md").read_text()
        test = doctest.DocTestParser().get_doctest(text, {}, "PYTHON.md", "tools/PYTHON.md", 0)
        self.assertGreater(len(test.examples), 40)
        said, here = io.StringIO(), os.getcwd()
        with tempfile.TemporaryDirectory() as folder:
            pathlib.Path(folder, "examples").symlink_to(TOP / "examples")
            os.chdir(folder)
            try:
                runner = doctest.DocTestRunner(optionflags=doctest.ELLIPSIS | doctest.NORMALIZE_WHITESPACE)
                runner.run(test, out=said.write)
            finally:
                os.chdir(here)
        self.assertEqual(runner.failures, 0, said.getvalue()[:4000])

    def test_it_names_what_there_is(self):
        text = (TOP / "tools/PYTHON.md").read_text()
        for name in ("read_network", "read_schedule", "read_assignment", "build_network", "read_configurations", "decode"):
            self.assertIn(name, text)
            self.assertIn(name, dir(bgpnet))
        with self.assertRaises(AttributeError):
            bgpnet.frobnicate


class Types(unittest.TestCase):
    @unittest.skipUnless(shutil.which("mypy"), "there is no mypy, so types are not looked at")
    def test_mypy(self):
        """Also of a program whose author has no word of these modules in the settings of mypy."""
        with tempfile.TemporaryDirectory() as folder:
            for name, text in (("typed.py", TYPED), ("mistaken.py", MISTAKEN)):
                pathlib.Path(folder, name).write_text(text)
            done = subprocess.run(
                ["mypy", "--strict", "--config-file=", "--python-version", "3.9", "--cache-dir", os.devnull,
                 *glob.glob(str(TOP / "tools/bgpnet/*.py")), f"{folder}/typed.py", f"{folder}/mistaken.py"],
                cwd=TOP, capture_output=True, text=True, env=dict(os.environ, MYPYPATH="tools"))
        errors = [line for line in done.stdout.splitlines() if ": error: " in line]
        self.assertTrue(all("mistaken.py" in line for line in errors), done.stdout)
        self.assertEqual([int(line.split(":")[1]) for line in errors], [3, 4, 5])

    def test_a_tool_starts_without_the_interface(self):
        start = "import sys; import bgpnet.commands.lint; print('bgpnet.interface' in sys.modules)"
        done = subprocess.run([sys.executable, "-c", start], capture_output=True, text=True, cwd=TOP / "tools")
        self.assertEqual((done.stdout, done.stderr), ("False\n", ""))


class Answers(unittest.TestCase):
    """What it answers is what the program and the tools print."""

    def lines(self, path, *words):
        return asked_program().ask(list(words), (TOP / path).read_text())[1]

    def json(self, tool, *words):
        return json.loads(run(tool, *words, "--json")[1])

    def test_play_and_why(self):
        for path in sorted(glob.glob(str(TOP / "examples/play/*.txt"))):
            schedule, lines = bgpnet.read_schedule(path), self.lines(path, "play")
            played = schedule.play()
            with self.subTest(path=path):
                self.assertEqual(dict(played.routes), routes_of(lines[lines.index("now") + 1:]))
                self.assertEqual([one.verdict for one in played.snapshots],
                                 [line.split()[2] for line in lines if line.startswith("snapshot ")])
                for router in schedule.network.routers[:2]:
                    known = schedule.why(router)
                    self.assertEqual({one.prefix: one.keeps for one in known.prefixes},
                                     {prefix: played.routes[router, prefix] for prefix in schedule.network.origins})

    def test_trace(self):
        path = "examples/play/wedgie-whole.txt"
        trace, lines = bgpnet.read_schedule(str(TOP / path)).trace(), self.lines(path, "trace")
        self.assertEqual([" ".join(event.words) for event in trace.events],
                         [line for line in lines[lines.index("schedule") + 1:] if not line.startswith("#")])
        self.assertEqual([said for event in trace.events for said in event.said],
                         [line[2:] for line in lines[lines.index("schedule") + 1:] if line.startswith("# ")
                          and not line.startswith(("# line ", "# round "))])
        self.assertEqual(trace.updates, sum(line.startswith("# tells ") for line in lines))

    def test_a_record_is_played(self):
        network = bgpnet.read_network(str(TOP / "examples/shortest.txt"))
        record = network.record(turns=2000)
        ended = [line[len("# route "):] for line in record.orders if line.startswith("# route ")]
        self.assertEqual([f"{router} {prefix} {path_text(path)}" for (router, prefix), path in record.play().routes.items()],
                         ended[-len(network.routers):])
        settled = network.run(turns=3000)
        self.assertTrue(not settled.settled or network.check(settled.routes).stable)

    def test_stable_and_check(self):
        for path in sorted(glob.glob(str(TOP / "examples/*.txt"))):
            assignment, line = bgpnet.read_assignment(path), self.lines(path, "check")[0].split()
            judged = assignment.check()
            self.assertEqual([judged.stable, judged.router, judged.has and path_text(judged.has)],
                             [True, None, ()] if line == ["stable"] else [False, int(line[1]), judged.has and line[3]])
            for stable in assignment.network.stable():
                found = list(stable.assignments())
                self.assertEqual(len(found), stable.count)
                for chosen in found:
                    routes = {(router, stable.prefix): path for router, path in chosen.items()}
                    self.assertTrue(len(assignment.network.origins) > 1 or assignment.network.check(routes).stable)
        limited = bgpnet.read_network(str(TOP / "examples/stable/limit.txt")).stable(most=1)
        self.assertTrue(any(one.unknown and list(one.assignments()) == [] for one in limited))
        self.assertEqual([one.safe for one in bgpnet.read_network(str(TOP / "examples/safe/wedgie.txt")).safe()], [False])

    def test_settle(self):
        for path in ("examples/disagree.txt", "examples/naughty-gadget.txt", "examples/bad-gadget.txt", "examples/shortest.txt"):
            said = self.json("settle", path, "--play", 6)
            found = bgpnet.read_network(str(TOP / path)).settle(play=6, jobs=2)
            for one, own in zip(said["prefixes"], found.prefixes):
                self.assertEqual((one["verdict"], one["status"], one["are_all"]), (own.verdict, own.status, own.are_all))
                self.assertEqual([{int(router): way for router, way in each["paths"].items()} for each in one["assignments"]],
                                 [{router: path_text(way) for router, way in chosen.items()} for chosen in own.assignments])
                self.assertEqual([(rim["would_rather"], rim["than"], rim["through"]) for rim in one["wheel"]],
                                 [(path_text(rim.better), path_text(rim.path), rim.through) for rim in own.wheel])
            self.assertEqual([(one["end"], one["orders"]) for one in said["orders"]],
                             [(one.end, list(one.orders)) for one in found.orders])

    def test_whatif(self):
        path, network = "examples/whatif/backup.txt", bgpnet.read_network(str(TOP / "examples/whatif/backup.txt"))
        for words, asked in ((["--fail", "1-2"], {"fail": (1, 2)}), (["--crash", "2"], {"crash": 2}),
                             (["--silent", "1-2"], {"silent": "1-2"}),
                             (["--fail", "1-2", "--then", "1-3"], {"fail": ["1-2"], "then": ["1-3"]})):
            said = self.json("whatif", path, *words, "--back")
            found = network.whatif(**asked, back=True)
            states = [said["before"], said["failures"][0]["behind"], said["failures"][0]["back"]]
            own = [found.states[0], found.states[-2], found.states[-1]]
            with self.subTest(words=words):
                self.assertEqual([(state["round"], state["updates"]) for state in states],
                                 [(state.rest, state.updates) for state in own])
                for state, mine in zip(states, own):
                    for one, (prefix, seen) in zip(state["prefixes"], mine.prefixes.items()):
                        self.assertEqual((one["prefix"], one["lost"], one["without"], one["check"]),
                                         (str(prefix), list(seen.lost), list(seen.without), seen.said[0]))
        each = network.fail_each_link()
        self.assertEqual(list(each), list(network.links))
        with self.assertRaisesRegex(bgpnet.Refusal, "one of `fail`, `crash` and `silent`"):
            network.whatif()
        with self.assertRaisesRegex(bgpnet.Refusal, "there is no router 99"):
            network.whatif(crash=99)

    def test_pictures(self):
        for path in ("examples/disagree.txt", "examples/ring.txt"):
            assignment = bgpnet.read_assignment(str(TOP / path))
            self.assertEqual(assignment._repr_svg_(), run("draw", path)[1])
        path = "examples/play/wedgie-whole.txt"
        schedule = bgpnet.read_schedule(str(TOP / path))
        self.assertEqual(schedule._repr_svg_(), run("draw", path)[1])
        self.assertEqual(schedule.film().svg, run("film", path)[1])
        self.assertEqual(schedule.film(each=True, first=2, last=9, columns=2).svg,
                         run("film", path, "--each", "--from", 2, "--to", 9, "--columns", 2)[1])
        self.assertEqual(schedule.chart(updates=True, prefix=PREFIX).svg,
                         run("chart", path, "--updates", "--prefix", PREFIX)[1])
        self.assertEqual(bgpnet.read_schedule(str(TOP / "examples/play/link-fails.txt")).state().down, ((1, 2),))

    def test_letters(self):
        """Titles and remarks in any letters, made here or read from a file in UTF-8; other octets stay as they are."""
        network = bgpnet.build_network([(1, 2)], {PREFIX: 1})
        made = network.schedule(["# title: Z\u00fcrich \u2192 Bern", "start 1 2", "# title: \u00fc", "start 2 1"])
        self.assertIn("1. Z\u00fcrich \u2192 Bern<", made.film().svg)
        self.assertIn("2. \u00fc<", made.film().svg)
        with tempfile.TemporaryDirectory() as folder:
            path = pathlib.Path(folder, "made.txt")
            path.write_text("# \u2192\n" + made.text, encoding="utf-8")
            self.assertEqual(bgpnet.read_schedule(str(path)).film().svg, made.film().svg)
            path.write_bytes(b"# \xff\n" + made.text.encode())
            self.assertEqual(bgpnet.read_schedule(str(path)).play(), made.play())
        with self.assertRaises(bgpnet.Refused) as raised:
            network.schedule("start 1 \u2192").play()
        self.assertEqual(raised.exception.code, "N1")

    def test_configurations(self):
        paths = sorted(glob.glob(str(TOP / "examples/config/wedgie/*.conf")))
        network = bgpnet.read_configurations(paths)
        self.assertEqual(network.text, run("config", "--network", *paths)[1])
        self.assertEqual(network.link("r1-r2"), (1, 2))

    def test_decode(self):
        """The octets of each example come to what the program prints of them."""
        for path in sorted((TOP / "examples/decode").glob("*.txt")):
            text = path.read_text()
            words = next((line.split()[2:] for line in text.splitlines() if line.startswith("# words: ")), [])
            digits = "".join(line.split("#")[0] for line in text.splitlines())
            width = 4 if "--asn" in words else 2
            lines = asked_program().ask(["decode", *words], digits)[1]
            found = bgpnet.decode(bytes.fromhex("".join(digits.split())), width,
                                  int(words[words.index("--peer") + 1]) if "--peer" in words else None)
            with self.subTest(path=path.name):
                if path.name == "1-3-bad-type.txt":  # a ROUTE-REFRESH, which the program does not read
                    self.assertEqual(found, bgpnet.Decoded((bgpnet.RouteRefresh("ipv4 unicast"),), None, 0))
                    continue
                faults = [line for line in lines if line.startswith("fault ")]
                self.assertEqual(faults, [f"fault {found.fault.code} {found.fault.subcode}"] if found.fault else [])
                self.assertEqual([line.split()[0] for line in lines if not line.startswith(("fault", "truncated", "ffff"))],
                                 [type(one).__name__.lower() for one in found.messages])
                if found.fault:
                    self.assertIn(found.fault.notification.hex(), lines)

    def test_the_fields_of_an_update(self):
        attributes = ("40010102" "40020a" "0202" "0001" "0002" "0101" "0003" "400304" "0a000001" "800404" "00000007"
                      "40050400000064" "400600" "c00706" "0001" "0a000009" "c00804" "fde80001" "c0200c" "000000010000000200000003")
        body = bytes.fromhex("0003" "100a02" + f"{len(attributes) // 2:04x}" + attributes + "100a01")
        update, = bgpnet.decode(b"\xff" * 16 + (19 + len(body)).to_bytes(2, "big") + b"\x02" + body).messages
        self.assertEqual([str(prefix) for prefix in (*update.withdrawn, *update.announced)], ["10.2.0.0/16", "10.1.0.0/16"])
        self.assertEqual((update.path, update.next_hop, update.origin, update.multi_exit_disc, update.local_pref),
                         ("1-2-{3}", "10.0.0.1", "INCOMPLETE", 7, 100))
        self.assertEqual((update.atomic_aggregate, update.aggregator, update.communities, update.large_communities),
                         (True, (1, "10.0.0.9"), ("65000:1",), ("1:2:3",)))
        self.assertEqual([one.code for one in update.attributes], [1, 2, 3, 4, 5, 6, 7, 8, 32])


class Refusals(unittest.TestCase):
    def test_lines_codes_and_sentences(self):
        with self.assertRaises(bgpnet.Refused) as raised:
            bgpnet.Network("# a remark\nrouter 1 10.0.0.1\nlink 1 2\n", "mine")
        why = raised.exception
        self.assertEqual((why.line, why.code), (3, "N3"))
        self.assertTrue(why.sentence.startswith("a router that no earlier line names"))
        self.assertTrue(str(why).startswith("mine:3: N3: "))
        network = bgpnet.build_network([(1, 2)], {PREFIX: 1})
        with self.assertRaises(bgpnet.Refused) as raised:
            network.schedule("start 1 2\nsnapshot 1 2\nsnapshot 1 2").play()
        self.assertEqual((raised.exception.code, raised.exception.line), ("E3", len(network.text.splitlines()) + 4))
        with self.assertRaises(bgpnet.Refused) as raised:
            network.check({(2, PREFIX): "2-9-1"})
        self.assertEqual(raised.exception.code[0], "N")

    def test_files(self):
        with tempfile.TemporaryDirectory() as folder:
            path = pathlib.Path(folder, "net.gz")
            path.write_bytes(gzip.compress((TOP / "examples/disagree.txt").read_bytes()))
            self.assertEqual(bgpnet.read_network(str(path)), bgpnet.Network(
                bgpnet.read_network(str(TOP / "examples/disagree.txt")).text, str(path)))
            with self.assertRaisesRegex(bgpnet.Refusal, "net.gz: no schedule"):
                bgpnet.read_schedule(str(path))
            path.write_text("router 1 10.0.0.1\nschedule\n")
            with self.assertRaisesRegex(bgpnet.Refusal, "net.gz: no assignment"):
                bgpnet.read_assignment(str(path))
            self.assertEqual(bgpnet.read_schedule(str(path)).orders, ())
        with self.assertRaises(FileNotFoundError):
            bgpnet.read_network("/nowhere.txt")

    def test_the_program(self):
        with self.assertRaisesRegex(bgpnet.Refusal, "no program at /nowhere"):
            bgpnet.build_network([(1, 2)], {PREFIX: 1}, program=bgpnet.Program("/nowhere"))
        network = bgpnet.build_network([(1, 2)], {PREFIX: 1}, program=bgpnet.Program(program_path))
        self.assertEqual(network.stable()[0].count, 1)
        with self.assertRaisesRegex(bgpnet.Refusal, "'10.1.0.0' is no prefix"):
            network.permitted(1, "10.1.0.0")
        with self.assertRaisesRegex(bgpnet.Refusal, "2 or 4 octets, and not 3"):
            bgpnet.decode(b"", width=3)


if __name__ == "__main__":
    with contextlib.suppress(SystemExit):
        unittest.main()
