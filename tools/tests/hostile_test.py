"""No tool ends in a traceback, whatever it reads: texts that are made to stumble over, and files that are cut anywhere."""
import os
import pathlib
import random
import subprocess
import sys
import tempfile
import unittest

from support import TOP, program_path, run

from bgpnet.configs.lab import obey
from bgpnet.program import Refusal

NETWORK = b"router 1 10.0.0.1\nrouter 2 10.0.0.2\nrouter 3 10.0.0.3\nlink 1 2\nlink 2 3\nlink 1 3\norigin 1 10.1.0.0/16\n"
SCHEDULE = NETWORK + b"schedule\nstart 1 2\nstart 2 1\noriginate 1 10.1.0.0/16\nrounds 9\nsnapshot 1 1\nrounds 9\n"
# Lines that a reader of its own may stumble over, which the program refuses or not.
LINES = [b"originate 1 10.1.0.0", b"originate 1", b"rank 2 10.1.0.0/16", b"rank 2 10.1.0.0/16 1-2", b"rank 2 10.1/16 2-1",
         b"rank 2 0.0.0.0/0 2-1 2-3-1", b"link 1 1", b"link 2 1", b"router 4294967296 10.0.0.9", b"router 4 10.0.0.4",
         b"router 0004 010.00.0.4", b"origin 2 10.1.0.0/33", b"origin 2 255.255.255.255/32", b"asn 4", b"hold 0",
         b"hold 3", b"cut 1", b"restart 1", b"path 2 10.1.0.0/16 none", b"snapshot 1 99999999999999999999", b"ticks 90",
         b"# 2 customer of 99", b"# 2 at 1e9 nan", b"# 2 called x", b"# title:", b"stop 1 2", b"\xc3\xa9 1", b"\x00",
         b"withdraw 1 10.1.0.0/16", b"put 1 2", b"tick 3", b"schedule", b"assignment", b"rounds 1000000000000"]
WHOLE = [b"", b"\n", b"\x00", b"\xef\xbb\xbf" + NETWORK, b"\xff\xfer\x00", NETWORK.replace(b"\n", b"\r"), b"9" * 5000,
         b"router " * 2000, b"# " + b"x" * 9000 + b"\n", NETWORK + b"assignment\n", b"schedule\n", b"assignment\n",
         b"router 1 10.0.0.1\n", b"\x1f\x8b\x08\x00", b"BZh91AY&SY", b"{", b"[[[[", b'{"routes": 1, "localAS": []}']


def texts(draw, number):
    """Texts for tools that read networks and schedules: whole ones, and some with a line that is not meant so."""
    made = []
    for line in LINES:
        for text in (NETWORK, SCHEDULE):
            lines = text.splitlines()
            lines.insert(draw.randrange(len(lines) + 1), line)
            made.append(b"\n".join(lines) + b"\n")
    return draw.sample(WHOLE, 6) + draw.sample(made, number)


def cut(draw, octets, number):
    """Parts of a file, and the file with an octet that is another."""
    for _ in range(number):
        at = draw.randrange(len(octets))
        yield octets[:at] if draw.random() < 0.6 else octets[:at] + bytes([draw.randrange(256)]) + octets[at + 1:]


class Hostile(unittest.TestCase):
    def ends(self, tool, *words, given=b""):
        """The tool ends by itself, with a status of its own, and says why where it refuses; answers what it says there.
        What is no `SystemExit` comes through as the error of this test."""
        with self.subTest(tool=tool, words=words, given=given[:80]):
            status, out, error = run(tool, *words, given=given)
            self.assertIn(status, (0, 1, 2, 3, 4, 5, 6))
            self.assertNotIn("Traceback", error)
            if status == 1 and tool not in ("streams", "config", "ask"):
                self.assertTrue(error.startswith(f"{tool}: "), (out, error))
            return error

    def test_texts(self):
        draw = random.Random(1)
        for tool, words, number in (("lint", ["-"], 30), ("draw", ["-"], 20), ("film", ["-", "--each"], 14),
                                    ("chart", ["-"], 14), ("player", ["-"], 10), ("settle", ["-", "--timing"], 14), ("ask", ["-", "play"], 14),
                                    ("whatif", ["-", "--fail", "1-2", "--back", "--orders", "1"], 10)):
            for text in texts(draw, number):
                self.ends(tool, *words, given=text)

    def test_cut_examples(self):
        draw = random.Random(2)
        play = (TOP / "examples/play/wedgie-stuck.txt").read_bytes()
        for tool, words in (("lint", ["-"]), ("draw", ["-"]), ("film", ["-"]), ("chart", ["-", "--updates"]),
                            ("ask", ["-", "why", "2"]), ("settle", ["-"])):
            for text in cut(draw, play, 6):
                self.ends(tool, *words, given=text)

    def test_graphs(self):
        draw = random.Random(3)
        given = {"as-rel": b"# x\n1|2|-1\n1|3|-1\n2|3|0|bgp\n", "edges": b"1 2\n2 3 # x\n", "network": NETWORK,
                 "dot": b"graph g { 1 -- 2 -- 3; 3 -- 1 [label=\"a\"] }\n",
                 "graphml": b"<graphml><graph><node id='1'/><node id='2'/><edge source='1' target='2'/></graph></graphml>"}
        for form, octets in given.items():
            for text in [*cut(draw, octets, 8), *draw.sample(WHOLE, 4)]:
                self.ends("topology", "--from", form, "-", given=text)

    def test_captures(self):
        draw = random.Random(4)
        octets = (TOP / "examples/session.pcap").read_bytes()
        for text in [*cut(draw, octets, 40), *WHOLE]:
            for words in (["-"], ["-", "--decode", "--times"], ["-", "--decode", "--timeline"], ["-", "1"]):
                self.ends("streams", *words, given=text)

    def test_configurations(self):
        draw = random.Random(5)
        folder = TOP / "examples/config/wedgie"
        names = sorted(map(str, folder.glob("*.conf")))
        with tempfile.TemporaryDirectory() as place:
            for at, text in enumerate([*cut(draw, pathlib.Path(names[1]).read_bytes(), 20), *WHOLE]):
                other = pathlib.Path(place, f"{at}.conf")
                other.write_bytes(text)
                self.ends("config", "--network", names[0], other, *names[2:])
            for text in draw.sample(WHOLE, 8):
                other.write_bytes(text)
                self.ends("config", "--verify", other, *names)
                self.ends("whatif", "examples/disagree.txt", "--fail", "1-2", "--from", other)

    def test_what_looks_like_a_number(self):
        """A letter that Python calls a digit, more digits than it reads, and other values than FRR's JSON has."""
        wedgie, potato = (sorted((TOP / "examples/config" / name).glob("*.conf")) for name in ("wedgie", "hot-potato"))
        many, of_west = b"9" * 5000, b'{"localAS": 1, "routerId": "10.255.0.1", "routes": {%s}}'
        with tempfile.TemporaryDirectory() as place:
            given = pathlib.Path(place, "given")
            for number in (b"\xb2", many):
                given.write_bytes(b"10.0.0.0/8 65009 " + number + b"\n")
                self.ends("config", "--external", 65009, given, *wedgie)
                given.write_bytes(b"hostname r" + number + b"\n" + potato[0].read_bytes())
                self.ends("config", given, *potato[1:])
                given.write_bytes(b"bgp community-list " + number + b" permit 1:1\n" + potato[0].read_bytes())
                self.ends("config", given, *potato[1:])
            for routes in (b'"x": [{"bestpath": true}]', b'"10.9.0.0/16": 5', b'"10.9.0.0/16": [{"bestpath": true, "peerId": []}]',
                           b'"10.1.0.0/16": [{"bestpath": true, "path": "' + many + b'"}]', b'"10.1.0.0/16": [[], {"bestpath": {}}]',
                           b'"10.1.0.0/16": [{"bestpath": true, "path": "\\u00b2"}]', b'"300.0.0.0/8": [{"bestpath": true}]',
                           b'"10.1.0.0/16": [{"bestpath": true, "path": {"string": {}}}]'):
                for text in (of_west % routes, (of_west % routes).replace(b'"10.255.0.1"', b"[]")):
                    given.write_bytes(text)
                    self.ends("config", "--verify", given, *wedgie)
                    self.ends("config", "--verify", given, *potato)
        for line in (b"# 2 at " + b"9" * 400 + b" 0", b"# " + many + b" customer of 2", b"# " + many + b" called x"):
            self.ends("draw", "-", given=NETWORK + line + b"\n")
        for prefix in ("300.0.0.0/8", "10.0.0.0/33", "1_0.0.0.0/8", "+1.0.0.0/8", f"10.0.0.0/{'9' * 5000}", "\xb2.0.0.0/8"):
            self.ends("chart", "--prefix", prefix, "examples/play/session.txt")
            self.ends("streams", "--decode", "--prefix", prefix, "examples/session.pcap")
            self.ends("draw", "--prefix", prefix, "examples/disagree.txt")

    def test_what_is_nested(self):
        """Brackets, calls and lists that stand in one another deeper than Python calls."""
        wedgie, bird = (sorted((TOP / "examples/config" / name).glob("*.conf")) for name in ("wedgie", "bird"))
        paths, large = "bgp as-path access-list X permit ", "bgp large-community-list expanded X permit "
        calls = "".join(f"route-map M{at} permit 1\n call M{at + 1}\nexit\n" for at in range(700))
        with tempfile.TemporaryDirectory() as place:
            given = pathlib.Path(place, "given.conf")
            for lines, why in ((paths + "(" * 5000, "in one another"), (paths + "(" * 999 + "1" + ")" * 999, "in one another"),
                               (paths + "1" + "*" * 999, "in one another"), (large + "(" * 999 + "1" + ")" * 999, "in one another"),
                               (calls, "route-map M0: more than 10 calls in one another")):
                given.write_text(lines + "\n" + wedgie[0].read_text())
                self.assertIn(why, self.ends("config", given, *wedgie[1:]))
            for text in ("define X = " + "(" * 3000 + "1;", "define X = " + "!" * 4000 + "true;",
                         "filter f { " + "if net.len = 1 then " * 1500 + "accept; }", "filter f " + "{" * 4000,
                         "define X = [" * 3000, 'define X = "' + "a" * 6000 + '" ~ "' + "a" * 6000 + '";'):
                given.write_text(text + "\n" + bird[0].read_text())
                self.ends("config", given, *bird[1:])
            for text in (b"[" * 100_000, b'{"a":' * 100_000):
                given.write_bytes(text)
                self.ends("config", "--verify", given, *wedgie)
        for text in (b"<a>" * 50_000, b"graph g {" * 5000, b"graph g { a -- b [x=" + b"<" * 5000):
            for form in ("graphml", "dot"):
                self.ends("topology", "--from", form, "-", given=text)

    def test_numbers_and_names_of_bird(self):
        bird = sorted((TOP / "examples/config/bird").glob("*.conf"))
        with tempfile.TemporaryDirectory() as place:
            given, other = pathlib.Path(place, "given.conf"), pathlib.Path(place, "other.inc")
            other.write_bytes(b'include "a\0b";\n')
            pathlib.Path(place, "policy.inc").symlink_to(bird[0].parent / "policy.inc")
            many = "9" * 5000
            for text, why in ((f"define X = {many};", "a number has at most 32 bits"), (f"define X = 0x{many};", "32 bits"),
                              (f"define X = 1.1.1.{many};", "is no address"), (f"define X = {many}:1;", ""),
                              (f"define X = [{many}..{many}];", "32 bits"), ('include "other.inc";', "'include"),
                              ('include "[";', ""), ('include "/";', "Is a directory"), (f'include "{"a" * 5000}";', "too long")):
                given.write_text(text + "\n" + bird[0].read_text())
                self.assertIn(why, self.ends("config", given, *bird[1:]))
            given.write_text(f"define X = {'0' * 5000}7;\n" + bird[0].read_text())
            self.assertEqual(run("config", given, *bird[1:])[0], 0)

    def test_encodings(self):
        for encoding in (b"foo", b"utf-7", b"gbk", b"utf-16"):
            self.ends("topology", "--from", "graphml", "-",
                      given=b"<?xml version='1.0' encoding='" + encoding + b"'?><graphml/>")
        for octets in ("\udcff", "\udc80x.txt"):
            self.ends("draw", "--title", octets, "examples/disagree.txt")
            self.ends("lint", octets)
            self.ends("handout", f"/nowhere/{octets}.zip")
        wedgie = sorted((TOP / "examples/config/wedgie").glob("*.conf"))
        with tempfile.TemporaryDirectory() as place:
            other = pathlib.Path(place, "\udcff.conf")
            other.write_bytes(wedgie[1].read_bytes())
            status, out, error = run("config", "--explain", 2, "10.1.0.0/16", wedgie[0], other, *wedgie[2:])
            self.assertEqual((status, "\\udcff.conf:46 route-map" in out), (0, True), (out, error))
            other.write_text((TOP / "examples/disagree.txt").read_text())
            self.ends("player", other)
            self.ends("handout", pathlib.Path(place, "\udcff.zip"), other)

    def test_standard_streams(self):
        """One that is closed, or full, is named; and what reads all that there is says where that is too much."""
        draw, file = f"{sys.executable} {TOP}/tools/draw", f"{TOP}/examples/disagree.txt"
        for command, said in ((f"{draw} {file} >&-", "draw: the standard output is closed\n"),
                              (f"{draw} - <&-", "draw: the standard input is closed\n"),
                              (f"{draw} {file} >/dev/full", "draw: standard streams: No space left on device\n"),
                              (f"{draw} /nowhere 2>&-", ""), (f"{draw} {file} <&- 2>&-", ""),
                              (f"{sys.executable} {TOP}/tools/settle {file} --play 2 2>&-", ""),
                              (f"{sys.executable} {TOP}/examples/try >&-", "try: the standard output is closed\n"),
                              (f"ulimit -v 90000; head -c 90000000 /dev/zero | {sys.executable} {TOP}/tools/streams -",
                               "streams: there is not enough memory for this input\n")):
            with self.subTest(command=command):
                done = subprocess.run(["bash", "-c", command], capture_output=True, text=True,
                                      env=dict(os.environ, BGPNET=str(program_path)))
                self.assertEqual((done.stderr, done.returncode), (said, 1 if said or "nowhere" in command else
                                                                  5 if "settle" in command else 0))

    def test_files(self):
        with tempfile.TemporaryDirectory() as place:
            for at, text in enumerate(WHOLE[:6]):
                other = pathlib.Path(place, f"{at}.txt")
                other.write_bytes(text)
                self.ends("handout", pathlib.Path(place, f"{at}.zip"), other)
                self.ends("draw", "examples/disagree.txt", "--routes", other)
            pathlib.Path(place, "igp.txt").write_bytes(b"\xff")
            pathlib.Path(place, "a.conf").write_bytes(b"router bgp 1\n")
            self.assertEqual(run("beside", place)[0], 1)
        with self.assertRaises(Refusal):  # what the system refuses, such as a namespace
            obey(["false"])
        self.ends("handout", "/nowhere/x.zip")
        self.ends("pictures", "--program", "/nowhere")

    def test_sheets(self):
        with tempfile.TemporaryDirectory() as place:
            names = []
            for at, text in enumerate([*WHOLE, b"# words: why \0\n# answer: x\n" + NETWORK]):
                names.append(str(pathlib.Path(place, f"{at}.txt")))
                pathlib.Path(names[-1]).write_bytes(text)
            done = subprocess.run([sys.executable, TOP / "examples/try", *names, place, "/nowhere"], capture_output=True,
                                  env={"BGPNET": str(program_path)})
            self.assertEqual((done.returncode, b"Traceback" in done.stderr), (1, False), done.stderr)


if __name__ == "__main__":
    unittest.main()
