"""Tests of `ask`: what it prints is compared with the lines that the program prints."""
import json
import unittest

from support import TOP, asked_program, run

from bgpnet.answers import said_of


class Ask(unittest.TestCase):
    def asked(self, path, *words, status=0):
        found, out, error = run("ask", path, *words)
        self.assertEqual((found, error), (status, ""))
        return json.loads(out)

    def lines(self, path, *words):
        return asked_program().ask(list(words), (TOP / path).read_text())[1]

    def test_play(self):
        path = "examples/play/wedgie-whole.txt"
        said, lines = self.asked(path, "play"), self.lines(path, "play")
        routes = [" ".join(["route", str(route["router"]), route["prefix"], route["path"]]) for route in said["now"]]
        self.assertEqual(routes, lines[lines.index("now") + 1:])
        self.assertEqual([one["verdict"] for one in said["snapshots"]],
                         [line.split()[2] for line in lines if line.startswith("snapshot")])
        trace = asked_program().answer(["trace"], (TOP / path).read_text(), path)
        events = [line for line in trace[trace.index("schedule") + 1:] if not line.startswith("#")]
        self.assertEqual((said["counts"]["events"], said["counts"]["updates"]),
                         (len(events), sum(line.startswith("# tells") for line in trace)))

    def test_where_it_rests(self):
        self.assertIsNone(self.asked("examples/play/ring.txt", "play")["counts"]["rounds"])
        self.assertGreater(self.asked("examples/play/shortest.txt", "play")["counts"]["rounds"], 0)

    def test_check_and_stable(self):
        self.assertTrue(self.asked("examples/disagree.txt", "check")["stable"])
        said = self.asked("examples/ring.txt", "check")
        self.assertEqual(self.lines("examples/ring.txt", "check"),
                         [f"unstable {said['router']} has {said['has']} best {said['best']}"])
        prefix, = self.asked("examples/disagree.txt", "stable")["prefixes"]
        self.assertEqual((prefix["stable"], prefix["disputes"][0]["routers"], prefix["disputes"][0]["choices"]),
                         (2, [2, 3], [["2-3-1", "3-1"], ["2-1", "3-2-1"]]))
        limited = self.asked("examples/stable/limit.txt", "stable", "--most", "1", status=5)
        self.assertTrue(any("unknown" in prefix for prefix in limited["prefixes"]))

    def test_check_of_all(self):
        """What `check --all` prints, of two prefixes."""
        lines = ["prefix 10.1.0.0/16 unstable 2", "unstable 2 has 2-1 best 2-3-1", "unstable 3 has none best 3-1",
                 "prefix 10.2.0.0/16 stable"]
        self.assertEqual(said_of(["check", "--all"], lines)["prefixes"], [
            {"prefix": "10.1.0.0/16", "stable": False, "unstable": [{"router": 2, "has": "2-1", "best": "2-3-1"},
                                                                    {"router": 3, "has": "none", "best": "3-1"}]},
            {"prefix": "10.2.0.0/16", "stable": True, "unstable": []}])

    def test_why_and_cut(self):
        said = self.asked("examples/play/wedgie-stuck.txt", "why", "2")
        self.assertEqual([peer["state"] for peer in said["peers"]], ["Established", "Established"])
        prefix, = said["prefixes"]
        self.assertEqual((prefix["keeps"], prefix["told"]), ("2-1", [1, 3]))
        self.assertEqual([(one["peer"], one.get("not_used"), one["kept"]) for one in prefix["from"]],
                         [(1, None, True), (3, "loop", False)])
        cut = self.asked("examples/cut/in-flight.txt", "cut", "1")
        self.assertEqual((cut["inside"], cut["events"], cut["flights"]), (35, 48, [
            {"from": 1, "to": 2, "message": "update withdraw 10.1.0.0/16"}]))

    def test_trace_and_run(self):
        events = self.asked("examples/play/session.txt", "trace")["events"]
        lines = self.lines("examples/play/session.txt", "trace")
        self.assertEqual([one["event"] for one in events],
                         [line for line in lines[lines.index("schedule") + 1:] if not line.startswith("#")])
        status, out, _ = run("ask", "-", "run", "--turns", "3000", given=b"router 1 10.0.0.1\norigin 1 10.1.0.0/16\n")
        self.assertEqual((status, json.loads(out)["routes"]), (0, [{"router": 1, "prefix": "10.1.0.0/16", "path": "1"}]))

    def test_refusals(self):
        status, out, _ = run("ask", "-", "play", given=b"router 1 10.0.0.1\nlink 1 2\n")
        said = json.loads(out)
        self.assertEqual((status, said["refused"]["line"], said["refused"]["code"]), (1, 2, "N3"))
        self.assertIn("a router that no earlier line names", said["refused"]["said"][0])
        status, out, _ = run("ask", "-", "decode", given=b"x")
        self.assertEqual((status, json.loads(out)["messages"]), (1, ["bad hex"]))
        self.assertEqual(run("ask", "examples/disagree.txt", "frobnicate")[0], 1)
        self.assertEqual(run("ask")[0], 2)


if __name__ == "__main__":
    unittest.main()
