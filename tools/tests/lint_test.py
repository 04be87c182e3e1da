"""Tests of `lint`: each mistake that passes in silence, and the examples, which have those that they show."""
import pathlib
import tempfile
import unittest

from support import TOP, asked_program, load, run

lint = load("lint")

PREFIX = "10.1.0.0/16"
NETWORK = f"router 1 10.0.0.1\nrouter 2 10.0.0.2\nrouter 3 10.0.0.3\nlink 1 2\nlink 2 3\norigin 1 {PREFIX}\n"
STARTS = "start 1 2\nstart 2 1\nstart 2 3\nstart 3 2\n"
WHOLE = STARTS + f"originate 1 {PREFIX}\nrounds 40\n"



class Lint(unittest.TestCase):
    def named(self, text, *wanted):
        """Each of `wanted` is the line, if there is one, and what is said. The program takes the text."""
        found = lint.found_in(asked_program(), text, "-")
        self.assertEqual(sorted(found, key=lambda one: one[0] or 0), list(wanted))

    def test_lines_and_statuses(self):
        text = NETWORK.replace(PREFIX, "10.1.0.1/16") + f"rank 3 {PREFIX} 3-1\n"
        self.assertEqual(run("lint", "-", given=text.encode()), (3, (
            f"-: no path for {PREFIX} can ever come to: 3\n"
            f"-:6: 10.1.0.1/16 has bits past its length: it is read as {PREFIX}\n"
            "-:7: 3-1 can never come: there is no link 3 1\n"), ""))
        self.assertEqual(run("lint", "-", given=NETWORK.encode()), (0, "", ""))

    def test_nothing(self):
        self.named(NETWORK)
        self.named(NETWORK + "schedule\n" + WHOLE)
        self.named(NETWORK + f"assignment\npath 1 {PREFIX} 1\n")

    def test_host_bits(self):
        text = NETWORK.replace(PREFIX, "10.1.0.1/16") + "rank 2 10.1.2.3/16 2-1\nschedule\n"
        self.named(text + WHOLE.replace(PREFIX, "10.1.9.0/16"),
                   (6, "10.1.0.1/16 has bits past its length: it is read as 10.1.0.0/16"),
                   (7, "10.1.2.3/16 has bits past its length: it is read as 10.1.0.0/16"),
                   (13, "10.1.9.0/16 has bits past its length: it is read as 10.1.0.0/16"))
        self.named(NETWORK + "assignment\npath 1 10.1.0.0/0016 1\npath 2 10.1.128.0/16 2-1\n",
                   (9, "10.1.128.0/16 has bits past its length: it is read as 10.1.0.0/16"))

    def test_rules(self):
        self.named(NETWORK + f"rank 2 10.2.0.0/16 2-1\nrank 3 {PREFIX} 3-1 3-2-1\nschedule\n" + WHOLE,
                   (7, "no prefix that an origin has goes by this rule"),
                   (8, "3-1 can never come: there is no link 3 1"))
        self.named(NETWORK + f"rank 3 {PREFIX} 3-1\n", (None, f"no path for {PREFIX} can ever come to: 3"),
                   (7, "3-1 can never come: there is no link 3 1"))

    def test_prefixes_that_are_not_originated(self):
        self.named(NETWORK + "schedule\n" + STARTS + "rounds 9\n",
                   (7, "no order originates a prefix: no router has a route"))
        self.named(NETWORK + "origin 3 10.3.0.0/16\nschedule\n" + WHOLE, (8, "no order originates 10.3.0.0/16"))
        self.named("router 1 10.0.0.1\nschedule\ntick 1\n")

    def test_sessions_of_one_end(self):
        alone = "start 2 1, and nothing starts 1 2: the session does not come up"
        self.named(NETWORK + "schedule\n" + WHOLE.replace("start 1 2\n", ""), (8, alone))
        self.named(NETWORK + "schedule\n" + WHOLE.replace("start 2 3\nstart 3 2\n", ""),
                   (5, "no order starts the session of the link 2 3"))
        self.named(NETWORK + "schedule\n" + WHOLE + "stop 1 2\nrounds 5\nstart 2 1\n", (16, alone))
        self.named(NETWORK + "restart 5\nschedule\n" + WHOLE + "stop 1 2\nrounds 5\nstart 1 2\nticks 5\n")
        self.named(NETWORK + "schedule\n" + WHOLE + "stop 1 2\nrounds 5\nstart 2 1\nstart 1 2\n")
        self.named(NETWORK + "schedule\n" + WHOLE + "stop 1 2\n")
        self.named(NETWORK + "schedule\n" + WHOLE + "reset 2 1\nrounds 9\n", (14, alone.replace("start", "reset", 1)))
        self.named(NETWORK + "schedule\n" + WHOLE + "restart 2\nstart 2 1\nstart 1 2\nstart 3 2\n",
                   (17, "start 3 2, and nothing starts 2 3: the session does not come up"))
        self.named(NETWORK + "schedule\n" + WHOLE.replace("start 1 2\n", "") + "stop 2 1\n", (8, alone))

    def test_what_does_not_pass(self):
        self.named(NETWORK + "schedule\n", (7, "the schedule has no order"))
        self.named(NETWORK + "schedule\n" + WHOLE.replace("rounds 40\n", ""),
                   (7, "nothing passes a link: there is no `rounds`, and no `put`"))
        self.named(NETWORK + "schedule\n" + WHOLE + "snapshot 1 3\n",
                   (14, "nothing decides snapshot 3: its markers, or its parts, have not gone round"))

    def test_hold_times_that_run_out(self):
        text = NETWORK + "schedule\n" + WHOLE
        said = ("the hold time of every session runs out, since nothing is heard for so long: put `rounds` between `ticks` "
                "of at most 30")
        self.named(text + "ticks 90\nrounds 5\n", (14, said))
        self.named(text + "ticks 30\nrounds 5\n" * 4)
        self.named(text + "ticks 89\n")
        self.named("hold 0\n" + text + "ticks 9999\n")
        self.named("hold 3\n" + text + "ticks 3\n", (15, said.replace("30", "1")))

    def test_too_few_rounds_for_a_snapshot(self):
        text = NETWORK + "schedule\n" + WHOLE.replace("rounds 40", "rounds 8") + "snapshot 1 7\nrounds 40\n"
        (line, said), = lint.found_in(asked_program(), text, "-")
        self.assertEqual(line, 14)
        self.assertRegex(said, r"^snapshot 7 is \S.*; with more rounds before it and behind it, it is settled$")
        self.named(text.replace("rounds 8", "rounds 40"))

    def test_a_prefix_without_a_length(self):
        for order in ("originate 1 10.1.0.0", "withdraw 1 10.1", "originate 1 x/y"):
            status, out, error = run("lint", "-", given=(NETWORK + f"schedule\n{order}\n").encode())
            self.assertEqual((status, out), (1, ""))
            self.assertRegex(error, r"^lint: -:8: N8: ")

    def test_refused_files_stop_nothing(self):
        with tempfile.TemporaryDirectory() as folder:
            names = []
            for at, text in enumerate((NETWORK + "schedule\n", "ruter 1 1\n", NETWORK + "schedule\noriginate 1 10.1\n",
                                       NETWORK + "schedule\n")):
                names.append(str(pathlib.Path(folder, f"{at}.txt")))
                pathlib.Path(names[-1]).write_text(text)
            status, out, error = run("lint", *names, folder + "/none")
        self.assertEqual((status, out.count("the schedule has no order"), error.count("\n")), (1, 2, 3))
        self.assertIn("none: No such file", error)

    def test_examples(self):
        for folder in ("examples", "examples/play", "examples/cut", "examples/whatif"):
            names = [str(path.relative_to(TOP)) for path in sorted((TOP / folder).glob("*.txt"))]
            status, out, error = run("lint", *names)
            named = sorted({line.split("/")[-1].split(".txt")[0] for line in out.splitlines()})
            wanted = {"examples": ["wedgie-failed"], "examples/play": PLAYED}.get(folder, [])
            self.assertEqual((named, error, status), (wanted, "", 3 if wanted else 0))

    def test_a_network_that_is_made(self):
        text = run("topology", "--routers", 9, "--seed", 1)[1]
        self.assertEqual(run("lint", "-", given=text.encode()), (0, "", ""))

    def test_refusals(self):
        self.assertEqual(run("lint", "-", given=(NETWORK + "schedule\nstart 1 3\n").encode()),
                         (1, "", "lint: -:8: E1: a session with a router that is no peer: start 1 3\n"))
        said = run("lint", "-", given=(NETWORK + "schedule\ndecide 1 # it chooses\n").encode())[2]
        self.assertRegex(said, r"^lint: -:8: N1: .*wrong number of words.*: decide 1 # it chooses; "
                               r"a remark stands on a line of its own, '#' in front\n$")
        self.assertEqual(run("lint")[0], 2)
        self.assertEqual(run("lint", "nothing"), (1, "", "lint: nothing: No such file or directory\n"))


# The schedules that show such a thing: hold times that run out, a session that one end starts again alone, or
# that is not there yet.
PLAYED = ["hold-time", "reset", "snapshot-closed", "snapshot-not-up", "snapshot-superseded"]


if __name__ == "__main__":
    unittest.main()
