"""Tests of `whatif`. What it says of each failure is compared with what a plain iteration comes to, without its
code."""
import json
import pathlib
import random
import re
import tempfile
import unittest

from support import TOP, asked_program, load, run

from bgpnet import tracing
from bgpnet.network import Network

topology, whatif = load("topology"), load("whatif")

PREFIX = "10.1.0.0/16"


# ---- the plain enumeration

def lines_of(text, word):
    return [line.split()[1:] for line in text.splitlines() if line.startswith(word + " ")]


def numbers(path):
    return tuple(map(int, path.split("-")))


def ranked(text, router, prefix):
    """The paths of a router's rule of exactly this prefix, or None."""
    return next((list(map(numbers, words[2:])) for words in lines_of(text, "rank")
                 if words[:2] == [str(router), prefix]), None)


def resting(text, down=(), crashed=None):
    """The path of each router for each prefix that is left when all choose anew at once until none does, over the links
    that are not down."""
    peers = {int(words[0]): [] for words in lines_of(text, "router")}
    for one, other in ((int(one), int(other)) for one, other in lines_of(text, "link")):
        if not {(one, other), (other, one)} & set(down) and crashed not in (one, other):
            peers[one].append(other)
            peers[other].append(one)
    paths = {}
    for origin, prefix in lines_of(text, "origin"):
        rules, origin = {router: ranked(text, router, prefix) for router in peers}, int(origin)
        kept = {router: () for router in peers}
        for _ in range(200):
            chosen = {}
            for router in peers:
                offered = [(router,) + kept[peer] for peer in peers[router] if kept[peer] and router not in kept[peer]]
                if router == origin:
                    offered = [(origin,)] * (router != crashed)
                elif rules[router] is not None:
                    offered = [path for path in rules[router] if path in offered]
                else:
                    offered = sorted((path for path in offered if len(path) <= 16), key=lambda path: (len(path), path))
                chosen[router] = offered[0] if offered else ()
            if chosen == kept:
                break
            kept = chosen
        else:
            raise AssertionError("the plain iteration does not rest")
        paths.update({(router, prefix): path for router, path in kept.items()})
    return paths


def leads(text, origin, down, crashed=None):
    """The routers that links lead to from an origin."""
    links = [frozenset(map(int, words)) for words in lines_of(text, "link")]
    links = [link for link in links if link not in map(frozenset, down) and crashed not in link]
    part = {origin}
    while any(len(link & part) == 1 for link in links):
        part.update(*(link for link in links if link & part))
    return part


def text_of(path):
    return "-".join(map(str, path)) or "none"


def expected(text, last, now, first, down, crashed=None):
    """What is to be said of each prefix."""
    said = {}
    for origin, prefix in lines_of(text, "origin"):
        routers = sorted(router for router, own in now if own == prefix)
        part = leads(text, int(origin), down, crashed)
        without = [router for router in routers if not now[router, prefix] and router != crashed]
        said[prefix] = {
            "changed": [{"router": router, "from": text_of(last[router, prefix]), "to": text_of(now[router, prefix])}
                        for router in routers if last[router, prefix] != now[router, prefix]],
            "without": without, "lost": [router for router in without if first[router, prefix]],
            "cut_off": [router for router in without if router not in part],
            "not_as_before": [router for router in routers if now[router, prefix] != first[router, prefix]]}
    return said


# ---- networks

def hierarchy(size, seed, origins=1):
    """A network of the rules of Gao and Rexford."""
    graph = topology.hierarchy(size, seed, size // 3)
    lines = topology.network_lines(graph, random.Random(seed).sample(graph.routers, origins), "gao-rexford")
    return "".join(line + "\n" for line in lines if not line.startswith("#"))


def with_filters(size, seed, more=4):
    """A random network in which some routers permit a few paths, the shorter first, so that there is no wheel."""
    draw = random.Random(seed)
    links = {(draw.randrange(1, router), router) for router in range(2, size + 1)}
    for _ in range(more):
        links.add(tuple(sorted(draw.sample(range(1, size + 1), 2))))
    lines = [f"router {router} 10.0.0.{router}" for router in range(1, size + 1)]
    lines += [f"link {one} {other}" for one, other in sorted(links)] + [f"origin 1 {PREFIX}"]
    network = Network(lines)
    for router in range(2, size + 1):
        if draw.random() < 0.6:
            paths = {walk(network, draw, router) for _ in range(6)} - {()}
            chosen = sorted(paths, key=lambda path: (len(path), draw.random()))[:4]
            lines.append(f"rank {router} {PREFIX} " + " ".join(map(text_of, chosen)))
    return "".join(line.rstrip() + "\n" for line in lines)


def walk(network, draw, router):
    """A random simple path to router 1, or none."""
    path = [router]
    while path[-1] != 1:
        onward = [peer for peer in network.peers[path[-1]] if peer not in path]
        if not onward or len(path) == 16:
            return ()
        path.append(draw.choice(onward))
    return tuple(path)


class Enumerated(unittest.TestCase):
    def said(self, text, *words, status=None):
        found, out, error = run("whatif", "-", *words, "--json", given=text.encode())
        self.assertEqual(error, "")
        self.assertEqual(json.loads(out)["status"], found)
        if status is not None:
            self.assertEqual(found, status)
        return json.loads(out)

    def assert_state(self, state, wanted):
        self.assertTrue(state["rests"])
        self.assertEqual([one["prefix"] for one in state["prefixes"]], sorted(wanted))
        for one in state["prefixes"]:
            self.assertTrue(one["stable"])
            self.assertEqual({key: one[key] for key in wanted[one["prefix"]]}, wanted[one["prefix"]])

    def assert_each_link(self, text):
        """Compares what is said of each link; answers how many links leave a router without its route."""
        said, before = self.said(text, "--fail-each-link", "--back"), resting(text)
        self.assert_state(said["before"], expected(text, before, before, before, ()))
        links, losing = [tuple(map(int, words)) for words in lines_of(text, "link")], 0
        self.assertEqual([found["links"] for found in said["failures"]], [[list(link)] for link in links])
        for link, found in zip(links, said["failures"]):
            behind = resting(text, [link])
            wanted = expected(text, before, behind, before, [link])
            self.assert_state(found["behind"], wanted)
            self.assert_state(found["back"], expected(text, behind, before, before, ()))
            losing += any(one["lost"] for one in wanted.values())
        self.assertEqual(said["status"], 3 if losing else 0)
        return losing

    def test_each_link_of_networks_of_eight(self):
        losing = 0
        for seed in range(4):
            with self.subTest(seed=seed):
                losing += self.assert_each_link(hierarchy(8, seed, 1 + seed % 3))
                losing += self.assert_each_link(with_filters(8, seed))
        self.assertGreater(losing, 10)

    def test_a_network_of_sixty_four(self):
        text = hierarchy(64, 5)
        links = [tuple(map(int, words)) for words in lines_of(text, "link")]
        before = resting(text)
        for link in links[::25]:
            said = self.said(text, "--fail", f"{link[1]}-{link[0]}")
            behind = resting(text, [link])
            self.assert_state(said["failures"][0]["behind"], expected(text, before, behind, before, [link]))

    def test_two_links_at_once(self):
        text = with_filters(8, 11, 8)
        before, links = resting(text), [tuple(map(int, words)) for words in lines_of(text, "link")]
        for pair in zip(links, links[3:6]):
            said = self.said(text, "--fail", *map(text_of, pair), "--back")
            behind = resting(text, pair)
            self.assert_state(said["failures"][0]["behind"], expected(text, before, behind, before, pair))
            self.assert_state(said["failures"][0]["back"], expected(text, behind, before, before, ()))

    def test_crashes(self):
        for seed in range(3):
            text = hierarchy(8, seed, 2)
            before = resting(text)
            for router in (1, 4, 8):
                said = self.said(text, "--crash", router, "--back")
                behind = resting(text, crashed=router)
                self.assert_state(said["failures"][0]["behind"], expected(text, before, behind, before, (), router))
                self.assert_state(said["failures"][0]["back"], expected(text, behind, before, before, ()))

    def test_silent_links(self):
        for seed, lines in ((1, ""), (2, "hold 3\n"), (3, "hold 5\ncut 7\n"), (4, "hold 91\nrestart 5\n")):
            text = lines + with_filters(8, seed)
            before = resting(text)
            for link in [tuple(map(int, words)) for words in lines_of(text, "link")][::4]:
                said = self.said(text, "--silent", text_of(link), "--back")
                behind = resting(text, [link])
                with self.subTest(seed=seed, link=link):
                    self.assert_state(said["failures"][0]["behind"], expected(text, before, behind, before, [link]))
                    self.assert_state(said["failures"][0]["back"], expected(text, behind, before, before, ()))


class Printed(unittest.TestCase):
    def test_examples(self):
        for path in sorted((TOP / "examples/whatif").glob("*.txt")):
            text = path.read_text()
            words = next(line[9:].split() for line in text.splitlines() if line.startswith("# words: "))
            wanted = "".join(line[10:] + "\n" for line in text.splitlines() if line.startswith("# answer: "))
            with self.subTest(path=path.name):
                self.assertEqual(run("whatif", path, *words), (3, wanted, ""))

    def test_a_wedgie_does_not_come_back(self):
        words = ("examples/play/wedgie-whole.txt", "--scheduled", "--fail", "4-1")
        status, out, error = run("whatif", *words, "--back")
        self.assertEqual((status, error), (4, ""))
        states = out.split("link 1-4 ")
        self.assertIn("4 of 4 routers have a route; check: stable", states[0])
        self.assertIn("    2: 2-3-4-1, now 2-1\n    3: 3-4-1, now 3-2-1\n    4: 4-1, now 4-3-2-1\n", states[1])
        self.assertIn("check without link 1-4: stable", states[1])
        self.assertIn("1 router changes; check: stable\n    4: 4-3-2-1, now 4-1\n"
                      "    not as before: 2 had 2-3-4-1, 3 had 3-4-1\n", states[2])
        self.assertEqual(run("whatif", *words)[1].split("link 1-4 "), states[:2])

    def test_what_never_rests(self):
        status, out, error = run("whatif", "examples/ring.txt", "--fail-each-link")
        self.assertEqual((status, error), (3, ""))
        lines = out.splitlines()
        self.assertRegex(lines[0], r"^before: no rest by round 1000 in the order of `rounds`, \d+ UPDATEs by then; as it stood there$")
        self.assertRegex(lines[1], r"^  in this order it never rests: the state behind round \d+ comes again behind round \d+, \d+ events "
                                   r"later$")
        self.assertEqual(lines[-1], "it does not rest in the order of `rounds` before anything fails, so nothing is compared")
        status, out, error = run("whatif", "examples/whatif/leaning.txt", "--fail", "2-5", "--json")
        behind = json.loads(out)["failures"][0]["behind"]
        self.assertEqual((status, behind["rests"], behind["round"]), (3, False, None))
        self.assertFalse(behind["prefixes"][0]["stable"])
        self.assertLess(behind["again"][0], behind["again"][1])

    def test_each_link_and_its_sum(self):
        status, out, error = run("whatif", "examples/whatif/leaning.txt", "--fail-each-link")
        self.assertEqual((status, error), (3, ""))
        self.assertEqual(out.splitlines()[-4:], ["8 failures", "  a router loses its route: link 1-4",
                                                 "  it does not rest in the order of `rounds`: link 1-5, link 2-5",
                                                 "  what is left has not one end: link 1-5 (0), link 2-5 (0)"])
        status, out, error = run("whatif", "examples/shortest.txt", "--fail-each-link", "--back")
        self.assertEqual((status, error, out.splitlines()[-4:]), (0, "", [
            "  a router loses its route: none", "  it does not rest in the order of `rounds`: none",
            "  a route is not as before when all is back: none", "  what is left has not one end: none"]))

    def test_other_orders_and_a_state_that_comes_again(self):
        """The wedgie's link 2 3 comes back: in the order of `rounds` the network never rests, and in others it does."""
        status, out, error = run("whatif", "examples/wedgie.txt", "--fail", "2-3", "--back", "--json")
        back = json.loads(out)["failures"][0]["back"]
        self.assertEqual((status, error, back["rests"]), (3, "", False))
        self.assertLess(back["again"][0], back["again"][1])
        others = back["other_orders"]
        self.assertEqual((others["played"], sum(len(end["seeds"]) for end in others["ends"]) + others["restless"]), (8, 8))
        self.assertTrue(others["ends"])
        text = (TOP / "examples/wedgie.txt").read_text().split("\nassignment\n")[0] + "\n"
        for end in others["ends"]:
            paths = "".join(f"path {one['router']} {one['prefix']} {one['path']}\n" for one in end["routes"])
            self.assertEqual(asked_program().answer(["check"], text + "assignment\n" + paths, "end"), ["stable"])
        printed = run("whatif", "examples/wedgie.txt", "--fail", "2-3", "--back", "--orders", 4)[1]
        self.assertRegex(printed, r"no rest by round \d+ in the order of `rounds`, \d+ UPDATEs by then; as it stood there\n"
                                  r"  in this order it never rests: the state behind round \d+ comes again behind round \d+")
        self.assertRegex(printed, r"\n  in \d of 4 random orders \(seeds 1 to 4\) it rests")
        self.assertNotIn("random", run("whatif", "examples/wedgie.txt", "--fail", "2-3", "--back", "--orders", 0)[1])

    def test_the_state_that_comes_again_is_the_same(self):
        """What routers know behind the two rounds, as `why` says it, is the same, though sessions came up before."""
        out = run("whatif", "examples/wedgie.txt", "--fail", "2-3", "--back", "--orders", 0, "--json")[1]
        first, second, _ = json.loads(out)["failures"][0]["back"]["again"]
        text = run("whatif", "examples/wedgie.txt", "--fail", "2-3", "--back", "--write")[1]
        head = text[:text.rindex("rounds ")]
        for router in "1234":
            one, other = (asked_program().answer(["why", router], head + f"rounds {rounds}\n", "again")
                          for rounds in (first, second))
            self.assertEqual(one, other)

    def test_ends_of_what_is_left(self):
        status, out, error = run("whatif", "examples/wedgie.txt", "--fail-each-link", "--json")
        for found in json.loads(out)["failures"]:
            (ends,) = found["ends"].values()
            link = "-".join(map(str, found["links"][0]))
            lines = run("settle", "examples/wedgie.txt", "--without", link, "--json")[1]
            self.assertEqual(ends["ends"], json.loads(lines)["prefixes"][0]["stable_assignments"], link)

    def test_statuses(self):
        words = ("examples/play/wedgie-whole.txt", "--scheduled", "--fail", "4-1")
        self.assertEqual(run("whatif", *words, "--back")[0], 4)
        self.assertEqual(run("whatif", *words)[0], 0)
        text = hierarchy(6, 1)
        self.assertIn(run("whatif", "-", "--fail-each-link", given=text.encode())[0], (0, 3))
        text = (TOP / "examples/disagree.txt").read_text().split("\nassignment\n")[0] + "\n"
        text = text.replace("link 2 3\n", "link 2 3\nrouter 4 10.0.0.4\nlink 1 4\nlink 4 3\n")
        text = text.replace("rank 3 10.1.0.0/16 3-2-1 3-1", "rank 3 10.1.0.0/16 3-4-1 3-2-1 3-1")
        text = text.replace("rank 2 10.1.0.0/16 2-3-1 2-1", "rank 2 10.1.0.0/16 2-3-4-1 2-3-1 2-1")
        status, out, _ = run("whatif", "-", "--fail-each-link", given=text.encode())
        self.assertEqual((status, "what is left has not one end: link 1-4 (2), link 3-4 (2)" in out.replace("4-3", "3-4")),
                         (5, True), out)

    def test_two_links_and_a_table(self):
        text = with_filters(6, 2, 4)
        said = json.loads(run("whatif", "-", "--fail-each-link", "--two", "--json", given=text.encode())[1])
        links = [tuple(map(int, words)) for words in lines_of(text, "link")]
        before = resting(text)
        self.assertEqual(len(said["failures"]), len(links) * (len(links) - 1) // 2)
        for found in said["failures"][::3]:
            down = [tuple(link) for link in found["links"]]
            wanted = expected(text, before, resting(text, down), before, down)
            for one in found["behind"]["prefixes"]:
                self.assertEqual({key: one[key] for key in wanted[one["prefix"]]}, wanted[one["prefix"]])
        text = hierarchy(8, 3, 3)
        status, out, error = run("whatif", "-", "--fail-each-link", "--table", given=text.encode())
        said = json.loads(run("whatif", "-", "--fail-each-link", "--json", given=text.encode())[1])
        rows = {line.split("  ")[0].rstrip(): line.split()[2:] for line in out.splitlines() if line.startswith("link ")}
        self.assertEqual(len(rows), len(said["failures"]))
        columns = [line.split(": ")[1].split(", ") for line in out.splitlines() if re.match(r"\d+: ", line)]
        self.assertEqual(sorted(sum(columns, [])), sorted(words[1] for words in lines_of(text, "origin")))
        for found in said["failures"]:
            cells = {}
            for one in found["behind"]["prefixes"]:
                cells[one["prefix"]] = (f"-{len(one['lost'])}" if one["lost"] else str(len(one["changed"])) if one["changed"]
                                        else ".")
            self.assertEqual(rows[found["failed"]], [cells[column[0]] for column in columns])
            self.assertTrue(all(len({cells[prefix] for prefix in column}) == 1 for column in columns))

    def test_a_second_failure(self):
        text = with_filters(8, 11, 8)
        before, links = resting(text), [tuple(map(int, words)) for words in lines_of(text, "link")]
        one, other = links[0], links[4]
        out = run("whatif", "-", "--fail", text_of(one), "--then", text_of(other), "--back", given=text.encode())[1]
        both = run("whatif", "-", "--fail", text_of(one), text_of(other), "--back", "--json", given=text.encode())[1]
        behind = resting(text, [one, other])
        wanted = expected(text, resting(text, [one]), behind, before, [one, other])
        second = out.split(f"\nthen link {text_of(other)} fails: ")[1].split("\nlinks ")[0]
        for one_changed in wanted[PREFIX]["changed"]:
            self.assertIn(f"    {one_changed['router']}: {one_changed['from']}, now {one_changed['to']}\n", second + "\n")
        self.assertEqual(out.count(" are back: "), 1)
        self.assertTrue(json.loads(both)["failures"][0]["back"]["rests"])

    def test_routes_that_are_given(self):
        """The wedgie begins in the end that is not the one of the usual order."""
        network = (TOP / "examples/wedgie.txt").read_text().split("\nassignment\n")[0] + "\n"
        usual = json.loads(run("whatif", "-", "--fail", "1-2", "--json", given=network.encode())[1])["before"]
        meant = {1: "1", 2: "2-3-4-1", 3: "3-4-1", 4: "4-1"}
        stuck = {1: "1", 2: "2-1", 3: "3-2-1", 4: "4-1"}
        with tempfile.TemporaryDirectory() as folder:
            for paths in (meant, stuck):
                lines = pathlib.Path(folder, "routes")
                lines.write_text("now\n" + "".join(f"route {router} {PREFIX} {path}\n" for router, path in paths.items()))
                reports = []
                for router, path in paths.items():
                    report = pathlib.Path(folder, f"{router}.json")
                    numbers = " ".join(path.split("-")[1:])
                    report.write_text(json.dumps({"routerId": "10.0.0.1", "localAS": router, "routes": {PREFIX: [
                        {"valid": True, "path": "9 9"}, {"valid": True, "bestpath": True, "path": numbers}]}}))
                    reports.append(report)
                for names in ([lines], reports):
                    text = run("whatif", "-", "--fail", "1-2", "--write", "--from", *names, given=network.encode())[1]
                    head = text[:text.index("# title: link 1-2 fails")]
                    said = asked_program().answer(["play"], head, "begin")
                    self.assertEqual(said[said.index("now") + 1:],
                                     [f"route {router} {PREFIX} {path}" for router, path in paths.items()])
            lines.write_text(f"route 2 {PREFIX} 2-1\nroute 3 {PREFIX} none\n")
            self.assertEqual(run("whatif", "-", "--fail", "1-2", "--from", lines, given=network.encode())[::2],
                             (1, "whatif: none of 200 orders of the network leads to the routes that are given\n"))
            lines.write_text("route 9 10.1.0.0/16 9-1\n")
            self.assertIn("a route of another network", run("whatif", "-", "--fail", "1-2", "--from", lines,
                                                            given=network.encode())[2])
        self.assertIsNotNone(usual["round"])

    def test_names_of_routers(self):
        text = "# 1 called west\n# 2 called east-1\n" + (TOP / "examples/shortest.txt").read_text().split("\nassignment\n")[0] + "\n"
        status, out, error = run("whatif", "-", "--fail", "west-east-1", given=text.encode())
        self.assertEqual((status, error), (0, ""))
        self.assertIn("    2 east-1: east-1-west, now ", out)
        self.assertIn("\nlink west-east-1 fails: ", out)
        self.assertTrue(run("whatif", "-", "--fail", "1-2", "--write", given=text.encode())[1].startswith(text[:32]))
        self.assertEqual(run("whatif", "-", "--crash", "east-1", given=text.encode())[1],
                         run("whatif", "-", "--crash", "2", given=text.encode())[1])

    def test_routers_that_keep_routes(self):
        text = "# 2 keeps routes of peers that restart\n" + (TOP / "examples/shortest.txt").read_text().split("\nassignment\n")[0] + "\n"
        for words, is_told in ((["--crash", 1], True), (["--silent", "1-2"], True), (["--fail", "1-2"], False)):
            error = run("whatif", "-", *words, given=text.encode())[2]
            self.assertEqual("2: graceful-restart: routes are kept while a router restarts" in error, is_told)

    def test_prefixes_that_behave_alike(self):
        text = hierarchy(8, 3) + "origin 1 10.77.0.0/16\norigin 1 10.78.0.0/16\n"
        out = run("whatif", "-", "--crash", 1, given=text.encode())[1]
        self.assertRegex(out, r"\n  10\.77\.0\.0/16, 10\.78\.0\.0/16 of 1: ")

    def test_parts_of_a_network(self):
        text = "".join(f"router {router} 10.0.0.{router}\n" for router in range(1, 5))
        text += f"link 1 2\nlink 2 3\nlink 3 4\norigin 1 {PREFIX}\norigin 4 10.2.0.0/16\norigin 4 10.3.0.0/16\n"
        status, out, error = run("whatif", "-", "--fail", "2-3", given=text.encode())
        self.assertEqual((status, error), (3, ""))
        self.assertIn("  3 prefixes: 4 of 4 routers have a route; check: stable\n", out)
        self.assertIn(f"  {PREFIX} of 1: 2 routers change; check without link 2-3: stable\n    3: 3-2-1, now none\n"
                      "    4: 4-3-2-1, now none\n    without a route: 3, 4 (no links lead to 1)\n", out)
        self.assertIn("    without a route: 1, 2 (no links lead to 4)\n", out)
        status, out, error = run("whatif", "-", "--crash", 1, "--back", given=text.encode())
        self.assertEqual((status, error), (3, ""))
        self.assertIn(f"  {PREFIX} of 1: 4 routers change; 1 does not originate it\n    1: 1, now none\n", out)
        self.assertIn("    without a route: 2, 3, 4 (no links lead to 1)\n", out)
        self.assertIn("  10.2.0.0/16, 10.3.0.0/16 of 4: 1 router changes; check without router 1: stable\n"
                      "    1: 1-2-3-4, now none\n", out)
        text += "rank 1 10.2.0.0/15\n"
        status, out, error = run("whatif", "-", "--crash", 1, given=text.encode())
        self.assertEqual((status, error), (3, ""))
        self.assertIn("    without a route: 1 (no permitted path comes)\n", out)
        self.assertTrue(out.endswith("  2 other prefixes: nothing changes; check without router 1: stable\n"), out)

    def test_the_schedule_that_is_written(self):
        network = TOP / "examples/whatif/backup.txt"
        for words in (["--fail", "1-2"], ["--silent", "1-2"], ["--crash", 2]):
            status, out, error = run("whatif", network, *words, "--back", "--write")
            self.assertEqual((status, error, out.count("# title: ")), (0, "", 4))
            lines = asked_program().answer(["play"], out, "schedule")
            self.assertEqual(lines[-1], f"route 7 {PREFIX} 7-4-2-1")
            said = json.loads(run("whatif", network, *words, "--back", "--json")[1])
            stages = tracing.stages_of(asked_program().trace(out, "schedule"))
            states = [said["before"], said["failures"][0]["behind"], said["failures"][0]["back"]]
            self.assertEqual([stage.rest for _, stage in sorted(stages.items())][-3:], [state["round"] for state in states])

    def test_a_network_that_bears_schedules(self):
        """The state before is the same, whichever text the network stands in."""
        text = hierarchy(12, 3)
        bare = run("whatif", "-", "--fail", "1-2", given=text.encode())
        for behind in (f"schedule\nstart 1 2\n", f"assignment\npath 1 {PREFIX} none\n"):
            self.assertEqual(run("whatif", "-", "--fail", "1-2", given=(text + behind).encode()), bare)

    def test_a_program_that_does_not_confirm(self):
        with tempfile.TemporaryDirectory() as folder:
            program = pathlib.Path(folder) / "program"
            program.write_text("#!/bin/sh\nif [ $1 != check ]; then exec " + asked_program().path + " $1; fi\n"
                               "if grep -q assignment; then echo unstable 2 has 2-1 best 2-3-1; else echo stable; fi\n")
            program.chmod(0o755)
            status, out, error = run("whatif", "examples/shortest.txt", "--fail", "1-2", "--program", program)
            self.assertEqual((status, error), (1, "whatif: the program does not call stable where it rests\n"))
            self.assertIn("check: unstable 2 has 2-1 best 2-3-1", out)

    def test_refusals(self):
        path = "examples/shortest.txt"
        for words, why in ((["--fail", "1-9"], "there is no link 1-9: a link is written as U-V"),
                           (["--silent", "1:2"], "there is no link 1:2: a link is written as U-V"),
                           (["--fail", "1-2", "x"], "there is no link x: a link is written as U-V"),
                           (["--crash", "9"], "there is no router 9"),
                           (["--fail", "1-2", "--scheduled"], f"{path}: no schedule")):
            self.assertEqual(run("whatif", path, *words), (1, "", f"whatif: {why}\n"))
        down = "examples/play/link-fails.txt"
        self.assertEqual(run("whatif", down, "--fail", "1-3", "--scheduled"),
                         (1, "", f"whatif: {down}: behind its schedule not every session is up: 1-2\n"))
        for words in ([], [path], [path, "--fail"], [path, "--fail", "1-2", "--crash", "1"], 
                      [path, "--fail-each-link", "--write"], [path, "--fail", "1-2", "--write", "--json"]):
            status, out, error = run("whatif", *words)
            self.assertEqual((status, out, error.count("\n")), (2, "", 1), words)
        text = "hold 0\n" + (TOP / path).read_text()
        self.assertEqual(run("whatif", "-", "--silent", "1-2", given=text.encode()),
                         (1, "", "whatif: hold 0: no timer runs, so nobody finds out that a link is silent\n"))
        self.assertEqual(run("whatif", "-", "--crash", 1, given=b"router 1 10.0.0.1\n"),
                         (1, "", "whatif: -: no origin, so no routes\n"))
        self.assertRegex(run("whatif", "-", "--crash", 1, given=b"router 1 1\n")[2], r"^whatif: -:1: N2: .*: router 1 1\n$")
