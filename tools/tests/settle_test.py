"""Tests of `settle`. What it finds in random policies is compared with all assignments there are, and with the
definition of a dispute wheel, without its code; then with what the program plays."""
import itertools
import json
import pathlib
import random
import tempfile
import unittest

from support import TOP, asked_program, run

from bgpnet import settling, timing, tracing, wheels
from bgpnet.answers import read_stable
from bgpnet.live import GaveUp, live_paths
from bgpnet.network import Network, path_text, read_network, routes_of
from bgpnet.stable import network_text, stable_assignments

PREFIX = "10.1.0.0/16"


def network_of(rules, size=5):
    """A network of routers of which each two are peers; router 1 is the origin, and rules are words."""
    routers = range(1, size + 1)
    lines = [f"router {router} 10.0.0.{router}" for router in routers]
    lines += [f"link {one} {other}" for one, other in itertools.combinations(routers, 2)]
    lines += [f"origin 1 {PREFIX}"] + [f"rank {router} {PREFIX} {rule}" for router, rule in rules.items()]
    return "".join(line + "\n" for line in lines)


def random_rule(draw, router):
    """Three paths of any length to router 1."""
    others = [other for other in range(2, 6) if other != router]
    every = [(router, *middle, 1) for size in range(3) for middle in itertools.permutations(others, size)]
    return draw.sample(every, 3)


def gadget_rule(draw, router):
    """Through two others, and then straight."""
    others = draw.sample([other for other in range(2, 6) if other != router], 2)
    return [(router, other, 1) for other in others] + [(router, 1)]


def stable_ones(rules):
    """Of all assignments those in which each router has its best choice."""
    routers = sorted(rules)
    for paths in itertools.product(*(rules[router] + [()] for router in routers)):
        chosen = {1: (1,), **dict(zip(routers, paths))}
        if all(chosen[router] == next((path for path in rules[router] if chosen[path[1]] == path[1:]), ()) for router in routers):
            yield tuple(chosen[router] for router in range(1, 6))


def least_wheel(live):
    """The size of the smallest circle in the relation of spokes, 0 where there is none: Q of u is before T of v where u
    likes a path that ends with T no less than Q."""
    spokes = [path for paths in live.values() for path in paths]
    following = {}
    for spoke in spokes:
        own = live[spoke[0]]
        following[spoke] = {better[at:] for better in own[:own.index(spoke) + 1] for at in range(1, len(better))}
    sizes = []
    for spoke in spokes:
        reached, size = following[spoke], 1
        while spoke not in reached and size <= len(spokes):
            reached, size = set().union(*(following[other] for other in reached)), size + 1
        if spoke in reached:
            sizes.append(size)
    return min(sizes, default=0)


class RandomPolicies(unittest.TestCase):
    POLICIES = [(random_rule, seed) for seed in range(400)] + [(gadget_rule, seed) for seed in range(300)]

    def made(self, rule, seed):
        draw = random.Random(seed)
        rules = {router: rule(draw, router) for router in range(2, 6)}
        words = {router: " ".join(map(path_text, paths)) for router, paths in rules.items()}
        network = Network(network_of(words).splitlines())
        return rules, network, live_paths(network, next(iter(network.origins)))

    def test_assignments_and_wheels_of_seven_hundred_policies(self):
        seen, program = set(), asked_program()
        for rule, seed in self.POLICIES:
            rules, network, live = self.made(rule, seed)
            with self.subTest(rule=rule.__name__, seed=seed):
                found, are_all = stable_assignments(program, live, 1, 100)
                self.assertTrue(are_all)
                self.assertEqual(sorted(tuple(chosen[router] for router in network.routers) for chosen in found),
                                 sorted(stable_ones(rules)))
                wheel = wheels.Spokes(live).wheel()
                self.assertEqual(len(wheel), least_wheel(live))
                self.assert_wheel(wheel, live)
                self.assertTrue(wheel or len(found) == 1)
                seen.add((min(len(found), 2), bool(wheel)))
        self.assertEqual(seen, {(1, False), (0, True), (1, True), (2, True)})

    def assert_wheel(self, wheel, live):
        """Each router likes the way through the next better, and what it then has is the next one's path."""
        for rim, following in zip(wheel, wheel[1:] + wheel[:1]):
            own = live[rim.path[0]]
            self.assertLess(own.index(rim.better), own.index(rim.path))
            self.assertEqual(following.path[0], rim.through)
            self.assertEqual(rim.better[rim.better.index(rim.through):], following.path)

    def test_every_simple_path_where_there_is_no_rule(self):
        network = Network(network_of({}).splitlines())
        live = live_paths(network, next(iter(network.origins)))
        for router in range(2, 6):
            others = [other for other in range(2, 6) if other != router]
            self.assertEqual(live[router], sorted(((router, *middle, 1) for size in range(4)
                                                   for middle in itertools.permutations(others, size)), key=lambda path: (len(path), path)))

    def test_what_the_program_plays(self):
        program = asked_program()
        for rule, seed in self.POLICIES[:20] + self.POLICIES[-20:]:
            rules, network, live = self.made(rule, seed)
            stable, wheel = list(stable_ones(rules)), wheels.Spokes(live).wheel()
            ends = settling.play_orders(program, network, ["rising", "lock-step", 1, 2])
            with self.subTest(rule=rule.__name__, seed=seed):
                for said, routes in ends:
                    self.assertTrue(said in ("settled", settling.NEVER))
                    self.assertTrue(said != "settled" or tuple(path for _, path in routes) in stable)
                    self.assertTrue(wheel or said == "settled")


class Timing(unittest.TestCase):
    """The shortest orders in which routers hear, and which end otherwise."""

    def test_two_ends(self):
        for name, sentences in (("disagree", ["2 hears 1 before 3 hears 1", "3 hears 1 before 2 hears 1"]),
                                ("wedgie", ["3 hears 4 before 2 hears 1", "2 hears 1 before 3 hears 4"])):
            status, out, error = run("settle", f"examples/{name}.txt", "--timing", "--json")
            (found,) = json.loads(out)["timing"].values()
            self.assertEqual(([one["if"] for one in found], error), (sentences, ""))
            for one in found:
                said = asked_program().answer(["play"], one["schedule"], "timing")
                routes = {str(router): path_text(path)
                          for (router, _), path in routes_of(said[said.index("now"):]).items()}
                self.assertEqual(routes, one["paths"])
            self.assertNotEqual(found[0]["paths"], found[1]["paths"])
            ends = [one["paths"] for prefix in json.loads(out)["prefixes"] for one in prefix["assignments"]]
            self.assertTrue(all(one["paths"] in ends for one in found))

    def test_no_shorter_orders(self):
        """Every shorter order of hearings, tried here by brute force, comes to the first end or to none."""
        network = Network((TOP / "examples/disagree.txt").read_text().split("\nassignment")[0].splitlines())
        prefix = next(iter(network.origins))
        orders = timing.shortest_orders(network, prefix)
        self.assertEqual([len(order.telling) for order in orders.values()], [3, 3])
        hearings = timing.Hearings(network, prefix)
        for ways in itertools.product(range(len(hearings.ways)), repeat=2):
            state = hearings.first()[0]
            for way in ways:
                state = hearings.after(state, way)[0] if state[way][1] else state
            self.assertTrue(hearings.moves(state))

    def test_one_end(self):
        out = run("settle", "examples/good-gadget.txt", "--timing")[1]
        self.assertNotIn("if ", out)

    def test_counts(self):
        said = json.loads(run("settle", "examples/disagree.txt", "--play", 3, "--json")[1])
        counts = [one for end in said["orders"] for one in end["counts"]]
        self.assertEqual(sum(end["count"] for end in said["orders"]), 5)
        self.assertTrue(all(one["events"] > one["updates"] > 3 for one in counts))
        rising = next(one for one in counts if one["order"] == "rising")
        order = settling.Order(Network((TOP / "examples/disagree.txt").read_text().split("\nassignment")[0].splitlines()), "rising")
        lines = asked_program().trace(order.whole(), "rising")
        place = next(at for at, line in enumerate(lines) if line.startswith("originate"))
        self.assertEqual(rising["updates"], sum(line.startswith("# tells") for line in lines[place:]))


class Printed(unittest.TestCase):
    DISAGREE = """prefix 10.1.0.0/16 of 1
  stable assignments: 2
    1 2-3-1 3-1   check: stable
    1 2-1 3-2-1   check: stable
  dispute wheel of 2:
    2 would rather have 2-3-1 than 2-1, through 3
    3 would rather have 3-2-1 than 3-1, through 2
  orders may differ: 2 ends are possible, and an order may never settle
"""

    def test_examples(self):
        for name, found, wheel, said, wanted in (
                ("shortest", 1, None, "every fair order settles, and in the same routes", 0),
                ("good-gadget", 1, None, "every fair order settles, and in the same routes", 0),
                ("ring", 0, 3, "no order settles", 6),
                ("wedgie", 2, 2, "orders may differ: 2 ends are possible, and an order may never settle", 5),
                ("wedgie-failed", 1, None, "every fair order settles, and in the same routes", 0)):
            status, out, error = run("settle", f"examples/{name}.txt")
            self.assertEqual((status, error), (wanted, ""))
            lines = [line for line in out.splitlines() if not line.startswith("warning: ")]
            self.assertEqual(lines[1], f"  stable assignments: {found}")
            self.assertEqual(sum(line.endswith("check: stable") for line in lines), found)
            self.assertIn(f"  dispute wheel of {wheel}:" if wheel else "  no dispute wheel", lines)
            self.assertEqual(lines[-1], "  " + said)

    def test_disagree(self):
        self.assertEqual(run("settle", "examples/disagree.txt"), (5, self.DISAGREE, ""))

    def test_names_of_routers(self):
        """Rows, wheels, orders and timings name them; JSON has their numbers, and what is written keeps the comments."""
        text = "# 1 called west\n# 2 called east-1\n# 3 called core\n" + (TOP / "examples/disagree.txt").read_text()
        status, out, error = run("settle", "-", "--play", 2, "--timing", given=text.encode())
        self.assertEqual((status, error), (5, ""))
        lines = out.splitlines()
        self.assertEqual(lines[:7], [
            "prefix 10.1.0.0/16 of west", "  stable assignments: 2",
            "    west east-1-core-west core-west   check: stable", "    west east-1-west core-east-1-west   check: stable",
            "  dispute wheel of 2:", "    east-1 would rather have east-1-core-west than east-1-west, through core",
            "    core would rather have core-east-1-west than core-west, through east-1"])
        self.assertIn("  if east-1 hears west before core hears west, in 3 hearings: west east-1-west core-east-1-west", lines)
        self.assertTrue(any("settled 10.1.0.0/16: west " in line for line in lines))
        self.assertEqual(*(json.loads(run("settle", "-", "--json", given=given.encode())[1])["prefixes"]
                           for given in (text, text.split("\n", 3)[3])))
        written = run("settle", "-", "--write", "rising", given=text.encode())[1]
        self.assertTrue(written.startswith("# 1 called west\n# 2 called east-1\n# 3 called core\nrouter 1 "))

    def test_both_ends_of_disagree_come(self):
        status, out, error = run("settle", "examples/disagree.txt", "--play", 20)
        self.assertEqual((status, error, out[:len(self.DISAGREE)]), (5, "", self.DISAGREE))
        ends = out[len(self.DISAGREE):].splitlines()
        self.assertEqual(ends[0], "played 22 orders, counts of seeds and not odds")
        self.assertRegex(ends.pop(), r"^       --write lock-step: the state behind round \d+ comes again behind round \d+, "
                                     r"\d+ events later$")
        self.assertEqual(sum(int(line.split()[0]) for line in ends[1:]), 22)
        self.assertEqual({" ".join(line.split("(")[0].split()[1:]) for line in ends[1:]},
                         {f"settled {PREFIX}: 1 2-3-1 3-1", f"settled {PREFIX}: 1 2-1 3-2-1", "never rests"})

    def test_an_order_that_is_written_plays(self):
        for order in ("rising", "lock-step", 7):
            status, out, error = run("settle", "examples/good-gadget.txt", "--write", order)
            self.assertEqual((status, error), (0, ""))
            self.assertEqual(asked_program().answer(["play"], out, "order")[0], "snapshot 1 settled")

    def test_numbers_with_zeros_in_front(self):
        text = (TOP / "examples/disagree.txt").read_text().replace("rank 2 10.1", f"rank {'0' * 5000}2 0010.01").replace("2-3-1", "02-03-1")
        self.assertEqual(run("settle", "-", given=text.encode())[:2], (5, self.DISAGREE))

    def test_an_order_over_small_pieces(self):
        text = (TOP / "examples/play/octets.txt").read_text()
        self.assertIn("\ncut 1\n", text)
        out = run("settle", "-", "--play", 2, given=text.encode())[1]
        self.assertIn("    4  settled", out)

    def test_many_assignments(self):
        rules = {}
        links = []
        for one in range(2, 16, 2):
            links += [(1, one), (1, one + 1), (one, one + 1)]
            rules.update({router: f"{router}-{other}-1 {router}-1" for router, other in ((one, one + 1), (one + 1, one))})
        text = "".join(f"router {router} 10.0.0.{router}\n" for router in range(1, 16))
        text += "".join(f"link {one} {other}\n" for one, other in links) + f"origin 1 {PREFIX}\n"
        text += "".join(f"rank {router} {PREFIX} {rule}\n" for router, rule in rules.items())
        status, out, error = run("settle", "-", "--most", 200, given=text.encode())
        self.assertEqual((status, error, out.count("check: stable")), (5, "", 2**7))
        out = run("settle", "-", "--most", 3, given=text.encode())[1]
        self.assertIn("  stable assignments: more than 3\n", out)
        self.assertEqual(out.count("check: stable"), 3)

    def test_a_program_that_does_not_confirm(self):
        with tempfile.TemporaryDirectory() as folder:
            program = pathlib.Path(folder) / "program"
            lists = f"#!/bin/sh\ncase $1 in stable) exec {asked_program().path} \"$@\";; esac\n"
            program.write_text(lists + "if grep -q assignment; then echo unstable 2 has 2-1 best 2-3-1; else echo stable; fi\n")
            program.chmod(0o755)
            status, out, error = run("settle", "examples/disagree.txt", "--program", program)
            self.assertEqual((status, error), (1, "settle: the program does not confirm what is found here\n"))
            self.assertEqual(out.count("check: unstable 2 has 2-1 best 2-3-1"), 2)
            program.write_text(lists + "case $1 in check) echo stable;; trace) exec " + asked_program().path + " trace;;\n"
                               "play) echo snapshot 1 settled; echo now; printf 'route %s 10.1.0.0/16 none\\n' 1 2 3;; esac\n")
            status, out, error = run("settle", "examples/disagree.txt", "--program", program, "--play", 0)
            self.assertEqual((status, error), (1, "settle: the program does not confirm what is found here\n"))
            self.assertEqual(run("settle", "examples/disagree.txt", "--program", program)[0], 5)
            program.write_text("#!/bin/sh\necho memory; exit 3\n")
            self.assertEqual(run("settle", "examples/disagree.txt", "--program", program),
                             (1, "", "settle: bgpnet check ends with status 3: memory\n"))

    def test_a_limit_of_the_program(self):
        with tempfile.TemporaryDirectory() as folder:
            program = pathlib.Path(folder) / "program"
            program.write_text("#!/bin/sh\ncase $1 in stable) echo prefix 10.0.0.0/8 unknown steps 2 3; exit 5;; esac\necho stable\n")
            program.chmod(0o755)
            self.assertEqual(run("settle", "examples/disagree.txt", "--program", program), (
                3, f"prefix {PREFIX} of 1\n  dispute wheel of 2:\n    2 would rather have 2-3-1 than 2-1, through 3\n"
                "    3 would rather have 3-2-1 than 3-1, through 2\n"
                "  `bgpnet stable` met a limit: steps 2 3; nothing is said of the ends\n", ""))
            program.write_text("#!/bin/sh\ncase $1 in stable) echo refused 3 N3; exit 1;; esac\necho stable\n")
            self.assertEqual(run("settle", "examples/disagree.txt", "--program", program),
                             (1, "", "settle: bgpnet stable --most 1000: refused 3 N3\n"))

    def test_what_the_program_is_asked(self):
        paths = {1: [(1,)], 70000: [(70000, 2, 1), (70000, 1)], 2: [(2, 1)], 3: []}
        self.assertEqual(network_text(paths, 1).splitlines(), [
            "asn 4", "router 1 10.0.0.0", "router 2 10.0.0.1", "router 70000 10.0.0.2", "link 1 2", "link 1 70000",
            "link 2 70000", "origin 1 10.0.0.0/8", "rank 1 10.0.0.0/8 1", "rank 2 10.0.0.0/8 2-1",
            "rank 70000 10.0.0.0/8 70000-2-1 70000-1"])
        self.assertEqual(stable_assignments(asked_program(), paths, 1, 1),
                         ([{1: (1,), 70000: (70000, 2, 1), 2: (2, 1), 3: ()}], True))
        paths[2] = [(2, *middle, 1) for size in range(3) for middle in itertools.permutations(range(3, 9), size)]
        self.assertNotIn("rank 2 ", network_text(paths, 1, {2}))
        with self.assertRaises(GaveUp):
            network_text(paths, 1)
        answer, = read_stable(["prefix 10.0.0.0/8 stable 4", "route 1 10.0.0.0/8 1", "route 9 10.0.0.0/8 none",
                                "dispute 1 10.0.0.0/8 stable 2 routers 2 3", "choice 2-3-1 3-1", "choice none 3-2-1",
                                "dispute 2 10.0.0.0/8 stable 2 routers 4", "choice 4-1", "choice none"])
        self.assertEqual(list(answer.assignments()), [
            {1: (1,), 9: (), 2: two, 3: three, 4: four}
            for two, three in (((2, 3, 1), (3, 1)), ((), (3, 2, 1))) for four in ((4, 1), ())])

    def test_routers_that_follow(self):
        """Of each choice of the disputes one assignment: a router that follows has the best path that its peer has."""
        answer, = read_stable(["prefix 10.0.0.0/8 stable 2", "route 1 10.0.0.0/8 1", "dispute 1 10.0.0.0/8 stable 2 routers 2 3",
                               "choice 2-3-1 3-1", "choice 2-1 3-2-1", "follow 4 10.0.0.0/8 4-3-1 4-2-1",
                               "follow 5 10.0.0.0/8 none 5-4-2-1"])
        self.assertEqual(answer.followers, {4: ((4, 3, 1), (4, 2, 1)), 5: ((), (5, 4, 2, 1))})
        for best, wanted in (((4, 2, 1), [((4, 3, 1), ()), ((4, 2, 1), (5, 4, 2, 1))]),
                             ((4, 3, 1), [((4, 3, 1), ()), ((4, 2, 1), (5, 4, 2, 1))])):
            ranked = answer.ranked(lambda router, path: path != best)
            self.assertEqual([(chosen[4], chosen[5]) for chosen in ranked.assignments()], wanted)
        both, = read_stable(["prefix 10.0.0.0/8 stable 1", "route 1 10.0.0.0/8 1", "route 2 10.0.0.0/8 2-1",
                             "follow 4 10.0.0.0/8 4-2-1 4-1"])
        for best in ((4, 2, 1), (4, 1)):
            self.assertEqual([chosen[4] for chosen in both.ranked(lambda router, path: path != best).assignments()], [best])

    def test_two_prefixes_and_a_wider_rule(self):
        text = ("router 1 10.0.0.1\nrouter 2 10.0.0.2\nrouter 3 10.0.0.3\nlink 1 2\nlink 2 3\nlink 1 3\n"
                "origin 3 10.2.0.0/16\norigin 1 10.1.0.0/16\nrank 2 10.0.0.0/8 2-3-1 2-1-3 2-1\nrank 3 10.1.0.0/16 3-2-1 3-1\n")
        status, out, error = run("settle", "-", "--play", 3, given=text.encode())
        self.assertEqual((status, error), (5, ""))
        self.assertIn("settled 10.1.0.0/16: 1 2-1 3-2-1; 10.2.0.0/16: 1-3 2-1-3 3   (", out)
        self.assertTrue(out.startswith("prefix 10.1.0.0/16 of 1\n  stable assignments: 2\n"))
        self.assertIn("prefix 10.2.0.0/16 of 3\n  stable assignments: 1\n    1-3 2-1-3 3   check: stable\n  no dispute wheel\n", out)


class Warnings(unittest.TestCase):
    def warned(self, rules, *wanted, links=((1, 2), (2, 3), (3, 4)), origins=f"origin 1 {PREFIX}\n"):
        text = "".join(f"router {router} 10.0.0.{router}\n" for router in range(1, 5))
        text += "".join(f"link {one} {other}\n" for one, other in links) + origins + rules
        status, out, error = run("settle", "-", given=text.encode())
        self.assertEqual((status, error), (0, ""))
        self.assertEqual(tuple(line[9:] for line in out.splitlines() if line.startswith("warning: ")), wanted)

    def test_paths_that_can_never_come(self):
        self.warned(f"rank 3 {PREFIX} 3-1 3-2-1\n", "line 9: 3-1 can never come: there is no link 3 1")
        self.warned(f"rank 2 {PREFIX} 2-1\nrank 4 {PREFIX} 4-3-1 4-3-2-1\n", "line 10: 4-3-1 can never come: there is no link 3 1")
        self.warned(f"rank 3 {PREFIX} 3-4-2-1\nrank 4 {PREFIX} 4-3-2-1\n",
                    "line 10: 4-3-2-1 can never come: router 3 does not permit 3-2-1",
                    "line 9: 3-4-2-1 can never come: there is no link 4 2",
                    f"no path for {PREFIX} can ever come to: 3, 4")
        self.warned(f"rank 2 {PREFIX} 2-1\nrank 3 {PREFIX} 3-1 3-2-1\nrank 4 {PREFIX} 4-3-1 4-3-2-1 4-1\n",
                    "line 10: 3-1 can never come, nor can 1 other path of rules: there is no link 3 1",
                    "line 11: 4-1 can never come: there is no link 4 1")
        self.warned(f"rank 3 {PREFIX} 3-2-1 3-4\n", f"line 9: 3-4: 4 is no origin of a prefix of this rule")

    def test_rules_for_nothing(self):
        self.warned("rank 3 10.2.0.0/16 3-2-1\n", "line 9: no prefix that an origin has goes by this rule")
        self.warned(f"rank 3 10.0.0.0/8 3-2-1\nrank 3 {PREFIX} 3-2-1\n", "line 9: no prefix that an origin has goes by this rule")
        self.warned(f"rank 3 {PREFIX}\n", f"no path for {PREFIX} can ever come to: 3, 4")

    def test_no_warning(self):
        self.warned("")
        self.warned(f"rank 1 {PREFIX} 1\nrank 3 {PREFIX} 3-2-1\n")

    def test_refusals(self):
        text = (TOP / "examples/disagree.txt").read_text().replace("link 2 3", "link 2 9")
        line = text.splitlines().index("link 2 9") + 1
        self.assertEqual(run("settle", "-", given=text.encode()), (1, "", f"settle: -:{line}: N3: a router that no earlier line names: link 2 9\n"))
        self.assertEqual(run("settle", "-", given=b"router 1 10.0.0.1\n"), (1, "", "settle: -: no origin, so no routes\n"))
        for words in ([], ["x", "--play", "-1"], ["x", "--write", "falling"], ["x", "y"]):
            status, out, error = run("settle", *words)
            self.assertEqual((status, out, error.count("\n")), (2, "", 1), words)
        self.assertEqual(run("settle", "nothing"), (1, "", "settle: nothing: No such file or directory\n"))
        self.assertEqual(run("settle", "examples/ring.txt", "--program", "nothing")[0], 1)
        self.assertEqual(run("settle", "--help")[0], 0)


class Answered(unittest.TestCase):
    """What was refused or left open once, and is answered."""

    def wide(self, size):
        """A network without rules, in which most routers have sixteen links."""
        lines = [f"router {router} 10.0.0.{router}" for router in range(1, size + 1)]
        lines += [f"link {router} {router + 1 + step}" for router in range(1, size + 1) for step in range(8)
                  if router + 1 + step <= size]
        return "".join(line + "\n" for line in lines) + f"origin 1 {PREFIX}\n"

    def test_no_rules_at_sixty_four_routers(self):
        status, out, error = run("settle", "-", "--play", 0, given=self.wide(64).encode())
        self.assertEqual((status, error), (0, ""))
        self.assertEqual(out.count("   check: stable\n"), 1)
        self.assertIn("  no dispute wheel\n  every fair order settles, and in the same routes\nplayed 2 orders, counts of seeds and not odds\n"
                      f"    2  settled {PREFIX}: 1 2-1 3-1 ", out)

    def test_no_rules_is_as_the_program_has_it(self):
        program, asked = asked_program(), 0
        for seed in range(60):
            draw, lines = random.Random(seed), [f"router {router} 10.0.0.{router}" for router in range(1, 8)]
            links = {(draw.randrange(1, router), router) for router in range(2, 8)}
            links |= {tuple(sorted(draw.sample(range(1, 8), 2))) for _ in range(5)}
            network = Network(lines + [f"link {one} {other}" for one, other in links] + [f"origin 1 {PREFIX}"])
            prefix = next(iter(network.origins))
            found, live = settling.found_of(program, network, prefix, 9), live_paths(network, prefix)
            if max(map(len, live.values())) <= 32:
                self.assertEqual((found.assignments, found.are_all), stable_assignments(program, live, 1, 9))
                asked += 1
            self.assertEqual(list(found.wheel), wheels.Spokes(live).wheel())
        self.assertGreater(asked, 20)

    def test_too_many_paths_of_one_prefix(self):
        """The search gives that prefix up, and answers the other."""
        text = self.wide(30) + f"rank 9 {PREFIX} 9-1\norigin 2 10.2.0.0/16\n"
        status, out, error = run("settle", "-", given=text.encode())
        self.assertEqual((status, error), (3, ""))
        self.assertIn(f"prefix {PREFIX} of 1\n  more than 20000 paths can come: give routers rank lines; nothing is said of "
                      "the ends\n", out)
        self.assertIn("prefix 10.2.0.0/16 of 2\n  stable assignments: 1\n", out)

    def test_links_left_out(self):
        """What is left need not be connected."""
        text = "".join(f"router {router} 10.0.0.{router}\n" for router in range(1, 5))
        text += f"link 1 2\nlink 2 3\nlink 3 4\nlink 2 4\norigin 1 {PREFIX}\n"
        status, out, error = run("settle", "-", "--without", "4-2", "--play", 1, given=text.encode())
        self.assertEqual((status, error), (0, ""))
        self.assertIn("    1 2-1 3-2-1 4-3-2-1   check without 2-4: stable\n", out)
        self.assertIn(f"    3  settled {PREFIX}: 1 2-1 3-2-1 4-3-2-1   (rising, lock-step, 1)\n", out)
        status, out, error = run("settle", "-", "--without", "1-2", "--play", 1, given=text.encode())
        self.assertEqual((status, error), (0, ""))
        self.assertIn(f"warning: no path for {PREFIX} can ever come to: 2, 3, 4\n", out)
        self.assertIn("    1 2: none 3: none 4: none   check without 1-2: stable\n"
                      "      without a route: 2, 3, 4\n", out)
        self.assertIn(f"    3  settled {PREFIX}: 1 2: none 3: none 4: none   (rising, lock-step, 1)\n", out)
        self.assertEqual(run("settle", "-", "--without", "1-3", given=text.encode()),
                         (1, "", "settle: there is no link 1-3: a link is written as U-V\n"))

    def test_a_hundred_prefixes_over_small_pieces(self):
        """Rounds are as many as prefixes, peers and pieces ask for."""
        text = "router 1 10.0.0.1\nrouter 2 10.0.0.2\nlink 1 2\n"
        text += "".join(f"origin 1 10.{at}.0.0/16\n" for at in range(100))
        status, out, error = run("settle", "-", "--play", 10, given=text.encode())
        self.assertEqual((status, error), (0, ""))
        self.assertIn("played 12 orders, counts of seeds and not odds\n   12  settled 10.0.0.0/16: 1 2-1; 10.1.0.0/16: 1 2-1; ", out)
        text = "cut 16\n" + (TOP / "examples/disagree.txt").read_text()
        status, out, error = run("settle", "-", "--play", 4, given=text.encode())
        self.assertEqual((status, error), (5, ""))
        self.assertIn(f"settled {PREFIX}: 1 2-3-1 3-1   (2, 4)\n", out)
        self.assertIn(f"settled {PREFIX}: 1 2-1 3-2-1   (1, 3)\n", out)
        self.assertIn("    2  never rests   (rising, lock-step)\n", out)

    def test_one_end_and_a_wheel(self):
        status, out, error = run("settle", "examples/whatif/leaning.txt", "--play", 1)
        self.assertEqual((status, error), (4, ""))
        self.assertIn("  dispute wheel of 3:\n", out)
        self.assertIn("  one end is possible; nothing here says that every order comes to it\n", out)
        self.assertIn(f"    3  settled {PREFIX}: 1 2-5-1 3-4-1 4-1 5-1   (rising, lock-step, 1)\n", out)

    def test_too_few_rounds_are_no_verdict(self):
        network = read_network(asked_program(), (TOP / "examples/disagree.txt").read_text(), "disagree")[0]
        for word in ("rising", "lock-step"):
            order = settling.Order(network, word)
            order.most = 2
            self.assertEqual(settling.end_of(asked_program(), order, True), ("no verdict in 2 rounds", (), None))

    def test_json(self):
        status, out, error = run("settle", "examples/disagree.txt", "--play", 4, "--json")
        self.assertEqual((status, error), (5, ""))
        said = json.loads(out)
        self.assertEqual((said["status"], said["warnings"], len(said["prefixes"])), (5, [], 1))
        self.assertEqual([one["paths"] for one in said["prefixes"][0]["assignments"]],
                         [{"1": "1", "2": "2-3-1", "3": "3-1"}, {"1": "1", "2": "2-1", "3": "3-2-1"}])
        self.assertEqual(said["prefixes"][0]["wheel"][0],
                         {"router": 2, "would_rather": "2-3-1", "than": "2-1", "through": 3})
        self.assertEqual(sum(len(end["orders"]) for end in said["orders"]), 6)
        again = next(end["again"] for end in said["orders"] if end["end"] == "never rests")
        self.assertEqual(again[0]["order"], "lock-step")


class NeverRests(unittest.TestCase):
    """What is said to come again is compared with the schedule that is written, played once more by hand."""

    def events(self, network, word, number):
        """The events of each of so many rounds of an order, by its trace."""
        order = settling.Order(network, word)
        lines = asked_program().trace(order.text(order.head + order.round * number), "order")
        first, rounds = len(network.lines) + len(order.head), [[]]
        ends = {first + at * len(order.round) for at in range(1, number + 1)}
        is_read = False
        for line in lines:
            if line.startswith("# line "):
                at = int(line[7:line.index(":")])
                is_read |= at == order.behind
                if at in ends and (line.endswith("nothing to do") or " events, " in line or " event, " in line):
                    rounds.append([])
            elif is_read:
                rounds[-1].append(line)
        return rounds[:number]

    def test_the_same_events_come_again(self):
        for name, lines, words in (("ring", "", ("rising", "lock-step", 3)), ("disagree", "", ("lock-step",)),
                                   ("ring", "asn 4\n", ("rising",)), ("ring", "cut 20\n", ("rising",))):
            text = lines + (TOP / f"examples/{name}.txt").read_text()
            network = read_network(asked_program(), text, name)[0]
            for word in words:
                again = settling.end_of(asked_program(), settling.Order(network, word), True)[2]
                span = again.second - again.first
                rounds = self.events(network, word, again.second + 3 * span)
                with self.subTest(name=name, lines=lines, word=word):
                    between = [line for events in rounds[again.first:again.second] for line in events]
                    self.assertEqual(len([line for line in between if line[0] != "#"]), again.events)
                    for at in range(again.first, again.first + 3 * span):
                        self.assertEqual(rounds[at], rounds[at + span])

    def test_a_state_with_other_news_on_its_way_is_another(self):
        """What routers keep is the same behind many rounds of the ring, and what is on its way is not."""
        replay = tracing.Replay(2)
        for line in ("advertise 1", "# tells 2 10.1.0.0/16 1"):
            replay.read(tracing.read_row(line))
        replay.mark()
        for line in ("put 1 2", "# sends update announce 10.1.0.0/16 path 1 next 10.0.0.1"):
            replay.read(tracing.read_row(line))
        self.assertEqual(replay.different, {("pipe", "1", "2")})
        for line in ("take 2 1", "# takes 44 octets", "handle 2 1",
                     "# hears update announce 10.1.0.0/16 path 1 next 10.0.0.1"):
            replay.read(tracing.read_row(line))
        self.assertTrue(replay.is_known)
        self.assertEqual(replay.different, {("waiting", "1", "2"), ("heard", "1", "2", "10.1.0.0/16")})
        self.assertFalse(replay.now["taken", "1", "2"])
        self.assertFalse(replay.is_touched)
        for line in ("put 1 2", "# sends keepalive"):
            replay.read(tracing.read_row(line))
        self.assertTrue(replay.is_touched)
