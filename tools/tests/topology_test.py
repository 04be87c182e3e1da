"""Tests of `topology`. The policies of Gao and Rexford are compared with all paths that their words permit, found here
without the tool's code, and with what the program makes of the networks."""
import itertools
import random
import unittest

from support import TOP, asked_program, load, run, start

topology = load("topology")

TEN = """# ten ASes: 1, 2 at the top; 3 4 5 in the middle; 6 to 10 at the edge
1|2|0
1|3|-1
1|4|-1
2|4|-1
2|5|-1
3|4|0
3|6|-1
3|7|-1
4|7|-1
4|8|-1
5|8|-1
5|9|-1
5|10|-1
9|10|0
"""
DOT = """strict graph "a lab" { // two triangles
  node [shape=circle, label="x -- y"]; rankdir=LR
  London -- "New York" -- Paris [weight=3]
  /* the way
     back */ Paris -- London [bold, weight=2]
  subgraph cluster_one { label = <the <b>east</b>>; Paris:e -- Rome; }
}
"""
GRAPHML = """<?xml version="1.0" encoding="utf-8"?>
<graphml xmlns="http://graphml.graphdrawing.org/xmlns">
  <key attr.name="label" attr.type="string" for="node" id="d1" />
  <graph edgedefault="undirected">
    <node id="0"><data key="d1">Z\u00fcrich</data></node>
    <node id="1"><data key="d1">Bern</data></node>
    <node id="2"/>
    <edge source="0" target="1"/><edge source="1" target="2"/><edge source="1" target="0"/>
  </graph>
</graphml>
"""


def lines_of(out, word):
    return [line for line in out.splitlines() if line.startswith(word)]


def paths_between(graph, router, origin):
    """Every path between two routers that passes none twice."""
    found, paths = [], [(router,)]
    for path in paths:
        if path[-1] == origin:
            found.append(path)
        else:
            paths += [path + (peer,) for peer in graph.routers if peer not in path and (path[-1], peer) in graph.kinds]
    return found


def is_valley_free(path, is_provider, are_peers):
    """Whether a path is announced from its origin up through providers, across one pair of peers at most, and down."""
    falls = False
    for told, teller in zip(path[-2::-1], path[:0:-1]):
        if (told, teller) in is_provider:
            if falls:
                return False
        else:
            if falls and are_peers(told, teller):
                return False
            falls = True
    return True


class Policies(unittest.TestCase):
    def relations(self, graph):
        providers = {(one, other) for (one, other), kind in graph.kinds.items() if kind == topology.CUSTOMER}
        return providers, lambda one, other: (one, other) not in providers and (other, one) not in providers

    def test_every_path_of_small_graphs(self):
        """The rule is all valley-free paths, customers first, then peers, then the shorter."""
        for seed in range(60):
            graph = topology.hierarchy(3 + seed % 6, seed, seed % 4)
            providers, are_peers = self.relations(graph)
            for origin in graph.routers:
                rules, longer = topology.gao_rexford(graph, origin)
                for router in graph.routers:
                    every = [path for path in paths_between(graph, router, origin)
                             if is_valley_free(path, providers, are_peers)]
                    every.sort(key=lambda path: (len(path) > 1 and 2 * ((path[1], path[0]) in providers)
                                                 + are_peers(*path[:2]), len(path), path))
                    self.assertEqual((rules[router], longer), (every[:32], longer if len(every) > 32 else 0))

    def test_fifty_hierarchies_settle_without_valleys(self):
        program = asked_program()
        for seed in range(50):
            draw = random.Random(seed)
            size = draw.choice([4, 7, 12, 20, 33, 50, 64])
            graph = topology.hierarchy(size, seed, size // 2)
            topology.check_limits(graph)
            origins = sorted({draw.choice(graph.routers) for _ in range(3)})
            lines = topology.network_lines(graph, origins, "gao-rexford")
            network = topology.Network(lines)
            text = "\n".join(lines + topology.schedule_lines(network, 1000, seed)) + "\n"
            said = program.answer(["play"], text, "made")
            providers, are_peers = self.relations(graph)
            with self.subTest(seed=seed):
                self.assertEqual(said[0], "snapshot 1 settled")
                routes = topology.texts.routes_of(said[said.index("now") + 1:])
                self.assertEqual(len(routes), size * len(origins))
                for (router, prefix), path in routes.items():
                    self.assertEqual((path[0], path[-1]), (router, network.origins[prefix]))
                    self.assertTrue(is_valley_free(path, providers, are_peers))

    def test_the_best_of_many_paths(self):
        """Pairs above pairs, each router of one a provider of both below: the top has 64 paths down to the origin."""
        given = "".join(f"{above}|{below}|-1\n" for top in range(1, 13, 2) for above in (top, top + 1)
                        for below in (top + 2, top + 3)) + "13|15|-1\n14|15|-1\n1|2|0\n"
        status, out, error = run("topology", "--from", "as-rel", "--origin", 15, given=given.encode())
        self.assertEqual((status, error), (0, ""))
        self.assertIn(" rules stand for more paths: the best 32 are there", out.splitlines()[0])
        down = itertools.product(*((top, top + 1) for top in range(3, 15, 2)))
        best = ["-".join(map(str, (1, *middle, 15))) for middle in itertools.islice(down, 32)]
        self.assertEqual(lines_of(out, "rank 1 "), ["rank 1 10.1.0.0/16 " + " ".join(best)])
        self.assertEqual(asked_program().answer(["play"], out, "pairs")[0], "snapshot 1 settled")

    def test_ten(self):
        status, out, error = run("topology", "--from", "as-rel", "--origin", "7", given=TEN.encode())
        self.assertEqual((status, error), (0, ""))
        self.assertIn("\nrank 8 10.1.0.0/16 8-4-7 8-4-3-7 8-4-1-3-7 8-5-2-4-7 8-4-2-1-3-7 8-5-2-1-3-7 8-5-2-1-4-7\n", out)
        self.assertEqual(asked_program().answer(["play"], out, "ten")[:3],
                         ["snapshot 1 settled", "route 1 10.1.0.0/16 1-3-7", "route 2 10.1.0.0/16 2-4-7"])

    def test_providers_in_a_circle(self):
        for given in (b"1|2|-1\n2|3|-1\n3|1|-1\n3|4|-1\n", b"9|1|-1\n10|9|-1\n1|2|-1\n2|3|-1\n3|1|-1\n"):
            self.assertEqual(run("topology", "--from", "as-rel", given=given),
                             (1, "", "topology: 1, 2, 3: among these, providers are customers of their customers\n"))


class Wishes(unittest.TestCase):
    """Backup links and prepends, and the comments that say them and the relations."""

    WEDGIE = b"4|1|-1\n2|1|-1\n3|2|-1\n3|4|0\n"

    def test_relations(self):
        out = run("topology", "--from", "as-rel", "--network", given=b"18|30|-1\n30|20|0\n")[1]
        self.assertEqual(out.splitlines()[3:7], ["# 30 customer of 18", "link 18 30", "# 30 peer of 20", "link 20 30"])
        self.assertEqual(topology.Network(out.splitlines()).relations, {
            (18, 30): "customer", (30, 18): "provider", (20, 30): "peer", (30, 20): "peer"})
        out = run("topology", "--from", "edges", "--network", given=b"18 30\n")[1]
        self.assertEqual(lines_of(out, "#"), [])

    def test_the_wedgie(self):
        """The backup link of RFC 4264 is one by these words: examples/wedgie.txt."""
        words = ["topology", "--from", "as-rel", "--origin", 1]
        out = run(*words, "--backup", "1-2", "--network", given=self.WEDGIE)[1]
        example = (TOP / "examples/wedgie.txt").read_text()
        self.assertEqual(lines_of(out, "rank"), lines_of(example, "rank"))
        self.assertIn("# 1 customer of 2\n# 2 and 1 like this link least: it is a backup\nlink 2 1\n", out)
        self.assertEqual(run("settle", "-", given=out.encode())[0], 5)
        self.assertEqual(run("settle", "-", given=run(*words, "--network", given=self.WEDGIE)[1].encode())[0], 0)

    def test_a_prepend(self):
        given = b"4|1|-1\n4|2|-1\n1|3|-1\n2|3|-1\n"
        words = ["topology", "--from", "as-rel", "--origin", 3, "--network"]
        self.assertIn("rank 4 10.1.0.0/16 4-1-3 4-2-3\n", run(*words, given=given)[1])
        out = run(*words, "--prepend", "3-1:2,1-4:1", given=given)[1]
        self.assertIn("rank 4 10.1.0.0/16 4-2-3 4-1-3\n", out)
        self.assertIn("# 3 tells 1 its number 2 times more\nlink 1 3\n", out)
        self.assertIn("# 1 tells 4 its number 1 times more\nlink 4 1\n", out)

    def test_every_path_of_small_graphs(self):
        """The rule is all valley-free paths: over no backup first, then customers, then peers, then the shorter."""
        for seed in range(60):
            draw = random.Random(seed)
            graph = topology.hierarchy(3 + seed % 5, seed, seed % 4)
            providers = {(one, other) for (one, other), kind in graph.kinds.items() if kind == topology.CUSTOMER}
            backups = {frozenset(draw.choice(sorted(graph.kinds)))}
            prepends = {draw.choice(sorted(graph.kinds)): draw.randrange(1, 4) for _ in range(2)}
            wishes, origin = topology.Wishes(backups, prepends), draw.choice(graph.routers)

            def are_peers(one, other):
                return (one, other) not in providers and (other, one) not in providers

            def order(path):
                longer = sum(number for (teller, told), number in prepends.items()
                             for at in range(1, len(path)) if path[at - 1:at + 1] == (told, teller))
                return (frozenset(path[:2]) in backups, 2 * ((path[1], path[0]) in providers) + are_peers(*path[:2]),
                        len(path) + longer, path)

            rules, _ = topology.gao_rexford(graph, origin, wishes)
            for router in set(graph.routers) - {origin}:
                every = [path for path in paths_between(graph, router, origin)
                         if is_valley_free(path, providers, are_peers)]
                self.assertLessEqual(len(every), 32)
                self.assertEqual(rules[router], sorted(every, key=order))

    def test_refusals(self):
        for words, said in ((["--backup", "1-3"], "there is no link 1-3"), (["--backup", "1"], "there is no link 1"),
                            (["--prepend", "1-2"], "there is no link 1-2"),
                            (["--prepend", "1-2:20"], "there is no link 1-2:20")):
            status, out, error = run("topology", "--from", "as-rel", *words, given=self.WEDGIE)
            self.assertEqual((status, out), (1, ""))
            self.assertTrue(error.startswith(f"topology: {said}: a link is written as U-V, a prepend as U-V:N"), error)
        status, out, error = run("topology", "--from", "edges", "--backup", "1-2", given=b"1 2\n")
        self.assertEqual((status, out, error[:32]), (1, "", "topology: --backup and --prepend"))
        self.assertEqual(run("topology", "--from", "network", "--backup", "1-2", given=b"")[0], 2)


class Forms(unittest.TestCase):
    def test_edges(self):
        status, out, error = run("topology", "--from", "edges", "--network", given=b"# a ring\n7 8\n8 9 # back\n\n9 7\n9 8\n")
        self.assertEqual((status, error), (0, ""))
        self.assertEqual(out, "router 7 10.0.0.1\nrouter 8 10.0.0.2\nrouter 9 10.0.0.3\n"
                              "link 7 8\nlink 7 9\nlink 8 9\norigin 9 10.1.0.0/16\n")

    def test_dot(self):
        status, out, error = run("topology", "--from", "dot", "--origin", "1,4", given=DOT.encode())
        self.assertEqual((status, error), (0, ""))
        self.assertEqual(out, """# router 1 is London
# router 2 is New York
# router 3 is Paris
# router 4 is Rome
router 1 10.0.0.1
router 2 10.0.0.2
router 3 10.0.0.3
router 4 10.0.0.4
link 1 2
link 1 3
link 2 3
link 3 4
origin 1 10.1.0.0/16
origin 4 10.2.0.0/16
schedule
start 1 2
start 2 1
start 1 3
start 3 1
start 2 3
start 3 2
start 3 4
start 4 3
originate 1 10.1.0.0/16
originate 4 10.2.0.0/16
rounds 1000
snapshot 1 1
rounds 100
""")
        self.assertEqual(asked_program().answer(["play"], out, "dot")[0], "snapshot 1 settled")
        out = run("topology", "--from", "dot", "--around", 1, "--keep", 2, "--network", given=DOT.encode())[1]
        self.assertEqual(lines_of(out, "# "), ["# router 1 is London", "# router 3 is Paris",
                                               "# 2 routers around 1; 2 stand outside"])

    def test_a_mark_of_the_order_of_octets_says_nothing(self):
        out = run("topology", "--from", "edges", "--network", given=b"\xef\xbb\xbf1 2\r\n2 3\r\n")[1]
        self.assertEqual(lines_of(out, "link"), ["link 1 2", "link 2 3"])

    def test_dot_with_as_numbers(self):
        out = run("topology", "--from", "dot", "--network", given=b"digraph { 70 -> 80; 80 -> 70; 90 -> 80 }")[1]
        self.assertEqual(lines_of(out, "link"), ["link 70 80", "link 80 90"])

    def test_graphml(self):
        status, out, error = run("topology", "--from", "graphml", given=GRAPHML.encode())
        self.assertEqual((status, error), (0, ""))
        self.assertEqual(out.splitlines()[:2], ["# router 1 is Z\u00fcrich", "# router 2 is Bern"])
        self.assertEqual(lines_of(out, "link"), ["link 1 2", "link 2 3"])
        self.assertEqual(asked_program().answer(["play"], out, "graphml")[0], "snapshot 1 settled")

    def test_numbers_of_four_octets(self):
        status, out, error = run("topology", "--from", "as-rel", given=b"15169|396982|-1\n65535|15169|-1\n")
        self.assertEqual((status, error), (0, ""))
        self.assertEqual(out.splitlines()[:4], ["asn 4", "router 15169 10.0.0.1", "router 65535 10.0.0.2",
                                                "router 396982 10.0.0.3"])
        self.assertEqual(asked_program().answer(["play"], out, "wide")[:2],
                         ["snapshot 1 settled", "route 15169 10.1.0.0/16 15169-396982"])
        out = run("topology", "--from", "as-rel", given=b"15169|65535|-1\n")[1]
        self.assertEqual(lines_of(out, "asn"), [])

    def test_a_network_that_is_there(self):
        given = b"# \xc3\xa9\nrouter 5 10.0.0.5\r\nrouter 2 10.0.0.2\nlink 5 2\norigin 5 10.1.0.0/16\n\nschedule\nrounds 1\n"
        status, out, error = run("topology", "--from", "network", "--rounds", 40, given=given)
        self.assertEqual((status, error), (0, ""))
        self.assertEqual(out, "# \xe9\nrouter 5 10.0.0.5\nrouter 2 10.0.0.2\nlink 5 2\norigin 5 10.1.0.0/16\nschedule\n"
                              "start 5 2\nstart 2 5\noriginate 5 10.1.0.0/16\nrounds 40\nsnapshot 2 1\nrounds 100\n")
        self.assertEqual(run("topology", "--from", "network", given=given.replace(b"5 2", b"5 3")),
                         (1, "", "topology: -:4: N3: a router that no earlier line names: link 5 3\n"))

    def test_a_part(self):
        """Of a star of stars only what a network takes is kept, and what is left out is said."""
        edges = "".join(f"{one}|{one * 100 + other}|-1\n" for one in range(1, 30) for other in range(20))
        edges += "".join(f"{one}|{other}|0\n" for one in range(1, 30) for other in range(1, one))
        status, out, error = run("topology", "--from", "as-rel", "--around", 5, "--keep", 40, "--origin", 5, given=edges.encode())
        self.assertEqual((status, error), (0, ""))
        self.assertEqual(out.splitlines()[0], f"# 40 routers around 5; {29 + 29 * 20 - 40} stand outside")
        self.assertIn(" links between them are left out: a router has at most 16", out.splitlines()[1])
        self.assertEqual(len(lines_of(out, "router")), 40)
        self.assertEqual(asked_program().answer(["play"], out, "part")[0], "snapshot 1 settled")

    def test_the_same_seed_makes_the_same_network(self):
        """In every process, for each orders its sets of texts otherwise."""
        first, again, other = (start("topology", "--routers", 30, "--seed", seed)[1] for seed in (4, 4, 5))
        self.assertEqual(first, again)
        self.assertNotEqual(first, other)
        for routers in (1, 2, 3, 4):
            out = run("topology", "--routers", routers, "--order", 3)[1]
            self.assertEqual(asked_program().answer(["play"], out, "made")[0], "snapshot 1 settled")


class Refusals(unittest.TestCase):
    def refused(self, form, given, said, *words):
        self.assertEqual(run("topology", "--from", form, *words, given=given), (1, "", f"topology: {said}\n"))

    def test_lines(self):
        self.refused("as-rel", b"1|2|0\n1|3\n", "-:2: not `A|B|-1` or `A|B|0`")
        self.refused("as-rel", b"1|2|0\n1|3|1\n", "-:2: not `A|B|-1` or `A|B|0`")
        self.refused("as-rel", b"1|2|0\n\n2|1|-1\n", "-:3: 2 and 1 have another relation before")
        self.refused("as-rel", b"1|x|0\n", "-:1: 'x' is no AS number")
        self.refused("as-rel", b"0|1|0\n", "-:1: '0' is no AS number")
        self.refused("as-rel", b"1|" + b"9" * 5000 + b"|0\n", f"-:1: '{'9' * 5000}' is no AS number")
        self.refused("as-rel", b"1|2|0\n2|4294967296|-1\n", "-:2: AS 4294967296 is above 4294967295")
        self.refused("edges", b"1 2\n2 3 4\n", "-:2: not two AS numbers")
        self.refused("edges", b"1 2\n3 3\n", "-:2: a link of 3 with itself")
        self.refused("edges", b"1 2\n\xff\n", "-:2: not UTF-8")
        self.refused("edges", b"1 2\n3 4\n", "the network isn't connected: no links lead from 1 to 3")
        self.refused("edges", b"# nothing\n", "a graph without routers")
        self.refused("edges", b"1 2\n", "-: it doesn't say who is whose provider, as gao-rexford needs: --rules shortest",
                     "--rules", "gao-rexford")
        self.refused("dot", b"graph {\n a -- b\n", "-:3: no whole graph")
        self.refused("dot", b"graph {\n a -- {b c}\n}", "-:2: edges of groups of nodes are not read")
        self.refused("dot", b"graph {\n {a b} -- c\n}", "-:2: edges of groups of nodes are not read")
        self.refused("dot", b"graph {\n a -- b % c\n}", "-:2: '%' can't be read")
        self.refused("dot", b"", "-:1: no whole graph")
        self.refused("graphml", b"<graphml>\n<graph>\n</graphml>", "-:3: mismatched tag: line 3, column 2")
        self.refused("graphml", b"<graphml><graph><node/></graph></graphml>", "-: a node without an id")
        self.refused("graphml", b"<graphml><graph><node id='a'/><edge source='a' target='b'/></graph></graphml>",
                     "-: an edge of a node b that is not there")

    def test_limits(self):
        star = "".join(f"1 {other}\n" for other in range(2, 19)).encode()
        self.refused("edges", star, "-:1: 1 has 17 links, and a router has at most 16: --around AS --keep N takes a part")
        line = "".join(f"{one} {one + 1}\n" for one in range(1, 65)).encode()
        self.refused("edges", line, "65 routers, and a network has at most 64: --around AS --keep N takes a part")
        self.refused("edges", star, "there is no AS 20", "--around", 20, "--keep", 3)
        self.refused("edges", b"1 2\n", "there is no AS 3 to be an origin", "--origin", "2,3")
        self.refused("edges", b"1 2\n", "2 is an origin twice", "--origin", "2,2")

    def test_wrong_words(self):
        for words in ([], ["--from", "x"], ["--from", "edges", "--routers", 3], ["--routers", 65], ["--routers", 3, "--keep", 2],
                      ["--from", "edges", "--keep", 2], ["--from", "edges", "--seed", 2], ["--routers", "3", "file"],
                      ["--from", "network", "--origin", "2"]):
            status, out, error = run("topology", *words)
            self.assertEqual((status, out, error.count("\n")), (2, "", 1), words)
        self.assertEqual(run("topology", "--from", "edges", "nothing"), (1, "", "topology: nothing: No such file or directory\n"))
        self.assertEqual(run("topology", "--help")[0], 0)
