"""Tests of the tools on sets of which an AS has several routers: the words of `tools/config`, and networks that become
others."""
import json
import pathlib
import tempfile
import time
import unittest

from support import TOP, asked_program, run
from inside_cases import EDGES, ONE, PROVIDERS, SQUARE, Net

from bgpnet.becoming import ends_of
from bgpnet.commands.beside import fail_igp, lab_of
from bgpnet.configs.as_failures import IgpFailures, links_of
from bgpnet.configs.as_random import make
from bgpnet.configs.files import read_set
from bgpnet.network import Network, Prefix, routes_of
from bgpnet.program import Refusal

HOT, REFLECTORS, DEFLECTION = (sorted((TOP / "examples/config" / name).glob("*.conf"))
                               for name in ("hot-potato", "reflectors", "deflection"))


class Folder(unittest.TestCase):
    """Tests that write files."""

    def setUp(self):
        self.folder = tempfile.TemporaryDirectory()
        self.addCleanup(self.folder.cleanup)

    def write(self, files, below=""):
        target = pathlib.Path(self.folder.name, below)
        target.mkdir(exist_ok=True)
        for name, text in files.items():
            (target / name).write_text(text)
        return [str(target / name) for name in files if name.endswith(".conf")]

    def written(self, name, text):
        path = pathlib.Path(self.folder.name, name)
        path.write_text(text)
        return str(path)


class Config(Folder):
    def test_played(self):
        status, out, error = run("config", *HOT)
        self.assertEqual((status, error), (0, ""))
        said = asked_program().answer(["play"], out, "the network")
        self.assertEqual(said[0], "snapshot 1 settled")
        self.assertEqual(routes_of(said)[3, Prefix.read("10.9.0.0/16")], (3, 1, 5, 2))

    def test_no_stable_end(self):
        status, out, _ = run("config", "--network", *REFLECTORS)
        self.assertEqual(status, 0)
        self.assertEqual(asked_program().ask(["stable"], out)[1][0].split()[2:4], ["stable", "0"])
        self.assertEqual(asked_program().ask(["safe"], out)[1][0].split()[2:4], ["wheel", "3"])

    def test_edges_of_a_file(self):
        files = Net(PROVIDERS, SQUARE.replace("b-c 10", "b-c 9"), igp="edges").files()
        names = self.write(files)
        edges = str(pathlib.Path(self.folder.name, EDGES))
        status, out, _ = run("config", "--igp", edges, "--network", *names)
        self.assertEqual(status, 0)
        self.assertIn("rank 3 10.1.0.0/16 3-2-6-4 3-1-5-4", out)
        status, out, _ = run("config", "--igp", edges, "--igp-down", "b-c", "--network", *names)
        self.assertEqual(status, 0)
        self.assertIn("rank 3 10.1.0.0/16 3-1-5-4 3-2-6-4", out)
        status, _, error = run("config", "--igp", edges, "--igp-down", "a-o", *names)
        self.assertEqual((status, error.splitlines()[-1]), (1, "config: there is no link a-o of the IGP"))
        status, _, error = run("config", "--igp", edges, *sorted((TOP / "examples/config/ring").glob("*.conf")))
        self.assertEqual(status, 1)
        self.assertIn("an IGP is of an AS that has several routers", error)

    def test_verify(self):
        routes = "".join(f"route {line}\n" for line in (
            "1 10.9.0.0/16 1-7-5-4", "2 10.9.0.0/16 2-3-6-4", "3 10.9.0.0/16 3-6-4", "4 10.9.0.0/16 4",
            "5 10.9.0.0/16 5-4", "6 10.9.0.0/16 6-4", "7 10.9.0.0/16 7-5-4"))
        status, out, _ = run("config", "--verify", self.written("routes", routes), *DEFLECTION)
        self.assertEqual((status, out.splitlines()[-1]), (0, "stable"))
        self.assertEqual(out.splitlines()[0], "best a 10.9.0.0/16 a-west-one-far  AS_PATH 65002 65009  next hop "
                                              "10.255.0.1  local-pref 100  packets leave at east: a-b-east")
        self.assertNotIn("packets", "".join(out.splitlines()[1:]))
        turned = routes.replace("7-5-4", "7-3-6-4", 2).replace("1-7-3-6-4", "none")
        status, out, _ = run("config", "--verify", self.written("routes", turned), *DEFLECTION)
        self.assertEqual((status, out.splitlines()[-1]), (1, "unstable: 2 of 7"))
        self.assertIn("unstable west 10.9.0.0/16 has west-east-two-far best west-one-far", out)

    def test_packets_that_go_round(self):
        """Two clients on each other's way to their reflectors."""
        files = Net("w1 c1 d1 e1 x2 y3 o4", "w-d 1, d-c 1, c-e 1, w-x, e-y, x-o, y-o", reflect="w: c, e: d",
                    sessions="w-e").files()
        names = self.write(files)
        routes = "".join(f"route {line}\n" for line in (
            "1 10.1.0.0/16 1-5-6-4", "2 10.1.0.0/16 2-3-7-4", "3 10.1.0.0/16 3-7-4", "4 10.1.0.0/16 4",
            "5 10.1.0.0/16 5-6-4", "6 10.1.0.0/16 6-4", "7 10.1.0.0/16 7-4"))
        status, out, error = run("config", "--verify", self.written("routes", routes), *names)
        self.assertEqual((status, error, out.splitlines()[-1]), (0, "", "stable"))
        self.assertIn("packets go round: c-d-c", out)
        self.assertIn("packets go round: d-c-d", out)

    def test_tables_of_frr(self):
        tables = [("10.255.0.1", "10.0.4.2"), ("10.255.0.2", "10.0.5.2"), ("10.255.0.3", "10.255.0.2"),
                  ("10.255.0.4", "10.0.6.2"), ("10.255.0.5", "10.0.7.2"), ("10.255.0.6", "(unspec)")]
        text = "".join(json.dumps({"routerId": router, "localAS": 1, "routes": {"10.9.0.0/16": [
            {"bestpath": True, "peerId": peer, "path": "1"}]}}) for router, peer in tables)
        status, out, _ = run("config", "--verify", self.written("tables", text), *HOT)
        self.assertEqual((status, out.splitlines()[-1]), (0, "stable"))
        self.assertIn("best hub 10.9.0.0/16 hub-east-two-far", out)
        status, _, error = run("config", "--verify", self.written("tables", text.replace("10.0.6.2", "10.0.66.2")), *HOT)
        self.assertEqual(status, 1)
        self.assertIn("10.0.66.2 is no neighbor of it here", error)
        part = text[:text.index('{"routerId": "10.255.0.2"')] + text[text.index('{"routerId": "10.255.0.3"'):]
        status, _, error = run("config", "--verify", self.written("tables", part), *HOT)
        self.assertEqual(status, 1)
        self.assertIn("the route of hub leads to east, which has none", error)

    def test_check(self):
        """A router that comes first by its name does not move the others."""
        links = "b-c 5, b-d 9, c-x, d-x"
        old = self.write(Net("b1 c1 d1 x2", links).files(), "old")
        new = self.write(Net("b1 c1 d1 x2 a1", links + ", a-b 5", networks={"x": (ONE,)}).files(), "new")
        new = [name for name in new if not name.endswith("a.conf")] + [name for name in new if name.endswith("a.conf")]
        status, out, _ = run("config", "--check", *old, "--", *new)
        self.assertEqual(status, 0)
        self.assertIn("1 a is new", out)
        self.assertNotIn("is gone", out)
        self.assertNotIn("end 2 b", out)

    def test_check_where_an_as_gets_a_second_router(self):
        old = self.write(Net("b1 x2", "b-x").files(), "old")
        new = self.write(Net("b1 x2 a1", "b-x, a-b 5", networks={"x": (ONE,)}).files(), "new")
        for words, said in (((*old, "--", *new), "1 a is new"), ((*new, "--", *old), "1 a is gone")):
            status, out, error = run("config", "--check", *words)
            self.assertEqual(status, 0, error)
            self.assertIn(said, out)
            self.assertNotIn("b is", out)

    def test_ties(self):
        files = {name: text.replace(" bgp bestpath compare-routerid\n", "") for name, text in
                 Net("a1 b1 x2 y3 o4", "a-b, a-x, a-y, x-o, y-o").files().items()}
        names = self.write(files)
        status, _, error = run("config", *names)
        self.assertEqual(status, 1)
        self.assertIn("no order", error)
        status, out, _ = run("config", "--ties", *names)
        self.assertEqual(status, 0)
        self.assertEqual(sum(" settled " in line for line in out.splitlines()), 2)

    def test_two_ases_outside_that_announce_the_same(self):
        files = Net("a1 b1 x2 y3", "a-b 5, a-x, b-y").files()
        names = self.write({name: text for name, text in files.items() if name[0] in "ab"})
        seen = [self.written(f"seen{asn}", f"10.8.0.0/16 {asn} {path}\n") for asn, path in
                ((65002, "65008"), (65003, "65007 65008"))]
        words = ["--external", "65002", seen[0], "--external", "65003", seen[1]]
        status, out, error = run("config", *words, "--explain", "b", "10.8.0.0/16", *names)
        self.assertEqual((status, error), (0, ""))
        self.assertEqual([line.split()[1] for line in out.splitlines()[:2]],
                         ["b-a-AS65002-origins", "b-AS65003-origins"])
        self.assertIn("below b-a-AS65002-origins by length of AS_PATH: 3 against 2", out)
        status, out, _ = run("config", *words, *names)
        said = asked_program().answer(["play"], out, "the network")
        self.assertEqual(said[0], "snapshot 1 settled")
        status, out, _ = run("config", *words, "--verify", self.written("routes", "".join(f"{line}\n" for line in said)), *names)
        self.assertEqual((status, out.splitlines()[-1]), (0, "stable"))

    def test_an_as_outside(self):
        files = Net("a1 b1 x2 y2", "a-b 5, a-x, b-y").files()
        names = self.write({name: text for name, text in files.items() if name[0] in "ab"})
        seen = self.written("seen", "10.8.0.0/16 65002 65008\n")
        status, out, error = run("config", "--external", "65002", seen, "--explain", "a", "10.8.0.0/16", *names)
        self.assertEqual((status, error), (0, ""))
        self.assertTrue(out.startswith("1  a-AS65002  "), out)
        self.assertIn("AS_PATH 65002 65008", out)

    def test_sixty_four_routers(self):
        """Four full meshes of sixteen routers, with four links between each two of them."""
        names = [f"{mesh}{place:02}" for mesh in "abcd" for place in range(16)]
        links, used = [], dict.fromkeys("abcd", 0)
        for at, one in enumerate("abcd"):
            for other in "abcd"[at + 1:]:
                for _ in range(4):
                    links.append(f"{one}{used[one]:02}-{other}{used[other]:02}")
                    used[one], used[other] = used[one] + 1, used[other] + 1
        inside = [f"{mesh}{place:02}-{mesh}{place + 1:02} {1 + place % 3}" for mesh in "abcd" for place in range(15)]
        files = Net(" ".join(f"{name}{1 + 'abcd'.index(name[0])}" for name in names), ", ".join(inside + links),
                    networks={"a15": (ONE,)}).files()
        began = time.process_time()
        status, out, error = run("config", "--best", "32", "--network", *self.write(files))
        self.assertEqual(status, 0, error)
        self.assertEqual(sum(line.startswith("router ") for line in out.splitlines()), 64)
        self.assertLess(time.process_time() - began, 20)

    def test_random_sets(self):
        """The same set for the same seed; a session that is shut may leave it without a connection."""
        self.assertEqual(make(5), make(5))
        number = 0
        for seed in range(1, 13):
            with self.subTest(seed):
                try:
                    routers, running = lab_of({"FRR": "/"}, make(seed), self.folder.name)
                except Refusal as why:
                    self.assertIn("the network isn't connected", str(why))
                    continue
                number += 1
                self.assertEqual(running.metrics is not None, EDGES in make(seed))
                self.assertGreater(len(routers.routers), 2)
        self.assertGreater(number, 9)


class FakeLab:
    """Routers that become quiet at once, or not."""

    def __init__(self, state):
        self.state = state

    def wait(self):
        return self.state


class FailuresOfTheIgp(unittest.TestCase):
    def test_links(self):
        """Those that part an AS are passed over."""
        texts = {str(path): path.read_text() for path in HOT}
        routers = read_set(texts)
        self.assertEqual([routers.path_label(link) for link in links_of(routers)], ["east-hub", "east-west", "hub-west"])
        self.assertEqual([name for name, _ in IgpFailures(texts, routers, None).links], ["east-hub", "east-west", "hub-west"])
        texts = {str(path): path.read_text() for path in DEFLECTION}
        found = IgpFailures(texts, read_set(texts), FakeLab("changing"))
        self.assertEqual((found.links, len(found.said)), ([], 3))
        self.assertTrue(all(line.endswith("is passed over: it parts the AS") for line in found.said))
        found.run()
        self.assertEqual(found.wrong, ["before: FRR does not become quiet"])

    def test_sets_without_an_igp(self):
        texts = {str(path): path.read_text() for path in sorted((TOP / "examples/config/ring").glob("*.conf"))}
        with tempfile.TemporaryDirectory() as folder, self.assertRaises(Refusal) as raised:
            fail_igp({"FRR": "/", "BIRD": "/"}, texts, folder)
        self.assertIn("no IGP runs in this set", str(raised.exception))


class Becomes(Folder):
    def networks(self):
        found = []
        for down in ((), ("--igp-down", "hub-east")):
            status, out, _ = run("config", "--network", *down, *HOT)
            self.assertEqual(status, 0)
            found.append(self.written(f"net{len(found)}", out))
        return found

    def test_a_link_of_the_igp_fails(self):
        before, after = self.networks()
        status, out, error = run("whatif", before, "--becomes", after)
        self.assertEqual((status, error), (0, ""))
        self.assertIn("    3 hub: hub-east-two-far, now hub-west-one-far\n", out)
        self.assertIn("1 router changes; check: stable", out)
        status, out, _ = run("whatif", before, "--becomes", after, "--json")
        said = json.loads(out)["prefixes"][0]
        self.assertEqual((said["lost"], said["restless"], len(said["ends"])), ([], 0, 1))
        self.assertEqual(said["ends"][0]["changed"], [{"router": 3, "from": "3-1-5-2", "to": "3-6-4-2"}])
        status, out, _ = run("whatif", before, "--becomes", before)
        self.assertEqual(status, 0)
        self.assertIn("nothing changes; check: stable", out)

    def test_what_is_lost(self):
        before, _ = self.networks()
        lost = pathlib.Path(before).read_text().replace("rank 3 10.9.0.0/16 3-1-5-2 3-6-4-2", "rank 3 10.9.0.0/16")
        status, out, _ = run("whatif", before, "--becomes", self.written("lost", lost))
        self.assertEqual(status, 3)
        self.assertIn("without a route: 3 hub", out)

    def test_what_does_not_rest_before(self):
        status, out, error = run("whatif", "examples/ring.txt", "--becomes", "examples/ring.txt")
        self.assertEqual((status, error), (3, ""))
        self.assertIn("it does not rest in the order of `rounds` before it becomes another", out)
        status, out, _ = run("whatif", "examples/ring.txt", "--becomes", "examples/ring.txt", "--json")
        said = json.loads(out)
        self.assertEqual((status, said["status"], said["prefixes"], said["before"]["rests"]), (3, 3, [], False))

    def test_several_ends_and_none(self):
        def network(*ranks):
            lines = [f"router {place} 10.0.0.{place}" for place in (1, 2, 3, 4)] + ["link 1 2", "link 1 3", "link 1 4",
                     "link 2 3", "link 3 4", "link 2 4", f"origin 1 {ONE}"]
            return Network(lines + [f"rank {paths.split('-')[0]} {ONE} {paths}" for paths in ranks])

        prefix, direct = Prefix.read(ONE), {(router, Prefix.read(ONE)): (router, 1) for router in (2, 3, 4)}
        direct[1, prefix] = (1,)
        disagree = network("2-3-1 2-1", "3-2-1 3-1", "4-1")
        ends, restless = ends_of(disagree, prefix, direct, 20)
        self.assertEqual((len(ends), restless, sum(ends.values())), (2, 0, 21))
        ring = network("2-3-1 2-1", "3-4-1 3-1", "4-2-1 4-1")
        self.assertEqual(ends_of(ring, prefix, direct, 3), ({}, 4))

    def test_networks_that_are_no_pair(self):
        before, _ = self.networks()
        text = pathlib.Path(before).read_text()
        for other, why in ((text.replace("called hub", "called hob"), "other routers"),
                           (text.replace("origin 2 10.9", "origin 2 10.8"), "other origins")):
            status, _, error = run("whatif", before, "--becomes", self.written("other", other))
            self.assertEqual(status, 1)
            self.assertIn(why, error)
        self.assertEqual(run("whatif", before, "--becomes", before, "--back")[0], 2)
