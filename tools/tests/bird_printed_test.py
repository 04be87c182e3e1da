"""Tests of what `config` prints of files of BIRD, of random sets, and of a large one."""
import pathlib
import tempfile
import time
import unittest

from support import asked_program, load, run
from bird_cases import ONE, line, pair, square
from bird_test import read_set

from bgpnet.configs.ranks import Ranks, network_lines
from bgpnet.configs.some_sets import make
from bgpnet.configs.telling import play, verify
from bgpnet.network import Prefix
from bgpnet.program import Refusal

topology = load("topology")


def relations_conf(graph, asn, origins):
    """A router that marks what it hears by what the neighbor is to it."""
    kinds = {topology.CUSTOMER: "customer", topology.PEER: "peer", topology.PROVIDER: "provider"}
    text = f"router id 10.255.{asn}.1;\nprotocol device {{ }}\n"
    for place, (kind, liked) in enumerate((("customer", 200), ("peer", 150), ("provider", 100)), 1):
        text += (f"filter from_{kind} {{ bgp_local_pref = {liked}; bgp_community.empty; "
                 f"bgp_community.add((65000,{place})); "
                 f"accept; }}\nfilter to_{kind} {{ "
                 + ("if bgp_community ~ [(65000,2..3)] then reject; " if kind != "customer" else "") + "accept; }\n")
    if asn in origins:
        text += f"protocol static {{ ipv4; route 10.{asn}.0.0/16 blackhole; }}\n"
    for peer in graph.peers()[asn]:
        kind = kinds[graph.kinds[asn, peer]]
        text += (f"protocol bgp r{peer} {{ local 10.255.{asn}.1 as {asn}; neighbor 10.255.{peer}.1 as {peer}; "
                 f"ipv4 {{ import filter from_{kind}; export filter to_{kind}; }}; }}\n")
    return text


class Random(unittest.TestCase):
    def test_the_same_seed_makes_the_same_set(self):
        for of in ("bird", "mixed", "any"):
            self.assertEqual(make(7, of), make(7, of))
            self.assertNotEqual(make(7, of), make(10, of))

    def test_ends_that_are_played_are_verified(self):
        """What the program settles in is an end by the configurations, of each set that is not refused."""
        program, taken = asked_program(), 0
        for seed in range(24):
            try:
                routers = read_set(make(seed, ("bird", "mixed")[seed % 2]))
                is_settled, routes = play(program, Ranks(routers))
            except Refusal as why:
                self.assertRegex(str(why), r"^r\d+\.conf:\d+: ")
                continue
            if is_settled:
                taken += 1
                self.assertEqual([line for is_best, line in verify(routers, routes) if not is_best], [], seed)
        self.assertGreater(taken, 15)

    def test_beside_where_a_software_is_not_there(self):
        for words in (["examples/config/bird"], ["examples/config/mixed"], ["--random", "1"],
                      ["--random", "1", "--of", "bird"]):
            status, out, error = run("beside", "--frr", "/nowhere", "--bird", "/nowhere", *words)
            self.assertEqual((status, error), (1, ""))
            self.assertTrue(out.startswith("skipped"))


class Large(unittest.TestCase):
    def test_sixty_four_routers(self):
        """Customers, peers and providers by communities: what `topology` makes of the same graph by its own rules."""
        graph = topology.hierarchy(64, 3, 30)
        files = {f"r{asn}.conf": relations_conf(graph, asn, (7, 20, 64)) for asn in graph.routers}
        began = time.process_time()
        ranks = Ranks(read_set(files))
        network_lines(ranks)
        self.assertLess(time.process_time() - began, 10)
        for origin in (7, 20, 64):
            wanted, _ = topology.gao_rexford(graph, origin)
            for asn in graph.routers:
                found = ranks.paths(Prefix.read(f"10.{origin}.0.0/16"))[asn]
                self.assertEqual(sorted(found), sorted(wanted[asn]), (origin, asn))


class Printed(unittest.TestCase):
    """What `config` prints of files of BIRD."""

    def written(self, files):
        folder = tempfile.TemporaryDirectory()
        self.addCleanup(folder.cleanup)
        for name, text in files.items():
            pathlib.Path(folder.name, name).write_text(text)
        return folder.name, sorted(str(pathlib.Path(folder.name, name)) for name in files if name.endswith(".conf"))

    def test_explain(self):
        _, names = self.written(square("filter b { bgp_local_pref = 35; preference = 110; accept; } / "
                                       "filter c { if bgp_path.len > 5 then accept; reject; }", d_in2="filter b",
                                       d_in3="filter c"))
        self.assertEqual(run("config", "--explain", 64604, ONE, *names), (
            0, "1  64604-64602-64601  preference 110 (r4.conf:3 filter b)  local-pref 35 (r4.conf:3 filter b)  "
               "length 3\n"
               "denied  64604-64603-64601  r4.conf:4 filter c\n", ""))

    def test_a_file_that_others_include_is_no_router(self):
        files = line(top2='include "policy.conf";', b_in1="filter marked")
        files["policy.conf"] = "filter marked { bgp_med = 7; accept; }\n"
        folder, names = self.written(files)
        status, out, error = run("config", "--explain", 64602, ONE, *names)
        self.assertEqual((status, error), (0, ""))
        self.assertIn("med 7 (policy.conf:1 filter marked)", out)
        pathlib.Path(folder, "policy.conf").write_text("filter marked { bgp_med = ; }\n")
        status, out, error = run("config", *names)
        self.assertEqual((status, out), (1, ""))
        self.assertIn("policy.conf:1: ';' stands where BIRD takes a value", error)

    def test_an_include_stands_anywhere(self):
        """Within a block, in a folder of its own, by a pattern; files by their names."""
        files = line(top2='filter i {\ninclude "parts.d/*.inc";\naccept; }', b_in1="filter i")
        folder, names = self.written(files)
        pathlib.Path(folder, "parts.d").mkdir()
        for number in (2, 1):
            pathlib.Path(folder, "parts.d", f"{number}.inc").write_text(f"bgp_med = {number};\n")
        status, out, error = run("config", "--explain", 64602, ONE, *names)
        self.assertEqual((status, error), (0, ""))
        self.assertIn("med 2", out)

    def test_patterns_of_an_include(self):
        """A folder among the files is passed over, and a pattern may fit none; but the folder of a pattern has to be
        there."""
        files = line(top2='include "parts.d/*";', b_in1="filter marked")
        folder, names = self.written(files)
        pathlib.Path(folder, "parts.d", "more").mkdir(parents=True)
        pathlib.Path(folder, "parts.d", "a.inc").write_text("filter marked { bgp_med = 7; accept; }\n")
        pathlib.Path(folder, "parts.d", "more", "b.inc").write_text("frobnicate;\n")
        status, out, error = run("config", "--explain", 64602, ONE, *names)
        self.assertEqual((status, error), (0, ""))
        self.assertIn("med 7 (parts.d/a.inc:1 filter marked)", out.replace(folder + "/", ""))
        for pattern, wanted in (("parts.d/*.nothing", (0, "")), ("nowhere/*.inc", (1, "nowhere: No such file"))):
            text = files["r2.conf"].replace("parts.d/*", pattern).replace("filter marked", "all")
            pathlib.Path(folder, "r2.conf").write_text(text)
            status, _, error = run("config", "--network", *names)
            self.assertEqual(status, wanted[0])
            self.assertIn(wanted[1], error)

    def test_a_file_that_includes_itself(self):
        _, names = self.written({**line(top2='include "more.inc";'), "more.inc": 'include "more.inc";\n'})
        status, out, error = run("config", *names)
        self.assertEqual((status, out), (1, ""))
        self.assertIn("more.inc:1: 'include': files include one another more than 8 deep", error)

    def test_the_language_of_a_file(self):
        files = pair()
        files["r1.conf"] = "# router bgp 7, once\n" + files["r1.conf"]
        _, names = self.written(files)
        self.assertEqual(run("config", "--network", *names)[0], 0)
        odd = files["r2.conf"].replace("protocol", "  protocol").replace("router id", "/* */ router id")
        _, names = self.written({**files, "r2.conf": odd + "/*\nrouter bgp 9\n*/\n"})
        self.assertIn("is no line that is known here", run("config", "--network", *names)[2])
        self.assertEqual(run("config", "--network", names[0], "--bird", names[1])[::2], (0, ""))

    def test_what_a_router_is_called_and_what_outlasts_a_restart(self):
        files = line(top1='hostname "west";', top2='hostname "two words";', a_opt2="graceful restart;",
                     b_opt1="graceful restart aware;", b_opt3="graceful restart off; / long lived graceful restart on;")
        _, names = self.written(files)
        status, out, error = run("config", "--network", *names)
        self.assertEqual(status, 0, error)
        self.assertEqual([text for text in out.splitlines() if text.startswith("#")],
                         ["# 64601 called west", "# 64601 keeps routes of peers that restart",
                          "# 64602 keeps routes of peers that restart"])
        self.assertEqual([text.split(": ")[2:4] for text in error.splitlines()], [
            [f"{names[0]}:11", "'graceful restart'"], [f"{names[1]}:17", "'long lived graceful restart'"]])
        self.assertEqual(*(run("config", "--explain", word, ONE, *names) for word in ("west", 64601)))

    def test_warnings(self):
        top = ("protocol kernel { ipv4 { export all; }; } / protocol bfd { } / protocol ospf v3 { area 0 { }; } / "
               "protocol rip ng { interface \"*\"; } / protocol device { scan time 10; } / "
               "protocol bgp six { local as 64602; "
               "neighbor 2001:db8::1 as 64601; ipv6 { import all; export all; }; } / protocol bgp shut { disabled; "
               "local as 64602; neighbor 10.255.8.1 as 64608; ipv4 { import all; export all; }; } / "
               "protocol bgp far { local as 64602; neighbor 10.255.9.1 as 64609; ipv4 { import all; export all; }; }")
        files = line(top2=top, b_ch1="import limit 5 action block;", b_opt3="local role peer; / bfd on;",
                     c_opt2="local role customer;", b_opt1="multihop;", top3="")
        files["r2.conf"] = files["r2.conf"].replace("import limit", "next hop keep;\nimport limit")
        for own, other in ((1, 3), (3, 1)):
            files[f"r{own}.conf"] += (f"protocol bgp r{other} {{ local as {64600 + own}; neighbor 10.255.{other}.1 as "
                                      f"{64600 + other}; ipv4 {{ import all; export all; }}; }}\n")
        _, names = self.written(files)
        status, _, error = run("config", "--network", *names)
        self.assertEqual(status, 0, error)
        for said in ("protocol kernel is not read", "protocol bfd is not read", "a session of IPv6 is not read",
                     "protocol shut is disabled", "no configuration of AS 64609", "taken as never reached",
                     "'bfd' is not read",
                     "'next hop keep' is not read", "the roles peer and customer don't fit"):
            self.assertIn(said, error)
