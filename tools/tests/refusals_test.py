"""Tests that one run tells all that is refused of a set of configurations, and nothing that only hangs on it."""
import unittest
import unittest.mock

from support import load  # noqa: F401, for it sets the path
from bird_cases import ONE, OWN, TWO, bird, frr, line, pair, shape
from inside_cases import MAP, Net

from bgpnet.configs.files import read_set
from bgpnet.configs.ranks import Ranks, network_lines
from bgpnet.program import Refusal

DIAMOND = [(1, 2), (1, 3), (1, 4), (2, 5), (3, 5), (4, 5)]


def refusals(files):
    """What is refused of a set, line by line."""
    try:
        network_lines(Ranks(read_set(files)))
    except Refusal as why:
        return why.lines
    return []


class Told(unittest.TestCase):
    def assert_told(self, files, wanted):
        """The refusals of a set are these, each a place and some of its words, in this order."""
        said = refusals(files)
        self.assertEqual([why.split(": ")[0] for why in said], [place for place, _ in wanted], "\n".join(said))
        for why, (_, words) in zip(said, wanted):
            self.assertIn(words, why)

    def test_all_of_a_file_of_bird(self):
        """Items and options are refused one by one; what hangs on those is not."""
        top = ("define N = 5 5; / define M = N + 1; / filter f { bgp_ext_community.empty; accept; } / "
               "filter g { if net.len > M then accept; reject; } / function h() { return bgp_aigp; } / "
               "filter i { if h() = 5 then accept; reject; } / template bgp T { rr client; prefer older on; } / "
               "frobnicate 5;")
        files = pair(top2=top, b_in1="filter f", b_ch1="add paths on; / secondary on;", b_opt1="confederation 7;")
        files["r2.conf"] += "protocol bgp x from T { local as 64602; neighbor 10.255.9.1 as 64609; vrf \"red\"; }\n"
        self.assert_told(files, [
            ("r2.conf:9", "a route reflector"), ("r2.conf:14", "a confederation"), ("r2.conf:3", "';'"),
            ("r2.conf:5", "extended communities"), ("r2.conf:7", "AIGP"), ("r2.conf:9", "prefer older"),
            ("r2.conf:10", "'frobnicate 5'"), ("r2.conf:16", "more than one path"),
            ("r2.conf:17", "not the best route"), ("r2.conf:22", "a VRF")])

    def test_what_a_router_of_bird_says(self):
        """What is refused of protocols as a whole, too."""
        files = pair(top2="protocol direct { ipv4; } / protocol pipe { table master4; } / protocol static { ipv4; / "
                          "route 224.1.0.0/16 blackhole; / route 10.9.0.0/16 blackhole; / route 10.9.0.0/16 prohibit; }")
        self.assert_told(files, [("r2.conf:4", "routes of another protocol"), ("r2.conf:6", "no network of hosts"),
                                 ("r2.conf:8", "a second route")])
        files = pair(top2="protocol direct { ipv4; }")
        files["r2.conf"] = files["r2.conf"].replace("router id 10.255.2.1", "router id 0.0.0.0")
        self.assert_told(files, [("r2.conf:1", "the router id is 0"), ("r2.conf:3", "told by 'export all'")])

    def test_all_of_a_set(self):
        """First what asks for two routers of one AS, whichever file it is in, then file by file."""
        files = line(a_opt2='password "a";', b_opt1='password "b";')
        files["r3.conf"] = frr(3, (2,), "frobnicate // redistribute static / neighbor 10.255.9.1 remote-as internal")
        files["r4.conf"] = bird(4, (3,)).replace("as 64604", "as 64602")
        files["r5.conf"] = bird(5, (1, 2)).replace("neighbor 10.255.2.1 as 64602", "neighbor 10.255.2.1 as 64699") \
            .replace("router id 10.255.5.1", "router id 10.255.1.1")
        self.assert_told(files, [
            ("r4.conf:3", "AS 64602 is that of r2.conf:3 too"),
            ("r1.conf:10", "the password is not that"), ("r3.conf:3", "'frobnicate'"), ("r3.conf:9", "'redistribute"),
            ("r5.conf:1", "the router id 10.255.1.1 is that of r1.conf:1"), ("r5.conf:13", "its address is one of r2, AS 64602")])

    def ways_refused(self):
        """A set of which several ways are refused."""
        lengths = ("filter l { if bgp_path.first = 64602 then { bgp_path.prepend(1); bgp_path.prepend(1); } "
                   "else if bgp_path.first = 64604 then bgp_path.prepend(1); accept; }")
        into = {f"e_in{peer}": "filter l" for peer in (2, 3, 4)}
        files = shape(DIAMOND, {5: lengths, 1: "filter f { preference = 250; accept; }"}, {1: OWN},
                      {**into, "e_opt2": "path metric off;", "e_opt3": "path metric off;", "a_in2": "filter f"})
        files["r2.conf"] = bird(2, (1, 5), own=f"route {TWO} blackhole;")
        files["r6.conf"] = frr(6, (1,), "route-map OUT permit 10 / set as-path exclude 64601 // "
                                        "neighbor 10.255.1.1 route-map OUT out")
        files["r1.conf"] += bird(1, (6,), in6="filter f").split("protocol device { }\n")[1]
        return files

    OF_WAYS = [("r1.conf:32", "64601-64606-64601 better than its own route"), ("r5.conf:13", "no order"),
               ("r6.conf:4", "passes 64601 twice")]

    def test_all_of_the_ways(self):
        """Of each line the first; and of a prefix that has two origins just that."""
        files = self.ways_refused()
        self.assert_told(files, self.OF_WAYS)
        files["r6.conf"] = files["r6.conf"].replace("exit\n", f" network {TWO}\nexit\n")
        self.assert_told(files, self.OF_WAYS[:2] + [("r6.conf:11", f"{TWO} has another origin")])
        files = pair(own1=f"route {ONE} blackhole {{ unset(bgp_med); }}; / route {TWO} blackhole {{ unset(bgp_med); }};")
        self.assert_told(files, [("r1.conf:5", "BIRD ends by a fault"), ("r1.conf:6", "BIRD ends by a fault")])

    def test_ways_beside_other_refusals(self):
        """Ways are refused in the same run as lines and sessions, where they do not hang on those."""
        files = self.ways_refused()
        files["r7.conf"] = frr(7, (8,), "frobnicate") + "ip prefix-list P permit 10.0.0.0/99\n"
        files["r8.conf"] = frr(8, (7, 9), " // neighbor 10.255.9.1 password one")
        files["r9.conf"] = frr(9, (8,), " // neighbor 10.255.8.1 password two")
        rest = [("r7.conf:3", "'frobnicate'"), ("r7.conf:10", "prefix"), ("r8.conf:9", "the password is not that")]
        self.assert_told(files, self.OF_WAYS + rest)
        with unittest.mock.patch("bgpnet.configs.ways.MOST_BESIDE", 2):
            self.assert_told(files, rest)
        # of a router whose lines are refused nothing is said: not of r5, nor of the ways over r6
        files["r5.conf"] += "frobnicate 5;\n"
        files["r6.conf"] = files["r6.conf"].replace("frr defaults", "frobnicate\nfrr defaults")
        self.assert_told(files, [("r5.conf:30", "'frobnicate 5'"), ("r6.conf:2", "'frobnicate'"), *rest])

    def test_ways_over_sessions_that_are_refused(self):
        """Of a session that is refused, or whose ends are found by what is left, nothing is said; else it is."""
        files = {"r1.conf": frr(1, (2, 3), f" // network {ONE} / neighbor 10.255.2.1 weight 40000"),
                 "r2.conf": frr(2, (1,), "route-map OUT permit 10 / set as-path exclude 64601 // "
                                         "neighbor 10.255.1.1 route-map OUT out"),
                 "r3.conf": frr(3, (1,), " // frobnicate")}
        way, line = ("r1.conf:7", "64601-64602-64601 better than its own route"), ("r3.conf:8", "'frobnicate'")
        self.assert_told(files, [way, line])
        secret = files["r1.conf"].replace("exit\n", " neighbor 10.255.2.1 password a\nexit\n")
        self.assert_told(dict(files, **{"r1.conf": secret}), [("r1.conf:11", "the password"), line])
        guessed = files["r1.conf"].replace("10.255.2.1", "10.9.2.1").replace("remote-as 64602", "remote-as external")
        self.assert_told(dict(files, **{"r1.conf": guessed, "r3.conf": frr(3, (1,))}), [way])
        self.assert_told(dict(files, **{"r1.conf": guessed}), [line])

    def test_ways_where_an_as_has_several_routers(self):
        """An AS of which a file is refused is left out; circles and ties, which hang on all ways, are told later."""
        files = Net("a1 b1 x2 y3 z4", "a-b, a-x, x-y, x-z, y-z", top={"x": MAP + "as-path exclude 65004"},
                    family={"x": "neighbor {z} route-map M out", "z": "neighbor {x} weight 40000"}).files()
        way = "z.conf:21", "z-x-y-z better than its own route"
        self.assert_told(files, [way])
        self.assert_told(dict(files, **{"b.conf": files["b.conf"] + "frobnicate\n"}), [("b.conf:26", "'frobnicate'"), way])
        self.assert_told(dict(files, **{"y.conf": files["y.conf"] + "frobnicate\n"}), [("y.conf:26", "'frobnicate'")])
        tied = {name: text.replace(" bgp bestpath compare-routerid\n", "") for name, text in
                Net("a1 b1 x2 y3 o4 w5", "a-b, a-x, a-y, x-o, y-o, o-w", networks={"o": (ONE,)}).files().items()}
        self.assert_told(tied, [("a.conf:21", "tie: a-x-o, a-y-o")])
        self.assert_told(dict(tied, **{"w.conf": tied["w.conf"] + "frobnicate\n"}), [("w.conf:21", "'frobnicate'")])
        # of which AS a file is that has no line `router bgp` is not known
        self.assert_told(dict(files, **{"w.conf": "frobnicate\n"}), [("w.conf:1", "'frobnicate'")])

