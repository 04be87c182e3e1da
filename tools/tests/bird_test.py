"""Tests of the rules by which `config` reads routers of BIRD, and of what it refuses."""
import unittest

from support import load  # noqa: F401, for it sets the path
from bird_cases import CASES, ONE, OWN, bird, frr, line, pair, shape, square
from bird_more_cases import CASES as MORE_CASES

from bgpnet.configs.bird import random_sets as bird_sets
from bgpnet.configs.files import read_router, set_of
from bgpnet.configs.ranks import Ranks, network_lines
from bgpnet.configs.routes import ORIGINS
from bgpnet.network import Prefix, path_text
from bgpnet.program import Refusal


def read_set(files):
    return set_of([read_router(text, name) for name, text in files.items()])


def pair_text(community):
    return f"{community >> 16}:{community & 0xFFFF}"


def shown(way):
    """A way with the attributes that are not those of a route without policy."""
    route = way.route
    said = [path_text(asn - 64600 for asn in way.path)]
    said += [text.replace("preference", "pref") for _, text in route.above()]
    if len(way.path) == 1 and not said[1:]:
        said.append("pref 200")
    if route.has_preference and (route.preference != 100 or len(way.path) == 1):
        said.append(f"lp {route.preference}")
    elif not route.has_preference and len(way.path) > 1:
        said.append("lp none")
    if route.path != way.path[1:]:
        said.append("as " + " ".join(map(str, route.path)))
    if route.origin or route.origin is None and len(way.path) > 1:
        said.append(f"origin {'none' if route.origin is None else ORIGINS[route.origin]}")
    if route.has_med:
        said.append(f"med {route.med}")
    if route.communities:
        said.append("c " + " ".join(map(pair_text, sorted(route.communities))))
    if route.large:
        said.append("l " + " ".join(":".join(map(str, one)) for one in sorted(route.large)))
    if route.customer is not None:
        said.append(f"otc {route.customer}")
    return " ".join(said)


class Rules(unittest.TestCase):
    def test_each_rule_of_bird(self):
        for sentence, files, wanted in CASES + MORE_CASES:
            with self.subTest(sentence):
                ranks = Ranks(read_set(files))
                for (place, prefix), ways in wanted.items():
                    orders = ranks.orders.get(Prefix.read(prefix))
                    self.assertEqual([shown(way) for way in orders[64600 + place].ways] if orders else [], ways)


def place_of(name, text, marker):
    """The place of the first line that has a text."""
    return next(f"{name}:{number}" for number, line in enumerate(text.split("\n"), 1) if marker in line)


class Refuses(unittest.TestCase):
    """Each refusal names the file and the line of what stands in the way."""

    def refused(self, files, marker, why, name="r2.conf"):
        with self.subTest(marker, why=why):
            with self.assertRaises(Refusal) as raised:
                network_lines(Ranks(read_set(files)))
            said, place = str(raised.exception), place_of(name, files[name], marker)
            self.assertTrue(said.startswith(place + ": "), f"{said}, not at {place}")
            self.assertIn(why, said)


class Refusals(Refuses):
    def test_what_ranked_paths_cannot_say(self):
        for option, why in (
                ("prefer older on;", "depends on the order of events"), ("rr client;", "a route reflector"),
                ("rr cluster id 1.2.3.4;", "a route reflector"), ("allow local as 2;", "a way may pass a router twice"),
                ("allow local as;", "a way may pass a router twice"), ("confederation 7;", "a confederation"),
                ("confederation member yes;", "a confederation"), ("dynamic name \"x\";", "dynamic neighbors"),
                ("rs client;", "the next hop is kept"), ("enable as4 off;", "AS numbers of two octets"),
                ("vrf \"red\";", "a VRF"), ("interface \"eth0\";", "a neighbor by its interface")):
            self.refused(line(b_opt1=option), option, why)
        for option, why in (
                ("add paths on;", "more than one path"), ("add paths tx;", "more than one path"),
                ("add paths;", "more than"),
                ("secondary on;", "not the best route"), ("aigp on;", "AIGP"), ("aigp originate;", "AIGP"),
                ("igp table master4;", "an IGP table"), ("gateway recursive;", "whether a next hop is reached"),
                ("next hop keep;", "reaches the next hop"), ("next hop address 10.0.0.1;", "reaches the next hop")):
            self.refused(line(b_ch1=option), option, why)

    def test_sessions(self):
        neighbor = "neighbor 10.255.1.1 as 64601"
        for line_, why in (
                ("neighbor 10.255.1.1 as 64602", "iBGP"), ("neighbor 10.255.1.1 internal", "iBGP"),
                ("neighbor range 10.255.1.0/24 as 64601", "dynamic neighbors"),
                ("neighbor 10.255.1.1 port 1179 as 64601", "port 1179"),
                ("neighbor 2001:db8::1 as 64601", "an address of IPv6"),
                ("neighbor 10.255.1.1 as 64609", "its address is one of 64601")):
            files = pair()
            self.refused({**files, "r2.conf": files["r2.conf"].replace(neighbor, line_)}, line_, why)
        for line_, why in (("neighbor 10.255.1.1", "no line says the neighbor's AS"),
        ("passive", "no line says its neighbor")):
            files = pair()
            self.refused_at_end(files, neighbor, line_, why)
        files = line()
        self.refused({**files, "r2.conf": files["r2.conf"].replace("10.255.2.1 as 64602", "10.255.2.1 as 64609", 1)},
                     "as 64602", "a second AS")
        other = files["r3.conf"].replace("as 64603", "as 64601")
        self.refused({**files, "r3.conf": other}, "protocol bgp", "is that of r1.conf", "r3.conf")

    def refused_at_end(self, files, old, new, why):
        """A line that lacks is found where the braces of its protocol end."""
        text = files["r2.conf"].replace(old, new)
        self.refused({**files, "r2.conf": text[:text.rindex("}")] + "} # the end\n"}, "# the end", why)

    def test_what_is_not_known_here(self):
        self.refused(pair(own1=f"route {ONE} via 10.0.0.5;"), "via", "next hop is reached", "r1.conf")
        self.refused(pair(own1=f"route {ONE} recursive 10.0.0.5;"), "recursive", "next hop is reached", "r1.conf")
        self.refused(pair(own1=f"{OWN} / route {ONE} unreachable;"), "unreachable", "a second route", "r1.conf")
        for prefix in ("224.1.0.0/16", "127.1.0.0/16", "0.1.0.0/16"):
            self.refused(pair(own1=f"route {prefix} blackhole;"), prefix, "no network of hosts", "r1.conf")
        for option in ("b_opt1", "b_ch1"):
            word = {"b_opt1": "rs client;", "b_ch1": "next hop keep;"}[option]
            files = pair(own1="", **{"b_opt1": "multihop;",
                                     option: f"{word} / multihop;" if option == "b_opt1" else word})
            files["r2.conf"] += f"protocol static own {{ ipv4; route {ONE} blackhole; }}\n"
            self.refused(files, word, "the next hop is kept")
        self.refused(line(own2=OWN), "route 10.1", "has another origin", "r2.conf")
        self.refused(square("protocol static own { ipv4; / route 10.255.3.0/24 blackhole; / }", d_opt2="multihop;",
                            d_opt3="multihop;"), "route 10.255.3.0", "covers the address of neighbor 10.255.3.1",
                            "r4.conf")
        self.refused({**pair(), "r2.conf": pair()["r2.conf"].replace("router id 10.255.2.1;\n", "")}, "protocol bgp",
                     "no line 'router id'")
        self.refused({**pair(), "r2.conf": pair()["r2.conf"].replace("10.255.2.1;", "from \"eth*\";", 1)}, "from",
                     "by the interfaces")
        for top, why in (
                ("protocol pipe { table master4; peer table t; }", "routes of another protocol or table"),
                ("protocol ospf { area 0 { }; }", "routes of another protocol or table"),
                ("protocol rip { ipv4; interface \"*\"; }", "routes of another protocol or table"),
                ("protocol ospf v2 o { ipv4; area 0 { }; }", "routes of another protocol or table"),
                ("protocol babel b { ipv4 { }; ipv6; }", "routes of another protocol or table"),
                ("protocol perf { ipv4; }", "routes of another protocol or table"),
                ("protocol kernel { learn; ipv4 { export all; }; }", "with 'learn'"),
                ("protocol direct { ipv4; }", "told by 'export all'")):
            self.refused(pair(top2="ipv4 table t; / " + top), top.split(" {")[0], why)
        self.refused(pair(top2="ipv4 table far ;", b_ch1="table far;"), "table far;", "another table")
        self.refused(pair(own1=f"route {ONE} blackhole {{ unset(bgp_med); }};"), "unset", "BIRD ends by a fault",
                     "r1.conf")

    def test_orders_that_go_in_a_circle(self):
        links = [(1, 2), (1, 3), (1, 4), (2, 5), (3, 5), (4, 5)]
        into = {f"e_in{peer}": "filter l" for peer in (2, 3, 4)}
        lengths = ("filter l { if bgp_path.first = 64602 then { bgp_path.prepend(1); bgp_path.prepend(1); } "
                   "else if bgp_path.first = 64604 then bgp_path.prepend(1); accept; }")
        off = {"e_opt2": "path metric off;", "e_opt3": "path metric off;"}
        self.refused(shape(links, {5: lengths}, {1: OWN}, {**into, **off}), "protocol bgp r3", "no order", "r5.conf")
        meds = ("filter l { if bgp_path.first = 64603 then bgp_path.prepend(64778); else if bgp_path.first = 64602 "
                "then { bgp_path.prepend(64777); bgp_med = 35; } else { bgp_path.prepend(64777); bgp_med = 4; } "
                "accept; }")
        for more in ({}, {"e_opt2": "deterministic med on;"}):
            self.refused(shape(links, {5: meds}, {1: OWN}, {**into, **more}), "protocol bgp r3", "no order", "r5.conf")

    def test_a_way_that_comes_back(self):
        links = [(1, 2), (2, 3), (3, 4), (2, 4)]
        self.refused(shape(links, {3: "filter d { bgp_path.delete(64602); accept; }"}, {1: OWN}, {"c_in2": "filter d"}),
                     "bgp_path.delete", "passes 64602 twice", "r3.conf")

    def test_an_origin_that_likes_its_own_route_less(self):
        files = pair(own1=OWN)
        files["r1.conf"] = bird(1, (2,), "filter f { preference = 250; accept; }", OWN, in2="filter f")
        files["r2.conf"] = frr(2, (1,), "route-map OUT permit 10 / set as-path exclude 64601 // "
                                        "neighbor 10.255.1.1 route-map OUT out")
        self.refused(files, "protocol bgp r2", "likes 64601-64602-64601 better than its own route (preference 250",
                     "r1.conf")

    def test_lines_that_bird_does_not_take(self):
        for text, why in (
                ("{ if 1 < 2 < 3 then accept; reject; }", "no chains"),
                ("{ if ! net ~ [10.0.0.0/8] then accept; }", "NOT"),
                ("{ if !bgp_path.len > 2 then accept; }", "NOT"),
                ("{ if net ~ [10.0.0.1/8] then accept; }", "behind its length"),
                ("{ if net ~ [10.0.0.0/8{9,7}] then accept; }", "range of lengths"),
                ("{ if net ~ [10.0.0.0/8{9,33}] then accept; }", "range of lengths"),
                ("{ if net ~ 10.0.0.0/33 then accept; }", "a length of 33"),
                ("{ if (1,2) ~ [(2,3)..(1,9)] then accept; }", "goes down"),
                ("{ if (1,2) ~ [(2,3)..(3,1)] then accept; }", "goes down"),
                ("{ if (1,2) ~ [(1,9..7)] then accept; }", "goes down"),
                ("{ if (1,2) ~ [(1,70000)] then accept; }", "from 0 to 65535"),
                ("{ if (1,2,3) ~ [(1,*,7)] then accept; }", "numbers behind it"),
                ("{ bgp_community.add((70000,1)); accept; }", "at most 65535"),
                ("{ if 1 ~ [1, (1,2)] then accept; }", "several types"),
                ("{ bgp_med = 1/0; accept; }", "division by 0"),
                ("{ bgp_med = -1; accept; }", "a value"), ("{ bgp_med = 4294967296; accept; }", "32 bits"),
                ("{ bgp_med = true; accept; }", "must be of type int"),
                ("{ bgp_origin = 1; accept; }", "must be of type origin"),
                ("{ bgp_med = bgp_origin; accept; }", "must be of type int"),
                ("{ net = 10.0.0.0/8; accept; }", "can't be set"),
                ("{ proto = \"x\"; accept; }", "can't be set"), ("{ source = RTS_BGP; accept; }", "can't be set"),
                ("{ unset(net); accept; }", "can be unset"), ("{ unset(preference); accept; }", "can be unset"),
                ("{ bgp_med.empty; accept; }", "can't be emptied"), ("{ bgp_med.prepend(1); accept; }", "bgppath"),
                ("{ if bgp_med < true then accept; }", "of one type"), ("{ if 5 then accept; }", "CONDITION"),
                ("{ if true then ; accept; }", "a statement"), ("{ ; accept; }", "a statement"),
                ("{ case net.len { N: accept; } }", "an item of a set"),
                ("{ case net { 10.0.0.0/8: accept; } }", "':'"),
                ("{ case 5 { 5: accept; else : reject; } }", "a statement"),
                ("{ int hop = 5; accept; }", "a word of BIRD"),
                ("{ IF true then accept; }", "defined nowhere"),
                ("{ for int asn in bgp_path do accept; }", "a word of BIRD"),
                ("{ for pair c in bgp_path do accept; }", "must be int"),
                ("{ for int c in 5 do accept; }", "a path or a list"),
                ("{ int x = 5; int x = 6; accept; }", "defined already"), ("{ x = 5; accept; }", "defined nowhere"),
                ("{ int x = 5; x = true; accept; }", "must be of type int"), ("{ g(); accept; }", "defined nowhere"),
                ("{ h(true); accept; }", "must be int"), ("{ h(); accept; }", "takes 1"),
                ("{ h(1, 2); accept; }", "takes 1"),
                ("{ bgp_community.add((1,2)).add((1,3)); accept; }", "';'"), ("{ enum x; accept; }", "defined nowhere"),
                ("{ bgp_path = bgp_path.prepend(5); accept; }", "an operator as .len"), ("{ accept }", "a value"),
                ("{ return; }", "a value"), ("{ if bgp_path ~ [= bgp_med =] then accept; }", "a part of a mask"),
                ("{ if bgp_path ~ [= + 5 =] then accept; }", "in front of a mask"),
                ("{ if net ~ [1, 5; accept; }", "']'"),
                ("{ bgp_med = 5 accept; }", "';'"), ("{ function x() { } }", "a statement"),
                ("{ /* accept; }", "does not end"),
                ("{ /* a /* */ accept; }", "within a comment"), ("{\r accept; }", "begins no word"),
                ("{\f accept; }", "begins no word"), ("{ \u00e4 accept; }", "begins no word"),
                ("{ bgp_med = 1; accept; } }", "no option that is known")):
            files = pair(text, top2="define N = 16; / function h(int a) { return a; }")
            self.refused(files, "filter f", why)

    def test_a_file_that_is_cut(self):
        """Of each beginning of a file nothing but a refusal or a router comes."""
        text = MORE_CASES[21][1]["r2.conf"] + bird_sets.make(3, False)["r2.conf"]
        for at in range(0, len(text), 7):
            try:
                read_router(text[:at], "r2.conf", True)
            except Refusal as why:
                self.assertRegex(str(why), r"^r2\.conf:\d+: ")

    def test_what_filters_read_that_is_not_known(self):
        for text, why in (
                ("{ if roa_check(t) = ROA_VALID then accept; }", "roa_check"),
                ("{ bgp_ext_community.empty; }", "extended"),
                ("{ if (rt, 1, 2) ~ bgp_ext_community then accept; }", "extended"),
                ("{ if bgp_aigp = 5 then accept; }", "AIGP"),
                ("{ if ifname = \"eth0\" then accept; }", "the interface"), ("{ gw = 10.0.0.1; accept; }", "next hops"),
                ("{ if bgp_cluster_list.len > 0 then accept; }", "a route reflector"),
                ("{ { int x = 5; } for int y in bgp_path do accept; }", "mixes their values up")):
            self.refused(pair(text), "filter f", why)
        self.refused(line(top2="filter o { bgp_next_hop = 10.0.0.1; accept; }", b_out3="filter o"), "filter o",
                     "set outwards")

    def test_lines_of_files(self):
        for top, why in (
                ("define N = M;", "defined nowhere"), ("define N = 5; / define N = 6;", "defined already"),
                ("define hop = 5;", "a word of BIRD"), ("define N = bgp_med;", "can't be worked out"),
                ("attribute pair x;", "does not take"), ("attribute bool x;", "does not take"),
                ("function g() { g(); return 1; }", "calls itself"), ("function g(int a, int b) { return 1; }", "';'"),
                ("frobnicate 5;", "no option that is known"), ("protocol bgp4 { }", "no protocol"),
                ("protocol bgp x from y { }", "there is no template"),
                ("template static T { ipv4; } / protocol bgp x from T { }",
                                                                        "of another protocol"),
                ("protocol static { route 10.5.0.0/16 blackhole; }", "no channel"),
                ("protocol static { ipv4; route 10.5.0.0/16 frob; }", "blackhole, unreachable"),
                ("protocol static { ipv4 { } route 10.5.0.0/16 blackhole; }", "';'"),
                ("include \"nowhere.conf\";", "No such file")):
            marker = top.split(" / ")[-1]
            self.refused(pair(top2=top), marker, why)
        for option, why in (("frobnicate;", "no option that is known"), ("hold time 90s;", "';'"),
        ("local role boss;", "no role"),
                            ("med metric 5 6;", "';'"), ("neighbor 10.255.9.1 as 7;", "a second neighbor"),
                            ("hold time;", "no option that is known"), ("default bgp_med x;", "defined nowhere")):
            self.refused(pair(b_opt1=option), option, why)
        for option, why in (("; import none;", "no option"), ("import filter nope;", "there is no filter"),
                            ("preference;", "no option that is known"), ("preference 65536;", "at most 65535"),
                            ("table nope;", "there is no table")):
            self.refused(pair(b_ch1=option), option, why)
        text = pair()["r2.conf"]
        self.refused({**pair(), "r2.conf": text.replace("    export all;\n", "")}, "  };", "no export policy")
        self.refused({**pair(), "r2.conf": text.replace("    import all;\n", "")}, "  };", "no import policy")
