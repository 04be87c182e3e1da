"""Tests of `config`."""
import ctypes
import functools
import itertools
import json
import pathlib
import random
import re
import shutil
import struct
import tempfile
import time
import unittest
import unittest.mock

from support import asked_program, load, run
from config_cases import CASES, HEAD, ONE, OUT1, OUT2, Q, TWO, between, diamond, into, line3, pair, router

from bgpnet.configs.communities import community_text, large_text
from bgpnet.configs.ends import Judge
from bgpnet.configs.files import read_router, set_of
from bgpnet.configs.order import Order, Tie
from bgpnet.configs.outside import Outside
from bgpnet.configs.random_sets import make
from bgpnet.configs.ranks import Ranks, network_lines, schedule_lines
from bgpnet.configs.regular import BadExpression, expression
from bgpnet.configs.routes import ORIGINS, Route
from bgpnet.configs.telling import Names, explain, orders_of, play, read_routes, tie_ends, verify
from bgpnet.configs.ways import Way
from bgpnet.network import Network, Prefix, path_text, read_link, routes_of
from bgpnet.program import Refusal

topology = load("topology")

def read_set(files):
    return set_of([read_router(text, name) for name, text in files.items()])


def short(asn):
    return asn - 65000


def shown(way):
    """A way with the attributes that are not those of a route without policy."""
    route = way.route
    said = [path_text(map(short, way.path))]
    if route.weight:
        said.append(f"w {route.weight}")
    if route.has_preference:
        said.append(f"lp {route.preference}")
    if route.path != way.path[1:]:
        said.append("as " + " ".join(map(str, route.path)))
    if route.origin:
        said.append("origin " + ORIGINS[route.origin])
    if route.has_med:
        said.append(f"med {route.med}")
    if route.communities:
        said.append("c " + " ".join(map(community_text, route.communities)))
    if route.large:
        said.append("l " + " ".join(map(large_text, route.large)))
    return " ".join(said)


class Rules(unittest.TestCase):
    def test_each_rule_of_frr(self):
        for sentence, files, wanted in CASES:
            with self.subTest(sentence):
                ranks = Ranks(read_set(files))
                for (place, prefix), ways in wanted.items():
                    orders = ranks.orders.get(Prefix.read(prefix))
                    found = [shown(way) for way in orders[65000 + place].ways] if orders else []
                    self.assertEqual(found, ways)


def lines_of(name, text, marker):
    """The place of the first line that has a text."""
    return next(f"{name}:{number}" for number, line in enumerate(text.split("\n"), 1) if marker in line)


class PassedOver(unittest.TestCase):
    """What no IPv4 route depends on, with a warning; and all that is refused, in one run."""

    SIXTH = ("neighbor 2001:db8::1 remote-as 65007 / neighbor 2001:db8::1 description six / "
             "no neighbor 2001:db8::1 activate / address-family ipv6 unicast /  network 2001:db8::/32 /  "
             "neighbor 2001:db8::1 activate /  redistribute connected / exit-address-family / "
             "address-family l2vpn evpn /  advertise-all-vni / exit-address-family")
    APART = ("vrf RED / ipv6 prefix-list P permit any / "
             "bgp extcommunity-list standard E permit rt 1:1 / mac access-list M permit any / "
             "route-map UNUSED permit 10 / match peer 10.255.1.1 / set ipv6 next-hop global 2001:db8::9")

    def test_other_families_and_maps_that_are_not_used(self):
        for files, wanted in ((pair("", self.SIXTH), ("address-family ipv6 unicast", "address-family l2vpn evpn",
                                                      "2001:db8::1: a session of IPv6 that carries no IPv4 routes")),
                              (pair(self.APART), ("vrf RED", "ipv6 prefix-list P", "bgp extcommunity-list", "mac access",
                                                  "no IPv4 route goes by route-map UNUSED"))):
            files["r2.conf"] = files["r2.conf"].replace("vrf RED\n", "vrf RED\n ip route 0.0.0.0/0 10.0.0.1\nexit-vrf\n")
            routers = read_set(files)
            plain = network_lines(Ranks(read_set(pair())))[0]
            self.assertEqual(network_lines(Ranks(routers))[0], plain)
            said = [why for _, why in routers.notes()]
            for words in wanted:
                self.assertTrue(any(words in why for why in said), (words, said))

    def test_a_session_of_ipv6_that_carries_ipv4(self):
        with self.assertRaisesRegex(Refusal, "neighbor 2001:db8::1: IPv6: prefixes are IPv4, and it carries them"):
            read_set(pair("", "neighbor 2001:db8::1 remote-as 65007"))

    def test_a_map_that_another_calls_is_used(self):
        called = "route-map IN permit 10 / call SUB / route-map SUB permit 10 / match peer 10.255.1.1"
        with self.assertRaisesRegex(Refusal, "this match is not read"):
            read_set(into(called))

    def test_all_refusals_in_one_run(self):
        lines = ("neighbor 10.255.7.1 remote-as 65008 / frobnicate / redistribute static / aggregate-address 10.0.0.0/8 / "
                 "neighbor 10.255.9.1 remote-as internal / neighbor 10.255.9.1 weight 5 / neighbor 10.255.9.1 route-map X in")
        with self.assertRaises(Refusal) as raised:
            read_set(pair("", lines))
        said = raised.exception.lines
        self.assertEqual([why.split(": ", 1)[1].split(":")[0] for why in said],
                         ["'frobnicate' is no line that is known here", "'redistribute static'",
                          "'aggregate-address 10.0.0.0/8'"])
        self.assertTrue(all(why.startswith("r2.conf:") for why in said))

    def test_each_file_is_read(self):
        with tempfile.TemporaryDirectory() as folder:
            names = []
            for name, text in pair("", "frobnicate").items():
                names.append(str(pathlib.Path(folder, name)))
                pathlib.Path(names[-1]).write_text(text.replace("router bgp 65001", "router bgp 65001\n bgp dampening"))
            status, out, error = run("config", *names)
            other = pathlib.Path(folder, "other.conf")
            other.write_text(pathlib.Path(names[0]).read_text().replace("bgp dampening", "redistribute static"))
            both = run("config", "--check", *names, "--", other, names[1])
        self.assertEqual((status, out, error.count("\n")), (1, "", 2), error)
        self.assertTrue(all(line.startswith("config: ") for line in error.splitlines()))
        self.assertEqual(both[:2], (1, ""))
        self.assertEqual(both[2].splitlines()[:2], error.splitlines())
        self.assertRegex(both[2].splitlines()[2], "other.conf:\\d+: 'redistribute static'")

    def test_what_waits_and_what_is_kept(self):
        routers = read_set(pair("", "bgp graceful-restart / neighbor 10.255.1.1 graceful-restart / "
                                    "neighbor 10.255.1.1 advertisement-interval 30 / no bgp suppress-duplicates"))
        said = [why for _, why in routers.notes()]
        self.assertEqual(sum("are kept while it restarts" in why for why in said), 2)
        self.assertEqual(sum("UPDATEs wait up to 30 seconds" in why for why in said), 1)
        self.assertEqual(routers.ends[65002][65001].neighbor.value("interval"), 30)
        self.assertIn("# 65002 keeps routes of peers that restart", network_lines(Ranks(routers))[0])

    def test_duplicates_that_are_suppressed(self):
        """As FRR does by itself: with an interval a withdrawal may go out last."""
        for lines, is_told in (("", True), ("bgp suppress-duplicates", True), ("no bgp suppress-duplicates", False)):
            for above in (True, False):
                own = [lines, "neighbor 10.255.1.1 advertisement-interval 5"][::1 if above else -1]
                said = [str(place) + why for place, why in read_set(pair("", " / ".join(own))).notes()]
                self.assertEqual(["is suppressed as a duplicate" in why for why in said], [is_told], said)
        self.assertEqual(read_set(pair("", "neighbor 10.255.1.1 advertisement-interval 0")).notes(), [])
        self.assertEqual(read_set(pair("", "bgp suppress-duplicates")).notes(), [])

    def test_a_version_above_this_one(self):
        for version, is_told in (("8.4.4", False), ("8.5", True), ("10.0", True), ("7.5", False)):
            files = pair()
            files["r2.conf"] = f"frr version {version}\n" + files["r2.conf"].split("\n", 1)[1]
            said = [why for _, why in read_set(files).notes()]
            self.assertEqual(any("the language of FRR 8.4" in why for why in said), is_told, version)

    def test_names_of_hosts(self):
        files = {name: f"hostname {host}\n" + text for (name, text), host in zip(pair().items(), ("west", "east-1"))}
        ranks = Ranks(read_set(files))
        lines = network_lines(ranks)[0]
        self.assertIn("# 65002 called east-1", lines)
        names = Names(list(files))
        self.assertEqual(explain(ranks, "east-1", Prefix.read("10.1.0.0/16"), names),
                         explain(ranks, "65002", Prefix.read("10.1.0.0/16"), names))
        self.assertTrue(explain(ranks, "east-1", Prefix.read("10.1.0.0/16"), names)[0].startswith("1  east-1-west  "))
        network = Network(lines)
        for word in ("west-east-1", "east-1-west", "65001-east-1"):
            self.assertEqual(read_link(network, word), (65001, 65002))


    def test_names_that_tell_no_routers_apart(self):
        """Two alike, a number, and what no comment can say."""
        for hosts in (("same", "same"), ("65002", "65001"), ("two,words", "")):
            files = {name: f"hostname {host}\n" * bool(host) + text for (name, text), host in zip(pair().items(), hosts)}
            said = explain(Ranks(read_set(files)), "65002", Prefix.read("10.1.0.0/16"), Names(list(files)))
            self.assertTrue(said[0].startswith("1  65002-65001  "), said)

    def test_names_in_what_a_change_does(self):
        with tempfile.TemporaryDirectory() as folder:
            sets = []
            for at, preference in enumerate((150, 250)):
                pathlib.Path(folder, str(at)).mkdir()
                files = into(f"route-map IN permit 10 / set local-preference {preference}")
                sets.append([str(pathlib.Path(folder, str(at), name)) for name in files])
                for (name, text), path in zip(files.items(), sets[-1]):
                    pathlib.Path(path).write_text(f"hostname {'east' if name == 'r2.conf' else 'west'}\n" + text)
            out = run("config", "--check", *sets[0], "--", *sets[1])[1]
        self.assertIn("65002 east 10.1.0.0/16", out.splitlines()[0])
        self.assertIn("  = 1 (was 1) east-west  local-pref 250", out)


class OfOutside(unittest.TestCase):
    """Neighbors without a configuration, and what routers report."""

    FILES = {"r1.conf": HEAD + "router bgp 65001\n bgp router-id 10.255.1.1\n no bgp ebgp-requires-policy\n"
                        " neighbor 10.9.0.1 remote-as 64999\n neighbor 10.9.0.1 password secret\n"
                        " neighbor 10.255.2.1 remote-as 65002\n",
             "r2.conf": HEAD + "interface lo\n ip address 10.255.2.1/32\ninterface eth0\n ip address 10.8.0.2/24\n"
                        "router bgp 65002\n bgp router-id 10.255.2.1\n no bgp ebgp-requires-policy\n"
                        " neighbor 10.8.0.1 remote-as 64999\n neighbor 10.8.0.1 ttl-security hops 1\n"
                        " neighbor 10.255.1.1 remote-as 65001\n"}

    def lines(self, asn, octets):
        with tempfile.TemporaryDirectory() as folder:
            names = []
            for name, text in self.FILES.items():
                names.append(str(pathlib.Path(folder, name)))
                pathlib.Path(names[-1]).write_text(text)
            seen = pathlib.Path(folder, "seen")
            seen.write_bytes(octets)
            status, out, error = run("config", "--network", *names, "--external", asn, seen)
            return status, out, error.replace(folder + "/", "")

    def test_all_forms_say_the_same(self):
        text = b"# seen\n8.8.8.0/24 64999 15169\n9.9.9.0/24\n"
        routes = {"8.8.8.0/24": [{"path": "64999 15169", "valid": True}, {"path": "65002 64999 15169", "valid": True}],
                  "9.9.9.0/24": [{"path": "64999", "valid": True}], "7.0.0.0/8": [{"path": "1 2", "valid": True}]}
        table = json.dumps({"localAS": 65001, "routes": routes}).encode()
        received = json.dumps({"receivedRoutes": {prefix: own[0] for prefix, own in routes.items()}}).encode()
        updates = b"".join(records(self.update(prefix, path)) for prefix, path in
                           (("9.9.9.0/24", [64999]), ("8.8.8.0/24", [64999, 1]), ("8.8.8.0/24", [64999, 15169]),
                            ("5.0.0.0/8", [64999])))
        updates += records(message(2, struct.pack(">H", 2) + bytes([8, 5]) + struct.pack(">H", 0)))
        dumps = [b"".join(self.dump(identifier)) for identifier in (b"", bytes(4))]
        found = [self.lines("64999", octets) for octets in (text, table, received, updates, *dumps)]
        for status, out, error in found:
            self.assertEqual((status, sorted(out.splitlines())), (0, sorted(found[0][1].splitlines())), error)
        self.assertIn("link 64999 65001\nlink 64999 65002\n", found[0][1])
        self.assertIn("rank 65001 8.8.8.0/24 65001-64999 65001-65002-64999\n", found[0][1])

    @staticmethod
    def attributes(path, kind=2):
        numbers = b"".join(struct.pack(">I", number) for number in path)
        value = bytes([kind, len(path)]) + numbers if path else b""
        return bytes([0x40, 1, 1, 0, 0x40, 2, len(value)]) + value + bytes([0x40, 3, 4, 10, 0, 0, 1])

    @staticmethod
    def prefix(text):
        address, length = text.split("/")
        return bytes([int(length)]) + bytes(map(int, address.split(".")))[:-(-int(length) // 8)]

    def update(self, prefix, path):
        attributes = self.attributes(path)
        return message(2, struct.pack(">HH", 0, len(attributes)) + attributes + self.prefix(prefix))

    def dump(self, identifier=b""):
        """A dump of tables with two peers: a table of the peers, then a record for each prefix, one of IPv6 among them."""
        yield record(13, 1, bytes([10, 0, 0, 9, 0, 4]) + b"view" + struct.pack(">H", 2)
                     + b"".join(bytes([2, 10, 0, 0, place, 10, 9, 0, place]) + struct.pack(">I", asn)
                                for place, asn in ((1, 64999), (2, 7))))
        for number, (prefix, paths) in enumerate((("8.8.8.0/24", [(2, [64999, 15169]), (2, [7, 64999])]),
                                                  ("9.9.9.0/24", [(2, [7, 9]), (2, [64999])]),
                                                  ("5.0.0.0/8", [(1, [64999, 5]), (2, [])]))):
            entries = b"".join(struct.pack(">HI", place, 60) + identifier + struct.pack(">H", len(self.attributes(path, kind)))
                               + self.attributes(path, kind) for place, (kind, path) in enumerate(paths))
            yield record(13, 8 if identifier else 2, struct.pack(">I", number) + self.prefix(prefix)
                         + struct.pack(">H", len(paths)) + entries)
        yield record(13, 4, struct.pack(">I", 9) + bytes([16, 0x20, 1]) + bytes(2))

    def test_a_dump_that_is_cut_or_damaged(self):
        parts = list(self.dump())
        whole = b"".join(parts)
        for octets, why in ((whole[:-3], "ends in the middle of record 5"), (parts[0], "nothing that AS 64999 announces"),
                            (parts[0] + record(13, 2, parts[1][12:-9]), "record 2 is no record of routes"),
                            (parts[0] + record(13, 2, bytes(4)), "record 2 is no record of routes"),
                            (parts[0] + record(13, 2, bytes(4) + bytes([40, 1, 2, 3, 4, 5, 0, 1]) + bytes(8)),
                             "nothing that AS 64999 announces"),
                            (record(12, 1, bytes(40)), "a dump of a table (TABLE_DUMP, RFC 6396)")):
            status, out, error = self.lines("64999", octets)
            self.assertEqual((status, out), (1, ""))
            self.assertIn(why, error)

    def test_longer_paths_are_liked_less(self):
        """What stands behind the AS counts in the length, and `match as-path` sees it."""
        files = {name: text for name, text in self.FILES.items()}
        inside = [read_router(text, name) for name, text in files.items()]
        with tempfile.TemporaryDirectory() as folder:
            seen = pathlib.Path(folder, "seen")
            seen.write_text("8.8.8.0/24 64999 1 2 3\n")
            routers = set_of([*inside, Outside(64999, str(seen)).router(inside)])
        way = Ranks(routers).orders[Prefix.read("8.8.8.0/24")][65001].ways[0]
        self.assertEqual(way.route.path, (64999, 1, 2, 3))

    def test_refusals(self):
        for asn, octets, why in (("64999", b"", "nothing that AS 64999 announces"), ("7", b"8.8.8.0/24\n", "no configuration has"),
                                 ("64999", b"8.8.8.0 64999\n", "seen:1: no prefix with a path"), ("x", b"", "'x' is no AS number"),
                                 ("64999", b"8.8.8.0/24 1 64999\n", "seen:1: the path does not begin with 64999"),
                                 ("64999", b"{}", "no routes as FRR prints them"), ("64999", b"{", "no JSON")):
            status, out, error = self.lines(asn, octets)
            self.assertEqual((status, out), (1, ""))
            self.assertIn(why, error)

    def test_verify_takes_what_frr_prints(self):
        routers = read_set(pair())
        good = {"10.1.0.0/16": "", "10.2.0.0/16": ""}
        said = [json.dumps({"localAS": 65001, "routes": {prefix: [{"bestpath": True, "path": path}]
                                                         for prefix, path in good.items()}}),
                json.dumps({"localAS": 65002, "routes": {prefix: [{"bestpath": {"overall": True}, "path": "65001"}]
                                                         for prefix in good}})]
        for text in ("\n".join(said), "[" + ",".join(said) + "]"):
            routes = read_routes(routers, text, "report")
            self.assertTrue(all(is_best for is_best, _ in verify(routers, routes)))
        with self.assertRaisesRegex(Refusal, "have no router 9"):
            read_routes(routers, said[0].replace("65001", "9"), "report")
        with self.assertRaisesRegex(Refusal, "no router announces 10.3.0.0/16"):
            read_routes(routers, said[0].replace("10.2.0.0", "10.3.0.0"), "report")


def record(kind, subtype, body):
    """A record of MRT."""
    return struct.pack(">IHHI", 60, kind, subtype, len(body)) + body


def records(octets):
    """A record of BGP4MP with a message of AS 64999, with AS numbers of four octets."""
    body = struct.pack(">IIHH", 64999, 65001, 0, 1) + bytes([10, 9, 0, 1, 10, 255, 1, 1]) + octets
    return struct.pack(">IHHI", 0, 16, 4, len(body)) + body


def message(kind, body):
    return b"\xff" * 16 + struct.pack(">HB", 19 + len(body), kind) + body


class Refusals(unittest.TestCase):
    """Each refusal names the file and the line of what stands in the way."""

    def refused(self, files, marker, why, name="r2.conf", chosen=None, best=None):
        with self.subTest(marker), self.assertRaises(Refusal) as raised:
            network_lines(Ranks(read_set(files), chosen), best)
        said = str(raised.exception)
        place = lines_of(name, files[name], marker)
        self.assertTrue(said.startswith(place + ": "), f"{said}, not at {place}")
        self.assertIn(why, said)

    def test_lines_below_the_router(self):
        for line, why in (
                ("bgp confederation identifier 7", "a confederation"),
                ("bgp confederation peers 7 8", "a confederation"),
                ("aggregate-address 10.0.0.0/8", "an aggregate"),
                ("aggregate-address 10.0.0.0/8 summary-only", "an aggregate"),
                ("neighbor 2001:db8::1 remote-as 7", "IPv6"),
                ("address-family ipv4 vpn", "not IPv4 unicast"),
                ("neighbor 10.255.1.1 allowas-in", "allowas-in"),
                ("neighbor 10.255.1.1 allowas-in 2", "allowas-in"),
                ("neighbor 10.255.1.1 default-originate", "default-originate"),
                ("neighbor 10.255.1.1 advertise-map A exist-map B", "conditional advertisement"),
                ("neighbor 10.255.1.1 local-role customer", "local-role"),
                ("neighbor 10.255.1.1 attribute-unchanged med", "attribute-unchanged"),
                ("neighbor 10.255.1.1 route-server-client", "route-server-client"),
                ("neighbor 10.255.1.1 addpath-tx-all-paths", "addpath"),
                ("bgp bestpath as-path multipath-relax as-set", "as-set"),
                ("neighbor 10.255.1.1 local-as 7", "local-as"),
                ("neighbor 10.255.1.1 remove-private-AS", "remove-private-AS"),
                ("neighbor 10.255.1.1 as-override", "as-override"),
                ("bgp listen range 10.0.0.0/8 peer-group G", "dynamic neighbors"),
                ("neighbor eth0 interface remote-as external", "an unnumbered neighbor"),
                ("bgp dampening", "depends on time"),
                ("redistribute connected", "another protocol"),
                ("neighbor 10.255.1.1 maximum-prefix-out 3", "a limit"),
                ("bgp graceful-shutdown", "graceful-shutdown"),
                ("bgp max-med administrative", "max-med"),
                ("bgp route-map delay-timer 0", "a map acts for a network only where it stands above"),
                ("neighbor 10.255.1.1 port 1179", "a port"),
                ("neighbor 10.255.1.1 soo 65001:1", "a site of origin"),
                ("neighbor 10.255.1.1 unsuppress-map M", "unsuppress-map"),
                ("network 10.5.0.0/16 backdoor", "backdoor"),
                ("no network 10.5.0.0/16", "takes back"),
                ("no neighbor 10.255.1.1", "takes back"),
                ("network 10.1.0.0 mask 255.0.255.0", "is no netmask"),
                ("network 224.1.0.0/16", "no network of hosts"),
                ("bgp router-id 240.0.0.1", "its first octet"),
                ("neighbor 10.255.7.1 route-map X in", "no line above says its AS"),
                ("neighbor 10.255.7.1 peer-group G", "no line above makes the group"),
                ("neighbor GROUP remote-as 7", "no line above says that it is a group"),
                ("neighbor 10.255.1.1 weight 65536", "is no line that is known here"),
                ("neighbor 10.255.1.1 addpath-tx", "ambiguous"),
                ("neighbor 10.255.1.1 route-map X", "cut short"),
                ("neighbor 10.255.1.1 frobnicate", "is no line that is known here"),
                ("router bgp 65009", "a second AS"),
                ("bgp community alias 1:1 ONE", "names of communities"),
                ("timers bgp 1 2", "is no line that is known here"),
                ("neighbor 10.255.1.1 timers 5 2", "is no line that is known here"),
                ("neighbor 10.255.1.1 password one two", "is no line that is known here"),
                ("neighbor 10.255.1.1 password " + 81 * "x", "at most 80 octets"),
                ("bgp cluster-id x", "is no line that is known here"),
                ("neighbor 010.255.1.1 weight 5", "no line above says its AS"),
                ("network 10.5.0.0/08", "is no line that is known here"),
                ("no neighbor 10.255.1.1 timers x", "is no line that is known here"),
                ("no table-map", "cut short"),
                ("no route-map X", "takes back")):
            self.refused(pair("", line), line, why)
        self.refused(pair("", "address-family ipv4 unicast / neighbor G peer-group"), "G peer-group", "cut short")
        self.refused(pair("", "neighbor G peer-group / neighbor 10.255.0.1 peer-group G / "
                              "neighbor 10.255.1.1 peer-group G"), "10.255.1.1 peer-group", "r2.conf:10, has no AS yet")
        self.refused(pair("", "neighbor 10.255.1.1 ebgp-multihop / neighbor 10.255.1.1 ttl-security hops 5"),
                     "ttl-security", "has ebgp-multihop")
        self.refused(pair("", "neighbor 10.255.1.1 prefix-list P in / neighbor 10.255.1.1 distribute-list D in"),
                     "distribute-list", "prefix-list")

    def test_lines_of_lists_and_maps(self):
        for line, why in (
                ("ip prefix-list P permit 10.0.0.0/8 ge 7", "length <= ge <= le"),
                ("ip prefix-list P permit 10.0.0.0/8 ge 20 le 19", "length <= ge <= le"),
                ("ip prefix-list P permit 10.0.0.0/33", "does not take"),
                ("access-list L permit any exact-match", "does not take"),
                ("access-list 101 permit ip any any", "sources and destinations"),
                ("bgp as-path access-list F permit [[:digit:]]", "':'"),
                ("bgp as-path access-list F permit a", "'a'"),
                ("bgp as-path access-list F permit (1", "an open ("),
                ("bgp as-path access-list F permit *1", "'*' behind nothing"),
                (r"bgp as-path access-list F permit \1", r"'\1'"),
                ("bgp community-list standard C permit 65001", "is no community"),
                ("bgp community-list standard C permit 65536:1", "is no community"),
                ("bgp community-list expanded C permit no-export|(", "an open ("),
                ("bgp large-community-list expanded 7 permit 1", "a number is no name here"),
                ("ip prefix-list P permit 010.0.0.0/8", "does not take"),
                ("ip prefix-list P permit 10.0.0.0/08", "does not take"),
                ("ip prefix-list P permit 10/8", "does not take"),
                ("ip prefix-list P permit 10.0.0.0/8 ge 0", "length <= ge <= le"),
                ("ip prefix-list P permit 10.0.0.0/8 le 0", "length <= ge <= le"),
                ("ip prefix-list P permit 0.0.0.0/0 ge 1 le 0", "length <= ge <= le"),
                ("ip prefix-list P permit any le 9", "does not take"),
                ("access-list L permit host 10.0.0.1 0.0.0.0", "does not take"),
                ("access-list L permit host 10.0.0.0/8", "does not take"),
                ("banner x", "is no line that is known here"),
                ("next no bgp ebgp-requires-policy", "is no line that is known here"),
                ("hostname -x", "begins with a letter or a digit"),
                ("in community 65001:4 additive", "is no line that is known here"),
                ("i prefix-list P seq 9 permit any", "ambiguous: ip, ipv6"),
                ("frr version 7.x", "is no version"),
                ("bgp large-community-list standard L permit 1:2", "is no community"),
                ("ip community-list standard C permit 1:1", "'bgp community-list"),
                ("ip as-path access-list F permit 1", "'bgp as-path"),
                ("frr defaults modern", "is no profile"),
                ("exit", "leaves the configuration"),
                ("end / hostname r2", "stands behind 'end'"),
                ("set metric 5", "is no line that is known here"),
                ("no ip prefix-list P", "takes back")):
            self.refused(pair(line), line.split(" / ")[-1], why)
        for line, why in (
                ("match metric 0", "fits everything"),
                ("continue", "cut short"),
                ("on-match goto 10", "it goes back"),
                ("continue 5", "it goes back"),
                ("call IN", "calls itself"),
                ("set metric +0", "nothing is added"),
                ("set metric rtt", "depends on time"),
                ("set metric 4294967296", "is no number"),
                ("set local-preference abc", "is no number"),
                ("set as-path prepend 0", "AS numbers are 1 to"),
                ("set as-path prepend last-as 11", "AS numbers are 1 to"),
                ("set as-path replace any", "this set is not read"),
                ("set community 1:1 foo", "'foo' is no community"),
                ("set community additive", "behind communities"),
                ("set community 1:1 llgr-stale", "less than any other"),
                ("set community 65535:6 additive", "less than any other"),
                ("set tag 0", "is no line that is known here"),
                ("set distance 256", "is no line that is known here"),
                ("set aggregator as 5", "cut short"),
                ("set extcommunity foo 1:1", "is no line that is known here"),
                ("set ip next-hop 10.0.0.1", "a next hop of its own"),
                ("match peer 10.255.1.1", "this match is not read"),
                ("match ip next-hop X", "this match is not read"),
                ("match extcommunity X", "extended communities"),
                ("match community", "cut short"),
                ("match i address 38", "ambiguous: ip, ipv6"),
                ("no set metric", "takes back")):
            self.refused(into("route-map IN permit 10 / " + line), line, why)
        self.refused(pair("route-map IN deny 10 / on-match next"), "on-match next", "in an entry that denies")
        self.refused(pair("route-map A permit 10 / call B / route-map B permit 10 / call A"), "route-map A",
                     "called by a map that it calls")
        self.refused(pair("route-map X permit 10 / set as-path exclude 7",
                          "neighbor 10.255.1.1 sender-as-path-loop-detection"), "loop-detection",
                     "which neighbors FRR tells alike")
        self.refused(pair("ip prefix-list P permit 10.0.0.1/8 / ip prefix-list P  permit 10.0.0.1/8"), "P  permit",
                     "says the same")
        self.refused(pair("access-list L permit 10.0.0.1/8 / access-list L permit 10.0.0.2/8"), "10.0.0.2",
                     "says the same")
        for one, other in (("access-list L seq 5 permit any", "access-list L seq 5 permit 10.1.0.0/16"),
                           ("access-list L seq 5 permit host 10.1.0.0", "access-list L seq 5 permit 10.1.0.0/16"),
                           ("access-list L seq 5 permit 10.1.0.0", "access-list L seq 5 permit 10.1.0.0 0.0.255.255"),
                           ("ip prefix-list P seq 5 permit any", "ip prefix-list P seq 5 permit 10.1.0.0/16")):
            self.refused(pair(f"{one} / {other}"), other, "of another form by this number")
        self.refused(pair("bgp community-list standard C permit 1:1 / bgp community-list expanded C permit 1"),
                     "expanded", "of the other kind")

    def test_what_is_no_configuration(self):
        good = pair()
        for text, place, why in (("", 1, "no configuration of a router"),
                                 ("hello world\n", 1, "is no line that is known here"),
                                 ("frr version 8.4.4\n{\"a\": 1}\n", 2, "is no line that is known here"),
                                 ("! nothing\n", 1, "no configuration of a router"),
                                 ("router bgp 65002\n neighbor 10.255.1.1 remote-as 65001\n", 1,
                                  "no line 'bgp router-id'")):
            with self.subTest(text), self.assertRaises(Refusal) as raised:
                read_set(dict(good, **{"r2.conf": text}))
            self.assertTrue(str(raised.exception).startswith(f"r2.conf:{place}: "))
            self.assertIn(why, str(raised.exception))

    def test_routers_that_do_not_go_together(self):
        files = line3()
        self.refused(dict(files, **{
            "r3.conf": files["r3.conf"].replace("bgp 65003", "bgp 65002").replace("as 65002", "as 65007")}),
                     "as 65007", "its address is one of r2, AS 65002, at r2.conf:5", "r3.conf")
        self.refused(dict(files, **{
            "r3.conf": files["r3.conf"].replace("router-id 10.255.3.1", "router-id 10.255.2.1")}), "router-id",
                     "that of r2.conf:5 too", "r3.conf")
        self.refused(dict(files, **{"r4.conf": router(4, ())}), "router bgp", "the network isn't connected", "r4.conf")
        two = dict(files, **{
            "r3.conf": files["r3.conf"].replace("exit", " neighbor 10.255.22.1 remote-as 65002\nexit")})
        self.refused(two, "10.255.22.1", "a second session with 65002", "r3.conf")
        self.refused(line3(networks2=(ONE,)), f"network {ONE}", "has another origin at r1.conf:9")
        many = {f"r{place}.conf": router(place, (1,)) for place in range(2, 19)}
        self.refused(dict(many, **{"r1.conf": router(1, range(2, 19))}), "router bgp", "17 sessions", "r1.conf")
        chain = {f"r{place}.conf": router(place, [peer for peer in (place - 1, place + 1) if 1 <= peer <= 17],
                                          networks=(ONE,) if place == 1 else ()) for place in range(1, 18)}
        chain = {name: re.sub(r"\b6500(\d\d)\b", r"650\1", text) for name, text in chain.items()}
        self.refused(chain, "10.255.16.1",
                     "at most 16 routers", "r17.conf")

    def test_sessions_that_contradict(self):
        def refused(lines1, lines2, marker, why, name="r2.conf"):
            files = {"r1.conf": router(1, (2,), lines=lines1), "r2.conf": router(2, (1,), lines=lines2)}
            self.refused(files, marker, why, name)

        refused("neighbor 10.255.2.1 password one", "neighbor 10.255.1.1 password two", "password one", "the password",
                "r1.conf")
        refused("", "neighbor 10.255.1.1 password two", "password two", "the password")
        refused("neighbor 10.255.2.1 passive", "neighbor 10.255.1.1 passive", "passive", "both ends are passive",
                "r1.conf")
        refused("", "neighbor 10.255.1.1 update-source 10.9.9.9", "update-source", "names 10.255.2.1")
        hops, far = "neighbor 10.255.1.1 ttl-security hops ", "neighbor 10.255.2.1 "
        refused("", hops + "1", "ttl-security", "takes a TTL from 255, and the other end, r1.conf:8, sends with 1")
        refused(far + "ebgp-multihop 2", hops + "253", "ttl-security", "TTL from 3, and the other end, r1.conf:8, send")
        for good, mine in (("ebgp-multihop", "1"), ("ebgp-multihop 2", "254"), ("ttl-security hops 9", "1")):
            read_set({"r1.conf": router(1, (2,), lines=far + good), "r2.conf": router(2, (1,), lines=hops + mine)})
        wrong = {"r1.conf": router(1, (2,)), "r2.conf": router(2, (1,)),
                 "r3.conf": router(3, (2,)).replace("65002", "65001")}
        self.refused(wrong, "remote-as 65001", "is an address of 65001 here", "r3.conf")
        other = dict(line3(), **{"r3.conf": router(3, (2, 1))})
        other["r1.conf"] = router(1, (2, 3)).replace("remote-as 65002", "remote-as 65009")
        self.refused(other, "remote-as 65009",
                     "10.255.2.1 is AS 65009 here, and its address is one of 65002 at r3.conf:8", "r1.conf")
        lone = {"r1.conf": router(1, (2,)), "r2.conf": router(2, (1,)).replace("remote-as 65001", "remote-as 65009")}
        self.refused(lone, "router bgp", "isn't connected; r2.conf:8: neighbor 10.255.1.1: no configuration of AS "
                                         "65009 is among these")
        top = "interface eth0 / ip address 10.9.9.9/24 / exit"
        self.refused({"r1.conf": router(1, (2,)), "r2.conf": router(2, (1,), top)}, "neighbor 10.255.2.1",
                     "no address of r2.conf", "r1.conf")
        files = {"r1.conf": router(1, (2, 3)), "r2.conf": router(2, (1,)), "r3.conf": router(3, (1,))}
        files = {name: text.replace("router-id 10.255", "router-id 10.254").replace("as 6500", "as external\n! ")
                 for name, text in files.items()}
        self.refused(files, "neighbor 10.255.2.1", "which router has this address", "r1.conf")

    def test_a_way_that_comes_back(self):
        """The origin may hear its own prefix, and takes it where its weight is greater."""
        cut = "route-map IN permit 10 / set as-path exclude 65001"
        files = diamond(cut, "neighbor 10.255.2.1 route-map IN in / neighbor 10.255.3.1 route-map IN in")
        Ranks(read_set(files))
        self.refused(dict(files, **{
            "r1.conf": files["r1.conf"].replace("exit", " neighbor 10.255.2.1 weight 40000\nexit")}), "10.255.2.1",
                     "likes 65001-65002-65004-65003-65001 better", "r1.conf")
        self.refused(diamond("route-map IN permit 10 / set as-path exclude 65003",
                             "neighbor 10.255.3.1 route-map IN in"), "exclude 65003",
                     "65003-65004-65003-65001 is permitted, and passes 65003 twice", "r4.conf")
        unused = "route-map A permit 10 / set as-path exclude 65003 65002"
        self.refused(diamond("route-map IN permit 5 / set as-path exclude 65003 1 / route-map IN permit 10 / "
                             "set as-path exclude 65003 2", "neighbor 10.255.3.1 route-map IN in",
                             top1=unused, top3=unused), "exclude 65003 1", "passes 65003 twice", "r4.conf")

    def test_no_order(self):
        """Of three the first two begin with one AS: their metric says otherwise than the router ids."""
        same = "set as-path prepend 64999 / "
        files = {"r1.conf": router(1, (2, 3, 4), networks=(ONE,))}
        files.update({f"r{place}.conf": router(place, (1, 5)) for place in (2, 3, 4)})
        files["r5.conf"] = router(5, (2, 3, 4), f"route-map A permit 10 / {same} set metric 9 / "
                                                f"route-map B permit 10 / {same} set metric 5 / "
                                  "route-map C permit 10 / set as-path prepend 64998",
                                  "neighbor 10.255.2.1 route-map A in / "
                                  "neighbor 10.255.4.1 route-map B in / neighbor 10.255.3.1 route-map C in")
        self.refused(files, "neighbor 10.255.3.1 remote",
                     "no order: 65005-65003-65001 over 65005-65004-65001 over 65005-65002-65001 over 65005-65003-65001",
                     "r5.conf")

    def test_too_many_paths(self):
        full = {f"r{place}.conf": router(place, [peer for peer in range(1, 7) if peer != place],
                                         networks=(ONE,) if place == 1 else ())
                for place in range(1, 7)}
        self.refused(full, "router bgp", "permits 65 paths", "r2.conf")
        lines, said = network_lines(Ranks(read_set(full)), 32)
        self.assertIn("rank 65002 10.1.0.0/16 65002-65001", lines)
        self.assertIn("are the same, the way there may differ", said[0])

    def test_too_many_rules(self):
        prefixes = [f"10.{place}.{place}.0/24" for place in range(70)]
        other = [f"172.16.{2 * place}.0/24" for place in range(35)] + [f"172.17.{2 * place}.0/24"
                                                                       for place in range(35)]
        lines = network_lines(Ranks(read_set(line3(networks1=prefixes))))[0]
        self.assertEqual([line for line in lines if line.startswith("rank")],
                         ["rank 65002 10.0.0.0/9 65002-65001", "rank 65003 10.0.0.0/9 65003-65002-65001"])
        mixed = line3(networks1=[one for place, one in enumerate(other) if place % 2],
                      lines1=" / ".join(f"network {one} route-map M" for place, one in enumerate(other)
                                        if not place % 2),
                      top1="route-map M permit 10 / set community no-export")
        self.assertEqual(len([line for line in network_lines(Ranks(read_set(mixed)))[0]
                              if line.startswith("rank 65003")]), 36)
        other = [f"172.{20 + place // 70}.{2 * (place % 70)}.0/24" for place in range(140)]
        mixed = line3(networks1=[one for place, one in enumerate(other) if place % 2],
                      lines1=" / ".join(f"network {one} route-map M" for place, one in enumerate(other)
                                        if not place % 2),
                      top1="route-map M permit 10 / set community no-export")
        self.refused(mixed, "router bgp",
                     "65002 needs 71 rules, and a router has at most 64: --prefix takes some prefixes")
        chosen = [Prefix.read(one) for one in other[:60]]
        self.assertEqual(len([line for line in network_lines(Ranks(read_set(mixed), chosen))[0]
                              if line.startswith("rank 65003")]), 60)

    def test_too_much(self):
        many = {f"r{place}.conf": f"router bgp {place}\n bgp router-id 1.0.0.{place}\n" for place in range(1, 66)}
        self.refused(many, "router bgp", "65 routers, and a network has at most 64", "r65.conf")
        prefixes = [f"10.{place // 256}.{place % 256}.0/24" for place in range(257)]
        self.refused(line3(networks1=prefixes), "router bgp",
                     "257 prefixes, and a network has at most 256: --prefix takes some", "r1.conf")
        full = {f"r{place}.conf": router(place, [peer for peer in range(1, 7) if peer != place],
                                         networks=(ONE,) if place == 1 else ())
                for place in range(1, 7)}
        with unittest.mock.patch("bgpnet.configs.ways.MOST_STEPS", 300):
            self.refused(full, "router bgp", "more than 300 steps of ways were followed", "r3.conf")


class Sessions(unittest.TestCase):
    def noted(self, files, *wanted):
        notes = [f"{place}: {said}" for place, said in read_set(files).notes()]
        for name, marker, why in wanted:
            place = lines_of(name, files[name], marker)
            self.assertTrue(any(note.startswith(place + ": ") and why in note for note in notes), (marker, notes))
        self.assertEqual(len(notes), len(wanted), notes)

    def test_an_end_without_its_other(self):
        files = line3()
        self.noted(files)
        files["r3.conf"] = router(3, (2, 1))
        self.noted(files, ("r3.conf", "10.255.1.1", "r1.conf:4 names no neighbor 65003"))
        files["r3.conf"] = router(3, (2, 9))
        self.noted(files, ("r3.conf", "10.255.9.1", "no configuration of AS 65009 is among these"))

    def test_shut_and_not_activated(self):
        both = {"r1.conf": router(1, (2, 3)), "r2.conf": router(2, (1, 3)), "r3.conf": router(3, (1, 2))}
        self.noted(dict(both, **{"r3.conf": router(3, (1, 2), lines="neighbor 10.255.1.1 shutdown")}),
                   ("r3.conf", "shutdown", "is shut"))
        off = "no neighbor 10.255.%d.1 activate"
        self.noted(dict(both, **{"r3.conf": router(3, (1, 2), lines=off % 1)}),
                   ("r3.conf", "10.255.1.1 remote-as", "carries no routes"))
        files = dict(both, **{"r3.conf": router(3, (1, 2), lines=off % 1), "r1.conf": router(1, (2, 3), lines=off % 3)})
        self.noted(files, ("r1.conf", "10.255.3.1 remote-as", "nor is the other end"))
        self.assertNotIn(65003, read_set(files).ends[65001])

    def test_undefined_names_and_what_is_not_read(self):
        lines = ("neighbor 10.255.1.1 route-map NO in / neighbor 10.255.1.1 filter-list NOT out / "
                 "neighbor 10.255.1.1 maximum-prefix 9")
        top = ("route-map M permit 10 / match as-path NONE / match community NOC / set comm-list NOL delete / "
               "call NOM / set tag 4 / "
               "route-map M permit 20 / set metric -3 / set metric 3")
        files = line3(top2=top, lines2=lines)
        self.noted(files, ("r2.conf", "route-map NO in", "there is no route-map NO: it denies everything in"),
                   ("r2.conf", "filter-list NOT", "there is no as-path NOT: it denies everything out"),
                   ("r2.conf", "maximum-prefix", "is not read"),
                   ("r2.conf", "NONE", "it fits nothing"), ("r2.conf", "NOC", "it fits nothing"),
                   ("r2.conf", "NOL", "nothing is deleted"),
                   ("r2.conf", "NOM", "the call does nothing"), ("r2.conf", "set tag", "is not read"),
                   ("r2.conf", "set metric 3", "FRR drops both"))
        top = "interface eth0\n ip address 10.255.2.1/24\n shutdown\nexit\n"
        self.noted({"r1.conf": router(1, (2,)), "r2.conf": top + router(2, (1,), lines="bgp minimum-holdtime 60")},
                   ("r2.conf", "shutdown", "the interface is shut"), ("r2.conf", "minimum-holdtime", "is not read"))
        files = {"r1.conf": router(1, (2,), lines="network 10.1.0.0/16 route-map NO"),
                 "r2.conf": router(2, (1,), "ip route 10.0.0.0/8 null0")}
        self.noted(files, ("r1.conf", "network 10", "there is no route-map NO: the network is not announced"),
                   ("r2.conf", "ip route", "is not read"))

    def test_import_check_is_told_once(self):
        files = {name: text.replace(" no bgp network import-check\n", "") for name,
                 text in line3(networks2=(TWO,)).items()}
        self.noted(files, ("r1.conf", f"network {ONE}", "taken as announced"))

    def test_whose_an_address_is(self):
        """By numbers, by router ids, by interfaces, by sources, and by what is left."""
        plain = line3()
        wanted = {65001: [65002], 65002: [65001, 65003], 65003: [65002]}

        def ends(files):
            return {asn: sorted(found) for asn, found in read_set(files).ends.items()}

        self.assertEqual(ends(plain), wanted)
        external = {name: re.sub(r"remote-as \d+", "remote-as external", text) for name, text in plain.items()}
        self.assertEqual(ends(external), wanted)
        other = {name: text.replace("router-id 10.255", "router-id 10.254") for name, text in plain.items()}
        self.assertEqual(ends(dict(other, **{"r1.conf": external["r1.conf"]})), wanted)
        tops = {name: f"interface lo\n ip address 10.255.{name[1]}.1/32\nexit\n"
                + text.replace("router-id 10.255", "router-id 10.254")
                for name, text in external.items()}
        self.assertEqual(ends(tops), wanted)
        sources = dict(external)
        for place, peers in ((1, (2,)), (2, (1, 3)), (3, (2,))):
            more = "".join(f" neighbor 10.255.{peer}.1 update-source 10.255.{place}.1\n" for peer in peers)
            text = external[f"r{place}.conf"].replace("router-id 10.255", "router-id 10.254")
            sources[f"r{place}.conf"] = text[:-len("exit\n")] + more + "exit\n"
        self.assertEqual(ends(sources), wanted)

    def test_a_router_id_of_the_interfaces(self):
        files = pair()
        top = ("interface lo\n ip address 127.0.0.1/8\n ip address 10.255.2.1/32\nexit\n"
               "interface eth0\n ip address 172.16.0.1/24\nexit\n")
        files["r2.conf"] = top + files["r2.conf"].replace(" bgp router-id 10.255.2.1\n", "")
        self.assertIn("router 65002 10.255.2.1", network_lines(Ranks(read_set(files)))[0])
        self.noted(files, ("r2.conf", "router bgp", "it is taken to be the address at r2.conf:3"))

    def test_other_parts_of_a_file(self):
        """As `show running-config` prints the whole of a router."""
        text = pair()["r2.conf"]
        whole = ("frr version 8.4.4\nfrr defaults traditional\nhostname r2\nlog syslog informational\n"
                 "no ipv6 forwarding\nservice integrated-vtysh-config\n!\ninterface eth0\n description to r1\n ip "
                 "address 10.255.2.1/24\n ip ospf cost 4\nexit\n!\n"
                 "router ospf\n network 10.0.0.0/8 area 0\nexit\n!\n" + text[len(HEAD):]
                 + "!\nline vty\n exec-timeout 0 0\nexit\n!\nend\n! the end\n")
        self.noted(dict(pair(), **{"r2.conf": whole}))
        self.noted(dict(pair(), **{"r2.conf": whole.replace("exit\n", "!\n")}))
        above = "Building configuration...\n\nCurrent configuration:\n!\n"
        self.noted(dict(pair(), **{"r2.conf": above + whole}))
        with self.assertRaisesRegex(Refusal, "is no line that is known here"):
            read_set(dict(pair(), **{"r2.conf": whole.replace("end\n", above)}))
        crlf = {name: text.replace("\n", "\r\n") for name, text in pair().items()}
        self.assertEqual(network_lines(Ranks(read_set(crlf))), network_lines(Ranks(read_set(pair()))))


class Expressions(unittest.TestCase):
    SIGNS = "012_^$.*+?|()[]{},- \\"

    def test_as_the_c_library(self):
        """Random expressions, as the C library of this machine compiles and finds them, where it is that of GNU."""
        library = ctypes.CDLL(None)
        if not hasattr(library, "gnu_get_libc_version"):
            self.skipTest("another C library")
        draw, number = random.Random(5), 0
        texts = ["", "0", "1", "12", "0 1", "1 2 0", "10 2", "2 2 2", "12 21 1", "0 0 1 2 2"]
        for _ in range(1500):
            text = "".join(draw.choice(self.SIGNS if draw.random() < 0.5 else "012_^$")
                           for _ in range(draw.randint(1, 6)))
            compiled = ctypes.create_string_buffer(256)
            is_good = library.regcomp(compiled, text.replace("_", "(^|[,{}() ]|$)").encode(), 1 | 8) == 0
            try:
                search = expression(text)
            except BadExpression as why:
                self.assertTrue(not is_good or "\\" in text or "{" in text or "repetition of" in str(why)
                                or "[" in text, (text, why))
                continue
            self.assertTrue(is_good, text)
            number += 1
            for one in texts:
                self.assertEqual(search(one) is not None, library.regexec(compiled, one.encode(), 0, None, 0) == 0,
                                 (text, one))
            library.regfree(compiled)
        self.assertGreater(number, 500)


def scanned(order, kept, said, ids, is_sorted):
    """What is best of routes that are compared one after the other, one of them being selected; `said` has the first AS
    and the metric of each."""
    def better(one, other):
        if said[one][0] == said[other][0] and said[one][1] != said[other][1]:
            return min(one, other, key=lambda place: said[place][1])
        return kept if kept in (one, other) else min(one, other, key=ids.get)

    groups = [[place for place in order if said[place][0] == first]
              for first in (64998, 64999)] if is_sorted else [order]
    return functools.reduce(better, [functools.reduce(better, group) for group in groups if group])


class Printed(unittest.TestCase):
    def setUp(self):
        self.folder = pathlib.Path(tempfile.mkdtemp())
        self.addCleanup(shutil.rmtree, self.folder)

    def write(self, files, name="lab"):
        folder = self.folder / name
        folder.mkdir()
        for file, text in files.items():
            (folder / file).write_bytes(text.encode())
        return [folder / file for file in sorted(files)]

    LISTS = "bgp as-path access-list NO permit _65003_ / "
    EXPLAINED = diamond(LISTS + "route-map IN permit 10 / set local-preference 200 / route-map IM deny 5 / "
                                "match as-path NO",
                        "neighbor 10.255.2.1 route-map IN in / neighbor 10.255.3.1 route-map IM in")

    def test_the_network_and_its_schedule(self):
        names = self.write(self.EXPLAINED)
        status, out, error = run("config", *names)
        self.assertEqual((status, error), (0, ""))
        self.assertEqual(out.splitlines()[:13], [
            "router 65001 10.255.1.1", "router 65002 10.255.2.1", "router 65003 10.255.3.1", "router 65004 10.255.4.1",
            "link 65001 65002", "link 65001 65003", "link 65002 65004", "link 65003 65004", "origin 65001 10.1.0.0/16",
            "rank 65002 10.1.0.0/16 65002-65001", "rank 65003 10.1.0.0/16 65003-65001 65003-65004-65002-65001",
            "rank 65004 10.1.0.0/16 65004-65002-65001", "schedule"])
        said = asked_program().answer(["play"], out, "lab")
        self.assertEqual(said[0], "snapshot 1 settled")
        self.assertIn("route 65004 10.1.0.0/16 65004-65002-65001", said)
        self.assertEqual(run("config", "--network", *names)[1], out.split("schedule\n")[0])

    def test_explain(self):
        names = self.write(self.EXPLAINED)
        status, out, error = run("config", "--explain", 65004, ONE, *names)
        self.assertEqual((status, error), (0, ""))
        self.assertEqual(out, "1  65004-65002-65001  local-pref 200 (r4.conf:6 route-map IN 10)  length 3\n"
                              "denied  65004-65003-65001  r4.conf:7 route-map IM 5 (as-path list NO)\n")
        self.assertEqual(run("config", "--explain", 65009, ONE, *names), (1, "", "config: there is no router 65009\n"))
        self.assertEqual(run("config", "--explain", 65004, TWO, *names),
                         (1, "", f"config: no router announces {TWO}\n"))

    def test_explain_names_each_line(self):
        """An attribute that several lines made is told with all of them."""
        files = line3(top1="route-map OUT permit 10 / set community 1:1 / set as-path prepend 65001", lines1=OUT1,
                      top2="route-map OUT permit 10 / set community 2:2 additive / set as-path prepend 65002",
                      lines2=OUT2,
                      top3="bgp community-list standard C permit 1:1 / route-map IN permit 10 / set comm-list C delete",
                      lines3="neighbor 10.255.2.1 route-map IN in", options3="bgp default local-preference 70")
        self.assertEqual(run("config", "--explain", 65003, ONE, *self.write(files))[1], (
            "1  65003-65002-65001  local-pref 70 (r3.conf:11 bgp default local-preference)  "
            "length 5 (r1.conf:6 route-map OUT 10, r2.conf:6 route-map OUT 10)  "
            "community 2:2 (r1.conf:5 route-map OUT 10, r2.conf:5 route-map OUT 10, r3.conf:6 route-map IN 10)\n"))

    def test_check(self):
        old = self.write(self.EXPLAINED, "old")
        text = self.EXPLAINED["r4.conf"].replace("deny 5", "permit 5").replace("preference 200", "preference 50")
        changed = dict(self.EXPLAINED, **{"r4.conf": text})
        new = self.write(changed, "new")
        status, out, error = run("config", "--check", *old, "--", *new)
        self.assertEqual((status, error), (0, ""))
        at = self.folder
        self.assertEqual(out.splitlines(), [
            "65002 10.1.0.0/16", "  + 2 65002-65004-65003-65001  local-pref 100, length 4; before: denied at 65004 by "
            f"{at}/old/r4.conf:7 route-map IM 5 (as-path list NO)", "65003 10.1.0.0/16"][:2] + out.splitlines()[2:])
        self.assertIn(f"  + 1 65004-65003-65001  local-pref 100, length 3; before: denied by {at}/old/r4.conf:7 "
                      "route-map IM 5 (as-path list NO)", out.splitlines())
        self.assertIn(f"  = 2 (was 1) 65004-65002-65001  local-pref 50 ({at}/new/r4.conf:6 route-map IN 10), was "
                      "local-pref 200 "
                      f"({at}/old/r4.conf:6 route-map IN 10)", out.splitlines())
        self.assertIn("end 65004 10.1.0.0/16 65004-65003-65001, was 65004-65002-65001", out.splitlines())
        self.assertEqual(run("config", "--check", *old, "--", *old)[1], "nothing changes\n")

    def test_each_prefix_is_denied_by_its_own_line(self):
        old = self.write(line3(networks1=(ONE, TWO)), "old")
        new = self.write(line3(networks1=(ONE, TWO), lines2="neighbor 10.255.1.1 route-map IN in",
                               top2=f"{Q} / route-map IN deny 5 / match ip address prefix-list Q / "
                                    "route-map IN deny 7"), "new")
        said = run("config", "--check", *old, "--", *new)[1].splitlines()
        by = f"{self.folder}/new/r2.conf"
        for prefix, entry in ((ONE, f"{by}:7 route-map IN 7"), (TWO, f"{by}:5 route-map IN 5 (prefix-list Q)")):
            self.assertEqual(said[said.index(f"65002 {prefix}") + 1], f"  - 1 65002-65001: denied by {entry}")
            self.assertEqual(said[said.index(f"65003 {prefix}") + 1],
                             f"  - 1 65003-65002-65001: denied at 65002 by {entry}")
        one = run("config", "--prefix", TWO, "--check", *old, "--", *new)[1].splitlines()
        said = [line.replace(f"{ONE}, ", "") for line in said]
        self.assertEqual(one, [line for line in said if f" {ONE}" not in line and "IN 7" not in line])
        self.assertEqual(run("config", "--prefix", "10.9.0.0/16", "--check", *old, "--", *new)[::2],
                         (1, "config: no router announces 10.9.0.0/16\n"))

    def test_verify(self):
        names = self.write(self.EXPLAINED)
        played = asked_program().answer(["play"], run("config", *names)[1], "lab")
        routes = self.folder / "routes"
        routes.write_text("\n".join(played) + "\n")
        self.assertEqual(run("config", "--verify", routes, *names), (
            0, "best 65001 10.1.0.0/16 65001\nbest 65002 10.1.0.0/16 65002-65001\nbest 65003 10.1.0.0/16 65003-65001\n"
            "best 65004 10.1.0.0/16 65004-65002-65001\nstable\n", ""))
        routes.write_text("\n".join(played).replace("65004-65002-65001", "none") + "\n")
        status, out, error = run("config", "--verify", routes, *names)
        self.assertEqual((status, error, out.splitlines()[-2:]), (
            1, "", ["unstable 65004 10.1.0.0/16 has none best 65004-65002-65001", "unstable: 1 of 4"]))
        for path, why in (("65004-65003-65001", "denied by "),
                          ("65004-65002-65003-65001", "no peer has the rest of it")):
            routes.write_text("\n".join(played).replace("65004-65002-65001", path) + "\n")
            self.assertIn(f"unstable 65004 10.1.0.0/16 has {path} best 65004-65002-65001: {why}",
                          run("config", "--verify", routes, *names)[1])
        self.assertEqual(run("config", "--prefix", TWO, "--verify", routes, *names)[::2],
                         (1, f"config: no router announces {TWO}\n"))
        for line, why in (("route 65004 10.1.0.0/16",
                           ":2: 'route 65004 10.1.0.0/16' is no line 'route ROUTER PREFIX PATH'"),
                          ("route x 10.1.0.0/16 none",
                           ":2: 'route x 10.1.0.0/16 none' is no line 'route ROUTER PREFIX PATH'"),
                          ("route 65004 10.1.0.0/33 none",
                           ":2: 'route 65004 10.1.0.0/33 none' is no line 'route ROUTER PREFIX PATH'"),
                          ("route 65004 10.1.0.0/16 1--2",
                           ":2: 'route 65004 10.1.0.0/16 1--2' is no line 'route ROUTER PREFIX PATH'"),
                          ("path 65009 10.1.0.0/16 none", ":2: these configurations have no router 65009"),
                          ("route 65004 10.2.0.0/16 none", ":2: no router announces 10.2.0.0/16"),
                          ("now", ": no routes, as `play` prints them")):
            routes.write_text(f"snapshot 1 settled\n{line}\n")
            self.assertEqual(run("config", "--verify", routes, *names), (1, "", f"config: {routes}{why}\n"))

    def test_ties(self):
        names = self.write(diamond())
        status, out, error = run("config", "--ties", *names)
        self.assertEqual(status, 0)
        self.assertIn("r4.conf:4: 65004 10.1.0.0/16: tie: 65004-65002-65001, 65004-65003-65001: FRR keeps the one",
                      error)
        self.assertEqual(out, "prefix 10.1.0.0/16 of 65001\n  ties: 1, orders played: 2\n"
                              "    1  settled 65001 65002-65001 65003-65001 65004-65002-65001\n"
                              "    1  settled 65001 65002-65001 65003-65001 65004-65003-65001\n")
        called = {name: f"hostname {name[:2]}\n" + text for name, text in diamond().items()}
        self.assertEqual(run("config", "--ties", *self.write(called, "called"))[1], re.sub(r"6500(\d)", r"r\1", out))
        both = diamond()
        both["r1.conf"] = both["r1.conf"].replace(f"network {ONE}", f"network {ONE}\n network {TWO}")
        said = run("config", "--ties", *self.write(both, "both"))[1]
        self.assertEqual(said, out + out.replace(ONE, TWO))
        names = self.write(diamond(options4="bgp bestpath compare-routerid"), "told")
        self.assertEqual(run("config", "--ties", *names)[2], "")

    def ends_of_ties(self, files):
        """The head of what --ties says of ONE, and the ends of the last router."""
        program, ranks = asked_program(), Ranks(read_set(files))
        lines = list(tie_ends(program, ranks, Prefix.read(ONE)))
        return lines[0].strip(), sorted(line.split()[-1] for line in lines[1:])

    def test_ties_of_which_metrics_are_compared_in_part(self):
        """2 has a better MED than 3, and 4 stands between: FRR 8.4.4 kept each of the three, by the order of coming."""
        files = between({2: "set as-path prepend 64999 / set metric 5", 3: "set as-path prepend 64999 / set metric 9",
                         4: "set as-path prepend 64998"}, {4: 1, 2: 2, 3: 3})
        self.assertEqual(self.ends_of_ties(files), ("ties: 1, orders played: 4",
                                                    ["65005-65002-65001", "65005-65003-65001", "65005-65004-65001"]))
        (_, said), = Ranks(read_set(files)).tie_notes()
        self.assertIn("tie: 65005-65004-65001, 65005-65002-65001, 65005-65003-65001 (by MED 65005-65002-65001 above "
                      "65005-65003-65001): FRR keeps", said)
        ids = {2: 1, 4: 2, 3: 3}
        wanted = ("ties: 1, orders played: 3", ["65005-65002-65001", "65005-65004-65001"])
        self.assertEqual(self.ends_of_ties(between({2: "set as-path prepend 64999 / set metric 5",
                                                    4: "set as-path prepend 64998",
                                                    3: "set as-path prepend 64999 / set metric 9"}, ids)), wanted)
        files["r5.conf"] = files["r5.conf"].replace(" neighbor", " bgp deterministic-med\n neighbor", 1)
        self.assertEqual(self.ends_of_ties(files), wanted)
        files["r5.conf"] = files["r5.conf"].replace("deterministic-med", "bestpath compare-routerid")
        self.assertEqual(self.ends_of_ties(files), ("ties: 0, orders played: 1", ["65005-65004-65001"]))

    def test_ties_of_many_paths(self):
        """Each of seven comes to be an end."""
        files = between({place: "set origin egp" for place in range(2, 9)}, {})
        head, ends = self.ends_of_ties(files)
        self.assertEqual((head, ends), ("ties: 1, orders played: 64, and there are more",
                                        [f"65009-6500{place}-65001" for place in range(2, 9)]))

    def test_two_paths_of_a_peer_stand_in_no_table_together(self):
        """Of the six orders of three paths four differ."""
        ways = [Way((9, 2, 1), None), Way((9, 2, 3, 1), None), Way((9, 4, 1), None)]
        orders = [[order.index((way.path,)) for way in ways] for order in Tie({2: ways[:2], 4: ways[2:]}, {}).orders()]
        self.assertEqual(orders, [[0, 1, 2], [0, 2, 1], [2, 0, 1], [1, 2, 0]])

    def test_what_a_selected_route_outlasts(self):
        """As FRR does it: route by route in every order of their coming, or first those whose paths begin alike."""
        draw, counts = random.Random(3), [0, 0]
        for _ in range(12):
            places, is_sorted = draw.sample(range(1, 20), 4), draw.random() < 0.3
            said = {place: (draw.choice((64998, 64999)), draw.choice((1, 2, 3))) for place in (2, 3, 4, 5)}
            files = between({place: f"set as-path prepend {first} / set metric {metric}" for place,
                             (first, metric) in said.items()},
                            dict(zip(said, places)), "bgp deterministic-med" if is_sorted else "")
            routers = read_set(files)
            judge = Judge(routers, Prefix.read(ONE), *routers.origins()[Prefix.read(ONE)])
            for kept in said:
                chosen = {65001: (65001,), **{65000 + place: (65000 + place, 65001) for place in said}}
                may = any(scanned(order, kept, said, dict(zip(said, places)), is_sorted) == kept
                          for order in itertools.permutations(said))
                counts[may] += 1
                self.assertEqual(judge.may_keep(65006, (65006, 65000 + kept, 65001), chosen), may,
                                 (said, places, kept, is_sorted))
        self.assertGreater(min(counts), 8)

    def test_many_ways_of_which_metrics_are_compared_in_part(self):
        """They are sorted by their kinds, which are few."""
        routers = read_set(between({2: "set metric 5", 3: "set metric 9", 4: "set metric 7"}, {}))
        ways = [Way((65005, 65000 + place, number, 65001), Route(path=(first, number), med=place * 7 % 5, has_med=True))
                for number in range(1, 1001) for place, first in ((2, 64999), (3, 64999), (4, 64998))]
        began = time.process_time()
        order = Order(routers, Prefix.read(ONE), 65005, ways)
        tried, are_more = orders_of(order.ties, random.Random(1))
        self.assertLess(time.process_time() - began, 2)
        self.assertEqual([way.path[1] for way in order.ways[::1000]], [65003, 65002, 65004])
        self.assertEqual((len(order.ties), len(tried), are_more), (1, 4, True))

    def test_words(self):
        names = self.write(self.EXPLAINED)
        for words in (["--check", *names], [*names, "--", *names], [], ["--explain", "1"], ["--best", "33", *names],
                      ["--ties", "--verify", "x", *names]):
            status, out, error = run("config", *words)
            self.assertEqual((status, out, error.count("\n")), (2, "", 1), words)
        self.assertEqual(run("config", names[0], names[0])[::2], (1, f"config: {names[0]}: the file stands twice\n"))
        status, out, error = run("config", "--prefix", ONE, *names)
        self.assertEqual((status, error, out.count("origin 65001")), (0, "", 1))
        self.assertEqual(run("config", "--prefix", TWO, *names)[::2], (1, f"config: no router announces {TWO}\n"))
        self.assertEqual(run("config", "nowhere.conf")[::2], (1, "config: nowhere.conf: No such file or directory\n"))
        (self.folder / "octets").write_bytes(b"frr version 8.4\n\0\1\2")
        self.assertEqual(run("config", self.folder / "octets")[::2],
                         (1, f"config: {self.folder}/octets:2: an octet 0: no configuration\n"))


class Random(unittest.TestCase):
    def test_the_same_seed_makes_the_same_set(self):
        self.assertEqual(make(7), make(7))
        self.assertNotEqual(make(7), make(8))

    def test_ends_that_are_played_are_verified(self):
        """What the program settles in is an end by the configurations, of each set that is not refused."""
        program, taken = asked_program(), 0
        for seed in range(36):
            try:
                routers = read_set(make(seed))
                ranks = Ranks(routers)
                lines, _ = network_lines(ranks)
            except Refusal as why:
                self.assertRegex(str(why), r"^r\d+\.conf:\d+: ")
                continue
            said = program.answer(["play"], "".join(line + "\n" for line in lines + schedule_lines(lines)),
                                  f"seed {seed}")
            if said[0].endswith("settled"):
                taken += 1
                self.assertEqual([line for is_best, line in verify(routers, routes_of(said)) if not is_best], [], seed)
        self.assertGreater(taken, 20)

    def test_best_of_fewer_paths_ends_in_the_same(self):
        program = asked_program()
        for seed in range(100, 110):
            try:
                ranks = Ranks(read_set(make(seed)))
                ends = [play(program, ranks, most) for most in (None, 1, 2)]
            except Refusal:
                continue
            if ends[0][0]:
                self.assertEqual(ends[0][1], ends[2][1] if ends[2][0] else ends[0][1], seed)

    def test_beside_frr_where_frr_is_not_there(self):
        for words in ([], ["--fail-each-link"]):
            status, out, error = run("beside_frr", "--frr", "/nowhere", "examples", *words)
            self.assertEqual((status, error), (1, ""))
            self.assertTrue(out.startswith("skipped"))

    def test_beside_waits_for_updates_that_wait(self):
        """Where a line says an interval, silence that is no longer than that is no end: a route may still come."""
        from bgpnet.configs import lab

        class Clock:
            """A clock that only sleeping moves."""

            now = 0.0

            def monotonic(self):
                return self.now

            def sleep(self, seconds):
                self.now += seconds

        for seconds, seen in ((0, 1), (30, 2)):
            clock, files = Clock(), pair("", f"neighbor 10.255.1.1 advertisement-interval {seconds}")
            with tempfile.TemporaryDirectory() as folder, unittest.mock.patch.object(lab, "time", clock):
                routers = read_set(files)
                running = lab.Lab({"FRR": "/"}, routers, {asn: files[one.name] for asn, one in routers.routers.items()},
                                  folder)
                # What a router has changes once, twenty seconds after the sessions came up.
                looks = []
                with unittest.mock.patch.multiple(running, are_up=lambda down=None: True, is_far=False, look=lambda: (
                        looks.append([clock.now > 20] * 2) or looks[-1])):
                    self.assertEqual(running.wait(), "quiet")
            self.assertEqual(len({tuple(look) for look in looks}), seen, (seconds, clock.now))
            self.assertEqual(clock.now > 20 + seconds, bool(seconds))

    def test_beside_frr_leaves_out_the_paths_over_a_link(self):
        paths = {1: [(1,)], 2: [(2, 3, 1), (2, 1)], 3: [(3, 1), (3, 2, 1)]}
        from bgpnet.configs.failures import without
        self.assertEqual(without(paths, (1, 2)), {1: [(1,)], 2: [(2, 3, 1)], 3: [(3, 1)]})
        self.assertEqual(without(paths, None), paths)


class Large(unittest.TestCase):
    def test_sixty_four_routers(self):
        """Customers, peers and providers by communities: what `topology` makes of the same graph by its own rules."""
        graph = topology.hierarchy(64, 3, 30)
        files = {f"r{asn}.conf": relations_conf(graph, asn, (7, 20, 64)) for asn in graph.routers}
        began = time.process_time()
        ranks = Ranks(read_set(files))
        network_lines(ranks)
        self.assertLess(time.process_time() - began, 5)
        for origin in (7, 20, 64):
            wanted, _ = topology.gao_rexford(graph, origin)
            for asn in graph.routers:
                found = ranks.paths(Prefix.read(f"10.{origin}.0.0/16"))[asn]
                self.assertEqual(sorted(found), sorted(wanted[asn]), (origin, asn))


def relations_conf(graph, asn, origins):
    """A router that tags what it hears by what the neighbor is to it."""
    kinds = {topology.CUSTOMER: "CUSTOMER", topology.PEER: "PEER", topology.PROVIDER: "PROVIDER"}
    peers = graph.peers()[asn]
    lines = [f"router bgp {asn}", f" bgp router-id 10.255.{asn}.1", " no bgp network import-check"]
    lines += [f" neighbor 10.255.{peer}.1 remote-as {peer}" for peer in peers]
    lines += [f" network 10.{asn}.0.0/16"] * (asn in origins)
    for peer in peers:
        kind = kinds[graph.kinds[asn, peer]]
        lines += [f" neighbor 10.255.{peer}.1 route-map FROM-{kind} in",
                  f" neighbor 10.255.{peer}.1 route-map TO-{kind} out"]
    lines += ["exit", "bgp community-list standard UP permit 65000:2", "bgp community-list standard UP permit 65000:3"]
    for place, (kind, preference) in enumerate((("CUSTOMER", 200), ("PEER", 150), ("PROVIDER", 100)), 1):
        lines += [f"route-map FROM-{kind} permit 10", f" set local-preference {preference}",
                  f" set community 65000:{place}", "exit"]
        lines += [f"route-map TO-{kind} deny 10", " match community UP", "exit"] * (kind != "CUSTOMER")
        lines += [f"route-map TO-{kind} permit 20", "exit"]
    return "\n".join(lines) + "\n"


class Odd(unittest.TestCase):
    def test_numbers_of_any_length(self):
        """What is too long to be a number is a refusal, in each place where a number stands."""
        long = "9" * 5000
        for top, line in ((f"ip prefix-list P permit 10.0.0.0/{long}", ""),
                          (f"ip prefix-list P permit 10.0.0.0/8 le {long}", ""),
                          (f"ip prefix-list P seq {long} permit any", ""),
                          (f"route-map M permit {long}", ""), (f"route-map M permit 1 / set metric +{long}", ""),
                          (f"route-map M permit 1 / set local-preference {long}", ""),
                          (f"route-map M permit 1 / set as-path prepend 1 {long}", ""),
                          (f"route-map M permit 1 / set community 1:{long}", ""), ("", f"network 10.0.0.0/{long}"),
                          (f"route-map M permit 1 / set large-community 1:2:{long}", ""),
                          ("", f"neighbor 10.255.9.1 remote-as {long}"), ("", f"neighbor 10.255.1.{long} remote-as 1"),
                          (f"bgp as-path access-list F permit 1{{{long}}}", ""), (f"frr version {long}.{long}", ""),
                          ("", f"neighbor 10.255.1.1 weight {long}")):
            with self.subTest(top[:30] + line[:30]):
                try:
                    read_set(pair(top, line))
                except Refusal as why:
                    self.assertRegex(str(why), r"^r2\.conf:\d+: ")

    def test_lines_that_are_cut_anywhere(self):
        """Of each beginning of a file, and of each file without a line, nothing but a refusal or a set comes."""
        text = CASES[30][1]["r2.conf"] + make(3)["r2.conf"].replace("\r", "")
        lines = text.split("\n")
        for at in range(len(lines)):
            for part in ("\n".join(lines[:at]), "\n".join(lines[:at] + lines[at + 1:]),
                         "\n".join(lines[:at] + [lines[at][:len(lines[at]) // 2]])):
                try:
                    read_router(part, "r2.conf", False)
                except Refusal as why:
                    self.assertRegex(str(why), r"^r2\.conf:\d+: ")
