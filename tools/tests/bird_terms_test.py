"""Tests of the terms of BIRD's filter language, and of lines that few files have."""
import unittest

from support import load  # noqa: F401, for it sets the path
from bird_cases import ONE, OWN, bird, frr, line, pair, shape, square
from bird_terms import TERMS
from bird_test import Refuses, read_set, shown

from bgpnet.configs.bird.evaluate import State
from bgpnet.configs.bird.run import Failure, function_of
from bgpnet.configs.bird.statements import Statements
from bgpnet.configs.bird.tokens import Lexer
from bgpnet.configs.bird.values import Address, Clist, Pair, Path, Triple
from bgpnet.configs.ranks import Ranks
from bgpnet.network import Prefix
from bgpnet.program import Refusal


def text_of(value):
    """A value as BIRD writes it."""
    if isinstance(value, bool):
        return str(value).upper()
    if isinstance(value, Pair):
        return f"({value >> 16},{value & 0xFFFF})"
    if isinstance(value, Triple):
        return "({}, {}, {})".format(*value)
    if isinstance(value, (Path, Clist)):
        return f"({'path' if isinstance(value, Path) else 'clist'} {' '.join(map(text_of, value))})"
    if isinstance(value, Address):
        return ".".join(str(value >> shift & 255) for shift in (24, 16, 8, 0))
    return str(value)


def answer(term):
    """What a term is, None where it is an error."""
    lexer = Lexer(None)
    try:
        lexer.take(term, "term")
        reader = Statements(lexer.found, "term")
        node = reader.term()
        return text_of(function_of(node)(State(None, None))) if reader.token.kind == "end" else None
    except (Refusal, Failure):
        return None


class Terms(unittest.TestCase):
    def test_each_term(self):
        for term, wanted in TERMS:
            with self.subTest(term):
                self.assertEqual(answer(term), wanted)


class Rules(unittest.TestCase):
    """Rules of which the sets stand in no table: what a router permits for a prefix."""

    def ways(self, files, place, prefix=ONE):
        return [shown(way) for way in Ranks(read_set(files)).orders[Prefix.read(prefix)][64600 + place].ways]

    def test_a_destination_that_a_filter_sets(self):
        sink = "filter d {{ dest = {}; bgp_local_pref = 300; accept; }}"
        for kind, wanted in (("RTD_UNREACHABLE", ["4-3-1", "4-2-1 lp 300"]), ("RTD_BLACKHOLE", ["4-2-1 lp 300",
                                                                                                "4-3-1"]),
                             ("RTD_UNICAST", ["4-3-1"])):
            self.assertEqual(self.ways(square(sink.format(kind), d_in2="filter d"), 4), wanted)

    def test_what_stands_where_few_write_it(self):
        for files, wanted in (
                (pair(top2="define L = 70; / define A = 10.255.1.1; / define N = 64601;",
                      b_opt1="default bgp_local_pref (L + 1);"), ["2-1 lp 71"]),
                (pair(top2="ipv4 table t4; / ipv6 table t6; / ipv4 table master4 sorted; / eval 5 + 5;"), ["2-1"]),
                (pair("{ ip set a = [10.255.1.1..10.255.1.9]; prefix set p = [10.0.0.0/8+]; int set i = [5, 7..9]; "
                      "quad q = "
                      "10.255.1.1; if from ~ a && net ~ p && 8 ~ i && q ~ a then bgp_med = 1; accept; }"),
                      ["2-1 med 1"]),
                (pair("{ if 2001:db8::/32 = net || net ~ [2001:db8::/32+, ::/0] || net.type = NET_IP6 then reject; "
                      "accept; }"),
                 ["2-1"]),
                (pair("{ int a = 0; for int x in bgp_path do { a = x; if a = 64601 then return true; } reject; }"),
                 ["2-1"]),
                (pair(b_opt1="multihop; / direct;"), ["2-1"])):
            self.assertEqual(self.ways(files, 2), wanted)
        text = bird(2, (1,)).replace("as 64602", "as OWN").replace("neighbor 10.255.1.1 as 64601", "neighbor A as N")
        text = "define A = 10.255.1.1;\ndefine N = 64601;\ndefine OWN = 64602;\n" + text
        self.assertEqual(self.ways({"r1.conf": bird(1, (2,), "define P = 10.1.0.0/16;", "route P blackhole;"),
                                    "r2.conf": text}, 2), ["2-1"])

    def test_prefixes_that_go_alike_are_told_apart(self):
        """By what braces set, what filters ask of the prefix, and which lists are defined."""
        own = "".join(f"route 10.{number}.0.0/16 blackhole{body}; / " for number, body in (
            (1, ""), (2, ""), (3, " { bgp_community.empty; }"), (4, " { bgp_med = 4; }")))
        files = line(own1=own, top1="filter o { if defined(bgp_community) then bgp_local_pref = 5; if bgp_local_pref "
                                    "= 5 then "
                                    "bgp_med = 9; if net = 10.2.0.0/16 then bgp_med = 2; accept; }", a_out2="filter o")
        self.assertEqual([self.ways(files, 2, f"10.{number}.0.0/16") for number in (1, 2, 3, 4)],
                         [["2-1"], ["2-1 med 2"], ["2-1 med 9"], ["2-1 med 4"]])


class Refused(Refuses):
    """Rows as those of bird_test, of lines that few files have."""

    def test_values_and_names(self):
        for text, why in (
                ("{ if net ~ [10.0.0.0/8, 10.0.0.0] then accept; }", "the length of a prefix"),
                ("{ if net ~ [2001:db8::/129] then accept; }", "a length of 129"),
                ("{ if 5 ~ [5..10.0.0.1] then accept; }", "a range from int to ip"),
                ("{ if 5 ~ [S] then accept; }", "no item of a set"), ("{ if 5 ~ [x] then accept; }",
                                                                      "there is no constant"),
                ("{ case net.len { (\"a\"): accept; } }", "an item of a set"),
                ("{ if 5 ~ [(\"a\")] then accept; }", "no number, pair or address"),
                ("{ if 5 ~ [(bgp_med)] then accept; }", "no constant"),
                ("{ if (1,2) ~ [(bgp_med, 1)] then accept; }", "no constant"),
                ("{ if (1,2) ~ [(rt, 1, 2)] then accept; }", "extended"),
                ("{ if (1,2) ~ [(1,*)..(2,3)] then accept; }", "has ranges itself"),
                ("{ if bgp_path ~ [= x =] then accept; }", "no number that is defined"),
                ("{ if 5 ~ [1..(\"a\")] then accept; }", "no constant number"),
                ("{ if f then accept; }", "is defined nowhere"), ("{ if h then accept; }", "'('"),
                ("{ if o then accept; }", "a filter, and no value"), ("{ h = 5; accept; }", "'('"),
                ("{ o = 5; accept; }", "a filter, and nothing that can be set"), ("{ net.len; accept; }", "'='"),
                ("{ bgp_med; accept; }", "'.'"), ("{ if net ~ 300.0.0.0/8 then accept; }", "is no address"),
                ("{ bgp_path.foo(1); accept; }", ".prepend")):
            self.refused(pair(text, top2="define S = [1,2]; / filter o { accept; } / function h() { return 1; }"),
                         "filter f", why)

    def test_what_a_protocol_lacks(self):
        own = "local 10.255.2.1 as 64602"
        for new, why in (("local 10.255.2.1", "no line says the AS number of its own"),
                         (own + "; require roles", "no role of its own, and roles are required")):
            text = pair()["r2.conf"].replace(own, new)
            self.refused({**pair(), "r2.conf": text[:text.rindex("}")] + "} # the end\n"}, "# the end", why)
        self.refused(pair(top2="function g(foo a) { return 1; }"), "function g", "'foo' is no type of a variable")

    def test_options(self):
        for option, why in (("default bgp_med (bgp_med);", "no constant number"),
                            ("source address N;", "no constant address")):
            self.refused(pair(top2="define N = 5;", b_opt1=option), option, why)
        self.refused(pair(b_ch1="import all; export all; }; ipv4 {"), "}; ipv4 {", "a second channel")
        for top, marker, why in (("define N = 5; / protocol static t { ipv4; route N blackhole; }", "route N",
                                  "no constant"),
                                 ("ipv4 unicast table;", "ipv4 unicast", "the name of a table"),
                                 ("ipv4 5;", "ipv4 5", "'table'")):
            self.refused(pair(top2=top), marker, why)

    def test_ends_that_do_not_fit(self):
        """As for FRR: what contradicts the other end is refused. Where no session is left, the network is in parts."""
        files = line(a_opt2="passive;", b_opt1="passive;")
        self.refused(files, "protocol bgp r1", "the network isn't connected; r1.conf:10: protocol r2: both ends are passive")
        self.refused(line(a_opt2='password "a";', b_opt1='password "b";'), "password", "the password is not that",
                     "r1.conf")
        self.refused(line(a_opt2="ttl security on;"), "ttl security", "takes a TTL from 255", "r1.conf")
        self.refused(line(a_opt2="source address 10.255.9.1;"), "source address", "and r2.conf", "r1.conf")
        files = shape(((1, 2), (2, 3)), {}, {1: OWN}, {"b_opt1": "local role customer; / require roles;"})
        with self.assertRaises(Refusal) as raised:
            Ranks(read_set(files))
        self.assertIn("the other end has no role", str(raised.exception))

    def test_what_a_router_lacks(self):
        files = pair()
        self.refused({**files, "r2.conf": files["r2.conf"].replace("router id 10.255.2.1", "router id 0.0.0.0")},
                     "router id",
                     "the router id is 0")
        files = line(top1="filter o { bgp_community.add((65535,6)); accept; }", a_out2="filter o")
        self.refused({**files, "r3.conf": frr(3, (2,))}, "protocol bgp r3", "llgr-stale is told to r3.conf")
        self.refused(pair("{ " + 3000 * "{ " + 3000 * "} " + "accept; }"), "filter f", "nested too deep")
        self.refused(pair("{ bgp_med = " + 3000 * "net.len + " + "1; accept; }"), "filter f", "nested too deep")
