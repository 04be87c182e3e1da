"""More sets as those of bird_cases: expressions, paths, sessions and files, and routers of BIRD and FRR in one set."""
from bird_cases import BOTH, ONE, OWN, THREE, TWO, bird, frr, line, pair, shape, square


def holds(condition, top=""):
    """Router 2 has MED 1 where a condition holds of the route."""
    return pair(f"{{ if {condition} then bgp_med = 1; accept; }}", top2=top)


def external(files):
    """Router 2 says no AS number of its neighbor 1."""
    text = files["r2.conf"].replace("neighbor 10.255.1.1 as 64601", "neighbor 10.255.1.1 external")
    return {**files, "r2.conf": text}


HOLDS, NOT = {(2, ONE): ["2-1 med 1"]}, {(2, ONE): ["2-1"]}
WIDE = f"{OWN} / route 172.20.0.0/16 blackhole; / route 172.20.1.0/24 blackhole; / route 172.16.0.0/12 blackhole;"
W16, W24, W12 = "172.20.0.0/16", "172.20.1.0/24", "172.16.0.0/12"
PATH = "filter o { bgp_path.prepend(64601); accept; }"

CASES = [
    # expressions
    ("&& and || have one rank, from the left", holds("true || true && false"), NOT),
    ("so the other way round", holds("false && false || true"), HOLDS),
    ("numbers have 32 bits without sign", pair("{ bgp_local_pref = bgp_local_pref - 260; bgp_med = 7/2 + 0x10; "
                                               "accept; }"),
     {(2, ONE): ["2-1 lp 4294967136 med 19"]}),
    ("a division by 0 is an error", pair("{ bgp_med = net.len/(net.len - 16); accept; }"), {(2, ONE): []}),
    ("a prefix fits what is inside, a set of it itself alone",
     pair("{ bgp_med = 0; if net ~ 172.20.0.0/16 then bgp_med = bgp_med + 1; if net ~ [ 172.20.0.0/16 ] then "
          "bgp_med = bgp_med + 2; if net ~ [ 172.20.0.0/16+ ] then bgp_med = bgp_med + 4; if net ~ [ 172.20.0.0/16- ] "
          "then bgp_med = bgp_med + 8; if net ~ [ 172.20.0.0/24{8,24} ] then bgp_med = bgp_med + 16; accept; }",
          own1=WIDE),
     {(2, ONE): ["2-1 med 0"], (2, W16): ["2-1 med 31"], (2, W24): ["2-1 med 5"], (2, W12): ["2-1 med 24"]}),
    ("items of sets that overlap are lost",
     pair("{ bgp_med = 0; if 24 ~ [16..24, 20] then bgp_med = bgp_med + 1; if 16 ~ [16..24, 20] then bgp_med = "
          "bgp_med + 2; if (64601,9) ~ [(64601,*), (64601,5)] then bgp_med = bgp_med + 4; if (64601,1) ~ [(64601,*), "
          "(64601,5)] "
          "then bgp_med = bgp_med + 8; accept; }"), {(2, ONE): ["2-1 med 10"]}),
    ("and so are arms of a case",
     pair("{ case net.len + 8 { 16..24: bgp_med = 1; 20: bgp_med = 2; } accept; }"), NOT),
    ("but with else first in the tree",
     pair("{ case net.len + 8 { else: bgp_med = 3; 16..24: bgp_med = 1; 20: bgp_med = 2; } accept; }"), HOLDS),
    ("of two arms of a value the second is taken",
     pair("{ case net.len { 16: bgp_med = 5; 16: bgp_med = 1; } accept; }"),
     HOLDS),
    ("pairs with ranges",
     pair("{ bgp_community.add((16,20)); bgp_community.add((17,5)); bgp_community.add((18,9)); "
          "bgp_community.add((7,7)); bgp_community.delete([(16..17, 5..20), (*,9)]); accept; }"),
     {(2, ONE): ["2-1 c 7:7"]}),
    ("ranges between names, which may go down and then have nothing",
     pair("{ if (1,20) ~ [D..C] then bgp_med = 1; if (1,2) ~ [C..D] || (2,3) ~ [C..D] then bgp_med = 2; accept; }",
          top2="define C = (2,3); / define D = (1,9);"), {(2, ONE): ["2-1 med 1"]}),
    ("large communities with ranges and stars",
     pair("{ bgp_large_community.add((1,2,3)); bgp_large_community.add((2,5,9)); bgp_large_community.add((3,1,1)); "
          "bgp_large_community.delete([(1,*,*), (2,5,8..9)]); accept; }"), {(2, ONE): ["2-1 l 3:1:1"]}),
    ("any of the communities, and none", pair("{ if bgp_community !~ [(1,*)] then bgp_community.add((1,2)); "
                                              "if bgp_community ~ [(1,*), (5,5)] then bgp_med = 1; accept; }"),
     {(2, ONE): ["2-1 med 1 c 1:2"]}),
    ("numbers are no communities", pair("{ if bgp_community ~ [ 64601 ] then accept; accept; }"), {(2, ONE): []}),
    ("nor is a route distinguisher", pair("{ if 64601:7 ~ bgp_community then accept; accept; }"), {(2, ONE): []}),
    ("add takes no set", pair("{ bgp_community.add([(1,2)]); accept; }"), {(2, ONE): []}),
    ("delete and filter take lists",
     pair("{ bgp_community.add((1,2)); bgp_community.add((3,4)); clist c = filter(bgp_community, [(3,*)]); "
          "bgp_community.delete(c); bgp_community = add(bgp_community, (5,6)); bgp_med = c.len; accept; }"),
     {(2, ONE): ["2-1 med 1 c 1:2 5:6"]}),
    ("the order counts where lists are compared",
     pair("{ clist c = add(add(-empty-, (1,2)), (3,4)); clist d = add(add(-empty-, (3,4)), (1,2)); if c != d && "
          "c = add(add(-empty-, (1,2)), (3,4)) && c.min = d.min && c.max = (3,4) then bgp_med = 1; accept; }"), HOLDS),
    ("a mask is for the whole path",
     line(top2="filter i { if bgp_path ~ [= 64601 =] then bgp_med = 1; accept; }", b_in1="filter i",
          top3="filter i { if bgp_path ~ [= 64601 =] then bgp_med = 1; if bgp_path ~ [= * 64601 =] && "
               "bgp_path ~ [= 64602 64601 =] && bgp_path ~ [= ? 64601 =] then bgp_med = 2; accept; }",
               c_in2="filter i"),
     {(2, ONE): ["2-1 med 1"], (3, ONE): ["3-2-1 med 2"]}),
    ("prepends are there, and + is one or more",
     line(top1=PATH, a_out2="filter o",
          top3="filter i { if bgp_path ~ [= 64602 64601 =] then bgp_med = 1; if bgp_path ~ [= 64602 64601+ =] && "
               "bgp_path ~ [= 64600..64609+ =] && bgp_path ~ [= [64602] (64600 + 1) * =] then bgp_med = 2; accept; }",
          c_in2="filter i"), {(3, ONE): ["3-2-1 as 64602 64601 64601 med 2"]}),
    ("a set of numbers fits any AS",
     line(top3="filter i { bgp_med = bgp_path.len; if bgp_path ~ [64601] && 64602 ~ bgp_path && bgp_path.first = "
               "64602 && bgp_path.last = 64601 then bgp_med = 10; accept; }", c_in2="filter i"),
     {(3, ONE): ["3-2-1 med 10"]}),
    ("values of two types are not equal", holds("net.len = true || (1,2) = 3 || net = 10.1.0.0"), NOT),
    ("the arm that fits, and none falls into the next",
     pair("{ case net.len { 8, 12: bgp_med = 4; 16: bgp_med = 1; 17..24: bgp_med = 2; else: bgp_med = 3; } accept; }"),
     HOLDS),
    ("without else and a fit it goes on", pair("{ case net.len { 8: reject; } bgp_med = 1; accept; }"), HOLDS),
    ("a name stands in brackets, origins do not",
     pair("{ case net.len { (N): bgp_med = 1; } case bgp_origin { ORIGIN_EGP: reject; else: accept; } }",
          top2="define N = 16;"), HOLDS),
    ("a value of another type takes the root", pair("{ case net { 5: bgp_med = 2; 6: bgp_med = 1; } accept; }"), HOLDS),
    ("else belongs to the nearest if",
     pair("{ if net.len = 16 then if net.len = 8 then bgp_med = 2; else bgp_med = 1; accept; }"), HOLDS),
    ("proto is the session, outwards that by which the route came",
     line(top2="filter i { if proto = \"r1\" then bgp_med = 1; accept; } / "
               "filter o { if proto = \"r1\" then bgp_med = 2; accept; }", b_in1="filter i", b_out3="filter o",
          top1="filter o { if proto = \"own\" && source = RTS_STATIC then bgp_community.add((1,1)); accept; }",
          a_out2="filter o"), {(2, ONE): ["2-1 med 1 c 1:1"], (3, ONE): ["3-2-1 med 2 c 1:1"]}),
    ("unnamed protocols are numbered",
     {"r1.conf": bird(1, (2,), own=OWN), "r2.conf": bird(2, (1,), "filter f { if proto ~ \"bgp?\" then bgp_med = 1; "
                                                                  "accept; }", in1="filter f")
      .replace("bgp r1", "bgp")},
     HOLDS),
    ("from is the neighbor's address", holds("from = 10.255.1.1 && from ~ 10.255.0.0/16 && source = RTS_BGP"), HOLDS),
    ("parameters are copies, the route is one",
     pair("{ int a = 5; g(a, 1); if a = 5 then bgp_med = bgp_med + a; accept; }",
          top2="function g(int a; int b) { a = a + b; bgp_med = a; }"), {(2, ONE): ["2-1 med 11"]}),
    ("functions call functions above them",
     pair("{ bgp_med = h(3); accept; }",
          top2="function g(int a) { return a * 2; } / function h(int a) { return g(a) + 1; }"),
     {(2, ONE): ["2-1 med 7"]}),
    ("loops over paths, prepends too",
     line(top1=PATH, a_out2="filter o",
          top3="filter i { bgp_med = 0; for int one in bgp_path do if one = 64601 then bgp_med = bgp_med + 1; "
               "accept; }",
          c_in2="filter i"), {(3, ONE): ["3-2-1 as 64602 64601 64601 med 2"]}),
    ("loops over communities",
     pair("{ bgp_community.add((1,5)); bgp_community.add((2,6)); bgp_med = 0; for pair c in bgp_community do "
          "{ bgp_med = bgp_med * 10 + c.data; } accept; }"), {(2, ONE): ["2-1 med 56 c 1:5 2:6"]}),
    ("a loop's variable that was there is undefined behind it",
     pair("{ int x = 5; for x in bgp_path do bgp_med = x; bgp_med = x; accept; }"), {(2, ONE): []}),
    ("inner names stand above outer ones",
     pair("{ int x = 5; { int x = 6; bgp_med = x; } bgp_local_pref = x; accept; }"), {(2, ONE): ["2-1 lp 5 med 6"]}),
    ("addresses and lengths of a prefix",
     holds("net.ip = 10.1.0.0 && net.ip.mask(8) = 10.0.0.0 && net.len ~ [8..24] && net.type = NET_IP4"), HOLDS),
    ("patterns of the shell", holds("proto ~ \"r*\" && proto ~ \"?1\" && proto !~ \"x*\""), HOLDS),
    # paths and loops
    ("a poisoned route is refused before the filter",
     line(top1="filter o { bgp_path.prepend(64603); accept; }", a_out2="filter o"), {(3, ONE): []}),
    ("one's own AS prepended at import harms nobody",
     square("filter i { bgp_path.prepend(64604); accept; }", d_in2="filter i"),
     {(4, ONE): ["4-3-1", "4-2-1 as 64604 64602 64601"],
      (3, ONE): ["3-1", "3-4-2-1 as 64604 64604 64602 64601"]}),
    ("what is deleted of others' prepends is gone",
     line(top1="filter o { bgp_path.prepend(64999); bgp_path.prepend(64998); accept; }", a_out2="filter o",
          top2="filter i { bgp_path.delete([64990..64998]); accept; }", b_in1="filter i"),
     {(3, ONE): ["3-2-1 as 64602 64601 64999"]}),
    ("so is a router's number, where no way comes back",
     line(top3="filter i { bgp_path.delete(64601); bgp_path.filter([64602]); accept; }", c_in2="filter i"),
     {(3, ONE): ["3-2-1 as 64602"]}),
    ("enforce first as takes what the neighbor put on",
     line(top2="filter o { bgp_path.prepend(64999); accept; }", b_out3="filter o", c_opt2="enforce first as on;"),
     {(3, ONE): ["3-2-1 as 64602 64999 64601"]}),
    ("a route is not told to whom it came from",
     line(top2="filter o { bgp_path.empty; accept; }", b_out1="filter o"),
     {(1, ONE): ["1 pref 200"], (3, ONE): ["3-2-1"]}),
    ("MEDs of one first AS, and another path behind both",
     shape(((1, 2), (1, 3), (1, 4), (2, 5), (3, 5), (4, 5)),
           {5: "filter l { if bgp_path.first = 64603 then { bgp_path.prepend(64777); bgp_med = 4; } else if "
               "bgp_path.first = 64602 then { bgp_path.prepend(64777); bgp_med = 35; } else bgp_path.prepend(64778); "
               "accept; }"}, {1: OWN}, {"e_in2": "filter l", "e_in3": "filter l", "e_in4": "filter l"}),
     {(5, ONE): ["5-3-1 as 64777 64603 64601 med 4", "5-2-1 as 64777 64602 64601 med 35",
                 "5-4-1 as 64778 64604 64601"]}),
    # sessions, protocols, files
    ("the own number and address in lines of their own",
     {"r1.conf": bird(1, (2,), own=OWN).replace("local 10.255.1.1 as 64601", "local 10.255.1.1; local as 64601"),
      "r2.conf": bird(2, (1,)).replace("local 10.255.2.1 as 64602", "local as 64602; source address 10.255.2.1")},
     {(2, ONE): ["2-1"]}),
    ("of two numbers of a neighbor the later counts, before an external one",
     {"r1.conf": bird(1, (2,), own=OWN).replace("neighbor 10.255.2.1 as 64602",
                                                "neighbor as 64699; neighbor 10.255.2.1 as 64602"),
      "r2.conf": bird(2, (1,)).replace("neighbor 10.255.1.1 as 64601", "neighbor 10.255.1.1 external as 64601")},
     {(2, ONE): ["2-1"]}),
    ("passive at one end", line(a_opt2="passive;", b_opt3="passive on;"), {(3, ONE): ["3-2-1"]}),
    ("passive at both ends: no session", shape(((1, 2), (2, 3), (1, 3)), {}, {1: OWN}, {"a_opt2": "passive;",
                                                                                      "b_opt1": "passive;"}),
     {(2, ONE): ["2-3-1"]}),
    ("a protocol that is disabled: no session",
     shape(((1, 2), (2, 3), (1, 3)), {}, {1: OWN}, {"a_opt2": "disabled;", "c_opt1": "disabled; / disabled no;"}),
     {(2, ONE): ["2-3-1"], (3, ONE): ["3-1"]}),
    ("roles that don't fit: no session",
     shape(((1, 2), (2, 3), (1, 3)), {}, {1: OWN}, {"a_opt2": "local role customer;", "b_opt1": "local role customer;"}),
     {(2, ONE): ["2-3-1"]}),
    ("limits and kept routes change nothing, as long as they are not reached",
     line(own1=BOTH, b_ch1="import limit 10 action block; / receive limit 20; / import keep filtered;",
          b_ch3="export limit 5 action disable; / export limit off;"), {(3, ONE): ["3-2-1"]}),
    ("nor do a kernel's many paths", line(top2="protocol kernel { merge paths on; ipv4 { export all; }; }"),
     {(3, ONE): ["3-2-1"]}),
    ("allow local as 0 is none", line(b_opt1="allow local as 0;"), {(3, ONE): ["3-2-1"]}),
    ("routes of several kinds, prohibited and unreachable ones too",
     line(own1=f"route {ONE} unreachable; / route {TWO} prohibit; / route {THREE} reject;", a_static="ipv4 { import "
          "filter { if dest = RTD_PROHIBIT then bgp_med = 4; if dest = RTD_UNREACHABLE then bgp_med = 3; accept; }; };"),
     {(2, ONE): ["2-1 med 3"], (2, TWO): ["2-1 med 4"], (2, THREE): ["2-1 med 3"]}),
    ("a neighbor in two lines, and external ones",
     {"r1.conf": bird(1, (2,), own=OWN).replace("neighbor 10.255.2.1 as 64602",
                                                "neighbor as 64602; neighbor 10.255.2.1"),
      "r2.conf": bird(2, (1, 3)).replace("neighbor 10.255.1.1 as 64601", "neighbor 10.255.1.1 external"),
      "r3.conf": bird(3, (2,)).replace("local 10.255.3.1 as", "local as")}, {(3, ONE): ["3-2-1"]}),
    ("two protocols of one neighbor: that which stands first",
     {"r1.conf": bird(1, (2,), own=OWN), "r2.conf": bird(2, (1, 1), ch1="preference 90;").replace(
         "bgp r1", "bgp former", 1)}, {(2, ONE): ["2-1 pref 90"]}),
    ("templates of templates, and a line of one's own in place of its kind",
     {"r1.conf": bird(1, (2,), own=OWN), "r2.conf":
      "router id 10.255.2.1;\nprotocol device { }\ntemplate bgp A { local 10.255.2.1 as 64602; default bgp_local_pref "
      "70;\n ipv4 { import none; export all; preference 90; }; }\ntemplate bgp B from A { ipv4 { import all; }; }\n"
      "protocol bgp x from B { neighbor 10.255.1.1 as 64601; ipv4 { preference 80; }; }\n"},
     {(2, ONE): ["2-1 pref 80 lp 70"]}),
    ("options that stand twice: the later",
     line(b_opt1="default bgp_local_pref 70; / default bgp_local_pref 80;"), {(2, ONE): ["2-1 lp 80"]}),
    ("names with signs, and words of roles as names",
     pair("{ bgp_med = 'a-b.c:d' + peer; accept; }", top2="define 'a-b.c:d' = 5; / define peer = 7;"),
     {(2, ONE): ["2-1 med 12"]}),
    ("comments", pair("{ # if true then reject;\n/* reject; # */ bgp_med = 1; accept; }"), HOLDS),
    ("constants are worked out at once",
     pair("{ if net ~ P && net.len ~ S && (64602, 7) ~ [C] then bgp_med = B; accept; }",
          top2="define A = 5 * 4; / define B = A - 19; / define S = [(A - 4)]; / define P = [10.0.0.0/8+]; / "
               "define C = (64600 + 2, 7);"), HOLDS),
    ("where source = RTS_STATIC", line(own2=f"route {TWO} blackhole;", b_out3="where source = RTS_STATIC"),
     {(3, ONE): [], (3, TWO): ["3-2"]}),
    ("attributes of one's own go from import to export, and no further",
     line(top2="attribute int mark_; / filter i { mark_ = 5; accept; } / filter o { bgp_med = mark_; accept; }",
          b_in1="filter i", b_out3="filter o"), {(3, ONE): ["3-2-1 med 5"]}),
    ("a route of a provider goes to customers alone",
     shape(((1, 2), (2, 3), (2, 4)), {}, {1: OWN}, {"b_opt1": "local role customer;", "b_opt3": "local role customer;",
                                                  "b_opt4": "local role provider;", "a_opt2": "local role provider;"}),
     {(2, ONE): ["2-1 otc 64601"], (3, ONE): [], (4, ONE): ["4-2-1 otc 64601"]}),
    ("roles act at one end alone",
     shape(((1, 2), (2, 3)), {}, {1: OWN}, {"b_opt1": "local role peer;", "b_opt3": "local role peer;"}),
     {(2, ONE): ["2-1 otc 64601"], (3, ONE): []}),
    ("a marked route of a customer is refused",
     shape(((1, 2), (2, 3), (1, 3)), {}, {1: OWN}, {"b_opt1": "local role customer;", "b_out3": "all",
                                                    "c_opt2": "local role provider;"}),
     {(3, ONE): ["3-1"]}),
    ("a provider without a number marks with 0",
     external(shape(((1, 2), (2, 3)), {}, {1: OWN}, {"b_opt1": "local role customer;", "b_opt3": "local role provider;"})),
     {(2, ONE): ["2-1 otc 0"], (3, ONE): ["3-2-1 otc 0"]}),
    ("and a marked route of a peer without one is refused",
     external(shape(((1, 2), (2, 3)), {}, {1: OWN}, {"a_opt2": "local role peer;", "b_opt1": "local role peer;"})),
     {(2, ONE): []}),
    ("an unset mark goes on", shape(((1, 2), (2, 3)), {2: "filter i { unset(bgp_otc); accept; }"}, {1: OWN},
                                    {"b_opt1": "local role customer;", "b_opt3": "local role customer;",
                                     "b_in1": "filter i"}), {(3, ONE): ["3-2-1"]}),
    ("a route server does not stand in the path, and passes MED",
     shape(((1, 2), (2, 3), (2, 4)), {}, {1: f"route {ONE} blackhole {{ bgp_med = 35; }};"},
           {"a_opt2": "multihop;", "b_opt1": "multihop;", "b_opt3": "multihop; / rs client;", "c_opt2": "multihop;",
            "b_opt4": "multihop; / rs client;", "d_opt2": "multihop; / enforce first as on;"}),
     {(3, ONE): ["3-2-1 as 64601 med 35"], (4, ONE): []}),
    ("so does one on direct sessions that says itself to be the next hop",
     shape(((1, 2), (2, 3)), {}, {1: OWN}, {"b_opt3": "rs client;", "b_ch3": "next hop self;"}),
     {(3, ONE): ["3-2-1 as 64601"]}),
    ("a channel of IPv6 beside that of IPv4, and one end without that of IPv4",
     {**shape(((1, 2), (2, 3), (1, 3)), {}, {1: OWN}, {"b_opt1": "ipv6 { import all; export none; };",
                                                     "b_ch3": "mandatory;"}),
      "r3.conf": bird(3, (1, 2)).replace("  ipv4 {\n    import all;\n    export all;\n  };\n}\nprotocol bgp r2",
                                         "  ipv4 { import all; export all; };\n}\nprotocol bgp r2")
      .replace("  ipv4 {\n", "  ipv6 {\n")}, {(2, ONE): ["2-1"], (3, ONE): ["3-1"]}),
    # beside FRR
    ("FRR's network has MED 0, BIRD's none",
     {"r1.conf": bird(1, (2, 3), own=OWN), "r2.conf": bird(2, (1,), "filter f { if !defined(bgp_med) then bgp_med = 9; "
                                                                    "accept; }", in1="filter f"),
      "r3.conf": frr(3, (1,), f" // network {TWO}")},
     {(2, ONE): ["2-1 med 9"], (2, TWO): ["2-1-3 med 9"], (1, TWO): ["1-3 med 0"]}),
    ("FRR acts on blackhole and no-export of own routes, BIRD does not",
     {"r1.conf": bird(1, (2,), own=f"route {ONE} blackhole {{ bgp_community.add((65535,666)); }};"),
      "r2.conf": frr(2, (1, 3)), "r3.conf": bird(3, (2,))},
     {(2, ONE): ["2-1 lp none c 65535:666 65535:65281"], (3, ONE): []}),
    ("graceful shutdown: FRR's local preference is 0",
     {"r1.conf": bird(1, (2,), own=f"route {ONE} blackhole {{ bgp_community.add((65535,0)); }};"),
      "r2.conf": frr(2, (1, 3)), "r3.conf": bird(3, (2,))},
     {(2, ONE): ["2-1 lp 0 c 65535:0"], (3, ONE): ["3-2-1 c 65535:0"]}),
    ("FRR takes no local preference of BIRD",
     {"r1.conf": bird(1, (2,), "filter o { bgp_local_pref = 420; accept; }", OWN, out2="filter o",
                      opt2="allow bgp_local_pref on;"), "r2.conf": frr(2, (1,))}, {(2, ONE): ["2-1 lp none"]}),
    ("FRR passes marks on",
     {"r1.conf": bird(1, (2,), own=OWN, opt2="local role provider;"), "r2.conf": frr(2, (1, 3)),
      "r3.conf": bird(3, (2,), opt2="local role provider;")}, {(3, ONE): []}),
    ("both end at their own prefixes alone",
     {"r1.conf": bird(1, (2,), own=f"{BOTH} / route {THREE} blackhole;"),
      "r2.conf": frr(2, (1,), "ip prefix-list P permit 10.1.0.0/16 / route-map IN permit 10 / match ip address "
                              "prefix-list P / set metric 4 // neighbor 10.255.1.1 route-map IN in")},
     {(2, ONE): ["2-1 lp none med 4"], (2, TWO): [], (2, THREE): []}),
]
