"""Small sets of configurations of BIRD, each with what its routers permit: rules of BIRD 2.0.12 that a translation gets
wrong. Each was seen in real `bird`, and `tools/beside` shows it again of the sets that `write` writes."""
import pathlib

ONE, TWO, THREE = "10.1.0.0/16", "10.2.0.0/16", "10.1.1.0/24"
OWN = f"route {ONE} blackhole;"
BOTH = f"route {ONE} blackhole; route {TWO} blackhole;"


def lines(text):
    """A text whose lines are parted by ` / `."""
    return "".join(f"{line}\n" for line in text.replace(" / ", "\n").split("\n") if line.strip())


def bird(place, peers, top="", own="", **more):
    """The configuration of router 6460N. Of a peer P, `inP` and `outP` are what stands behind import and export, `optP`
    options of its protocol, `chP` of its channel; `static` those of the static protocol."""
    text = f"router id 10.255.{place}.1;\nprotocol device {{ }}\n" + lines(top)
    if own:
        text += f"protocol static own {{\n{lines(more.get('static', 'ipv4;'))}{lines(own)}}}\n"
    for peer in peers:
        text += (f"protocol bgp r{peer} {{\n  local 10.255.{place}.1 as {64600 + place};\n"
                 f"  neighbor 10.255.{peer}.1 as {64600 + peer};\n{lines(more.get(f'opt{peer}', ''))}"
                 f"  ipv4 {{\n{lines(more.get(f'ch{peer}', ''))}    import {more.get(f'in{peer}', 'all')};\n"
                 f"    export {more.get(f'out{peer}', 'all')};\n  }};\n}}\n")
    return text


def frr(place, peers, text=""):
    """The configuration of router 6460N in the language of FRR."""
    neighbors = "".join(f" neighbor 10.255.{peer}.1 remote-as {64600 + peer}\n" for peer in peers)
    top, _, below = text.partition(" // ")
    return (f"frr version 8.4.4\nfrr defaults traditional\n{lines(top)}router bgp {64600 + place}\n"
            f" bgp router-id 10.255.{place}.1\n no bgp ebgp-requires-policy\n no bgp network import-check\n{neighbors}"
            f"{lines(below)}exit\n")


def line(top1="", own1=OWN, top2="", top3="", own2="", own3="", **more):
    """A - B - C; of a router N `N_inP` and such are those of `bird`."""
    return shape(((1, 2), (2, 3)), {1: top1, 2: top2, 3: top3}, {1: own1, 2: own2, 3: own3}, more)


def square(top4="", own1=OWN, top1="", **more):
    """A - B - D, A - C - D."""
    return shape(((1, 2), (1, 3), (2, 4), (3, 4)), {4: top4, 1: top1}, {1: own1}, more)


def pair(filter="", own1=OWN, top2="", **more):
    """A - B, and an import filter of B's."""
    more.setdefault("b_in1", "filter f" if filter else "all")
    return shape(((1, 2),), {2: top2 + (f" / filter f {filter}" if filter else "")}, {1: own1}, more)


def shape(links, tops, owns, more):
    files = {}
    for place in sorted({end for link in links for end in link}):
        peers = [other for link in links for end, other in (link, link[::-1]) if end == place]
        own = {key[2:]: value for key, value in more.items() if key.startswith("abcde"[place - 1] + "_")}
        files[f"r{place}.conf"] = bird(place, peers, tops.get(place, ""), owns.get(place, ""), **own)
    return files


TUNE = "function tune() { bgp_local_pref = 260; return true; }"

# Of each case a sentence, its files, and of a router and a prefix the ways that it permits, best first.
CASES = [
    # the choice
    ("preference stands above bgp_local_pref",
     square("filter b { bgp_local_pref = 35; preference = 110; accept; } / filter c { bgp_local_pref = 420; accept; }",
            d_in2="filter b", d_in3="filter c"), {(4, ONE): ["4-2-1 pref 110 lp 35", "4-3-1 lp 420"]}),
    ("the channel's preference, too", square("filter b { bgp_local_pref = 420; accept; }", d_in2="filter b",
                                             d_ch2="preference 90;"), {(4, ONE): ["4-3-1", "4-2-1 pref 90 lp 420"]}),
    ("a static route is above all of BGP, whatever its local preference",
     line(own1=f"route {ONE} blackhole {{ bgp_local_pref = 5; }};"), 
     {(1, ONE): ["1 pref 200 lp 5"], (2, ONE): ["2-1"]}),
    ("a route that outlived its session is liked less",
     square("filter b { bgp_local_pref = 420; bgp_community.add((65535,6)); accept; }", d_in2="filter b"),
     {(4, ONE): ["4-3-1", "4-2-1 lp 420 c 65535:6"]}),
    ("the default local preference is that of the protocol", square(d_opt2="default bgp_local_pref 90;"),
     {(4, ONE): ["4-3-1", "4-2-1 lp 90"]}),
    ("an unset local preference counts as the default",
     square("filter b { unset(bgp_local_pref); accept; } / filter c { bgp_local_pref = 120; accept; }",
            d_in2="filter b",
            d_in3="filter c", d_opt2="default bgp_local_pref 150;"), {(4, ONE): ["4-2-1 lp none", "4-3-1 lp 120"]}),
    ("the length is that behind the import filter",
     square("filter b { bgp_path.prepend(64999); accept; }", d_in2="filter b"),
     {(4, ONE): ["4-3-1", "4-2-1 as 64999 64602 64601"]}),
    ("lengths are compared if either protocol has it on",
     square("filter b { bgp_path.prepend(64999); accept; }", d_in2="filter b", d_opt2="path metric off;"),
     {(4, ONE): ["4-3-1", "4-2-1 as 64999 64602 64601"]}),
    ("off at both they are not",
     square("filter b { bgp_path.prepend(64999); accept; }", d_in2="filter b", d_opt2="path metric off;",
            d_opt3="path metric off;"), {(4, ONE): ["4-2-1 as 64999 64602 64601", "4-3-1"]}),
    ("origins", square("filter b { bgp_origin = ORIGIN_INCOMPLETE; accept; } / filter c { bgp_origin = ORIGIN_EGP; "
                       "accept; }", d_in2="filter b", d_in3="filter c"),
     {(4, ONE): ["4-3-1 origin egp", "4-2-1 origin incomplete"]}),
    ("an unset origin counts as incomplete",
     square("filter b { unset(bgp_origin); accept; } / filter c { bgp_origin = ORIGIN_EGP; accept; }", d_in2="filter b",
            d_in3="filter c"), {(4, ONE): ["4-3-1 origin egp", "4-2-1 origin none"]}),
    ("MEDs of two neighbors are not compared",
     square("filter b { bgp_med = 35; accept; } / filter c { bgp_med = 4; accept; }", d_in2="filter b",
            d_in3="filter c"),
     {(4, ONE): ["4-2-1 med 35", "4-3-1 med 4"]}),
    ("but where either protocol has med metric",
     square("filter b { bgp_med = 35; accept; } / filter c { bgp_med = 4; accept; }", d_in2="filter b",
            d_in3="filter c",
            d_opt2="med metric on;"), {(4, ONE): ["4-3-1 med 4", "4-2-1 med 35"]}),
    ("or where paths begin alike",
     square("filter b { bgp_med = 35; bgp_path.prepend(64777); accept; } / "
            "filter c { bgp_med = 4; bgp_path.prepend(64777); accept; }", d_in2="filter b", d_in3="filter c"),
     {(4, ONE): ["4-3-1 as 64777 64603 64601 med 4", "4-2-1 as 64777 64602 64601 med 35"]}),
    ("a missing MED is the default of its protocol",
     square("filter c { bgp_med = 9; accept; }", d_in3="filter c", d_opt2="default bgp_med 20; / med metric;",
            d_opt3="med metric;"), {(4, ONE): ["4-3-1 med 9", "4-2-1"]}),
    ("the cost of a channel", square(d_ch2="cost 20;", d_ch3="cost 9;"), {(4, ONE): ["4-3-1", "4-2-1"]}),
    ("which is 0 where igp metric is off", square(d_ch2="cost 20;", d_ch3="cost 9;", d_opt2="igp metric off;"),
     {(4, ONE): ["4-2-1", "4-3-1"]}),
    ("and is none over multihop, where next hops are not reached",
     square(d_ch2="cost 20;", d_ch3="cost 9;", d_opt2="multihop;", d_opt3="multihop; / igp metric off;"),
     {(4, ONE): ["4-2-1", "4-3-1"]}),
    ("an own route that covers both next hops has no distance, which is worse than none",
     square("protocol static own { ipv4; route 10.255.0.0/16 blackhole; }", d_opt2="multihop;",
            d_opt3="multihop; / igp metric off;"), {(4, ONE): ["4-3-1", "4-2-1"]}),
    ("a direct session stands above one over multihop",
     square("filter b { bgp_local_pref = 420; accept; }", d_in2="filter b", d_opt2="multihop;"),
     {(4, ONE): ["4-3-1", "4-2-1 lp 420"]}),
    ("the router id, whichever is older", square(), {(4, ONE): ["4-2-1", "4-3-1"]}),
    ("that of the session", square(b_opt4="router id 10.255.9.1;"), {(4, ONE): ["4-3-1", "4-2-1"]}),
    ("and if these are alike the neighbor's address",
     square(b_opt4="router id 10.255.9.1;", c_opt4="router id 10.255.9.1;"), {(4, ONE): ["4-2-1", "4-3-1"]}),
    # what crosses
    ("an export filter that rejects the best tells nothing",
     shape(((1, 2), (1, 3), (2, 4), (3, 4), (4, 5)), {4: "filter b { bgp_local_pref = 200; accept; }"}, {1: OWN},
           {"d_in2": "filter b", "d_out5": "where bgp_path.first != 64602"}), {(5, ONE): ["5-4-3-1"]}),
    ("local preference does not cross",
     line(top1="filter o { bgp_local_pref = 420; if bgp_local_pref = 420 then bgp_med = 7; accept; }",
          a_out2="filter o"),
     {(2, ONE): ["2-1 med 7"]}),
    ("but where both ends allow it",
     line(top1="filter o { bgp_local_pref = 420; accept; }", a_out2="filter o", a_opt2="allow bgp_local_pref on;",
          b_opt1="allow bgp_local_pref on;"), {(2, ONE): ["2-1 lp 420"]}),
    ("where the sender alone does it is undefined",
     line(top1="filter o { bgp_local_pref = 420; accept; }", a_out2="filter o", a_opt2="allow bgp_local_pref on;",
          top2="filter i { if !defined(bgp_local_pref) then bgp_med = 5; accept; }", b_in1="filter i",
          b_opt1="default bgp_local_pref 150;"), {(2, ONE): ["2-1 lp none med 5"]}),
    ("where the receiver alone does it is the default", line(b_opt1="allow bgp_local_pref on;"), {(2, ONE): ["2-1"]}),
    ("MED that came is not passed on, and is seen by the export filter",
     line(own1=f"route {ONE} blackhole {{ bgp_med = 35; }};",
          top2="filter o { if bgp_med = 35 then bgp_community.add((64602,7)); accept; }", b_out3="filter o"),
     {(2, ONE): ["2-1 med 35"], (3, ONE): ["3-2-1 c 64602:7"]}),
    ("unless the export filter sets it",
     line(own1=f"route {ONE} blackhole {{ bgp_med = 35; }};", top2="filter o { bgp_med = bgp_med; accept; }",
          b_out3="filter o"), {(3, ONE): ["3-2-1 med 35"]}),
    ("MED that the import filter set is not passed on", line(top2="filter i { bgp_med = 5; accept; }",
                                                             b_in1="filter i"),
     {(2, ONE): ["2-1 med 5"], (3, ONE): ["3-2-1"]}),
    ("a static route's MED is told where it is all that was set",
     line(own1=f"route {ONE} blackhole {{ bgp_med = 35; }}; / "
               f"route {TWO} blackhole {{ bgp_med = 35; bgp_community.add((64601,9)); }}; / "
               f"route {THREE} blackhole {{ bgp_med = 35; bgp_med = 36; }};",
          top1="filter o { bgp_community.add((64601,1)); accept; }", a_out2="filter o"),
     {(2, ONE): ["2-1 med 35 c 64601:1"], (2, TWO): ["2-1 c 64601:1 64601:9"], (2, THREE): ["2-1 c 64601:1"]}),
    ("be it by the import filter of its protocol",
     line(own1=BOTH, a_static="ipv4 { import filter { if net = 10.1.0.0/16 then bgp_med = 3; else { bgp_med = 4; "
                              "bgp_local_pref = 4; } accept; }; };"),
     {(2, ONE): ["2-1 med 3"], (2, TWO): ["2-1"]}),
    ("an own route has none of BGP's attributes",
     line(top1="filter o { if bgp_path ~ [= =] && bgp_path.len = 0 && bgp_path.first = 0 && bgp_path.last = 0 && "
               "!defined(bgp_origin) && !defined(bgp_med) && !defined(bgp_local_pref) then bgp_med = 1; accept; }",
          a_out2="filter o"), {(2, ONE): ["2-1 med 1"]}),
    ("communities are sent and passed on",
     line(top1="filter o { bgp_community.add((64601,7)); bgp_large_community.add((64601,1,7)); accept; }",
          a_out2="filter o"), {(3, ONE): ["3-2-1 c 64601:7 l 64601:1:7"]}),
    ("an export filter works on a copy",
     shape(((1, 2), (1, 3), (2, 4), (3, 4), (4, 5)), {4: "filter o { bgp_med = 9; accept; }"}, {1: OWN},
           {"d_out2": "filter o"}), {(5, ONE): ["5-4-2-1", "5-4-3-1"]}),
    ("the own AS stands in front of what the export filter prepends",
     line(top2="filter o { bgp_path.prepend(64777); bgp_path.prepend(64602); accept; }", b_out3="filter o"),
     {(3, ONE): ["3-2-1 as 64602 64602 64777 64601"]}),
    # well-known communities
    ("no-export by the import filter stops the router itself",
     line(top2="filter i { bgp_community.add((65535,65281)); accept; }", b_in1="filter i"),
     {(2, ONE): ["2-1 c 65535:65281"], (3, ONE): []}),
    ("by the export filter the neighbor", line(top1="filter o { bgp_community.add((65535,65281)); accept; }",
                                               a_out2="filter o"),
     {(2, ONE): ["2-1 c 65535:65281"], (3, ONE): []}),
    ("all three of them, and deletion outwards comes too late",
     line(own1=BOTH, top2="filter i { if net = 10.1.0.0/16 then bgp_community.add((65535,65282)); else "
                          "bgp_community.add((65535,65283)); accept; } / filter o { bgp_community.empty; accept; }",
          b_in1="filter i", b_out3="filter o"), {(3, ONE): [], (3, TWO): []}),
    ("an own static route is told with them, and stopped by the neighbor",
     line(own1=f"route {ONE} blackhole {{ bgp_community.add((65535,65281)); }};"),
     {(2, ONE): ["2-1 c 65535:65281"], (3, ONE): []}),
    ("interpret communities off passes them, outwards alone",
     line(own1=BOTH, top1="filter o { bgp_community.add((65535,65281)); accept; }", a_out2="filter o",
          b_opt3="interpret communities off;"), {(3, ONE): ["3-2-1 c 65535:65281"]}),
    ("of the session by which they came it does nothing",
     line(top1="filter o { bgp_community.add((65535,65281)); accept; }", a_out2="filter o",
          b_opt1="interpret communities off;"), {(3, ONE): []}),
    ("blackhole and graceful shutdown do nothing",
     line(top1="filter o { bgp_community.add((65535,666)); bgp_community.add((65535,0)); accept; }", a_out2="filter o"),
     {(3, ONE): ["3-2-1 c 65535:0 65535:666"]}),
    # how filters end
    ("accept and reject end the filter within a function, too",
     pair("{ g(); reject; }", top2="function g() { bgp_med = 3; accept; }"), {(2, ONE): ["2-1 med 3"]}),
    ("a filter that ends without one rejects", pair("{ bgp_med = 3; }"), {(2, ONE): []}),
    ("an error rejects", pair("{ bgp_med = bgp_med + 1; accept; }"), {(2, ONE): []}),
    ("return of a truth accepts or rejects",
     pair("{ if net = 10.1.0.0/16 then return true; return false; }", own1=BOTH), {(2, ONE): ["2-1"], (2, TWO): []}),
    ("return of a number is an error", pair("{ return 5; }"), {(2, ONE): []}),
    ("a function of a where changes the route", pair(top2=TUNE, b_in1="where net.len = 16 && tune()"),
     {(2, ONE): ["2-1 lp 260"]}),
    ("the right side is not run where the left decides", pair(top2=TUNE, b_in1="where net.len = 16 || tune()"),
     {(2, ONE): ["2-1"]}),
    ("a function without a value is a statement, and no condition",
     pair("{ g(); if net.len = 24 then { if g() then accept; } accept; }", own1=OWN + f" / route {THREE} blackhole;",
          top2="function g() { bgp_med = 3; }"), {(2, ONE): ["2-1 med 3"], (2, THREE): []}),
    ("import none, export none", line(b_in1="none"), {(2, ONE): []}),
    ("and outwards", line(b_out3="none"), {(2, ONE): ["2-1"], (3, ONE): []}),
    ("what is printed has no effect, but for errors",
     pair("{ print \"a\", net; if net = 10.2.0.0/16 then print bgp_med + 1; accept \"yes\", net; }", own1=BOTH),
     {(2, ONE): ["2-1"], (2, TWO): []}),
    # what is undefined
    ("an undefined MED stands below every value",
     pair("{ if bgp_med = 4 || bgp_med > 4 || bgp_med >= 0 || 4 < bgp_med then reject; if bgp_med != 4 && bgp_med < 4 "
          "&& bgp_med <= 0 && 4 > bgp_med && bgp_med = bgp_otc && !defined(bgp_med) then bgp_local_pref = 7; "
          "accept; }"),
     {(2, ONE): ["2-1 lp 7"]}),
    ("to assign it is an error", pair("{ bgp_local_pref = bgp_med; accept; }"), {(2, ONE): []}),
    ("and to look for it in a set", pair("{ if bgp_med ~ [0..100] then accept; accept; }"), {(2, ONE): []}),
    ("to hand it to a function is none",
     pair("{ if g(bgp_med) then accept; reject; }", top2="function g(int a) { return a != 5; }"), {(2, ONE): ["2-1"]}),
    ("case takes else", pair("{ case bgp_med { 0..100: reject; else: accept; } }"), {(2, ONE): ["2-1"]}),
    ("lists are never undefined, but empty",
     pair("{ bgp_community.add((1,2)); unset(bgp_community); if bgp_community.len = 0 && !defined(bgp_community) then "
          "bgp_med = 1; bgp_community.add((1,2)); bgp_community.delete((1,2)); if defined(bgp_community) then "
          "bgp_med = bgp_med + 10; accept; }"), {(2, ONE): ["2-1 med 11"]}),
    ("a variable without a value is an error within the braces", pair("{ int x; x = 5; accept; }"), {(2, ONE): []}),
    ("but not in front of them", pair("int x; { x = 5; bgp_med = x; accept; }"), {(2, ONE): ["2-1 med 5"]}),
]


def write(folder):
    """Writes each case into a folder of its own, for `tools/beside`."""
    for number, (_, files, _) in enumerate(CASES, 1):
        place = pathlib.Path(folder, str(number))
        place.mkdir(parents=True, exist_ok=True)
        for name, text in files.items():
            (place / name).write_text(text)
