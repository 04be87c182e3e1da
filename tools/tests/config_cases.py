"""Small sets of configurations, each with what its routers permit: rules of FRR that a translation gets wrong. Each was
seen in real FRR 8.4.4, and `tools/beside_frr` shows it again of the sets that `write` writes."""
import pathlib

HEAD = "frr version 8.4.4\nfrr defaults traditional\n!\n"
ONE, TWO = "10.1.0.0/16", "10.2.0.0/16"


def router(place, peers, top="", lines="", options="", head=HEAD, networks=(), below=""):
    """The configuration of router 6500N, whose peers are others of that kind: lists and maps, then the router, then
    what stands below it."""
    neighbors = "".join(f" neighbor 10.255.{peer}.1 remote-as 6500{peer}\n" for peer in peers)
    announced = "".join(f" network {prefix}\n" for prefix in networks)
    return (head + indented(top) + f"router bgp 6500{place}\n bgp router-id 10.255.{place}.1\n"
            " no bgp ebgp-requires-policy\n no bgp network import-check\n"
            + indented(options, " ") + neighbors + announced + indented(lines, " ") + "exit\n" + indented(below))


def indented(text, by=""):
    return "".join(f"{by}{line.strip()}\n" for line in text.replace(" / ", "\n").splitlines() if line.strip())


def pair(top2="", lines2="", top1="", lines1="", options2="", **more):
    """Router 1 announces two prefixes to router 2."""
    return {"r1.conf": router(1, (2,), top1, lines1, networks=(ONE, TWO)),
            "r2.conf": router(2, (1,), top2, lines2, options2, **more)}


def into(entries, lists="", **more):
    """Router 2 has an in-map."""
    return pair(lists + " / " + entries, "neighbor 10.255.1.1 route-map IN in", **more)


def line3(top1="", lines1="", top2="", lines2="", top3="", lines3="", options3="", networks1=(ONE,), networks2=()):
    """Three routers in a line, the first the origin."""
    return {"r1.conf": router(1, (2,), top1, lines1, networks=networks1),
            "r2.conf": router(2, (1, 3), top2, lines2, networks=networks2),
            "r3.conf": router(3, (2,), top3, lines3, options3)}


def diamond(top4="", lines4="", options4="", top2="", lines2="", top3="", lines3="", top1="", lines1=""):
    """Router 1 is the origin, 2 and 3 stand between, 4 has both."""
    return {"r1.conf": router(1, (2, 3), top1, lines1, networks=(ONE,)),
            "r2.conf": router(2, (1, 4), top2, lines2),
            "r3.conf": router(3, (1, 4), top3, lines3),
            "r4.conf": router(4, (2, 3), top4, lines4, options4)}


def between(sets, ids, options=""):
    """Router 1 is the origin; each of those between has a map at the last router, and a router id of its own."""
    last = max(sets) + 1
    files = {"r1.conf": router(1, sets, networks=(ONE,)),
             **{f"r{place}.conf": router(place, (1, last)) for place in sets}}
    files[f"r{last}.conf"] = router(last, sets, " / ".join(f"route-map M{place} permit 10 / {one}" for place,
                                                           one in sets.items()),
                                    " / ".join(f"neighbor 10.255.{place}.1 route-map M{place} in" for place in sets),
                                    options)
    for place, number in ids.items():
        files[f"r{place}.conf"] = files[f"r{place}.conf"].replace(f"router-id 10.255.{place}.1",
                                                                  f"router-id 1.0.0.{number}")
    return files


Q = "ip prefix-list Q permit 10.2.0.0/16"
LP2 = "route-map IN permit 10 / "
FROM2 = "neighbor 10.255.2.1 route-map IN in"
OUT1 = "neighbor 10.255.2.1 route-map OUT out"
OUT2 = "neighbor 10.255.3.1 route-map OUT out"

# Of each case a sentence, its files, and of a router and a prefix the ways that it permits, best first.
CASES = [
    # route-maps
    ("on-match next, and nothing behind it fits: a denial",
     into(f"route-map IN permit 10 / on-match next / set local-preference 200 / route-map IN permit 20 / "
          "match ip address prefix-list Q / set metric 7", Q),
     {(2, ONE): [], (2, TWO): ["2-1 lp 200 med 7"]}),
    ("on-match next in the last entry permits",
     into("route-map IN permit 10 / on-match next / set local-preference 200"), {(2, ONE): ["2-1 lp 200 med 0"]}),
    ("goto past the last entry permits, and passes a denial over",
     into("route-map IN permit 10 / on-match goto 99 / set local-preference 200 / route-map IN permit 20 / "
          "set metric 9 / route-map IN deny 30"),
     {(2, ONE): ["2-1 lp 200 med 0"]}),
    ("on-match next into a denial denies",
     into("route-map IN permit 10 / on-match next / set local-preference 200 / route-map IN deny 20"), {(2, ONE): []}),
    ("goto goes to the next entry above its number",
     into("route-map IN permit 10 / on-match goto 25 / route-map IN permit 20 / set metric 20 / "
          "route-map IN permit 30 / set metric 30"),
     {(2, ONE): ["2-1 med 30"]}),
    ("continue N goes on, too",
     into("route-map IN permit 10 / continue 20 / set local-preference 200 / route-map IN permit 20 / set metric 20"),
     {(2, ONE): ["2-1 lp 200 med 20"]}),
    ("an undefined route-map denies all", pair("", "neighbor 10.255.1.1 route-map NO in"), {(2, ONE): []}),
    ("so it does outwards", pair(lines1="neighbor 10.255.2.1 route-map NO out"), {(2, ONE): []}),
    ("an undefined prefix-list of a neighbor denies all", pair("", "neighbor 10.255.1.1 prefix-list NO in"),
     {(2, ONE): []}),
    ("an undefined filter-list of a neighbor denies all", pair("", "neighbor 10.255.1.1 filter-list NO in"),
     {(2, ONE): []}),
    ("an undefined distribute-list of a neighbor denies all", pair("", "neighbor 10.255.1.1 distribute-list NO in"),
     {(2, ONE): []}),
    ("an undefined list in a match fits nothing",
     into("route-map IN deny 10 / match as-path NO / route-map IN deny 20 / match community NO / "
          "route-map IN deny 30 / match ip address NO / "
          "route-map IN deny 40 / match ip address prefix-list NO / route-map IN permit 50 / set local-preference 150"),
     {(2, ONE): ["2-1 lp 150 med 0"]}),
    ("an undefined list of a deletion deletes nothing",
     into("route-map IN permit 10 / set comm-list NO delete", top1="route-map OUT permit 10 / set community 65001:9",
          lines1=OUT1),
     {(2, ONE): ["2-1 med 0 c 65001:9"]}),
    ("an undefined map that is called is nothing",
     into("route-map IN permit 10 / call NO / set local-preference 200"), {(2, ONE): ["2-1 lp 200 med 0"]}),
    ("a prefix-list of a description alone below a neighbor's line denies",
     pair("", "neighbor 10.255.1.1 prefix-list EMPTY in", below="ip prefix-list EMPTY description nothing"),
     {(2, ONE): []}),
    ("above it, it permits",
     pair("ip prefix-list EMPTY description nothing", "neighbor 10.255.1.1 prefix-list EMPTY in"),
     {(2, ONE): ["2-1 med 0"]}),
    ("above a match it fits nothing", into("route-map IN permit 10 / match ip address prefix-list EMPTY",
                                           "ip prefix-list EMPTY description nothing"), {(2, ONE): []}),
    ("below a match it fits everything",
     into("route-map IN permit 10 / match ip address prefix-list EMPTY",
          below="ip prefix-list EMPTY description nothing"), {(2, ONE): ["2-1 med 0"]}),
    ("an access-list of a remark alone permits nothing",
     pair("access-list EMPTY remark nothing", "neighbor 10.255.1.1 distribute-list EMPTY in"), {(2, ONE): []}),
    ("community-lists by numbers that are names",
     into("route-map IN permit 10 / match community 105 / set metric 5 / route-map IN permit 20 / match community 5 / "
          "set metric 6",
          "bgp community-list standard 105 permit 1:1 / bgp community-list expanded 5 permit ^2:2$", lines1=OUT1,
          top1=f"{Q} / route-map OUT permit 10 / match ip address prefix-list Q / set community 1:1 / "
               "route-map OUT permit 20 / set community 2:2"),
     {(2, ONE): ["2-1 med 6 c 2:2"], (2, TWO): ["2-1 med 5 c 1:1"]}),
    ("no entry fits: a denial", into("route-map IN permit 10 / match ip address prefix-list Q", Q),
     {(2, ONE): [], (2, TWO): ["2-1 med 0"]}),
    ("a second match of a kind takes the place of the first",
     into("route-map IN permit 10 / match ip address prefix-list A / match ip address prefix-list Q",
          f"ip prefix-list A permit 10.1.0.0/16 / {Q}"), {(2, ONE): [], (2, TWO): ["2-1 med 0"]}),
    ("matches of an access-list and of a prefix-list are of two kinds",
     into("route-map IN permit 10 / match ip address A / match ip address prefix-list Q",
          f"access-list A permit 10.1.0.0/16 / {Q}"),
     {(2, ONE): [], (2, TWO): []}),
    ("an entry that is written twice keeps its matches, and the last word counts",
     into("route-map IN deny 10 / match local-preference 77 / route-map IN permit 10 / set metric 5"), {(2, ONE): []}),
    ("deletion, then addition",
     into("route-map IN permit 10 / set comm-list C delete / set community 65001:9 additive",
          "bgp community-list standard C permit 65001:9",
          top1="route-map OUT permit 10 / set community 65001:9 65001:8", lines1=OUT1),
     {(2, ONE): ["2-1 med 0 c 65001:8 65001:9"]}),
    ("addition, then deletion",
     into("route-map IN permit 10 / set community 65001:9 additive / set comm-list C delete",
          "bgp community-list standard C permit 65001:9",
          top1="route-map OUT permit 10 / set community 65001:9 65001:8", lines1=OUT1),
     {(2, ONE): ["2-1 med 0 c 65001:8"]}),
    ("prepending, then exclusion",
     into("route-map IN permit 10 / set as-path prepend 64512 64513 / set as-path exclude 64512"),
     {(2, ONE): ["2-1 as 64513 65001 med 0"]}),
    ("exclusion, then prepending",
     into("route-map IN permit 10 / set as-path exclude 64512 / set as-path prepend 64512 64513"),
     {(2, ONE): ["2-1 as 64512 64513 65001 med 0"]}),
    ("a call acts, and so do the lines of the entry",
     into("route-map IN permit 10 / call SUB / set metric 7 / route-map SUB permit 10 / set local-preference 300"),
     {(2, ONE): ["2-1 lp 300 med 7"]}),
    ("a denial of a map that is called ends all",
     into("route-map IN permit 10 / call SUB / route-map IN permit 20 / route-map SUB permit 10 / "
          "match ip address prefix-list Q", Q),
     {(2, ONE): [], (2, TWO): ["2-1 med 0"]}),
    ("a form of a set behind a greater one: FRR drops both",
     into("route-map IN permit 10 / set metric +7 / set metric 5", top1="route-map OUT permit 10 / set metric 50",
          lines1=OUT1),
     {(2, ONE): ["2-1 med 50"]}),
    ("community none behind communities: FRR drops both",
     into("route-map IN permit 10 / set community 1:1 / set community none",
          top1="route-map OUT permit 10 / set community 65001:9", lines1=OUT1),
     {(2, ONE): ["2-1 med 0 c 65001:9"]}),
    # attributes
    ("a change of local preference starts from 0", into("route-map IN permit 10 / set local-preference +50"),
     {(2, ONE): ["2-1 lp 50 med 0"]}),
    ("but of an own route from the default",
     {"r1.conf": router(1, (2,), "route-map N permit 10 / set local-preference +50", "network 10.1.0.0/16 route-map N"),
      "r2.conf": router(2, (1,))},
     {(1, ONE): ["1 w 32768 lp 150 med 0"], (2, ONE): ["2-1 med 0"]}),
    ("which without a map is that above its line, and with one the last",
     {"r1.conf": router(1, (2,), "route-map OUT permit 10 / match local-preference 250 / set metric 5 / "
                                 "route-map OUT permit 20",
                        f"network {ONE} / network 10.3.0.0/16 route-map N / bgp default local-preference 250 / "
                        f"network {TWO} / {OUT1}", below="route-map N permit 10"),
      "r2.conf": router(2, (1,))},
     {(2, ONE): ["2-1 med 0"], (2, TWO): ["2-1 med 5"], (2, "10.3.0.0/16"): ["2-1 med 5"]}),
    ("and ends at 0", into("route-map IN permit 10 / set local-preference -20"), {(2, ONE): ["2-1 lp 0 med 0"]}),
    ("the default is no attribute",
     diamond("route-map IN permit 10 / set local-preference +50", "neighbor 10.255.3.1 route-map IN in",
             "bgp default local-preference 40"),
     {(4, ONE): ["4-3-1 lp 50", "4-2-1"]}),
    ("match local-preference 100 does not fit a route without one",
     into("route-map IN deny 10 / match local-preference 100 / route-map IN permit 20 / match local-preference 0 / "
          "set metric 5"),
     {(2, ONE): ["2-1 med 5"]}),
    ("a network's own route has the field",
     line3(top2="route-map OUT permit 10 / match local-preference 100", lines2=OUT2, networks2=(TWO,)),
     {(3, ONE): [], (3, TWO): ["3-2 med 0"]}),
    ("local preference does not cross, and later entries see it",
     line3(top1="route-map OUT permit 10 / set local-preference 300 / on-match next / route-map OUT permit 20 / "
                "match local-preference 300 / set metric 4", lines1=OUT1),
     {(2, ONE): ["2-1 med 4"]}),
    ("MED goes to the next AS and no further", line3(top1="route-map OUT permit 10 / set metric 50", lines1=OUT1),
     {(2, ONE): ["2-1 med 50"], (3, ONE): ["3-2-1"]}),
    ("a match outwards sees the metric that came, and a change starts from 0",
     line3(top1="route-map OUT permit 10 / set metric 50", lines1=OUT1,
           top2="route-map OUT permit 10 / match metric 50 / set metric +5", lines2=OUT2),
     {(3, ONE): ["3-2-1 med 5"]}),
    ("a network has MED 0, and what is passed on has none",
     {"r1.conf": router(1, (2, 3), networks=(ONE,)),
      "r2.conf": router(2, (1, 3), "route-map OUT permit 10 / set metric 9", "neighbor 10.255.3.1 route-map OUT out"),
      "r3.conf": router(3, (1, 2), options="bgp always-compare-med / bgp bestpath med missing-as-worst / "
                                           "bgp bestpath as-path ignore")},
     {(3, ONE): ["3-1 med 0", "3-2-1 med 9"]}),
    ("missing as worst",
     diamond(options4="bgp always-compare-med / bgp bestpath med missing-as-worst",
             top3="route-map OUT permit 10 / set metric 9", lines3="neighbor 10.255.4.1 route-map OUT out"),
     {(4, ONE): ["4-3-1 med 9", "4-2-1"]}),
    ("and missing as best", diamond(options4="bgp always-compare-med", top2="route-map OUT permit 10 / set metric 9",
                                    lines2="neighbor 10.255.4.1 route-map OUT out"),
     {(4, ONE): ["4-3-1", "4-2-1 med 9"]}),
    ("MED of two neighbors is not compared", diamond("route-map IN permit 10 / set metric 9", FROM2),
     {(4, ONE): ["4-2-1 med 9", "4-3-1"]}),
    ("MED is compared where maps make the first AS the same",
     diamond("route-map IN permit 10 / set metric 9 / set as-path prepend 64999 / route-map IM permit 10 / "
             "set metric 3 / set as-path prepend 64999",
             FROM2 + " / neighbor 10.255.3.1 route-map IM in"),
     {(4, ONE): ["4-3-1 as 64999 65003 65001 med 3", "4-2-1 as 64999 65002 65001 med 9"]}),
    ("two ways of a peer go by their MED",
     {"r1.conf": router(1, (2, 3), networks=(ONE,)), "r3.conf": router(3, (1, 2, 4)),
      "r2.conf": router(2, (1, 3, 4), "bgp as-path access-list F permit ^65003_ / route-map OUT permit 5 / "
                                      "match as-path F / set metric 1 / "
                        "route-map OUT permit 10 / set metric 5", "neighbor 10.255.4.1 route-map OUT out"),
      "r4.conf": router(4, (2, 3), "", "neighbor 10.255.3.1 route-map IM in / "
                        "neighbor 10.255.2.1 route-map IM in", "bgp bestpath as-path ignore",
                        below="route-map IM permit 10 / set weight 5")},
     {(4, ONE): ["4-2-3-1 w 5 med 1", "4-2-1 w 5 med 5", "4-3-1 w 5", "4-3-2-1 w 5"]}),
    ("weight stands above local preference",
     diamond("route-map IN permit 10 / set local-preference 500", FROM2 + " / neighbor 10.255.3.1 weight 5"),
     {(4, ONE): ["4-3-1 w 5", "4-2-1 lp 500"]}),
    ("a map sets another weight than the neighbor's",
     diamond("route-map IN permit 10 / set weight 0", FROM2 + " / neighbor 10.255.2.1 weight 5"),
     {(4, ONE): ["4-2-1", "4-3-1"]}),
    ("last-as repeats the upstream's AS, and on an own route it is nothing",
     line3(top1="route-map OUT permit 10 / set as-path prepend last-as 3", lines1=OUT1,
           top2="route-map OUT permit 10 / set as-path prepend last-as 3", lines2=OUT2),
     {(2, ONE): ["2-1 med 0"], (3, ONE): ["3-2-1 as 65002 65001 65001 65001 65001"]}),
    ("a prepended AS denies", line3(top1="route-map OUT permit 10 / set as-path prepend 65003", lines1=OUT1),
     {(2, ONE): ["2-1 as 65001 65003 med 0"], (3, ONE): []}),
    ("a router's own AS can't be excluded on the way out",
     pair(top1="route-map OUT permit 10 / set as-path exclude 65001", lines1=OUT1), {(2, ONE): ["2-1 med 0"]}),
    ("an excluded AS shortens a path", diamond("route-map IN permit 10 / set as-path exclude 65001",
                                               "neighbor 10.255.3.1 route-map IN in"),
     {(4, ONE): ["4-3-1 as 65003", "4-2-1"], (1, ONE): ["1 w 32768 med 0"]}),
    ("a filter-list sees the path before the map",
     pair("bgp as-path access-list F permit ^65001$ / route-map IN permit 10 / set as-path prepend 64999",
          "neighbor 10.255.1.1 filter-list F in / neighbor 10.255.1.1 route-map IN in"),
     {(2, ONE): ["2-1 as 64999 65001 med 0"]}),
    ("and outwards before the own AS",
     line3(top2="bgp as-path access-list F permit ^$", lines2="neighbor 10.255.3.1 filter-list F out",
           networks2=(TWO,)),
     {(3, ONE): [], (3, TWO): ["3-2 med 0"]}),
    ("lists and a map have to permit, all of them",
     pair("ip prefix-list P permit 10.1.0.0/16 / bgp as-path access-list F permit _65001_ / route-map IN permit 10 / "
          "match ip address prefix-list Q / " + Q,
          "neighbor 10.255.1.1 prefix-list P in / neighbor 10.255.1.1 filter-list F in / "
          "neighbor 10.255.1.1 route-map IN in"), {(2, ONE): [], (2, TWO): []}),
    ("as-path ignore", diamond("route-map IN permit 10 / set as-path prepend 64999 64999", FROM2,
                               "bgp bestpath as-path ignore"),
     {(4, ONE): ["4-2-1 as 64999 64999 65002 65001", "4-3-1"]}),
    ("origin stands below length", diamond("route-map IN permit 10 / set origin incomplete", FROM2),
     {(4, ONE): ["4-3-1", "4-2-1 origin incomplete"]}),
    # communities
    ("communities and large ones are sent", pair(top1="route-map OUT permit 10 / set community 1:1 / "
                                                      "set large-community 1:2:3", lines1=OUT1),
     {(2, ONE): ["2-1 med 0 c 1:1 l 1:2:3"]}),
    ("no send-community stops the standard ones alone",
     pair(top1="route-map OUT permit 10 / set community 1:1 / set large-community 1:2:3",
          lines1=OUT1 + " / no neighbor 10.255.2.1 send-community"), {(2, ONE): ["2-1 med 0 l 1:2:3"]}),
    ("no send-community all stops both",
     pair(top1="route-map OUT permit 10 / set community 1:1 / set large-community 1:2:3",
          lines1=OUT1 + " / no neighbor 10.255.2.1 send-community all"), {(2, ONE): ["2-1 med 0"]}),
    ("no send-community large stops large ones",
     pair(top1="route-map OUT permit 10 / set community 1:1 / set large-community 1:2:3",
          lines1=OUT1 + " / no neighbor 10.255.2.1 send-community large"), {(2, ONE): ["2-1 med 0 c 1:1"]}),
    ("no-export that is set outwards stops at the neighbor",
     line3(top1="route-map OUT permit 10 / set community no-export", lines1=OUT1),
     {(2, ONE): ["2-1 med 0 c no-export"], (3, ONE): []}),
    ("no-export that is set inwards stops oneself",
     line3(top2="route-map IN permit 10 / set community no-advertise", lines2="neighbor 10.255.1.1 route-map IN in"),
     {(2, ONE): ["2-1 med 0 c no-advertise"], (3, ONE): []}),
    ("a network with local-AS stays", {"r1.conf": router(1, (2,), "route-map N permit 10 / set community local-AS",
                                                         "network 10.1.0.0/16 route-map N"),
                                       "r2.conf": router(2, (1,))},
     {(1, ONE): ["1 w 32768 med 0 c local-AS"], (2, ONE): []}),
    ("community none outwards comes too late", line3(top1="route-map OUT permit 10 / set community no-export",
                                                     lines1=OUT1, top2="route-map OUT permit 10 / set community none",
                                                     lines2=OUT2), {(3, ONE): []}),
    ("blackhole goes one AS further", line3(top1="route-map OUT permit 10 / set community blackhole", lines1=OUT1),
     {(2, ONE): ["2-1 med 0 c blackhole no-export"], (3, ONE): []}),
    ("graceful-shutdown sets local preference behind the map, at every AS",
     line3(top1="route-map OUT permit 10 / set community graceful-shutdown", lines1=OUT1,
           top2="route-map IN permit 10 / set local-preference 500", lines2="neighbor 10.255.1.1 route-map IN in"),
     {(2, ONE): ["2-1 lp 0 med 0 c graceful-shutdown"], (3, ONE): ["3-2-1 lp 0 c graceful-shutdown"]}),
    ("an entry of two communities needs both",
     into("route-map IN permit 10 / match community C", "bgp community-list standard C permit 65001:1 65001:2",
          top1="ip prefix-list A permit 10.1.0.0/16 / route-map OUT permit 10 / "
          "match ip address prefix-list A / set community 65001:1 65001:2 65001:3 / route-map OUT permit 20 / "
          "set community 65001:1", lines1=OUT1),
     {(2, ONE): ["2-1 med 0 c 65001:1 65001:2 65001:3"], (2, TWO): []}),
    ("exact-match is the whole set of one entry",
     into("route-map IN permit 10 / match community C exact-match",
          "bgp community-list standard C permit 65001:1 / bgp community-list standard C permit 65001:2",
          top1="ip prefix-list A permit 10.1.0.0/16 / route-map OUT permit 10 / match ip address prefix-list A / "
               "set community 65001:1 65001:2 / route-map OUT permit 20 / set community 65001:1", lines1=OUT1),
     {(2, ONE): [], (2, TWO): ["2-1 med 0 c 65001:1"]}),
    ("exact-match of an expanded list is nothing",
     into("route-map IN permit 10 / match community C exact-match", "bgp community-list expanded C permit 65001:1",
          top1="route-map OUT permit 10 / set community 65001:1 65001:2", lines1=OUT1),
     {(2, ONE): ["2-1 med 0 c 65001:1 65001:2"]}),
    ("deletion takes each community by itself",
     into("route-map IN permit 10 / set comm-list C delete", "bgp community-list standard C permit 65001:1 65001:2",
          top1="route-map OUT permit 10 / set community 65001:1 65001:3", lines1=OUT1),
     {(2, ONE): ["2-1 med 0 c 65001:3"]}),
    ("internet fits a route without communities",
     into("route-map IN permit 10 / match community C", "bgp community-list standard C permit internet"),
     {(2, ONE): ["2-1 med 0"]}),
    ("expanded lists see the whole text, ascending, with names",
     into("route-map IN permit 10 / match community C / route-map IN permit 20 / match community D / set metric 3",
          "bgp community-list expanded C permit ^65001:1 65001:2 no-export$ / bgp community-list expanded D permit ^$",
          top1="ip prefix-list A permit 10.1.0.0/16 / route-map OUT permit 10 / "
          "match ip address prefix-list A / set community no-export 65001:2 65001:1 / route-map OUT permit 20",
          lines1=OUT1),
     {(2, ONE): ["2-1 med 0 c 65001:1 65001:2 no-export"], (2, TWO): ["2-1 med 3"]}),
    ("large communities: match, exact-match, deletion",
     into("route-map IN permit 10 / match large-community L exact-match / set large-comm-list M delete / "
          "route-map IN permit 20 / match large-community M / set large-community 7:7:7 additive",
          "bgp large-community-list standard L permit 1:1:1 1:1:2 / bgp large-community-list expanded M permit :2$",
          top1="ip prefix-list A permit 10.1.0.0/16 / route-map OUT permit 10 / "
          "match ip address prefix-list A / set large-community 1:1:2 1:1:1 / route-map OUT permit 20 / "
          "set large-community 3:3:2", lines1=OUT1),
     {(2, ONE): ["2-1 med 0 l 1:1:1"], (2, TWO): ["2-1 med 0 l 3:3:2 7:7:7"]}),
    # lists
    ("an exact entry, then a wider one of the same prefix: dropped",
     pair("access-list L seq 5 permit 10.0.0.0/8 exact-match / access-list L seq 10 permit 10.0.0.0/8",
          "neighbor 10.255.1.1 distribute-list L in"), {(2, ONE): []}),
    ("so it is where it has its number",
     pair("access-list L seq 5 permit 10.0.0.0/8 exact-match / access-list L seq 5 permit 10.0.0.0/8",
          "neighbor 10.255.1.1 distribute-list L in"), {(2, ONE): []}),
    ("an entry takes the place of another of its number",
     pair("access-list L seq 5 permit 10.2.0.0/16 / access-list L seq 5 permit 10.1.0.0/16 / "
          "ip prefix-list P seq 5 permit 10.0.0.0/8 le 24 / ip prefix-list P seq 5 permit 10.1.0.0/16 / "
          "route-map IN permit 10 / match ip address prefix-list P",
          "neighbor 10.255.1.1 distribute-list L in / neighbor 10.255.1.1 route-map IN in"),
     {(2, ONE): ["2-1 med 0"], (2, TWO): []}),
    ("bits under a wildcard are not cleared",
     pair("access-list 10 permit 10.1.1.0 0.0.255.255", "neighbor 10.255.1.1 distribute-list 10 in"), {(2, ONE): []}),
    ("a wildcard", pair("access-list 10 permit 10.1.0.0 0.0.255.255", "neighbor 10.255.1.1 distribute-list 10 in"),
     {(2, ONE): ["2-1 med 0"], (2, TWO): []}),
    ("a prefix has all inside it", pair("access-list L permit 10.0.0.0/8", "neighbor 10.255.1.1 distribute-list L in"),
     {(2, ONE): ["2-1 med 0"]}),
    ("host looks at the address alone",
     pair("access-list L permit host 10.1.0.0", "neighbor 10.255.1.1 distribute-list L in"),
     {(2, ONE): ["2-1 med 0"], (2, TWO): []}),
    ("no ge and no le: that length alone",
     pair("ip prefix-list P permit 10.0.0.0/8", "neighbor 10.255.1.1 prefix-list P in"), {(2, ONE): []}),
    ("ge alone is up to 32", pair("ip prefix-list P permit 10.0.0.0/8 ge 9", "neighbor 10.255.1.1 prefix-list P in"),
     {(2, ONE): ["2-1 med 0"]}),
    ("a bound of 0 is none",
     pair("ip prefix-list P permit 0.0.0.0/0 ge 0 / ip prefix-list P deny 0.0.0.0/0 ge 0 le 15 / "
          "ip prefix-list P permit 10.2.0.0/16",
                                   "neighbor 10.255.1.1 prefix-list P in"), {(2, ONE): [], (2, TWO): ["2-1 med 0"]}),
    ("bits of hosts are cleared, and the order is that of numbers",
     pair("ip prefix-list P seq 20 permit any / ip prefix-list P seq 10 deny 10.2.3.4/16",
          "neighbor 10.255.1.1 prefix-list P in"), {(2, ONE): ["2-1 med 0"], (2, TWO): []}),
    ("expressions are not anchored, and _ is an end too",
     pair("bgp as-path access-list F permit ^_6500_? / bgp as-path access-list F permit ^_65001_$",
          "neighbor 10.255.1.1 filter-list F in"), {(2, ONE): ["2-1 med 0"]}),
    # sessions and options
    ("a policy is required in each direction by itself",
     {"r1.conf": router(1, (2,), "route-map OUT permit 10",
                        "neighbor 10.255.2.1 route-map OUT out / bgp ebgp-requires-policy", networks=(ONE,)),
      "r2.conf": router(2, (1,), "", "bgp ebgp-requires-policy / neighbor 10.255.1.1 filter-list NO out",
                        networks=(TWO,))}, {(2, ONE): [], (1, TWO): []}),
    ("it is not required before 7.4",
     {"r1.conf": router(1, (2,), networks=(ONE,)).replace(" no bgp ebgp-requires-policy\n", "").replace("8.4.4", "7.3"),
      "r2.conf": router(2, (1,))}, {(2, ONE): ["2-1 med 0"]}),
    ("nor in a datacenter",
     {"r1.conf": router(1, (2,), networks=(ONE,)).replace(" no bgp ebgp-requires-policy\n",
                                                          "").replace("traditional", "datacenter"),
      "r2.conf": router(2, (1,))}, {(2, ONE): ["2-1 med 0"]}),
    ("else it is", {"r1.conf": router(1, (2,), networks=(ONE,)).replace(" no bgp ebgp-requires-policy\n", ""),
                    "r2.conf": router(2, (1,))}, {(2, ONE): []}),
    ("remote-as external",
     {"r1.conf": router(1, (2,), networks=(ONE,)).replace("remote-as 65002", "remote-as external"),
      "r2.conf": router(2, (1,))}, {(2, ONE): ["2-1 med 0"]}),
    ("a group's external, and a member's line above the group's",
     {"r1.conf": router(1, (2,), networks=(ONE,)),
      "r2.conf": router(2, (), "route-map A permit 10 / set metric 1 / route-map B permit 10 / set metric 2",
      "neighbor G peer-group / neighbor G remote-as external / neighbor 10.255.1.1 peer-group G / "
      "neighbor G route-map A in / neighbor 10.255.1.1 route-map B in")}, {(2, ONE): ["2-1 med 2"]}),
    ("a group's line counts for its members",
     {"r1.conf": router(1, (2,), networks=(ONE,)),
      "r2.conf": router(2, (1,), "route-map A permit 10 / set metric 1",
                        "neighbor G peer-group / neighbor 10.255.1.1 peer-group G / neighbor G route-map A in")},
     {(2, ONE): ["2-1 med 1"]}),
    ("a member is put into its group in the address family, too",
     {"r1.conf": router(1, (2,), networks=(ONE,)),
      "r2.conf": router(2, (1,), "route-map A permit 10 / set metric 1",
                        "neighbor G peer-group / address-family ipv4 / "
                        "neighbor 10.255.1.1 peer-group G / neighbor G route-map A in / exit-address-family")},
     {(2, ONE): ["2-1 med 1"]}),
    ("a member that is put into its group again stays active",
     {"r1.conf": router(1, (2,), networks=(ONE,)),
      "r2.conf": router(2, (1,), lines="no bgp default ipv4-unicast / neighbor G peer-group / "
                                       "neighbor 10.255.1.1 peer-group G / "
                        "neighbor 10.255.1.1 activate / neighbor 10.255.1.1 peer-group G")}, {(2, ONE): ["2-1 med 0"]}),
    ("not activated at one end: a session without routes",
     {"r1.conf": router(1, (2, 3), lines="no neighbor 10.255.2.1 activate", networks=(ONE,)),
      "r2.conf": router(2, (1, 3)), "r3.conf": router(3, (1, 2))}, {(2, ONE): ["2-3-1"]}),
    ("no bgp default ipv4-unicast",
     {"r1.conf": router(1, (2, 3), networks=(ONE,)),
      "r2.conf": router(2, (1, 3), options="no bgp default ipv4-unicast",
                        lines="address-family ipv4 unicast / neighbor 10.255.3.1 activate / exit-address-family"),
      "r3.conf": router(3, (1, 2))},
     {(2, ONE): ["2-3-1"]}),
    ("network with a mask, and one without",
     {"r1.conf": router(1, (2,), lines="network 10.1.0.0 mask 255.255.0.0 / network 192.168.7.0"),
      "r2.conf": router(2, (1,))},
     {(2, ONE): ["2-1 med 0"], (2, "192.168.7.0/24"): ["2-1 med 0"]}),
    ("words of lists may be shortened",
     pair("access-l A deny 10.1.0.0/16 ex / access-list A p h 10.2.0.0 / ip pref P permit 10.0.0.0/8 l 16 g 9 / "
          "ip prefix-list P d an",
          "neighbor 10.255.1.1 distribute-list A in / neighbor 10.255.1.1 route-map IN in",
          below="route-map IN permit 10 / match ip addr prefix-li P"),
     {(2, ONE): [], (2, TWO): ["2-1 med 0"]}),
    ("router bgp again, without its number", {"r1.conf": router(1, (2,), below="router bgp / network 10.1.0.0/16"),
                                              "r2.conf": router(2, (1,))}, {(2, ONE): ["2-1 med 0"]}),
    ("a group without an AS takes members, and gets it later",
     {"r1.conf": router(1, (2,), networks=(ONE,)),
      "r2.conf": router(2, (), lines="neighbor G peer-group / neighbor 10.255.1.1 peer-group G / "
                                     "neighbor G remote-as 65001")}, {(2, ONE): ["2-1 med 0"]}),
    ("a version with ~ is before it", {"r1.conf": router(1, (2, 3), networks=(ONE,)),
                                       **{f"r{place}.conf": router(place, (1,)).replace(
        " no bgp ebgp-requires-policy\n", "").replace("8.4.4", version) for place,
                                          version in ((2, "7.4~rc1"), (3, "7.4.0~rc1"))}},
     {(2, ONE): ["2-1 med 0"], (3, ONE): []}),
    ("short words and CRLF", {"r1.conf": router(1, (2,), networks=(ONE,)).replace("\n", "\r\n"),
                              "r2.conf": router(2, (1,), "route-m IN per 10 / set loc 7 / ex",
                                                "nei 10.255.1.1 route-m IN in")},
     {(2, ONE): ["2-1 lp 7 med 0"]}),
    ("maps below the router, and a comment that says nothing",
     {"r1.conf": router(1, (2,), networks=(ONE,)),
      "r2.conf": router(2, (1,), lines="neighbor 10.255.1.1 route-map IN in / ! no neighbor",
                        below="route-map IN permit 10 / set metric 8 / exit")},
     {(2, ONE): ["2-1 med 8"]}),
    ("compare-routerid, or not", diamond(options4="bgp bestpath compare-routerid"), {(4, ONE): ["4-2-1", "4-3-1"]}),
    ("a network whose map denies is not there",
     {"r1.conf": router(1, (2,), f"{Q} / route-map N permit 10 / match ip address prefix-list Q",
                        "network 10.1.0.0/16 route-map N / network 10.2.0.0/16 route-map N"),
      "r2.conf": router(2, (1,))},
     {(2, TWO): ["2-1 med 0"]}),
    ("loop detection of the sender",
     {"r1.conf": router(1, (2, 3), networks=(ONE,)),
      "r2.conf": router(2, (1, 3), lines="neighbor 10.255.3.1 sender-as-path-loop-detection"),
      "r3.conf": router(3, (1, 2), "route-map OUT permit 10 / set as-path prepend 65002",
                        "neighbor 10.255.1.1 route-map OUT out")},
     {(2, ONE): ["2-1 med 0", "2-3-1"]}),
]


def write(folder):
    """Writes each case into a folder of its own."""
    for place, (_, files, _) in enumerate(CASES, 1):
        target = pathlib.Path(folder, f"{place:03}")
        target.mkdir(parents=True, exist_ok=True)
        for name, text in files.items():
            (target / name).write_bytes(text.encode())
