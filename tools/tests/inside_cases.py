"""Small sets of which an AS has several routers, each with what its routers permit: the rules of iBGP as FRR 8.4.4 has
them. `tools/beside` shows each again of the sets that `write` writes."""
import itertools
import pathlib

ONE, TWO = "10.1.0.0/16", "10.2.0.0/16"
EDGES = "igp.txt"


# Of each IGP the lines of the loopback, of an interface by its cost, of one to another AS, and those of the protocol.
IGP_LINES = {
    "ospf": ([" ip ospf area 0"], [" ip ospf area 0", " ip ospf cost {}"], [" ip ospf passive"], ["router ospf", "exit"]),
    "isis": ([" ip router isis I", " isis passive"], [" ip router isis I", " isis metric {}"], [" isis passive"],
             ["router isis I", " net 49.0001.0000.0000.{:04}.00", " is-type level-2-only", "exit"]),
    "": ([], [], [], []), "edges": ([], [], [], []),
}


def indented(text, by):
    return "".join(f"{by}{line.strip()}\n" for line in text.replace(" / ", "\n").splitlines() if line.strip())


class Net:
    """A set: `ases` are names of routers, each with the last digit of its AS, 65001 and on; `links` are pairs of names
    with a cost, or one for each end. Routers of two ASes have a session over their link, those of one AS a full mesh,
    or what `reflect` says: of each reflector its clients, and `sessions` besides, `none` for no mesh. In lines, `{x}` is
    the address of router x as a neighbor."""

    def __init__(self, ases, links, reflect="", sessions="", hop="next-hop-self", top=None, options=None, family=None,
                 networks=None, carried="", igp="ospf", ids=None, interfaces=None, below=None):
        self.of = {word[:-1]: int(word[-1]) for word in ases.split()}
        self.names, self.links = list(self.of), []
        for number, part in enumerate(links.split(","), 1):
            ends, cost = (part.split() + ["10"])[:2]
            one, other = ends.split("-")
            self.links.append((number, (one, other), (cost.split("/") * 2)[:2]))
        self.clients = {}
        for part in filter(None, reflect.split(",")):
            name, _, rest = part.partition(":")
            self.clients[name.strip()] = rest.split()
        pairs = {(name, client) for name, own in self.clients.items() for client in own}
        pairs |= {tuple(pair.split("-")) for pair in sessions.split() if pair != "none"}
        meshed = {of for of in self.of.values() if sessions != "none" and not any(of == self.of[name] for pair in pairs for name in pair)}
        self.pairs = pairs | {pair for pair in itertools.combinations(self.names, 2)
                              if self.of[pair[0]] == self.of[pair[1]] and self.of[pair[0]] in meshed}
        self.hop, self.igp, self.carried, self.ids = hop, igp, carried.split(), ids or {}
        self.top, self.options, self.family, self.below = top or {}, options or {}, family or {}, below or {}
        self.networks, self.interfaces = networks or {self.names[-1]: (ONE,)}, interfaces or {}

    def loopback(self, name):
        return f"10.255.0.{1 + self.names.index(name)}"

    def links_of(self, name):
        return [(number, ends[1 - ends.index(name)], 1 + ends.index(name), costs[ends.index(name)])
                for number, ends, costs in self.links if name in ends]

    def inside(self, name):
        return sorted({other for pair in self.pairs if name in pair for other in pair if other != name})

    def address(self, name, other):
        """The address by which a router names another as a neighbor."""
        if self.of[name] == self.of[other]:
            return self.loopback(other)
        return next(f"10.100.{number}.{3 - place}" for number, peer, place, _ in self.links_of(name) if peer == other)

    def filled(self, name, text):
        for other in self.names:
            if "{" + other + "}" in text:
                text = text.replace("{" + other + "}", self.address(name, other))
        return text

    def interface_text(self, name):
        lines = ["interface lo", f" ip address {self.loopback(name)}/32", *IGP_LINES[self.igp][0]]
        lines += indented(self.interfaces.get(name, ""), " ").splitlines()
        for at, (number, other, place, cost) in enumerate(self.links_of(name)):
            lines += ["exit", f"interface e{at}", f" ip address 10.100.{number}.{place}/30"]
            is_inside = self.of[other] == self.of[name]
            if is_inside or f"{name}-{other}" in self.carried:
                lines += [line.format(cost) for line in IGP_LINES[self.igp][1]]
                lines += IGP_LINES[self.igp][2] * (not is_inside)
            lines += [line for link, own in self.interfaces.items() if link == f"{name}-{other}"
                      for line in indented(own, " ").splitlines()]
        number = 1 + self.names.index(name)
        return "\n".join(lines + ["exit"] + [line.format(number) for line in IGP_LINES[self.igp][3]]) + "\n"

    def text(self, name):
        session, family = "", ""
        for other in self.inside(name):
            key = self.address(name, other)
            session += f" neighbor {key} remote-as internal\n neighbor {key} update-source lo\n"
            family += f"  neighbor {key} route-reflector-client\n" * (other in self.clients.get(name, ()))
            family += f"  neighbor {key} {self.hop}\n" * bool(self.hop)
        for number, other, place, _ in self.links_of(name):
            if self.of[other] != self.of[name]:
                session += f" neighbor {self.address(name, other)} remote-as {65000 + self.of[other]}\n"
        announced = "".join(f"  network {prefix}\n" for prefix in self.networks.get(name, ()))
        options = f"bgp router-id {self.ids.get(name, self.loopback(name))} / no bgp ebgp-requires-policy / " \
                  "no bgp network import-check / bgp bestpath compare-routerid / " + self.options.get(name, "")
        return (f"frr version 8.4.4\nfrr defaults traditional\nhostname {name}\n" + self.interface_text(name)
                + indented(self.filled(name, self.top.get(name, "")), "") + f"router bgp {65000 + self.of[name]}\n"
                + indented(options, " ") + session + " address-family ipv4 unicast\n" + announced + family
                + indented(self.filled(name, self.family.get(name, "")), "  ") + " exit-address-family\nexit\n"
                + indented(self.filled(name, self.below.get(name, "")), ""))

    def files(self):
        found = {f"{name}.conf": self.text(name) for name in self.names}
        if self.igp == "edges":
            found[EDGES] = "".join(
                f"{ends[0]} {ends[1]} {' '.join(costs)}\n" for _, ends, costs in self.links
                if self.of[ends[0]] == self.of[ends[1]] or "-".join(ends) in self.carried)
        return found


# Two providers x and y of the AS of a, b and c, both with a route of o; c is as far from a as from b.
SQUARE = "a-b, a-c 10, b-c 10, a-x, b-y, x-o, y-o"
PROVIDERS = "a1 b1 c1 x2 y3 o4"
# The same, x and y of one AS, without a session.
TWICE = "a1 b1 c1 x2 y2 o4"
MAP = "route-map M permit 10 / set "


def square(**more):
    return Net(PROVIDERS, SQUARE, **more).files()


def into(name, change, **more):
    """A router sets something of the routes of its provider."""
    peer = {"a": "x", "b": "y"}[name]
    return square(top={name: MAP + change}, family={name: f"neighbor {{{peer}}} route-map M in"}, **more)


def twice(**more):
    return Net(TWICE, SQUARE, sessions="a-b a-c b-c", top={"x": MAP + "metric 20", "y": MAP + "metric 10"},
               family={"x": "neighbor {a} route-map M out", "y": "neighbor {b} route-map M out"}, **more).files()


def ring(**more):
    """A reflector r with clients a and b, which have providers x and y, and a client c."""
    return Net("a1 b1 c1 r1 x2 y3 o4", "a-r 10, b-r 20, c-r 5, a-x, b-y, x-o, y-o", reflect=more.pop("reflect", "r: a b c"),
               **more).files()


BOTH = ["c-a-x-o", "c-b-y-o"]
TURNED = BOTH[::-1]

# Of each case a sentence, its files, and of a router and a prefix the ways that it permits, best first.
CASES = [
    # the steps of the decision process
    ("weight stands above all", square(family={"c": "neighbor {b} weight 5"}), {("c", ONE): TURNED}),
    ("LOCAL_PREF, as it was set where the route came in", into("b", "local-preference 200"), {("c", ONE): TURNED}),
    ("and the default of the router that it came in by",
     square(options={"b": "bgp default local-preference 150", "c": "bgp default local-preference 300"}),
     {("c", ONE): TURNED}),
    ("the length of AS_PATH", into("a", "as-path prepend 64999"), {("c", ONE): TURNED}),
    ("not with as-path ignore", into("a", "as-path prepend 64999", options={"c": "bgp bestpath as-path ignore"}),
     {("c", ONE): BOTH}),
    ("origin", into("a", "origin incomplete"), {("c", ONE): TURNED}),
    ("MED of one AS", twice(), {("c", ONE): TURNED, ("a", ONE): ["a-b-y-o", "a-x-o"]}),
    ("MED is not compared of two", into("a", "metric 20"), {("c", ONE): BOTH}),
    ("it is with always-compare-med", into("a", "metric 20", options={"c": "bgp always-compare-med"}),
     {("c", ONE): TURNED}),
    ("no MED is 0", into("a", "metric 1", options={"c": "bgp always-compare-med"}), {("c", ONE): TURNED}),
    ("or the worst", into("a", "metric 1", options={"c": "bgp always-compare-med / bgp bestpath med missing-as-worst"}),
     {("c", ONE): BOTH}),
    ("eBGP before iBGP", square(), {("a", ONE): ["a-x-o", "a-b-y-o"], ("b", ONE): ["b-y-o", "b-a-x-o"]}),
    ("the metric of the IGP", Net(PROVIDERS, SQUARE.replace("b-c 10", "b-c 9")).files(), {("c", ONE): TURNED}),
    ("the same, by edges of a file", Net(PROVIDERS, SQUARE.replace("b-c 10", "b-c 9"), igp="edges").files(),
     {("c", ONE): TURNED}),
    ("each way has its own cost", Net(PROVIDERS, SQUARE.replace("b-c 10", "b-c 30/9")).files(), {("c", ONE): TURNED}),
    ("before eBGP, with peer-type multipath-relax",
     Net("a1 b1 x2 y3 o4", "a-b 1, a-x, b-y, x-o, y-o", options={"a": "bgp bestpath peer-type multipath-relax"},
         interfaces={"a-x": "", "a-b": ""}).files(), {("a", ONE): ["a-x-o", "a-b-y-o"]}),
    ("the router id of the neighbor", square(ids={"a": "1.0.0.9", "b": "1.0.0.8"}), {("c", ONE): TURNED}),
    ("ORIGINATOR_ID stands for it", ring(ids={"a": "1.0.0.9", "b": "1.0.0.8"}, hop="next-hop-self force"),
     {("c", ONE): ["c-r-b-y-o", "c-r-a-x-o"], ("r", ONE): ["r-a-x-o", "r-b-y-o"]}),
    ("the length of CLUSTER_LIST",
     Net("a1 c1 r1 s1 x2 o4", "a-r 10, r-s 10, s-c 5, r-c 20, a-x, x-o", reflect="r: a c, s: c", sessions="r-s",
         hop="next-hop-self force", options={"r": "bgp router-id 10.255.0.3"}).files(),
     {("c", ONE): ["c-s-r-a-x-o", "c-r-a-x-o"]}),
    ("where the next hop is one",
     Net("a1 c1 r1 s1 x2 o4", "a-r 10, r-s 10, s-c 5, r-c 20, a-x, x-o", reflect="r: a c, s: c", sessions="r-s").files(),
     {("c", ONE): ["c-r-a-x-o", "c-s-r-a-x-o"]}),
    ("the address of the neighbor is the last",
     Net("a1 c1 r1 s1 x2 o4", "a-r 10, a-s 10, s-c 5, r-c 20, a-x, x-o", reflect="r: a c, s: a c").files(),
     {("c", ONE): ["c-r-a-x-o", "c-s-a-x-o"]}),
    # who tells whom
    ("a route of iBGP is not told on in the AS", Net("a1 b1 c1 x2", "a-b, b-c, a-x", sessions="a-b b-c").files(),
     {("b", ONE): ["b-a-x"], ("c", ONE): []}),
    ("but to other ASes", Net("a1 b1 y3 x2", "a-b, a-x, b-y", networks={"x": (ONE,)}).files(), {("y", ONE): ["y-b-a-x"]}),
    ("a reflector tells clients' routes to all, those of others to clients",
     Net("a1 b1 c1 d1 r1 x2", "a-r, b-r, c-r, d-r, a-x", reflect="r: a b", sessions="r-c r-d",
         networks={"x": (ONE,), "c": (TWO,)}).files(),
     {("b", ONE): ["b-r-a-x"], ("c", ONE): ["c-r-a-x"], ("b", TWO): ["b-r-c"], ("d", TWO): []}),
    ("not from client to client, where a line says so",
     ring(options={"r": "no bgp client-to-client reflection"}), {("c", ONE): [], ("r", ONE): ["r-a-x-o", "r-b-y-o"]}),
    ("two reflectors of one cluster do not take each other's",
     Net("a1 c1 r1 s1 x2", "a-r, a-s, r-c, s-c, r-s, a-x", reflect="r: a c, s: a c", sessions="r-s",
         options={"r": "bgp cluster-id 7", "s": "bgp cluster-id 0.0.0.7"}).files(),
     {("r", ONE): ["r-a-x"], ("s", ONE): ["s-a-x"], ("c", ONE): ["c-r-a-x", "c-s-a-x"]}),
    ("of two clusters they do",
     Net("a1 c1 r1 s1 x2", "a-r, a-s, r-c, s-c, r-s, a-x", reflect="r: a c, s: a c", sessions="r-s").files(),
     {("r", ONE): ["r-a-x", "r-s-a-x"], ("c", ONE): ["c-r-a-x", "c-s-a-x", "c-r-s-a-x", "c-s-r-a-x"]}),
    ("several levels", Net("a1 m1 t1 n1 c1 x2", "a-m, m-t, t-n, n-c, a-x", reflect="t: m n, m: a, n: c").files(),
     {("c", ONE): ["c-n-t-m-a-x"], ("t", ONE): ["t-m-a-x"]}),
    ("an AS that a path leaves does not take it back",
     Net("a1 b1 x2 y3 o4", "a-x, b-y, x-y, a-o", sessions="none").files(),
     {("b", ONE): [], ("y", ONE): ["y-x-a-o"]}),
    ("an AS of its own in front keeps a route from its AS", into("a", "as-path prepend 65001"),
     {("a", ONE): ["a-b-y-o", "a-x-o"], ("c", ONE): ["c-b-y-o"]}),
    ("no-export goes on in the AS, and not out of it",
     Net("a1 b1 y3 x2", "a-b, a-x, b-y", networks={"x": (ONE,)}, top={"a": MAP + "community no-export"},
         family={"a": "neighbor {x} route-map M in"}).files(), {("b", ONE): ["b-a-x"], ("y", ONE): []}),
    ("no-advertise goes nowhere", into("a", "community no-advertise"), {("c", ONE): ["c-b-y-o"], ("a", ONE): ["a-x-o", "a-b-y-o"]}),
    ("a policy is required of eBGP alone",
     {name: text.replace(" no bgp ebgp-requires-policy\n", "") if name == "c.conf" else text
      for name, text in square().items()}, {("c", ONE): BOTH}),
    # attributes
    ("MED goes on in the AS, and not to the next",
     Net("a1 b1 y3 x2", "a-b, a-x, b-y", networks={"x": (ONE,)}, top={"a": MAP + "metric 7"},
         family={"a": "neighbor {x} route-map M in"}).files(), {("b", ONE): ["b-a-x med 7"], ("y", ONE): ["y-b-a-x"]}),
    ("a reflector adds a MED of 0", ring(), {("c", ONE): ["c-r-a-x-o med 0", "c-r-b-y-o med 0"], ("r", ONE): ["r-a-x-o", "r-b-y-o"]}),
    ("its out-map may deny a route of the AS, and changes none",
     ring(top={"r": MAP + "local-preference 200"}, family={"r": "neighbor {c} route-map M out"}),
     {("c", ONE): ["c-r-a-x-o lp 100 med 0", "c-r-b-y-o lp 100 med 0"]}),
    ("unless a line says so",
     ring(top={"r": MAP + "local-preference 200"}, family={"r": "neighbor {c} route-map M out"},
          options={"r": "bgp route-reflector allow-outbound-policy"}),
     {("c", ONE): ["c-r-a-x-o lp 200 med 0", "c-r-b-y-o lp 200 med 0"]}),
    ("the out-map of another router changes what it tells",
     square(top={"b": MAP + "local-preference 200"}, family={"b": "neighbor {c} route-map M out"}),
     {("c", ONE): ["c-b-y-o lp 200", "c-a-x-o lp 100"]}),
    ("set local-preference +50 adds to what came", square(
        top={"c": MAP + "local-preference +50"}, family={"c": "neighbor {b} route-map M in"}),
     {("c", ONE): ["c-b-y-o lp 150", "c-a-x-o lp 100"]}),
    # next hops
    ("next-hop-self does not change a route of the AS", ring(), {("c", ONE): ["c-r-a-x-o via 10.255.0.1 metric 15", "c-r-b-y-o via 10.255.0.2 metric 25"]}),
    ("unless it is forced", ring(hop="next-hop-self force"),
     {("c", ONE): ["c-r-a-x-o via 10.255.0.4 metric 5", "c-r-b-y-o via 10.255.0.4 metric 5"]}),
    ("a next hop that the IGP has not makes a route unusable", square(hop="", carried="b-y"), {("c", ONE): ["c-b-y-o via 10.100.5.2 metric 20"], ("a", ONE): ["a-x-o", "a-b-y-o"]}),
    ("a third party on one subnet stays the next hop",
     Net("a1 b1 x2 y3 o4", "a-b, a-x, x-o, a-y", networks={"o": (ONE,)}, hop="").files(), {("y", ONE): ["y-a-x-o via 10.100.4.1 metric 0"]}),
    ("IS-IS", Net(PROVIDERS, SQUARE.replace("b-c 10", "b-c 9"), hop="", carried="a-x b-y", igp="isis").files(),
     {("c", ONE): ["c-b-y-o via 10.100.5.2 metric 19", "c-a-x-o via 10.100.4.2 metric 20"]}),
    ("IS-IS without a metric", Net("a1 b1 x2", "a-b 7, a-x", igp="isis", interfaces={"b-a": "no isis metric"}).files(),
     {("b", ONE): ["b-a-x via 10.255.0.1 metric 20"]}),
    ("the cost of lo counts, if a line says one", Net("a1 b1 x2", "a-b 7, a-x", interfaces={"a": "ip ospf cost 5"}).files(),
     {("b", ONE): ["b-a-x via 10.255.0.1 metric 12"]}),
    ("a cost by bandwidth, and one of a fast interface",
     Net("a1 b1 c1 x2", "a-b, b-c, a-x", reflect="b: a c", hop="", carried="a-x",
         interfaces={"b-a": "no ip ospf cost / bandwidth 40", "c-b": "no ip ospf cost"}).files(),
     {("b", ONE): ["b-a-x via 10.100.3.2 metric 2510"], ("c", ONE): ["c-b-a-x via 10.100.3.2 metric 2520"]}),
    ("what OSPF takes of connected subnets has a metric of 20",
     {name: text.replace("router ospf\n", "router ospf\n redistribute connected\n") if name == "a.conf" else text
      for name, text in Net("a1 b1 x2", "a-b 7, a-x", hop="").files().items()}, {("b", ONE): ["b-a-x via 10.100.2.2 metric 20"]}),
    ("or that of its line, and of type 1 the way besides",
     {name: text.replace("router ospf\n", "router ospf\n redistribute connected metric 3 metric-type 1\n")
      if name == "a.conf" else text for name, text in Net("a1 b1 x2", "a-b 7, a-x", hop="").files().items()},
     {("b", ONE): ["b-a-x via 10.100.2.2 metric 10"]}),
    ("static routes have the metric 0", Net("a1 b1 x2", "a-b, a-x", hop="", igp="", top={
        "a": "ip route 10.255.0.2/32 10.100.1.2", "b": "ip route 10.255.0.1/32 10.100.1.1 / ip route 10.100.2.0/30 10.255.0.1"}).files(),
     {("b", ONE): ["b-a-x via 10.100.2.2 metric 0"]}),
    ("one to nowhere counts as any other", Net("a1 b1 x2", "a-b, a-x", hop="", igp="", top={
        "a": "ip route 10.255.0.2/32 10.100.1.2", "b": "ip route 10.255.0.1/32 10.100.1.1 / ip route 10.100.2.0/24 blackhole"}).files(),
     {("b", ONE): ["b-a-x via 10.100.2.2 metric 0"]}),
    ("a default route reaches one where a line says so", Net("a1 b1 x2", "a-b, a-x", hop="", igp="", top={
        "a": "ip route 10.255.0.2/32 10.100.1.2",
        "b": "ip nht resolve-via-default / ip route 10.255.0.1/32 10.100.1.1 / ip route 0.0.0.0/0 10.100.1.1"}).files(),
     {("b", ONE): ["b-a-x via 10.100.2.2 metric 0"]}),
    ("CLUSTER_LIST before the router id, with equal-cluster-length",
     Net("a1 b1 c1 r1 s1 x2 y3 o4", "a-c, b-c, r-c, s-c, a-x, b-y, x-o, y-o", reflect="r: a c s, s: b", ids={"a": "1.0.0.2", "b": "1.0.0.1"},
         family={"c": "maximum-paths ibgp 4 equal-cluster-length"}).files(),
     {("c", ONE): ["c-r-a-x-o", "c-r-s-b-y-o"]}),
    ("a neighbor over several hops has the metric of the way to it",
     Net("a1 b1 c1 x2 y3 o4", "a-b, a-c, b-c, a-x, b-y, x-o, y-o", hop="next-hop-self").files(), {("c", ONE): BOTH}),
    ("an interface that is shut",
     Net("a1 b1 c1 x2", "a-b 5, b-c 5, a-c 20, a-x", interfaces={"a-b": "shutdown"}).files(), {("b", ONE): ["b-a-x via 10.255.0.1 metric 25"]}),
    ("a prefix that two routers announce, in one AS and in two",
     Net("a1 b1 c1 x2 y3", "a-b 5, b-c 7, a-c 9, a-x, b-y", networks={"x": (ONE,), "y": (ONE,), "a": (TWO,), "b": (TWO,)}).files(),
     {("c", ONE): ["c-b-y-origins2", "c-a-x-origins2"], ("a", TWO): ["a-origins", "a-b-origins"],
      ("x", TWO): ["x-a-b-origins", "x-a-origins"], ("y", ONE): ["y-origins2", "y-b-a-x-origins2"]}),
    ("a default route reaches no next hop", Net("a1 b1 x2", "a-b, a-x", hop="", igp="edges", top={"b": "ip route 0.0.0.0/0 10.100.1.1"}).files(), {("b", ONE): []}),
]


def write(folder):
    """Writes each case into a folder of its own, for `tools/beside`."""
    for place, (_, files, _) in enumerate(CASES, 1):
        target = pathlib.Path(folder, f"{place:03}")
        target.mkdir(parents=True, exist_ok=True)
        for name, text in files.items():
            (target / name).write_bytes(text.encode())
