"""Makes random sets of configurations in which ASes have several routers, the same for the same seed: full meshes and
route reflectors over an IGP, sessions between ASes at several places, and policies of a few kinds."""
import heapq
from collections import namedtuple

from bgpnet.configs.random_networks import Draw
from bgpnet.network import lines_text

PREFIXES = ("10.1.0.0/16", "10.2.0.0/16", "192.168.7.0/24", "172.16.0.0/12")
# The name of the file with the edges of the IGP, in sets that have one.
EDGES = "igp.txt"


class Link(namedtuple("Link", "ends number costs carried")):
    """A subnet of two routers or more: their places, the subnet's number, the cost of each end, and of each whether its
    IGP has the subnet where they are of several ASes."""

    def address(self, place):
        return f"10.100.{self.number}.{1 + self.ends.index(place)}"

    def others(self, place):
        return [other for other in self.ends if other != place]

    def cost(self, place):
        return self.costs[self.ends.index(place)]

    def is_carried(self, place):
        return self.carried[self.ends.index(place)]


class Maker:
    """Makes one set. Places of routers are numbers from 0; `of` has the AS of each by its own number."""

    def __init__(self, seed):
        self.draw = draw = Draw(seed)
        self.mode = draw.of(("ospf", "ospf", "edges", "edges", "static", "isis"))
        sizes = [draw.number(2, 5), *(draw.of((1, 1, 2)) for _ in range(draw.number(1, 3)))]
        self.of = [at for at, size in enumerate(sizes) for _ in range(size)]
        self.asns = [65001 + at for at in range(len(sizes))]
        self.links = []
        for at in range(len(sizes)):
            self.join_inside([place for place, of in enumerate(self.of) if of == at])
        self.join_outside()
        self.pairs = self.sessions_outside()
        ids = draw.some(range(1, 200), len(self.of))
        self.ids = [f"1.0.0.{number}" for number in ids] if draw.chance(0.5) else \
            [self.loopback(place) for place in range(len(self.of))]
        self.both = set()  # the pairs of which each is the other's client
        self.mesh = {at: self.sessions_inside([place for place, of in enumerate(self.of) if of == at])
                     for at in range(len(sizes))}
        self.far = {pair for pair in self.pairs if self.mode not in ("edges", "isis") and draw.chance(0.08)}
        self.near = {pair for own in self.mesh.values() for pair in own if draw.chance(0.12)}
        self.hop = [draw.of(("none", "self", "self", "force")) for _ in sizes]
        self.med = [draw.chance(0.6) for _ in sizes]
        self.is_worst = draw.chance(0.25)
        self.compares = [draw.chance(0.85) for _ in sizes]
        outside = [place for place, of in enumerate(self.of) if of]
        self.origins = {prefix: [draw.of(outside if draw.chance(0.8) else range(len(self.of)))]
                        for prefix in draw.some(PREFIXES, draw.number(1, 3))}
        for places in self.origins.values():
            places += [draw.number(0, len(self.of) - 1)] * draw.chance(0.2)
        self.texts = {f"{self.name(place)}.conf": Text(self, place).text() for place in range(len(self.of))}
        if self.mode == "edges":
            self.texts[EDGES] = self.edges_text()

    @staticmethod
    def name(place):
        return f"r{place + 1}"

    @staticmethod
    def loopback(place):
        return f"10.255.0.{place + 1}"

    # ---- links

    def add(self, *ends, is_inside=True):
        if not any(set(ends) == set(link.ends) for link in self.links):
            cost = self.draw.number(1, 12)
            costs = [cost if self.draw.chance(0.8) else self.draw.number(1, 12) for _ in ends]
            carried = [is_inside or self.draw.chance(0.75) for _ in ends]
            self.links.append(Link(ends, len(self.links) + 1, costs, carried))

    def join_inside(self, own):
        draw = self.draw
        for at in range(1, len(own)):
            self.add(own[draw.number(0, at - 1)], own[at])
        for _ in range(draw.number(0, len(own)) if len(own) > 2 else 0):
            self.add(*draw.some(own, 2))
        if len(own) > 2 and self.mode in ("ospf", "isis") and draw.chance(0.3):
            self.add(*draw.some(own, 3))

    def join_outside(self):
        """Each AS has a link to one before it, and some more; some are on one subnet with others."""
        draw, places = self.draw, range(len(self.of))
        for at in range(1, len(self.asns)):
            for _ in range(draw.number(1, 2)):
                near = 0 if draw.chance(0.8) else draw.number(0, at - 1)
                one = draw.of([place for place in places if self.of[place] == near])
                other = draw.of([place for place in places if self.of[place] == at])
                self.add(one, other, is_inside=False)
        if draw.chance(0.35):
            ends = draw.some(places, draw.number(3, 4))
            if len({self.of[place] for place in ends}) > 1:
                self.add(*ends, is_inside=False)

    def sessions_outside(self):
        """The sessions between ASes, one of two routers, each with its link."""
        found = {}
        for link in self.links:
            for one in link.ends:
                for other in link.ends:
                    if one < other and self.of[one] != self.of[other] and (
                            len(link.ends) == 2 or self.draw.chance(0.8)):
                        found.setdefault((one, other), link)
        return found

    def of_place(self, place):
        return [link for link in self.links if place in link.ends]

    def is_inside(self, link):
        return len({self.of[place] for place in link.ends}) == 1

    def edges_text(self):
        """The edges of the IGP. The subnet of two ASes is one of each, or of none."""
        lines = {}
        for link in self.links:
            for one in link.ends:
                for other in link.others(one):
                    is_edge = self.is_inside(link) or self.of[one] != self.of[other] and link.carried[0]
                    if one < other and is_edge:
                        costs = f"{link.cost(one)} {link.cost(other)}"
                        lines.setdefault((one, other), f"{self.name(one)} {self.name(other)} {costs}\n")
        return "".join(lines.values())

    def next_hops(self, start):
        """The address through which each router of the AS is reached, by shortest ways."""
        found, queue = {}, [(0, start, None)]
        while queue:
            length, at, hop = heapq.heappop(queue)
            if at in found:
                continue
            found[at] = hop
            for link in self.of_place(at):
                for other in link.others(at) if self.is_inside(link) else ():
                    heapq.heappush(queue, (length + link.cost(at), other, hop or link.address(other)))
        return {place: hop for place, hop in found.items() if hop}

    # ---- iBGP

    def sessions_inside(self, own):
        """The sessions of an AS: by pair, the place that is the other's client, or None."""
        draw, found = self.draw, {}
        if len(own) < 2:
            return found
        if draw.chance(0.4):
            return {(one, other): None for one in own for other in own if one < other}
        reflectors = draw.some(own, draw.number(1, min(2, len(own) - 1)))
        clients = [place for place in own if place not in reflectors]
        middle = draw.some(clients, 1) if len(clients) > 2 and draw.chance(0.4) else []
        for one in reflectors:
            for other in reflectors:
                if one < other:
                    found[one, other] = None
        for place in clients:
            for reflector in reflectors if not middle or place in middle else middle:
                pair = tuple(sorted((reflector, place)))
                found[pair] = place
                self.both.update([pair] * draw.chance(0.04))
        for _ in range(draw.of((0, 0, 1))):
            pair = tuple(sorted(draw.some(own, 2)))
            found.setdefault(pair, None)
        return found


class Text:
    """The configuration of one router."""

    def __init__(self, maker, place):
        self.maker, self.place, self.draw = maker, place, maker.draw
        self.at = maker.of[place]
        self.maps, self.head, self.family = [], [], []
        self.has_rest = self.draw.chance(0.3)

    # ---- policies

    def make_map(self, is_inside):
        draw, name = self.draw, f"MAP{len(self.maps) + 1}"
        lines = []
        if draw.chance(0.3):
            lines += [f"route-map {name} {draw.of(('permit', 'permit', 'deny'))} 10",
                      f" match ip address prefix-list {draw.of(('ONE', 'TWO'))}"]
            lines += [f" {self.set_line(is_inside)}"] if "permit" in lines[0] else []
            lines.append("exit")
        lines += [f"route-map {name} permit 20"] + [f" {self.set_line(is_inside)}" for _ in range(draw.number(0, 2))]
        self.maps.append([*lines, "exit"])
        return name

    def set_line(self, is_inside):
        draw = self.draw
        own = self.maker.asns[self.at]
        return draw.of((
            lambda: f"set local-preference {draw.of((80, 100, 100, 120, '+20'))}",
            lambda: f"set metric {draw.of((0, 5, 10, 20))}",
            lambda: f"set metric {draw.of((0, 5, 10, 20, '+5'))}",
            lambda: f"set weight {draw.of((0, 10))}" if draw.chance(0.4) else f"set metric {draw.of((1, 2))}",
            lambda: f"set as-path prepend {draw.of((64999, 64998))}" if is_inside else f"set as-path prepend {own}",
            lambda: f"set origin {draw.of(('igp', 'incomplete'))}",
            lambda: f"set community 65000:{draw.number(1, 2)} additive",
            lambda: f"set community {draw.of(('no-export', 'no-advertise', 'local-AS'))} additive"
                    if draw.chance(0.3) else "set large-community 1:2:3 additive"))()

    def policy_lines(self, key, part, is_inside):
        lines = []
        for direction in ("in", "out"):
            if self.draw.chance(part):
                lines.append(f"neighbor {key} route-map {self.make_map(is_inside)} {direction}")
        if self.draw.chance(0.04):
            lines.append(f"neighbor {key} weight {self.draw.of((5, 50))}")
        return lines

    # ---- neighbors

    def inside_lines(self):
        maker, draw = self.maker, self.draw
        session, family = [], []
        groups = draw.chance(0.25)
        if groups:
            session += ["neighbor MESH peer-group", "neighbor MESH remote-as internal",
                        f"neighbor MESH update-source {draw.of(('lo', maker.loopback(self.place)))}"]
        hop = maker.hop[self.at]
        for pair, client in maker.mesh[self.at].items():
            if self.place not in pair:
                continue
            peer = pair[1 - pair.index(self.place)]
            key, source = maker.loopback(peer), draw.of(("lo", maker.loopback(self.place)))
            near = [link for link in maker.of_place(self.place) if peer in link.ends and maker.is_inside(link)]
            if near and pair in maker.near:
                session.append(f"neighbor {near[0].address(peer)} remote-as internal")
                key = near[0].address(peer)
            elif groups:
                session.append(f"neighbor {key} peer-group MESH")
            else:
                session += [f"neighbor {key} remote-as {draw.of(('internal', maker.asns[self.at]))}",
                            f"neighbor {key} update-source {source}"]
            family += [f"neighbor {key} route-reflector-client"] * (client == peer or pair in maker.both)
            session += [f"neighbor {key} shutdown"] * draw.chance(0.01)
            if hop == "self" or hop == "none" and draw.chance(0.1):
                family.append(f"neighbor {key} next-hop-self")
            elif hop == "force":
                family.append(f"neighbor {key} next-hop-self{draw.of((' force', ' force', ''))}")
            family += self.policy_lines(key, 0.1, True)
        return session, family

    def outside_lines(self):
        maker, session, family = self.maker, [], []
        for pair, link in maker.pairs.items():
            if self.place in pair:
                peer = pair[1 - pair.index(self.place)]
                key = maker.loopback(peer) if pair in maker.far else link.address(peer)
                session.append(f"neighbor {key} remote-as {maker.asns[maker.of[peer]]}")
                if pair in maker.far:
                    session += [f"neighbor {key} update-source lo", f"neighbor {key} ebgp-multihop 2"]
                family += self.policy_lines(key, 0.4, False)
        return session, family

    def option_lines(self):
        draw, maker = self.draw, self.maker
        lines = [f"bgp router-id {maker.ids[self.place]}", "no bgp ebgp-requires-policy"]
        if not self.has_rest:
            lines.append("no bgp network import-check")
        if maker.med[self.at]:
            lines.append("bgp always-compare-med")
        if maker.compares[self.at] or draw.chance(0.5):
            lines.append("bgp bestpath compare-routerid")
        is_reflector = any(self.place in pair and client not in (None, self.place)
                           for pair, client in maker.mesh[self.at].items())
        if is_reflector and draw.chance(0.4):
            lines.append(f"bgp cluster-id {draw.of(('9.9.9.9', 7, '9.9.9.8'))}")
        return lines + draw.each((
            ("bgp deterministic-med", 0.3), ("bgp bestpath med missing-as-worst", 0.5 * maker.is_worst),
            ("no bgp suppress-duplicates", 1.0 * maker.is_worst), ("bgp bestpath as-path ignore", 0.05),
            ("bgp default local-preference 150", 0.1), ("bgp bestpath peer-type multipath-relax", 0.08),
            ("bgp bestpath as-path multipath-relax", 0.1), ("maximum-paths ibgp 4 equal-cluster-length", 0.1),
            ("no bgp client-to-client reflection", 0.12 * is_reflector),
            ("bgp route-reflector allow-outbound-policy", 0.2 * is_reflector)))

    # ---- the IGP

    def interface_lines(self):
        """The interfaces, and the IGP."""
        maker, place, draw = self.maker, self.place, self.draw
        has_igp = maker.of.count(self.at) > 1
        networks = [] if draw.chance(0.5) else [f" network {maker.loopback(place)}/32 area 0"]
        takes_connected = maker.mode == "ospf" and draw.chance(0.15)
        lines = ["interface lo", f" ip address {maker.loopback(place)}/32"]
        lines += [" ip ospf area 0"] * (maker.mode == "ospf" and has_igp and not networks)
        lines += [" ip router isis I", " isis passive"] * (maker.mode == "isis" and has_igp) + ["exit"]
        for at, link in enumerate(maker.of_place(place)):
            lines += [f"interface e{at}", f" ip address {link.address(place)}/29"]
            is_in = has_igp and (maker.is_inside(link) or link.is_carried(place) and not takes_connected)
            if maker.mode == "ospf" and is_in:
                lines.append(f" ip ospf cost {link.cost(place)}")
                if networks:
                    networks.append(f" network 10.100.{link.number}.0/29 area 0")
                else:
                    lines.append(" ip ospf area 0")
            if maker.mode == "isis" and is_in:
                lines += [" ip router isis I"] + [f" isis metric {link.cost(place)}"] * draw.chance(0.8)
                lines += [" isis passive"] * (not maker.is_inside(link))
            lines.append("exit")
        if maker.mode == "ospf" and has_igp:
            lines.append("router ospf")
            kind = draw.of(("", " metric 7", " metric 4 metric-type 1"))
            lines += [f" redistribute connected{kind}"] * takes_connected
            lines += [f" passive-interface e{at}" for at, link in enumerate(maker.of_place(place))
                      if not maker.is_inside(link)]
            lines += networks + ["exit"]
        if maker.mode == "isis" and has_igp:
            lines += ["router isis I", f" net 49.0001.0000.0000.{place + 1:04}.00", " is-type level-2-only", "exit"]
        if maker.mode == "static":
            lines += self.static_lines()
        for pair, link in maker.pairs.items():
            if place in pair and pair in maker.far:
                peer = pair[1 - pair.index(place)]
                lines.append(f"ip route {maker.loopback(peer)}/32 {link.address(peer)}")
        return lines

    def static_lines(self):
        """Routes to the loopbacks of the AS, and to what of its links to others is carried."""
        maker, lines = self.maker, []
        for place, hop in sorted(maker.next_hops(self.place).items()):
            lines.append(f"ip route {maker.loopback(place)}/32 {hop}")
            for link in maker.of_place(place):
                route = f"ip route 10.100.{link.number}.0/29 {hop}"
                if not maker.is_inside(link) and link.is_carried(place) and self.place not in link.ends \
                        and not any(line.startswith(route.rsplit(" ", 1)[0]) for line in lines):
                    lines.append(route)
        return lines

    # ---- the whole

    def text(self):
        maker, draw = self.maker, self.draw
        session, family = self.inside_lines()
        more_session, more_family = self.outside_lines()
        own = [prefix for prefix, places in maker.origins.items() if self.place in places]
        networks = []
        for prefix in own:
            map_part = f" route-map {self.make_map(False)}" if draw.chance(0.2) else ""
            networks.append(f"network {prefix}{map_part}")
        lines = ["frr version 8.4.4", "frr defaults traditional", f"hostname {maker.name(self.place)}", "!"]
        lines += self.interface_lines()
        lines += [f"ip route {prefix} blackhole" for prefix in own] if self.has_rest else []
        lines += [f"router bgp {maker.asns[self.at]}"] + [" " + line for line in
                                                          self.option_lines() + session + more_session]
        lines += [" !", " address-family ipv4 unicast"]
        lines += ["  " + line for line in networks + family + more_family] + [" exit-address-family", "exit"]
        lines += ["ip prefix-list ONE permit 10.1.0.0/16", "ip prefix-list TWO permit 10.2.0.0/16",
                  "ip prefix-list TWO permit 172.16.0.0/12"]
        return lines_text(lines + [line for one in self.maps for line in one])


def make(seed):
    """The files of a set, by their names."""
    return Maker(seed).texts
