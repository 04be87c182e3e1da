"""A router as its file in the language of BIRD says: its neighbors, what it announces, and what it makes of routes."""
from collections import namedtuple

from bgpnet.configs.bird import choice, evaluate
from bgpnet.configs.bird.held import OWN_STANDING, STANDING, Held
from bgpnet.configs.bird.roles import denied_in, denied_out, marked_in, marked_out, mismatch
from bgpnet.configs.communities import LOCAL_AS, NO_ADVERTISE, NO_EXPORT, STALE, community_text, sorted_set
from bgpnet.configs.places import refusal
from bgpnet.configs.router import Line, Neighbor
from bgpnet.configs.routes import ORIGINS, Denial, Route, denied_by
from bgpnet.configs.sessions import dotted
from bgpnet.configs.speaker import Speaker

# A prefix that a router announces: the protocol, what kind of route it is, and the statements in its braces.
Network = namedtuple("Network", "prefix protocol kind body place")
STOPPED = frozenset((NO_EXPORT, NO_ADVERTISE, LOCAL_AS))
DEFAULT_PREFERENCE = 100
RESTARTS = ("graceful restart", "long lived graceful restart")


class Peer(Neighbor):
    """A protocol `bgp` as the neighbor that it names."""

    def __init__(self, protocol, asn):
        address = protocol.value("neighbor")
        self.channel = protocol.channels.get("ipv4")
        key = "none" if address is None else dotted(address)
        super().__init__(key, address, protocol.place, self.channel is not None)
        self.protocol, self.name, self.asn_line = protocol, protocol.name, asn
        self.is_direct = not protocol.value("multihop", 0)
        for words in ("source", "password", "router id", "passive"):
            if words in protocol.said and protocol.value(words) is not False:
                self.said[words] = protocol.said[words]
        hops = 1 if self.is_direct else protocol.value("multihop")
        self.said["ebgp-multihop"] = Line(hops, self.place)
        if protocol.value("ttl security"):
            self.said["ttl-security"] = Line(hops, protocol.said["ttl security"].place)

    @property
    def asn(self):
        return self.asn_line

    def option(self, words, default=False):
        """What an option of the protocol says."""
        return self.protocol.value(words, default)

    def of_channel(self, words, default):
        line = self.channel.said.get(words)
        return default if line is None else line.name

    def is_own_hop(self):
        """Whether the next hop that the neighbor is told is the router itself, whoever told it the route."""
        return any(words.startswith("next hop self") and line.name for words, line in self.channel.said.items())

    def policy(self, kind, direction=None):
        return self.channel.policies[kind].name

    @property
    def role(self):
        return self.option("role", None)


class Router(Speaker):
    """What a file in the language of BIRD says. `included` are the files that it includes, `reasons` why what it says
    is refused."""

    language = "BIRD"

    def __init__(self, name, reasons):
        super().__init__(name)
        self.directs, self.questions, self.included, self.reasons = [], None, set(), reasons

    # ---- what its protocols say

    def take_protocol(self, protocol):
        """Takes what a protocol says; one that is disabled says nothing but its neighbor, one that is not whole nothing
        but the router's number."""
        if not protocol.is_whole:
            if "local as" in protocol.said:
                self.take_number(protocol, protocol.said["local as"])
        elif protocol.kind == "bgp":
            self.take_bgp(protocol)
        elif protocol.kind == "static":
            self.take_static(protocol)
        elif not self.is_off(protocol):
            self.take_foreign(protocol)

    @staticmethod
    def is_off(protocol):
        return protocol.value("disabled", False)

    def take_bgp(self, protocol):
        own, other = protocol.said.get("local as"), protocol.said.get("neighbor as")
        if own is None:
            raise refusal(protocol.end, f"protocol {protocol.name}: no line says the AS number of its own")
        if "neighbor" not in protocol.said:
            raise refusal(protocol.end, f"protocol {protocol.name}: no line says its neighbor")
        side = protocol.said.get("side")
        if protocol.value("require roles") and "role" not in protocol.said:
            raise refusal(protocol.end, f"protocol {protocol.name}: no role of its own, and roles are required: BIRD "
                                        "does not take it")
        if other is None and side is None:
            raise refusal(protocol.end, f"protocol {protocol.name}: no line says the neighbor's AS number")
        is_internal = side is not None and side.name == "internal" or other is not None and other.name == own.name
        self.check_policies(protocol, is_internal)
        if self.is_off(protocol):
            self.warn(protocol.said["disabled"].place, f"protocol {protocol.name} is disabled: there is no session")
            return
        if is_internal:
            raise refusal((other or side).place, "iBGP: every router is an AS of its own")
        self.take_number(protocol, own)
        if "ipv6" in protocol.said:
            if "ipv4" in protocol.channels:
                raise refusal(protocol.said["ipv6"].place, "a neighbor with an address of IPv6: sessions are IPv4")
            self.warn(protocol.place, f"protocol {protocol.name}: a session of IPv6 is not read")
            return
        self.take_peer(protocol, Line("external" if other is None else other.name, (other or side).place))

    def take_number(self, protocol, own):
        """Takes the AS number that a protocol says to be the router's."""
        if self.asn not in (None, own.name):
            raise refusal(own.place, f"a second AS: {self.asn_place} has {self.asn}")
        if self.asn is None:
            self.asn, self.place, self.asn_place = own.name, protocol.place, own.place

    def take_peer(self, protocol, asn):
        peer = Peer(protocol, asn)
        for words in RESTARTS:
            if protocol.value(words):
                self.keeps_routes = True
                self.warn(protocol.said[words].place, f"'{words}': the neighbor keeps this router's routes while it "
                          "restarts, 120 seconds if nothing else is said: what is said here of a crash and of a silent "
                          "failure is not what happens meanwhile")
        if peer.channel is not None:
            for why in self.obstacles(peer):
                self.reasons.add(why)
            if "hop" in peer.channel.said and not peer.is_direct:
                self.warn(peer.channel.said["hop"].place, f"'{peer.channel.said['hop'].name}' is not read")
        first = self.neighbors.setdefault(peer.address, peer)
        if first is not peer:
            self.warn(peer.place, f"protocol {peer.name}: {first.place} has this neighbor too, and comes first: there "
                                  "is no session")

    def check_policies(self, protocol, is_internal):
        """Refuses a channel without a policy, as BIRD does (RFC 8212)."""
        for family, channel in protocol.channels.items():
            for direction in ("import", "export"):
                if not is_internal and family in ("ipv4", "ipv6") and direction not in channel.policies:
                    self.reasons.add(refusal(channel.end, f"protocol {protocol.name}: no {direction} policy in its "
                                                          f"channel {family}: BIRD does not take it"))
                    channel.policies[direction] = Line(False, channel.end)

    def obstacles(self, peer):
        """Why a channel is refused: what depends on whether next hops are reached, and other tables."""
        table, hop, gateway = (peer.channel.said.get(kind) for kind in ("table", "hop", "gateway"))
        if table:
            yield refusal(table.place, f"table {table.name}: another table than master4: one is read")
        if hop and peer.is_direct:
            yield refusal(hop.place, f"'{hop.name}': the neighbor takes the route only if it reaches the next hop, "
                                     "which is not known here")
        if gateway and (gateway.name == "direct") != peer.is_direct:
            yield refusal(gateway.place, "gateway: whether a next hop is reached is not known here")
        if peer.option("rs client") and peer.is_direct and not peer.is_own_hop():
            yield refusal(peer.protocol.said["rs client"].place, "rs client: the next hop is kept, and whether the "
                          "client reaches it by its own interfaces is not known here")
        for routine in self.routines_of(peer.policy("export")):
            for node in routine.body.walk():
                if node.op in ("set attribute", "unset") and node.args[0] == "bgp_next_hop":
                    yield refusal(node.place, "bgp_next_hop is set outwards: the neighbor takes the route only if it "
                                              "reaches the next hop, which is not known here")

    @staticmethod
    def routines_of(policy):
        return [] if policy in (True, False) else evaluate.routines_of(policy)

    def take_static(self, protocol):
        channel = protocol.channels.get("ipv4")
        if not protocol.channels:
            raise refusal(protocol.end, f"protocol {protocol.name}: no channel: BIRD does not take it")
        if channel is None or self.is_off(protocol) or channel.said.get("table"):
            return
        for prefix, kind, body, place in protocol.routes:
            if other := self.networks.get(prefix):
                self.reasons.add(refusal(place, f"a second route for {prefix}: the first is at {other.place}"))
            elif is_bogus(prefix):
                self.reasons.add(refusal(place, f"{prefix}: no network of hosts, and peers pass it over"))
            else:
                self.networks[prefix] = Network(prefix, protocol, kind, body, place)

    def take_foreign(self, protocol):
        """What other protocols are: passed over, or refused where routes of theirs could be told."""
        kind, said = protocol.kind, protocol.said
        if kind == "kernel" and "ipv6" not in said and "learn" in said:
            raise refusal(protocol.place, "protocol kernel with 'learn': its routes are not known here")
        if kind in ("kernel", "bfd", "rpki"):
            self.warn(protocol.place, f"protocol {kind} is not read")
        if kind == "direct" and "ipv4" in said:
            self.directs.append(protocol)
        if kind in ("pipe", "perf") or kind in ("ospf", "rip", "babel") and ("ipv4" in said or "ipv6" not in said):
            raise refusal(protocol.place, f"protocol {kind}: routes of another protocol or table come into the table")

    def finish(self):
        """What is known when all is read."""
        if self.router_id is None:
            self.reasons.add(refusal(self.place, "no line 'router id': BIRD takes an address of an interface, which is "
                                                 "not known here"))
        elif not self.router_id.name:
            self.reasons.add(refusal(self.router_id.place, "the router id is 0"))
        for direct in self.directs:
            told = next((peer for peer in self.neighbors.values()
                         if peer.channel and peer.policy("export") is True), None)
            if told:
                self.reasons.add(refusal(direct.place, "protocol direct: the routes of interfaces, which are not known "
                                                       f"here, are told by 'export all' at {told.place}"))
            self.warn(direct.place, "protocol direct is not read: the routes of interfaces are told where an export "
                                    "filter takes them")
        self.check_hops()

    def check_hops(self):
        """Refuses an own route that covers the address of a neighbor over `multihop`: its routes are liked better."""
        far = [peer for peer in self.neighbors.values() if not peer.is_direct]
        for prefix, network in self.networks.items():
            covered = [peer for peer in far if choice.covers(prefix, peer.address)]
            if covered and (len(covered) < len(self.neighbors) or network.kind == 3):
                self.reasons.add(refusal(network.place, f"{prefix} covers the address of neighbor {covered[0].key} "
                                                        "over multihop: its routes are reached, and liked better than "
                                                        "others"))

    # ---- what a set asks

    def own_route(self, network, notes=None):
        channel = network.protocol.channels["ipv4"]
        route = Held(origin=None, notes=notes)
        line = channel.said.get("preference")
        route.standing = OWN_STANDING if line is None else line.name
        route.proto, route.kind = network.protocol.name, network.kind
        if network.body:
            evaluate.amend(network.body, route, network.prefix)
        policy = channel.policies.get("import")
        denial = self.filtered(policy.name if policy else True, route, network.prefix, network.place, "import none")
        if route.is_unset and route.sets == 1:
            raise refusal(network.place, f"{network.prefix}: 'unset' of an own route that has no attribute: BIRD ends "
                                         "by a fault of its own")
        route.come()
        route.is_marked = route.has_med and route.sets == 1
        return denial or route

    @staticmethod
    def filtered(policy, route, prefix, place, words):
        """Changes a route by a policy; the denial, where it is denied."""
        if policy is True:
            return None
        return Denial(place, words) if policy is False else evaluate.apply(policy, route, prefix)

    def told(self, neighbor, far, prefix, way):
        held = way.route
        if way.path[1:2] == (far.router.number,):
            return Denial(neighbor.place, "the neighbor's own route is the best: it is not told it")
        stopped = STOPPED.intersection(held.communities)
        if stopped and held.near and neighbor.option("interpret communities", True):
            return denied_by(min(stopped), held, neighbor.place)
        if denial := denied_out(neighbor, held):
            return denial
        route = held.copy()
        denial = self.filtered(neighbor.policy("export"), route, prefix, neighbor.channel.policies["export"].place,
                               "export none")
        if denial:
            return denial
        if STALE in route.communities and far.router.language != self.language:
            raise refusal(neighbor.place, f"{prefix}: community {community_text(STALE)} is told to {far.router.name}: "
                                          "FRR likes such a route less than any other, and of two takes that which "
                                          "came first")
        self.check_kept_hop(neighbor, far)
        return self.sent(neighbor, route)

    @staticmethod
    def check_kept_hop(neighbor, far):
        """Refuses a next hop that is kept over `multihop`, and comes to an end where it has to be reached directly."""
        line = neighbor.protocol.said.get("rs client") or neighbor.channel.said.get("hop")
        if line and line.name and not neighbor.is_own_hop() and far.neighbor.value("ebgp-multihop", 1) == 1:
            raise refusal(line.place, "the next hop is kept, and whether the other end, "
                                      f"{far.neighbor.place}, reaches it directly is not known here")

    def sent(self, neighbor, route):
        """What an UPDATE says of a route."""
        is_server = neighbor.option("rs client")
        notes = route.notes
        has_med = route.has_med and (route.is_marked or is_server)
        if notes is not None:
            notes = {name: lines for name, lines in notes.items() if name not in ("local-pref", "preference")}
            if not has_med:
                notes.pop("med", None)
            if is_server:
                notes["excluded", self.asn] = (str(neighbor.protocol.said["rs client"].place),)
        missing = 2 if route.near else 0
        keeps = bool(neighbor.option("allow bgp_local_pref") and route.has_preference)
        return Route(path=route.path if is_server else (self.asn,) + route.path,
                     origin=missing if route.origin is None else route.origin,
                     med=route.med if has_med else 0, has_med=has_med,
                     preference=route.preference if keeps else 0, has_preference=keeps,
                     communities=sorted_set(route.communities), large=sorted_set(route.large),
                     customer=marked_out(neighbor, route, self.asn), notes=notes)

    def heard(self, neighbor, far, prefix, route):
        if self.asn in route.path:
            return Denial(neighbor.place, f"AS {self.asn} stands in the path")
        if neighbor.option("enforce first as") and route.path[:1] != (far.router.asn,):
            return Denial(neighbor.protocol.said["enforce first as"].place, "enforce first as")
        held = Held(path=route.path, origin=route.origin, med=route.med, has_med=route.has_med,
                    preference=neighbor.option("default bgp_local_pref", DEFAULT_PREFERENCE), has_preference=True,
                    communities=route.communities, large=route.large, customer=route.customer, notes=route.notes)
        if route.has_preference:  # else the attribute is discarded, and the default is not set
            held.preference, held.has_preference = route.preference, neighbor.option("allow bgp_local_pref")
        elif "default bgp_local_pref" in neighbor.protocol.said:
            held.note("local-pref", f"{neighbor.protocol.said['default bgp_local_pref'].place} default bgp_local_pref")
        held.standing, held.near, held.proto = neighbor.of_channel("preference", STANDING), neighbor, neighbor.name
        if denial := denied_in(neighbor, held):
            return denial
        marked_in(neighbor, held)
        denial = self.filtered(neighbor.policy("import"), held, prefix, neighbor.channel.policies["import"].place,
                               "import none")
        held.come()
        return denial or held

    def announced(self, network):
        own = self.own_route(network)
        return own if isinstance(own, Denial) else own.attributes()

    def asked_of(self, prefix):
        if self.questions is None:
            policies = [peer.policy(direction) for peer in self.neighbors.values() if peer.channel
                        for direction in ("import", "export")]
            found = {routine: None for policy in policies for routine in self.routines_of(policy)}
            self.questions = evaluate.questions_of(found)
        return evaluate.answers(self.questions, prefix)

    def order(self, routers, prefix, ways):
        return choice.Order(routers, prefix, self, ways)

    def prefers_own(self, own, route):
        return own.standing > route.standing

    def against(self, own, route):
        return f" (preference {route.standing} against {own.standing})"

    def preference(self, route):
        if route.has_preference:
            return route.preference, None
        return route.near.option("default bgp_local_pref", DEFAULT_PREFERENCE) if route.near else 0, None

    def shown(self, route):
        return {"path": route.path, "origin": None if route.origin is None else ORIGINS[route.origin],
                "med": route.med if route.has_med else None,
                "local-pref": route.preference if route.has_preference else None, "preference": route.standing,
                "otc": route.customer, "communities": sorted(route.communities), "large": sorted(route.large)}

    def no_session(self, neighbor, far):
        if not (neighbor.is_active and far.neighbor.is_active):
            return neighbor.place, (f"protocol {neighbor.name}: there is no channel ipv4 at both ends, the other is "
                                    f"{far.neighbor.place}: there is no session")
        if neighbor.value("passive") and far.neighbor.value("passive"):
            return neighbor.line("passive").place, (f"protocol {neighbor.name}: both ends are passive, the other is "
                                                    f"{far.neighbor.place}: there is no session")
        why = mismatch(neighbor, far)
        return (neighbor.place, f"protocol {neighbor.name}: {why}: there is no session") if why else None


def is_bogus(prefix):
    """Whether a prefix is none of hosts that others reach."""
    first = prefix.address >> 24
    return bool(prefix.length) and not first or first == 127 or first >= 224
