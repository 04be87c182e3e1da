"""Which neighbors of which routers are sessions: both ends name each other."""
import ipaddress
from collections import namedtuple

from bgpnet.configs.places import Passed, Reasons, refusal
from bgpnet.configs.routes import Denial
from bgpnet.network import MOST_LINKS, MOST_ROUTERS, Named, distances, path_text, telling
from bgpnet.program import Refusal


class End(namedtuple("End", "router neighbor")):
    """An end of a session: the router and its neighbor."""

    @property
    def id(self):
        """The router id that the router says there."""
        return (self.neighbor.line("router id") or self.router.router_id).name


def dotted(address):
    return str(ipaddress.IPv4Address(address))


def by_number(routers, reasons):
    """The routers that can stand in one network, by their numbers, and why others can't."""
    if not routers and not reasons:
        raise Refusal("no configurations")
    if len(routers) > MOST_ROUTERS:
        reasons.add(refusal(routers[MOST_ROUTERS].place, f"{len(routers)} routers, and a network has at most "
                                                         f"{MOST_ROUTERS}"))
    numbers, by_id = {}, {}
    for router in routers:
        numbers[router.number] = router
        if router.router_id is not None:
            other = by_id.setdefault(router.router_id.name, router)
            if other is not router:
                router.is_sound = other.is_sound = False
                reasons.add(refusal(router.router_id.place, f"the router id {dotted(router.router_id.name)} is that of "
                                                            f"{other.router_id.place} too"))
    return {number: numbers[number] for number in sorted(numbers)}


class Set(Named):
    """The routers of a set of configurations, and their sessions.

    `ends` has for each router's number its end of each session, by the number of the peer; `up` those of sessions that
    carry routes. `reasons` are those why lines of the files and sessions are refused; what hangs on refused lines is
    not refused by itself. Where there are some, `up` has no session of a router that is not sound, none that is
    `refused` itself, and none with an `unsure` address, which no line has, or two have: what is found of ways over the
    others holds, whatever is mended. `refuses_ties` says whether ties are no order here, and `about_ties` what is said
    of one."""

    refuses_ties = False
    about_ties = ", and here they stand by router id (without 'bgp bestpath compare-routerid')"

    def __init__(self, routers, reasons=None):
        self.reasons = Reasons() if reasons is None else reasons
        self.routers = by_number(routers, self.reasons)
        self.called = telling({asn: router.host for asn, router in self.routers.items() if router.host})
        self.owners, self.ends = {}, {asn: {} for asn in self.routers}
        self.unsure, self.refused = set(), set()
        self.find_owners()
        self.find_unsaid()
        self.find_sessions()
        self.up = {asn: [peer for peer in sorted(ends) if self.carries(asn, peer)] for asn, ends in self.ends.items()}
        if not self.reasons:
            self.reasons.attempt(self.check_connected)

    # ---- whose an address is

    def find_owners(self):
        """The router of each address that lines say something of: interfaces and sources say whose their own are, and
        neighbors with a number whose the other end's is."""
        self.find_own()
        for router, neighbor in self.named():
            if neighbor.asn.name in self.routers and neighbor.asn.name != router.asn:
                self.claim(neighbor.address, self.routers[neighbor.asn.name], neighbor.asn.place)
        for _, neighbor in self.named():
            owner, place = self.owners.get(neighbor.address, (None, None))
            if owner and neighbor.asn.name not in ("external", *self.routers):
                self.reasons.add(refusal(neighbor.asn.place, f"neighbor {neighbor.key} is AS {neighbor.asn.name} here, "
                                                             f"and its address is one of {owner.asn} at {place}"))
        ids = self.ids()
        for _, neighbor in self.named():
            if neighbor.asn.name == "external" and neighbor.address in ids:
                owner = ids[neighbor.address]
                self.owners.setdefault(neighbor.address, (owner, owner.router_id.place))

    def find_own(self):
        """The router of each address of an interface, or of a source."""
        for router in self.routers.values():
            for address, place in router.addresses.items():
                if address >> 24 != 127:
                    self.claim(address, router, place)
            for neighbor in router.neighbors.values():
                source = neighbor.line("source")
                if source and isinstance(source.name, int):
                    self.claim(source.name, router, source.place)
                if neighbor.asn is None and router.is_whole:
                    self.reasons.add(refusal(neighbor.place, f"neighbor {neighbor.key}: no line says its AS"))

    def ids(self):
        """The routers by their router ids."""
        return {router.router_id.name: router for router in self.routers.values() if router.router_id}

    def named(self):
        """The neighbors of which lines say the AS, each with its router."""
        return [(router, neighbor) for router in self.routers.values() for neighbor in router.neighbors.values()
                if neighbor.asn is not None]

    def claim(self, address, router, place):
        """Says that a router has an address."""
        other = self.owners.setdefault(address, (router, place))
        if other[0] is not router:
            self.unsure.add(address)
            self.reasons.add(refusal(place, f"{dotted(address)} is an address of {self.label(router.number)} here, and "
                                            f"of {self.label(other[0].number)} at {other[1]}"))

    def peer_of(self, router, neighbor):
        """The router that a neighbor is, or None where it is none of the set."""
        number, owner = neighbor.asn.name, self.owner(neighbor.address)
        if number != "external":
            if owner and owner.asn != number:
                raise Passed  # it was refused by whose the address is
            if number == router.asn:  # another router of the AS, of which no file is there
                return owner
            return self.routers.get(number)
        if owner is None and self.reasons:
            raise Passed
        if owner is None:
            raise refusal(neighbor.place, f"neighbor {neighbor.key}: which router has this address no line says: give "
                                          "its AS number, or the addresses of interfaces")
        return owner

    def owner(self, address):
        """The router of an address, or None where no line says it."""
        return self.owners.get(address, (None,))[0]

    def find_unsaid(self):
        """The routers of neighbors whose address no line says: the only one left that names the router and is none of
        its other neighbors, as long as such are found."""
        left = [(router, neighbor) for router, neighbor in self.named()
                if self.is_by_address(neighbor) and neighbor.address not in self.owners]
        is_new = True
        while left and is_new:
            is_new = False
            for router, neighbor in list(left):
                known = [router, *(self.owner(one.address) for one in router.neighbors.values())]
                naming = [other for other in self.routers.values()
                          if other not in known and self.names_back(router, neighbor, other)]
                if len(naming) == 1:
                    self.guess(neighbor.address, naming[0], neighbor.place)
                    left.remove((router, neighbor))
                    is_new = True

    def guess(self, address, router, place):
        """Takes an address to be that of a router, by what is left."""
        self.owners[address] = router, place
        self.unsure.add(address)

    @staticmethod
    def is_by_address(neighbor):
        """Whether a neighbor's address alone says which router it is."""
        return neighbor.asn.name == "external"

    def names_back(self, router, neighbor, other):
        """Whether another router may be a neighbor whose address no line says: one of its neighbors is the router."""
        return any(of is other and (one.asn.name == router.asn or self.owner(one.address) is router)
                   for of, one in self.named())

    # ---- sessions

    def find_sessions(self):
        named = {}
        for router, neighbor in self.named():
            self.reasons.attempt(self.find_peer, router, neighbor, named)
        for (number, peer), neighbor in named.items():
            router, other = self.routers[number], named.get((peer, number))
            if other is None:
                router.warn(neighbor.place, f"neighbor {neighbor.key} is {self.label(peer)}, and "
                                            f"{self.routers[peer].place} names no neighbor {self.label(number)}: "
                                            "there is no session")
            elif number < peer:
                before = len(self.reasons)
                self.reasons.attempt(self.join, End(router, neighbor), End(self.routers[peer], other))
                if len(self.reasons) > before:
                    self.refused.add(frozenset((number, peer)))
        for asn, ends in self.ends.items():
            if len(ends) > MOST_LINKS:
                router = self.routers[asn]
                self.reasons.add(refusal(router.place, f"{self.label(asn)} has {len(ends)} sessions, and a router has "
                                                       f"at most {MOST_LINKS}"))

    def hosts(self):
        """The names by which numbers are given to routers: none, where these are AS numbers."""
        return ()

    @staticmethod
    def label(number):
        """What a refusal calls a router."""
        return str(number)

    path_label = staticmethod(path_text)

    def find_peer(self, router, neighbor, named):
        """Finds the router that a neighbor is, of which `named` has the sessions that a router names."""
        peer = self.peer_of(router, neighbor)
        if peer is router:
            raise refusal(neighbor.place, f"neighbor {neighbor.key} is the router itself")
        if peer is None:
            router.warn(neighbor.place, f"neighbor {neighbor.key}: no configuration of AS {neighbor.asn.name} is among "
                                        "these, so there is no session")
            return
        other = named.setdefault((router.number, peer.number), neighbor)
        if other is not neighbor:
            raise refusal(neighbor.place, f"neighbor {neighbor.key} is a second session with "
                                          f"{self.label(peer.number)}: the first is at {other.place}")

    def join(self, one, other):
        """Makes a session of two ends, unless one is shut. What is refused of a pair is found one by one."""
        if not (one.router.is_whole and other.router.is_whole):
            raise Passed
        for end, far in ((one, other), (other, one)):
            if found := end.router.no_session(end.neighbor, far):
                end.router.warn(*found)
                return
        if not (one.neighbor.is_active or other.neighbor.is_active):
            one.router.warn(one.neighbor.place, f"neighbor {one.neighbor.key} is not activated, nor is the other end, "
                                                f"{other.neighbor.place}: there is no session")
            return
        self.ends[one.router.number][other.router.number] = one
        self.ends[other.router.number][one.router.number] = other
        for end in (one, other):
            if not end.neighbor.is_active:
                end.router.warn(end.neighbor.place, f"neighbor {end.neighbor.key} is not activated: the session "
                                                    "carries no routes")
        for why in (*self.unfit(one, other), *self.unfit(other, one), *self.unfit_together(one, other)):
            self.reasons.add(why)

    @staticmethod
    def unfit(end, far):
        """Why an end does not fit the other: the neighbor's address is none of it, it does not name the source, or its
        segments live too short for `ttl-security`."""
        neighbor, source, line = end.neighbor, end.neighbor.line("source"), end.neighbor.line("ttl-security")
        own = {*far.router.addresses, *(one.value("source") for one in far.router.neighbors.values())}
        if far.router.addresses and neighbor.address not in own:
            yield refusal(neighbor.place, f"neighbor {neighbor.key} is no address of {far.router.name}")
        if source and isinstance(source.name, int) and source.name != far.neighbor.address:
            yield refusal(source.place, f"the source is {dotted(source.name)}, and {far.neighbor.place} names "
                                        f"{far.neighbor.key}")
        lives = 255 if far.neighbor.line("ttl-security") else far.neighbor.value("ebgp-multihop", 1)
        if line and lives < 256 - line.name:
            yield refusal(line.place, f"ttl-security hops {line.name} takes a TTL from {256 - line.name}, and the "
                                      f"other end, {far.neighbor.place}, sends with {lives}")

    @staticmethod
    def unfit_together(one, other):
        """Why two ends do not fit: they have not one password, or both are passive."""
        secrets = [end.neighbor.line("password") for end in (one, other)]
        if (secrets[0] and secrets[0].name) != (secrets[1] and secrets[1].name):
            end = other if secrets[0] else one
            yield refusal((secrets[0] or secrets[1]).place, f"the password is not that of the other end, "
                                                            f"{end.neighbor.place}")
        if all(end.neighbor.value("passive", False) for end in (one, other)):
            yield refusal(one.neighbor.line("passive").place, f"both ends are passive: the other at "
                                                              f"{other.neighbor.line('passive').place}")

    def carries(self, asn, peer):
        """Whether routes go over a session, as far as that is known where something is refused."""
        ends = self.ends[asn][peer], self.ends[peer][asn]
        is_sure = not self.reasons or frozenset((asn, peer)) not in self.refused and all(
            end.router.is_sound and end.neighbor.address not in self.unsure for end in ends)
        return is_sure and all(end.neighbor.is_active for end in ends)

    def check_connected(self):
        first = next(iter(self.routers))
        reached = distances(self.ends, first)
        apart = [router for asn, router in self.routers.items() if asn not in reached]
        if apart:
            why = next((f"; {place}: {said}" for router in [*apart, *self.routers.values()]
                        for place, said in router.notes if said.endswith("no session")), "")
            raise refusal(apart[0].place, f"no sessions lead from {self.label(first)} to "
                                          f"{self.label(apart[0].number)}: the network isn't connected{why}")

    # ---- what is asked of the set

    def notes(self):
        """The warnings, each with its place; of networks that are taken as announced the first alone."""
        found, is_said = [], False
        for router in self.routers.values():
            for place, said in router.notes:
                if said.startswith("network: "):
                    if is_said:
                        continue
                    is_said = True
                found.append((place, said))
        return found

    def origins(self, reasons=None):
        """The router of each prefix that it announces, and the network. Where reasons are kept, prefixes that are
        refused are left out."""
        found, kept, twice = {}, Reasons() if reasons is None else reasons, set()
        for router, prefix, network in self.networks():
            if router.is_sound and kept.attempt(router.tells, network):
                other = found.setdefault(prefix, (router, network))
                if other[0] is not router:
                    twice.add(prefix)
                    kept.add(refusal(network.place, f"{prefix} has another origin at {other[1].place}: a prefix has "
                                                    "one"))
        if reasons is None:
            kept.refuse()
        return {prefix: found[prefix] for prefix in sorted(set(found) - twice)}

    def networks(self):
        """Each line that announces a prefix."""
        return [(router, prefix, network) for router in self.routers.values()
                for prefix, network in router.networks.items()]

    def silent(self):
        """A warning for each line whose route-map denies its prefix."""
        return [(network.place, f"{prefix} is not announced: {denial.place} {denial.why}")
                for router, prefix, network in self.networks()
                for denial in [router.own_route(network)] if isinstance(denial, Denial)]
