"""Which addresses a router reaches, and by what metric: by edges of a file, or by what the configurations say."""
from bgpnet.configs.places import Place, Reasons, refusal
from bgpnet.configs.ribs import Ospf, Ribs, addresses_of, lengths_from, network_of, up_interfaces
from bgpnet.configs.syntax import number_of
from bgpnet.network import link_text
from bgpnet.program import Refusal, grouped

MOST_COST = 2**24 - 1


class Edges:
    """The edges of an IGP as a file gives them: in each line the names of two routers and a cost, or one each way."""

    def __init__(self, text, name):
        self.name, self.said = name, []
        for number, line in enumerate(text.split("\n"), 1):
            words = line.split("#")[0].split()
            place = Place(name, number)
            if not words:
                continue
            costs = [number_of(word) for word in words[2:]]
            if len(words) not in (3, 4) or any(cost is None or not 1 <= cost <= MOST_COST for cost in costs):
                raise refusal(place, f"no edge: two routers and a cost of 1 to {MOST_COST}, or one for each way")
            self.said.append((place, words[0], words[1], costs[0], costs[-1]))

    def by_number(self, named):
        """The costs by router and neighbor. `named` has the routers' numbers by their names."""
        found = {}
        for place, one, other, cost, back in self.said:
            for word in (one, other):
                if word not in named:
                    raise refusal(place, f"no configuration is of a router {word}")
            ends = named[one], named[other]
            if ends[0] == ends[1] or ends in found:
                raise refusal(place, f"{one} {other}: " + ("an edge joins two routers" if ends[0] == ends[1] else
                                                           "the edge stands twice"))
            found[ends], found[ends[::-1]] = cost, back
        return found


class Reach:
    """What a router reaches. `connected` has its subnets, `shut` its interfaces that are shut; `far` answers the metric
    to an address that is on none of them, None where it is not reached, and the length of the subnet by which it is.
    BGP announces the prefixes of `announced`. `table` has the subnets of all its routes, as far as they are known."""

    def __init__(self, own, router, far, announced):
        self.own, self.far, self.announced, self.table = own, far, announced, set()
        self.connected = connected_of(router)
        self.shut = [interface for interface in router.interfaces.values() if interface.is_shut]

    def is_own(self, address):
        return address in self.own

    def subnet(self, address):
        """The longest subnet that an address is on, or None."""
        on = [(network, length) for network, length in self.connected if network_of(address, length) == network]
        return max(on, key=lambda one: one[1], default=None)

    def is_shared(self, one, other):
        """Whether two addresses are on one subnet."""
        return self.subnet(one) is not None and self.subnet(one) == self.subnet(other)

    def metric(self, address, is_direct=False):
        """The metric to an address, None where it is not reached; one that is reached directly has 0."""
        if is_direct or self.is_own(address) or self.subnet(address) is not None:
            return 0
        return self.far(address)[0]

    def covering(self, address):
        """A prefix that BGP announces which says more of an address than the IGP does, or None."""
        if self.is_own(address):
            return None
        subnet = self.subnet(address)
        length = subnet[1] if subnet else self.far(address)[1]
        return next((prefix for prefix in self.announced if prefix.length >= length
                     and network_of(address, prefix.length) == prefix.address), None)


def connected_of(router):
    """The subnets of a router's interfaces that are up."""
    return [subnet for address, subnet, _, _ in addresses_of(router) if address >> 24 != 127]


def is_on(interface, address):
    """Whether an address is on a subnet of an interface."""
    return any(network_of(own, length) == network_of(address, length) for (own, length), _ in interface.addresses)


class Igp:
    """The IGPs of the ASes of a set: by edges of a file, where there are some; else by what the configurations say. A
    link of `down`, two routers, fails: its edge, and their interfaces on a subnet of these two. `inside` has for each
    AS the costs of its edges by router and neighbor, as far as they are known. Nothing is said of an AS of which a
    router is not sound."""

    def __init__(self, routers, edges=None, down=()):
        self.set, self.edges, self.inside = routers, {}, {}
        down = {frozenset(link) for link in down}
        cut = {link for link in down if self.shut(link)}
        if edges is not None:
            cut |= self.read_edges(edges, down)
        if down - cut:
            raise Refusal(f"there is no link {link_text(map(routers.label, sorted(min(down - cut))))} of the IGP")
        by_asn = grouped((router.asn, router) for router in routers.routers.values())
        self.shut_addresses = {address for router in routers.routers.values()
                               for interface in router.interfaces.values() if interface.is_shut
                               for (address, _), _ in interface.addresses}
        self.announced = sorted({prefix for _, prefix, _ in routers.networks()})
        for own in by_asn.values():
            if all(router.is_sound for router in own):
                self.give(own, edges is not None)

    def shut(self, link):
        """Shuts the interfaces of two routers that are alone on a subnet, and says whether there are some."""
        on = grouped(((network_of(address, length), length), (number, interface))
                     for number, router in self.set.routers.items() for interface in router.interfaces.values()
                     if not interface.is_loopback for (address, length), _ in interface.addresses)
        found = [ends for ends in on.values() if {number for number, _ in ends} == link]
        for ends in found:
            for _, interface in ends:
                interface.is_shut = True
        return bool(found)

    def read_edges(self, edges, down):
        """Reads the edges, and answers those that are down."""
        named = {}
        for number, router in self.set.routers.items():
            for name in (self.set.label(number), router.host):
                named.setdefault(name, number)
        cut = set()
        for (one, other), cost in edges.by_number(named).items():
            link = frozenset((one, other))
            if link in down:
                cut.add(link)
            else:
                self.edges.setdefault(one, {})[other] = cost
        return cut

    def give(self, routers, has_edges):
        """Gives each router of an AS what it reaches."""
        ribs = None if has_edges else Ribs(self.set, routers)
        is_known = has_edges or len(routers) == 1 or ribs.is_known
        if not is_known:
            routers[0].warn(routers[0].place, f"AS {routers[0].asn}: nothing says how its routers reach each other: "
                                              "every next hop is taken as reached, by metric 0 (--igp FILE gives edges "
                                              "and costs)")
        if is_known and not has_edges and len(routers) > 1:
            for router in routers:
                for place, said in router.igp.unread:
                    router.warn(place, f"'{said}' is not read: --igp FILE gives the edges and costs that it makes")
                self.set.reasons.gather(ospf_reasons(router))
        own = {router.number for router in routers}
        self.inside[routers[0].asn] = {
            number: {other: cost for other, cost in self.edges.get(number, {}).items() if other in own}
            for number in own} if has_edges else ribs.edges if is_known else {}
        for router in [one for one in routers if one.language == "FRR"]:
            far = self.far_by_edges(router, routers) if has_edges else ribs.of(router).far if is_known else nothing
            router.reach = Reach(self.own_addresses(router), router, far, self.announced)
            router.reach.table = set(router.reach.connected) if ribs is None else set(ribs.of(router).entries)

    def own_addresses(self, router):
        """The addresses of a router: of its interfaces, and by which others name it."""
        named = {address for address, (owner, _) in self.set.owners.items() if owner is router}
        return {*router.addresses, *named} - self.shut_addresses

    def far_by_edges(self, router, routers):
        """The metric to an address by the router that has it. The way goes through routers of the AS alone; the last
        edge may lead to one of another AS, from the routers that are on a subnet with the address, if any are."""
        own = {one.number for one in routers}
        lengths = lengths_from(router.number, self.inside[router.asn])

        def metric(address):
            owner = self.set.owners.get(address)
            if owner is None or address in self.shut_addresses:
                return None
            if owner[0].number in own:
                return lengths.get(owner[0].number)
            near = [number for number in own if any(is_on(interface, address) for interface in
                                                    up_interfaces(self.set.routers[number]))]
            return min((lengths[number] + self.edges[number][owner[0].number] for number in near or own
                        if number in lengths and owner[0].number in self.edges.get(number, {})), default=None)

        def far(address):
            found = metric(address)
            return found, 0 if found is None else 32
        return far


def ospf_reasons(router):
    """What is refused of a router's OSPF."""
    found, said = Reasons(), router.igp
    areas = {area for _, area, _ in said.networks}
    by_interface = [interface for interface in router.interfaces.values() if interface.area is not None]
    if said.networks and by_interface:
        found.add(refusal(said.networks[0][2], f"FRR 8.4 does not take this line: interface {by_interface[0].name} has "
                                               "'ip ospf area'"))
    if len(areas | {interface.area for interface in by_interface}) > 1:
        found.add(refusal(router.place, "several areas of OSPF: one is read, and --igp FILE gives edges and costs"))
    for _, interface, *_ in Ospf([router]).runs[router.number]:
        if not (interface.cost or interface.bandwidth or interface.is_loopback):
            router.warn(interface.place, f"interface {interface.name}: no line 'ip ospf cost': its cost hangs on its "
                                         "speed, and is taken as that of 10 Gbit/s")
    return found


def nothing(address):
    """The metric where nothing is known of an IGP: every address is reached, by 0, whatever BGP announces."""
    return 0, 33
