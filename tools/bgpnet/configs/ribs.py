"""The routes that configurations of FRR give the routers of an AS without BGP: connected ones, static ones, and those
of OSPF and IS-IS, with their metrics as `show ip route` has them."""
import heapq
from collections import namedtuple

from bgpnet.configs.lists import mask_of
from bgpnet.program import grouped

# A route: its administrative distance, its metric, and how it came. To FRR a next hop is reached that leads nowhere.
Entry = namedtuple("Entry", "distance metric kind place")
# An interface on which an IGP runs: its router, the subnet, the cost, and whether the IGP has neighbors there.
Run = namedtuple("Run", "router interface subnet cost is_active")

OSPF, ISIS, NOWHERE = 110, 115, ("Null0", "blackhole", "reject")
# The metric of an interface on which IS-IS runs; what OSPF divides by the bandwidth, and the bandwidth where nothing
# says it, in Mbit/s, and the greatest cost.
ISIS_METRIC, REFERENCE, BANDWIDTH, MOST_OSPF_COST = 10, 100_000, 10_000, 65535


def network_of(address, length):
    return address & mask_of(length)


def shortest_ways(start, edges):
    """The length of the shortest way from a router to each that is reached, and the neighbor over which it leads, the
    least of those that are as near; `edges` has of each router the costs by neighbor."""
    found, queue = {}, [(0, 0, start)]
    while queue:
        length, hop, at = heapq.heappop(queue)
        if at in found:
            continue
        found[at] = length, hop
        for other, cost in edges.get(at, {}).items():
            if other not in found:
                heapq.heappush(queue, (length + cost, hop or other, other))
    return found


def lengths_from(start, edges):
    return {router: length for router, (length, _) in shortest_ways(start, edges).items()}


class Rib:
    """The routes of a router by subnet."""

    def __init__(self, resolves_by_default):
        self.entries, self.resolves_by_default = {}, resolves_by_default

    def add(self, subnet, entry):
        former = self.entries.get(subnet)
        if former is None or entry[:2] < former[:2]:
            self.entries[subnet] = entry

    def best(self, address):
        """The longest subnet that an address is on, or None. A default route counts where a line says so."""
        on = [(network, length) for network, length in self.entries if network_of(address, length) == network
              and (length or self.resolves_by_default)]
        return max(on, key=lambda subnet: subnet[1], default=None)

    def far(self, address):
        """The metric to an address, None where it is not reached, and the length of the subnet by which it is."""
        subnet = self.best(address)
        return (None, 0) if subnet is None else (self.entries[subnet].metric, subnet[1])


class Ribs:
    """The tables of the routers of an AS. `is_known` says whether the configurations say how the routers reach each
    other; `edges` has the costs of its IGP by router and neighbor."""

    def __init__(self, routers, own):
        self.set, self.own = routers, own
        self.is_known = any(router.igp.is_there for router in own) or self.are_connected()
        self.tables = {router.number: Rib(router.igp.resolves_by_default) for router in own}
        for router in own:
            for _, subnet, _, place in addresses_of(router):
                self.tables[router.number].add(subnet, Entry(0, 0, "connected", place))
        self.edges = {}
        for protocol in (Ospf, Isis):
            running = protocol(own)
            running.fill(self.tables)
            self.edges = self.edges if any(self.edges.values()) else running.edges
        for router in own:
            self.add_statics(router)

    def of(self, router):
        return self.tables[router.number]

    def are_connected(self):
        """Whether each neighbor of the AS that a router names is on one of its subnets."""
        for router in self.own:
            subnets = [subnet for _, subnet, _, _ in addresses_of(router)]
            for neighbor in router.neighbors.values():
                if neighbor.asn and neighbor.asn.name == router.asn and not any(
                        network_of(neighbor.address, length) == network for network, length in subnets):
                    return False
        return True

    def add_statics(self, router):
        """Adds the static routes whose next hops are reached, by other ones too."""
        rib, left = self.of(router), list(router.igp.statics)
        names = {interface.name for interface in up_interfaces(router)}
        is_new = True
        while left and is_new:
            is_new = False
            for static in list(left):
                subnet = network_of(*static.prefix), static.prefix[1]
                if static.next_hop is None and static.interface in (*names, *NOWHERE) or \
                        static.next_hop is not None and self.leads(rib, static.next_hop, subnet):
                    rib.add(subnet, Entry(static.distance, 0, "static", static.place))
                    left.remove(static)
                    is_new = True

    @staticmethod
    def leads(rib, address, subnet):
        """Whether a next hop is reached by another subnet than that of its route."""
        return rib.best(address) not in (None, subnet)


def up_interfaces(router):
    return [interface for interface in router.interfaces.values() if not interface.is_shut]


def addresses_of(router):
    """Each address of a router's interfaces that are up, with its subnet, the interface, and the line."""
    return [(address, (network_of(address, length), length), interface, place) for interface in up_interfaces(router)
            for (address, length), place in interface.addresses]


class LinkState:
    """A link-state protocol in an AS: its runs on interfaces, and its shortest ways."""

    distance, kind = 0, ""

    def __init__(self, own):
        self.own = own
        self.runs = {router.number: self.runs_of(router) for router in own}
        on = grouped((run.subnet, (number, run)) for number, runs in self.runs.items() for run in runs if run.is_active)
        self.edges = {router.number: {} for router in own}
        for ends in on.values():
            for one, run in ends:
                for other, _ in ends:
                    if other != one:
                        costs = self.edges[one]
                        costs[other] = min(costs.get(other, run.cost), run.cost)

    def runs_of(self, router):
        raise NotImplementedError

    def fill(self, tables):
        """Adds the routes of the protocol to the tables of the routers."""
        for router in self.own:
            if not self.runs[router.number]:
                continue
            rib, inside = tables[router.number], set()
            lengths = lengths_from(router.number, self.edges)
            for number, length in lengths.items():
                for run in self.runs[number] if number != router.number else ():
                    rib.add(run.subnet, Entry(self.distance, length + run.cost, self.kind, run.interface.place))
                    inside.add(run.subnet)
            for other in self.own:
                if other.number in lengths and other is not router:
                    for subnet, metric in self.external(other, lengths[other.number]):
                        if subnet not in inside:
                            rib.add(subnet, Entry(self.distance, metric, self.kind, other.place))

    def external(self, router, length):
        """The subnets that a router at some distance announces of other protocols, each with its metric."""
        for said in router.igp.redistributed[self.kind]:
            metric = said.metric + (length if said.adds else 0)
            if said.kind == "connected":
                for _, subnet, _, _ in addresses_of(router):
                    yield subnet, metric
            else:
                for static in router.igp.statics:
                    yield (network_of(*static.prefix), static.prefix[1]), metric


class Ospf(LinkState):
    """OSPF of one area."""

    distance, kind = OSPF, "ospf"

    def runs_of(self, router):
        if not router.igp.runs_ospf:
            return []
        found = []
        for address, subnet, interface, _ in addresses_of(router):
            if interface.area is None and not any(network_of(address, prefix[1]) == network_of(*prefix)
                                                  and prefix[1] <= subnet[1] for prefix, *_ in router.igp.networks):
                continue
            if interface.is_loopback:
                found.append(Run(router, interface, (address, 32), interface.cost or 0, False))
            else:
                found.append(Run(router, interface, subnet, ospf_cost(router, interface),
                                 not router.igp.is_passive(interface.name)))
        return found


def ospf_cost(router, interface):
    """The cost of an interface: as its line says, or by its bandwidth; without both as of 10 Gbit/s."""
    if interface.cost is not None:
        return interface.cost
    cost = int((router.igp.reference or REFERENCE) / (interface.bandwidth or BANDWIDTH) + 0.5)
    return min(max(cost, 1), MOST_OSPF_COST)


class Isis(LinkState):
    """IS-IS of one level."""

    distance, kind = ISIS, "isis"

    def runs_of(self, router):
        if not router.igp.runs_isis:
            return []
        return [Run(router, interface, subnet, ISIS_METRIC if interface.metric is None else interface.metric,
                    not (interface.is_loopback or interface.is_passive_isis))
                for _, subnet, interface, _ in addresses_of(router) if interface.runs_isis]
