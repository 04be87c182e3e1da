"""What a configuration of FRR says of its interfaces, its static routes and its IGP."""
from collections import namedtuple

# A static route: the prefix as an address and a length, the next hop as an address, or None, and the interface's name.
Static = namedtuple("Static", "prefix next_hop interface distance place")
# What an IGP announces besides its own interfaces: `connected` or `static`, with the metric, and whether the way counts
# (type 1 of OSPF).
Redistributed = namedtuple("Redistributed", "kind metric adds place")


class Interface:
    """An interface: `addresses` as an address and a length each, with its line; `cost` of OSPF and `metric` of IS-IS
    where lines say them; `area` of OSPF, and whether IS-IS runs on it; `passive` where an IGP announces it and has no
    neighbors there."""

    def __init__(self, name, place):
        self.name, self.place, self.addresses = name, place, []
        self.cost, self.area, self.bandwidth = None, None, None
        self.runs_isis, self.metric, self.is_passive_isis, self.is_shut = False, None, False, False

    @property
    def is_loopback(self):
        return self.name == "lo"


class IgpSaid:
    """What a file says of an IGP. `networks` are prefixes whose interfaces OSPF runs on, each with its area and line;
    `statics` are static routes; `passive` has the names of passive interfaces, `default` among them for all but those
    of `active`; `redistributed` has by protocol what it takes of others; `reference` is the bandwidth that OSPF divides
    by that of an interface; `resolves_by_default` says whether the default route reaches next hops; `unread` are lines
    that change the IGP and are not read, with their places."""

    def __init__(self):
        self.runs_ospf, self.runs_isis, self.networks, self.statics = False, False, [], []
        self.passive, self.active, self.redistributed, self.unread = set(), set(), {"ospf": [], "isis": []}, []
        self.reference, self.resolves_by_default = None, False

    def is_passive(self, name):
        return name in self.passive or "default" in self.passive and name not in self.active

    @property
    def is_there(self):
        """Whether a line says something of how addresses are reached that are not connected."""
        return self.runs_ospf or self.runs_isis or bool(self.statics)
