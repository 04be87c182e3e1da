"""The lines of a configuration of FRR that say how its router reaches addresses: those below an interface, below
`router ospf` and `router isis`, and `ip route`."""
from bgpnet.configs.blocks import Blocks
from bgpnet.configs.interfaces import Redistributed, Static
from bgpnet.configs.syntax import address_of, number_of, prefix_of

# The administrative distance of a static route, and what OSPF gives a route that it takes from another protocol.
STATIC, EXTERNAL = 1, 20
# Lines of an IGP that change no metric.
OF_OSPF = ("ospf router-id", "router-id", "log-adjacency-changes", "timers", "area", "compatible", "capability",
           "maximum-paths", "refresh", "write-multiplier", "neighbor", "graceful-restart")
OF_ISIS = ("net", "is-type", "log-adjacency-changes", "lsp-", "spf-", "hostname", "area-password", "domain-password",
           "set-attached", "attached-bit", "purge-originator", "metric-style wide", "dynamic-hostname")
# What below `area` changes a way, or which routes come.
OF_AREA = ("stub", "nssa", "range", "virtual-link", "filter-list", "import-list", "export-list")


class IgpLines(Blocks):
    """Keeps what lines say of an IGP. Where every AS of a set has one router nothing asks for it."""

    def do_ospf(self, words, line):
        self.start_igp("ospf")
        self.router.igp.runs_ospf = True
        if len(words) > 2:
            self.unread(line)

    def do_isis(self, words, line):
        self.start_igp("isis")
        self.router.igp.runs_isis = True

    def start_igp(self, kind):
        self.router.foreign.add(self.place.line)
        self.pass_block(kind)

    def do_static(self, words, line):
        """`ip route PREFIX NEXT-HOP|INTERFACE [DISTANCE]`, or `ip route ADDRESS MASK ..`."""
        self.router.foreign.add(self.place.line)
        self.router.warn_alone(self.place, f"'{line}' is not read")
        rest, prefix = words[2:], prefix_of(words[2])
        if prefix is None and len(rest) > 1 and address_of(rest[0]) is not None and address_of(rest[1]) is not None:
            prefix, rest = (address_of(rest[0]), self.length_of(rest[1])), rest[1:]
        rest = rest[1:]
        if prefix is None or not rest:
            self.unread(line)
            return
        hop = address_of(rest[0])
        name, more = (None, rest[1:]) if hop is not None else (rest[0], rest[1:])
        if hop is not None and more and number_of(more[0]) is None:
            name, more = more[0], more[1:]
        distance = number_of(more[0]) if len(more) == 1 else None
        if more and distance is None:
            self.unread(line)
            return
        self.router.igp.statics.append(Static(prefix, hop, name, STATIC if distance is None else distance, self.place))

    def do_default_route(self, words, line):
        """`ip nht resolve-via-default`: a next hop may be reached by the default route."""
        self.router.foreign.add(self.place.line)
        self.router.igp.resolves_by_default = self.is_set

    def unread(self, line):
        self.router.igp.unread.append((self.place, line))

    def igp_line(self, words):
        """Keeps what a line says that stands below an interface or an IGP."""
        if self.foreign == "interface":
            self.interface_line(words)
        elif self.foreign == "ospf" and words[0] not in ("exit", "!"):
            self.ospf_line(words)
        elif self.foreign == "isis" and words[0] not in ("exit", "!") and not " ".join(words).startswith(OF_ISIS):
            self.unread(" ".join(words))

    def interface_line(self, words):
        interface, number, is_set = self.interface, number_of(words[-1]), words[0] != "no"
        words = words if is_set else words[1:]
        if words == ["shutdown"]:
            interface.is_shut = is_set
        elif words[:3] == ["ip", "ospf", "cost"] and (not is_set or len(words) == 4 and number):
            interface.cost = number if is_set else None
        elif words[:3] == ["ip", "ospf", "area"] and len(words) == 4 and is_set:
            interface.area = area_of(words[3])
        elif words[:3] == ["ip", "ospf", "passive"]:
            (self.router.igp.passive if is_set else self.router.igp.active).add(interface.name)
        elif words[:1] == ["bandwidth"] and len(words) == 2 and is_set:
            interface.bandwidth = number
        elif words[:3] == ["ip", "router", "isis"] and is_set:
            interface.runs_isis = True
        elif words[:2] == ["isis", "metric"] and (not is_set or number is not None):
            interface.metric = number if is_set else None
        elif words == ["isis", "passive"] and is_set:
            interface.is_passive_isis = True

    def ospf_line(self, words):
        igp, text = self.router.igp, " ".join(words)
        prefix = prefix_of(words[1]) if len(words) == 4 and words[0] == "network" else None
        if prefix is not None and words[2] == "area":
            igp.networks.append((prefix, area_of(words[3]), self.place))
        elif words[0] == "passive-interface" and len(words) == 2:
            igp.passive.add(words[1])
        elif words[:2] == ["no", "passive-interface"] and len(words) == 3:
            igp.active.add(words[2])
        elif words[0] == "redistribute" and words[1:2] and words[1] in ("connected", "static"):
            self.redistributed("ospf", words)
        elif words[:2] == ["auto-cost", "reference-bandwidth"] and len(words) == 3:
            igp.reference = number_of(words[2])
        elif not text.startswith(OF_OSPF) or words[0] == "area" and words[2:3] and words[2] in OF_AREA:
            self.unread(text)

    def redistributed(self, kind, words):
        """`redistribute connected|static [metric N] [metric-type 1|2]`."""
        more = dict(zip(words[2::2], words[3::2]))
        metric, adds = number_of(more.pop("metric", str(EXTERNAL))), more.pop("metric-type", "2") == "1"
        if more or metric is None or len(words) % 2:
            self.unread(" ".join(words))
        else:
            self.router.igp.redistributed[kind].append(Redistributed(words[1], metric, adds, self.place))


def area_of(word):
    """The number of an area, as FRR takes it: a number, or an address."""
    address = address_of(word)
    return address if address is not None else number_of(word)
