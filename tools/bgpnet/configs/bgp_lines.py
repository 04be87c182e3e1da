"""The lines below `router bgp` of a configuration of FRR: the router's own, and those of its neighbors."""
from bgpnet.configs.blocks import NOT_TAKEN, Blocks
from bgpnet.configs.commands import REFUSED
from bgpnet.configs.lists import mask_of
from bgpnet.configs.places import Passed
from bgpnet.configs.router import SENT, Line, Neighbor, Network
from bgpnet.configs.syntax import address_of, number_of, prefix_of
from bgpnet.network import Prefix

MOST_PASSWORD, MOST_HOPS = 80, 255


class BgpLines(Blocks):
    """Obeys lines of a router and of its neighbors."""

    # ---- router bgp

    def do_bgp(self, words, line):
        router, asn = self.router, int(words[2])
        if router.asn not in (None, asn):
            self.refuse(f"a second AS: {router.place} has {router.asn}")
        if router.asn is None:
            router.asn, router.place = asn, self.place
            is_new = router.version >= (7, 4, 0)
            defaults = {"bgp ebgp-requires-policy": is_new and router.profile != "datacenter",
                        "bgp network import-check": is_new,
                        "bgp deterministic-med": router.profile == "datacenter"}
            router.options.update((name, Line(value, self.place)) for name, value in defaults.items())
        self.block = "bgp"

    def do_again(self, words, line):
        """`router bgp` without a number is the one that is there."""
        if self.router.asn is None:
            self.refuse(f"'{line}': {REFUSED['cut']}")
        self.block = "bgp"

    def do_router_id(self, words, line):
        address = address_of(words[2])
        if not 1 <= address >> 24 <= 223:
            self.refuse(f"the router id {words[2]}: its first octet has to be 1 to 223")
        self.router.router_id = Line(address, self.place)

    def do_option(self, words, line):
        self.router.options[" ".join(words)] = Line(self.is_set, self.place)

    def do_med(self, words, line):
        self.router.options["bgp bestpath med missing-as-worst"] = Line(self.is_set, self.place)

    def do_default_preference(self, words, line):
        self.router.default_preference = int(words[3]) if self.is_set else 100
        self.router.default_line = (f"{self.place} bgp default local-preference",) if self.is_set else None

    def do_default_family(self, words, line):
        self.router.activates = self.is_set

    def do_cluster_id(self, words, line):
        number = address_of(words[-1]) if "." in words[-1] else number_of(words[-1])
        self.router.cluster_line = Line(number, self.place) if self.is_set else None

    def do_clusters(self, words, line):
        """With `equal-cluster-length` the length of CLUSTER_LIST is compared where the metrics are equal."""
        self.router.options["equal-cluster-length"] = Line(self.is_set, self.place)

    def do_family_ipv4(self, words, line):
        self.block = "family"

    def do_network(self, words, line):
        written = prefix_of(words[1])
        rest = words[2:]
        if written is None:
            address = address_of(words[1])
            if rest[:1] == ["mask"]:
                written, rest = (address, self.length_of(rest[1])), rest[2:]
            else:
                first = address >> 24
                written = address, 0 if not address else 8 if first < 128 else 16 if first < 192 else 24
        if written[0] >> 24 >= 224:
            self.refuse(f"'{line}': no network of hosts, and FRR's peers pass it over")
        prefix = Prefix(written[0] & mask_of(written[1]), written[1])
        self.router.networks[prefix] = Network(prefix, rest[1] if rest else None, self.place,
                                               self.router.default_preference)

    def length_of(self, mask):
        """The length of a netmask."""
        value = address_of(mask)
        length = bin(value).count("1")
        if mask_of(length) != value:
            self.refuse(f"'{mask}' is no netmask")
        return length

    # ---- neighbors

    def neighbor(self, key):
        """The neighbor, or the group, of an address or a name."""
        address = address_of(key)
        found = self.router.groups.get(key) if address is None else self.router.neighbors.get(address)
        if found is None and (key in self.lost or key in self.sixth):
            raise Passed
        if found is None:
            self.refuse(f"neighbor {key}: {NOT_TAKEN}: no line above says its AS, or that it is a group")
        return found

    def do_remote_as(self, words, line):
        router, key, asn = self.router, words[1], words[3]
        if ":" in key:
            self.sixth.setdefault(key, (self.place, router.activates))
            return
        number = router.asn if asn == "internal" else asn if asn == "external" else int(asn)
        remote, address = Line(number, self.place), address_of(key)
        if address is None:
            if key not in router.groups:
                self.refuse(f"neighbor {key}: {NOT_TAKEN}: no line above says that it is a group")
            router.groups[key].remote = remote
            return
        found = router.neighbors.get(address)
        if found is None:
            found = router.neighbors[address] = Neighbor(key, address, self.place, router.activates)
        elif found.group and found.group.remote:
            self.refuse(f"neighbor {key} remote-as {asn}: {NOT_TAKEN}: its group says {found.group.remote.name}")
        found.remote, found.place = remote, self.place

    def do_flag(self, words, line):
        """What a neighbor has or has not, by the word of its line."""
        self.say(words, "disable-connected-check" if words[2] == "enforce-multihop" else words[2], True)

    def do_hop_self(self, words, line):
        """`next-hop-self` and `next-hop-self force` are two flags, of which `no` takes back its own."""
        self.say(words, "next-hop-self" if words[-1] == "next-hop-self" else "next-hop-self force", True)

    def do_group(self, words, line):
        if address_of(words[1]) is not None:
            self.refuse(f"'{line}': {NOT_TAKEN}: an address is no name of a group")
        if words[1] not in self.router.groups:
            self.router.groups[words[1]] = Neighbor(words[1], None, self.place, self.router.activates)

    def do_member(self, words, line):
        router, address = self.router, address_of(words[1])
        group = router.groups.get(words[3])
        if ":" in words[1] and (group or words[3] in self.lost):
            self.sixth.setdefault(words[1], (self.place, bool(group and group.is_active)))
            return
        if group is None and words[3] in self.lost:
            self.lost.add(words[1])
            return
        if group is None:
            self.refuse(f"'{line}': {NOT_TAKEN}: no line above makes the group")
        if address is None:
            self.refuse(f"'{line}': {NOT_TAKEN}: '{words[1]}' is no address")
        found = router.neighbors.get(address)
        if found is None:
            found = router.neighbors[address] = Neighbor(words[1], address, self.place, group.is_active)
        elif found.group is group:
            return
        elif found.group is not None:
            self.refuse(f"'{line}': {NOT_TAKEN}: it is in the group {found.group.key}")
        elif group.remote is None and found.remote is not None:
            members = [one for one in router.neighbors.values() if one.group is group]
            first = min(members, key=lambda one: one.address, default=found)
            if first.remote is None:
                self.refuse(f"'{line}': {NOT_TAKEN}: the group's first member, {first.place}, has no AS yet")
        found.group, found.is_active = group, group.is_active

    def say(self, words, kind, value):
        """Keeps what a line says of a neighbor. With `no` it is as if nothing was said: a member goes by its group."""
        said = self.neighbor(words[1]).said
        if self.is_set:
            said[kind] = Line(value, self.place)
        else:
            said.pop(kind, None)

    def do_source(self, words, line):
        address = address_of(words[-1])
        self.say(words, "source", address if address is not None else words[-1])

    def do_password(self, words, line):
        if self.is_set and len(words[3]) > MOST_PASSWORD:
            self.refuse(f"'neighbor {words[1]} password': {NOT_TAKEN}: a password has at most {MOST_PASSWORD} octets")
        self.say(words, "password", words[-1])

    def do_hops(self, words, line):
        """FRR does not take `ttl-security` where `ebgp-multihop` stands above it."""
        kind = words[2]
        self.say(words, kind, MOST_HOPS if words[-1] == kind else number_of(words[-1]))
        other = self.neighbor(words[1]).line("ebgp-multihop") if self.is_set and kind == "ttl-security" else None
        if other:
            self.refuse(f"'{line}': {NOT_TAKEN}: {other.place} has ebgp-multihop")

    def do_interval(self, words, line):
        self.say(words, "interval", int(words[3]) if self.is_set else None)

    def do_kept(self, words, line):
        """Routes that outlast a restart."""
        self.named_neighbor(words)
        self.router.keeps_routes = True
        self.router.warn(self.place, f"'{line}': a peer's routes are kept while it restarts, 120 seconds if it "
                                     "says nothing else: what is said here of a crash and of a silent failure is not "
                                     "what FRR does meanwhile")

    def do_duplicates(self, words, line):
        """Duplicates that are suppressed, as FRR does by itself."""
        self.router.suppresses = Line(self.is_set, self.place)

    def do_weight(self, words, line):
        self.say(words, "weight", int(words[-1]) if self.is_set else 0)

    def do_activate(self, words, line):
        key = words[1]
        if key in self.sixth:
            self.sixth[key] = self.sixth[key][0], self.is_set
            return
        found = self.neighbor(key)
        found.is_active = self.is_set
        for member in self.router.neighbors.values() if found.address is None else ():
            if member.group is found:
                member.is_active = self.is_set

    def do_policy(self, words, line):
        key, kind, name, direction = words[1:5]
        found = self.neighbor(key)
        if not self.is_set:
            found.policies.pop((kind, direction), None)
            return
        other = {"distribute-list": "prefix-list", "prefix-list": "distribute-list"}.get(kind)
        if other and found.policy(other, direction):
            self.refuse(f"'{line}': {NOT_TAKEN}: {found.policy(other, direction).place} has a {other}")
        found.policies[kind, direction] = Line(name, self.place)

    def do_send(self, words, line):
        """A neighbor is sent all communities, but those that a line with `no` says."""
        said = self.neighbor(words[1]).said
        for kind in SENT.get(words[3], words[3:]) if words[3:] else ("standard",):
            if self.is_set:
                said.pop(("send", kind), None)
            else:
                said["send", kind] = Line(False, self.place)
