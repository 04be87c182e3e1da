"""Sets of which an AS has several routers: each of them stands in the network by a number of its own."""
import os
import re

from bgpnet.configs.igp import Igp, is_on
from bgpnet.configs.inside import is_direct
from bgpnet.configs.origins import origins_of
from bgpnet.configs.places import OF_ITS_OWN, Passed, Reasons, refusal
from bgpnet.configs.sessions import End, Set
from bgpnet.network import path_text
from bgpnet.program import Refusal, grouped


# How the name of an AS outside ends, and how many digits of a number in a name count.
OUTSIDE, MOST_DIGITS = re.compile(r" \(AS (\d+)\)$"), 1000


def has_several(routers):
    """Whether an AS has several of some routers."""
    return len({router.asn for router in routers}) < len(routers)


def file_name(router):
    """What a router is called by its file: its name without its folder and its ending; an AS outside by its number."""
    outside = OUTSIDE.search(router.name)
    return f"AS{outside[1]}" if outside else os.path.splitext(os.path.basename(router.name))[0]


def natural(name):
    """The key of a name, numbers in it by their value."""
    return [(not part.isdecimal(), int(part[:MOST_DIGITS]) if part.isdecimal() else 0, part)
            for part in re.split(r"(\d+)", name)]


class AsSet(Set):
    """The routers of a set, their sessions, and what each reaches.

    Their numbers are 1 and on, in the order of their hostnames, or of the names of their files where they have none;
    `r10` stands behind `r2`. Numbers of ASes stand in AS_PATH alone. `behind` are the routers that stand behind several
    that announce the same prefixes (configs/origins.py)."""

    refuses_ties = True
    about_ties = ": no order: 'bgp bestpath compare-routerid' makes one, and --ties plays both"

    def __init__(self, routers, reasons=None, edges=None, down=(), known=()):
        for router in routers:
            router.host = router.host or file_name(router)
        names = [router.host for router in routers]
        gone = [name for name in known if name not in names]
        for number, (_, at) in enumerate(sorted((natural(name), at) for at, name in enumerate(names + gone)), 1):
            if at < len(names):
                routers[at].given = number
                routers[at].notes = [note for note in routers[at].notes if note not in routers[at].alone]
        self.names = {router.given: name for router, name in zip(routers, names)}
        reasons = Reasons() if reasons is None else reasons
        for at, router in enumerate(routers):
            others = [one for one in routers[:at] + [one for one in routers[at + 1:] if one.language == "FRR"]
                      if one.asn == router.asn]
            if others and router.language != "FRR":
                router.is_sound = False
                reasons.add(refusal(router.place, f"AS {router.asn} is that of {others[0].place} too: iBGP of "
                                                  f"{router.language} is not read: its router is {OF_ITS_OWN}"))
        self.edges, self.down, self.igp, self.unreached = edges, down, None, set()
        self.behind = origins_of(routers, len(names) + len(gone) + 1)
        self.names.update((router.number, router.host) for router in self.behind)
        super().__init__([*routers, *self.behind], reasons)

    def hosts(self):
        return tuple(sorted(name for number, name in self.names.items() if not self.routers[number].is_origins))

    def networks(self):
        """Each line that announces a prefix; where several do, the router that stands behind them."""
        several = {prefix for router in self.behind for prefix in router.networks}
        return [(router, prefix, network) for router, prefix, network in super().networks()
                if router.is_origins or prefix not in several]

    def label(self, number):
        if number in self.called:
            return self.called[number]
        name = self.names[number]
        return name if list(self.names.values()).count(name) == 1 and not name.isdigit() else str(number)

    def path_label(self, path):
        return path_text(map(self.label, path))

    def named_number(self, word):
        """The number of the router that a word names, or None."""
        return next((number for number in self.routers if word in (self.label(number), str(number))), None)

    def link_of(self, word):
        """The two routers of `U-V`, by their names, which may have a dash in them."""
        for at, letter in enumerate(word):
            link = self.named_number(word[:at]), self.named_number(word[at + 1:])
            if letter == "-" and None not in link and link[0] != link[1]:
                return link
        raise Refusal(f"there are no routers {word}: a link is written as U-V")

    # ---- whose an address is

    def find_owners(self):
        """The router of each address: of an interface, a source, or a router id that a neighbor is named by; then by
        what is left."""
        self.find_own()
        ids = self.ids()
        for router, neighbor in self.named():
            owner = self.owner(neighbor.address)
            if owner is None and neighbor.address in ids and self.may_be(router, neighbor, ids[neighbor.address]):
                self.owners[neighbor.address] = ids[neighbor.address], ids[neighbor.address].router_id.place
            elif owner is not None and not self.may_be(router, neighbor, owner):
                of = "another one" if neighbor.asn.name == "external" else neighbor.asn.name
                self.reasons.add(refusal(
                    neighbor.asn.place, f"neighbor {neighbor.key} is AS {of} here, and its address is one of "
                    f"{self.label(owner.number)}, AS {owner.asn}, at {self.owners[neighbor.address][1]}"))

    @staticmethod
    def may_be(router, neighbor, other):
        """Whether a router may be the neighbor of another, by its AS."""
        return other.asn != router.asn if neighbor.asn.name == "external" else other.asn == neighbor.asn.name

    def find_pairs(self):
        """The routers of neighbors whose address no line says, where two name each other by the addresses of one subnet
        of two (/30 or /31), and no third one does."""
        unknown = [(router, neighbor) for router, neighbor in self.named() if neighbor.address not in self.owners]
        on = grouped((neighbor.address >> 2, (router, neighbor)) for router, neighbor in unknown)
        for ends in on.values():
            if len(ends) == 2 and ends[0][0] is not ends[1][0] and ends[0][1].address != ends[1][1].address:
                for (router, neighbor), (other, back) in (ends, ends[::-1]):
                    if self.may_be(router, neighbor, other) and self.may_be(other, back, router):
                        self.guess(neighbor.address, other, back.place)

    def find_unsaid(self):
        self.find_pairs()
        super().find_unsaid()

    @staticmethod
    def is_by_address(neighbor):
        return True

    def names_back(self, router, neighbor, other):
        return self.may_be(router, neighbor, other) and any(
            of is other and self.may_be(other, one, router) and self.owner(one.address) in (None, router)
            for of, one in self.named())

    def peer_of(self, router, neighbor):
        owner = self.owner(neighbor.address)
        if owner is not None:
            if not self.may_be(router, neighbor, owner):
                raise Passed  # it was refused by whose the address is
            return owner
        if not any(self.may_be(router, neighbor, other) for other in self.routers.values()
                   if other is not router and not other.is_origins):
            return None
        if self.reasons:
            raise Passed
        raise refusal(neighbor.place, f"neighbor {neighbor.key}: which router of AS {neighbor.asn.name} has this "
                                      "address no line says: give the addresses of interfaces")

    # ---- sessions

    def find_sessions(self):
        if not self.reasons or self.edges is None and not self.down:
            self.igp = Igp(self, self.edges, [self.link_of(word) for word in self.down])
            for router in self.routers.values():
                self.check_imports(router)
        for behind in self.behind:
            for router in behind.origins:
                self.ends[behind.number][router.number] = End(behind, behind.neighbor())
                self.ends[router.number][behind.number] = End(router, behind.neighbor())
        super().find_sessions()

    @staticmethod
    def check_imports(router):
        """Takes back the warning of `import-check` where all networks of a router are in its table."""
        if router.reach and all((prefix.address, prefix.length) in router.reach.table for prefix in router.networks):
            router.notes = [(place, said) for place, said in router.notes if not said.startswith("network: ")]

    def warn_of_worst(self, end, far):
        """Warns where no MED counts as the worst, and MED 0 may stand in its place."""
        worst, duplicates = end.router.options.get("bgp bestpath med missing-as-worst"), far.router.suppresses
        if worst and worst.name and (duplicates is None or duplicates.name):
            end.router.warn(worst.place, f"{self.label(far.router.number)} tells no route anew by iBGP that has no MED "
                            "where the last one had 0, so that the choice may hang on which came first: not with 'no "
                            "bgp suppress-duplicates' there")

    def join(self, one, other):
        """Makes a session of two ends that reach each other. One that lines shut is passed over for that; where links
        are down the others stay, without routes."""
        for end, far in ((one, other), (other, one)):
            found = end.router.no_session(end.neighbor, far) or self.no_way(end, far)
            if found:
                end.router.warn(*found)
                self.unreached.add(frozenset((one.router.number, other.router.number)))
                if not self.down or end.router.no_session(end.neighbor, far):
                    return
            if end.router.asn == far.router.asn:
                self.warn_of_worst(end, far)
        super().join(one, other)

    def carries(self, asn, peer):
        ends = self.routers[asn], self.routers[peer]
        are_known = all(router.reach is not None or router.language != "FRR" for router in ends)
        return super().carries(asn, peer) and are_known and frozenset((asn, peer)) not in self.unreached

    @staticmethod
    def no_way(end, far):
        """Why an end does not reach the other, as the place and the words of a warning, or None."""
        router, neighbor = end.router, end.neighbor
        if router.reach is None:
            return None
        if router.asn == far.router.asn or not is_direct(router, neighbor):
            if router.reach.metric(neighbor.address) is not None:
                return None
            return neighbor.place, f"neighbor {neighbor.key} is not reached: there is no session"
        shut = next((one.name for one in router.reach.shut if is_on(one, neighbor.address)), None)
        if shut is None or router.reach.subnet(neighbor.address) is not None:
            return None
        return neighbor.place, f"neighbor {neighbor.key} is on interface {shut}, which is shut: there is no session"
