"""Reads the lines of a configuration of FRR one by one: which command each is, and in which block it stands."""
import re

from bgpnet.configs import commands
from bgpnet.configs.interfaces import Interface
from bgpnet.configs.places import Passed, Place, Reasons, refusal
from bgpnet.configs.router import Router
from bgpnet.configs.syntax import Unreadable, prefix_of
from bgpnet.program import Refusal

NOT_TAKEN = "FRR 8.4 does not take this line"
# What `show running-config` prints above a configuration.
PRINTED_ABOVE = "", "Building configuration...", "Current configuration:"
READ = 8, 4  # the version whose language this is
MOST_HOST = 255


# What never stands inside an address family.
OUTSIDE = ("router", "address-family", "route-map", "interface", "end")


def indent_of(line):
    return len(line) - len(line.lstrip())


class Blocks:
    """Obeys the lines of one file. `reasons` has what is refused of them; what hangs on a refused line is not refused
    by itself. The words of a line are those behind `no`, where it begins with that, and `is_set` says that it does
    not."""

    def __init__(self, text, name):
        self.router, self.block, self.place = Router(name), "config", Place(name, 0)
        self.entry, self.foreign, self.interface, self.indent = None, None, None, None
        self.reasons, self.of_maps, self.lost, self.sixth, self.is_set = Reasons(), {}, set(), {}, True
        is_above = True
        for number, line in enumerate(text.split("\n"), 1):
            is_above = is_above and line.strip() in PRINTED_ABOVE
            self.place = Place(name, number)
            if not is_above:
                self.try_to_obey(line.rstrip("\r"))
        self.judge_sixth()
        self.judge_maps()

    # ---- lines and blocks

    def try_to_obey(self, line):
        """Obeys a line, or keeps why it is refused."""
        try:
            self.obey(line)
        except Passed:
            pass
        except Refusal as why:
            self.reasons.add(why)
            words = line.split()
            if words[0] == "neighbor" and len(words) > 2 and ("remote-as" in words or "peer-group" in words):
                self.lost.add(words[1])
            elif words[0] in ("address-family", "router", "vrf", "route-map"):
                self.pass_block("family" if words[0] == "address-family" else "other")
                self.lost.add(" ".join(words[:2]))

    def pass_block(self, kind):
        """Passes over what stands below a line."""
        self.foreign, self.indent = kind, None

    def judge_sixth(self):
        """Passes neighbors of IPv6 over that carry no IPv4 routes."""
        for key, (place, is_active) in self.sixth.items():
            if is_active:
                self.reasons.add(refusal(place, f"neighbor {key}: {commands.REFUSED['ipv6']}, and it carries them "
                                                "unless 'no neighbor .. activate' stands in their family"))
            else:
                self.router.warn(place, f"neighbor {key}: a session of IPv6 that carries no IPv4 routes is passed over")

    def judge_maps(self):
        """Refuses what is not read in route-maps that are used, and warns of it in others."""
        used, router = [], self.router
        for neighbor in router.all_neighbors():
            used += [line.name for (kind, _), line in neighbor.policies.items() if kind == "route-map"]
        used += [network.map_name for network in router.networks.values() if network.map_name]
        for name in used:
            entries = router.maps[name].ordered() if name in router.maps else []
            used += [entry.call.name for entry in entries if entry.call and entry.call.name not in used]
        for name, reasons in self.of_maps.items():
            for place, why in reasons:
                if name in used:
                    self.reasons.add(refusal(place, why))
                else:
                    router.warn(place, f"{why}; no IPv4 route goes by route-map {name}, so it is passed over")

    def refuse(self, why):
        raise refusal(self.place, why)

    def obey(self, line):
        """Obeys a line."""
        words = line.split()
        if not words or words[0][0] in "!#":
            return
        if self.router.end:
            self.refuse(f"'{line.strip()}' stands behind 'end', where FRR takes nothing")
        if not line.isascii() and not line.strip().startswith(("description", "neighbor", "hostname", "banner")):
            self.refuse("an octet past ASCII")
        if self.foreign and self.is_foreign(line, words):
            self.router.foreign.add(self.place.line)
            return
        self.foreign = None
        self.act(self.find(words), line)

    def is_foreign(self, line, words):
        """Whether a line stands in a block that is passed over; the addresses of an interface are kept."""
        if self.foreign == "interface" and words[:2] == ["ip", "address"] and len(words) > 2:
            address = prefix_of(words[2])
            if address is None:
                self.refuse(f"'{words[2]}' is no address with a length")
            self.router.addresses.setdefault(address[0], self.place)
            if self.interface.name == "lo":
                self.router.loopbacks.add(address[0])
            self.interface.addresses.append((address, self.place))
            return True
        if self.foreign == "interface" and words == ["shutdown"]:
            self.router.warn_alone(self.place, "the interface is shut: 'shutdown' is not read")
        self.igp_line(words)
        if words[0] in ("exit", "quit") or words[0].startswith("exit-"):
            self.foreign = "closed"
            return True
        if self.foreign == "family":
            # FRR prints the end of a family; a line further out than the first one in it ends it too.
            self.indent = indent_of(line) if self.indent is None else self.indent
            return words[0] not in OUTSIDE and indent_of(line) >= self.indent
        return self.foreign != "closed" and line[:1] in (" ", "\t")

    def find(self, words):
        """The command of a line, in its block or in one round it, which then is the block."""
        blocks = {"family": ("family", "bgp", "config"), "bgp": ("bgp", "config"),
                  "route-map": ("route-map", "config"), "config": ("config",)}[self.block]
        for block in blocks:
            try:
                match = commands.TABLES[block].find(tuple(words))
            except Unreadable as why:
                self.refuse(f"'{' '.join(words)}': {why}")
            if match and (match.command.action != "foreign" or words[0] == match.words[0]):
                if match.command.action not in ("leave", "finish"):
                    self.block = block
                return match
        return self.refuse(f"'{' '.join(words)}' is no line that is known here")

    def act(self, match, line):
        action, line, self.is_set = match.command.action, line.strip(), match.words[0] != "no"
        words = list(match.words if self.is_set else match.words[1:])
        if action in ("foreign", "addresses", "warned", "ignored") and self.block == "config":
            self.router.foreign.add(self.place.line)
        if match.command.why and self.block == "route-map" and action not in ("undone", "cut"):
            why = self.place, f"'{line}': {match.command.why}"
            self.of_maps.setdefault(self.entry.map_name, []).append(why)
            return
        if match.command.why:
            self.refuse(f"'{line}': {match.command.why}")
        if action == "ignored":
            self.named_neighbor(words)
        elif action == "warned":
            self.named_neighbor(words)
            self.router.warn(self.place, f"'{line}' is not read")
        else:
            getattr(self, "do_" + action)(words, line)

    def named_neighbor(self, words):
        """The neighbor that a line names has to be there."""
        if words[0] == "neighbor" and words[1:]:
            self.neighbor(words[1])

    def do_leave(self, words, line):
        if self.block == "config":
            self.refuse(f"'{line}' leaves the configuration: FRR refuses what follows")
        self.block = "bgp" if self.block == "family" else "config"

    def do_finish(self, words, line):
        self.router.end = self.place.line

    def do_wrong(self, words, line):
        self.refuse(f"'{line}': {NOT_TAKEN}")

    def do_old(self, words, line):
        self.refuse(f"'{line}': {NOT_TAKEN}: it is 'bgp {' '.join(words[1:3])} ..'")

    def do_foreign(self, words, line):
        self.pass_block("other")

    def do_apart(self, words, line):
        """A block on which no IPv4 route of this instance depends."""
        self.router.warn(self.place, f"'{line}' is passed over: no IPv4 route of this instance goes by it")
        self.pass_block("family" if words[0] == "address-family" else "other")
        if self.block == "config":
            self.router.foreign.add(self.place.line)

    def do_addresses(self, words, line):
        self.foreign = "interface"
        self.interface = self.router.interfaces.setdefault(words[1], Interface(words[1], self.place))

    def do_host(self, words, line):
        if words[0] == "hostname":
            self.router.host = words[1]
        if not words[1][0].isalnum() or len(words[1]) > MOST_HOST:
            self.refuse(f"'{line}': {NOT_TAKEN}: a name begins with a letter or a digit, and has at most "
                        f"{MOST_HOST} signs")
        if self.block == "config":
            self.router.foreign.add(self.place.line)

    def do_version(self, words, line):
        found = re.fullmatch(r"(\d{1,9})(?:\.(\d{1,9}))?((?:\.\d{1,9})*)([^\d.].*)?", words[2])
        if not found:
            self.refuse(f"'{words[2]}' is no version")
        major, minor, more, tail = found.groups()
        if (int(major), int(minor or 0)) > READ:
            self.router.warn(self.place, f"the version is {words[2]}: what is read here is the language of FRR 8.4")
        is_before = not more and (tail or "").startswith("~")
        self.router.version = int(major), int(minor or 0), -1 if is_before else 0

    def do_profile(self, words, line):
        if words[2] not in ("traditional", "datacenter"):
            self.refuse(f"'{words[2]}' is no profile: traditional or datacenter")
        self.router.profile = words[2]
