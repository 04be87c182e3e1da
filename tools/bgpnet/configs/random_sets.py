"""Makes random sets of configurations, the same for the same seed: 3 to 10 routers, with every construct that is read,
and gadgets whose ends are several or none."""
from bgpnet.configs import random_networks
from bgpnet.configs.random_networks import LIKED, PREFIXES

WELL_KNOWN = ("no-export", "no-advertise", "local-AS", "graceful-shutdown", "blackhole", "no-peer")
REGULAR = ("^$", "_{0}_", "^{0}_", "_{0}$", "{0}", "^[0-9]+$", "^{0}$", ".*", "_{0}_{1}_", "^({0}|{1})_", "^.* .* ",
           "[{2}]$", "^{0} {1}", "{0}.*{1}", "_{0}_|_{1}_", "^_{0}_", "{2}?{2}$", "^(_[0-9]+)+$", "( [0-9]+){1,2}$",
           "({2}|{0})+_")


class Maker(random_networks.Maker):
    """Makes one set."""

    def text_of(self, place):
        return Text(self, place).text()


class Text:
    """The configuration of one router."""

    def __init__(self, maker, place):
        self.maker, self.place, self.draw = maker, place, maker.draw
        draw = self.draw
        self.asn, self.peers = maker.asns[place], maker.peers(place)
        self.plain = draw.chance(0.2) or bool(maker.gadget) and draw.chance(0.8)
        self.names_source, self.says_families = draw.chance(0.15), draw.chance(0.06)
        self.lists = {"prefix-list": [], "access-list": [], "as-path": [], "community": [], "large-community": []}
        self.list_lines, self.map_lines, self.maps = [], [], []

    # ---- words

    def prefix(self):
        return self.draw.of(self.maker.prefixes if self.draw.chance(0.7) else PREFIXES + ("10.0.0.0/8", "0.0.0.0/0"))

    def community(self):
        if self.draw.chance(0.12):
            return self.draw.of(WELL_KNOWN)
        return f"{65000 + self.draw.number(1, 2)}:{self.draw.number(1, 4)}"

    def large(self):
        return f"{self.draw.number(1, 2)}:{self.draw.number(1, 2)}:{self.draw.number(1, 3)}"

    def verb(self, permits=0.75):
        return "permit" if self.draw.chance(permits) else "deny"

    def regular(self):
        text = self.draw.of(REGULAR)
        values = str(self.maker.asn_of_set()), str(self.maker.asn_of_set()), str(self.draw.number(0, 9))
        for at, value in enumerate(values):
            text = text.replace("{%d}" % at, value)
        return text

    # ---- lists

    def make_list(self, kind):
        name = f"{kind[:2].upper()}{len(self.lists[kind]) + 1}"
        if lines := getattr(self, "make_" + kind.replace("-", "_"))(name):
            self.lists[kind].append(name if isinstance(lines, list) else lines[0])
            self.list_lines += lines if isinstance(lines, list) else lines[1]

    def numbers(self, count):
        """Numbers of entries, or none at all."""
        if self.draw.chance(0.4):
            return [f"seq {10 * at + self.draw.number(1, 9)} " for at in range(count)]
        return [""] * count

    def make_prefix_list(self, name):
        lines, seen = [], set()
        for number in self.numbers(self.draw.number(1, 4)):
            prefix = self.prefix()
            length = int(prefix.split("/")[1])
            bounds = self.draw.of(("", "", f" le {self.draw.number(length, 32)}", f" ge {self.draw.number(length, 32)}",
                                   f" ge {length} le {self.draw.number(length, 32)}"))
            text = f"{self.verb()} {prefix}{bounds}" if self.draw.chance(0.9) else f"{self.verb()} any"
            if text not in seen:
                seen.add(text)
                lines.append(f"ip prefix-list {name} {number}{text}")
        if self.draw.chance(0.2):
            lines.append(f"ip prefix-list {name} description of some kind")
        if self.draw.chance(0.5) and not {"permit any", "deny any"} & seen:
            lines.append(f"ip prefix-list {name} seq 90 permit any")
        return lines

    def make_access_list(self, name):
        lines, seen = [], set()
        name = str(self.draw.number(1, 99)) if self.draw.chance(0.3) else name
        for number in self.numbers(self.draw.number(1, 3)):
            prefix = self.prefix()
            address = prefix.split("/")[0]
            text = self.draw.of((prefix, prefix, f"{prefix} exact-match", f"host {address}", f"{address} 0.0.255.255",
                                 "any", f"{address} 0.255.255.255", address))
            text = f"{self.verb()} {text}"
            if text not in seen:
                seen.add(text)
                lines.append(f"access-list {name} {number}{text}")
        if self.draw.chance(0.8):
            lines.append(f"access-list {name} {'remark end' if 'any' in ' '.join(seen) else 'permit any'}")
        return name, lines

    def make_as_path(self, name):
        lines = [f"bgp as-path access-list {name} {number}{self.verb(0.65)} {self.regular()}"
                 for number in self.numbers(self.draw.number(1, 3))]
        return lines + [f"bgp as-path access-list {name} seq 99 permit .*"] * self.draw.chance(0.6)

    def make_community(self, name):
        draw, lines = self.draw, []
        kind = draw.of(("standard", "standard", "expanded", "number", "large number"))
        name = {"number": str(draw.number(1, 99)), "large number": str(draw.number(100, 500))}.get(kind, name)
        head = f"bgp community-list {'' if name.isdigit() else kind + ' '}{name}"
        is_standard = kind in ("standard", "number")
        if any(line.split(" permit ")[0].split(" deny ")[0].startswith(head + " ") for line in self.list_lines):
            return None
        for number in self.numbers(draw.number(1, 3)):
            words = " ".join(self.community() for _ in range(draw.number(1, 2)))
            if is_standard and draw.chance(0.05):
                words = "internet"
            if not is_standard:
                words = draw.of((f"{65000 + draw.number(1, 2)}:.*", "^$", f"_{self.community()}_",
                                 f":{draw.number(1, 4)}$", ".", "no-export", f"^{self.community()}$",
                                 f"{self.community()} {self.community()}",
                                 f":[{draw.number(1, 2)}-{draw.number(3, 4)}]"))
            lines.append(f"{head} {number}{self.verb()} {words}")
        return name, lines

    def make_large_community(self, name):
        draw, lines = self.draw, []
        kind = draw.of(("standard", "expanded"))
        for number in self.numbers(draw.number(1, 2)):
            words = " ".join(self.large() for _ in range(draw.number(1, 2)))
            if kind == "expanded":
                words = draw.of((f"{draw.number(1, 2)}:.*", "^$", f"_{self.large()}_", f":{draw.number(1, 3)}$"))
            lines.append(f"bgp large-community-list {kind} {name} {number}{self.verb()} {words}")
        return lines

    def name_of(self, kind):
        """A list of a kind, sometimes one that is nowhere."""
        if self.draw.chance(0.015):
            return "NOWHERE"
        if not self.lists[kind] or self.draw.chance(0.5) and len(self.lists[kind]) < 4:
            self.make_list(kind)
        return self.draw.of(self.lists[kind]) if self.lists[kind] else "NOWHERE"

    # ---- route-maps

    def make_map(self, is_called=False):
        draw, name = self.draw, f"MAP{len(self.maps) + 1}"
        self.maps.append(name)
        lines, numbers = [], sorted(draw.some(range(1, 20), draw.number(1, 4)))
        for number in numbers:
            verb = self.verb(0.88)
            lines.append(f"route-map {name} {verb} {number * 5}")
            lines += self.entry_lines(verb, number * 5, is_called)
            lines.append(draw.of(("!", "exit", "exit")))
            if draw.chance(0.04):
                lines += [f"route-map {name} {verb} {number * 5}", f" {self.set_line()}", "exit"]
        if draw.chance(0.93):
            lines.append(f"route-map {name} permit {draw.of((100, 200, 65535))}")
            if draw.chance(0.3):
                lines.append(f" {self.set_line()}")
            lines.append("exit")
        self.map_lines.append(lines)
        return name

    def entry_lines(self, verb, number, is_called):
        draw = self.draw
        lines = [f" {self.match_line()}" for _ in range(draw.of((0, 1, 1, 1, 2)))]
        lines += [f" {self.set_line()}" for _ in range(draw.of((0, 1, 1, 2, 2, 3)))]
        if verb == "permit" and draw.chance(0.18):
            lines.append(draw.of((" on-match next", f" on-match goto {number + draw.number(1, 30)}",
                                  f" continue {number + draw.number(1, 15)}")))
        if draw.chance(0.1) and not is_called and len(self.maps) < 6:
            lines.append(f" call {self.make_map(True)}" if draw.chance(0.9) else " call NOWHERE")
        if draw.chance(0.1):
            lines.append(" description what it is for")
        return draw.some(lines, len(lines)) if draw.chance(0.3) else lines

    def match_line(self):
        draw = self.draw
        return draw.of((
            lambda: f"match ip address prefix-list {self.name_of('prefix-list')}",
            lambda: f"match ip address {self.name_of('access-list')}",
            lambda: f"match as-path {self.name_of('as-path')}",
            lambda: f"match as-path {self.name_of('as-path')}",
            lambda: f"match community {self.name_of('community')}{draw.of(('', '', ' exact-match'))}",
            lambda: f"match community {self.name_of('community')}{draw.of(('', '', ' exact-match'))}",
            lambda: f"match large-community {self.name_of('large-community')}{draw.of(('', ' exact-match'))}",
            lambda: f"match metric {draw.number(1, 30)}",
            lambda: f"match local-preference {draw.of((0, 100, 150))}",
            lambda: f"match origin {draw.of(('igp', 'egp', 'incomplete'))}"))()

    def set_line(self):
        draw = self.draw
        return draw.of((
            lambda: f"set local-preference {draw.of(('50', '150', '200', '+50', '-20', '100', '+150'))}",
            lambda: f"set local-preference {draw.of(('50', '150', '200', '80', '120'))}",
            lambda: f"set metric {draw.of(('0', '5', '10', '20', '+7', '-3', '30'))}",
            lambda: f"set weight {draw.of((0, 10, 100, 200))}",
            lambda: f"set as-path prepend {' '.join(str(self.prepended()) for _ in range(draw.number(1, 3)))}",
            lambda: "set as-path prepend 64999",
            lambda: f"set as-path prepend last-as {draw.number(1, 3)}",
            lambda: f"set as-path exclude {self.maker.asn_of_set()}" if draw.chance(0.3) else "set origin incomplete",
            lambda: f"set community {' '.join(self.community() for _ in range(draw.number(1, 2)))} additive",
            lambda: f"set community {' '.join(self.community() for _ in range(draw.number(1, 2)))} additive",
            lambda: f"set community {' '.join(self.community() for _ in range(draw.number(1, 3)))}",
            lambda: "set community none" if draw.chance(0.4) else f"set comm-list {self.name_of('community')} delete",
            lambda: f"set large-community {' '.join(self.large() for _ in range(draw.number(1, 2)))}"
                    f"{draw.of(('', ' additive'))}",
            lambda: f"set large-comm-list {self.name_of('large-community')} delete",
            lambda: f"set origin {draw.of(('igp', 'egp', 'incomplete'))}"))()

    def prepended(self):
        return self.asn if self.draw.chance(0.7) else self.draw.of((64999, self.maker.asn_of_set()))

    def map_name(self):
        if self.draw.chance(0.01):
            return "NOWHERE"
        if not self.maps or self.draw.chance(0.6) and len(self.maps) < 5:
            return self.make_map()
        return self.draw.of(self.maps)

    # ---- neighbors

    def policy_lines(self, key):
        draw, lines = self.draw, []
        if self.plain:
            return lines
        for direction in ("in", "out"):
            if draw.chance(0.45):
                lines.append(f"neighbor {key} route-map {self.map_name()} {direction}")
            if draw.chance(0.1):
                kind = draw.of(("prefix-list", "distribute-list"))
                of = {"prefix-list": "prefix-list", "distribute-list": "access-list"}[kind]
                lines.append(f"neighbor {key} {kind} {self.name_of(of)} {direction}")
            if draw.chance(0.1):
                lines.append(f"neighbor {key} filter-list {self.name_of('as-path')} {direction}")
        if draw.chance(0.08):
            lines.append(f"neighbor {key} weight {draw.of((5, 50, 150))}")
        if draw.chance(0.15):
            lines.append(draw.of((f"no neighbor {key} send-community", f"no neighbor {key} send-community all",
                                  f"no neighbor {key} send-community large", f"neighbor {key} send-community both",
                                  f"no neighbor {key} send-community both")))
        if draw.chance(0.1):
            lines.append(draw.of((f"neighbor {key} soft-reconfiguration inbound", f"neighbor {key} next-hop-self")))
        if draw.chance(0.012):
            lines.append(f"no neighbor {key} activate")
        return lines

    def gadget_lines(self, peer, key):
        """What a gadget wants: routes through one neighbor first, where it has the origin's own link beside."""
        gadget, place = self.maker.gadget, self.place
        if LIKED[gadget].get(place) == peer:
            paths = f"^{self.maker.asns[peer]}_{self.maker.asns[0]}$" if gadget != "wedgie" else ".*"
            self.list_lines.append(f"bgp as-path access-list GADGET permit {paths}")
            self.map_lines.append(["route-map GADGET permit 10", " match as-path GADGET", " set local-preference 300",
                                   "exit"])
            return [f"neighbor {key} route-map GADGET in"]
        return []

    def neighbor_lines(self):
        """The lines of the neighbors: those of sessions, and those of the address family."""
        draw, session, family = self.draw, [], []
        groups = {}
        for peer in self.peers:
            key, asn = f"10.255.{peer + 1}.1", self.maker.asns[peer]
            own = self.gadget_lines(peer, key) if self.maker.gadget else []
            if draw.chance(0.2) and not own:
                group = draw.of(("ONE", "TWO"))
                if group not in groups:
                    groups[group] = draw.chance(0.3)
                    session.append(f"neighbor {group} peer-group")
                    if groups[group]:
                        session.append(f"neighbor {group} remote-as external")
                    family += self.policy_lines(group)
                if not groups[group]:
                    session.append(f"neighbor {key} remote-as {asn}")
                session.append(f"neighbor {key} peer-group {group}")
                own += self.policy_lines(key) if draw.chance(0.3) else []
                own = self.without_conflicts(own, [line for line in family if f" {group} " in line])
            else:
                session.append(f"neighbor {key} remote-as {'external' if draw.chance(0.05) else asn}")
                own += self.policy_lines(key) if not own else []
            if draw.chance(0.1):
                session.append(f"neighbor {key} " + draw.of((f"description the router {asn}", "timers connect 5",
                                                             "sender-as-path-loop-detection", "ebgp-multihop")))
            if self.names_source:
                session.append(f"neighbor {key} update-source 10.255.{self.place + 1}.1")
            if draw.chance(0.012):
                session.append(f"neighbor {key} shutdown")
            family += [f"neighbor {key} activate"] * self.says_families + own
        return session, family

    @staticmethod
    def without_conflicts(own, group):
        """The lines of a member without a list that its group's other list of a direction stands against."""
        taken = {(line.split()[-1]) for line in group if "-list" in line and "filter" not in line}
        return [line for line in own
                if not ("prefix-list" in line or "distribute-list" in line) or line.split()[-1] not in taken]

    def option_lines(self):
        draw = self.draw
        lines = [f"bgp router-id {self.maker.router_id(self.place)}"]
        lines += ["no bgp default ipv4-unicast"] * self.says_families
        if draw.chance(0.92) or self.maker.gadget:
            lines.append("no bgp ebgp-requires-policy")
        chosen = draw.each((
            ("bgp always-compare-med", 0.15), ("bgp deterministic-med", 0.15),
            ("bgp bestpath med missing-as-worst", 0.15), ("bgp bestpath compare-routerid", 0.35),
            ("bgp bestpath as-path ignore", 0.08), ("no bgp network import-check", 0.3),
            (f"bgp default local-preference {draw.of((50, 150, 250))}", 0.12),
            ("bgp log-neighbor-changes", 0.2), ("bgp bestpath as-path multipath-relax", 0.1)))
        return lines + [line for line in chosen if not (self.maker.gadget and "as-path ignore" in line)]

    def network_lines(self):
        draw, lines = self.draw, []
        for prefix, origin in self.maker.origins.items():
            if origin == self.place:
                written = prefix
                address, length = prefix.split("/")
                if length == "16" and draw.chance(0.2):
                    written = f"{address} mask 255.255.0.0"
                map_part = f" route-map {self.map_name()}" if draw.chance(0.2) and not self.maker.gadget else ""
                lines.append(f"network {written}{map_part}")
        return lines

    # ---- the whole

    def text(self):
        draw = self.draw
        session, family = self.neighbor_lines()
        family = self.network_lines() + family
        if draw.chance(0.15):
            family = [self.shortened(line) for line in family]
        body = [f"router bgp {self.asn}"] + [" " + line for line in self.option_lines() + session]
        if draw.chance(0.2):
            body += [" " + line for line in family] + [draw.of(("exit", "!"))]
        else:
            body += [" !", " address-family ipv4 unicast"] + ["  " + line for line in family]
            body += [" exit-address-family", draw.of(("exit", "!"))]
        default = next((line for line in body if line.startswith(" bgp default local-preference")), None)
        if default and draw.chance(0.5):
            body.remove(default)
            body.insert(-1, default)
        heads = [["frr version 8.4.4", "frr defaults traditional"], ["frr version 7.3", "frr defaults traditional"],
                 ["frr version 8.4.4", "frr defaults datacenter"], ["! by hand"]]
        head = draw.of(heads if draw.chance(0.3) else heads[:1])
        maps = [line for lines in self.map_lines for line in lines + ["!"]]
        parts = draw.some([body, self.list_lines, maps], 3)
        lines = head + [f"hostname r{self.place + 1}", "!"] + [line for part in parts for line in part + ["!"]]
        return "".join(line + ("\r\n" if self.place == 1 and draw.chance(0.3) else "\n") for line in lines)

    @staticmethod
    def shortened(line):
        return line.replace("neighbor ", "neigh ").replace(" route-map ", " route-m ").replace("network ", "netw ", 1)


def make(seed):
    """The files of a set, by their names."""
    return Maker(seed).texts
