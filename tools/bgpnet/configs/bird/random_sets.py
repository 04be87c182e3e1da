"""Makes random sets of configurations of BIRD, or of BIRD and FRR, the same for the same seed: every construct that is
read, and gadgets whose ends are several or none."""
from bgpnet.configs import random_networks, random_sets
from bgpnet.configs.bird.random_filters import Filters
from bgpnet.configs.random_networks import LIKED
from bgpnet.network import lines_text


class Maker(random_networks.Maker):
    """Makes one set."""

    def __init__(self, seed, is_mixed):
        self.is_mixed, self.roles = is_mixed, None
        super().__init__(seed + (1 << 33) + is_mixed)

    def text_of(self, place):
        if self.roles is None:
            self.roles = self.draw.chance(0.08)
        if self.is_mixed and self.draw.chance(0.45):
            return random_sets.Text(self, place).text()
        return Text(self, place).text()


class Text:
    """The configuration of one router."""

    def __init__(self, maker, place):
        self.maker, self.place, self.draw = maker, place, maker.draw
        self.asn, self.peers = maker.asns[place], maker.peers(place)
        draw = self.draw
        self.plain = draw.chance(0.15) or bool(maker.gadget) and draw.chance(0.8)
        self.filters = Filters(self.draw, maker, self.asn)
        self.is_far, self.names_source = draw.chance(0.25), draw.chance(0.6)

    # ---- policies

    def policy(self, direction):
        """What stands behind `import` or `export`."""
        draw, filters = self.draw, self.filters
        if self.plain or draw.chance(0.3):
            return f"{direction} all;"
        if draw.chance(0.02):
            return f"{direction} none;"
        if draw.chance(0.2):
            return f"{direction} where {filters.condition(direction)};"
        if draw.chance(0.2):
            return f"{direction} filter {filters.body(direction, 2)};"
        return f"{direction} filter {filters.named(direction)};"

    def gadget_policy(self, peer):
        """What a gadget wants: routes through one neighbor first, where it has the origin's own link beside."""
        if LIKED[self.maker.gadget].get(self.place) != peer:
            return None
        if self.maker.gadget == "wedgie":
            return "import filter { bgp_local_pref = 300; accept; };"
        mask = f"[= {self.maker.asns[peer]} {self.maker.asns[0]} =]"
        return f"import filter {{ if bgp_path ~ {mask} then bgp_local_pref = 300; accept; }};"

    def channel_lines(self):
        draw = self.draw
        chosen = draw.each((
            (f"preference {draw.of((90, 110, 120))};", 0.05), (f"cost {draw.number(1, 30)};", 0.1),
            ("import keep filtered;", 0.05), ("next hop self;", 0.08), ("import limit 1000;", 0.04),
            ("add paths off;", 0.02), ("mandatory;", 0.03)))
        return [] if self.maker.gadget else chosen

    # ---- protocols

    def option_lines(self):
        draw = self.draw
        chosen = draw.each((
            ("med metric;", 0.12), ("med metric off;", 0.04), ("path metric off;", 0.05),
            ("deterministic med on;", 0.1), (f"default bgp_med {draw.number(0, 30)};", 0.12),
            (f"default bgp_local_pref {draw.of((50, 150, 250))};", 0.12), ("igp metric off;", 0.05),
            ("interpret communities off;", 0.08), ("allow bgp_local_pref on;", 0.12), ("enforce first as on;", 0.08),
            ("hold time 90;", 0.1), ("graceful restart on;", 0.05), ("enable extended messages on;", 0.05),
            ("prefer older off;", 0.03)))
        return [line for line in chosen if not (self.maker.gadget and "path metric" in line)]

    def role_line(self, peer):
        """Roles that fit: the router with the lesser place is the provider of the other, or all are peers."""
        if not self.maker.roles or self.draw.chance(0.3):
            return []
        return [f"local role {'provider' if self.place < peer else 'customer'};"]

    def protocol(self, peer, template):
        draw = self.draw
        source = f" 10.255.{self.place + 1}.1" if self.names_source else ""
        lines = [f"local{source} as {self.asn};"]
        address, asn = f"10.255.{peer + 1}.1", self.maker.asns[peer]
        lines.append(draw.of((f"neighbor {address} as {asn};", f"neighbor {address} as {asn};",
                              f"neighbor as {asn}; neighbor {address};", f"neighbor {address} as {asn} external;"))
                     if draw.chance(0.97) else f"neighbor {address} external;")
        if self.is_far:
            lines.append(draw.of(("multihop;", "multihop 5;")))
        lines += self.option_lines() if draw.chance(0.5) else []
        lines += self.role_line(peer)
        if draw.chance(0.03):
            lines.append(f"router id 1.{self.place + 1}.{peer + 1}.9;")
        own = self.gadget_policy(peer) if self.maker.gadget else None
        policies = [own or self.policy("import"), self.policy("export")]
        if template and draw.chance(0.5) and not own:
            policies = draw.some(policies, draw.number(0, 1))
        channel = draw.some(policies + self.channel_lines(), 99)
        lines += [f"ipv4 {{ {' '.join(channel)} }};"] if channel or not template else []
        lines = draw.some(lines, 99) if draw.chance(0.3) else lines
        name = f" {self.name_of(peer)}" if draw.chance(0.85) else ""
        head = f"protocol bgp{name}{' from ' + template if template else ''} {{"
        return [head, *("  " + line for line in lines), "}"]

    def name_of(self, peer):
        return self.draw.of((f"r{peer + 1}", f"to_{peer + 1}", f"'peer-{peer + 1}'"))

    def template(self):
        draw = self.draw
        if self.plain or not draw.chance(0.3):
            return None, []
        lines = [f"local as {self.asn};"] + self.option_lines()
        lines.append(f"ipv4 {{ {self.policy('import')} {self.policy('export')} {' '.join(self.channel_lines())} }};")
        return "BASE", ["template bgp BASE {", *("  " + line for line in lines), "}"]

    def settings(self):
        """Statements for a static route; where the first unsets an attribute BIRD ends by a fault."""
        found = [self.filters.settings("static") for _ in range(self.draw.number(1, 2))]
        return " ".join(["bgp_med = 4;"] * found[0].startswith("unset") + found)

    def static(self):
        """The protocols with the routers' own prefixes."""
        draw, found = self.draw, []
        own = [prefix for prefix, origin in self.maker.origins.items() if origin == self.place]
        parts = [own] if draw.chance(0.8) else [own[::2], own[1::2]]
        for part in parts:
            if not part:
                continue
            lines = [f"ipv4 {{ import filter {self.filters.body('static', 1)}; }};"
                     if draw.chance(0.15) and not self.plain else "ipv4;"]
            for prefix in part:
                kind = draw.of(("blackhole", "blackhole", "unreachable", "prohibit"))
                block = f" {{ {self.settings()} }}" if draw.chance(0.3) and not self.plain else ""
                lines.append(f"route {prefix} {kind}{block};")
            name = draw.of((" own", "")) if not found else ""
            found += [f"protocol static{name} {{", *("  " + line for line in lines), "}"]
        return found

    def text(self):
        draw = self.draw
        template, head = self.template()
        static = self.static()
        protocols = [self.protocol(peer, template if draw.chance(0.7) else None) for peer in self.peers]
        parts = head + static + [line for protocol in draw.some(protocols, 99) for line in protocol]
        lines = [draw.of(("# by hand", "/* by hand */", "log syslog all;")),
                 f"router id {self.maker.router_id(self.place)};", "protocol device { }", *self.filters.lines(), *parts]
        if draw.chance(0.1):
            lines.insert(3, "protocol kernel { ipv4 { export none; }; }")
        return lines_text(lines)


def make(seed, is_mixed):
    """The files of a set, by their names."""
    return Maker(seed, is_mixed).texts
