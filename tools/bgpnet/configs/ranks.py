"""The rank lines of a set of configurations, and its network as a text."""
from bgpnet.configs import steps
from bgpnet.configs.places import Reasons, refusal
from bgpnet.configs.sessions import dotted
from bgpnet.configs.ways import Follower
from bgpnet.network import (GREATEST_OF_TWO_OCTETS, MOST_PATHS, MOST_PREFIXES, MOST_RULES, Network, Prefix, is_name,
                            path_text, usual_orders)
from bgpnet.program import Refusal

# The rounds before the snapshot, so many more for each prefix, and those behind it.
ROUNDS, MORE, LATER = 1000, 100, 100
SHOWN = 8


def listed(words):
    """Words with commas, the first of them where there are many."""
    words = list(words)
    return ", ".join(words[:SHOWN]) + (f" and {len(words) - SHOWN} more" if len(words) > SHOWN else "")


class Ranks:
    """The order of each router's ways for each prefix.

    `orders` has for each prefix the orders by router, `origins` the origin of each prefix that is announced. Where an
    AS has several routers ties are refused, unless they are asked for. What is refused of ways is told with all else
    that is refused of the set; of each line the first."""

    def __init__(self, routers, chosen=None, with_notes=False, with_ties=False):
        self.set, self.orders, self.origins = routers, {}, {}
        names = routers.reasons.files or [router.name for router in routers.routers.values()]
        reasons, of_ways = Reasons(files=names), Reasons(is_one_a_line=True)
        self.follower = Follower(routers, of_ways, with_notes)
        self.follow(of_ways, chosen)
        if routers.refuses_ties and not routers.reasons and not with_ties and not of_ways:
            for place, said in self.tie_notes():
                of_ways.add(refusal(place, said))
        reasons.gather(routers.reasons)
        reasons.gather(of_ways)
        reasons.refuse()
        for prefix in chosen or ():
            if prefix not in self.origins:
                raise Refusal(f"no router announces {prefix}")

    def follow(self, reasons, chosen):
        """Follows and orders the ways of each prefix, of some or of all, and keeps why they are refused."""
        routers, known = self.set, {}
        for prefix, (router, network) in routers.origins(reasons).items():
            if chosen is not None and prefix not in chosen:
                continue
            ways = reasons.attempt(self.follower.ways, prefix, router, network)
            if ways is None:
                break
            self.origins[prefix] = router.number
            if id(ways) not in known:
                orders = {asn: reasons.attempt(routers.routers[asn].order, routers, prefix, found)
                          for asn, found in ways.items()}
                known[id(ways)] = orders
                if routers.refuses_ties and not routers.reasons and None not in orders.values():
                    self.leave_lasting(orders, router.number)
                    for order in self.by_steps(orders).values():
                        reasons.attempt(order.refuse_circles)
            self.orders[prefix] = known[id(ways)]
        if len(self.origins) > MOST_PREFIXES:
            reasons.add(refusal(next(iter(routers.routers.values())).place,
                                f"{len(self.origins)} prefixes, and a network has at most {MOST_PREFIXES}: --prefix "
                                "takes some"))

    @staticmethod
    def by_steps(orders):
        """The orders of routers of FRR where an AS has several routers."""
        return {number: order for number, order in orders.items() if isinstance(order, steps.Order)}

    def leave_lasting(self, orders, origin):
        """Takes out of ties and circles the paths that can't last."""
        undecided = {number: order.undecided for number, order in self.by_steps(orders).items()}
        if any(undecided.values()):
            left = lasting({asn: [way.path for way in order.ways] for asn, order in orders.items()}, origin, undecided)
            for number, groups in undecided.items():
                if groups:
                    orders[number].leave(set(left[number]))

    def tie_notes(self):
        """A warning for each class of ways that FRR tells apart by what was selected first."""
        found = {}
        for prefix, orders in self.orders.items():
            for asn, order in orders.items():
                for tie in order.ties:
                    found.setdefault((asn, tie.paths), (tie, []))[1].append(prefix)
        for (asn, paths), (tie, prefixes) in found.items():
            text = self.set.path_text
            above = [f"{text(other[0])} above {text(block[0])}" for block in tie.blocks
                     for other in tie.blocks if tie.is_above(other, block)]
            words = listed(map(text, paths)) + (f" (by MED {listed(above)})" if above else "")
            yield self.set.routers[asn].place, (
                f"{self.set.router_text(asn)} {listed(map(str, prefixes))}: tie: {words}: FRR keeps the one that it "
                f"selected first{self.set.about_ties}")

    def paths(self, prefix):
        """The permitted paths of each router for a prefix, best first."""
        return {asn: [way.path for way in order.ways] for asn, order in self.orders[prefix].items()}


# ---- fewer paths

def lasting(paths, origin, undecided=None):
    """The paths without those that can't last, by router.

    A router whose best path leads over routers that are fixed to the rest of it is fixed to it; what goes through a
    fixed router on another path never lasts. Of `undecided` paths, in groups by router, none is the best while several
    are left."""
    fixed, left = {origin: (origin,)}, {asn: list(own) for asn, own in paths.items()}
    undecided = undecided or {}
    left[origin], is_new = [(origin,)], True
    while is_new:
        is_new = False
        for asn in [asn for asn in left if asn not in fixed]:
            left[asn] = [path for path in left[asn]
                         if all(fixed.get(path[at], path[at:]) == path[at:] for at in range(1, len(path)))]
            if not left[asn] or fixed.get(left[asn][0][1]) == left[asn][0][1:] and not any(
                    left[asn][0] in group and len(group.intersection(left[asn])) > 1
                    for group in undecided.get(asn, ())):
                left[asn] = left[asn][:1]
                fixed[asn], is_new = left[asn][0] if left[asn] else (), True
    return left


def best_paths(paths, prefix, origin, most, routers):
    """At most so many paths of each router, and what is to be said of those that are left out."""
    longer = [asn for asn, own in paths.items() if len(own) > most]
    if not longer:
        return paths, []
    left = lasting(paths, origin)
    number = sum(map(len, paths.values())) - sum(map(len, left.values()))
    said = [f"{prefix}: {number} paths that can't last are left out ({', '.join(map(routers.label, longer))} had more "
            f"than {most}): the ends are the same, the way there may differ"]
    for asn, own in left.items():
        if len(own) > most:
            said.append(f"{prefix}: {routers.label(asn)} has the best {most} of {len(own)} paths; left out: "
                        f"{listed(map(routers.path_label, own[most:]))}: let --verify judge the end")
            left[asn] = own[:most]
    return left, said


# ---- rules

def covering(prefixes):
    """The least prefix that covers some."""
    first, last = min(prefix.address for prefix in prefixes), max(prefix.address for prefix in prefixes)
    length = min(prefix.length for prefix in prefixes)
    while first >> 32 - length != last >> 32 - length:
        length -= 1
    return Prefix(first >> 32 - length << 32 - length, length)


class Rules:
    """The rules of one router: the paths for each prefix, by origin, where one rule may stand for several prefixes."""

    def __init__(self, wanted, origins):
        self.origins, self.found = origins, []
        if rest := self.gather(sorted(wanted), wanted, 0):
            self.put(rest)

    def put(self, part):
        """Makes a rule of prefixes that go by one."""
        prefixes, rule = part
        self.found.append((covering(prefixes), [path for own in rule.values() for path in own]))

    @staticmethod
    def joined(one, other):
        """Two parts as one, or None where a rule can't have both."""
        rule = dict(one[1])
        for origin, paths in other[1].items():
            if rule.setdefault(origin, paths) != paths:
                return None
        if sum(map(len, rule.values())) > MOST_PATHS:
            return None
        return one[0] + other[0], rule

    def gather(self, prefixes, wanted, length):
        """What prefixes under one of a length need: parts of them that go otherwise than the rest get their rules, and
        the rest is answered."""
        if not prefixes:
            return None
        own = [prefix for prefix in prefixes if prefix.length == length]
        parts = [(own, {self.origins[own[0]]: wanted[own[0]]})] if own else []
        if length < 32:
            bit = 31 - length
            below = [prefix for prefix in prefixes if prefix.length > length]
            for side in (0, 1):
                half = [prefix for prefix in below if prefix.address >> bit & 1 == side]
                part = self.gather(half, wanted, length + 1)
                parts += [part] if part else []
        rest = parts[0]
        for part in parts[1:]:
            joined = self.joined(rest, part)
            if joined is None:
                if not own and len(part[0]) > len(rest[0]):
                    rest, part = part, rest
                self.put(part)
            rest = joined or rest
        return rest


def rules_of(wanted, origins):
    """The rules of a router, each a prefix and its paths: one a prefix, or fewer where there would be too many."""
    if len(wanted) <= MOST_RULES:
        return list(wanted.items())
    return sorted(Rules(wanted, origins).found)


# ---- the text

def network_lines(ranks, most=None):
    """The lines of the network, and what is to be said of paths that are left out."""
    routers, label, said = ranks.set.routers, ranks.set.label, []
    lines = ["asn 4"] if max(routers) > GREATEST_OF_TWO_OCTETS else []
    lines += [f"# {asn} called {router.host}" for asn, router in routers.items()
              if is_name(router.host)]
    lines += [f"# {number} of AS {router.asn}" for number, router in routers.items()
              if router.given is not None and not router.is_origins]
    lines += [f"# {asn} keeps routes of peers that restart" for asn, router in routers.items() if router.keeps_routes]
    lines += [f"router {asn} {dotted(router.router_id.name)}" for asn, router in routers.items()]
    lines += [f"link {asn} {peer}" for asn, ends in ranks.set.ends.items() for peer in sorted(ends) if asn < peer]
    lines += [f"origin {asn} {prefix}" for prefix, asn in ranks.origins.items()]
    wanted, reasons = {asn: {} for asn in routers}, Reasons(is_one_a_line=True)
    for prefix, origin in ranks.origins.items():
        paths = ranks.paths(prefix)
        if most:
            paths, more = best_paths(paths, prefix, origin, most, ranks.set)
            said += more
        for asn, own in paths.items():
            if asn != origin:
                if len(own) > MOST_PATHS:
                    reasons.add(refusal(routers[asn].place, f"{label(asn)} permits {len(own)} paths for {prefix}, and "
                                        f"a rule has at most {MOST_PATHS}: --best {MOST_PATHS} leaves some out"))
                    continue
                wanted[asn][prefix] = own
    for asn, own in wanted.items():
        rules = rules_of(own, ranks.origins)
        if len(rules) > MOST_RULES:
            reasons.add(refusal(routers[asn].place, f"{label(asn)} needs {len(rules)} rules, and a router has at most "
                                                    f"{MOST_RULES}: --prefix takes some prefixes"))
        lines += [" ".join([f"rank {asn} {prefix}", *map(path_text, paths)]) for prefix, paths in rules]
    reasons.refuse()
    return lines, said


def schedule_lines(lines):
    """A schedule for a network: the sessions come up, every prefix is originated, then rounds and a snapshot."""
    network = Network(lines)
    return ["schedule", *usual_orders(network, ROUNDS + MORE * len(network.origins), LATER)]
