"""Makes random networks for sets of configurations: their routers, links, prefixes and gadgets, the same for the same
seed."""
import random

# The peer through which a router of a gadget likes its routes best, by their places.
LIKED = {"disagree": {1: 2, 2: 1}, "bad": {1: 2, 2: 3, 3: 1}, "good": {1: 2, 2: 3}, "wedgie": {2: 1, 1: 2}}
PREFIXES = ("10.1.0.0/16", "10.1.1.0/24", "10.2.0.0/16", "192.168.7.0/24", "172.16.0.0/12", "10.1.128.0/17")


class Draw:
    """Random choices by `random()` alone, which is the same in every Python."""

    def __init__(self, seed):
        self.random = random.Random(seed).random

    def number(self, least, most):
        return least + int(self.random() * (most - least + 1))

    def of(self, among):
        return among[int(self.random() * len(among))]

    def chance(self, part):
        return self.random() < part

    def each(self, chances):
        """The things of which each comes by a chance of its own."""
        return [thing for thing, part in chances if self.chance(part)]

    def some(self, among, count):
        left, found = list(among), []
        while left and len(found) < count:
            found.append(left.pop(int(self.random() * len(left))))
        return found


class Maker:
    """Makes one set: `text_of` makes the file of a router by its place."""

    def __init__(self, seed):
        self.draw = draw = Draw(seed)
        count = draw.number(3, 10)
        base = draw.of((0, 64512, 65000, 4200000000 if draw.chance(0.3) else 65000))
        self.asns = [base + place for place in range(1, count + 1)]
        self.gadget = draw.of(("disagree", "bad", "good", "wedgie")) if count >= 4 and draw.chance(0.2) else None
        self.links = self.make_links(count)
        self.prefixes = draw.some(PREFIXES, draw.number(1, 2) if self.gadget else draw.number(1, 4))
        self.origins = {prefix: 0 if self.gadget else draw.number(0, count - 1) for prefix in self.prefixes}
        self.texts = {}
        for place in range(count):
            self.texts[f"r{place + 1}.conf"] = self.text_of(place)

    def text_of(self, place):
        raise NotImplementedError

    def make_links(self, count):
        draw = self.draw
        links = {(draw.number(0, place - 1), place) for place in range(1, count)}
        for _ in range(draw.number(0, count)):
            one, other = sorted((draw.number(0, count - 1), draw.number(0, count - 1)))
            if one != other:
                links.add((one, other))
        if self.gadget:
            links |= {"disagree": {(0, 1), (0, 2), (1, 2)}, "wedgie": {(0, 1), (0, 3), (1, 2), (2, 3)},
                      "bad": {(0, 1), (0, 2), (0, 3), (1, 2), (2, 3), (1, 3)},
                      "good": {(0, 1), (0, 2), (0, 3), (1, 2), (2, 3), (1, 3)}}[self.gadget]
        return sorted(links)

    def asn_of_set(self):
        """The number of an AS, mostly one of the set."""
        return self.draw.of(self.asns if self.draw.chance(0.9) else [64999])

    def router_id(self, place):
        """The router id of a router: its address, or a random one where the set has such."""
        if not hasattr(self, "ids"):
            self.ids = self.draw.some(range(1, 200), len(self.asns)) if self.draw.chance(0.5) else None
        return f"1.0.0.{self.ids[place]}" if self.ids else f"10.255.{place + 1}.1"

    def peers(self, place):
        return [two if one == place else one for one, two in self.links if place in (one, two)]
