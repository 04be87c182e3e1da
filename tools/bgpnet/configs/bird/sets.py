"""Sets of the filter language, and masks of paths.

A set of numbers, pairs, addresses and such is a search tree, as BIRD builds it. Where one item lies inside another,
the tree loses members: they are lost here too."""
from bgpnet.configs.bird.values import compared


# How many values a set or a mask keeps its answers of.
MOST_KNOWN = 65536


def kept(known, key, find):
    """The answer that is kept of a key; one that is not there is found, and kept in place of all others where these are
    many."""
    if key not in known:
        if len(known) >= MOST_KNOWN:
            known.clear()
        known[key] = find()
    return known[key]


class Items:
    """A search tree: items (from, to, what they stand for) by their lower ends, those alike as they are written. The
    middle one is the root; an item without ends, as `else:`, stands below all others."""

    def __init__(self, items):
        self.root = self.tree(sorted(items, key=lambda item: () if item[0] is None else (order_key(item[0]),)))
        self.known = {}

    def tree(self, items):
        if not items:
            return None
        middle = len(items) // 2
        return items[middle], self.tree(items[:middle]), self.tree(items[middle + 1:])

    def find(self, value):
        """The item that has a value, or None."""
        return kept(self.known, (type(value), value), lambda: self.search(value))

    def search(self, value):
        node = self.root
        while node:
            (low, high, _), left, right = node
            if compared(low, value) != 1 and compared(value, high) != 1:
                return node[0]
            node = right if compared(low, value) == -1 else left
        return None


def order_key(value):
    return (value.kind, value.number) if hasattr(value, "kind") else value


class Set:
    """A set of values of one type; an empty one has no type."""

    type = "set"

    def __init__(self, of, items):
        self.of, self.items = of, Items([(low, high, True) for low, high in items])

    def has(self, value):
        return self.items.find(value) is not None

    def __eq__(self, other):
        return isinstance(other, Set) and (self.of, self.items.root) == (other.of, other.items.root)

    def __hash__(self):
        return hash(self.items.root)


class PrefixSet:
    """A set of prefixes: of each item its bits, its length, and the least and the greatest length that it has."""

    type = "prefix set"

    def __init__(self, items):
        self.items, self.known = tuple(items), {}

    def has(self, prefix):
        return kept(self.known, prefix, lambda: any(low <= prefix.length <= high and agrees(prefix, pattern)
                                                    for pattern, low, high in self.items))

    def __eq__(self, other):
        return isinstance(other, PrefixSet) and sorted(set(self.items)) == sorted(set(other.items))

    def __hash__(self):
        return hash(frozenset(self.items))


def agrees(prefix, pattern):
    """Whether the first bits of two prefixes are alike, as many as the shorter one has."""
    past = 32 - min(prefix.length, pattern.length)
    return prefix.address >> past == pattern.address >> past


class Mask:
    """A mask of paths: parts that each have one number, or any sequence. `items` are functions that say whether a
    number fits, `ANY` for any sequence and `MORE` for more of the one before."""

    type = "bgpmask"

    def __init__(self, items):
        self.items, self.known = tuple(items), {}

    def fits(self, path):
        """Whether the whole path fits."""
        return kept(self.known, path, lambda: self.search(path))

    def search(self, path):
        places = self.closed({0})
        for number in path:
            new = set()
            for place in places:
                item = self.items[place] if place < len(self.items) else None
                if item is ANY:
                    new.add(place)
                elif item is MORE:
                    if place and self.items[place - 1] not in (ANY, MORE) and self.items[place - 1](number):
                        new.add(place)
                elif item is not None and item(number):
                    new.add(place + 1)
            places = self.closed(new)
        return len(self.items) in places

    def closed(self, places):
        """The places with those that are reached without a number: past `*`, and past `+`."""
        found = list(places)
        for place in found:
            if place < len(self.items) and self.items[place] in (ANY, MORE) and place + 1 not in found:
                found.append(place + 1)
        return set(found)


ANY, MORE = "*", "+"
