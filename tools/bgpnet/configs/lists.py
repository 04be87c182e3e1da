"""Access-lists, prefix-lists, as-path lists and community-lists: what they hold, and what they permit.

The entries of a list stand by their numbers; the first that fits decides, and none is a denial. Where a line has no
number it gets the next five behind the greatest."""
from collections import namedtuple

from bgpnet.configs.communities import INTERNET, text_of

# An entry: whether it permits, what it says, as text that tells doubles, and where.
Entry = namedtuple("Entry", "permits value text place")
# What an access-list looks for: the bits of an address that count, and of a prefix the least and greatest length.
Block = namedtuple("Block", "address mask least most")


# How many values a list keeps its decisions of.
MOST_DECIDED = 65536


def mask_of(length):
    return (1 << 32) - (1 << 32 - length)


class List:
    """A list of a kind, by its name."""

    def __init__(self, kind, name, place):
        self.kind, self.name, self.place, self.entries, self.in_order = kind, name, place, {}, None
        self.greatest, self.numbers, self.decided = 0, {}, {}

    def add(self, number, entry):
        """Adds an entry, in place of another of its number."""
        number = (self.greatest // 5 + 1) * 5 if number is None else number
        if former := self.entries.get(number):
            del self.numbers[former.permits, former.text]
        self.entries[number], self.numbers[entry.permits, entry.text] = entry, number
        self.greatest, self.in_order, self.decided = max(self.greatest, number), None, {}

    def double(self, permits, text):
        """The number of an entry that says the same, or None."""
        return self.numbers.get((permits, text))

    def deciding(self, value, fits):
        """The first entry that fits a value, or None."""
        if self.in_order is None:
            self.in_order = [self.entries[number] for number in sorted(self.entries)]
        if (fits, value) not in self.decided:
            if len(self.decided) > MOST_DECIDED:
                self.decided = {}
            self.decided[fits, value] = next((entry for entry in self.in_order if fits(entry.value, value)), None)
        return self.decided[fits, value]

    def permits(self, value, fits):
        entry = self.deciding(value, fits)
        return entry is not None and entry.permits


def block_fits(block, prefix):
    """Whether a block of an access-list or a prefix-list has a prefix."""
    return block.least <= prefix.length <= block.most and prefix.address & block.mask == block.address


def path_fits(search, text):
    return search(text) is not None


def set_fits(entry, communities):
    """Whether an entry of a community-list fits a set: all of its communities are there, or its expression fits."""
    if callable(entry):
        return entry(text_of(communities)) is not None
    return INTERNET in entry or (bool(communities) and set(entry) <= set(communities))


def set_equals(entry, communities):
    """The same where the whole set has to be that of the entry. To an expression that is nothing."""
    if callable(entry):
        return set_fits(entry, communities)
    return INTERNET in entry or entry == communities


def one_fits(entry, community):
    """Whether an entry names a community by itself, as deletion asks."""
    if callable(entry):
        return entry(text_of((community,))) is not None
    return INTERNET in entry or community in entry


class CommunityList(List):
    """A list of communities, or of large ones."""

    def permits_set(self, communities, is_exact):
        return self.permits(communities, set_equals if is_exact else set_fits)

    def permits_one(self, community):
        return self.permits(community, one_fits)
