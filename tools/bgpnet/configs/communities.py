"""Communities (RFC 1997) and large communities (RFC 8092): their words, their texts, their lists.

A set of communities is a sorted tuple without doubles, of numbers or of three numbers; the empty one is none."""

from bgpnet.configs.syntax import number_of

NAMES = {
    "internet": 0,
    "graceful-shutdown": 0xFFFF0000,
    "accept-own": 0xFFFF0001,
    "route-filter-translated-v4": 0xFFFF0002,
    "route-filter-v4": 0xFFFF0003,
    "route-filter-translated-v6": 0xFFFF0004,
    "route-filter-v6": 0xFFFF0005,
    "llgr-stale": 0xFFFF0006,
    "no-llgr": 0xFFFF0007,
    "accept-own-nexthop": 0xFFFF0008,
    "blackhole": 0xFFFF029A,
    "no-export": 0xFFFFFF01,
    "no-advertise": 0xFFFFFF02,
    "local-AS": 0xFFFFFF03,
    "no-peer": 0xFFFFFF04,
}
TEXTS = {number: name for name, number in NAMES.items()}
INTERNET, SHUTDOWN, BLACKHOLE = NAMES["internet"], NAMES["graceful-shutdown"], NAMES["blackhole"]
NO_EXPORT, NO_ADVERTISE, LOCAL_AS = NAMES["no-export"], NAMES["no-advertise"], NAMES["local-AS"]
STALE = NAMES["llgr-stale"]
KEPT_IN = frozenset((NO_EXPORT, NO_ADVERTISE, LOCAL_AS))


def numbers_of(word, parts, most):
    """The numbers of a word of so many parts, or None."""
    numbers = tuple(map(number_of, word.split(":")))
    return numbers if len(numbers) == parts and None not in numbers and max(numbers) <= most else None


def read_community(word):
    """The number of a community, or None where FRR does not take the word."""
    if word in NAMES:
        return NAMES[word]
    numbers = numbers_of(word, 2, 0xFFFF)
    return numbers and numbers[0] << 16 | numbers[1]


def read_large(word):
    """The three numbers of a large community, or None."""
    return numbers_of(word, 3, 0xFFFFFFFF)


def community_text(community):
    return TEXTS.get(community) or f"{community >> 16}:{community & 0xFFFF}"


def large_text(community):
    return ":".join(map(str, community))


def text_of(communities):
    """The text of a set, of either kind, as expressions see it."""
    return " ".join(large_text(one) if isinstance(one, tuple) else community_text(one) for one in communities)


def sorted_set(communities):
    return tuple(sorted(set(communities)))
