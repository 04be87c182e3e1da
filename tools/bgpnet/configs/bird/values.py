"""The values of the filter language: their types, how they compare, and how they are written.

A value of a type is a Python value of a class of its own: `bool`, `int` and `str` stand for themselves, `None` is what
is undefined, and of a `set` see configs.bird.sets."""
from collections import namedtuple

from bgpnet.network import Prefix

# Numbers have 32 bits without sign, halves of a pair 16.
MOST, MOST_HALF = 2**32 - 1, 2**16 - 1


class Pair(int):
    """A pair of two short numbers, as the number of a community."""


class Address(int):
    """An address of IPv4."""


class Address6(str):
    """An address of IPv6, which no route here has."""


class Prefix6(str):
    """A prefix of IPv6, in which no route here is."""


class Quad(int):
    """Four octets, as a router id."""


class Triple(tuple):
    """A large community."""


class Extended(tuple):
    """An extended community: its kind, its key and its value."""


class Path(tuple):
    """AS numbers, the first in front."""


class Clist(tuple):
    """Pairs, in the order in which they came."""


class Lclist(tuple):
    """Large communities, in the order in which they came."""


class Eclist(tuple):
    """Extended communities, in the order in which they came."""


class Distinguisher(str):
    """A route distinguisher, as `64601:7` is one: no community."""


# A value of an enumeration, such as ORIGIN_IGP.
Enum = namedtuple("Enum", "kind number")

TYPES = {type(None): "void", bool: "bool", int: "int", str: "string", Pair: "pair", Address: "ip", Address6: "ip",
         Quad: "quad", Triple: "lc", Extended: "ec", Path: "bgppath", Clist: "clist", Lclist: "lclist",
         Eclist: "eclist", Distinguisher: "rd", Prefix: "prefix", Prefix6: "prefix"}
# What is empty where it is undefined.
EMPTY = {"bgppath": Path(), "clist": Clist(), "lclist": Lclist(), "eclist": Eclist()}
LISTS = {Clist: Pair, Lclist: Triple, Eclist: Extended}

ENUMS = {
    "origin": ("ORIGIN_IGP", "ORIGIN_EGP", "ORIGIN_INCOMPLETE"),
    "source": (None, "RTS_STATIC", "RTS_INHERIT", "RTS_DEVICE", "RTS_STATIC_DEVICE", "RTS_REDIRECT", "RTS_RIP",
               "RTS_OSPF", "RTS_OSPF_IA", "RTS_OSPF_EXT1", "RTS_OSPF_EXT2", "RTS_BGP", "RTS_PIPE", "RTS_BABEL"),
    "dest": (None, "RTD_UNICAST", "RTD_BLACKHOLE", "RTD_UNREACHABLE", "RTD_PROHIBIT"),
    "scope": ("SCOPE_HOST", "SCOPE_LINK", "SCOPE_SITE", "SCOPE_ORGANIZATION", "SCOPE_UNIVERSE", "SCOPE_UNDEFINED"),
    "roa": ("ROA_UNKNOWN", "ROA_VALID", "ROA_INVALID"),
    "nettype": (None, "NET_IP4", "NET_IP6", "NET_VPN4", "NET_VPN6", "NET_ROA4", "NET_ROA6", "NET_FLOW4", "NET_FLOW6",
                "NET_IP6_SADR"),
    "ra_preference": ("RA_PREF_MEDIUM", "RA_PREF_HIGH", None, "RA_PREF_LOW"),
    "af": (None, "AF_IPV4", "AF_IPV6"),
}
NAMED = {name: Enum(kind, number) for kind, names in ENUMS.items() for number, name in enumerate(names) if name}
STATIC, BGP = NAMED["RTS_STATIC"], NAMED["RTS_BGP"]


class Incomparable(Exception):
    """Two values that no order has."""


def type_of(value):
    """The type of a value; an enumeration is a type of its own."""
    found = TYPES.get(type(value))
    return found or (value.kind if isinstance(value, Enum) else value.type)


def pair_of(asn, data):
    return Pair(asn << 16 | data)


def compare_texts(one, other):
    """By how much the first octets that differ do so; the end of a text is 0."""
    return next((ord(left) - ord(right) for left, right in zip(one + "\0", other + "\0") if left != right), 0)


def compare(one, other):
    """-1, 0 or 1, of texts how far they are apart. What is undefined stands below every value; values of two types have
    no order."""
    if type(one) is Quad and type(other) is Address or type(one) is Address and type(other) is Quad:
        one, other = int(one), int(other)
    if one is None or other is None:
        return (one is not None) - (other is not None)
    if type(one) is not type(other) or type(one) in (Path, Clist, Lclist, Eclist) or hasattr(one, "type") or \
            isinstance(one, Enum) and one.kind != other.kind:
        raise Incomparable
    return compare_texts(one, other) if type(one) is str else (one > other) - (one < other)


def compared(one, other):
    """The same, None of values that have no order."""
    try:
        return compare(one, other)
    except Incomparable:
        return None


def are_same(one, other):
    """Whether two values are equal; those of two types are not."""
    found = compared(one, other)
    return found == 0 if found is not None else type(one) is type(other) and one == other
