"""What the tools read of the path attributes of an UPDATE: what it carries beside what `decode` prints of it."""
from __future__ import annotations

import ipaddress
import struct
from typing import Collection, Iterable, Mapping, NamedTuple, Sequence

from bgpnet.messages import FAMILIES, SUBSEQUENT, Octets, family_text

ORIGIN, AS_PATH, NEXT_HOP, MULTI_EXIT_DISC, LOCAL_PREF, ATOMIC_AGGREGATE, AGGREGATOR, COMMUNITIES = range(1, 9)
MP_REACH_NLRI, MP_UNREACH_NLRI, AS4_PATH, LARGE_COMMUNITY = 14, 15, 17, 32
# The codes of IANA.
NAMES = {ORIGIN: "ORIGIN", AS_PATH: "AS_PATH", NEXT_HOP: "NEXT_HOP", MULTI_EXIT_DISC: "MULTI_EXIT_DISC",
         LOCAL_PREF: "LOCAL_PREF", ATOMIC_AGGREGATE: "ATOMIC_AGGREGATE", AGGREGATOR: "AGGREGATOR",
         COMMUNITIES: "COMMUNITIES", 9: "ORIGINATOR_ID", 10: "CLUSTER_LIST", MP_REACH_NLRI: "MP_REACH_NLRI",
         MP_UNREACH_NLRI: "MP_UNREACH_NLRI", 16: "EXTENDED_COMMUNITIES", AS4_PATH: "AS4_PATH", 18: "AS4_AGGREGATOR",
         22: "PMSI_TUNNEL", 23: "TUNNEL_ENCAPSULATION", 24: "TRAFFIC_ENGINEERING", 25: "IPV6_EXTENDED_COMMUNITIES",
         26: "AIGP", 27: "PE_DISTINGUISHER_LABELS", 29: "BGP-LS", LARGE_COMMUNITY: "LARGE_COMMUNITY", 33: "BGPSEC_PATH",
         35: "ONLY_TO_CUSTOMER", 37: "SFP", 38: "BFD_DISCRIMINATOR", 40: "BGP_PREFIX-SID", 128: "ATTR_SET"}
ORIGINS = {0: "", 1: " EGP", 2: " INCOMPLETE"}
EXTENDED_LENGTH = 0x10


class Segment(NamedTuple):
    """A segment of a path: its type, 1 for AS_SET and 2 for AS_SEQUENCE, and its numbers."""

    kind: int
    numbers: Sequence[str]


class Update:
    """The parts of an UPDATE's body: the octets of the prefixes that are withdrawn and announced, and the value of each
    attribute, by code and in the order of the message. `struct.error` or `IndexError` where a part is not whole."""

    def __init__(self, body: Octets) -> None:
        size = struct.unpack_from(">H", body)[0]
        end = 4 + size + struct.unpack_from(">H", body, 2 + size)[0]
        self.withdrawn, self.announced = body[2:2 + size], body[end:]
        self.attributes = attributes_of(body, 4 + size, end)


def attributes_of(octets: Octets, at: int, end: int) -> dict[int, bytes]:
    """The value of each attribute between two places, by code."""
    found = {}
    while at < end:
        flags, code, length = octets[at], octets[at + 1], octets[at + 2]
        at += 3
        if flags & EXTENDED_LENGTH:
            length, at = length << 8 | octets[at], at + 1
        found[code] = bytes(octets[at:at + length])
        at += length
    return found


def remark_of(body: Octets, width: int, identified: Collection[str] = ()) -> str | None:
    """What `decode` leaves unsaid of an UPDATE that it finds no fault in, None where it is nothing: the attributes that
    it does not print, an ORIGIN that is not IGP, path and next hop where no prefix is announced by RFC 4271's field,
    and an End-of-RIB (RFC 4724). `width` is that of AS numbers, `identified` has the families whose prefixes have path
    identifiers."""
    update = Update(body)
    attributes = update.attributes
    if not update.withdrawn and not update.announced:
        if ended := family_of_end(attributes):
            return f"End-of-RIB {ended}"
    said = {AS_PATH, NEXT_HOP} if update.announced else set()
    if attributes.get(ORIGIN) == b"\0":
        said.add(ORIGIN)
    codes = sorted((code for code in attributes if code not in said), key=lambda code: code <= NEXT_HOP)
    texts = [attribute_text(code, attributes[code], width, identified) for code in codes]
    merged = merged_path(attributes) if width == 2 else None
    return ", ".join(texts + ([f"merged path {merged}"] if merged else [])) or None


def merged_path(attributes: Mapping[int, bytes]) -> str | None:
    """The path that AS_PATH and AS4_PATH say together (RFC 6793 section 4.2.3), None where there is no AS4_PATH, or it
    is not used: it has more numbers than AS_PATH, or can't be read."""
    try:
        old, new = (segments_of(attributes[code], width) for code, width in ((AS_PATH, 2), (AS4_PATH, 4)))
    except (KeyError, struct.error, IndexError, ValueError):
        return None
    more = length_of(old) - length_of(new)
    if more < 0 or not new:
        return None
    leading: list[Segment] = []
    for kind, numbers in old:
        if more <= 0:
            break
        kept = numbers[:more] if kind == 2 else numbers
        leading.append(Segment(kind, kept))
        more -= len(kept) if kind == 2 else 1
    return segments_text(leading + new)


def length_of(segments: Sequence[Segment]) -> int:
    """How many numbers count in a path: a set counts as one (RFC 4271 section 9.1.2.2)."""
    return sum(len(numbers) if kind == 2 else 1 for kind, numbers in segments)


def family_of_end(attributes: Mapping[int, bytes]) -> str | None:
    """The family whose End-of-RIB an UPDATE is that has no prefixes in RFC 4271's fields, else None."""
    if not attributes:
        return "ipv4"
    value = attributes.get(MP_UNREACH_NLRI, b"")
    return short_family(value) if len(attributes) == 1 and len(value) == 3 else None


def short_family(value: bytes) -> str:
    """The family that stands in front of a value; unicast goes without saying."""
    family, subsequent = struct.unpack_from(">HB", value)
    return FAMILIES.get(family, str(family)) if subsequent == 1 else family_text(family, subsequent)


def attribute_text(code: int, value: bytes, width: int, identified: Collection[str]) -> str:
    """An attribute in words: its name, and its value, or how long that is where it can't be read."""
    text = readable_text(code, value, width, identified)
    return NAMES.get(code, f"attribute {code}") + (octets_text(len(value)) if text is None else text)


def readable_text(code: int, value: bytes, width: int, identified: Collection[str] = ()) -> str | None:
    """The words of a value, a space in front, None where it can't be read, or has none."""
    try:
        return value_text(code, value, width, identified)
    except (struct.error, IndexError, ValueError):
        return None


def octets_text(number: int) -> str:
    return f" {number} octet{'s' * (number != 1)}"


def value_text(code: int, value: bytes, width: int, identified: Collection[str]) -> str | None:
    """The words of a value, a space in front; None where the code has none, and an error where the value does not fit
    it."""
    if code == ORIGIN:
        return ORIGINS[value[0]]
    if code in (AS_PATH, AS4_PATH):
        return " " + path_text(value, width if code == AS_PATH else 4)
    if code in (NEXT_HOP, 9, 10):
        return "".join(f" {ipaddress.IPv4Address(part)}" for part in parts_of(value, 4))
    if code in (MULTI_EXIT_DISC, LOCAL_PREF, 35):
        return f" {struct.unpack('>I', value)[0]}"
    if code == ATOMIC_AGGREGATE:
        return ""
    if code in (AGGREGATOR, 18):
        size = len(value) - 4
        return f" {int.from_bytes(value[:size], 'big')} {ipaddress.IPv4Address(value[size:])}"
    if code == COMMUNITIES:
        return "".join(" %d:%d" % struct.unpack(">HH", part) for part in parts_of(value, 4))
    if code == 16:
        return "".join(f" {part.hex()}" for part in parts_of(value, 8))
    if code == LARGE_COMMUNITY:
        return "".join(" %d:%d:%d" % struct.unpack(">III", part) for part in parts_of(value, 12))
    return prefixes_text(code, value, identified) if code in (MP_REACH_NLRI, MP_UNREACH_NLRI) else None


def parts_of(value: bytes, size: int) -> list[bytes]:
    if len(value) % size:
        raise ValueError
    return [value[at:at + size] for at in range(0, len(value), size)]


def path_text(value: bytes, width: int) -> str:
    """A path as `decode` prints it."""
    return segments_text(segments_of(value, width))


def segments_of(value: bytes, width: int) -> list[Segment]:
    """The segments of a path."""
    segments: list[Segment] = []
    at = 0
    while at < len(value):
        kind, number = value[at], value[at + 1]
        numbers = [str(int.from_bytes(part, "big")) for part in parts_of(value[at + 2:at + 2 + number * width], width)]
        if kind not in (1, 2) or not number or len(numbers) < number:
            raise ValueError
        segments.append(Segment(kind, numbers))
        at += 2 + number * width
    return segments


def segments_text(segments: Iterable[Segment]) -> str:
    return "-".join("-".join(numbers) if kind == 2 else "{" + ",".join(numbers) + "}"
                    for kind, numbers in segments) or "none"


def prefixes_text(code: int, value: bytes, identified: Collection[str]) -> str:
    """The family of prefixes in an attribute of RFC 4760, and how many they are, or how many octets they have where
    the family has others than of a length and its octets."""
    prefixes = value[3:]
    if code == MP_REACH_NLRI:
        prefixes = value[5 + value[3]:]
    family, subsequent = struct.unpack_from(">HB", value)
    if FAMILIES.get(family) not in ("ipv4", "ipv6") or SUBSEQUENT.get(subsequent) not in ("unicast", "multicast"):
        return f" {short_family(value)}{octets_text(len(prefixes))}"
    identifier = 4 if family_text(family, subsequent) in identified else 0
    number, at = 0, 0
    while at < len(prefixes):
        at += identifier + 1 + (prefixes[at + identifier] + 7) // 8
        number += 1
    if at > len(prefixes):
        raise ValueError
    return f" {short_family(value)} {number} prefix{'es' * (number != 1)}"
