"""What the tools read of BGP messages: where each ends, what it is called, and what an OPEN says its speaker can do."""
from __future__ import annotations

import struct
from typing import Iterator, Union

Octets = Union[bytes, bytearray, memoryview]

MARKER = b"\xff" * 16
HEAD = 19
# The most octets of a message (RFC 8654).
LONGEST = 65535
OPEN, UPDATE, NOTIFICATION, ROUTE_REFRESH = 1, 2, 3, 5
KINDS = {OPEN: "open", UPDATE: "update", NOTIFICATION: "notification", 4: "keepalive", ROUTE_REFRESH: "route-refresh"}
# The head of a ROUTE-REFRESH as RFC 2918 has it; a longer one carries filters (RFC 5291).
REFRESH_HEAD = MARKER + bytes([0, HEAD + 4, ROUTE_REFRESH])
# Address families and subsequent ones, by the numbers of IANA.
FAMILIES = {1: "ipv4", 2: "ipv6", 25: "l2vpn", 16388: "bgp-ls"}
SUBSEQUENT = {1: "unicast", 2: "multicast", 4: "mpls-label", 65: "vpls", 70: "evpn", 71: "bgp-ls", 128: "mpls-vpn",
              132: "rt-constraint", 133: "flowspec", 134: "flowspec-vpn"}
# What a ROUTE-REFRESH marks by its subtype (RFC 7313); 0 is the request itself.
MARKS = {0: "", 1: " BoRR", 2: " EoRR"}
# The capabilities of AS numbers of four octets (RFC 6793) and of path identifiers (RFC 7911).
FOUR_OCTET_ASN, PATH_IDENTIFIERS = 65, 69


class Message:
    """A whole message of a stream: its type, and the places where it begins and ends."""
    __slots__ = ("kind", "begin", "end")

    def __init__(self, kind: int, begin: int, end: int) -> None:
        self.kind, self.begin, self.end = kind, begin, end

    def body(self, octets: Octets) -> Octets:
        return octets[self.begin + HEAD:self.end]

    def is_refresh(self) -> bool:
        """Whether it is a ROUTE-REFRESH with the length of RFC 2918."""
        return self.kind == ROUTE_REFRESH and self.end - self.begin == HEAD + 4


def messages_of(octets: Octets, begin: int = 0) -> Iterator[Message]:
    """The whole messages at the front, from a place on."""
    while octets[begin:begin + 16] == MARKER and begin + HEAD <= len(octets):
        size, kind = struct.unpack_from(">HB", octets, begin + 16)
        if size < HEAD or begin + size > len(octets):
            return
        yield Message(kind, begin, begin + size)
        begin += size


def first_message(octets: bytes) -> int:
    """The place of the first whole message of octets that may begin in the middle of one: behind it stands another, or
    nothing. It is 0 where none is found."""
    at = octets.find(MARKER, 0, LONGEST + len(MARKER))
    while at >= 0:
        size, kind = struct.unpack_from(">HB", octets, at + 16) if at + HEAD <= len(octets) else (0, 0)
        following = octets[at + size:at + size + 16]
        if size >= HEAD and kind in KINDS and following == MARKER[:len(following)]:
            return at
        at = octets.find(MARKER, at + 1, LONGEST + len(MARKER))
    return 0


def family_text(family: int, subsequent: int) -> str:
    return f"{FAMILIES.get(family, family)} {SUBSEQUENT.get(subsequent, subsequent)}"


def refresh_text(body: Octets) -> str:
    """A ROUTE-REFRESH in words: what it asks for, and what it marks."""
    family, subtype, subsequent = struct.unpack(">HBB", body)
    return f"route-refresh {family_text(family, subsequent)}{MARKS.get(subtype, f' subtype {subtype}')}"


def capabilities_of(octets: Octets) -> dict[int, list[bytes]] | None:
    """The values of the capabilities of the OPEN in front, by code, None where there is no OPEN (RFC 5492). That of AS
    numbers of four octets counts where it has four (RFC 6793)."""
    first = next(messages_of(octets), None)
    if not first or first.kind != OPEN:
        return None
    body, at = first.body(octets), 10
    found: dict[int, list[bytes]] = {}
    while at + 2 <= len(body):
        parameter, size = body[at], body[at + 1]
        values, at = body[at + 2:at + 2 + size], at + 2 + size
        inner = 0
        while parameter == 2 and inner + 2 <= len(values):
            code, length = values[inner], values[inner + 1]
            if code != FOUR_OCTET_ASN or length == 4:
                found.setdefault(code, []).append(bytes(values[inner + 2:inner + 2 + length]))
            inner += 2 + length
    return found


def path_identifiers(octets: Octets, answered: Octets) -> list[str]:
    """The families whose prefixes one end sends with path identifiers, since its OPEN says that it sends these, and the
    other's that it receives them (RFC 7911 section 4)."""
    sends, receives = ({tuple(value[at:at + 3]): value[at + 3]
                        for value in (capabilities_of(end) or {}).get(PATH_IDENTIFIERS, ())
                        for at in range(0, len(value) - 3, 4)} for end in (octets, answered))
    return [family_text(family[0] << 8 | family[1], family[2]) for family, says in sends.items()
            if says in (2, 3) and receives.get(family) in (1, 3)]
