"""What the tools read of MRT files (RFC 6396), as collectors of routes write them: the messages and the changes of
state of each peer, and the routes of a dump of tables."""
from __future__ import annotations

import struct
from typing import Iterator

from bgpnet.captures import SECOND, End, Stream
from bgpnet.messages import HEAD, OPEN, UPDATE, Octets
from bgpnet.program import Refusal

TABLE_DUMP, TABLE_DUMP_V2, BGP4MP, BGP4MP_ET = 12, 13, 16, 17
TYPES = {11: "OSPFv2", TABLE_DUMP: "TABLE_DUMP", TABLE_DUMP_V2: "TABLE_DUMP_V2", BGP4MP: "BGP4MP",
         BGP4MP_ET: "BGP4MP_ET", 32: "ISIS", 33: "ISIS_ET", 48: "OSPFv3", 49: "OSPFv3_ET"}
# The subtypes of BGP4MP: changes of state, and messages; of these those with AS numbers of four octets, those that the
# collector said itself, and those with path identifiers (RFC 8050).
CHANGES, MESSAGES = {0, 5}, {1, 4, 6, 7, 8, 9, 10, 11}
WIDE, LOCAL, IDENTIFIED = {4, 5, 7, 9, 11}, {6, 7, 10, 11}, {8, 9, 10, 11}
# The subtypes of TABLE_DUMP_V2 that have routes of IPv4, without path identifiers and with them (RFC 8050).
ROUTES, IDENTIFIED_ROUTES = 2, 8
STATES = {1: "Idle", 2: "Connect", 3: "Active", 4: "OpenSent", 5: "OpenConfirm", 6: "Established"}
IDLE = 1
# The octets of an address, by its family.
SIZES = {1: 4, 2: 16}
RECORD = 12
# No record is longer, and no subtype greater.
MOST, LAST_SUBTYPE = 1 << 24, 12


class Peering:
    """What a collector recorded of one session with a peer: what each of the two said, and the width of the AS numbers
    that the records name, None where none has an UPDATE."""

    def __init__(self, peer: End, local: End) -> None:
        self.peer, self.local = Stream(peer, local), Stream(local, peer)
        self.streams = {"peer": self.peer, "local": self.local}
        self.width: int | None = None
        self.has_identifiers = False

    def meet(self, local: End) -> None:
        """Learns the collector's end, which has no address before there is a connection."""
        if self.local.source and not any(self.local.source[0]):
            self.peer.target = self.local.source = local

    def takes(self, side: str, kind: int, width: int) -> bool:
        """Whether a message belongs to this session: an OPEN behind other messages begins another, and a stream is read
        by one width."""
        if kind == OPEN:
            return not self.streams[side].last
        return kind != UPDATE or self.width in (None, width)


def is_mrt(data: Octets) -> bool:
    """Whether a file begins with the head of a record."""
    if len(data) < RECORD:
        return False
    kind, subtype, size = struct.unpack_from(">HHI", data, 4)
    return kind in TYPES and subtype <= LAST_SUBTYPE and size <= MOST


def records_of(data: Octets, losses: list[str]) -> Iterator[tuple[int, int, int, Octets]]:
    """The time, the type, the subtype and the body of each record."""
    at, number = 0, 0
    while at < len(data):
        number += 1
        is_whole = at + RECORD <= len(data)
        seconds, kind, subtype, size = struct.unpack_from(">IHHI", data, at) if is_whole else (0, 0, 0, 0)
        end = at + RECORD + size
        if end > len(data):
            losses.append(f"the capture ends in the middle of record {number}")
            return
        body, time = data[at + RECORD:end], seconds * SECOND
        if kind == BGP4MP_ET and size >= 4:
            time, body, kind = time + struct.unpack_from(">I", body)[0] * 1000, body[4:], BGP4MP
        yield time, kind, subtype, body
        at = end


class Head:
    """What stands in front of each record of BGP4MP: two AS numbers, an interface and two addresses; and what stands
    behind that. None of a subtype or a family that is not read, and of a record that is too short."""

    def __init__(self, subtype: int, body: Octets) -> None:
        numbers = ">IIHH" if subtype in WIDE else ">HHHH"
        peer, local, interface, family = struct.unpack_from(numbers, body)
        size, at = SIZES[family], struct.calcsize(numbers)
        addresses = bytes(body[at:at + size]), bytes(body[at + size:at + 2 * size])
        # An address of one link alone is told apart by its interface.
        self.key = addresses[0], interface if addresses[0][:1] == b"\xfe" else 0
        self.peer, self.local = (addresses[0], f"as {peer}"), (addresses[1], f"as {local}")
        self.rest = bytes(body[at + 2 * size:])


def head_of(subtype: int, body: Octets) -> Head | None:
    """The head of a record, None where it is not read."""
    try:
        head = Head(subtype, body)
    except (struct.error, KeyError):
        return None
    least = 4 if subtype in CHANGES else HEAD if subtype in MESSAGES else len(body) + 1
    return head if len(head.rest) >= least else None


class Peerings:
    """The sessions that were found, and the latest of each peer."""

    def __init__(self) -> None:
        self.found: list[Peering] = []
        self.latest: dict[tuple[bytes, int], Peering] = {}

    def begin(self, head: Head) -> None:
        self.latest[head.key] = Peering(head.peer, head.local)
        self.found.append(self.latest[head.key])

    def add(self, time: int, subtype: int, head: Head) -> None:
        """Adds a record to the session of its peer."""
        if head.key not in self.latest:
            self.begin(head)
        self.latest[head.key].meet(head.local)
        if subtype in CHANGES:
            self.add_change(time, head)
        else:
            self.add_message(time, subtype, head)

    def add_change(self, time: int, head: Head) -> None:
        """A change that leaves Idle begins a session where the last one has messages."""
        before, after = struct.unpack_from(">HH", head.rest)
        latest = self.latest[head.key]
        if before == IDLE and after in STATES and (latest.peer.last or latest.local.last):
            self.begin(head)
        self.latest[head.key].peer.note(f"state {STATES.get(before, before)} {STATES.get(after, after)}", time)

    def add_message(self, time: int, subtype: int, head: Head) -> None:
        width, side, kind = 4 if subtype in WIDE else 2, "local" if subtype in LOCAL else "peer", head.rest[HEAD - 1]
        if not self.latest[head.key].takes(side, kind, width):
            self.begin(head)
        latest = self.latest[head.key]
        latest.streams[side].append(head.rest, time)
        latest.has_identifiers |= subtype in IDENTIFIED
        if kind == UPDATE:
            latest.width = width


def peerings_of(data: Octets, losses: list[str]) -> list[Peering]:
    """The sessions of an MRT file, in the order in which they begin. A dump of a table is refused."""
    first = struct.unpack_from(">H", data, 4)[0]
    if first in (TABLE_DUMP, TABLE_DUMP_V2):
        raise Refusal(f"a dump of a table ({TYPES[first]}, RFC 6396): it has routes, and no messages")
    peerings = Peerings()
    unread: dict[str, int] = {}
    for time, kind, subtype, body in records_of(data, losses):
        head = head_of(subtype, body) if kind == BGP4MP else None
        if head:
            peerings.add(time, subtype, head)
        else:
            name = TYPES.get(kind, f"type {kind}") + (f" of subtype {subtype}" if kind == BGP4MP else "")
            unread[name] = unread.get(name, 0) + 1
    losses += [f"{number} record{'s are' if number > 1 else ' is'} not read: {name}"
               for name, number in sorted(unread.items())]
    for peering in peerings.found:
        for stream in peering.streams.values():
            stream.join()
    return peerings.found


def is_table(data: Octets) -> bool:
    """Whether the first record is of a dump of tables (TABLE_DUMP_V2)."""
    return bool(struct.unpack_from(">H", data, 4)[0] == TABLE_DUMP_V2)


def table_routes(data: Octets, losses: list[str]) -> Iterator[tuple[bytes, bytes]]:
    """The prefix, its length in front, and the attributes of each route of IPv4 in a dump of tables, whichever peer it
    is of. AS numbers have four octets."""
    for number, (_, kind, subtype, body) in enumerate(records_of(data, losses), 1):
        if kind == TABLE_DUMP_V2 and subtype in (ROUTES, IDENTIFIED_ROUTES):
            try:
                yield from record_routes(body, 4 * (subtype == IDENTIFIED_ROUTES))
            except (struct.error, IndexError):
                losses.append(f"record {number} is no record of routes")


def record_routes(body: Octets, identifier: int) -> Iterator[tuple[bytes, bytes]]:
    """The routes of a record. Each has a peer, a time, and maybe an identifier in front of its attributes."""
    size = 1 + (body[4] + 7) // 8
    prefix, at = bytes(body[4:4 + size]), 6 + size
    for _ in range(struct.unpack_from(">H", body, 4 + size)[0]):
        at += 6 + identifier
        length = struct.unpack_from(">H", body, at)[0]
        at += 2 + length
        if at > len(body):
            raise IndexError
        yield prefix, bytes(body[at - length:at])
