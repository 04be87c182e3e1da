"""What the tools read of captures: the frames of a file, the TCP segments in them, and the streams that these make."""
from __future__ import annotations

import heapq
import re
import struct
from dataclasses import dataclass
from typing import Iterable, Iterator, Optional, Sequence, Tuple, Union

from bgpnet.messages import Octets
from bgpnet.program import Refusal

# The link type, the octets and the time of a frame; and of an interface of pcapng its link type, the most octets that
# it keeps of a packet, its ticks a second, and the second at which it begins.
Frame = Tuple[int, Octets, Optional[int]]
Interface = Tuple[int, int, int, int]
# An end: an address, and a port or the words that stand for it.
End = Tuple[bytes, Union[int, str]]

FIN, SYN, RST, ACK = 1, 2, 4, 16
SECOND = 10**9
HEX = re.compile(rb"[0-9A-Fa-f \t\r\n]+")
# A SYN that comes late is this many octets at most before what was seen.
NEAR = 1 << 20


# ---- frames of a capture file

def frames(data: Octets, losses: list[str]) -> Iterator[Frame]:
    """The link type, the octets and the time of each frame. What is wrong with the file is added to `losses`. Times are
    nanoseconds from the beginning of 1970, UTC, and None where the file says none."""
    if data[:4] == b"\x0a\x0d\x0d\x0a":
        return frames_of_blocks(data, losses)
    for order in "<>":
        for magic, unit in ((0xA1B2C3D4, 1000), (0xA1B23C4D, 1)):
            if data[:4] == struct.pack(order + "I", magic):
                return frames_of_records(data, order, unit, losses)
    raise Refusal("neither pcap, pcapng, MRT nor hex digits")


def frames_of_records(data: Octets, order: str, unit: int, losses: list[str]) -> Iterator[Frame]:
    """Those of a pcap file, whose head says the link type of all; `unit` is that of its times, in nanoseconds."""
    if len(data) < 24:
        raise Refusal("the capture ends in its head")
    link = struct.unpack_from(order + "I", data, 20)[0] & 0xFFFF
    at, number = 24, 0
    short: list[int] = []
    while at < len(data):
        number += 1
        seconds, fraction, size = struct.unpack_from(order + "III", data, at) if at + 16 <= len(data) else (0, 0, 0)
        if at + 16 + size > len(data):
            losses.append(f"the capture ends in the middle of packet {number}")
        elif at + 16 < len(data) and size < struct.unpack_from(order + "I", data, at + 12)[0]:
            short.append(size)
        if at + 16 < len(data):
            yield link, data[at + 16:at + 16 + size], seconds * SECOND + fraction * unit
        at += 16 + size
    losses += short_losses(short)


def short_losses(short: Sequence[int]) -> list[str]:
    """What is said of packets of which less was kept than there was, by how much was kept."""
    return [f"{len(short)} packet{'s' * (len(short) > 1)} of the capture cut short, at {max(short)} octets at most: "
            "capture whole ones (tcpdump -s 0)"] if short else []


def frames_of_blocks(data: Octets, losses: list[str]) -> Iterator[Frame]:
    """Those of a pcapng file, whose blocks are in sections, each with its byte order and its interfaces."""
    at, number, order = 0, 0, "<"
    interfaces: list[Interface] = []
    short: list[int] = []
    while at < len(data):
        number += 1
        if data[at:at + 4] == b"\x0a\x0d\x0d\x0a":
            order = "<" if data[at + 8:at + 12] == b"\x4d\x3c\x2b\x1a" else ">"
            interfaces = []
        kind, size = struct.unpack_from(order + "II", data, at) if at + 12 <= len(data) else (0, 12)
        if at + size > len(data):
            losses.append(f"the capture ends in the middle of block {number}")
            break
        if size < 12 or size % 4:
            losses.append(f"block {number} has a size of {size}; what stands behind it is not read")
            break
        kept = whole = 0
        if kind in (2, 6) and size >= 32:
            kept, whole = struct.unpack_from(order + "II", data, at + 20)
        elif kind == 3 and size >= 16 and interfaces and interfaces[0][1]:
            kept, whole = interfaces[0][1], struct.unpack_from(order + "I", data, at + 8)[0]
        if kept < whole:
            short.append(kept)
        if frame := frame_of_block(order, kind, data[at + 8:at + size - 4], interfaces):
            yield frame
        at += size
    losses += short_losses(short)


def frame_of_block(order: str, kind: int, body: Octets, interfaces: list[Interface]) -> Frame | None:
    """The link type, the octets and the time of a block with a packet; an interface's description joins the
    interfaces."""
    if kind == 1 and len(body) >= 8:
        link, _, most = struct.unpack_from(order + "HHI", body)
        interfaces.append((link, most, *clock_of(order, body[8:])))
    heads: dict[int, tuple[str, int | None, int]] = {2: ("HHIIII", 0, 4), 3: ("I", None, 0), 6: ("IIIII", 0, 3)}
    if kind not in heads or len(body) < 4:
        return None
    head, at, captured = heads[kind]
    start = struct.calcsize(order + head)
    if len(body) < start:
        return None
    values = struct.unpack_from(order + head, body)
    interface: int = 0 if at is None else values[at]
    if interface >= len(interfaces):
        return None
    link, most, ticks, offset = interfaces[interface]
    size = values[captured]
    if kind == 3:
        return link, body[start:start + (min(size, most) if most else size)], None
    ticked = values[captured - 2] << 32 | values[captured - 1]
    return link, body[start:start + size], ticked * SECOND // ticks + offset * SECOND


def clock_of(order: str, options: Octets) -> tuple[int, int]:
    """How many ticks an interface counts a second, and the second at which it begins, by its options."""
    ticks, offset, at = 10**6, 0, 0
    while at + 4 <= len(options):
        code, size = struct.unpack_from(order + "HH", options, at)
        value = options[at + 4:at + 4 + size]
        if code == 0:
            break
        if code == 9 and len(value) == 1:
            ticks = 1 << (value[0] & 127) if value[0] >> 7 else 10 ** value[0]
        if code == 14 and len(value) == 8:
            offset = struct.unpack(order + "q", value)[0]
        at += 4 + size + -size % 4
    return ticks, offset


# ---- segments of TCP

@dataclass
class Segment:
    """A TCP segment: its ends, what its head says, the octets of it that were captured, how many it had, and when."""

    source: End
    target: End
    sequence: int
    acknowledged: int
    flags: int
    octets: Octets
    size: int
    time: int | None = None


def packet_of(link: int, frame: Octets) -> Octets | None:
    """The IP packet of a frame, no octets where it has none, and None where the link type is not read."""
    if link == 1:
        return behind_tags(frame, 12)
    if link == 113:
        return behind_tags(frame, 14)
    if link == 276:
        return frame[20:] if frame[:2] in (b"\x08\x00", b"\x86\xdd") else b""
    if link in (0, 108):
        return frame[4:]
    return frame if link in (12, 14, 101, 228, 229) else None


def behind_tags(frame: Octets, at: int) -> Octets:
    """What stands behind the protocol at `at`, and behind the VLAN tags there; no octets where it is not IP."""
    while frame[at:at + 2] in (b"\x81\x00", b"\x88\xa8", b"\x91\x00"):
        at += 4
    return frame[at + 2:] if frame[at:at + 2] in (b"\x08\x00", b"\x86\xdd") else b""


def tcp_of(packet: Octets) -> tuple[bytes, bytes, Octets, int] | None:
    """The addresses and the TCP octets of an IP packet, with the size that its head says; else None."""
    version = packet[0] >> 4 if packet else 0
    if version == 4 and len(packet) >= 20:
        return tcp_of_four(packet)
    if version == 6 and len(packet) >= 40:
        return tcp_of_six(packet)
    return None


def tcp_of_four(packet: Octets) -> tuple[bytes, bytes, Octets, int] | None:
    size, fragment = struct.unpack_from(">H", packet, 2)[0], struct.unpack_from(">H", packet, 6)[0]
    start = (packet[0] & 15) * 4
    if packet[9] != 6 or fragment & 0x3FFF:
        return None
    size = size or len(packet)  # a card that parts segments itself leaves 0
    return bytes(packet[12:16]), bytes(packet[16:20]), packet[start:size], size - start


def tcp_of_six(packet: Octets) -> tuple[bytes, bytes, Octets, int] | None:
    size, following, start = struct.unpack_from(">H", packet, 4)[0], packet[6], 40
    end = 40 + size if size else len(packet)
    while following in (0, 43, 44, 51, 60) and len(packet) >= start + 8:
        if following == 44 and struct.unpack_from(">H", packet, start + 2)[0] & 0xFFF9:
            return None
        counted = packet[start + 1]
        length = 8 if following == 44 else 4 * (counted + 2) if following == 51 else 8 * (counted + 1)
        following, start = packet[start], start + length
    if following != 6:
        return None
    return bytes(packet[8:24]), bytes(packet[24:40]), packet[start:end], end - start


def segment_of(packet: Octets, port: int) -> Segment | None:
    """The segment of a packet from or to a port, else None."""
    found = tcp_of(packet)
    if not found or len(found[2]) < 20:
        return None
    source, target, octets, size = found
    from_port, to_port, sequence, acknowledged, offset, flags = struct.unpack_from(">HHIIBB", octets)
    if port not in (from_port, to_port):
        return None
    head = (offset >> 4) * 4
    ends = (source, from_port), (target, to_port)
    return Segment(*ends, sequence, acknowledged, flags, octets[head:], max(0, size - head))


# ---- streams

class Stream:
    """What one end of a connection says to the other.

    `octets` are those up to the first hole, `holes` the place and the size of each, `behind` how many octets stand
    behind the first, and `closed` says how the stream ends."""

    def __init__(self, source: End | None, target: End | None) -> None:
        self.source, self.target = source, target
        self.closed: str | None = None
        self.initial: int | None = None                     # the sequence number of its SYN
        self.base: int | None = None                        # places count from the first number seen
        self.near = 0
        self.begin: int | None = None                       # the places behind its SYN and at its FIN
        self.final: int | None = None
        self.least, self.last = 0, 0                        # what was seen stands between these places
        self.pieces: list[tuple[int, Octets, int | None]] = []
        self.octets, self.behind = b"", 0
        self.holes: list[tuple[int, int]] = []
        self.front = 0                                      # the place of its first octet
        self.notes: list[tuple[int, str, int]] = []         # what stands between messages: place, text and time

    def place(self, sequence: int) -> int:
        """The place of a sequence number: the nearest to the last one, since the numbers wrap around."""
        if self.base is None:
            self.base = sequence
        ahead = sequence - self.base - self.near & 0xFFFFFFFF
        self.near += ahead - (1 << 32) if ahead >> 31 else ahead
        return self.near

    def add(self, segment: Segment) -> None:
        if segment.flags & RST:
            self.closed = "RST"
            return
        at = self.place(segment.sequence + bool(segment.flags & SYN) & 0xFFFFFFFF)
        if segment.flags & SYN:
            self.initial, self.begin = segment.sequence, at
        if segment.size:
            self.pieces.append((at, segment.octets, segment.time))
        self.least, self.last = min(self.least, at), max(self.last, at + segment.size)
        if segment.flags & FIN:
            self.closed, self.final = "FIN", at + segment.size

    def append(self, octets: Octets, time: int | None) -> None:
        """Adds octets behind those that are there."""
        self.begin = 0
        self.pieces.append((self.last, octets, time))
        self.last += len(octets)

    def note(self, text: str, time: int) -> None:
        """Adds what stands behind the octets that are there."""
        self.notes.append((self.last, text, time))

    def join(self) -> None:
        """Puts the pieces together. Each octet counts once, and a place that no piece has is a hole."""
        self.pieces.sort(key=lambda piece: piece[0])
        last = self.last if self.final is None else self.final
        begin = self.begin if self.begin is not None else self.pieces[0][0] if self.pieces else last
        parts: list[tuple[bool, Octets]] = []
        end = begin
        for at, octets, _ in [*self.pieces, (last, b"", None)]:
            if at > end:
                self.holes.append((end - begin, at - end))
                end = at
            if at + len(octets) > end:
                parts.append((not self.holes, octets[end - at:]))
                end = at + len(octets)
        self.octets = b"".join(octets for whole, octets in parts if whole)
        self.behind = sum(len(octets) for whole, octets in parts if not whole)
        self.front = begin

    def times(self, ends: Iterable[int]) -> Iterator[int | None]:
        """The time at which the octet before each of these rising places was captured first."""
        waiting: list[tuple[int, int]] = []
        pieces = iter(self.pieces)
        piece = next(pieces, None)
        for end in ends:
            end += self.front
            while piece and piece[0] < end:
                if piece[2] is not None:
                    heapq.heappush(waiting, (piece[2], piece[0] + len(piece[1])))
                piece = next(pieces, None)
            while waiting and waiting[0][1] < end:
                heapq.heappop(waiting)
            yield waiting[0][0] if waiting else None


class Connection:
    """A TCP connection: the stream of each of its ends. It doesn't say itself how its messages are written."""
    width, has_identifiers = None, False

    def __init__(self, segment: Segment) -> None:
        self.streams = {segment.source: Stream(segment.source, segment.target),
                        segment.target: Stream(segment.target, segment.source)}

    def has(self, segment: Segment) -> bool:
        """Whether a segment is of this connection, and not of a later one with its ports."""
        own, other = self.streams[segment.source], self.streams[segment.target]
        if not segment.flags & SYN:
            return True
        if own.initial is not None:
            return own.initial == segment.sequence
        if own.pieces and own.base is not None:  # the capture has its SYN behind its first octets
            return (own.base + own.least - segment.sequence - 1) & 0xFFFFFFFF < NEAR
        if segment.flags & ACK and other.initial is not None and segment.acknowledged == other.initial + 1 & 0xFFFFFFFF:
            return True
        return not other.pieces


class Spoken:
    """One stream without ends, of which nothing but its octets is known."""
    width, has_identifiers = None, False

    def __init__(self, octets: bytes) -> None:
        self.streams = {"said": Stream(None, None), "answered": Stream(None, None)}
        self.streams["said"].append(octets, None)
        for stream in self.streams.values():
            stream.join()


def is_hex(data: Octets) -> bool:
    """Whether a file is a text of hex digits and blanks, as `decode` reads it."""
    return HEX.fullmatch(data) is not None


def spoken_of(data: Octets) -> list[Spoken]:
    """The stream that a text of hex digits is."""
    digits = bytes(data).translate(None, b" \t\r\n")
    if len(digits) % 2:
        raise Refusal("an odd number of hex digits")
    return [Spoken(bytes.fromhex(digits.decode()))]


def connections_of(data: Octets, port: int, losses: list[str]) -> list[Connection]:
    """The connections of a capture in which octets pass from or to a port, in the order in which they begin."""
    found: list[Connection] = []
    latest: dict[frozenset[End], Connection] = {}
    unread: dict[int, int] = {}
    for link, frame, time in frames(data, losses):
        packet = packet_of(link, frame)
        if packet is None:
            unread[link] = unread.get(link, 0) + 1
            continue
        segment = segment_of(packet, port)
        if segment is None:
            continue
        segment.time = time
        ends = frozenset((segment.source, segment.target))
        if ends not in latest or not latest[ends].has(segment):
            latest[ends] = Connection(segment)
            found.append(latest[ends])
        latest[ends].streams[segment.source].add(segment)
    losses += [f"{number} packets of link type {link} are not read" for link, number in sorted(unread.items())]
    for connection in found:
        for stream in connection.streams.values():
            stream.join()
    return found
