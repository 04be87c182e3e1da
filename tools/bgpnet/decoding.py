"""Octets of BGP: what the program says of them, message by message, and the messages with all their fields.

The program judges and reads what RFC 4271 has; the fields that it leaves unsaid are read here, of messages in which it
finds no fault."""
from __future__ import annotations

import itertools
from dataclasses import dataclass
from typing import Iterator, Sequence, Tuple, Union

from bgpnet import attributes
from bgpnet.messages import (HEAD, NOTIFICATION, OPEN, REFRESH_HEAD, ROUTE_REFRESH, UPDATE, Message, Octets,
                             messages_of, refresh_text)
from bgpnet.names import capability_text, notification_text
from bgpnet.network import Prefix
from bgpnet.program import Program, Refusal

# The words that ask the program, by the width of AS numbers.
WORDS = {2: ["decode"], 4: ["decode", "--asn", "4"]}
DIGITS_PER_LINE = 64
# The program takes a text of 16,777,216 octets at most: it is asked for so many octets of messages at once.
PART = 1 << 21


def hex_lines(octets: Octets) -> str:
    digits = octets.hex()
    return "".join(digits[at:at + DIGITS_PER_LINE] + "\n" for at in range(0, len(digits), DIGITS_PER_LINE))


# ---- what the program says

class Said:
    """What the program says of octets by one width of AS numbers: each message with its line, the lines of what stands
    behind the last of these, and the place behind a fault, None where it finds none. `begin` is the place of the first
    message."""

    def __init__(self, width: int, begin: int) -> None:
        self.width, self.begin = width, begin
        self.told: list[tuple[Message, str]] = []
        self.last: list[str] = []
        self.behind: int | None = None

    def lines(self) -> list[str]:
        return [line for _, line in self.told] + self.last

    def add(self, part: Sequence[tuple[Message, str | None]], lines: Sequence[str]) -> bool:
        """Adds what was said of a part: of each message a line, which is None for the program's to be taken. Answers
        whether there is no fault."""
        left = iter(lines)
        for message, own in part:
            line = own or next(left, None)
            if line is None or line.startswith("fault"):
                self.last, self.behind = [line or "no answer", *left], message.end
                return False
            self.told.append((message, line))
        return True


def decoded(program: Program, width: int, octets: Octets, begin: int = 0, more: Sequence[str] = ()) -> Said:
    """What the program says of octets from a place on, by one width of AS numbers; `more` are words behind its own. It
    reads RFC 4271, which has no ROUTE-REFRESH: those that are well-formed (RFC 2918) are said here, in their places. It
    is asked by parts of whole messages, since it reads so many octets at once."""
    words, end = [*WORDS[width], *more], begin
    found = Said(width, begin)
    for part in parts_of(octets, PART, end):
        refreshes = [refresh_text(message.body(octets)) if message.is_refresh() else None for message in part]
        if not found.add(list(zip(part, refreshes)), asked(program, words, without_refreshes(octets, part))):
            return found
        end = part[-1].end
    if octets[end:end + HEAD] == REFRESH_HEAD:
        found.last = [f"truncated {len(octets) - end}"]
    else:
        found.last = asked(program, words, octets[end:end + PART])
    if found.last and found.last[0].startswith("fault"):
        found.behind = min(len(octets), end + HEAD)
    return found


def asked(program: Program, words: Sequence[str], octets: Octets) -> list[str]:
    return program.ask(words, hex_lines(octets))[1] if octets else []


def parts_of(octets: Octets, size: int, begin: int = 0) -> Iterator[list[Message]]:
    """The whole messages in front, or from a place on, by parts of about `size` octets."""
    part: list[Message] = []
    for message in messages_of(octets, begin):
        part.append(message)
        if message.end - part[0].begin >= size:
            yield part
            part = []
    if part:
        yield part


def without_refreshes(octets: Octets, part: Sequence[Message]) -> bytes:
    """The octets of messages that stand side by side, without the ROUTE-REFRESHes among them."""
    kept, begin = [], part[0].begin
    for message in part:
        if message.is_refresh():
            kept.append(octets[begin:message.begin])
            begin = message.end
    return b"".join([*kept, octets[begin:part[-1].end]])


# ---- messages with all their fields

@dataclass(frozen=True)
class Capability:
    """A capability of an OPEN (RFC 5492): its code, its octets, and what it is, by the names of IANA."""

    code: int
    value: bytes
    text: str


@dataclass(frozen=True)
class Open:
    """An OPEN: the AS number that it says (its AS field, or with numbers of four octets that of capability 65), the
    hold time in seconds, the BGP Identifier, and the capabilities in their order."""

    asn: int
    hold: int
    identifier: str
    capabilities: Tuple[Capability, ...] = ()


@dataclass(frozen=True)
class Attribute:
    """A path attribute: its type code, its octets, and its name with its value in words."""

    code: int
    value: bytes
    text: str


@dataclass(frozen=True)
class Update:
    """An UPDATE. A field is None, or empty, where the message has no such attribute. `path` is as `decode` prints one,
    `attributes` has all attributes in their order, those of the fields too."""

    withdrawn: Tuple[Prefix, ...] = ()
    announced: Tuple[Prefix, ...] = ()
    path: str | None = None
    next_hop: str | None = None
    origin: str | None = None
    multi_exit_disc: int | None = None
    local_pref: int | None = None
    atomic_aggregate: bool = False
    aggregator: Tuple[int, str] | None = None
    communities: Tuple[str, ...] = ()
    large_communities: Tuple[str, ...] = ()
    attributes: Tuple[Attribute, ...] = ()


@dataclass(frozen=True)
class Keepalive:
    """A KEEPALIVE, which has no field."""


@dataclass(frozen=True)
class Notification:
    """A NOTIFICATION: its error code, subcode and data, and what these are, by the names of IANA."""

    code: int
    subcode: int
    data: bytes
    text: str


@dataclass(frozen=True)
class RouteRefresh:
    """A ROUTE-REFRESH of RFC 2918, in words: the address family, and what it marks (RFC 7313)."""

    text: str


AnyMessage = Union[Open, Update, Keepalive, Notification, RouteRefresh]


@dataclass(frozen=True)
class Fault:
    """The first fault (RFC 4271 section 6): its code and subcode, the NOTIFICATION that answers it, octet by octet, and
    what the fault is, by the names of IANA."""

    code: int
    subcode: int
    notification: bytes
    text: str


@dataclass(frozen=True)
class Decoded:
    """The messages in front, the fault behind them, if there is one, and how many octets are left that are no whole
    message, or stand behind the fault."""

    messages: Tuple[AnyMessage, ...]
    fault: Fault | None
    left: int


def decode(program: Program, octets: bytes, width: int = 2, peer: int | None = None) -> Decoded:
    """The messages that octets spell. `width` is that of AS numbers, 2 or 4; an OPEN, and the first number of a path,
    are checked against the AS number `peer`, if one is given."""
    if width not in WORDS:
        raise Refusal(f"AS numbers have 2 or 4 octets, and not {width}")
    said = decoded(program, width, octets, 0, [] if peer is None else ["--peer", str(peer)])
    messages = tuple(message_of(message, line, octets, width) for message, line in said.told)
    fault = fault_of(said.last) if said.behind is not None else None
    end = said.told[-1][0].end if said.told else 0
    return Decoded(messages, fault, len(octets) - (end if said.behind is None else said.behind))


def fault_of(lines: Sequence[str]) -> Fault:
    words = lines[0].split()
    if words[0] != "fault":
        raise Refusal(f"bgpnet decode: {lines[0]}")
    notification = bytes.fromhex(lines[1])
    return Fault(int(words[1]), int(words[2]), notification, notification_text(notification[HEAD:]))


def message_of(message: Message, line: str, octets: Octets, width: int) -> AnyMessage:
    """A message in which the program finds no fault, of which it prints this line."""
    body, words = bytes(message.body(octets)), line.split()
    if message.kind == OPEN:
        return open_of(words)
    if message.kind == UPDATE:
        return update_of(words, body, width)
    if message.kind == NOTIFICATION:
        return Notification(body[0], body[1], body[2:], notification_text(body))
    return RouteRefresh(line.split(" ", 1)[1]) if message.kind == ROUTE_REFRESH else Keepalive()


def open_of(words: Sequence[str]) -> Open:
    """An OPEN, by the words that `decode` prints: `open as AS hold SECONDS id A.B.C.D`, then `cap CODE DATA` .."""
    capabilities = []
    for at in range(7, len(words), 3):
        code, value = int(words[at + 1]), bytes.fromhex(words[at + 2].strip("-"))
        capabilities.append(Capability(code, value, capability_text(code, value)))
    return Open(int(words[2]), int(words[4]), words[6], tuple(capabilities))


def update_of(words: Sequence[str], body: bytes, width: int) -> Update:
    """An UPDATE: its prefixes by the words that `decode` prints, the other fields by its attributes."""
    values = attributes.Update(body).attributes
    said = {code: (attributes.readable_text(code, value, width) or "").split() for code, value in values.items()}

    def number(code: int) -> int | None:
        return int(said[code][0]) if code in said else None

    def first(code: int) -> str | None:
        return said[code][0] if code in said else None

    aggregator = said.get(attributes.AGGREGATOR)
    return Update(
        prefixes_behind("withdraw", words), prefixes_behind("announce", words), first(attributes.AS_PATH),
        first(attributes.NEXT_HOP), (said[attributes.ORIGIN] or ["IGP"])[0] if attributes.ORIGIN in said else None,
        number(attributes.MULTI_EXIT_DISC), number(attributes.LOCAL_PREF), attributes.ATOMIC_AGGREGATE in said,
        (int(aggregator[0]), aggregator[1]) if aggregator else None, tuple(said.get(attributes.COMMUNITIES, ())),
        tuple(said.get(attributes.LARGE_COMMUNITY, ())),
        tuple(Attribute(code, value, attributes.attribute_text(code, value, width, ()))
              for code, value in values.items()))


def prefixes_behind(word: str, words: Sequence[str]) -> tuple[Prefix, ...]:
    """The prefixes behind a word of the line of an UPDATE, up to the next word."""
    behind = words[words.index(word) + 1:] if word in words else ()
    return tuple(map(Prefix.read, itertools.takewhile(lambda one: "/" in one, behind)))
