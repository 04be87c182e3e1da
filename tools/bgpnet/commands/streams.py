"""Takes the BGP streams out of a capture, without a dissector.

    tools/streams x.pcap                     a line for each stream: what speaks to what, octets, first messages
    tools/streams x.pcap 1 | bgpnet decode   the octets of the first stream, as hex
    tools/streams x.pcap --decode            what the program says of each, and what it leaves unsaid
    tools/streams x.pcap --decode --asn 4    the same, AS numbers have four octets where the capture doesn't say it
    tools/streams updates.gz 1 --parts x     the messages of the first stream in files x-1.hex .. that `decode` takes

A stream is what one end of a TCP connection says to the other, put together by sequence numbers: what was sent twice
counts once, and a connection that uses the ports of an earlier one is another. Where octets are missing, the capture
has a hole: the stream ends there, and a line on the standard error says how many octets are missing and how many stand
behind them. The status is then 1, as where the capture ends in the middle of a packet, or where the program finds a
fault.

FILE is a pcap or pcapng file of either byte order, of Ethernet (with VLAN tags or without), raw IP or Linux cooked
frames, over IPv4 or IPv6. IP fragments are not put together: they leave holes. Or it is an MRT file of messages and
changes of state (BGP4MP, RFC 6396), as RouteViews and RIS have them: a stream is then what one session has of a peer.
Or it is one stream as hex, as `decode` reads it. Any may be packed by gzip or bzip2."""
import datetime
import ipaddress
import itertools
import sys

from bgpnet.attributes import remark_of
from bgpnet.captures import SECOND, connections_of, is_hex, spoken_of
from bgpnet.decoding import WORDS, decoded, hex_lines, parts_of, without_refreshes
from bgpnet.messages import (FAMILIES, FOUR_OCTET_ASN, KINDS, MARKER, NOTIFICATION, OPEN, ROUTE_REFRESH, SUBSEQUENT,
                             UPDATE, capabilities_of, family_text, first_message, messages_of, path_identifiers)
from bgpnet.mrt import is_mrt, peerings_of
from bgpnet.names import notification_text, open_text
from bgpnet.network import Prefix
from bgpnet.program import Program, Refusal, Words, count, read_octets, tool

# What both OPENs may have, and what then changes in later messages.
CAPABILITIES = {6: "extended messages (RFC 8654)",
                FOUR_OCTET_ASN: "AS numbers of four octets (RFC 6793), which `decode --asn 4` reads"}
FIRST_MESSAGES = 5
# The program takes a text of 16,777,216 octets at most: a file of its own has so many octets of a stream.
FILE_PART = 8000000


# ---- what the program says of a stream

def begin_of(stream):
    """The place of a stream's first message: one that begins late may begin in the middle of a message."""
    return first_message(stream.octets) if stream.begin is None else 0


def width_of(connection):
    """The width of the AS numbers that both ends write, as the OPENs of a connection have it; None where they don't say
    it, since one was not captured."""
    opens = [capabilities_of(stream.octets) for stream in connection.streams.values()]
    if any(found is not None and FOUR_OCTET_ASN not in found for found in opens):
        return 2
    return None if None in opens else 4


def read_by(program, streams, width):
    """What the program says of streams, by one width of AS numbers."""
    return {stream: decoded(program, width, stream.octets, begin_of(stream)) for stream in streams}


def read_by_paths(program, streams):
    """What the program says of streams whose width is not known, and that width: it is the only one by which none of
    them has a fault. It is None where both say the same, and nothing is said where they don't, and neither or each is
    without a fault."""
    found = {width: read_by(program, streams, width) for width in WORDS}
    if all(found[2][stream].lines() == found[4][stream].lines() for stream in streams):
        return found[2], None
    good = [width for width in WORDS if all(said.behind is None for said in found[width].values())]
    return (found[good[0]], good[0]) if len(good) == 1 else ({}, None)


# ---- what is printed

def kinds_of(octets):
    """The first messages by name, and how many ROUTE-REFRESHes there are; what they are not says so."""
    names, refreshes = [], 0
    for number, message in enumerate(messages_of(octets)):
        if number <= FIRST_MESSAGES:
            names.append(KINDS.get(message.kind, f"type-{message.kind}") if number < FIRST_MESSAGES else "..")
        refreshes += message.kind == ROUTE_REFRESH
    if not names:
        return "no whole message" if octets[:16] == MARKER[:len(octets)] else "no message begins here"
    return " ".join(names) + (f", {refreshes} route-refresh" if refreshes else "")


def end_text(end):
    """An end of a connection: an address and a port, or the words that stand for it."""
    address, port = str(ipaddress.ip_address(end[0])), end[1]
    if isinstance(port, str):
        return f"{address} {port}"
    return f"[{address}]:{port}" if ":" in address else f"{address}:{port}"


def line_of(number, stream):
    ends = f"{end_text(stream.source)} > {end_text(stream.target)}  " if stream.source else ""
    line = f"{number}  {ends}{len(stream.octets)} octets"
    notes = [kinds_of(stream.octets)] if stream.octets else []
    if stream.notes:
        notes.append(f"{len(stream.notes)} change{'s' * (len(stream.notes) > 1)} of state")
    if stream.closed:
        notes.append(stream.closed)
    if stream.holes:
        notes.append(f"{len(stream.holes)} hole{'s' * (len(stream.holes) > 1)}")
    return f"{line}  {', '.join(notes)}"


def holes_of(number, stream):
    """A line for each hole of a stream."""
    for place, size in stream.holes:
        yield f"stream {number}: {size} octets are missing behind octet {place}"
    if stream.behind:
        yield f"stream {number}: it ends at its first hole, {stream.behind} octets stand behind it"


def faults_of(number, octets, found):
    """A line where the program finds a stream at fault, or cut off; it says what is left behind a fault."""
    if found.behind is None:
        return [f"stream {number}: it ends in the middle of a message"] if found.last else []
    left, messages = len(octets) - found.behind, sum(1 for _ in messages_of(octets, found.behind))
    line = f"stream {number}: the program finds a fault"
    if left:
        line += f"; {left} octets are left behind it, {messages} whole message{'s' * (messages != 1)} in front of them"
    return [line]


def time_text(time):
    """A time in UTC, `-` where it is not known."""
    if time is None:
        return "-"
    seconds, rest = divmod(time, SECOND)
    try:
        day = datetime.datetime(1970, 1, 1) + datetime.timedelta(seconds=seconds)
    except OverflowError:
        return "-"
    return f"{day.isoformat()}.{rest // 1000:06}Z"


def remark_on(message, stream, found, identified):
    """What is said of a message beside what the program prints: the capabilities of an OPEN and a NOTIFICATION by name,
    and what is left unsaid of an UPDATE; None of nothing."""
    body = message.body(stream.octets)
    if message.kind == UPDATE:
        return remark_of(body, found.width, identified)
    if message.kind == OPEN:
        return open_text(capabilities_of(stream.octets[message.begin:message.end]) or {}) or None
    if message.kind == NOTIFICATION and len(body) >= 2:
        return notification_text(body)
    return None


class Choice:
    """Which messages are printed: all, or those without KEEPALIVEs, or of a prefix."""

    def __init__(self, keepalives=True, prefix=None):
        self.keepalives, self.prefix = keepalives, prefix

    def has(self, line):
        if self.prefix is not None:
            words = line.split()
            return words[:1] == ["update"] and str(self.prefix) in words
        return self.keepalives or line != "keepalive"


ALL = Choice()


def timeline(connection, found, choice):
    """The messages of both streams of a connection in the order in which they were captured, each with its time and
    what speaks."""
    rows = []
    for side, stream in enumerate(connection.streams.values()):
        if stream not in found:
            continue
        said = found[stream]
        times = stream.times([message.end for message, _ in said.told])
        for at, ((message, line), time) in enumerate(zip(said.told, times)):
            if choice.has(line):
                remark = remark_on(message, stream, said, identified_in(connection, stream))
                rows.append((time is None, time or 0, side, at, line, remark))
    marks = "><"
    for _, time, side, _, line, remark in sorted(rows, key=lambda row: row[:4]):
        yield f"{time_text(time or None)} {marks[side]} {line}"
        if remark:
            yield f"# also: {remark}"


def told_lines(stream, found, identified, has_times, choice=ALL):
    """The lines of what the program says of a stream, with remarks of what it leaves unsaid, and with times in front
    where they are asked for."""
    ends = [message.end for message, _ in found.told] + ([found.behind] if found.behind is not None else [])
    times = [time_text(time) + " " for time in stream.times(ends)] if has_times else [""] * len(ends)
    notes = [(place, (time_text(time) + " " if has_times else "") + text) for place, text, time in stream.notes[::-1]]
    if found.begin:
        yield f"# {found.begin} octets of an earlier message"
    for (message, line), time in zip(found.told, times):
        while notes and notes[-1][0] <= message.begin:
            yield notes.pop()[1]
        if not choice.has(line):
            continue
        yield time + line
        if remark := remark_on(message, stream, found, identified):
            yield f"# also: {remark}"
    for line in found.last:
        yield times.pop() + line if len(times) > len(found.told) else line
    yield from (line for _, line in notes[::-1])


def notes_of(connection, numbers):
    """A line for each capability of a connection that changes its messages."""
    both = " and ".join(str(numbers[stream]) for stream in connection.streams.values() if stream in numbers)
    opens = [capabilities_of(stream.octets) or {} for stream in connection.streams.values()]
    for code, meaning in CAPABILITIES.items():
        if all(code in found for found in opens):
            yield f"{both}: both OPENs have capability {code}: {meaning}"
    if connection.has_identifiers:
        yield f"{both}: path identifiers pass (RFC 8050), which `decode` does not read"
    for one, other in itertools.permutations(connection.streams.values()):
        if families := path_identifiers(one.octets, other.octets):
            yield (f"{numbers[one]}: path identifiers of {', '.join(families)} pass (capability 69, RFC 7911), "
                   "which `decode` does not read")


@tool
def main():
    words = Words(__doc__)
    words.add_argument("file", metavar="FILE", help="the capture, - for the standard input")
    words.add_argument("number", metavar="N", nargs="?", type=count(1, 10**9), help="print this stream, as hex")
    words.add_argument("--decode", action="store_true", help="ask the program for the messages of each stream")
    words.add_argument("--asn", type=int, choices=list(WORDS),
                       help="the width of AS numbers in octets, where the OPENs or the records don't say it")
    words.add_argument("--parts", metavar="PREFIX", help="with N: write the stream to files that `decode` takes, "
                       "PREFIX-1.hex and so on")
    words.add_argument("--times", action="store_true", help="with --decode: when each message was captured, UTC")
    words.add_argument("--timeline", action="store_true",
                       help="with --decode: both directions of a connection in one list, by the time of capture")
    words.add_argument("--no-keepalive", dest="keepalives", action="store_false", help="with --decode: no KEEPALIVEs")
    words.add_argument("--prefix", metavar="P", help="with --decode: the UPDATEs of this prefix alone")
    words.add_argument("--port", type=count(1, 65535), default=179, help="the port of BGP (179)")
    asked = words.parse_intermixed_args()
    if asked.number and asked.decode:
        words.error("N and --decode are not given together")
    if asked.parts and not asked.number:
        words.error("--parts needs the number of a stream")
    if not asked.decode and (asked.timeline or asked.prefix or not asked.keepalives):
        words.error("--timeline, --no-keepalive and --prefix go with --decode")
    asked.choice = Choice(asked.keepalives, Prefix.named(asked.prefix) if asked.prefix else None)
    program = Program(asked.program) if asked.decode else None
    losses = []
    connections = read_capture(asked.file, asked.port, losses)
    streams = [stream for connection in connections for stream in connection.streams.values()
               if stream.octets or stream.notes]
    numbers = {stream: number for number, stream in enumerate(streams, 1)}
    if asked.number:
        if asked.number > len(streams):
            raise Refusal(f"{asked.file}: " + "; ".join(losses + [f"there are {len(streams)} streams"]))
        chosen = streams[asked.number - 1]
        if asked.parts:
            losses += write_parts(asked.parts, asked.number, chosen)
        else:
            sys.stdout.write(hex_lines(chosen.octets))
        losses += holes_of(asked.number, chosen)
    else:
        for connection in connections:
            losses += print_connection(connection, numbers, program, asked)
    for loss in losses:
        print(f"{words.prog}: {asked.file}: {loss}", file=sys.stderr)
    return 1 if losses else 0


def read_capture(name, port, losses):
    """The connections of a file, those with octets from or to a port; a file of MRT has no ports."""
    data = memoryview(read_octets(name))
    try:
        if is_mrt(data):
            found = peerings_of(data, losses)
        else:
            found = spoken_of(data) if is_hex(data) else connections_of(data, port, losses)
    except Refusal as why:
        raise Refusal(f"{name}: {why}") from None
    if not any(stream.octets or stream.notes for connection in found for stream in connection.streams.values()):
        losses.append("no messages" if is_mrt(data) else f"no octets from or to port {port}")
    return found


def write_parts(prefix, number, stream):
    """Writes the whole messages of a stream to files that the program takes, each from the beginning of a message on
    and without the ROUTE-REFRESHes, and prints their names. No file is written over. Answers what is not written."""
    octets, begin, refreshes = stream.octets, begin_of(stream), 0
    end = begin
    for place, part in enumerate(parts_of(octets, FILE_PART, begin), 1):
        kept, name = without_refreshes(octets, part), f"{prefix}-{place}.hex"
        with open(name, "x") as file:
            file.write(hex_lines(kept))
        left_out = sum(message.is_refresh() for message in part)
        print(f"{name}  {len(part) - left_out} messages  {len(kept)} octets")
        end, refreshes = part[-1].end, refreshes + left_out
    if refreshes:
        print(f"{refreshes} route-refresh left out")
    if begin:
        print(f"{begin} octets of an earlier message left out")
    if end < len(octets):
        return [f"stream {number}: {len(octets) - end} octets at its end are no whole message, and are in no part"]
    return []


def identified_in(connection, stream):
    """The families whose prefixes have path identifiers in a stream."""
    if connection.has_identifiers:
        return [family_text(family, subsequent) for family in FAMILIES for subsequent in SUBSEQUENT]
    other = next(other for other in connection.streams.values() if other is not stream)
    return path_identifiers(stream.octets, other.octets)


def print_connection(connection, numbers, program, asked):
    """Prints the streams of a connection, each with what the program says of it where it is asked. Answers what is
    wrong with them."""
    own = [stream for stream in connection.streams.values() if stream in numbers]
    width, losses, found, note = connection.width or width_of(connection) or asked.asn, [], {}, None
    if program and width:
        found = read_by(program, own, width)
    elif program:
        found, note = read_by_paths(program, own)
    for stream in own:
        print(line_of(numbers[stream], stream))
        losses += holes_of(numbers[stream], stream)
        if stream in found:
            identified = identified_in(connection, stream)
            lines = [] if asked.timeline else told_lines(stream, found[stream], identified, asked.times, asked.choice)
            for line in lines:
                print(f"  {line}")
            losses += faults_of(numbers[stream], stream.octets, found[stream])
        elif program:
            losses.append(f"stream {numbers[stream]}: the width of its AS numbers is not known: say --asn 2 or --asn 4")
    for line in timeline(connection, found, asked.choice) if asked.timeline else ():
        print(f"  {line}")
    for line in notes_of(connection, numbers):
        print(line)
    if note:
        print(f"{' and '.join(str(numbers[stream]) for stream in own)}: width {note}, by its paths")
    return losses
