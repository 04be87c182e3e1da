"""Tests of `streams`, over captures that are made here: a conversation as segments, these as frames, and these as a
file. What the tool has to find is known before anything is altered.

    python3 tools/tests/streams_test.py     writes examples/session.pcap anew"""
import bz2
import contextlib
import gzip
import io
import pathlib
import random
import struct
import sys
import tempfile
import unittest
import unittest.mock

from support import TOP, asked_program, load, run

from bgpnet import attributes, names
from bgpnet.program import run_tool

streams = load("streams")

FIN, SYN, RST, ACK = 1, 2, 4, 16
CLIENT, SERVER = (bytes([10, 0, 0, 1]), 40000), (bytes([10, 0, 0, 2]), 179)
CLIENT_SIX, SERVER_SIX = (bytes([0x20, 1] + [0] * 13 + [1]), 40000), (bytes([0x20, 1] + [0] * 13 + [2]), 179)


def ran(*words, given=b""):
    """What `run` answers of the tool, without a process of its own."""
    out, error = io.StringIO(), io.StringIO()
    with unittest.mock.patch.object(sys, "argv", ["streams", *map(str, words)]), \
            unittest.mock.patch.object(sys, "stdin", io.TextIOWrapper(io.BytesIO(given))), \
            contextlib.redirect_stdout(out), contextlib.redirect_stderr(error):
        try:
            run_tool(streams.main)
        except SystemExit as ended:
            return ended.code, out.getvalue(), error.getvalue()


def message(kind, body=b""):
    return b"\xff" * 16 + struct.pack(">HB", 19 + len(body), kind) + body


def open_message(asn, capabilities=b""):
    parameters = bytes([2, len(capabilities)]) + capabilities if capabilities else b""
    return message(1, struct.pack(">BHH", 4, asn, 90) + bytes([10, 0, 0, asn & 255, len(parameters)]) + parameters)


def update_message(asn, prefix):
    attributes = bytes([0x40, 1, 1, 0, 0x40, 2, 4, 2, 1]) + struct.pack(">H", asn) + bytes([0x40, 3, 4, 10, 0, 0, 1])
    return message(2, struct.pack(">HH", 0, len(attributes)) + attributes + bytes([16, 10, prefix]))


def path_message(path):
    """An UPDATE whose AS_PATH has these octets."""
    attributes = bytes([0x40, 1, 1, 0, 0x40, 2, len(path)]) + path + bytes([0x40, 3, 4, 10, 0, 0, 1])
    return message(2, struct.pack(">HH", 0, len(attributes)) + attributes + bytes([16, 10, 7]))


def wide_message(asn):
    """An UPDATE of a speaker of four-octet numbers."""
    return path_message(struct.pack(">BBI", 2, 1, asn))


def refresh(family=1, subsequent=1, subtype=0, more=b""):
    """A ROUTE-REFRESH (RFC 2918, RFC 7313)."""
    return message(5, struct.pack(">HBB", family, subtype, subsequent) + more)


def speech(asn, updates, capabilities=b""):
    """What one end says: an OPEN, a KEEPALIVE, and UPDATEs."""
    return open_message(asn, capabilities) + message(4) + b"".join(update_message(asn, n % 256) for n in range(updates))


class Said:
    """A segment: who says it, its sequence number, its flags and its octets."""

    def __init__(self, source, target, sequence, flags, octets=b"", acknowledged=0):
        self.source, self.target, self.octets = source, target, octets
        self.sequence, self.flags, self.acknowledged = sequence % 2**32, flags, acknowledged % 2**32


def talk(source, target, said, first, size, acknowledged=0):
    """The segments in which one end says octets, from its SYN to its FIN; `size` is that of a segment."""
    flags = SYN | (ACK if acknowledged else 0)
    yield Said(source, target, first, flags, acknowledged=acknowledged)
    for at in range(0, len(said), size):
        yield Said(source, target, first + 1 + at, ACK, said[at:at + size])
    yield Said(source, target, first + 1 + len(said), ACK | FIN)


def conversation(said, answered, ends=(CLIENT, SERVER), first=1000, size=60):
    """The segments of a connection, one of each end in turn."""
    one = list(talk(*ends, said, first, size))
    other = list(talk(*ends[::-1], answered, first + 77, size, acknowledged=first + 1))
    both = []
    while one or other:
        both += one[:1] + other[:1]
        one, other = one[1:], other[1:]
    return both


def tcp(said):
    return struct.pack(">HHIIBBHHH", said.source[1], said.target[1], said.sequence, said.acknowledged, 0x50,
                       said.flags, 0xFFFF, 0, 0) + said.octets


def packet(said, extension=False):
    """The IP packet of a segment; with an extension there stand options before TCP."""
    octets = tcp(said)
    if len(said.source[0]) == 16:
        options = bytes([6, 0]) + b"\0" * 6 if extension else b""
        head = struct.pack(">IHBB", 6 << 28, len(options) + len(octets), 60 if options else 6, 64)
        return head + said.source[0] + said.target[0] + options + octets
    options = b"\1" * 4 if extension else b""
    head = struct.pack(">BBHHHBBH", 0x45 + extension, 0, 20 + len(options) + len(octets), 1, 0, 64, 6, 0)
    return head + said.source[0] + said.target[0] + options + octets


def protocol(octets):
    return b"\x86\xdd" if octets[0] >> 4 == 6 else b"\x08\x00"


FRAMES = {
    "Ethernet": (1, lambda ip: b"\2" * 12 + protocol(ip) + ip + b"\0" * 6),
    "a VLAN tag": (1, lambda ip: b"\2" * 12 + b"\x81\0\0\7" + protocol(ip) + ip),
    "two VLAN tags": (1, lambda ip: b"\2" * 12 + b"\x88\xa8\0\7\x81\0\0\x09" + protocol(ip) + ip),
    "raw IP": (101, lambda ip: ip),
    "raw IP, as BSD numbers it": (12, lambda ip: ip),
    "Linux cooked": (113, lambda ip: b"\0" * 14 + protocol(ip) + ip),
    "Linux cooked, the second form": (276, lambda ip: protocol(ip) + b"\0" * 18 + ip),
    "loopback": (0, lambda ip: b"\2\0\0\0" + ip),
}


def pcap(link, frames, order="<", magic=0xA1B2C3D4, times=None):
    """Times are seconds and parts of one."""
    head = struct.pack(order + "IHHIIII", magic, 2, 4, 0, 0, 65535, link)
    return head + b"".join(struct.pack(order + "IIII", *time, len(frame), len(frame)) + frame
                           for frame, time in zip(frames, times or [(0, 0)] * len(frames)))


def block(order, kind, body):
    body += b"\0" * (-len(body) % 4)
    return struct.pack(order + "II", kind, len(body) + 12) + body + struct.pack(order + "I", len(body) + 12)


def pcapng(link, frames, order="<", kind=6, most=0, options=b"", times=None):
    """A section with an interface, and a block of a kind for each frame, of which `most` octets were captured (0: all).
    Times are ticks of the interface's clock, as its options say."""
    head = block(order, 0x0A0D0D0A, struct.pack(order + "IHHq", 0x1A2B3C4D, 1, 0, -1))
    head += block(order, 1, struct.pack(order + "HHI", link, 0, most) + options)
    head += block(order, 5, b"statistics, which say nothing here")
    for frame, time in zip(frames, times or [0] * len(frames)):
        part, clock = frame[:most or None], (time >> 32, time & 0xFFFFFFFF)
        heads = {2: struct.pack(order + "HHIIII", 0, 0, *clock, len(part), len(frame)),
                 3: struct.pack(order + "I", len(frame)),
                 6: struct.pack(order + "IIIII", 0, *clock, len(part), len(frame))}
        head += block(order, kind, heads[kind] + part)
    return head


def ethernet(segments):
    return pcap(1, [FRAMES["Ethernet"][1](packet(said)) for said in segments])


def found_in(data):
    """The streams of a capture: the octets, the holes, and how many octets stand behind the first."""
    losses = []
    found = [stream for connection in streams.connections_of(memoryview(data), 179, losses)
             for stream in connection.streams.values() if stream.octets]
    return [(stream.octets, stream.holes, stream.behind) for stream in found], losses


def whole(*said):
    return [(octets, [], 0) for octets in said]


class Files(unittest.TestCase):
    """The forms of captures and of frames."""

    def test_each_form_of_file_and_frame(self):
        said, answered = speech(1, 5), speech(2, 3)
        for ends in ((CLIENT, SERVER), (CLIENT_SIX, SERVER_SIX)):
            for extension in (False, True):
                packets = [packet(segment, extension) for segment in conversation(said, answered, ends)]
                for name, (link, framed) in FRAMES.items():
                    frames = [framed(octets) for octets in packets]
                    for order in "<>":
                        for data in (pcap(link, frames, order), pcap(link, frames, order, 0xA1B23C4D),
                                     *(pcapng(link, frames, order, kind) for kind in (2, 3, 6))):
                            with self.subTest(frame=name, order=order, ends=ends, extension=extension):
                                self.assertEqual(found_in(data), (whole(said, answered), []))

    def test_sections_of_pcapng_have_their_own_order(self):
        one, other = conversation(speech(1, 2), speech(2, 1)), conversation(speech(3, 1), speech(4, 2), first=9000)
        data = b"".join(pcapng(101, [packet(said) for said in talks], order) for talks, order in ((one, "<"), (other, ">")))
        self.assertEqual(found_in(data), (whole(speech(1, 2), speech(2, 1), speech(3, 1), speech(4, 2)), []))

    def test_a_capture_that_is_cut_off(self):
        said, answered = speech(1, 2), speech(2, 2)
        data = ethernet(conversation(said, answered))
        for size in range(24, len(data)):
            found, losses = found_in(data[:size])
            for octets, _, _ in found:
                self.assertTrue(said.startswith(octets) or answered.startswith(octets))
            self.assertTrue(not losses or "in the middle of packet" in losses[0])
        self.assertEqual(ran("-", given=data[:20])[0::2], (1, "streams: -: the capture ends in its head\n"))
        for size in range(28, 400):
            found_in(pcapng(101, [packet(said) for said in conversation(said, answered)])[:size])

    def test_no_octets_at_all_break_it(self):
        packets = [packet(said, True) for said in conversation(speech(1, 2), speech(2, 2))]
        packets += [packet(said, True) for said in conversation(speech(3, 2), speech(4, 2), (CLIENT_SIX, SERVER_SIX))]
        for seed in range(400):
            draw = random.Random(seed)
            link, framed = draw.choice(list(FRAMES.values()))
            form = draw.choice([pcap, pcapng])
            data = bytearray(form(link, [framed(octets) for octets in packets], draw.choice("<>")))
            for _ in range(draw.randrange(1, 40)):
                data[draw.randrange(4, len(data))] = draw.choice([0, 1, 255, draw.randrange(256)])
            with self.subTest(seed=seed):
                try:
                    found_in(bytes(data[:draw.choice([len(data), draw.randrange(len(data))])]))
                except streams.Refusal as why:
                    self.assertIn(str(why), ("neither pcap, pcapng, MRT nor hex digits", "the capture ends in its head"))

    def test_other_link_types_are_named(self):
        data = pcap(127, [b"\0" * 60] * 3)
        self.assertEqual(found_in(data), ([], ["3 packets of link type 127 are not read"]))

    def test_what_is_no_bgp_is_passed_over(self):
        said, answered = speech(1, 2), speech(2, 2)
        others = conversation(b"GET / HTTP/1.1", b"200", ((CLIENT[0], 50000), (SERVER[0], 80)))
        udp = bytearray(packet(others[0]))
        udp[9] = 17
        frames = [FRAMES["Ethernet"][1](octets) for octets in
                  [*map(packet, conversation(said, answered)), *map(packet, others), bytes(udp), b"\x60"]]
        self.assertEqual(found_in(pcap(1, frames + [b"", b"\2" * 13, b"\2" * 12 + b"\x08\x06" + b"\0" * 28])),
                         (whole(said, answered), []))

    def test_no_capture(self):
        self.assertEqual(run("streams", "README.md"), (1, "", "streams: README.md: neither pcap, pcapng, MRT nor hex digits\n"))
        self.assertEqual(ran("-", given=pcap(1, [])), (1, "", "streams: -: no octets from or to port 179\n"))


class Segments(unittest.TestCase):
    """The order and the number of segments."""

    def test_retransmissions_count_once_and_order_does_not_count(self):
        for seed in range(60):
            draw = random.Random(seed)
            said, answered = speech(1, draw.randrange(1, 40)), speech(2, draw.randrange(1, 40))
            first = draw.choice([1000, 2**32 - 100, 2**32 - 1])
            segments = conversation(said, answered, first=first, size=draw.randrange(1, 200))
            segments = [again for segment in segments for again in [segment] * draw.choice([1, 1, 2, 3])]
            for at in range(2, len(segments) - 1):
                if draw.random() < 0.3:
                    segments[at], segments[at + 1] = segments[at + 1], segments[at]
            with self.subTest(seed=seed):
                found, losses = found_in(ethernet(segments))
                self.assertEqual(sorted(found), sorted(whole(said, answered)))
                self.assertEqual(losses, [])

    def test_retransmissions_in_other_pieces(self):
        for seed in range(40):
            draw = random.Random(seed)
            said = speech(1, 30)
            pieces = [*talk(CLIENT, SERVER, said, 5, 40), *talk(CLIENT, SERVER, said, 5, 70), *talk(CLIENT, SERVER, said, 5, 11)]
            draw.shuffle(pieces)
            with self.subTest(seed=seed):
                self.assertEqual(found_in(ethernet(pieces))[0], whole(said))

    def test_holes_are_named(self):
        for seed in range(60):
            draw = random.Random(seed)
            said, size = speech(1, 30), draw.randrange(7, 90)
            kept, missing = [], []
            for segment in talk(CLIENT, SERVER, said, 7, size):
                at = segment.sequence - 8
                if segment.octets and draw.random() < 0.1:
                    missing.append((at, at + len(segment.octets)))
                else:
                    kept.append(segment)
            holes = []
            for start, end in missing:
                if holes and sum(holes[-1]) == start:
                    holes[-1] = (holes[-1][0], holes[-1][1] + end - start)
                else:
                    holes.append((start, end - start))
            front = said[:holes[0][0]] if holes else said
            behind = len(said) - len(front) - sum(size for _, size in holes)
            draw.shuffle(kept)
            with self.subTest(seed=seed):
                self.assertEqual(found_in(ethernet(kept))[0], [(front, holes, behind)] if front else [])

    def test_octets_that_were_not_captured_are_a_hole(self):
        said = speech(1, 4)
        frames = [packet(segment) for segment in talk(CLIENT, SERVER, said, 7, 1000)]
        short = [frame[:90] for frame in frames]
        for data in (pcap(101, short), *(pcapng(101, frames, "<", kind, most=90) for kind in (2, 3, 6))):
            found, losses = found_in(data)
            self.assertEqual(found, [(said[:50], [(50, len(said) - 50)], 0)])
            self.assertEqual(losses, [] if data[:4] == pcap(101, [])[:4] else [
                "1 packet of the capture cut short, at 90 octets at most: capture whole ones (tcpdump -s 0)"])
        self.assertEqual(found_in(pcap(101, short + frames))[0], whole(said))

    def test_a_capture_that_begins_in_the_middle(self):
        said = speech(1, 4)
        later = [segment for segment in talk(CLIENT, SERVER, said, 7, 30)][3:]
        found, _ = found_in(ethernet(later[::-1]))
        self.assertEqual(found, whole(said[60:]))
        status, out, error = ran("-", given=ethernet(later))
        self.assertEqual((status, error), (0, ""))
        self.assertIn("no message begins here", out)

    def test_ports_that_are_used_again(self):
        speeches = [speech(number, number) for number in range(1, 9)]
        segments = []
        for number in range(0, 8, 2):
            segments += conversation(speeches[number], speeches[number + 1], first=1000 * (number + 1))
        self.assertEqual(found_in(ethernet(segments))[0], whole(*speeches))

    def test_a_reset_says_nothing_of_what_was_sent(self):
        said = speech(1, 1)
        segments = [*list(talk(CLIENT, SERVER, said, 7, 30))[:-1], Said(CLIENT, SERVER, 999999, RST)]
        self.assertEqual(found_in(ethernet(segments))[0], whole(said))

    def test_an_acknowledgement_shows_what_was_not_captured(self):
        said = speech(1, 1)
        segments = [*list(talk(CLIENT, SERVER, said, 7, 30))[:-1], Said(CLIENT, SERVER, 8 + len(said) + 5, ACK)]
        self.assertEqual(found_in(ethernet(segments))[0], [(said, [(len(said), 5)], 0)])

    def test_a_probe_that_keeps_a_connection_alive(self):
        said = speech(1, 1)
        segments = list(talk(CLIENT, SERVER, said, 7, 30))
        probe = Said(CLIENT, SERVER, 7 + len(said), ACK, b"\0")
        early = Said(CLIENT, SERVER, 7, ACK, b"\0")
        self.assertEqual(found_in(ethernet([segments[0], early, *segments[1:-1], probe, segments[-1]]))[0], whole(said))


def example():
    """The capture of the examples: router 1 starts the session, and announces two prefixes; a piece of its last message
    is sent twice; all stands behind a VLAN tag."""
    segments = conversation(speech(1, 2), speech(2, 0), size=37)
    return pcap(1, [FRAMES["a VLAN tag"][1](packet(said)) for said in [*segments[:9], *segments[8:]]])


class Refreshes(unittest.TestCase):
    """ROUTE-REFRESH, which RFC 4271 does not have."""

    def decoded(self, said, *words):
        """The status, what is printed of one stream, and the lines of the standard error."""
        status, out, error = ran("-", "--decode", *words, given=ethernet(talk(CLIENT, SERVER, said, 7, 60)))
        return status, out.splitlines(), error.splitlines()

    def test_they_stand_in_their_places(self):
        said = open_message(1) + refresh() + refresh(2, 1, 1) + message(4) + update_message(1, 7)
        said += refresh(2, 1, 2) + refresh(25, 70) + refresh(1, 128, 7) + update_message(1, 8) + refresh(99, 98)
        status, out, error = self.decoded(said)
        self.assertEqual((status, error), (0, []))
        self.assertEqual(out[0], f"1  10.0.0.1:40000 > 10.0.0.2:179  {len(said)} octets  "
                                 "open route-refresh route-refresh keepalive update .., 6 route-refresh, FIN")
        self.assertEqual(out[1:], [f"  {line}" for line in (
            "open as 1 hold 90 id 10.0.0.1", "route-refresh ipv4 unicast", "route-refresh ipv6 unicast BoRR", "keepalive",
            "update announce 10.7.0.0/16 path 1 next 10.0.0.1", "route-refresh ipv6 unicast EoRR",
            "route-refresh l2vpn evpn", "route-refresh ipv4 mpls-vpn subtype 7",
            "update announce 10.8.0.0/16 path 1 next 10.0.0.1", "route-refresh 99 98")])

    def test_without_an_open_and_alone(self):
        said = message(4) + refresh() + message(4)
        self.assertEqual(self.decoded(said)[1][1:], ["  keepalive", "  route-refresh ipv4 unicast", "  keepalive"])
        self.assertEqual(self.decoded(refresh())[0::2], (0, []))
        self.assertEqual(self.decoded(refresh())[1][1:], ["  route-refresh ipv4 unicast"])

    def test_of_another_length_they_are_a_fault(self):
        for wrong in (message(5), message(5, b"\0\1\0"), refresh(more=b"\0")):
            status, out, error = self.decoded(refresh() + wrong + message(4))
            self.assertEqual((status, out[1:3]), (1, ["  route-refresh ipv4 unicast", "  fault 1 3"]))
            self.assertEqual(error, ["streams: -: stream 1: the program finds a fault; 19 octets are left behind it, "
                                     "1 whole message in front of them"])

    def test_what_is_left_behind_a_fault(self):
        for left, messages in ((b"", None), (message(4) * 2 + refresh() + message(4)[:5], 3), (b"\0" * 7, 0)):
            status, out, error = self.decoded(open_message(1) + refresh() + message(9) + left)
            self.assertEqual((status, out[2:4]), (1, ["  route-refresh ipv4 unicast", "  fault 1 3"]))
            more = f"; {len(left)} octets are left behind it, {messages} whole messages in front of them" if left else ""
            self.assertEqual(error, [f"streams: -: stream 1: the program finds a fault{more}"])
        status, out, error = self.decoded(message(4) + refresh() + b"\0" * 30 + message(4))
        self.assertEqual((status, out[1:4]), (1, ["  keepalive", "  route-refresh ipv4 unicast", "  fault 1 1"]))
        self.assertIn("; 30 octets are left behind it, 0 whole messages", error[0])

    def test_a_stream_that_ends_in_the_middle(self):
        status, out, error = self.decoded(message(4) + refresh() + refresh()[:20])
        self.assertEqual((status, out[1:]), (1, ["  keepalive", "  route-refresh ipv4 unicast", "  truncated 20"]))
        self.assertEqual(error, ["streams: -: stream 1: it ends in the middle of a message"])

    def test_many_parts(self):
        """The order stays over the ends of the parts in which the program is asked."""
        said = (LONG * 9 + refresh(2) + message(4)) * 100
        data = ethernet(talk(CLIENT, SERVER, open_message(1) + said, 7, 60000))
        status, out, error = ran("-", "--decode", given=data)
        self.assertEqual((status, error), (0, ""))
        self.assertEqual([line.split()[0] for line in out.splitlines()[2:] if "also" not in line],
                         (["update"] * 9 + ["route-refresh", "keepalive"]) * 100)

    def test_any_mixture(self):
        for seed in range(40):
            draw = random.Random(seed)
            kinds = draw.choices(["keepalive", "route-refresh", "update"], k=draw.randrange(1, 12))
            octets = {"keepalive": message(4), "route-refresh": refresh(), "update": update_message(1, 7)}
            data = b"".join(octets[kind] for kind in kinds)
            size = draw.choice([40, 100, 1 << 21])
            with self.subTest(seed=seed):
                parts = list(streams.parts_of(data, size))
                self.assertEqual(b"".join(streams.without_refreshes(data, part) for part in parts),
                                 b"".join(octets[kind] for kind in kinds if kind != "route-refresh"))
                self.assertEqual(b"".join(data[one.begin:one.end] for part in parts for one in part), data)


class Late(unittest.TestCase):
    """Streams that begin behind their OPENs, and what else says the width of AS numbers."""

    EITHER = path_message(bytes([2, 2, 2, 1, 2, 1, 2, 1, 2, 1]))  # 513-513-513 by two octets, 33620481-33620481 by four

    def decoded(self, said, answered, *words):
        """The status, the lines behind both streams, and those of the standard error."""
        data = ethernet([one for one in conversation(said, answered) if not one.flags & SYN])
        status, out, error = ran("--decode", *words, "-", given=data)
        return status, [line for line in out.splitlines() if " > " not in line], error.splitlines()

    def test_the_only_width_without_a_fault(self):
        for update, width, path in ((wide_message(70000), 4, "70000"), (update_message(5, 7), 2, "5")):
            for said, answered in ((update, message(4)), (message(4), update), (self.EITHER, update)):
                status, out, error = self.decoded(message(4) + said, answered + refresh())
                self.assertEqual((status, error, out[-1]), (0, [], f"1 and 2: width {width}, by its paths"))
                self.assertIn(f"  update announce 10.7.0.0/16 path {path} next 10.0.0.1", out)

    def test_a_stream_that_is_cut_off_has_no_fault(self):
        status, out, error = self.decoded(wide_message(5) + message(4)[:7], message(4))
        self.assertEqual((status, out[-1]), (1, "1 and 2: width 4, by its paths"))
        self.assertEqual(error, ["streams: -: stream 1: it ends in the middle of a message"])

    def test_no_path_says_none_and_needs_none(self):
        for said in (message(4), path_message(b""), message(9)):
            status, out, error = self.decoded(said, message(4))
            self.assertEqual((status, len(error)), (int(said == message(9)),) * 2)
            self.assertNotIn("width", "".join(out + error))

    def test_else_it_is_asked_for(self):
        for said, answered in ((self.EITHER, message(4)), (wide_message(1) + message(9), message(4)),
                               (wide_message(70000), update_message(1, 7))):
            status, out, error = self.decoded(said, answered)
            self.assertEqual((status, out), (1, []))
            self.assertEqual(error, [f"streams: -: stream {number}: the width of its AS numbers is not known: "
                                     "say --asn 2 or --asn 4" for number in (1, 2)])
        for width, path in ((2, "513-513-513"), (4, "33620481-33620481")):
            status, out, error = self.decoded(self.EITHER, message(4), "--asn", width)
            self.assertEqual((status, out, error), (0, [f"  update announce 10.7.0.0/16 path {path} next 10.0.0.1",
                                                        "  keepalive"], []))

    def test_one_open_that_has_not_the_capability_says_two(self):
        four = Printed.FOUR
        for said, answered, path in ((open_message(1) + self.EITHER, message(4), "513-513-513"),
                                     (open_message(1, four) + self.EITHER, open_message(2, four), "33620481-33620481")):
            for words in ((), ("--asn", 2), ("--asn", 4)):
                self.assertIn(f"  update announce 10.7.0.0/16 path {path} next 10.0.0.1",
                              self.decoded(said, answered, *words)[1])
        self.assertEqual(self.decoded(open_message(1, four) + self.EITHER, message(4))[0], 1)

    def test_a_stream_that_begins_in_the_middle_of_a_message(self):
        said = wide_message(1) + message(4) + wide_message(70000)
        for skipped in range(1, len(wide_message(1)) + 1):
            data = ethernet([Said(CLIENT, SERVER, 7, ACK, said[skipped:])])
            status, out, error = ran("-", "--decode", given=data)
            left = len(wide_message(1)) - skipped
            with self.subTest(skipped=skipped):
                self.assertEqual((status, error), (0, ""))
                self.assertEqual(out.splitlines()[1:], ([f"  # {left} octets of an earlier message"] if left else []) + [
                    "  keepalive", "  update announce 10.7.0.0/16 path 70000 next 10.0.0.1", "1: width 4, by its paths"])

    def test_a_marker_in_a_message_is_no_message(self):
        said = message(2, b"\xff" * 40) + message(4)  # no end of a message stands where these lengths say
        status, out, error = ran("-", "--decode", given=ethernet([Said(CLIENT, SERVER, 7, ACK, said[20:])]))
        self.assertEqual((status, out.splitlines()[1:]), (0, ["  # 39 octets of an earlier message", "  keepalive"]))
        for said in (b"\0" * 90, b"\0" * 66000 + message(4)):
            status, out, error = ran("-", "--decode", given=ethernet(list(talk(CLIENT, SERVER, said, 7, 60000))[1:]))
            self.assertEqual((status, out.splitlines()[1]), (1, "  fault 1 1"))

    def test_with_its_beginning_a_stream_has_to_begin_with_a_message(self):
        self.assertEqual(ran("-", "--decode", given=ethernet(talk(CLIENT, SERVER, b"x" + message(4), 7, 60)))[0], 1)
        self.assertEqual(ran("-", "--decode", given=(b"\1" + message(4)).hex().encode())[0], 1)

    def test_options_stand_anywhere(self):
        data = ethernet(conversation(self.EITHER, message(4)))
        wanted = ran("-", "--decode", "--asn", 4, "--port", 179, given=data)
        self.assertEqual(wanted[0], 0)
        for words in (("--decode", "--asn", "4", "-"), ("--asn", "4", "-", "--decode"), ("--asn=4", "--decode", "-")):
            self.assertEqual(ran(*words, given=data), wanted)
        for words in (("-", "--port", 179, 1), ("--port", 179, "-", 1), ("-", 1, "--port", 179)):
            self.assertEqual(ran(*words, given=data), (0, streams.hex_lines(self.EITHER), ""))

    def test_path_identifiers_where_one_end_sends_and_the_other_receives(self):
        def identifiers(*families):
            return bytes([69, 4 * len(families)]) + bytes(octet for family in families for octet in family)
        receives, sends, both = (0, 1, 1, 1), (0, 1, 1, 2), (0, 1, 1, 3)
        six, line = (0, 2, 1, 2), "path identifiers of ipv4 unicast pass (capability 69, RFC 7911)"
        for one, other, numbers in ((receives, receives, []), (sends, sends, []), (sends, receives, [1]), (six, receives, []),
                                    (receives, both, [2]), (both, both, [1, 2]), (sends, None, []), (six, both, [])):
            data = ethernet(conversation(open_message(1, identifiers(one)),
                                         open_message(2, identifiers(other) if other else b"")))
            out = ran("-", given=data)[1]
            self.assertEqual([number for number in (1, 2) if f"{number}: {line}" in out], numbers)
            self.assertEqual(out.count("identifiers"), len(numbers))
        data = ethernet(conversation(open_message(1, identifiers(sends, six)), open_message(2, identifiers((0, 2, 1, 1), both))))
        self.assertIn("1: path identifiers of ipv4 unicast, ipv6 unicast pass", ran("-", given=data)[1])


def attribute(code, value, flags=0xC0):
    if len(value) > 255:
        return struct.pack(">BBH", flags | 0x10, code, len(value)) + value
    return bytes([flags, code, len(value)]) + value


def told_message(attributes, withdrawn=b"", announced=b""):
    """An UPDATE of these parts."""
    return message(2, struct.pack(">H", len(withdrawn)) + withdrawn + struct.pack(">H", len(attributes)) + attributes
                   + announced)


# An UPDATE of 4026 octets, of which `decode` prints one word.
LONG = told_message(attribute(99, bytes(4000)))


def reach(family, subsequent, prefixes, hop=b"\x20" * 16):
    """MP_REACH_NLRI (RFC 4760)."""
    return attribute(14, struct.pack(">HBB", family, subsequent, len(hop)) + hop + b"\0" + prefixes, 0x80)


class Remarks(unittest.TestCase):
    """What `decode` leaves unsaid, and when a message was captured."""

    PATH = attribute(1, b"\0", 0x40) + attribute(2, struct.pack(">BBHBBHH", 2, 1, 7, 1, 2, 8, 9), 0x40)
    HOP = attribute(3, bytes([10, 0, 0, 1]), 0x40)
    SIX = bytes([48]) + b"\x20\1\x0d\xb8\0\1"

    def remarks(self, *messages, answered=None, capabilities=b""):
        """The remark behind each message, or None, as the tool prints them."""
        said = open_message(7, capabilities) + b"".join(messages)
        data = ethernet(conversation(said, answered or open_message(2)))
        status, out, error = ran("-", "--decode", given=data)
        self.assertEqual((status, error), (0, ""))
        lines = out.split("\n2  ")[0].splitlines()[2:]
        return [following[10:] if following.startswith("  # also: ") else None
                for line, following in zip(lines, lines[1:] + [""]) if not line.startswith("  #")]

    def test_what_an_update_carries_beside_its_prefixes(self):
        communities = attribute(8, struct.pack(">HHHH", 65001, 1, 65535, 65281))
        rows = [
            (told_message(self.PATH + self.HOP, announced=b"\x08\x0a"), None),
            (told_message(b"", withdrawn=b"\x08\x0a"), None),
            (told_message(reach(2, 1, self.SIX) + self.PATH + communities[:2] + b"\4" + communities[3:7]),
             "MP_REACH_NLRI ipv6 1 prefix, COMMUNITIES 65001:1, AS_PATH 7-{8,9}"),
            (told_message(self.PATH + self.HOP + communities, announced=b"\x08\x0a"), "COMMUNITIES 65001:1 65535:65281"),
            (told_message(attribute(1, b"\2", 0x40) + self.PATH[4:] + self.HOP + attribute(4, b"\0\0\1\0", 0x80)
                          + attribute(5, b"\0\0\0\x64", 0x40) + attribute(6, b"", 0x40)
                          + attribute(7, struct.pack(">HBBBB", 7, 10, 0, 0, 9)), announced=b"\x08\x0a"),
             "MULTI_EXIT_DISC 256, LOCAL_PREF 100, ATOMIC_AGGREGATE, AGGREGATOR 7 10.0.0.9, ORIGIN INCOMPLETE"),
            (told_message(attribute(9, bytes([10, 0, 0, 1]), 0x80) + attribute(10, bytes([10, 0, 0, 2, 10, 0, 0, 3]), 0x80)
                          + attribute(32, struct.pack(">III", 70000, 1, 2)) + attribute(16, bytes(range(8)))),
             "ORIGINATOR_ID 10.0.0.1, CLUSTER_LIST 10.0.0.2 10.0.0.3, LARGE_COMMUNITY 70000:1:2, "
             "EXTENDED_COMMUNITIES 0001020304050607"),
            (told_message(attribute(17, struct.pack(">BBI", 2, 1, 70000))
                          + attribute(18, struct.pack(">IBBBB", 70000, 1, 2, 3, 4)) + attribute(35, struct.pack(">I", 70000)) + attribute(99, b"x") + attribute(40, b"xy")),
             "AS4_PATH 70000, AS4_AGGREGATOR 70000 1.2.3.4, ONLY_TO_CUSTOMER 70000, attribute 99 1 octet, "
             "BGP_PREFIX-SID 2 octets"),
            (told_message(attribute(8, b"x" * 300)), "COMMUNITIES" + " 30840:30840" * 75),
        ]
        self.assertEqual(self.remarks(*(update for update, _ in rows)), [said for _, said in rows])

    def test_families(self):
        two = self.SIX + b"\0"
        rows = [(reach(2, 1, two), "MP_REACH_NLRI ipv6 2 prefixes"),
                (reach(1, 2, b"\x08\x0a"), "MP_REACH_NLRI ipv4 multicast 1 prefix"),
                (reach(25, 70, b"x" * 7), "MP_REACH_NLRI l2vpn evpn 7 octets"),
                (reach(2, 128, b"x"), "MP_REACH_NLRI ipv6 mpls-vpn 1 octet"),
                (reach(99, 1, b""), "MP_REACH_NLRI 99 0 octets"),
                (attribute(15, b"\0\2\1" + two, 0x80), "MP_UNREACH_NLRI ipv6 2 prefixes")]
        self.assertEqual(self.remarks(*(told_message(value) for value, _ in rows)), [said for _, said in rows])

    def test_end_of_rib(self):
        rows = [(told_message(b""), "End-of-RIB ipv4"), (told_message(attribute(15, b"\0\2\1", 0x80)), "End-of-RIB ipv6"),
                (told_message(attribute(15, b"\0\2\x80", 0x80)), "End-of-RIB ipv6 mpls-vpn"),
                (told_message(attribute(15, b"\0\2\1", 0x80), withdrawn=b"\x08\x0a"), "MP_UNREACH_NLRI ipv6 0 prefixes")]
        self.assertEqual(self.remarks(*(update for update, _ in rows)), [said for _, said in rows])

    def test_values_that_do_not_fit(self):
        """The program takes any value of an attribute that RFC 4271 does not name."""
        rows = [(8, b"xyz"), (9, b"x"), (10, b"xyzab"), (16, b"x"), (17, b"\2\2\0\0\0\1"), (17, b"\3\1\0\0\0\1"), (17, b"\2"),
                (18, b"x"), (32, b"x"), (35, b"x"), (14, b""), (14, b"\0\2\1"), (14, b"\0\2\1\0\0\x80"), (15, b"\0\2\1\x80\0"),
                (15, b"\0\2")]
        said = self.remarks(*(told_message(attribute(code, value)) for code, value in rows))
        for (code, value), remark in zip(rows, said):
            with self.subTest(code=code, value=value):
                self.assertTrue(remark.endswith(f" {len(value)} octet{'s' * (len(value) != 1)}"), remark)

    def test_path_identifiers_and_wide_numbers(self):
        sends, receives = bytes([69, 4, 0, 2, 1, 2]), bytes([69, 4, 0, 2, 1, 1])
        update = told_message(reach(2, 1, b"\0\0\0\1" + self.SIX + b"\0\0\0\2" + self.SIX))
        self.assertEqual(self.remarks(update, capabilities=sends, answered=open_message(2, receives)),
                         ["MP_REACH_NLRI ipv6 2 prefixes"])
        wide = attribute(2, struct.pack(">BBI", 2, 1, 70000), 0x40) + attribute(7, struct.pack(">IBBBB", 70000, 1, 2, 3, 4))
        self.assertEqual(self.remarks(told_message(wide), capabilities=Printed.FOUR, answered=open_message(2, Printed.FOUR)),
                         ["AGGREGATOR 70000 1.2.3.4, AS_PATH 70000"])

    def test_any_octets_behind_a_fault_stay_unread(self):
        said = open_message(1) + message(2, b"\0\0\0\xff") + told_message(attribute(8, b"abcd"))
        status, out, _ = ran("-", "--decode", given=ethernet(talk(CLIENT, SERVER, said, 7, 60)))
        self.assertEqual((status, out.splitlines()[2], "also" in out), (1, "  fault 3 1", False))

    def timed(self, data):
        """What stands before the first word of each message."""
        status, out, error = ran("-", "--decode", "--times", given=data)
        self.assertEqual((status, error), (0, ""))
        return [line.split()[0] for line in out.splitlines()[1:] if not line.startswith("  #")]

    def test_times(self):
        """The time of a message is that of the segment that made it whole, also where that was sent again later."""
        said = open_message(1) + message(4) + refresh() + told_message(b"") + message(4)
        segments = list(talk(CLIENT, SERVER, said, 7, 25))[:-1]  # messages end at 29, 48, 71, 94 and 113
        again = Said(CLIENT, SERVER, 8, ACK, said[:100])
        frames = [FRAMES["raw IP"][1](packet(one)) for one in [*segments, again]]
        late, second = 1700000000, "2023-11-14T22:13:2"
        wanted = [f"{second}{at}.000{at}00Z" for at in (2, 2, 3, 4, 5)]  # the SYN is captured at 0
        for order in "<>":
            for magic, unit in ((0xA1B2C3D4, 100), (0xA1B23C4D, 100000)):
                times = [(late + at, at * unit) for at in range(len(frames))]
                self.assertEqual(self.timed(pcap(101, frames, order, magic, times)), wanted)
            for options, ticks in ((b"", 10**6), (struct.pack(order + "HHB3x", 9, 1, 9), 10**9)):
                times = [(late + at) * ticks + at * ticks // 10000 for at in range(len(frames))]
                for kind in (2, 6):
                    data = pcapng(101, frames, order, kind, options=options, times=times)
                    self.assertEqual(self.timed(data), wanted)
            offset = struct.pack(order + "HHB3xHHq", 9, 1, 0x80 | 10, 14, 8, late)
            times = [at << 10 for at in range(len(frames))]
            self.assertEqual(self.timed(pcapng(101, frames, order, options=offset, times=times)),
                             [f"{second}{at}.000000Z" for at in (2, 2, 3, 4, 5)])
        self.assertEqual(self.timed(pcapng(101, frames, kind=3)), ["-"] * 5)

    def test_a_fault_has_its_time(self):
        data = pcap(101, [packet(one) for one in talk(CLIENT, SERVER, open_message(1) + message(9), 7, 29)],
                    times=[(60 * at, 0) for at in range(4)])
        self.assertEqual(ran("-", "--decode", "--times", given=data)[1].splitlines()[1:3],
                         ["  1970-01-01T00:01:00.000000Z open as 1 hold 90 id 10.0.0.1",
                          "  1970-01-01T00:02:00.000000Z fault 1 3"])


def record(kind, subtype, body, time=0, parts=None):
    """An MRT record (RFC 6396), with microseconds where its type has them."""
    body = (b"" if parts is None else struct.pack(">I", parts)) + body
    return struct.pack(">IHHI", time, kind, subtype, len(body)) + body


PEER, COLLECTOR = bytes([192, 0, 2, 1]), bytes([192, 0, 2, 9])
# The subtypes of messages, by the width of AS numbers, who says it, and whether prefixes have path identifiers.
MESSAGES = {(2, False, False): 1, (4, False, False): 4, (2, True, False): 6, (4, True, False): 7,
            (2, False, True): 8, (4, False, True): 9, (2, True, True): 10, (4, True, True): 11}


def peering(width, rest, ends=(PEER, COLLECTOR), asn=7):
    """The body of a record of BGP4MP."""
    return struct.pack(">IIHH" if width == 4 else ">HHHH", asn, 9, 3, 1 if len(ends[0]) == 4 else 2) + b"".join(ends) + rest


def said_record(said, width=4, is_local=False, has_identifiers=False, time=0, parts=None, **ends):
    return record(16 if parts is None else 17, MESSAGES[width, is_local, has_identifiers],
                  peering(width, said, **ends), time, parts)


def change_record(before, after, width=4, time=0, parts=None, **ends):
    return record(16 if parts is None else 17, 5 if width == 4 else 0,
                  peering(width, struct.pack(">HH", before, after), **ends), time, parts)


class Collected(unittest.TestCase):
    """Files of MRT."""

    def decoded(self, data, *words):
        status, out, error = ran("-", "--decode", *words, given=data)
        return status, out.splitlines(), error

    def test_messages_of_each_subtype(self):
        for width, update in ((2, update_message(7, 7)), (4, wide_message(7))):
            for kind in (16, 17):
                parts = None if kind == 16 else 5
                data = b"".join(said_record(said, width, is_local, parts=parts) for said, is_local in (
                    (open_message(7), False), (open_message(9), True), (message(4), True), (refresh(), False), (update, False)))
                with self.subTest(width=width, kind=kind):
                    self.assertEqual(self.decoded(data), (0, [
                        f"1  192.0.2.1 as 7 > 192.0.2.9 as 9  {52 + len(update)} octets  "
                        "open route-refresh update, 1 route-refresh",
                        "  open as 7 hold 90 id 10.0.0.7", "  route-refresh ipv4 unicast",
                        "  update announce 10.7.0.0/16 path 7 next 10.0.0.1",
                        "2  192.0.2.9 as 9 > 192.0.2.1 as 7  48 octets  open keepalive",
                        "  open as 9 hold 90 id 10.0.0.9", "  keepalive"], ""))

    def test_the_records_say_the_width(self):
        """Not the OPENs, which a collector may not have, nor --asn."""
        for width, path in ((2, "513-513-513"), (4, "33620481-33620481")):
            for before in (b"", said_record(open_message(7), 2), said_record(open_message(7, Printed.FOUR), 4)):
                status, out, error = self.decoded(before + said_record(Late.EITHER, width), "--asn", 2)
                self.assertEqual((status, error), (0, ""))
                self.assertEqual(out[-1], f"  update announce 10.7.0.0/16 path {path} next 10.0.0.1")

    def test_a_change_of_the_width_begins_a_stream(self):
        data = said_record(Late.EITHER, 2) + said_record(message(4), 4) + said_record(Late.EITHER, 4)
        self.assertEqual([line.split(" path ")[-1].split()[0] for line in self.decoded(data)[1] if "path" in line],
                         ["513-513-513", "33620481-33620481"])

    def test_changes_of_state_stand_in_their_places(self):
        data = b"".join([change_record(3, 4), said_record(open_message(7)), change_record(4, 5, 2), said_record(message(4)),
                         change_record(5, 6), said_record(wide_message(7)), change_record(6, 1)])
        self.assertEqual(self.decoded(data), (0, [
            f"1  192.0.2.1 as 7 > 192.0.2.9 as 9  {48 + len(wide_message(7))} octets  open keepalive update, "
            "4 changes of state",
            "  state Active OpenSent", "  open as 7 hold 90 id 10.0.0.7", "  state OpenSent OpenConfirm", "  keepalive",
            "  state OpenConfirm Established", "  update announce 10.7.0.0/16 path 7 next 10.0.0.1",
            "  state Established Idle"], ""))
        self.assertEqual(self.decoded(change_record(1, 99)), (0, [
            "1  192.0.2.1 as 7 > 192.0.2.9 as 9  0 octets  1 change of state", "  state Idle 99"], ""))

    def test_a_collector_without_a_connection_has_no_address(self):
        nowhere = (PEER, bytes(4))
        data = change_record(1, 3, ends=nowhere) + change_record(3, 4) + said_record(open_message(7)) + change_record(1, 8)
        self.assertEqual(self.decoded(data + said_record(message(4)))[1], [
            "1  192.0.2.1 as 7 > 192.0.2.9 as 9  48 octets  open keepalive, 3 changes of state", "  state Idle Active",
            "  state Active OpenSent", "  open as 7 hold 90 id 10.0.0.7", "  state Idle 8", "  keepalive"])

    def test_another_session_is_another_stream(self):
        one = [said_record(open_message(7)), said_record(wide_message(7))]
        for between in ([], [change_record(6, 1), change_record(1, 2), change_record(2, 4)], [change_record(6, 1)]):
            lines = self.decoded(b"".join(one + between + one))[1]
            with self.subTest(between=len(between)):
                self.assertEqual([line.split()[0] for line in lines if " > " in line], ["1", "2"])
                changes = [number for number, line in enumerate(lines) if line.startswith("  state")]
                second = next(number for number, line in enumerate(lines) if line.startswith("2 "))
                self.assertEqual([number < second for number in changes], [at == 0 for at in range(len(between))])

    def test_peers_by_address_and_interface(self):
        six = bytes([0x20, 1] + [0] * 13 + [1]), bytes([0x20, 1] + [0] * 13 + [2])
        data = said_record(open_message(7)) + said_record(open_message(8), ends=six, asn=8)
        data += said_record(open_message(6), ends=(bytes([192, 0, 2, 2]), COLLECTOR), asn=6)
        data += said_record(message(4)) + said_record(message(4), ends=six, asn=8)
        self.assertEqual([line.split("  ")[1] for line in self.decoded(data)[1] if " > " in line],
                         ["192.0.2.1 as 7 > 192.0.2.9 as 9", "2001::1 as 8 > 2001::2 as 9", "192.0.2.2 as 6 > 192.0.2.9 as 9"])
        link = bytes([0xFE, 0x80] + [0] * 13 + [1]), bytes([0xFE, 0x80] + [0] * 13 + [2])
        one, other = peering(4, message(4), link), bytearray(peering(4, message(4), link))
        other[9] = 4  # another interface
        self.assertEqual(len([line for line in self.decoded(record(16, 4, one) + record(16, 4, other))[1] if " > " in line]), 2)

    def test_times(self):
        data = said_record(open_message(7), time=60) + said_record(message(4), time=120, parts=250000)
        data += change_record(6, 1, time=180, parts=1)
        self.assertEqual([line.split()[0] for line in self.decoded(data, "--times")[1][1:]],
                         ["1970-01-01T00:01:00.000000Z", "1970-01-01T00:02:00.250000Z", "1970-01-01T00:03:00.000001Z"])

    def test_path_identifiers(self):
        data = said_record(told_message(reach(2, 1, b"\0\0\0\1" + Remarks.SIX)), has_identifiers=True)
        status, out, error = self.decoded(data)
        self.assertEqual((status, error, out[2:]), (0, "", [
            "  # also: MP_REACH_NLRI ipv6 1 prefix", "1: path identifiers pass (RFC 8050), which `decode` does not read"]))

    def test_dumps_of_tables_are_refused_by_name(self):
        for kind, name in ((12, "TABLE_DUMP"), (13, "TABLE_DUMP_V2")):
            self.assertEqual(ran("-", given=record(kind, 1, b"x" * 40)), (1, "", (
                f"streams: -: a dump of a table ({name}, RFC 6396): it has routes, and no messages\n")))
        data = said_record(message(4)) + record(13, 2, b"x") * 2 + record(11, 0, b"x") + record(16, 3, b"x" * 30)
        data += record(16, 4, b"x" * 9) + record(16, 1, peering(2, b"", (b"", b""))) + record(77, 0, b"")
        status, out, error = self.decoded(data)
        self.assertEqual((status, out[1:]), (1, ["  keepalive"]))
        self.assertEqual(error.splitlines(), [f"streams: -: {number} not read: {name}" for number, name in (
            ("1 record is", "BGP4MP of subtype 1"), ("1 record is", "BGP4MP of subtype 3"),
            ("1 record is", "BGP4MP of subtype 4"), ("1 record is", "OSPFv2"), ("2 records are", "TABLE_DUMP_V2"),
            ("1 record is", "type 77"))])

    def test_a_file_that_is_cut_off_or_altered(self):
        data = said_record(open_message(7)) + change_record(5, 6) + said_record(wide_message(7), parts=3)
        for size in range(12, len(data)):
            losses = []
            for session in streams.peerings_of(memoryview(data[:size]), losses):
                self.assertTrue((open_message(7) + wide_message(7)).startswith(session.peer.octets))
            self.assertTrue(not losses or "the capture ends in the middle of record" in losses[0])
        for seed in range(300):
            draw = random.Random(seed)
            altered = bytearray(data)
            for _ in range(draw.randrange(1, 10)):
                altered[draw.randrange(8, len(data))] = draw.choice([0, 1, 255, draw.randrange(256)])
            with self.subTest(seed=seed):
                streams.peerings_of(memoryview(bytes(altered)), [])


class Hexed(unittest.TestCase):
    """A stream as hex, as `decode` reads it."""

    def test_it_is_one_stream(self):
        said = open_message(7, Printed.FOUR) + refresh() + wide_message(7)
        text = said.hex()
        for given in (text, text.upper(), " ".join(text) + "\r\n", streams.hex_lines(said)):
            self.assertEqual(ran("-", "--decode", given=given.encode()), (0, "".join(f"{line}\n" for line in (
                f"1  {len(said)} octets  open route-refresh update, 1 route-refresh",
                "  open as 7 hold 90 id 10.0.0.7 cap 65 00000001 cap 2 -",
                "  # also: four-octet AS 1, route-refresh", "  route-refresh ipv4 unicast",
                "  update announce 10.7.0.0/16 path 7 next 10.0.0.1", "1: width 4, by its paths")), ""))
            self.assertEqual(ran("-", 1, given=given.encode()), (0, streams.hex_lines(said), ""))
        self.assertEqual(ran("-", "--decode", "--times", given=message(4).hex().encode())[1].splitlines()[1:], ["  - keepalive"])

    def test_what_is_none(self):
        self.assertEqual(ran("-", given=b"ff f"), (1, "", "streams: -: an odd number of hex digits\n"))
        for given in (b"0xff", b"ff:ff", b""):
            self.assertEqual(ran("-", given=given), (1, "", "streams: -: neither pcap, pcapng, MRT nor hex digits\n"))


class Packed(unittest.TestCase):
    """What gzip and bzip2 packed."""

    def test_each_form(self):
        for data in (example(), said_record(open_message(7)) + said_record(wide_message(7))):
            wanted = ran("-", "--decode", given=data)
            self.assertEqual(wanted[0::2], (0, ""))
            for pack in (gzip.compress, bz2.compress):
                self.assertEqual(ran("-", "--decode", given=pack(data)), wanted)
                self.assertEqual(ran("-", "--decode", given=pack(data[:50]) + pack(data[50:])), wanted)

    def test_what_can_not_be_unpacked(self):
        for name, pack in (("gzip", gzip.compress), ("bzip2", bz2.compress)):
            data = pack(example())
            for wrong in (data[:-9], data[:40] + b"x" * 9 + data[49:]):
                status, out, error = ran("-", given=wrong)
                self.assertEqual((status, out, error.count("\n")), (1, "", 1))
                self.assertTrue(error.startswith(f"streams: -: its {name} data can't be unpacked: "))

    def test_other_tools_unpack_too(self):
        edges = b"1 2\n2 3\n"
        wanted = run("topology", "--from", "edges", "-", given=edges)
        self.assertEqual(wanted[0::2], (0, ""))
        for pack in (gzip.compress, bz2.compress):
            self.assertEqual(run("topology", "--from", "edges", "-", given=pack(edges)), wanted)


class Parts(unittest.TestCase):
    """Streams as files that the program takes."""

    def parts(self, said, folder):
        data = ethernet(talk(CLIENT, SERVER, said, 7, 60000))
        status, out, error = ran("-", 1, "--parts", pathlib.Path(folder) / "x", given=data)
        return status, [line.replace(folder + "/", "") for line in out.splitlines()], error

    def test_more_than_the_program_takes(self):
        said = open_message(1) + (LONG * 20 + refresh() + update_message(1, 7)) * 120
        with tempfile.TemporaryDirectory() as folder:
            status, out, error = self.parts(said, folder)
            self.assertEqual((status, error, len(out), out[-1]), (0, "", 3, "120 route-refresh left out"))
            lines, octets = [], b""
            for name in ("x-1.hex", "x-2.hex"):
                text = (pathlib.Path(folder) / name).read_text()
                status, more = asked_program().ask(["decode"], text)
                self.assertEqual((status, more[:1] == ["refused 0 N6"]), (0, False))
                self.assertIn(f"{name}  {len(more)} messages  {len(bytes.fromhex(text))} octets", out)
                lines, octets = lines + more, octets + bytes.fromhex(text)
            self.assertEqual([line.split()[0] for line in lines], ["open"] + ["update"] * 21 * 120)
            self.assertEqual(octets, open_message(1) + (LONG * 20 + update_message(1, 7)) * 120)

    def test_a_text_that_is_too_long(self):
        """Of a stream as hex the parts are the same."""
        said = open_message(1) + (LONG * 20 + refresh() + update_message(1, 7)) * 120
        with tempfile.TemporaryDirectory() as folder:
            wanted = self.parts(said, folder)[1]
            out = ran("-", 1, "--parts", pathlib.Path(folder) / "y", given=said.hex().encode())[1]
            self.assertEqual([line.replace(f"{folder}/y", "x") for line in out.splitlines()], wanted)
            for name in ("1.hex", "2.hex"):
                self.assertEqual(*((pathlib.Path(folder) / f"{form}-{name}").read_bytes() for form in "xy"))

    def test_a_stream_that_begins_late(self):
        data = ethernet([Said(CLIENT, SERVER, 7, ACK, (message(4) + refresh() + wide_message(7))[5:])])
        with tempfile.TemporaryDirectory() as folder:
            self.assertEqual(ran("-", 1, "--parts", f"{folder}/x", given=data), (0, (
                f"{folder}/x-1.hex  1 messages  {len(wide_message(7))} octets\n1 route-refresh left out\n"
                "14 octets of an earlier message left out\n"), ""))
            self.assertEqual(bytes.fromhex((pathlib.Path(folder) / "x-1.hex").read_text()), wide_message(7))

    def test_what_is_no_whole_message(self):
        with tempfile.TemporaryDirectory() as folder:
            self.assertEqual(self.parts(open_message(1) + message(4)[:5], folder), (1, ["x-1.hex  1 messages  29 octets"], (
                "streams: -: stream 1: 5 octets at its end are no whole message, and are in no part\n")))
            status, out, error = self.parts(open_message(1), folder)  # the file is there
            self.assertEqual((status, out, error), (1, [], f"streams: {folder}/x-1.hex: File exists\n"))
            self.assertEqual(bytes.fromhex((pathlib.Path(folder) / "x-1.hex").read_text()), open_message(1))


class Printed(unittest.TestCase):
    """What the tool prints."""

    FOUR = bytes([65, 4, 0, 0, 0, 1, 2, 0])

    def test_the_list(self):
        data = ethernet(conversation(speech(1, 9), speech(2, 1)))
        status, out, error = run("streams", "-", given=data)
        self.assertEqual((status, error), (0, ""))
        self.assertEqual(out, f"1  10.0.0.1:40000 > 10.0.0.2:179  {len(speech(1, 9))} octets  "
                              "open keepalive update update update .., FIN\n"
                              f"2  10.0.0.2:179 > 10.0.0.1:40000  {len(speech(2, 1))} octets  open keepalive update, FIN\n")

    def test_the_capture_of_the_examples(self):
        data = (TOP / "examples/session.pcap").read_bytes()
        self.assertEqual(data, example())
        self.assertEqual(found_in(data), (whole(speech(1, 2), speech(2, 0)), []))

    def test_capabilities_of_both_opens(self):
        for one, other, said in ((self.FOUR, self.FOUR, True), (self.FOUR, b"", False), (b"", b"", False),
                                 (self.FOUR, bytes([2, 0]), False), (self.FOUR, bytes([65, 2, 0, 1]), False)):
            data = ethernet(conversation(speech(1, 0, one), speech(2, 0, other)))
            self.assertEqual("1 and 2: both OPENs have capability 65" in ran("-", given=data)[1], said)

    def test_hex_is_what_the_program_reads(self):
        said, answered = speech(1, 300), speech(2, 1)
        data = ethernet(conversation(said, answered, (CLIENT_SIX, SERVER_SIX), size=1400))
        for number, octets in ((1, said), (2, answered)):
            status, out, error = ran("-", number, given=data)
            self.assertEqual((status, error, bytes.fromhex(out)), (0, "", octets))
            status, lines = asked_program().ask(["decode"], out)
            self.assertEqual((status, lines[1], lines[-1].split()[0]), (0, "keepalive", "update"))
        self.assertEqual(ran("-", 3, given=data), (1, "", "streams: -: there are 2 streams\n"))

    def test_decode_of_four_octet_numbers(self):
        """Both OPENs decide the width of both streams."""
        one = open_message(1, self.FOUR) + wide_message(70000)
        for other, status, line in ((speech(2, 0, self.FOUR), 0, "  update announce 10.7.0.0/16 path 70000 next 10.0.0.1"),
                                    (speech(2, 0), 1, "  fault 3 11")):
            got, out, _ = ran("-", "--decode", given=ethernet(conversation(one, other)))
            self.assertEqual((got, out.splitlines()[3]), (status, line))

    def test_decode(self):
        wrong = speech(2, 0) + message(9)
        status, out, error = ran("-", "--decode", given=ethernet(conversation(speech(1, 1), wrong)))
        self.assertEqual((status, error), (1, "streams: -: stream 2: the program finds a fault\n"))
        self.assertEqual(out.splitlines()[1:4], ["  open as 1 hold 90 id 10.0.0.1", "  keepalive",
                                                 "  update announce 10.0.0.0/16 path 1 next 10.0.0.1"])
        self.assertIn("\n  fault 1 3\n", out)

    def test_a_stream_is_decoded_in_parts(self):
        """More than the program reads at once, a fault in the last part."""
        said = open_message(1) + (LONG * 20 + update_message(1, 7)) * 120
        self.assertGreater(2 * len(said), 1 << 24)
        data = ethernet(talk(CLIENT, SERVER, said + message(9), 7, 60000))
        status, out, error = ran("-", "--decode", given=data)
        self.assertEqual((status, error), (1, "streams: -: stream 1: the program finds a fault\n"))
        self.assertEqual((out.count("  update\n"), out.count("  update announce")), (2400, 120))
        self.assertTrue(out.endswith("\n  fault 1 3\n  " + "ff" * 16 + "0016" + "03010309\n"))

    def test_holes_are_lines_on_the_standard_error(self):
        segments = list(talk(CLIENT, SERVER, speech(1, 2), 7, 30))
        status, out, error = ran("-", 1, given=ethernet(segments[:2] + segments[3:]))
        self.assertEqual((status, bytes.fromhex(out)), (1, speech(1, 2)[:30]))
        self.assertEqual(error, "streams: -: stream 1: 30 octets are missing behind octet 30\n"
                                f"streams: -: stream 1: it ends at its first hole, {len(speech(1, 2)) - 60} octets stand behind it\n")

    def test_capabilities_of_any_length(self):
        """One that is too short for what it says is told by its octets."""
        for code in range(256):
            for size in range(12):
                for octet in (0, 1, 255):
                    self.assertTrue(names.capability_text(code, bytes([octet]) * size))
        self.assertEqual([names.capability_text(code, b"") for code in (1, 2, 75, 200)],
                         ["multiprotocol of 0 octets", "route-refresh", "software version of 0 octets", "capability 200"])

    def test_capabilities_and_notifications_by_name(self):
        capabilities = (bytes([1, 4, 0, 1, 0, 1]) + bytes([2, 0]) + bytes([65, 4]) + struct.pack(">I", 70000)
                        + bytes([64, 6, 0, 120, 0, 1, 1, 0x80]) + bytes([6, 0]) + bytes([69, 4, 0, 1, 1, 3])
                        + bytes([73, 6, 4]) + b"west" + bytes([0]) + bytes([9, 1, 3]) + bytes([200, 1, 7]))
        stop = message(3, bytes([6, 2, 9]) + b"upgrading")
        data = ethernet(conversation(open_message(1, capabilities) + message(4) + stop, open_message(2) + message(4)))
        status, out, error = run("streams", "-", "--decode", given=data)
        self.assertEqual(status, 0, error)
        lines = out.splitlines()
        self.assertIn("  # also: multiprotocol ipv4 unicast, route-refresh, four-octet AS 70000, graceful-restart 120 s "
                      "(ipv4 unicast), extended messages, add-path ipv4 unicast both, hostname west, role customer, "
                      "capability 200", lines)
        self.assertEqual(lines[lines.index("  notification 6 2 " + (bytes([9]) + b"upgrading").hex()) + 1],
                         "  # also: Cease, Administrative Shutdown: 'upgrading'")

    def test_notifications(self):
        for body, said in ((b"\1\2", "Message Header Error, Bad Message Length"), (b"\4\0", "Hold Timer Expired"),
                           (b"\2\0", "OPEN Message Error, subcode 0"), (b"\x63\1", "error 99, subcode 1"),
                           (b"\6\2\5ab", "Cease, Administrative Shutdown"), (b"\6\4\3a\nb", "Cease, Administrative Reset: 'a?b'"),
                           (b"\6\1", "Cease, Maximum Number of Prefixes Reached")):
            self.assertEqual(names.notification_text(body), said)

    def test_some_messages_alone(self):
        data = ethernet(conversation(speech(1, 3), speech(2, 2)))
        whole = run("streams", "-", "--decode", given=data)[1]
        self.assertEqual(run("streams", "-", "--decode", "--no-keepalive", given=data)[1],
                         "".join(line + "\n" for line in whole.splitlines() if line != "  keepalive"))
        status, out, _ = run("streams", "-", "--decode", "--prefix", "10.1.0.0/16", given=data)
        self.assertEqual([line for line in out.splitlines() if line.startswith("  ")],
                         ["  update announce 10.1.0.0/16 path 1 next 10.0.0.1", "  update announce 10.1.0.0/16 path 2 next 10.0.0.1"])
        self.assertEqual(run("streams", "-", "--decode", "--prefix", "x", given=data), (1, "", "streams: 'x' is no prefix\n"))
        self.assertEqual(run("streams", "-", "--timeline", given=data)[0], 2)

    def test_one_timeline(self):
        segments = conversation(speech(1, 3), speech(2, 2), size=400)
        data = pcap(1, [FRAMES["Ethernet"][1](packet(said)) for said in segments],
                    times=[(number, 0) for number in range(len(segments))])
        lines = [line[2:] for line in run("streams", "-", "--decode", "--timeline", given=data)[1].splitlines()
                 if line.startswith("  ")]
        times = [line.split()[0] for line in lines]
        self.assertEqual(times, sorted(times))
        self.assertEqual({line.split()[1] for line in lines}, {">", "<"})
        whole = [line[2:] for line in run("streams", "-", "--decode", given=data)[1].splitlines() if line.startswith("  ")]
        self.assertEqual(sorted(" ".join(line.split()[2:]) for line in lines), sorted(whole))

    def test_paths_of_both_widths_are_merged(self):
        def merged(old, new):
            values = {2: b"".join(struct.pack(">BB", kind, len(part)) + b"".join(struct.pack(">H", one) for one in part)
                                  for kind, part in old),
                      17: b"".join(struct.pack(">BB", kind, len(part)) + b"".join(struct.pack(">I", one) for one in part)
                                   for kind, part in new)}
            return attributes.merged_path(values)

        for old, new, wanted in (([(2, [1, 23456, 3])], [(2, [70000, 3])], "1-70000-3"),
                                 ([(2, [23456, 3])], [(2, [70000, 3])], "70000-3"),
                                 ([(2, [3])], [(2, [70000, 3])], None),
                                 ([(2, [1, 2, 23456])], [(2, [70000])], "1-2-70000"),
                                 ([(1, [7, 8]), (2, [23456])], [(2, [70000])], "{7,8}-70000"),
                                 ([(2, [1])], [], None)):
            self.assertEqual(merged(old, new), wanted)
        self.assertIsNone(attributes.merged_path({2: b"\2\1\0\1"}))
        self.assertIsNone(attributes.merged_path({2: b"\2\1\0\1", 17: b"\2\1\0"}))

    def test_packets_that_are_cut_short(self):
        segments = conversation(speech(1, 9), speech(2, 1), size=400)
        frames = [FRAMES["Ethernet"][1](packet(said)) for said in segments]
        head = struct.pack("<IHHIIII", 0xA1B2C3D4, 2, 4, 0, 0, 96, 1)
        data = head + b"".join(struct.pack("<IIII", 0, 0, min(96, len(frame)), len(frame)) + frame[:96] for frame in frames)
        number = sum(len(frame) > 96 for frame in frames)
        for octets in (data, pcapng(1, frames, most=96)):
            error = run("streams", "-", given=octets)[2]
            self.assertIn(f"{number} packets of the capture cut short, at 96 octets at most", error)
        self.assertNotIn("cut short", run("streams", "-", given=ethernet(segments))[2])

    def test_wrong_words(self):
        for words in ([], ["x", "0"], ["x", "1", "--decode"], ["x", "--port", "65536"], ["x", "y", "z"], ["--pro", "x"],
                      ["x", "--asn", "3"], ["x", "--parts", "y"]):
            status, out, error = run("streams", *words)
            self.assertEqual((status, out, error.count("\n")), (2, "", 1))
        self.assertEqual(ran("nothing.pcap"), (1, "", "streams: nothing.pcap: No such file or directory\n"))
        self.assertEqual(run("streams", "--help")[0], 0)


if __name__ == "__main__":
    (TOP / "examples/session.pcap").write_bytes(example())
