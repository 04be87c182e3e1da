"""What the tools say in words of an OPEN's capabilities and of a NOTIFICATION, by the names of IANA."""
from __future__ import annotations

import struct
from typing import Mapping, Sequence, Tuple

from bgpnet.messages import Octets, family_text

# Capability codes (RFC 5492).
CAPABILITIES = {1: "multiprotocol", 2: "route-refresh", 3: "outbound route filtering", 5: "extended next hop",
                6: "extended messages", 7: "BGPsec", 8: "multiple labels", 9: "role", 64: "graceful-restart",
                65: "four-octet AS", 67: "dynamic capability", 68: "multisession", 69: "add-path",
                70: "enhanced route-refresh", 71: "long-lived graceful-restart", 73: "hostname",
                75: "software version", 76: "path attribute limit", 128: "route-refresh (Cisco)"}
WAYS = {1: "receive", 2: "send", 3: "both"}
ROLES = {0: "provider", 1: "route server", 2: "route server client", 3: "customer", 4: "peer"}
# Error codes, each with its subcodes (RFC 4271 section 4.5 and what IANA added).
ERRORS: Mapping[int, Tuple[str, Mapping[int, str]]] = {
    1: ("Message Header Error", {1: "Connection Not Synchronized", 2: "Bad Message Length", 3: "Bad Message Type"}),
    2: ("OPEN Message Error", {1: "Unsupported Version Number", 2: "Bad Peer AS", 3: "Bad BGP Identifier",
                               4: "Unsupported Optional Parameter", 6: "Unacceptable Hold Time",
                               7: "Unsupported Capability", 11: "Role Mismatch"}),
    3: ("UPDATE Message Error", {1: "Malformed Attribute List", 2: "Unrecognized Well-known Attribute",
                                 3: "Missing Well-known Attribute", 4: "Attribute Flags Error",
                                 5: "Attribute Length Error", 6: "Invalid ORIGIN Attribute",
                                 8: "Invalid NEXT_HOP Attribute", 9: "Optional Attribute Error",
                                 10: "Invalid Network Field", 11: "Malformed AS_PATH"}),
    4: ("Hold Timer Expired", {}),
    5: ("Finite State Machine Error", {1: "unexpected message in OpenSent", 2: "unexpected message in OpenConfirm",
                                       3: "unexpected message in Established"}),
    6: ("Cease", {1: "Maximum Number of Prefixes Reached", 2: "Administrative Shutdown", 3: "Peer De-configured",
                  4: "Administrative Reset", 5: "Connection Rejected", 6: "Other Configuration Change",
                  7: "Connection Collision Resolution", 8: "Out of Resources", 9: "Hard Reset", 10: "BFD Down"}),
    7: ("ROUTE-REFRESH Message Error", {1: "Invalid Message Length"}),
    8: ("Send Hold Timer Expired", {}),
}
# The subcodes of a Cease that may carry a message to the other end's operator (RFC 9003).
WITH_MESSAGE = (2, 4)


def capability_text(code: int, value: bytes) -> str:
    """A capability in words."""
    name = CAPABILITIES.get(code, f"capability {code}")
    try:
        said = value_text(code, value)
    except (struct.error, IndexError, ValueError):
        said = f" of {len(value)} octets"
    return name + said


def value_text(code: int, value: bytes) -> str:
    if code == 1:
        family, subsequent = struct.unpack_from(">HxB", value)
        return " " + family_text(family, subsequent)
    if code == 65:
        return f" {struct.unpack('>I', value)[0]}"
    if code == 9:
        return f" {ROLES.get(value[0], value[0])}"
    if code == 64:
        time = struct.unpack_from(">H", value)[0]
        families = [family_text(*struct.unpack_from(">HB", value, at)) for at in range(2, len(value) - 3, 4)]
        listed = f" ({', '.join(families)})" if families else ""
        return f" {time & 4095} s{listed}" + " restarted" * bool(time & 0x8000)
    if code == 69:
        return " " + ", ".join(f"{family_text(*struct.unpack_from('>HB', value, at))} {WAYS.get(value[at + 3], '?')}"
                               for at in range(0, len(value) - 3, 4))
    if code == 73:
        size = value[0]
        return " " + printed(value[1:1 + size]) + ("." + printed(value[2 + size:]) if value[2 + size:] else "")
    if code == 75:
        return " " + printed(value[1:] if value[:1] == bytes([len(value) - 1]) else value)
    return ""


def printed(octets: bytes) -> str:
    """Octets as text, what can't be printed as question marks."""
    return "".join(letter if letter.isprintable() else "?" for letter in octets.decode("utf-8", "replace"))


def open_text(capabilities: Mapping[int, Sequence[bytes]]) -> str:
    """The capabilities of an OPEN, by code, in words."""
    return ", ".join(capability_text(code, value) for code, values in capabilities.items() for value in values)


def notification_text(body: Octets) -> str:
    """A NOTIFICATION in words: its error and subcode, and what its operator says."""
    code, subcode, data = body[0], body[1], bytes(body[2:])
    name, subcodes = ERRORS.get(code, (f"error {code}", {}))
    said = name + (f", {subcodes.get(subcode, f'subcode {subcode}')}" if subcode or subcodes else "")
    if code == 6 and subcode in WITH_MESSAGE and data and 0 < data[0] <= len(data) - 1:
        said += f": '{printed(data[1:1 + data[0]])}'"
    return said
