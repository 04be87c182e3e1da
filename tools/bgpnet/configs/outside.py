"""Neighbors without a configuration: what an AS outside a set was seen to announce, as a router's configuration."""
import struct

from bgpnet.attributes import AS_PATH, Update, attributes_of, segments_of
from bgpnet.configs.files import read_router
from bgpnet.configs.sessions import dotted
from bgpnet.configs.syntax import number_of, prefix_of
from bgpnet.messages import UPDATE, messages_of
from bgpnet.mrt import is_mrt, is_table, peerings_of, table_routes
from bgpnet.network import Prefix, lines_text
from bgpnet.program import Refusal, read_octets
from bgpnet.reports import is_json, numbers_of, objects_of

# What FRR calls the routes of a neighbor, and of a table.
TABLES = ("receivedRoutes", "routes", "advertisedRoutes")


class Outside:
    """An AS outside, and the path that it was seen to announce for each prefix, itself in front."""

    def __init__(self, asn, name):
        self.asn, self.name, self.paths = asn, name, {}
        data = memoryview(read_octets(name))
        if is_mrt(data):
            (self.read_table if is_table(data) else self.read_records)(data)
        else:
            text = bytes(data).decode("latin-1")
            (self.read_json if is_json(text) else self.read_lines)(text)
        if not self.paths:
            raise Refusal(f"{name}: nothing that AS {asn} announces")

    def see(self, prefix, path):
        """A path that was seen; those of other neighbors are passed over."""
        if path[:1] == (self.asn,):
            self.paths[prefix] = path

    def read_lines(self, text):
        """Lines of a prefix and, if it is not the AS alone, a path of AS numbers."""
        for number, line in enumerate(text.split("\n"), 1):
            words = line.replace("-", " ").split()
            if not words or words[0].startswith(("#", "!")):
                continue
            path = tuple(map(number_of, words[1:])) or (self.asn,)
            if prefix_of(words[0]) is None or None in path:
                raise Refusal(f"{self.name}:{number}: no prefix with a path of AS numbers")
            if path[0] != self.asn:
                raise Refusal(f"{self.name}:{number}: the path does not begin with {self.asn}")
            self.see(Prefix.read(words[0]), path)

    def read_json(self, text):
        """What FRR prints of a neighbor's routes, or of a table: then those whose path begins with the AS."""
        for said in objects_of(text, self.name):
            found = [said.get(key) for key in TABLES] if isinstance(said, dict) else []
            table = next((one for one in found if isinstance(one, dict)), None)
            if table is None:
                raise Refusal(f"{self.name}: no routes as FRR prints them: none of {', '.join(TABLES)}")
            for word, routes in table.items():
                for route in routes if isinstance(routes, list) else [routes]:
                    if prefix_of(word) and isinstance(route, dict):
                        self.see(Prefix.read(word), numbers_of(route, self.name))

    def read_table(self, data):
        """The routes of a dump of tables; of several peers of the AS those of the last. As in messages, one whose
        attributes can't be read is passed over."""
        losses = []
        for prefix, attributes in table_routes(data, losses):
            try:
                path = path_of(attributes_of(attributes, 0, len(attributes)).get(AS_PATH, b""), 4)
                self.see(next(read_prefixes(prefix)), path)
            except (struct.error, IndexError, ValueError):
                continue
        if losses:
            raise Refusal(f"{self.name}: {losses[0]}")

    def read_records(self, data):
        """What was last said in the messages of an MRT file."""
        for connection in peerings_of(data, []):
            for stream in connection.streams.values():
                for message in messages_of(stream.octets):
                    if message.kind == UPDATE:
                        self.read_update(bytes(message.body(stream.octets)), connection.width or 4)

    def read_update(self, body, width):
        try:
            update = Update(body)
            withdrawn, announced = (list(read_prefixes(part)) for part in (update.withdrawn, update.announced))
            path = path_of(update.attributes.get(AS_PATH, b""), width)
        except (struct.error, IndexError, ValueError):
            return
        for prefix in withdrawn:
            self.paths.pop(prefix, None)
        for prefix in announced:
            self.see(prefix, path)

    # ---- its configuration

    def text(self, routers):
        """The configuration of a router that announces all this to each router that names it."""
        ends = [(router, neighbor) for router in routers for neighbor in router.neighbors.values()
                if neighbor.asn and neighbor.asn.name == self.asn]
        if not ends:
            raise Refusal(f"--external {self.asn}: no configuration has a neighbor of this AS")
        lines = ["frr version 8.4.4", f"router bgp {self.asn}", f" bgp router-id {dotted(ends[0][1].address)}",
                 " no bgp ebgp-requires-policy", " no bgp network import-check"]
        for router, neighbor in ends:
            near = address_near(router, neighbor)
            lines += [f" neighbor {near} remote-as {router.asn}", f" neighbor {near} update-source {neighbor.key}"]
            for kind, words in (("password", "password"), ("ttl-security", "ttl-security hops")):
                line = neighbor.line(kind)
                lines += [f" neighbor {near} {words} {line.name}"] if line else []
        maps = {path: f"SEEN-{at}" for at, path in enumerate(dict.fromkeys(self.paths.values()), 1)}
        lines += [f" network {prefix} route-map {maps[path]}" for prefix, path in self.paths.items()]
        lines.append("exit")
        for path, name in maps.items():
            lines.append(f"route-map {name} permit 10")
            lines += [f" set as-path prepend {' '.join(map(str, path[1:]))}"] * (len(path) > 1)
        return lines_text(lines)

    def router(self, routers):
        return read_router(self.text(routers), f"{self.name} (AS {self.asn})", False)


def address_near(router, neighbor):
    """The address of a router that a neighbor outside names it by: its source, or the one of its interfaces that is
    nearest to the neighbor's, or its router id."""
    source = neighbor.line("source")
    if source and isinstance(source.name, int):
        return dotted(source.name)
    if router.addresses:
        return dotted(min(router.addresses, key=lambda address: address ^ neighbor.address))
    return dotted(router.router_id.name)


def read_prefixes(octets):
    """The prefixes that a field of RFC 4271 has."""
    at = 0
    while at < len(octets):
        length = octets[at]
        size = (length + 7) // 8
        if length > 32 or at + 1 + size > len(octets):
            raise ValueError
        address = int.from_bytes(octets[at + 1:at + 1 + size].ljust(4, b"\0"), "big")
        yield Prefix(address >> 32 - length << 32 - length, length)
        at += 1 + size


def path_of(value, width):
    """The numbers of an AS_PATH; nothing of one with a set."""
    segments = segments_of(value, width)
    if any(kind != 2 for kind, _ in segments):
        return ()
    return tuple(int(number) for _, numbers in segments for number in numbers)
