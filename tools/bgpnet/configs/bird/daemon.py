"""Runs a real `bird` on a configuration.

A copy of the configuration has shorter times between attempts to connect; its lines keep their numbers."""
import os
import pathlib
import re
import socket

from bgpnet.network import Prefix

PROTOCOL = re.compile(r"(\bprotocol[ \t]+bgp\b[^{;#\n]*\{)")
DEVICE = re.compile(r"^[^#\n]*\bprotocol[ \t]+device\b", re.MULTILINE)
INCLUDE = re.compile(r'^([ \t]*include[ \t]*")([^"/][^"\n]*")', re.MULTILINE)
TIMERS = " connect delay time 1; connect retry time 1; error wait time 1, 2;"
# A route as `show route all` begins it, and an attribute.
ROUTE = re.compile(r"(\S+/\d+)?\s+\S.*\[(\S+) (\S+)(?: from \S+)?\](?: (\*))? \((\d+)[^)]*\)")
ATTRIBUTE = re.compile(r"\s*BGP\.(\w+): ?(.*)")
REFUSED = re.compile(r"bird: \S*?conf:(\d+):\d+ (.*)")
# How far apart two times of one change may be told, in seconds.
TREMBLE = 0.5


def program(tree):
    """The path of `bird` in a tree of unpacked packages, or None."""
    path = pathlib.Path(tree, "usr/sbin/bird")
    return path if os.access(path, os.X_OK) else None


def seconds(text):
    """The seconds of a time of day."""
    parts = text.split(":")
    try:
        return sum(float(part) * 60 ** place for place, part in enumerate(reversed(parts)))
    except ValueError:
        return 0.0


class Table:
    """What a router has for a prefix: of each neighbor's address (None is its own) the attributes, which is best, and
    the times of the last changes."""

    def __init__(self):
        self.routes, self.best, self.has_best, self.times = {}, None, False, {}

    def take(self, key, is_best, time):
        self.routes[key], self.times[key] = {}, time
        if is_best:
            self.best, self.has_best = key, True
        return self.routes[key]


class Daemon:
    """The process of a router."""

    # `interval`: no UPDATE waits (there is no MRAI).
    language, interval = "BIRD", 0

    def __init__(self, tree, routers, asn, text, folder):
        self.tree, self.set, self.asn, self.text = tree, routers, asn, text
        self.router, self.folder = routers.routers[asn], pathlib.Path(folder)
        self.names = {peer.name: peer.key for peer in self.router.neighbors.values()}

    def copy(self, is_far):
        """The configuration with what its place here needs."""
        here = os.path.dirname(os.path.abspath(self.router.name))
        text = PROTOCOL.sub(lambda found: found.group(1) + TIMERS, self.text)
        text = INCLUDE.sub(lambda found: found.group(1) + here + "/" + found.group(2), text)
        return text if DEVICE.search(text) else text + "\nprotocol device { }\n"

    def words(self, addresses):
        return [program(self.tree), "-d", "-c", self.folder / "conf", "-s", self.folder / "ctl", "-P",
                self.folder / "pid"]

    def ask(self, command):
        """The lines that the process answers to a command, without their codes."""
        with socket.socket(socket.AF_UNIX) as channel:
            channel.settimeout(10)
            channel.connect(str(self.folder / "ctl"))
            with channel.makefile("rwb") as file:
                self.answer(file)
                file.write(command.encode() + b"\n")
                file.flush()
                return self.answer(file)

    @staticmethod
    def answer(file):
        found = []
        while True:
            line = file.readline().decode("latin-1")
            if not line:
                raise OSError("the process says no more")
            line = line.rstrip("\n")
            if line[:4].isdigit():
                found.append(line[5:])
                if line[4:5] == " ":
                    return found
            else:
                found.append(line[1:])

    def shut(self, peer, is_down):
        name = self.set.ends[self.asn][peer].neighbor.name
        self.ask(f"{'disable' if is_down else 'enable'} {name}")

    def refusals(self):
        """What BIRD refuses: the number of the line, and the text."""
        lines = (self.folder / "log").read_text(errors="replace").splitlines()
        found = [REFUSED.search(line) for line in lines]
        return [(int(one.group(1)), one.group(2)) for one in found if one]

    def up(self):
        """The addresses of the neighbors whose sessions are up."""
        lines = [line.split() for line in self.ask("show protocols")]
        return {self.names[words[0]] for words in lines if words and words[0] in self.names
                and words[-1] == "Established"}

    def routes(self):
        """The tables by prefix."""
        found, table, attributes, prefix = {}, None, None, None
        for line in self.ask("show route all"):
            route = ROUTE.match(line)
            said = ATTRIBUTE.match(line)
            if route:
                prefix = route.group(1) or prefix
                table = found.setdefault(Prefix.read(prefix), Table())
                name = route.group(2)
                attributes = table.take(self.names.get(name), bool(route.group(4)), seconds(route.group(3)))
                attributes["preference"] = int(route.group(5))
            elif said and attributes is not None:
                attributes[said.group(1)] = said.group(2).strip()
        for table in found.values():
            table.routes = {key: self.attributes(one) for key, one in table.routes.items()}
        return found

    @staticmethod
    def attributes(said):
        """The attributes of a route, as the tool tells them."""
        number = {name: int(said[name]) if said.get(name) else None for name in ("med", "local_pref", "otc")}
        communities = re.findall(r"\((\d+),(\d+)\)", said.get("community", ""))
        large = re.findall(r"\((\d+), (\d+), (\d+)\)", said.get("large_community", ""))
        path = said.get("as_path", "").split()
        return {"path": tuple(map(int, path)) if all(map(str.isdigit, path)) else tuple(path),
                "origin": said["origin"].lower() if "origin" in said else None, "med": number["med"],
                "local-pref": number["local_pref"], "preference": said["preference"], "otc": number["otc"],
                "communities": sorted(int(asn) << 16 | int(data) for asn, data in communities),
                "large": sorted(tuple(map(int, one)) for one in large)}

    def look(self):
        return self.routes()

    @staticmethod
    def are_alike(one, other):
        """Whether two looks show the same; the times of changes tremble."""
        return {prefix: (table.routes, table.best) for prefix, table in one.items()} == \
            {prefix: (table.routes, table.best) for prefix, table in other.items()} and \
            all(abs(time - other[prefix].times[key]) < TREMBLE for prefix, table in one.items()
                for key, time in table.times.items())

    def tables(self, prefixes):
        """What the router has for each prefix."""
        found = self.routes()
        return {prefix: found.get(prefix) or Table() for prefix in prefixes}
