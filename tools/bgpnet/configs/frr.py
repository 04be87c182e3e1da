"""Runs a real `bgpd` of FRR on a configuration.

A copy of the configuration says from which addresses it opens its sessions, and that changed route-maps act after a
second."""
import json
import os
import pathlib
import re
import socket

from bgpnet.program import Refusal

# A line of a log that says that a part of a configuration is not taken. What is taken back, it says also where a line
# takes the place of another.
CHANGE = re.compile(r"error processing configuration change: .*operation \[(?!destroy).* xpath \[(\S*)\]")


def program(tree):
    """The path of `bgpd` in a tree of unpacked packages, or None."""
    path = pathlib.Path(tree, "usr/lib/frr/bgpd")
    return path if os.access(path, os.X_OK) else None


class Table:
    """What a router has for a prefix: of each peer's address (None is its own) the attributes, and which is best."""

    def __init__(self, said):
        self.routes, self.best, self.has_best = {}, None, False
        for path in said.get("paths", []):
            peer = path.get("peer", {})
            key = None if path.get("sourced") or peer.get("peerId") in (None, "0.0.0.0") else peer["peerId"]
            self.routes[key] = self.attributes(path)
            if path.get("bestpath", {}).get("overall"):
                self.best, self.has_best = key, True

    @staticmethod
    def attributes(path):
        words = path.get("aspath", {}).get("string", "").split()
        numbers = tuple(int(word) for word in words) if all(word.isdigit() for word in words) else ()
        communities = path.get("community", {}).get("string", "").split()
        large = path.get("largeCommunity", {}).get("string", "").split()
        return {"path": numbers, "origin": path.get("origin", "").lower(), "med": path.get("metric"),
                "local-pref": path.get("locPrf", path.get("localpref")), "weight": path.get("weight", 0),
                "communities": sorted(communities), "large": sorted(large)}


class Daemon:
    """The process of a router."""

    language, table = "FRR", Table

    def __init__(self, tree, routers, asn, text, folder):
        self.tree, self.set, self.asn, self.text = tree, routers, asn, text
        self.router, self.folder = routers.routers[asn], pathlib.Path(folder)

    def copy(self, is_far):
        """The configuration without the lines of other daemons, with what its place here needs; `is_far` says that its
        neighbors stand in other namespaces."""
        lines = ["!" if number in self.router.foreign else line
                 for number, line in enumerate(self.text.split("\n"), 1)]
        lines = lines[:self.router.end - 1] if self.router.end else lines
        lines = ["bgp route-map delay-timer 1", *lines, f"router bgp {self.router.asn}"]
        for peer, end in self.set.ends[self.asn].items():
            if end.neighbor.key is None:  # it stands behind several routers that announce the same
                continue
            lines.append(f" neighbor {end.neighbor.key} timers connect 3")
            lines += [f" neighbor {end.neighbor.key} disable-connected-check"] * is_far
            if not end.neighbor.line("source"):
                own = self.set.ends[peer][self.asn].neighbor.key
                lines.append(f" neighbor {end.neighbor.key} update-source {own}")
        return "\n".join(lines + ["exit", ""])

    def words(self, addresses):
        """The words of the process, by the addresses of the router."""
        found = [program(self.tree), "-Z", "-S", "-n", "-p", "179", "-f", self.folder / "conf", "-i",
                 self.folder / "pid", "--vty_socket", self.folder, "--log", "stdout", "--log-level", "warnings"]
        for address in addresses or ["127.0.0.1"]:
            found += ["-l", address]
        return found

    def tell(self, commands, name="bgpd"):
        """What the process answers to the last of some commands, or another one beside it."""
        with socket.socket(socket.AF_UNIX) as channel:
            channel.settimeout(10)
            channel.connect(str(self.folder / f"{name}.vty"))
            for command in commands:
                channel.sendall(command.encode() + b"\0")
                said = b""
                while not (len(said) >= 4 and said[-4:-1] == b"\0\0\0"):
                    more = channel.recv(65536)
                    if not more:
                        break
                    said += more
        return said[:-4].decode()

    def ask(self, command, name="bgpd"):
        """What the process answers to a command, read as JSON."""
        text = self.tell([command], name)
        return json.loads(text) if text.strip() else {}

    def shut(self, peer, is_down):
        """Shuts the session with a peer down, or lets it come up again."""
        word = "" if is_down else "no "
        line = f"{word}neighbor {self.set.ends[self.asn][peer].neighbor.key} shutdown"
        said = self.tell(["enable", "configure terminal", f"router bgp {self.router.asn}", line, "end"])
        if said.strip():
            raise Refusal(f"bgpd {self.asn} says of '{line}': {said.strip()}")

    def refusals(self):
        """What FRR refuses: the number of the line, 0 where it says none, and the text."""
        found = []
        for line in (self.folder / "log").read_text(errors="replace").splitlines():
            said = re.search(r"\] .* on config line (\d+): ?(.*)", line)
            change = CHANGE.search(line)
            if said:
                found.append((int(said.group(1)) - 1, said.group(2).strip()))
            elif change:
                found.append((0, change.group(1)))
        return found

    def up(self):
        """The addresses of the neighbors whose sessions are up."""
        peers = self.ask("show bgp ipv4 unicast summary json").get("peers", {})
        return {address for address, peer in peers.items() if peer.get("state") == "Established"}

    def look(self):
        """What the process has selected and heard: its table as a text."""
        said = self.ask("show bgp ipv4 unicast json")
        return said.get("tableVersion"), json.dumps(said.get("routes", {}), sort_keys=True)

    @property
    def interval(self):
        """For how many seconds an UPDATE may wait at a neighbor (MRAI)."""
        return max((end.neighbor.value("interval") or 0 for end in self.set.ends[self.asn].values()), default=0)

    @staticmethod
    def are_alike(one, other):
        return one == other

    def tables(self, prefixes):
        """What the router has for each prefix."""
        return {prefix: self.table(self.ask(f"show bgp ipv4 unicast {prefix} json")) for prefix in prefixes}
