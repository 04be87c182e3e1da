"""Runs a set of which an AS has several routers by real processes of FRR: each router with zebra, static routes and its
IGP in a namespace of its own, its interfaces joined as their subnets say.

Where a file gives the edges of the IGP, no IGP runs: each router gets routes with their metrics by hand."""
import pathlib
import time

from bgpnet.configs import frr
from bgpnet.configs.lab import LOOK, Lab, obey
from bgpnet.configs.ribs import network_of, shortest_ways
from bgpnet.configs.sessions import dotted

# The group of FRR's terminals, which its programs look for by name.
GROUP, GROUPS = "frrvty", pathlib.Path("/etc/group")
# The blocks that each daemon reads, and lines by which an IGP is quick.
BLOCKS = {"zebra": ("interface ", "ip nht "), "staticd": ("ip route ",), "ospfd": ("interface ", "router ospf"),
          "isisd": ("interface ", "router isis")}
TIMERS = {"ospfd": (" ip ospf hello-interval 1", " ip ospf dead-interval 3"),
          "isisd": (" isis hello-interval 1", " isis hello-multiplier 3")}
# Seconds: until an IGP knows all its routers, and for which routes have to stay as they are, without an IGP and with
# one: a router of OSPF tells what changed five seconds after the last time at the earliest.
NO_IGP, STILL, STILL_OF_IGP = 90.0, 2.0, 8.0


def make_group(folder):
    """Lets FRR's group be known here, in a namespace of mounts of its own."""
    text = GROUPS.read_text()
    if any(line.startswith(GROUP + ":") for line in text.splitlines()):
        return
    copy = pathlib.Path(folder, "group")
    copy.write_text(text + f"{GROUP}:x:65533:root\n")
    obey(["mount", "--bind", copy, GROUPS])


class AsTable(frr.Table):
    """What a router has for a prefix, with what counts in an AS of several routers, but no route that it can't use."""

    def __init__(self, said):
        super().__init__({**said, "paths": [path for path in said.get("paths", []) if path.get("valid")]})

    @staticmethod
    def attributes(path):
        hop = next((hop for hop in path.get("nexthops", []) if hop.get("used")), {})
        return {**frr.Table.attributes(path), "next hop": hop.get("ip"), "metric": hop.get("metric", 0),
                "originator": path.get("originatorId"), "clusters": path.get("clusterList", {}).get("list", [])}


class AsDaemon(frr.Daemon):
    """The `bgpd` of a router beside its zebra."""

    table = AsTable

    def copy(self, is_far):
        lines = super().copy(False).split("\n")
        return "\n".join(line for line in lines if " update-source " not in line or line in self.text)

    def words(self, addresses):
        return [frr.program(self.tree), "-S", "-p", "179", "-f", self.folder / "conf", "-i", self.folder / "pid",
                "-z", self.folder / "zserv", "--vty_socket", self.folder, "--log", "stdout", "--log-level", "warnings"]

    def others(self, has_edges):
        """The words of the processes that run beside it, by their names."""
        igp, found = self.router.igp, ["zebra"]
        found += ["staticd"] * bool(igp.statics)
        if not has_edges:
            found += ["ospfd"] * igp.runs_ospf + ["isisd"] * igp.runs_isis
        return {name: [pathlib.Path(self.tree, "usr/lib/frr", name), "-u", "root", "-g", "root", "-f",
                       self.folder / f"{name}.conf", "-i", self.folder / f"{name}.pid", "-z", self.folder / "zserv",
                       "--vty_socket", self.folder, "--log", "stdout", "--log-level", "warnings"] for name in found}

    def foreign_copy(self, name):
        """The lines of the configuration that are of another daemon, and timers by which an IGP is quick."""
        found, is_own = [], False
        for number, line in enumerate(self.text.split("\n"), 1):
            if number in self.router.foreign and not line.startswith(" "):
                is_own = line.startswith(BLOCKS[name]) or is_own and line.split()[:1] == ["exit"]
            if number in self.router.foreign and is_own:
                found.append(line)
                found += [" lsp-gen-interval 1", " spf-interval 1"] * line.startswith("router isis")
        for interface in self.router.interfaces.values():
            if name in TIMERS and not interface.is_loopback:
                found += [f"interface {interface.name}", *TIMERS[name], "exit"]
        return "\n".join(found + [""])


class AsLab(Lab):
    """The processes of a set. `metrics` has by router the addresses to which it gets a route by hand, each with the
    next hop and the metric."""

    def __init__(self, tree, routers, texts, folder, metrics=None):
        super().__init__({"FRR": tree}, routers, texts, folder)
        self.real = {number: router for number, router in routers.routers.items() if number in texts}
        self.metrics = metrics
        self.daemons = {number: AsDaemon(tree, routers, number, texts[number], self.folder / str(number))
                        for number in texts}

    # ---- namespaces

    def start(self):
        make_group(self.folder)
        self.make_homes()
        for number, daemon in self.daemons.items():
            daemon.folder.mkdir(parents=True)
            for name, words in daemon.others(self.metrics is not None).items():
                (daemon.folder / f"{name}.conf").write_text(daemon.foreign_copy(name), encoding="latin-1")
                self.others.append(self.run_one(number, words, name))
                if name == "zebra":
                    self.wait_for(lambda: all((daemon.folder / one).exists() for one in ("zserv", "zebra.vty")), 30)
        for number, routes in (self.metrics or {}).items():
            self.run_in(number, [f"route add {dotted(address)}/32 via {dotted(hop)} metric {metric}"
                                 for address, (hop, metric) in routes.items()])
        for number, daemon in self.daemons.items():
            (daemon.folder / "conf").write_text(daemon.copy(True), encoding="latin-1")
            self.processes[number] = self.run_one(number, daemon.words(None), "log")

    def make_homes(self):
        """A namespace for each router, and one with a bridge for each subnet, to which its interfaces are joined."""
        self.make_spaces([0, *self.real])
        lines, wires, bridges = {number: ["link set lo up"] for number in self.real}, [], {}
        for number, router in self.real.items():
            for at, (name, interface) in enumerate(router.interfaces.items()):
                if interface.is_loopback:
                    lines[number] += self.address_lines(interface, "lo")
                    continue
                wire = f"w{number}.{at}"
                wires.append(f"link add {wire} netns {self.homes[0].pid} type veth peer name {name} netns "
                             f"{self.homes[number].pid}")
                lines[number] += [f"link set {name} up"] + self.address_lines(interface, name)
                for (address, length), _ in interface.addresses[:1]:
                    bridges.setdefault((network_of(address, length), length), []).append(wire)
        switch = []
        for at, (_, ends) in enumerate(sorted(bridges.items())):
            switch += [f"link add br{at} type bridge", f"link set br{at} up"]
            switch += [line for wire in ends for line in (f"link set {wire} master br{at}", f"link set {wire} up")]
        self.run_in(None, wires)
        self.run_in(0, switch)
        for number, own_lines in lines.items():
            self.run_in(number, own_lines)
            obey(self.inside(number, ["sysctl", "-qw", "net.ipv4.ip_forward=1"]))

    @staticmethod
    def address_lines(interface, name):
        return [f"addr add {dotted(address)}/{length} dev {name}" for (address, length), _ in interface.addresses]

    # ---- what the processes do

    def shut_before(self, number):
        """The names of a router's interfaces that its configuration shuts."""
        return {interface.name for interface in self.set.routers[number].interfaces.values() if interface.is_shut}

    def cut(self, ends, is_down):
        """Takes interfaces down, each of a router, or brings them back."""
        for number, name in ends:
            self.run_in(number, [f"link set {name} {'down' if is_down else 'up'}"])

    def routes(self):
        """What each zebra has as its routes."""
        return [daemon.ask("show ip route json", "zebra") for daemon in self.daemons.values()]

    def wait(self, down=None):
        """Waits until the tables of the IGP stay as they are, then as of any lab."""
        began, last, since = time.monotonic(), None, time.monotonic()
        has_igp = self.metrics is None and any(router.igp.runs_ospf or router.igp.runs_isis
                                               for router in self.set.routers.values())
        still = STILL_OF_IGP if has_igp else STILL
        while time.monotonic() - began < NO_IGP:
            try:
                now = [{prefix: [(one.get("protocol"), one.get("metric"), one.get("selected")) for one in routes]
                        for prefix, routes in table.items()} for table in self.routes()]
                is_up = self.are_up(down)
            except (OSError, ValueError):  # a process is not there yet, which the base waits for, or says so
                now, is_up = None, False
            if now != last or now is None:
                last, since = now, time.monotonic()
            elif is_up and time.monotonic() - since > still:
                break
            time.sleep(LOOK)
        return super().wait(down)


def routes_by_hand(routers, edges):
    """The routes that the edges of a file give the routers of a set: by router the addresses, each with the next hop
    and the metric."""
    costs = edges.by_number({routers.label(number): number for number in routers.routers})
    on, inside = {}, {}
    for (one, other), cost in costs.items():
        if routers.routers[one].asn == routers.routers[other].asn:
            inside.setdefault(one, {})[other] = cost
    for number, router in routers.routers.items():
        for interface in router.interfaces.values():
            for (address, length), _ in interface.addresses:
                on.setdefault((network_of(address, length), length), {})[number] = address
    found = {}
    for start in routers.routers:
        ways = shortest_ways(start, inside)
        hops = {number: next(ends[hop] for ends in on.values() if start in ends and hop in ends)
                for number, (_, hop) in ways.items() if hop}
        own = found[start] = {}
        mine = [subnet for subnet, ends in on.items() if start in ends]
        for subnet, ends in on.items():
            for owner, address in ends.items() if subnet not in mine else ():
                if owner in hops:
                    over = [(ways[owner][0], owner)]
                else:
                    over = [(ways[near][0] + costs[near, owner], near) for near in ends
                            if near in hops and (near, owner) in costs]
                if over:
                    metric, near = min(over)
                    own[address] = hops[near], metric
    return found
