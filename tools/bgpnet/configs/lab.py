"""Runs a set of configurations by real processes, each router by its own software.

Routers of FRR alone stand in one network namespace, with the addresses by which their neighbors name them on `lo`;
where one is of BIRD, each router has a namespace of its own, and each session a pair of interfaces. No service is
started, and every process is ended by its number."""
import os
import pathlib
import shutil
import subprocess
import time

from bgpnet.configs import frr
from bgpnet.configs.bird import daemon as bird
from bgpnet.program import Refusal

LIBRARIES = [f"{place}/{machine}-linux-gnu{more}" for machine in ("x86_64", "aarch64")
             for place, more in (("usr/lib", "/frr"), ("usr/lib", ""), ("lib", ""))]
DAEMONS = {"FRR": frr, "BIRD": bird}
# Seconds: between two looks, at least; until sessions have to be up; for which a set has to change; and behind the last
# session that came up, where a router is of BIRD, which tells its first routes up to three seconds later.
LOOK, NO_SESSION, FOR_EVER, FIRST = 0.6, 180.0, 25.0, 5.5
# How many looks in a row have to be alike, and how many changes a set shows that changes for ever.
ALIKE, CHANGES = 5, 8


def obey(words, text=None):
    """Runs a command of the system, and refuses where it fails."""
    done = subprocess.run(list(map(str, words)), input=text, text=True, capture_output=True)
    if done.returncode:
        raise Refusal(f"'{' '.join(map(str, words))}' fails: {done.stderr.strip()}")


class Lab:
    """The processes of a set of routers. `trees` has where the packages of each software are unpacked. `others` are
    processes beside them."""

    def __init__(self, trees, routers, texts, folder):
        self.set, self.folder, self.trees = routers, pathlib.Path(folder), trees
        self.processes, self.homes, self.others = {}, {}, []
        self.daemons = {asn: DAEMONS[router.language].Daemon(trees[router.language], routers, asn, texts[asn],
                                                             self.folder / str(asn))
                        for asn, router in routers.routers.items() if not router.is_origins}
        self.is_far = any(router.language == "BIRD" for router in routers.routers.values())

    def addresses(self, asn):
        """The addresses by which the neighbors of a router name it."""
        return sorted({self.set.ends[peer][asn].neighbor.key for peer in self.set.ends[asn]})

    def start(self):
        if self.is_far:
            self.make_homes()
        else:
            self.run_in(None, ["link set lo up"] + [f"addr add {address}/32 dev lo" for asn in self.set.routers
                                                    for address in self.addresses(asn) or ["127.0.0.1"]
                                                    if not address.startswith("127.")])
        for asn, daemon in self.daemons.items():
            self.start_one(asn, daemon)

    def start_one(self, asn, daemon):
        shutil.rmtree(daemon.folder, ignore_errors=True)
        daemon.folder.mkdir(parents=True)
        (daemon.folder / "conf").write_text(daemon.copy(self.is_far), encoding="latin-1")
        self.processes[asn] = self.run_one(asn, daemon.words(self.addresses(asn)), "log")

    def run_one(self, asn, words, log):
        """A process of a router, which says what it has to say into a file."""
        daemon = self.daemons[asn]
        libraries = ":".join(f"{self.trees[daemon.language]}/{one}" for one in LIBRARIES)
        with open(daemon.folder / log, "w") as out:
            return subprocess.Popen(self.inside(asn, words), env=dict(os.environ, LD_LIBRARY_PATH=libraries),
                                    stdout=out, stderr=subprocess.STDOUT, stdin=subprocess.DEVNULL)

    # ---- namespaces

    def inside(self, asn, words):
        """Words of a command in the namespace of a router."""
        home = ["nsenter", "-t", str(self.homes[asn].pid), "-n"] if asn in self.homes else []
        return home + list(map(str, words))

    def run_in(self, asn, lines):
        """Obeys lines of `ip` in the namespace of a router, or in the one that stands here."""
        obey(self.inside(asn, ["ip", "-batch", "-"]), "\n".join(lines))

    def make_spaces(self, numbers):
        """Makes a namespace for each of these."""
        own = os.readlink("/proc/self/ns/net")
        for number in numbers:
            self.homes[number] = subprocess.Popen(["unshare", "-n", "sleep", "900"], stdin=subprocess.DEVNULL)
        for home in self.homes.values():
            while os.readlink(f"/proc/{home.pid}/ns/net") == own:
                time.sleep(0.005)

    def make_homes(self):
        """A namespace for each router, and a pair of interfaces for each session, with its addresses."""
        self.make_spaces(self.set.routers)
        lines = {asn: ["link set lo up"] for asn in self.set.routers}
        pairs = []
        for asn, ends in self.set.ends.items():
            for peer in ends:
                if asn < peer:
                    pairs.append(f"link add p{peer} netns {self.homes[asn].pid} type veth peer name p{asn} netns "
                                 f"{self.homes[peer].pid}")
                near, far = self.set.ends[peer][asn].neighbor.key, ends[peer].neighbor.key
                lines[asn] += [f"addr add {near} peer {far} dev p{peer}", f"link set p{peer} up"]
        self.run_in(None, pairs)
        for asn, own in lines.items():
            self.run_in(asn, own)

    def stop(self):
        processes = [*self.others, *self.processes.values(), *self.homes.values()]
        for process in processes:
            process.terminate()
        for process in processes:
            try:
                process.wait(5)
            except subprocess.TimeoutExpired:
                process.kill()
                process.wait()

    # ---- what the processes do

    def shut(self, link, is_down):
        """Shuts the session of a link down at both ends, or lets it come up again."""
        for asn, peer in (link, link[::-1]):
            self.daemons[asn].shut(peer, is_down)

    def refusals(self):
        """What a software refuses of a file: the software, the router, the number of the line, 0 where it says none,
        and the text."""
        return [(daemon.language, asn, number, text) for asn, daemon in self.daemons.items()
                for number, text in daemon.refusals()]

    def are_up(self, down=None):
        """Whether the sessions that carry routes are up, all but that of the link that is to be down."""
        for asn, daemon in self.daemons.items():
            up = daemon.up()
            for peer in self.set.up[asn]:
                is_down = down is not None and {asn, peer} == set(down)
                if peer in self.daemons and is_down == (self.set.ends[asn][peer].neighbor.key in up):
                    return False
        return True

    def look(self):
        """What the processes have selected and heard."""
        return [daemon.look() for daemon in self.daemons.values()]

    @property
    def interval(self):
        """For how many seconds an UPDATE may wait somewhere."""
        return max((daemon.interval for daemon in self.daemons.values()), default=0)

    def are_alike(self, one, other):
        return other is not None and all(daemon.are_alike(*looks) for daemon, *looks in
                                         zip(self.daemons.values(), one, other))

    def wait_for(self, is_done, most):
        """Waits until something holds, and says whether it came to that in so many seconds."""
        began = time.monotonic()
        while time.monotonic() - began < most:
            try:
                if is_done():
                    return True
            except (OSError, ValueError):
                ended = [asn for asn, process in self.processes.items() if process.poll() is not None]
                if ended:
                    raise Refusal(f"a process ended, that of {ended[0]}: {self.last_words(ended[0])}")
            time.sleep(LOOK)
        return False

    def last_words(self, asn):
        lines = (self.daemons[asn].folder / "log").read_text(errors="replace").strip().splitlines()
        return lines[-1] if lines else "it says nothing"

    def wait(self, down=None):
        """Waits until the set is quiet, the session of a link down or none: `quiet`, `changing`, or `down` where
        sessions do not come up. Where UPDATEs wait for some seconds it has to be quiet for longer. A machine that is
        slow to answer is looked at less often."""
        if not self.wait_for(lambda: self.are_up(down), NO_SESSION):
            return "down"
        if self.is_far:
            time.sleep(FIRST - ALIKE * LOOK)
        began = changed = time.monotonic()
        last, alike, changes, quiet = None, 0, 0, self.interval
        quiet += quiet and 2
        while alike < ALIKE or time.monotonic() - changed < quiet:
            at = time.monotonic()
            look = self.look()
            is_alike = self.are_alike(look, last)
            changed = changed if is_alike else at
            alike, changes, last = (alike + 1, changes, look) if is_alike else (1, changes + 1, look)
            if at - began > FOR_EVER and changes > CHANGES:
                return "changing"
            time.sleep(max(LOOK, 2 * (time.monotonic() - at)))
        return "quiet" if self.are_up(down) else "down"

    def tables(self, prefixes):
        """What each router has for each prefix."""
        return {(asn, prefix): table for asn, daemon in self.daemons.items()
                for prefix, table in daemon.tables(prefixes).items()}
