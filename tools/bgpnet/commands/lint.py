"""Names mistakes in a network and its schedule that the program takes without a word.

    tools/lint examples/play/session.txt
    tools/topology --routers 9 | tools/lint -

Of a network: prefixes with bits past their length, which are cleared; rules of a prefix that no origin has; paths of
rules that can never come, as over a link that is not there; routers that no path can come to. Of a schedule: prefixes
that are never originated; sessions that one end starts alone, or none; a schedule in which nothing passes a link;
seconds in which every hold time runs out; snapshots that nothing decides, and those behind `rounds` that come out
settled if these are more. Each is a line with the file and the line of it, and the status is 3 where there is one. A
file that the program refuses is named on the standard error, the others are gone through all the same, and the status
is 1.

Not everything that is named is meant otherwise: an example may show what a session does that one end starts alone. And
where nothing is named the routes may still be others than was meant: tools/settle and tools/whatif ask for those."""
import sys

from bgpnet.live import listed_paths, warnings
from bgpnet.network import Prefix, lines_text, numbered, parts_of, read_address, read_network, read_number
from bgpnet.program import Program, Refusal, Words, read_text, tool
from bgpnet.tracing import Moment, events_of, orders_of, rest_bound

# The words of lines that have a prefix behind the router.
WITH_PREFIX = ("origin", "rank", "path", "originate", "withdraw")
FOUND = 3


def host_bits(text):
    """The prefixes that have bits past their length, each with its line."""
    for number, words in numbered(text.split("\n")):
        if len(words) > 2 and words[0] in WITH_PREFIX:
            prefix = Prefix.read(words[2])
            if read_address(words[2].split("/")[0]) != prefix.address:
                yield number, f"{words[2]} has bits past its length: it is read as {prefix}"


class Sessions:
    """Which ends of sessions are started, and by which line, as orders pass."""

    def __init__(self, network, restarts):
        self.network, self.restarts = network, restarts
        self.started, self.ever, self.found = {}, set(), []

    def judge(self, one, other):
        """Names an end that was started alone, before it stops."""
        for end in ((one, other), (other, one)):
            if end in self.started and end[::-1] not in self.started:
                line, order = self.started[end]
                other_end = f"{end[1]} {end[0]}"
                self.found.append((line, f"{order}, and nothing starts {other_end}: the session does not come up"))

    def stop(self, one, other):
        """One end stops; the other closes by that, and starts again only where the network says so."""
        self.judge(one, other)
        self.started.pop((one, other), None)
        if not self.restarts:
            self.started.pop((other, one), None)

    def obey(self, line, words):
        ends = tuple(map(read_number, words[1:])) if words[0] in ("start", "stop", "reset") else ()
        if words[0] in ("stop", "reset"):
            self.stop(*ends)
        if words[0] in ("start", "reset"):
            self.started[ends] = line, " ".join(words)
            self.ever.add(frozenset(ends))
        if words[0] == "restart":
            for peer in self.network.peers[read_number(words[1])]:
                self.stop(read_number(words[1]), peer)

    def end(self, lines):
        for link in self.network.links:
            self.judge(*link)
            if frozenset(link) not in self.ever:
                self.found.append((lines[link], f"no order starts the session of the link {link[0]} {link[1]}"))
        return self.found


def silences(network, trace, text):
    """The orders of seconds in which every session that was up closes."""
    moment, were_up, line = Moment(network), set(), None
    for event in [*events_of(trace, orders_of(text)), None]:
        if event is None or event.line != line:
            if were_up and not moment.up:
                yield line, ("the hold time of every session runs out, since nothing is heard for so long: put "
                             f"`rounds` between `ticks` of at most {max(1, network.hold // 3)}")
            line = event and event.line
            were_up = set(moment.up) if event and event.words[0] == "tick" else set()
        if event:
            moment.pass_event(event)


def verdict_of(program, text, snapshot):
    """How a snapshot comes out, or nothing where it is not decided or the text is refused."""
    status, lines = program.ask(["play"], text)
    return next((line for line in lines if line.startswith(f"snapshot {snapshot} ")), None) if not status else None


def hurried(program, network, text, orders, decided):
    """The snapshots behind `rounds` that do not come out settled, and do behind more rounds."""
    more, lines = f"rounds {rest_bound(network)}", text.split("\n")
    for (before, last), (line, words) in zip(orders, orders[1:]):
        if words[0] != "snapshot" or last[0] != "rounds":
            continue
        snapshot = read_number(words[2])
        said = decided.get(snapshot)
        if said and said.endswith(" settled"):
            continue
        longer = "\n".join(lines[:line - 1] + [more, lines[line - 1], more] + lines[line:])
        if verdict_of(program, longer, snapshot) == f"snapshot {snapshot} settled":
            said = " ".join(said.split()[2:]) if said else "not decided"
            yield line, f"snapshot {snapshot} is {said}; with more rounds before it and behind it, it is settled"


def of_schedule(network, above, orders, decided):
    """What is named of a schedule, of its orders, each with its line, and of the snapshots that are decided."""
    section = len(above)
    if not orders:
        yield section, "the schedule has no order"
        return
    restarts = any(words[0] == "restart" and read_number(words[1]) for _, words in numbered(above))
    sessions = Sessions(network, restarts)
    for line, words in orders:
        sessions.obey(line, words)
    yield from sessions.end({tuple(map(read_number, words[1:])): line for line, words in numbered(above)
                             if words[0] == "link"})
    originated = {Prefix.read(words[2]) for _, words in orders if words[0] == "originate"}
    if network.origins and not originated:
        yield section, "no order originates a prefix: no router has a route"
    elif network.origins:
        for prefix in network.origins:
            if prefix not in originated:
                yield section, f"no order originates {prefix}"
    kinds = {words[0] for _, words in orders}
    if network.links and not kinds & {"rounds", "put"}:
        yield section, "nothing passes a link: there is no `rounds`, and no `put`"
    snapshots = {}
    for line, words in orders:
        if words[0] == "snapshot":
            snapshots.setdefault(read_number(words[2]), line)
    for snapshot, line in snapshots.items():
        if snapshot not in decided:
            yield line, f"nothing decides snapshot {snapshot}: its markers, or its parts, have not gone round"


def found_in(program, text, name):
    """What is named of a text, each with its line, or None where it is of no line."""
    network, section, rest = read_network(program, text, name)
    said = program.answer(["play" if section == "schedule" else "check"], text, name)
    yield from host_bits(text)
    for line, what in warnings(network, {prefix: listed_paths(network, prefix) for prefix in network.origins}):
        yield line, what
    if section == "schedule":
        above = parts_of(text)[0]
        orders = numbered(rest, len(above) + 1)
        decided = {int(line.split()[1]): line for line in said if line.startswith("snapshot ")}
        found = list(of_schedule(network, above, orders, decided))
        yield from found
        yield from silences(network, program.trace(text, name), text)
        named = {line for line, _ in found}
        yield from (one for one in hurried(program, network, text, orders, decided) if one[0] not in named)


def lines_of(program, name):
    """What is said of a file, as it is printed."""
    found = sorted(found_in(program, read_text(name), name), key=lambda found: found[0] or 0)
    return [f"{name}:{line}: {what}" if line else f"{name}: {what}" for line, what in found]


@tool
def main():
    words = Words(__doc__)
    words.add_argument("files", metavar="FILE", nargs="+",
                       help="inputs of `bgpnet play` or `check`, - for the standard input")
    asked = words.parse_args()
    program, is_found, is_refused = Program(asked.program), False, False
    for name in asked.files:
        try:
            found = lines_of(program, name)
        except Refusal as why:
            is_refused = True
            print(f"lint: {why}", file=sys.stderr)
        except OSError as why:
            is_refused = True
            print(f"lint: {name}: {why.strerror}", file=sys.stderr)
        else:
            is_found |= bool(found)
            print(lines_text(found), end="")
    return 1 if is_refused else FOUND if is_found else 0
