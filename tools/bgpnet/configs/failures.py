"""Compares what `tools/whatif` says of the failure of each link with what real routers do."""
from bgpnet.configs.comparison import Ways, names_of, stable_ends
from bgpnet.configs.ranks import network_lines
from bgpnet.failures import Failure, Player
from bgpnet.network import lines_text, path_text, read_network


def without(paths, link):
    """The permitted paths of routers that do not pass a link."""
    ends = frozenset(link) if link else None
    return {asn: [path for path in ways if ends not in map(frozenset, zip(path, path[1:]))]
            for asn, ways in paths.items()}


class Failures:
    """What `tools/whatif` says of the failure of each link of a set, and what the routers do."""

    def __init__(self, program, ranks, lab):
        self.program, self.ranks, self.lab, self.name = program, ranks, lab, names_of(ranks.set)
        self.network = read_network(program, lines_text(network_lines(ranks, None)[0]), "the network")[0]
        self.player = Player(program, self.network)
        self.player.before = self.player.states([])[0]
        self.links = self.network.links
        self.failures = [Failure(self.network, [link]) for link in self.links]
        self.wrong, self.said, self.states = [], [], 0

    def compare(self, name, state, link):
        """Compares what the routers have now with a state of the program, in which a link is down, or none."""
        ways = Ways(self.ranks.set, self.lab.tables(self.ranks.set.origins()))
        self.wrong += [f"{name}: {line}" for line in ways.wrong]
        self.states += 1
        for prefix, origin in self.ranks.origins.items():
            chosen = ways.chosen[prefix]
            played = {asn: state.routes[asn, prefix] for asn in self.ranks.set.routers}
            if chosen == played and state.stage.rest is not None:
                continue
            paths = self.ranks.paths(prefix)
            paths[origin] = [(origin,)]
            found, are_all = stable_ends(self.program, without(paths, link), origin)
            differ = ", ".join(f"{asn} {path_text(chosen[asn])}, here {path_text(played[asn])}"
                               for asn in chosen if chosen[asn] != played[asn]) or "here it does not rest"
            if chosen in found:
                self.said.append(f"{name}: {prefix}: another stable end: {differ}")
            elif any(self.ranks.orders[prefix][asn].ties for asn in chosen):
                self.said.append(f"{name}: {prefix}: a tie: {differ}")
            else:
                self.wrong.append(f"{name}: {prefix}: {'no stable end' if are_all else 'unknown'}: {differ}")

    def quiet(self, name, link=None):
        """Whether the routers become quiet, with a link down or none."""
        state = self.lab.wait(link)
        if state != "quiet":
            self.wrong.append(f"{name}: {self.name} is {state}")
        return state == "quiet"

    def run(self):
        """Lets each link fail, and brings it back."""
        if not self.quiet("before"):
            return
        self.compare("before", self.player.before, None)
        for failure in self.failures:
            link, stages = failure.links[0], self.player.failing_stages(failure, True)
            behind, back = self.player.states(stages)
            self.lab.shut(link, True)
            if self.quiet(failure.title(), link):
                self.compare(failure.title(), behind, link)
            self.lab.shut(link, False)
            if not self.quiet(failure.title_back()):
                return
            self.compare(failure.title_back(), back, None)
