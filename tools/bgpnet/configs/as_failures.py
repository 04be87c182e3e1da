"""Compares what is said of the failure of each link of an IGP with what real routers do."""
from bgpnet.configs.comparison import Comparison, names_of
from bgpnet.configs.files import read_set
from bgpnet.configs.ranks import Ranks
from bgpnet.network import link_text
from bgpnet.program import Refusal, grouped


def links_of(routers):
    """The links of the IGPs: each two routers of an AS that are alone on a subnet."""
    on = grouped((network, number) for number, router in routers.routers.items() for network in router.reach.connected)
    pairs = {tuple(sorted(ends)) for ends in map(set, on.values()) if len(ends) == 2}
    return sorted(pair for pair in pairs if routers.routers[pair[0]].asn == routers.routers[pair[1]].asn)


class IgpFailures:
    """What the configurations say of the failure of each link of the IGP, and what the routers do. A link whose failure
    parts an AS, or that is refused, is passed over, with a word: BGP keeps such sessions up to three minutes."""

    def __init__(self, texts, routers, lab):
        self.lab, self.name, self.wrong, self.said, self.states, self.links = lab, names_of(routers), [], [], 0, []
        for link in links_of(routers):
            name = link_text(map(routers.label, link))
            try:
                without = read_set(texts, down=[name])
                ranks = Ranks(without, with_ties=True)
            except Refusal as why:
                self.said.append(f"{name} is passed over: {why}")
                continue
            if without.unreached:
                self.said.append(f"{name} is passed over: it parts the AS")
            else:
                self.links.append((name, ranks))

    def run(self):
        """Lets each link fail, and brings it back."""
        if self.lab.wait() != "quiet":
            self.wrong.append(f"before: {self.name} does not become quiet")
            return
        for name, ranks in self.links:
            ends = [(number, interface.name) for number, router in ranks.set.routers.items()
                    for interface in router.reach.shut if interface.name not in self.lab.shut_before(number)]
            self.lab.cut(ends, True)
            state = self.lab.wait()
            if state != "quiet":
                self.wrong.append(f"{name} fails: {self.name} is {state}")
            else:
                found = Comparison(ranks, self.lab.tables(ranks.set.origins()))
                self.wrong += [f"{name} fails: {line}" for line in found.wrong]
                self.states += 1
            self.lab.cut(ends, False)
            self.lab.wait()
