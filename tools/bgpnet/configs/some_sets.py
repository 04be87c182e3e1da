"""Random sets of a kind: routers of FRR, of BIRD, or of both, each an AS; or ASes of several routers of FRR."""
from bgpnet.configs import as_random, random_sets
from bgpnet.configs.bird import random_sets as bird_sets

KINDS = ("frr", "bird", "mixed")
# The kind of which ASes have several routers; `any` does not take it.
INSIDE = "ibgp"


def make(seed, of):
    """The files of a set, by their names. `any` takes a kind by the seed."""
    if of == "any":
        of = KINDS[seed % len(KINDS)]
    if of == INSIDE:
        return as_random.make(seed)
    return random_sets.make(seed) if of == "frr" else bird_sets.make(seed, of == "mixed")
