"""Compares what tools/config says of configurations with what real `bgpd` processes of FRR 8.4 do by them:
tools/beside, of sets of FRR alone.

    tools/beside_frr examples/config/wedgie
    tools/beside_frr --random 20 --seed 1          twenty random sets, the first of seed 1
    tools/beside_frr --write lab --seed 7          writes the random set of seed 7 into the folder lab
    tools/beside_frr --fail-each-link examples/config/relations     what tools/whatif says of failures, beside FRR

`tools/beside --help` says what is compared, and how. Where FRR is not there it prints `skipped`, and the status is 1:
the tree of its packages, unpacked by `dpkg -x`, is what --frr or the variable FRR names, else it is /."""
from bgpnet.commands import beside
from bgpnet.program import tool


@tool
def main():
    return beside.compare(__doc__, ("frr",))
