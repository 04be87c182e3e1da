#!/usr/bin/env python3
"""Writes a network with its policies and a stable assignment of paths, as `bgpnet check` reads it.

64 routers in a ring of 512 links (each router has its eight next ones on both sides), 256 prefixes,
64 rules a router. A rule names the best path of the router and a longer one, so that best
responses end in one assignment, which is written behind the network."""
import random, sys

ROUTERS, SIDE, PREFIXES, RULES, LONGER = 64, 8, 256, 64, 1
random.seed(1)

def asn(router):
    return 64000 + router

def word(path):
    return "-".join(str(asn(router)) for router in path) or "none"

peers = [[(u + d) % ROUTERS for d in range(-SIDE, SIDE + 1) if d] for u in range(ROUTERS)]
origin = {p: p % ROUTERS for p in range(PREFIXES)}

def rank(path):
    return (len(path), path)

def shortest(root):
    """The best path of each router to the root, by length and then by the numbers."""
    best = {u: () for u in range(ROUTERS)}
    best[root] = (root,)
    moved = True
    while moved:
        moved = False
        for u in range(ROUTERS):
            choices = [(u,) + best[v] for v in peers[u] if best[v] and u not in best[v]]
            if u != root and choices and min(choices, key=rank) != best[u]:
                best[u] = min(choices, key=rank)
                moved = True
    return best

def walk(u, root):
    """A simple path from a router to the root that wanders, of at most sixteen routers."""
    while True:
        path = [u]
        while path[-1] != root and len(path) < 16:
            near = [v for v in peers[path[-1]] if v not in path]
            if not near:
                break
            path.append(root if root in near and len(path) > 5 else random.choice(near))
        if path[-1] == root:
            return tuple(path)

best = {root: shortest(root) for root in range(ROUTERS)}
out = [f"router {asn(u)} 10.0.{u}.1" for u in range(ROUTERS)]
out += [f"link {asn(u)} {asn((u + d) % ROUTERS)}" for u in range(ROUTERS) for d in range(1, SIDE + 1)]
out += [f"origin {asn(origin[p])} 10.{p}.0.0/16" for p in range(PREFIXES)]
for u in range(ROUTERS):
    for p in sorted(random.sample(range(PREFIXES), RULES)):
        root = origin[p]
        longer = {walk(u, root) for _ in range(LONGER)} if u != root else set()
        paths = [best[root][u]] + sorted(longer - {best[root][u]}, key=rank)
        out.append(f"rank {asn(u)} 10.{p}.0.0/16 " + " ".join(word(path) for path in paths))
out.append("assignment")
for u in range(ROUTERS):
    out += [f"path {asn(u)} 10.{p}.0.0/16 {word(best[origin[p]][u])}" for p in range(PREFIXES)]
sys.stdout.write("\n".join(out) + "\n")
