"""An order of which only pairs are known: which of two is better."""
from bgpnet.configs.places import refusal
from bgpnet.network import path_text
from bgpnet.program import grouped


def groups_of(ways, key):
    """The ways in groups that a key does not tell apart, the least first."""
    groups = grouped((key(way), way) for way in ways)
    return [groups[own] for own in sorted(groups)]


def in_order(kinds, above):
    """The kinds, each behind those that `above` has for it, as near to their own order as that allows; or as many as
    come before a circle, and what is left."""
    found, left = [], dict.fromkeys(kinds)
    while left:
        free = next((kind for kind in left if not any(other in left for other in above[kind])), None)
        if free is None:
            return found, list(left)
        del left[free]
        found.append(free)
    return found, []


def circle_from(start, left, above):
    """The shortest circle through one of those that are left, each better than the one before, or None."""
    before, queue = {start: None}, [start]
    for kind in queue:
        for better in sorted(above[kind].intersection(left)):
            if better == start:
                circle = [kind]
                while before[circle[-1]] is not None:
                    circle.append(before[circle[-1]])
                return circle
            if better not in before:
                before[better] = kind
                queue.append(better)
    return None


def shortest_circle(left, above):
    """The shortest circle of those that are left, each better than the next."""
    best = None
    for start in left:
        circle = circle_from(start, left, above)
        if circle and (best is None or len(circle) < len(best)):
            best = circle
        if best and len(best) == 3:
            break
    return best


def all_in_order(order, kinds, above, why):
    """The kinds of an order of ways, each behind those that `above` has for it; a circle is refused."""
    found, left = in_order(kinds, above)
    if left:
        paths = [kinds[kind][0].path for kind in shortest_circle(left, above)]
        place = order.set.ends[order.router.number][paths[0][1]].neighbor.place
        refuse_circle(place, f"{order.router.asn} {order.prefix}", paths, why)
    return found


def refuse_circle(place, of, paths, why, text=path_text):
    """Refuses paths that are each better than the next, and the last than the first."""
    said = " over ".join(text(path) for path in paths + paths[:1])
    raise refusal(place, f"{of}: no order: {said}: {why}")
