"""What is said of routes where an AS of the set has several routers: AS paths, next hops, and which step decided."""
from bgpnet.configs import steps
from bgpnet.configs.inside import CLIENT, EXTERNAL
from bgpnet.configs.sessions import dotted
from bgpnet.program import Refusal
from bgpnet.reports import best_paths, objects_of

CAME = {EXTERNAL: "eBGP", CLIENT: "iBGP of a client"}


def path_words(route):
    """The AS_PATH of a route, in words."""
    return f"AS_PATH {' '.join(map(str, route.path)) or 'empty'}"


def inside_attributes(route):
    """What the decision process asks of a route behind MED, each a name and a text."""
    heard = route.heard
    if heard is None:
        return [("came", "own")]
    found = [("came", CAME.get(heard.kind, "iBGP")),
             ("next hop", f"next hop {dotted(route.next_hop)} metric {heard.metric}"),
             ("id", f"router id {dotted(heard.id)}" if route.originator is None else
              f"originator {dotted(route.originator)}")]
    if route.clusters:
        found.append(("clusters", f"clusters {' '.join(map(dotted, route.clusters))}"))
    return found


def with_steps(routers, order, lines):
    """The lines of ways, best first, behind each of them the step by which it stands below the one above it."""
    found = lines[:1]
    for above, way, line in zip(order.ways, order.ways[1:], lines[1:]):
        by = "as it may: it can't last" if way.path in order.left_out else step_text(order.router, above, way)
        found += [line, f"   below {routers.path_label(above.path)} {by}"]
    return found


def step_text(router, above, way):
    """By which step one way stands below another, in words."""
    if above.path[1:2] == way.path[1:2]:
        return "as it may: one neighbor tells one of them at a time"
    if not steps.are_together(above.path, way.path):
        return "as it may: they are never there together"
    name, value, against = steps.deciding(router, above, way)
    if name == steps.OWN_ROUTE or name == steps.TYPE:
        return f"by {name}"
    return f"by {name}: {steps.value_text(name, against)} against {steps.value_text(name, value)}"


def ending(router, route):
    """What stands behind the path of a router that an end has: its AS_PATH, next hop and local preference."""
    hop = "itself" if route.next_hop is None else dotted(route.next_hop)
    return f"  {path_words(route)}  next hop {hop}  local-pref {router.preference(route)[0]}"


def reported(routers, text, name):
    """The paths that tables of FRR have (`show bgp ipv4 unicast json` of every router that a path passes), by router
    and prefix: from each router to the neighbor of its best route."""
    ids = {dotted(router.router_id.name): number for number, router in routers.routers.items()}
    hops = {}
    for said in objects_of(text, name):
        number = ids.get(str(said.get("routerId"))) if isinstance(said, dict) else None
        if number is None or not isinstance(said.get("routes"), dict):
            raise Refusal(f"{name}: no `show bgp ipv4 unicast json` of a router of these configurations")
        peers = {end.neighbor.key: peer for peer, end in routers.ends[number].items()}
        for prefix, path in best_paths(said["routes"], name):
            key = path.get("peerId")
            is_own = key in (None, "(unspec)", "0.0.0.0")
            if not is_own and not (isinstance(key, str) and key in peers):
                raise Refusal(f"{name}: {routers.label(number)} {prefix}: {key} is no neighbor of it here")
            hops[number, prefix] = None if is_own else peers[key]
    found, behind = {}, {(number, prefix): router for router in routers.behind for prefix in router.networks
                         for number in routers.ends[router.number]}
    for router in routers.behind:
        found.update(((router.number, prefix), (router.number,)) for prefix in router.networks)
    for number, prefix in hops:
        path, at = [number], hops[number, prefix]
        while at is not None:
            if at in path or (at, prefix) not in hops:
                why = "goes in a circle" if at in path else f"leads to {routers.label(at)}, which has none"
                raise Refusal(f"{name}: {prefix}: the route of {routers.label(number)} {why}")
            path.append(at)
            at = hops[at, prefix]
        if (path[-1], prefix) in behind:
            path.append(behind[path[-1], prefix].number)
        found[number, prefix] = tuple(path)
    return found
