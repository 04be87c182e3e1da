"""Asks whether a network with policies comes to rest: in which routes, and in every order of events?

    tools/settle examples/disagree.txt
    tools/settle examples/disagree.txt --play 200            200 random orders too, and what came of each
    tools/settle examples/disagree.txt --write 7 | bgpnet play

NETWORK is an input of `bgpnet check` or `play`; what stands behind `assignment` or `schedule` is left out. For each
prefix it prints: the paths of rules that can never come; every stable assignment of paths, as `bgpnet stable` lists
them, with what `bgpnet check` says of it; a small dispute wheel, where `bgpnet safe` finds one (routers in a circle,
each of which likes the way through the next better than its own); and what follows. --without leaves links out. With
--play it plays orders (router by router, in lock step, and random ones by their seeds) until they rest, and counts how
they end: how many seeds do is no odds of what a network does; --json has how many events, UPDATEs and rounds each took.
--write prints one of them. With --timing it says which timing decides: the shortest two orders in which routers hear
what they are told, and which end otherwise.

What it finds is a witness that the program confirms: an assignment that `check` calls stable; a schedule that `play`
plays; an order in which a state comes again (what routers keep, have told and heard, and what is on its way, as `trace`
says), which so never rests; of a wheel each line is two places in one rule. It is proved of the paths that can come
that no other assignment is stable, and that there is no wheel, but where a router without a rule has more paths than a
rule may have: there that is this tool's word alone, and everywhere which paths can come, and the one assignment where
no router has a rule. The words, and that without a wheel every fair order comes to rest in the one stable assignment,
are those of Griffin, Shepherd and Wilfong, The Stable Paths Problem and Interdomain Routing (2002).

The status is 0 where every prefix has one stable assignment and no wheel; else it is the greatest of the prefixes': 3
where a search gave up, 4 where there is one and a wheel, 5 where there are several, 6 where there is none."""
import json
import sys

from bgpnet import jobs
from bgpnet.answers import routes_json
from bgpnet.live import warnings
from bgpnet.network import network_asked, path_text, read_link
from bgpnet.program import Refusal, Words, count, grouped, tool
from bgpnet.settling import Order, Timing, found_of, is_confirmed, judged_assignments, play_orders, row_text


# ---- what is printed

def print_found(network, found, judged):
    """Prints what is found of a prefix."""
    print(f"prefix {found.prefix} of {network.name_of(found.origin)}")
    if not found.why:
        print(f"  stable assignments: {found.about}")
    for chosen, (said, _) in judged:
        print(f"    {row_text(network, ((router, chosen[router]) for router in network.routers))}   {said}")
        without = [router for router in network.routers if not chosen[router]]
        if without:
            print(f"      without a route: {', '.join(map(network.name_of, without))}")
    if found.wheel:
        print(f"  dispute wheel of {len(found.wheel)}:")
    elif not found.why:
        print("  no dispute wheel")
    for rim in found.wheel:
        print(f"    {network.name_of(rim.path[0])} would rather have {network.path_text(rim.better)} than "
              f"{network.path_text(rim.path)}, through {network.name_of(rim.through)}")
    print("  " + found.verdict[0])


def routes_text(network, routes):
    """Routes in which an order settled, by prefix."""
    rows = grouped((prefix, (router, path)) for (router, prefix), path in routes)
    return "; ".join(f"{prefix}: {row_text(network, paths)}" for prefix, paths in rows.items())


def print_orders(network, ends):
    print(f"played {sum(map(len, ends.values()))} orders, counts of seeds and not odds")
    for (said, routes), orders in sorted(ends.items(), key=lambda end: -len(end[1])):
        named = ", ".join(str(word) for word, _, _ in orders[:6]) + (", .." if len(orders) > 6 else "")
        print(f"  {len(orders):3}  {said}{' ' * bool(routes)}{routes_text(network, routes)}   ({named})")
        word, again, _ = orders[0]
        if again:
            print(f"       --write {word}: {again}")


def found_object(network, found, judged):
    """What is found of a prefix, as JSON has it."""
    return {
        "prefix": str(found.prefix), "origin": found.origin, "stable_assignments": len(found.assignments),
        "are_all": found.are_all,
        "assignments": [{"paths": {str(router): path_text(chosen[router]) for router in network.routers}, "check": said,
                         "without": [router for router in network.routers if not chosen[router]]}
                        for chosen, (said, _) in judged],
        "wheel": [{"router": rim.path[0], "would_rather": path_text(rim.better), "than": path_text(rim.path),
                   "through": rim.through} for rim in found.wheel],
        "verdict": found.verdict[0], "status": found.verdict[1]}


def orders_object(ends):
    """How orders end, as JSON has it."""
    return [{
        "end": said, "count": len(orders), "orders": [word for word, _, _ in orders],
        "counts": [{"order": word, **counts} for word, _, counts in orders if counts],
        "routes": routes_json(dict(routes)),
        "again": [{"order": word, "first": again.first, "second": again.second, "events": again.events}
                  for word, again, _ in orders if again],
    } for (said, routes), orders in ends.items()]


# ---- words

def order_word(word):
    return word if word in ("rising", "lock-step") else count(0, 2**32)(word)


@tool
def main():
    words = Words(__doc__)
    words.add_argument("network", metavar="NETWORK", help="a text that begins with a network, - for the standard input")
    words.add_argument("--play", type=count(0, 1_000_000), metavar="N", help="play two orders and N random ones")
    words.add_argument("--write", type=order_word, metavar="ORDER", help="print an order: rising, lock-step, or a seed")
    words.add_argument("--timing", action="store_true",
                       help="say which timing decides, where a prefix has several ends: two shortest orders")
    words.add_argument("--without", metavar="U-V", nargs="+", default=[], help="leave these links out")
    words.add_argument("--most", type=count(1, 100_000), metavar="N", default=100, help="assignments to print (100)")
    jobs.add_word(words)
    words.add_argument("--json", action="store_true", help="print JSON")
    asked = words.parse_args()
    program, _, network, *_ = network_asked(asked, asked.network)
    without = list(dict.fromkeys(read_link(network, word) for word in asked.without))
    network.leave_out(frozenset(map(frozenset, without)))
    if asked.write is not None:
        sys.stdout.write(network.remarks + Order(network, asked.write).whole())
        return 0
    if not network.origins:
        raise Refusal(f"{asked.network}: no origin, so no routes")
    return answer(program, network, without, asked)


def answer(program, network, without, asked):
    """Searches, plays, prints, and answers the status."""
    found = [found_of(program, network, prefix, asked.most) for prefix in network.origins]
    warned = [f"line {line}: {what}" if line else what
              for line, what in warnings(network, {one.prefix: one.paths for one in found})]
    judged = [list(judged_assignments(program, network, one, without)) for one in found]
    timings = {one.prefix: Timing(program, network, one.prefix) for one in found
               if asked.timing and len(one.assignments) > 1}
    ends = {}
    if asked.play is not None:
        words = ["rising", "lock-step", *range(1, asked.play + 1)]
        ends = play_orders(program, network, words, not without, asked.jobs)
    status = max(one.verdict[1] for one in found)
    if asked.json:
        print(json.dumps({"network": asked.network, "without": [list(link) for link in without], "warnings": warned,
                          "prefixes": [found_object(network, *both) for both in zip(found, judged)],
                          "timing": {str(prefix): timing.object() for prefix, timing in timings.items()},
                          "orders": orders_object(ends), "status": status}, indent=1))
    else:
        for warning in warned:
            print(f"warning: {warning}")
        for both in zip(found, judged):
            print_found(network, *both)
            for line in timings[both[0].prefix].lines() if both[0].prefix in timings else ():
                print(f"  {line}")
        if asked.play is not None:
            print_orders(network, ends)
    if not is_confirmed(found, judged, ends):
        raise Refusal("the program does not confirm what is found here")
    return status
