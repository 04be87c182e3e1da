"""Asks what happens to the routes of a network when something fails, and when it is there again.

    tools/whatif examples/good-gadget.txt --fail 1-2
    tools/whatif net.txt --fail-each-link --back               each link by itself, each time from rest
    tools/whatif net.txt --silent 1-2 --back --write > fails.txt; tools/film fails.txt > film.svg
    tools/whatif net.txt --becomes other.txt                   the network becomes another one, of the same routers

NETWORK is an input of `bgpnet check` or `play`; what stands behind `assignment` or `schedule` is left out. First every
session comes up, then every prefix is originated, and the rounds of `play` go on until the network rests: that is the
state before. Then the links fail, and both ends see it (--fail); or a router crashes, and forgets all (--crash); or
nothing crosses a link any more, and its ends find out when the hold time is over (--silent). With --back all is there
again. With --scheduled the state before is that behind the schedule of NETWORK, in which every session has to be up.

With --becomes FILE the network becomes another one of the same routers, as it is with another policy, or without a link
of the IGP (tools/config --igp-down). The routers begin in the routes of before; those that they may no longer use are
lost at once, and then one after the other takes the best that its peers have, in the order of their numbers and in
random ones (--orders). The program judges the ends.

Of each state it prints behind which round it rests (`bgpnet trace` says so), or that it did not within a bound in the
order of `rounds`, and how random orders of the same events end (--orders); how many UPDATEs were told; and of each
prefix which routers have another path, who has none (cut off where no links lead to the origin), who has not the path
of before when all is back, and what `bgpnet check` says of the routes in the network as it is then. Of
--fail-each-link it also counts the stable assignments of each network that is left.

The status is 3 where a router loses its route, or a state does not rest; else 4 where a route is not as before when all
is back; else 5 where a network that is left has not one stable assignment."""
import itertools
import json
import sys

from bgpnet import jobs
from bgpnet.answers import changes_json, routes_json
from bgpnet.becoming import Change, check_alike
from bgpnet.failures import Failure, Player, alike_key, seen_in
from bgpnet.leftover import ends_left, is_safe, start_in
from bgpnet.network import network_asked, read_link, read_network, read_router
from bgpnet.playing import check_all_up
from bgpnet.program import Refusal, Words, count, grouped, read_text, tool
from bgpnet.reports import read_report

# Where a state stands: before anything fails, behind a failure, and when all is back.
BEFORE, BEHIND, BACK = range(3)


# ---- what is printed

def rest_text(state, bound):
    stage, updates = state.stage, sum(state.stage.told.values())
    told = f"{updates} UPDATE{'s' * (updates != 1)}"
    if stage.rest is None:
        return f"no rest by round {bound} in the order of `rounds`, {told} by then; as it stood there"
    return f"rest behind round {stage.rest}, {told}"


def numbers_text(network, routers):
    return ", ".join(map(network.router_text, routers))


def told_text(network, seen, place):
    """What became of a prefix, in a few words."""
    changed, without = len(seen.changed), len(seen.without)
    if place == BEFORE:
        return f"{len(network.routers) - without} of {len(network.routers)} routers have a route"
    return f"{changed} router{'s' * (changed != 1)} change{'s' * (changed == 1)}" if changed else "nothing changes"


def seen_lines(network, prefixes, seen, place):
    """The lines of prefixes that behave alike: a line for them, one for each router whose path is another, and those
    without a path."""
    named = ", ".join(map(str, prefixes))
    yield f"  {named} of {network.router_text(seen.origin)}: {told_text(network, seen, place)}; {seen.said[0]}"
    for router, old, new in seen.changed:
        yield f"    {network.router_text(router)}: {network.path_text(old)}, now {network.path_text(new)}"
    for routers, why in (([router for router in seen.without if router not in seen.cut_off], "no permitted path comes"),
                         (seen.cut_off, f"no links lead to {network.name_of(seen.origin)}")):
        if routers:
            yield f"    without a route: {numbers_text(network, routers)} ({why})"
    if place == BACK and seen.other:
        yield "    not as before: " + ", ".join(f"{network.router_text(router)} had {network.path_text(old)}"
                                                for router, old, _ in seen.other)


def print_state(network, title, state, seen, bound, place):
    """Prints a state; of prefixes of which nothing is to be said one by one, their number."""
    print(f"{title}: {rest_text(state, bound)}")
    if state.again:
        print(f"  in this order it never rests: {state.again}")
    if state.others and state.others.played:
        print(f"  {state.others}")
    same = [prefix for prefix, one in seen.items() if not (one.changed or one.without or place == BACK and one.other)]
    if len(same) < 2 or len({seen[prefix].said[0] for prefix in same}) > 1:
        same = []
    alike = grouped((alike_key(one), prefix) for prefix, one in seen.items() if prefix not in same)
    for prefixes in alike.values():
        for line in seen_lines(network, prefixes, seen[prefixes[0]], place):
            print(line)
    if same:
        one, others = seen[same[0]], "other " * (len(same) < len(seen))
        print(f"  {len(same)} {others}prefixes: {told_text(network, one, place)}; {one.said[0]}")


def state_object(state, seen):
    """A state as JSON has it."""
    return {
        "rests": state.stage.rest is not None, "round": state.stage.rest, "updates": sum(state.stage.told.values()),
        "again": state.again and [state.again.first, state.again.second, state.again.events],
        "other_orders": state.others and {
            "played": state.others.played, "restless": state.others.restless,
            "ends": [{"seeds": seeds, "routes": routes_json(dict(routes))}
                     for routes, seeds in state.others.ends.items()]},
        "prefixes": [{
            "prefix": str(prefix), "origin": one.origin, "updates": one.updates,
            "changed": changes_json(one.changed),
            "without": one.without, "cut_off": one.cut_off, "lost": one.lost,
            "not_as_before": [router for router, _, _ in one.other], "check": one.said[0], "stable": one.said[1],
        } for prefix, one in seen.items()]}


class Outcome:
    """What is found of failures, to be printed and counted."""

    def __init__(self, player, as_json):
        self.player, self.as_json = player, as_json
        self.losing, self.moving, self.other, self.unconfirmed = [], [], [], False
        self.objects, self.several, self.rows, self.known = [], [], {}, {}

    def see(self, title, state, last, place):
        """What is seen of a state, as JSON; it is printed where that is not asked for."""
        player = self.player
        seen = seen_in(player.program, player.network, state, last, player.before)
        if not self.as_json:
            print_state(player.network, title, state, seen, player.bound, place)
        self.unconfirmed |= state.stage.rest is not None and not all(one.said[1] for one in seen.values())
        return seen

    def count(self, failure):
        """How many ends each prefix has in the network that a failure leaves, and whether every order rests there."""
        player, without = self.player, frozenset(map(frozenset, failure.links))
        ends = ends_left(player.program, player.network, without, self.known)
        if any(number != 1 for number in ends.values()):
            numbers = ["not counted" if number is None else str(number) for number in set(ends.values())]
            self.several.append(f"{failure.name()} ({', '.join(numbers)})")
        return {str(prefix): {"ends": number, "safe": is_safe(player.program, player.network, prefix, without)}
                for prefix, number in ends.items()}

    def see_failure(self, failure, stages, states, counts=False):
        """Sees each state of a failure that was played."""
        last, found = self.player.before, {"failed": failure.name(), "links": [list(link) for link in failure.links]}
        for (stage, is_down), state in zip(stages, states):
            seen = self.see(stage[0], state, last, BEHIND if is_down else BACK)
            found["behind" if is_down else "back"] = state_object(state, seen)
            if is_down:
                self.rows[failure.name()] = state, seen
            rests, is_back = state.stage.rest is not None, is_down is None
            for kind, is_so in ((self.moving, not rests),
                                (self.losing, rests and any(one.lost for one in seen.values())),
                                (self.other, is_back and any(one.other for one in seen.values()))):
                if is_so and failure.name() not in kind:
                    kind.append(failure.name())
            last = state
        if counts:
            found["ends"] = self.count(failure)
        self.objects.append(found)


def cell_text(state, one):
    """What a failure does to a prefix, in a few letters: `x` for no rest, how many routers lose their route and change,
    and `.` for nothing."""
    if state.stage.rest is None:
        return "x"
    if one.lost:
        return f"-{len(one.lost)}"
    return str(len(one.changed)) if one.changed else "."


def print_table(outcome):
    """A row for each failure, a column for each prefix; of prefixes that all failures do the same to, one column."""
    columns = grouped((tuple(cell_text(state, seen[prefix]) for state, seen in outcome.rows.values()), prefix)
                      for prefix in outcome.player.network.origins)
    width = max(map(len, outcome.rows), default=0)
    for at, prefixes in enumerate(columns.values(), 1):
        print(f"{at}: {', '.join(map(str, prefixes))}")
    print(" " * width + "".join(f"{at:>6}" for at in range(1, len(columns) + 1)))
    for row, name in enumerate(outcome.rows):
        print(name.ljust(width) + "".join(f"{cells[row]:>6}" for cells in columns))
    print("a number: so many routers change; -N: N lose their route; x: it does not rest; .: nothing changes")


def print_sum(outcome, failures, back, counts=False):
    """What is found of several failures, in some lines."""
    print(f"{len(failures)} failures")
    for names, said, is_asked in ((outcome.losing, "a router loses its route", True),
                                  (outcome.moving, "it does not rest in the order of `rounds`", True),
                                  (outcome.other, "a route is not as before when all is back", back),
                                  (outcome.several, "what is left has not one end", counts)):
        if is_asked:
            print(f"  {said}: {', '.join(names) or 'none'}")


# ---- words

def failures_of(network, asked):
    """The failures that the words ask for."""
    if asked.fail:
        return [Failure(network, list(dict.fromkeys(read_link(network, word) for word in asked.fail)))]
    if asked.silent:
        return [Failure(network, [read_link(network, asked.silent)], silent=True)]
    if asked.crash:
        router = read_router(network, asked.crash)
        if router is None:
            raise Refusal(f"there is no router {asked.crash}")
        return [Failure(network, crash=router)]
    links = [[link] for link in network.links]
    if asked.two:
        links = [list(pair) for pair in itertools.combinations(network.links, 2)]
    return [Failure(network, own) for own in links]


@tool
def main():
    words = Words(__doc__)
    words.add_argument("network", metavar="NETWORK", help="a text that begins with a network, - for the standard input")
    kinds = words.add_mutually_exclusive_group(required=True)
    kinds.add_argument("--fail", metavar="U-V", nargs="+", help="the links fail together, and their ends see it")
    kinds.add_argument("--fail-each-link", action="store_true", help="each link fails by itself")
    kinds.add_argument("--crash", metavar="U", help="the router restarts, and forgets all")
    kinds.add_argument("--becomes", metavar="FILE",
                       help="the network becomes that of another text, of the same routers")
    kinds.add_argument("--silent", metavar="U-V", help="nothing crosses the link, and nobody is told")
    words.add_argument("--then", metavar="U-V", nargs="+", help="these links fail too, behind the first failure")
    words.add_argument("--two", action="store_true", help="with --fail-each-link, each two links fail together")
    words.add_argument("--table", action="store_true",
                       help="with --fail-each-link, a table of failures and prefixes alone")
    words.add_argument("--from", dest="begin", metavar="FILE", nargs="+",
                       help="begin in these routes: what `play` printed, or FRR's `show bgp ipv4 unicast json`")
    words.add_argument("--back", action="store_true", help="and what failed is there again")
    words.add_argument("--scheduled", action="store_true", help="begin with the schedule of NETWORK")
    words.add_argument("--orders", type=count(0, 10_000), metavar="N", default=8,
                       help="random orders that are tried too where the network does not rest (8)")
    jobs.add_word(words)
    words.add_argument("--write", action="store_true", help="print the schedule, and play nothing")
    words.add_argument("--json", action="store_true", help="print JSON")
    asked = words.parse_args()
    if asked.write and (asked.json or asked.fail_each_link):
        words.error("--write is of one failure, and by itself")
    if (asked.two or asked.table) and not asked.fail_each_link:
        words.error("--two and --table go with --fail-each-link")
    if asked.table and asked.json or asked.begin and asked.scheduled:
        words.error("--table and --json, and --from and --scheduled, are asked one at a time")
    if asked.becomes and (asked.back or asked.write):
        words.error("--back and --write are of a failure")
    if asked.then and not (asked.fail or asked.crash):
        words.error("--then goes with --fail or --crash")
    program, text, network, section, rest = network_asked(asked, asked.network)
    if not network.origins:
        raise Refusal(f"{asked.network}: no origin, so no routes")
    if asked.scheduled and section != "schedule":
        raise Refusal(f"{asked.network}: no schedule")
    if asked.scheduled:
        check_all_up(program, network, text, asked.network)
    if asked.becomes:
        return becomes(program, network, scheduled_of(program, network, rest, asked), asked)
    failures = failures_of(network, asked)
    if asked.crash or asked.silent:
        warn_of_restarts(network)
    return answer(program, network, scheduled_of(program, network, rest, asked), failures, asked)


def scheduled_of(program, network, rest, asked):
    """The orders in which it begins, where some are asked for."""
    return rest if asked.scheduled else begun_in(program, network, asked.begin) if asked.begin else None


def warn_of_restarts(network):
    """Says where routes are kept while a router restarts: here they are lost at once."""
    if network.keeping:
        print(f"whatif: warning: {numbers_text(network, network.keeping)}: graceful-restart: routes are kept while a "
              "router restarts, 120 seconds by itself; here they are lost at once", file=sys.stderr)


def begun_in(program, network, names):
    """The orders that lead to the routes of files."""
    wanted = {}
    for name in names:
        wanted.update(read_report(read_text(name), name))
    for router, prefix in wanted:
        if router not in network.peers or prefix not in network.origins:
            raise Refusal(f"a route of another network: router {router}, prefix {prefix}")
    if not wanted:
        raise Refusal(f"{names[0]}: no routes")
    return start_in(program, network, wanted)


def becomes(program, network, scheduled, asked):
    """Plays up to rest, says what becomes of it in another network, and answers the status."""
    other = read_network(program, read_text(asked.becomes), asked.becomes)[0]
    check_alike(network, other, asked.becomes)
    player = Player(program, network, scheduled, asked.orders)
    player.before = player.states([])[0]
    before = Outcome(player, asked.json).see("before", player.before, player.before, BEFORE)
    rests = player.before.stage.rest is not None
    changes = [Change(program, other, prefix, player.before.routes, asked.orders) for prefix in other.origins if rests]
    status = 3 if not rests or any(change.lost or change.restless for change in changes) else \
        5 if any(len(change.ends) > 1 for change in changes) else 0
    if asked.json:
        print(json.dumps({"network": asked.network, "becomes": asked.becomes, "status": status,
                          "before": state_object(player.before, before),
                          "prefixes": [change.object() for change in changes]}, indent=1))
    elif not rests:
        print("it does not rest in the order of `rounds` before it becomes another, so nothing is compared")
    else:
        print(f"becomes {asked.becomes}")
        for change in changes:
            print("\n".join(change.lines()))
    if not all(change.is_confirmed for change in changes):
        raise Refusal("the program does not call stable where it rests")
    return status


def answer(program, network, scheduled, failures, asked):
    """Plays, prints, and answers the status."""
    player = Player(program, network, scheduled, asked.orders)
    if asked.then:
        player.then = list(dict.fromkeys(read_link(network, word) for word in asked.then))
    if asked.write:
        stages = player.failing_stages(failures[0], asked.back)
        sys.stdout.write(network.remarks + player.text([stage for stage, _ in stages]))
        return 0
    player.before = player.states([])[0]
    outcome, counts = Outcome(player, asked.json or asked.table), asked.fail_each_link
    before = outcome.see("before", player.before, player.before, BEFORE)
    rests = player.before.stage.rest is not None
    staged = [player.failing_stages(failure, asked.back) for failure in failures] if rests else []
    for failure, stages, states in zip(failures, staged, jobs.in_order(player.states, staged, asked.jobs, "failures")):
        outcome.see_failure(failure, stages, states, counts)
    status = 3 if outcome.losing or outcome.moving or not rests else 4 if outcome.other else 5 * bool(outcome.several)
    if asked.json:
        found = {"network": asked.network, "bound": player.bound, "before": state_object(player.before, before),
                 "failures": outcome.objects, "status": status}
        print(json.dumps(found, indent=1))
    elif not rests:
        print("it does not rest in the order of `rounds` before anything fails, so nothing is compared")
    elif len(failures) > 1:
        if asked.table:
            print_table(outcome)
        print_sum(outcome, failures, asked.back, counts)
    if outcome.unconfirmed:
        raise Refusal("the program does not call stable where it rests")
    return status
