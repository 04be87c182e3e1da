"""Pictures of a network: its routes, what stands at the end of a schedule, and what stands behind each of its steps."""
from __future__ import annotations

from dataclasses import dataclass, field, replace
from typing import Collection, Iterable, Iterator, List, Mapping, Sequence

from bgpnet import drawing, layout
from bgpnet.network import Ends, Network, Path, Prefix, parts_of, words_of
from bgpnet.playing import State, chosen_prefix, judged_captions, verdict_text
from bgpnet.program import Program, Refusal
from bgpnet.tracing import COMMANDS, Moment, events_of, orders_of

# The commands that begin a step: a snapshot changes nothing.
BEGINNING = tuple(word for word in COMMANDS if word != "snapshot")
MOST_PICTURES, MOST_STEPS = 60, 10**6
# How a comment begins that is the title of the next step.
TITLE = "# title:"


def svg_of(network: Network, prefix: Prefix | None, drawns: Sequence[layout.Drawn], columns: int = 1,
           slide: bool = False) -> str:
    """The text of a file with pictures of a network side by side; the origin of the prefix stands below."""
    origin = network.routers[0] if prefix is None else network.origins[prefix]
    placed = layout.Layout(network, layout.places(network, origin), drawns)
    return drawing.svg([drawing.Picture(placed, drawn) for drawn in drawns], columns, slide)


def verdict_captions(network: Network, lines: Iterable[str]) -> list[layout.Caption]:
    """Captions of lines that say how snapshots came out."""
    return [(verdict_text(network, line), line.endswith(" settled")) for line in lines]


def drawn_routes(program: Program, network: Network, prefix: Prefix | None,
                 routes: Mapping[tuple[int, Prefix], Path], state: State | None = None, title: str = "",
                 rules: bool = True) -> layout.Drawn:
    """What is drawn of the routes of a prefix, with what `check` says of them, and with what is down and on its way in
    a state."""
    broken: Collection[Ends] = state.broken if state else ()
    waiting = state.waiting[prefix] if state and prefix else 0
    chosen = {router: path for (router, own), path in routes.items() if own == prefix}
    captions = verdict_captions(network, state.snapshots[-1:]) if state else []
    unstable, said = judged_captions(program, network, prefix, chosen, broken, waiting) if prefix else ([], [])
    return layout.Drawn(prefix, chosen, unstable, broken, (), title, captions + said, state.silent if state else {},
                        rules)


# ---- films

@dataclass
class Step:
    """The orders of a step, the number of its last line, and the title that a comment gives it."""

    title: str
    orders: List[str] = field(default_factory=list)
    last: int = 0


@dataclass(frozen=True)
class Shown:
    """What a film shows: the prefix, without one the first of the network; the steps, by their numbers, of which each
    is one order where `each` is so; whether rules and routes stand beside the routers."""

    prefix: str | None = None
    each: bool = False
    first: int = 1
    last: int = MOST_STEPS
    rules: bool = True
    columns: int = 3
    slide: bool = False


def steps_of(lines: Iterable[str], first: int, each: bool) -> list[Step]:
    """The steps of the lines of a schedule, of which the first has this number."""
    steps: list[Step] = []
    title, in_commands = "", False
    for number, line in enumerate(lines, first):
        words = words_of(line)
        if line.startswith(TITLE):
            title = line[len(TITLE):].strip().encode("latin-1").decode("utf-8", "replace")
        elif words:
            is_command = words[0] in BEGINNING
            if each or not steps or title or is_command and not in_commands:
                steps.append(Step(title))
                title = ""
            in_commands = is_command
            steps[-1].orders.append(line)
            steps[-1].last = number
    return steps


def title_of(network: Network, step: Step) -> str:
    """The title of a step; without one its commands, many starts as their number; without commands its first order."""
    if step.title:
        return step.title
    orders = [words_of(order) for order in step.orders]
    commands = [order for order in orders if order[0] in BEGINNING] or orders[:1]
    if len(network.origins) == 1:
        commands = [order[:2] if order[0] in ("originate", "withdraw") else order for order in commands]
    begun = [order for order in commands if order[0] == "start"]
    if len(begun) > 2:
        commands = [[str(len(begun)), "starts"]] + [order for order in commands if order[0] != "start"]
    return ", ".join(map(" ".join, commands))


def moments(network: Network, trace: Sequence[str], text: str, steps: Iterable[Step]) -> Iterator[Moment]:
    """What stands behind each step."""
    moment, events = Moment(network), events_of(trace, orders_of(text))
    at = 0
    for step in steps:
        while at < len(events) and events[at].line <= step.last:
            moment.pass_event(events[at])
            at += 1
        yield moment


def drawn_steps(program: Program, network: Network, prefix: Prefix, played: Sequence[str], steps: Sequence[Step],
                moments: Iterable[Moment], shown: Shown) -> Iterator[layout.Drawn]:
    """What is drawn of each step that is shown, of a schedule of which `play` said this."""
    verdicts = {int(line.split()[1]): line for line in played if line.startswith("snapshot ")}
    before: dict[int, Path] | None = None
    said_before = 0
    for at, (step, moment) in enumerate(zip(steps, moments), 1):
        routes = {router: moment.kept[router, prefix] for router in network.routers}
        decided, said_before = moment.decided[said_before:], len(moment.decided)
        changed = [router for router in network.routers if before and routes[router] != before[router]]
        before = routes
        if not shown.first <= at <= shown.last:
            continue
        captions = verdict_captions(network, [verdicts[snapshot] for snapshot in sorted(decided)])
        waiting = moment.waiting[prefix]
        unstable, said = judged_captions(program, network, prefix, routes, moment.broken, waiting)
        captions += said if waiting or not any(is_good for _, is_good in captions) else []
        title = f"{at}. {title_of(network, step)}"
        yield layout.Drawn(prefix, routes, unstable, moment.broken, changed, title, captions, moment.silent,
                           shown.rules)


def film_of(program: Program, network: Network, text: str, name: str, shown: Shown = Shown()) -> str:
    """The film of a text with a schedule, as the text of a file; `network` is that of the text."""
    above, section, rest = parts_of(text)
    steps = steps_of(rest, len(above) + 1, shown.each) if section == "schedule" else []
    if not steps:
        raise Refusal(f"{name}: no schedule")
    if not network.origins:
        raise Refusal(f"{name}: no origin, so no routes")
    last = min(shown.last, len(steps))
    if shown.first > last:
        raise Refusal(f"{name}: {len(steps)} steps, and none of these is asked for")
    if last - shown.first >= MOST_PICTURES:
        raise Refusal(f"{last - shown.first + 1} steps, and at most {MOST_PICTURES} are drawn: --from and --to")
    played, trace = program.answer(["play"], text, name), program.trace(text, name)
    prefix = chosen_prefix(network, shown.prefix)
    assert prefix is not None, "a network with origins has a first prefix"
    behind = moments(network, trace, text, steps)
    drawns = list(drawn_steps(program, network, prefix, played, steps, behind, replace(shown, last=last)))
    return svg_of(network, prefix, drawns, shown.columns, shown.slide)
