"""Says what routers do by their configurations, as a network that the program plays.

    tools/config examples/config/wedgie/*.conf | bgpnet play
    tools/config --explain 2 10.1.0.0/16 examples/config/wedgie/*.conf     its paths, and by what line
    tools/config --check OLD/*.conf -- NEW/*.conf                            what a change does
    tools/config FILE .. | bgpnet play > routes; tools/config --verify routes FILE ..
    tools/config --explain hub 10.9.0.0/16 examples/config/hot-potato/*.conf     the steps that decide inside an AS

Each FILE is the configuration of a router, in the language of FRR 8.4, as `show running-config` prints it, or in that
of BIRD 2.0; what the file holds says which, or --bird FILE .. does. Every way that a route can take is followed through
the policies, which gives each router its permitted paths; the decision process puts them in order. tools/CONFIG.md says
what is read, what is refused, and what is passed over. What can't be said as ranked paths is refused by file and line.
Warnings go to the standard error.

Where every AS has one router, the routers have its numbers. Of paths that are alike up to the router id FRR keeps the
one that it selected first. Such ties are told, and stand by router id; --ties plays their other orders.

An AS may have several routers of FRR, which tell each other by iBGP. The routers then are numbered in the order of
their hostnames. How far a next hop is the configurations say, or --igp FILE; --igp-down U-V leaves a link of the IGP
out, and tools/whatif --becomes says what that changes. Ties are refused, unless --ties asks for their orders.

Nothing of this is proved: tools/beside compares it with real routers."""
import sys

from bgpnet.configs.files import read_set
from bgpnet.configs.igp import Edges
from bgpnet.configs.outside import Outside
from bgpnet.configs.places import Reasons
from bgpnet.configs.ranks import Ranks, network_lines, schedule_lines
from bgpnet.configs.syntax import number_of, prefix_of
from bgpnet.configs.telling import Change, Names, all_tie_ends, explain, read_routes, verify
from bgpnet.network import GREATEST_ASN, MOST_PATHS, Prefix, lines_text
from bgpnet.program import Program, Refusal, Words, count, read_text, tool


def read_files(names, asked, known=()):
    """The routers of files, and their sessions, with what else is asked for: those of ASes outside, and the IGP. Some
    files are said to be of BIRD. Where an AS has several routers those of some names have numbers, too. Ends are
    verified without a look at all ways."""
    doubles = {name for name in names if names.count(name) > 1}
    if doubles:
        raise Refusal(f"{min(doubles)}: the file stands twice")
    edges = Edges(read_text(asked.igp), asked.igp) if asked.igp else None
    return read_set({name: read_text(name) for name in names}, asked.bird,
                    [Outside(asn_word(asn), name) for asn, name in asked.external], edges, asked.igp_down, known,
                    () if asked.verify is not None else chosen_prefixes(asked))


def chosen_prefixes(asked):
    """The prefixes whose paths are asked for, or None for all."""
    return [Prefix.named(asked.explain[1])] if asked.explain else asked.prefix or None


def read_both(names, others, asked):
    """Two sets of files; where an AS of one of them has several routers a router has one number in both."""
    reasons = Reasons(files=names)
    old, new = (reasons.attempt(read_files, files, asked) for files in (names, others))
    reasons.refuse()
    if old.hosts() == new.hosts():
        return old, new
    if not old.hosts():
        old = read_files(names, asked, new.hosts())
    elif not new.hosts():
        new = read_files(others, asked, old.hosts())
    return read_files(names, asked, new.hosts()), read_files(others, asked, old.hosts())


def asn_word(word):
    number = number_of(word)
    if number is None or not 1 <= number <= GREATEST_ASN:
        raise Refusal(f"'{word}' is no AS number")
    return number


def warn(notes):
    for place, said in notes:
        print(f"config: warning: {place}: {said}", file=sys.stderr)


def asked_words():
    """The words of the command line, and those behind `--`, files of the second set."""
    words = Words(__doc__)
    words.add_argument("files", metavar="FILE", nargs="*", help="the configuration of a router")
    words.add_argument("--bird", metavar="FILE", nargs="+", action="extend", default=[],
                       help="the configuration of a router of BIRD, whatever it holds")
    words.add_argument("--network", action="store_true", help="write no schedule, as for `bgpnet run` and tools/settle")
    words.add_argument("--prefix", nargs="+", metavar="P", default=[], help="take some prefixes alone")
    words.add_argument("--best", type=count(1, MOST_PATHS), metavar="N",
                       help="leave out what can't last where a router has more than N paths, then all but the best N")
    words.add_argument("--explain", nargs=2, metavar=("ROUTER", "PREFIX"),
                       help="the paths of a router, and by what line")
    words.add_argument("--verify", metavar="ROUTES",
                       help="whether the end that play printed is one by the configurations")
    words.add_argument("--external", nargs=2, metavar=("AS", "FILE"), action="append", default=[],
                       help="a neighbor without a configuration, which announces what FILE shows of it: MRT, JSON of "
                       "FRR, or lines PREFIX AS AS ..")
    words.add_argument("--igp", metavar="FILE", help="the edges of the IGP where an AS has several routers, a line "
                       "ROUTER ROUTER COST for each")
    words.add_argument("--igp-down", metavar="U-V", action="append", default=[],
                       help="without this link of the IGP, as it is when it fails")
    words.add_argument("--ties", action="store_true", help="play the orders of ties, and list the ends")
    words.add_argument("--check", action="store_true",
                       help="what is other in the files behind -- than in those before it")
    at = sys.argv.index("--") if "--" in sys.argv else len(sys.argv)
    asked, behind = words.parse_args(sys.argv[1:at]), sys.argv[at + 1:]
    asked.files += [word for word in asked.prefix if prefix_of(word) is None]
    asked.prefix = [Prefix.named(word) for word in asked.prefix if prefix_of(word) is not None]
    asked.files += asked.bird
    if bool(behind) != asked.check:
        words.error("--check takes files, then --, then files")
    if sum(map(bool, (asked.explain, asked.verify, asked.ties, asked.check))) > 1:
        words.error("--explain, --verify, --ties and --check are asked one at a time")
    if not asked.files:
        words.error("no files")
    return asked, behind


@tool
def main():
    asked, behind = asked_words()
    routers, changed = read_both(asked.files, behind, asked) if asked.check else (read_files(asked.files, asked), None)
    warn([*routers.notes(), *routers.silent()])
    if asked.check:
        warn([*changed.notes(), *changed.silent()])
        lines = Change(Program(asked.program), routers, changed, asked.best, asked.prefix).lines()
        print("\n".join(lines or ["nothing changes"]))
        return 0
    if asked.verify is not None:
        routes = read_routes(routers, read_text(asked.verify), asked.verify)
        judged = list(verify(routers, routes, asked.prefix))
        number = sum(not is_best for is_best, _ in judged)
        last = f"unstable: {number} of {len(judged)}" if number else "stable"
        print("\n".join([*(line for _, line in judged), last]))
        return 1 if number else 0
    chosen = chosen_prefixes(asked)
    ranks = Ranks(routers, chosen, bool(asked.explain), bool(asked.explain or asked.ties))
    if asked.explain:
        print("\n".join(explain(ranks, asked.explain[0], chosen[0], Names(asked.files))))
        return 0
    warn(ranks.tie_notes())
    lines, said = network_lines(ranks, asked.best)
    for line in said:
        print(f"config: {line}", file=sys.stderr)
    if asked.ties:
        print("\n".join(all_tie_ends(Program(asked.program), ranks, asked.best)))
        return 0
    print(lines_text(lines if asked.network else lines + schedule_lines(lines)), end="")
    return 0
