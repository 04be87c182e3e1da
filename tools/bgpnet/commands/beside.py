"""Compares what tools/config says of configurations with what real routers do by them: `bgpd` of FRR 8.4, `bird` 2.0.

    tools/beside examples/config/wedgie
    tools/beside --random 20 --seed 1              twenty random sets, the first of seed 1
    tools/beside --random 20 --of mixed            the same, sets of routers of both kinds alone
    tools/beside --random 20 --of ibgp             the same, sets of which an AS has several routers of FRR
    tools/beside --write lab --seed 7              writes the random set of seed 7 into the folder lab
    tools/beside --fail-each-link examples/config/relations     what tools/whatif says of failures, beside real routers

Each DIR has a file *.conf for each router, in the language of FRR or of BIRD. The routers run in a network namespace of
their own, which takes root (or `unshare -r` round it), until they are quiet; where one is of BIRD each has a namespace,
and each session a pair of interfaces. Then each router's routes are compared, with their attributes, with what its
peers' best ones are by the policies; its best one has to be a best one by the decision process; and what `bgpnet play`
ends in has to be the same, or another stable end. A set that does not become quiet has to be one that has no stable
end, or several, or a dispute wheel.

Where an AS has several routers each has a namespace with zebra, staticd, and ospfd or isisd; a subnet joins the
interfaces that are on it. Next hops, metrics of the IGP, ORIGINATOR_ID and CLUSTER_LIST are compared too. A file
igp.txt of the folder has the edges of the IGP: then no IGP runs, and the routers get routes with their metrics by hand.
With --fail-each-igp-link the interfaces of each link of the IGP go down by themselves, and the routes are compared with
those of the set without it (tools/config --igp-down).

With --fail-each-link each session is shut down by itself at both ends, and is brought back before the next; behind each
of these the routes are compared with those of `tools/whatif --fail-each-link --back`. Another end has to be a stable
one of the network as it is then. The answers are sure where each router of FRR has `bgp bestpath compare-routerid`:
without it FRR may stay with the path that it has.

Where a software is not there it prints `skipped`, and the status is 1: the tree of its packages, unpacked by `dpkg -x`,
is what --frr and --bird or the variables FRR and BIRD name, else it is /."""
import os
import pathlib
import subprocess
import sys
import tempfile

from bgpnet import jobs
from bgpnet.configs import lab
from bgpnet.configs.as_failures import IgpFailures
from bgpnet.configs.as_lab import AsLab, routes_by_hand
from bgpnet.configs.as_random import EDGES
from bgpnet.configs.as_sets import AsSet
from bgpnet.configs.comparison import Comparison, Ends, names_of
from bgpnet.configs.failures import Failures
from bgpnet.configs.files import is_of_bird, read_set
from bgpnet.configs.igp import Edges
from bgpnet.configs.ranks import Ranks
from bgpnet.configs.some_sets import INSIDE as INSIDE_AN_AS
from bgpnet.configs.some_sets import KINDS, make
from bgpnet.program import Program, Refusal, Words, count, read_text, tool

INSIDE = "BESIDE_INSIDE"


def lab_of(trees, texts, folder):
    """The routers of a set, and the lab that runs them."""
    texts = dict(texts)
    edges = texts.pop(EDGES, None)
    edges = edges and Edges(edges, EDGES)
    routers = read_set(texts, edges=edges)
    by_number = {number: texts[router.name] for number, router in routers.routers.items() if not router.is_origins}
    if isinstance(routers, AsSet):
        return routers, AsLab(trees["FRR"], routers, by_number, folder, edges and routes_by_hand(routers, edges))
    return routers, lab.Lab(trees, routers, by_number, folder)


def compare_set(trees, program, texts, folder, kept=None):
    """The verdict of a set in a word, what is to be said of it, and how many routes were compared. Writes what the
    routers ended in into a file, if there is to be one."""
    routers, running = lab_of(trees, texts, folder)
    name, ranks = names_of(routers), Ranks(routers, with_ties=True)
    ends = Ends(program, ranks)
    try:
        running.start()
        state = running.wait()
        tables = running.tables(routers.origins()) if state != "down" else {}
    finally:
        running.stop()
    wrong = [f"{routers.routers[asn].name}:{number}: {of} refuses '{line}'" for of, asn, number, line in
             running.refusals()]
    if state == "down":
        return "wrong", wrong + ["the sessions did not come up"], 0
    if state == "changing":
        if not ends.may_change():
            wrong.append(f"{name} changes for ever, and here is no reason for it")
        return ("wrong" if wrong else "changing"), wrong or ["changes for ever" + " (no end)" * ends.must_change()], 0
    if ends.must_change():
        wrong.append(f"{name} became quiet, and here is no stable end")
    found = Comparison(ranks, tables)
    if kept:
        lines = [f"route {asn} {prefix} {'-'.join(map(str, path)) or 'none'}\n"
                 for prefix, chosen in found.chosen.items() for asn, path in chosen.items()]
        pathlib.Path(kept).write_text("".join(lines))
    verdicts = {prefix: ends.judge(prefix, found.chosen[prefix]) for prefix in ranks.origins}
    wrong += found.wrong
    wrong += [f"{prefix}: {name}'s end is no stable end" for prefix, said in verdicts.items() if said == "wrong"]
    kinds = [kind for kind in ("another", "unsettled", "tie", "unknown") if kind in verdicts.values()]
    return "wrong" if wrong else "agrees", wrong or kinds, found.routes


def fail_set(trees, program, texts, folder):
    """The verdict of a set of which each link fails, in a word, what is to be said, and how much was compared."""
    routers, running = lab_of(trees, texts, folder)
    return run_failures(Failures(program, Ranks(routers), running), running)


def run_failures(found, running):
    """The verdict of failures that real routers go through, what is to be said, and how much was compared."""
    try:
        running.start()
        found.run()
    finally:
        running.stop()
    return "wrong" if found.wrong else "agrees", found.wrong + found.said, found


def fail_igp(trees, texts, folder):
    """The verdict of a set of which each link of the IGP fails, what is to be said, and how much was compared."""
    routers, running = lab_of(trees, texts, folder)
    if not isinstance(routers, AsSet) or running.metrics is not None:
        raise Refusal("no IGP runs in this set: each AS has one router, or a file has its edges")
    return run_failures(IgpFailures(texts, routers, running), running)


def texts_of(asked):
    """The files of the set that is asked for."""
    if not asked.folder:
        return make(asked.seed, asked.of)
    paths = sorted(pathlib.Path(asked.folder).glob("*.conf"))
    if not paths:
        raise Refusal(f"{asked.folder}: no files *.conf")
    found = {str(path): read_text(str(path)) for path in paths}
    edges = os.path.join(asked.folder, EDGES)
    return {**found, EDGES: read_text(edges)} if os.path.exists(edges) else found


def inside(asked, program):
    """Runs one set, in a namespace of its own."""
    texts, trees = texts_of(asked), trees_of(asked)
    with tempfile.TemporaryDirectory() as folder:
        if asked.fail_each_link or asked.fail_each_igp_link:
            verdict, said, found = fail_set(trees, program, texts, folder) if asked.fail_each_link else \
                fail_igp(trees, texts, folder)
            counted = f"{len(found.links)} links {found.states} states"
        else:
            verdict, said, routes = compare_set(trees, program, texts, folder, asked.keep)
            counted = f"{routes} routes"
    print(f"{verdict} {len(texts)} routers {counted}")
    for line in said:
        print(f"  {line}")
    return 1 if verdict == "wrong" else 0


def one(*words):
    """This tool once more, by its words and some that stand in place of these, for a set in a namespace of its own."""
    command = ["unshare", "--net", "--mount", sys.executable, os.path.abspath(sys.argv[0]), *sys.argv[1:], *words]
    return subprocess.Popen(command, env=dict(os.environ, **{INSIDE: "1"}), stdout=subprocess.PIPE,
                            stderr=subprocess.STDOUT, text=True)


def verdict_of(said, status):
    """The verdict of a set in a word, by the first line that is said of it."""
    verdict = said.split()[0] if status in (0, 1) and said else "failed"
    if verdict in ("agrees", "changing", "wrong"):
        return verdict
    return "refused" if verdict == f"{os.path.basename(sys.argv[0])}:" else "failed"


def random_sets(asked):
    """Runs random sets, some at once, tells of them in the order of their seeds, and counts their verdicts."""
    def run(seed):
        keep = ["--keep", os.path.join(asked.keep, str(seed))] if asked.keep else []
        process = one("--seed", str(seed), *keep)
        return process.communicate()[0].splitlines() or ["nothing"], process.returncode

    counts, routes, seeds = {}, 0, range(asked.seed, asked.seed + asked.random)
    for seed, (said, status) in zip(seeds, jobs.in_order(run, seeds, asked.jobs, "sets")):
        verdict = verdict_of(said[0], status)
        counts[verdict] = counts.get(verdict, 0) + 1
        routes += int(said[0].split()[3]) if verdict in ("agrees", "wrong") else 0
        print(f"seed {seed}: " + "\n  ".join(line.strip() for line in said), flush=True)
    said = ", ".join(f"{number} {kind}" for kind, number in sorted(counts.items()))
    print(f"{asked.random} sets from seed {asked.seed}: {said}; {routes} routes compared")
    return 1 if {"wrong", "failed"} & set(counts) else 0


def trees_of(asked):
    return {"FRR": asked.frr, "BIRD": asked.bird}


def languages_of(asked):
    """The languages of the sets that are asked for, as far as that is known."""
    if asked.folder and asked.of == "any":
        return {"BIRD" if is_of_bird(text) else "FRR" for text in texts_of(asked).values()}
    return {"frr": {"FRR"}, INSIDE_AN_AS: {"FRR"}, "bird": {"BIRD"}}.get(asked.of, {"FRR", "BIRD"})


def missing(asked):
    """Which program is not there that is needed, and below what, or None."""
    for language, place in (("FRR", "bgpd at usr/lib/frr"), ("BIRD", "bird at usr/sbin")):
        if language in languages_of(asked) and lab.DAEMONS[language].program(trees_of(asked)[language]) is None:
            return f"skipped: there is no {place} below {trees_of(asked)[language]}"
    return None


def asked_words(text, kinds):
    words = Words(text)
    words.add_argument("folder", metavar="DIR", nargs="?", help="a folder with a file *.conf for each router")
    words.add_argument("--random", type=count(1, 100_000), metavar="N", help="run N random sets")
    words.add_argument("--seed", type=count(0, 2**32), default=1, metavar="N",
                       help="the seed of the first random set (1)")
    words.add_argument("--write", metavar="DIR", help="write the random set of the seed into a folder, and run nothing")
    words.add_argument("--keep", metavar="FILE",
                       help="write the routers' routes as `play` writes routes; a folder with --random")
    jobs.add_word(words, "sets run")
    words.add_argument("--fail-each-link", action="store_true",
                       help="shut each session down by itself, and compare with tools/whatif")
    words.add_argument("--fail-each-igp-link", action="store_true",
                       help="let each link of the IGP fail, and compare with the set without it")
    words.add_argument("--frr", default=os.environ.get("FRR", "/"), metavar="TREE",
                       help="where FRR's packages are unpacked")
    if len(kinds) > 1:
        words.add_argument("--bird", default=os.environ.get("BIRD", "/"), metavar="TREE",
                           help="where BIRD's packages are unpacked")
        words.add_argument("--of", choices=kinds, default=kinds[-1], help="which random sets are made (any)")
    asked = words.parse_args()
    if len(kinds) == 1:
        asked.of, asked.bird = kinds[0], "/"
    if (asked.fail_each_link or asked.fail_each_igp_link) and (asked.random or asked.keep):
        words.error("--fail-each-link and --fail-each-igp-link are of one set")
    return asked


def compare(text, kinds):
    """Does what the words of a command line ask for, of random sets of these kinds; `text` is the help."""
    asked = asked_words(text, kinds)
    if asked.write:
        os.makedirs(asked.write, exist_ok=True)
        for name, made in make(asked.seed, asked.of).items():
            pathlib.Path(asked.write, name).write_bytes(made.encode("latin-1"))
        return 0
    if lacks := missing(asked):
        print(f"{lacks}: nothing is compared")
        return 1
    program = Program(asked.program)
    if os.environ.get(INSIDE):
        return inside(asked, program)
    if asked.random and asked.keep:
        os.makedirs(asked.keep, exist_ok=True)
    if asked.random:
        return random_sets(asked)
    process = one()
    sys.stdout.write(process.communicate()[0])
    return process.returncode


@tool
def main():
    return compare(__doc__, (*KINDS, INSIDE_AN_AS, "any"))
