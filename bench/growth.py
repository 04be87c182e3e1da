#!/usr/bin/env python3
"""Counts how the cost of `bgpnet play` grows with routers, prefixes and rounds, and that of `bgpnet safe` with routers,
paths and prefixes.

    python3 bench/growth.py [PROGRAM]

PROGRAM is the proved program (crates/bgpnet/out/bgpnet). Plays networks of 4 to 64 routers with 1 to 256 prefixes, from
the start of the first session to rest, and a gadget that never rests for more and more rounds. Prints a line for each:
the events, the instructions by valgrind's callgrind, those of one event, and the greatest memory, of which less than
this script takes, some 11 MB, is not seen. Then `safe` looks for dispute wheels in networks of which each router has a
rule, none has, or one in so many: the instructions, those of a prefix, and the memory. Instructions are the same from
run to run, whatever else the machine does."""
import os, random, re, subprocess, sys, tempfile

TOP = os.path.dirname(os.path.dirname(os.path.abspath(__file__)))
ROUNDS = 5000  # more than any of these networks needs

BAD_GADGET = """router 1 10.0.0.1
router 2 10.0.0.2
router 3 10.0.0.3
router 4 10.0.0.4
link 1 2
link 1 3
link 1 4
link 2 3
link 3 4
link 2 4
origin 1 10.1.0.0/16
rank 2 10.1.0.0/16 2-3-1 2-1
rank 3 10.1.0.0/16 3-4-1 3-1
rank 4 10.1.0.0/16 4-2-1 4-1
schedule
""" + "".join(f"start {u} {v}\nstart {v} {u}\n" for u, v in ((1, 2), (1, 3), (1, 4), (2, 3), (3, 4), (2, 4)))


def links_of(routers, seed):
    """A ring, and as many chords as it has routers, but for those that are there."""
    chosen = random.Random(seed)
    links = {(u, u + 1) for u in range(1, routers)} | {(1, routers)}
    for _ in range(routers):
        one, other = sorted(chosen.sample(range(1, routers + 1), 2))
        links.add((one, other))
    return sorted(links)


def network(routers, prefixes):
    """Every session is started, and the prefixes are originated by the routers in turn."""
    links = links_of(routers, routers)
    origins = [(k % routers + 1, f"10.{k}.0.0/16") for k in range(prefixes)]
    lines = [f"router {u} 10.0.0.{u}" for u in range(1, routers + 1)]
    lines += [f"link {u} {v}" for u, v in links]
    lines += [f"origin {u} {prefix}" for u, prefix in origins]
    lines += ["schedule"] + [f"start {a} {b}" for u, v in links for a, b in ((u, v), (v, u))]
    lines += [f"originate {u} {prefix}" for u, prefix in origins] + [f"rounds {ROUNDS}"]
    return len(links), "\n".join(lines) + "\n"


def ranked(routers, paths, prefixes, every=1, alike=False, seed=7):
    """A network of which each router but the origin has a rule of so many paths, which grow outwards from it at random;
    none has one where there are to be no paths. Or one router in so many has a rule, of paths of at most 4 routers. One
    router says its rule again for every second prefix, unless prefixes one behind the other are to be alike."""
    chosen = random.Random(seed)
    peers = {u: set() for u in range(1, routers + 1)}
    for u in range(2, routers + 1):
        v = chosen.choice([v for v in range(1, u) if len(peers[v]) < 15])
        peers[u].add(v), peers[v].add(u)
    for _ in range(6 * routers):
        u, v = chosen.sample(range(1, routers + 1), 2)
        if len(peers[u]) < 16 and len(peers[v]) < 16:
            peers[u].add(v), peers[v].add(u)
    rows, pool, longest = {u: {} for u in peers}, [(1,)], 16 if every == 1 else 4
    for _ in range(20 * routers * paths):
        rest = chosen.choice(pool[-20:]) if chosen.random() < 0.5 else chosen.choice(pool)
        u = chosen.choice(sorted(peers[rest[0]]))
        if u != 1 and u not in rest and len(rest) < longest and len(rows[u]) < paths and (u, *rest) not in rows[u]:
            rows[u][u, *rest] = None
            pool.append((u, *rest))
    lines = [f"router {u} 10.0.0.{u}" for u in peers] + [f"link {u} {v}" for u in peers for v in sorted(peers[u]) if u < v]
    lines += [f"origin 1 10.{k}.0.0/16" for k in range(prefixes)]
    lines += [" ".join([f"rank {u} 10.0.0.0/8", *("-".join(map(str, path)) for path in rows[u])])
              for u in peers if paths and u != 1 and u % every == 0]
    if paths and not alike:
        lines += [" ".join([f"rank {every * 2} 10.{k}.0.0/16", *("-".join(map(str, path)) for path in rows[every * 2])])
                  for k in range(1, prefixes, 2)]
    return "\n".join(lines) + "\n"


def cost(program, word, name, folder):
    """The instructions of a word for the text of a file, and the memory in MB."""
    words = ["valgrind", "--tool=callgrind", f"--callgrind-out-file={os.path.join(folder, 'callgrind')}", program, word]
    with open(name) as given:
        said = subprocess.run(words, stdin=given, stdout=subprocess.DEVNULL, stderr=subprocess.PIPE, check=True).stderr
    count = int(re.search(r"Collected : (\d+)", said.decode()).group(1))
    child = os.fork()
    if child == 0:
        os.dup2(os.open(name, os.O_RDONLY), 0)
        os.dup2(os.open(os.devnull, os.O_WRONLY), 1)
        os.execv(program, [program, word])
    _, status, used = os.wait4(child, 0)
    if status != 0:
        sys.exit(f"{word}: status {status}")
    return count, used.ru_maxrss / 1024


def measured(program, text, folder):
    """The events, the rounds that did something, the instructions, and the memory in MB."""
    name = os.path.join(folder, "text")
    with open(name, "w") as out:
        out.write(text)
    traced = os.path.join(folder, "trace")
    with open(name) as given, open(traced, "w") as out:
        subprocess.run([program, "trace"], stdin=given, stdout=out, check=True)
    events, rested = -text.count("\n", 0, text.index("schedule\n")) - 1, None
    with open(traced) as lines:  # line by line, since this script's memory is the least that is seen of the program's
        for line in lines:
            events += not line.startswith("#")
            rested = rested or re.search(r"rest behind round (\d+)", line)
    return events, rested and int(rested.group(1)), *cost(program, "play", name, folder)


def main():
    program = os.path.abspath(sys.argv[1] if len(sys.argv) > 1 else os.path.join(TOP, "crates/bgpnet/out/bgpnet"))
    print("| Routers | Links | Prefixes | Rounds | Events | Million instructions | For an event | MB |")
    print("|---|---|---|---|---|---|---|---|")
    with tempfile.TemporaryDirectory() as folder:
        for routers, prefixes in [(n, 16) for n in (4, 8, 16, 32, 64)] + [(64, p) for p in (1, 4, 64, 256)]:
            links, text = network(routers, prefixes)
            events, rested, count, memory = measured(program, text, folder)
            print(f"| {routers} | {links} | {prefixes} | {rested} | {events:,} | {count / 1e6:.1f} |"
                  f" {count / events:,.0f} | {memory:.1f} |", flush=True)
        for rounds in (100, 1000, 10000):
            text = BAD_GADGET + f"originate 1 10.1.0.0/16\nrounds {rounds}\n"
            events, _, count, memory = measured(program, text, folder)
            print(f"| 4 | 6 | 1 | {rounds}, no rest | {events:,} | {count / 1e6:.1f} |"
                  f" {count / events:,.0f} | {memory:.1f} |", flush=True)
        print("\n| Routers | A rule in | Paths a rule | Prefixes | Million instructions | For a prefix | MB |")
        print("|---|---|---|---|---|---|---|")
        for routers, paths, prefixes, every, alike in [(n, 32, 16, 1, False) for n in (8, 16, 32, 64)] \
                + [(64, k, 16, 1, False) for k in (4, 8, 16)] \
                + [(64, 32, 64, 1, False), (64, 32, 64, 1, True), (64, 0, 256, 1, True)] \
                + [(n, 8, 16, 4, False) for n in (8, 16, 32, 64)]:
            name = os.path.join(folder, "text")
            with open(name, "w") as out:
                out.write(ranked(routers, paths, prefixes, every, alike))
            count, memory = cost(program, "safe", name, folder)
            print(f"| {routers} | {every} | {paths} | {prefixes}{', alike' if alike else ''} | {count / 1e6:.1f} |"
                  f" {count / prefixes:,.0f} | {memory:.1f} |", flush=True)


main()
