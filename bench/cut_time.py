#!/usr/bin/env python3
"""Times `bgpnet cut 1` beside `bgpnet play` of the same input, both pinned to one processor, and prints of each the least
processor time and the greatest memory of its runs, and the two quotients.

    python3 bench/cut_time.py [ROUNDS [RUNS]]

The network is a ring of four routers that never rests (examples/ring.txt). A snapshot is taken behind forty rounds, and
ROUNDS rounds (256000, of about a million events) follow it. Of each word RUNS runs (5) take turns. `cut` plays the
schedule, and then the events that it did: it is to take at most TIME times the time of `play`, and at most MEMORY times
its memory. The status is 1 where it takes more."""
import os, sys, tempfile

here = os.path.dirname(os.path.abspath(__file__))
top = os.path.dirname(here)
program = os.path.join(top, "crates/bgpnet/out/bgpnet")

TIME, MEMORY = 2.2, 1.75
EARLY = 40

def run(words, text, out):
    """The processor time in seconds, and the greatest memory in MB."""
    pid = os.fork()
    if pid == 0:
        os.sched_setaffinity(0, {max(os.sched_getaffinity(0))})
        for number, path, mode in ((0, text, os.O_RDONLY), (1, out, os.O_WRONLY | os.O_CREAT | os.O_TRUNC)):
            os.dup2(os.open(path, mode), number)
        os.execv(program, [program, *words])
    _, status, used = os.wait4(pid, 0)
    if status != 0:
        sys.exit(f"{' '.join(words)}: status {os.waitstatus_to_exitcode(status)}")
    return used.ru_utime + used.ru_stime, used.ru_maxrss / 1024

def input_of(network, rounds):
    """The network and a schedule: every session is started from both sides, and router 1 originates its prefix."""
    lines = ["schedule"]
    for words in map(str.split, network.splitlines()):
        if words[:1] == ["link"]:
            lines += [f"start {words[1]} {words[2]}", f"start {words[2]} {words[1]}"]
        elif words[:1] == ["origin"]:
            lines.append(f"originate {words[1]} {words[2]}")
    lines += [f"rounds {EARLY}", "snapshot 1 1", f"rounds {rounds}"]
    return network + "\n".join(lines) + "\n"

def main():
    rounds, runs = ([int(word) for word in sys.argv[1:]] + [256000, 5][len(sys.argv) - 1:])[:2]
    network = open(os.path.join(top, "examples/ring.txt")).read().split("assignment\n")[0]
    with tempfile.TemporaryDirectory() as folder:
        text, out = os.path.join(folder, "text"), os.path.join(folder, "out")
        open(text, "w").write(input_of(network, rounds))
        taken = {"play": [], "cut 1": []}
        for _ in range(runs):
            for words, found in taken.items():
                found.append(run(words.split(), text, out))
        first = open(out).readline().split()
    if first[:3] != ["cut", "1", "after"]:
        sys.exit("no cut: " + " ".join(first))
    print(f"{first[5]} events, {first[3]} of them inside the cut")
    least = {words: min(time for time, _ in found) for words, found in taken.items()}
    greatest = {words: max(memory for _, memory in found) for words, found in taken.items()}
    for words in taken:
        print(f"{words:6} {least[words]:8.3f} s {greatest[words]:8.0f} MB")
    time, memory = least["cut 1"] / least["play"], greatest["cut 1"] / greatest["play"]
    print(f"cut takes {time:.2f} times the time (at most {TIME}), {memory:.2f} times the memory (at most {MEMORY})")
    sys.exit(time > TIME or memory > MEMORY)

main()
