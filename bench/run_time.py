#!/usr/bin/env python3
"""Times `bgpnet run` on a network beside `bgpnet play` of the same network.

    python3 bench/run_time.py NETWORK [TURNS [SNAPSHOTS [ROUNDS [RUNS]]]]

NETWORK is an input of `bgpnet run`; where it has a line `schedule`, what stands from there on is left
out. It is run with TURNS chores a router (20000) and SNAPSHOTS snapshots
(20), on 1, 2 and 4 processors, by turns, each RUNS times (5). `play` starts every session and originates
every prefix, then plays ROUNDS rounds (20000) with a snapshot behind them, on one processor. Of each the
least, the median and the greatest wall time are printed, what share of that of `play` the median is, the
median of the processor time, and how many of the runs settled."""
import os, sys, tempfile, time
from statistics import median

here = os.path.dirname(os.path.abspath(__file__))
program = os.path.join(os.path.dirname(here), "crates/bgpnet/out/bgpnet")

def timed(words, text, out, processors):
    """The wall time in seconds and the processor time."""
    began = time.monotonic()
    pid = os.fork()
    if pid == 0:
        os.sched_setaffinity(0, set(processors))
        for number, path, mode in ((0, text, os.O_RDONLY), (1, out, os.O_WRONLY | os.O_CREAT | os.O_TRUNC)):
            os.dup2(os.open(path, mode), number)
        os.execv(program, [program] + words)
    _, status, used = os.wait4(pid, 0)
    if status != 0:
        sys.exit(f"{' '.join(words)}: status {os.waitstatus_to_exitcode(status)}: {open(out).read()}")
    return time.monotonic() - began, used.ru_utime + used.ru_stime

def schedule_of(network, rounds):
    """Every session is started from both sides, every prefix originated, and then a snapshot taken."""
    lines, least = ["schedule"], None
    for line in network.splitlines():
        words = line.split()
        if words[:1] == ["router"]:
            least = min(least or int(words[1]), int(words[1]))
        elif words[:1] == ["link"]:
            lines += [f"start {words[1]} {words[2]}", f"start {words[2]} {words[1]}"]
        elif words[:1] == ["origin"]:
            lines.append(f"originate {words[1]} {words[2]}")
    lines += [f"rounds {rounds}", f"snapshot {least} 1", f"rounds {rounds}"]
    return "\n".join(lines) + "\n"

def show(name, times, settled, played):
    walls, used = [wall for wall, _ in times], [processor for _, processor in times]
    middle = median(walls)
    print(f"{name:10} {min(walls):6.3f} s to {max(walls):6.3f} s wall, median {middle:6.3f} s, {middle / played:5.2f} of play,"
          f" {median(used):6.3f} s processor, {settled} of {len(times)} settled")

def main():
    if len(sys.argv) < 2:
        sys.exit(__doc__)
    given = [int(word) for word in sys.argv[2:]]
    turns, snapshots, rounds, runs = (given + [20000, 20, 20000, 5][len(given):])[:4]
    network = open(sys.argv[1]).read().split("schedule\n")[0]
    all_processors = sorted(os.sched_getaffinity(0))
    with tempfile.TemporaryDirectory() as folder:
        text, played, out = (os.path.join(folder, name) for name in ("network", "played", "out"))
        open(text, "w").write(network)
        open(played, "w").write(network.rstrip("\n") + "\n" + schedule_of(network, rounds))
        jobs = [("play on 1", ["play"], played, 1, "snapshot 1 settled\n")]
        for count in (1, 2, 4):
            if count <= len(all_processors):
                words = ["run", "--turns", str(turns), "--snapshots", str(snapshots)]
                jobs.append((f"run on {count}", words, text, count, "route "))
        times, settled = [[] for _ in jobs], [0 for _ in jobs]
        for _ in range(runs):
            for at, (_, words, given, count, begins) in enumerate(jobs):
                times[at].append(timed(words, given, out, all_processors[-count:]))
                settled[at] += open(out).read().startswith(begins)
        for at, job in enumerate(jobs):
            show(job[0], times[at], settled[at], median(wall for wall, _ in times[0]))

main()
