#!/usr/bin/env python3
"""Times `bgpnet play` on the text of a network beside a simulator of the same network in another
language, both pinned to one processor, and prints the share of events a second: how many the program
does for each one of the simulator's.

    python3 bench/play_time.py TEXT SIMULATOR [RUNS]

TEXT is an input of `bgpnet play`. SIMULATOR is a program that reads the same input, prints the same
routes, and says on its standard error how many events it did, behind the word EVENTS. The share is by
the least processor time of RUNS runs each (9), which take turns."""
import os, sys, tempfile

here = os.path.dirname(os.path.abspath(__file__))
program = os.path.join(os.path.dirname(here), "crates/bgpnet/out/bgpnet")

def run(words, text, out, err):
    """The processor time in seconds, and the greatest memory in MB."""
    pid = os.fork()
    if pid == 0:
        os.sched_setaffinity(0, {max(os.sched_getaffinity(0))})
        for number, path, mode in ((0, text, os.O_RDONLY), (1, out, os.O_WRONLY | os.O_CREAT | os.O_TRUNC),
                                   (2, err, os.O_WRONLY | os.O_CREAT | os.O_TRUNC)):
            os.dup2(os.open(path, mode), number)
        os.execv(words[0], words)
    _, status, used = os.wait4(pid, 0)
    if status != 0:
        sys.exit(f"{words[0]}: status {status}")
    return used.ru_utime + used.ru_stime, used.ru_maxrss / 1024

def main():
    if len(sys.argv) < 3:
        sys.exit(__doc__)
    text, simulator = os.path.abspath(sys.argv[1]), os.path.abspath(sys.argv[2])
    runs = int(sys.argv[3]) if len(sys.argv) > 3 else 9
    with tempfile.TemporaryDirectory() as folder:
        ours, theirs, said = (os.path.join(folder, name) for name in ("ours", "theirs", "said"))
        mine = [run([program, "play"], text, ours, said)]
        other = [run([simulator], text, theirs, said)]
        for _ in range(runs - 1):
            mine.append(run([program, "play"], text, ours, said))
            other.append(run([simulator], text, theirs, said))
        if open(ours, "rb").read() != open(theirs, "rb").read():
            sys.exit("the two print different routes")
        words = open(said).read().split()
        events = int(words[words.index("EVENTS") + 1])
    least, beside = min(time for time, _ in mine), min(time for time, _ in other)
    print(f"bgpnet {least:.3f} s, {events / least / 1e6:.2f} million events a second, {max(m for _, m in mine):.0f} MB")
    print(f"simulator {beside:.3f} s, {events / beside / 1e6:.2f} million events a second, {max(m for _, m in other):.0f} MB")
    print(f"share {beside / least:.2f} of {events} events")

main()
