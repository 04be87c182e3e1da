#!/usr/bin/env python3
"""Times `bgpnet check` on a text of about 1 MB: the least processor time of some runs, in seconds."""
import pathlib, resource, subprocess, sys

here = pathlib.Path(__file__).resolve().parent
program = here.parent / "crates/bgpnet/out/bgpnet"
runs = int(sys.argv[1]) if len(sys.argv) > 1 else 9

def used():
    times = resource.getrusage(resource.RUSAGE_CHILDREN)
    return times.ru_utime + times.ru_stime

text = subprocess.run([sys.executable, here / "make_assignment.py"], capture_output=True, check=True).stdout
least = None
for _ in range(runs):
    before = used()
    done = subprocess.run([program, "check"], input=text, capture_output=True)
    if (done.returncode, done.stdout) != (0, b"stable\n"):
        sys.exit(f"status {done.returncode}: {done.stdout[:200]!r}")
    took = used() - before
    least = took if least is None else min(least, took)
print(f"{len(text)} octets: {least:.3f} s of processor time, the least of {runs} runs")
