#!/usr/bin/env python3
"""Counts the instructions of one call of a crate, by valgrind's callgrind, in one checkout or in several beside each other.

    bench/calls_count.py [CHECKOUT ..]

Makes a repository of the crates of each checkout (this one) and bench/calls in a temporary folder, proves and builds the
program there, and runs it twice for each row, with two numbers of calls: what the greater number takes more is divided by
the calls that it has more. A row that says "less" leaves out what the second kind of call takes. Prints a line for each
row, a column for each checkout."""
import os, re, subprocess, sys, tempfile

from beside import TOP, repository

NEEDED = [
    "bgp_values", "marker_lanes", "prefix_lanes", "ranked_policy", "bgp_codec", "rib_tables", "bgp_framing",
    "link_epoch", "session_fsm", "run_model", "outbox", "snap_marker", "snap_collector", "stable_paths",
    "router_model", "router_side", "router_core",
]
USES = ("bgp_codec bgp_framing bgp_values outbox prefix_lanes ranked_policy rib_tables router_core router_model"
        " stable_paths anyhow")
# What is counted, the kind of call, the kind that is left out, and the calls of the shorter and of the longer run.
ROWS = [
    ("decode, no attribute", "decode-none", None, 1000, 5000),
    ("decode, one unknown attribute", "decode-one", None, 1000, 5000),
    ("decode, two, falling", "decode-two", None, 1000, 5000),
    ("decode, 248, rising", "decode-rising", None, 100, 500),
    ("decode, 248, falling", "decode-falling", None, 100, 500),
    ("decode, 248, mixed", "decode-mixed", None, 100, 500),
    ("Assignment::path, the first of 64", "path-first", None, 1000, 5000),
    ("Assignment::path, the last of 64", "path-last", None, 1000, 5000),
    ("64 times Assignment::set, rising", "set-rising", None, 100, 500),
    ("64 times Assignment::set, falling", "set-falling", None, 100, 500),
    ("Rib::hear, not chosen, 6 numbers", "hear-6", None, 1000, 5000),
    ("Rib::hear, not chosen, 60 numbers", "hear-60", None, 1000, 5000),
    ("Rib::hear, one prefix 1,000 times, for each", "hear-1000", None, 10000, 50000),
    ("Router::tick, 16 KeepaliveTimers", "up-all-tick", "up-all", 20, 100),
    ("Router::handle, KEEPALIVE", "up-one-take-handle", "up-one-take", 100, 500),
    ("Router::acted, 512 announcements", "acted", None, 10, 50),
    ("Router::sent, 512 announcements", "sent", None, 10, 50),
]


def instructions(program, kind, times, folder):
    """What one run takes."""
    out = os.path.join(folder, "callgrind.out")
    ran = subprocess.run(["valgrind", "--tool=callgrind", f"--callgrind-out-file={out}", program, kind, str(times)],
                         stdout=subprocess.PIPE, stderr=subprocess.PIPE, text=True, check=True)
    if not ran.stdout.strip().isdigit() or int(ran.stdout) == 0:
        sys.exit(f"{kind} {times}: {ran.stdout}")
    return int(re.search(r"Collected : (\d+)", ran.stderr).group(1))


def a_call(program, kind, few, many, folder):
    return (instructions(program, kind, many, folder) - instructions(program, kind, few, folder)) / (many - few)


def counts(top):
    """The rows of a checkout."""
    with repository("calls", "calls_bench", NEEDED, USES, top) as bench, tempfile.TemporaryDirectory() as folder:
        subprocess.run(["rt", "run", "--", "decode-none", "1"], cwd=bench, check=True, stdout=sys.stderr)
        program = os.path.join(bench, "out", "calls_bench")
        for _, kind, less, few, many in ROWS:
            yield a_call(program, kind, few, many, folder) - (
                a_call(program, less, few, many, folder) if less else 0)


def main():
    if sys.argv[1:2] in (["-h"], ["--help"]):
        sys.exit(__doc__)
    columns = [list(counts(os.path.abspath(top))) for top in sys.argv[1:] or [TOP]]
    for place, row in enumerate(ROWS):
        print(f"{row[0]:<46}" + "".join(f"{column[place]:>12,.0f}" for column in columns))


main()
