#!/usr/bin/env python3
"""Times the calls of one router (crates/router_core) with 16 Established peers, in a network of 18
routers and 256 prefixes: an UPDATE is taken, handled, decided on, told to each peer and put towards
it; and each call where it finds nothing. Makes a repository beside the crates in a temporary folder,
proves and builds the program of bench/router there, and runs it.

    python3 bench/router_time.py
"""
from beside import run

NEEDED = [
    "bgp_values",
    "marker_lanes",
    "prefix_lanes",
    "ranked_policy",
    "bgp_codec",
    "rib_tables",
    "bgp_framing",
    "link_epoch",
    "session_fsm",
    "run_model",
    "outbox",
    "snap_marker",
    "snap_collector",
    "stable_paths",
    "router_model",
    "router_side",
    "router_core",
]

run("router", "router_bench", NEEDED, "bgp_values outbox prefix_lanes ranked_policy router_core router_model anyhow")
