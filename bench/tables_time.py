#!/usr/bin/env python3
"""Times the tables of one router (crates/rib_tables) in a network of 64 routers, 256 prefixes and
16 peers: hearing an UPDATE, the best of a prefix, dirty, waiting. Makes a repository beside the
crates in a temporary folder, proves and builds the program of bench/tables there, and runs it.

    python3 bench/tables_time.py
"""
from beside import run

NEEDED = ["bgp_values", "marker_lanes", "prefix_lanes", "ranked_policy", "bgp_codec", "rib_tables"]

run("tables", "tables_bench", NEEDED, "bgp_codec bgp_values prefix_lanes ranked_policy rib_tables anyhow")
