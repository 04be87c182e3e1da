"""The attributes of a route as filters name them: their types, and which may be set.

Those of `ROUTE` are a route's in this model; the others of the language are kept as they are set, and nobody reads
them but filters of the same router."""

# What every route has, and whether a filter may set it.
STATIC = {
    "net": ("prefix", False), "proto": ("string", False), "source": ("source", False), "ifindex": ("int", False),
    "from": ("ip", True), "gw": ("ip", True), "scope": ("scope", True), "dest": ("dest", True),
    "ifname": ("string", True), "weight": ("int", True), "preference": ("int", True), "gw_mpls": ("int", True),
    "onlink": ("bool", True),
}
# What a route may have, and a filter may set and unset.
DYNAMIC = {
    "bgp_path": "bgppath", "bgp_origin": "origin", "bgp_local_pref": "int", "bgp_med": "int", "bgp_otc": "int",
    "bgp_community": "clist", "bgp_large_community": "lclist", "bgp_ext_community": "eclist",
    "bgp_next_hop": "ip", "bgp_originator_id": "quad", "bgp_cluster_list": "clist", "bgp_atomic_aggr": "opaque",
    "bgp_aggregator": "opaque", "bgp_aigp": "opaque",
    "igp_metric": "int", "babel_metric": "int", "rip_metric": "int", "rip_tag": "int", "ospf_metric1": "int",
    "ospf_metric2": "int", "ospf_tag": "int", "ospf_router_id": "quad", "ra_lifetime": "int",
    "ra_preference": "ra_preference", "krt_source": "int", "krt_metric": "int", "krt_prefsrc": "ip",
    "krt_realm": "int", "krt_scope": "int",
    **dict.fromkeys("""krt_mtu krt_window krt_rtt krt_rttvar krt_sstresh krt_cwnd krt_advmss krt_reordering krt_hoplimit
        krt_rto_min krt_initcwnd krt_initrwnd krt_quickack""".split(), "int"),
    **dict.fromkeys("""krt_lock_mtu krt_lock_window krt_lock_rtt krt_lock_rttvar krt_lock_sstresh krt_lock_cwnd
        krt_lock_advmss krt_lock_reordering krt_lock_hoplimit krt_lock_rto_min krt_feature_allfrag""".split(), "bool"),
}
# Those that cross a session and are not read here, or that say where packets go.
REFUSED = {
    "bgp_ext_community": "extended communities are not read",
    "bgp_aigp": "AIGP: preference depends on distances inside an AS",
    "bgp_cluster_list": "a route reflector: every router is an AS of its own",
    "bgp_originator_id": "a route reflector: every router is an AS of its own",
    "bgp_aggregator": "an aggregate: its path is no way that a route took",
    "bgp_atomic_aggr": "an aggregate: its path is no way that a route took",
}
# Those of the interface by which a route came, and those that send packets elsewhere, which only some addresses can.
NOT_READ, NOT_SET = ("ifname", "ifindex", "onlink", "weight", "gw_mpls"), ("gw", "ifname")
