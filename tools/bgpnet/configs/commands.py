"""The commands that are read, refused by name, or taken without effect, block by block.

Each is a line of a table: how it is taken, then the syntax. `ignored` has no effect on which routes a router uses;
`warned` has none as long as what the warning says holds; `refused` can't be said as ranked paths, or is none of IPv4
unicast between routers that are each an AS of their own. Any other word is the method of the reader that obeys it."""
from bgpnet.configs.syntax import Command, Commands

PEER = "neighbor WORD"

REFUSED = {
    "confederation": "a confederation: an AS of several numbers is not read",
    "aggregate": "an aggregate: its path is no way that a route took",
    "ipv6": "IPv6: prefixes are IPv4",
    "family": "an address family that is not IPv4 unicast",
    "allowas": "allowas-in: a way may pass a router twice",
    "default": "default-originate: the route passes the filters by, and the router itself has none",
    "conditional": "conditional advertisement: what is told depends on other routes",
    "role": "local-role: what is told depends on the role that the peer says",
    "unchanged": "attribute-unchanged: an attribute passes on that the policy does not see",
    "server": "route-server-client: the path does not name the router",
    "addpath": "addpath: more than one path of a peer",
    "as-set": "multipath-relax as-set: the path is a set of several ways",
    "local-as": "local-as: a router with two numbers",
    "private": "remove-private-AS: the path is not the way",
    "override": "as-override: the path is not the way",
    "listen": "dynamic neighbors: no line names them",
    "interface": "an unnumbered neighbor: it has no address of IPv4",
    "dampening": "dampening: preference depends on time",
    "redistribute": "redistribute: routes of another protocol",
    "limit": "a limit on prefixes told: which of them depends on time",
    "shutdown": "shutdown of the whole router: leave its file out",
    "graceful": "graceful-shutdown of the whole router",
    "max-med": "max-med: the metric depends on time",
    "orf": "outbound route filtering: the peer filters what is told",
    "nexthop": "a next hop of its own: whether it is reached is not known here",
    "match": "this match is not read",
    "set": "this set is not read",
    "sources": "access-lists of sources and destinations are not read",
    "undone": "a line that takes back others: leave those out",
    "port": "a port of its own: whether the other end listens there is not known here",
    "capability": "no capabilities: the session may not come up",
    "soo": "a site of origin: routes of the same site are denied",
    "unsuppress": "unsuppress-map: there are no aggregates",
    "backdoor": "a backdoor or labelled network",
    "alias": "names of communities of one's own",
    "extcommunity": "extended communities are not read",
    "cut": "the command is cut short",
    "shutdown_by_time": "whether the session stays depends on time",
    "delay": "no delay: a map acts for a network only where it stands above its line",
}

# What other parts of a configuration begin with: their blocks are passed over.
CONFIG = """
host       <hostname|domainname> WORD
ignored    <log|password|enable|service|debug|dump|agentx> REST...
ignored    banner motd <default|file WORD|line REST...>
ignored    no <log|password|enable|service|banner|debug|agentx|hostname> REST...
ignored    allow-reserved-ranges
ignored    bgp <no-rib|session-dscp (0-63)|update-delay (0-3600) [(1-3600)]|route-map delay-timer (1-600)>
delay      bgp route-map delay-timer 0
ignored    bgp <suppress-fib-pending|send-extra-data zebra>
ignored    [no] route-map WORD optimization
ignored    no bgp graceful-shutdown
default_route [no] ip nht resolve-via-default
ignored    [no] ip nht REST...
ignored    [no] ip <forwarding|multicast-routing>
ignored    [no] ipv6 <forwarding|multicast-routing|nht REST...>
ignored    zebra nexthop-group keep (1-3600)
static     ip route REST...
warned     ip <router-id|import-table|protocol> REST...
warned     ipv6 <route|router-id|import-table|protocol> REST...
foreign    <line|key|nexthop-group|pseudowire|mpls|segment-routing|bfd|l2vpn|rpki|vni> [REST...]
ospf       router ospf [REST...]
isis       router isis WORD [REST...]
foreign    router <ospf6|rip|ripng|eigrp|babel|openfabric|pim> [REST...]
version    frr version WORD
profile    frr defaults WORD
addresses  interface WORD [vrf WORD]
bgp        router bgp (1-4294967295)
apart      router bgp (1-4294967295) <view|vrf> WORD
again      router bgp
apart      vrf WORD
route_map  route-map WORD <permit|deny> (1-65535)
access     access-list WORD [seq (1-4294967295)] <permit|deny> <any|A.B.C.D/M|A.B.C.D/M exact-match>
access     access-list WORD [seq (1-4294967295)] <permit|deny> <A.B.C.D|host A.B.C.D|A.B.C.D A.B.C.D>
sources    access-list WORD [seq (1-4294967295)] <permit|deny> ip REST...
remark     access-list WORD remark REST...
wrong      access-list WORD REST...
prefixes   ip prefix-list WORD [seq (1-4294967295)] <permit|deny> <any|A.B.C.D/M>
prefixes   ip prefix-list WORD [seq (1-4294967295)] <permit|deny> A.B.C.D/M <ge (0-32)|le (0-32)>
prefixes   ip prefix-list WORD [seq (1-4294967295)] <permit|deny> A.B.C.D/M <ge (0-32) le (0-32)|le (0-32) ge (0-32)>
remark     ip prefix-list WORD description REST...
ignored    no ip prefix-list sequence-number
wrong      ip prefix-list WORD REST...
paths      bgp as-path access-list WORD [seq (0-4294967295)] <permit|deny> REST...
communities bgp community-list <(1-99)|standard WORD> [seq (0-4294967295)] <permit|deny> AA:NN...
communities bgp community-list <(100-500)|expanded WORD> [seq (0-4294967295)] <permit|deny> AA:NN...
communities bgp large-community-list <(1-99)|standard WORD> [seq (0-4294967295)] <permit|deny> AA:BB:CC...
communities bgp large-community-list <(100-500)|expanded WORD> [seq (0-4294967295)] <permit|deny> AA:BB:CC...
old        ip <community-list|large-community-list|extcommunity-list|as-path> REST...
graceful   bgp graceful-shutdown
alias      bgp community alias WORD WORD
apart      bgp extcommunity-list REST...
apart      ipv6 <prefix-list|access-list> WORD [seq (1-4294967295)] <permit|deny> any
apart      ipv6 <prefix-list WORD description|access-list WORD remark> REST...
apart      ipv6 <prefix-list|access-list> REST...
apart      mac access-list REST...
undone     no <router|route-map|access-list|ip|bgp|ipv6|interface|vrf> REST...
"""

# What stands below `router bgp`.
BGP = """
router_id  bgp router-id A.B.C.D
option     [no] bgp <always-compare-med|deterministic-med|ebgp-requires-policy>
option     [no] bgp network import-check
option     [no] bgp bestpath <compare-routerid|as-path ignore>
med        [no] bgp bestpath med <missing-as-worst|missing-as-worst confed|confed missing-as-worst>
default_preference bgp default local-preference (0-4294967295)
default_preference no bgp default local-preference [(0-4294967295)]
default_family [no] bgp default ipv4-unicast
ignored    [no] bgp default <show-hostname|show-nexthop-hostname>
ignored    [no] bgp default <ipv4-multicast|ipv4-vpn|ipv4-labeled-unicast|ipv4-flowspec>
ignored    no bgp default <ipv6-unicast|ipv6-multicast|ipv6-vpn|ipv6-labeled-unicast|ipv6-flowspec|l2vpn-evpn>
ignored    bgp default subgroup-pkt-queue-max (20-100)
ignored    [no] bgp bestpath as-path <confed|multipath-relax|multipath-relax no-as-set>
as-set     bgp bestpath as-path multipath-relax as-set
ignored    no bgp bestpath as-path multipath-relax as-set
ignored    [no] bgp bestpath med confed
option     [no] bgp bestpath peer-type multipath-relax
ignored    bgp bestpath bandwidth <ignore|skip-missing|default-weight-for-missing>
ignored    [no] bgp <log-neighbor-changes|reject-as-sets|fast-external-failover>
duplicates [no] bgp suppress-duplicates
ignored    [no] bgp <fast-convergence|suppress-fib-pending|allow-martian-nexthop|hard-administrative-reset>
option     [no] bgp disable-ebgp-connected-route-check
ignored    [no] bgp graceful-restart-disable
kept       bgp graceful-restart
ignored    no bgp graceful-restart
option     [no] bgp <client-to-client reflection|route-reflector allow-outbound-policy>
ignored    bgp graceful-restart <stalepath-time (1-4095)|restart-time (0-4095)|select-defer-time (0-3600)>
ignored    bgp graceful-restart rib-stale-time (1-3600)
ignored    [no] bgp graceful-restart <preserve-fw-state|notification>
ignored    no bgp graceful-restart <stalepath-time|restart-time|select-defer-time|rib-stale-time> [(0-4095)]
cluster_id bgp cluster-id <A.B.C.D|(1-4294967295)>
ignored    bgp listen limit (1-65535)
warned     bgp minimum-holdtime (1-65535)
ignored    bgp route-map delay-timer (1-600)
delay      bgp route-map delay-timer 0
ignored    bgp <long-lived-graceful-restart stale-time (1-4294967295)|conditional-advertisement timer (5-240)>
cluster_id no bgp cluster-id [<A.B.C.D|(1-4294967295)>]
ignored    no bgp <minimum-holdtime [(1-65535)]|route-map delay-timer [(0-600)]|listen limit [(1-65535)]>
ignored    timers bgp (0-65535) <0|(3-65535)>
ignored    no timers bgp [(0-65535) (0-65535)]
ignored    update-delay (0-3600) [(1-3600)]
ignored    [no] <write-quanta (1-64)|read-quanta (1-10)|coalesce-time (0-4294967295)>
ignored    no <update-delay [(0-3600) [(1-3600)]]|auto-summary|synchronization>
ignored    no bgp <graceful-shutdown|shutdown>
confederation bgp confederation REST...
max-med    bgp max-med REST...
graceful   bgp graceful-shutdown
listen     bgp listen range REST...
shutdown   bgp shutdown [REST...]
shutdown   bgp default shutdown
ignored    no bgp default shutdown
family     bgp default REST...
dampening  bgp dampening [REST...]
family_ipv4 address-family ipv4 [unicast]
family     address-family ipv4 <multicast|vpn|labeled-unicast|flowspec>
apart      address-family ipv6 [<unicast|multicast|vpn|labeled-unicast|flowspec>]
apart      address-family l2vpn evpn
family     <segment-routing|vnc|vrf-policy|rfp> REST...
"""

# What is said of a neighbor below `router bgp` alone.
NEIGHBOR = """
remote_as  PEER remote-as <(1-4294967295)|external|internal>
group      PEER peer-group
member     PEER peer-group WORD
flag       [no] PEER shutdown
flag       PEER shutdown message REST...
source     PEER update-source WORD
source     no PEER update-source [WORD]
password   PEER password WORD
password   no PEER password [WORD]
flag       [no] PEER passive
flag       [no] PEER sender-as-path-loop-detection
ignored    PEER description REST...
ignored    [no] PEER <capability dynamic|capability extended-nexthop|strict-capability-match|override-capability>
flag       [no] PEER <disable-connected-check|enforce-multihop>
ignored    [no] PEER <solo|enforce-first-as|extended-optional-parameters>
kept       PEER graceful-restart
ignored    no PEER graceful-restart
ignored    [no] PEER <graceful-restart-disable|graceful-restart-helper|disable-link-bw-encoding-ieee>
hops       PEER ebgp-multihop [(1-255)]
hops       PEER ttl-security hops (1-254)
ignored    PEER tcp-mss (1-65535)
interval   PEER advertisement-interval (0-600)
ignored    PEER timers <(0-65535) 0|(0-65535) (3-65535)|connect (1-65535)|delayopen (1-240)>
hops       no PEER <ebgp-multihop [(1-255)]|ttl-security hops (1-254)>
interval   no PEER advertisement-interval [(0-600)]
ignored    no PEER <description [REST...]|tcp-mss [(1-65535)]|port [(0-65535)]>
ignored    no PEER timers [<(0-65535) (0-65535)|connect|connect (1-65535)|delayopen|delayopen (0-65535)>]
ignored    no PEER <local-as|maximum-prefix|maximum-prefix-out|local-role> [REST...]
warned     PEER bfd [<check-control-plane-failure|profile WORD|(2-255) (50-60000) (50-60000)>]
ignored    no PEER bfd [<check-control-plane-failure|profile|profile WORD>]
role       PEER local-role REST...
local-as   PEER local-as REST...
interface  PEER interface [REST...]
ignored    PEER port 179
port       PEER port (0-65535)
capability PEER dont-capability-negotiate
ignored    no PEER dont-capability-negotiate
shutdown_by_time PEER shutdown rtt REST...
undone     no PEER <remote-as REST...|peer-group [WORD]>
undone     no PEER
"""

# What stands below `address-family ipv4 unicast`, and is taken directly below `router bgp` too.
FAMILY = """
network    network A.B.C.D/M [route-map WORD]
network    network A.B.C.D [mask A.B.C.D] [route-map WORD]
backdoor   network <A.B.C.D/M|A.B.C.D [mask A.B.C.D]> <backdoor|label-index REST...>
undone     no <network|aggregate-address|redistribute> REST...
activate   [no] PEER activate
weight     PEER weight (0-65535)
weight     no PEER weight [(0-65535)]
policy     [no] PEER <distribute-list|prefix-list|filter-list|route-map> WORD <in|out>
send       [no] PEER send-community [<both|all|extended|standard|large>]
ignored    [no] PEER <soft-reconfiguration inbound|disable-addpath-rx>
hop_self   [no] PEER next-hop-self [<force|all>]
warned     PEER maximum-prefix (1-4294967295) [(1-100)] [<warning-only|restart (1-65535)>] [force]
flag       [no] PEER route-reflector-client
server     PEER route-server-client
unchanged  PEER attribute-unchanged [REST...]
override   PEER as-override
private    PEER remove-private-AS [REST...]
addpath    PEER <addpath-tx-all-paths|addpath-tx-bestpath-per-AS>
orf        PEER capability orf REST...
default    PEER default-originate [REST...]
conditional PEER advertise-map REST...
unsuppress PEER unsuppress-map WORD
limit      PEER maximum-prefix-out (1-4294967295)
allowas    PEER allowas-in [REST...]
soo        PEER soo REST...
ignored    no PEER <route-server-client|as-override|addpath-tx-all-paths>
ignored    no PEER <addpath-tx-bestpath-per-AS|default-originate|allowas-in> [REST...]
ignored    no PEER <attribute-unchanged|remove-private-AS|advertise-map|unsuppress-map|soo> [REST...]
ignored    no PEER capability orf REST...
aggregate  aggregate-address REST...
redistribute redistribute REST...
ignored    distance bgp (1-255) (1-255) (1-255)
ignored    [no] distance (1-255) A.B.C.D/M [WORD]
ignored    no distance bgp [REST...]
ignored    [no] table-map WORD
ignored    maximum-paths [ibgp] (1-256)
clusters   maximum-paths ibgp (1-256) equal-cluster-length
ignored    no maximum-paths [(1-256)]
clusters   no maximum-paths ibgp [(1-256) [equal-cluster-length]]
dampening  bgp dampening [REST...]
ignored    no bgp dampening [REST...]
family     <import|export|rd|label|nexthop|rt|route-target|sid|route-map> <vpn|vrf> REST...
"""

# What stands below `route-map`.
ROUTE_MAP = """
ignored    description REST...
undone     no <call|on-match|continue|match|set> [REST...]
ignored    no description [REST...]
next       on-match next
goto       <on-match goto|continue> (1-65535)
cut        continue
call       call WORD
match_list match ip address [prefix-list] WORD
match_list match as-path WORD
match_list match <community|large-community> WORD [exact-match]
match_value match <metric|local-preference> (0-4294967295)
match_value match origin <igp|egp|incomplete>
match      match <interface|tag|mac|evpn|source-vrf|alias|probability|peer|rpki|rpki-extcommunity> REST...
match      match ip <next-hop|route-source> <WORD|prefix-list WORD>
match      match ip <next-hop|route-source> REST...
extcommunity match extcommunity REST...
ipv6       match ipv6 address <WORD|prefix-list WORD>
ipv6       match ipv6 next-hop <WORD|prefix-list WORD|type WORD>
ipv6       match ipv6 REST...
set_metric set metric WORD
set_preference set local-preference WORD
set_weight set weight (0-4294967295)
set_prepend set as-path prepend (1-4294967295)...
set_last   set as-path prepend last-as (1-10)
set_exclude set as-path exclude (1-4294967295)...
set        set as-path replace WORD
set_origin set origin <igp|egp|incomplete>
set_communities set community AA:NN...
set_communities set large-community AA:BB:CC...
set_delete set <comm-list|large-comm-list> WORD delete
warned     set <tag (1-4294967295)|distance (0-255)|table (1-4294967295)|label-index (0-1048560)|atomic-aggregate>
warned     set aggregator as (1-4294967295) A.B.C.D
warned     set extcommunity <rt|soo|bandwidth> REST...
warned     set extcommunity none
nexthop    set ip next-hop REST...
set        set <originator-id|sr-te|evpn|ipv4|l3vpn> REST...
ipv6       set ipv6 REST...
"""


def table(text):
    """The commands of a table."""
    found = []
    for line in text.strip().splitlines():
        action, syntax = line.split(None, 1)
        found.append(Command(syntax.strip().replace("PEER", PEER), action, REFUSED.get(action)))
    return found


EXITS = table("leave <exit|quit>\nfinish end")
TABLES = {
    "config": Commands(table(CONFIG) + EXITS),
    "bgp": Commands(table(BGP) + table(NEIGHBOR) + table(FAMILY) + EXITS),
    "family": Commands(table(FAMILY) + EXITS + table("leave exit-address-family\nmember PEER peer-group WORD\n"
                                                     "cut PEER peer-group")),
    "route-map": Commands(table(ROUTE_MAP) + EXITS),
}
