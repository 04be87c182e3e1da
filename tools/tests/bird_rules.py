"""The rules of BIRD 2.0.12 that `config` follows, each with what stands for it: sentences of the tables of sets, or names
of tests."""

CANNOT, KNOWN, ENDS = ("bird_test.Refusals.test_what_ranked_paths_cannot_say",
                       "bird_test.Refusals.test_what_is_not_known_here", "bird_test.Refusals.test_sessions")
NOT_TAKEN, LINES = ("bird_test.Refusals.test_lines_that_bird_does_not_take", "bird_test.Refusals.test_lines_of_files")
TERMS, WARNED = "bird_terms_test.Terms.test_each_term", "bird_printed_test.Printed.test_warnings"

RULES = {
    # the choice of a route
    "preference is first, of the channel or by the import filter": [
        "preference stands above bgp_local_pref", "the channel's preference, too"],
    "an own static route is above all, unless a filter sets more": [
        "a static route is above all of BGP, whatever its local preference",
        "bird_test.Refusals.test_an_origin_that_likes_its_own_route_less"],
    "then whether the next hop is reached": [
        "a direct session stands above one over multihop", KNOWN,
        "bird_terms_test.Rules.test_a_destination_that_a_filter_sets"],
    "then no LLGR_STALE": ["a route that outlived its session is liked less",
                           "bird_terms_test.Refused.test_what_a_router_lacks"],
    "local preference, the default of the protocol": [
        "the default local preference is that of the protocol", "an unset local preference counts as the default"],
    "AIGP": [CANNOT, "bird_test.Refusals.test_what_filters_read_that_is_not_known"],
    "the length behind the import filter, if either protocol has path metric": [
        "the length is that behind the import filter", "lengths are compared if either protocol has it on",
        "off at both they are not", "bird_test.Refusals.test_orders_that_go_in_a_circle"],
    "ORIGIN": ["origins", "an unset origin counts as incomplete"],
    "MED where paths begin alike, or if either protocol has med metric": [
        "MEDs of two neighbors are not compared", "but where either protocol has med metric",
        "or where paths begin alike", "a missing MED is the default of its protocol",
        "MEDs of one first AS, and another path behind both"],
    "igp metric: the cost of the channel": [
        "the cost of a channel", "which is 0 where igp metric is off",
        "and is none over multihop, where next hops are not reached",
        "an own route that covers both next hops has no distance, which is worse than none"],
    "prefer older": [CANNOT],
    "the router id of the session, then the address": [
        "the router id, whichever is older", "that of the session", "and if these are alike the neighbor's address"],
    "what leaves no order, with deterministic med or without": [
        "bird_test.Refusals.test_orders_that_go_in_a_circle"],
    "only the best route goes to the export filters": ["an export filter that rejects the best tells nothing"],
    "several paths are a matter of the kernel": ["nor do a kernel's many paths"],
    # what crosses a session
    "nothing is told back, and a loop is dropped before the filter": [
        "a route is not told to whom it came from", "a poisoned route is refused before the filter"],
    "local preference does not cross, unless both ends allow it": [
        "local preference does not cross", "but where both ends allow it", "where the sender alone does it is undefined",
        "where the receiver alone does it is the default"],
    "MED is sent if the export filter set it": [
        "MED that came is not passed on, and is seen by the export filter", "unless the export filter sets it",
        "MED that the import filter set is not passed on"],
    "a static route's MED is sent where it is all that was set": [
        "a static route's MED is told where it is all that was set", "be it by the import filter of its protocol"],
    "an own route has no attributes in the export filter": ["an own route has none of BGP's attributes"],
    "communities are sent": ["communities are sent and passed on"],
    "an export filter works on a copy": ["an export filter works on a copy"],
    "one's own AS goes on behind the export filter": [
        "the own AS stands in front of what the export filter prepends"],
    # well-known communities
    "no-export and its like, as the route stands in the table": [
        "no-export by the import filter stops the router itself", "by the export filter the neighbor",
        "all three of them, and deletion outwards comes too late"],
    "they stop no own route": ["an own static route is told with them, and stopped by the neighbor"],
    "interpret communities off, outwards": [
        "interpret communities off passes them, outwards alone", "of the session by which they came it does nothing"],
    "blackhole and graceful shutdown do nothing": ["blackhole and graceful shutdown do nothing"],
    # how filters end
    "accept and reject end all, no end and errors reject": [
        "accept and reject end the filter within a function, too", "a filter that ends without one rejects",
        "an error rejects"],
    "return of a truth in a filter": ["return of a truth accepts or rejects", "return of a number is an error"],
    "where": ["a function of a where changes the route", "the right side is not run where the left decides"],
    "a function without return has no value": ["a function without a value is a statement, and no condition"],
    "none and all, and no channel without a policy": ["import none, export none", "and outwards", LINES],
    "print": ["what is printed has no effect, but for errors"],
    # what is undefined
    "undefined is below every value": ["an undefined MED stands below every value"],
    "errors of what is undefined": ["to assign it is an error", "and to look for it in a set",
                                    "to hand it to a function is none"],
    "case of what is undefined": ["case takes else"],
    "lists are empty": ["lists are never undefined, but empty"],
    "variables without a value": ["a variable without a value is an error within the braces",
                                  "but not in front of them"],
    # expressions
    "&& and || have one rank": ["&& and || have one rank, from the left", "so the other way round"],
    "ranks of the other operators": [NOT_TAKEN, TERMS],
    "numbers": ["numbers have 32 bits without sign", "a division by 0 is an error"],
    "prefixes and sets of them": ["a prefix fits what is inside, a set of it itself alone", NOT_TAKEN],
    "sets are search trees": ["items of sets that overlap are lost", "and so are arms of a case",
                              "but with else first in the tree", "of two arms of a value the second is taken"],
    "pairs and triples": ["pairs with ranges", "ranges between names, which may go down and then have nothing",
                          "large communities with ranges and stars", "nor is a route distinguisher",
                          NOT_TAKEN],
    "communities in a set": ["any of the communities, and none", "numbers are no communities"],
    "add, delete, filter": ["add takes no set", "delete and filter take lists",
                            "the order counts where lists are compared"],
    "masks": ["a mask is for the whole path", "prepends are there, and + is one or more"],
    "sets of numbers and paths": ["a set of numbers fits any AS"],
    "values of two types": ["values of two types are not equal", NOT_TAKEN],
    "case": ["the arm that fits, and none falls into the next", "without else and a fit it goes on",
             "a name stands in brackets, origins do not", "a value of another type takes the root", NOT_TAKEN],
    "else": ["else belongs to the nearest if", NOT_TAKEN],
    "proto": ["proto is the session, outwards that by which the route came", "unnamed protocols are numbered",
              "patterns of the shell"],
    "source, from, dest": ["from is the neighbor's address", "where source = RTS_STATIC",
                           "addresses and lengths of a prefix", "bird_terms_test.Rules.test_what_stands_where_few_write_it",
                           "routes of several kinds, prohibited and unreachable ones too"],
    "functions": ["parameters are copies, the route is one", "functions call functions above them",
                  "inner names stand above outer ones", LINES],
    "for": ["loops over paths, prepends too", "loops over communities",
            "a loop's variable that was there is undefined behind it"],
    "enumerations, and what can't be set": [NOT_TAKEN],
    # the path
    "prepends": ["a poisoned route is refused before the filter", "one's own AS prepended at import harms nobody"],
    "what is deleted is gone": ["what is deleted of others' prepends is gone",
                                "so is a router's number, where no way comes back",
                                "bird_test.Refusals.test_a_way_that_comes_back"],
    "allow local as": [CANNOT, "allow local as 0 is none"],
    "rs client, enforce first as": [
        "a route server does not stand in the path, and passes MED",
        "so does one on direct sessions that says itself to be the next hop",
        "enforce first as takes what the neighbor put on", CANNOT, KNOWN],
    # sessions, protocols, files
    "forms of neighbor and local": [
        "a neighbor in two lines, and external ones", "the own number and address in lines of their own",
        "of two numbers of a neighbor the later counts, before an external one", ENDS],
    "what leaves no session": [
        "a channel of IPv6 beside that of IPv4, and one end without that of IPv4", "passive at one end",
        "passive at both ends: no session", "a protocol that is disabled: no session", "roles that don't fit: no session",
        "bird_terms_test.Refused.test_ends_that_do_not_fit", WARNED],
    "two protocols of one neighbor": ["two protocols of one neighbor: that which stands first"],
    "templates": ["templates of templates, and a line of one's own in place of its kind",
                  "options that stand twice: the later", LINES],
    "names are defined above, and case counts": ["names with signs, and words of roles as names", NOT_TAKEN, LINES],
    "all keywords are reserved": ["bird_rules_test.Words.test_no_keyword_is_a_name"],
    "include": ["bird_printed_test.Printed.test_an_include_stands_anywhere",
                "bird_printed_test.Printed.test_a_file_that_others_include_is_no_router",
                "bird_printed_test.Printed.test_patterns_of_an_include"],
    "comments": ["comments", NOT_TAKEN],
    "define": ["constants are worked out at once", LINES],
    "static routes": ["routes of several kinds, prohibited and unreachable ones too", KNOWN,
                      "bird_terms_test.Rules.test_prefixes_that_go_alike_are_told_apart"],
    "limits and such change nothing": [
        "limits and kept routes change nothing, as long as they are not reached", WARNED],
    "roles": ["a route of a provider goes to customers alone", "roles act at one end alone",
              "a marked route of a customer is refused", "an unset mark goes on",
              "a provider without a number marks with 0", "and a marked route of a peer without one is refused"],
    "attributes of one's own": ["attributes of one's own go from import to export, and no further"],
    # beside FRR
    "FRR's own routes have MED 0": ["FRR's network has MED 0, BIRD's none"],
    "FRR acts on communities on which BIRD does not": [
        "FRR acts on blackhole and no-export of own routes, BIRD does not",
        "graceful shutdown: FRR's local preference is 0", "FRR takes no local preference of BIRD", "FRR passes marks on"],
    "both name the same numbers and addresses": ["both end at their own prefixes alone"],
    # what ranked paths can't say
    "other protocols and tables, and routes of theirs": [KNOWN],
    "two numbers, two sessions, iBGP": [ENDS, CANNOT],
}
