"""Roles of BGP sessions (RFC 9234), as BIRD 2.0.12 has them."""
from bgpnet.configs.routes import Denial

# The role that the other end has to have.
OTHERS = {"provider": "customer", "customer": "provider", "rs_server": "rs_client", "rs_client": "rs_server",
          "peer": "peer"}
# From whom a route goes on to customers alone, and to whom a marked route does not go.
ABOVE = ("provider", "peer", "rs_server")


def mismatch(neighbor, far):
    """Why roles let no session come up, or None."""
    own, other = neighbor.role, getattr(far.neighbor, "role", None)
    if own and other and OTHERS[own] != other:
        return f"the roles {own} and {other} don't fit"
    if neighbor.option("require roles") and not other:
        return "the other end has no role"
    return None


def other_role(neighbor):
    """What the neighbor is to the router."""
    return OTHERS.get(neighbor.role)


def said_number(neighbor):
    """The AS number by which a neighbor marks routes, as a line says it: of an external one BIRD takes 0."""
    return 0 if neighbor.asn.name == "external" else neighbor.asn.name


def denied_in(neighbor, route):
    """The denial of a marked route that comes from a customer, or from a peer with another's mark."""
    other = other_role(neighbor)
    if route.customer is not None and (other in ("customer", "rs_client")
                                       or other == "peer" and route.customer != said_number(neighbor)):
        return Denial(neighbor.protocol.said["role"].place, f"role {neighbor.role}: the route is marked (bgp_otc)")
    return None


def marked_in(neighbor, route):
    """Marks a route that comes from a provider, a peer or a route server."""
    if route.customer is None and other_role(neighbor) in ABOVE:
        route.customer = said_number(neighbor)


def denied_out(neighbor, route):
    """The denial of a marked route towards a provider, a peer or a route server."""
    if route.customer is not None and other_role(neighbor) in ABOVE:
        return Denial(neighbor.protocol.said["role"].place, f"role {neighbor.role}: the route is marked (bgp_otc)")
    return None


def marked_out(neighbor, route, asn):
    """The mark that goes on towards a neighbor."""
    if route.customer is None and other_role(neighbor) in ("customer", "peer", "rs_client"):
        return asn
    return route.customer
