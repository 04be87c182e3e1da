"""The files of a set: in which language each is written, and the router that it is the configuration of."""
import os
import re

from bgpnet.configs import reader
from bgpnet.configs.as_sets import AsSet, has_several
from bgpnet.configs.bird import reader as bird_reader
from bgpnet.configs.places import Place, Reasons, refusal
from bgpnet.configs.ranks import Ranks
from bgpnet.configs.sessions import Set
from bgpnet.program import Refusal

# What a file of BIRD has, and one of FRR.
OF_BIRD = re.compile(r"""^[ \t]*(?:protocol|template|define|function|filter|attribute|router[ \t]+id)[ \t]+['\w]
                         |^[ \t]*include[ \t]*"|^[^!\#\n]*\{[ \t]*(?:\#.*)?$
                         |^[^!\#\n]*\bprotocol[ \t]+bgp\b[^;{\n]*\{""", re.MULTILINE | re.VERBOSE)
OF_FRR = re.compile(r"^[ \t]*router[ \t]+bgp\b|^[ \t]*frr[ \t]+(?:version|defaults)\b", re.MULTILINE)


def is_of_bird(text):
    """Whether a file is in the language of BIRD."""
    return OF_FRR.search(text) is None and OF_BIRD.search(text) is not None


def obey(text, name, of_bird=None):
    """The router that a file is the configuration of, as far as its lines are taken, or None, and the reasons why
    others are refused; its language is told by what it holds where nothing says it."""
    at = text.find("\0")
    if at >= 0:
        reasons = Reasons()
        reasons.add(refusal(Place(name, text.count("\n", 0, at) + 1), "an octet 0: no configuration"))
        return None, reasons
    return (bird_reader if (is_of_bird(text) if of_bird is None else of_bird) else reader).obey(text, name)


def read_router(text, name, of_bird=None):
    """The router that a file is the configuration of."""
    router, reasons = obey(text, name, of_bird)
    reasons.refuse()
    return router


def read_set(texts, of_bird=(), outside=(), edges=None, down=(), known=(), chosen=None):
    """The routers of texts, by the names of their files, and their sessions; a file that another of them includes is no
    router. Some files are said to be of BIRD; ASes outside are there too. Where an AS has several routers the IGP may
    have edges that are given, and links that are down, and routers of `known` names have numbers too. All that is
    refused of lines and of sessions is told at once, and of ways, those of chosen prefixes or of all."""
    found = {name: obey(text, name, True if name in of_bird else None) for name, text in texts.items()}
    included = set().union(*(router.included for router, _ in found.values() if router))
    reasons, routers, is_lost = Reasons(files=texts), [], False
    for name, (router, own) in found.items():
        if os.path.realpath(name) not in included:
            reasons.gather(own)
            if router and router.asn is not None:
                router.is_sound = not own
                routers.append(router)
            is_lost |= router is None or router.asn is None
    if is_lost and has_several(routers):  # it may be of any AS
        for router in routers:
            router.is_sound = False
    inside = list(routers)
    return set_of(routers + [one for one in (reasons.attempt(one.router, inside) for one in outside) if one], reasons,
                  edges, down, known, chosen)


def set_of(routers, reasons=None, edges=None, down=(), known=(), chosen=None):
    """Routers as a set, by whether an AS has several of them, or of those that they are compared with. Where something
    is refused, so is what is refused of the ways that do not hang on it."""
    if has_several(routers) or known:
        found = AsSet(routers, reasons, edges, down, known)
    elif edges is not None or down:
        raise Refusal("an IGP is of an AS that has several routers, and each of these has one")
    else:
        found = Set(routers, reasons)
    if found.reasons:
        Ranks(found, chosen)
    return found
