"""Tests that each rule of BIRD that `config` follows has a test, and that each keyword is known."""
import importlib
import unittest

from support import load  # noqa: F401, for it sets the path
from bird_cases import CASES
from bird_more_cases import CASES as MORE_CASES
from bird_rules import RULES

from bgpnet.configs.bird.keywords import KEYWORDS
from bgpnet.configs.files import read_router
from bgpnet.program import Refusal


class Rules(unittest.TestCase):
    def test_each_rule_has_what_stands_for_it(self):
        sentences = {case[0] for case in CASES + MORE_CASES}
        self.assertEqual(len(sentences), len(CASES + MORE_CASES), "two cases have one sentence")
        for rule, stands in RULES.items():
            self.assertTrue(stands, rule)
            for one in stands:
                if one not in sentences:
                    module, kind, name = one.split(".")
                    self.assertTrue(callable(getattr(getattr(importlib.import_module(module), kind), name, None)), one)

    def test_each_case_stands_for_a_rule(self):
        known = {one for stands in RULES.values() for one in stands}
        self.assertEqual([case[0] for case in CASES + MORE_CASES if case[0] not in known], [])


class Words(unittest.TestCase):
    def test_no_keyword_is_a_name(self):
        """Of a protocol that is not used either; the words of roles may be names."""
        self.assertEqual(len(KEYWORDS), 558)
        for word in sorted(KEYWORDS):
            with self.assertRaises(Refusal) as raised:
                read_router(f"define {word} = 5;", "r1.conf", True)
            self.assertIn(f"r1.conf:1: '{word}' is a word of BIRD's language", str(raised.exception))
        for word in ("peer", "provider", "customer", "role", "rs_client", "rs_server", "Hop", "_hop"):
            with self.assertRaises(Refusal) as raised:
                read_router(f"define {word} = 5;", "r1.conf", True)
            self.assertIn("there is no 'protocol bgp'", str(raised.exception))
