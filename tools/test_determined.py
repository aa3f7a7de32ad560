#!/usr/bin/env python3
"""Tests of tools/determined: which functions it takes for public, and which theorems it counts."""
import unittest

import scripts

determined = scripts.load("determined")

USES = "use R.x.proofs.part.a_b.Reads as a-b\nuse R.x.proofs.c.Reads as c\n"


class Public(unittest.TestCase):
    def test_own_and_used_functions_are_public(self):
        source = 'pub fn a_b(x: u8) -> u8\nfn hidden()\npub extern "C" fn c()\npub use word::d;\npub use word::Cursor;\npub use part::{e, F};\n'
        self.assertEqual(determined.public(source), {"a_b", "c", "d", "e"})


class Stated(unittest.TestCase):
    def test_a_theorem_counts_for_the_function_that_it_reads(self):
        proofs = USES + "pub a_b_determined : Determines {A = _ × _} a-b.Post (λ κs r left. r)\n"
        self.assertEqual(determined.stated(proofs), {"a_b"})

    def test_a_theorem_of_a_generic_function_counts(self):
        proofs = USES + "pub a_b_determined : (t : _) (l : _) → Determines (a-b.Post t l) (λ κs r left. r)\n"
        self.assertEqual(determined.stated(proofs), {"a_b"})

    def test_a_theorem_over_the_contract_of_another_does_not_count(self):
        proofs = USES + "pub a_b_determined : Determines c.Post (λ κs r left. r)\n"
        self.assertEqual(determined.stated(proofs), set())

    def test_a_theorem_over_a_restated_contract_does_not_count(self):
        proofs = "pub a_b_determined : Determines a-b.Post (λ κs r left. r)\n"
        self.assertEqual(determined.stated(proofs), set())


if __name__ == "__main__":
    unittest.main()
