"""The waits that a log records, beside the simulated ones."""

import decimal
import unittest
from decimal import Decimal

import easybook
from easybook import waits
from easybook.__main__ import _ratio
from tests.cluster import FOUR, a_log, a_pipe


class Recorded(unittest.TestCase):
    def test_rows_are_of_jobs_whose_wait_is_told(self):
        with a_log() as log:
            rows = easybook.recorded(log)
        self.assertEqual([tuple(it) for it in rows], [(2, 1, 9, 10, 50, 8, 8, -1, -1, -1), (3, 2, 0, 2, 90, 4, 7, -1, -1, -1)])

    def test_rows_are_in_the_order_of_the_files_lines(self):
        lines = FOUR.splitlines(True)
        with a_log("".join(lines[::-1])) as log:
            self.assertEqual([it.number for it in easybook.recorded(log)], [3, 2])
            self.assertEqual([it.number for it in easybook.compare(log, 10)], [3, 2])
            self.assertEqual([it.number for it in easybook.simulate(log, 10).schedule], [1, 2, 3, 4])

    def test_a_log_that_is_read_once(self):
        with a_pipe() as log:
            self.assertEqual(easybook.compare(log, 10), [easybook.Pair(2, 8, 8, 9, 99), easybook.Pair(3, 7, 4, 0, 0)])

    def test_pairs_are_of_jobs_that_are_simulated_too(self):
        with a_log(FOUR + "5 4 7 -1 -1 -1 -1 2 5 -1 5 9 -1 -1 -1 -1 -1 -1\n") as log:
            pairs = easybook.compare(log, 10)
        self.assertEqual(pairs, [easybook.Pair(2, 8, 8, 9, 99), easybook.Pair(3, 7, 4, 0, 0)])
        self.assertEqual(easybook.summary(pairs), [easybook.Group("all", 2, 4, 0, 9, 49, 0, 99, 90)])
        self.assertEqual([it.group for it in easybook.summary(pairs, waits.by_user)], [7, 8])
        self.assertEqual([(it.group, it.ratio) for it in easybook.summary(pairs, waits.by_size)], [(4, None), (8, 90)])

    def test_sums_are_exact_whatever_the_context_is(self):
        pairs = [easybook.Pair(1, 7, 8, Decimal("1234567.5"), 1000), easybook.Pair(2, 7, 8, Decimal("1234569.25"), 1003),
                 easybook.Pair(3, 7, 8, 999_999_999_999, 0)]
        with decimal.localcontext(decimal.Context(prec=3, traps=[decimal.Inexact, decimal.InvalidOperation])):
            # Together 1000002469135.75 and 2003: a third of them, and how many thousandths of the other the one is.
            self.assertEqual(easybook.summary(pairs), [
                easybook.Group("all", 3, 333_334_156_378, Decimal("1234569.25"), 999_999_999_999, 667, 1000, 1003, 499_252_356_033)])
            with a_log(FOUR.replace("2 1 9 50", "2 1234567.5 0.25 50")) as log:
                self.assertEqual([str(it.start) for it in easybook.recorded(log)], ["1234567.75", "2"])
            self.assertEqual(str(_ratio(easybook.summary(pairs)[0])), "499252356.033")

    def test_pairs_tell_partition_account_and_queue(self):
        text = FOUR.replace("50 -1 1 8 -1 -1 -1 -1", "50 -1 1 8 5 -1 6 4").replace("90 -1 1 7 -1 -1 -1 -1", "90 -1 1 7 2 -1 6 3.5")
        with a_log(text) as log:
            self.assertEqual([it[-3:] for it in easybook.recorded(log)], [(4, 5, 6), (4, 2, 6)])
            pairs = easybook.compare(log, 10)
        self.assertEqual(pairs, [easybook.Pair(2, 8, 8, 9, 99, 4, 5, 6), easybook.Pair(3, 7, 4, 0, 0, 4, 2, 6)])
        groups = {kind: [(it.group, it.jobs) for it in easybook.summary(pairs, by)] for kind, by in waits.KINDS.items()}
        self.assertEqual(groups, {"size": [(4, 1), (8, 1)], "user": [(7, 1), (8, 1)], "account": [(2, 1), (5, 1)], "partition": [(4, 2)], "queue": [(6, 2)]})

    def test_names_of_each_kind(self):
        told = "; Note: user 1 is ana\n;Note: group 1 is phys\n; Note: queue 12 is long one\n; Note: partition 2 is main\n; Note: user x is bob\n; Note: size 1 is x\n"
        with a_log(told + FOUR) as log:
            self.assertEqual([easybook.names(log, it) for it in ("user", "account", "queue", "partition")], [{1: "ana"}, {1: "phys"}, {12: "long one"}, {2: "main"}])
            self.assertEqual(easybook.names(log), {1: "ana"})
            for it in ("size", "group", ".*", 7):
                with self.subTest(it), self.assertRaises(easybook.BadWord):
                    easybook.names(log, it)

    def test_sizes_are_grouped_by_powers_of_two(self):
        self.assertEqual([waits.by_size(easybook.Pair(1, 1, it, 0, 0)) for it in (1, 2, 3, 4, 7, 8)], [1, 2, 2, 4, 4, 8])


if __name__ == "__main__":
    unittest.main()
