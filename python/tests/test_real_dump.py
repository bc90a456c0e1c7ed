"""From a real dump to a log and its waits. `examples/slurm-22.05.txt` is what `sacct` printed on a small test cluster, 8
nodes of 8 processors under Slurm 22.05; its users' and accounts' names are invented. What is wanted here was counted in
it by hand and by awk."""

import collections
import os
import tempfile
import unittest

import easybook
from easybook import waits
from easybook.slurm import Options, convert
from tests.test_doctests import TOP

# The jobs that started, by user: how many, and of their waits, start - eligible, mean, median and 90th percentile.
WAITS = {"ana": (29, 15, 12, 35), "bob": (40, 11, 5, 35), "cai": (28, 15, 13, 32), "dee": (21, 21, 23, 40), "eve": (18, 15, 14, 39)}


def made(**options):
    """What the dump is made into."""
    with open(os.path.join(TOP, "examples", "slurm-22.05.txt"), "rb") as file:
        return convert(file, Options(64, **options))


class RealDump(unittest.TestCase):
    @classmethod
    def setUpClass(cls):
        cls.made = made()

    def test_each_row_is_a_job(self):
        jobs = self.made.jobs
        self.assertEqual((len(jobs), sum(it.run == -1 for it in jobs), sum(it.wait == -1 for it in jobs)), (139, 3, 3))
        self.assertEqual([it.number for it in jobs if it.run == -1], [70, 73, 91])
        self.assertEqual([(it.number, it.submit, it.wait, it.run) for it in jobs if it.number in (85, 147, 148, 149)],
                         [(148, 62, 30, 4), (85, 217, 0, 14), (149, 231, 1, 4), (147, 260, 0, 9)])

    def test_what_was_decided_is_counted(self):
        for told in ("3 jobs that never started: without a run time, and so not simulated",
                     "2 earlier executions of requeued or resized jobs kept as jobs of their own, under job numbers from 148 on",
                     "17 tasks of arrays, each a job of its own", "2 parts of heterogeneous jobs, each a job of its own", "1 job with times of suspension",
                     "1 job of unlimited time: the estimate is 31536000 seconds (--unlimited)"):
            self.assertIn(told, self.made.decided)
        self.assertEqual(self.made.warned, ["1 job ran past the limit: the simulation ends them at it", "2 partitions taken as one machine (--partition chooses)"])

    def test_jobs_are_of_their_users_and_partitions(self):
        users = collections.Counter(it.user for it in self.made.jobs)
        self.assertEqual([users[it] for it in (1, 2, 3, 4, 5)], [29, 40, 29, 23, 18])
        self.assertEqual(collections.Counter(it.partition for it in self.made.jobs), {2: 134, 1: 5})
        self.assertEqual(len(made(partitions=frozenset(["debug"])).jobs), 5)

    def test_its_waits_by_user(self):
        with tempfile.TemporaryDirectory() as room:
            path = os.path.join(room, "a.swf")
            with open(path, "wb") as file:
                self.made.write(file)
            self.assertEqual(len(easybook.recorded(path)), 136)
            pairs = easybook.compare(path)
            names = easybook.names(path)
        self.assertEqual([it[1:5] for it in easybook.summary(pairs)], [(136, 15, 12, 35)])
        self.assertEqual({names[it.group]: it[1:5] for it in easybook.summary(pairs, waits.by_user)}, WAITS)


if __name__ == "__main__":
    unittest.main()
