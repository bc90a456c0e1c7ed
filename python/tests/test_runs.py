"""One log under one scenario; faults and refusals; no process stays behind."""

import gzip
import os
import pickle
import signal
import tempfile
import threading
import time
import unittest
from decimal import Decimal
from unittest import mock

import easybook
from easybook import Scenario, program, runs
from tests.cluster import FOUR, Whole, a_log, a_pipe, a_program, is_running


class Simulating(unittest.TestCase):
    def test_the_four_jobs_on_ten_processors(self):
        with a_log() as log:
            run = easybook.simulate(log, procs=10)
        self.assertEqual(run.scenario, Scenario(10, 1000, "arrival", "10-1000"))
        self.assertEqual([tuple(it) for it in run.schedule], [(1, 0, 0, 100, 6, False), (2, 1, 100, 150, 8, False),
                                                              (3, 2, 2, 92, 4, False), (4, 3, 92, 592, 2, False)])
        self.assertEqual([it.wait for it in run.schedule], [0, 99, 0, 89])
        self.assertEqual(run.table, easybook.Table(4, 0, 0, 0, 0, 0, 47, 99, 185, Decimal("1.539"), 2360, 592, Decimal("39.864")))
        self.assertEqual(run.users, [easybook.User(7, 2, 0, Decimal("1.000"), 960), easybook.User(8, 2, 94, Decimal("2.079"), 1400)])
        self.assertEqual(run.days, [easybook.Day(0, 2360, Decimal("0.273"))])

    def test_the_other_order_a_factor_and_a_killed_job(self):
        with a_log() as log:
            run = easybook.simulate(log, 16, 500, "shortest", spacing=1)
        self.assertEqual([it.killed for it in run.schedule], [True] * 4)
        self.assertEqual([it.end - it.start for it in run.schedule], [50, 25, 45, 250])

    def test_the_logs_own_machine(self):
        for head, want in [("; MaxProcs: 16\n", 16), ("; MaxNodes: 16\n", 16), ("; Scenario: a 16 500\n; Scenario: b 10 1000\n; MaxProcs: 5\n", 16)]:
            with a_log(head + FOUR) as log:
                self.assertEqual(easybook.simulate(log).scenario.procs, want)

    def test_no_jobs(self):
        with a_log("") as log:
            run = easybook.simulate(log, 1)
        self.assertEqual((run.schedule, run.users, run.days, run.table.utilization), ([], [], [], Decimal("0.000")))

    def test_a_packed_log_and_one_whose_name_begins_with_a_dash(self):
        with a_log(name="-a.swf") as log:
            before = os.getcwd()
            os.chdir(os.path.dirname(log))
            try:
                self.assertEqual(easybook.simulate("-a.swf", 10).table.mean_wait, 47)
            finally:
                os.chdir(before)
            with gzip.open(f"{log}.gz", "wb") as file:
                file.write(FOUR.encode())
            self.assertEqual(easybook.simulate(f"{log}.gz", 10).table.mean_wait, 47)

    def test_a_log_that_is_read_once(self):
        with a_pipe() as log:
            self.assertEqual(easybook.simulate(log, 10).table.mean_wait, 47)
        with a_pipe() as log:
            self.assertEqual([(it.log, it.mean_wait) for it in easybook.run(log, Scenario(10), Scenario(16))], [(log, 47), (log, 12)])
        with a_pipe() as log, easybook.open(log, 10) as it:
            self.assertEqual((it.settle(), it.table("base").mean_wait), (0, 47))
        with a_pipe() as log:
            self.assertEqual(len(easybook.read(log).jobs), 4)
        self.assertEqual([program.is_read_once(it) for it in ("/dev/stdin", "/proc/self/fd/0", os.devnull, "/", "/no/such/log", __file__)], [True] * 3 + [False] * 3)

    def test_a_log_whose_name_is_no_utf_8(self):
        with tempfile.TemporaryDirectory() as room:
            log = os.path.join(room, os.fsdecode(b"a\xff.swf"))
            with open(log, "w", encoding="utf-8") as file:
                file.write(FOUR)
            self.assertEqual(easybook.simulate(log, 10).table.mean_wait, 47)
            self.assertEqual([(it.log, it.mean_wait) for it in easybook.sweep(log, [Scenario(10), Scenario(16)], at_once=1)], [(log, 47), (log, 12)])
            with easybook.open(log, 10) as it:
                self.assertEqual(it.settle(), 0)
            with program.as_file(os.path.join(room, "é.swf")) as path:
                self.assertEqual(path, os.path.join(room, "é.swf"))

    def test_whole_numbers_of_other_types(self):
        with a_log() as log:
            run = easybook.simulate(log, Whole(10), Whole(500), spacing=Whole(1))
        self.assertEqual([(it, type(it)) for it in run.scenario[:2]], [(10, int), (500, int)])

    def test_a_file_that_this_process_alone_has_open(self):
        with a_log() as path, open(path, "rb") as file:
            os.remove(path)
            self.assertEqual(easybook.simulate(f"/dev/fd/{file.fileno()}", 10).table.mean_wait, 47)

    def test_rows_of_several_scenarios(self):
        with a_log() as log:
            rows = easybook.run(log, Scenario(10), Scenario(16, name="big"))
        self.assertEqual([tuple(it) for it in rows], [
            (log, "10-1000", 10, 1000, "arrival", 4, 47, Decimal("1.539"), Decimal("39.864"), 0, 0),
            (log, "big", 16, 1000, "arrival", 4, 12, Decimal("1.136"), Decimal("29.324"), 0, 0)])


class Faults(unittest.TestCase):
    def test_a_fault_of_the_log(self):
        for text, want in [("x", (1, "FieldCount", None)), (FOUR + FOUR, (5, "DuplicateJob", None)), (FOUR.replace("500 2", "5e2 2"), (4, "BadNumber", 4))]:
            with a_log(text) as log:
                for procs in (10, None):
                    with self.assertRaises(easybook.LogFault) as caught:
                        easybook.simulate(log, procs)
                    self.assertEqual((caught.exception.line, caught.exception.kind, caught.exception.field), want)
                    with self.assertRaises(easybook.LogFault) as read:
                        easybook.read(log)
                    self.assertEqual(read.exception.args, caught.exception.args)

    def test_no_machine(self):
        with a_log() as log, self.assertRaises(easybook.Ended) as caught:
            easybook.simulate(log)
        self.assertEqual((caught.exception.status, caught.exception.line), (1, "no machine size"))

    def test_a_bad_machine_of_the_logs_own(self):
        for procs in ("0", "16777217"):
            with a_log(f"; MaxProcs: {procs}\n" + FOUR) as log:
                for it in (easybook.simulate, easybook.run, easybook.open):
                    with self.subTest(procs), self.assertRaises(easybook.Ended) as caught:
                        it(log)
                    self.assertEqual(caught.exception.args, (1, "bad machine size"))
                self.assertEqual(easybook.simulate(log, 10).table.mean_wait, 47)

    def test_no_log(self):
        with self.assertRaises(FileNotFoundError):
            easybook.simulate("/no/such/log", 10)

    def test_words_are_checked_before_they_are_sent(self):
        with a_log() as log:
            for words in [dict(procs=0), dict(procs=16_777_217), dict(procs=1.0), dict(procs=True), dict(procs="10\nquit"), dict(procs=Whole(0)), dict(procs=10, spacing=0), dict(procs=10, spacing=True), dict(procs=10, factor=0),
                          dict(procs=10, factor=100_001), dict(procs=10, order="arrival\nquit"), dict(procs=10, order="fast")]:
                with self.subTest(words), self.assertRaises(easybook.BadWord):
                    easybook.simulate(log, **words)
            for name in ("a\nquit", "", "A", "a b", "a" * 17, "é", "a\n", 7):
                with self.subTest(name), self.assertRaises(easybook.BadWord):
                    easybook.run(log, Scenario(10, name=name))
            with self.assertRaises(easybook.BadWord):
                easybook.run(log, Scenario(10, name="a"), Scenario(11, name="a"))

    def test_no_program(self):
        with a_log() as log:
            for path in ("/no/such/program", "/bin/true", log):
                with self.subTest(path), self.assertRaises(easybook.NoProgram):
                    easybook.simulate(log, 10, program=path)

    def test_what_to_do_where_there_is_none_is_said(self):
        without = {name: it for name, it in os.environ.items() if name != "EASYBOOK"}
        with mock.patch.dict(os.environ, {**without, "PATH": "/no/such/folder"}, clear=True), mock.patch.object(program, "__file__", "/no/such/site/easybook/program.py"):
            with self.assertRaisesRegex(easybook.NoProgram, r"^the program .* PATH: set EASYBOOK to its path, or give --program PATH \(in Python program=PATH\)$"):
                program.find()
        with mock.patch.dict(os.environ, EASYBOOK="/no/such/program"):
            with self.assertRaisesRegex(easybook.NoProgram, "^there is no program /no/such/program, which EASYBOOK names$"):
                program.find()
            with self.assertRaisesRegex(easybook.NoProgram, "^there is no program /no/such/other$"):
                program.find("/no/such/other")

    def test_a_program_that_is_killed(self):
        with a_log() as log, a_program("kill -9 $$") as fake, self.assertRaises(easybook.Ended) as caught:
            easybook.simulate(log, 10, program=fake)
        self.assertEqual(caught.exception.status, -signal.SIGKILL)

    def test_answers_that_are_cut_or_strange(self):
        for body, want in [("cat >/dev/null; printf 'scenario base dro'; exit 1", easybook.Ended), ("cat >/dev/null; echo hello", easybook.UnknownAnswer),
                           ("cat >/dev/null; echo refused NoSuchScenario", easybook.NoSuchScenario),
                           ("cat >/dev/null; echo refused Behind seen 3 found 2", easybook.Behind),
                           ("cat >/dev/null; echo refused Later", easybook.Refused), ("cat >/dev/null; echo refused", easybook.Refused),
                           ("cat >/dev/null; echo fault line 3 BadWord 2", easybook.ScriptFault), ("cat >/dev/null; echo fault line", easybook.UnknownAnswer),
                           ("echo easybook: out of memory >&2; exit 1", easybook.Ended), ("exec /bin/cat", easybook.UnknownAnswer)]:
            with self.subTest(body), a_log() as log, a_program(body) as fake:
                with self.assertRaises(want):
                    easybook.simulate(log, 10, program=fake)
                self.assertFalse(is_running(fake))

    def test_want_of_memory_in_a_run(self):
        told = "scenario base dropped\\nscenario s0 added\\nfailed 1\\nrefused NotYet\\n"
        with a_log() as log, a_program(f"cat >/dev/null; printf '{told}'") as fake:
            with self.assertRaises(easybook.Memory):
                easybook.simulate(log, 10, program=fake)
            with self.assertRaises(easybook.Memory):
                easybook.run(log, Scenario(10), program=fake)

    def test_each_can_be_pickled(self):
        for it in (easybook.LogFault(3, "BadNumber", 4), easybook.Behind(2, 1), easybook.NoSuchJob(), easybook.Ended(-9, ""),
                   easybook.DumpFault(1, "x"), easybook.ScriptFault(1, "Words"), easybook.BadWord("x")):
            again = pickle.loads(pickle.dumps(it))
            self.assertEqual((type(again), again.args, str(again)), (type(it), it.args, str(it)))
            self.assertEqual(vars(again), vars(it))


class Processes(unittest.TestCase):
    def test_none_is_left_where_the_reader_raises(self):
        with a_log() as log, a_program("echo hello; exec sleep 60") as fake:
            with self.assertRaises(ZeroDivisionError), program.answers(log, b"", program=fake) as told:
                self.assertEqual(told.line(), "hello")
                raise ZeroDivisionError
            self.assertFalse(is_running(fake))

    def test_one_that_never_reads_its_script_is_ended(self):
        with a_log() as log, a_program("exec sleep 60") as fake:
            stopper = program.Stopper()
            threading.Timer(0.5, stopper.stop).start()
            began = time.monotonic()
            with self.assertRaises(easybook.Ended):
                with program.answers(log, b"version\n" * 100_000, program=fake, stopper=stopper) as told:
                    told.line()
            self.assertLess(time.monotonic() - began, 30)
            self.assertFalse(is_running(fake))

    def test_the_logs_own_scenarios_are_those_that_the_program_opens(self):
        heads = ["; Scenario: a 10 500 shortest", "; Scenario: a 10 501", ";Scenario:b 7 1000 fast", "; Scenario: c 0 1000", ";Scenario:\td\t9\t1 ",
                 "; Scenario: e 16777217 1", "; Scenario: E 1 1", "; Scenario: f 1 100001", "; Scenario: g 010 0500 arrival x", "\t; Scenario: h 010 0500"]
        heads += [f"; Scenario: x{it} 5 1000" for it in range(70)]
        with a_log("\n".join(heads) + "\n" + FOUR) as log:
            own = runs.opening(easybook.swf.comments_of(log))
            with program.answers(log, b"side\n") as told:
                names = tuple(it.name for it in told.side())
        self.assertEqual(own.names, names)
        self.assertEqual((len(names), own.procs), (64, 10))


if __name__ == "__main__":
    unittest.main()
