"""Many scenarios of many logs: rows, failures, executors, what is left behind."""

import concurrent.futures
import gzip
import importlib.util
import io
import os
import shutil
import subprocess
import sys
import tempfile
import threading
import time
import unittest
import warnings
from decimal import Decimal
from unittest import mock

import easybook
from easybook import Scenario, program, sweeps
from tests.cluster import FOUR, Whole, a_log, a_pipe, a_program, is_running, pids


def a_table(name):
    """What a program prints, as the shell's printf takes it, as the table of a scenario."""
    return (f"table {name} version 0\\njobs 4 killed 1\\nskipped size 1 run 2 large 3 long 4\\nwait mean 12 greatest 49\\nlength mean 185\\n"
            "slowdown mean 1.136\\nbusy 2360 span 503\\nutilization 29.324%%\\n")


class Sweeping(unittest.TestCase):
    def test_rows_are_in_the_order_of_logs_and_scenarios(self):
        scenarios = [Scenario(it, order=order) for it in (16, 10) for order in ("shortest", "arrival")]
        with a_log() as one, a_log(FOUR.replace("100 6", "100 5"), "b.swf") as two:
            rows = easybook.sweep([one, two], scenarios)
        self.assertEqual([(it.log, it.procs, it.order) for it in rows], [(log, it.procs, it.order) for log in (one, two) for it in scenarios])
        self.assertEqual([it.mean_wait for it in rows[:4]], [12, 12, 47, 47])
        self.assertEqual(rows.failures, [])

    def test_rows_tell_of_jobs_that_were_killed_or_skipped(self):
        # Half of each limit kills all four. Of the others one has no processors, one no run time; and the second is larger than 7.
        more = "5 4 -1 9 -1 -1 -1 -1 9 -1 1 7 -1 -1 -1 -1 -1 -1\n6 4 -1 -1 -1 -1 -1 2 9 -1 5 7 -1 -1 -1 -1 -1 -1\n"
        with a_log(FOUR + more) as log:
            rows = easybook.sweep(log, [Scenario(10), Scenario(10, 500), Scenario(7), Scenario(1)], at_once=3)
        self.assertEqual([(it.jobs, it.killed, it.skipped) for it in rows], [(4, 0, 2), (4, 4, 2), (3, 0, 3), (0, 0, 6)])
        self.assertEqual([(it.skipped_size, it.skipped_run, it.skipped_large) for it in rows.tables], [(1, 1, 0), (1, 1, 0), (1, 1, 1), (1, 1, 4)])
        self.assertEqual([it.mean_wait for it in rows.tables], [it.mean_wait for it in rows])

    def test_more_than_64_scenarios_are_split(self):
        with a_log() as log:
            rows = easybook.sweep(log, [Scenario(8 + it) for it in range(150)], at_once=64)
        self.assertEqual([it.procs for it in rows], list(range(8, 158)))
        self.assertEqual(rows[2].mean_wait, 47)

    def test_the_machine_of_each_log(self):
        with a_log("; MaxProcs: 10\n" + FOUR) as one, a_log("; MaxProcs: 16\n" + FOUR, "b.swf") as two:
            rows = easybook.sweep([one, two], [Scenario(), Scenario(factor=2000)])
        self.assertEqual([(it.scenario, it.mean_wait) for it in rows][::2], [("10-1000", 47), ("16-1000", 12)])

    def test_a_failed_log_is_told_and_loses_no_other(self):
        scenarios = [Scenario(10), Scenario(16, name="big")]
        with a_log() as good, a_log("x", "bad.swf") as bad, warnings.catch_warnings(record=True) as told:
            warnings.simplefilter("always")
            rows = easybook.sweep([bad, good, "/no/such/log"], scenarios)
        self.assertEqual([(it.log, it.scenario) for it in rows], [(good, "10-1000"), (good, "big")])
        self.assertEqual([(it.log, it.scenario.label) for it in rows.failures],
                         [(bad, "10-1000"), (bad, "big"), ("/no/such/log", "10-1000"), ("/no/such/log", "big")])
        self.assertEqual(rows.failures[0].error.args, (1, "FieldCount", None))
        self.assertIn(f"{bad}, scenario big: line 1 of the log: FieldCount", [str(it.message) for it in told])

    def test_a_scenario_without_memory_loses_no_other(self):
        for why in ("NotYet", "Behind seen 1 found 0", "Memory"):
            told = f"scenario base dropped\\nscenario s0 added\\nscenario s1 added\\nfailed 1\\nrefused {why}\\n{a_table('s1')}"
            with self.subTest(why), a_log() as log, a_program(f"cat >/dev/null; printf '{told}'") as fake, warnings.catch_warnings():
                warnings.simplefilter("ignore")
                rows = easybook.sweep(log, [Scenario(10), Scenario(16)], at_once=2, program=fake)
                self.assertEqual(len(pids(fake)), 1)
            self.assertEqual([tuple(it) for it in rows], [(log, "16-1000", 16, 1000, "arrival", 4, 12, Decimal("1.136"), Decimal("29.324"), 1, 10)])
            self.assertEqual([(it.scenario.procs, type(it.error)) for it in rows.failures], [(10, easybook.Memory)])
            self.assertEqual([it.skipped_large for it in rows.tables], [3])

    def test_a_scenario_that_cannot_be_opened_loses_no_other(self):
        with a_log("; MaxProcs: 99999999\n" + FOUR) as log:
            done = sweeps.work(sweeps.Task(log, (Scenario(), Scenario(16)), None))
        self.assertEqual([tuple(it) for it in done.rows], [(log, "16-1000", 16, 1000, "arrival", 4, 12, Decimal("1.136"), Decimal("29.324"), 0, 0)])
        self.assertEqual([(it.scenario, type(it.error)) for it in done.failures], [(Scenario(), easybook.Ended)])

    def test_a_program_that_dies_of_one_scenario_loses_no_other(self):
        told = f"scenario base dropped\\nscenario s0 added\\nsettled 0\\n{a_table('s0')}"
        body = f"case $(cat) in *' 10 '*) kill -9 $$;; esac; printf '{told}'"
        with a_log() as log, a_program(body) as fake, warnings.catch_warnings():
            warnings.simplefilter("ignore")
            rows = easybook.sweep(log, [Scenario(10), Scenario(16), Scenario(10, 500), Scenario(17)], at_once=4, program=fake)
            self.assertEqual(len(pids(fake)), 5)
        self.assertEqual([it.procs for it in rows], [16, 17])
        self.assertEqual(len(rows.tables), 2)
        self.assertEqual([(it.scenario.label, it.error.args) for it in rows.failures], [("10-1000", (-9, "")), ("10-500", (-9, ""))])

    def test_what_fails_for_all_scenarios_is_not_tried_again(self):
        with a_log() as log, a_program("echo 'easybook: line 1: FieldCount' >&2; exit 1") as fake:
            done = sweeps.work(sweeps.Task(log, (Scenario(10), Scenario(16)), fake))
            self.assertEqual(len(pids(fake)), 1)
        self.assertEqual([type(it.error) for it in done.failures], [easybook.LogFault] * 2)

    def test_nothing_is_tried_again_once_all_is_stopped(self):
        stopper = program.Stopper()
        stopper.stop()
        with a_log() as log, a_program("exec sleep 60") as fake, mock.patch.object(sweeps, "side", wraps=sweeps.side) as side:
            done = sweeps.work(sweeps.Task(log, (Scenario(10), Scenario(16)), fake), stopper)
        self.assertEqual(side.call_count, 1)
        self.assertEqual([(it.scenario.procs, type(it.error)) for it in done.failures], [(10, easybook.Ended), (16, easybook.Ended)])

    def test_scenarios_are_checked_before_anything_runs(self):
        with self.assertRaises(easybook.BadWord):
            easybook.sweep(["/no/such/log"], [Scenario(10), Scenario(10, order="fast")])
        with self.assertRaises(easybook.BadWord):
            easybook.sweep(["/no/such/log"], [Scenario(10, name="a"), Scenario(11, name="a")], at_once=1)

    def test_a_scenario_alone_and_what_is_none(self):
        with a_log() as log:
            self.assertEqual([it.mean_wait for it in easybook.sweep(log, Scenario(16))], [12])
            for it in ([10], [Scenario(10), (10, 1000)], "10", [[Scenario(10)]]):
                with self.subTest(it), self.assertRaisesRegex(easybook.BadWord, "^a scenario is an easybook.Scenario, not [^\n]+$"):
                    easybook.sweep(log, it)
            with self.assertRaisesRegex(easybook.BadWord, "^a scenario is an easybook.Scenario, not 10$"):
                easybook.run(log, 10)

    def test_whole_numbers_of_other_types(self):
        with a_log() as log:
            rows = easybook.sweep(log, [Scenario(Whole(10), Whole(500)), Scenario(16)], at_once=Whole(1), threads=Whole(2))
        self.assertEqual([(it.scenario, it.procs, type(it.procs), type(it.factor)) for it in rows], [("10-500", 10, int, int), ("16-1000", 16, int, int)])

    def test_a_packed_log_is_unpacked_once(self):
        scenarios = [Scenario(it) for it in (10, 16, 17)]
        with tempfile.TemporaryDirectory() as room, a_log() as plain, mock.patch.object(tempfile, "tempdir", room):
            with gzip.open(f"{plain}.gz", "wb") as file:
                file.write(FOUR.encode())
            log = f"{plain}.gz"
            with concurrent.futures.ThreadPoolExecutor(2) as executor:
                for words, want in ((dict(at_once=1), 1), (dict(at_once=3), 1), (dict(at_once=1, executor=executor), 3)):
                    with self.subTest(words), mock.patch.object(program, "opened", wraps=program.opened) as opened:
                        self.assertEqual([(it.log, it.mean_wait) for it in easybook.sweep(log, scenarios, **words)], [(log, 47), (log, 12), (log, 12)])
                        self.assertEqual((opened.call_count, os.listdir(room)), (want, []))
            with open(log, "rb") as file:
                half = file.read()[:-12]
            with open(log, "wb") as file:
                file.write(half)
            with warnings.catch_warnings():
                warnings.simplefilter("ignore")
                rows = easybook.sweep([log, plain], scenarios, at_once=1)
            self.assertEqual(([it.log for it in rows], [str(it.error).split(":")[0] for it in rows.failures]), ([plain] * 3, [f"{log} is no whole gzip file"] * 3))
            with mock.patch.object(sweeps, "_over", side_effect=KeyboardInterrupt), self.assertRaises(KeyboardInterrupt):
                easybook.sweep(log, scenarios, at_once=1)
            self.assertEqual(os.listdir(room), [])

    def test_logs_that_are_read_once(self):
        scenarios = [Scenario(it) for it in (10, 16)]
        with a_pipe() as one, a_log() as other, a_pipe(FOUR.replace("6 100", "1 100")) as two:
            rows = easybook.sweep([one, other, two, one], scenarios, at_once=1)
        self.assertEqual([it.log for it in rows], [log for log in (one, other, two, one) for _ in scenarios])
        # With a first job of 1 processor the second starts at once, and on 10 the third and the fourth at 51: (49 + 48) / 4.
        self.assertEqual([it.mean_wait for it in rows], [47, 12, 47, 12, 24, 0, 47, 12])
        with a_pipe() as log, concurrent.futures.ProcessPoolExecutor(2) as executor:
            self.assertEqual([it.mean_wait for it in easybook.sweep(log, scenarios, executor, at_once=1)], [47, 12])

    def test_a_log_that_cannot_be_copied_loses_no_other(self):
        with a_pipe() as gone, a_pipe() as log, warnings.catch_warnings():
            warnings.simplefilter("ignore")
            with mock.patch.object(program.shutil, "copyfileobj", side_effect=[OSError("no room"), mock.DEFAULT], wraps=shutil.copyfileobj):
                rows = easybook.sweep([gone, log], [Scenario(10), Scenario(16)])
        self.assertEqual([(it.log, it.mean_wait) for it in rows], [(log, 47), (log, 12)])
        self.assertEqual([str(it) for it in rows.failures], [f"{gone}, scenario {it}: no room" for it in ("10-1000", "16-1000")])

    def test_how_many_at_once_is_checked(self):
        for it in (0, -1, True, 1.5, "4"):
            with self.subTest(it), self.assertRaisesRegex(easybook.BadWord, "^scenarios at once: a whole number from 1 on, not "):
                easybook.sweep(["/no/such/log"], [Scenario(10)], at_once=it)
            with self.subTest(it), self.assertRaisesRegex(easybook.BadWord, "^threads: a whole number from 1 on, not "):
                easybook.sweep(["/no/such/log"], [Scenario(10)], threads=it)

    def test_nothing_asked_is_nothing_answered(self):
        with a_log() as log:
            self.assertEqual(easybook.sweep([log], []), [])
            self.assertEqual(easybook.sweep([], [Scenario(10)]), [])


class Executors(unittest.TestCase):
    def test_threads_and_processes(self):
        with a_log() as log:
            want = list(easybook.sweep(log, [Scenario(it) for it in range(8, 20)]))
            for executor in (concurrent.futures.ThreadPoolExecutor(3), concurrent.futures.ProcessPoolExecutor(2)):
                with executor:
                    self.assertEqual(list(easybook.sweep(log, [Scenario(it) for it in range(8, 20)], executor, at_once=5)), want)

    def test_an_executor_that_refuses_a_task_loses_no_other(self):
        class Refusing(concurrent.futures.Executor):
            taken = 0

            def submit(self, fn, /, *words):
                self.taken += 1
                if self.taken == 2:
                    raise RuntimeError("it takes no more")
                future = concurrent.futures.Future()
                future.set_result(fn(*words))
                return future

        with a_log() as log, warnings.catch_warnings():
            warnings.simplefilter("ignore")
            rows = easybook.sweep(log, [Scenario(10), Scenario(16), Scenario(17)], Refusing(), at_once=1)
        self.assertEqual([(it.procs, it.mean_wait) for it in rows], [(10, 47), (17, 12)])
        self.assertEqual([str(it) for it in rows.failures], [f"{log}, scenario 16-1000: it takes no more"])

    def test_an_executor_that_is_shut_down(self):
        executor = concurrent.futures.ThreadPoolExecutor(1)
        executor.shutdown()
        with a_log() as log, warnings.catch_warnings():
            warnings.simplefilter("ignore")
            rows = easybook.sweep(log, [Scenario(10), Scenario(16)], executor)
        self.assertEqual((list(rows), [it.scenario.procs for it in rows.failures]), ([], [10, 16]))

    def test_an_executor_whose_worker_is_killed(self):
        with a_log() as log, concurrent.futures.ProcessPoolExecutor(1) as executor, warnings.catch_warnings():
            warnings.simplefilter("ignore")
            executor.submit(os.getpid).result()
            with mock.patch("easybook.sweeps.work", os._exit):
                rows = easybook.sweep(log, [Scenario(10)], executor)
        self.assertEqual((list(rows), len(rows.failures)), ([], 1))

    @unittest.skipUnless(importlib.util.find_spec("mpi4py") and shutil.which("mpiexec"), "mpi4py or mpiexec is not installed")
    def test_mpi4py(self):
        code = """import easybook, sys
from mpi4py.futures import MPIPoolExecutor
if __name__ == "__main__":
    with MPIPoolExecutor() as executor:
        rows = easybook.sweep(sys.argv[1], [easybook.Scenario(10), easybook.Scenario(16)], executor, at_once=1)
    sys.exit([it.mean_wait for it in rows] != [47, 12])
"""
        allowed = {"OMPI_ALLOW_RUN_AS_ROOT": "1", "OMPI_ALLOW_RUN_AS_ROOT_CONFIRM": "1", "OMPI_MCA_rmaps_base_oversubscribe": "1"}
        with a_log() as log, a_log(code, "sweep.py") as script:
            words = ["mpiexec", "-n", "2", sys.executable, "-m", "mpi4py.futures", script, log]
            ran = subprocess.run(words, env={**os.environ, **allowed}, capture_output=True, timeout=120, check=False)
        self.assertEqual(ran.returncode, 0, ran.stderr)

    def test_dask(self):
        try:
            from dask.distributed import Client
        except ImportError:
            self.skipTest("dask.distributed is not installed")
        with a_log() as log, Client(processes=False, dashboard_address=None) as client:
            self.assertEqual(easybook.sweep(log, [Scenario(10)], client.get_executor())[0].mean_wait, 47)

    def test_an_interrupt_ends_the_programs(self):
        with a_log() as log, a_program("exec sleep 60") as fake:
            def interrupt(futures, timeout):
                while not pids(fake):
                    time.sleep(0.01)
                raise KeyboardInterrupt

            began = time.monotonic()
            with mock.patch("easybook.sweeps.as_completed", interrupt), self.assertRaises(KeyboardInterrupt):
                easybook.sweep(log, [Scenario(it) for it in range(8, 20)], program=fake, at_once=1)
            self.assertLess(time.monotonic() - began, 30)
            self.assertFalse(is_running(fake))
        self.assertLess(threading.active_count(), 3)


class Terminal(io.StringIO):
    def isatty(self):
        return True


class Progress(unittest.TestCase):
    def test_it_is_shown_on_a_terminal_alone(self):
        with a_log() as log:
            for screen, is_shown in ((Terminal(), True), (io.StringIO(), False)):
                with mock.patch.object(sweeps.sys, "stderr", screen):
                    easybook.sweep(log, [Scenario(it) for it in range(8, 12)], at_once=1)
                self.assertEqual("4 of 4 scenarios done, about 0 s left" in screen.getvalue(), is_shown)
            with mock.patch.object(sweeps.sys, "stderr", None):
                self.assertEqual(len(easybook.sweep(log, [Scenario(10)])), 1)

    def test_it_begins_with_none_and_moves(self):
        screen = Terminal()
        with a_log() as log, mock.patch.object(sweeps.sys, "stderr", screen), mock.patch.object(sweeps.os, "sched_getaffinity", lambda _: {3}):
            easybook.sweep(log, [Scenario(it) for it in range(8, 16)])
        shown = screen.getvalue().split("\r")
        self.assertEqual(shown[1], "easybook: 0 of 8 scenarios done \033[K")
        self.assertEqual([it.split()[1] for it in shown[2:-1]], ["2", "4", "6", "8"])
        self.assertEqual(shown[-1], "\033[K")

    def test_each_processor_has_four_tasks(self):
        scenarios = [Scenario(it) for it in range(8, 108)]
        with mock.patch.object(sweeps.os, "cpu_count", lambda: 2):
            self.assertEqual([len(it.scenarios) for it in sweeps.tasks(["a"], scenarios, None, None)], [13] * 7 + [9])
            self.assertEqual([len(it.scenarios) for it in sweeps.tasks(["a"], scenarios[:3], None, None)], [1, 1, 1])
            self.assertEqual({len(it.scenarios) for it in sweeps.tasks(["a"] * 8, scenarios, None, None)}, {64, 36})
            self.assertEqual([len(it.scenarios) for it in sweeps.tasks(["a"], scenarios, None, None, 1)], [25] * 4)

    def test_there_are_as_many_threads_as_the_process_may_use_processors(self):
        def threads(*executor, **words):
            with a_log() as log, mock.patch.object(sweeps, "ThreadPoolExecutor", wraps=sweeps.ThreadPoolExecutor) as made:
                rows = easybook.sweep(log, [Scenario(10), Scenario(16)], *executor, **words)
            self.assertEqual([it.mean_wait for it in rows], [47, 12])
            return [it.args for it in made.call_args_list]

        with mock.patch.object(sweeps.os, "sched_getaffinity", lambda _: {3}), mock.patch.object(sweeps.os, "cpu_count", lambda: 40):
            self.assertEqual((threads(), threads(threads=3)), ([(1,)], [(3,)]))
            with concurrent.futures.ThreadPoolExecutor(1) as executor:
                self.assertEqual(threads(executor, threads=3), [])
        with mock.patch.object(sweeps.os, "cpu_count", lambda: 2):
            with mock.patch.object(sweeps.os, "sched_getaffinity"):
                del sweeps.os.sched_getaffinity
                self.assertEqual(threads(), [(2,)])


if __name__ == "__main__":
    unittest.main()
