"""A conversation with the program: each command, what is refused, what is never sent, and how it ends."""

import contextlib
import gc
import gzip
import os
import re
import signal
import subprocess
import sys
import tempfile
import threading
import time
import unittest
from concurrent.futures import ThreadPoolExecutor
from decimal import Decimal
from unittest import mock

import easybook
from easybook import Day, Entry, Job, Missing, Side, Start, Table, User
from tests.cluster import FOUR, Whole, a_log, a_program, is_running, pids

REAL = 'exec "$REAL" "$@"'  # the program itself, of which the process is known
BASE = Side("base", 0, 4, 47, Decimal("1.539"), Decimal("39.864"))
BIG = Side("big", 0, 4, 12, Decimal("1.136"), Decimal("29.324"))
TEN = "; Scenario: base 10 1000 arrival\n"


@contextlib.contextmanager
def watched(body=REAL):
    """A program whose processes are known."""
    real = easybook.program.find()
    with mock.patch.dict(os.environ, REAL=real), a_program(body) as path:
        yield path


def talks(answers):
    """The body of a program that answers by a table, a line of shell for each command, and notes what it is asked."""
    cases = "\n".join(f"{command}) {answer};;" for command, answer in {"version": "echo version 0", "quit": "echo bye; exit", **answers}.items())
    return f'while read -r line; do echo "$line" >>"$(dirname "$0")/asked"; case "$line" in {cases}\n*) exit 7;; esac; done'


def asked(program):
    """What such a program was asked."""
    with open(os.path.join(os.path.dirname(program), "asked"), encoding="utf-8") as file:
        return file.read().splitlines()


class Commands(unittest.TestCase):
    def test_each_command_on_the_four_jobs(self):
        with a_log() as path, easybook.open(path, 10, spacing=1) as log:
            self.assertEqual(log.version(), 0)
            self.assertEqual(log.side(), [Missing("base", "not yet")])
            self.assertEqual(log.settle(), 0)
            self.assertEqual(log.table("base"), Table(4, 0, 0, 0, 0, 0, 47, 99, 185, Decimal("1.539"), 2360, 592, Decimal("39.864")))
            self.assertEqual(log.users("base"), [User(7, 2, 0, Decimal("1.000"), 960), User(8, 2, 94, Decimal("2.079"), 1400)])
            self.assertEqual(log.days("base"), [Day(0, 2360, Decimal("0.273"))])
            self.assertIsNone(log.scenario("big", procs=16))
            self.assertEqual(log.side(), [BASE, Missing("big", "not yet")])
            self.assertEqual(log.settle(), 0)
            self.assertEqual(log.side(), [BASE, BIG])
            self.assertEqual(log.schedule("base"), [Start(1, 0, 0, 100, 6, False), Start(2, 1, 100, 150, 8, False),
                                                    Start(3, 2, 2, 92, 4, False), Start(4, 3, 92, 592, 2, False)])
            self.assertIsNone(log.drop("big"))
            self.assertIsNone(log.retry("base"))
            self.assertEqual(log.log("base"), [Entry(1, 0, 6, 100, 100, 7, False), Entry(2, 1, 8, 50, 50, 8, False),
                                               Entry(3, 2, 4, 90, 90, 7, False), Entry(4, 3, 2, 500, 500, 8, False)])
            self.assertEqual(log.save(), (TEN + FOUR).encode())
            self.assertEqual(log.remove(1), 1)
            self.assertEqual(log.side(), [Missing("base", "behind")])
            self.assertEqual(log.settle(), 1)
            self.assertEqual(log.schedule("base"), [Start(2, 1, 1, 51, 8, False), Start(3, 2, 51, 141, 4, False), Start(4, 3, 3, 503, 2, False)])
            self.assertEqual(log.insert(Job(1, 0, run=100, processors=6, estimate=100, user=7)), 2)
            self.assertEqual(log.change(1, field=9, value=40), 3)
            self.assertEqual(log.log("base")[0], Entry(1, 0, 6, 40, 40, 7, True))
            self.assertEqual(log.version(), 3)

    def test_rows_are_a_table_of_pandas(self):
        try:
            import pandas
        except ImportError:
            self.skipTest("pandas is not installed")
        with a_log() as path, easybook.open(path, 10) as log:
            log.settle()
            schedule, side = pandas.DataFrame(log.schedule("base")), pandas.DataFrame(log.side())
        self.assertEqual(list(schedule.columns), list(Start._fields))
        self.assertEqual(schedule["end"].tolist(), [100, 150, 92, 592])
        self.assertEqual(list(side.columns), list(Side._fields))
        self.assertEqual(side["utilization"].tolist(), [Decimal("39.864")])

    def test_numbers_at_the_edge(self):
        with a_log() as path, easybook.open(path, 10) as log:
            for field, value in [(2, Decimal("-0.0000001")), (11, -3), (4, Decimal("12.3456789")), (9, Decimal("007.50")), (18, -(10**12)),
                                 (3, Decimal("1000000000000.0000009")), (17, Whole(5)), (16, Decimal("1e3")), (15, Decimal("-1e-999999999")), (14, Decimal("0e999999999"))]:
                log.change(1, field, value)
            self.assertEqual(log.version(), 10)
            line = "1 0 1000000000000 12.345678 6 -1 -1 6 7.5 -1 -3 7 -1 0 0 1000 5 -1000000000000"
            self.assertEqual(log.save().splitlines()[1].decode(), line)
            self.assertEqual(easybook.parse(log.save()).jobs[0].estimate, Decimal("7.5"))
            log.insert(Job(10**12, Decimal("-0.0000001"), status=Decimal("2.5")))
            self.assertEqual(log.save().splitlines()[2].decode(), "1000000000000 0" + " -1" * 8 + " 2.5" + " -1" * 7)

    def test_whole_numbers_of_other_types(self):
        with a_log() as path, easybook.open(path, Whole(10), spacing=Whole(1)) as log:
            log.scenario("big", Whole(16), Whole(500))
            self.assertEqual(log.save().splitlines()[:2], [TEN.strip().encode(), b"; Scenario: big 16 500 arrival"])
            self.assertEqual(log.remove(Whole(4)), 1)

    def test_what_isnt_simulated_says_why(self):
        text = "1 0 -1 5 0 -1 -1 -1 5 -1 1 7 -1 -1 -1 -1 -1 -1\n2 0 -1 -1 4 -1 -1 4 5 -1 1 7 -1 -1 -1 -1 -1 -1\n3 0 -1 5 11 -1 -1 11 5 -1 1 7 -1 -1 -1 -1 -1 -1\n"
        text += "4 0 -1 0 10 -1 -1 10 -1 -1 1 7 -1 -1 -1 -1 -1 -1\n5 0 -1 5 1 -1 -1 1 200000000 -1 1 7 -1 -1 -1 -1 -1 -1\n"
        with a_log(text) as path, easybook.open(path, 10) as log:
            self.assertEqual(log.log("base"), [Entry(1, skipped="NoSize"), Entry(2, skipped="NoRun"), Entry(3, skipped="TooLarge"),
                                               Entry(4, 0, 10, 1, 1, 7, False), Entry(5, skipped="TooLong")])

    def test_comments_of_any_bytes_are_saved(self):
        with tempfile.TemporaryDirectory() as room:
            path = os.path.join(room, "a.swf")
            with open(path, "wb") as file:
                file.write(b"; \xff\x85 \r \x0c \x1c x\n; MaxProcs: 10\n" + FOUR.encode())
            with easybook.open(path) as log:
                self.assertEqual(log.save(), b"; \xff\x85 \r \x0c \x1c x\n; MaxProcs: 10\n" + (TEN + FOUR).encode())

    def test_the_other_order_and_a_factor(self):
        with a_log() as path, easybook.open(path, 10) as log:
            log.scenario("short", 16, 500, "shortest")
            self.assertEqual(log.save().splitlines()[1], b"; Scenario: short 16 500 shortest")
            self.assertEqual([it.estimate for it in log.log("short")], [50, 25, 45, 250])

    def test_a_packed_log_and_one_whose_name_begins_with_a_dash(self):
        with a_log(name="-a.swf") as path:
            before = os.getcwd()
            os.chdir(os.path.dirname(path))
            try:
                with easybook.open("-a.swf", 10) as log:
                    self.assertEqual(log.settle(), 0)
            finally:
                os.chdir(before)
            with gzip.open(f"{path}.gz", "wb") as file:
                file.write(FOUR.encode())
            with easybook.open(f"{path}.gz", 10) as log:
                self.assertEqual(log.save(), (TEN + FOUR).encode())

    def test_answers_of_many_lines(self):
        count = 5_000
        text = "".join(f"{it} {it} -1 1 1 -1 -1 1 1 -1 1 7 -1 -1 -1 -1 -1 -1\n" for it in range(count))
        with a_log(text) as path, easybook.open(path, 1) as log:
            log.settle()
            self.assertEqual(log.schedule("base"), [Start(it, it, it, it + 1, 1, False) for it in range(count)])
            self.assertEqual(log.save(), (TEN.replace(" 10 ", " 1 ") + text).encode())

    def test_two_threads_on_one_log(self):
        def edits(job):
            made = []
            for value in range(100):
                made.append(log.change(job, 17, value))
                self.assertGreaterEqual(log.settle(), made[-1])
                try:
                    self.assertEqual([it.number for it in log.schedule("base")], [1, 2, 3, 4])
                except easybook.Behind as it:  # the other edited in between
                    self.assertLess(it.found, it.seen)
            return made

        with a_log() as path, easybook.open(path, 10) as log, ThreadPoolExecutor(2) as threads:
            first, second = threads.map(edits, (1, 2))
            self.assertEqual(log.version(), 200)
        self.assertEqual((first, second), (sorted(first), sorted(second)))
        self.assertEqual(sorted(first + second), list(range(1, 201)))


class Refusals(unittest.TestCase):
    def test_what_is_refused_leaves_all_as_it_was(self):
        with a_log() as path, easybook.open(path, 10) as log:
            for want, it in [
                (easybook.NoSuchJob, lambda: log.remove(99)),
                (easybook.NoSuchJob, lambda: log.change(99, 0, -1)),
                (easybook.DuplicateJob, lambda: log.insert(Job(1, 4))),
                (easybook.BadField, lambda: log.change(1, 0, 5)),
                (easybook.BadField, lambda: log.change(1, 1, 5)),
                (easybook.BadField, lambda: log.change(1, 19, 5)),
                (easybook.BadField, lambda: log.change(1, 255, 5)),
                (easybook.BadValue, lambda: log.change(1, 2, -1)),
                (easybook.BadValue, lambda: log.change(1, 11, Decimal("3.0"))),
                (easybook.NameTaken, lambda: log.scenario("base", 5)),
                (easybook.NoSuchScenario, lambda: log.drop("a")),
                (easybook.NoSuchScenario, lambda: log.retry("a")),
                (easybook.NoSuchScenario, lambda: log.schedule("a")),
                (easybook.NoSuchScenario, lambda: log.log("a")),
                (easybook.NotYet, lambda: log.schedule("base")),
                (easybook.NotYet, lambda: log.table("base")),
                (easybook.NotYet, lambda: log.users("base")),
                (easybook.NotYet, lambda: log.days("base")),
            ]:
                with self.assertRaises(want):
                    it()
                self.assertEqual(log.version(), 0)
            self.assertEqual(log.save(), (TEN + FOUR).encode())

    def test_behind_says_what_was_seen_and_found(self):
        with a_log() as path, easybook.open(path, 10) as log:
            log.settle()
            log.remove(4)
            log.insert(Job(4, 3, run=500, processors=2, estimate=500, user=8))
            for it in (log.schedule, log.table, log.users, log.days):
                with self.assertRaises(easybook.Behind) as caught:
                    it("base")
                self.assertEqual((caught.exception.seen, caught.exception.found), (2, 0))
            self.assertEqual(log.settle(), 2)
            self.assertEqual([it.start for it in log.schedule("base")], [0, 100, 2, 92])

    def test_a_scenario_too_many(self):
        with a_log() as path, easybook.open(path, 10) as log:
            for it in range(63):
                log.scenario(f"s{it}", 10)
            with self.assertRaises(easybook.TooMany):
                log.scenario("s63", 10)
            self.assertEqual(len(log.side()), 64)

    def test_want_of_memory(self):
        with a_log() as path, watched(talks({"settle": "echo failed 1", "remove*": "echo refused Memory", "side": "echo refused JournalFull"})) as fake:
            with easybook.open(path, program=fake) as log:
                for want, it in [(easybook.Memory, log.settle), (easybook.Memory, lambda: log.remove(1)), (easybook.JournalFull, log.side)]:
                    with self.assertRaises(want):
                        it()
        with a_log() as path, watched(talks({"settle": "echo stopped"})) as fake:
            with easybook.open(path, program=fake) as log, self.assertRaises(easybook.Memory):
                log.settle()


class Words(unittest.TestCase):
    def test_names_and_numbers_are_checked_before_they_are_sent(self):
        names = ("a\nquit", "", "A", "a b", "a" * 17, "é", "a\n", "a\r", "a\t", 7, None, b"a", "١")
        numbers = (1.0, True, "5", None, Decimal("NaN"), Decimal("sNaN"), Decimal("Infinity"), 10**12 + 1, -(10**12) - 1, 10**5000,
                   Decimal("1000000000000.000001"), Decimal("1e999999999"), "1\nquit", b"1")
        wholes = (-1, 1.0, True, "5", None, 10**12 + 1, Decimal(1), "1\nquit", 10**5000)
        with a_log() as path, watched(talks({})) as fake, easybook.open(path, program=fake) as log:
            tries = [lambda name=name, it=it: it(name) for name in names for it in (log.schedule, log.table, log.users, log.days, log.log, log.drop, log.retry)]
            tries += [lambda name=name: log.scenario(name, 5) for name in names]
            tries += [lambda it=it: log.scenario("a", it) for it in (*wholes, 0, 16_777_217)]
            tries += [lambda it=it: log.scenario("a", 5, it) for it in (*wholes, 0, 100_001)]
            tries += [lambda it=it: log.scenario("a", 5, 1000, it) for it in ("fast", "arrival\nquit", "", None)]
            tries += [lambda it=it: log.change(1, 3, it) for it in numbers]
            tries += [lambda it=it: log.insert(Job(1, 5, it)) for it in numbers]
            tries += [lambda it=it: log.insert(it) for it in (Job(1), Job(-1, 5), Job(Decimal("1.5"), 5), Job(1, Decimal("-0.5")), Job(1, 5, status=2),
                                                             Job(1, 5, status=Decimal("3.00")), Job(1, 5, status=Decimal("4.0000001")), (1, 2), "1 2", None)]
            tries += [lambda it=it: log.remove(it) for it in wholes]
            tries += [lambda it=it: log.change(it, 2, 1) for it in wholes]
            tries += [lambda it=it: log.change(1, it, 1) for it in (*wholes, 256)]
            for it in tries:
                with self.assertRaises(easybook.BadWord) as caught:
                    it()
                self.assertNotIn("\n", str(caught.exception))
                self.assertLess(len(str(caught.exception)), 250)
            self.assertEqual(asked(fake), ["version"])
            self.assertEqual(log.version(), 0)

    def test_the_words_of_open(self):
        with a_log() as path, watched() as fake:
            for words in [dict(procs=0), dict(procs=16_777_217), dict(procs=1.0), dict(procs="10"), dict(spacing=0), dict(spacing=65_537), dict(spacing="1")]:
                with self.subTest(words), self.assertRaises(easybook.BadWord):
                    easybook.open(path, program=fake, **words)
            self.assertEqual(pids(fake), [])


class Ends(unittest.TestCase):
    def test_a_faulty_log(self):
        for text, want in [("x", (1, "FieldCount", None)), (FOUR + FOUR, (5, "DuplicateJob", None)), (FOUR.replace("500 2", "5e2 2"), (4, "BadNumber", 4))]:
            with a_log(text) as path, watched() as fake:
                with self.assertRaises(easybook.LogFault) as caught:
                    easybook.open(path, 10, program=fake)
                self.assertEqual((caught.exception.line, caught.exception.kind, caught.exception.field), want)
                self.assertFalse(is_running(fake))

    def test_no_machine_and_no_log(self):
        with a_log() as path, watched() as fake:
            with self.assertRaises(easybook.Ended) as caught:
                easybook.open(path, program=fake)
            self.assertEqual((caught.exception.status, caught.exception.line), (1, "no machine size"))
            with self.assertRaises(FileNotFoundError):
                easybook.open(f"{path}.none", 10, program=fake)
            with self.assertRaises(IsADirectoryError):
                easybook.open(os.path.dirname(path), 10, program=fake)
            self.assertEqual(len(pids(fake)), 3)
            self.assertFalse(is_running(fake))
            with self.assertRaises(easybook.NoProgram):
                easybook.open(path, 10, program="/bin/true")

    def test_close_has_it_quit(self):
        with a_log() as path, watched(talks({})) as fake:
            log = easybook.open(path, program=fake)
            log.close()
            self.assertFalse(is_running(fake))
            self.assertEqual(asked(fake), ["version", "quit"])
            log.close()
            with self.assertRaises(easybook.Ended) as caught:
                log.version()
            self.assertEqual((caught.exception.status, caught.exception.line), (0, "it was closed"))

    def test_close_tells_of_a_bad_end(self):
        for answer, want in [("exit 3", 3), ("echo bye; echo easybook: write failed >&2; exit 1", 1), ("kill -9 $$", -signal.SIGKILL)]:
            with a_log() as path, watched(talks({"quit": answer})) as fake:
                with self.assertRaises(easybook.Ended) as caught, easybook.open(path, program=fake) as log:
                    log.version()
                self.assertEqual(caught.exception.status, want)
                self.assertFalse(is_running(fake))

    def test_one_that_is_killed_in_between(self):
        with a_log() as path, watched() as fake:
            with easybook.open(path, 10, program=fake) as log:
                self.assertTrue(is_running(fake))
                os.kill(pids(fake)[0], signal.SIGKILL)
                for _ in range(2):
                    with self.assertRaises(easybook.Ended) as caught:
                        log.version()
                    self.assertEqual((caught.exception.status, caught.exception.line), (-signal.SIGKILL, ""))
                self.assertFalse(is_running(fake))

    def test_one_that_ends_in_the_midst_of_an_answer(self):
        for answer, want in [("echo save 3; echo a; printf b; echo easybook: out of memory >&2; exit 1", (1, "out of memory")), ("exit 1", (1, ""))]:
            with a_log() as path, watched(talks({"save": answer})) as fake, easybook.open(path, program=fake) as log:
                with self.assertRaises(easybook.Ended) as caught:
                    log.save()
                self.assertEqual(caught.exception.args, want)

    def test_a_strange_answer_ends_it(self):
        for answer in ("hello", "version x", "version", "", "fault line"):
            with a_log() as path, watched(talks({"version": "echo version 0", "remove*": f"echo {answer}"})) as fake, easybook.open(path, program=fake) as log:
                with self.subTest(answer), self.assertRaises(easybook.UnknownAnswer):
                    log.remove(1)
                self.assertFalse(is_running(fake))
                with self.assertRaises(easybook.Ended) as caught:
                    log.version()
                self.assertEqual(caught.exception.line, "UnknownAnswer cut off an answer")

    def test_an_exception_inside_leaves_no_process(self):
        with a_log() as path, watched() as fake:
            with self.assertRaises(ZeroDivisionError), easybook.open(path, 10, program=fake) as log:
                self.assertTrue(is_running(fake))
                raise ZeroDivisionError
            self.assertFalse(is_running(fake))
            with self.assertRaises(easybook.Ended):
                log.version()

    def test_an_interrupt_while_it_waits_leaves_no_process(self):
        def raises(number, frame):
            raise ZeroDivisionError

        before = signal.signal(signal.SIGALRM, raises)
        try:
            with a_log() as path, watched(talks({"settle": "exec sleep 60"})) as fake:
                log = easybook.open(path, program=fake)
                signal.setitimer(signal.ITIMER_REAL, 0.2)
                with self.assertRaises(ZeroDivisionError):
                    log.settle()
                self.assertFalse(is_running(fake))
                with self.assertRaises(easybook.Ended) as caught:
                    log.version()
                self.assertEqual(caught.exception.args, (-signal.SIGKILL, "ZeroDivisionError cut off an answer"))
        finally:
            signal.signal(signal.SIGALRM, before)

    def test_an_exception_ends_what_another_thread_waits_for(self):
        told = []

        def waits():
            try:
                log.settle()
            except easybook.Ended as it:
                told.append(it.status)

        with a_log() as path, watched(talks({"settle": "exec sleep 60"})) as fake:
            thread = threading.Thread(target=waits)
            with self.assertRaises(ZeroDivisionError), easybook.open(path, program=fake) as log:
                thread.start()
                while asked(fake)[-1] != "settle":
                    time.sleep(0.01)
                raise ZeroDivisionError
            thread.join(30)
            self.assertEqual(told, [-signal.SIGKILL])
            self.assertFalse(is_running(fake))

    def test_an_interrupt_between_commands_leaves_it_as_it_is(self):
        # The interrupt comes to the whole group of processes, as that of a terminal does. Whoever starts this behind `&` has
        # it ignored.
        code = """import easybook, os, signal, sys, time
signal.signal(signal.SIGINT, signal.default_int_handler)
with easybook.open(sys.argv[1], 10) as log:
    log.remove(4)
    try:
        os.killpg(0, signal.SIGINT)
        time.sleep(60)
    except KeyboardInterrupt:
        time.sleep(0.2)
        print(log.version())
"""
        with a_log() as path, watched() as fake:
            it = subprocess.run([sys.executable, "-c", code, path], env={**os.environ, "EASYBOOK": fake, "REAL": easybook.program.find()},
                                start_new_session=True, capture_output=True, text=True, check=False, timeout=60)
            self.assertEqual((it.returncode, it.stdout), (0, "1\n"), it.stderr)
            self.assertFalse(is_running(fake))

    def test_it_ends_where_python_is_killed(self):
        code = "import easybook, os, signal, sys\nlog = easybook.open(sys.argv[1], 10)\nos.kill(os.getpid(), signal.SIGKILL)"
        with a_log() as path, watched('"$REAL" "$@"; echo $? >"$(dirname "$0")/over"') as fake:
            env = {**os.environ, "EASYBOOK": fake, "REAL": easybook.program.find()}
            self.assertEqual(subprocess.run([sys.executable, "-c", code, path], env=env, check=False, timeout=60).returncode, -signal.SIGKILL)
            over = os.path.join(os.path.dirname(fake), "over")
            began = time.monotonic()
            while not (os.path.exists(over) and os.path.getsize(over)):
                self.assertLess(time.monotonic() - began, 30)
                time.sleep(0.01)

    def test_one_that_nobody_holds_is_ended(self):
        with a_log() as path, watched() as fake:
            log = easybook.open(path, 10, program=fake)
            self.assertTrue(is_running(fake))
            del log
            gc.collect()
            self.assertFalse(is_running(fake))

    def test_much_on_standard_error_is_no_matter(self):
        with a_log() as path, watched(talks({"settle": "head -c 1000000 /dev/zero >&2; echo settled 0"})) as fake:
            with easybook.open(path, program=fake) as log:
                self.assertEqual(log.settle(), 0)


class Names(unittest.TestCase):
    def test_the_builtin_stays_where_all_is_imported(self):
        names = {}
        exec("from easybook import *", names)
        self.assertNotIn("open", names)
        self.assertIs(names["Conversation"], easybook.Conversation)
        self.assertTrue(all(re.fullmatch(r"\w+", it) and hasattr(easybook, it) for it in easybook.__all__))


if __name__ == "__main__":
    unittest.main()
