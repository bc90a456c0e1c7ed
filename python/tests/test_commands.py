"""python -m easybook: what it prints, its one-line errors and its exit status."""

import collections
import gzip
import io
import os
import socket
import subprocess
import sys
import tempfile
import textwrap
import time
import unittest
from unittest import mock

import easybook
from easybook.__main__ import main
from tests.cluster import FOUR, a_log, a_program, is_running, pids
from tests.test_doctests import TOP

DUMP = """JobID|Submit|Start|End|State|AllocCPUS|NodeList|Timelimit|User
7|2026-07-01T10:00:00|2026-07-01T10:00:10|2026-07-01T10:00:40|COMPLETED|8|n1|00:01:00|ana
8|2026-07-01T10:00:05|2026-07-01T10:00:40|2026-07-01T10:00:50|COMPLETED|8|n1||bob
"""


Ran = collections.namedtuple("Ran", "returncode stdout stderr")


def ran(*words, given=b""):
    """What a command did, worked in this process."""
    rooms = [io.TextIOWrapper(io.BytesIO(text), encoding="utf-8", newline="\n") for text in (given, b"", b"")]
    with mock.patch.multiple(sys, stdin=rooms[0], stdout=rooms[1], stderr=rooms[2]):
        try:
            status = main(words)
        except SystemExit as it:
            status = it.code
    for it in rooms[1:]:
        it.flush()
    return Ran(status, rooms[1].buffer.getvalue(), rooms[2].buffer.getvalue())


def shell(words):
    """What the module did in a process of its own, called by a shell; its output is gathered before it is written, as it is where no variable tells otherwise."""
    alone = {name: it for name, it in os.environ.items() if name != "PYTHONUNBUFFERED"}
    return subprocess.run(["timeout", "60", "sh", "-c", f"{sys.executable} -m easybook {words}"], env=alone, capture_output=True, text=True, check=False)


def open_and_save(path):
    """What the program saves of a log."""
    with easybook.open(path) as log:
        return log.save()


class Commands(unittest.TestCase):
    def test_a_dump_becomes_a_log_that_the_program_reads(self):
        it = ran("sacct", "-", "--procs", "8", "--tz", "UTC", given=DUMP.encode())
        self.assertEqual(it.returncode, 0, it.stderr)
        log = easybook.parse(it.stdout)
        self.assertEqual([(job.number, job.submit, job.wait, job.run, job.estimate) for job in log.jobs], [(7, 0, 10, 30, 60), (8, 5, 35, 10, -1)])
        self.assertIn(b"easybook: warning: 1 job without an estimate", it.stderr)
        with tempfile.TemporaryDirectory() as room:
            path = os.path.join(room, "month.swf")
            with open(path, "wb") as file:
                file.write(it.stdout)
            self.assertEqual([(job.number, job.start) for job in easybook.simulate(path).schedule], [(7, 0), (8, 30)])
            table = ran("waits", path, "--csv")
            self.assertEqual([it.split(",")[0] for it in table.stdout.decode().splitlines()], ["group", "all", "size 8", "user ana", "user bob"])
        self.assertEqual(table.stdout.decode().splitlines()[:2], [
            "group,jobs,recorded_mean,recorded_median,recorded_p90,simulated_mean,simulated_median,simulated_p90,ratio", "all,2,22,10,35,12,0,25,1.800"])

    def test_a_faulty_dump_is_one_line_and_no_output(self):
        it = ran("sacct", "-", "--procs", "8", given=DUMP.replace("|8|n1||", "|8|n|1||").encode())
        self.assertEqual((it.returncode, it.stdout), (1, b""))
        self.assertRegex(it.stderr.decode(), r"\Aeasybook: line 3 of the dump: 10 columns where line 1 names 9: [^\n]*\n\Z")
        for words in (("sacct", "/no/such/dump", "--procs", "8"), ("sacct", "-", "--procs", "8", "--tz", "Mars"), ("sacct", "-", "--procs", "0"),
                      ("sweep", "/no/such/log", "--procs", "8"), ("waits", "/no/such/log"), ("sweep", "x", "--program", "/no/such/program")):
            it = ran(*words)
            self.assertEqual((it.returncode, it.stdout, it.stderr.count(b"\n")), (1, b"", 1), it.stderr)

    def test_one_job_is_no_jobs(self):
        it = ran("sacct", "-", "--procs", "8", given="".join(DUMP.splitlines(True)[:2]).encode())
        self.assertEqual(it.stderr.splitlines()[0], b"easybook: 1 job")
        self.assertEqual(ran("sacct", "-", "--procs", "8", given=DUMP.encode()).stderr.splitlines()[0], b"easybook: 2 jobs")

    def test_values_that_begin_with_a_minus(self):
        # Ten o'clock five hours west of Greenwich is three in the afternoon there.
        for words in (("--tz", "-05:00"), ("--tz", "-0500"), ("--tz=-05:00",), ("--tz", "-05:00", "--delimiter", "->")):
            it = ran("sacct", "-", "--procs", "8", *words, given=DUMP.replace("|", words[-1] if words[-1] == "->" else "|").encode())
            self.assertEqual(it.returncode, 0, it.stderr)
            self.assertIn(b"; UnixStartTime: 1782918000\n", it.stdout)
        for words, want in ((("--procs", "-8"), b"'-8' is no whole number"), (("--procs", "8", "--tz", "--zero", "midnight"), b"argument --tz: expected one argument"),
                            (("--procs", "8", "--unlimited", "-1:x"), b"'-1:x' is no time limit")):
            it = ran("sacct", "-", *words)
            self.assertEqual((it.returncode, want in it.stderr), (2, True), it.stderr)
        self.assertEqual(ran("sacct", "-", "--procs", "8", "--tz", "-5").stderr.count(b"\n"), 1)

    def test_words_that_are_taken_for_something_else_are_refused_in_one_line(self):
        for words, want in ((("sacct", "-", "--procs", "8", "--unlimited", "0"), b"easybook: --unlimited 0 is no estimate: give a limit"),
                            (("sacct", "-", "--procs", "8", "--no-limit", "0:00:00"), b"easybook: --no-limit 0 is no estimate: give a limit"),
                            (("sweep", "x", "--procs", "8", "--at-once", "0"), b"easybook: scenarios at once: a whole number from 1 on, not 0"),
                            (("sweep", "x", "--procs", "8", "--threads", "0"), b"easybook: threads: a whole number from 1 on, not 0")):
            it = ran(*words, given=DUMP.encode())
            self.assertEqual((it.returncode, it.stdout, it.stderr.count(b"\n")), (1, b"", 1), it.stderr)
            self.assertTrue(it.stderr.startswith(want), it.stderr)

    def test_logs_that_are_pipes(self):
        python = f"{sys.executable} -m easybook"
        head = "log,scenario,procs,factor,order,jobs,mean_wait,mean_slowdown,utilization,killed,skipped\n"
        ten, big = "10-1000,10,1000,arrival,4,47,1.539,39.864,0,0\n", "16-1000,16,1000,arrival,4,12,1.136,29.324,0,0\n"
        waits = "all,2,4,0,9,49,0,99,0.090\n"
        with a_log() as log:
            pipe = os.path.join(os.path.dirname(log), "pipe")
            os.mkfifo(pipe)
            with gzip.open(f"{log}.gz", "wb") as file:
                file.write(FOUR.encode())
            for command, want in ((f"cat {log} | {python} sweep /dev/stdin --procs 10,16 --at-once 1 --csv", f"{head}/dev/stdin,{ten}/dev/stdin,{big}"),
                                  (f"{python} sweep /dev/stdin --procs 10,16 --csv <{log}", f"{head}/dev/stdin,{ten}/dev/stdin,{big}"),
                                  (f"cat {log} | {python} sweep - {log} --procs 10 --csv", f"{head}/dev/stdin,{ten}{log},{ten}"),
                                  (f"{python} sweep --procs 10 --csv - <{log}", f"{head}/dev/stdin,{ten}"),
                                  (f"(read first; {python} sweep - --procs 10 --csv) <{log} | cut -d, -f6", "jobs\n3\n"),
                                  (f"cat {log} | {python} waits - --procs 10 --csv | sed -n 2p", waits),
                                  (f"cat {log} >{pipe} & {python} sweep {pipe} {log} --procs 10 --csv", f"{head}{pipe},{ten}{log},{ten}"),
                                  (f"cat {log} >{pipe} & {python} waits {pipe} --procs 10 --csv | sed -n 2p", waits),
                                  (f"{python} waits {log}.gz --procs 10 --csv | sed -n 2p", waits),
                                  (f"cat {log} | {python} waits /dev/stdin --procs 10 --csv | sed -n 2p", waits)):
                with self.subTest(command):
                    it = subprocess.run(["timeout", "60", "sh", "-c", command], capture_output=True, text=True, check=False)
                    self.assertEqual((it.stdout, it.stderr), (want, ""))

    def test_standard_input_that_cannot_be_opened_again(self):
        ours, theirs = socket.socketpair()
        with theirs, a_log() as log:
            with ours:
                ours.sendall(FOUR.encode())
            it = subprocess.run([sys.executable, "-m", "easybook", "sweep", "-", log, "--procs", "10", "--csv"], stdin=theirs, capture_output=True, text=True, check=False, timeout=60)
        self.assertEqual([line.split(",")[:7] for line in it.stdout.splitlines()[1:]], [[path, "10-1000", "10", "1000", "arrival", "4", "47"] for path in ("/dev/stdin", log)], it.stderr)

    def test_standard_files_that_are_closed_or_full(self):
        closed, full = "easybook: standard output is closed: send it to a file or to another program\n", "easybook: No space left on device\n"
        with a_log("; MaxProcs: 10\n" + FOUR) as log, a_log(DUMP, "dump.txt") as dump:
            sacct = f"sacct {dump} --procs 8"
            for words, want in ((f"{sacct} >&-", closed), (f"sweep {log} >&-", closed), (f"waits {log} >&-", closed), ("--help >&-", closed),
                                (f"sweep {log} >&- <&-", closed), (f"sweep {log} >/dev/full", full), (f"waits {log} >/dev/full", full),
                                (f"{sacct} >/dev/full", full), ("sacct - --procs 8 <&-", "easybook: standard input is closed: give the dump's file\n"),
                                ("sweep - <&-", "easybook: standard input is closed: give the log's file\n"),
                                ("waits - <&-", "easybook: standard input is closed: give the log's file\n")):
                with self.subTest(words):
                    it = shell(words)
                    self.assertEqual((it.returncode, it.stdout, it.stderr), (1, "", want))
            for words in (sacct, f"sweep {log}", f"waits {log}"):
                with self.subTest(words):
                    it = shell(f"{words} 2>&-")
                    self.assertEqual((it.returncode, it.stdout), (0, shell(words).stdout))

    def test_bad_words(self):
        for words in ((), ("jump",), ("sacct", "-"), ("sacct", "-", "--procs", "1e3"), ("sweep", "x", "--order", "fast"), ("sweep", "x", "--procs", "8,,9"),
                      ("sacct", "-", "--procs", "8", "--unlimited", "soon"), ("sweep", "x", "--threads", "many"), ("waits", "x", "--by", "size,age"), ("waits", "x", "--by", "")):
            self.assertEqual(ran(*words).returncode, 2, words)

    def test_a_sweep_as_a_table_with_commas(self):
        with a_log() as log:
            it = ran("sweep", log, "/no/such/log", "--procs", "10,16", "--csv")
        self.assertEqual(it.stdout.decode().splitlines(), [
            "log,scenario,procs,factor,order,jobs,mean_wait,mean_slowdown,utilization,killed,skipped",
            f"{log},10-1000,10,1000,arrival,4,47,1.539,39.864,0,0", f"{log},16-1000,16,1000,arrival,4,12,1.136,29.324,0,0"])
        self.assertEqual((it.returncode, it.stderr.count(b"\n")), (1, 2))
        self.assertIn(b"easybook: /no/such/log, scenario 16-1000: ", it.stderr)

    def test_jobs_that_are_larger_than_a_machine_are_told(self):
        def left_out(jobs, procs):
            return f"easybook: {jobs} larger than {procs} and left out: its rows are not comparable with others"

        with a_log() as log, a_log(FOUR.replace("6 100", "4 100"), "b.swf") as other, a_log("x", "c.swf") as bad:
            for words, want in (((log, "--procs", "10,7,5,1", "--factor", "500,1000"), [left_out(*it) for it in (("1 job is", "7 processors"), ("2 jobs are", "5 processors"), ("4 jobs are", "1 processor"))]),
                                ((log, log, "--procs", "7"), [left_out("1 job is", "7 processors")]), ((log, other, "--procs", "10"), []),
                                ((log, other, "--procs", "5"), [left_out(f"{path}: {jobs}", "5 processors") for path, jobs in ((log, "2 jobs are"), (other, "1 job is"))]),
                                ((bad, log, "--procs", "7"), [left_out(f"{log}: 1 job is", "7 processors"), f"easybook: {bad}, scenario 7-1000: line 1 of the log: FieldCount"])):
                with self.subTest(words):
                    it = ran("sweep", *words)
                    self.assertEqual((it.returncode, it.stderr.decode().splitlines()), (int(bad in words), want))
            for procs, want in ((10, []), (7, [left_out("1 job is", "7 processors")]), (3, [f"easybook: no job of {log} that is simulated has a wait in field 3", left_out("3 jobs are", "3 processors")])):
                with self.subTest(procs):
                    it = ran("waits", log, "--procs", str(procs))
                    self.assertEqual((it.returncode, it.stderr.decode().splitlines()), (int(procs == 3), want))
        # The table stands before what is said of it, also where both go one way.
        with a_log() as log:
            it = shell(f"sweep {log} --procs 7 --csv 2>&1; {sys.executable} -m easybook waits {log} --procs 7 --csv 2>&1")
        self.assertEqual([line.split(",")[0] for line in it.stdout.splitlines()],
                         ["log", log, left_out("1 job is", "7 processors"), "group", "all", "size 4", "user 7", left_out("1 job is", "7 processors")])

    def test_jobs_that_are_too_long_under_a_factor_are_told(self):
        def left_out(jobs, factor, begin=""):
            return f"easybook: {begin}{jobs} estimated at over 100000000 seconds under factor {factor} and left out: its rows are not comparable with others"

        # The third job's estimate is too long but at factor 500, and the fourth's at 2000 is.
        text = FOUR.replace("-1 4 90 ", "-1 4 150000000 ").replace("-1 2 500 ", "-1 2 60000000 ")
        larger = "1 job is larger than 7 processors and left out: its rows are not comparable with others"
        with a_log(text) as log, a_log(FOUR, "b.swf") as other:
            for words, want in (((log, "--procs", "10,16"), []), ((log, "--procs", "10,16", "--factor", "1000,2000"), [left_out("1 job is", 2000)]),
                                ((log, "--procs", "10", "--factor", "500,1000,2000", "--order", "arrival,shortest"), [left_out("1 job is", 1000), left_out("2 jobs are", 2000)]),
                                ((log, "--procs", "10", "--factor", "2000"), [left_out("2 jobs are", 2000)]), ((log, "--procs", "10", "--factor", "500"), []),
                                ((log, other, "--procs", "7", "--factor", "1000,2000"),
                                 [f"easybook: {log}: {larger}", left_out("1 job is", 2000, f"{log}: "), f"easybook: {other}: {larger}"])):
                with self.subTest(words):
                    it = ran("sweep", *words)
                    self.assertEqual((it.returncode, it.stderr.decode().splitlines()), (0, want))
            for factor, want in ((500, []), (1000, []), (2000, [left_out("2 jobs are", 2000)])):
                with self.subTest(factor):
                    it = ran("waits", log, "--procs", "10", "--factor", str(factor))
                    self.assertEqual((it.returncode, it.stderr.decode().splitlines()), (0, want))

    def test_names_that_are_not_ascii(self):
        dump = DUMP.replace("|ana", "|josé").encode()
        with tempfile.TemporaryDirectory() as room:
            path = os.path.join(room, "a.swf")
            with open(path, "wb") as file:
                file.write(ran("sacct", "-", "--procs", "8", "--tz", "UTC", given=dump).stdout)
            self.assertEqual(easybook.names(path), {1: "bob", 2: "josé"})
            self.assertEqual(easybook.parse(open_and_save(path)).comments[-1], "; Scenario: base 8 1000 arrival")
            self.assertIn("; Note: user 2 is josé", easybook.parse(open_and_save(path)).comments)
            self.assertIn("\nuser josé,", ran("waits", path, "--csv").stdout.decode())
            for encoding, want in (("utf-8", "user josé".encode()), ("latin-1", "user josé".encode("latin-1")), ("ascii", rb"user jos\xe9")):
                with self.subTest(encoding):
                    it = subprocess.run([sys.executable, "-m", "easybook", "waits", path, "--csv"], env={**os.environ, "PYTHONIOENCODING": encoding}, capture_output=True, check=False)
                    self.assertEqual((it.returncode, [line.split(b",")[0] for line in it.stdout.splitlines()][-1]), (0, want), it.stderr)

    def test_a_log_without_a_job_is_told(self):
        with a_log("; a comment alone\n") as log, a_log(FOUR, "b.swf") as other:
            it = ran("sweep", log, other, "--procs", "10,16", "--csv")
            self.assertEqual((it.returncode, it.stderr.decode()), (0, f"easybook: {log} has no jobs\n"))
            self.assertEqual(it.stdout.decode().splitlines()[1:3], [f"{log},{procs}-1000,{procs},1000,arrival,0,0,0.000,0.000,0,0" for procs in (10, 16)])
            it = ran("waits", log, "--procs", "10")
            self.assertEqual((it.returncode, it.stdout), (1, b""))
            self.assertEqual(it.stderr.decode(), f"easybook: {log} has no jobs\neasybook: no job of {log} that is simulated has a wait in field 3\n")
        with a_log(FOUR.splitlines()[0].replace(" 100 6 ", " -1 6 ")) as log:
            it = ran("sweep", log, "--procs", "10", "--csv")
        self.assertEqual((it.stdout.decode().splitlines()[1][-4:], it.stderr), (",0,1", b""))

    def test_waits_by_kinds(self):
        notes = "; Note: group 1 is phys\n; Note: queue 2 is long\n; Note: partition 1 is main\n; Note: user 8 is bob\n"
        text = notes + FOUR.replace("50 -1 1 8 -1 -1 -1 -1", "50 -1 1 8 1 -1 2 1").replace("90 -1 1 7 -1 -1 -1 -1", "90 -1 1 7 3 -1 2 -1")
        with a_log(text) as log:
            for words, want in (((), ["size 4", "size 8", "user 7", "user bob"]), (("--by", "account"), ["account phys", "account 3"]),
                                (("--by", "queue,partition,user"), ["queue long", "partition -1", "partition main", "user 7", "user bob"])):
                with self.subTest(words):
                    it = ran("waits", log, "--procs", "10", "--csv", *words)
                    self.assertEqual([line.split(",")[0] for line in it.stdout.decode().splitlines()[1:]], ["all", *want])

    def test_packed_dumps(self):
        want = ran("sacct", "-", "--procs", "8", given=DUMP.encode())
        packed = gzip.compress(DUMP.encode())
        with tempfile.TemporaryDirectory() as room:
            paths = [os.path.join(room, name) for name in ("dump.gz", "half.gz", "dump.txt")]
            for path, text in zip(paths, (packed, packed[:-12], packed)):
                with open(path, "wb") as file:
                    file.write(text)
            self.assertEqual(ran("sacct", paths[0], "--procs", "8"), want)
            told = "easybook: line 1 of the dump: it is compressed: unpack it (gzip -dc), or give the file a name that ends in .gz\n"
            for words, given, error in ((paths[2], b"", told), ("-", packed, told), (paths[1], b"", f"easybook: {paths[1]} is no whole gzip file: ")):
                with self.subTest(words):
                    it = ran("sacct", words, "--procs", "8", given=given)
                    self.assertEqual((it.returncode, it.stdout, it.stderr.count(b"\n"), it.stderr.decode().startswith(error)), (1, b"", 1, True), it.stderr)

    def test_a_dump_without_its_first_line(self):
        it = ran("sacct", "-", "--procs", "8", given="".join(DUMP.splitlines(True)[1:]).encode())
        self.assertEqual((it.returncode, it.stdout, it.stderr), (1, b"", b"easybook: line 1 of the dump: it looks like a job, not the names of columns: dump without -n\n"))

    def test_the_script_of_a_job_array_is_the_one_that_its_page_shows(self):
        texts = []
        for path in ("examples/sweep.sh", "docs/from-a-cluster.md"):
            with open(os.path.join(TOP, path), encoding="utf-8") as file:
                texts.append(file.read())
        self.assertIn("\n\n" + textwrap.indent(texts[0], "    ") + "\n", texts[1])

    def test_a_sweep_that_is_told_to_end_ends_its_programs(self):
        with a_log() as log, a_program("exec sleep 60") as fake:
            words = [sys.executable, "-m", "easybook", "sweep", log, "--procs", "8,9,10", "--at-once", "1", "--program", fake]
            with subprocess.Popen(words) as process:
                while not pids(fake):
                    time.sleep(0.01)
                process.terminate()
                self.assertEqual(process.wait(30), 143)
            self.assertFalse(is_running(fake))

    def test_a_log_that_records_no_waits(self):
        with a_log(FOUR.replace("1 9 50", "1 -1 50").replace("2 0 90", "2 -1 90")) as log:
            it = ran("waits", log, "--procs", "10")
        self.assertEqual((it.returncode, it.stdout, it.stderr.count(b"\n")), (1, b"", 1))

    def test_a_reader_that_goes_away(self):
        rows = "".join(f"{it}|10|20|30|COMPLETED|8|n1|00:01:00|ana\n" for it in range(1, 20_000))
        command = f"exec {sys.executable} -m easybook sacct - --procs 8 2>/dev/null | head -n 1"
        it = subprocess.run(["sh", "-c", command], input=(DUMP.splitlines(True)[0] + rows).encode(), capture_output=True, check=False, timeout=60)
        self.assertEqual((it.stdout, it.stderr), (b"; Version: 2.2\n", b""))


if __name__ == "__main__":
    unittest.main()
