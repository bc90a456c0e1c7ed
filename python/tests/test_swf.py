"""The log format: what is read, what is refused, what is written."""

import decimal
import gzip
import io
import os
import tempfile
import unittest
from decimal import Decimal

import easybook
from easybook import swf

JOB = b"1 0 -1 100 6 -1 -1 6 100 -1 1 7 -1 -1 -1 -1 -1 -1"


def fault_of(text):
    """The fault of a text as the program tells it; None where it has none."""
    try:
        easybook.parse(text)
    except easybook.LogFault as it:
        return (it.line, it.kind) if it.field is None else (it.line, it.kind, it.field)
    return None


def job(**changed):
    """The text of a job with fields changed, named f1 to f18."""
    words = JOB.split()
    for name, word in changed.items():
        words[int(name[1:]) - 1] = word.encode()
    return b" ".join(words)


class Reading(unittest.TestCase):
    def test_each_fault_has_its_line_and_kind(self):
        for text, want in [
            (b"\n" + b" " * 65_537, (2, "LineTooLong")),
            (b"; " + b"x" * 65_534 + b"\n" + JOB, None),
            (b";" + b"x" * 65_535 + b"\r\n", (1, "LineTooLong")),
            (job(f18="\xe9"), (1, "NotAscii")),
            (JOB + b" 5", (1, "FieldCount")),
            (job(f4="1e3", f9="x"), (1, "BadNumber", 4)),
            (job(f4="+3"), (1, "BadNumber", 4)),
            (job(f4="1_000"), (1, "BadNumber", 4)),
            (job(f4=".5"), (1, "BadNumber", 4)),
            (job(f4="5."), (1, "BadNumber", 4)),
            (job(f4="--5"), (1, "BadNumber", 4)),
            (job(f4="1000000000001"), (1, "BadNumber", 4)),
            (job(f4="9" * 5000), (1, "BadNumber", 4)),
            (job(f4="1000000000000.0000001"), None),
            (job(f4="0" * 5000 + "7"), None),
            (job(f1="1.5"), (1, "BadJobNumber")),
            (job(f1="-1"), (1, "BadJobNumber")),
            (job(f1="1.0000001"), None),
            (job(f2="-1"), (1, "BadSubmit")),
            (job(f2="-0.0000001"), None),
            (job(f11="2"), (1, "OrphanPartial")),
            (JOB + b"\n" + job(f1="2", f11="3"), (2, "OrphanPartial")),
            (JOB + b"\n; c\n\n" + job(f2="-5", f11="4"), None),
            (JOB + b"\n" + JOB, (2, "DuplicateJob")),
            (b"%", (1, "FieldCount")),
        ]:
            with self.subTest(text=text[:60]):
                self.assertEqual(fault_of(text), want)

    def test_lines_end_at_line_feeds_alone(self):
        log = easybook.parse(b"; a\x0bb\x85\xe2\x80\xa8c\r\r\n \t" + JOB.replace(b" ", b"\t ") + b"\r")
        self.assertEqual(log.comments, ["; a\x0bb\udc85\u2028c"])
        self.assertEqual(log.jobs, [easybook.Job(1, 0, -1, 100, 6, -1, -1, 6, 100, -1, 1, 7)])

    def test_written_is_canonical_and_read_back(self):
        text = b"2 1 -1 007.50 8 -1 -1 8 50 -1 1 8 -1 -1 -1 -1 -1 -0\n;\xff x\n2 0 -1 1 8 -1 -1 8 50 -1 2 8 -1 -1 -1 -1 -1 -1"
        log = easybook.parse(text)
        want = b";\xff x\n2 1 -1 7.5 8 -1 -1 8 50 -1 1 8 -1 -1 -1 -1 -1 0\n2 0 -1 1 8 -1 -1 8 50 -1 2 8 -1 -1 -1 -1 -1 -1\n"
        self.assertEqual(log.text(), want)
        self.assertEqual(easybook.parse(want), log)
        self.assertEqual(log.jobs[0].run, Decimal("7.5"))

    def test_numbers_are_exact_whatever_the_context_is(self):
        with decimal.localcontext(decimal.Context(prec=3, traps=[decimal.Inexact])):
            self.assertEqual(str(swf.number(b"-1234567.5")), "-1234567.5")
            self.assertEqual(swf.number(b"-1234567"), -1234567)
            self.assertEqual((swf.nearest(Decimal("1234567.5")), swf.nearest(Decimal("-1234567.5"))), (1234568, -1234567))
            self.assertEqual(swf.nearest(Decimal("0.4" + "9" * 80)), 0)
            self.assertEqual(swf.spelling(Decimal("-1234567.125")), "-1234567.125")
            line = job(f4="1234567.125", f6="-1234567.5")
            self.assertEqual(easybook.parse(line).text(), line + b"\n")

    def test_sizes_are_those_simulated(self):
        for requested, allocated, want in [(6, 4, 6), (-1, 4, 4), (0, 4, 4), (Decimal("0.4"), 4, 4), (Decimal("2.5"), 1, 3), (-1, -1, 0)]:
            self.assertEqual(easybook.Job(1, processors=requested, allocated=allocated).size, want)

    def test_a_packed_log_is_unpacked(self):
        with tempfile.TemporaryDirectory() as room:
            path = os.path.join(room, "a.swf.gz")
            with gzip.open(path, "wb") as file:
                file.write(JOB)
            self.assertEqual(len(easybook.read(path).jobs), 1)
            with open(path, "rb") as file:
                half = file.read()[:-12]
            with open(path, "wb") as file:
                file.write(half)
            with self.assertRaisesRegex(OSError, "no whole gzip file"):
                easybook.read(path)

    def test_comments_are_found_beside_faulty_jobs(self):
        with tempfile.NamedTemporaryFile() as file:
            file.write(b"; a\nx y\n ; b\n" + b"z" * 70_000 + b"\n; c\n")
            file.flush()
            self.assertEqual(swf.comments_of(file.name), ["; a", "; b"])

    def test_a_line_without_end_is_not_kept(self):
        class Endless(io.RawIOBase):
            given = 0

            def readable(self):
                return True

            def readinto(self, room):
                Endless.given += len(room)
                room[:] = b"1" * len(room)
                return len(room)

        with self.assertRaises(easybook.LogFault):
            next(swf.lines(io.BufferedReader(Endless())))
        self.assertLess(Endless.given, 1_000_000)


if __name__ == "__main__":
    unittest.main()
