"""The times of a dump, in their zones and over the changes of clocks."""

import unittest
from datetime import datetime
from unittest import mock

from easybook.slurm import values
from easybook.slurm.values import Clock, Unreadable, zone
from tests.test_sacct import jobs, made, row


class Times(unittest.TestCase):
    def test_zones(self):
        paris = Clock(zone("Europe/Paris"))
        self.assertEqual(paris.read("2026-07-01T12:00:00"), 1_782_900_000)
        self.assertEqual(paris.read("2026-01-01T12:00:00"), 1_767_265_200)
        self.assertEqual((paris.folded, paris.skipped), (0, 0))
        paris.read("2026-10-25T02:30:00")
        paris.read("2026-03-29T02:30:00")
        self.assertEqual((paris.folded, paris.skipped), (1, 1))
        none = Clock(None)
        self.assertEqual(none.read("2026-07-01T10:00:00"), none.read("2026-07-01T12:00:00+02:00"))
        self.assertEqual(none.read("2026-07-01T10:00:00Z"), none.read("1782900000"))
        self.assertEqual(none.without_zone, 1)

    def test_each_time_is_that_of_the_zone(self):
        local = zone("Australia/Lord_Howe")
        clock, rest = Clock(local), Clock(None)
        for begin in ("2026-04-04T14:00:00", "2026-10-03T15:00:00", "2026-07-01T00:00:00"):
            seconds = rest.read(begin)
            for it in range(seconds - 7200, seconds + 7200, 97):
                there = datetime.fromtimestamp(it, local)
                if not there.fold:
                    self.assertEqual(clock.read(there.replace(tzinfo=None).isoformat()), it)
        self.assertGreater(clock.folded, 10)
        self.assertEqual(clock.skipped, 0)
        with self.assertRaises(Unreadable):
            clock.read("2026-07-01T00:60:00")

    def test_days_behind_a_change_of_the_clock(self):
        def told(begin, end, name, **options):
            rows = [f"{number}|{it}|{it}|{it}|COMPLETED|8" for number, it in enumerate((begin, end), 1)]
            return made(*rows, head="JobID|Submit|Start|End|State|AllocCPUS", zone=zone(name), zone_name=name, **options)

        that = told("2026-03-01T10:00:00", "2026-03-30T00:10:00", "Europe/Berlin", zero="midnight")
        # 29 days and ten minutes behind midnight of 1 March by the calendar, and by the second an hour less.
        self.assertEqual([it.submit for it in that.jobs], [36_000, 29 * 86_400 + 600 - 3_600])
        note = "the clock changes on 2026-03-29: days are of 86400 seconds, so those behind it begin at 01:00"
        self.assertIn(note, that.warned)
        self.assertIn(f"; Note: {note}", that.comments)
        for begin, end, name, want in [
                ("2026-03-01T10:00:00", "2026-03-29T01:59:59", "Europe/Berlin", None), ("2026-03-29T10:00:00", "2026-03-29T11:00:00", "UTC", None),
                ("2026-03-01T10:00:00", "2026-10-26T00:00:00", "-05:00", None), ("2026-03-29T01:00:00", "2026-03-29T03:00:00", "Europe/Berlin", "2026-03-29: 01:00"),
                ("2026-10-30T10:00:00", "2026-11-02T10:00:00", "America/New_York", "2026-11-01: 23:00"),
                ("2026-09-01T10:00:00", "2026-09-07T10:00:00", "America/Santiago", "2026-09-06: 01:00"),
                ("2026-04-01T10:00:00", "2026-04-09T10:00:00", "Australia/Lord_Howe", "2026-04-05: 23:30"),
                ("2026-03-01T10:00:00", "2026-10-26T00:00:00", "Europe/Berlin", "2026-03-29 and 1 time more: 01:00"),
                ("2025-03-01T10:00:00", "2026-10-26T00:00:00", "Europe/Berlin", "2025-03-30 and 3 times more: 01:00")]:
            with self.subTest((begin, name)):
                lines = [it for it in told(begin, end, name, zero="midnight").warned if "clock changes" in it]
                want = [] if want is None else ["the clock changes on " + want.replace(": ", ": days are of 86400 seconds, so those behind it begin at ")]
                self.assertEqual(lines, want)
                self.assertFalse([it for it in told(begin, end, name).warned if "clock changes" in it])

    def test_midnight_is_of_the_zone(self):
        epoch = row(Submit="1782900000", Eligible="1782900000", Start="1782900010", End="1782900040")
        self.assertEqual(made(epoch, zero="midnight").decided[0], "second 0 is midnight before the first arrival; midnight is that of UTC (--tz names another zone)")
        self.assertEqual(made(epoch, zero="midnight", zone=zone("Europe/Paris"), zone_name="Europe/Paris").decided[0],
                         "second 0 is midnight before the first arrival; midnight and times without a zone are of Europe/Paris")
        self.assertEqual(made(epoch).decided[0], "second 0 is the first arrival")

    def test_no_zone(self):
        for name in ("Mars/Olympus", "../etc/passwd", "", "+99:00"):
            with self.assertRaises(Unreadable):
                zone(name)

    def test_python_without_zones(self):
        with self.assertRaisesRegex(Unreadable, "^no zone is known by the name 'Mars': give one such as Europe/Paris, "):
            zone("Mars")
        with mock.patch.object(values, "ZoneInfo", side_effect=values.ZoneInfoNotFoundError), mock.patch.object(values, "available_timezones", set):
            with self.assertRaisesRegex(Unreadable, r"^Python finds no zones here: install tzdata, or give an offset such as \+01:00$"):
                zone("Europe/Paris")
            self.assertEqual(str(zone("UTC")), "UTC")

    def test_one_dump_in_three_times(self):
        epoch = row(Submit="1782900000", Eligible="1782900000", Start="1782900010", End="1782900040")
        utc = row(Submit="2026-07-01T10:00:00", Eligible="2026-07-01T10:00:00", Start="2026-07-01T10:00:10", End="2026-07-01T10:00:40")
        paris = row(Submit="2026-07-01T12:00:00", Eligible="2026-07-01T12:00:00", Start="2026-07-01T12:00:10", End="2026-07-01T12:00:40")
        self.assertEqual(jobs(epoch), jobs(utc))
        that = made(paris, zone=zone("Europe/Paris"), zone_name="Europe/Paris")
        self.assertEqual([tuple(it) for it in that.jobs], jobs(utc))
        self.assertIn("; UnixStartTime: 1782900000", that.comments)


if __name__ == "__main__":
    unittest.main()
