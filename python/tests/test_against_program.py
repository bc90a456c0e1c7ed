"""The reader and writer of logs beside the program's: made-up and spoiled logs are faulty or not in both, with one fault,
and what the program saves is what is written here."""

import os
import random
import subprocess
import tempfile
import unittest

import easybook
from easybook import program
from tests.cluster import FOUR

BITS = [b"-1", b"0", b"7.50", b"-0.0000001", b"007", b"1e3", b"+1", b"1_0", b".5", b"5.", b"-", b"--1", b"1000000000000", b"1000000000001",
        b"2", b"3", b"1", b"\xc3\xa9", b"1\x00", b"9" * 30, b"0.1234567", b"1000000000000.0000009", b"", b" ", b"\t", b"\r", b";", b"%", b"\x0b", b"\x1c"]


def spoiled(chance):
    """The four-job log with some partial lines and comments, and a few things changed."""
    lines = [it.split(b" ") for it in FOUR.encode().splitlines()]
    lines.insert(chance.randrange(5), [b"; c\xff", b"x"])
    if chance.random() < 0.5:
        part = list(lines[-1])
        part[min(10, len(part) - 1)] = chance.choice([b"2", b"3", b"4", b"3.5"])
        lines.append(part)
    for _ in range(chance.randrange(4)):
        line = chance.choice(lines)
        place = chance.randrange(len(line))
        line[place] = chance.choice(BITS)
        if chance.random() < 0.1:
            line.insert(place, chance.choice(BITS))
    ends = [chance.choice([b"\n", b"\n", b"\n", b"\r\n", b"\r\r\n", b"\n\n", b"\n \t\n"]) for _ in lines]
    return b"".join(b" ".join(line) + end for line, end in zip(lines, ends))


def of_program(path):
    """What the program makes of a log: its fault, or the log that it saves without its scenario."""
    ran = subprocess.run([program.ready(), path, "--procs=10"], input=b"save\n", capture_output=True, check=False)
    if ran.returncode == 0:
        saved = ran.stdout.split(b"\n", 1)[1]
        return sorted(it for it in saved.splitlines(True) if it != b"; Scenario: base 10 1000 arrival\n")
    return ran.stderr.decode()


def of_module(path):
    """The same by this module."""
    try:
        return sorted(easybook.read(path).text().splitlines(True))
    except easybook.LogFault as it:
        field = "" if it.field is None else f" {it.field}"
        return f"easybook: line {it.line}: {it.kind}{field}\n"


class Both(unittest.TestCase):
    def test_logs_are_read_alike(self):
        chance = random.Random(7)
        faulty = 0
        with tempfile.TemporaryDirectory() as room:
            path = os.path.join(room, "a.swf")
            for _ in range(400):
                text = spoiled(chance)
                with open(path, "wb") as file:
                    file.write(text)
                mine = of_module(path)
                self.assertEqual(mine, of_program(path), text)
                faulty += isinstance(mine, str)
        self.assertGreater(faulty, 100)
        self.assertLess(faulty, 300)


if __name__ == "__main__":
    unittest.main()
