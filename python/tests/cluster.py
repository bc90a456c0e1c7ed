"""What the tests of runs share: the four-job log, and programs that stand in for easybook."""

import contextlib
import os
import stat
import tempfile

FOUR = """1 0 -1 100 6 -1 -1 6 100 -1 1 7 -1 -1 -1 -1 -1 -1
2 1 9 50 8 -1 -1 8 50 -1 1 8 -1 -1 -1 -1 -1 -1
3 2 0 90 4 -1 -1 4 90 -1 1 7 -1 -1 -1 -1 -1 -1
4 3 -1 500 2 -1 -1 2 500 -1 1 8 -1 -1 -1 -1 -1 -1
"""


@contextlib.contextmanager
def a_log(text=FOUR, name="a.swf"):
    """The path of a log of this text."""
    with tempfile.TemporaryDirectory() as room:
        path = os.path.join(room, name)
        with open(path, "w", encoding="utf-8") as file:
            file.write(text)
        yield path


class Whole:
    """A whole number that is no int, as those of numpy are none."""

    def __init__(self, value):
        self.value = value

    def __index__(self):
        return self.value


@contextlib.contextmanager
def a_pipe(text=FOUR):
    """The path of a pipe that gives this text once."""
    end, begin = os.pipe()
    with os.fdopen(begin, "w", encoding="utf-8") as file:
        file.write(text)
    try:
        yield f"/dev/fd/{end}"
    finally:
        os.close(end)


@contextlib.contextmanager
def a_program(body):
    """The path of a program that, beside answering for the empty log, does what these lines of shell do."""
    with tempfile.TemporaryDirectory() as room:
        path = os.path.join(room, "easybook")
        with open(path, "w", encoding="utf-8") as file:
            file.write(f'#!/bin/sh\n[ "$1" = --procs=1 ] && echo "schedule base version 0 jobs 0" && exit\n: >"{room}/pid.$$"\n{body}\n')
        os.chmod(path, os.stat(path).st_mode | stat.S_IXUSR)
        yield path


def pids(program):
    """The processes that such a program was."""
    room = os.path.dirname(program)
    return [int(it[len("pid.") :]) for it in os.listdir(room) if it.startswith("pid.")]


def is_running(program):
    """Whether one of them is there still."""
    for pid in pids(program):
        with contextlib.suppress(ProcessLookupError):
            os.kill(pid, 0)
            return True
    return False
