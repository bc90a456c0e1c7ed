"""Drives easybook, a proved simulator of EASY backfilling, from Python.

>>> import easybook
>>> run = easybook.simulate("examples/monday.swf", procs=96)
>>> run.table.mean_wait
3082
>>> for row in easybook.sweep(["examples/monday.swf"], [easybook.Scenario(it) for it in (64, 96, 128)]):
...     print(row.scenario, row.mean_wait)
64-1000 7903
96-1000 3082
128-1000 869
>>> with easybook.open("examples/monday.swf") as log:
...     print("version", log.change(9, field=9, value=3600))
...     print("settled", log.settle())
...     print(log.table("base").mean_wait)
version 1
settled 1
2079

`python -m easybook` makes logs of Slurm's accounting (`sacct`), runs sweeps (`sweep`), and sets the waits that a log
records beside the simulated ones (`waits`).
"""

from __future__ import annotations

from .conversation import Conversation
from .conversation import open as open  # not in __all__: an import of * leaves the builtin as it is
from .errors import (
    BadField,
    BadValue,
    BadWord,
    Behind,
    DumpFault,
    DuplicateJob,
    EasybookError,
    Ended,
    JournalFull,
    LogFault,
    Memory,
    NameTaken,
    NoProgram,
    NoSuchJob,
    NoSuchScenario,
    NotYet,
    Refused,
    ScriptFault,
    TableFull,
    TooMany,
)
from .reports import Day, Entry, Missing, Side, Start, Table, UnknownAnswer, User
from .runs import Failure, Row, Run, Scenario, simulate
from .swf import Job, Log, parse, read
from .sweeps import Rows, run, sweep
from .waits import Group, Pair, Recorded, compare, names, recorded, summary

__all__ = [
    "BadField", "BadValue", "BadWord", "Behind", "Conversation", "Day", "DumpFault", "DuplicateJob", "EasybookError",
    "Ended", "Entry", "Failure", "Group", "Job", "JournalFull", "Log", "LogFault", "Memory", "Missing", "NameTaken",
    "NoProgram", "NoSuchJob", "NoSuchScenario", "NotYet", "Pair", "Recorded", "Refused", "Row", "Rows", "Run",
    "Scenario", "ScriptFault", "Side", "Start", "Table", "TableFull", "TooMany", "UnknownAnswer", "User", "compare",
    "names", "parse", "read", "recorded", "run", "simulate", "summary", "sweep",
]
