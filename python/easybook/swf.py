"""The Standard Workload Format, read and written exactly as the program easybook does.

Numbers are `int`, or `decimal.Decimal` where they have decimals; nothing is rounded but that digits past the sixth
decimal are cut, as the format's profile says.

>>> log = parse(b"; MaxProcs: 10\\n1 0 -1 100.50 6 -1 -1 6 100 -1 1 7 -1 -1 -1 -1 -1 -1\\n")
>>> log.jobs[0].run, log.jobs[0].size, machine(log.comments)
(Decimal('100.5'), 6, 10)
>>> log.text()
b'; MaxProcs: 10\\n1 0 -1 100.5 6 -1 -1 6 100 -1 1 7 -1 -1 -1 -1 -1 -1\\n'
"""

from __future__ import annotations

import contextlib
import gzip
import io
import os
import re
import zlib
from dataclasses import dataclass, field
from decimal import ROUND_DOWN, Context, Decimal
from typing import BinaryIO, Dict, Iterable, Iterator, List, NamedTuple, Optional, Set, Tuple, Union

from .errors import LogFault

Number = Union[int, Decimal]
Path = Union[str, "os.PathLike[str]"]

MOST_BYTES_OF_LINE = 65_536
MOST_JOBS = 4_194_304
GREATEST_NUMBER = 1_000_000_000_000
MISSING = -1
EXACT = Context(prec=60, rounding=ROUND_DOWN)  # whatever the caller's is: a log's numbers and their sums have room in it
PARTIAL = (2, 3, 4)

_NUMBER = re.compile(rb"(-?)([0-9]+)(?:\.([0-9]+))?")
_NOT_BLANKS = re.compile(rb"[^ \t]+")
_BIG = 40


class Job(NamedTuple):
    """A job line, or a partial line: its eighteen fields in their order. A missing value is -1."""

    number: int
    submit: Number = MISSING
    wait: Number = MISSING
    run: Number = MISSING
    allocated: Number = MISSING
    cpu_time: Number = MISSING
    used_memory: Number = MISSING
    processors: Number = MISSING
    estimate: Number = MISSING
    requested_memory: Number = MISSING
    status: Number = MISSING
    user: Number = MISSING
    group: Number = MISSING
    executable: Number = MISSING
    queue: Number = MISSING
    partition: Number = MISSING
    preceding: Number = MISSING
    think_time: Number = MISSING

    @property
    def size(self) -> Number:
        """The processors that the simulation takes for the job: those requested, otherwise those allocated; 0 for none."""
        requested, allocated = nearest(self.processors), nearest(self.allocated)
        return requested if requested > 0 else max(allocated, 0)

    @property
    def is_partial(self) -> bool:
        """Whether the line tells of a part of an execution."""
        return self.status in PARTIAL


def nearest(value: Number) -> int:
    """The nearest whole number, halves up, as the simulation takes it.

    >>> nearest(Decimal("2.5")), nearest(Decimal("-0.5")), nearest(7)
    (3, 0, 7)
    """
    if isinstance(value, int):
        return value
    millionths = int(value.scaleb(6, EXACT))
    return (millionths + 500_000) // 1_000_000


def number(word: bytes) -> Optional[Number]:
    """The number that a field spells, cut to six decimals; None for none.

    >>> number(b"007.50"), number(b"-0.0000001"), number(b"1e3")
    (Decimal('7.5'), 0, None)
    """
    match = _NUMBER.fullmatch(word)
    if match is None:
        return None
    sign, whole, decimals = match.groups()
    whole = whole.lstrip(b"0") or b"0"
    decimals = (decimals or b"")[:6].rstrip(b"0")
    if len(whole) > _BIG:
        return None
    value: Number = int(whole) if not decimals else Decimal(f"{whole.decode()}.{decimals.decode()}")
    if value > GREATEST_NUMBER:
        return None
    if not sign:
        return value
    return -value if isinstance(value, int) else value.copy_negate()


def spelling(value: Number) -> str:
    """The canonical spelling of a number.

    >>> spelling(Decimal("7.500")), spelling(-1)
    ('7.5', '-1')
    """
    if isinstance(value, int):
        return str(value)
    text = f"{value:f}"
    if "." in text:
        whole, decimals = text.split(".")
        decimals = decimals[:6].rstrip("0")
        text = f"{whole}.{decimals}" if decimals else whole
    return "0" if text == "-0" else text


def job_text(job: Job) -> str:
    """A job as a line, without its line feed."""
    return " ".join([str(it) if type(it) is int else spelling(it) for it in job])


@dataclass
class Log:
    """A log: its comments, from their `;` on, its jobs in the order of the file, and the partial lines of each job number.

    A comment's bytes that are no UTF-8 stand as surrogate escapes, so that writing gives them back.
    """

    comments: List[str] = field(default_factory=list)
    jobs: List[Job] = field(default_factory=list)
    parts: Dict[int, List[Job]] = field(default_factory=dict)

    def lines(self) -> Iterator[str]:
        """The lines of the canonical text, each without its line feed."""
        yield from self.comments
        for job in self.jobs:
            yield job_text(job)
            yield from map(job_text, self.parts.get(job.number, ()))

    def write(self, to: BinaryIO) -> None:
        """Writes the canonical text."""
        for line in self.lines():
            to.write(line.encode("utf-8", "surrogateescape") + b"\n")

    def text(self) -> bytes:
        """The canonical text."""
        room = io.BytesIO()
        self.write(room)
        return room.getvalue()


def _raw_lines(file: BinaryIO) -> Iterator[Tuple[int, bytes]]:
    """Each line with its number from 1, without its end; the first that is too long is a fault."""
    count = 0
    while True:
        raw = file.readline(MOST_BYTES_OF_LINE + 2)
        if not raw:
            return
        count += 1
        raw = raw[:-1] if raw.endswith(b"\n") else raw
        if len(raw) > MOST_BYTES_OF_LINE:
            raise LogFault(count, "LineTooLong")
        yield count, raw.rstrip(b"\r")


def _job(line: int, raw: bytes) -> Job:
    """The job of a line, tested in the format's order."""
    if not raw.isascii():
        raise LogFault(line, "NotAscii")
    words = _NOT_BLANKS.findall(raw)
    if len(words) != 18:
        raise LogFault(line, "FieldCount")
    values: List[Number] = []
    for place, word in enumerate(words, 1):
        # Nearly all fields are short and whole, or missing: a quicker way for those.
        value = -1 if word == b"-1" else int(word) if len(word) < 13 and word.isdigit() else number(word)
        if value is None:
            raise LogFault(line, "BadNumber", place)
        values.append(value)
    if not isinstance(values[0], int) or values[0] < 0:
        raise LogFault(line, "BadJobNumber")
    job = Job(*values)  # type: ignore[arg-type]
    if job.submit < 0 and not job.is_partial:
        raise LogFault(line, "BadSubmit")
    return job


def lines(file: BinaryIO) -> Iterator[Union[str, Job]]:
    """Each comment, job and partial line of a log in turn, in room that doesn't grow but by the numbers of jobs seen.

    Raises `LogFault` at the first faulty line, with the kind and field that the program tells.
    """
    seen: Set[int] = set()
    last: Optional[int] = None
    for count, raw in _raw_lines(file):
        begin = raw.lstrip(b" \t")
        if not begin:
            continue
        if begin.startswith(b";"):
            yield begin.decode("utf-8", "surrogateescape")
            continue
        job = _job(count, raw)
        if job.is_partial:
            if job.number != last:
                raise LogFault(count, "OrphanPartial")
        elif job.number in seen:
            raise LogFault(count, "DuplicateJob")
        elif len(seen) == MOST_JOBS:
            raise LogFault(count, "TooManyJobs")
        else:
            seen.add(job.number)
            last = job.number
        yield job


@contextlib.contextmanager
def opened(path: Path) -> Iterator[BinaryIO]:
    """A file, unpacked on the way in where its name ends in `.gz`. Standard input is read from where it stands, also where
    `/dev/stdin` couldn't be opened again, as a socket can't."""
    if os.fspath(path) == "/dev/stdin":
        with open(0, "rb", closefd=False) as file:
            yield file
        return
    if not os.fspath(path).endswith(".gz"):
        with open(path, "rb") as file:
            yield file
        return
    try:
        with gzip.open(path, "rb") as packed:
            yield packed  # type: ignore[misc]
    except (EOFError, zlib.error, gzip.BadGzipFile) as it:
        raise OSError(f"{os.fspath(path)} is no whole gzip file: {it}") from None


def _collect(items: Iterable[Union[str, Job]]) -> Log:
    log = Log()
    for it in items:
        if isinstance(it, str):
            log.comments.append(it)
        elif it.is_partial:
            log.parts.setdefault(it.number, []).append(it)
        else:
            log.jobs.append(it)
    return log


def parse(text: bytes) -> Log:
    """The log of a text."""
    return _collect(lines(io.BytesIO(text)))


def read(path: Path) -> Log:
    """The log in a file."""
    with opened(path) as file:
        return _collect(lines(file))


def comments_of(path: Path) -> List[str]:
    """The comments of a log's file up to its first line that is too long; its jobs are passed over unread."""
    comments: List[str] = []
    with opened(path) as file, contextlib.suppress(LogFault):
        for _, raw in _raw_lines(file):
            begin = raw.lstrip(b" \t")
            if begin.startswith(b";"):
                comments.append(begin.decode("utf-8", "surrogateescape"))
    return comments


def header_number(comments: Iterable[str], label: str) -> Optional[int]:
    """The number behind a label in the first comment that has it, such as `; MaxProcs: 128`.

    >>> header_number(["; MaxProcs: x", ";MaxProcs:128 nodes"], "MaxProcs")
    128
    """
    form = re.compile(r";[ \t]*" + re.escape(label) + r":[ \t]*([0-9]{1,18})(?:[ \t]|\Z)", re.ASCII)
    for comment in comments:
        match = form.match(comment)
        if match is not None:
            return int(match.group(1))
    return None


def machine(comments: List[str]) -> Optional[int]:
    """The processors that a log's labels name: `MaxProcs`, otherwise `MaxNodes`."""
    for label in ("MaxProcs", "MaxNodes"):
        procs = header_number(comments, label)
        if procs is not None:
            return procs
    return None
