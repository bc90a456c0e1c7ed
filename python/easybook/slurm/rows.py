"""The lines of a dump, each cut into its columns."""

from __future__ import annotations

import codecs
from typing import BinaryIO, Dict, Iterator, List, NamedTuple, Optional

from ..errors import DumpFault
from .values import quoted

MOST_BYTES_OF_LINE = 1 << 20
FORMAT = ("JobIDRaw,JobID,Cluster,Submit,Eligible,Start,End,ElapsedRaw,Suspended,State,User,Account,Partition,QOS,"
          "AllocCPUS,ReqCPUS,AllocNodes,ReqNodes,NodeList,TimelimitRaw")
_ADVICE = f"dump with sacct -a -X -D -P -o {FORMAT}"
_KNOWN = frozenset(f"{FORMAT},Elapsed,Timelimit,UID,AllocTRES,NNodes,NCPUS".lower().split(","))
_PACKED = b"\x1f\x8b"


class Row(NamedTuple):
    """A row of a dump: its line from 1, and its values."""

    line: int
    values: List[str]


class Columns:
    """Which column is where."""

    def __init__(self, names: List[str], line: int) -> None:
        self._places: Dict[str, int] = {}
        for place, name in enumerate(names):
            if self._places.setdefault(name.strip().lower(), place) != place:
                raise DumpFault(line, f"the column {quoted(name)} stands there twice: {_ADVICE}")
        self._line = line

    def has(self, name: str) -> bool:
        """Whether there is a column."""
        return name.lower() in self._places

    def first(self, *names: str) -> Optional[int]:
        """The place of the first of these columns that is there."""
        return next((self._places[it.lower()] for it in names if it.lower() in self._places), None)

    def need(self, *names: str) -> int:
        """The place of the first of these columns that is there; a fault where none is."""
        place = self.first(*names)
        if place is None:
            raise DumpFault(self._line, f"there is no column {' or '.join(names)}: {_ADVICE}")
        return place


def _text_lines(file: BinaryIO) -> Iterator[str]:
    """The lines as text, without their ends; bytes that are no UTF-8 stand as surrogate escapes."""
    count = 0
    while True:
        raw = file.readline(MOST_BYTES_OF_LINE + 1)
        if not raw:
            return
        count += 1
        if count == 1 and raw.startswith(_PACKED):
            raise DumpFault(1, "it is compressed: unpack it (gzip -dc), or give the file a name that ends in .gz")
        if len(raw) > MOST_BYTES_OF_LINE:
            raise DumpFault(count, f"over {MOST_BYTES_OF_LINE} bytes, so this is no dump of sacct: {_ADVICE}")
        if count == 1 and raw.startswith(codecs.BOM_UTF8):
            raw = raw[len(codecs.BOM_UTF8) :]
        yield raw.rstrip(b"\r\n").decode("utf-8", "surrogateescape")


class Dump:
    """A dump: its columns, and its rows one at a time. Further first lines, as of dumps one behind another, are passed
    over and counted, and so are empty lines passed over."""

    def __init__(self, file: BinaryIO, delimiter: str = "|") -> None:
        self._lines = _text_lines(file)
        self._delimiter = delimiter
        self._first = next(self._lines, "")
        self.further_first_lines = 0
        if delimiter not in self._first:
            raise DumpFault(1, f"it names no columns between {quoted(delimiter)}: {_ADVICE}")
        names = self._first.split(delimiter)
        # `sacct -p` ends each line with the delimiter, `sacct -P` doesn't.
        self._ends = names[-1] == ""
        self._count = len(names)
        if _KNOWN.isdisjoint(it.strip().lower() for it in names):
            raise DumpFault(1, "it looks like a job, not the names of columns: dump without -n")
        self.columns = Columns(names[:-1] if self._ends else names, 1)
        self.columns.need("JobIDRaw", "JobID")

    def rows(self) -> Iterator[Row]:
        """The rows."""
        for line, text in enumerate(self._lines, 2):
            if text == self._first:
                self.further_first_lines += 1
            elif "JobID" in text and self._names_columns(text):
                raise DumpFault(line, "it names columns, but not as line 1 does: convert the dumps apart, or dump them with "
                                      "the same -o")
            elif text:
                yield Row(line, self._cut(line, text))

    def _names_columns(self, text: str) -> bool:
        """Whether a line is the first of a dump."""
        names = {it.strip().lower() for it in text.split(self._delimiter)}
        return not names.isdisjoint(("jobid", "jobidraw")) and not names.isdisjoint(("start", "state"))

    def _cut(self, line: int, text: str) -> List[str]:
        values = text.split(self._delimiter)
        if len(values) != self._count or (self._ends and values[-1]):
            told, named = len(values) - (self._ends and values[-1] == ""), self._count - self._ends
            raise DumpFault(line, f"{told} column{'' if told == 1 else 's'} where line 1 names {named}: a value holds "
                            f"{quoted(self._delimiter)} or a line's end; leave out columns such as JobName and SubmitLine, "
                            "or dump and read with another --delimiter")
        return values
