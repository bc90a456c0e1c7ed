"""The commands: python -m easybook sacct | sweep | waits."""

from __future__ import annotations

import argparse
import codecs
import contextlib
import csv
import io
import os
import signal
import sys
import warnings
from decimal import Decimal
from typing import Any, BinaryIO, Callable, Dict, Iterator, List, Optional, Sequence, Tuple, TypeVar, Union

from . import waits as _waits
from .errors import EasybookError
from .program import as_file
from .reports import Table
from .runs import ORDERS, Row, Scenario, simulate
from .slurm import Options, convert
from .slurm.convert import A_YEAR
from .slurm.values import Unreadable, duration, zone
from .sweeps import Rows, sweep
from .swf import EXACT, MISSING, comments_of, opened

T = TypeVar("T")


def _whole(text: str) -> int:
    if not (text.isascii() and text.isdigit()):
        raise argparse.ArgumentTypeError(f"{text!r} is no whole number")
    return int(text)


def _listed(one: Callable[[str], T]) -> Callable[[str], List[T]]:
    def read(text: str) -> List[T]:
        return [one(it) for it in text.split(",")]

    read.__name__ = "list"
    return read


def _order(text: str) -> str:
    if text not in ORDERS:
        raise argparse.ArgumentTypeError(f"an order is arrival or shortest, not {text!r}")
    return text


def _kind(text: str) -> str:
    if text not in _waits.KINDS:
        raise argparse.ArgumentTypeError(f"a kind of group is one of {', '.join(_waits.KINDS)}, not {text!r}")
    return text


def _duration(text: str) -> int:
    try:
        return duration(text)
    except Unreadable as it:
        raise argparse.ArgumentTypeError(str(it)) from None


def _delimiter(text: str) -> str:
    if not text or "\n" in text:
        raise argparse.ArgumentTypeError("a delimiter is one or more characters of a line")
    return text


def _say(text: str) -> None:
    """Says a line on standard error; nothing where it is closed, since `print` would then write to standard output."""
    if sys.stderr is not None:
        print(f"easybook: {text}", file=sys.stderr)


def _need_input(what: str) -> None:
    if sys.stdin is None:
        raise EasybookError(f"standard input is closed: give the {what}'s file")


def _log(path: str) -> str:
    """The path of a log; - is standard input."""
    if path != "-":
        return path
    _need_input("log")
    return "/dev/stdin"


@contextlib.contextmanager
def _dump(path: str) -> Iterator[BinaryIO]:
    if path == "-":
        _need_input("dump")
        yield sys.stdin.buffer
        return
    with opened(path) as file:
        yield file


def _sacct(words: argparse.Namespace) -> int:
    local = zone(words.tz) if words.tz else None
    options = Options(words.procs, words.arrival, words.size, words.unlimited, words.no_limit,
                      frozenset(it for it in words.partition if it), words.zero, local, words.tz or "", words.delimiter)
    with _dump(words.dump) as file:
        made = convert(file, options)
    made.write(sys.stdout.buffer)
    sys.stdout.flush()
    _say(_counted(len(made.jobs), "job"))
    for line in made.decided:
        _say(line)
    for line in made.warned:
        _say(f"warning: {line}")
    return 0


def _table(heads: Sequence[str], rows: Sequence[Sequence[Any]], as_csv: bool) -> None:
    """Prints a table: with commas, or in columns, names to the left and numbers to the right."""
    if as_csv:
        writer = csv.writer(sys.stdout, lineterminator="\n")
        writer.writerow(heads)
        writer.writerows(rows)
        return
    texts = [list(map(str, row)) for row in (heads, *rows)]
    widths = [max(map(len, column)) for column in zip(*texts)]
    sides = [str.ljust if isinstance(it, str) else str.rjust for it in rows[0]]
    for row in texts:
        print("  ".join(side(it, width) for side, it, width in zip(sides, row, widths)).rstrip())


def _counted(count: int, what: str) -> str:
    return f"{count} {what}{'' if count == 1 else 's'}"


def _left_out(what: str, count: int) -> str:
    """What is said of jobs that a row is without, and others aren't."""
    are = "is" if count == 1 else "are"
    return f"{_counted(count, 'job')} {are} {what} and left out: its rows are not comparable with others"


def _lacks(procs: int, factor: int, table: Table, long: int) -> List[str]:
    """What is said of a machine's larger jobs, and of those whose estimates are too long under a factor; `long` of these
    are so under one of at most 1000 too, and so under each greater one, and are not told."""
    lines: List[str] = []
    if table.skipped_large:
        lines.append(_left_out(f"larger than {_counted(procs, 'processor')}", table.skipped_large))
    if table.skipped_long > long:
        lines.append(_left_out(f"estimated at over 100000000 seconds under factor {factor}", table.skipped_long - long))
    return lines


def _notes(rows: Rows, are_of_one: bool) -> List[str]:
    """What is said of a sweep, of one log or of several: that a log has no jobs, for each log and machine that there are
    larger jobs, and for each log and factor that there are longer ones."""
    lines: List[str] = []
    long: Dict[Tuple[str, int], int] = {}
    for row, table in zip(rows, rows.tables):
        if row.factor <= 1000:
            long[row.log, row.procs] = min(table.skipped_long, long.get((row.log, row.procs), table.skipped_long))
    for row, table in zip(rows, rows.tables):
        if table.jobs + table.skipped == 0:
            lines.append(f"{row.log} has no jobs")
        told = _lacks(row.procs, row.factor, table, long.get((row.log, row.procs), 0))
        lines += [("" if are_of_one else f"{row.log}: ") + it for it in told]
    return list(dict.fromkeys(lines))


def _sweep(words: argparse.Namespace) -> int:
    logs = list(map(_log, words.log))
    scenarios = [Scenario(procs, factor, order) for procs in words.procs for factor in words.factor for order in words.order]
    with warnings.catch_warnings():
        warnings.simplefilter("ignore", RuntimeWarning)
        rows = sweep(logs, scenarios, at_once=words.at_once, threads=words.threads, program=words.program)
    if rows:
        _table(Row._fields, rows, words.csv)
    sys.stdout.flush()
    for line in (*_notes(rows, len(set(logs)) == 1), *map(str, rows.failures)):
        _say(line)
    return 1 if rows.failures else 0


def _ratio(group: _waits.Group) -> Optional[Decimal]:
    return None if group.ratio is None else Decimal(group.ratio).scaleb(-3, EXACT)


def _waits_of(words: argparse.Namespace) -> int:
    log = _log(words.log)
    with as_file(log) as path:
        run = simulate(path, words.procs, words.factor, words.order, program=words.program)
        pairs = _waits.pairs_of(path, run)
        comments = comments_of(path)
    if run.table.jobs + run.table.skipped == 0:
        _say(f"{log} has no jobs")
    if not pairs:
        _say(f"no job of {log} that is simulated has a wait in field 3")
    else:
        groups = [(it, "all") for it in _waits.summary(pairs)]
        for kind in words.by:
            names = {str(number): name for number, name in _waits.names_in(comments, kind).items()}
            groups += [(it, f"{kind} {names.get(str(it.group), it.group)}") for it in _waits.summary(pairs, _waits.KINDS[kind])]
        _table(("group", *_waits.Group._fields[1:]), [(name, *it[1:-1], _ratio(it)) for it, name in groups], words.csv)
        sys.stdout.flush()
    long = run.table.skipped_long if run.scenario.factor <= 1000 else 0
    for line in _lacks(run.scenario.procs or 0, run.scenario.factor, run.table, long):
        _say(line)
    return 0 if pairs else 1


def _parser() -> argparse.ArgumentParser:
    parser = argparse.ArgumentParser(prog="python -m easybook", description="Makes logs, and asks easybook about them.")
    commands = parser.add_subparsers(dest="command", required=True)
    it = commands.add_parser("sacct", help="make a log of Slurm's accounting")
    it.set_defaults(work=_sacct)
    it.add_argument("dump", help="what `sacct -P` or `sacct -p` printed (.gz: it is unpacked); - is standard input")
    it.add_argument("--procs", type=_whole, required=True, help="the machine's processors (with --size nodes: its nodes)")
    it.add_argument("--tz", help="the zone of times without one, and of midnight, such as Europe/Paris, UTC or -05:00")
    it.add_argument("--arrival", choices=("eligible", "submit"), default="eligible", help="when a job arrives")
    it.add_argument("--size", choices=("alloc", "req", "nodes"), default="alloc", help="what a job takes")
    it.add_argument("--unlimited", type=_duration, default=A_YEAR,
                    help="the estimate of jobs of unlimited time, as `sbatch -t` takes it; a year without this")
    it.add_argument("--no-limit", type=_duration, default=MISSING, help="the estimate of jobs without a limit")
    it.add_argument("--partition", type=_listed(str), default=[], help="take the jobs of these partitions alone: A,B")
    it.add_argument("--zero", choices=("first", "midnight"), default="first", help="second 0 of the log")
    it.add_argument("--delimiter", type=_delimiter, default="|", help="what stands between the columns; | without this")
    it = commands.add_parser("sweep", help="simulate logs under many scenarios")
    it.set_defaults(work=_sweep)
    it.add_argument("log", nargs="+", help="a log's file (.gz: it is unpacked), or a pipe; - is standard input")
    it.add_argument("--procs", type=_listed(_whole), default=[None], help="processors: A,B,C; the log's own machine without this")
    it.add_argument("--factor", type=_listed(_whole), default=[1000], help="thousandths of the estimates: A,B,C")
    it.add_argument("--order", type=_listed(_order), default=["arrival"], help="orders of backfills: arrival,shortest")
    it.add_argument("--at-once", type=_whole, help="how many scenarios one program takes, at most 64")
    it.add_argument("--threads", type=_whole, help="how many programs run at a time; one for each processor without this")
    _common(it)
    it = commands.add_parser("waits", help="set the waits that a log records beside the simulated ones")
    it.set_defaults(work=_waits_of)
    it.add_argument("log", help="a log's file (.gz: it is unpacked), or a pipe; - is standard input")
    it.add_argument("--procs", type=_whole, help="processors; the log's own machine without this")
    it.add_argument("--factor", type=_whole, default=1000, help="thousandths of the estimates")
    it.add_argument("--order", type=_order, default="arrival", help="arrival or shortest")
    it.add_argument("--by", type=_listed(_kind), default=["size", "user"],
                    help="kinds of groups: A,B,C of size, user, account, partition, queue; size,user without this")
    _common(it)
    return parser


def _joined(words: Sequence[str]) -> List[str]:
    """The words, where a value that begins with a minus, such as the zone -05:00, is joined to its option: alone it would
    be taken for one.

    >>> _joined(["sacct", "-", "--tz", "-05:00", "--procs", "8"])
    ['sacct', '-', '--tz=-05:00', '--procs', '8']
    """
    made: List[str] = []
    for word in words:
        is_value = word.startswith("-") and word not in ("-", "-h") and not word.startswith("--")
        before = made[-1] if made and "--" not in made else ""
        if is_value and before.startswith("--") and "=" not in before and before not in ("--csv", "--help"):
            made[-1] += f"={word}"
        else:
            made.append(word)
    return made


def _common(it: argparse.ArgumentParser) -> None:
    it.add_argument("--csv", action="store_true", help="print a table with commas")
    it.add_argument("--program", help="the program easybook; without this $EASYBOOK, or the one on the PATH")


def _escaped(error: UnicodeError) -> Tuple[Union[str, bytes], int]:
    """What is written in the place of what can't be: the bytes of a file's name, which may be any, and escapes of the rest."""
    try:
        return codecs.lookup_error("surrogateescape")(error)
    except UnicodeError:
        return codecs.backslashreplace_errors(error)


codecs.register_error("easybook", _escaped)


def _drop_output() -> None:
    """Has nothing more go to standard output, where what couldn't be written would be tried again at the end."""
    try:
        sys.stdout.flush()
    except OSError:
        os.dup2(os.open(os.devnull, os.O_WRONLY), sys.stdout.fileno())


def main(words: Optional[Sequence[str]] = None) -> int:
    """Works a command; the exit status."""
    if sys.stdout is None:
        _say("standard output is closed: send it to a file or to another program")
        return 1
    for it in (sys.stdout, sys.stderr):
        if isinstance(it, io.TextIOWrapper):
            it.reconfigure(errors="easybook")
    try:
        asked = _parser().parse_args(_joined(sys.argv[1:] if words is None else words))
        status: int = asked.work(asked)
        sys.stdout.flush()
        return status
    except BrokenPipeError:
        _drop_output()
    except (EasybookError, Unreadable) as it:
        _say(str(it))
    except OSError as it:
        _say(f"{it.filename or ''}{': ' if it.filename else ''}{it.strerror or it}")
        _drop_output()
    except KeyboardInterrupt:
        return 130
    return 1


def _end(number: int, frame: object) -> None:
    """Ends in good order, so that the programs that run end too."""
    sys.exit(128 + number)


if __name__ == "__main__":
    signal.signal(signal.SIGTERM, _end)
    sys.exit(main())
