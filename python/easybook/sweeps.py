"""Many scenarios of many logs, over any executor of `concurrent.futures`."""

from __future__ import annotations

import contextlib
import os
import sys
import time
import warnings
from collections import Counter
from concurrent.futures import CancelledError, Executor, Future, ThreadPoolExecutor, TimeoutError, as_completed
from typing import Dict, Iterable, Iterator, List, NamedTuple, Optional, Sequence, TextIO, Tuple, Union

from .errors import BadWord, LogFault, NoProgram, shown
from .program import Stopper, as_file, find, is_copied, is_read_once
from .reports import Table
from .runs import MOST_SCENARIOS, Failure, Row, Scenario, side, whole_number
from .swf import Path


class Rows(List[Row]):
    """The rows of a sweep, in the order of its logs and scenarios, and what failed; and the table that each row is of."""

    failures: List[Failure]
    tables: List[Table]

    def __init__(self, rows: Iterable[Row] = (), failures: Iterable[Failure] = (), tables: Iterable[Table] = ()) -> None:
        super().__init__(rows)
        self.failures = list(failures)
        self.tables = list(tables)


class Task(NamedTuple):
    """What one program is asked: some scenarios of a log. `copy` is where a copy of the log lies, if one was made for
    several programs or since it could be read once alone, or why it could not be."""

    log: str
    scenarios: Tuple[Scenario, ...]
    program: Optional[str]
    copy: Union[str, OSError, None] = None


class Done(NamedTuple):
    """What came of a task."""

    rows: List[Row]
    failures: List[Failure]
    tables: List[Table]


_TASKS_OF_A_PROCESSOR = 4

# Why a task fails whatever its scenarios are.
_OF_THE_WHOLE = (LogFault, NoProgram, OSError)


def work(task: Task, stopper: Optional[Stopper] = None) -> Done:
    """Works a task; a failure is told for each of its scenarios. Where it may be the fault of one of them, each is tried
    by a program of its own. It can be sent to another process or machine."""
    try:
        if isinstance(task.copy, OSError):
            raise task.copy
        return Done(*side(task.log, task.scenarios, task.program, stopper, task.copy))
    except Exception as it:  # whatever it is, the other tasks go on, and this one is told
        if len(task.scenarios) == 1 or isinstance(it, _OF_THE_WHOLE):
            return _failed(task, it)
        return _one_by_one(task, stopper, it)


def _one_by_one(task: Task, stopper: Optional[Stopper], error: Exception) -> Done:
    """Works each scenario of a task that failed; none once all is stopped."""
    done = Done([], [], [])
    for it in task.scenarios:
        alone = task._replace(scenarios=(it,))
        one = _failed(alone, error) if stopper and stopper.is_stopped else work(alone, stopper)
        done.rows.extend(one.rows)
        done.failures.extend(one.failures)
        done.tables.extend(one.tables)
    return done


def _failed(task: Task, error: BaseException) -> Done:
    whole = error if isinstance(error, Exception) else RuntimeError(repr(error))
    return Done([], [Failure(task.log, it, whole) for it in task.scenarios], [])


def _processors() -> int:
    """How many processors this process may use."""
    if hasattr(os, "sched_getaffinity"):
        return len(os.sched_getaffinity(0))
    return os.cpu_count() or 1


def tasks(logs: Sequence[str], scenarios: Sequence[Scenario], program: Optional[str], at_once: Optional[int],
          threads: Optional[int] = None) -> List[Task]:
    """The tasks of a sweep: of each log its scenarios, so many a program. Without a number as many as give each thread
    (for an executor each processor of this machine, since its own number isn't known) four programs, one after the other,
    so that it is seen how far they are; never more than 64.

    >>> [len(it.scenarios) for it in tasks(["a"], [Scenario(n + 1) for n in range(130)], None, 64)]
    [64, 64, 2]
    """
    spread = -(-len(logs) * len(scenarios) // (_TASKS_OF_A_PROCESSOR * (threads or os.cpu_count() or 1)))
    most = min(MOST_SCENARIOS, max(1, spread) if at_once is None else at_once)
    return [Task(log, tuple(scenarios[it : it + most]), program) for log in logs for it in range(0, len(scenarios), most)]


class _Progress:
    """A line on a terminal that says how many are done and how long the rest will take; nothing on anything else."""

    def __init__(self, count: int, to: Optional[TextIO]) -> None:
        self._count, self._done, self._began = count, 0, time.monotonic()
        self._to = to if to is not None and to.isatty() else None
        self._tell()

    def add(self, count: int) -> None:
        """So many more scenarios are done."""
        self._done += count
        self._tell()

    def _tell(self) -> None:
        rest = ""
        if self._done:
            left = round((time.monotonic() - self._began) * (self._count - self._done) / self._done)
            rest = f", about {left} s left"
        self._say(f"\reasybook: {self._done} of {self._count} scenarios done{rest} \033[K")

    def end(self) -> None:
        """Ends the line."""
        self._say("\r\033[K")

    def _say(self, text: str) -> None:
        if self._to is not None:
            self._to.write(text)
            self._to.flush()


def _result(task: Task, future: "Future[Done]") -> Done:
    try:
        return future.result()
    except (Exception, CancelledError) as it:  # the executor's own trouble: a process that was killed, an engine gone
        return _failed(task, it)


def _as_completed(futures: Iterable["Future[Done]"]) -> Iterator["Future[Done]"]:
    """Each of them once it is done. It looks up every second, since a signal that comes just before a wait without end
    would be seen only after it."""
    left = set(futures)
    while left:
        with contextlib.suppress(TimeoutError):
            for future in as_completed(set(left), timeout=1):
                left.discard(future)
                yield future


def _over(executor: Executor, todo: List[Task], stopper: Optional[Stopper]) -> List[Done]:
    """Works tasks over an executor; the answers in the order of the tasks. Whatever raises, what has not begun never
    does."""
    progress = _Progress(sum(len(it.scenarios) for it in todo), sys.stderr)
    futures: Dict["Future[Done]", int] = {}
    done: Dict[int, Done] = {}
    try:
        for place, task in enumerate(todo):
            try:
                future = executor.submit(work, task, stopper) if stopper else executor.submit(work, task)
            except Exception as it:  # it takes no more, or not this one
                done[place] = _failed(task, it)
                progress.add(len(task.scenarios))
            else:
                futures[future] = place
        for future in _as_completed(futures):
            place = futures[future]
            done[place] = _result(todo[place], future)
            progress.add(len(todo[place].scenarios))
    finally:
        progress.end()
        for future in futures:
            future.cancel()
    return [done[place] for place in range(len(todo))]


def _scenario(it: object) -> Scenario:
    if not isinstance(it, Scenario):
        raise BadWord(f"a scenario is an easybook.Scenario, not {shown(it)}")
    return it.check()


def _checked(logs: Union[Path, Iterable[Path]],
             scenarios: Union[Scenario, Iterable[Scenario]]) -> Tuple[List[str], List[Scenario]]:
    if isinstance(logs, (str, os.PathLike)):
        logs = [logs]
    asked = [_scenario(it) for it in ([scenarios] if isinstance(scenarios, Scenario) else scenarios)]
    names = Counter(it.name for it in asked if it.name is not None)
    for name, count in names.items():
        if count > 1:
            raise BadWord(f"{count} scenarios are named {name}")
    return [os.fspath(it) for it in logs], asked


def sweep(logs: Union[Path, Iterable[Path]], scenarios: Union[Scenario, Iterable[Scenario]],
          executor: Optional[Executor] = None, *, at_once: Optional[int] = None, threads: Optional[int] = None,
          program: Optional[Path] = None) -> Rows:
    """The numbers of each log under each scenario, in this order.

    The work goes to the executor, in tasks of at most 64 scenarios of a log, each worked by a program of its own
    (`at_once`: at most so many). Without an executor there are as many threads as this process may use processors, or
    `threads`. On other machines the logs and the program must have the same paths. A log that is no regular file, such as
    a pipe, is read once, into a temporary file of this machine; without an executor so is one that is packed (`.gz`).

    What fails is told by a warning, with its log and scenario, and in `failures` of what is answered; the others' rows are
    all there, and in `tables` the table that each is of. Where this is interrupted, the programs that run under its own
    threads are ended.
    """
    rows = _sweep(logs, scenarios, executor, at_once, threads, program)
    for failure in rows.failures:
        warnings.warn(str(failure), RuntimeWarning, stacklevel=2)
    return rows


@contextlib.contextmanager
def _copies(todo: List[Task], is_here: bool) -> Iterator[Dict[str, Union[str, OSError]]]:
    """Copies of those logs that can be read once alone, for as long as this stands, or why there is none. Where all tasks
    are worked here, also of those of which each of several programs would read a copy of its own."""
    with contextlib.ExitStack() as stack:
        copies: Dict[str, Union[str, OSError]] = {}
        for name, count in Counter(it.log for it in todo).items():
            if is_read_once(name) or (is_here and count > 1 and is_copied(name)):
                try:
                    copies[name] = stack.enter_context(as_file(name))
                except OSError as it:
                    copies[name] = it
        yield copies


def _worked(todo: List[Task], executor: Optional[Executor], threads: Optional[int]) -> List[Done]:
    """Works tasks over an executor, or over threads, whose programs end with this."""
    if executor is not None:
        return _over(executor, todo, None)
    stopper = Stopper()
    with ThreadPoolExecutor(threads) as own:
        try:
            return _over(own, todo, stopper)
        finally:
            stopper.stop()


def _sweep(logs: Union[Path, Iterable[Path]], scenarios: Union[Scenario, Iterable[Scenario]],
           executor: Optional[Executor], at_once: Optional[int], threads: Optional[int], program: Optional[Path]) -> Rows:
    names, asked = _checked(logs, scenarios)
    at_once = None if at_once is None else whole_number(at_once, "scenarios at once")
    threads = None if threads is None else whole_number(threads, "threads")
    own = None if executor is not None else find(program)
    count = None if executor is not None else threads or _processors()
    todo = tasks(names, asked, own or (None if program is None else os.fspath(program)), at_once, count)
    with _copies(todo, executor is None) as copies:
        done = _worked([it._replace(copy=copies.get(it.log)) for it in todo], executor, count)
    return Rows((row for it in done for row in it.rows), (failure for it in done for failure in it.failures),
                (table for it in done for table in it.tables))


def run(log: Path, *scenarios: Scenario, program: Optional[Path] = None) -> List[Row]:
    """The numbers of one log under some scenarios; without any, on its own machine. The first failure is raised."""
    rows = _sweep(log, scenarios or (Scenario(),), None, None, None, program)
    if rows.failures:
        raise rows.failures[0].error
    return list(rows)
