"""The waits that a log records, and these beside the simulated ones: does the simulation resemble the cluster?"""

from __future__ import annotations

import re
from decimal import localcontext
from typing import Callable, Dict, Hashable, Iterable, Iterator, List, NamedTuple, Optional

from . import swf
from .errors import BadWord, shown
from .program import as_file
from .runs import Run, simulate
from .swf import Job, Number, Path


class Recorded(NamedTuple):
    """A job whose wait the log tells (field 3): times in seconds, and its size as the simulation takes it. The account is
    field 13, the group, as it is in logs of Slurm's accounting."""

    number: int
    submit: Number
    wait: Number
    start: Number
    run: Number
    size: Number
    user: int
    partition: int
    account: int
    queue: int


class Pair(NamedTuple):
    """A job's wait as the log tells it, and as it was simulated, and whose the job is."""

    number: int
    user: int
    size: int
    recorded: Number
    simulated: int
    partition: int = swf.MISSING
    account: int = swf.MISSING
    queue: int = swf.MISSING


class Group(NamedTuple):
    """Waits of a group of jobs: means cut to whole seconds; of a half or nine tenths of the jobs the wait is no longer
    than the median or the 90th percentile. `ratio` is the recorded mean over the simulated one in thousandths, None
    where that is 0."""

    group: Hashable
    jobs: int
    recorded_mean: int
    recorded_median: Number
    recorded_p90: Number
    simulated_mean: int
    simulated_median: int
    simulated_p90: int
    ratio: Optional[int]


def _row(job: Job) -> Recorded:
    with localcontext(swf.EXACT):
        start = job.submit + job.wait
    user, partition, account, queue = map(swf.nearest, (job.user, job.partition, job.group, job.queue))
    return Recorded(job.number, job.submit, job.wait, start, job.run, job.size, user, partition, account, queue)


def rows_of(path: Path) -> Iterator[Recorded]:
    """The jobs of a log whose wait is told, one at a time."""
    with swf.opened(path) as file:
        for it in swf.lines(file):
            if isinstance(it, Job) and not it.is_partial and it.wait >= 0:
                yield _row(it)


def recorded(log: Path) -> List[Recorded]:
    """The log's own waits, a row a job, in the order of the file's lines, which may not be that of a schedule; jobs whose
    field 3 is missing have none."""
    return list(rows_of(log))


def compare(log: Path, procs: Optional[int] = None, factor: int = 1000, order: str = "arrival", *,
            program: Optional[Path] = None) -> List[Pair]:
    """Each job that was simulated and whose wait the log tells, with both waits, in the order of the file's lines."""
    with as_file(log) as path:
        return pairs_of(path, simulate(path, procs, factor, order, program=program))


def pairs_of(path: Path, run: Run) -> List[Pair]:
    """The pairs of a log and a run of it."""
    starts = {it.number: it for it in run.schedule}
    return [Pair(it.number, it.user, starts[it.number].processors, it.wait, starts[it.number].wait, it.partition, it.account,
                 it.queue)
            for it in rows_of(path) if it.number in starts]


_WORDS = {"user": "user", "account": "group", "partition": "partition", "queue": "queue"}


def names_in(comments: Iterable[str], kind: str) -> Dict[int, str]:
    """The names of a kind that comments tell; of another kind than users, accounts, partitions and queues there are none.

    >>> names_in(["; Note: user 1 is ana", "; Note: group 1 is phys"], "account")
    {1: 'phys'}
    """
    form = re.compile(rf";[ \t]*Note: {_WORDS.get(kind, '(?!)')} ([0-9]{{1,12}}) is (.+)", re.ASCII)
    found = (form.fullmatch(it) for it in comments)
    return {int(it.group(1)): it.group(2) for it in found if it is not None}


def names(log: Path, kind: str = "user") -> Dict[int, str]:
    """The names of a kind (`user`, `account`, `partition`, `queue`) that a log of Slurm's accounting tells in its comments,
    by their numbers."""
    if kind not in _WORDS:
        raise BadWord(f"a kind of names is one of {', '.join(_WORDS)}, not {shown(kind)}")
    return names_in(swf.comments_of(log), kind)


def percentile(values: List[Number], percent: int) -> Number:
    """The least of the sorted values that so many in a hundred of them don't exceed.

    >>> percentile([1, 2, 3, 4], 50), percentile([1, 2, 3, 4], 90)
    (2, 4)
    """
    return values[max(0, -(-len(values) * percent // 100) - 1)]


def _group(key: Hashable, pairs: List[Pair]) -> Group:
    told = sorted(it.recorded for it in pairs)
    made = sorted(it.simulated for it in pairs)
    simulated = sum(made)
    with localcontext(swf.EXACT):
        whole = sum(told)
        mean = int(whole // len(pairs))
        ratio = int(whole * 1000 // simulated) if simulated else None
    return Group(key, len(pairs), mean, percentile(told, 50), percentile(told, 90), simulated // len(pairs),
                 int(percentile(list(made), 50)), int(percentile(list(made), 90)), ratio)


def by_user(pair: Pair) -> Hashable:
    """The pair's user."""
    return pair.user


def by_size(pair: Pair) -> Hashable:
    """The power of two that the pair's size reaches: 1, 2, 4, 8 and so on."""
    return 1 << (pair.size.bit_length() - 1)


KINDS: Dict[str, Callable[[Pair], Hashable]] = {
    "size": by_size,
    "user": by_user,
    "account": lambda it: it.account,
    "partition": lambda it: it.partition,
    "queue": lambda it: it.queue,
}


def summary(pairs: List[Pair], by: Optional[Callable[[Pair], Hashable]] = None) -> List[Group]:
    """The waits of all pairs as one group named `all`, or by a key, in its order."""
    groups: Dict[Hashable, List[Pair]] = {}
    for it in pairs:
        groups.setdefault("all" if by is None else by(it), []).append(it)
    return [_group(key, groups[key]) for key in sorted(groups)]  # type: ignore[type-var]
