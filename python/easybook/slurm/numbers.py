"""One job number for each execution of a dump."""

from __future__ import annotations

from collections import Counter
from typing import Dict, Hashable, List, NamedTuple, Optional, Set, Tuple

from ..errors import DumpFault
from ..swf import GREATEST_NUMBER
from .executions import Execution
from .values import MEND


class Numbered(NamedTuple):
    """An execution under its job number, and what tells whose it is where that is not Slurm's own number."""

    number: int
    execution: Execution
    legend: Optional[str]


def identity(it: Execution) -> Hashable:
    """What tells an execution's job from others."""
    return it.label if it.number is None else it.number


def _how_far(it: Execution) -> Tuple[bool, int]:
    """How much a row knows of its execution: one that is over tells more than one that runs, and of two that run the one
    that has run longer."""
    return it.is_over, 0 if it.is_over else it.run or 0


def _told_again(executions: List[Tuple[int, Execution]]) -> List[Tuple[int, Execution]]:
    """Of rows of one job, those that no other row tells again: of those of one submission and start the one that knows
    most, the last of several, and no wait that has become a start. Sorted by when they were submitted and started."""
    best: Dict[Tuple[int, Optional[int]], Tuple[int, Execution]] = {}
    for place, it in executions:
        if (it.submit, it.start) not in best or _how_far(best[it.submit, it.start][1]) <= _how_far(it):
            best[it.submit, it.start] = (place, it)
    started = {submit for submit, start in best if start is not None}
    kept = [pair for (submit, start), pair in best.items() if start is not None or submit not in started]
    return sorted(kept, key=lambda pair: (pair[1].submit, pair[1].start is None, pair[1].start or 0, pair[0]))


def _last_of_several(executions: List[Execution], counts: "Counter[str]") -> Dict[int, Optional[bool]]:
    """Of each row whose job has several, by its place: whether it is the job's last execution; None where another row
    tells it again."""
    seen: Set[Hashable] = set()
    several: Dict[Hashable, List[Tuple[int, Execution]]] = {}
    for it in map(identity, executions):
        if it in seen:
            several[it] = []
        seen.add(it)
    del seen
    for place, execution in enumerate(executions if several else ()):
        if identity(execution) in several:
            several[identity(execution)].append((place, execution))
    is_last: Dict[int, Optional[bool]] = {}
    for rows in several.values():
        kept = _told_again(rows)
        counts["repeated"] += len(rows) - len(kept)
        counts["requeued"] += len(kept) - 1
        is_last.update((place, None) for place, _ in rows)
        is_last.update((place, count == len(kept)) for count, (place, _) in enumerate(kept, 1))
    return is_last


def number_all(executions: List[Execution], counts: "Counter[str]") -> List[Numbered]:
    """The executions in the order of the dump. The last of a job has Slurm's number, where the dump tells it; earlier
    ones, and tasks of arrays whose number it doesn't tell, have numbers above all of these. Raises `DumpFault` where a
    log allows none so great."""
    is_last = _last_of_several(executions, counts)
    greatest = max((it.number for it in executions if it.number is not None), default=0)
    fresh = greatest
    numbered: List[Numbered] = []
    for place, it in enumerate(executions):
        last = is_last.get(place, True)
        if last is None:
            continue
        if last and it.number is not None:
            numbered.append(Numbered(it.number, it, None))
            continue
        if fresh == GREATEST_NUMBER:
            line = next(it.line for it in executions if it.number == greatest)
            raise DumpFault(line, f"the job number {greatest} leaves no greater ones for executions that have none of their "
                                  f"own: {MEND}")
        fresh += 1
        counts["no number"] += last
        numbered.append(Numbered(fresh, it, it.label if last else f"an earlier execution of {it.label}"))
    return numbered
