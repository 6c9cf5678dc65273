"""What `.ci/bench heap` finds of one way to hand out an office's memory, and what is against it."""

import statistics
from dataclasses import dataclass
from typing import Mapping, Sequence

# How many days' tables are asked for, then in turn until there were so many; how many items, and how many seals. For so
# many seconds behind an open nothing is asked, since jemalloc gives back what wasn't used for ten.
FIRST, TABLES, PAIRS, SEALS, SETTLES = 10, 100, 50, 10, 12
MOMENTS = (f"an open and {SETTLES} s", f"{FIRST} tables", f"{TABLES} tables")
COSTS = ("an open", "a table that is read", "a table at hand", "an item and its removal", "a seal")
# How many times what is in use an office may keep, and how many times the processor time of today it may take: two runs
# of the same thing differ by as much.
KEPT_WANTED, TIME_WANTED = 1.3, 1.05


@dataclass
class Found:
    """Of one run, or the medians of some: megabytes of its own at each moment, and what is resident, the program's text
    and the libraries' too; the most that was; and processor milliseconds of each of the costs."""

    own: Sequence[float]
    resident: Sequence[float]
    most: float
    costs: Sequence[float]


def middle(runs: Sequence[Found]) -> Found:
    """The medians."""
    def of(lists: Sequence[Sequence[float]]) -> list[float]:
        return [statistics.median(it) for it in zip(*lists)]
    most = statistics.median(it.most for it in runs)
    return Found(of([it.own for it in runs]), of([it.resident for it in runs]), most, of([it.costs for it in runs]))


def kept(found: Found, used: Sequence[float]) -> float:
    """How many times what is in use is kept, at the worst of the moments."""
    return max(own / use for own, use in zip(found.own, used))


def faults(found: Found, today: Found, used: Sequence[float]) -> list[str]:
    """What is against a way, beside today's: by the medians of both, and what is in use."""
    times = kept(found, used)
    told = [f"{times:.2f} times what is in use"] if times > KEPT_WANTED else []
    for what, cost, before in zip(COSTS, found.costs, today.costs):
        if cost > TIME_WANTED * before:
            told.append(f"{what}: {cost / before:.2f}")
    return told


def spread(runs: Sequence[Found], at: int) -> str:
    """The median of a cost, the least and the most."""
    found = sorted(it.costs[at] for it in runs)
    return f"{statistics.median(found):.3g} ({found[0]:.3g} to {found[-1]:.3g})"


def report(found: Mapping[str, Sequence[Found]], used: Sequence[float]) -> None:
    """The tables, and what is against each way. The first way is today's."""
    print("\nIn use behind", ", ".join(f"{what}: {use:.1f} MB" for what, use in zip(MOMENTS, used)))
    print(f"\n| Its own memory, MB, behind | {' | '.join(MOMENTS)} | resident then | at most | of what is in use |")
    print(f"|{'---|' * 7}")
    for name, runs in found.items():
        it = middle(runs)
        own = " | ".join(f"{each:.1f}" for each in it.own)
        print(f"| {name} | {own} | {it.resident[-1]:.1f} | {it.most:.1f} | {kept(it, used):.2f} |")
    today = middle(next(iter(found.values())))
    costs = COSTS[:len(today.costs)]
    print(f"\n| Processor, ms | {' | '.join(costs)} |\n|{'---|' * (1 + len(costs))}")
    for name, runs in found.items():
        print(f"| {name} | {' | '.join(spread(runs, at) for at in range(len(costs)))} |")
    print(f"\nAt most {KEPT_WANTED} times what is in use, and {TIME_WANTED} times the processor time of the first:")
    for name, runs in found.items():
        print(f"- {name}: {'; '.join(faults(middle(runs), today, used)) or 'yes'}", flush=True)


def can_say_no() -> bool:
    """What is kept, or takes longer, is told, and nothing else."""
    own, costs, used = [60.0] * 3, [100.0, 5.0, 1.0, 0.5, 2.0], [50.0, 48.0, 49.0]
    today = Found(own, own, 90.0, costs)
    tries: list[tuple[list[float], list[float], list[str]]] = [
        (own, costs, []), ([65.0, 62.4, 63.7], costs, []), (own, [104.9, 5.2, 1.04, 0.52, 2.1], []),
        ([65.5, 60.0, 60.0], costs, ["1.31 times"]), ([60.0, 60.0, 64.2], costs, ["1.31 times"]),
        (own, [100.0, 5.0, 1.06, 0.5, 2.0], ["a table at hand: 1.06"]),
        (own, [106.0, 5.0, 1.0, 0.5, 2.2], ["an open: 1.06", "a seal: 1.10"]),
        ([99.0] * 3, [200.0, 5.0, 1.0, 0.5, 2.0], ["2.06 times", "an open: 2.00"]),
    ]
    for keeps, takes, wanted in tries:
        told = faults(middle([Found(keeps, own, 90.0, takes)] * 3), today, used)
        if len(told) != len(wanted) or not all(it.startswith(part) for part, it in zip(wanted, told)):
            print(f"heap: {wanted} was to be told of {keeps}, {takes}: {told}")
            return False
    return True
