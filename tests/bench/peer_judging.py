"""What the figures of `.ci/bench peer` say: of each thing asked whether the office is as fast beside C as it has to be,
of days of 10 items whether the vault makes no difference, and of each command by how much it grows."""

import math
import statistics
from dataclasses import dataclass

from peer_asks import Ask
from peer_sides import Side

# How many times itself a command on a day of 10 items may take, over vaults of all sizes; the largest exponent.
FLAT, GROWS = 1.3, 1.1
# Commands that tell the whole vault, or all offers or days, and so grow with them.
WHOLE = ("a clip table", "a lent table", "an offer table", "a table of days")


@dataclass
class Told:
    """A line of a table, and whether it holds: None where nothing is wanted."""

    cells: list[str]
    holds: bool | None


def range_of(ours: list[float], theirs: list[float]) -> str:
    """C's time over ours in the rounds in which it was least and most: the noise."""
    ratios = [right / left for left, right in zip(ours, theirs)]
    return f"{min(ratios):.2f} to {max(ratios):.2f}"


def judged(ratio: float, wanted: float | None) -> bool | None:
    """Whether C's time over ours is as large as it has to be."""
    return None if wanted is None else ratio >= wanted


def is_flat(least: float, most: float) -> bool:
    """Whether a command takes no more than it may over the vault in which it takes most."""
    return most <= FLAT * least


def exponent(points: list[tuple[int, float]]) -> float:
    """The exponent by which times grow with sizes: the slope of the line through their logarithms, by least squares."""
    logs = [(math.log(size), math.log(taken)) for size, taken in points]
    of_size, of_time = (statistics.mean(it) for it in zip(*logs))
    return float(sum((x - of_size) * (y - of_time) for x, y in logs) / sum((x - of_size) ** 2 for x, _ in logs))


def mark(holds: bool | None) -> str:
    """What stands at the end of a line."""
    return {None: "", True: "ok", False: "NOT"}[holds]


def is_of_vaults(ask: Ask) -> bool:
    """Whether it is a command on a day of 10 items, over vaults of all sizes."""
    return ask.series is not None and ask.series[1] in ("clips", "offers") and ask.series[0] not in WHOLE


def beside_c(asks: list[Ask], ours: Side, theirs: Side) -> list[Told]:
    """The table of what is asked, but for what the next one tells."""
    found = []
    for ask in asks:
        if is_of_vaults(ask):
            continue
        rounds = [side.took[ask.what] for side in (ours, theirs)]
        left, right = (statistics.median(it) for it in rounds)
        holds = judged(right / left, ask.wanted)
        wanted = "" if ask.wanted is None else f"{ask.wanted}"
        cells = [ask.what, f"{left:,.1f}", f"{right:,.1f}", f"{right / left:.2f}", wanted, mark(holds)]
        found.append(Told([*cells, range_of(*rounds)], holds))
    return found


def series_of(asks: list[Ask], side: Side) -> dict[tuple[str, str], list[tuple[int, float]]]:
    """The times of each command, by what it grows with and how much there is of it."""
    found: dict[tuple[str, str], list[tuple[int, float]]] = {}
    for ask in asks:
        if ask.series is not None:
            command, by, size = ask.series
            found.setdefault((command, by), []).append((size, statistics.median(side.took[ask.what])))
    return found


def over_vaults(asks: list[Ask], ours: Side, theirs: Side) -> list[Told]:
    """The table of days of 10 items over vaults of all sizes, and with as many lent clips; and what C takes at most."""
    of_vaults = [ask for ask in asks if is_of_vaults(ask)]
    theirs_at = series_of(of_vaults, theirs)
    found = []
    for (command, by), points in series_of(of_vaults, ours).items():
        times, most = [taken for _, taken in points], max(taken for _, taken in theirs_at[command, by])
        holds = is_flat(min(times), max(times))
        ratio = f"{max(times) / min(times):.2f}"
        cells = [f"{command}, by {by}", *(f"{it:,.1f}" for it in times), f"{most:,.1f}", ratio, f"{FLAT}"]
        found.append(Told([*cells, mark(holds)], holds))
    return found


def growths(asks: list[Ask], ours: Side) -> list[Told]:
    """The table of exponents."""
    found = []
    for (command, by), points in series_of(asks, ours).items():
        points.sort()
        fitted, last = exponent(points), exponent(points[-2:])
        holds = fitted <= GROWS
        sizes = f"{by}, {points[0][0]:,} to {points[-1][0]:,}"
        found.append(Told([command, sizes, f"{fitted:.2f}", f"{last:.2f}", f"{GROWS}", mark(holds)], holds))
    return found
