"""What the office takes beside a server in C with the same statements, syncs and answers (peer.c), for
`.ci/bench peer`.

Files are made of vaults, days, offers and aired rows of several sizes (peer_files.py). Both are asked the same over
copies of them, in turns (peer_asks.py, peer_sides.py). An answer that differs in a byte, or rows that do, end it. What
is printed is the median of the rounds, and whether it is what is wanted (peer_judging.py)."""

import os
import sys
import unittest

import packages
import peer_judging as judging
from peer_asks import Centre, families, get, item, post
from peer_files import GAPPED
from peer_judging import Told
from peer_sides import Differs, Side, ask_family, build, syncs_of

PACKAGES = {"cc": "gcc", "/usr/include/sqlite3.h": "libsqlite3-dev", "strace": "strace"}


def print_table(heads: str, lines: list[Told]) -> int:
    """Prints a table, and says of how many of its lines what is wanted doesn't hold."""
    print(f"\n| {' | '.join(heads.split(', '))} |")
    print("|---" * len(heads.split(", ")) + "|")
    for line in lines:
        print(f"| {' | '.join(line.cells)} |", flush=True)
    return sum(line.holds is False for line in lines)


def load() -> str:
    """How many processes wait for a processor, over one, five and fifteen minutes."""
    return " ".join(f"{it:.1f}" for it in os.getloadavg())


def of_syncs(sides: list[Side], room: str) -> list[Told]:
    """How many syncs a message takes on each side, of those that change and that don't."""
    path, count = f"{room}/days10.db", 10
    asked = {
        "a refused tape": [post("1/tapes", '{"barcode":"T1","slot":9}')] * 2 * count,
        "an added tape": [post("1/tapes", f'{{"barcode":"N{n}","slot":{n + 2}}}') for n in range(2 * count)],
        "an item": [post(f"1/days/{GAPPED}/items", item(200_000 + n, "BL")) for n in range(2 * count)],
        "a seal": [post(f"1/days/{n}/seal") for n in range(1, 2 * count + 1)],
        "a plan table": [get("1/days/1")] * 2 * count,
    }
    found = []
    for name, messages in asked.items():
        # What the first ones sync besides, as they begin the log, is taken off.
        both = [(syncs_of(side, path, messages) - syncs_of(side, path, messages[:count])) / count for side in sides]
        found.append(Told([name, *(f"{it:g}" for it in both), judging.mark(both[0] == both[1])], both[0] == both[1]))
    return found


def ask_all(asked: list[list[Centre]], sides: list[Side], room: str, rounds: int) -> None:
    """Makes the files, and asks all of them in each round."""
    for family in asked:
        for centre in family:
            centre.make(f"{room}/{centre.name}.db")
    for turn in range(rounds):
        for family in asked:
            ask_family(family, room, sides, turn == 0)
        print(f"round {turn + 1} of {rounds}, load {load()}", file=sys.stderr, flush=True)


def of_peer(program: str, room: str, rounds: int) -> bool:
    """Prints the tables, and says whether all holds."""
    packages.install("bench", lambda: packages.absent(PACKAGES))
    sides = [Side("office", [program, "answer", "--db"]), Side("c", [build(room)])]
    asked, begun = families(), load()
    try:
        ask_all(asked, sides, room, rounds)
        syncs = of_syncs(sides, room)
    except Differs as fault:
        print(f"bench peer: {fault}")
        return False
    asks = [ask for family in asked for centre in family for ask in centre.asks]
    print(f"\nProcessor time of one message, medians of {rounds} rounds; load {begun} at first, {load()} at last, "
          f"{os.cpu_count()} processors.")
    heads = "What is asked, ours µs, C µs, C / ours, at least, , in the rounds"
    missed = print_table(heads, judging.beside_c(asks, *sides))
    heads = "Days of 10 items µs, over the fewest, , over the most, C at most, ratio of ours, at most, "
    missed += print_table(heads, judging.over_vaults(asks, *sides))
    missed += print_table("Grows, with, exponent, of the last two, at most, ", judging.growths(asks, sides[0]))
    missed += print_table("Syncs of a message, ours, C, ", syncs)
    print(f"\nbench peer: {f'NOT: {missed} lines lack' if missed else 'all lines have'} what is wanted")
    return not missed


def self_test(program: str) -> bool:
    """Whether the judges can say no, also of how long a clone waits, and the C peer answers as conversations do. Without an
    office fewer of these are played."""
    packages.install("bench", lambda: packages.absent(PACKAGES))
    os.environ["PLAYOUT"] = program
    tests = unittest.defaultTestLoader.loadTestsFromNames(["test_first", "test_peer"])
    return unittest.TextTestRunner(verbosity=2).run(tests).wasSuccessful()
