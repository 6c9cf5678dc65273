"""Which of the other replicas speak, and whether what was done there is what was done here."""

import json
import math
import time

from .health import Health
from .journal import Journal

# Who has said nothing new for so long has no voice, and how long one that might decide is waited for; in seconds.
SILENT, DOUBTED = 3.0, 10.0


class Voices:
    """A replica that differs from another one goes on where a majority of all, itself among them, speaks and agrees
    with it at an entry where the two differ. Nobody else knows which of the two is right, so both stop."""

    def __init__(self, names: list[str], journal: Journal, health: Health) -> None:
        self.journal, self.health = journal, health
        # What each other replica said last and when that was heard, and when a word of it changed: what is found of one
        # as this replica begins may be of long ago.
        self.heard = {it: (b"", time.monotonic()) for it in names if it != health.name}
        self.spoke: dict[str, float] = {}
        # A sum of each that isn't compared yet; the entry at which each was compared last (for one that differs:
        # first).
        self.claims: dict[str, tuple[int, str]] = {}
        self.compared: dict[str, tuple[int, bool]] = {}
        # Those that a majority has found to differ, and since when this replica may be the one that does.
        self.outvoted: set[str] = set()
        self.doubted = math.inf

    def hear(self, name: str, said: bytes) -> None:
        """Compares what another replica says with what was answered here, once that is there."""
        before, now = self.heard.get(name, (b"", 0.0))[0], time.monotonic()
        if before != said:
            self.heard[name] = said, now
            if before:
                self.spoke[name] = now
        state = json.loads(said)
        n, its = self.claims.setdefault(name, (state["n"], state["sum"]))
        if n <= self.journal.last.n:
            del self.claims[name]
            if record := self.journal.by_n.get(n):
                self.compare(name, n, record.sum == its)

    def compare(self, name: str, n: int, agrees: bool) -> None:
        """That the sums of entry n are equal, or aren't."""
        first, did = self.compared.get(name, (n, True))
        self.compared[name] = (n if agrees or did else first), agrees
        self.outvoted -= {name} if agrees else set()
        self.health.ails(f"differs from {name}", None if agrees else f"at entry {n}", True)
        self.health.agrees[name] = agrees

    def judge(self) -> None:
        """Stops this replica where it differs from one that speaks and has no majority with it. Until that is known
        it is ill, so that another one is asked."""
        now = time.monotonic()
        differ = {it: n for it, (n, agrees) in self.compared.items()
                  if not agrees and it in self.spoke and it not in self.outvoted}
        first, half = min(differ.values(), default=0), (1 + len(self.heard)) / 2
        agree = {it for it, (n, agrees) in self.compared.items()
                 if agrees and n >= first and now - self.spoke.get(it, -math.inf) <= SILENT}
        if 1 + len(agree) > half:
            self.outvoted |= differ.keys()
            differ = {}
        self.doubted = min(self.doubted, now) if differ else math.inf
        why = f"from {', '.join(sorted(differ))} at entry {first}" if differ else None
        self.health.ails("differs", why)
        may_agree = self.heard.keys() - differ.keys() - self.outvoted
        if differ and (1 + len(may_agree) <= half or now > self.doubted + DOUBTED):
            self.health.stop(f"its answers or rows aren't those of the others at entry {first}, as far as anybody says")
