"""What ails a replica, and for how long."""

import sys
import time
from pathlib import Path

# A replica that has been ill for so long refuses what it is asked, so that another one is. What is full takes no
# entries, and answers what changes nothing.
PATIENT, FULL = 2.0, "full"


class Health:
    """`agrees` says of each other replica whether its running sum was this one's when they were last compared, and
    `numbers` what the log takes. Without others there is nobody else to be asked."""

    def __init__(self, name: str, folder: str, others: bool = True) -> None:
        self.name, self.others, self.mark = name, others, Path(folder, "stopped")
        self.stopped = self.mark.read_text("utf-8").strip() if self.mark.exists() else ""
        self.ills = {"start": ("it isn't at the end of the log yet", 0.0)} if others else {}
        self.warnings: dict[str, tuple[str, float]] = {}
        self.agrees, self.numbers = dict[str, bool](), dict[str, int]()

    def tell(self, text: str) -> None:
        """A line for the operator."""
        print(f"{self.name}: {text}", file=sys.stderr, flush=True)

    def ails(self, what: str, why: str | None, is_warning: bool = False, since: float | None = None) -> None:
        """What is ill, and why, and since when; None where it is well. A warning has to be looked at, though all is
        answered."""
        found = self.warnings if is_warning else self.ills
        if bool(why) != (what in found):
            self.tell(f"{what}: {why or 'well'}")
        _, before = found.pop(what, ("", time.monotonic() if since is None else since))
        found.update({what: (why, before)} if why else {})

    def stop(self, why: str) -> None:
        """From now on nothing is done or answered, after a start neither, until an operator has removed the mark."""
        self.stopped = why
        self.tell(f"STOPPED: {why}")
        self.mark.write_text(why + "\n", "utf-8")

    def is_long_ill(self) -> bool:
        """Whether nothing new should be begun here."""
        ends = time.monotonic() - PATIENT
        return bool(self.stopped) or any(since < ends for what, (_, since) in self.ills.items() if what != FULL)

    def is_elsewhere(self) -> bool:
        """Whether another replica should be asked."""
        return bool(self.stopped) or self.others and self.is_long_ill()

    def why(self) -> str:
        """All of it in a line."""
        return self.stopped or "; ".join(f"{what}: {why}" for what, (why, _) in self.ills.items())

    def state(self) -> dict[str, object]:
        """For an operator."""
        ills, warnings = ({what: why for what, (why, _) in it.items()} for it in (self.ills, self.warnings))
        return {"name": self.name, "ill": ills, "stopped": self.stopped, "warnings": warnings, "agrees": self.agrees,
                **self.numbers}
