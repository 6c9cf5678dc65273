"""How often a wrong password may be tried: so many times by a name from an address, by an address, and by a name from all of
them, in each ten minutes. A browser in which the name has logged in before has tries of its own."""

import ipaddress
from collections import deque
from typing import Optional

# The most names and addresses that are remembered; the oldest are forgotten.
MOST = 100_000


class Count:
    """The times of the tries of each name, or of each address."""

    def __init__(self, most: int, seconds: float) -> None:
        self.most, self.seconds = most, seconds
        self.times: dict[str, deque[float]] = {}

    def is_full(self, key: str, now: float) -> bool:
        """So many were made in the last while that there may be no more."""
        times = self.times.get(key)
        if times is None:
            return False
        while times and times[0] <= now - self.seconds:
            times.popleft()
        if not times:
            del self.times[key]
        return len(times) >= self.most

    def add(self, key: str, now: float) -> None:
        """One more."""
        self.times.setdefault(key, deque()).append(now)
        if len(self.times) > MOST:
            del self.times[next(iter(self.times))]

    def take_back(self, key: str) -> None:
        """The last one doesn't count."""
        times = self.times.get(key)
        if times:
            times.pop()


class Tries:
    """A try counts as it begins: of many at once no more are let in than of as many one after another."""

    def __init__(self, of_name: int, of_address: int, seconds: float = 600, from_all: int = 100) -> None:
        self.pairs, self.addresses = Count(of_name, seconds), Count(of_address, seconds)
        self.names, self.browsers = Count(from_all, seconds), Count(of_name, seconds)

    def counts(self, name: str, address: str, browser: Optional[str]) -> list[tuple[Count, str]]:
        """What a try counts for. A known browser's counts for it alone: nobody else uses it up, and it none of theirs."""
        if browser:
            return [(self.browsers, f"{name} {browser}")]
        network = network_of(address)
        return [(self.pairs, f"{name} {network}"), (self.addresses, network), (self.names, name)]

    def begin(self, name: str, address: str, now: float, browser: Optional[str] = None) -> bool:
        """Whether a password may be tried. Names that aren't there are counted as those that are."""
        counts = self.counts(name, address, browser)
        if any(count.is_full(key, now) for count, key in counts):
            return False
        for count, key in counts:
            count.add(key, now)
        return True

    def was_right(self, name: str, address: str, browser: Optional[str] = None) -> None:
        """A right password: the name begins anew from there. Else this one is taken back, and the others stay."""
        for count, key in self.counts(name, address, browser):
            if count in (self.pairs, self.browsers):
                count.times.pop(key, None)
            else:
                count.take_back(key)

    def take_back(self, name: str, address: str, browser: Optional[str] = None) -> None:
        """A try that wasn't made after all."""
        for count, key in self.counts(name, address, browser):
            count.take_back(key)


def network_of(address: str) -> str:
    """Whoever has an address of IPv6 has all those of its first 64 bits."""
    try:
        it = ipaddress.ip_address(address)
    except ValueError:
        return address
    return str(ipaddress.ip_network(f"{address}/64", strict=False)) if it.version == 6 else str(it)
