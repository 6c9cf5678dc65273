"""Figures with names and labels, as Prometheus reads them from a text. The text is also what is remembered of the last time."""

import re
from typing import Optional

NAME = re.compile(r"([a-z_]+)(?:\{([^}]*)\})? (\S+)")
LABEL = re.compile(r'([a-z]+)="([^"\\]*)"')
Key = tuple[str, tuple[tuple[str, str], ...]]


class Figures:
    """Values by name and labels."""

    def __init__(self, text: str = "") -> None:
        self.values: dict[Key, float] = {}
        for line in text.splitlines():
            found = NAME.fullmatch(line)
            if found:
                self.values[found[1], tuple(sorted(LABEL.findall(found[2] or "")))] = float(found[3])

    @staticmethod
    def key(name: str, labels: dict[str, str]) -> Key:
        """Labels have an order, so that each figure stands once."""
        return name, tuple(sorted((label, re.sub(r'["\\\n{}]', "_", value)) for label, value in labels.items()))

    def put(self, name: str, value: float, **labels: str) -> None:
        """What it is now."""
        self.values[self.key(name, labels)] = float(value)

    def add(self, name: str, more: float, **labels: str) -> None:
        """So much more."""
        key = self.key(name, labels)
        self.values[key] = self.values.get(key, 0.0) + float(more)

    def get(self, name: str, **labels: str) -> Optional[float]:
        """What it is, where it is known."""
        return self.values.get(self.key(name, labels))

    def only(self, name: str) -> Optional[tuple[dict[str, str], float]]:
        """The one figure of this name."""
        found = [(dict(labels), value) for (it, labels), value in self.values.items() if it == name]
        return found[0] if len(found) == 1 else None

    def drop(self, name: str) -> None:
        """None of this name any more."""
        self.values = {key: value for key, value in self.values.items() if key[0] != name}

    def text(self, kinds: dict[str, tuple[str, str]]) -> str:
        """All of them. `kinds` has the kind and the meaning of each name, or of what a histogram's names begin with."""
        lines, told = [], set()
        for (name, labels), value in sorted(self.values.items(), key=lambda it: (it[0][0], order(it[0][1]))):
            family = re.sub(r"_(bucket|sum|count)$", "", name) if name not in kinds else name
            if family not in told and family in kinds:
                told.add(family)
                lines += [f"# HELP {family} {kinds[family][1]}", f"# TYPE {family} {kinds[family][0]}"]
            inside = ",".join(f'{label}="{it}"' for label, it in labels)
            lines.append(f"{name}{{{inside}}} {value:.10g}" if inside else f"{name} {value:.10g}")
        return "".join(f"{line}\n" for line in lines)


def order(labels: tuple[tuple[str, str], ...]) -> tuple[tuple[str, float, str], ...]:
    """The bounds of a histogram stand from the least to the greatest."""
    return tuple((label, float(value) if label == "le" else 0.0, value) for label, value in labels)
