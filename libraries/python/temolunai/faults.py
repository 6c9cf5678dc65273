"""What is refused: each fault has a number and a name."""

from __future__ import annotations

NAMES = {
    1: "LabelForm",
    2: "LabelRange",
    3: "DropMark",
    4: "DroppedLabel",
    5: "FrameRange",
    6: "NoSuchRate",
    7: "NoRoom",
    8: "NoRange",
    9: "InstanceRange",
    10: "TooLong",
    11: "Length",
    12: "Extended",
    13: "NotUmid",
    14: "HexText",
    21: "NotText",
    22: "FieldCount",
    23: "EventNumber",
    24: "EditKind",
    25: "BadLabel",
    26: "FrameMode",
    27: "SourceBackwards",
    28: "DurationMismatch",
    30: "TooManyEvents",
    31: "NotWritable",
    32: "NoText",
}

UNAVAILABLE = 100


class Fault(ValueError):
    """Something was refused. `number` and `name` say why, as in the header of C."""

    def __init__(self, number: int, where: str = "") -> None:
        self.number = number
        self.name = NAMES.get(number, "")
        super().__init__(f"{where}{number} {self.name}")


class TimecodeFault(Fault):
    """A label or a frame is refused. `index` says which of many it is, counted from 0."""

    def __init__(self, number: int, index: int | None = None) -> None:
        super().__init__(number, "" if index is None else f"{index}: ")
        self.index = index


class RangeFault(Fault):
    """There is no such range."""


class UmidFault(Fault):
    """Bytes or a text are no basic UMID."""


class ListFault(Fault):
    """The first fault of an edit list: its `line`, counted from 1, and for 25 the number of the label's fault, `label`."""

    def __init__(self, number: int, line: int = 0, label: int = 0) -> None:
        super().__init__(number, f"line {line}: " if line else "")
        self.line = line
        self.label = label or None
        if label:
            self.args = (f"{self.args[0]} {label} {NAMES[label]}",)


class WriteFault(Fault):
    """An edit list can't be written; for 31 `event` says which event, counted from 0."""

    def __init__(self, number: int, event: int | None = None) -> None:
        super().__init__(number, "" if event is None else f"event {event}: ")
        self.event = event
