"""Basic UMIDs, the 32-byte names of material of SMPTE ST 330."""

from __future__ import annotations

import ctypes
from dataclasses import dataclass
from functools import cached_property

from ._native import UmidRead, calls, number32
from .faults import UmidFault


@dataclass(frozen=True, order=True)
class Umid:
    """A basic UMID of its 32 bytes; other bytes are refused."""

    bytes: bytes

    def __post_init__(self) -> None:
        _done(calls.umid_fault(self.bytes, len(self.bytes)))

    @classmethod
    def from_hex(cls, text: str) -> Umid:
        """The UMID that 64 hexadecimal digits spell, in either case."""
        given, out = text.encode(), ctypes.create_string_buffer(32)
        _done(calls.umid_from_hex(given, len(given), out, 32))
        return cls(out.raw)

    def hex(self) -> str:
        """The 64 hexadecimal digits, in lower case."""
        out = ctypes.create_string_buffer(64)
        _done(calls.umid_to_hex(self.bytes, 32, out, 64))
        return out.raw.decode("ascii")

    @cached_property
    def _parts(self) -> UmidRead:
        return calls.umid_parts(self.bytes, 32)

    @property
    def version(self) -> int:
        """The version of the register of its label: byte 8."""
        return self._parts.version

    @property
    def material_type(self) -> int:
        """What kind of material it names: byte 11."""
        return self._parts.material_type

    @property
    def material_number_method(self) -> int:
        """How the material number was made: the high four bits of byte 12."""
        return self._parts.material_number_method

    @property
    def instance_number_method(self) -> int:
        """How the instance number was made: the low four bits of byte 12."""
        return self._parts.instance_number_method

    @property
    def instance(self) -> int:
        """The instance number: bytes 14 to 16, the most significant first."""
        return self._parts.instance

    @property
    def material_number(self) -> bytes:
        """The material number: bytes 17 to 32."""
        out = ctypes.create_string_buffer(16)
        _done(calls.umid_material_number(self.bytes, 32, out, 16))
        return out.raw

    def with_instance(self, number: int) -> Umid:
        """The same material with another instance number, below 2^24."""
        out = ctypes.create_string_buffer(32)
        _done(calls.umid_with_instance(self.bytes, 32, number32(number, "an instance number"), out, 32))
        return Umid(out.raw)

    def __str__(self) -> str:
        return self.hex()


def _done(fault: int) -> None:
    if fault:
        raise UmidFault(fault)
