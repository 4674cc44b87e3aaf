"""What a driver has: a CPU that executes I/O instructions, of which a program sees the condition code and what was stored; and time.

A driver is given a Cpu, and decides by what its methods return alone. What the simulator knows beside that, no program on a CPU can see.
"""

from __future__ import annotations

from dataclasses import dataclass
from typing import Callable, List

from talking import Talking

# The subchannels, and where the blocks of disk-and-console.chs stand.
DISK, CONSOLE = 0x00010000, 0x00010001
WRITE_ORB, READ_ORB = 0x500, 0x520
CODE, IRB = 0x800, 0x600


class TooLong(Exception):
    """More was done than any driver of the exercise needs."""


@dataclass(frozen=True)
class Status:
    """The subchannel-status word that TEST SUBCHANNEL stores first in its IRB (docs/SHEETS.md has its bits)."""

    control: int
    address: int
    rest: int

    @property
    def deferred_code(self) -> int:
        """1: another status of the device came before the start; 3: no path."""
        return self.control >> 24 & 3

    @property
    def is_alert(self) -> bool:
        return bool(self.control & 0x10)

    @property
    def is_intermediate(self) -> bool:
        return bool(self.control & 0x08)

    @property
    def is_primary(self) -> bool:
        return bool(self.control & 0x04)

    @property
    def is_secondary(self) -> bool:
        return bool(self.control & 0x02)

    @property
    def device(self) -> int:
        """The device status: 08 channel end, 04 device end, 02 unit check, 80 attention."""
        return self.rest >> 24

    @property
    def subchannel(self) -> int:
        """The subchannel status: 80 program-controlled interruption, 02 interface-control check."""
        return self.rest >> 16 & 0xFF

    @property
    def count(self) -> int:
        """The bytes that are left of the last CCW."""
        return self.rest & 0xFFFF


@dataclass(frozen=True)
class Executed:
    """An instruction that was executed, and what was answered: `tsch 00010000 600` and `cc 0 00804007 00001008 0C000000`."""

    line: str
    code: int
    printed: str


class Cpu:
    """A CPU with storage. `wait` lets time pass: devices and channel subsystem work then, and at no other time."""

    def __init__(self, talk: Talking, passing: Callable[[], object], most: int = 1000) -> None:
        """`passing` is what happens in a wait; so many instructions are executed at most."""
        self._talk = talk
        self._passing = passing
        self._most = most
        self.executed: List[Executed] = []

    def store(self, address: int, data: bytes) -> None:
        """Puts 1 to 256 bytes into storage."""
        self._talk.say(f"put {address:X} {data.hex()}")

    def load(self, address: int, count: int) -> bytes:
        """So many bytes of storage, 1 to 64."""
        return bytes.fromhex(self._talk.say(f"show {address:X} {count:X}").printed)

    def word(self, address: int) -> int:
        """A word of storage."""
        return int.from_bytes(self.load(address, 4), "big")

    def status(self, irb: int) -> Status:
        """The status word of the IRB that stands there."""
        return Status(self.word(irb), self.word(irb + 4), self.word(irb + 8))

    def ssch(self, subchannel: int, orb: int) -> int:
        """START SUBCHANNEL with the ORB that stands there: its condition code."""
        return self._execute(f"ssch {subchannel:08X} {orb:X}")

    def tsch(self, subchannel: int, irb: int) -> int:
        """TEST SUBCHANNEL, which stores an IRB of 64 bytes there: its condition code."""
        return self._execute(f"tsch {subchannel:08X} {irb:X}")

    def tpi(self, subclasses: int, code: int) -> int:
        """TEST PENDING INTERRUPTION of the subclasses whose bits are one (80 is subclass 0): its condition code.

        With code 1 two words are stored: the subchannel that the request is of, as it stands in general register 1, and the parameter.
        """
        return self._execute(f"tpi {subclasses:X} {code:X}")

    def hsch(self, subchannel: int) -> int:
        """HALT SUBCHANNEL: its condition code."""
        return self._execute(f"hsch {subchannel:08X}")

    def csch(self, subchannel: int) -> int:
        """CLEAR SUBCHANNEL: its condition code."""
        return self._execute(f"csch {subchannel:08X}")

    def stsch(self, subchannel: int, schib: int) -> int:
        """STORE SUBCHANNEL, which stores a SCHIB of 52 bytes there: its condition code."""
        return self._execute(f"stsch {subchannel:08X} {schib:X}")

    def wait(self) -> None:
        """Time passes."""
        self._passing()

    def _execute(self, line: str) -> int:
        if len(self.executed) >= self._most:
            raise TooLong(f"it executed {self._most} instructions and was not done")
        answer = self._talk.say(line)
        self.executed.append(Executed(line, answer.code, answer.printed))
        return answer.code
