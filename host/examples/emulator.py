"""The I/O side of a small emulator, as emulator.c: a guest of 256 MiB, a store of one block of 512 bytes behind two channel paths, a
program that is ended by an interruption, and one whose path is lost in its middle. It prints what emulator.c prints.

    PYTHONPATH=.. python3 emulator.py
"""

from __future__ import annotations

import mmap
import struct
import sys
from typing import Tuple

from filuvamoth import CHANNEL_END, DEVICE_END, UNIT_CHECK, Device, Machine

SUBCHANNEL, DEVICE_NUMBER, FIRST_PATH, SECOND_PATH, BLOCKS = 0x00010000, 0x0190, 0x10, 0x11, 65536

# Where the guest's I/O code has its blocks: above the 16 MiB that CCWs of format 0 reach.
ORB, PROGRAM, OUT, BACK, IRB, DATA_BYTES = 0x2000000, 0x2000100, 0x4000000, 0x5000000, 0x2000200, 512


class BlockStore(Device):
    """A block of 512 bytes: 01 writes it and 02 reads it; every other code is refused."""

    def __init__(self) -> None:
        self.block = bytearray(DATA_BYTES)
        self.moved = 0
        self.command = 0

    def initial(self, code: int, side: int, path: int) -> int:
        self.moved, self.command = 0, code
        return 0 if code in (0x01, 0x02) else UNIT_CHECK

    def absorb(self, data: bytes) -> int:
        part = data[: DATA_BYTES - self.moved]
        self.block[self.moved : self.moved + len(part)] = part
        self.moved += len(part)
        return len(part)

    def supply(self, most: int) -> bytes:
        part = bytes(self.block[self.moved : self.moved + most])
        self.moved += len(part)
        return part

    def finish(self) -> Tuple[int, bool]:
        return CHANNEL_END | DEVICE_END, self.command == 0x02 and self.moved < DATA_BYTES


class Emulator:
    """The guest's storage and keys, the machine, and the CPU's mask of interruption subclasses."""

    def __init__(self) -> None:
        self.storage = mmap.mmap(-1, BLOCKS * 4096)
        self.keys = bytearray(BLOCKS)
        self.machine = Machine()
        self.subclasses = 0
        machine = self.machine
        machine.set_concurrent_sense(True)
        machine.set_path_return(True)
        machine.add_path(FIRST_PATH)
        machine.add_path(SECOND_PATH)
        unit = machine.add_unit(BlockStore())
        machine.add_subchannel(SUBCHANNEL, DEVICE_NUMBER, unit, [FIRST_PATH, SECOND_PATH])
        machine.start(self.storage, self.keys)

    def close(self) -> None:
        self.machine.close()
        self.storage.close()

    def take_interruption(self) -> bool:
        """An I/O interruption, where the CPU is enabled for one that waits: its code is stored at real 184, and the CPU would change
        its PSW."""
        if not self.machine.requests() & self.subclasses:
            return False
        self.machine.tpi(self.subclasses, 0)
        print("interruption: subchannel %08X, parameter %08X" % self.machine.seen().words[:2])
        return True

    # -- the guest's I/O code

    def enable(self) -> None:
        """The subchannel is enabled for interruption subclass 3. Its SCHIB stands at a logical address, so it is handed over by value."""
        _code, stored = self.machine.stsch_schib(SUBCHANNEL)
        schib = bytearray(stored or bytes(52))
        schib[4] = schib[4] & 0xC7 | 3 << 3
        schib[5] |= 0x80
        self.machine.msch_schib(SUBCHANNEL, schib)
        self.subclasses = 0x80 >> 3

    def store_program(self) -> None:
        """An ORB of format 1 for all paths; a write, to which a read is chained."""
        struct.pack_into(">III", self.storage, ORB, 0x600D0001, 0x0080FF00, PROGRAM)
        struct.pack_into(">IIII", self.storage, PROGRAM, 0x01400000 | DATA_BYTES, OUT, 0x02000000 | DATA_BYTES, BACK)
        self.storage[OUT : OUT + DATA_BYTES] = bytes(at * 7 & 0xFF for at in range(DATA_BYTES))
        self.storage[BACK : BACK + DATA_BYTES] = bytes(DATA_BYTES)

    def start(self) -> None:
        print("START SUBCHANNEL: code %d" % self.machine.ssch(SUBCHANNEL, ORB))

    def test(self) -> int:
        """TEST SUBCHANNEL stores its IRB in the guest's storage: the subchannel status of word 2."""
        code = self.machine.tsch(SUBCHANNEL, IRB)
        first, second, third = struct.unpack_from(">III", self.storage, IRB)
        print("TEST SUBCHANNEL: code %d, %08X %08X %08X" % (code, first, second, third))
        return int(third >> 16 & 0xFF)

    def load_reports(self) -> None:
        """All channel reports that wait."""
        while self.machine.report_count():
            print("channel report: %08X" % (self.machine.stcrw_word() or 0))

    def has_data(self) -> bool:
        return self.storage[OUT : OUT + DATA_BYTES] == self.storage[BACK : BACK + DATA_BYTES]

    # -- what happens

    def run_once(self) -> bool:
        """A program that ends well."""
        self.store_program()
        self.start()
        print("%d turns" % self.machine.run(1000))
        return self.take_interruption() and self.test() == 0 and self.has_data()

    def lose_path(self) -> bool:
        """A program whose path goes down after eight turns, and which the guest starts once more."""
        self.store_program()
        self.start()
        self.machine.run(8)
        self.machine.path_down(SECOND_PATH)
        print("the path %02X is down after 8 turns" % SECOND_PATH)
        self.machine.run(1000)
        lost = self.test() if self.take_interruption() else 0
        self.load_reports()
        if not lost & 0x02:
            return False
        print("interface-control check: once more")
        return self.run_once()


def main() -> int:
    here = Emulator()
    here.enable()
    good = here.run_once() and here.lose_path()
    here.machine.path_up(SECOND_PATH)
    here.load_reports()
    print("the data came back" if good else "the data did not come back")
    here.close()
    return 0 if good else 1


if __name__ == "__main__":
    sys.exit(main())
