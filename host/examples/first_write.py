"""The first worked example in Python: one write of four bytes, from START SUBCHANNEL to its cleared status.

    PYTHONPATH=.. python3 first_write.py
"""

from __future__ import annotations

import sys

import filuvamoth
from filuvamoth import CHANNEL_END, DEVICE_END, UNIT_CHECK, Device, Machine

SUBCHANNEL = 0x00010000
PATH = 0x10


class Line(Device):
    """A device that takes up to 64 bytes of a write."""

    def __init__(self) -> None:
        self.taken = b""

    def initial(self, code: int, side: int, path: int) -> int:
        self.taken = b""
        return 0 if code == 0x01 else UNIT_CHECK

    def absorb(self, data: bytes) -> int:
        part = data[: 64 - len(self.taken)]
        self.taken += part
        return len(part)

    def finish(self) -> int:
        return CHANNEL_END | DEVICE_END


def store_program(storage: bytearray) -> None:
    """What the guest's program stores: an ORB, a channel program of one CCW, and the data."""
    storage[0x500:0x50C] = bytes.fromhex("000000000080FF0000001000")
    storage[0x1000:0x1008] = bytes.fromhex("0120000400002000")
    storage[0x2000:0x2004] = bytes.fromhex("C1C2C3C4")


def test_subchannel(machine: Machine) -> int:
    """TEST SUBCHANNEL, with what it answers."""
    code = machine.tsch(SUBCHANNEL, 0x600)
    print("TEST SUBCHANNEL: code %d, %08X %08X %08X" % (code, *machine.seen().words))
    return code


def main() -> int:
    storage = bytearray(0x10000)
    line = Line()
    with Machine() as machine:
        machine.add_path(PATH)
        unit = machine.add_unit(line)
        machine.add_subchannel(SUBCHANNEL, 0x0100, unit, [PATH])
        machine.start(storage)
        machine.enable(SUBCHANNEL)
        store_program(storage)
        print("START SUBCHANNEL: code", machine.ssch(SUBCHANNEL, 0x500))
        print(machine.run(), "turns")
        codes = test_subchannel(machine), test_subchannel(machine)
    print("the device has", len(line.taken), "bytes:", line.taken.hex().upper())
    return 0 if codes == (0, 1) and line.taken == bytes(storage[0x2000:0x2004]) else 1


if __name__ == "__main__":
    if filuvamoth.version()[0] != filuvamoth.ABI:
        sys.exit("the library is of another interface")
    sys.exit(main())
