"""Programs a second through the Python module: a write of four bytes, from START SUBCHANNEL over turns until nothing is due to TEST
SUBCHANNEL, its device in Python, no history.

    cycle.py SECONDS

Rounds of 1,000 programs are timed, by processor time; the best round counts, since what other programs of the machine do only adds.
"""

from __future__ import annotations

import sys
import time

from filuvamoth import CHANNEL_END, DEVICE_END, UNIT_CHECK, Device, Machine

WORD, ROUND = 0x00010000, 1000


class Line(Device):
    def __init__(self) -> None:
        self.taken = b""

    def initial(self, code: int, side: int, path: int) -> int:
        self.taken = b""
        return 0 if code == 0x01 else UNIT_CHECK

    def absorb(self, data: bytes) -> int:
        self.taken += data
        return len(data)

    def finish(self) -> int:
        return CHANNEL_END | DEVICE_END


def time_of_round(machine: Machine) -> float:
    ssch, run, tsch = machine.ssch, machine.run, machine.tsch
    start = time.process_time()
    for _ in range(ROUND):
        if ssch(WORD, 0x500):
            raise ValueError("START SUBCHANNEL")
        run()
        if tsch(WORD, 0x600):
            raise ValueError("TEST SUBCHANNEL")
    return time.process_time() - start


def main() -> int:
    storage = bytearray(0x10000)
    line = Line()
    with Machine() as machine:
        machine.add_path(0x10)
        machine.add_subchannel(WORD, 0x0100, machine.add_unit(line), [0x10])
        machine.start(storage)
        machine.enable(WORD)
        storage[0x500:0x50C] = bytes.fromhex("000000000080FF0000001000")
        storage[0x1000:0x1008] = bytes.fromhex("0120000400002000")
        storage[0x2000:0x2004] = bytes.fromhex("C1C2C3C4")
        end = time.monotonic() + float(sys.argv[1])
        best = time_of_round(machine)
        while time.monotonic() < end:
            best = min(best, time_of_round(machine))
        if line.taken != storage[0x2000:0x2004] or storage[0x608:0x60A] != b"\x0c\x00":
            raise ValueError("the data or the status is wrong")
    print(f"programs {int(ROUND / best)}")
    return 0


if __name__ == "__main__":
    sys.exit(main())
