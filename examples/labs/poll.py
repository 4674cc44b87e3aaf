"""A driver that polls: eight bytes are written to the disk, and read back by a second program.

It may see what a program on a CPU can see: condition codes and what was stored. It is the solution of the exercise of docs/TEACHING.md.

    python3 examples/labs/poll.py PROGRAM

runs it once, five events in each wait, where PROGRAM is chtrace, and prints each instruction with what was answered.
"""

from __future__ import annotations

import sys
from pathlib import Path

from cpu import CODE, DISK, IRB, READ_ORB, WRITE_ORB, Cpu, Status
from talking import Talking

# A program whose path was lost is started again, so often in all.
TRIES = 3

UNIT_CHECK, INTERFACE_CONTROL_CHECK, CHECKS = 0x02, 0x02, 0x3F


def drive(cpu: Cpu) -> bool:
    """The write, then the read: whether both ended well. The read is not started where the write did not."""
    return carry_out(cpu, WRITE_ORB) and carry_out(cpu, READ_ORB)


def carry_out(cpu: Cpu, orb: int) -> bool:
    """A program from its start to its end: whether it ended well."""
    for _ in range(TRIES):
        if not start(cpu, orb):
            return False
        status = end_of_program(cpu)
        if not may_begin_again(status):
            return ended_well(status)
    return False


def start(cpu: Cpu, orb: int) -> bool:
    """Starts a program. With code 1 a status is pending that was not asked for: it is taken, and the start tried again."""
    code = cpu.ssch(DISK, orb)
    while code == 1:
        cpu.tsch(DISK, IRB)
        code = cpu.ssch(DISK, orb)
    return code == 0


def end_of_program(cpu: Cpu) -> Status:
    """The status that ends the program. One that is intermediate alone says only how far it came."""
    status = next_status(cpu)
    while not (status.is_secondary or status.deferred_code):
        status = next_status(cpu)
    return status


def next_status(cpu: Cpu) -> Status:
    """The next status of the disk. That of another subchannel is taken too, since TPI took its request: nothing would tell of it again."""
    while True:
        if cpu.tpi(0xFF, CODE) == 0:
            cpu.wait()
            continue
        subchannel = cpu.word(CODE)
        if cpu.tsch(subchannel, IRB) == 0 and subchannel == DISK:
            return cpu.status(IRB)


def may_begin_again(status: Status) -> bool:
    """Whether nothing is wrong with the program: its path was lost under it, or a status of the device came before it began."""
    return status.deferred_code == 1 or bool(status.subchannel & INTERFACE_CONTROL_CHECK)


def ended_well(status: Status) -> bool:
    """Whether no check is shown, and nothing is left to be moved."""
    return not (status.deferred_code or status.device & UNIT_CHECK or status.subchannel & CHECKS or status.count)


def main() -> int:
    script = Path(__file__).with_name("disk-and-console.chs")
    with Talking(*sys.argv[1:2]) as talk:
        for line in script.read_text("utf-8").splitlines():
            talk.say(line)
        cpu = Cpu(talk, lambda: talk.turn(0, 5))
        good = drive(cpu)
        for executed in cpu.executed:
            print(f"{executed.line:20}{executed.printed}")
        print("read back:", cpu.load(0x3000, 8).hex().upper())
    return 0 if good else 1


if __name__ == "__main__":
    sys.exit(main())
