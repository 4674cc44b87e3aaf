"""A driver with a mistake: the first status of its subchannel counts as the end of its program.

An intermediate status is pending too, and its request is like any other: it says only that a CCW with PCI took control. Whether a program
has ended stands in the status control of the status word.
"""

from __future__ import annotations

from cpu import CODE, DISK, IRB, READ_ORB, WRITE_ORB, Cpu, Status

TRIES = 3


def drive(cpu: Cpu) -> bool:
    """The write, then the read."""
    return carry_out(cpu, WRITE_ORB) and carry_out(cpu, READ_ORB)


def carry_out(cpu: Cpu, orb: int) -> bool:
    """A program from its start to its end, three times at most."""
    for _ in range(TRIES):
        code = cpu.ssch(DISK, orb)
        while code == 1:
            cpu.tsch(DISK, IRB)
            code = cpu.ssch(DISK, orb)
        if code != 0:
            return False
        status = next_status(cpu)
        if status.deferred_code != 1 and not status.subchannel & 0x02:
            # Here it is: neither primary nor secondary status is asked for.
            return not (status.deferred_code or status.device & 0x02 or status.subchannel & 0x3F)
    return False


def next_status(cpu: Cpu) -> Status:
    """The next status of the disk; that of another subchannel is taken and let go."""
    while True:
        if cpu.tpi(0xFF, CODE) == 0:
            cpu.wait()
            continue
        subchannel = cpu.word(CODE)
        if cpu.tsch(subchannel, IRB) == 0 and subchannel == DISK:
            return cpu.status(IRB)
