"""A driver with a mistake: it tests its own subchannel, whichever one the interruption code names.

TEST PENDING INTERRUPTION took the request away as it stored the code. Where it was another subchannel's, the status of that one stays
pending, and no request tells of it any more: START SUBCHANNEL answers code 1 there for ever.
"""

from __future__ import annotations

from cpu import CODE, DISK, IRB, READ_ORB, WRITE_ORB, Cpu, Status

TRIES = 3


def drive(cpu: Cpu) -> bool:
    """The write, then the read."""
    return carry_out(cpu, WRITE_ORB) and carry_out(cpu, READ_ORB)


def carry_out(cpu: Cpu, orb: int) -> bool:
    """A program from its start to its end, three times at most."""
    for _ in range(TRIES):
        code = cpu.ssch(DISK, orb)
        while code == 1:
            cpu.tsch(DISK, IRB)
            code = cpu.ssch(DISK, orb)
        if code != 0:
            return False
        status = end_of_program(cpu)
        if status.deferred_code != 1 and not status.subchannel & 0x02:
            return not (status.deferred_code or status.device & 0x02 or status.subchannel & 0x3F)
    return False


def end_of_program(cpu: Cpu) -> Status:
    """The status that ends the program of the disk."""
    while True:
        if cpu.tpi(0xFF, CODE) == 0:
            cpu.wait()
            continue
        # Here it is: the first word at CODE says whose request it was, and is not looked at.
        if cpu.tsch(DISK, IRB) == 0:
            status = cpu.status(IRB)
            if status.is_secondary or status.deferred_code:
                return status
