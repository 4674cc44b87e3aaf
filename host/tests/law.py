"""What the Python module raises, and what it does with devices that err.

    law.py
"""

from __future__ import annotations

import mmap
import sys
from typing import Any, Callable, Dict, List, Optional, Tuple, Type

import filuvamoth
from filuvamoth import CHANNEL_END, DEVICE_END, UNIT_CHECK, CallKind, Device, Due, Machine, PathState, ProgramInterruption, Refused, Turn

WORD, PATH = 0x00010000, 0x10
checks = 0
wrong: List[str] = []


def expect(what: str, got: Any, wanted: Any) -> None:
    global checks
    checks += 1
    if got != wanted:
        wrong.append(f"{what} is {got!r}, not {wanted!r}")


def raised(call: Callable[[], Any]) -> Any:
    """What a call raises: the number of a refusal, the code of an interruption in a list, or a type."""
    try:
        call()
    except Refused as error:
        return error.number
    except ProgramInterruption as error:
        return [error.code]
    except Exception as error:  # pylint: disable=broad-except
        return type(error)
    return None


class Odd(Device):
    """A device whose answers are those that it is given."""

    def __init__(self) -> None:
        self.began = 0
        self.status = CHANNEL_END | DEVICE_END
        self.taken: Optional[int] = None
        self.error: Optional[Type[Exception]] = None
        self.restarts = 0

    def initial(self, code: int, side: int, path: int) -> int:
        if self.error is not None:
            raise self.error
        return self.began

    def absorb(self, data: bytes) -> int:
        return len(data) if self.taken is None else self.taken

    def supply(self, most: int) -> bytes:
        return bytes(most if self.taken is None else self.taken)

    def finish(self) -> int:
        return self.status

    def restart(self) -> None:
        self.restarts += 1


def opened(device: Device, storage: Any, command: int, keys: Any = None) -> Machine:
    """A machine whose program is a command of four bytes, which is started."""
    machine = Machine()
    machine.add_path(PATH)
    machine.add_subchannel(WORD, 0x0100, machine.add_unit(device), [PATH])
    machine.start(storage, keys)
    machine.enable(WORD)
    storage[0x500:0x50C] = bytes.fromhex("000000000080FF0000001000")
    storage[0x1000:0x1008] = bytes([command, 0x20, 0, 4, 0, 0, 0x20, 0])
    expect("START SUBCHANNEL", machine.ssch(WORD, 0x500), 0)
    return machine


def stages() -> None:
    machine = Machine()
    storage = bytearray(0x10000)
    expect("before the start", raised(lambda: machine.ssch(WORD, 0x500)), filuvamoth.AT_OTHER_STAGE)
    expect("a path too great", raised(lambda: machine.add_path(256)), filuvamoth.CONFIGURATION_RULE - 2)
    expect("storage of half a block", raised(lambda: machine.start(bytearray(0x10800))), ValueError)
    expect("storage of 15 blocks", raised(lambda: machine.start(bytearray(0xF000))), filuvamoth.BAD_ARGUMENT)
    expect("storage that is only read", raised(lambda: machine.start(bytes(0x10000))), TypeError)
    machine.close()
    expect("a closed machine", raised(machine.requests), filuvamoth.CLOSED)
    machine.close()
    with Machine() as other:
        other.add_path(PATH)
        other.start(storage)
        expect("a setting too late", raised(lambda: other.add_path(PATH + 1)), filuvamoth.AT_OTHER_STAGE)
        expect("a path", other.path(PATH), PathState.UP)
        expect("storage that is lent", raised(lambda: storage.extend(b"x")), BufferError)
        expect("an address outside", raised(lambda: other.put(0x10000, b"x")), [5])
        expect("a number too great", raised(lambda: other.ssch(1 << 32, 0)), ValueError)
        expect("a number below 0", raised(lambda: other.choose(-1)), ValueError)
        expect("a line", tuple(other.line("sysreset")), (0, "done"))
        expect("a line of no event", raised(lambda: other.line("dev 0")), filuvamoth.LINE_RULE - 1)
        expect("a line that is refused", tuple(other.line("down 0 0")), (filuvamoth.NO_SUCH_SUBCHANNEL, "refused 4"))
    with Machine() as third:
        third.start(storage, bytearray(3))
        expect("keys of another count", raised(third.system_reset), filuvamoth.OTHER_SIZE)
    expect("a machine behind its with", raised(other.requests), filuvamoth.CLOSED)
    storage.extend(b"x")
    expect("storage that is the program's again", len(storage), 0x10001)


def errors() -> None:
    storage = bytearray(0x10000)
    with opened(Odd(), storage, 0x01) as machine:
        expect("specification", raised(lambda: machine.ssch(WORD, 0x502)), [6])
        expect("addressing", raised(lambda: machine.ssch(WORD, 0x10000)), [5])
        expect("operand", raised(lambda: machine.ssch(0x00050000, 0x500)), [0x15])
        expect("an ORB that is too short", raised(lambda: machine.ssch_orb(WORD, bytes(11))), filuvamoth.BAD_ARGUMENT)
        expect("no unit", raised(lambda: machine.serve(1)), filuvamoth.NO_SUCH_UNIT)
        expect("no unit to turn", raised(lambda: machine.turn_unit(1)), filuvamoth.NO_SUCH_UNIT)
        expect("its name", str(Refused(filuvamoth.NO_SUCH_UNIT)), "no such unit (-20)")
        expect("a subchannel that there is not", machine.tsch(WORD + 1, 0x600), 3)


def devices() -> None:
    errs: List[Tuple[int, Dict[str, Any], Any]] = [
        (0x01, {"began": DEVICE_END}, filuvamoth.NOT_NOW),
        (0x01, {"began": 0x100}, filuvamoth.BAD_ARGUMENT),
        (0x01, {"taken": 5}, filuvamoth.NOT_NOW),
        (0x01, {"taken": 0x10000}, filuvamoth.BAD_ARGUMENT),
        (0x01, {"status": CHANNEL_END}, filuvamoth.NOT_NOW),
        (0x02, {"taken": 5}, ValueError),
        (0x01, {"error": ZeroDivisionError}, ZeroDivisionError),
    ]
    for command, change, number in errs:
        device = Odd()
        storage = bytearray(0x10000)
        with opened(device, storage, command) as machine:
            kept = dict(device.__dict__)
            device.__dict__.update(change)
            expect(f"a device with {change}", raised(machine.run), number)
            expect("what is due", machine.due(0), Due.CALL)
            # The same call is made again, and answered as it should be.
            device.__dict__.update(kept)
            machine.run()
            expect("TEST SUBCHANNEL", machine.tsch(WORD, 0x600), 0)
            expect("the status", "%08X" % machine.seen().words[2], "0C000000")


def by_hand() -> None:
    """A device by work and report, on a memory map with keys."""
    storage, keys, device = mmap.mmap(-1, 0x10000), bytearray(16), Odd()
    with opened(device, storage, 0x02, keys) as machine:
        expect("no work", machine.work(0), None)
        expect("a turn", machine.turn_subchannel(WORD), Turn.TURNED)
        expect("a signal", machine.due(0), Due.SIGNAL)
        while machine.due(0) != Due.CALL:
            machine.turn_unit(0)
            machine.turn_subchannel(WORD)
        found = machine.work(0)
        if found is None:
            raise ValueError("no work")
        work = found
        expect("a call", (work.kind, work.code, work.from_side, work.from_path), (CallKind.INITIAL, 0x02, 0, 0))
        expect("unlawful", raised(lambda: machine.report(0, work, filuvamoth.Answer.supplied(b"abcd"))), filuvamoth.NOT_NOW)
        expect("lawful", raised(lambda: machine.report(0, work, filuvamoth.Answer.ended(UNIT_CHECK))), None)
        expect("twice", raised(lambda: machine.report(0, work, filuvamoth.Answer.ended(UNIT_CHECK))), filuvamoth.NOT_NOW)
        machine.run()
        expect("TEST SUBCHANNEL", machine.tsch_irb(WORD)[0], 0)
        machine.unit_restart(0)
        expect("restarts", device.restarts, 1)
        expect("away", machine.away_path(0), None)
    storage.close()


def with_history(storage: bytearray, keeps: bool) -> Machine:
    """A machine with one subchannel, which keeps its history or not."""
    machine = Machine()
    machine.add_path(PATH)
    machine.add_subchannel(WORD, 0x0100, machine.add_unit(Odd()), [PATH])
    machine.start(storage, history=keeps)
    return machine


def histories() -> None:
    """A write's history is performed again by another machine, whose answers and storage are the same; then it is let go."""
    storage, others = bytearray(0x10000), bytearray(0x10000)
    with with_history(storage, True) as machine, with_history(others, False) as other:
        machine.put(0x500, bytes.fromhex("000000000080FF0000001000"))
        machine.put(0x1000, bytes.fromhex("0120000400002000"))
        machine.put(0x2000, bytes.fromhex("C1C2C3C4"))
        machine.enable(WORD)
        expect("START SUBCHANNEL", machine.ssch(WORD, 0x500), 0)
        machine.run()
        expect("TEST SUBCHANNEL", machine.tsch(WORD, 0x600), 0)
        entries = list(machine.history())
        expect("how many are kept", len(entries), machine.history_count())
        expect("the first line", entries[0], ("put 00000500 000000000080FF0000001000", "done"))
        expect("the start", ("cpu 0 ssch 00010000 00000500", "cc 0") in entries, True)
        expect("the last line", entries[-1], ("cpu 0 tsch 00010000 00000600", "cc 0 00804007 00001008 0C000000"))
        expect("what a replay answers", [other.line(line).text for line, _ in entries], [reply for _, reply in entries])
        expect("what a replay stores", others == storage, True)
        expect("an entry too far", raised(lambda: machine.history_line(len(entries))), filuvamoth.BAD_ARGUMENT)
        expect("its reply", raised(lambda: machine.history_reply(len(entries))), filuvamoth.BAD_ARGUMENT)
        expect("the last entry of no history", list(other.history()), entries[-1:])
        machine.forget()
        expect("what is let go", list(machine.history()), [])


def many() -> None:
    """1,024 subchannels in four sets, each with a unit of its own: each is enabled and cleared, the more sets before its own the lower
    its subclass, and TEST PENDING INTERRUPTION answers all of them by subclass, and those of one in order."""
    sets = range(4)
    words = [[0x00010000 | the_set << 17 | number for number in range(256)] for the_set in sets]
    in_turn = [(the_set, words[the_set][number]) for number in range(256) for the_set in sets]
    with Machine() as machine:
        machine.set_sets(len(sets))
        machine.add_path(PATH)
        for number, (_, word) in enumerate(in_turn):
            machine.add_subchannel(word, number, machine.add_unit(Odd()), [PATH])
        machine.start(bytearray(0x10000))
        for the_set, word in in_turn:
            codes = machine.enable(word, 3 - the_set), machine.csch(word)
            machine.choose(word)
            taken = machine.down(word, 0), machine.up(word, 0)
            if (codes, taken) != ((0, 0), (True, True)):
                expect(f"clearing {word:08X}", (codes, taken), ((0, 0), (True, True)))
        answered = [machine.tpi_code(0xFF) for _ in in_turn]
        wanted = [(word, 0, (3 - the_set) << 27) for the_set in reversed(sets) for word in words[the_set]]
        expect("the interruption codes", answered == wanted, True)
        expect("no code more", machine.tpi_code(0xFF), None)


def main() -> int:
    stages()
    errors()
    devices()
    by_hand()
    histories()
    many()
    for it in wrong:
        print(it)
    print(f"checks {checks} otherwise {len(wrong)}")
    return 1 if wrong else 0


if __name__ == "__main__":
    sys.exit(main())
