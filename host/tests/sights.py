"""What looks tell of holds, programs, units and wires, beside what docs/TUTORIAL.md says of the same lines in lesson 1.

    sights.py
"""

from __future__ import annotations

import sys
from typing import Any, List, Optional, Tuple

import filuvamoth
from filuvamoth import CHANNEL_END, DEVICE_END, Device, Machine, Phase, Place, Progress, Refused, SignalKind

WORD, UNIT = 0x00010000, 0
checks = 0
wrong: List[str] = []

#: A line, and what stands after it: the hold's phase, number and path; the program that waits, and the one that holds the device; where
#: the unit's program is and which it is, the floor, and how far the command is; and the signal that waits on each wire of path 0.
Row = Tuple[str, Phase, int, Optional[int], int, int, Place, int, int, Progress, Optional[SignalKind], Optional[SignalKind]]

ROWS: List[Row] = [
    ("put 500 0000CAFE0080FF0000001000", Phase.FREE, 0, None, 0, 0, Place.IDLE, 0, 0, Progress.NONE, None, None),
    ("put 1000 0120000400002000", Phase.FREE, 0, None, 0, 0, Place.IDLE, 0, 0, Progress.NONE, None, None),
    ("put 2000 C1C2C3C4", Phase.FREE, 0, None, 0, 0, Place.IDLE, 0, 0, Progress.NONE, None, None),
    ("enable 0 0 0", Phase.FREE, 0, None, 0, 0, Place.IDLE, 0, 0, Progress.NONE, None, None),
    ("ssch 0 500", Phase.FREE, 0, None, 1, 0, Place.IDLE, 0, 0, Progress.NONE, None, None),
    ("choose 0", Phase.OFFER, 1, 0, 1, 0, Place.IDLE, 0, 0, Progress.NONE, SignalKind.SELECT, None),
    ("down 0 0", Phase.OFFER, 1, 0, 1, 0, Place.ON, 1, 1, Progress.NONE, None, SignalKind.ACCEPT),
    ("up 0 0", Phase.ON, 1, 0, 0, 1, Place.ON, 1, 1, Progress.NONE, SignalKind.COMMAND, None),
    ("down 0 0", Phase.ON, 1, 0, 0, 1, Place.ON, 1, 1, Progress.NEW, None, None),
    ("dev 0", Phase.ON, 1, 0, 0, 1, Place.ON, 1, 1, Progress.WORKING, None, SignalKind.DATA),
    ("up 0 0", Phase.ON, 1, 0, 0, 1, Place.ON, 1, 1, Progress.WORKING, SignalKind.GIVE, None),
    ("down 0 0", Phase.ON, 1, 0, 0, 1, Place.ON, 1, 1, Progress.WORKING, None, None),
    ("dev 0", Phase.ON, 1, 0, 0, 1, Place.ON, 1, 1, Progress.WORKING, None, SignalKind.DATA),
    ("up 0 0", Phase.ON, 1, 0, 0, 1, Place.ON, 1, 1, Progress.WORKING, SignalKind.GIVE, None),
    ("down 0 0", Phase.ON, 1, 0, 0, 1, Place.ON, 1, 1, Progress.WORKING, None, None),
    ("dev 0", Phase.ON, 1, 0, 0, 1, Place.ON, 1, 1, Progress.ENDED, None, SignalKind.END),
    ("up 0 0", Phase.LETTING_GO, 1, 0, 0, 0, Place.ON, 1, 1, Progress.ENDED, SignalKind.RELEASE, None),
    ("tsch 0 600", Phase.LETTING_GO, 1, 0, 0, 0, Place.ON, 1, 1, Progress.ENDED, SignalKind.RELEASE, None),
    ("down 0 0", Phase.LETTING_GO, 1, 0, 0, 0, Place.IDLE, 0, 1, Progress.NONE, None, SignalKind.RELEASED),
    ("up 0 0", Phase.FREE, 0, None, 0, 0, Place.IDLE, 0, 1, Progress.NONE, None, None),
]


def expect(what: str, got: Any, wanted: Any) -> None:
    global checks
    checks += 1
    if got != wanted:
        wrong.append(f"{what} is {got!r}, not {wanted!r}")


class Store(Device):
    """A device that takes all bytes."""

    def initial(self, code: int, side: int, path: int) -> int:
        return 0

    def absorb(self, data: bytes) -> int:
        return len(data)

    def finish(self) -> int:
        return CHANNEL_END | DEVICE_END


def look(machine: Machine, row: Row) -> None:
    line, phase, number, path, waiting, holding, place, held_by, floor, progress, down, up = row
    hold, programs, unit, wires = machine.hold(WORD), machine.programs(WORD), machine.unit_state(UNIT), machine.wires(WORD)
    expect(f"after {line} the hold", (hold.phase, hold.number, hold.path), (phase, number, path))
    expect(f"after {line} the programs", (programs.waiting, programs.holding, programs.suspended), (waiting, holding, 0))
    expect(f"after {line} the unit", (unit.place, unit.number, unit.floors, unit.progress), (place, held_by, (floor, 0), progress))
    expect(f"after {line} the path of the unit", unit.path, 0 if place == Place.ON else None)
    for told, count, kind in ((machine.signals_down(WORD, 0), wires.down, down), (machine.signals_up(WORD, 0), wires.up, up)):
        expect(f"after {line} the signals", [signal.kind for signal in told], [] if kind is None else [kind])
        expect(f"after {line} the counts", count, (len(told), 0, 0, 0, 0, 0, 0, 0))
        expect(f"after {line} the programs of the signals", {signal.number for signal in told} <= {1}, True)


def lesson(machine: Machine) -> None:
    for row in ROWS:
        if row[0] == "dev 0":
            machine.serve(UNIT)
        else:
            machine.line(row[0])
        look(machine, row)
        if row[10] == SignalKind.COMMAND:
            command = machine.signals_down(WORD, 0)[0]
            expect("the command", (command.command, command.code, command.room), (1, 0x01, 0))
            expect("the rest of the hold", machine.hold(WORD), filuvamoth.Hold(1, 0, 0, 0, Phase.ON, 0, None, 0, True))
        if row[11] == SignalKind.END:
            ended = machine.signals_up(WORD, 0)[0]
            expect("the end", (ended.command, ended.status, ended.more), (1, CHANNEL_END | DEVICE_END, False))
    expect("what was started and offered", machine.programs(WORD), filuvamoth.Programs(1, 0, 0, 0, 1, 1))


def refused(call: Any, *arguments: int) -> int:
    try:
        call(*arguments)
    except Refused as error:
        return error.number
    return 0


def refusals(machine: Machine) -> None:
    for call in (machine.hold, machine.programs, machine.wires):
        expect(f"{call} of no subchannel", refused(call, WORD + 1), filuvamoth.NO_SUCH_SUBCHANNEL)
    expect("no unit", refused(machine.unit_state, 1), filuvamoth.NO_SUCH_UNIT)
    for signals in (machine.signals_down, machine.signals_up):
        expect(f"{signals} of no subchannel", refused(signals, WORD + 1, 0), filuvamoth.NO_SUCH_SUBCHANNEL)
        expect(f"{signals} of no path", refused(signals, WORD, 1), filuvamoth.NO_SUCH_PATH)
        expect(f"{signals} where none waits", signals(WORD, 0), [])


def main() -> int:
    with Machine() as machine:
        machine.add_path(0x10)
        machine.add_subchannel(WORD, 0x0100, machine.add_unit(Store()), [0x10])
        machine.start(bytearray(0x10000))
        refusals(machine)
        lesson(machine)
    for it in wrong:
        print(it)
    print(f"checks {checks} otherwise {len(wrong)}")
    return 1 if wrong else 0


if __name__ == "__main__":
    sys.exit(main())
