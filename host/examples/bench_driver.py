"""A test bench for a driver: a driver that writes four bytes is run against every point at which its channel path can be lost, and at
each point with every two turns that are due at the same time in both orders. A table says what it saw.

    PYTHONPATH=.. python3 bench_driver.py

To test a driver of your own, put it in the place of `write_driver`. It sees the machine through a Cpu, and yields where it waits.
"""

from __future__ import annotations

import struct
import sys
from collections import Counter
from dataclasses import dataclass, field
from typing import Callable, Dict, Generator, List, Optional, Tuple

from filuvamoth import CHANNEL_END, DEVICE_END, UNIT_CHECK, Device, Machine, Turn

SUBCHANNEL = 0x00010000
PATHS = [0x10, 0x11]
LOST = 0x10
DATA = bytes.fromhex("C1C2C3C4")
MOST_TURNS = 200
TRIES = 4


class Line(Device):
    """A device that takes up to 64 bytes of a write, and counts how many writes ended."""

    def __init__(self) -> None:
        self.taken = b""
        self.writes = 0

    def initial(self, code: int, side: int, path: int) -> int:
        self.taken = b""
        return 0 if code == 0x01 else UNIT_CHECK

    def absorb(self, data: bytes) -> int:
        part = data[: 64 - len(self.taken)]
        self.taken += part
        return len(part)

    def finish(self) -> int:
        self.writes += 1
        return CHANNEL_END | DEVICE_END


# ---- What a driver sees -------------------------------------------------------------------------------------------------------------


@dataclass(frozen=True)
class Status:
    """The subchannel-status word, as a driver reads it."""

    words: Tuple[int, int, int]

    @property
    def deferred_code(self) -> int:
        return self.words[0] >> 24 & 3

    @property
    def device(self) -> int:
        return self.words[2] >> 24

    @property
    def subchannel(self) -> int:
        return self.words[2] >> 16 & 0xFF

    @property
    def is_end(self) -> bool:
        return self.deferred_code == 0 and self.device == CHANNEL_END | DEVICE_END and self.subchannel == 0


class Cpu:
    """The guest's CPU, as a driver has it, and a list of what the driver saw."""

    def __init__(self, machine: Machine, storage: bytearray) -> None:
        self.machine = machine
        self.storage = storage
        self.saw: List[str] = []

    def start(self) -> int:
        """START SUBCHANNEL of a write of four bytes by all paths: the condition code."""
        struct.pack_into(">III", self.storage, 0x500, 0, 0x0080FF00, 0x1000)
        struct.pack_into(">II", self.storage, 0x1000, 0x01200000 | len(DATA), 0x2000)
        self.storage[0x2000 : 0x2000 + len(DATA)] = DATA
        return self.machine.ssch(SUBCHANNEL, 0x500)

    def takes_interruption(self) -> bool:
        """Whether an I/O interruption is taken."""
        return self.machine.requests() != 0 and self.machine.tpi(0xFF, 0) == 1

    def test(self) -> Tuple[int, Status]:
        """TEST SUBCHANNEL: the condition code and the status word."""
        code = self.machine.tsch(SUBCHANNEL, 0x600)
        first, second, third = struct.unpack_from(">III", self.storage, 0x600)
        return code, Status((first, second, third))

    def reports(self) -> List[int]:
        """The channel reports that wait."""
        found = []
        while self.machine.report_count():
            found.append(self.machine.stcrw_word() or 0)
        return found

    def note(self, what: str) -> None:
        self.saw.append(what)


Driver = Callable[[Cpu], Generator[None, None, None]]


def write_driver(cpu: Cpu) -> Generator[None, None, None]:
    """Writes four bytes. It starts again where a path was lost under the program, and where no path was left it waits for one."""
    for _ in range(TRIES):
        code = cpu.start()
        while code in (1, 2):
            cpu.note(f"start cc{code}")
            yield
            cpu.test()
            code = cpu.start()
        if code == 3:
            cpu.note("start cc3")
            return
        while not cpu.takes_interruption():
            yield
        code, status = cpu.test()
        if code:
            cpu.note(f"test cc{code}")
        elif status.is_end:
            cpu.note("written")
            return
        elif status.deferred_code == 3:
            cpu.note("no path")
            while not cpu.reports():
                yield
        elif status.subchannel & 0x02:
            cpu.note("interface-control check")
        else:
            cpu.note("status %08X %08X %08X" % status.words)
            return
    cpu.note("given up")


# ---- The bench ----------------------------------------------------------------------------------------------------------------------

#: What can be due, in the order in which it is tried: the unit takes a signal, its device is turned, the subchannel takes a signal, the
#: subsystem chooses.
ACTORS = ["down 0", "down 1", "device", "up 0", "up 1", "choose"]


class NotDue(Exception):
    """What was to go first is not due."""


@dataclass
class Swap:
    """At this turn this actor goes first."""

    turn: int
    actor: str


@dataclass
class Run:
    """What came of a run."""

    turns: List[str] = field(default_factory=list)
    saw: List[str] = field(default_factory=list)
    swaps: List[Swap] = field(default_factory=list)
    writes: int = 0


class Bench:
    """A machine with a driver, turned one turn at a time."""

    def __init__(self, driver: Driver, paths: List[int]) -> None:
        self.storage = bytearray(0x10000)
        self.line = Line()
        self.machine = Machine()
        for path in paths:
            self.machine.add_path(path)
        self.unit = self.machine.add_unit(self.line)
        self.machine.add_subchannel(SUBCHANNEL, 0x0100, self.unit, paths)
        self.machine.start(self.storage)
        self.machine.enable(SUBCHANNEL)
        self.actors = [actor for actor in ACTORS if actor[-1] not in "01" or int(actor[-1]) < len(paths)]
        self.cpu = Cpu(self.machine, self.storage)
        self.driver = driver(self.cpu)
        self.ended = False

    def act(self, actor: str) -> Optional[str]:
        """What an actor did; None where nothing was due."""
        if actor == "device":
            return self.call_device()
        verb, _, path = actor.partition(" ")
        number, text = self.machine.line(f"{verb} {SUBCHANNEL:X}" + (f" {path}" if path else ""))
        if number < 0 or text == "idle":
            return None
        return {"down": "unit ", "up": "subchannel ", "choose": ""}[verb] + text + (f" on {path}" if path else "")

    def call_device(self) -> Optional[str]:
        work = self.machine.work(self.unit)
        if work is None:
            return None
        self.machine.serve(self.unit)
        return "device " + work.kind.name.lower()

    def repeat_report(self) -> Optional[str]:
        """The unit hands in a report that its device is not needed for, where no signal waits for it."""
        return "unit repeats" if self.machine.turn_unit(self.unit) == Turn.TURNED else None

    def turn(self, first: Optional[str]) -> Tuple[Optional[str], str]:
        """One turn: what was done, and by which actor."""
        if first is not None:
            done = self.act(first)
            if done is None:
                raise NotDue
            return done, first
        for actor in self.actors:
            done = self.act(actor)
            if done is None and actor == "device":
                done = self.repeat_report()
            if done is not None:
                return done, actor
        return None, ""

    def resume(self) -> None:
        """The driver goes on until it waits or has ended."""
        if not self.ended:
            self.ended = next(self.driver, "ended") == "ended"


def play(driver: Driver, paths: List[int], point: int, swap: Optional[Swap], comes_back: bool) -> Run:
    """A run in which the path is lost after so many turns, and comes back, where it does, once nothing is due any more."""
    bench = Bench(driver, paths)
    run = Run()
    is_back = False
    with bench.machine:
        bench.resume()
        while len(run.turns) < MOST_TURNS:
            turn = len(run.turns)
            if turn == point and not run.turns[-1:] == ["path lost"]:
                bench.machine.path_down(LOST)
                run.turns.append("path lost")
                bench.resume()
                continue
            first = swap.actor if swap is not None and swap.turn == turn else None
            done, actor = bench.turn(first)
            if done is None:
                if bench.ended or is_back or not comes_back or point > turn:
                    break
                is_back = True
                bench.machine.path_up(LOST)
                run.turns.append("path back")
                bench.resume()
                continue
            if swap is None or turn > swap.turn:
                later = bench.actors[bench.actors.index(actor) + 1 :]
                run.swaps.extend(Swap(turn, other) for other in later)
            run.turns.append(done)
            bench.resume()
        run.saw = bench.cpu.saw + ([] if bench.ended else ["waits for ever"])
        run.writes = bench.line.writes
    return run


def orders(driver: Driver, paths: List[int], point: int, comes_back: bool) -> List[Run]:
    """The run with each two turns that are due at the same time in both orders: one swap in each run."""
    plain = play(driver, paths, point, None, comes_back)
    found = [plain]
    for swap in plain.swaps:
        try:
            found.append(play(driver, paths, point, swap, comes_back))
        except NotDue:
            pass
    return found


def table(driver: Driver, paths: List[int], comes_back: bool) -> Counter[str]:
    """Prints what the driver saw at each point, and answers how often it saw what."""
    whole: Counter[str] = Counter()
    length = len(play(driver, paths, MOST_TURNS + 1, None, False).turns)
    for point in range(length + 1):
        found = orders(driver, paths, point, comes_back)
        seen = Counter(", ".join(run.saw) + f" (writes: {run.writes})" for run in found)
        before = found[0].turns[point - 1] if point else "START SUBCHANNEL"
        for saw, count in seen.most_common():
            print(f"{point:5}  {before:28}  {count:6}  {saw}")
            before = ""
        whole.update(run.saw[-1] for run in found)
    return whole


def main() -> int:
    whole: Counter[str] = Counter()
    scenes: Dict[str, Tuple[List[int], bool]] = {
        "two paths, of which the first is lost": (PATHS, False),
        "one path, which is lost and comes back": (PATHS[:1], True),
    }
    for scene, (paths, comes_back) in scenes.items():
        print(f"{scene}\npoint  {'after':28}  {'orders':6}  what the driver saw")
        whole += table(write_driver, paths, comes_back)
        print()
    for last, count in whole.most_common():
        print(f"{count:6} runs ended with: {last}")
    return 0 if set(whole) == {"written"} else 1


if __name__ == "__main__":
    sys.exit(main())
