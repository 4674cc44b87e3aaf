"""Checks a driver of the exercise of docs/TEACHING.md: it is run in each of several situations, and judged by what is seen.

    python3 examples/labs/check_poll.py SOLUTION.py [PROGRAM]
    python3 examples/labs/check_poll.py --itself [PROGRAM]    checks the check: poll.py passes, each wrong driver fails by its reason

PROGRAM is chtrace, which is looked for in PATH where it is not given.
Exit status: 0 where the driver passes in all situations, else 1; 2 where the words are not right.
"""

from __future__ import annotations

import importlib.util
import sys
from dataclasses import dataclass, field
from pathlib import Path
from typing import Callable, Dict, Iterator, List, Optional, Tuple

from cpu import CONSOLE, DISK, Cpu, Executed, Status, TooLong
from talking import Talking

Driver = Callable[[Cpu], bool]
HERE = Path(__file__).resolve().parent
SCRIPT = HERE / "disk-and-console.chs"
WRITTEN, READ_BACK, BYTES = 0x2000, 0x3000, 8
MOST_WAITS = 200
NAMES = {DISK: "disk", CONSOLE: "console"}


@dataclass(frozen=True)
class Situation:
    """What happens while a driver runs: how many events each wait has, by turns, and which lines come before which wait."""

    name: str
    events: Tuple[int, ...]
    lines: Dict[int, Tuple[str, ...]] = field(default_factory=dict)
    first: Tuple[str, ...] = ()
    """Lines before the driver begins."""
    is_good: bool = True
    """Whether both programs can end well."""
    shown: str = ""
    """What some answer must have, so that the situation was what its name says."""


ATTENTION = ("attn 1 0", "up 1 0")
SITUATIONS = (
    Situation("the end comes before the first poll", (60,)),
    Situation("the end comes late: one event in a wait", (1,)),
    Situation("nothing happens in most waits", (0, 0, 0, 2)),
    Situation("three events in a wait", (3,)),
    Situation("attention of the console before the start", (3,), first=ATTENTION, shown="00000011 00000000 80000000"),
    Situation("attention of the console under the write", (1,), {7: ATTENTION}, shown="00000011 00000000 80000000"),
    Situation("attention of the console with the end", (60,), {1: ATTENTION}, shown="00000011 00000000 80000000"),
    Situation("attention of the disk before the start", (2,), first=("attn 0 0", "up 0 0"), shown="00000011 00000000 80000000"),
    Situation("attention of the disk meets the start", (2,), {1: ("up 0 0",)}, first=("attn 0 0",), shown="cc 0 01804011"),
    Situation("a path is lost under the write", (1,), {8: ("pathdown 10",)}, shown=" 0002"),
    Situation("a path is lost under the read", (60,), {2: ("turn 0 6", "pathdown 11")}, shown=" 0002"),
    Situation("all paths are down", (5,), first=("pathdown 10", "pathdown 11"), is_good=False, shown="cc 0 03"),
    Situation("the device rejects the write", (2,), first=("put 1000 FF",), is_good=False, shown=" 02"),
    Situation("the subchannel is not enabled", (2,), first=("stsch 0 F00", "put F05 01", "msch 0 F00"), is_good=False, shown="cc 3"),
)


class World:
    """The machine of a situation, and the passing of its time."""

    def __init__(self, talk: Talking, situation: Situation) -> None:
        self.talk = talk
        self.situation = situation
        self.waits = 0
        for line in SCRIPT.read_text("utf-8").splitlines():
            talk.say(line)
        for line in situation.first:
            talk.say(line)

    def turn(self, most: int) -> None:
        """Both subchannels and their units work on."""
        for subchannel in NAMES:
            self.talk.turn(subchannel, most)

    def wait(self) -> None:
        """What happens in a wait: its lines, then its events."""
        if self.waits >= MOST_WAITS:
            raise TooLong(f"it waited {MOST_WAITS} times and was not done")
        self.waits += 1
        for line in self.situation.lines.get(self.waits, ()):
            self.talk.say(line)
        self.turn(self.situation.events[(self.waits - 1) % len(self.situation.events)])

    def bytes_at(self, address: int) -> str:
        return self.talk.say(f"show {address:X} {BYTES:X}").printed

    def statuses(self, subchannel: int) -> Tuple[int, int]:
        """How many a subchannel made, and how many of these are cleared."""
        words = self.talk.say(f"glance {subchannel:08X}").printed.split()
        return int(words[1]), int(words[3])


def is_of(executed: Executed, name: str, subchannel: int) -> bool:
    """Whether it is this instruction on this subchannel."""
    return executed.line.startswith(f"{name} {subchannel:08X}")


def status_of(executed: Executed, subchannel: int) -> Optional[Status]:
    """The status that it showed and cleared, where it is a TEST SUBCHANNEL of this one with code 0."""
    if executed.code != 0 or not is_of(executed, "tsch", subchannel):
        return None
    first, second, third = (int(word, 16) for word in executed.printed.split()[2:])
    return Status(first, second, third)


def is_failure(executed: Executed) -> bool:
    """Whether it tells that the drive failed: no subchannel to be started, a unit check, or no path."""
    status = status_of(executed, DISK)
    if status is None:
        return executed.code == 3 and is_of(executed, "ssch", DISK)
    return status.deferred_code == 3 or bool(status.device & 0x02)


def wrong_instructions(executed: List[Executed]) -> Iterator[str]:
    """What the instructions and their codes show."""
    for instruction in executed:
        if is_of(instruction, "ssch", DISK) and instruction.code == 2:
            yield "it started while something was in progress: START SUBCHANNEL was answered code 2"
            break
    for number, instruction in enumerate(executed):
        if is_failure(instruction) and executed[number + 1 :]:
            after = executed[number + 1].line
            yield f"it went on after the failure that '{instruction.printed}' shows: {after}"
            break


def wrong_statuses(world: World, executed: List[Executed]) -> Iterator[str]:
    """Statuses that were not taken, each by one TEST SUBCHANNEL, and requests that wait."""
    for subchannel, name in NAMES.items():
        made, cleared = world.statuses(subchannel)
        taken = sum(statuses_in(status_of(it, subchannel)) for it in executed)
        if cleared < made:
            yield f"status of the {name} is left pending: TEST SUBCHANNEL never took it"
        if taken < cleared:
            yield f"status of the {name} was cleared, and TEST SUBCHANNEL did not show it"


def statuses_in(status: Optional[Status]) -> int:
    """How many statuses were shown and cleared by one: an intermediate status and an end may be joined."""
    if status is None:
        return 0
    return 2 if status.is_intermediate and (status.is_primary or status.is_secondary) else 1


def wrong_bytes(world: World, said: Optional[bool]) -> Iterator[str]:
    """What the driver said it did, and what stands in storage."""
    is_there = world.bytes_at(READ_BACK) == world.bytes_at(WRITTEN)
    if said and not world.situation.is_good:
        yield "it said that both programs ended well, and they could not"
    elif said and not is_there:
        yield f"it said that both programs ended well, and {world.bytes_at(READ_BACK)} was read back"
    elif world.situation.is_good and said is False:
        yield "it gave up, and need not have"


def wrong_situation(situation: Situation, executed: List[Executed]) -> Iterator[str]:
    """Whether what the situation is named for was seen; where it was not, nothing is shown by it."""
    if not any(situation.shown in it.printed for it in executed):
        yield f"the situation did not come about: nothing was answered with '{situation.shown}'"


def judged(driver: Driver, situation: Situation, program: str) -> List[str]:
    """Runs a driver in a situation: why it fails there; nothing where it passes."""
    with Talking(program) as talk:
        world = World(talk, situation)
        cpu = Cpu(talk, world.wait)
        said: Optional[bool] = None
        reasons: List[str] = []
        try:
            said = driver(cpu)
        except TooLong as fault:
            reasons.append(str(fault))
        except Exception as fault:  # whatever a driver does wrong
            reasons.append(f"it raised {type(fault).__name__}: {fault}")
        if not isinstance(said, bool) and not reasons:
            reasons.append(f"drive answered {said!r}, neither True nor False")
        world.turn(0xFF)
        reasons += wrong_instructions(cpu.executed)
        reasons += wrong_bytes(world, said)
        reasons += wrong_statuses(world, cpu.executed)
        return reasons or list(wrong_situation(situation, cpu.executed))


def driver_of(file: Path) -> Driver:
    """The function drive of a file."""
    sys.path.insert(0, str(file.parent))
    named = importlib.util.spec_from_file_location(file.stem, file)
    if named is None or named.loader is None:
        raise SystemExit(f"{file}: no module of Python")
    module = importlib.util.module_from_spec(named)
    sys.modules[file.stem] = module
    named.loader.exec_module(module)
    driver: Driver = module.drive
    return driver


def check(file: Path, program: str) -> List[str]:
    """Prints a line for each situation: the reasons of those that failed."""
    driver = driver_of(file)
    failed: List[str] = []
    for situation in SITUATIONS:
        reasons = judged(driver, situation, program)
        print(f"{situation.name:44}{'failed' if reasons else 'passed'}")
        for reason in reasons:
            print(f"    {reason}")
        failed += reasons[:1]
    print(f"{file.name}: {len(SITUATIONS) - len(failed)} of {len(SITUATIONS)} situations passed")
    return failed


# The wrong drivers, with what begins the first reason of each situation in which it fails.
WRONG = {
    "takes_any_status_for_the_end.py": "it started while something was in progress",
    "tests_always_its_own_subchannel.py": "status of the console is left pending",
}


def check_itself(program: str) -> bool:
    """Whether the right driver passes and each wrong one fails by its reason."""
    is_right = not check(HERE / "poll.py", program)
    for name, reason in WRONG.items():
        print()
        failed = check(HERE / name, program)
        if not failed or any(not it.startswith(reason) for it in failed):
            print(f"{name} should fail by this alone: {reason}")
            is_right = False
    print("\nthe check is right" if is_right else "\nthe check is wrong")
    return is_right


def main() -> int:
    words = sys.argv[1:]
    if len(words) not in (1, 2):
        print(__doc__, file=sys.stderr)
        return 2
    program = words[1] if len(words) == 2 else "chtrace"
    if words[0] == "--itself":
        return 0 if check_itself(program) else 1
    return 1 if check(Path(words[0]).resolve(), program) else 0


if __name__ == "__main__":
    sys.exit(main())
