"""A million events, drawn, at a channel subsystem that keeps its history, and then at the locked core of `chsim`.

    storm.py CHSIM

Eight programs are started on five subchannels, of which two are the sides of one unit and two those of units that share a control unit,
while paths go down, come up and are reset, units are restarted, leave their paths, ask and tell, and the channel subsystem is reset. Each
event is drawn by numbers that are the same each time, most of them of what is due on a path or at a unit, and is entered by a turn, by a
line, by a call of its own, or by one with its operand by value. What the module answers, refusals too, is what its history tells, and
what `chsim run` prints of the same lines. A status that TEST SUBCHANNEL clears was made after the one that it cleared there before, none
is cleared twice, and none is left in the end. CHSIM is the program.
"""

from __future__ import annotations

import subprocess
import sys
from typing import Dict, List, Optional, Tuple

from filuvamoth import WIRE_FULL, Due, Machine, Refused, Turn
from play import Player

#: How many events are accepted before the last ones, how many are drawn for them at most, and how many of each kind there are to be.
EVENTS, DRAWN, LEAST, SEED = 1_000_000, 20_000_000, 100, 2026

MACHINE = [
    "storage 10", "path 10", "path 11", "path 12", "unit 0 block", "unit 1 block", "unit 2 console", "unit 3 block", "share 2 3",
    "sub 0 100 0 10 11", "sub 1 101 1 10 11", "sub 2 102 1 11 12", "sub 3 103 2 10", "sub 4 104 3 10 12",
]
SUBCHANNELS, UNITS, CHPIDS, STORAGE = 5, 4, 3, 0x10000
#: The subchannels of each unit.
OF_UNIT = [[0], [1, 2], [3], [4]]

#: ORBs of format 1, by all paths, and their programs: a write; a read; a write that is chained to a read; one without end, of a command
#: that is chained to itself; one that is suspended before its second command; one of which the second block is wrong; a write in two
#: chained pieces of data, the first of which asks for an interruption; and a write with a key of its own.
PROGRAMS = [
    "put 500 000000010080FF0000001000", "put 520 000000020080FF0000001008", "put 540 000000030080FF0000001010",
    "put 560 000000040080FF0000001020", "put 580 000000050880FF0000001030", "put 5A0 000000060080FF0000001040",
    "put 5C0 000000070080FF0000001050", "put 5E0 000000081080FF0000001000",
    "put 1000 0120000400002000", "put 1008 0220004000003000", "put 1010 0160000400002000", "put 1018 0220004000003000",
    "put 1020 03600001000000000800000000001020", "put 1030 03600001000000000122000400002000",
    "put 1040 01600004000020000000000000000000", "put 1050 01A80002000020000020000200002002",
    "put 2000 C1C2C3C4",
]

KINDS = """
    ssch tsch stsch msch rsch hsch csch xsch enable tpi rchp stcrw stcps put key prefix show
    choose up down dev leave ask attn notice restart pathdown pathup pathreset sysreset
""".split()


class Wrong(Exception):
    """What must be is not."""


def must(holds: bool, otherwise: str) -> None:
    if not holds:
        raise Wrong(otherwise)


class Draws:
    """Numbers in an order that looks like none: shifts and sums without carry of 64 bits."""

    def __init__(self, seed: int) -> None:
        self.last = seed

    def below(self, bound: int) -> int:
        number = self.last
        number ^= number << 13 & 0xFFFFFFFFFFFFFFFF
        number ^= number >> 7
        number ^= number << 17 & 0xFFFFFFFFFFFFFFFF
        self.last = number
        return (number >> 20) % bound

    def subchannel(self) -> int:
        return self.below(SUBCHANNELS)

    def unit(self) -> int:
        return self.below(UNITS)

    def chpid(self) -> str:
        return f"{0x10 + self.below(CHPIDS):X}"


# ---- Lines that are drawn -----------------------------------------------------------------------------------------------------------


def on_subchannel(draws: Draws) -> str:
    subchannel, kind = draws.subchannel(), draws.below(24)
    if kind < 10:
        return f"ssch {subchannel} {0x500 + 0x20 * draws.below(8):X}"
    if kind < 16:
        return f"tsch {subchannel} B00"
    if kind < 18:
        return f"{('stsch', 'msch')[kind - 16]} {subchannel} A00"
    if kind < 22:
        return f"{('rsch', 'hsch', 'csch', 'xsch')[kind - 18]} {subchannel}"
    return f"enable {subchannel} {draws.below(8)} {draws.below(2)}"


def of_subsystem(draws: Draws) -> str:
    kind = draws.below(8)
    if kind < 4:
        return f"tpi {draws.below(0x100):X} C00"
    if kind == 4:
        return f"rchp {draws.chpid()}"
    return "stcps C00" if kind == 7 else "stcrw C00"


def instruction(draws: Draws) -> str:
    """An instruction of one of four CPUs, of which the last alone has a prefix at times."""
    cpu = draws.below(4)
    return f"cpu {cpu} {of_subsystem(draws) if draws.below(4) == 0 else on_subchannel(draws)}"


def at_storage(draws: Draws) -> str:
    """Bytes that are written, a look at those that are read, the key of their block, and a prefix."""
    kind = draws.below(4)
    if kind == 0:
        return f"put {0x2000 + draws.below(4):X} {draws.below(0x100):02X}"
    if kind == 1:
        return f"key 3000 {'28' if draws.below(4) == 0 else '00'}"
    if kind == 2:
        return f"prefix 3 {0x4000 * draws.below(2):X}"
    return f"show 3000 {1 + draws.below(0x40):X}"


def of_unit(draws: Draws) -> str:
    """What a unit does of itself."""
    unit, path, kind = draws.unit(), draws.below(2), draws.below(4)
    if kind == 0:
        return f"leave {unit}"
    if kind == 1:
        return f"ask {unit} {path}"
    return f"{('attn', 'notice')[kind - 2]} {unit} {path} {draws.below(2)}"


def of_operator(draws: Draws) -> str:
    """Paths come up more often than they go down, and the channel subsystem is reset now and then."""
    kind = draws.below(256)
    if kind < 4:
        return "sysreset"
    if kind < 28:
        return f"restart {draws.unit()}"
    return f"{'pathdown' if kind < 44 else 'pathreset' if kind < 128 else 'pathup'} {draws.chpid()}"


def outside(draws: Draws) -> str:
    """What comes from outside, or is not due perhaps."""
    kind = draws.below(8)
    if kind == 0:
        return f"choose {draws.subchannel()}"
    if kind == 1:
        return f"{('up', 'down')[draws.below(2)]} {draws.subchannel()} {draws.below(2)}"
    if kind == 2:
        return at_storage(draws)
    return of_unit(draws) if kind < 6 else of_operator(draws)


def kind_of(line: str) -> str:
    words = line.split(" ")
    return words[2] if words[0] == "cpu" else words[0]


# ---- What is seen of statuses -------------------------------------------------------------------------------------------------------

#: How many statuses a subchannel made, and how many of these are cleared.
Serials = Tuple[int, int]


class Statuses:
    """The statuses of each subchannel, by what TEST SUBCHANNEL answered: of which number the last is that it cleared."""

    def __init__(self) -> None:
        self.last = [0] * SUBCHANNELS
        self.tests = self.cleared = 0

    def tested(self, subchannel: int, came: str, before: Serials, after: Serials) -> None:
        """A TEST SUBCHANNEL was answered so. With code 0 it cleared those after the second number before it up to the first."""
        made, cleared = before
        told = f"subchannel {subchannel} answers {came}, with {before} before it and {after} after it"
        code, pending = came[:4], len(came) > 4 and int(came[5:13], 16) & 1
        self.tests += 1
        if code == "cc 0":
            must(pending == 1 and cleared < made and after == (made, made), told)
            must(self.last[subchannel] <= cleared, f"{told}: a status is cleared twice, {self.last[subchannel]} were before")
            self.last[subchannel] = made
            self.cleared += made - cleared
        else:
            must(code in ("cc 1", "cc 3") and pending == 0 and cleared == made and after == before, told)


def tries_itself() -> None:
    """What is wrong with statuses is seen."""
    word = "00804007 00001008 0C000000"
    right = (0, f"cc 0 {word}", (2, 1), (2, 2))
    for wrong in (
        right, (0, f"cc 0 {word}", (2, 2), (2, 2)), (0, f"cc 0 {word}", (3, 2), (3, 2)), (0, f"cc 0 {word}", (3, 1), (3, 3)),
        (0, f"cc 0 {word[:7]}6{word[8:]}", (3, 2), (3, 3)), (0, f"cc 1 {word}", (2, 2), (2, 2)), (0, "cc 3", (3, 2), (3, 2)),
        (0, "cc 3", (2, 2), (3, 3)),
    ):
        statuses = Statuses()
        statuses.tested(*right)
        try:
            statuses.tested(*wrong)
        except Wrong:
            continue
        raise Wrong(f"{wrong} after {right} passes")


# ---- The storm ----------------------------------------------------------------------------------------------------------------------


class Storm:
    """A machine, the lines of a script that were entered at it, and what it answered to each."""

    def __init__(self) -> None:
        self.player = Player("lines", races=False, keys=False, history=True)
        for at, line in enumerate(MACHINE, 1):
            self.player.take(line.encode(), at, False)
        self.machine: Machine = self.player.machine
        self.draws = Draws(SEED)
        self.statuses = Statuses()
        self.lines: List[str] = []
        self.answers: List[str] = []
        self.texts: Dict[str, str] = {}
        self.kinds = dict.fromkeys(KINDS, 0)
        self.accepted = self.refused = 0

    # -- lines

    def keep(self, line: str, answer: str) -> str:
        """One line more, with its answer."""
        self.lines.append(line)
        self.answers.append(self.texts.setdefault(answer, answer))
        return answer

    def accept(self, line: str) -> str:
        """One line more that was accepted: its answer, as the history has it."""
        answer = self.machine.history_reply(self.accepted)
        self.accepted += 1
        self.kinds[kind_of(line)] += 1
        return self.keep(line, answer)

    def enter(self, line: str, by: Optional[str] = None) -> str:
        """Enters a line, by a way that is drawn where none is said: its answer, which is what the history has where it is accepted."""
        data = line.encode()
        self.player.by = by or ("lines", "calls", "value")[self.draws.below(3)]
        came = self.player.act(data, data.split(b" "), False)
        must(came is not None, f"{line} is answered nothing")
        if came is None or came.startswith("refused "):
            self.refused += 1
            return self.keep(line, came or "")
        answer = self.accept(line)
        # What a call of its own does not tell is the name of a signal.
        must(came == answer or answer.startswith(came[:-1]) and came[-2:] == " *", f"{line}: {came}, and the history has {answer}")
        return answer

    def glance(self, subchannel: int) -> None:
        """A look is no event, but a line."""
        self.keep(f"glance {subchannel}", self.player.glance([b"%d" % subchannel]))

    def test(self, line: str) -> None:
        """Enters a TEST SUBCHANNEL of a CPU, and looks before and after it."""
        subchannel = int(line.split(" ")[3])
        before = self.machine.serials(0x10000 + subchannel)
        came = self.enter(line)
        self.statuses.tested(subchannel, came, before, self.machine.serials(0x10000 + subchannel))
        self.glance(subchannel)

    # -- what is due: whether there was anything

    def turned(self) -> bool:
        """A turn was done: its line is that of the history, which has a report where a script has the turn of a device."""
        line = self.machine.history_line(self.accepted)
        words = line.split(" ")
        self.accept(f"dev {words[1]}" if words[0] == "report" else line)
        return True

    def turn_subchannel(self, subchannel: int) -> bool:
        try:
            return self.machine.turn_subchannel(0x10000 + subchannel) == Turn.TURNED and self.turned()
        except Refused as error:
            must(error.number == WIRE_FULL, f"a turn of subchannel {subchannel}: {error}")
            return False

    def turn_unit(self, unit: int) -> bool:
        try:
            turn = self.machine.turn_unit(unit)
        except Refused as error:
            must(error.number == WIRE_FULL, f"a turn of unit {unit}: {error}")
            return False
        if turn == Turn.DEVICE_CALLED:
            self.enter(f"dev {unit}")
            return True
        return turn == Turn.TURNED and self.turned()

    def take(self, signals: List[str]) -> bool:
        """One of the signals that wait, by the lines that take them."""
        if signals:
            self.enter(signals[self.draws.below(len(signals))])
        return bool(signals)

    def take_up(self, subchannel: int) -> bool:
        """A signal that waits for a subchannel, on any of its paths."""
        waiting = self.machine.wires(0x10000 + subchannel).up
        return self.take([f"up {subchannel} {path}" for path, count in enumerate(waiting) if count])

    def take_down(self, unit: int) -> bool:
        """The same for a unit, on any path of its subchannels."""
        waiting = [(subchannel, self.machine.wires(0x10000 + subchannel).down) for subchannel in OF_UNIT[unit]]
        return self.take([f"down {it} {path}" for it, counts in waiting for path, count in enumerate(counts) if count])

    def look_at_unit(self, unit: int) -> bool:
        due = self.machine.due(unit)
        if due == Due.REPORT:
            return self.turn_unit(unit)
        if due == Due.CALL:
            self.enter(f"dev {unit}")
        elif due == Due.AWAY:
            self.enter(f"ask {unit} {self.machine.away_path(unit)}")
        else:
            return self.take_down(unit)
        return True

    def at_subchannel(self, subchannel: int) -> bool:
        """By a turn, or at times by looks at what waits."""
        return self.turn_subchannel(subchannel) if self.draws.below(4) else self.take_up(subchannel)

    def at_unit(self, unit: int) -> bool:
        """The same. An answer of a device that waits comes first, as it does in a script."""
        if unit in self.player.waiting:
            self.enter(f"dev {unit}")
            return True
        return self.turn_unit(unit) if self.draws.below(4) else self.look_at_unit(unit)

    def follow(self, subchannel: int) -> None:
        """What is due at a subchannel and at its unit, some times or until nothing is."""
        unit = next(unit for unit, subchannels in enumerate(OF_UNIT) if subchannel in subchannels)
        for _ in range(1 + self.draws.below(8)):
            taken = self.at_subchannel(subchannel)
            if not self.at_unit(unit) and not taken:
                return

    # -- the whole

    def draw(self) -> None:
        kind = self.draws.below(32)
        if kind < 20:
            self.follow(self.draws.subchannel())
            return
        line = instruction(self.draws) if kind < 28 else outside(self.draws)
        if kind_of(line) == "tsch":
            self.test(line)
        else:
            # A look at storage is an event as a line alone.
            self.enter(line, "lines" if line.startswith("show ") else None)

    def rage(self) -> None:
        """So many events are drawn and accepted."""
        for line in PROGRAMS:
            self.enter(line)
        for _ in range(DRAWN):
            if self.accepted >= EVENTS:
                return
            self.draw()
        raise Wrong(f"{self.accepted} events are accepted of {DRAWN} that were drawn")

    def end(self) -> None:
        """One TEST SUBCHANNEL of each subchannel leaves no status, and storage is looked at."""
        for subchannel in range(SUBCHANNELS):
            self.test(f"cpu 0 tsch {subchannel} B00")
            made, cleared = self.machine.serials(0x10000 + subchannel)
            must(made == cleared >= LEAST, f"subchannel {subchannel} made {made} statuses, of which {cleared} are cleared")
            must(self.statuses.last[subchannel] >= LEAST, f"of subchannel {subchannel} {self.statuses.last[subchannel]} were tested")
        for address in range(0, STORAGE, 0x40):
            came = self.enter(f"show {address:X} 40", "lines")
            must(came == self.player.storage[address : address + 0x40].hex().upper(), f"storage at {address:X} is shown as {came}")
        must(self.machine.history_count() == self.accepted, f"{self.machine.history_count()} entries are of {self.accepted} events")
        every = self.accepted + self.refused + self.statuses.tests
        must(len(self.lines) == len(self.answers) == every, f"{len(self.lines)} lines are of {every} events, refusals and looks")
        seldom = {kind: count for kind, count in self.kinds.items() if count < LEAST}
        must(len(self.kinds) == 30 and not seldom, f"too few: {seldom}")


# ---- The locked core ----------------------------------------------------------------------------------------------------------------


def printed_by(chsim: str, lines: List[str]) -> List[str]:
    """What the program prints of a script of which some lines are refused."""
    text = "\n".join([*MACHINE, *lines, ""])
    ran = subprocess.run([chsim, "run"], input=text, stdout=subprocess.PIPE, stderr=subprocess.PIPE, encoding="ascii")
    must(ran.returncode == 1 and not ran.stderr, f"{chsim} ends with {ran.returncode}: {ran.stdout[-300:]}{ran.stderr[-300:]}")
    return ran.stdout.splitlines()


def otherwise(lines: List[str], answers: List[str], printed: List[str]) -> List[str]:
    """What is printed otherwise than answered."""
    found = [f"{len(answers)} lines are answered, and {len(printed)} printed"] if len(answers) != len(printed) else []
    for at, (line, answer, print_) in enumerate(zip(lines, answers, printed), len(MACHINE) + 1):
        if print_ != f"{at} {answer}":
            found.append(f"{at}: {line}: {answer}, and printed {print_}")
    return found


def compared(storm: Storm, printed: List[str]) -> int:
    """How many lines are printed otherwise. Where none is, one that lacks would be seen, and a count that is another by one."""
    found = otherwise(storm.lines, storm.answers, printed)
    for it in found[:10]:
        print(it)
    if not found:
        at = max(at for at, line in enumerate(storm.lines) if line.startswith("glance "))
        words = storm.answers[at].split(" ")
        altered = [*storm.answers[:at], " ".join([*words[:-1], str(int(words[-1]) + 1)]), *storm.answers[at + 1 :]]
        must(len(otherwise(storm.lines, altered, printed)) == 1, f"{altered[at]} in place of {storm.answers[at]} is not seen")
        must(len(otherwise(storm.lines, storm.answers, printed[:-1])) == 1, "a line that lacks is not seen")
    return len(found)


def main() -> int:
    tries_itself()
    storm = Storm()
    with storm.machine:
        storm.rage()
        storm.end()
    count = compared(storm, printed_by(sys.argv[1], storm.lines))
    statuses = storm.statuses
    print(
        f"events {storm.accepted} lines {len(storm.lines)} refused {storm.refused} least {min(storm.kinds.values())}"
        f" tests {statuses.tests} cleared {statuses.cleared} otherwise {count}"
    )
    return 1 if count else 0


if __name__ == "__main__":
    sys.exit(main())
