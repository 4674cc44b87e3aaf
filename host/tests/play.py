"""Plays scripts (docs/SCRIPTS.md) through the Python module, and compares what comes with what is stored.

    play.py [-b lines|calls|value] [-k] [-h] SCRIPT.chs.. [-c LIST..]

-b how actions are performed: as lines by Machine.line, by methods of their own, or so with their operand by value; -k keys are lent; -h a
history is kept. SCRIPT.out has what is stored. Each line of a LIST is `SCRIPT -> WANTED`, where ` / ` parts the lines of a script, and
WANTED is `script ok` or `bad line L rule N`.
"""

from __future__ import annotations

import re
import struct
import sys
from typing import Any, Callable, Dict, List, Optional, Sequence, Tuple

import filuvamoth
from devices import KINDS
from filuvamoth import Device, Due, Machine, ProgramInterruption, Refused, ToldKind

UNKNOWN_WORD, WRONG_COUNT, BAD_WORD, SETTING_AFTER_ACTION, BREAKS_CONFIGURATION, STORAGE_NOT_FIRST, MISPLACED_RACE = range(1, 8)
REFUSED = {
    filuvamoth.NO_MEMORY: "1",
    filuvamoth.WIRE_FULL: "2",
    filuvamoth.NOT_SENT: "3",
    filuvamoth.NO_SUCH_SUBCHANNEL: "4",
    filuvamoth.NO_SUCH_PATH: "5",
    filuvamoth.NO_SUCH_UNIT: "6",
    filuvamoth.NOT_NOW: "7",
}
INTERRUPTIONS = {4: "10 protection", 5: "10 addressing", 6: "10 specification", 0x15: "11"}
WAITS = (filuvamoth.WIRE_FULL, filuvamoth.NO_MEMORY)


class Bad(Exception):
    """A line that breaks a rule."""

    def __init__(self, rule: int) -> None:
        self.rule = rule


class Other(Exception):
    """The line is none of those that have a method."""


def number(word: bytes) -> int:
    if not re.fullmatch(rb"[0-9A-Fa-f]{1,8}", word):
        raise Bad(BAD_WORD)
    return int(word, 16)


def subchannel(word: bytes) -> int:
    return number(word) + (0x10000 if len(word) <= 4 else 0)


def times(word: bytes, most: int) -> None:
    if not re.fullmatch(rb"[0-9]{1,8}", word) or not 1 <= int(word) <= most:
        raise Bad(BAD_WORD)


def counted(words: Sequence[bytes], count: int) -> Sequence[bytes]:
    if len(words) != count:
        raise Bad(WRONG_COUNT)
    return words


def refused(error: Exception) -> str:
    if isinstance(error, ProgramInterruption):
        return "refused " + INTERRUPTIONS[error.code]
    assert isinstance(error, Refused)
    return "refused " + REFUSED[error.number]


class Player:
    """A script that is played."""

    def __init__(self, by: str, races: bool, keys: bool, history: bool) -> None:
        self.by, self.may_race, self.lends_keys, self.history = by, races, keys, history
        self.machine = Machine()
        self.storage = bytearray()
        self.blocks = 0
        self.begun = self.acted = self.started = False
        self.devices: List[Device] = []
        self.waiting: Dict[int, Tuple[filuvamoth.Work, filuvamoth.Answer]] = {}
        self.prefixes = [0] * 16
        self.printed: List[str] = []
        self.races = self.lines = self.calls = self.turns = self.values = 0

    # -- setting up

    def set_up(self, words: List[bytes]) -> bool:
        """Whether a line sets up."""
        first, others = words[0], words[1:]
        if first in (b"storage", b"sets", b"path"):
            act: Callable[[], Any] = self.number_setting(first, number(counted(others, 1)[0]))
        elif first == b"unit":
            counted(others, 2)
            unit = number(others[0])
            if others[1] not in KINDS:
                raise Bad(BAD_WORD)
            act = lambda: self.add_unit(unit, KINDS[others[1]]())
        elif first == b"share":
            if len(others) < 2:
                raise Bad(WRONG_COUNT)
            units = [number(word) for word in others]
            act = lambda: self.machine.share(units)
        elif first == b"sub":
            if len(others) < 3:
                raise Bad(WRONG_COUNT)
            name, device, unit, *paths = subchannel(others[0]), *map(number, others[1:])
            act = lambda: self.machine.add_subchannel(name, device, unit, paths)
        else:
            return False
        if self.acted:
            raise Bad(SETTING_AFTER_ACTION)
        try:
            act()
        except Refused as error:
            assert filuvamoth.LINE_RULE < error.number < filuvamoth.CONFIGURATION_RULE, error
            raise Bad(BREAKS_CONFIGURATION) from error
        return True

    def number_setting(self, first: bytes, value: int) -> Callable[[], None]:
        if first == b"sets":
            return lambda: self.machine.set_sets(value)
        if first == b"path":
            return lambda: self.machine.add_path(value)
        return lambda: self.set_storage(value)

    def set_storage(self, blocks: int) -> None:
        if self.blocks or not 0x10 <= blocks <= 0x1000:
            raise Bad(BREAKS_CONFIGURATION)
        self.blocks = blocks

    def add_unit(self, unit: int, device: Device) -> None:
        if unit != len(self.devices):
            # The module numbers units itself.
            raise Bad(BREAKS_CONFIGURATION)
        assert self.machine.add_unit(device) == unit
        self.devices.append(device)

    def start(self) -> None:
        if not self.started:
            self.started = True
            self.storage = bytearray(self.blocks * 4096)
            self.machine.start(self.storage, bytearray(self.blocks) if self.lends_keys else None, history=self.history)

    # -- turns of devices, looks and races

    def dev(self, words: List[bytes]) -> str:
        unit = number(counted(words, 1)[0])
        self.start()
        self.calls += 1
        self.turns += 1
        if unit in self.waiting:
            return self.hand_in(unit, *self.waiting[unit])
        due = self.machine.due(unit)
        if due == Due.REPORT:
            self.machine.turn_unit(unit)
            return "done"
        work = self.machine.work(unit)
        if work is None:
            raise Refused(filuvamoth.NOT_NOW)
        return self.hand_in(unit, work, self.answer(self.devices[unit], work))

    def hand_in(self, unit: int, work: filuvamoth.Work, answer: filuvamoth.Answer) -> str:
        self.waiting.pop(unit, None)
        try:
            self.machine.report(unit, work, answer)
        except Refused as error:
            if error.number in WAITS:
                self.waiting[unit] = work, answer
            raise
        return "done"

    def answer(self, device: Device, work: filuvamoth.Work) -> filuvamoth.Answer:
        if work.kind == filuvamoth.CallKind.INITIAL:
            status = device.initial(work.code, work.from_side, work.from_path)
            return filuvamoth.Answer.ended(status) if status else filuvamoth.Answer.begins()
        if work.kind == filuvamoth.CallKind.ABSORB:
            return filuvamoth.Answer.absorbed(device.absorb(work.data))
        if work.kind == filuvamoth.CallKind.SUPPLY:
            return filuvamoth.Answer.supplied(device.supply(work.count))
        ended = device.finish()
        return filuvamoth.Answer.ended(*ended) if isinstance(ended, tuple) else filuvamoth.Answer.ended(ended)

    def glance(self, words: List[bytes]) -> str:
        name = subchannel(counted(words, 1)[0])
        self.start()
        self.calls += 1
        return "made %d cleared %d" % self.machine.serials(name)

    def race(self, words: List[bytes], is_last: bool) -> None:
        counted(words, 4)
        times(words[0], 16)
        times(words[1], 10000)
        if words[2] != b"tsch":
            raise Bad(BAD_WORD)
        subchannel(words[3])
        if not self.may_race or not is_last:
            raise Bad(MISPLACED_RACE)
        self.races += 1

    # -- actions as lines

    def by_line(self, line: bytes, words: List[bytes]) -> str:
        self.start()
        try:
            came, text = self.machine.line(line.decode("utf-8"))
        except Refused as error:
            assert error.number < filuvamoth.LINE_RULE, error
            raise Bad(filuvamoth.LINE_RULE - error.number) from error
        self.lines += 1
        if came >= 0 and words[0] == b"restart":
            self.devices[number(words[1])].restart()
        if came >= 0 and words[0] == b"prefix":
            self.prefixes[number(words[1])] = number(words[2])
        return text

    # -- actions by methods of their own

    def code(self, came: int) -> str:
        """What is printed of an event, from what Machine.seen tells."""
        seen = self.machine.seen()
        words = "%08X %08X %08X" % seen.words
        if seen.kind == ToldKind.STATUS or seen.kind == ToldKind.INTERRUPTION and came:
            return f"cc {came} {words}"
        if seen.kind == ToldKind.CHANNEL_REPORT:
            return f"cc {came} {words[:8]}"
        assert seen.kind in (ToldKind.CODE, ToldKind.PATH_RESET, ToldKind.INTERRUPTION), seen
        return f"cc {came}"

    def chosen(self, choice: int) -> str:
        seen = self.machine.seen()
        names = {ToldKind.OFFERED: "offer", ToldKind.RESET_SENT: "reset", ToldKind.HALT_SENT: "halt"}
        kinds = [ToldKind.IDLE, ToldKind.OFFERED, ToldKind.RESET_SENT, ToldKind.HALT_SENT, ToldKind.STATUS_MADE]
        assert kinds[choice] == seen.kind, seen
        return f"{names[seen.kind]} {seen.path}" if seen.kind in names else "idle" if seen.kind == ToldKind.IDLE else "status"

    def absolute(self, cpu: int, address: int) -> int:
        prefix, area = self.prefixes[cpu], address & ~0x1FFF
        return prefix + address if area == 0 else address - prefix if area == prefix else address

    def load(self, cpu: int, address: int, count: int) -> bytes:
        return bytes(self.storage[self.absolute(cpu, at)] for at in range(address, address + count))

    def keep(self, cpu: int, address: int, block: bytes) -> None:
        for at, byte in enumerate(block):
            self.storage[self.absolute(cpu, address + at)] = byte

    def is_fine(self, address: int, count: int, boundary: int = 4) -> bool:
        """Whether an operand may be given by value."""
        fine = self.by == "value" and address % boundary == 0 and address + count <= len(self.storage)
        self.values += fine
        return fine

    def paths(self, bits: bytes) -> str:
        found = [f"{chpid:02X}" for chpid in range(256) if bits[chpid // 8] >> (7 - chpid % 8) & 1]
        return "paths " + (" ".join(found) or "-")

    def operand(self, name: bytes, word: int, address: int, cpu: int) -> str:
        machine = self.machine
        if name == b"ssch" and self.is_fine(address, 12):
            return f"cc {machine.ssch_orb(word, self.load(cpu, address, 12), cpu)}"
        if name == b"msch" and self.is_fine(address, 52):
            return f"cc {machine.msch_schib(word, self.load(cpu, address, 52), cpu)}"
        if name == b"stsch" and self.is_fine(address, 52):
            return self.left(*machine.stsch_schib(word, cpu), cpu, address, 28)
        if name == b"tsch" and self.is_fine(address, 64):
            return self.left(*machine.tsch_irb(word, cpu), cpu, address, 0)
        return self.code(getattr(machine, name.decode())(word, address, cpu))

    def left(self, came: int, block: Optional[bytes], cpu: int, address: int, first: int) -> str:
        if block is None:
            return f"cc {came}"
        self.keep(cpu, address, block)
        return "cc %d %08X %08X %08X" % (came, *struct.unpack_from(">III", block, first))

    def tpi(self, mask: int, address: int, cpu: int) -> str:
        if not self.is_fine(address or 184, 8 if address else 12):
            return self.code(self.machine.tpi(mask, address, cpu))
        code = self.machine.tpi_code(mask, cpu)
        if code is None:
            return "cc 0"
        self.keep(cpu, address or 184, struct.pack(">III", *code)[: 8 if address else 12])
        return "cc 1 %08X %08X %08X" % code

    def stcrw(self, address: int, cpu: int) -> str:
        if not self.is_fine(address, 4):
            return self.code(self.machine.stcrw(address, cpu))
        report = self.machine.stcrw_word(cpu)
        self.keep(cpu, address, struct.pack(">I", report or 0))
        return f"cc {int(report is None)} {report or 0:08X}"

    def stcps(self, address: int, cpu: int) -> str:
        if self.is_fine(address, 32, 32):
            bits = self.machine.stcps_bytes(cpu)
            self.keep(cpu, address, bits)
            return self.paths(bits)
        self.machine.stcps(address, cpu)
        return self.paths(self.load(cpu, address, 32))

    def instruction(self, words: List[bytes], cpu: int) -> str:
        name, others = words[0], words[1:]
        count = len(others)
        if name in (b"ssch", b"msch", b"stsch", b"tsch") and count == 2:
            return self.operand(name, subchannel(others[0]), number(others[1]), cpu)
        if name in (b"rsch", b"hsch", b"csch", b"xsch") and count == 1:
            return self.code(getattr(self.machine, name.decode())(subchannel(others[0]), cpu))
        if name == b"enable" and count == 3:
            word, subclass, multipath = subchannel(others[0]), number(others[1]), number(others[2])
            if subclass <= 7 and multipath <= 1:
                return self.code(self.machine.enable(word, subclass, multipath == 1, cpu))
        if name == b"tpi" and count == 2 and number(others[0]) <= 0xFF:
            return self.tpi(number(others[0]), number(others[1]), cpu)
        if name == b"rchp" and count == 1:
            return self.code(self.machine.rchp(number(others[0]), cpu))
        if name == b"stcrw" and count == 1:
            return self.stcrw(number(others[0]), cpu)
        if name == b"stcps" and count == 1:
            return self.stcps(number(others[0]), cpu)
        raise Other

    def show(self, address: int, count: int) -> str:
        if address + count > len(self.storage):
            raise ProgramInterruption(5)
        return self.storage[address : address + count].hex().upper()

    def storage_line(self, words: List[bytes]) -> str:
        first, second = words[1], words[2]
        if words[0] == b"put" and re.fullmatch(rb"([0-9A-Fa-f]{2}){1,256}", second):
            self.machine.put(number(first), bytes.fromhex(second.decode()))
        elif words[0] == b"show" and 1 <= number(second) <= 0x40:
            return self.show(number(first), number(second))
        elif words[0] == b"key" and number(second) <= 0xFF and number(second) % 2 == 0:
            self.machine.set_key(number(first), number(second))
        elif words[0] == b"prefix" and number(first) <= 15:
            self.machine.set_prefix(number(first), number(second))
            self.prefixes[number(first)] = number(second)
        else:
            raise Other
        return "done"

    def signal(self, words: List[bytes]) -> str:
        name, others = words[0], words[1:]
        if name in (b"up", b"down") and len(others) == 2:
            return "took *" if getattr(self.machine, name.decode())(subchannel(others[0]), number(others[1])) else "ignored *"
        values = [number(word) for word in others]
        if name == b"ask" and len(values) == 2:
            self.machine.unit_ask(*values)
        elif name in (b"attn", b"notice") and len(values) in (2, 3) and values[2:] in ([], [0], [1]):
            getattr(self.machine, "unit_attention" if name == b"attn" else "unit_notice")(*values)
        else:
            raise Other
        return "done"

    def short(self, words: List[bytes]) -> str:
        names = {b"leave": "unit_leave", b"restart": "unit_restart"}
        names.update({b"pathdown": "path_down", b"pathup": "path_up", b"pathreset": "path_reset"})
        if words == [b"sysreset"]:
            self.machine.system_reset()
        elif words[0] == b"choose" and len(words) == 2:
            return self.chosen(self.machine.choose(subchannel(words[1])))
        elif words[0] in names and len(words) == 2:
            getattr(self.machine, names[words[0]])(number(words[1]))
        else:
            raise Other
        return "done"

    def by_method(self, words: List[bytes]) -> str:
        self.start()
        self.calls += 1
        try:
            if words[0] == b"cpu":
                if len(words) < 3 or number(words[1]) > 15:
                    raise Other
                return self.instruction(words[2:], number(words[1]))
            if words[0] in (b"put", b"show", b"key", b"prefix") and len(words) == 3:
                return self.storage_line(words)
            if words[0] in (b"up", b"down", b"ask", b"attn", b"notice"):
                return self.signal(words)
            if words[0] in (b"choose", b"sysreset", b"leave", b"restart", b"pathdown", b"pathup", b"pathreset"):
                return self.short(words)
            return self.instruction(words, 0)
        except (Other, Bad):
            self.calls -= 1
            raise Other from None

    # -- lines

    def act(self, line: bytes, words: List[bytes], is_last: bool) -> Optional[str]:
        """What is printed of an action; None where nothing is."""
        try:
            if words[0] == b"dev":
                return self.dev(words[1:])
            if words[0] == b"glance":
                return self.glance(words[1:])
            if words[0] == b"race":
                self.race(words[1:], is_last)
                return None
            if self.by != "lines":
                try:
                    return self.by_method(words)
                except Other:
                    pass
            return self.by_line(line, words)
        except (Refused, ProgramInterruption) as error:
            return refused(error)

    def take(self, line: bytes, at: int, is_last: bool) -> None:
        worded = line != b"" and not line.startswith(b"#")
        if worded and not self.begun and line.split(b" ")[0] != b"storage":
            raise Bad(STORAGE_NOT_FIRST)
        try:
            line.decode("utf-8")
        except UnicodeDecodeError as error:
            raise Bad(BAD_WORD) from error
        if len(line) > 1024:
            raise Bad(BAD_WORD)
        if not worded:
            return
        words = line.split(b" ")
        if not self.set_up(words):
            printed = self.act(line, words, is_last)
            self.acted = True
            if printed is not None:
                self.printed.append(f"{at} {printed}\n")
        self.begun = True

    def play(self, text: bytes) -> str:
        lines = text.split(b"\n")
        worded = [at for at, line in enumerate(lines, 1) if line and not line.startswith(b"#")]
        with self.machine:
            for at, line in enumerate(lines, 1):
                try:
                    self.take(line, at, bool(worded) and at >= worded[-1])
                except Bad as bad:
                    return f"bad line {at} rule {bad.rule}\n"
        return "".join(self.printed) if self.begun else "bad line 1 rule 6\n"


def is_as_wanted(came: str, wanted: str) -> bool:
    return re.fullmatch(re.escape(came).replace(r"\*", "[a-z]+"), wanted) is not None


def main() -> int:
    words = sys.argv[1:]
    by, keys, history = "lines", False, False
    while words and words[0] in ("-b", "-k", "-h"):
        option = words.pop(0)
        if option == "-b":
            by = words.pop(0)
        keys, history = keys or option == "-k", history or option == "-h"
    split = words.index("-c") if "-c" in words else len(words)
    counts = dict.fromkeys(["scripts", "listed", "otherwise", "races", "lines", "calls", "turns", "values"], 0)

    def play(text: bytes, races: bool) -> str:
        player = Player(by, races, keys, history)
        came = player.play(text)
        # What was performed of a bad script counts nowhere.
        for name in () if came.startswith("bad line ") else ("races", "lines", "calls", "turns", "values"):
            counts[name] += getattr(player, name)
        return came

    for name in words[:split]:
        before = counts["races"]
        with open(name, "rb") as script, open(name[:-4] + ".out", "r", encoding="ascii", newline="") as stored:
            came, wanted = play(script.read(), True), stored.read()
        if counts["races"] != before and wanted.endswith(" audit ok\n"):
            wanted = "".join(wanted.splitlines(True)[:-1])
        counts["scripts"] += 1
        if not is_as_wanted(came, wanted):
            counts["otherwise"] += 1
            print(f"{name}: otherwise than stored\n{came}", end="")
    for name in words[split + 1 :]:
        with open(name, "rb") as rows:
            for row in rows.read().splitlines():
                folded, _, wanted_row = row.rpartition(b" -> ")
                came = play(folded.replace(b" / ", b"\n"), False)
                counts["listed"] += 1
                verdict = came.rstrip("\n") if came.startswith("bad line ") else "script ok"
                if verdict != wanted_row.decode("ascii"):
                    counts["otherwise"] += 1
                    print(f"{name}: {verdict}: {row.decode('utf-8')}")
    print(" ".join(f"{name} {count}" for name, count in counts.items()))
    return 1 if counts["otherwise"] else 0


if __name__ == "__main__":
    sys.exit(main())
