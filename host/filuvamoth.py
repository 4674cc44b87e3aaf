"""The channel subsystem of z/Architecture (SA22-7832, chapters 13 to 17), for hosts in Python.

A machine is set up, started on storage that the program lends, and turned; its devices are Python objects::

    import filuvamoth

    class Line(filuvamoth.Device):
        taken = b""

        def initial(self, code, side, path):
            return 0 if code == 0x01 else filuvamoth.UNIT_CHECK

        def absorb(self, data):
            self.taken += data
            return len(data)

    storage = bytearray(0x10000)
    with filuvamoth.Machine() as machine:
        machine.add_path(0x10)
        unit = machine.add_unit(Line())
        machine.add_subchannel(0x10000, 0x0100, unit, [0x10])
        machine.start(storage)
        ...

The module stands over the shared library ``libfiluvamoth.so``, whose header ``filuvamoth.h`` says what each call does, and needs
nothing else. The library is looked for where the environment variable ``FILUVAMOTH_LIBRARY`` says, beside this file, in ``out`` beside
its folder, as in a checkout, and where the system has libraries.

Storage is a ``bytearray``, a writable ``mmap.mmap``, or another writable buffer: nothing is copied. It stays the program's, which
stores there between two calls as the guest's CPUs do. While the machine is open a ``bytearray`` cannot be resized.

A refusal is an exception: :class:`ProgramInterruption` where the guest's instruction ends with one, else :class:`Refused`. A refused
call has changed nothing.

Each call keeps the interpreter's lock, so that two calls never overlap. A program with several threads guards what must not be parted
by a lock of its own; where the interpreter has no such lock, it guards each call.
"""

from __future__ import annotations

import ctypes
import ctypes.util
import enum
import functools
import itertools
import os
import struct
from dataclasses import dataclass
from types import TracebackType
from typing import Any, Callable, Dict, Iterator, List, NamedTuple, Optional, Sequence, Tuple, Type, Union

#: The number of the interface for which this module is.
ABI = 1

#: What tells the index of a path is this where there is none; the module answers None instead.
NO_PATH = 8

# ---- Device status ------------------------------------------------------------------------------------------------------------------

ATTENTION = 0x80
STATUS_MODIFIER = 0x40
CONTROL_UNIT_END = 0x20
BUSY = 0x10
CHANNEL_END = 0x08
DEVICE_END = 0x04
UNIT_CHECK = 0x02
UNIT_EXCEPTION = 0x01

# ---- Refusals -----------------------------------------------------------------------------------------------------------------------

NO_MEMORY = -1
CLOSED = -2
ALREADY_OPEN = -3
AT_OTHER_STAGE = -4
BAD_ARGUMENT = -5
OTHER_SIZE = -7
NUMBERS_USED_UP = -8
WIRE_FULL = -16
NOT_SENT = -17
NO_SUCH_SUBCHANNEL = -18
NO_SUCH_PATH = -19
NO_SUCH_UNIT = -20
NOT_NOW = -21
#: A program interruption is this less its code, a rule of configurations or of lines this less its number.
INTERRUPTION, CONFIGURATION_RULE, LINE_RULE = -0x100, -0x200, -0x300

_NAMES = {
    NO_MEMORY: "there is no memory",
    CLOSED: "the handle is closed",
    ALREADY_OPEN: "the handle is open already",
    AT_OTHER_STAGE: "the machine is at another stage",
    BAD_ARGUMENT: "a number or a length is not taken",
    OTHER_SIZE: "storage is of another size",
    NUMBERS_USED_UP: "the numbers of events are used up",
    WIRE_FULL: "the wire is full",
    NOT_SENT: "no signal waits",
    NO_SUCH_SUBCHANNEL: "no such subchannel",
    NO_SUCH_PATH: "no such path",
    NO_SUCH_UNIT: "no such unit",
    NOT_NOW: "not now",
    INTERRUPTION - 0x04: "protection exception",
    INTERRUPTION - 0x05: "addressing exception",
    INTERRUPTION - 0x06: "specification exception",
    INTERRUPTION - 0x15: "operand exception",
    CONFIGURATION_RULE - 1: "the size of storage breaks its rule",
    CONFIGURATION_RULE - 2: "a channel path breaks its rule",
    CONFIGURATION_RULE - 3: "a unit's number breaks its rule",
    CONFIGURATION_RULE - 4: "the unit of a subchannel breaks its rule",
    CONFIGURATION_RULE - 5: "the paths of a subchannel break their rule",
    CONFIGURATION_RULE - 6: "units that share break their rule",
    CONFIGURATION_RULE - 7: "the name of a subchannel breaks its rule",
    CONFIGURATION_RULE - 8: "the sets of subchannels break their rule",
    LINE_RULE - 1: "the line's first word is of no event",
    LINE_RULE - 2: "the line has too few or too many words",
    LINE_RULE - 3: "a word of the line is not what it should be",
}


def name_of(number: int) -> str:
    """What a refusal is called, as ``"the wire is full"``."""
    return _NAMES.get(number, "no refusal")


class FiluvamothError(Exception):
    """A call was refused."""


class Refused(FiluvamothError):
    """A call was refused, and nothing is changed: ``number`` is a refusal of ``filuvamoth.h``, ``name`` what it is called."""

    def __init__(self, number: int) -> None:
        super().__init__(f"{name_of(number)} ({number})")
        self.number = number
        self.name = name_of(number)


class ProgramInterruption(FiluvamothError):
    """The guest's instruction ends with a program interruption of this ``code``: 4 protection, 5 addressing, 6 specification,
    0x15 operand."""

    def __init__(self, code: int) -> None:
        super().__init__(f"program interruption {code:04X}")
        self.code = code


# ---- The library --------------------------------------------------------------------------------------------------------------------

_CALLS = """
    new free set_sets add_path add_unit share add_subchannel set_concurrent_sense set_path_return set_up_line
    start ssch tsch stsch msch rsch hsch csch xsch tpi rchp stcrw stcps enable
    ssch_orb msch_schib stsch_schib tsch_irb tpi_code stcrw_word stcps_bytes
    turn_subchannel turn_unit choose up down work report
    unit_leave unit_ask unit_attention unit_notice unit_restart path_down path_up path_reset system_reset
    put set_key set_prefix requests report_count schib irb serials path seen
    hold programs unit_state wires signal_down signal_up line
    history_count history_line history_reply forget
""".split()

_Call = Callable[..., int]


def _candidates(path: Optional[str]) -> List[str]:
    if path is not None:
        return [path]
    named = os.environ.get("FILUVAMOTH_LIBRARY")
    if named:
        return [named]
    here = os.path.dirname(os.path.abspath(__file__))
    for beside in (os.path.join(here, "libfiluvamoth.so"), os.path.join(os.path.dirname(here), "out", "libfiluvamoth.so")):
        if os.path.exists(beside):
            return [beside]
    found = ctypes.util.find_library("filuvamoth")
    return [found] if found else []


class _Library:
    """The functions of a shared library, by their names without ``fm_``."""

    def __init__(self, path: Optional[str]) -> None:
        names = _candidates(path)
        if not names:
            raise OSError("libfiluvamoth.so is not found: tools/archive makes it; or set FILUVAMOTH_LIBRARY to its path")
        # PyDLL keeps the interpreter's lock, which also takes less time: no call waits for anything.
        dll = ctypes.PyDLL(names[0])
        self.version: int = dll.fm_version() & 0xFFFFFFFF
        if self.version >> 16 != ABI:
            raise OSError(f"{names[0]} has interface {self.version >> 16}, and this module is for {ABI}")
        self.calls: Dict[str, _Call] = {name: getattr(dll, "fm_" + name) for name in _CALLS}


def _failure(number: int) -> FiluvamothError:
    """The exception for a refusal."""
    if CONFIGURATION_RULE < number < INTERRUPTION:
        return ProgramInterruption(INTERRUPTION - number)
    return Refused(number)


@functools.lru_cache(maxsize=None)
def _library(path: Optional[str] = None) -> _Library:
    return _Library(path)


def version() -> Tuple[int, int]:
    """The number of the interface and of the release of the library."""
    return _library().version >> 16, _library().version & 0xFFFF


# ---- What is told -------------------------------------------------------------------------------------------------------------------


class Turn(enum.IntEnum):
    """What a turn came to."""

    NOTHING_DUE = 0
    TURNED = 1
    DEVICE_CALLED = 2


class Choice(enum.IntEnum):
    """What the subsystem did for a subchannel."""

    IDLE = 0
    OFFERED = 1
    RESET_SENT = 2
    HALT_SENT = 3
    STATUS_MADE = 4


class PathState(enum.IntEnum):
    """How a channel path is; one that is not configured is down."""

    DOWN = 0
    UP = 1
    ENGAGED = 3


class Phase(enum.IntEnum):
    """What the subsystem takes a device to be held by."""

    #: nothing
    FREE = 0
    #: a program is offered
    OFFER = 1
    #: a program holds it, and is connected
    ON = 2
    #: a program holds it, and is not connected
    AWAY = 3
    #: it is let go, and has not answered yet
    LETTING_GO = 4
    #: it is to be reset
    RESET = 5


class Place(enum.IntEnum):
    """Where the program is that holds a unit."""

    #: no program holds it
    IDLE = 0
    ON = 1
    #: it asks for a path
    ASKS = 2
    #: it is at work without a path
    AWAY = 3


class Progress(enum.IntEnum):
    """How far the command at hand is."""

    #: none is at hand
    NONE = 0
    NEW = 1
    WORKING = 2
    #: its channel end is sent
    CHANNEL_ENDED = 3
    #: its last End is sent
    ENDED = 4


class SignalKind(enum.IntEnum):
    """What a signal is: 1 to 10 go down, 11 to 20 up."""

    SELECT = 1
    COMMAND = 2
    GRANT = 3
    REFUSE = 4
    TOOK = 5
    GIVE = 6
    HALT = 7
    RELEASE = 8
    RESET = 9
    GOT = 10
    ACCEPT = 11
    BUSY = 12
    LEAVE = 13
    BACK = 14
    DATA = 15
    END = 16
    RELEASED = 17
    CLEARED = 18
    NOTICE = 19
    ATTN = 20


class Due(enum.IntEnum):
    """What a unit is to do."""

    RESTS = 0
    #: its device is to be called
    CALL = 1
    #: a signal waits for it
    SIGNAL = 2
    #: it has a report that its device is not needed for
    REPORT = 3
    #: its program is away from its path, and may ask for one
    AWAY = 4
    #: its program is away, and there is no path that it may ask for
    AWAY_WAITS = 5


class CallKind(enum.IntEnum):
    """What a device is asked for."""

    NONE = 0
    INITIAL = 1
    ABSORB = 2
    SUPPLY = 3
    FINISH = 4


class ToldKind(enum.IntEnum):
    """Of which kind an event's answer is."""

    NOTHING = 0
    DONE = 1
    SHOWN = 2
    CODE = 3
    STATUS = 4
    INTERRUPTION = 5
    PATH_RESET = 6
    CHANNEL_REPORT = 7
    PATHS = 8
    OFFERED = 9
    RESET_SENT = 10
    HALT_SENT = 11
    STATUS_MADE = 12
    IDLE = 13
    UP = 14
    DOWN = 15


@dataclass(frozen=True)
class Work:
    """What the device of a unit is asked for; :meth:`Machine.report` is handed it back as it was told."""

    number: int
    command: int
    sequence: int
    kind: CallKind
    side: int
    #: of INITIAL: the command code, and by which side and path the command came
    code: int
    from_side: int
    from_path: int
    #: of SUPPLY: the most bytes that may be given
    count: int
    #: of ABSORB: the bytes
    data: bytes = b""


@dataclass(frozen=True)
class Answer:
    """What a device answered to a call, for :meth:`Machine.report`. It is made by the four class methods."""

    kind: int
    status: int = 0
    count: int = 0
    more: bool = False
    data: bytes = b""

    @classmethod
    def begins(cls) -> Answer:
        """The initial status is empty: the command begins."""
        return cls(1)

    @classmethod
    def absorbed(cls, count: int) -> Answer:
        """So many of the bytes were taken, from the first on."""
        return cls(2, count=count)

    @classmethod
    def supplied(cls, data: bytes) -> Answer:
        """These bytes are given; none where there are no more."""
        return cls(3, data=data)

    @classmethod
    def ended(cls, status: int, more: bool = False) -> Answer:
        """The command ended with this status; ``more``: a read was cut short, and there were more bytes."""
        return cls(4, status=status, more=more)


@dataclass(frozen=True)
class Seen:
    """What the last accepted event answered beyond its number."""

    #: of an instruction with code 0 or 1: how many statuses its subchannel made, and how many were cleared
    made: int
    cleared: int
    #: the program that was offered, reset or halted, and the index of its path
    number: int
    kind: ToldKind
    path: int
    #: the subchannel-status word, the interruption code, or first of them a channel-report word
    words: Tuple[int, int, int]


@dataclass(frozen=True)
class Hold:
    """What the subsystem takes the device of a subchannel to be held by."""

    #: under which the program is offered or holds, or the device is reset; 0 of FREE
    number: int
    #: of ON: 0 that of the Accept, else that of the last Grant
    connection: int
    #: the last connection number that was seen since the Accept
    seen: int
    #: how often the unit was restarted, as far as the subsystem knows
    restarts: int
    phase: Phase
    #: the index of the path of OFFER, ON and LETTING_GO
    path: Optional[int]
    #: the path on which the Reset was sent, and that of the last Accept
    reset_path: Optional[int]
    first_path: Optional[int]
    #: the program keeps to the path of its Accept
    single_path: bool


@dataclass(frozen=True)
class Programs:
    """The programs of a subchannel, by the numbers of their starts, from 1; 0 where there is none."""

    #: how many starts were accepted
    starts: int
    #: the program that waits to be begun, the one that holds the device, and the one that is suspended
    waiting: int
    holding: int
    suspended: int
    #: the program that was offered last, and the last number that was drawn, for an offer or a Reset
    offered: int
    drawn: int


@dataclass(frozen=True)
class UnitState:
    """What a unit remembers. Sides are 0 and 1."""

    #: the program that holds it, and its connection; 0 of IDLE
    number: int
    connection: int
    #: the last command of that program, which is the one at hand, 0 before its first; and the last chunk of it
    command: int
    sequence: int
    #: the attention that was sent and is not answered, or 0
    attention: int
    #: how often it was restarted
    restarts: int
    #: of each side the greatest number that was taken
    floors: Tuple[int, int]
    place: Place
    #: of the program
    side: int
    #: the index of the path of ON and ASKS
    path: Optional[int]
    #: of the command at hand: how far it is, its code, and the index of the path by which it came
    progress: Progress
    code: int
    command_path: Optional[int]
    #: the program is to end
    halted: bool
    #: to which the attention was sent
    attention_side: int
    #: of each side: it was not reset since the last restart
    fresh: Tuple[bool, bool]


@dataclass(frozen=True)
class Wires:
    """How many signals wait on the wires of a subchannel, by the index of the path."""

    #: to the unit
    down: Tuple[int, ...]
    #: to the subsystem
    up: Tuple[int, ...]


@dataclass(frozen=True)
class Signal:
    """A signal that waits on a wire. What a signal of its kind has not is 0."""

    #: of the program; of RESET and CLEARED of the Reset, of GOT and ATTN of the attention
    number: int
    connection: int
    command: int
    #: of the chunk
    sequence: int
    #: of RESET and NOTICE: how often the unit was restarted
    restarts: int
    kind: SignalKind
    #: of COMMAND: the command code
    code: int
    #: of COMMAND and TOOK: how many bytes of a read may come
    room: int
    #: of GIVE, and of DATA of a read: how many bytes it brings
    bytes: int
    #: of DATA of a write: how many bytes were taken
    absorbed: int
    #: of END and ATTN: device status
    status: int
    #: of END: the device had more bytes
    more: bool


class Line(NamedTuple):
    """What came of an event that was written as a line: the number of its answer, and the text that ``chsim`` prints."""

    number: int
    text: str


# ---- Devices ------------------------------------------------------------------------------------------------------------------------

#: The status of a command that ended, and whether a read was cut short.
Finish = Union[int, Tuple[int, bool]]


class Device:
    """A device. As it stands it refuses every command; a device of your own overrides what it does otherwise."""

    def initial(self, code: int, side: int, path: int) -> int:
        """A command of this code begins, which came by this side and path. 0; ``CHANNEL_END`` alone where it needs no data;
        ``UNIT_CHECK`` alone where it is refused, as a read backward (code xC) is always."""
        return UNIT_CHECK

    def absorb(self, data: bytes) -> int:
        """Bytes of a write: how many of them are taken, from the first on."""
        return 0

    def supply(self, most: int) -> bytes:
        """The next bytes of a read, at most so many; none where there are no more."""
        return b""

    def finish(self) -> Finish:
        """The command ends: its status, with ``DEVICE_END``, without ``CHANNEL_END`` where that was the initial status. A pair says with
        True that a read was cut short and there were more bytes."""
        return CHANNEL_END | DEVICE_END

    def restart(self) -> None:
        """The device is put back to its opening, as its unit is restarted."""


# ---- A machine ----------------------------------------------------------------------------------------------------------------------

_CALL = struct.Struct("=QQQIIIIII")
_ANSWER = struct.Struct("=IIII")
_TOLD = struct.Struct("=QQQIIIIIxxxx")
_HOLD = struct.Struct("=QQQQIIIIIxxxx")
_PROGRAMS = struct.Struct("=QQQQQQ")
_UNIT = struct.Struct("=QQQQQQ2Q8I2I")
_WIRES = struct.Struct("=8I8I")
_SIGNAL = struct.Struct("=QQQQQIIIIIIIxxxx")
_TEXT_ROOM = 640
_ENTRY_ROOM = 1024
_CHUNK = 256

# Arguments are made once, in the form in which ctypes passes them on at once.
_byref = ctypes.byref
_size = ctypes.c_size_t.from_param
_SIZES = [_size(count) for count in range(_CHUNK + 1)]
_BEGINS = _ANSWER.pack(1, 0, 0, 0)
_ABSORBED = [_ANSWER.pack(2, 0, count, 0) for count in range(_CHUNK + 1)]
_SUPPLIED = _ANSWER.pack(3, 0, 0, 0)


class _Handle(ctypes.Structure):
    _fields_ = [("held", ctypes.c_void_p), ("open", ctypes.c_bool)]


def _word(number: int) -> int:
    """A number of 32 bits: ctypes would cut others without a word."""
    if number >> 32:
        raise ValueError(f"{number} has not 32 bits")
    return number


def _words(numbers: Sequence[int]) -> Tuple[Any, Any]:
    """Numbers as two arguments."""
    return (ctypes.c_uint32 * max(1, len(numbers)))(*map(_word, numbers)), _size(len(numbers))


@functools.lru_cache(maxsize=None)
def _ended(status: int, more: bool) -> bytes:
    """The answer that a command ended so."""
    return _ANSWER.pack(4, status, 0, more)


def _absorbed(count: int) -> bytes:
    """The answer that so many bytes were taken."""
    return _ABSORBED[count] if 0 <= count <= _CHUNK else _ANSWER.pack(2, 0, count, 0)


def _index(path: int) -> Optional[int]:
    """The index of a path, where there is one."""
    return None if path == NO_PATH else path


def _lent(buffer: Any) -> Any:
    """The bytes of a writable buffer, where they stand."""
    view = memoryview(buffer).cast("B")
    return (ctypes.c_char * len(view)).from_buffer(view)


class Machine:
    """A channel subsystem with its paths, units and subchannels.

    First it is set up: :meth:`add_path`, :meth:`add_unit`, :meth:`add_subchannel` and the like. :meth:`start` lends it storage, and from
    then on it executes instructions and is turned. A ``with`` block closes it at its end; :meth:`close` does so too.

    ``library`` is the path of the shared library, where it is not to be looked for. Subchannels are named by their
    subsystem-identification words, of which 0x00010000 is the first; addresses are those of ``filuvamoth.h``.
    """

    def __init__(self, library: Optional[str] = None) -> None:
        self._handle = _Handle()
        self._closed = True
        self._library = _library(library)
        self._machine = ctypes.c_void_p.from_param(ctypes.addressof(self._handle))
        self._devices: List[Device] = []
        self._subchannels: List[int] = []
        self._waiting: Dict[int, Tuple[bytes, bytes, bytes]] = {}
        self._make_buffers()
        self._bind_looks()
        self._lend(None, None)
        self._must(self._library.calls["new"](self._machine))
        self._closed = False

    # -- opening and closing

    def _make_buffers(self) -> None:
        """Buffers that calls fill, made once."""
        self._call = ctypes.create_string_buffer(_CALL.size)
        self._call_words = memoryview(self._call).cast("B").cast("I")
        self._room: Any = ctypes.create_string_buffer(_CHUNK)
        self._told = ctypes.create_string_buffer(_TOLD.size)
        self._text = ctypes.create_string_buffer(_TEXT_ROOM)
        self._entry: Any = ctypes.create_string_buffer(_ENTRY_ROOM)
        self._block: Any = ctypes.create_string_buffer(64)
        self._three = (ctypes.c_uint32 * 3)()
        self._one = (ctypes.c_uint32 * 1)()
        self._written = ctypes.c_size_t()
        self._made = ctypes.c_uint64()
        self._cleared = ctypes.c_uint64()

    def _bind_looks(self) -> None:
        """Calls whose arguments are the same each time."""
        calls = self._library.calls
        bound = functools.partial
        self._see = bound(calls["seen"], self._machine, self._told)
        self._count_serials = bound(calls["serials"], self._machine)
        self._find_requests = bound(calls["requests"], self._machine)
        self._find_work = bound(calls["work"], self._machine)

    def _lend(self, storage: Any, keys: Any) -> None:
        """What each call that names an event is lent."""
        # These keep the buffers where they are as long as their addresses are passed.
        self._lent = [_lent(buffer) for buffer in (storage, keys) if buffer is not None]
        addresses = [ctypes.c_void_p.from_param(ctypes.addressof(buffer)) for buffer in self._lent]
        sizes = [_size(len(buffer)) for buffer in self._lent]
        pairs: List[Tuple[Any, Any]] = list(zip(addresses, sizes)) + [(None, _SIZES[0])] * (2 - len(sizes))
        lent = [argument for pair in pairs for argument in pair]
        calls = self._library.calls
        bound = functools.partial
        self._events: Dict[str, _Call] = {name: bound(calls[name], self._machine, *lent) for name in _EVENTS}
        self._ssch = self._events["ssch"]
        self._tsch = self._events["tsch"]
        self._tpi = self._events["tpi"]
        number = ctypes.c_uint32.from_param
        self._unit_turns = [(unit, bound(self._events["turn_unit"], number(unit))) for unit in range(len(self._devices))]
        self._subchannel_turns = [bound(self._events["turn_subchannel"], number(word)) for word in self._subchannels]
        self._works = [bound(self._find_work, number(unit), self._call, self._room, _SIZES[_CHUNK]) for unit, _ in self._unit_turns]
        self._reports = [bound(self._events["report"], number(unit)) for unit, _ in self._unit_turns]

    def close(self) -> None:
        """Closes the machine, and lets the storage go. One that is closed stays so."""
        if not self._closed:
            self._closed = True
            self._library.calls["free"](self._machine)
            self._lend(None, None)

    def __enter__(self) -> Machine:
        return self

    def __exit__(self, kind: Optional[Type[BaseException]], error: Optional[BaseException], trace: Optional[TracebackType]) -> None:
        self.close()

    def __del__(self) -> None:
        if not getattr(self, "_closed", True):
            self.close()

    def _must(self, number: int) -> int:
        if number < 0:
            raise _failure(number)
        return number

    def _set(self, name: str, *arguments: Any) -> int:
        return self._must(self._library.calls[name](self._machine, *arguments))

    def _event(self, name: str, *arguments: Any) -> int:
        return self._must(self._events[name](*arguments))

    # -- setting up

    def set_sets(self, sets: int) -> None:
        """How many sets of subchannels there are, 1 to 4: said once, before any subchannel."""
        self._set("set_sets", _word(sets))

    def add_path(self, chpid: int) -> None:
        """One channel path more, by its identifier, 0 to 255."""
        self._set("add_path", _word(chpid))

    def add_unit(self, device: Device) -> int:
        """One unit more, with its device: its number."""
        number = len(self._devices)
        self._set("add_unit", number)
        self._devices.append(device)
        return number

    def share(self, units: Sequence[int]) -> None:
        """These units share a control unit, which serves one of them at a time."""
        self._set("share", *_words(units))

    def add_subchannel(self, word: int, device_number: int, unit: int, paths: Sequence[int]) -> None:
        """One subchannel more: the word that names it, its device number, its unit, and one to eight channel paths by index."""
        self._set("add_subchannel", _word(word), _word(device_number), _word(unit), *_words(paths))
        self._subchannels.append(word)

    def set_concurrent_sense(self, kept: bool) -> None:
        """Whether MODIFY SUBCHANNEL keeps the concurrent-sense bit of the subchannels that come after this. Linux wants it kept."""
        self._set("set_concurrent_sense", int(kept))

    def set_path_return(self, initialized: bool) -> None:
        """Whether a channel path that is back is reported as initialized, which Linux wants, or as available."""
        self._set("set_path_return", int(initialized))

    def set_up_line(self, line: str, device: Optional[Device] = None) -> None:
        """A line of a script that configures a machine: storage, sets, path, unit, share or sub. The kind of a ``unit`` line counts for
        nothing: its device is this one, which such a line wants."""
        words = line.split(" ")
        if (words[0] == "unit") != (device is not None):
            raise ValueError("a line of a unit, and no other, has a device")
        data = line.encode("utf-8")
        self._set("set_up_line", data, _size(len(data)))
        if device is not None:
            self._devices.append(device)
        if words[0] == "sub":
            number = int(words[1], 16)
            self._subchannels.append(number if len(words[1]) > 4 else 0x10000 + number)

    def start(self, storage: Any, keys: Any = None, history: bool = False, blocks: Optional[int] = None) -> None:
        """The machine runs on this storage, of 4,096 bytes for each block, 16 to 524,288. ``keys`` has a byte for each block, its storage
        key; without it keys are in the machine. With ``history`` each accepted event is kept, with its reply, until the machine is
        closed."""
        size = memoryview(storage).nbytes
        if size % 4096:
            raise ValueError("storage has whole blocks of 4,096 bytes")
        self._set("start", size // 4096 if blocks is None else _word(blocks), int(history))
        self._lend(storage, keys)

    # -- instructions with the real address of their operand

    def ssch(self, subchannel: int, address: int, cpu: int = 0) -> int:
        """START SUBCHANNEL with the ORB at an address: the condition code."""
        if (cpu | subchannel | address) >> 32:
            raise ValueError("a number has not 32 bits")
        number = self._ssch(cpu, subchannel, address)
        return number if number >= 0 else self._must(number)

    def tsch(self, subchannel: int, address: int, cpu: int = 0) -> int:
        """TEST SUBCHANNEL, which stores an IRB at an address with codes 0 and 1: the condition code. :meth:`seen` has the status word."""
        if (cpu | subchannel | address) >> 32:
            raise ValueError("a number has not 32 bits")
        number = self._tsch(cpu, subchannel, address)
        return number if number >= 0 else self._must(number)

    def stsch(self, subchannel: int, address: int, cpu: int = 0) -> int:
        """STORE SUBCHANNEL, which stores a SCHIB at an address with code 0: the condition code."""
        return self._event("stsch", cpu, _word(subchannel), _word(address))

    def msch(self, subchannel: int, address: int, cpu: int = 0) -> int:
        """MODIFY SUBCHANNEL with the SCHIB at an address: the condition code."""
        return self._event("msch", cpu, _word(subchannel), _word(address))

    def rsch(self, subchannel: int, cpu: int = 0) -> int:
        """RESUME SUBCHANNEL: the condition code."""
        return self._event("rsch", cpu, _word(subchannel))

    def hsch(self, subchannel: int, cpu: int = 0) -> int:
        """HALT SUBCHANNEL: the condition code."""
        return self._event("hsch", cpu, _word(subchannel))

    def csch(self, subchannel: int, cpu: int = 0) -> int:
        """CLEAR SUBCHANNEL: the condition code."""
        return self._event("csch", cpu, _word(subchannel))

    def xsch(self, subchannel: int, cpu: int = 0) -> int:
        """CANCEL SUBCHANNEL: the condition code."""
        return self._event("xsch", cpu, _word(subchannel))

    def tpi(self, mask: int, address: int, cpu: int = 0) -> int:
        """TEST PENDING INTERRUPTION of the subclasses in ``mask`` (0x80 is subclass 0): with code 1 the interruption code is stored at an
        address, or at real 184 where that is 0."""
        if (cpu | mask | address) >> 32:
            raise ValueError("a number has not 32 bits")
        number = self._tpi(cpu, mask, address)
        return number if number >= 0 else self._must(number)

    def rchp(self, path: int, cpu: int = 0) -> int:
        """RESET CHANNEL PATH, of general register 1: the condition code."""
        return self._event("rchp", cpu, _word(path))

    def stcrw(self, address: int, cpu: int = 0) -> int:
        """STORE CHANNEL REPORT WORD at an address: the condition code."""
        return self._event("stcrw", cpu, _word(address))

    def stcps(self, address: int, cpu: int = 0) -> None:
        """STORE CHANNEL PATH STATUS, 32 bytes at an address."""
        self._event("stcps", cpu, _word(address))

    def enable(self, subchannel: int, subclass: int = 0, multipath: bool = False, cpu: int = 0) -> int:
        """The subchannel is enabled by STORE SUBCHANNEL to real F00, which is overwritten, and MODIFY SUBCHANNEL: the latter's code."""
        return self._event("enable", cpu, _word(subchannel), _word(subclass), int(multipath))

    # -- instructions with their operand by value

    def ssch_orb(self, subchannel: int, orb: bytes, cpu: int = 0) -> int:
        """START SUBCHANNEL with an ORB of 12 bytes: the condition code."""
        return self._set("ssch_orb", cpu, _word(subchannel), bytes(orb), _size(len(orb)))

    def msch_schib(self, subchannel: int, schib: bytes, cpu: int = 0) -> int:
        """MODIFY SUBCHANNEL with a SCHIB of 52 bytes: the condition code."""
        return self._set("msch_schib", cpu, _word(subchannel), bytes(schib), _size(len(schib)))

    def stsch_schib(self, subchannel: int, cpu: int = 0) -> Tuple[int, Optional[bytes]]:
        """STORE SUBCHANNEL: the condition code, and with code 0 the SCHIB of 52 bytes."""
        code = self._set("stsch_schib", cpu, _word(subchannel), self._block, _SIZES[52])
        return code, self._block[:52] if code == 0 else None

    def tsch_irb(self, subchannel: int, cpu: int = 0) -> Tuple[int, Optional[bytes]]:
        """TEST SUBCHANNEL: the condition code, and with codes 0 and 1 the IRB of 64 bytes."""
        code = self._set("tsch_irb", cpu, _word(subchannel), self._block, _SIZES[64])
        return code, self._block[:64] if code < 2 else None

    def tpi_code(self, mask: int, cpu: int = 0) -> Optional[Tuple[int, int, int]]:
        """TEST PENDING INTERRUPTION: the three words of the interruption code; None with code 0."""
        if self._set("tpi_code", cpu, _word(mask), self._three, _SIZES[3]) == 0:
            return None
        return self._three[0], self._three[1], self._three[2]

    def stcrw_word(self, cpu: int = 0) -> Optional[int]:
        """STORE CHANNEL REPORT WORD: the report; None where none waits."""
        code = self._set("stcrw_word", cpu, self._one, _SIZES[1])
        return self._one[0] if code == 0 else None

    def stcps_bytes(self, cpu: int = 0) -> bytes:
        """STORE CHANNEL PATH STATUS: 32 bytes, a bit for each channel path from the left."""
        self._set("stcps_bytes", cpu, self._block, _SIZES[32])
        return bytes(self._block[:32])

    # -- turns

    def turn_subchannel(self, subchannel: int) -> Turn:
        """A turn of a subchannel: it takes a signal, or the subsystem does what it must for it."""
        return Turn(self._event("turn_subchannel", _word(subchannel)))

    def turn_unit(self, unit: int) -> Turn:
        """A turn of a unit, without its device: DEVICE_CALLED where that is to be called, by :meth:`serve`, or :meth:`work` and
        :meth:`report`."""
        return Turn(self._event("turn_unit", _word(unit)))

    def choose(self, subchannel: int) -> Choice:
        """The subsystem does what it must for a subchannel."""
        return Choice(self._event("choose", _word(subchannel)))

    def up(self, subchannel: int, path: int) -> bool:
        """The subchannel takes the signal that waits longest on its path of this index: whether it was taken, or ignored."""
        return self._event("up", _word(subchannel), _word(path)) == 1

    def down(self, subchannel: int, path: int) -> bool:
        """The unit takes the signal that waits longest on this path of the subchannel: whether it was taken, or ignored."""
        return self._event("down", _word(subchannel), _word(path)) == 1

    def run(self, most: int = 1_000_000) -> int:
        """Turns units, devices and subchannels, in order and again, until nothing is due or ``most`` turns were done: how many were done.
        ``most`` of them say that more may be due: a program may go on for ever."""
        turns = 0
        unit_turns, subchannel_turns, waiting, serve = self._unit_turns, self._subchannel_turns, self._waiting, self._serve
        while True:
            before = turns
            for unit, turn in unit_turns:
                number = turn()
                if number == 2 or waiting and unit in waiting:
                    number = serve(unit)
                if number > 0:
                    turns += 1
                    if turns >= most:
                        return turns
                elif number and number != WIRE_FULL:
                    self._must(number)
            for turn in subchannel_turns:
                number = turn()
                if number > 0:
                    turns += 1
                    if turns >= most:
                        return turns
                elif number and number != WIRE_FULL:
                    self._must(number)
            if turns == before:
                return turns

    # -- devices

    def serve(self, unit: int) -> Turn:
        """The device of a unit is called for what it is asked for, and its answer handed in. One that is refused for want of room on a
        wire waits, and is handed in by a later call. Refused NOT_NOW: the device gave an answer against the law of devices."""
        if not 0 <= unit < len(self._reports):
            raise Refused(NO_SUCH_UNIT)
        return Turn(self._must(self._serve(unit)))

    def _serve(self, unit: int) -> int:
        if unit in self._waiting:
            return self._hand_in(unit, *self._waiting[unit])
        number = self._works[unit]()
        if number != 1:
            return min(number, 0)
        answer, data = self._answer(self._devices[unit], self._call_words)
        number = self._reports[unit](self._call, answer, data, _SIZES[len(data)])
        if number >= 0:
            return 1
        if number in (WIRE_FULL, NO_MEMORY):
            self._waiting[unit] = self._call.raw, answer, data
        return number

    def _answer(self, device: Device, call: memoryview) -> Tuple[bytes, bytes]:
        """Calls a device, of which six words tell what it is asked for: its answer, and the bytes of that."""
        kind = call[6]
        if kind == 2:
            return _absorbed(device.absorb(self._room[: call[11]])), b""
        if kind == 1:
            status = device.initial(call[8], call[9], call[10])
            return _ended(status, False) if status else _BEGINS, b""
        if kind == 3:
            data = device.supply(call[11])
            if type(data) is not bytes:
                data = bytes(data)
            if len(data) > call[11]:
                raise ValueError("a device gives at most as many bytes as it is asked for")
            return _SUPPLIED, data
        ended = device.finish()
        return _ended(*ended) if isinstance(ended, tuple) else _ended(ended, False), b""

    def _hand_in(self, unit: int, call: bytes, answer: bytes, data: bytes) -> int:
        """Hands in the answer that waits. One that came too late, after a reset say, is dropped."""
        number = self._reports[unit](call, answer, data, _SIZES[len(data)])
        if number in (WIRE_FULL, NO_MEMORY):
            return number
        del self._waiting[unit]
        return number if number < 0 and number != NOT_NOW else 1

    def due(self, unit: int) -> Due:
        """What a unit is to do. No event."""
        return Due(self._must(self._find_work(_word(unit), self._call, self._room, _SIZES[_CHUNK])))

    def away_path(self, unit: int) -> Optional[int]:
        """The index of the path for which the program of a unit that is away may ask, by :meth:`unit_ask`; None where it may for none."""
        return self._call_words[10] if self.due(unit) == Due.AWAY else None

    def work(self, unit: int) -> Optional[Work]:
        """What the device of a unit is asked for now; None where it is not to be called. No event."""
        if self.due(unit) != Due.CALL:
            return None
        number, command, sequence, kind, side, code, from_side, from_path, count = _CALL.unpack(self._call)
        data = self._room[:count] if kind == CallKind.ABSORB else b""
        return Work(number, command, sequence, CallKind(kind), side, code, from_side, from_path, count, data)

    def report(self, unit: int, work: Work, answer: Answer) -> None:
        """Hands in what the device of a unit answered. Refused NOT_NOW: an answer against the law of devices, or too late; WIRE_FULL or
        NO_MEMORY: the same is handed in later, and the device is not called again."""
        call = _CALL.pack(work.number, work.command, work.sequence, work.kind, work.side, work.code, work.from_side, work.from_path,
                          work.count)
        told = _ANSWER.pack(answer.kind, answer.status, answer.count, answer.more)
        self._event("report", _word(unit), call, told, bytes(answer.data), _size(len(answer.data)))

    # -- what units do of themselves, channel paths, resets

    def unit_leave(self, unit: int) -> None:
        """The program that is connected leaves its path and works on."""
        self._event("unit_leave", _word(unit))

    def unit_ask(self, unit: int, path: int) -> None:
        """The program that is without a path asks for this one, by its index."""
        self._event("unit_ask", _word(unit), _word(path))

    def unit_attention(self, unit: int, path: int, side: int = 0) -> None:
        """The unit asks for attention on a path of its side."""
        self._event("unit_attention", _word(unit), _word(path), _word(side))

    def unit_notice(self, unit: int, path: int, side: int = 0) -> None:
        """The unit tells its side, on a path, that it was restarted."""
        self._event("unit_notice", _word(unit), _word(path), _word(side))

    def unit_restart(self, unit: int) -> None:
        """The unit is restarted, and its device put back to its opening."""
        self._event("unit_restart", _word(unit))
        self._devices[unit].restart()

    def path_down(self, chpid: int) -> None:
        """A channel path goes down: what is on it is lost."""
        self._event("path_down", _word(chpid))

    def path_up(self, chpid: int) -> None:
        """A channel path that was down comes up."""
        self._event("path_up", _word(chpid))

    def path_reset(self, chpid: int) -> None:
        """A channel path is reset, as RESET CHANNEL PATH asked for."""
        self._event("path_reset", _word(chpid))

    def system_reset(self) -> None:
        """The channel subsystem is reset."""
        self._event("system_reset")

    # -- events on storage

    def put(self, address: int, data: bytes) -> None:
        """At most 256 bytes are put into storage, by an event: for histories alone, since storage is the program's."""
        self._event("put", _word(address), bytes(data), _size(len(data)))

    def set_key(self, address: int, key: int) -> None:
        """The key of the block in which an address lies is set: a byte, whose bit 7 is ignored."""
        self._event("set_key", _word(address), _word(key))

    def set_prefix(self, cpu: int, address: int) -> None:
        """The prefix of a CPU is set."""
        self._event("set_prefix", _word(cpu), _word(address))

    # -- looks

    def requests(self) -> int:
        """The interruption subclasses of which a request waits: the bit 0x80 is subclass 0."""
        return self._must(self._find_requests())

    def report_count(self) -> int:
        """How many channel reports wait."""
        return self._set("report_count")

    def schib(self, subchannel: int) -> bytes:
        """The SCHIB that STORE SUBCHANNEL would store."""
        self._set("schib", _word(subchannel), self._block, _SIZES[52])
        return bytes(self._block[:52])

    def irb(self, subchannel: int) -> bytes:
        """The IRB that TEST SUBCHANNEL would store."""
        self._set("irb", _word(subchannel), self._block, _SIZES[64])
        return bytes(self._block[:64])

    def serials(self, subchannel: int) -> Tuple[int, int]:
        """How many statuses a subchannel made, and how many were cleared."""
        self._must(self._count_serials(_word(subchannel), _byref(self._made), _byref(self._cleared)))
        return self._made.value, self._cleared.value

    def path(self, chpid: int) -> PathState:
        """How a channel path is."""
        return PathState(self._set("path", _word(chpid)))

    def seen(self) -> Seen:
        """What the last accepted event answered beyond its number."""
        self._must(self._see())
        made, cleared, number, kind, path, first, second, third = _TOLD.unpack(self._told)
        return Seen(made, cleared, number, ToldKind(kind), path, (first, second, third))

    def _view(self, name: str, layout: struct.Struct, *arguments: int) -> Tuple[Any, ...]:
        """The numbers that a look tells."""
        room = ctypes.create_string_buffer(layout.size)
        self._set(name, *map(_word, arguments), room)
        return layout.unpack(room)

    def hold(self, subchannel: int) -> Hold:
        """What the subsystem takes the device of a subchannel to be held by."""
        told = self._view("hold", _HOLD, subchannel)
        number, connection, seen, restarts, phase, path, reset_path, first_path, single_path = told
        return Hold(
            number, connection, seen, restarts, Phase(phase), _index(path), _index(reset_path), _index(first_path), single_path != 0
        )

    def programs(self, subchannel: int) -> Programs:
        """The programs of a subchannel, by the numbers of their starts."""
        return Programs(*self._view("programs", _PROGRAMS, subchannel))

    def unit_state(self, unit: int) -> UnitState:
        """What a unit remembers."""
        told = self._view("unit_state", _UNIT, unit)
        place, side, path, progress, code, command_path, halted, attention_side = told[8:16]
        number, connection, command, sequence, attention, restarts = told[:6]
        return UnitState(
            number, connection, command, sequence, attention, restarts, (told[6], told[7]), Place(place), side, _index(path),
            Progress(progress), code, _index(command_path), halted != 0, attention_side, (told[16] != 0, told[17] != 0),
        )

    def wires(self, subchannel: int) -> Wires:
        """How many signals wait on the wires of a subchannel."""
        counts = self._view("wires", _WIRES, subchannel)
        return Wires(counts[:8], counts[8:])

    def signals_down(self, subchannel: int, path: int) -> List[Signal]:
        """The signals that wait on the wire of a path to the unit: first the one that :meth:`down` takes."""
        return list(self._signals("signal_down", subchannel, path))

    def signals_up(self, subchannel: int, path: int) -> List[Signal]:
        """The signals that wait on the wire of a path to the subsystem: first the one that :meth:`up` takes."""
        return list(self._signals("signal_up", subchannel, path))

    def _signals(self, name: str, subchannel: int, path: int) -> Iterator[Signal]:
        for index in itertools.count():
            try:
                told = self._view(name, _SIGNAL, subchannel, path, index)
            except Refused as refused:
                if refused.number == NOT_SENT:
                    return
                raise
            number, connection, command, sequence, restarts, kind, *rest, more = told
            code, room, count, absorbed, status = rest
            yield Signal(
                number, connection, command, sequence, restarts, SignalKind(kind), code, room, count, absorbed, status, more != 0
            )

    # -- events as text

    def line(self, line: str) -> Line:
        """Performs an event that is written as a line of a script, and answers as ``chsim`` does, also where the event is refused. Refused
        with a rule of lines where it asks for none, as ``dev``, ``glance`` and lines that set up."""
        data = line.encode("utf-8")
        number = self._events["line"](data, _size(len(data)), self._text, _size(_TEXT_ROOM), _byref(self._written))
        if self._written.value == 0:
            self._must(number)
        return Line(number, self._text.raw[: self._written.value].decode("ascii"))


    # -- the history

    def history_count(self) -> int:
        """How many entries are kept: all accepted events where :meth:`start` was asked for the history, else the last one at most."""
        count = ctypes.c_uint64()
        self._set("history_count", _byref(count))
        return count.value

    def _entry_text(self, name: str, index: int) -> str:
        self._set(name, ctypes.c_uint64(index), self._entry, _size(_ENTRY_ROOM), _byref(self._written))
        text: bytes = self._entry[: self._written.value]
        return text.decode("ascii")

    def history_line(self, index: int) -> str:
        """The event of an entry, from 0, as a line that :meth:`line` performs."""
        return self._entry_text("history_line", index)

    def history_reply(self, index: int) -> str:
        """What :meth:`line` answers of the reply of an entry."""
        return self._entry_text("history_reply", index)

    def history(self) -> Iterator[Tuple[str, str]]:
        """The kept entries in order: the line of each event, and its reply."""
        for index in range(self.history_count()):
            yield self.history_line(index), self.history_reply(index)

    def forget(self) -> None:
        """The kept entries are let go; the machine stays as it is."""
        self._set("forget")


_EVENTS = """
    ssch tsch stsch msch rsch hsch csch xsch tpi rchp stcrw stcps enable turn_subchannel turn_unit choose up down report
    unit_leave unit_ask unit_attention unit_notice unit_restart path_down path_up path_reset system_reset put set_key set_prefix line
""".split()
