"""Programs step by step, and what the status says where the path goes down under them. A step is a line and what it
prints; {} is the path of either."""
from typing import List, NamedTuple, Tuple

from reckoned.scene import Scene

Step = Tuple[str, str]

# How the status of a program begins without N, and with it.
WITHOUT = "cc 0 0080"
MARKED = "cc 0 0081"


def down(told):
    """The unit takes a signal, and this is printed."""
    return ("down 0 {}", told)


def up(told):
    """The subchannel takes a signal, and this is printed."""
    return ("up 0 {}", told)


def tested(status):
    """The status is tested, and this is printed."""
    return ("tsch 0 600", status)


START = ("ssch 0 500", "cc 0")
OFFER = ("choose 0", "offer {}")
# The device takes its turn.
TURN = ("dev 0", "done")
LOST = ("pathdown 1{}", "done")

# A program is started, offered and accepted; its command is sent, and its device takes it.
OFFERED = [START, OFFER, down("took select"), up("took accept")]
COMMANDED = [down("took command"), TURN]
# Bytes are asked for, given and taken.
GIVEN = [up("took data"), down("took give"), TURN]
# A command ends, and its device later.
ENDED = [up("took end"), TURN]
RELEASED = [down("took release"), up("took released")]

# A device is reset; all is cleared, to the Reset that is answered; the status of a clear that is done, and what is
# answered before it is.
RESETS = [("choose 0", "reset {}"), down("took reset"), up("took cleared")]
CLEAR = [("csch 0", "cc 0"), *RESETS]
CLEARED = tested("cc 0 00001001 00000000 00000000")
CLEARING = tested("cc 1 00001100 00000000 00000000")


class Program(NamedTuple):
    """A program: how it runs, and what its status says where its path goes down."""

    # The lines that put it into storage.
    puts: List[str]
    # What happens again and again between its begin and its end, and how often.
    turn: List[Step]
    turns: int
    # As no Accept was taken: the address of the program, and no count.
    offered: str
    # As it has the device: the address past the command, and the count that is left.
    held: str
    # The same after this step and each later one, as bytes were taken.
    moved: Tuple[int, str]
    # What its own status says.
    ended: str

    def lost_after(self, step):
        """What its status says where its path goes down after a step, before its End is taken: an interface-control
        check."""
        if step < 3:
            return self.offered
        return self.held if step < self.moved[0] else self.moved[1]

    def whole(self, begins):
        """Its steps, from its start to its test, whose status begins so."""
        return [*OFFERED, *COMMANDED, *self.turn * self.turns, up("took end"), tested(f"{begins}{self.ended}")]

    def steps(self, begins):
        """The same to its release."""
        return [*self.whole(begins), *RELEASED]

    def put(self):
        return [(line, "done") for line in self.puts]


# Four bytes are written.
WRITE = Program(
    puts=["put 500 000000000080FF0000001000", "put 1000 0120000400002000"],
    turn=GIVEN,
    turns=2,
    offered="4017 00001000 00020000",
    held="4017 00001008 00020004",
    moved=(9, "4017 00001008 00020000"),
    ended="4007 00001008 0C000000",
)

# Four bytes are written again and again, by data chaining, until the device takes no more: the count is that of the
# next four.
CHAIN = Program(
    puts=["put 500 000000000080FF0000001000", "put 1000 0180000400002000", "put 1008 0800000000001000"],
    turn=GIVEN,
    turns=18,
    offered="4017 00001000 00020000",
    held="4017 00001008 00020004",
    moved=(9, "4017 00001008 00020004"),
    ended="4007 00001008 0C400004",
)

# No operation, chained to a command past storage.
NO_OPERATION = Program(
    puts=["put 500 000000000080FF000000FFF8", "put FFF8 0360000000000000"],
    turn=ENDED,
    turns=1,
    offered="4017 0000FFF8 00020000",
    held="4017 00010000 00020000",
    moved=(6, "4017 00010000 00020000"),
    ended="4017 00010008 00200000",
)

# Eight bytes are to be written, of which four lie past storage.
PAST_STORAGE = Program(
    puts=["put 500 000000000080FF0000001000", "put 1000 012000080000FFFC"],
    turn=GIVEN,
    turns=1,
    offered="4017 00001000 00020000",
    held="4017 00001008 00020008",
    moved=(6, "4017 00001008 00020008"),
    ended="4017 00001008 0C200008",
)


def settings(paths, kind="block"):
    """The lines of configuration of a subchannel with so many paths, whose unit is of this kind."""
    names = [f"1{path}" for path in range(paths)]
    return ["storage 10", *[f"path {name}" for name in names], f"unit 0 {kind}", f"sub 0 0100 0 {' '.join(names)}"]


def prepared(paths):
    """A subchannel with so many paths, which is enabled, and a write with its bytes in storage."""
    scene = Scene(settings(paths))
    scene.goes([*WRITE.put(), ("put 2000 C1C2C3C4", "done"), ("enable 0 0 0", "cc 0")])
    return scene


def first_write():
    """One write of four bytes, from its configuration to its cleared status."""
    scene = prepared(1)
    scene.goes(WRITE.whole(WITHOUT))
    return scene


def write_again(scene, begins, path):
    """A write by this path, from its start to its release, whose status begins so and has channel end and device
    end."""
    scene.goes([*WRITE.put(), *WRITE.steps(begins)], path)
