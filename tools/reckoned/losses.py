"""A channel path that goes down after each step of a program, under it or beside it."""
from itertools import product

from reckoned.programs import (
    CHAIN, CLEAR, CLEARED, CLEARING, LOST, MARKED, NO_OPERATION, PAST_STORAGE, RESETS, WITHOUT, WRITE,
    prepared, tested, write_again,
)


def before(on):
    """A machine of two paths, the next of which to be chosen is this one: a write was done by path 0, where it is
    path 1."""
    scene = prepared(2)
    if on == 1:
        scene.goes(WRITE.steps(WITHOUT))
    return scene


def each(steps):
    """On which path a program of so many steps is, which path goes down, and after which step, with a name for this."""
    for on, lost, after in product((0, 1), (0, 1), range(steps)):
        yield on, lost, after, f"on path {on}, path {lost} goes down after step {after}"


def recover(scene, program, steps, after, left):
    """What follows the loss of its path after a step of a program of so many, with its test and its release: its
    status is tested, if it was not before, and the device is reset by the path that is left, unless it was let go."""
    if after + 3 < steps:
        status = program.ended if after + 4 == steps else program.lost_after(after)
        scene.goes([tested(f"{WITHOUT}{status}")])
    if after + 1 < steps:
        scene.goes(RESETS, left)


def lost_once(program, on, lost, after):
    """A program begins on a path, and after a step of it, the start being step 0, one of the two goes down.

    Where it is the program's own path, the program is over, and its status is an interface-control check, until its End
    is taken; then its status stays. In both cases the device is reset by the path that is left, unless it was let go.
    Where the program has no path yet, or is on the other one, it goes on by the path that is left as if nothing was. At
    the end a write is started, which goes by that path. The path that is down is marked as the next program is to be
    offered: that program's status has N, and no other.
    """
    scene, left = before(on), 1 - lost
    scene.goes(program.put())
    first, second = (MARKED, WITHOUT) if after == 0 else (WITHOUT, MARKED)
    steps = program.steps(first)
    scene.goes(steps[: after + 1], on)
    scene.goes([LOST], lost)
    if lost != on or after == 0:
        scene.goes(steps[after + 1 :], left)
    else:
        recover(scene, program, len(steps), after, left)
    write_again(scene, second, left)
    return scene


def losses(program):
    """After each step of a program, each of two paths goes down, while it is on each of them."""
    for on, lost, after, name in each(len(program.steps(WITHOUT))):
        yield lost_once(program, on, lost, after).script(name)


def of_a_write():
    """A write of four bytes has 12 events by which it is chosen and done, its start before them, and its test and
    release after them."""
    return losses(WRITE)


def of_a_chain():
    """A write whose bytes are chained, four by four, of which the device takes sixteen fours and no more."""
    return losses(CHAIN)


def of_a_command_past_storage():
    return losses(NO_OPERATION)


def of_data_past_storage():
    return losses(PAST_STORAGE)


def of_a_clear():
    """All is cleared, and after a step of that, the first being the instruction, a path goes down. A Reset that was
    sent on it and is not answered is sent again by the path that is left, and the clear is pending until then; else
    nothing is lost."""
    for on, lost, after, name in each(len(CLEAR)):
        scene, left = before(on), 1 - lost
        scene.goes(CLEAR[: after + 1], on)
        scene.goes([LOST], lost)
        if lost == on and after in (1, 2):
            scene.goes([CLEARING, *RESETS], left)
        else:
            scene.goes(CLEAR[after + 1 :], left)
        scene.goes([CLEARED])
        write_again(scene, MARKED, left)
        yield scene.script(name)


def of_a_write_that_stands():
    """A write loses its path after each of its events, its status is tested at once, and it is done again by the
    other path, as it stands in storage."""
    steps = WRITE.whole(WITHOUT)
    for after in range(1, len(steps) - 1):
        scene = prepared(2)
        scene.goes([*steps[: after + 1], LOST])
        status = WRITE.ended if after + 2 == len(steps) else WRITE.lost_after(after)
        scene.goes([tested(f"{WITHOUT}{status}")])
        scene.goes([*RESETS, *WRITE.whole(MARKED)], 1)
        yield scene.script(f"path 0 goes down after event {after}")
