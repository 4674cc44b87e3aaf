"""All is cleared again and again, until the wires of both paths are full, while a path goes down after one of the
steps."""
from collections import deque

from reckoned.programs import CLEARED, MARKED, prepared, write_again
from reckoned.scene import Misreckoned

# How many signals wait on a wire at most.
ROOM = 8


class Clearing:
    """What is reckoned beside the program: a clear has the next number, and so has its Reset; a Reset whose path
    goes down is due again, with the next number."""

    def __init__(self):
        # By path: the numbers of the Resets that wait on it, and of their answers; and whether it is down.
        self.resets, self.answers, self.lost = (deque(), deque()), (deque(), deque()), [False, False]
        # The number of the last clear, whether it is not done yet, the path by which its Reset was sent, and the path
        # that is chosen next.
        self.number, self.pending, self.sent, self.next = 0, False, None, 0
        # The highest number of a Reset that the unit took, and how often a wire had no room.
        self.taken, self.refused = 0, 0

    def has_no_room(self):
        self.refused += 1
        return "refused 2"

    def clears(self):
        self.number, self.sent, self.pending = self.number + 1, None, True
        return "cc 0"

    def chooses(self):
        """A Reset that is due is sent by the next path that is up, if its wire has room."""
        if not self.pending or self.sent is not None:
            return "idle"
        path = 1 - self.next if self.lost[self.next] else self.next
        if len(self.resets[path]) == ROOM:
            return self.has_no_room()
        self.resets[path].append(self.number)
        self.sent, self.next = path, 1 - path
        return f"reset {path}"

    def takes(self, path):
        """The unit takes a Reset and answers it, if there is room for that, but not one that is older than one that
        it took."""
        resets, answers = self.resets[path], self.answers[path]
        if not resets:
            return "refused 3"
        if resets[0] < self.taken:
            resets.popleft()
            return "ignored reset"
        if len(answers) == ROOM:
            return self.has_no_room()
        self.taken = resets.popleft()
        answers.append(self.taken)
        return "took reset"

    def ends(self, path):
        """The answer to the Reset of the last clear ends it."""
        if not self.answers[path]:
            return "refused 3"
        if self.answers[path].popleft() != self.number or not self.pending:
            return "ignored cleared"
        self.pending = False
        return "took cleared"

    def loses(self, path):
        self.resets[path].clear()
        self.answers[path].clear()
        self.lost[path] = True
        if self.pending and self.sent == path:
            self.number, self.sent = self.number + 1, None
        return "done"

    def goes(self, scene, lines):
        """These lines are added to a script, each with its answer; the last digit of a line is its path, if it has
        one."""
        alone = {"csch 0": self.clears, "choose 0": self.chooses}
        by_path = {"down": self.takes, "up": self.ends, "pathdown": self.loses}
        for line in lines:
            scene.says(line, alone[line]() if line in alone else by_path[line.split(" ")[0]](int(line[-1])))

    def ends_by(self, scene, path):
        """What waits on a path is taken, and then the Reset is sent by it and answered, where it is due."""
        signals = [f"down 0 {path}", f"up 0 {path}"]
        self.goes(scene, [*signals * (ROOM + 1), "choose 0", *signals])


# All is cleared until eight Resets wait on each path, and once more, for which there is no room. The unit takes what it
# can: the first one of path 0, behind whose like there is room for one more, and the others until there is no room for
# answers; those of path 1, of which all but the last are too old. Then the answers are taken, and the last one is that
# of the last Reset.
STEPS = [
    *["csch 0", "choose 0"] * (2 * ROOM + 1),
    *["down 0 0", "choose 0"],
    *["down 0 0"] * ROOM,
    *["down 0 1"] * (ROOM + 1),
    *["up 0 0", "down 0 0"],
    *["up 0 0"] * (ROOM - 1),
    *["up 0 1"] * ROOM,
    "up 0 0",
]


def full_wires():
    """A path goes down after so many of these steps. By the other one the clear is brought to its end, and then a
    write. Where it goes down after all of them, two had no room."""
    for lost in (0, 1):
        for after in range(len(STEPS) + 1):
            name = f"path {lost} goes down after {after} steps"
            scene, clearing, left = prepared(2), Clearing(), 1 - lost
            clearing.goes(scene, [*STEPS[:after], f"pathdown 1{lost}", *STEPS[after:]])
            if after == len(STEPS) and clearing.refused != 2:
                raise Misreckoned(f"{name}: {clearing.refused} had no room, not two")
            clearing.ends_by(scene, left)
            scene.goes([CLEARED])
            write_again(scene, MARKED, left)
            yield scene.script(name)
