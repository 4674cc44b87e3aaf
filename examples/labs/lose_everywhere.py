"""The path of lose_everywhere.chs is lost after each of its events, and a table says what its driver finds, by the program chtrace.

    python3 examples/labs/lose_everywhere.py CHTRACE                 prints the table
    python3 examples/labs/lose_everywhere.py --check PAGE CHTRACE    exits 1 where the page has another table, or another script
"""

from __future__ import annotations

import subprocess
import sys
from pathlib import Path
from typing import List, Tuple

from talking import Talking

SCRIPT = Path(__file__).with_suffix(".chs").read_text("utf-8")
MOST = 0x200
#: Other bytes for the write, and the place of the read cleared, so that what a second try did is seen.
OTHERS = ["put 2FFE B1B2", "put 4000 B3B4B5", "put 5000 0000000000"]
HEAD = "| N | After | Lost on the wire | Report | Status | At 5000 | Device | Again |\n|---|---|---|---|---|---|---|---|\n"


class Driven(Talking):
    """A conversation in which the script was said. A line that is bad or refused raises: it is a fault of this file."""

    def __init__(self, program: str) -> None:
        super().__init__(program)
        for line in SCRIPT.splitlines():
            self.say(line)

    def due(self) -> str:
        """The line that is due."""
        return self.ask("due")[0].partition("  ")[0]

    def driver_finds(self) -> List[str]:
        """What a driver does when nothing turns any more: the three words of the status that waits, none where none does."""
        self.turn(0, MOST)
        if self.say("tpi FF 800").code == 0:
            return []
        return self.say("tsch 0 600").printed.split()[2:]

    def device_has(self) -> str:
        """Five bytes of the device, by the second program of the script."""
        self.say("ssch 0 520")
        self.driver_finds()
        return self.say("show 5100 5").printed


def lose(program: str, number: int) -> Tuple[Driven, List[str], List[str]]:
    """The path is lost after so many events: what is then told, and the status that the driver finds."""
    talk, after = Driven(program), "ssch 0 500"
    for _ in range(number):
        after = talk.due()
        talk.say(after)
    lost = talk.say("pathdown 10").told.partition("lost: ")[2].partition(";")[0] or "nothing"
    return talk, [f"`{after}`", lost, talk.say("stcrw 700").printed.split()[2]], talk.driver_finds()


def is_end(status: List[str]) -> bool:
    """Whether a status is channel end and device end, and no more."""
    return status[2:] == ["0C000000"] and int(status[0], 16) >> 24 & 3 == 0


def names(program: str, status: List[str]) -> str:
    """The names of a status, by `chtrace words`."""
    said = subprocess.run([program, "words"], input=" ".join(["scsw", *status]), stdout=subprocess.PIPE, text=True, check=True).stdout
    first, second, _, third = [line[14:] for line in said.splitlines()[1:]]
    found = first.split("; ")[1:] + [second.partition("| status ")[2].replace(", status pending", "")]
    parts = [part for part in third.split(" | ") if not part.endswith(" none")]
    return "; ".join([*found, *parts, "CCW address " + status[1].lstrip("0")])


def row(program: str, number: int) -> str:
    """A row of the table. Where the status is no end, the driver starts the program again, by the path that is left."""
    talk, told, status = lose(program, number)
    cells = [str(number), *told, names(program, status) if status else "none", talk.say("show 5000 5").printed, talk.device_has(), "no need"]
    if not is_end(status):
        talk = lose(program, number)[0]
        for line in [*OTHERS, "ssch 0 500"]:
            talk.say(line)
        is_done = is_end(talk.driver_finds()) and talk.say("show 5000 5").printed == talk.device_has() == "B1B2B3B4B5"
        cells[-1] = "done" if is_done else "NOT DONE"
    return f"| {' | '.join(cells)} |\n"


def main(words: List[str]) -> int:
    """Prints the table, or compares a page with it: the exit status."""
    if len(words) not in (1, 3) or (words[0] == "--check") != (len(words) == 3):
        print(__doc__, file=sys.stderr)
        return 2
    events = Driven(words[-1]).turn(0, MOST)
    table = HEAD + "".join(row(words[-1], number) for number in range(events + 1))
    if len(words) == 1:
        print(table, end="")
        return 0
    page = Path(words[1]).read_text("utf-8")
    others = [part for part in (f"\n```\n{SCRIPT}```\n", f"\n\n{table}\n") if part not in page]
    for part in others:
        print(f"{words[1]}: this stands there otherwise, or not at all:{part}")
    return 1 if others else 0


if __name__ == "__main__":
    sys.exit(main(sys.argv[1:]))
