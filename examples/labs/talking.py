"""A talk with the simulator over two pipes: a line of a script is said, it is performed, and its answer comes back at once.

    from talking import Talking

    with Talking("chtrace") as talk:
        for line in open("disk-and-console.chs"):
            talk.say(line)
        print(talk.say("ssch 0 500").code)
        print(talk.turn(0, 5), "events happened")
        print(*talk.ask("due"), sep="\\n")
        talk.back()

The lines are those of docs/SCRIPTS.md; docs/TEACHING.md has what else can be said. Nothing moves by itself: without `turn`, or lines that
say each event, a program that was started waits for ever.
"""

from __future__ import annotations

import subprocess
from dataclasses import dataclass
from types import TracebackType
from typing import List, Optional, Type


class TalkError(Exception):
    """A line was not performed; its text is what was answered."""


class RefusedLine(TalkError):
    """The machine refused an action, which changed nothing: `refused 7  a signal waits for unit 0: ..`."""

    @property
    def number(self) -> int:
        """The number of the refusal, as docs/SHEETS.md lists them."""
        return int(str(self).split()[1])


class BadLine(TalkError):
    """The line is none of the language, and was skipped."""


class TalkEnded(TalkError):
    """No answer comes: the program has ended, or never began."""


@dataclass(frozen=True)
class Answer:
    """An answer: what `chsim run` prints for the line, and what is told behind it, which may be nothing."""

    printed: str
    told: str

    @property
    def code(self) -> int:
        """The condition code of an instruction."""
        words = self.printed.split()
        if len(words) < 2 or words[0] != "cc":
            raise ValueError(f"no condition code: {self.printed}")
        return int(words[1])


class Talking:
    """A program `chtrace talk` that was begun, and ends as this is closed."""

    def __init__(self, program: str = "chtrace") -> None:
        try:
            self._process = subprocess.Popen(
                [program, "talk"], stdin=subprocess.PIPE, stdout=subprocess.PIPE, encoding="utf-8", bufsize=1
            )
        except OSError as fault:
            raise TalkEnded(f"{program} cannot be run: build it (docs/TRACING.md), and give its path") from fault

    def __enter__(self) -> Talking:
        return self

    def __exit__(
        self, kind: Optional[Type[BaseException]], fault: Optional[BaseException], trace: Optional[TracebackType]
    ) -> None:
        self.close()

    def close(self) -> int:
        """Ends the talk. The program's exit status: 0, 1 where a line was refused, 2 where one was bad."""
        if self._process.stdin is not None:
            self._process.stdin.close()
        status = self._process.wait()
        if self._process.stdout is not None:
            self._process.stdout.close()
        return status

    def say(self, line: str) -> Answer:
        """Says a line of a script, which is performed. Raises RefusedLine and BadLine."""
        text = line.rstrip("\n")
        if text.startswith("?"):
            raise ValueError("a question is asked by ask: its answer has many lines")
        self._put(text)
        return answer_of(self._get())

    def ask(self, question: str = "") -> List[str]:
        """Asks `due`, `scsw S`, `unit U` or `wires S`, or for all of them by nothing: the lines of the answer. Raises BadLine."""
        self._put(f"? {question}".rstrip())
        lines: List[str] = []
        while line := self._get():
            lines.append(line)
        if lines and lines[0].startswith("bad line"):
            raise BadLine(lines[0])
        return lines

    def turn(self, subchannel: int, most: int) -> int:
        """Lets what is due for a subchannel and its unit happen, event by event, so many at most: how many there were."""
        printed = self.say(f"turn {subchannel:X} {most:X}").printed
        word, _, count = printed.partition(" ")
        if word not in ("moved", "quiet"):
            raise TalkError(printed)
        return int(count, 16)

    def back(self) -> str:
        """Takes the last line back, with all that it did: that line. Behind a turn it is the last of its events."""
        printed = self.say("back").printed
        if not printed.endswith(" is undone"):
            raise TalkError(printed)
        return printed[: -len(" is undone")]

    def _put(self, line: str) -> None:
        if "\n" in line or self._process.stdin is None:
            raise ValueError("one line at a time")
        try:
            self._process.stdin.write(line + "\n")
            self._process.stdin.flush()
        except BrokenPipeError as fault:
            raise TalkEnded("the program has ended") from fault

    def _get(self) -> str:
        line = self._process.stdout.readline() if self._process.stdout is not None else ""
        if not line:
            raise TalkEnded("the program has ended")
        return line.rstrip("\n")


def answer_of(line: str) -> Answer:
    """What a line of answer says, where it is none of a line that was not performed."""
    if line.startswith("refused "):
        raise RefusedLine(line)
    if line.startswith("bad line"):
        raise BadLine(line)
    printed, _, told = line.partition("  ")
    return Answer(printed, told)
