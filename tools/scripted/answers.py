"""Scripts, each with what a program must print of it and end with."""
import io
import subprocess
from itertools import zip_longest
from pathlib import Path
from typing import Dict, List, NamedTuple, Optional

# A script is given up after so many seconds.
SECONDS = 60


class Answer(NamedTuple):
    """What is printed: its lines, of which the first so many are known whole. Of each other one the beginning is
    known, and more follows it. And the exit status, where it is not the one that goes with the lines."""

    lines: List[bytes]
    known: int
    status: Optional[int] = None

    def is_line(self, place, printed):
        """Whether this is printed at a place, from 0."""
        wanted = self.lines[place] if place < len(self.lines) else None
        if wanted is None or printed is None or place < self.known:
            return printed == wanted
        return printed.startswith(wanted) and len(printed) > len(wanted) + 1 and printed.endswith(b"\n")

    def wrong(self, printed, status):
        """The first line that is printed otherwise, or else another exit status; none where all is right."""
        found = io.BytesIO(printed).readlines()
        for place, (wanted, line) in enumerate(zip_longest(self.lines, found)):
            if not self.is_line(place, line):
                more = "" if place < self.known or wanted is None else " and more"
                return f"line {place + 1} printed: wanted {shown(wanted)}{more}, found {shown(line)}"
        due = status_of(found) if self.status is None else self.status
        return None if status == due else f"exit status: wanted {due}, found {status}"


def shown(line):
    return "none" if line is None else repr(line.decode("utf-8", "surrogateescape"))


def status_of(lines):
    """The exit status that goes with what chsim prints: 2 where a line is bad, otherwise 1 where an action was
    refused, otherwise 0."""
    if lines and lines[0].startswith(b"bad line "):
        return 2
    return 1 if any(line.partition(b" ")[2].startswith(b"refused ") for line in lines) else 0


def as_printed(text):
    """The answer of this text, which is known whole."""
    lines = io.BytesIO(text).readlines()
    return Answer(lines, len(lines))


def whole(*lines):
    """The answer of these lines, which are known whole."""
    return as_printed("".join(f"{line}\n" for line in lines).encode("utf-8"))


def answered(program, word, text):
    """What a program prints of a script by a command, and its exit status."""
    done = subprocess.run([program, word], input=text, stdout=subprocess.PIPE, timeout=SECONDS)
    return done.stdout, done.returncode


class Script(NamedTuple):
    """A script, and what each of some commands answers it."""

    name: str
    text: bytes
    answers: Dict[str, Answer]

    def wrong(self, program):
        """What a program answers otherwise; none where all is right."""
        for word, answer in self.answers.items():
            try:
                wrong = answer.wrong(*answered(program, word, self.text))
            except subprocess.TimeoutExpired:
                wrong = f"no end within {SECONDS} s"
            if wrong:
                return f"{self.name}: {Path(program).name} {word}: {wrong}"
        return None
