"""Checks the twenty questions of docs/TEACHING.md: each answer that is quoted there is what chtrace prints.

    python3 examples/labs/check_questions.py [PROGRAM]    PROGRAM is chtrace, which is looked for in PATH where it is not given

An answer stands behind the line that it belongs to, as `NAME` 13: `cc 2 ..`, which is line 13 of examples/NAME.chs, or as
`NAME` to 31, then `csch 0`: `cc 0 ..`, which is a line that is said after line 31. ` ..` at its end stands for the rest.
Exit status: 0 where all are right, there are twenty, and each code of each instruction is asked for; else 1.
"""

from __future__ import annotations

import re
import sys
from dataclasses import dataclass
from pathlib import Path
from typing import Dict, Iterator, List, Tuple

from talking import BadLine, RefusedLine, Talking

TOP = Path(__file__).resolve().parent.parent.parent
PAGE = TOP / "docs/TEACHING.md"
TITLE = "## Twenty questions"
QUESTION = re.compile(r"^\d+\. ", re.M)
SOURCE = re.compile(r"`([\w-]+)` (?:to (\d+), then `([^`]+)`|(\d+)): `([^`]+)`")
QUOTED = re.compile(r"`cc \d[^`]*`")

# The codes that each instruction can answer (SA22-7832, chapter 14; of RESET CHANNEL PATH and STORE CHANNEL REPORT WORD too).
CODES = {
    "ssch": "0123",
    "tsch": "013",
    "stsch": "03",
    "msch": "0123",
    "hsch": "0123",
    "csch": "03",
    "rsch": "0123",
    "xsch": "0123",
    "tpi": "01",
    "rchp": "023",
    "stcrw": "01",
}


@dataclass(frozen=True)
class Source:
    """A line of an example, or one that is said after its first lines, and what is quoted as its answer."""

    example: str
    number: int
    then: str
    quoted: str

    def lines(self) -> List[str]:
        """The lines that are said, of which the last is asked for."""
        said = (TOP / f"examples/{self.example}.chs").read_text("utf-8").splitlines()[: self.number]
        return said + [self.then] if self.then else said

    def is_answered_by(self, answer: str) -> bool:
        if self.quoted.endswith(" .."):
            return answer.startswith(self.quoted[: -len(" ..")])
        return answer == self.quoted


def section() -> str:
    """The part of the page that has the questions."""
    text = PAGE.read_text("utf-8")
    start = text.find(TITLE)
    if start < 0:
        raise SystemExit(f"{PAGE.name}: no section '{TITLE}'")
    return text[start + len(TITLE) :].split("\n## ")[0]


def sources(text: str) -> List[Source]:
    """The sources, in their order."""
    found: List[Source] = []
    for example, last, then, number, quoted in SOURCE.findall(text):
        found.append(Source(example, int(last or number), then, quoted))
    return found


def say(talk: Talking, line: str) -> str:
    """The whole answer to a line, also where it was not performed."""
    try:
        answer = talk.say(line)
    except (RefusedLine, BadLine) as fault:
        return str(fault)
    return f"{answer.printed}  {answer.told}" if answer.told else answer.printed


def last_answer(program: str, lines: Tuple[str, ...]) -> str:
    """What the last of these lines is answered."""
    with Talking(program) as talk:
        return [say(talk, line) for line in lines][-1]


def wrong_answers(program: str, found: List[Source]) -> Iterator[str]:
    """The sources whose answer is another one."""
    known: Dict[Tuple[str, ...], str] = {}
    for source in found:
        lines = tuple(source.lines())
        if lines not in known:
            known[lines] = last_answer(program, lines)
        if not source.is_answered_by(known[lines]):
            yield f"{source.example}, '{lines[-1]}'\n    quoted:  {source.quoted}\n    printed: {known[lines]}"


def wrong_page(text: str, found: List[Source]) -> Iterator[str]:
    """Whether there are twenty questions, no code is quoted without its source, and each code of each instruction is asked for."""
    parts = QUESTION.split(text)[1:]
    if len(parts) != 20:
        yield f"{len(parts)} questions in place of twenty"
    for number, part in enumerate(parts, 1):
        if not SOURCE.search(part) or len(QUOTED.findall(part)) != len(SOURCE.findall(part)):
            yield f"question {number} quotes a code and says not which line answers it, or quotes none"
    asked = {(source.lines()[-1].split()[0], source.quoted[3:4]) for source in found}
    for name, codes in CODES.items():
        for code in codes:
            if (name, code) not in asked:
                yield f"no question asks for code {code} of {name}"


def main() -> int:
    if len(sys.argv) > 2:
        print(__doc__, file=sys.stderr)
        return 2
    program = sys.argv[1] if len(sys.argv) == 2 else "chtrace"
    text = section()
    found = sources(text)
    wrong = [*wrong_page(text, found), *wrong_answers(program, found)]
    for it in wrong:
        print(it)
    print(f"{len(QUESTION.findall(text))} questions, {len(found)} answers, {len(wrong)} wrong")
    return 1 if wrong or not found else 0


if __name__ == "__main__":
    sys.exit(main())
