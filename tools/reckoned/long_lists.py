"""A run beside the recorded ones, whose lines have what the device answers, so that more bytes are read than a device of
a script has: by lists of which four words are used. `python3 -m reckoned.long_lists` writes it, in tools."""
from pathlib import Path
from typing import List, NamedTuple, Optional

from reckoned.lists import LIST, LONG, LONG_BY_2K, PROGRAM, SHORT, Piece, Storage, WordList
from reckoned.programs import OFFERED, RELEASED, WITHOUT, Step, down, tested, up

RUN = Path(__file__).resolve().parent.parent.parent / "tests/recorded/long-lists.run"
# A chunk ends with its piece, and has at most so many bytes.
CHUNK = 256
# Lists of which four words are used, each with how many bytes are read by it.
LONG_READS = (
    (WordList(SHORT, 0x2FFE), 2 + 2 * 2_048 + 7),
    (WordList(LONG, 0x2FFE), 2 + 2 * 4_096 + 5),
    (WordList(LONG_BY_2K, 0x1234), 0x5CC + 2 * 2_048 + 3),
)


def chunks_of(piece: Piece) -> List[Piece]:
    """A piece, chunk by chunk."""
    starts = range(0, piece.length, CHUNK)
    return [Piece(piece.done + at, piece.address + at, min(CHUNK, piece.length - at)) for at in starts]


def supplies(data: bytes) -> List[Step]:
    """The device supplies bytes, which are stored."""
    return [(f"dev 0 supplied {data.hex().upper()}", "done"), up("took data"), down("took took")]


def supplies_too_many(room: int) -> List[Step]:
    """It supplies one byte more than there is room for, where a line can say so: its report is refused."""
    return [(f"dev 0 supplied {'EE' * (room + 1)}", "refused 7")] if room < CHUNK else []


class Run:
    """A run of reads, line by line, each with what is answered."""

    def __init__(self) -> None:
        self.storage = Storage()
        self.lines = ["storage 10", "path 10", "unit 0 outside", "sub 0 0100 0 10"]
        self.goes([("enable 0 0 0", "cc 0")])

    def goes(self, steps: List[Step]) -> None:
        """These steps more."""
        self.lines += [f"{line} = {told}".format(0) for line, told in steps]

    def begins(self, command: str) -> None:
        """A read is begun, whose device does not answer at once."""
        self.goes([self.storage.put(PROGRAM, bytes.fromhex(command)), *OFFERED])
        self.goes([down("took command"), ("dev 0 begins", "done")])

    def ends(self) -> None:
        """Its device ends, and no byte of its count is left."""
        self.goes([("dev 0 ended 0C", "done"), up("took end"), tested(f"{WITHOUT}4007 00001008 0C000000"), *RELEASED])

    def takes(self, chunk: Piece, data: bytes) -> None:
        """A chunk is supplied: one byte more is refused, and it is stored where it belongs."""
        supplied = data[chunk.done : chunk.done + chunk.length]
        self.goes([*supplies_too_many(chunk.length), *supplies(supplied)])
        self.storage.keeps(chunk.address, supplied)
        self.goes(self.storage.ends(chunk))

    def reads(self, words: WordList, count: int) -> None:
        """So many bytes are read by a list. A word is put out of the list as the first bytes that it names are
        stored."""
        pieces, data = words.pieces(count), bytes(place % 251 for place in range(count))
        self.goes([self.storage.put(0x500, words.block()), self.storage.put(LIST, words.image(len(pieces)))])
        self.goes([step for piece in pieces for step in self.storage.marked_ends(piece)])
        self.begins(f"0224{count:04X}{LIST:08X}")
        for index, piece in enumerate(pieces):
            first, *others = chunks_of(piece)
            self.takes(first, data)
            self.goes([self.storage.put(LIST + words.format.width * index, b"\xFF" * words.format.width)])
            for chunk in others:
                self.takes(chunk, data)
        self.ends()

    def skips(self) -> None:
        """Bytes are skipped, in two chunks, for which no word of a list is fetched: it is off its boundary."""
        self.begins(f"02340104{LIST + 1:08X}")
        self.goes([*supplies(b"\xEE" * CHUNK), *supplies_too_many(4), *supplies(b"\xEE" * 4)])
        self.ends()

    def text(self) -> str:
        return "".join(f"{line}\n" for line in self.lines)


def whole() -> str:
    """Reads by lists of which four words are used, and a read that skips."""
    run = Run()
    for words, count in LONG_READS:
        run.reads(words, count)
    run.skips()
    return run.text()


class Stored(NamedTuple):
    """A text that is stored in a file."""

    file: Path
    text: str

    def wrong(self, _chsim: str) -> Optional[str]:
        """Whether the file has another text; none where all is right."""
        is_reckoned = self.file.read_text("ascii") == self.text
        return None if is_reckoned else f"{self.file.name} is not the run that is reckoned"


def stored():
    """The run is stored as it is reckoned here; host/tests performs it, with the recorded ones."""
    yield Stored(RUN, whole())


if __name__ == "__main__":
    RUN.write_text(whole(), "ascii")
