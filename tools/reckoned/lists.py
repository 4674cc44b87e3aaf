"""Bytes that are moved by lists of indirect words, and the place of each of them."""
from typing import List, NamedTuple

from reckoned.devices import Device, given, taken
from reckoned.programs import Step

# Storage of 64K; where the list, the program and the bytes that no list leads to stand in it.
STORAGE = 0x1_0000
LIST, PROGRAM, PLAIN = 0x100, 0x1000, 0x2000


class Format(NamedTuple):
    """The words of a list: the flags of an operation-request block that asks for them, how many bytes each has, and of
    how many bytes a block is."""

    name: str
    flags: str
    width: int
    block: int


SHORT = Format("format 1", "80", 4, 2_048)
LONG = Format("format 2", "82", 8, 4_096)
LONG_BY_2K = Format("format 2 by 2K", "83", 8, 2_048)

# The first words of lists: they begin a block of 4K or of 2K, end it, or stand in its midst, also in the last one.
FIRSTS = (0, 1, 0x7FF, 0x800, 0xFFF, 0x1234, 0x2FFE, 0xF7FF)


class Piece(NamedTuple):
    """Bytes side by side: which of the command's bytes is the first of them, where it is, and how many they are."""

    done: int
    address: int
    length: int


class WordList(NamedTuple):
    """A list of this format, whose first word is given."""

    format: Format
    first: int

    def word(self, index: int) -> int:
        """The first word names any byte, and each later one a block; these are scattered."""
        if index == 0:
            return self.first
        if self.format.block == 2_048:
            return 2_048 * ((7 * index + 3) % 32)
        return 4_096 * ((5 * index + 3) % 16)

    def pieces(self, count: int) -> List[Piece]:
        """So many bytes, word by word: those of a word go on to the end of its block."""
        pieces, done = [], 0
        while done < count:
            address = self.word(len(pieces))
            length = min(self.format.block - address % self.format.block, count - done)
            pieces.append(Piece(done, address, length))
            done += length
        return pieces

    def image(self, words: int) -> bytes:
        """So many words as they stand in storage, and one more that is wrong, so that none past them is fetched."""
        right = b"".join(self.word(index).to_bytes(self.format.width, "big") for index in range(words))
        return right + b"\xFF" * self.format.width

    def block(self) -> bytes:
        """The operation-request block of a program that moves bytes by such a list."""
        return bytes.fromhex(f"0000000000{self.format.flags}FF00{PROGRAM:08X}")


class Storage:
    """Bytes of storage as a script puts them, and as its programs store them."""

    def __init__(self) -> None:
        self.bytes = bytearray(STORAGE)

    def keeps(self, address: int, data: bytes) -> None:
        """These bytes are there from now on."""
        self.bytes[address : address + len(data)] = data

    def put(self, address: int, data: bytes) -> Step:
        """A line that puts bytes there."""
        self.keeps(address, data)
        return f"put {address:X} {data.hex().upper()}", "done"

    def marked(self, piece: Piece) -> Step:
        """A line that marks the bytes of a short piece, with two before it and two behind it."""
        first = max(piece.address - 2, 0)
        return self.put(first, b"\xFF" * (piece.address + piece.length + 2 - first))

    def marked_ends(self, piece: Piece) -> List[Step]:
        """Lines that mark two bytes before the beginning and the end of a piece, and two behind."""
        places = piece.address, piece.address + piece.length
        return [self.put(max(place - 2, 0), b"\xFF" * 4) for place in places]

    def beside(self, address: int) -> Step:
        """A line that shows two bytes before a place and the two that begin there."""
        first = max(address - 2, 0)
        shown = self.bytes[first : address + 2]
        return f"show {first:X} {len(shown):X}", shown.hex().upper()

    def ends(self, piece: Piece) -> List[Step]:
        """Lines that show where a piece begins and where it ends."""
        return [self.beside(piece.address), self.beside(piece.address + piece.length)]

    def stores(self, pieces: List[Piece], data: bytes) -> None:
        """A read stores these bytes."""
        for piece in pieces:
            self.keeps(piece.address, data[piece.done : piece.done + piece.length])


# A console gives and takes a line of 126 bytes.
LINE = bytes(range(1, 127))
# How many bytes are asked for: some, about as many as there are, and more.
COUNTS = (1, 2, 125, 126, 127, 255, 256, 257, 2_047, 2_048, 2_049, 4_096, 5_000, 12_345, 65_535)


def counts_of(words: WordList) -> List[int]:
    """These, and about as many as the first word reaches, where the line has more."""
    reached = words.pieces(STORAGE)[0].length
    around = (reached - 1, reached, reached + 1) if reached < len(LINE) else ()
    return sorted({*COUNTS, *filter(None, around)})


class Console:
    """A console, whose programs move bytes by a list and without one."""

    def __init__(self, words: WordList) -> None:
        self.words, self.storage, self.device = words, Storage(), Device("console")
        self.device.scene.goes([self.storage.put(0x500, words.block())])

    def performs(self, code: str, flags: str, count: int, address: int, steps: List[Step], left: int) -> None:
        """A command is performed in these steps, and so many bytes of its count are left."""
        command = f"{code}{flags}{count:04X}{address:08X}"
        self.storage.keeps(PROGRAM, bytes.fromhex(command))
        self.device.performs(command, steps, f"4007 00001008 0C00{left:04X}")

    def lists(self, pieces: List[Piece]) -> None:
        """The list stands in storage, with no more words than there are pieces, and these are marked."""
        image = self.words.image(len(pieces))
        self.device.scene.goes([self.storage.put(LIST, image), *map(self.storage.marked, pieces)])

    def reads(self, count: int) -> None:
        """So many bytes are read by the list, of which there are no more than the line has."""
        moved = min(count, len(LINE))
        pieces = self.words.pieces(moved)
        self.lists(pieces)
        self.performs("0A", "24", count, LIST, given(len(pieces)), count - moved)
        self.storage.stores(pieces, LINE)
        self.device.scene.goes([step for piece in pieces for step in self.storage.ends(piece)])

    def writes_plainly(self, data: bytes) -> None:
        """These bytes are written, without a list."""
        self.device.scene.goes([self.storage.put(PLAIN, data)])
        self.performs("01", "20", len(data), PLAIN, taken(1), 0)

    def writes(self) -> None:
        """The line is written by the list, from the last byte to the first, and is read without one."""
        pieces, data = self.words.pieces(len(LINE)), LINE[::-1]
        self.lists(pieces)
        self.device.scene.goes([self.storage.put(it.address, data[it.done : it.done + it.length]) for it in pieces])
        self.performs("01", "24", len(data), LIST, taken(len(pieces)), 0)
        self.performs("0A", "20", len(data), PLAIN, given(1), 0)
        self.device.shows(f"{PLAIN:X}", data[:64].hex().upper())
        self.device.shows(f"{PLAIN + 64:X}", data[64:].hex().upper())


def moved():
    """Each of 24 lists, by which bytes are read, as many as each count says, and a line is written. As a line has 126
    bytes, no more than two words of a list are used."""
    for form in (SHORT, LONG, LONG_BY_2K):
        for first in FIRSTS:
            console = Console(WordList(form, first))
            console.writes_plainly(LINE)
            for count in counts_of(console.words):
                console.reads(count)
            console.writes()
            yield console.device.script(f"a list of {form.name}, whose first word is {first:X}")
