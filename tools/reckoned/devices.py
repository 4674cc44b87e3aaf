"""What devices do with commands: the bytes that they take and give, the statuses with which commands begin and end, and
what a device keeps."""
from reckoned.programs import (
    CLEARED, COMMANDED, GIVEN, OFFERED, RELEASED, RESETS, TURN, WITHOUT, down, settings, tested, up,
)
from reckoned.scene import Scene

# A command ends.
ENDS = [up("took end")]
# The device supplies bytes, which are stored.
STORED = [TURN, up("took data"), down("took took")]
# A unit is restarted, and tells so.
RESTARTED = [("restart 0", "done"), ("notice 0 0", "done"), up("took notice")]


def taken(chunks):
    """A device is given so many chunks of bytes, of which the last may be too long for it, and the command ends."""
    return [*GIVEN * (chunks + 1), *ENDS]


def given(chunks):
    """It gives so many, of which the last may be shorter than was asked for, and the command ends."""
    return [*STORED * chunks, TURN, *ENDS]


class Device:
    """A device of a kind, and a script of the programs that it serves, each of one command."""

    def __init__(self, kind):
        self.scene = Scene(settings(1, kind))
        self.scene.goes([("put 500 000000000080FF0000001000", "done"), ("enable 0 0 0", "cc 0")])

    def puts(self, address, data):
        """These bytes are put into storage."""
        self.scene.goes([(f"put {address} {data}", "done")])

    def shows(self, address, data):
        """Storage has these bytes."""
        self.scene.goes([(f"show {address} {len(data) // 2:X}", data)])

    def begins(self, words):
        """A command of these words is begun."""
        self.scene.goes([(f"put 1000 {words}", "done"), *OFFERED, *COMMANDED])

    def performs(self, words, steps, status):
        """A command of these words is performed in these steps, and ends with this status."""
        self.begins(words)
        self.scene.goes([*steps, tested(f"{WITHOUT}{status}"), *RELEASED])

    def ends_at_once(self, code):
        """A command of this code, without bytes, shows channel end alone, and device end alone as its device ends."""
        self.begins(f"{code}00000000000000")
        self.scene.goes([*ENDS, tested("cc 0 00804045 00001008 08000000"), TURN])
        self.scene.goes([*ENDS, tested("cc 0 00800003 00001008 04000000"), *RELEASED])

    def rejects(self, code):
        """A command of this code is rejected: unit check alone, and no byte of its count is used."""
        self.performs(f"{code}00000100003000", ENDS, "4017 00001008 02000001")

    def senses(self, data):
        """The sense byte is this one."""
        self.performs("0400000100003000", given(1), "4007 00001008 0C000000")
        self.shows("3000", data)

    def fills(self, first, second, left):
        """So many sevens are written, and so many nines, of which the device takes no more than it has room for: so
        many are left."""
        self.puts("2000", "07" * first)
        self.puts("2100", "09" * second)
        words = f"0180{first:04X}000020000000{second:04X}00002100"
        self.performs(words, taken(2), f"4007 00001010 0C40{left:04X}")

    def writes_one(self):
        """One byte is written, a five, and the program is cleared before its command ends."""
        self.puts("2200", "05")
        self.begins("0100000100002200")
        self.scene.goes([*GIVEN, ("csch 0", "cc 0"), ("choose 0", "reset {}"), down("took reset"), up("ignored data")])
        self.scene.goes([up("took cleared"), CLEARED])

    def script(self, name):
        return self.scene.script(name)


def block():
    """A write is taken up to the end of a block, and what it does not reach stays; a read gives it in part, where there
    is more, or to its end, and no byte past that."""
    store = Device("block")
    store.fills(60, 60, 56)
    store.performs("0180003C000020000000000400002100", taken(2), "4007 00001010 0C000000")
    store.writes_one()
    store.puts("3000", "FF" * 64)
    store.performs("0200000200003000", given(1), "4007 00001008 0C400000")
    store.shows("3000", "0507FFFF")
    store.puts("3100", "FF" * 64)
    store.performs("0280003C000030000000003C00003100", given(2), "4007 00001010 0C400038")
    store.shows("3000", "05" + "07" * 59 + "FF" * 4)
    store.shows("3100", "09" * 4 + "FF" * 60)
    store.puts("3100", "FF" * 64)
    store.performs("0280003C000030000000000400003100", given(2), "4007 00001010 0C000000")
    store.shows("3100", "09" * 4 + "FF" * 60)
    return store.script("a block is written and read")


def emptied_block():
    """A restart in the midst of a write leaves zeros."""
    store = Device("block")
    store.fills(60, 60, 56)
    store.puts("2200", "05")
    store.begins("0100000100002200")
    # The byte was absorbed, which is told before the restart is; its answer finds the unit restarted.
    store.scene.goes([*GIVEN, up("took data"), ("restart 0", "done"), down("took give"), up("took notice")])
    store.scene.goes([tested("cc 0 00804017 00001008 00020000"), *RESETS])
    store.puts("3000", "FF" * 64)
    store.performs("0200004000003000", given(1), "4007 00001008 0C000000")
    store.shows("3000", "00" * 64)
    return store.script("a restart empties a block")


def sensed_block():
    """A command that a store does not have is rejected. Its sense byte says so, once: a sense command that has no room
    for it leaves it as it is, and one that has room for more than one byte is given one alone."""
    store = Device("block")
    store.rejects("0C")
    store.performs("0400000000003000", given(0), "4007 00001008 0C000000")
    store.puts("3000", "FFFF")
    store.performs("04800001000030000000000100003001", given(2), "4007 00001010 0C400001")
    store.shows("3000", "80FF")
    store.senses("00")
    store.rejects("0A")
    store.puts("3000", "FFFF")
    store.performs("0400000800003000", given(1), "4007 00001008 0C400007")
    store.shows("3000", "80FF")
    store.senses("00")
    return store.script("a store of blocks is sensed")


def sought_block():
    """A search finds the current block alone, by two bytes. A seek makes a block the current one, by the first two of
    its bytes, and a recalibrate makes the first one; a seek to a block that is not there and one with a single byte
    leave the current one, and the sense byte says so."""
    store = Device("block")
    store.puts("2000", "0000")
    store.puts("2010", "001F09")
    store.puts("2020", "0020")
    search, search_last = "3100000200002000", "3100000200002010"
    found, not_found = "4007 00001008 4C000000", "4007 00001008 0C000000"
    store.performs(search, taken(1), found)
    store.performs("0700000300002010", taken(1), "4007 00001008 0C400001")
    store.performs(search, taken(1), not_found)
    store.performs(search_last, taken(1), found)
    store.performs("3100000100002011", taken(1), not_found)
    store.performs("0700000200002020", taken(1), "4017 00001008 0E000000")
    store.performs("0700000100002000", taken(1), "4017 00001008 0E000000")
    store.senses("20")
    store.ends_at_once("03")
    store.performs(search_last, taken(1), found)
    store.ends_at_once("0B")
    store.performs(search, taken(1), found)
    return store.script("a block is sought")


def small_block():
    """A write of three bytes takes all of them, and a command that moves none ends at once."""
    store = Device("block")
    store.puts("2000", "010203")
    store.performs("0100000300002000", taken(1), "4007 00001008 0C000000")
    store.ends_at_once("03")
    store.performs("0200000300003000", given(1), "4007 00001008 0C400000")
    store.shows("3000", "01020300")
    return store.script("three bytes are written")


def stores():
    """A store of blocks."""
    yield from (block(), emptied_block(), sensed_block(), sought_block(), small_block())


def line():
    """A write is taken up to the end of a line, and no byte past that; a read gives it in part, where there is more, or
    to its end."""
    console = Device("console")
    console.fills(100, 100, 74)
    console.performs("01800064000020000000001A00002100", taken(2), "4007 00001010 0C000000")
    console.puts("2200", "09")
    console.performs("01800064000020000080001A000021000000000100002200", taken(3), "4007 00001018 0C400001")
    console.performs("0A00007800003000", given(1), "4007 00001008 0C400000")
    console.puts("3000", "FF" * 128)
    console.puts("3100", "FF" * 64)
    console.performs("0A800079000030000000010000003100", given(2), "4007 00001010 0C4000FB")
    console.shows("3000", "07" * 64)
    console.shows("3040", "07" * 36 + "09" * 21 + "FF" * 7)
    console.shows("3100", "09" * 5 + "FF" * 59)
    console.puts("3100", "FF" * 64)
    console.performs("0A800079000030000000000500003100", given(2), "4007 00001010 0C000000")
    console.shows("3100", "09" * 5 + "FF" * 59)
    return console.script("a line is written and read")


def last_line():
    """A write begins an empty line: the one byte is read that was written before its program was cleared, and after a
    restart in the midst of that read none is."""
    console = Device("console")
    console.fills(100, 100, 74)
    console.writes_one()
    console.puts("3000", "FFFF")
    console.performs("0A00007E00003000", given(1), "4007 00001008 0C40007D")
    console.shows("3000", "05FF")
    console.begins("0A00007E00003000")
    console.scene.goes([*STORED, *RESTARTED, tested("cc 0 00804017 00001008 0002007D"), *RESETS])
    console.puts("3000", "FFFF")
    console.performs("0A00007E00003000", given(1), "4007 00001008 0C40007E")
    console.shows("3000", "FFFF")
    return console.script("the last line alone is read")


def rejecting_console():
    """A console ends a command without bytes at once, and rejects those that it does not have; its sense byte says so,
    once."""
    console = Device("console")
    console.ends_at_once("03")
    for code in ("02", "07"):
        console.rejects(code)
        console.senses("80")
        console.senses("00")
    return console.script("a console is sensed")


def consoles():
    """A console."""
    yield from (line(), last_line(), rejecting_console())


def rejecting():
    """A device that rejects each command, also after a restart."""
    device = Device("reject")
    for code in ("01", "02", "03", "04", "0C"):
        device.rejects(code)
    device.scene.goes([*RESTARTED, *RESETS])
    device.rejects("01")
    yield device.script("each command is rejected")
