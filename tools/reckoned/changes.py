"""The first write cut after each of its bytes, and with each byte replaced by others."""
from reckoned.programs import first_write
from reckoned.rules import bad_line, number
from reckoned.scene import Misreckoned
from scripted.answers import Answer, Script, whole

FIRST_WRITE = first_write()
TEXT = FIRST_WRITE.text()

# How many lines it has, and how many of them, which come first, are of configuration and print nothing.
LINES, SETTINGS = 22, 4

# What each line prints, by its number.
PRINTED = {int(count): told for count, told in (line.encode("ascii").split(b" ", 1) for line in FIRST_WRITE.printed)}

# Bytes that are put in place of others: two that are no blank and end no line, one that no UTF-8 has, the end of a
# line, a blank, and two digits; and those of which no word is made.
BYTES = b"\x00\r\xff\n 0F"
OF_NO_WORD = b"\x00\r\xff"

# The line that puts into storage the bytes that are written; no line that is printed shows them.
WRITTEN = 7

# The line that configures the path, and the one that gives it to a subchannel.
PATH, SUBCHANNEL = 2, 4

# Where `enable` left a subchannel-information block, which is no operation-request block: bit 0 of its third word is
# one.
INFORMATION = 0xF00


def answer_to(line, told):
    """What the line of an action answers where all before it is as in the first write, and it may have another
    operand: an instruction of another subchannel code 3, and what else names one, a path or a unit the refusal of
    what is not there; a block that is not on a word boundary is refused, and so is one that is no operation-request
    block; else what it answers in the first write."""
    first, *words = line.split(b" ")
    named, operand = [*(number(word) or 0 for word in words), 0, 0][:2]
    if first == b"put":
        return b"done"
    if first == b"dev" and named:
        return b"refused 6"
    if first in (b"up", b"down", b"choose") and named:
        return b"refused 4"
    if first in (b"up", b"down") and operand:
        return b"refused 5"
    if named:
        return b"cc 3"
    if first in (b"ssch", b"tsch") and operand % 4:
        return b"refused 10 specification"
    if first == b"ssch" and operand == INFORMATION:
        return b"refused 11"
    return told


def answer(text, until):
    """Each action of a good text has a line printed under its number and nothing else is; up to a line, what is
    printed of each is what it has to answer."""
    lines, known = [], 0
    for count, line in enumerate(text.split(b"\n"), 1):
        if count > SETTINGS and line:
            told = b"%s\n" % answer_to(line, PRINTED[count]) if count <= until else b""
            lines.append(b"%d %s" % (count, told))
            known += count <= until
    return Answer(lines, known)


def script(name, text, words, until):
    """A text, and how these commands answer it as the rules say. Where they name a bad line, that line and its rule
    are all that is printed. Else `check` says that it is good, and the others answer it line by line."""
    bad = bad_line(text)
    if bad:
        return Script(name, text, dict.fromkeys(words, whole("bad line %d rule %d" % bad)))
    return Script(name, text, {word: whole("script ok") if word == "check" else answer(text, until) for word in words})


def cuts():
    """The first bytes of the first write, from none to all. Where the rules name a bad line, which can only be the
    last one, it is told alone. Else what is printed is known to the last byte: of each line before the cut what the
    first write prints, and of the last one what it answers as it stands."""
    for length in range(len(TEXT) + 1):
        text, name = TEXT[:length], f"after {length} bytes"
        last, bad = text.count(b"\n") + 1, bad_line(text)
        if bad and bad[0] != last:
            raise Misreckoned(f"{name}: line {bad[0]} is bad, not {last}")
        yield script(name, text, ("run", "race", "check"), LINES)
    if last != LINES + 1:
        raise Misreckoned(f"the first write has {last - 1} lines, not {LINES}")


def is_bad_near(bad, line, byte):
    """Whether a text with this byte put into this line is bad there, in the line after it where a line was parted in
    two, or at the subchannel whose path is another now; or it is good, which it is with no byte that belongs to no
    word."""
    if bad is None:
        return byte not in OF_NO_WORD
    parts = byte == 0x0A
    return bad[0] == line or (parts and bad[0] == line + 1) or (line == PATH and bad == (SUBCHANNEL + parts, 5))


def replacements():
    """Each byte of the first write is replaced by each of some. Where the rules name a bad line, it is told alone:
    the one with the change, or the one after it where the change parts a line in two, or that of the subchannel
    whose path is another now. With a control character that ends no line, or a byte that is not UTF-8, it is always
    the one with the change. Else the script is a good one: each of its actions is answered, the lines before the
    change as in the first write, the changed one as it stands; and all of them as in the first write where the size
    of storage, the number of the device, or the bytes that are written changed."""
    good = 0
    for index, old in enumerate(TEXT):
        line = TEXT.count(b"\n", 0, index) + 1
        until = LINES if line <= SETTINGS or line == WRITTEN else line
        for byte in sorted(set(BYTES) - {old}):
            text, name = TEXT[:index] + bytes([byte]) + TEXT[index + 1 :], f"byte {index} is {byte:02X}"
            bad = bad_line(text)
            if not is_bad_near(bad, line, byte):
                raise Misreckoned(f"{name}, in line {line}: bad is {bad}")
            good += bad is None
            yield script(name, text, ("run", "check"), until)
    if line != LINES or good <= LINES:
        raise Misreckoned(f"of {line} lines {good} scripts are good")
