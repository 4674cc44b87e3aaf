"""The rules of the lines that a write has, apart from the program: which line of a text is bad, and by which rule.
No line of these texts is a comment, asks for a race, or is of configuration after an action."""
import re

# No rule is broken.
NONE = 9

NUMBER = re.compile(rb"[0-9A-Fa-f]{1,8}")
BYTES = re.compile(rb"(?:[0-9A-Fa-f]{2}){1,256}")


def number(word):
    """A number of one to eight hexadecimal digits, or none."""
    return int(word, 16) if NUMBER.fullmatch(word) else None


def within(least, most, rule=5):
    """Tells which rule a word breaks where a number from one to another has to stand: 3 where it is none, and where
    it is out of these 5, as it is one of a configuration."""

    def broken_by(word):
        found = number(word)
        if found is None:
            return 3
        return NONE if least <= found <= most else rule

    return broken_by


def up_to(most):
    """The same of a number up to this one, which is none of a configuration."""
    return within(0, most, 3)


ANY = up_to(0xFFFFFFFF)


def kind(word):
    """The rule that a word breaks where the kind of a unit has to stand."""
    return NONE if word == b"block" else 3


def some_bytes(word):
    """The same where one to 256 bytes of two digits each have to stand."""
    return NONE if BYTES.fullmatch(word) else 3


# The first words of lines, and what has to follow each. The paths that follow the last word of `sub` are not among
# these.
ROWS = {
    b"storage": (within(0x10, 0x1000),),
    b"path": (within(0, 0xFF),),
    b"unit": (within(0, 0), kind),
    b"sub": (within(0, 0), within(0, 0xFFFF), within(0, 0)),
    b"put": (ANY, some_bytes),
    b"enable": (ANY, up_to(7), up_to(1)),
    b"ssch": (ANY, ANY),
    b"choose": (ANY,),
    b"down": (ANY, ANY),
    b"up": (ANY, ANY),
    b"dev": (ANY,),
    b"tsch": (ANY, ANY),
}


def broken_by_line(path, line):
    """The first rule that a line breaks, where this path is configured."""
    first, *words = line.split(b" ")
    if first not in ROWS:
        return 1
    row = ROWS[first]
    if len(words) < len(row):
        return 2
    rest = words[len(row) :]
    rules = [broken_by(word) for broken_by, word in zip(row, words)]
    if first == b"sub":
        # It has one path at least, and each is the one that is configured.
        return min([*rules, *map(within(path, path), rest)]) if rest else min([*rules, 5])
    return 2 if rest else min(rules)


def bad_line(text):
    """The first bad line of a text, from 1, and the first rule that it breaks, 6 before 1 and the others in their
    order; a line that is not UTF-8 breaks rule 3, whatever its words."""
    path, begun = 0, False
    for count, line in enumerate(text.split(b"\n"), 1):
        if not line:
            continue
        first, _, words = line.partition(b" ")
        if not begun and first != b"storage":
            return count, 6
        rule = 3 if b"\xff" in line else broken_by_line(path, line)
        if rule != NONE:
            return count, rule
        begun = True
        if first == b"path":
            path = number(words)
    return None if begun else (1, 6)
