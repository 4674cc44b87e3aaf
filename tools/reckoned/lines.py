"""Lines of scripts, each by what it asks for, and lines that break a rule."""
from reckoned.scene import Scene
from scripted.answers import Script, whole

# Commands under which no script races, and the one under which it may.
NO_RACES = ("run", "check")
RACES = ("race",)

# A race in the last line that has words.
RACED = b"storage 10\ndev 0\n\nrace 16 0000100 tsch 20003\n\n# the end\n"

# Texts that are no scripts, and what is printed of each.
BAD = {
    b"": "bad line 1 rule 6",
    b"\n\n# nothing\n": "bad line 1 rule 6",
    b"\n#\xff\n": "bad line 1 rule 6",
    b"# first \xff\npath 10\n": "bad line 1 rule 3",
    b"storage 10\nssch 0\n": "bad line 2 rule 2",
    b"storage 10\ndev 0\r\n": "bad line 2 rule 3",
    b"storage 10\nput 500 C1\nssch 0\n": "bad line 3 rule 2",
    b"storage 10\nput 500 C1\nput 500 x": "bad line 3 rule 3",
    b"storage 10\npathdown 100\npathdown 10\r\n": "bad line 3 rule 3",
    b"storage 10\n" + b"#\n" * 7 + b"storage\n": "bad line 9 rule 2",
    b"storage 10\n" + b"#" * 1025 + b"\ndev 0\n": "bad line 2 rule 3",
    b"storage 10\n" + b"".join(b"unit %X block\n" % unit for unit in range(0x401)): "bad line 1026 rule 5",
}

# The same of those that are no scripts because of a race: where it may be in a text, and where not.
BAD_RACES = {
    (RACES, b"storage 10\nrace 17 100 tsch 0\n"): "bad line 2 rule 3",
    (RACES, b"storage 10\nrace 4 100 tsch 0\ndev 0\n"): "bad line 2 rule 7",
    (RACES, b"storage 10\nrace 4 100 tsch 0\nrace 4 100 tsch 0\n"): "bad line 2 rule 7",
    (NO_RACES, RACED): "bad line 4 rule 7",
}


def bad():
    """A bad line is told alone, whatever stands before it."""
    texts = {((*NO_RACES, *RACES), text): told for text, told in BAD.items()}
    for (words, text), told in {**texts, **BAD_RACES}.items():
        yield Script(repr(text[:60]), text, {word: whole(told) for word in words})


def read(name, scene):
    """A good script, whose last line has no line end."""
    printed = whole(*scene.printed)
    answers = {"check": whole("script ok"), "run": printed, "race": printed}
    return Script(name, scene.text().rstrip(b"\n"), answers)


def driving():
    """Lines that drive a machine ask for what their words say: bytes at an address; an instruction of the CPU that is
    named, whose storage is prefixed, of the subchannel that is named, with its operand; an act of a unit, by a path of
    the side that is named; and the return of a channel path."""
    names = [f"1{path}" for path in range(8)]
    scene = Scene(["storage 10", *[f"path {name}" for name in names], "path FF", "unit 0 block", "sub 0 0100 0 10"])
    scene.sets([f"sub 1 0101 0 {' '.join(names)}"])
    scene.goes([("put 500 c1C2", "done"), ("show 4FF 4", "00C1C200")])
    # CPU 0 finds an operation-request block that is refused, and CPU 1 another one, at the same address; 00001 is no
    # subchannel, and 0001 one that is not enabled.
    scene.goes([("prefix 1 2000", "done"), ("enable 0 0 0", "cc 0")])
    scene.goes([("put 500 000000000084FF0000001000", "done"), ("put 2500 000000000080FF0000001000", "done")])
    scene.goes([("cpu 1 ssch 00001 500", "refused 11"), ("cpu 1 ssch 0001 500", "cc 3")])
    scene.goes([("cpu 1 ssch 00010000 502", "refused 10 specification"), ("cpu 0 ssch 00010000 500", "refused 11")])
    scene.goes([("cpu 1 ssch 00010000 500", "cc 0"), ("stsch 0 700", "cc 0 00804400 00001000 00000000")])
    # No channel path is engaged, so CPU 2 stores 32 zeros at its address 0.
    marked = "FF" * 32
    scene.goes([("prefix 2 4000", "done"), (f"put 0 {marked}", "done"), (f"put 4000 {marked}", "done")])
    scene.goes([("cpu 2 stcps 0", "paths -"), ("show 0 20", marked), ("show 4000 20", "00" * 32)])
    # The first side of the unit has one path, and the second one has eight. There is no unit 400.
    scene.goes([("enable 1 0 0", "cc 0"), ("attn 400 7 1", "refused 6"), ("attn 0 7", "refused 5")])
    scene.goes([("attn 0 7 1", "done"), ("up 0 0", "refused 3"), ("up 1 6", "refused 3"), ("up 1 7", "took attn")])
    scene.goes([("tsch 1 600", "cc 0 00000011 00000000 80000000")])
    scene.goes([("pathdown 0fF", "done"), ("pathup 00000fF", "done"), ("pathup 00000fF", "refused 7")])
    scene.goes([("stcrw 700", "cc 0 040600FF"), ("stcrw 700", "cc 0 040100FF")])
    return read("lines that drive a machine", scene)


def last_numbers():
    """The last unit that may be has the number 3FF. A subchannel of up to four digits is one of set 0."""
    scene = Scene(["storage 10", "path 10", *[f"unit {unit:X} block" for unit in range(0x400)]])
    scene.sets([f"sub {number} 010{number} {number} 10" for number in range(4)])
    scene.goes([("dev 3FF", "refused 7"), ("dev 400", "refused 6")])
    scene.goes([("attn 3FF 7 1", "refused 7"), ("attn 400 7 1", "refused 6")])
    scene.goes([("glance 3", "made 0 cleared 0"), ("glance 00010003", "made 0 cleared 0")])
    scene.goes([("glance 4", "refused 4"), ("glance 00003", "refused 4")])
    return read("the last numbers", scene)


# Storage of 16 blocks, two channel paths and two sets of subchannels.
STORAGE = [("show FFFF 1", "00"), ("show 10000 1", "refused 10 addressing")]
PATHS = [
    *[("pathup 10", "refused 7"), ("pathup FF", "refused 7")],
    *[("pathup 11", "refused 5"), ("pathup 1", "refused 5"), ("pathup 100", "refused 5")],
]
SETS = [("csch 0001FFFF", "cc 3"), ("csch 30001", "cc 3"), ("csch 00050000", "refused 11")]

# A subchannel whose block is stored: the device number, the installed and the available paths, and their identifiers.
STORED = "cc 0 00000000 00000000 00000000"
FIRST = [("stsch 0 700", STORED), ("show 700 1C", "0000000000010100FF0000C00000FFC010FF00000000000000000000")]
FIRST_OF_SET = [
    ("stsch 30000 740", STORED),
    ("show 740 1C", "0000000000010101FF0000800000FF80100000000000000000000000"),
]

# Three subchannels, with a program that each of them may start.
PROGRAMS = [
    *[("put 500 000000000080FF0000001000", "done"), ("put 1000 0120000400002000", "done")],
    *[("enable 0 0 0", "cc 0"), ("enable 1 0 0", "cc 0"), ("enable 30000 0 0", "cc 0")],
    *[("ssch 0 500", "cc 0"), ("ssch 1 500", "cc 0"), ("ssch 30000 500", "cc 0")],
]


def offered(word, path, answer):
    """A program is offered by this path, and its unit answers so."""
    steps = [(f"choose {word}", f"offer {path}"), (f"down {word} {path}", "took select")]
    return [*steps, (f"up {word} {path}", f"took {answer}")]


def configuring():
    """Lines that configure a machine say what there is: storage, sets, channel paths, subchannels, each with its paths
    and its unit, and units that share a control unit: where one of these is served the other is busy, and a unit of
    another control unit is not."""
    scene = Scene(["storage 10", "sets 2", "path 10", "path fF", "unit 0 block", "unit 1 console", "unit 2 block"])
    scene.sets(["share 2 1", "sub 0 0100 0 10 FF", "sub 00030000 0101 1 10", "sub 1 0102 2 FF"])
    scene.goes([*STORAGE, *PATHS, *SETS, *FIRST, *FIRST_OF_SET, *PROGRAMS])
    scene.goes([*offered("30000", 0, "accept"), *offered("1", 0, "busy"), *offered("0", 1, "accept")])
    return read("lines that configure a machine", scene)


# A machine of two units that share a control unit, with comments and an empty line.
MACHINE = [
    *["# a machine", "", "storage 10", "sets 2", "path 10", "path fF", "unit 0 block", "unit 1 block", "share 1 0"],
    *["sub 0 0100 0 10 FF", "sub 00030000 0101 0 10"],
]

# Its actions, and a comment among them. What stands at 500 is an operation-request block, of format 0 and without
# paths.
ACTIONS = [
    *[("put 500 c1C2", "done"), ("enable 0 7 1", "cc 0"), ("cpu f enable 30000 0 0", "cc 0")],
    *[("ssch 0001 500", "cc 3"), ("cpu 1 ssch 00001 500", "refused 11")],
    *[("tsch 0 600", "cc 1 00000000 00000000 00000000"), ("choose 0", "idle")],
]
MORE_ACTIONS = [
    *[("up 0 1", "refused 3"), ("down 0 12345678", "refused 5"), ("dev 3FF", "refused 6"), ("glance 3", "refused 4")],
    *[("cpu 1 tpi 80 600", "cc 0"), ("attn 0 1 1", "refused 5"), ("restart 0", "done")],
]


def whole_script():
    """A script is read whole: what it asks for is told under the numbers of its lines, to the last one, which has no
    line end."""
    scene = Scene(MACHINE)
    scene.goes(ACTIONS)
    scene.sets(["#"])
    scene.goes(MORE_ACTIONS)
    return read("a right script", scene)


def parts():
    """The same machine has what its lines say; with a third subchannel it is seen that its units share."""
    scene = Scene([*MACHINE, "sub 1 0102 1 FF"])
    scene.goes([*STORAGE, *PATHS, *SETS, *FIRST, *FIRST_OF_SET, *PROGRAMS])
    scene.goes([*offered("0", 0, "accept"), *offered("1", 0, "busy")])
    return read("the machine of a right script", scene)


def longest():
    """A line has at most 1,024 bytes."""
    scene = Scene(["storage 10", "#" * 1024])
    scene.goes([("dev 0", "refused 6")])
    return read("a line of 1,024 bytes", scene)


def good():
    """Good scripts, whose lines ask for what is done."""
    yield from (driving(), last_numbers(), configuring(), whole_script(), parts(), longest())


# Races in the last line of a script, and what they come to.
RACING = {
    "race 1 0010000 tsch 30003": "race cc0 0 cc1 0 cc2 0 cc3 10000 entries 10000 audit ok",
    "race 16 0000100 tsch 00030003": "race cc0 0 cc1 0 cc2 0 cc3 1600 entries 1600 audit ok",
}


def races():
    """A race stands in the last line that has words: of so many CPUs, each as often as its line says, for the status of
    the subchannel that it names. That of 20003 is no word of a subchannel, so that each instruction is refused, which
    counts nowhere; 30003 is one of set 1 that is not there."""
    answer = whole("2 refused 6", "4 race cc0 0 cc1 0 cc2 0 cc3 0 entries 0 audit ok")
    yield Script("a race with empty lines and a comment behind it", RACED, {"race": answer})
    for line, told in RACING.items():
        scene = Scene(["storage 10", "sets 2"])
        scene.says(line, told)
        yield scene.script(line, "race")
