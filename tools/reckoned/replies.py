"""What lines print: what they are answered, why they are refused, and how many statuses a subchannel made."""
from reckoned.programs import (
    CLEARED, COMMANDED, OFFERED, PAST_STORAGE, RELEASED, RESETS, START, TURN, WITHOUT, down, prepared, tested, up,
)
from reckoned.scene import Scene

# An operation-request block, and one for the last of eight paths alone.
ANY_PATH = "put 500 000000000080FF0000001000"
LAST_PATH = "put 500 000000000080010000001000"


def of_a_subchannel():
    """Bytes of storage; a condition code alone, and with the words of a status: all 175 bytes are left of a write whose
    data goes past storage. An attention that is asked for again is another one, so that the answer to the first is
    ignored; and a restart is told."""
    scene = prepared(1)
    scene.goes([("put 2000 C102AF", "done"), ("show 2000 3", "C102AF")])
    program = PAST_STORAGE._replace(puts=["put 1000 012000AF0000FFFC"], ended="4017 00001008 0C2000AF")
    scene.goes([*program.put(), *program.steps(WITHOUT)])
    left = "00800000 00001008 0C2000AF"
    scene.goes([tested(f"cc 1 {left}"), ("stsch 0 700", f"cc 0 {left}"), ("tsch 1 600", "cc 3")])
    scene.goes([("attn 0 0", "done"), ("attn 0 0", "done"), up("took attn"), up("ignored attn"), down("ignored got")])
    scene.goes([("restart 0", "done"), ("notice 0 0", "done"), up("took notice")])
    return scene.script("of a subchannel")


def two_subchannels():
    """Two subchannels with a path and a unit each."""
    scene = Scene(["storage 10", "path 10", "path 11", "unit 0 block", "unit 1 block"])
    scene.sets(["sub 0 0100 0 10", "sub 1 0101 1 11"])
    scene.goes([(ANY_PATH, "done"), ("enable 0 0 0", "cc 0"), ("enable 1 7 0", "cc 0")])
    return scene


def of_no_subchannel():
    """A request for an interruption of subchannel 0 and subclass 0, one of subchannel 1 and subclass 7, and none; the
    channel paths that are engaged; and the reset of a channel path, which is asked for once."""
    scene = two_subchannels()
    scene.goes([("tpi FF 600", "cc 0"), ("hsch 0", "cc 0"), ("hsch 1", "cc 0")])
    scene.goes([("choose 0", "status"), ("choose 1", "status"), ("choose 1", "idle")])
    scene.goes([("tpi 80 600", "cc 1 00010000 00000000 00000000"), ("tpi FF 600", "cc 1 00010001 00000000 38000000")])
    halted = "cc 0 00002001 00000000 00000000"
    scene.goes([("tpi FF 600", "cc 0"), ("tsch 0 600", halted), ("tsch 1 600", halted), ("stcps 740", "paths -")])
    scene.goes([("ssch 1 500", "cc 0"), ("choose 1", "offer 0"), ("stcps 740", "paths 11")])
    scene.goes([START, ("choose 0", "offer 0"), ("stcps 740", "paths 10 11")])
    scene.goes([("rchp 10", "cc 0"), ("rchp 10", "cc 2")])
    return scene.script("of no subchannel")


def reports():
    """Seventeen reports are made and sixteen are kept, of which the last says so: it is of a path that is lost. Then
    there is none."""
    scene = two_subchannels()
    scene.goes([("stcrw 700", "cc 1 00000000"), ("pathdown 11", "done")])
    scene.goes([("pathdown 10", "done"), ("pathup 10", "done")] * 8)
    scene.goes([("stcrw 700", "cc 0 04060011")])
    scene.goes([("stcrw 700", "cc 0 04060010"), ("stcrw 700", "cc 0 04010010")] * 7)
    scene.goes([("stcrw 700", "cc 0 24060010"), ("stcrw 700", "cc 1 00000000")])
    return scene.script("reports")


def with_a_path():
    """The path by which a program is offered and halted, which is the last of eight; and the one that follows it, by
    which a Reset is sent."""
    scene = prepared(8)
    scene.goes([(LAST_PATH, "done"), *OFFERED, down("took command"), ("hsch 0", "cc 0"), ("choose 0", "halt {}")], 7)
    scene.goes([down("took halt"), TURN, up("took end"), tested("cc 0 00806007 00001008 0C000004"), *RELEASED], 7)
    scene.goes([("csch 0", "cc 0"), *RESETS, CLEARED])
    return scene.script("with a path")


def refusals():
    """Each refusal that an action of a script can meet where there is memory, the last of them also in line 1,000. The
    ninth attention finds its wire full until one was taken."""
    scene = prepared(1)
    scene.goes([("attn 0 0", "done")] * 8)
    scene.goes([("attn 0 0", "refused 2"), up("took attn"), ("attn 0 0", "done")])
    scene.goes([down("ignored got"), down("refused 3")])
    scene.goes([("choose 1", "refused 4"), ("up 0 1", "refused 5"), ("dev 1", "refused 6"), ("dev 0", "refused 7")])
    scene.goes([("show 10000 1", "refused 10 addressing"), ("stcrw 702", "refused 10 specification")])
    scene.goes([("csch 00050000", "refused 11")])
    scene.sets([""] * (999 - len(scene.lines)))
    scene.goes([("csch 00050000", "refused 11")])
    return scene.script("refusals")


def serials():
    """Nine statuses are made and cleared, each by a halt without a program; then a command that ends at once makes
    three: as it takes control, at channel end and at device end."""
    scene = prepared(1)
    scene.goes([("glance 0", "made 0 cleared 0")])
    scene.goes([("hsch 0", "cc 0"), ("choose 0", "status"), tested("cc 0 00002001 00000000 00000000")] * 9)
    scene.goes([("glance 0", "made 9 cleared 9"), ("put 1000 0328000000000000", "done"), *OFFERED])
    scene.goes([("glance 0", "made 10 cleared 9"), *COMMANDED, up("took end"), ("glance 0", "made 11 cleared 9")])
    scene.goes([TURN, up("took end"), ("glance 0", "made 12 cleared 9")])
    return scene.script("counts of statuses")


def printed():
    """What is printed of each kind of reply and of each refusal."""
    yield from (of_a_subchannel(), of_no_subchannel(), reports(), with_a_path(), refusals(), serials())
