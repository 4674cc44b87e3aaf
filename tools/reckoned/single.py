"""Scripts of which there are few: a race, paths that are chosen in turn, and a program without end."""
from reckoned.programs import CLEAR, CLEARED, ENDED, OFFER, OFFERED, RELEASED, START, TURN, down, prepared, up
from scripted.answers import Script, whole


def race():
    """Of 400 tests for one status one finds it."""
    scene = prepared(1)
    scene.goes([("pathdown 10", "done"), ("csch 0", "cc 0"), ("choose 0", "status")])
    scene.says("race 4 100 tsch 0", "race cc0 1 cc1 399 cc2 0 cc3 0 entries 400 audit ok")
    yield scene.script("four CPUs", "race")


def offer_by(scene, paths):
    """A program is offered by each of these paths in turn, cancelled, and let go."""
    for path in paths:
        scene.goes([START, OFFER, ("xsch 0", "cc 0"), down("took select"), up("took accept"), *RELEASED], path)


def turns():
    """Paths are chosen in turn. A path that is down is left out, and is the next one as it is up again; then two
    paths are in the logical-path mask."""
    scene = prepared(8)
    offer_by(scene, "012345670")
    yield scene.script("all paths are up")
    scene.says("pathdown 13", "done")
    offer_by(scene, "124567012")
    scene.says("pathup 13", "done")
    offer_by(scene, "345")
    scene.says("put 500 000000000080240000001000", "done")
    offer_by(scene, "252")
    scene.says("pathdown 12", "done")
    offer_by(scene, "555")
    scene.says("pathup 12", "done")
    offer_by(scene, "25")
    yield scene.script("a path goes down and comes up")


def without_end():
    """A command that ends at once, and a transfer back to it: it is started and accepted, is sent, ends, and is
    chained to itself, again and again, in a script of more than 65,536 lines; it is cleared while its device has the
    command."""
    scene = prepared(1)
    scene.goes([("put 1000 0360000000000000", "done"), ("put 1008 0800000000001000", "done"), *OFFERED])
    scene.goes([down("took command"), TURN, *ENDED, up("took end")] * 13_200)
    scene.goes([down("took command"), *CLEAR, CLEARED])
    yield scene.script("13,200 turns")
