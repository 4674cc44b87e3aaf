"""What tools/host-tests runs: see there."""

from __future__ import annotations

import argparse
import os
import re
import shutil
import subprocess
import sys
import tempfile
import time
from concurrent.futures import Future, ThreadPoolExecutor
from functools import partial
from pathlib import Path
from typing import Callable, Dict, List, Optional, Sequence, Tuple

HERE = Path(__file__).resolve().parent
HOST = HERE.parent
TOP = HOST.parent

#: What each tool is for, and the package of Debian that has it.
TOOLS = {
    "gcc": "gcc",
    "g++": "g++",
    "clang": "clang",
    "clang++": "clang",
    "nm": "binutils",
    "valgrind": "valgrind",
    "mypy": "mypy",
    "man": "man-db",
}

WARNINGS = ["-Wall", "-Wextra", "-Wpedantic", "-Wconversion", "-Wshadow", "-Werror"]
SANITIZERS = {
    "plain": ["-O2"],
    "address+undefined": ["-O1", "-g", "-fsanitize=address,undefined", "-fno-sanitize-recover=all", "-fno-omit-frame-pointer"],
}
THREADS = {"plain": ["-O2"], "thread": ["-O1", "-g", "-fsanitize=thread"]}
#: What is no package, and is left out by this name: the program beside which the storm is held.
CHSIM = "chsim"
#: How many events of the storm are drawn.
STORM = 1_000_000
#: The least programs a second through Python, also on a machine that is busy: a quiet one does two to five times as many.
LEAST_PROGRAMS = 10000
#: How many lines the recorded runs have, and how many of them are answered otherwise: two of altered.run were altered.
RECORDED = {
    "firmware-ipl.run": (304, 0), "linux-recognition.run": (188, 0), "altered.run": (39, 2), "long-lists.run": (483, 0),
}
#: Scripts whose allocations are refused in turn.
REFUSED = [
    "first-write", "read", "console", "search-read-lose-path", "two-sides", "share-control-unit", "chain-lists", "clear", "halt",
    "attention", "lesson-5-two-paths", "reset-path", "reports", "sense", "full-wire", "subchannel-sets",
]


class Failed(Exception):
    """A check that failed, with what it said."""


def chsim_of(top: Path) -> Path:
    return top / "crates/chsim/out/chsim"


class Counts:
    """What the stored scripts have, counted from the files alone."""

    def __init__(self, scripts: List[Path], lists: List[Path]) -> None:
        self.scripts = len(scripts)
        self.rows = sum(len(file.read_bytes().splitlines()) for file in lists)
        self.races = self.lines = self.devices = self.actions = 0
        for file in scripts:
            printed = file.with_suffix(".out").read_text("ascii")
            if printed.startswith("bad line "):
                continue
            words = [line.split(" ")[0] for line in file.read_text("utf-8").splitlines()]
            self.races += words.count("race")
            self.devices += words.count("dev")
            self.lines += len(printed.splitlines()) - words.count("race") - words.count("dev") - words.count("glance")
            self.actions += len(printed.splitlines()) - words.count("race")


class Bench:
    """Where things are, and what runs them."""

    def __init__(self, top: Path, folder: Path, without: List[str]) -> None:
        self.top = top
        self.folder = folder
        self.without = without
        self.archive = top / "out/libfiluvamoth.a"
        self.shared = top / "out/libfiluvamoth.so"
        self.chsim = chsim_of(top)
        self.scripts = [
            *sorted((top / "examples").glob("*.chs")),
            *sorted((top / "tests/cases").glob("*.chs")),
        ]
        quoted = folder / "quoted.txt"
        quoted.write_bytes(subprocess.run([top / "tools/examples", "--quoted"], stdout=subprocess.PIPE, check=True).stdout)
        self.lists = [quoted, *sorted((top / "tests").glob("*.txt"))]
        self.counts = Counts(self.scripts, self.lists)
        self.values: Optional[int] = None
        self.emulator: Optional[str] = None
        self.measured: Dict[str, int] = {}

    def run(self, words: Sequence[object], status: int = 0, environment: Optional[Dict[str, str]] = None) -> str:
        """Runs a program: what it prints."""
        text = [str(word) for word in words]
        found = subprocess.run(text, capture_output=True, text=True, env={**os.environ, **(environment or {})}, cwd=self.folder)
        if found.returncode != status:
            raise Failed(f"{' '.join(text[:12])}\nended with {found.returncode}\n{(found.stdout + found.stderr)[-3000:]}")
        return found.stdout

    def built(self, name: str, words: Sequence[object]) -> Path:
        """Builds a program of the folder by this name."""
        self.run([*words, "-o", self.folder / name])
        return self.folder / name


def number_in(text: str, name: str) -> int:
    found = re.findall(rf"\b{name} (\d+)", text)
    if not found:
        raise Failed(f"no {name} in: {text}")
    return int(found[-1])


def must_be(text: str, wanted: Dict[str, int]) -> None:
    for name, number in wanted.items():
        if number_in(text, name) != number:
            raise Failed(f"{name} is not {number}: {text}")


# ---- C ------------------------------------------------------------------------------------------------------------------------------


def play(bench: Bench, program: Sequence[object], environment: Optional[Dict[str, str]] = None) -> str:
    """Plays all scripts and rows in four ways, and counts."""
    counts = bench.counts
    ways: List[Tuple[str, List[str]]] = [("lines", []), ("lines", ["-k", "-h"]), ("calls", ["-k"]), ("value", ["-h"])]
    for by, options in ways:
        came = bench.run([*program, "-b", by, *options, *bench.scripts], environment=environment)
        wanted = {"scripts": counts.scripts, "otherwise": 0, "races": counts.races, "turns": counts.devices}
        if by == "lines":
            wanted.update(lines=counts.lines, calls=counts.actions - counts.lines)
        else:
            wanted.update(lines=0, calls=counts.actions)
        must_be(came, wanted)
        if by == "value":
            values = number_in(came, "values")
            bench.values = bench.values or values
            if values == 0 or values != bench.values:
                raise Failed(f"{values} operands by value, and {bench.values} in another build")
        rows = bench.run([*program, "-b", by, *options, "-c", *bench.lists], environment=environment)
        must_be(rows, {"listed": counts.rows, "otherwise": 0})
    whole = f"{counts.scripts} scripts of {counts.actions} actions and {counts.rows} rows"
    return f"{whole} in {len(ways)} ways as stored, {counts.races} races left out"


def flags(compiler: str, kind: List[str]) -> List[object]:
    return [compiler, "-std=c99", *WARNINGS, *kind, f"-I{HOST}"]


def objects_of_player() -> List[Path]:
    return [HERE / "script.c", HERE / "devices.c"]


def play_in_c(bench: Bench, compiler: str, kind: str) -> str:
    program = bench.built(
        f"play-{compiler}-{kind}",
        [*flags(compiler, SANITIZERS[kind]), HERE / "play.c", *objects_of_player(), bench.archive],
    )
    return play(bench, [program])


def play_shared(bench: Bench) -> str:
    compiler = "gcc" if "gcc" not in bench.without else "clang"
    program = bench.built(
        "play-shared",
        [*flags(compiler, ["-O2"]), HERE / "play.c", *objects_of_player(), f"-L{bench.shared.parent}", "-lfiluvamoth",
         f"-Wl,-rpath,{bench.shared.parent}"],
    )
    needed = bench.run(["readelf", "-d", program])
    if "libfiluvamoth.so" not in needed:
        raise Failed(f"it is not linked with the shared library: {needed}")
    return play(bench, [program])


def small_programs(bench: Bench, compiler: str, kind: str) -> str:
    """law, sights, recorded runs and the examples."""
    said = []
    law = bench.built(f"law-{compiler}-{kind}", [*flags(compiler, SANITIZERS[kind]), HERE / "law.c", bench.archive])
    checks = bench.run([law])
    must_be(checks, {"otherwise": 0})
    said.append(f"{number_in(checks, 'checks')} refusals and limits")
    sights = bench.built(f"sights-{compiler}-{kind}", [*flags(compiler, SANITIZERS[kind]), HERE / "sights.c", bench.archive])
    looks = bench.run([sights])
    must_be(looks, {"otherwise": 0})
    said.append(f"{number_in(looks, 'checks')} looks")
    recorded = bench.built(f"recorded-{compiler}-{kind}", [*flags(compiler, SANITIZERS[kind]), HERE / "recorded.c", bench.archive])
    for name, (lines, otherwise) in RECORDED.items():
        came = bench.run([recorded, bench.top / "tests/recorded" / name], status=1 if otherwise else 0)
        must_be(came, {"lines": lines, "otherwise": otherwise})
        said.append(f"{name} {lines} lines, {otherwise} otherwise")
    # A line of it has no answer.
    bench.run([recorded, bench.top / "tests/recorded/unreadable.run"], status=2)
    for name in ("first_write", "emulator"):
        example = bench.built(
            f"{name}-{compiler}-{kind}", [*flags(compiler, SANITIZERS[kind]), HOST / f"examples/{name}.c", bench.archive]
        )
        check_example(bench, name, bench.run([example]))
    return ", ".join(said) + ", 2 examples"


def words_stored(bench: Bench, name: str) -> List[str]:
    """The status words of an example, as they are stored."""
    return re.findall(r"cc \d ((?:[0-9A-F]{8} ?){3})$", (bench.top / f"examples/{name}.out").read_text("ascii"), re.M)


def check_example(bench: Bench, name: str, came: str) -> None:
    if name == "first_write":
        found = re.findall(r"TEST SUBCHANNEL: code \d, ((?:[0-9A-F]{8} ?){3})$", came, re.M)
        stored = [words for words in words_stored(bench, "lesson-1-one-write")][-3:-1]
        if found != stored or "bytes: C1C2C3C4" not in came:
            raise Failed(f"first_write tells {found}, stored is {stored}\n{came}")
    elif name == "emulator":
        if "the data came back" not in came or "interface-control check" not in came:
            raise Failed(came)
        bench.emulator = bench.emulator or came
        if came != bench.emulator:
            raise Failed(f"emulator prints otherwise than another build of it, or in Python:\n{came}")


def threads(bench: Bench, compiler: str, kind: str) -> str:
    program = bench.built(
        f"threads-{compiler}-{kind}", [*flags(compiler, THREADS[kind]), "-pthread", HOST / "examples/threads.c", bench.archive]
    )
    came = bench.run([program], environment={"TSAN_OPTIONS": "halt_on_error=1"})
    if len(re.findall(r"(\d+) of \1 programs ended well", came)) != 4:
        raise Failed(came)
    return "4 threads"


def in_cpp(bench: Bench, compiler: str) -> str:
    """The headers in C++, and the first example."""
    both = bench.folder / f"both-{compiler}.cpp"
    both.write_text('#include "filuvamoth_names.h"\n#include "filuvamoth_run.h"\nint main() { return fm_name(0) == NULL; }\n')
    for standard in ("c++11", "c++17", "c++20"):
        bench.run([compiler, f"-std={standard}", *WARNINGS, f"-I{HOST}", "-fsyntax-only", both])
    program = bench.built(
        f"first_write-{compiler}",
        [compiler, "-std=c++11", *WARNINGS, f"-I{HOST}", "-x", "c++", HOST / "examples/first_write.c", "-x", "none", bench.archive],
    )
    check_example(bench, "first_write", bench.run([program]))
    return "both headers in C++11, 17 and 20, the first example"


def static(bench: Bench) -> str:
    compiler = "gcc" if "gcc" not in bench.without else "clang"
    program = bench.built("first_write-static", [*flags(compiler, ["-O2"]), "-static", HOST / "examples/first_write.c", bench.archive])
    check_example(bench, "first_write", bench.run([program]))
    return "the first example without a shared library"


def memory(bench: Bench, compiler: str) -> str:
    wraps = [f"-Wl,--wrap={name}" for name in ("malloc", "realloc", "calloc", "free")]
    program = bench.built(
        f"memory-{compiler}", [*flags(compiler, ["-O2", *wraps]), HERE / "memory.c", *objects_of_player(), bench.archive]
    )
    named = [file for file in bench.scripts if file.stem in REFUSED and file.parent.name == "examples"]
    if len(named) != len(REFUSED):
        raise Failed(f"only {[file.stem for file in named]} are there")
    came = bench.run([program, *named])
    must_be(came, {"scripts": 4 * len(named), "otherwise": 0})
    return f"{number_in(came, 'places')} allocations of {len(named)} scripts refused in turn"


def memcheck(bench: Bench) -> str:
    """Reads and writes outside of what is lent, and leaks, by valgrind."""
    compiler = "gcc" if "gcc" not in bench.without else "clang"
    checked = ["valgrind", "-q", "--error-exitcode=9", "--leak-check=full", "--show-leak-kinds=all", "--errors-for-leak-kinds=all"]
    program = bench.built(
        "play-memcheck", [*flags(compiler, ["-O1", "-g"]), HERE / "play.c", *objects_of_player(), bench.archive]
    )
    for by in ("lines", "value"):
        came = bench.run([*checked, program, "-b", by, "-h", *bench.scripts])
        must_be(came, {"scripts": bench.counts.scripts, "otherwise": 0})
    law = bench.built("law-memcheck", [*flags(compiler, ["-O1", "-g"]), HERE / "law.c", bench.archive])
    must_be(bench.run([*checked, law]), {"otherwise": 0})
    sights = bench.built("sights-memcheck", [*flags(compiler, ["-O1", "-g"]), HERE / "sights.c", bench.archive])
    must_be(bench.run([*checked, sights]), {"otherwise": 0})
    return f"{bench.counts.scripts} scripts in 2 ways, all refusals and looks without a bad access or a leak"


def stack(bench: Bench) -> str:
    """What filuvamoth.h asks for suffices, by what the calls were seen to take and by the machine's code of the library."""
    compiler = "gcc" if "gcc" not in bench.without else "clang"
    program = bench.built("stack", [*flags(compiler, ["-O2"]), "-pthread", HERE / "stack.c", bench.archive])
    said = []
    asked = re.search(r"(\d+) KiB of stack for fm_start, and (\d+) KiB", (HOST / "filuvamoth.h").read_text("utf-8"))
    if not asked:
        raise Failed("filuvamoth.h asks for no stack")
    ways: Dict[str, List[object]] = {"seen": [program], "bound": [sys.executable, HERE / "frames.py", TOP, bench.shared]}
    for name, words in ways.items():
        found = {call: int(most) for call, most in re.findall(r"^(fm_\w+) (\d+)$", bench.run(words), re.M)}
        start, other = found.pop("fm_start"), max(found.values())
        if len(found) < 40 or start > 1024 * int(asked[1]) or other > 1024 * int(asked[2]):
            raise Failed(f"{name}: fm_start takes {start} bytes of stack, one of {len(found)} others {other}")
        bench.measured[f"{name}_start"], bench.measured[f"{name}_other"] = start, other
        said.append(f"{name}: fm_start {start}, another {other} at most")
    return f"bytes of stack, {'; '.join(said)}"


def instructions(bench: Bench) -> str:
    compiler = "gcc" if "gcc" not in bench.without else "clang"
    program = bench.built("cycle", [*flags(compiler, ["-O2"]), HERE / "cycle.c", bench.archive])
    said = []
    for how in ("calls", "loop"):
        words = ["valgrind", "--log-fd=1", "--tool=callgrind", "--callgrind-out-file=/dev/null", program, how]
        few, many = (number_in(bench.run([*words, count]), "Collected :") for count in (100, 1100))
        each = (many - few) // 1000
        said.append(f"{each} by {how}")
        bench.measured[how] = each
    return f"a write of four bytes has {', '.join(said)} instructions"


# ---- Python -------------------------------------------------------------------------------------------------------------------------


def in_python(bench: Bench) -> Dict[str, str]:
    return {"PYTHONPATH": str(HOST), "FILUVAMOTH_LIBRARY": str(bench.shared), "PYTHONDONTWRITEBYTECODE": "1"}


def play_in_python(bench: Bench) -> str:
    return play(bench, [sys.executable, HERE / "play.py"], in_python(bench))


def examples_in_python(bench: Bench) -> str:
    for name in ("first_write", "emulator"):
        check_example(bench, name, bench.run([sys.executable, HOST / f"examples/{name}.py"], environment=in_python(bench)))
    came = bench.run([sys.executable, HOST / "examples/bench_driver.py"], environment=in_python(bench))
    ends = re.findall(r"^ *(\d+) runs ended with: (.*)$", came, re.M)
    scenes = [{int(point) for point in re.findall(r"^ {3,4}(\d+)  ", scene, re.M)} for scene in came.split("\n\n")[:-1]]
    all_points = sum(len(points) for points in scenes)
    # No point is left out, each run ends with the data written, and there are more orders than points.
    if [points == set(range(max(10, len(points)))) for points in scenes] != [True, True] or ends != [(ends[0][0], "written")]:
        raise Failed(came[-3000:])
    runs = int(ends[0][0])
    if runs <= all_points:
        raise Failed(f"{runs} orders over {all_points} points")
    return f"first_write, emulator as in C, bench_driver with {runs} runs over {all_points} points"


def refusals_in_python(bench: Bench) -> str:
    came = bench.run([sys.executable, HERE / "law.py"], environment=in_python(bench))
    must_be(came, {"otherwise": 0})
    return f"{number_in(came, 'checks')} exceptions and devices that err"


def sights_in_python(bench: Bench) -> str:
    came = bench.run([sys.executable, HERE / "sights.py"], environment=in_python(bench))
    must_be(came, {"otherwise": 0})
    return f"{number_in(came, 'checks')} looks"


def storm_in_python(bench: Bench) -> str:
    came = bench.run([sys.executable, HERE / "storm.py", bench.chsim], environment=in_python(bench))
    must_be(came, {"otherwise": 0})
    events, lines, refused, least = (number_in(came, name) for name in ("events", "lines", "refused", "least"))
    if events < STORM:
        raise Failed(came)
    whole = f"{events} events, {least} of a kind at least, in {lines} lines of which {refused} are refused"
    return f"{whole}, as chsim answers them; {number_in(came, 'cleared')} statuses cleared, each once and in order"


def programs_in_python(bench: Bench) -> str:
    came = bench.run([sys.executable, HERE / "cycle.py", "4"], environment=in_python(bench))
    programs = number_in(came, "programs")
    bench.measured["programs"] = programs
    if programs < LEAST_PROGRAMS:
        raise Failed(f"{programs} programs a second through Python, fewer than {LEAST_PROGRAMS}")
    return f"{programs} programs a second"


def typed(bench: Bench) -> str:
    files = [HOST / "filuvamoth.py", *sorted((HOST / "examples").glob("*.py")), *sorted(HERE.glob("*.py"))]
    bench.run(["mypy", "--strict", "--cache-dir", bench.folder / "mypy", *files], environment={"MYPYPATH": f"{HOST}:{HERE}"})
    return f"{len(files)} files are typed"


# ---- The rest -----------------------------------------------------------------------------------------------------------------------


def declared(bench: Bench) -> str:
    return bench.run(
        [sys.executable, HERE / "declared.py", bench.top, HOST / "filuvamoth.h", HOST / "filuvamoth.py", bench.archive, bench.shared]
    ).strip()


def needs(bench: Bench) -> str:
    """What the library needs of the C library, which filuvamoth.h names."""
    allowed = {"malloc", "realloc", "free", "memcpy", "memmove", "memset"}
    needed = {line.split()[-1] for line in bench.run(["nm", "--undefined-only", bench.archive]).splitlines() if len(line.split()) == 2}
    if not needed <= allowed:
        raise Failed(f"it needs {sorted(needed - allowed)} more than filuvamoth.h says")
    return f"it needs {', '.join(sorted(needed))}"


def installed(bench: Bench) -> str:
    """tools/install, and a program that is built and linked by what it installed."""
    prefix = bench.folder / "prefix"
    bench.run([TOP / "tools/install", "--library-only", "--from", bench.top, prefix])
    compiler = "gcc" if "gcc" not in bench.without else "clang"
    if shutil.which("pkg-config"):
        there = {"PKG_CONFIG_PATH": str(prefix / "lib/pkgconfig")}
        release = bench.run(["pkg-config", "--modversion", "filuvamoth"], environment=there)
        version = "import filuvamoth; print(*filuvamoth.version(), sep='.')"
        if release != bench.run([sys.executable, "-c", version], environment=in_python(bench)):
            raise Failed(f"filuvamoth.pc.in is of {release}, the library is not")
        words = bench.run(["pkg-config", "--cflags", "--libs", "filuvamoth"], environment=there).split()
    else:
        words = [f"-I{prefix}/include", f"-L{prefix}/lib", "-lfiluvamoth"]
    program = bench.built("first_write-installed", [compiler, HOST / "examples/first_write.c", *words, f"-Wl,-rpath,{prefix}/lib"])
    check_example(bench, "first_write", bench.run([program]))
    found = {"PYTHONPATH": f"{prefix}/lib/filuvamoth", "PYTHONDONTWRITEBYTECODE": "1"}
    came = bench.run([sys.executable, HOST / "examples/first_write.py"], environment=found)
    check_example(bench, "first_write", came)
    if "man" not in bench.without:
        plain = {"MANWIDTH": "100", "LC_ALL": "C.UTF-8"}
        page = bench.run(["man", "--warnings", "-l", prefix / "share/man/man3/filuvamoth.3"], environment=plain)
        names = re.findall(r"^\w+ (fm_\w+)\(", (HOST / "filuvamoth.h").read_text("utf-8"), re.M)
        unnamed = [name for name in names if f"{name}()" not in page]
        if unnamed:
            raise Failed(f"the manual page does not name {unnamed}")
    return "what is installed builds and runs the first example, in C and in Python"


def documents(bench: Bench) -> str:
    """What docs/HOSTS.md has a reader type, and what it says is printed."""
    page = (TOP / "docs/HOSTS.md").read_text("utf-8")
    found = re.findall(r"<!-- typed -->\n```\n(.*?)```\n\n<!-- printed -->\n```\n(.*?)```", page, re.S)
    if len(found) < 2 or len(found) != page.count("<!-- typed -->"):
        raise Failed(f"{len(found)} blocks of docs/HOSTS.md are typed and printed, of {page.count('<!-- typed -->')}")
    clone = bench.folder / "clone"
    clone.mkdir()
    (clone / "host").symlink_to(HOST)
    (clone / "out").symlink_to(bench.top / "out")
    for typed_there, printed in found:
        came = bench.run(["sh", "-ec", f"cd {clone}\n{typed_there}"], environment={"PYTHONDONTWRITEBYTECODE": "1"})
        if came != printed:
            raise Failed(f"docs/HOSTS.md says that this prints otherwise:\n{typed_there}{came}")
    return f"{len(found)} blocks of docs/HOSTS.md print what it says"


def figures(bench: Bench) -> str:
    """What docs/HOSTS.md says was measured, beside what was measured now: within a twentieth."""
    page = (TOP / "docs/HOSTS.md").read_text("utf-8")
    said = {name: int(number.replace(",", "")) for name, number in re.findall(r"<!-- measured: (\w+) -->([\d,]+)", page)}
    checked = []
    for name in ("calls", "loop", "bound_start", "bound_other"):
        if name not in said:
            raise Failed(f"docs/HOSTS.md has no figure of {name}")
        if name in bench.measured:
            checked.append(f"{name} {bench.measured[name]}")
            if abs(said[name] - bench.measured[name]) > bench.measured[name] / 20:
                raise Failed(f"docs/HOSTS.md says {name} {said[name]}, measured is {bench.measured[name]}")
    return f"{', '.join(checked)}, as docs/HOSTS.md says"


def checks_of(bench: Bench) -> List[Tuple[str, Callable[[], str]]]:
    """The checks by name, the longest first."""
    found: List[Tuple[str, Callable[[], str]]] = []

    def add(tools: str, name: str, check: Callable[..., str], *words: str) -> None:
        if not set(tools.split()) & set(bench.without):
            found.append((name, partial(check, bench, *words)))

    add("valgrind", "valgrind", memcheck)
    add("", "Python scripts", play_in_python)
    add(CHSIM, "Python storm", storm_in_python)
    for compiler in ("gcc", "clang"):
        add(compiler, f"{compiler} memory", memory, compiler)
        for kind in SANITIZERS:
            add(compiler, f"{compiler} {kind} scripts", play_in_c, compiler, kind)
            add(compiler, f"{compiler} {kind} programs", small_programs, compiler, kind)
        for kind in THREADS:
            add(compiler, f"{compiler} {kind} threads", threads, compiler, kind)
    for compiler in ("g++", "clang++"):
        add(compiler, compiler, in_cpp, compiler)
    add("", "shared", play_shared)
    add("", "static", static)
    add("", "stack", stack)
    add("valgrind", "instructions", instructions)
    add("", "Python examples", examples_in_python)
    add("", "Python refusals", refusals_in_python)
    add("", "Python looks", sights_in_python)
    add("mypy", "Python types", typed)
    add("nm", "declared", declared)
    add("nm", "needs", needs)
    add("", "installed", installed)
    add("", "documents", documents)
    return found


def missing(without: List[str]) -> List[str]:
    packages = [TOOLS[tool] for tool in TOOLS if tool not in without and not shutil.which(tool)]
    return sorted(set(packages))


def run_one(name: str, check: Callable[[], str]) -> Tuple[str, bool, str, float]:
    start = time.monotonic()
    try:
        return name, True, check(), time.monotonic() - start
    except (Failed, subprocess.SubprocessError, OSError, ValueError) as error:
        return name, False, str(error) or repr(error), time.monotonic() - start


def run_all(bench: Bench, jobs: int, only: Optional[str]) -> int:
    """Runs all checks: how many failed."""
    failed = 0
    checks = [it for it in checks_of(bench) if only is None or re.search(only, it[0])]
    # What is timed runs alone, at the end, and then what was measured is compared.
    alone: List[Tuple[str, Callable[[], str]]] = [("Python programs", partial(programs_in_python, bench))]
    alone.append(("figures", partial(figures, bench)))
    alone = [it for it in alone if only is None or re.search(only, it[0])]
    with ThreadPoolExecutor(jobs) as pool:
        futures: List[Future[Tuple[str, bool, str, float]]] = [pool.submit(run_one, *it) for it in checks]
        results = (future.result() for future in futures)
        for results_of in (results, (run_one(*it) for it in alone)):
            for name, good, said, seconds in results_of:
                print(f"{'ok  ' if good else 'FAIL'}  {name}: {said} [{seconds:.1f} s]", flush=True)
                failed += not good
    if not checks and not alone:
        print(f"there is no check {only}")
        failed += 1
    print(f"{len(checks) + len(alone)} checks, {failed} failed")
    return failed


def main() -> int:
    parser = argparse.ArgumentParser(prog="tools/host-tests", description="Tests of the library for C, C++ and Python.")
    parser.add_argument("--from", dest="top", type=Path, default=TOP, help="the checkout whose out/ and stored scripts are taken")
    parser.add_argument("--without", action="append", default=[], choices=sorted([*TOOLS, CHSIM]), help="do without this tool")
    parser.add_argument("--jobs", type=int, default=2, help="how many checks run at once")
    parser.add_argument("--only", help="only the checks whose name has this")
    given = parser.parse_args()
    without = list(given.without)
    # A compiler is left out with its C++.
    without += [tool for tool, c in (("g++", "gcc"), ("clang++", "clang")) if c in without]
    packages = missing(without)
    if packages:
        print(f"tools/host-tests: missing: apt-get install {' '.join(packages)} (or --without, see --help)")
        return 1
    if {"gcc", "clang"} <= set(without):
        print("tools/host-tests: one of gcc and clang is needed")
        return 1
    top = given.top.resolve()
    for library in ("libfiluvamoth.a", "libfiluvamoth.so"):
        if not (top / "out" / library).is_file():
            print(f"tools/host-tests: {top / 'out' / library} is missing: tools/archive makes it")
            return 1
    if CHSIM not in without and not chsim_of(top).is_file():
        print(f"tools/host-tests: {chsim_of(top)} is missing: rt run in crates/chsim makes it (or --without {CHSIM})")
        return 1
    start = time.monotonic()
    with tempfile.TemporaryDirectory(prefix="host-tests.") as folder:
        bench = Bench(top, Path(folder), without)
        failed = run_all(bench, given.jobs, given.only)
    if without:
        print(f"left out: {', '.join(without)}")
    print(f"{time.monotonic() - start:.0f} s")
    return 1 if failed else 0


if __name__ == "__main__":
    sys.exit(main())
