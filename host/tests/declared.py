"""What filuvamoth.h declares, what the sources export, and what filuvamoth.py calls: the same functions, by the same parameters.

    python3 declared.py TOP HEADER MODULE [LIBRARY..]

TOP has crates/filuvamoth, crates/host_machine and crates/host_sight. Names, number and kinds of parameters, results, the members of what
is passed by its address, and the numbers that the sources name are compared; of each library the names that it exports.
"""

from __future__ import annotations

import ast
import re
import subprocess
import sys
from pathlib import Path
from typing import Dict, Iterator, List, NamedTuple, Tuple

#: What a parameter of the sources is in C.
KINDS: Dict[str, List[str]] = {
    "&mut Handle": ["fm_machine *"],
    "&mut HostWork": ["fm_call *"],
    "&HostWork": ["const fm_call *"],
    "&HostAnswer": ["const fm_answer *"],
    "&mut HostSeen": ["fm_told *"],
    "&mut HostHold": ["fm_hold_view *"],
    "&mut HostPrograms": ["fm_programs_view *"],
    "&mut HostUnit": ["fm_unit_view *"],
    "&mut HostWires": ["fm_wires_view *"],
    "&mut HostSignal": ["fm_signal_view *"],
    "&mut [u8]": ["uint8_t *", "size_t"],
    "&[u8]": ["const uint8_t *", "size_t"],
    "&mut [u32]": ["uint32_t *", "size_t"],
    "&[u32]": ["const uint32_t *", "size_t"],
    "&mut u64": ["uint64_t *"],
    "&mut usize": ["size_t *"],
    "u32": ["uint32_t"],
    "u64": ["uint64_t"],
    "i32": ["int32_t"],
    "Global": [],
}
STRUCTS = {
    "HostWork": "fm_call",
    "HostAnswer": "fm_answer",
    "HostSeen": "fm_told",
    "HostHold": "fm_hold_view",
    "HostPrograms": "fm_programs_view",
    "HostUnit": "fm_unit_view",
    "HostWires": "fm_wires_view",
    "HostSignal": "fm_signal_view",
}


class Signature(NamedTuple):
    result: str
    parameters: Tuple[str, ...]


def code_of(files: List[Path]) -> str:
    return "\n".join(re.sub(r"//.*", "", file.read_text("utf-8")) for file in files)


def exported(source: str) -> Dict[str, Signature]:
    found = {}
    for name, parameters, result in re.findall(r'extern "C" fn (\w+)\s*\(([^)]*)\)\s*->\s*(\w+)', source):
        kinds = [part.split(":", 1)[1].strip() for part in parameters.split(",") if part.strip()]
        flat = [c for kind in kinds for c in KINDS[kind]]
        found[name] = Signature(KINDS[result][0], tuple(flat))
    assert len(found) == len(re.findall(r"#\[unsafe\(no_mangle\)\]", source)), "an export is not read"
    return found


def spread(header: str) -> str:
    """The header without comments, and with the parameters that FM_STORAGE stands for."""
    storage = re.search(r"#define FM_STORAGE (.*)", header)
    assert storage
    plain = re.sub(r"/\*.*?\*/", " ", header, flags=re.S)
    return re.sub(r"(?<!define )\bFM_STORAGE\b", storage[1], plain)


def kind_of(parameter: str) -> str:
    """uint8_t * of uint8_t *bytes."""
    words = re.match(r"\s*((?:const )?\w+)\s*(\*?)\s*\w+\s*$", parameter)
    assert words, parameter
    return words[1] + (" *" if words[2] else "")


def declared(header: str) -> Dict[str, Signature]:
    found = {}
    for result, name, parameters in re.findall(r"^(\w+) (fm_\w+)\(([^)]*)\);", spread(header), re.M):
        parts = [] if parameters.strip() == "void" else parameters.split(",")
        found[name] = Signature(result, tuple(kind_of(part) for part in parts))
    return found


def members_in_source(source: str) -> Dict[str, List[Tuple[str, str]]]:
    found = {}
    for name, body in re.findall(r"#\[repr\(C\)\]\s*#\[derive\([^)]*\)\]\s*pub struct (\w+) \{(.*?)\n\}", source, re.S):
        members = re.findall(r"pub (\w+): \[?u(32|64)(?:; (\d)\])?,", body)
        assert len(members) == body.count("pub "), f"a member of {name} is not read"
        found[name] = [(member, f"uint{bits}_t" + (f"[{size}]" if size else "")) for member, bits, size in members]
    return found


def members_in_header(header: str) -> Dict[str, List[Tuple[str, str]]]:
    found = {}
    for body, name in re.findall(r"typedef struct \w+ \{(.*?)\} (\w+);", spread(header), re.S):
        found[name] = [(member, kind + size) for kind, member, size in re.findall(r"(\w+) \**(\w+)(\[\d\])?;", body)]
    return found


def numbers_in_source(source: str) -> Dict[str, int]:
    """The refusals, and other numbers, that have a name there."""
    return {name: int(number) for name, number in re.findall(r"pub const (\w+): [iu]32 = (-?\d+);", source)}


def numbers_in_header(header: str) -> Dict[str, int]:
    return {name: int(number, 0) for name, number in re.findall(r"\bFM_(\w+) = (-?(?:0x)?[0-9A-F]+)\b", spread(header))}


def numbers_in_module(tree: ast.Module) -> Dict[str, int]:
    found = {}
    for node in tree.body:
        if isinstance(node, ast.Assign) and isinstance(node.targets[0], ast.Name):
            try:
                value = ast.literal_eval(node.value)
            except ValueError:
                continue
            if isinstance(value, int):
                found[node.targets[0].id] = value
    return found


def enumerations_of(tree: ast.Module) -> Dict[str, Dict[str, int]]:
    found = {}
    for node in tree.body:
        if isinstance(node, ast.ClassDef) and any(ast.unparse(base) == "enum.IntEnum" for base in node.bases):
            found[node.name] = {
                item.targets[0].id: ast.literal_eval(item.value)
                for item in node.body
                if isinstance(item, ast.Assign) and isinstance(item.targets[0], ast.Name)
            }
    return found


#: An enumeration of the module, and what stands before its names in the header.
ENUMERATIONS = {
    "Turn": "", "Choice": "", "PathState": "PATH_", "CallKind": "CALL_", "ToldKind": "TOLD_", "Due": "",
    "Phase": "PHASE_", "Place": "PLACE_", "Progress": "PROGRESS_", "SignalKind": "SIGNAL_",
}
RENAMED = {"CALL": "CALL_DUE", "SIGNAL": "SIGNAL_DUE", "REPORT": "REPORT_DUE"}


def in_module(header: str, tree: ast.Module, names: List[str]) -> Iterator[str]:
    numbers = numbers_in_header(header)
    values = numbers_in_module(tree)
    for name, value in values.items():
        if name in numbers and numbers[name] != value:
            yield f"filuvamoth.py: {name} is {value}, and FM_{name} is {numbers[name]}"
    for name, value in numbers.items():
        if -0x100 < value < 0 and name not in values:
            yield f"filuvamoth.py has no {name}"
    for kind, mark in ENUMERATIONS.items():
        for name, value in enumerations_of(tree)[kind].items():
            wanted = numbers.get(mark + (RENAMED.get(name, name) if kind == "Due" else name))
            if wanted != value:
                yield f"filuvamoth.py: {kind}.{name} is {value}, and in the header {wanted}"
    lists = {node.targets[0].id: node.value for node in tree.body if isinstance(node, ast.Assign) and isinstance(node.targets[0], ast.Name)}
    called = ast.unparse(lists["_CALLS"]).split("'")[1].replace("\\n", " ").split()
    wanted_names = {name.removeprefix("fm_") for name in names} - {"version"}
    for name in sorted(wanted_names ^ set(called)):
        yield f"filuvamoth.py: fm_{name} is {'called, and not declared' if name in called else 'declared, and not called'}"


def names_of(library: str) -> List[str]:
    """What a library defines for others: with -D where it is shared."""
    shared = ["-D"] if library.endswith(".so") else []
    found = subprocess.run(["nm", *shared, "--defined-only", "--extern-only", library], check=True, capture_output=True, text=True)
    return [line.split()[-1] for line in found.stdout.splitlines() if len(line.split()) == 3]


def wrong(top: Path, header: str, tree: ast.Module, libraries: List[str]) -> Iterator[str]:
    source = code_of(sorted((top / "crates/filuvamoth/src").glob("*.rt")))
    below = "\n".join(code_of(sorted((top / f"crates/{crate}/src").glob("*.rt"))) for crate in ("host_machine", "host_sight"))
    there, said = exported(source), declared(header)
    if not there:
        yield "no export was found"
    for name in sorted(there.keys() | said.keys()):
        if there.get(name) != said.get(name):
            yield f"{name}: exported {there.get(name)}, declared {said.get(name)}"
    of_source, of_header = members_in_source(below), members_in_header(header)
    for rust, c in STRUCTS.items():
        if of_source.get(rust) != of_header.get(c):
            yield f"{c} has {of_header.get(c)}, {rust} has {of_source.get(rust)}"
    numbers = numbers_in_header(header)
    for name, value in numbers_in_source(source + below).items():
        if numbers.get(name) != value:
            yield f"FM_{name} is {numbers.get(name)}, and {name} is {value}"
    told = {-int(number, 0) for number in re.findall(r"=> -(0x[0-9A-F]+|\d+),", below)}
    # Faults of configurations and scripts are no answers of an event, rule 1 of configurations and rules 4 to 7 of lines of no call.
    told -= {-0x200, -0x300, -0x201, -0x304, -0x305, -0x306, -0x307}
    for value in sorted(told - set(numbers.values())):
        yield f"the sources answer {value}, which the header does not name"
    yield from in_module(header, tree, list(said))
    for library in libraries:
        others = set(names_of(library)) ^ set(said)
        if others:
            yield f"{library}: {' '.join(sorted(others))} not in both, library and header"


def main() -> int:
    top, header, module, *libraries = sys.argv[1:]
    text = Path(header).read_text("utf-8")
    found = list(wrong(Path(top), text, ast.parse(Path(module).read_text("utf-8")), libraries))
    for it in found:
        print(it)
    print(f"{len(declared(text))} functions declared, {len(found)} wrong")
    return 1 if found else 0


if __name__ == "__main__":
    sys.exit(main())
