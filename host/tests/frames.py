"""How much stack each exported call takes at most, by the machine's code of the library (x86-64): the sum of the frames along the deepest
chain of calls, as `tools/stack --bounds` adds them. What the C library takes below it is not in it.

    frames.py TOP LIBRARY

TOP has tools/stack. A call that has no bound, since it calls itself or by a pointer, ends the program with 1.
"""

from __future__ import annotations

import contextlib
import importlib.machinery
import importlib.util
import io
import sys
from pathlib import Path
from types import ModuleType
from typing import Dict


def loaded(tool: Path, library: str) -> ModuleType:
    """tools/stack as a module: it ends itself once it has run, here by printing the bounds that it knows of."""
    loader = importlib.machinery.SourceFileLoader("stack", str(tool))
    spec = importlib.util.spec_from_loader("stack", loader)
    assert spec is not None
    module = importlib.util.module_from_spec(spec)
    # Its own modules stand beside it, where it finds them when it is run.
    sys.path.insert(0, str(tool.parent))
    words, sys.argv = sys.argv, [str(tool), "--bounds", library]
    try:
        with contextlib.redirect_stdout(io.StringIO()):
            loader.exec_module(module)
    except SystemExit as ended:
        if ended.code:
            raise
    finally:
        sys.argv = words
    return module


def main() -> int:
    top, library = sys.argv[1:]
    code = loaded(Path(top) / "tools/stack", library).Code(library)
    found: Dict[str, int] = {}
    for start, name in code.names.items():
        if name.startswith("fm_"):
            blind = sorted(code.names[place] for place in code.below(start) & code.blind)
            if blind:
                print(f"{name} has no bound: {', '.join(blind)} call by a pointer")
                return 1
            found[name] = code.bound(start)[0]
    for name, most in sorted(found.items(), key=lambda pair: -pair[1]):
        print(name, most)
    return 0 if found else 1


if __name__ == "__main__":
    sys.exit(main())
