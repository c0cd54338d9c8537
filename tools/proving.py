#!/usr/bin/env python3
"""Proves one crate as `rt ci` does, over the libraries below it that were proved so before: for the kit 13b, whose `rt ci` takes no names.

    tools/proving.py NAME

It proves the crate, builds a program by both compilers and runs it, and tries must-fail edits. `out/proved` in the crate's folder then has
a sum of its sources and of all below. tools/prove calls it; it is no gate. It knows how the kit's command works inside, so another kit may
need it changed.
"""

import importlib.machinery
import importlib.util
import os
import pathlib
import shutil
import sys
import types
from typing import Any

TOP = pathlib.Path(__file__).resolve().parent.parent


def kit() -> types.ModuleType:
    """The kit's command, as a module, set as for `rt ci`."""
    path = shutil.which("rt")
    if path is None:
        sys.exit("tools/proving.py: there is no rt in PATH")
    loader = importlib.machinery.SourceFileLoader("rt_command", os.path.realpath(path))
    spec = importlib.util.spec_from_loader("rt_command", loader)
    if spec is None:
        sys.exit(f"tools/proving.py: {path} cannot be read")
    made = importlib.util.module_from_spec(spec)
    loader.exec_module(made)
    made.rtlib.stop = made.stop
    made.Crate.cuts_libraries = True
    made.rtlib.guarded()
    made.Crate.allowed = made.handles_of(str(TOP))
    made.rtlib.Crate = made.Crate
    reckon, sums = made.Crate.stamp, dict[str, str]()

    def stamp(crate: Any) -> str:
        """The sum of the sources of a crate and of those below, reckoned once: the kit reckons those below anew for each above."""
        if crate.name not in sums:
            sums[crate.name] = reckon(crate)
        return sums[crate.name]

    made.Crate.stamp = stamp
    return made


def mark(crate: Any) -> pathlib.Path:
    """Where it is noted of which sources a crate was proved."""
    return pathlib.Path(crate.folder, "out", "proved")


def is_proved(crate: Any) -> bool:
    """Whether these sources of a crate, and of those below it, were proved."""
    return mark(crate).is_file() and mark(crate).read_text(encoding="utf-8") == crate.stamp()


def runs(command: types.ModuleType, crate: Any) -> bool:
    """Whether a program prints what it is to, as both compilers made it; true of a library."""
    ends = [end for end in command.BACKENDS.values() if crate.is_program and os.path.isfile(f"{crate.folder}/out/{crate.name}{end}")]
    return all([command.run(crate, False, end) for end in ends])


def refuses(command: types.ModuleType, crate: Any) -> bool:
    """Whether the prover refuses each must-fail edit of a crate."""
    good, bad = command.edits_of(crate)
    tried = command.must_fail_all(crate, good, ["--jobs", "1"]) if good else []
    for _, text in tried:
        command.say(text)
    return not bad and all(refused for refused, _ in tried)


def main() -> int:
    """Proves the crate of the name."""
    os.chdir(TOP)
    command = kit()
    crates = {crate.name: crate for crate in command.rtlib.crates_below(str(TOP))}
    crate = crates[sys.argv[1]]
    if is_proved(crate):
        return 0
    lacking = [below.name for below in crate.below() if not is_proved(below)]
    if lacking:
        command.say(f"{crate.name}: {lacking[0]} was not proved")
        return 1
    mark(crate).unlink(missing_ok=True)
    mark(crate).parent.mkdir(exist_ok=True)
    unlaid = command.rtlib.fmt(crate.folder, "--check", crate.out)
    if unlaid or crate.ci(["--jobs", os.environ.get("RT_JOBS", "1")], False) or not runs(command, crate) or not refuses(command, crate):
        return 1
    mark(crate).write_text(crate.stamp(), encoding="utf-8")
    return 0


if __name__ == "__main__":
    sys.exit(main())
