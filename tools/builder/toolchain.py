"""The module behind `rt`, with sums that are computed once.

`rt` sums a crate's sources once for each path down crates.txt, which takes half a minute for the uppermost crate alone. Run as a program it
is `rt` itself: the words are those of `rt`, in the folder of a crate.
"""
import functools
import importlib.machinery
import importlib.util
import os
import re
import shutil
import sys


def load(top=None):
    """The module. With the folder of a repository its crates are held to the file HANDLES there, as under `rt ci`."""
    sys.dont_write_bytecode = True
    path = os.path.realpath(shutil.which("rt") or sys.exit("rt is not on the PATH"))
    loader = importlib.machinery.SourceFileLoader("rt", path)
    module = importlib.util.module_from_spec(importlib.util.spec_from_loader("rt", loader))
    module.__file__ = path
    loader.exec_module(module)
    for name in ("stamp", "below"):
        setattr(module.rtlib.Crate, name, functools.cache(getattr(module.rtlib.Crate, name)))
    if top:
        module.Crate.allowed = module.handles_of(top)
        module.rtlib.Crate = module.Crate
    return module


def build_library(module, crate):
    """Builds the library of a crate over what its last check left, and holds it to the conditions of `rt ci`; `rt lib` asks none of them.
    Gives the status."""
    stamp, kept = crate.stamp(), f"{crate.folder}/out/rlib/stamp"
    shutil.rmtree(os.path.dirname(kept), ignore_errors=True)
    os.makedirs(os.path.dirname(kept))
    verdict = module.rtlib.VERDICT.pattern.replace(r"statements=trusted\n", r"statements=trusted( incremental=trusted)?\n")
    module.rtlib.VERDICT = re.compile(verdict, re.M)
    status = crate.prove(["build", *crate.words(["--jobs", "1"]), *module.rtlib.KEPT, "-o", crate.rlib])
    if status == 0:
        with open(kept, "w", encoding="utf-8") as file:
            file.write(stamp)
    return status


if __name__ == "__main__":
    sys.exit(load().main(sys.argv[1:]))
