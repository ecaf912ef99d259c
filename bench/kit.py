"""The kit's command rt as a module, which remembers within one call what it computes again and again of a crate's libraries.

rt goes along every path of crates.txt before a check, which takes minutes for a crate far above. This changes nothing of what
it does.
"""
import importlib.machinery
import importlib.util
import os
import shutil
import sys

RT = os.path.realpath(shutil.which("rt") or "rt")


def remember(method):
    """The method of a crate, computed once for each crate."""
    known = {}

    def answer(self):
        if self.folder not in known:
            known[self.folder] = method(self)
        found = known[self.folder]
        return list(found) if isinstance(found, list) else found

    return answer


def rt():
    """The module, its crates patched."""
    sys.dont_write_bytecode = True
    loader = importlib.machinery.SourceFileLoader("rt", RT)
    made = importlib.util.module_from_spec(importlib.util.spec_from_loader("rt", loader))
    loader.exec_module(made)
    crate = made.rtlib.Crate
    crate.below, crate.stamp = remember(crate.below), remember(crate.stamp)
    return made
