"""The kit's command rt as a module, for the tools that do single steps of it."""
import importlib.machinery
import importlib.util
import shutil
import sys


def kit():
    """The module of the kit's command rt."""
    path = shutil.which("rt")
    if not path:
        sys.exit("the Rattle toolchain's command rt is not on the PATH")
    loader = importlib.machinery.SourceFileLoader("rt", path)
    module = importlib.util.module_from_spec(importlib.util.spec_from_loader("rt", loader))
    loader.exec_module(module)
    return module
