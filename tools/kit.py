"""What the scripts of tools/ have in common: the toolchain's folder, and a crate as its command rt reads it."""

import importlib.machinery
import importlib.util
import pathlib
import shutil
import sys

ROOT = pathlib.Path(__file__).resolve().parent.parent
sys.dont_write_bytecode = True


def home():
    """The folder of the toolchain."""
    command = shutil.which("rt")
    if not command:
        sys.exit("rt, the toolchain's command, is not on the PATH")
    return pathlib.Path(command).resolve().parent.parent


def load(name, path):
    """A script as a module, whatever the ending of its name."""
    loader = importlib.machinery.SourceFileLoader(name, str(path))
    module = importlib.util.module_from_spec(importlib.util.spec_from_loader(name, loader))
    loader.exec_module(module)
    return module


def crate(name):
    """A crate of this repository, as rt reads it: `words` are those with which rt calls the checker in its folder."""
    return load("rtlib", home() / "bin/rtlib.py").Crate(str(ROOT / "crates" / name), str(ROOT), {})


def left_by_ci(it):
    """Whether every library below a crate is as `rt ci` leaves it: built, and without the mark of a check of one's own."""
    folders = [pathlib.Path(below.rlib).parent for below in it.below()]
    return all((f / f"{f.parent.parent.name}.rlib/format").is_file() and not (f / "stamp").exists() for f in folders)
