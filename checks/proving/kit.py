"""The toolchain's own `rt` as a module: what proves and judges here is what proves and judges in `rt ci`."""

import hashlib
import importlib.machinery
import importlib.util
import os
import shutil
import sys
import types

# The toolchains that these checks were held against. Their `rt` has no interface that it promises, so with any other one
# each command here is plain `rt`.
WITH_STORE = ("rattle-kit-13f logic dac8208d650f15bf",)
# Their `rt` keeps nothing of one run for the next: `storeless` has what is other for them.
STORELESS = ("rattle-kit-13b logic dac8208d650f15bf",)
HERE = os.path.dirname(os.path.realpath(__file__))


def folder():
    """The toolchain's folder, by the `rt` on the path."""
    found = shutil.which("rt")
    if not found:
        sys.exit("there is no rt on the path: install the Rattle toolchain first")
    return os.path.dirname(os.path.dirname(os.path.realpath(found)))


def name():
    try:
        with open(f"{folder()}/KIT-ID", encoding="utf-8") as file:
            return file.read().strip()
    except OSError:
        return None


def is_known():
    return name() in WITH_STORE + STORELESS


def has_store():
    return name() in WITH_STORE


def script(name, path):
    """A python script of the toolchain as a module."""
    loader = importlib.machinery.SourceFileLoader(name, path)
    made = importlib.util.module_from_spec(importlib.util.spec_from_loader(name, loader))
    sys.modules[name] = made
    loader.exec_module(made)
    return made


def sum_of_scripts(names):
    """The first digits of a sum of these scripts of this folder, or of other files."""
    made = hashlib.sha256()
    for name in names:
        with open(os.path.join(HERE, name), "rb") as it:
            made.update(it.read() + b"\0")
    return made.hexdigest()[:16]


def is_refused(kind):
    """Whether what rt says of an edit first is that it is refused. An rt that keeps nothing says no more than that."""
    return kind in (rt.REFUSED, rt.AT_LIMIT) if has_store() else kind


def is_settled(kind, text):
    """Whether a check over kept work settles what an edit comes to."""
    return kind in rt.SETTLED if has_store() else kind or "BAD EDIT: an 'old:'" in text


if is_known():
    rt = script("rt_of_kit", f"{folder()}/bin/rt")
    rtlib, REFUSED = rt.rtlib, rt.REFUSED if has_store() else True
    bodies = types.ModuleType("bodies_of_kit")
    bodies.__file__ = f"{folder()}/bin/rt-plant-bodies"
    importlib.machinery.SourceFileLoader("bodies_of_kit", bodies.__file__).exec_module(bodies)
else:
    rt = rtlib = bodies = REFUSED = None
