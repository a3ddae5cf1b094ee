"""Libraries that are loaded before the C library of a program, built from checks/NAME.c."""
import os
import struct
import subprocess

from programs import TOP

SHARED = struct.Struct("=3q")


def built_library(name):
    """Its path. It is built if it is older than its sources."""
    source, path = os.path.join(TOP, "checks", f"{name}.c"), os.path.join(TOP, "out", "libraries", f"{name}.so")
    newest = max(map(os.path.getmtime, (source, os.path.join(TOP, "checks", "preloaded.h"))))
    if not os.path.exists(path) or os.path.getmtime(path) < newest:
        os.makedirs(os.path.dirname(path), exist_ok=True)
        made = f"{path}.{os.getpid()}"
        subprocess.run([os.environ.get("CC", "cc"), "-O1", "-shared", "-fPIC", "-o", made, source, "-ldl", "-pthread"], check=True)
        os.replace(made, path)
    return path


def holding(folder, file, **more):
    """The environment in which syncs of the folder's files are held, as hold_syncs.c says, once this file is there."""
    return {"LD_PRELOAD": built_library("hold_syncs"), "HOLD_FOLDER": os.path.realpath(folder), "HOLD_FILE": file, **more}


class Refusing:
    """What refuse_allocation.c and this process share, in a file of this folder: which allocation is refused, how many there were since, how many were refused."""

    def __init__(self, folder, wanted=0):
        self.path = os.path.join(folder, "shared")
        self.put(wanted)

    def put(self, wanted):
        with open(self.path, "r+b" if os.path.exists(self.path) else "wb") as file:
            file.write(SHARED.pack(0, 0, 0))
            file.flush()
            file.seek(0)
            file.write(SHARED.pack(wanted, 0, 0)[:8])

    def found(self):
        """How many allocations there were, and how many were refused."""
        with open(self.path, "rb") as file:
            return SHARED.unpack(file.read())[1:]

    def environment(self):
        return {**os.environ, "LD_PRELOAD": built_library("refuse_allocation"), "REFUSE_SHARED": self.path}
