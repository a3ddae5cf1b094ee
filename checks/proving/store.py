"""What runs on this machine passed, kept for later ones, each thing under a sum of all that it stands on.

It lies outside the repository, in `$XDG_CACHE_HOME/zanstore-gate`, or `~/.cache/zanstore-gate`. Whoever may write there may make a crate count as proved.
"""

import hashlib
import os
import shutil
import tempfile
import time

from .gating import JUDGES
from .kit import rt, rtlib, sum_of_scripts

# What nobody took for so many seconds is let go.
LASTS = 3 * 24 * 3600


def same(file, to):
    """The same file under another name, where it can be: for what is written once, and then removed, but never changed."""
    try:
        os.link(file, to)
    except OSError:
        shutil.copy2(file, to)


def put(part, to):
    """The file or folder, if it is there. What a later check goes on with is copied."""
    how = shutil.copy2 if os.path.basename(part) == "incremental" else same
    if os.path.isdir(part):
        shutil.copytree(part, to, symlinks=True, copy_function=how)
    elif os.path.isfile(part):
        how(part, to)


class Store:
    """`is_blind`: nothing of earlier runs is taken."""

    def __init__(self, is_blind=False):
        self.is_blind, self.names = is_blind, set()
        cache = os.environ.get("XDG_CACHE_HOME") or os.path.expanduser("~/.cache")
        self.folder = f"{cache}/zanstore-gate/{sum_of_scripts([f'{rt.KIT}/WHAT', *JUDGES, 'storeless.py', 'store.py'])}"
        os.makedirs(self.folder, exist_ok=True)
        old = time.time() - LASTS
        for at in (os.path.dirname(self.folder), self.folder):
            for entry in os.scandir(at):
                if entry.path != self.folder and entry.stat().st_mtime < old:
                    shutil.rmtree(entry.path, ignore_errors=True)

    def name(self, crate, *what):
        """The name of what the crate passed, over all that it is made of."""
        return hashlib.sha256(repr((crate.stamp(), rtlib.text_of("HANDLES"), what)).encode()).hexdigest()

    def found(self, name):
        """The folder of what was kept under that name, if it was."""
        path = f"{self.folder}/{name}"
        if not os.path.isdir(path) or (self.is_blind and name not in self.names):
            return None
        os.utime(path)
        return path

    def keep(self, name, parts):
        """Keeps these files and folders of the crate's, each under its own name, all or nothing."""
        room = tempfile.mkdtemp(dir=self.folder, prefix="room-")
        try:
            for part in parts:
                put(part, f"{room}/{os.path.basename(part)}")
            shutil.rmtree(f"{self.folder}/{name}", ignore_errors=True)
            os.rename(room, f"{self.folder}/{name}")
            self.names.add(name)
        except OSError:
            # Another run has kept it, or there is no room: nothing rests on it.
            shutil.rmtree(room, ignore_errors=True)

    def take(self, path, folder, but):
        """Gives the folder all that was kept there but what has these names."""
        os.makedirs(folder, exist_ok=True)
        for entry in os.scandir(path):
            if entry.name not in but:
                shutil.rmtree(f"{folder}/{entry.name}", ignore_errors=True)
                put(entry.path, f"{folder}/{entry.name}")

    def said(self, name):
        """What was said of an edit that was refused."""
        path = self.found(name)
        return path and rtlib.text_of(f"{path}/said")

    def keep_said(self, name, text):
        with tempfile.TemporaryDirectory() as room:
            with open(f"{room}/said", "w", encoding="utf-8") as it:
                it.write(text)
            self.keep(name, [f"{room}/said"])
