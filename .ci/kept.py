"""That an edit was refused is kept on this machine, so that it isn't tried again: each outcome in a file that is named by a
checksum of all that was read for it. .ci/edits imports this.

What is kept lies in the folder that TRACERD_KEPT names, else in ~/.cache/tracerd, and for 60 days after its last use. If
that folder can't be written, nothing is kept."""
import functools
import hashlib
import os
import shutil
import sys
import time

KIT = os.path.dirname(os.path.dirname(os.path.realpath(shutil.which("rt") or "rt")))
FOLDER = os.environ.get("TRACERD_KEPT") or os.path.expanduser("~/.cache/tracerd")
DAYS = 60


def data_of(path):
    with open(path, "rb") as it:
        return it.read()


def checksum(*parts):
    """The checksum of these parts, each made of texts, bytes and numbers."""
    return hashlib.sha256(repr(parts).encode()).hexdigest()


@functools.cache
def sum_of(path):
    """The checksum of a file, which doesn't change meanwhile."""
    return hashlib.sha256(data_of(path)).hexdigest()


def toolchain():
    """What the toolchain is called, and a checksum of its compiler and prover."""
    return data_of(f"{KIT}/KIT-ID"), sum_of(f"{KIT}/bin/rattle")


def library(rlib):
    """A built library by its file `format`, which has checksums of all that it is made of and of each library below it."""
    return sum_of(f"{rlib}/format")


def of_toolchain(name):
    """A library of the toolchain, in the same way."""
    return library(f"{KIT}/rlibs/{name}.rlib")


class Kept:
    """The outcomes that are kept. If none is to be used, what is tried anew is kept in its place."""

    def __init__(self, is_used=True):
        self.is_used, self.can_keep = is_used, True

    def find(self, key):
        """The text that was kept by this checksum. None if nothing was."""
        path = f"{FOLDER}/{key}"
        try:
            text = data_of(path).decode()
            os.utime(path)
        except OSError:
            return None
        return text if self.is_used else None

    def keep(self, key, text):
        """Keeps a text by this checksum: whole, or not at all. After a failure it isn't tried again."""
        path = f"{FOLDER}/{key}"
        try:
            if self.can_keep:
                os.makedirs(FOLDER, exist_ok=True)
                with open(f"{path}.{os.getpid()}", "w", encoding="utf-8") as it:
                    it.write(text)
                os.replace(f"{path}.{os.getpid()}", path)
        except OSError as why:
            self.can_keep = False
            print(f"nothing is kept: {why}", file=sys.stderr)

    def forget_old(self):
        """Removes what nobody used for long."""
        for name in os.listdir(FOLDER) if os.path.isdir(FOLDER) else ():
            path = f"{FOLDER}/{name}"
            if os.stat(path).st_mtime < time.time() - DAYS * 86400:
                os.remove(path)
