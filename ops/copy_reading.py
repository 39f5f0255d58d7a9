"""Copies of a chain for who reads them: which copy, its moment, and a copy of it to read, since SQLite leaves a file beside what it reads."""
import contextlib
import datetime
import os
import re
import shutil

from chain_files import LOG, Wrong, are_as_written, files, locked

NAME = re.compile(r"\d{8}T\d{6}Z")


def find_copy(path):
    """Returns the file of a copy: `path` itself, the one in the copy's folder, or that of the newest copy in a folder of `ops/backup`."""
    if not os.path.isdir(path):
        found = path
    elif os.path.exists(os.path.join(path, "shop.db")):
        found = os.path.join(path, "shop.db")
    else:
        found = os.path.join(path, max((it for it in os.listdir(path) if NAME.fullmatch(it)), default=""), "shop.db")
    if not os.path.exists(found):
        raise Wrong(f"there is no copy {path}" if found == path else f"there is no copy in {path}", 3)
    return found


def moment_of(copy):
    """Returns the moment in UTC at which a copy was made, by the name of its folder; None if that is another name."""
    name = os.path.basename(os.path.dirname(os.path.realpath(copy)))
    return datetime.datetime.strptime(name, "%Y%m%dT%H%M%SZ").strftime("%Y-%m-%dT%H:%M:%S") if NAME.fullmatch(name) else None


def take_copy(copy, folder):
    """Copies a copy into `folder`, and returns the file there. Fails with status 1 if the copy isn't as its digests say, or somebody has it."""
    # A copy that may not be written can't be locked, nor served.
    with locked(copy) if os.access(copy, os.W_OK) else contextlib.nullcontext(True) as is_ours:
        if not is_ours:
            raise Wrong(f"somebody has {copy}: make a copy with ops/backup", 1)
        for it in files(copy):
            shutil.copyfile(it, os.path.join(folder, "shop.db" + (LOG if it == copy + LOG else "")))
    if not are_as_written(folder, os.path.dirname(copy)):
        raise Wrong("the copy isn't as it was written: its sums differ", 1)
    return os.path.join(folder, "shop.db")
