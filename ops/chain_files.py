"""The two files of a chain, FILE and FILE-wal: who has them open, whether they are sound, and how they are copied. What the scripts beside this one share."""
import contextlib
import datetime
import fcntl
import hashlib
import json
import os
import re
import shutil
import struct
import subprocess
import sys

BESIDE = os.path.join(os.path.dirname(os.path.abspath(__file__)), "../crates/sakila/out/sakila")
LOG, SUMS = "-wal", "sums"
COPY = re.compile(r"\d{8}T\d{6}Z")


class Wrong(Exception):
    """Something that ends the script: its message, and the status."""

    def __init__(self, told, status):
        super().__init__(told)
        self.status = status


def program(named):
    """The program: the one that is named, or `sakila` of the PATH, or the one that is built beside these scripts."""
    found = named or shutil.which("sakila") or BESIDE
    if not shutil.which(found):
        raise Wrong(f"there is no program {found}: --program names it", 2)
    return found


def files(file):
    """Those of the two that are there."""
    return [it for it in (file, file + LOG) if os.path.exists(it)]


@contextlib.contextmanager
def locked(file):
    """Has the lock of the file by which the program, and SQLite, keep others out. Gives whether it was to be had; while it is, nobody can open the chain."""
    fd = os.open(file, os.O_RDWR)
    try:
        try:
            fcntl.fcntl(fd, fcntl.F_OFD_SETLK, struct.pack("hhqqi4x", fcntl.F_WRLCK, os.SEEK_SET, 0x40000000, 512, 0))
            is_ours = True
        except BlockingIOError:
            is_ours = False
        yield is_ours
    finally:
        os.close(fd)


def holders(file):
    """The processes that have either open, this one left out. Those of other users can be seen by root alone."""
    wanted = {(found.st_dev, found.st_ino) for it in files(file) for found in [os.stat(it)]}
    found = set()
    for pid in (int(it) for it in os.listdir("/proc") if it.isdigit() and int(it) != os.getpid()):
        try:
            for fd in os.listdir(f"/proc/{pid}/fd"):
                it = os.stat(f"/proc/{pid}/fd/{fd}")
                if (it.st_dev, it.st_ino) in wanted:
                    found.add(pid)
                    break
        except OSError:
            pass
    return found


def states(pid):
    """The states of a process's threads, as `T` of one that is held; none of a process that is gone."""
    found = []
    try:
        for task in os.listdir(f"/proc/{pid}/task"):
            with open(f"/proc/{pid}/task/{task}/stat") as it:
                found.append(it.read().rpartition(")")[2].split()[0])
    except OSError:
        pass
    return found


def audit(program_path, file):
    """What the program's audit says of a chain that nobody has: whether it is sound, and its words."""
    ran = subprocess.run(["nice", "-n", "10", program_path, "--db", file, "audit"], capture_output=True, text=True)
    told = ran.stdout.strip() or ran.stderr.strip() or f"status {ran.returncode}"
    try:
        return ran.returncode == 0 and json.loads(told)["sound"] is True, told
    except (ValueError, KeyError, TypeError):
        return False, told


def sums(folder):
    """The digests of a copy's files, as `sha256sum` writes and takes them. A log that is cut is still a sound chain, an older one: an audit doesn't see it, these do."""
    lines = []
    for it in files(os.path.join(folder, "shop.db")):
        digest = hashlib.sha256()
        with open(it, "rb") as file:
            while piece := file.read(1 << 20):
                digest.update(piece)
        lines.append(f"{digest.hexdigest()}  {os.path.basename(it)}\n")
    return "".join(lines)


def are_as_written(folder, of):
    """Whether the files of a folder are those of which a copy wrote the digests; a copy that wrote none is taken as it is."""
    if not os.path.exists(os.path.join(of, SUMS)):
        return True
    with open(os.path.join(of, SUMS)) as it:
        return it.read() == sums(folder)


def copies_in(folder):
    """Returns the names of a folder's whole copies, the oldest first."""
    return sorted(it for it in os.listdir(folder) if COPY.fullmatch(it)) if os.path.isdir(folder) else []


def moment_of(name):
    """Returns the moment at which a copy was taken, by its name."""
    return datetime.datetime.strptime(name + "+0000", "%Y%m%dT%H%M%SZ%z")


def removes_halves(folder):
    """Removes what a script that was stopped has left of a copy."""
    for it in os.listdir(folder):
        if it.endswith(".part") and COPY.fullmatch(it.removesuffix(".part")):
            shutil.rmtree(os.path.join(folder, it))


def removes_old(folder, keep):
    """Removes all copies but the newest; returns how many there are."""
    names = copies_in(folder)
    for it in names[:-keep]:
        # Renamed first, so that no half of a copy ever has a copy's name.
        os.rename(os.path.join(folder, it), os.path.join(folder, it + ".part"))
        shutil.rmtree(os.path.join(folder, it + ".part"))
    return len(names[-keep:])


@contextlib.contextmanager
def alone_in(folder):
    """Keeps other scripts that write copies out of the folder."""
    fd = os.open(os.path.join(folder, "lock"), os.O_CREAT | os.O_RDWR, 0o600)
    try:
        try:
            fcntl.flock(fd, fcntl.LOCK_EX | fcntl.LOCK_NB)
        except BlockingIOError:
            raise Wrong(f"another script is at work in {folder}", 3) from None
        yield
    finally:
        os.close(fd)


def to_disk(path):
    """Has a file or a folder written to the disk."""
    fd = os.open(path, os.O_RDONLY)
    try:
        os.fsync(fd)
    finally:
        os.close(fd)


def ends(main):
    """Runs the script: its status, and one line where it went wrong."""
    try:
        sys.exit(main())
    except Wrong as it:
        print(f"{os.path.basename(sys.argv[0])}: {it}", file=sys.stderr)
        sys.exit(it.status)
    except OSError as it:
        print(f"{os.path.basename(sys.argv[0])}: {it}", file=sys.stderr)
        sys.exit(3)
    except KeyboardInterrupt:
        sys.exit(130)
