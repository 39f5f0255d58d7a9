"""The places for copies besides the folder of `ops/backup`: a folder on another disk, or a folder of another host, by rsync and ssh. `ops/copy-away` writes there, `ops/watch` looks."""
import os
import re
import shutil
import subprocess

from chain_files import COPY, SUMS, Wrong, alone_in, are_as_written, copies_in, removes_halves, removes_old, to_disk

SSH = "ssh -o BatchMode=yes -o ConnectTimeout=20"


class Folder:
    """A folder on another disk of this machine. It isn't made here: a folder that is missing is a disk that isn't mounted."""

    def __init__(self, path):
        self.name = self.path = path

    def is_there(self, copies):
        """Raises what is wrong with the folder, if anything is."""
        if not os.path.isdir(self.path):
            raise Wrong(f"there is no folder {self.path}: is its disk mounted?", 3)
        if os.stat(self.path).st_dev == os.stat(copies).st_dev:
            raise Wrong(f"{self.path} is on the same disk as {copies}: is its own disk mounted?", 3)

    def is_whole(self, name):
        """Whether the copy has its digests here, and its files have them."""
        folder = os.path.join(self.path, name)
        return os.path.exists(os.path.join(folder, SUMS)) and are_as_written(folder, folder)

    def newest(self, copies):
        """Returns the name of the newest whole copy here, or None."""
        self.is_there(copies)
        return next((it for it in reversed(copies_in(self.path)) if self.is_whole(it)), None)

    def takes(self, copies, names, keep):
        """Copies those of the names that aren't whole here, removes what is older than the newest `keep`, and returns what was copied."""
        self.is_there(copies)
        with alone_in(self.path):
            removes_halves(self.path)
            missing = [it for it in names[-keep:] if not self.is_whole(it)]
            for name in missing:
                self.takes_one(os.path.join(copies, name), os.path.join(self.path, name))
            removes_old(self.path, keep)
        return missing

    def takes_one(self, copy, whole):
        part = whole + ".part"
        try:
            shutil.copytree(copy, part)
            if not are_as_written(part, copy):
                raise Wrong(f"{copy} isn't at {self.path} as it was written: its sums differ", 1)
            for it in (*(os.path.join(part, name) for name in os.listdir(part)), part):
                to_disk(it)
            shutil.rmtree(whole, ignore_errors=True)
            os.rename(part, whole)
            to_disk(self.path)
        except BaseException:
            shutil.rmtree(part, ignore_errors=True)
            raise


class Host:
    """A folder of another host, as HOST:FOLDER. Nothing is read from there, and nothing is removed, so a key that may only write is enough."""

    def __init__(self, path):
        self.name = self.path = path

    def rsync(self, *words):
        """Runs rsync, and returns what it would change or has changed: a line each."""
        shell = os.environ.get("RSYNC_RSH", SSH)
        ran = subprocess.run(["rsync", "--timeout=60", "-e", shell, "-rt", "--omit-dir-times", "--itemize-changes", *words, self.path + "/"], capture_output=True, text=True, errors="replace")
        if ran.returncode:
            lines = (ran.stderr.strip() or f"rsync ends with {ran.returncode}").splitlines()
            raise Wrong(f"{self.path}: {lines[0]}", 3)
        return ran.stdout.splitlines()

    def changes(self, copies, patterns, *more):
        """Returns the names of the copies at the host that rsync would change."""
        filters = [it for pattern in patterns for it in (f"--include={pattern}", f"--include={pattern}/**")]
        lines = self.rsync("--dry-run", *more, *filters, "--exclude=*", copies + "/")
        found = {it.split(" ", 1)[1].split("/")[0] for it in lines if " " in it}
        return sorted(it for it in found if COPY.fullmatch(it))

    def missing(self, copies):
        return self.changes(copies, ["/" + "[0-9]" * 8 + "T" + "[0-9]" * 6 + "Z"])

    def newest(self, copies):
        """Returns the name of the newest copy of this machine that is whole there, by its files' lengths and times, or None."""
        missing = self.missing(copies)
        return next((it for it in reversed(copies_in(copies)) if it not in missing), None)

    def takes(self, copies, names, keep):
        """Copies those of the names that aren't there, compares their content, and returns them. The digests go first: a copy that is cut is then known as one."""
        missing = [it for it in self.missing(copies) if it in names[-keep:]]
        for name in missing:
            for path in (f"{copies}/./{name}/{SUMS}", f"{copies}/./{name}"):
                self.rsync("--relative", "--chmod=D700,F600", path)
            if self.changes(copies, [f"/{name}"], "--checksum"):
                raise Wrong(f"{name} isn't at {self.path} as it was written", 1)
        return missing


def place(path):
    """A colon before any slash names a host, as with rsync and scp."""
    return Host(path.rstrip("/")) if re.match(r"[^/]+:", path) else Folder(path)
