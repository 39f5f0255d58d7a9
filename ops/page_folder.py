"""A folder that is written whole or not at all: in a folder beside it, which then takes its place in one step."""
import contextlib
import ctypes
import errno
import fcntl
import os
import shutil

from chain_files import Wrong, to_disk

MARK = "made-by-ops-pages"
EXCHANGE, HERE = 2, -100


def exchange(one, other):
    """Exchanges two folders' names in one step. Returns whether the file system can."""
    libc = ctypes.CDLL(None, use_errno=True)
    if libc.renameat2(HERE, os.fsencode(one), HERE, os.fsencode(other), EXCHANGE) == 0:
        return True
    if (fault := ctypes.get_errno()) in (errno.EINVAL, errno.ENOSYS):
        return False
    raise OSError(fault, os.strerror(fault), one)


class PageFolder:
    """The folder `out`, and what is made for it in `out.part`: `pages`, which takes its place, and `copy`, which doesn't."""

    def __init__(self, out, group=None):
        self.out, self.group = out, group
        self.part, self.old = out + ".part", out + ".old"
        self.pages, self.copy = os.path.join(self.part, "pages"), os.path.join(self.part, "copy")

    @contextlib.contextmanager
    def made(self):
        """Has the folders to write in, alone, and takes them away whatever happens."""
        above = os.path.dirname(self.out)
        lock = os.open(above, os.O_RDONLY | os.O_DIRECTORY)
        try:
            try:
                fcntl.flock(lock, fcntl.LOCK_EX | fcntl.LOCK_NB)
            except BlockingIOError:
                raise Wrong(f"pages are being made in {above}", 3) from None
            self.mend()
            for it in (self.part, self.pages, self.copy):
                os.mkdir(it, 0o700)
            try:
                yield
            finally:
                shutil.rmtree(self.part, ignore_errors=True)
        finally:
            os.close(lock)

    def mend(self):
        """Takes away what a run left that was killed. If it was killed between two steps, the old folder gets its name again."""
        shutil.rmtree(self.part, ignore_errors=True)
        if os.path.exists(os.path.join(self.old, MARK)):
            os.rename(self.old, self.part if os.path.exists(self.out) else self.out)
            shutil.rmtree(self.part, ignore_errors=True)
        if os.path.lexists(self.out) and not os.path.exists(os.path.join(self.out, MARK)) and not (os.path.isdir(self.out) and not os.listdir(self.out)):
            raise Wrong(f"{self.out} is there, and isn't a folder of pages", 2)

    def write(self, folder, files):
        """Writes a folder with its files."""
        os.mkdir(os.path.join(self.pages, folder), 0o700)
        for name, content in files.items():
            self.write_file(os.path.join(folder, name), content)
        self.give(os.path.join(self.pages, folder), 0o750)
        to_disk(os.path.join(self.pages, folder))

    def write_file(self, name, content):
        path = os.path.join(self.pages, name)
        with open(path, "xb", opener=lambda it, flags: os.open(it, flags, 0o600)) as to:
            to.write(content)
            to.flush()
            os.fsync(to.fileno())
        self.give(path, 0o640)

    def give(self, path, mode):
        """Lets the group read a file or a folder, if there is one that may."""
        if self.group is not None:
            os.chown(path, -1, self.group)
            os.chmod(path, mode)

    def publish(self, made_of):
        """Puts the pages in the place of the old ones."""
        self.write_file(MARK, made_of.encode())
        self.give(self.pages, 0o750)
        to_disk(self.pages)
        if not os.path.lexists(self.out):
            os.rename(self.pages, self.out)
        elif not exchange(self.pages, self.out):
            os.rename(self.out, self.old)
            os.rename(self.pages, self.out)
            os.rename(self.old, os.path.join(self.part, "old"))
        to_disk(os.path.dirname(self.out))
