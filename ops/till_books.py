"""The entries of tills' books: what each one asked, what the server replied, and what is kept of them in a copy of a chain."""
import contextlib
import dataclasses
import json
import os
import re
import shutil
import sqlite3
import tempfile

from chain_files import LOG, Wrong, files

OFFICE = 0
KEY = re.compile(r"(t[a-p]{10})-(\d+)")
# Entries of one second at one branch are of different tills. In this order of acts, and by the number that each reply names, none of them waits for a later one.
SAME_SECOND = {
    "customer": (0, "customer"), "import": (1, "first"), "receive": (1, "copies"), "unbar": (2, None), "rent": (3, "rental"), "return": (3, "returned"),
    "pay": (4, "payment"), "dispatch": (5, "consignment"), "scrap": (5, "scrapped"), "bar": (6, None),
}


@dataclasses.dataclass(eq=False)
class Entry:
    """One entry of a book. `act` is a path without its slash or a word of head office, `asked` its members; `reply` is the accepted reply's body, or None while the entry waits."""

    book: str
    number: int
    request: bytes
    token: str
    act: str
    key: str | None
    asked: dict
    reply: bytes | None
    moment: str = ""
    branch: int | None = None

    def __str__(self):
        return f"entry {self.number} of {self.book} ({self.act}{', ' + self.moment if self.moment else ''})"

    def replied(self, name):
        return json.loads(self.reply).get(name) if self.reply else None

    def place(self):
        """Where the entry belongs among those of its branch, whose moments rise."""
        kind = self.act
        if kind == "customer-active":
            kind = "unbar" if self.asked["active"] else "bar"
        order, name = SAME_SECOND[kind]
        number = self.replied(name) or 0
        if isinstance(number, list):
            number = min(number, default=0)
        return self.moment, order, number, kind == "return"


@dataclasses.dataclass
class Book:
    """A book: its path, how many entries it has, those that were accepted, those that wait, and those that were refused and weren't made sure of. The oldest that waits, and each that
    was refused, may have been accepted too."""

    path: str
    count: int
    accepted: list
    waiting: list
    refused: list

    @property
    def marks(self):
        return {found[1] for it in self.accepted + self.waiting if (found := KEY.fullmatch(it.key))}


@contextlib.contextmanager
def opened(file):
    """A connection to a copy of the two files, which are left as they are: SQLite writes beside what it reads."""
    with tempfile.TemporaryDirectory() as folder:
        for it in files(file):
            shutil.copyfile(it, os.path.join(folder, "copy" + (LOG if it == file + LOG else "")))
        with contextlib.closing(sqlite3.connect(os.path.join(folder, "copy"))) as connection:
            yield connection


def option(words, name):
    """The value of an option in head office's words, as `--film 1` or `--film=1`."""
    for at, word in enumerate(words):
        if word == name and at + 1 < len(words):
            return words[at + 1]
        if word.startswith(name + "="):
            return word[len(name) + 1 :]
    return None


def read_entry(book, number, request, reply=None):
    """Reads what the bytes of a request ask."""
    head, _, body = request.partition(b"\r\n\r\n")
    path = head.split(b" ", 2)[1].decode()
    token = re.search(rb"\r\ncounter-token: *([0-9a-f]{32})", head)[1].decode()
    if path == "/office":
        words = json.loads(body)
        return Entry(book, number, request, token, words[0], option(words, "--key"), {"words": words}, reply)
    if path.startswith("/import/"):
        key, staff, moment, lot = path.removeprefix("/import/").split("/")
        films = {int(it) for it in re.findall(r'^"?(\d+)"?,', body.decode(errors="replace"), re.M)}
        return Entry(book, number, request, token, "import", key, {"staff": int(staff), "lot": lot, "films": films}, reply, moment)
    asked = json.loads(body)
    return Entry(book, number, request, token, path[1:], asked["key"], asked, reply, asked["at"])


def read_book(path):
    """Reads a book's journal: an entry is accepted if its reply is 200, or if it was sent once more and that reply is 200. The tables beside the journal aren't read. They are made from it,
    and a book that an earlier program made has none."""
    if not os.path.exists(path):
        raise Wrong(f"there is no book {path}", 3)
    try:
        with opened(path) as it:
            requests = {number: bytes(request) for number, request in it.execute("SELECT number, request FROM entry")}
            replies, settled = ({number: (status, bytes(body)) for number, status, body in it.execute(f"SELECT number, status, body FROM {table}")} for table in ("reply", "settled"))
    except sqlite3.Error as fault:
        raise Wrong(f"{path} is no till's book: {fault}", 3) from None
    try:
        accepted = [read_entry(path, number, requests[number], body) for number, (status, body) in sorted((replies | settled).items()) if status == 200]
        waiting = [read_entry(path, number, requests[number]) for number in sorted(set(requests) - set(replies))]
        refused = [read_entry(path, number, requests[number]) for number, (status, body) in sorted(replies.items()) if status != 200 and number not in settled and b"moment_back" not in body]
    except (ValueError, KeyError, TypeError, IndexError) as fault:
        raise Wrong(f"{path} has an entry that is no request: {fault!r}", 1) from None
    return Book(path, len(requests), accepted, waiting, refused)
