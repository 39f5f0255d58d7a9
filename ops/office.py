"""Head office's desk: tokens from files, a kept connection to the served chain, CSV files, and films by their titles. What the scripts beside this one share."""
import contextlib
import csv
import hashlib
import http.client
import json
import os
import re
import shutil
import sqlite3
import tempfile
import time

from chain_files import LOG, Wrong, are_as_written, files
from copy_reading import find_copy

# A connection has 1,000 requests; one that was silent for 30 seconds is gone.
MOST, SILENT = 1000, 20
# How the keys of names begin. `load-catalogue` and `setup` begin them alike, so either takes a name that the other has added.
PREFIX = "load"


def token_of(path):
    """Reads a token from a file that its owner alone may read."""
    try:
        with open(path, encoding="ascii") as file:
            if os.fstat(file.fileno()).st_mode & 0o077:
                raise Wrong(f"other users may read {path}: chmod 600 {path}", 2)
            token = file.read(100).strip()
    except (OSError, UnicodeDecodeError) as fault:
        raise Wrong(f"{path}: {fault}", 2) from fault
    if not re.fullmatch(r"[0-9a-f]{32}", token):
        raise Wrong(f"there is no token in {path}: 32 digits of lower-case hexadecimal, and nothing else", 2)
    return token


def key(prefix, kind, *marks):
    """A key of at most 40 characters: the mark if it has room, and a digest if it hasn't or may have other characters."""
    plain = "-".join((prefix, kind, *marks))
    if re.fullmatch(r"[A-Za-z0-9-]{1,40}", plain) and len(marks) == 1:
        return plain
    digest = hashlib.sha256("\0".join(marks).encode()).hexdigest()
    return f"{prefix}-{kind}-{digest}"[:40]


def answers(port):
    """Whether a chain is served at this port of 127.0.0.1. No token is needed to ask."""
    connection = http.client.HTTPConnection("127.0.0.1", port, timeout=10)
    try:
        connection.request("GET", "/", headers={"connection": "close"})
        return connection.getresponse().read(200) == b'{"refused":"no_counter"}'
    except (OSError, http.client.HTTPException):
        return False
    finally:
        connection.close()


class Caller:
    """A kept connection of whoever has a token. It is made anew before its last request, after it was silent, and after it broke."""

    def __init__(self, port, token, seconds):
        self.port, self.fields, self.seconds, self.it, self.left, self.since = port, {"counter-token": token}, seconds, None, 0, 0.0

    def asks(self, method, path, body=None):
        """Returns the status and the reply. Sends the request again for so many seconds while no reply comes: it is a look, or a word under its key."""
        until = time.monotonic() + self.seconds
        while True:
            try:
                status, reply = self.asks_once(method, path, body)
                if status != 503:
                    return status, reply
                fault = json.dumps(reply)
            except (OSError, http.client.HTTPException, ValueError) as it:
                fault = str(it) or type(it).__name__
            self.closes()
            if time.monotonic() >= until:
                raise Wrong(f"no reply at port {self.port}: {fault}; run it again", 3)
            time.sleep(min(1, self.seconds / 4))

    def asks_once(self, method, path, body):
        if self.left == 0 or time.monotonic() > self.since + SILENT:
            self.closes()
            self.it, self.left = http.client.HTTPConnection("127.0.0.1", self.port, timeout=60), MOST
        self.left -= 1
        self.it.request(method, path, body, self.fields)
        reply = self.it.getresponse()
        text, self.since = reply.read(), time.monotonic()
        return reply.status, json.loads(text)

    def says(self, words):
        """Gives a word of head office; returns the status and the reply."""
        return self.asks("POST", "/office", json.dumps(words))

    def closes(self):
        if self.it:
            self.it.close()
        self.it, self.left = None, 0


def add_server_options(words):
    """The options by which a script finds the server."""
    words.add_argument("--port", type=int, default=8080, help="where the chain is served (8080)")
    words.add_argument("--seconds", type=float, default=30, help="for how long a request is sent again while no reply comes (30)")


class Row(dict):
    """A row of a CSV file, and its place there."""

    def __init__(self, at, fields):
        super().__init__(fields)
        self.at = at


def read_rows(path, is_header, checks, may_be_empty):
    """Reads a CSV file: its header, which has to be one that is known, and its rows, each of whose fields passes the check of its column."""
    try:
        with open(path, encoding="utf-8-sig", newline="") as file:
            table = csv.reader(file, strict=True)
            header = next(table, [])
            if not is_header(header):
                raise Wrong(f"{path}: its first line is none of those that are known: {','.join(header)!r:.200}", 2)
            return header, [checked(f"{path}, line {table.line_num}", header, fields, checks, may_be_empty) for fields in table if fields]
    except (csv.Error, OSError, UnicodeDecodeError) as fault:
        raise Wrong(f"{path}: {fault}", 2) from fault


def checked(at, header, fields, checks, may_be_empty):
    if len(fields) != len(header):
        raise Wrong(f"{at}: {len(fields)} fields where {len(header)} are wanted", 2)
    row = Row(at, zip(header, fields))
    for name, text in row.items():
        if not checks[name](text) and (text or name not in may_be_empty):
            raise Wrong(f"{at}: {name} can't be {text!r:.80}", 2)
    return row


def is_text(low, high):
    return lambda text: low <= len(text.encode()) <= high and not re.search(r"[\x00-\x1f\x7f]", text)


def is_number(low, high):
    return lambda text: re.fullmatch(r"[0-9]{1,10}", text) is not None and low <= int(text) <= high


def fold(title):
    """A title for comparison: in one case, with one blank for several."""
    return " ".join(title.split()).casefold()


class CounterFilms:
    """The films of the served chain, as a branch's counter sees them."""

    def __init__(self, caller):
        self.caller = caller

    def looks(self, path):
        status, reply = self.caller.asks("GET", path)
        if status != 200 and reply.get("refused") != "no_film":
            raise Wrong(f"the counter's token: {path} is refused: {json.dumps(reply)}", 2)
        return reply if status == 200 else None

    def titles(self):
        return [(row["film"], row["title"]) for row in self.looks("/views/film_list")]

    def film(self, number):
        """The film's row, or None."""
        return self.looks(f"/film/{number}")


class CopyFilms:
    """The films of a copy of the chain."""

    def __init__(self, copy):
        with opened(copy) as db:
            self.rows = {number: {"title": title, "withdrawn": bool(withdrawn)} for number, title, withdrawn in db.execute("SELECT number, title, withdrawn FROM film")}

    def titles(self):
        return [(number, row["title"]) for number, row in self.rows.items()]

    def film(self, number):
        return self.rows.get(number)


class Titles:
    """The numbers of films by their titles."""

    def __init__(self, films):
        self.numbers = {}
        for number, title in films.titles():
            self.numbers.setdefault(fold(title), []).append(number)

    def find_film(self, title):
        """The number of the one film with that title, and else None and what is doubtful."""
        found = self.numbers.get(fold(title), [])
        if len(found) == 1:
            return found[0], ""
        return None, f"films {', '.join(map(str, found))} have the title" if found else "no film has the title"


@contextlib.contextmanager
def opened(copy):
    """Opens a copy of the chain to read: the newest of a folder of ops/backup, a copy in it, or a file. Reads a copy of its own, since SQLite leaves a file beside what it reads."""
    file = find_copy(copy)
    with tempfile.TemporaryDirectory() as folder:
        for it in files(file):
            shutil.copyfile(it, os.path.join(folder, "shop.db" + (LOG if it == file + LOG else "")))
        if not are_as_written(folder, os.path.dirname(file)):
            raise Wrong(f"{copy} isn't as it was written: its sums differ", 1)
        db = sqlite3.connect(f"file:{folder}/shop.db?mode=ro", uri=True)
        try:
            yield db
        except sqlite3.Error as fault:
            raise Wrong(f"{copy}: {fault}", 3) from fault
        finally:
            db.close()


def write_whole(path, text, mode=0o666):
    """Writes a file that has its name only when it is whole and on the disk."""
    part = f"{path}.{os.getpid()}.part"
    fd = os.open(part, os.O_WRONLY | os.O_CREAT | os.O_EXCL, mode)
    try:
        with open(fd, "w", encoding="utf-8", newline="") as file:
            file.write(text)
            file.flush()
            os.fsync(file.fileno())
        os.rename(part, path)
    except BaseException:
        os.unlink(part)
        raise


# The sheets that ops/sheet writes: another form has another version.
SHEET_VERSION = "1"
# What a line of the copies' sheet with a name has in place of the version.
SHEET_NAMES = ("branch", "staff", "city")
COPY_SHEET = ["version", "branch", "until", "copy", "film", "title", "rating", "price", "rental", "customer", "name", "due"]
CUSTOMER_SHEET = ["version", "branch", "until", "customer", "name"]


def numbered_path(path, place):
    """The name of the file of that place, from 1, where one file isn't enough: `FILE`, `FILE-2` and so on, before the ending."""
    stem, ending = os.path.splitext(path)
    return path if place == 1 else f"{stem}-{place}{ending}"


def write_numbered(path, texts, mode=0o666):
    """Writes so many files, and returns their names. A file with the next name would be taken for one of them, so it may not be there."""
    paths = [numbered_path(path, place) for place in range(1, len(texts) + 1)]
    beyond = numbered_path(path, len(texts) + 1)
    if os.path.exists(beyond):
        raise Wrong(f"{beyond} is there and would be taken for one of these files: move it away", 2)
    for it, text in zip(paths, texts):
        write_whole(it, text, mode)
    return paths
