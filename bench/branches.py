"""Branches with several tills, over a chain that is served: real tills at their prompts, a real desk with two windows, and tills of this file's, which send the same bytes and keep books of the
journal alone, as a program did that made no tables beside it. So whatever reads tills' books here has all kinds."""
import contextlib
import datetime
import json
import os
import shutil
import socket
import sqlite3
import subprocess
import sys
import tempfile
import threading
import time

import shop

TILL = os.environ.get("TILL", os.path.join(os.path.dirname(os.path.abspath(__file__)), "../crates/till/out/till"))
shop.PROGRAM = os.environ.get("SAKILA", shop.PROGRAM)
JOURNAL = ("CREATE TABLE entry (number INT NOT NULL, request BLOB NOT NULL, PRIMARY KEY (number)) STRICT",
          "CREATE TABLE reply (number INT NOT NULL, status INTEGER NOT NULL, body BLOB NOT NULL, PRIMARY KEY (number)) STRICT",
          "CREATE TABLE settled (number INT NOT NULL, status INTEGER NOT NULL, body BLOB NOT NULL, PRIMARY KEY (number)) STRICT")
PLACE = ["--address", "1 High", "--postal", "", "--phone", "", "--city", "1"]


def token(branch):
    return f"{branch:032x}"


def now():
    return datetime.datetime.now(datetime.timezone.utc).replace(tzinfo=None, microsecond=0)


def post(of, path, body):
    return f"POST {path} HTTP/1.1\r\nhost: till\r\ncounter-token: {of}\r\nconnection: close\r\ncontent-length: {len(body)}\r\n\r\n".encode() + body


def copied(book, to):
    for it in ("", "-wal"):
        if os.path.exists(book + it):
            shutil.copy(book + it, to + it)
    return to


@contextlib.contextmanager
def opened(file):
    """A connection to a copy of the two files: what SQLite leaves beside what it reads is never beside a till's book."""
    with tempfile.TemporaryDirectory() as folder, contextlib.closing(sqlite3.connect(copied(file, os.path.join(folder, "copy")))) as it:
        yield it


def accepted(book):
    with opened(book) as it:
        replies = dict(it.execute("SELECT number, body FROM reply WHERE status = 200")) | dict(it.execute("SELECT number, body FROM settled WHERE status = 200"))
        requests = dict(it.execute("SELECT number, request FROM entry"))
    return [(bytes(requests[number]), bytes(body)) for number, body in sorted(replies.items())]


def asked_in(request):
    """The act of a request, its key, its words or members, and its moment."""
    head, _, body = request.partition(b"\r\n\r\n")
    path = head.split(b" ")[1].decode()
    if path.startswith("/import/"):
        _, _, key, _, moment, _ = path.split("/")
        return "import", key, {}, moment
    told = json.loads(body)
    return (told[0], told[told.index("--key") + 1], told, "") if path == "/office" else (path[1:], told["key"], told, told["at"])


class Server:
    """`sakila serve` of a file, at a port that stays the same."""

    def __init__(self, file):
        self.file = file
        with socket.socket() as it:
            it.bind(("127.0.0.1", 0))
            self.port = it.getsockname()[1]

    def start(self):
        self.program = subprocess.Popen([shop.PROGRAM, "--db", self.file, "serve", "--port", str(self.port), "--connections", "1000000"])
        while self.program.poll() is None:
            try:
                socket.create_connection(("127.0.0.1", self.port)).close()
                return
            except OSError:
                time.sleep(0.05)
        sys.exit(f"bench: the server ends with {self.program.returncode}")

    def kill(self):
        self.program.kill()
        self.program.wait()

    def ask(self, request):
        """The status and the body of the reply to a request that asks for the connection's end."""
        with socket.create_connection(("127.0.0.1", self.port), timeout=120) as it:
            it.sendall(request)
            told = b""
            while piece := it.recv(1 << 16):
                told += piece
        head, _, body = told.partition(b"\r\n\r\n")
        return int(head.split(b" ")[1]), body

    def office(self, *words):
        status, body = self.ask(post(token(0), "/office", json.dumps(words).encode()))
        if status != 200:
            sys.exit(f"bench: {words}: {body!r}")
        return json.loads(body)


class Branch:
    """What the tills of a branch of this script's know of it together."""

    def __init__(self, number, staff):
        self.number, self.staff, self.lock = number, staff, threading.RLock()
        self.customers, self.inside, self.out, self.lots = [], [], {}, 0


class WrittenTill:
    """A till of this script's: it writes each entry into a book, sends it, and writes the reply down."""

    def __init__(self, folder, name, served, branch, rng):
        self.path, self.served, self.branch, self.rng = os.path.join(folder, name), served, branch, rng
        self.mark = "t" + "".join(rng.choice("abcdefghijklmnop") for _ in range(10))
        self.book = sqlite3.connect(self.path, check_same_thread=False, isolation_level=None)
        self.book.execute("PRAGMA journal_mode = WAL")
        for it in JOURNAL:
            self.book.execute(it)
        self.count, self.last, self.took = 0, now(), []

    def enters(self, path, members, file=None, is_lost=False):
        """Enters a command and sends it. Returns its reply, or None if it was refused. If it `is_lost`, its reply is."""
        self.count += 1
        self.last = max(now(), self.last + datetime.timedelta(seconds=1))
        key, at = f"{self.mark}-{self.count}", self.last.isoformat()
        if file is not None:
            request = post(token(self.branch.number), f"/import/{key}/{self.branch.staff}/{at}/{members}", file)
        else:
            request = post(token(self.branch.number), path, json.dumps({"at": at, "key": key, "staff": self.branch.staff, **members}).encode())
        self.book.execute("INSERT INTO entry VALUES (?, ?)", (self.count, request))
        began = time.monotonic()
        status, body = self.served.ask(request)
        self.took.append(time.monotonic() - began)
        if is_lost:
            return None
        self.book.execute("INSERT INTO reply VALUES (?, ?, ?)", (self.count, status, body))
        if b"moment_back" in body:
            self.last += datetime.timedelta(seconds=self.rng.randrange(2, 5))
        return json.loads(body) if status == 200 else None

    def joins(self, is_lost=False):
        told = self.enters("/customer", {"first": "ANN", "last": f"N{self.count}", "address": "1 Main", "postal": "", "phone": "555", "city": 1}, is_lost=is_lost)
        if told:
            self.branch.customers.append(told["customer"])

    def imports(self):
        with self.branch.lock:
            self.branch.lots += 1
            lot = f"{self.mark}-{self.branch.lots}"
        count = self.rng.randrange(2, 7)
        if told := self.enters("/import", lot, b"film_id,copies\n1,%d\n" % count):
            self.branch.inside += range(told["first"], told["first"] + told["copies"])

    def rents(self):
        with self.branch.lock:
            if not self.branch.inside or not self.branch.customers:
                return
            copy, customer = self.branch.inside.pop(self.rng.randrange(len(self.branch.inside))), self.rng.choice(self.branch.customers)
        if told := self.enters("/rent", {"customer": customer, "copy": copy}):
            self.branch.out[told["rental"]] = customer, copy
        else:
            self.branch.inside.append(copy)

    def takes_back(self, is_paid):
        with self.branch.lock:
            if not self.branch.out:
                return
            rental, (customer, copy) = self.branch.out.popitem()
        if self.enters("/return", {"rental": rental}):
            self.branch.inside.append(copy)
        else:
            self.branch.out[rental] = customer, copy
        if is_paid:
            self.enters("/pay", {"customer": customer, "rental": rental, "amount": self.rng.randrange(100, 999)})

    def sends(self, world):
        with self.branch.lock:
            copies = [self.branch.inside.pop() for _ in range(min(2, len(self.branch.inside)))]
        to = self.rng.choice([it for it in world.known if it != self.branch.number])
        if copies and (told := self.enters("/dispatch", {"to": to, "copies": copies})):
            world.under_way[to].append((self.branch.number, told["consignment"]))
        else:
            self.branch.inside += copies

    def receives(self, world):
        if world.under_way[self.branch.number]:
            source, number = world.under_way[self.branch.number].popleft()
            told = self.enters("/receive", {"from": source, "number": number, "missing": [1] if self.rng.random() < 0.3 else []})
            if told:
                self.branch.inside += told["copies"]
            else:
                world.under_way[self.branch.number].append((source, number))

    def works(self, world, count):
        for _ in range(count):
            drawn = self.rng.random()
            if drawn < 0.12 or not self.branch.customers:
                self.joins()
            elif drawn < 0.2 or not self.branch.inside:
                self.imports()
            elif drawn < 0.5:
                self.rents()
            elif drawn < 0.75:
                self.takes_back(drawn < 0.65)
            elif drawn < 0.83:
                self.sends(world)
            elif drawn < 0.91:
                self.receives(world)
            elif drawn < 0.94:
                self.enters("/customer-active", {"customer": self.rng.choice(self.branch.customers), "active": drawn < 0.925})
            elif drawn < 0.96 and self.branch.inside:
                self.enters("/scrap", {"copy": self.branch.inside.pop()})
            else:
                self.enters("/rent", {"customer": 4_000_000, "copy": 1})


class RealTill:
    """The program `till` at its prompt, with a book of its own."""

    def __init__(self, folder, name, served, branch, staff):
        self.path, self.folder = os.path.join(folder, name), folder
        who = ["--staff", str(staff), "--zone", "UTC"] if staff else ["--office"]
        subprocess.run([TILL, "--book", self.path, "init", f"127.0.0.1:{served.port}", token(branch), *who], check=True, stdout=subprocess.DEVNULL)
        if staff:
            subprocess.run([TILL, "--book", self.path, "today", shop.today()], check=True, stdout=subprocess.DEVNULL)
        self.opens()

    def opens(self):
        self.prompt = Prompt(self.path, self.folder)

    def says(self, line):
        return self.prompt.says(line)

    def closes(self):
        self.prompt.closes()


class Prompt:
    """`till` at its prompt, beside a book's settings or a window's."""

    def __init__(self, path, folder):
        self.program = subprocess.Popen([TILL, "--book", path], stdin=subprocess.PIPE, stdout=subprocess.PIPE, stderr=subprocess.STDOUT, cwd=folder)
        self.reads()

    def reads(self):
        """What is printed up to the next prompt, or to a question, at which the bench would wait without an end."""
        found = b""
        while not found.endswith((b"till> ", b"y/n ")):
            piece = os.read(self.program.stdout.fileno(), 1 << 16)
            if not piece:
                break
            found += piece
        return found.removesuffix(b"till> ").decode().strip()

    def says(self, line):
        self.program.stdin.write(line.encode() + b"\n")
        self.program.stdin.flush()
        return self.reads()

    def closes(self):
        self.program.stdin.close()
        self.program.wait()
        self.program.stdout.close()


class DeskTill(RealTill):
    """A desk that holds a book, and two windows, the second with a drawer of its own, which give its lines by turns."""

    def opens(self):
        self.windows = [f"{self.path}.window{n}" for n in (1, 2)]
        with socket.socket() as it:
            it.bind(("127.0.0.1", 0))
            port = it.getsockname()[1]
        self.desk = subprocess.Popen([TILL, "--book", self.path, "desk", "--port", str(port)], stdout=subprocess.PIPE, text=True, cwd=self.folder)
        while not (told := self.desk.stdout.readline()).startswith("the desk is open"):
            if not told:
                sys.exit("bench: the desk doesn't open")
        for it in self.windows:
            if os.path.exists(it + ".conf"):
                os.unlink(it + ".conf")
            drawer = ["--drawer", "1"] if it == self.windows[1] else []
            subprocess.run([TILL, "--book", it, "window", f"127.0.0.1:{port}", "--staff", "1", *drawer, "--secret-file", self.path + ".desk"], check=True, stdout=subprocess.DEVNULL, cwd=self.folder)
        self.prompts = [Prompt(it, self.folder) for it in self.windows]

    def says(self, line):
        self.prompts.reverse()
        return self.prompts[0].says(line)

    def closes(self):
        """The windows are closed, and the desk is killed, as a machine is that is switched off."""
        for it in self.prompts:
            it.closes()
        self.desk.kill()
        self.desk.wait()
        self.desk.stdout.close()
