"""What scripts share that try tills over a chain: the chain, its server that is killed and started again, a line that is cut, a book read from its files, and how books are held against the
chain's table of kept commands."""
import collections
import json
import os
import random
import re
import select
import shutil
import socket
import sqlite3
import subprocess
import sys
import tempfile
import threading
import time

import shop

TILL = os.path.abspath(os.environ.get("TILL", os.path.join(os.path.dirname(os.path.abspath(__file__)), "../crates/till/out/till")))
shop.PROGRAM = os.environ.get("SAKILA", shop.PROGRAM)
MOST_CONNECTIONS = 1_000_000
CUT, LATE = 0.25, 0.06
SERVER_LIVES = (1.0, 8.0)
LATEST = 2.0
# After these a refused entry never acts, so the book doesn't have it among those that are unsure.
FINAL = {b'{"refused":"%s"}' % it for it in (b"bad_head", b"too_long", b"no_route", b"bad_body", b"key_used", b"full", b"moment_back")}
failed = []
lock = threading.Lock()


def same(what, found, wanted):
    with lock:
        print(f"{'ok' if found == wanted else 'NOT'}  {what}", flush=True)
        if found != wanted:
            failed.append(what)
            print(f"     found {found!r:.600}\n     wanted {wanted!r:.600}", flush=True)


def wrong(what, found, wanted):
    """Says what isn't as it should be, and of what is nothing."""
    if found != wanted:
        same(what, found, wanted)
    return found != wanted


def token(branch):
    return f"{branch:032x}"


def office(file, *words):
    told = subprocess.run([shop.PROGRAM, "--db", file, *words], capture_output=True, text=True)
    if told.returncode:
        sys.exit(f"bench: {words} ends with {told.returncode}: {told.stderr}")
    return told.stdout


def make(file, branches):
    """Makes the chain: a city, a film, and so many branches; of each how many work there. Returns each branch's staff."""
    office(file, "init", "--token", token(0))
    office(file, "country-add", "--key", "c1", "--name", "Canada")
    office(file, "city-add", "--key", "c2", "--name", "Lethbridge", "--country", "1")
    office(file, "language-add", "--key", "c3", "--name", "English")
    office(file, "category-add", "--key", "c4", "--name", "Action")
    office(file, "film-add", "--key", "c5", "--title", "RIVER DAWN", "--language", "1", "--category", "1")
    place, staff, count = ["--address", "1 High", "--postal", "", "--phone", "", "--city", "1"], [], 0
    for branch, size in enumerate(branches, 1):
        office(file, "branch-add", "--key", f"b{branch}", "--token", token(branch), *place)
        staff.append(range(count + 1, count + size + 1))
        for one in staff[-1]:
            office(file, "staff-add", "--key", f"s{one}", "--branch", str(branch), "--first", "IDA", "--last", "LUND", *place)
        count += size
    return staff


def free_port():
    """A port that no connection gets by itself, so that nobody who connects to it while nobody listens there meets himself."""
    while True:
        port = random.SystemRandom().randrange(20_000, 32_000)
        with socket.socket() as it:
            try:
                it.bind(("127.0.0.1", port))
                return port
            except OSError:
                pass


class Server:
    """`sakila serve`, which is killed and started again until it is let live."""

    def __init__(self, file, rng):
        self.file, self.rng, self.port, self.kills, self.starts, self.is_over = file, rng, free_port(), 0, 0, threading.Event()
        self.start()
        self.killer = threading.Thread(target=self.lives, daemon=True)

    def start(self):
        self.program = subprocess.Popen([shop.PROGRAM, "--db", self.file, "serve", "--port", str(self.port), "--connections", str(MOST_CONNECTIONS)])
        self.starts += 1
        end = time.monotonic() + 120
        while time.monotonic() < end and self.program.poll() is None:
            try:
                socket.create_connection(("127.0.0.1", self.port), timeout=5).close()
                return
            except OSError:
                time.sleep(0.02)
        same("the server listens", self.program.poll(), "listening")

    def lives(self):
        while not self.is_over.wait(self.rng.uniform(*SERVER_LIVES)):
            self.program.kill()
            self.program.wait()
            self.kills += 1
            self.start()

    def lets_live(self):
        self.is_over.set()
        if self.killer.ident:
            self.killer.join()

    def ends(self):
        self.program.kill()
        self.program.wait()


class Proxy:
    """Hands on each connection of a till, whole or cut."""

    def __init__(self, port, rng, cut=CUT, late=LATE):
        self.cut_part, self.late_part = cut, late
        self.to, self.rng, self.cuts, self.late, self.whole, self.is_calm = port, rng, 0, 0, 0, False
        self.it = socket.create_server(("127.0.0.1", free_port()), backlog=256)
        self.port = self.it.getsockname()[1]
        self.threads = []
        threading.Thread(target=self.accepts, daemon=True).start()

    def accepts(self):
        while True:
            till, _ = self.it.accept()
            fate = self.fate()
            self.threads = [it for it in self.threads if it.is_alive()]
            self.threads.append(threading.Thread(target=self.hands_on, args=(till, *fate), daemon=True))
            self.threads[-1].start()

    def fate(self):
        """Behind how many bytes of the till's and of the server's the line is cut, and how late a till's request is handed on that was cut off."""
        drawn, most = self.rng.random(), 1 << 30
        if self.is_calm or drawn >= self.cut_part + self.late_part:
            self.whole += 1
            return most, most, None
        if drawn < self.late_part:
            self.late += 1
            return most, most, self.rng.uniform(0, LATEST)
        self.cuts += 1
        return (self.rng.randrange(420), most, None) if self.rng.random() < 0.5 else (most, self.rng.randrange(160), None)

    def hands_on(self, till, up, down, late):
        try:
            if late is not None:
                self.hands_on_late(till, late)
                return
            with till, socket.create_connection(("127.0.0.1", self.to), timeout=60) as server:
                self.both_ways(till, server, {till: up, server: down})
        except OSError:
            pass

    def both_ways(self, till, server, left):
        other = {till: server, server: till}
        while True:
            for it in select.select([till, server], [], [], 90)[0] or [None]:
                piece = it.recv(1 << 16) if it else b""
                other[it].sendall(piece[: left[it]]) if piece else None
                if not piece or left[it] <= len(piece):
                    return
                left[it] -= len(piece)

    def hands_on_late(self, till, late):
        """Takes a till's request, cuts the till off, and hands the request on when the till has long gone on."""
        till.settimeout(60)
        asked = b""
        while b"\r\n\r\n" not in asked:
            piece = till.recv(1 << 16)
            if not piece:
                break
            asked += piece
        head, _, body = asked.partition(b"\r\n\r\n")
        length = re.search(rb"content-length: (\d+)", head)
        while length and len(body) < int(length[1]):
            piece = till.recv(1 << 16)
            if not piece:
                break
            asked, body = asked + piece, body + piece
        till.close()
        time.sleep(late)
        with socket.create_connection(("127.0.0.1", self.to), timeout=60) as server:
            server.sendall(asked)
            server.recv(1 << 16)

    def calms(self):
        """From now on nothing is cut. Returns when all that was late has come."""
        self.is_calm = True
        end = time.monotonic() + LATEST + 60
        for it in self.threads:
            it.join(max(0.0, end - time.monotonic()))


Reply = collections.namedtuple("Reply", "status body")
BESIDE = {"rented": "copy, number, rental, customer", "returned": "rental, number", "unsure": "number"}


def tables(book):
    return [name for (name,) in book.execute("SELECT name FROM sqlite_schema WHERE type = 'table'")]


class Book:
    """What a book has: its entries, replies and settlements, read from a copy of its two files."""

    def __init__(self, path):
        self.path = path
        with tempfile.TemporaryDirectory(dir=os.path.dirname(path)) as folder:
            copy = os.path.join(folder, "copy")
            for suffix in ("", "-wal"):
                if os.path.exists(path + suffix):
                    shutil.copy(path + suffix, copy + suffix)
            it = sqlite3.connect(copy)
            self.entries = [bytes(row[0]) for row in it.execute("SELECT request FROM entry ORDER BY number")]
            self.replies = [Reply(row[0], bytes(row[1])) for row in it.execute("SELECT status, body FROM reply ORDER BY number")]
            self.settled = {row[0]: Reply(row[1], bytes(row[2])) for row in it.execute("SELECT number, status, body FROM settled")}
            # A book that an earlier program made has no tables beside its journal until a later one opens it.
            self.beside = {table: sorted(it.execute(f"SELECT {columns} FROM {table}")) for table, columns in BESIDE.items() if table in tables(it)}
            it.close()

    def accepted(self):
        """The number of each entry that has acted, with its reply's body."""
        found = {at: reply.body for at, reply in enumerate(self.replies, 1) if reply.status == 200}
        return found | {at: reply.body for at, reply in self.settled.items() if reply.status == 200}

    def open(self):
        """The entries that were refused, may still act for all that their replies say, and weren't made sure of."""
        return [at for at, it in enumerate(self.replies, 1) if it.status != 200 and it.body not in FINAL and at not in self.settled]

    def meant(self):
        """The rows that the journal means to each table beside it."""
        found = {"rented": [], "returned": [], "unsure": [(at,) for at in self.open()]}
        for at, body in self.accepted().items():
            path, _, _, _, asked = said(self.entries[at - 1])
            if path == "/rent":
                found["rented"].append((asked["copy"], at, json.loads(body)["rental"], asked["customer"]))
            elif path == "/return":
                found["returned"].append((asked["rental"], at))
        return {table: sorted(rows) for table, rows in found.items()}

    def unmeant(self):
        """The tables beside the journal that aren't there, or have other rows than the journal means, with some of these rows."""
        return [(table, self.beside.get(table) and sorted(set(self.beside[table]) ^ set(rows))[:5]) for table, rows in self.meant().items() if self.beside.get(table) != rows]

    def is_before(self, later):
        """Whether the later book has all that this one has."""
        return (
            later.entries[: len(self.entries)] == self.entries
            and later.replies[: len(self.replies)] == self.replies
            and self.settled.items() <= later.settled.items()
        )


def said(request):
    """The path of a request, what it says of key, giver and moment, and its own members."""
    head, _, body = request.partition(b"\r\n\r\n")
    path = head.split(b" ", 2)[1].decode()
    if path.startswith("/import/"):
        key, staff, at, _ = path.removeprefix("/import/").split("/")
        return "/import", key, int(staff), at, {"file": body}
    told = json.loads(body)
    if path == "/office":
        return path, told[told.index("--key") + 1], None, None, {"words": told}
    return path, told["key"], told["staff"], told["at"], told


def at_once(tills, does):
    threads = [threading.Thread(target=does, args=(it,)) for it in tills]
    for it in threads:
        it.start()
    for it in threads:
        it.join()


def kept(file, folder):
    """The kept commands of a copy of the chain, in the order in which they were kept, and how many rows each branch has of what."""
    copy = os.path.join(folder, "kept.db")
    for suffix in ("", "-wal"):
        shutil.copy(file + suffix, copy + suffix)
    it = sqlite3.connect(copy)
    rows = it.execute('SELECT caller, "key", command, reply FROM kept ORDER BY rowid').fetchall()
    counts = {table: dict(it.execute(f"SELECT branch, count(*) FROM {table} GROUP BY branch")) for table in ("customer", "copy", "rental", "payment")}
    it.close()
    return rows, counts


def giver(command):
    return int.from_bytes(command[:4], "little"), command[4:23].decode()


def is_key(till, key, at):
    """Whether the till's entry of that number may have the key. At head office's book a refused entry leaves its key to the next one."""
    mark, _, number = key.partition("-")
    return mark == till.mark and (int(number) == at if till.branch else int(number) <= at)


def compare(tills, rows, counts):
    """Holds the books against the chain's table of kept commands."""
    by_key = {(caller, key): (command, reply) for caller, key, command, reply in rows}
    same("each key is kept once", len(by_key), len(rows))
    by_mark = {it.mark: it for it in tills}
    same("each till has a mark of its own", len(by_mark), len(tills))
    accepted = lost = other = of_another = 0
    keys = set()
    for till in tills:
        for at, body in till.book.accepted().items():
            accepted += 1
            path, key, staff, moment, _ = said(till.book.entries[at - 1])
            found = by_key.get((till.branch, key))
            keys.add(key)
            if not is_key(till, key, at) or not found:
                lost += 1
            elif found[1].encode() != body or staff and giver(found[0]) != (staff, moment):
                other += 1
    same(f"each of {accepted} accepted entries is kept under its key", (lost, len(keys)), (0, accepted))
    same("by its giver, of its moment, with its reply", other, 0)
    strangers, order = [], collections.defaultdict(list)
    for caller, key, _, _ in rows:
        mark, _, number = key.partition("-")
        till = by_mark.get(mark)
        if till:
            order[mark].append(int(number))
            of_another += caller != till.branch or key not in keys
        elif caller:
            strangers.append((caller, key))
    same("each kept command of a till's mark is an accepted entry of its book", of_another, 0)
    same("in the order of entering", [mark for mark, numbers in order.items() if numbers != sorted(set(numbers))], [])
    same("a branch keeps nothing else", strangers, [])
    made = {table: collections.Counter() for table in counts}
    for till in tills:
        for at, body in till.book.accepted().items():
            path, reply = said(till.book.entries[at - 1])[0], json.loads(body)
            table = {"/customer": "customer", "/import": "copy", "/rent": "rental", "/pay": "payment"}.get(path)
            if table:
                made[table][till.branch] += reply["copies"] if table == "copy" else 1
    same("each branch has as many customers, copies, rentals and payments as were accepted", counts, {table: dict(it) for table, it in made.items()})
    return accepted
