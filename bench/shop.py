"""A chain in a file, made by head office's words and served by `sakila serve` on a port of 127.0.0.1: what the scripts beside this one share."""
import datetime
import json
import os
import socket
import sqlite3
import subprocess
import sys
import time

PROGRAM = os.path.join(os.path.dirname(os.path.abspath(__file__)), "../crates/sakila/out/sakila")
OFFICE, TOKEN = "0" * 32, "1" * 32
AT = "2026-03-01T10:00:00"
BEGIN = datetime.datetime.fromisoformat(AT)
MARY = {"key": "k1", "staff": 1, "at": AT, "first": "MARY", "last": "SMITH", "address": "1 Main", "postal": "", "phone": "555", "city": 1}
WORDS = [
    ["init", "--token", OFFICE],
    ["country-add", "--key", "c1", "--name", "Canada"],
    ["city-add", "--key", "c2", "--name", "Lethbridge", "--country", "1"],
    ["branch-add", "--key", "c3", "--token", TOKEN, "--address", "10 High", "--postal", "", "--phone", "", "--city", "1"],
    ["staff-add", "--key", "c4", "--branch", "1", "--first", "IDA", "--last", "LUND", "--address", "2 Side", "--postal", "", "--phone", "", "--city", "1"],
    ["language-add", "--key", "c5", "--name", "English"],
    ["category-add", "--key", "c6", "--name", "Action"],
    ["film-add", "--key", "c7", "--title", "RIVER DAWN", "--language", "1", "--category", "1"],
]


def today():
    """The date of this machine's clock by UTC, as a till in that zone wants it."""
    return time.strftime("%Y-%m-%d", time.gmtime())


def make(file):
    """Makes the chain, with one branch, one of its staff, one city and one film."""
    for it in WORDS:
        subprocess.run([PROGRAM, "--db", file, *it], check=True, stdout=subprocess.DEVNULL)


class Counter:
    """Writes the requests of branch 1, each command a second after the one before it."""

    def __init__(self):
        self.commands = 0

    def post(self, path, members):
        at = (BEGIN + datetime.timedelta(seconds=self.commands)).isoformat()
        body = f'{{"key":"k{self.commands}","staff":1,"at":"{at}",{members}}}'
        self.commands += 1
        return f"POST {path} HTTP/1.1\r\ncounter-token: {TOKEN}\r\ncontent-length: {len(body)}\r\n\r\n{body}"

    def lot(self, film, copies):
        at = (BEGIN + datetime.timedelta(seconds=self.commands)).isoformat()
        rows = "".join(f"{film},{min(99, copies - done)}\n" for done in range(0, copies, 99))
        path = f"/import/k{self.commands}/1/{at}/l{self.commands}"
        body = f"film_id,copies\n{rows}"
        self.commands += 1
        return f"POST {path} HTTP/1.1\r\ncounter-token: {TOKEN}\r\ncontent-length: {len(body)}\r\n\r\n{body}"

    def customer(self):
        return self.post("/customer", '"first":"MARY","last":"SMITH","address":"1 Main","postal":"","phone":"555","city":1')

    def rent(self, customer, copy):
        return self.post("/rent", f'"customer":{customer},"copy":{copy}')

    def give_back(self, rental):
        return self.post("/return", f'"rental":{rental}')

    def pay(self, customer, rental):
        return self.post("/pay", f'"customer":{customer},"rental":{rental},"amount":499')


def get(path):
    return f"GET {path} HTTP/1.1\r\ncounter-token: {TOKEN}\r\n\r\n"


class Shop:
    """A chain in a file, served over so many connections."""

    def __init__(self, file, connections):
        with socket.socket() as free:
            free.bind(("127.0.0.1", 0))
            self.port = free.getsockname()[1]
        self.program = subprocess.Popen([PROGRAM, "--db", file, "serve", "--port", str(self.port), "--connections", str(connections)])

    def connect(self):
        """Returns a socket to the program, which may not listen yet."""
        for _ in range(500):
            try:
                return socket.create_connection(("127.0.0.1", self.port), timeout=60)
            except ConnectionRefusedError:
                time.sleep(0.01)
        raise ConnectionRefusedError("sakila serve doesn't answer")

    def ends(self):
        return self.program.wait(timeout=60)

    def curl(self, *words):
        return subprocess.run(["curl", "-s", "-H", f"counter-token: {TOKEN}", "--retry", "20", "--retry-connrefused", "--retry-delay", "1", *words], capture_output=True, text=True).stdout

    def at(self, path):
        return f"http://127.0.0.1:{self.port}{path}"


def request(body, path="/customer", more=""):
    return f"POST {path} HTTP/1.1\r\ncounter-token: {TOKEN}\r\n{more}content-length: {len(body)}\r\n\r\n{body}".encode()


def one_customer(file):
    """The first customer comes by a request, so that a command is kept as the program keeps one."""
    served = Shop(file, 1)
    with served.connect() as it:
        it.sendall(request(json.dumps(MARY)))
        it.recv(4096)
    served.ends()


def fill(file, count):
    """Writes so many rows of branch 1 into the tables: a fifth of them rentals, as many terms of rentals, as many payments, customers, copies and kept commands."""
    rentals, people = count // 5, count // 20
    moment = lambda at: (BEGIN + datetime.timedelta(seconds=at)).isoformat()
    with sqlite3.connect(file) as it:
        command, reply = it.execute("SELECT command, reply FROM kept WHERE caller = 1").fetchone()
        kept = count - 3 * rentals - 2 * people + 1
        it.executemany("INSERT INTO customer SELECT 1, ?, first, last, address, postal, phone, city, active, created FROM customer WHERE number = 1", ((n,) for n in range(2, people + 1)))
        it.executemany("INSERT INTO copy VALUES (1, ?, 1, 0, 1, ?)", ((n, n) for n in range(1, people + 1)))
        it.executemany("INSERT INTO rental VALUES (1, ?, ?, ?, ?, ?, 1)", ((n, moment(n), n % people + 1, n % people + 1, moment(n)) for n in range(1, rentals + 1)))
        it.executemany("INSERT INTO rental_terms VALUES (1, ?, 499, 3, 1999)", ((n,) for n in range(1, rentals + 1)))
        it.executemany("INSERT INTO payment VALUES (1, ?, ?, 1, ?, 499, ?)", ((n, n % people + 1, n, moment(n)) for n in range(1, rentals + 1)))
        it.executemany("INSERT INTO kept VALUES (1, ?, ?, ?)", ((f"n{n}", command, reply) for n in range(2, kept + 1)))
        it.executemany("UPDATE counter SET last = ? WHERE caller = 1 AND kind = ?", ((people, 0), (people, 1), (rentals, 2), (rentals, 3), (kept, 4)))
        it.execute("UPDATE branch SET last_moment = ?", (moment(rentals),))
    it.close()


def run(file, word):
    """Returns what the word prints, the seconds that it had a processor, and the mebibytes that the program had at most."""
    program = subprocess.Popen([PROGRAM, "--db", file, word], stdout=subprocess.PIPE)
    told = program.stdout.read()
    _, status, used = os.wait4(program.pid, 0)
    if status:
        sys.exit(f"bench: {word} ends with {status}: {told!r:.200}")
    return told, used.ru_utime + used.ru_stime, used.ru_maxrss / 1024
