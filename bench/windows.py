"""Branches with a desk and four windows each, one of them with a drawer of its own, for `bench/till --desks`: the windows type words, while they, the desks and the server are killed, and both lines
are cut, late and doubled."""
import collections
import json
import os
import random
import re
import select
import socket
import statistics
import struct
import subprocess
import tempfile
import threading
import time

import shop
from till_books import TILL, Book, Proxy, Server, at_once, compare, free_port, kept, make, office, said, same, token, wrong

WINDOWS = 4
# The second window's own drawer. The others, and the book itself, have one in common.
DRAWER = 1
# A book's moments rise by a second an entry: with more entries than that for long they get two minutes ahead of the clock.
EVERY = 4.5
KILLED = 0.12
CUT, HELD, IN_PARTS, TWICE = 0.10, 0.10, 0.04, 0.03
SERVER_CUT, SERVER_LATE = 0.12, 0.05
LATEST = 2.0
DESK_LIVES, DESK_AWAY = (4.0, 14.0), (0.0, 1.0)
MOST_SECONDS, MOST_AT_LAST, MOST_A_WORD, MOST_TRIES = 900, 300, 180, 60
LOOKS_BACK = "400"
NO_DESK, NO_REPLY = "The desk doesn't answer.", "The desk's answer didn't come."
RENT_WAITS = "The rent of that copy has no answer yet."
# Above the numbers that a branch gives. Each word that is to be refused names another one.
NOBODY = 1_000_000
BEGINNING, SECRET = 12, 32
PATHS = {"join": "/customer", "import": "/import", "rent": "/rent", "return": "/return", "pay": "/pay", "scrap": "/scrap"}
# A word that was typed, how `last` shows it, and what its window got: done, refused, waits, or found in the book. With the text of the answer, or of the last column of `last`.
Typed = collections.namedtuple("Typed", "words what got text")
Row = collections.namedtuple("Row", "number what became")


def fills(window, frame, length):
    while len(frame) < length and (piece := window.recv(1 << 16)):
        frame += piece
    return frame


def read_frame(window):
    """Reads a window's frame, or what there is of it if the window is gone before its end."""
    frame, end = b"", BEGINNING + SECRET
    for _ in ("line", "file"):
        frame = fills(window, frame, end + 4)
        if len(frame) < end + 4:
            return frame
        end += 4 + struct.unpack(">I", frame[end : end + 4])[0]
    return fills(window, frame, end)


def word_in(frame):
    """Returns the word of a frame's line: what follows who is asked, who gives it, and options."""
    at, words = BEGINNING + SECRET + 8, []
    for _ in range(struct.unpack(">I", frame[at - 4 : at])[0]):
        end = at + 4 + struct.unpack(">I", frame[at : at + 4])[0]
        words.append(frame[at + 4 : end].decode())
        at = end
    names_drawer = words[3] == "--drawer"
    return next(it for it in words[5 if names_drawer else 3 :] if not it.startswith("--"))


class Frames:
    """Passes a window's connections to its desk, one after another: whole, cut, late, some of it before the whole, or twice."""

    def __init__(self, port, rng):
        self.to, self.rng, self.is_calm = port, rng, False
        self.counts, self.twice, self.threads = collections.Counter(), collections.Counter(), []
        self.it = socket.create_server(("127.0.0.1", free_port()), backlog=64)
        self.port = self.it.getsockname()[1]
        threading.Thread(target=self.accepts, daemon=True).start()

    def accepts(self):
        while True:
            window, _ = self.it.accept()
            with window:
                try:
                    self.passes(window)
                except OSError:
                    pass

    def fate(self):
        drawn = self.rng.random()
        for name, part in (("cut", CUT), ("late", HELD), ("in parts", IN_PARTS), ("twice", TWICE)):
            if not self.is_calm and drawn < part:
                return name
            drawn -= part
        return "whole"

    def passes(self, window):
        fate = self.fate()
        self.counts[fate] += 1
        frame, up, down = b"", 1 << 30, 1 << 30
        if fate == "cut":
            up, down = (self.rng.randrange(200), down) if self.rng.random() < 0.5 else (up, self.rng.randrange(60))
        elif fate != "whole":
            window.settimeout(60)
            frame = read_frame(window)
        # A window that is gone takes what is late with it.
        if fate == "late" and select.select([window], [], [], self.rng.uniform(0, LATEST))[0]:
            return
        if fate == "in parts":
            self.sends(frame[: self.rng.randrange(len(frame) or 1)])
        with socket.create_connection(("127.0.0.1", self.to), timeout=60) as desk:
            desk.sendall(frame)
            self.both_ways(window, desk, {window: up, desk: down})
        # By then a copy may be out by another rental, which a second return by copy would take back.
        if fate == "twice" and word_in(frame) != "return":
            self.twice[PATHS.get(word_in(frame))] += 1
            self.threads.append(threading.Thread(target=self.again, args=(frame, self.rng.uniform(0, LATEST)), daemon=True))
            self.threads[-1].start()

    def both_ways(self, window, desk, left):
        other = {window: desk, desk: window}
        while True:
            for it in select.select([window, desk], [], [], 150)[0] or [None]:
                piece = it.recv(1 << 16) if it else b""
                other[it].sendall(piece[: left[it]]) if piece else None
                if not piece or left[it] <= len(piece):
                    return
                left[it] -= len(piece)

    def again(self, frame, late):
        time.sleep(late)
        self.sends(frame)

    def sends(self, frame):
        try:
            with socket.create_connection(("127.0.0.1", self.to), timeout=60) as desk:
                desk.sendall(frame)
                desk.shutdown(socket.SHUT_WR)
                while desk.recv(1 << 16):
                    pass
        except OSError:
            pass

    def calms(self):
        self.is_calm = True
        for it in self.threads:
            it.join(LATEST + 120)


def shown(text):
    """The rows of `last`."""
    rows = [re.split(r"\s{2,}", it.strip()) for it in text.splitlines()[1:]]
    return [Row(int(it[0]), it[1].rsplit(" (", 1)[0], it[2]) for it in rows if len(it) == 3 and it[0].isdigit()]


def dollars(cents):
    return f"${cents // 100}.{cents % 100:02}"


def entered(request):
    """Who gave an entry, its path, and how `last` shows it."""
    path, _, staff, _, asked = said(request)
    if path == "/import":
        return staff, path, f"import: lot {request.split(b' ', 2)[1].decode().rsplit('/', 1)[1]}"
    form = {
        "/customer": "customer: {first} {last}",
        "/rent": "rent: customer {customer}, copy {copy}",
        "/return": "return: rental {rental}",
        "/pay": "pay: customer {customer}, {dollars}",
        "/scrap": "scrap: copy {copy}",
    }[path]
    return staff, path, form.format(dollars=dollars(asked.get("amount", 0)), **asked)


class Branch:
    """A branch's book and the desk that holds it, which is killed and started again until it is let live. And what its windows know of the branch together."""

    def __init__(self, folder, branch, staff, server, rng):
        self.folder, self.branch, self.rng = os.path.join(folder, f"desk{branch}"), branch, rng
        os.mkdir(self.folder)
        self.path = os.path.join(self.folder, "till.book")
        for words in (["init", f"127.0.0.1:{server}", token(branch), "--staff", str(staff[0]), "--zone", "UTC"], ["today", shop.today()]):
            subprocess.run([TILL, *words], cwd=self.folder, check=True, stdout=subprocess.DEVNULL)
        with open(self.path + ".conf", encoding="utf-8") as it:
            self.mark = re.search(r"^mark (\S+)$", it.read(), re.M)[1]
        self.book, self.port, self.kills, self.is_over = Book(self.path), free_port(), 0, threading.Event()
        self.lock, self.inside, self.out, self.pairs, self.rows = threading.Lock(), [], {}, set(), {}
        self.numbers = NOBODY
        self.start()
        self.windows = [Window(self, it, at < WINDOWS - 1, DRAWER * (at == 1), random.Random(rng.getrandbits(64))) for at, it in enumerate(staff)]
        self.killer = threading.Thread(target=self.lives, daemon=True)

    def start(self):
        self.program = subprocess.Popen([TILL, "desk", "--port", str(self.port)], cwd=self.folder, stdout=subprocess.PIPE, text=True)
        is_open = any(line.startswith("the desk is open") for line in iter(self.program.stdout.readline, ""))
        wrong(f"the desk of branch {self.branch} begins", is_open, True)

    def kill(self):
        """Kills the desk, and reads the book, which has to have all that it had."""
        self.program.kill()
        self.program.wait()
        self.kills += 1
        later = Book(self.path)
        wrong(f"{self.path} has all that it had", self.book.is_before(later), True)
        self.book = later

    def lives(self):
        while not self.is_over.wait(self.rng.uniform(*DESK_LIVES)):
            self.kill()
            time.sleep(self.rng.uniform(*DESK_AWAY))
            self.start()

    def lets_live(self):
        self.is_over.set()
        if self.killer.ident:
            self.killer.join()
        for it in self.windows:
            it.line.calms()

    def number(self):
        self.numbers += 1
        return self.numbers

    def saw(self, rows):
        """Notes what a window's `last` showed: an entry stays what it is, and so does its outcome."""
        with self.lock:
            for it in rows:
                before = self.rows.get(it.number, it)
                if before.what != it.what or before.became not in ("waits", it.became) and not before.became.startswith("refused"):
                    wrong(f"entry {it.number} of branch {self.branch} stays", it, before)
                self.rows[it.number] = it

    def makes_sure(self, until):
        """Has a window send all, and one more word accepted, until nothing waits and all that was refused is made sure of. The desk is dead then, and its book is read."""
        try:
            while time.monotonic() < until:
                self.windows[0].sends(until)
                self.kill()
                if not self.book.open():
                    return
                self.start()
                self.windows[0].says(*self.windows[0].joins())
            same(f"{self.path} is sure of all", self.book.open(), [])
        except Exception as fault:
            same(f"branch {self.branch} makes sure", repr(fault), None)


class Window:
    """A window of a desk, and who types at it."""

    def __init__(self, branch, staff, is_passed, drawer, rng):
        self.branch, self.staff, self.drawer, self.rng = branch, staff, drawer, rng
        self.folder = os.path.join(branch.folder, f"window{staff}")
        os.mkdir(self.folder)
        self.line = Frames(branch.port, random.Random(rng.getrandbits(64)))
        self.typed, self.waiting, self.customers, self.took = [], {}, [], []
        self.words = self.kills = self.unanswered = self.found = self.away = self.waited = self.elsewhere = 0
        port = self.line.port if is_passed else branch.port
        own = ["--drawer", str(drawer)] if drawer else []
        status, out, err = self.whole(["window", f"127.0.0.1:{port}", "--staff", str(staff), "--secret-file", branch.path + ".desk", *own])
        wrong(f"a window is set up: {out}{err}", status, 0)

    def starts(self, words):
        return subprocess.Popen([TILL, *words], stdout=subprocess.PIPE, stderr=subprocess.PIPE, text=True, cwd=self.folder)

    def whole(self, words):
        """Types a word, which nobody kills."""
        program = self.starts(words)
        try:
            out, err = program.communicate(timeout=MOST_A_WORD)
        except subprocess.TimeoutExpired:
            program.kill()
            out, err = program.communicate()
            same(f"a window answers {words} in {MOST_A_WORD} seconds", False, True)
        return program.returncode, out, err

    def hurried(self, words):
        """Types a word, and now and then the window is killed at some moment of it. A killed window has no status."""
        if self.rng.random() >= KILLED:
            begun = time.monotonic()
            answer = self.whole(words)
            self.took.append(time.monotonic() - begun)
            return answer
        program = self.starts(words)
        try:
            out, err = program.communicate(timeout=self.rng.uniform(0, 1.3 * statistics.mean(self.took[-20:] or [0.1])))
            return program.returncode, out, err
        except subprocess.TimeoutExpired:
            program.kill()
            program.communicate()
            self.kills += 1
            return None, "", ""

    def looks(self):
        """The rows of `last`, which is typed until it is answered."""
        for _ in range(MOST_TRIES):
            status, out, err = self.whole(["last", LOOKS_BACK])
            if status == 0:
                rows = shown(out)
                self.branch.saw(rows)
                self.learns(rows)
                return rows
            if not err.startswith((NO_DESK, NO_REPLY)):
                same(f"last ends with {status}, {out!r} {err!r}", False, True)
            time.sleep(0.2)
        same("last is answered at last", False, True)
        return []

    def says(self, words, what):
        """Types a word until it is done, refused, or in the book. One that enters something isn't typed again before `last` doesn't show it."""
        self.words += 1
        for _ in range(MOST_TRIES):
            status, out, err = self.hurried(words)
            if status is None or err.startswith(NO_REPLY):
                self.unanswered += 1
                rows = [it for it in self.looks() if it.what == what] if what else []
                if rows or not what:
                    self.found += len(rows[:1])
                    return self.notes(words, what, "found", rows[0].became) if rows else None
            elif status == 3 and err.startswith(NO_DESK):
                self.away += 1
                time.sleep(0.2)
            elif status == 3 and (wait := re.search(r"Wait (\d+) seconds", err)):
                self.waited += 1
                time.sleep(min(150, int(wait[1]) + 1))
            elif status == 1 and err.startswith(RENT_WAITS):
                self.whole(["send"])
                time.sleep(1)
            elif status in (0, 1, 4):
                return self.notes(words, what, {0: "done", 1: "refused", 4: "waits"}[status], out)
            else:
                return same(f"{words} ends with {status}, {out!r} {err!r}", False, True)
        return same(f"{words} is done at last", False, True)

    def notes(self, words, what, got, text):
        """Notes what a window got for a word that enters something."""
        if what:
            self.typed.append(Typed(words, what, got, text))
            if "waits" in (got, text):
                self.waiting[what] = words
            elif got != "refused":
                self.acts(words, text)

    def learns(self, rows):
        """Notes what became of words that waited."""
        for it in rows:
            if it.became != "waits" and it.what in self.waiting:
                self.acts(self.waiting.pop(it.what), it.became)

    def acts(self, words, text):
        """Notes what the branch has after an accepted word, by its answer."""
        numbers = [int(it) for it in re.findall(r"\d+", text)]
        if text.startswith("refused") or not numbers:
            return
        with self.branch.lock:
            if words[0] == "join":
                self.customers.append(numbers[0])
            elif words[0] == "import":
                self.branch.inside += range(numbers[1], numbers[1] + numbers[0])
            elif words[0] == "rent":
                self.branch.out[int(words[2])] = numbers[0], self.staff
            elif words[0] == "return":
                self.branch.inside.append(int(words[1]))

    def joins(self):
        number = self.branch.number()
        return ["join", f"N{number}", "LUND", "1 Main", "555", "1"], f"customer: N{number} LUND"

    def imports(self):
        number, file = self.branch.number(), os.path.join(self.folder, "lot.csv")
        with open(file, "w", encoding="utf-8") as it:
            it.write(f"film_id,copies\n1,{self.rng.randrange(2, 9)}\n")
        return ["import", "lot.csv", f"L{number}"], f"import: lot L{number}"

    def rents(self, copy):
        free = [it for it in self.customers if (it, copy) not in self.branch.pairs]
        if not free:
            self.branch.inside += [copy] * (copy not in self.branch.out)
            return self.joins()
        who = self.rng.choice(free)
        self.branch.pairs.add((who, copy))
        return ["rent", str(who), str(copy)], f"rent: customer {who}, copy {copy}"

    def returns(self):
        copy = self.rng.choice(list(self.branch.out))
        rental, staff = self.branch.out.pop(copy)
        self.elsewhere += staff != self.staff
        return ["return", str(copy)], f"return: rental {rental}"

    def pays(self):
        cents, who = self.branch.number() % 2000, self.rng.choice(self.customers)
        return ["pay", str(who), dollars(cents)[1:]], f"pay: customer {who}, {dollars(cents)}"

    def is_refused(self):
        number = self.branch.number()
        some = [
            (["rent", str(number), "1"], f"rent: customer {number}, copy 1"),
            (["pay", str(number), "1.00"], f"pay: customer {number}, $1.00"),
            (["return", "--rental", str(number)], f"return: rental {number}"),
            (["--yes", "scrap", str(number)], f"scrap: copy {number}"),
            # The book knows no rental of that copy, and nothing is entered.
            (["return", str(number)], None),
        ]
        return self.rng.choice(some + [self.rents(self.rng.choice(list(self.branch.out)))] * 2 if self.branch.out else some)

    def next_word(self):
        """A word of the trade, and how `last` shows it if it enters something. Each is shown in another way."""
        with self.branch.lock:
            drawn = self.rng.random()
            if not self.customers:
                return self.joins()
            if not self.branch.inside or drawn < 0.05:
                return self.imports()
            if drawn < 0.35:
                return self.rents(self.branch.inside.pop(self.rng.randrange(len(self.branch.inside))))
            if drawn < 0.58 and self.branch.out:
                return self.returns()
            if drawn < 0.70:
                return self.pays()
            if drawn < 0.82:
                return self.is_refused()
            if drawn < 0.86:
                return self.joins()
        return self.rng.choice([["balance", str(self.rng.choice(self.customers))], ["waiting"], ["last"], ["in-stock", "1"], ["customer", "lund"]]), None

    def works(self, count, until):
        """Types so many words, not too many at a time."""
        try:
            time.sleep(self.rng.uniform(0, EVERY))
            for _ in range(count):
                begun = time.monotonic()
                if begun > until:
                    return
                self.says(*self.next_word())
                if self.waiting:
                    self.looks()
                time.sleep(max(0.0, begun + EVERY - time.monotonic()))
        except Exception as fault:
            same(f"the window of staff {self.staff} works", repr(fault), None)

    def sends(self, until):
        while time.monotonic() < until:
            status, out, err = self.whole(["send"])
            if status == 0 and "nothing waits" in out:
                return
            wrong(f"send ends with {status}, {out!r} {err!r}", status in (0, 4) or err.startswith(NO_DESK), True)
            time.sleep(0.2 if status == 0 else 1)
        same(f"{self.branch.path} has sent all", False, True)

    def unlike(self, entries):
        """The words whose entry isn't what the window got."""
        return [it for it in self.typed if not any(is_as_said(it, reply) for reply in entries.get((self.staff, it.what), []))]


def is_as_said(typed, reply):
    """Whether an entry's reply is what a window got for it. A refusal was settled since, or is what it was."""
    told = json.loads(reply.body)
    numbers = [str(it) for it in told.values() if type(it) is int]
    if typed.got == "waits" or typed.text == "waits":
        return True
    if typed.got == "refused" or typed.text.startswith("refused"):
        return reply.status != 200 and told["refused"] in typed.text + told["refused"] * (typed.got == "refused")
    first = re.findall(r"\d+", typed.text.split("\n")[0])
    return reply.status == 200 and all(it in first for it in numbers)


def holds(branch):
    """Holds what the windows of a branch got against its book. Returns what isn't as it should be."""
    book, replies, paths = branch.book, collections.defaultdict(list), {}
    for request, reply in zip(book.entries, book.replies):
        staff, path, what = entered(request)
        replies[staff, what].append(reply)
        paths[staff, what] = path
    wanted = collections.Counter((it.staff, typed.what) for it in branch.windows for typed in it.typed)
    have = collections.Counter({key: len(them) for key, them in replies.items()})
    more = collections.Counter()
    for (staff, what), count in (have - wanted).items():
        more[staff, paths[staff, what]] += count
    twice = collections.Counter({(it.staff, path): count for it in branch.windows for path, count in it.line.twice.items() if path})
    unlike = [typed for it in branch.windows for typed in it.unlike(replies)]
    changed = [it for it in branch.rows.values() if entered(book.entries[it.number - 1])[2] != it.what]
    return {"missing": dict(wanted - have), "unlike": unlike, "more": dict(more - twice), "changed": changed, "waiting": len(book.entries) - len(book.replies)}


def in_drawer(text):
    """What `day` says of a drawer that was never closed: which one it is, how many rents and returns, what waits, and what each of the staff took."""
    drawer, counts = re.match(r"drawer (\d+)\n", text), re.search(r"^since this book was made: (\d+) rents?, (\d+) returns?, \d+ refused, (\d+) waiting$", text, re.M)
    took = {int(staff): int(dollars) * 100 + int(cents) for staff, dollars, cents in re.findall(r"^staff (\d+) took \$(\d+)\.(\d\d)$", text, re.M)}
    return int(drawer[1]) if drawer else 0, counts and [int(it) for it in counts.groups()], took


def entered_at(branch, drawer):
    """The same by the branch's book: what was accepted of the staff of the drawer's windows."""
    staff, paths, took = {it.staff for it in branch.windows if it.drawer == drawer}, collections.Counter(), collections.Counter()
    for at in branch.book.accepted():
        path, _, who, _, asked = said(branch.book.entries[at - 1])
        if who in staff:
            paths[path] += 1
            took[who] += asked["amount"] if path == "/pay" else 0
    return drawer, [paths["/rent"], paths["/return"], 0], {who: cents for who, cents in took.items() if cents}


def unlike_drawers(branch):
    """The drawers of a branch, as `day` shows them at a window of each, that aren't what was entered at their windows. The branch's desk runs for that."""
    branch.start()
    shown_at = [(it.drawer, in_drawer(it.whole(["day"])[1])) for it in branch.windows[:2]]
    branch.kill()
    return [(found, wanted) for drawer, found in shown_at if found != (wanted := entered_at(branch, drawer))]


def with_desks(count, words, seed):
    print(f"    seed {seed}, {count} desks, {WINDOWS} windows each, {words} words a window", flush=True)
    rng = random.Random(seed)
    own = lambda: random.Random(rng.getrandbits(64))
    with tempfile.TemporaryDirectory() as folder:
        begun = time.monotonic()
        file = os.path.join(folder, "chain.db")
        staff = make(file, [WINDOWS] * count)
        server = Server(file, own())
        proxy = Proxy(server.port, own(), SERVER_CUT, SERVER_LATE)
        branches = []
        try:
            for branch, them in enumerate(staff, 1):
                branches.append(Branch(folder, branch, them, proxy.port, own()))
            windows = [window for it in branches for window in it.windows]
            for it in (server, *branches):
                it.killer.start()
            until = time.monotonic() + MOST_SECONDS
            at_once(windows, lambda it: it.works(words, until))
            server.lets_live()
            proxy.calms()
            at_once(branches, Branch.lets_live)
            until = time.monotonic() + MOST_AT_LAST
            at_once(branches, lambda it: it.makes_sure(until))
            drawers = [(it.branch, found) for it in branches if (found := unlike_drawers(it))]
        finally:
            for it in (server, *branches):
                it.lets_live()
                it.program.kill()
                it.program.wait()
        rows, counts = kept(file, folder)
        accepted = compare(branches, rows, counts)
        wanted = {"missing": {}, "unlike": [], "more": {}, "changed": [], "waiting": 0}
        same("each word that a window was answered, or found by last, is in its book once, as it was told", [(it.branch, found) for it in branches if (found := holds(it)) != wanted], [])
        same("each branch's drawers have what was entered at their windows, and nothing else", drawers, [])
        same("the tables beside each book's journal have the rows that it means", [(it.path, them) for it in branches if (them := it.book.unmeant())], [])
        same("the audit says that the books are sound", json.loads(office(file, "audit"))["sound"], True)
        refused = collections.Counter(json.loads(reply.body)["refused"] for it in branches for reply in it.book.replies if reply.status != 200)
        same("no entry was refused with moment_back", refused["moment_back"], 0)
        settled = [reply.status for it in branches for reply in it.book.settled.values()]
        lines = sum((it.line.counts for it in windows), collections.Counter())
        total = lambda name: sum(getattr(it, name) for it in windows)
        print(f"    {total('words')} words, {sum(len(it.book.entries) for it in branches)} entries: {accepted} accepted, {sum(refused.values())} refused: {dict(refused)}")
        print(f"    {len(settled)} refused entries made sure of, of which {settled.count(200)} had acted all the same")
        print(f"    {total('elsewhere')} copies came back at another window; {sum(typed.got == 'waits' for it in windows for typed in it.typed)} words waited")
        print(f"    {total('kills')} kills of windows, {sum(it.kills for it in branches)} of desks, {server.kills} of the server")
        print(f"    {total('unanswered')} words without an answer, of which last showed {total('found')}; {total('away')} times no desk was there; {total('waited')} times a window waited for the clock")
        print(f"    between window and desk: {', '.join(f'{count} {name}' for name, count in sorted(lines.items()))}")
        print(f"    between desk and server: {proxy.cuts} cut, {proxy.late} late and doubled, {proxy.whole} whole")
        print(f"    {time.monotonic() - begun:.0f} seconds")
