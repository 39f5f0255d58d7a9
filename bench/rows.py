"""The messages of the worked rows, as they stand in `crates/worked_rows/data/*.talk`: what the scripts beside this one send. `crates/worked_rows/README.md` has the lines."""
import glob
import os
import re

DATA = os.path.join(os.path.dirname(os.path.abspath(__file__)), "../crates/worked_rows/data")
PHRASES = {200: "OK", 400: "Bad Request", 403: "Forbidden", 404: "Not Found", 409: "Conflict", 503: "Service Unavailable"}
ESCAPES = {b"r": b"\r", b"n": b"\n", b"t": b"\t", b"s": b" ", b'"': b'"', b"\\": b"\\"}


def unquoted(text):
    """The bytes of `"x: " 3*"a" "\\r\\n"`."""
    found = b""
    for times, piece in re.findall(rb'(\d+(?=\*))?\*?"((?:[^"\\]|\\.)*)"', text):
        piece = re.sub(rb"\\(x([0-9a-f]{2})|.)", lambda it: bytes([int(it[2], 16)]) if it[2] else ESCAPES[it[1]], piece)
        found += piece * int(times or 1)
    return found


def request(who, method, path, body):
    token = b"" if who == b"-" else b"counter-token: " + who * 32 + b"\r\n"
    if body is None:
        return b"%s %s HTTP/1.1\r\n%s\r\n" % (method, path, token)
    return b"%s %s HTTP/1.1\r\nhost: localhost\r\n%scontent-length: %d\r\n\r\n%s" % (method, path, token, len(body), body)


def reply(status, body):
    return b"HTTP/1.1 %d %s\r\ncontent-type: application/json\r\ncontent-length: %d\r\n\r\n%s" % (status, PHRASES[status].encode(), len(body), body)


class Names:
    def __init__(self):
        self.texts = {}

    def fill(self, text):
        return re.sub(rb"\$(\w+)", lambda it: self.texts.get(it[1], it[0]), text)

    def body(self, text):
        text = self.fill(text)
        return unquoted(text) if text.startswith(b'"') else text


def rows(file):
    """Each row of a file: its name, and its requests, each with the replies that are wanted of it. Rounds are played once."""
    names, found = Names(), []
    for line in open(os.path.join(DATA, file), "rb").read().split(b"\n"):
        word, _, rest = line.partition(b" ")
        if word in (b"row", b"wrong"):
            found.append((rest.decode(), []))
        elif word == b"let":
            name, _, text = rest.partition(b" = ")
            names.texts[name] = names.fill(text)
        elif word == b"raw":
            found[-1][1].append((unquoted(names.fill(rest)), []))
        elif len(word) == 1 and word != b"#":
            method, path, *body = rest.split(b" ", 2)
            sent = request(word, method, names.fill(path), names.body(body[0]) if body else None)
            found[-1][1].append((sent, []))
        elif re.fullmatch(rb"[1-9]\d\d", word) and found[-1][1]:
            found[-1][1][-1][1].append((int(word), names.body(rest)))
    return found


def row(file, name):
    return dict(rows(file))[name]


def messages():
    """All that the rows send."""
    files = sorted(os.path.basename(it) for it in glob.glob(os.path.join(DATA, "*.talk")))
    return [sent for file in files for _, requests in rows(file) for sent, _ in requests]


def replies(text):
    """The replies of a text, each as its status and its body, and what comes after them that is no reply."""
    found, form = [], re.compile(rb"HTTP/1\.1 (\d{3}) ([A-Za-z ]+)\r\ncontent-type: application/json\r\ncontent-length: (\d+)\r\n\r\n")
    while it := form.match(text):
        status, end = int(it[1]), it.end() + int(it[3])
        if PHRASES.get(status, "").encode() != it[2] or len(text) < end:
            break
        found.append((status, text[it.end() : end]))
        text = text[end:]
    return found, text
