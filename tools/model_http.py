"""A second implementation of connections: what `ept_server` sends for the bytes that came, over any folder.

It follows docs/FORMATS.md ("Requests and responses"). What is the head of a request is the grammar of RFC 9112 as the
crate `httparse` takes it at its defaults:

- empty lines before the first;
- lines that end in CR LF or in LF alone;
- a target of visible bytes and bytes past ASCII that is UTF-8 as a whole;
- no space before the colon of a field.
"""

import re

import model_query

MOST_HEAD = 8192
MOST_FIELDS = 64
MOST_TURNS = 65536
TEXTS = ["ept.json", "ept-build.json", "ept-sources/manifest.json"]
PHRASES = {200: "OK", 400: "Bad Request", 404: "Not Found", 405: "Method Not Allowed",
           431: "Request Header Fields Too Large", 503: "Service Unavailable", 505: "HTTP Version Not Supported"}
CLOSING = {400, 431, 503, 505}
EMPTY_CHUNK = b""

TOKEN = rb"[!#$%&'*+\-.^_`|~0-9A-Za-z]+"
VALUE = rb"[\t -~\x80-\xff]*"
FIELD = re.compile(b"(%s):(%s)\r?\n" % (TOKEN, VALUE))
HEAD = re.compile(b"(?:\r?\n)*(%s) ([!-~\x80-\xff]+) HTTP/1\\.([01])\r?\n((?:%s:%s\r?\n)*)\r?\n" % (TOKEN, TOKEN, VALUE))
NUMBER = rb"(?:0|-?[1-9]\d{0,18})"
DEPTH = rb"(?:0|[1-9]\d?)"
POINTS = rb"box=(%s)&depths=(%s,%s)" % (b",".join([NUMBER] * 6), DEPTH, DEPTH)
QUERY = re.compile(rb"/query\?" + POINTS)
SELECT = re.compile(rb"/select\?" + POINTS + rb"&classes=([^&]*)&time=([^&]*)&dims=([^&]*)")


# ---- requests

def head_of(data):
    """Method, target, minor version and fields of a head; `None` if the bytes are no head."""
    found = HEAD.fullmatch(data)
    if not found:
        return None
    method, target, minor, lines = found.groups()
    fields = [(name.lower(), value.strip(b" \t")) for name, value in FIELD.findall(lines)]
    try:
        target.decode()
    except UnicodeDecodeError:
        return None
    return (method, target, int(minor), fields) if len(fields) <= MOST_FIELDS else None


def values(fields, name):
    return [value for other, value in fields if other == name]


def is_faulty(minor, fields):
    """Whether a head announces a body, or does not name its host once."""
    lengths = values(fields, b"content-length")
    return bool(values(fields, b"transfer-encoding") or any(length != b"0" for length in lengths)
                or minor == 1 and len(values(fields, b"host")) != 1)


def closes(fields):
    members = [member for value in values(fields, b"connection") for member in value.split(b",")]
    return any(member.strip(b" \t").lower() == b"close" for member in members)


def is_served(name):
    """Whether a file of this name is served if it is there."""
    tile = re.fullmatch(r"ept-data/([-\d]{7,40})\.bin|ept-hierarchy/([-\d]{7,40})\.json", name, re.ASCII)
    return name in TEXTS or tile is not None and model_query.read_key(tile[1] or tile[2]) is not None


def asked_by(target):
    """What a target asks for: the name of a file, a box with depths and a selection or none, or the status 404."""
    if target[:1] == b"/" and is_served(target[1:].decode()):
        return target[1:].decode()
    found = QUERY.fullmatch(target) or SELECT.fullmatch(target)
    if not found:
        return 404
    box, range_of, *texts = found.groups()
    area, depths = (tuple(map(int, words.split(b","))) for words in (box, range_of))
    is_ordered = all(-2 ** 63 <= area[i] <= area[i + 3] < 2 ** 63 for i in range(3)) and depths[0] <= depths[1] <= 32
    sift = model_query.read_sift(*(text.decode() for text in texts)) if texts else None
    return (area, depths, sift) if is_ordered and (sift or not texts) else 404


def judged(data):
    """What the bytes of a head ask for, and whether the connection ends after the response."""
    head = head_of(data)
    if head is None:
        return 400, True
    method, target, minor, fields = head
    if is_faulty(minor, fields):
        asked = 400
    elif method != b"GET":
        asked = 405
    else:
        asked = 505 if minor == 0 else asked_by(target)
    return asked, asked in CLOSING or closes(fields)


# ---- responses

def answer_head(status, kind, last, length):
    """The head of a response; a length of None is a body in chunks."""
    lines = [f"HTTP/1.1 {status} {PHRASES[status]}"]
    lines += ["Allow: GET"] if status == 405 else []
    lines += [f"Content-Type: application/{kind}"] if kind else []
    lines += ["Connection: close"] if last else []
    lines += ["Transfer-Encoding: chunked" if length is None else f"Content-Length: {length}"]
    return "".join(line + "\r\n" for line in lines + [""]).encode()


def refusal(status, last):
    return answer_head(status, None, last, 0)


class Folder:
    """A folder that is served, read once. Its files are those of the names that are served, and the done gate."""

    def __init__(self, files):
        self.files = files
        self.is_done = files.get(model_query.DONE) == b"\1"
        self.known = {}

    def answer(self, asked, last):
        """The bytes of a response, and whether the connection continues after it."""
        if (asked, last) not in self.known:
            self.known[asked, last] = self.answer_of(asked, last)
        return self.known[asked, last]

    def answer_of(self, asked, last):
        if isinstance(asked, int):
            return refusal(asked, last), not last
        if isinstance(asked, tuple) and self.is_done:
            return self.query(*asked, last)
        if not self.is_done or asked not in self.files:
            return refusal(404, last), not last
        content = self.files[asked]
        kind = "json" if asked.endswith(".json") else "octet-stream"
        return answer_head(200, kind, last, len(content)) + content, not last

    def query(self, area, depths, sift, last):
        """The response to a query or a selection: a chunk for each tile that has points of it, up to one that is damaged."""
        try:
            tiles = model_query.plan(self.files, area, depths)
        except model_query.Damaged:
            return refusal(503, True), False
        sent = answer_head(200, "octet-stream", last, None)
        for key, count in tiles:
            try:
                points = model_query.sifted(sift, model_query.points_in(self.files, key, count, area))
            except model_query.Damaged:
                return sent, False
            sent += b"%x\r\n%s\r\n" % (len(points), points) if points else EMPTY_CHUNK
        return sent + b"0\r\n\r\n", not last


def read_folder(out):
    """The folder at a path."""
    names = [str(path.relative_to(out)) for part in ("ept-data", "ept-hierarchy") for path in (out / part).glob("*")]
    names = [name for name in TEXTS + names if is_served(name) and (out / name).exists()]
    files = {name: (out / name).read_bytes() for name in [*names, model_query.DONE] if (out / name).exists()}
    return Folder(files)


class Connection:
    """A connection over a folder: bytes are fed, however they are cut, and the responses to them come."""

    def __init__(self, folder):
        self.folder = folder
        self.data, self.at = bytearray(), 0
        self.turns, self.ended = 0, False

    def feed(self, data):
        """What is sent for these bytes after those before."""
        self.data += data
        sent = []
        while (part := self.next()) is not None:
            sent.append(part)
        return b"".join(sent)

    def next(self):
        """The response to the next turn; `None` if there is none."""
        if self.ended:
            return None
        end = self.data.find(b"\r\n\r\n", self.at, self.at + MOST_HEAD)
        if end < 0 and len(self.data) - self.at < MOST_HEAD:
            return None
        asked, last = (431, True) if end < 0 else judged(bytes(self.data[self.at:end + 4]))
        self.at = len(self.data) if end < 0 else end + 4
        self.turns += 1
        answer, goes_on = self.folder.answer(asked, last or self.turns == MOST_TURNS)
        self.ended = not goes_on
        return answer


def answers(folder, data):
    """What a new connection sends for these bytes, and how many of them it takes."""
    connection = Connection(folder)
    sent = connection.feed(data)
    return sent, connection.at
