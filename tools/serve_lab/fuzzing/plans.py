"""What each party of a fuzzed exchange does, out of a seed; and what has to come of it.

An exchange has an identity: the number of its user's connection, its place on it, and a check. It stands in the target, in a
field, and all over its bodies, as tokens. So a message that has bytes of another one is found wherever it is read. Each party
works out the plan of an exchange from its identity alone."""
import functools
import random
import re
import zlib

# A token: whose bytes these are (q: the user's request, Q: an adapted one; r: the origin's answer, R: an adapted one; p: the
# service's own page), and the identity.
TOKEN = re.compile(rb"<([qQrRp])((\d{1,9})\.(\d{1,2})\.[0-9a-f]{8})>")
SMALL = (0, 0, 1, 5, 30, 100, 100, 1023, 1024, 1025, 2000, 4095, 4096, 4097)
LARGE = (8192, 8193, 20000, 30000, 70000)
REFUSALS = {400: b"Bad Request", 501: b"Not Implemented", 502: b"Bad Gateway", 503: b"Service Unavailable",
            504: b"Gateway Timeout"}


def refusal(status):
    return b"HTTP/1.1 %d %s\r\nContent-Length: 0\r\nConnection: close\r\n\r\n" % (status, REFUSALS[status])


def chosen(own, *rows):
    """One of some words, each with its share of a hundred; the first has the rest."""
    at = own.random() * 100
    for word, share in rows[1:]:
        at -= share
        if at < 0:
            return word
    return rows[0]


def some_size(own):
    return own.choice(LARGE if own.random() < 0.08 else SMALL)


def filled(kind, mark, size):
    """A body that says whose it is, wherever it is read."""
    text = b"<%s%s>" % (kind, mark)
    return (text * (size // len(text) + 1))[:size]


def changed(own, text):
    """The text with a few bytes changed, dropped, doubled or put in."""
    text = bytearray(text)
    for _ in range(own.choice((1, 1, 2, 5))):
        if not text:
            break
        at = own.randrange(len(text))
        kind = own.randrange(6)
        if kind == 0:
            text[at] = own.randrange(256)
        elif kind == 1:
            del text[at:at + own.choice((1, 1, 2, 10, 100))]
        elif kind == 2:
            text[at:at] = own.choice((b"\r\n", b"\n", b"\0", b" ", b":", b"\r\n\r\n", b"0\r\n\r\n", b"\xff" * 3, b"a" * 300))
        elif kind == 3:
            text[at:at] = text[at:at + own.choice((1, 20, 200))]
        elif kind == 4:
            del text[at:]
        else:
            text[at:at] = own.randbytes(own.choice((1, 8, 64)))
    return bytes(text)


def garbage(own):
    return own.randbytes(own.choice((1, 100, 20000)))


# How many bytes a size line has at most.
SIZE_LINE = 256


def chunks(own, body, last=b"0"):
    """A body in chunks, of any sizes and spellings; now and then of a byte each, and with sizes that are padded as far as they may be."""
    text, at = [], 0
    kind = own.random()
    sizes = (1,) if kind < 0.04 else (1, 2, 7, 100, 4096, 9000, 70000, 70000)
    spellings = (b"%%0%dx" % (SIZE_LINE - 20), b"%032x") if 0.03 < kind < 0.08 else (b"%x", b"%X", b"000%x")
    while at < len(body):
        size = min(own.choice(sizes if at < 5000 else (4096, 9000, 70000)), len(body) - at)
        mark = own.choice((b"", b"", b"", b" ", b";x=y", b";a=\"b;ieof\""))
        spelt = own.choice(spellings) % size
        text.append(b"%s%s\r\n%s\r\n" % (spelt, mark, body[at:at + size]))
        at += size
    return b"".join(text) + last + b"\r\n" + own.choice((b"", b"", b"T: 1\r\n")) + b"\r\n"


class Verdict:
    """What a service does with a message. `word`: same, adapted, or page (of REQMOD: an answer of its own). `fault`: None, or
    how it breaks: closes (before its reply, the first time), changed, cut, trailing, leaves (closes after its reply)."""

    def __init__(self, own, is_request):
        self.word = chosen(own, "same", ("adapted", 45), ("page", 8 if is_request else 0))
        self.fault = chosen(own, None, ("closes", 3), ("changed", 3), ("cut", 2), ("trailing", 1), ("leaves", 3))
        self.size = some_size(own)
        # Whether it asks for the rest of a preview first.
        self.continues = own.random() < 0.5
        # Whether it answers before it has read the rest of a message.
        self.is_hasty = own.random() < 0.08


class Plan:
    """The plan of one exchange."""

    def __init__(self, seed, number, at):
        self.number, self.at = number, at
        self.mark = mark_of(seed, number, at)
        own = random.Random("%s plan %d %d" % (seed, number, at))
        # The user: its fault is None, changed, cut, garbage, or gone (it resets while its answer is under way).
        self.method = own.choice(("GET", "GET", "GET", "POST", "POST", "PUT", "HEAD"))
        self.version = own.choice(("1.1", "1.1", "1.1", "1.1", "1.0"))
        self.has_body = self.method in ("POST", "PUT")
        self.is_chunked = self.has_body and self.version == "1.1" and own.random() < 0.4
        self.expects = self.has_body and self.version == "1.1" and own.random() < 0.15
        self.asks_close = own.random() < 0.05
        self.size = some_size(own) if self.has_body else 0
        self.fault = chosen(own, None, ("changed", 4), ("cut", 1.5), ("garbage", 0.5), ("gone", 2))
        # Services: one whose name's end they ignore, one that they want whole.
        self.end = own.choice(("", "", ".txt", ".txt", ".gif", ".exe"))
        self.reqmod, self.respmod = Verdict(own, True), Verdict(own, False)
        # The origin: how it frames its answer, and its fault: None, changed, cut, trailing, garbage, early, refuses, mute, or storm (more
        # interim heads than are read).
        self.status = chosen(own, 200, (204, 4), (304, 4), (404, 5))
        self.framing = own.choice(("length", "length", "chunked", "close"))
        self.answer_size = some_size(own)
        # How many interim heads come first: 32 are read.
        self.interim = chosen(own, 0, (1, 5), (2, 2), (5, 2), (32, 1))
        self.origin = chosen(own, None, ("changed", 4), ("cut", 2), ("trailing", 2), ("garbage", 0.5), ("early", 1), ("refuses", 1),
                             ("mute", 0.1), ("storm", 1))
        if self.framing == "close" and self.origin in ("cut", "trailing"):
            self.origin = None
        # An origin that keeps its connections: what comes after its answer, and how it meets this request on a kept connection: None, ends
        # (with no byte of an answer), or cut.
        own = random.Random("%s kept %d %d" % (seed, number, at))
        self.after = chosen(own, None, ("ends", 12), ("half", 3), ("says close", 4), ("byte", 3), ("twice", 3), ("body", 10), ("late", 3))
        self.idle = own.choice((0, 0, 0.001, 0.005, 0.02, 0.05))
        self.on_kept = chosen(own, None, ("ends", 8), ("cut", 3))
        if self.framing == "close" and self.on_kept == "cut":
            self.on_kept = None

    def __repr__(self):
        def words(thing):
            return " ".join("%s=%s" % pair for pair in vars(thing).items() if not isinstance(pair[1], Verdict) and pair[1] is not False)
        return "<%s; reqmod %s; respmod %s>" % (words(self), words(self.reqmod), words(self.respmod))

    def is_sound(self):
        """Whether the user does all that it should: its bytes are those of one request."""
        return self.fault in (None, "gone")

    def bodiless(self):
        return self.method == "HEAD" or self.status in (204, 304)

    def verdict(self, is_there, is_request):
        """What the service at a point makes of a sound message: a word."""
        if not is_there or self.end == ".gif":
            return "same"
        word = (self.reqmod if is_request else self.respmod).word
        return "same" if word == "page" and not is_request else word

    def request_body(self, adapted):
        if not self.has_body or not self.size and not self.is_chunked:
            # A service makes no body where none is offered.
            return b""
        return filled(b"Q", self.mark, self.reqmod.size) if adapted else filled(b"q", self.mark, self.size)

    def answer_body(self, adapted):
        if self.bodiless():
            return b""
        if adapted:
            return filled(b"R", self.mark, self.respmod.size)
        return filled(b"r", self.mark, self.answer_size)

    def answer(self, points):
        """What the user reads where nobody fails: the status, the tokens of two fields, and the body."""
        if self.verdict(points[0], True) == "page":
            body = b"" if self.method == "HEAD" else filled(b"p", self.mark, self.reqmod.size)
            return 403, b"<p%s>" % self.mark, None, body
        adapted = self.verdict(points[1], False) == "adapted"
        return self.status, b"<r%s>" % self.mark, b"<R%s>" % self.mark if adapted else None, self.answer_body(adapted)

    def strength(self, points, keeps=False):
        """How much of the answer is known, of an origin that keeps its connections or doesn't. 3: it is that of `answer`, or a refusal.
        2: so where it is whole; it may be cut. 1: only that it has no bytes of another exchange."""
        faults = [verdict.fault for verdict, there in ((self.reqmod, points[0]), (self.respmod, points[1])) if there]
        if not self.is_sound() or self.origin in ("changed", "garbage") or "changed" in faults:
            return 1
        if self.origin in ("cut", "early") or "cut" in faults or keeps and self.on_kept == "cut":
            return 2
        return 3


def check(seed, number, at):
    return zlib.crc32(b"%s %d %d" % (seed.encode(), number, at))


def mark_of(seed, number, at):
    return b"%d.%d.%08x" % (number, at, check(seed, number, at))


@functools.lru_cache(4096)
def plan_of(seed, number, at):
    return Plan(seed, number, at)


def plan_by(seed, mark):
    """The plan of an identity that was read. None where none has it."""
    words = mark.split(b".")
    if len(words) != 3 or not (words[0].isdigit() and words[1].isdigit()) or len(words[0]) > 9 or len(words[1]) > 2:
        return None
    plan = plan_of(seed, int(words[0]), int(words[1]))
    return plan if plan.mark == mark else None


def length_of(seed, number):
    """How many exchanges a connection has at most. One whose user is not sound is the last one."""
    return random.Random("%s length %d" % (seed, number)).choice((1, 2, 3, 5, 8))


def aliens(seed, text, mark):
    """The identities in a text beside its own; bytes that were changed make none."""
    found = set(token[1] for token in TOKEN.findall(text))
    found.discard(mark)
    return [other for other in found if plan_by(seed, other)]
