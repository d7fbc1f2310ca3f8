"""An origin that serves on over its connections, looks at who uses one twice, and ends them in many ways; and what a proxy says of them."""
import collections
import select
import socket
import struct
import threading

from serve_lab.cases import IDLE, comes, same, settled
from serve_lab.loopback import PATIENCE, Closed, Reader, Server, body_of, fields_of, read_body
from serve_lab.operators import stats

# A request as it came: the number of its connection, its place on it, counted from 1, its method, path, head and body.
Asked = collections.namedtuple("Asked", "number place method path head body")
# Answers that keep their connection.
WHOLE = b"HTTP/1.1 200 OK\r\nContent-Length: 5\r\n\r\nabcde"
CHUNKED = b"HTTP/1.1 200 OK\r\nTransfer-Encoding: chunked\r\n\r\n2\r\nab\r\n3;x=y\r\ncde\r\n0\r\n\r\n"
COUNTS = {"opened": "adaptproxy_origin_connections_opened_total", "reused": "adaptproxy_origin_connections_reused_total",
          "anew": "adaptproxy_requests_begun_anew_total", "idle": "adaptproxy_origin_connections_idle"}
# The methods of a request that may be sent again without harm (RFC 9110, section 9.2.1).
REPEATABLE = ("GET", "HEAD", "OPTIONS", "TRACE")


class Visit:
    """A connection to the origin: `place` requests have come on it."""

    def __init__(self, conn, number):
        self.conn, self.number, self.place = conn, number, 0
        self.reader = Reader(conn)
        self.method = ""

    def send(self, data):
        self.conn.sendall(data)

    def put(self, body, extra=b"", status=200):
        """Answers with this body, and without it where none may come."""
        bodyless = self.method == "HEAD" or status in (204, 304)
        self.send(b"HTTP/1.1 %d Fine\r\nContent-Length: %d\r\n%s\r\n" % (status, len(body), extra) + (b"" if bodyless else body))

    def hears(self, seconds):
        """Whether anything comes within this time: bytes, or the end."""
        return bool(self.reader.raw or select.select([self.conn], [], [], seconds)[0])

    def break_off(self):
        """Has the connection reset when it is closed."""
        self.conn.setsockopt(socket.SOL_SOCKET, socket.SO_LINGER, struct.pack("ii", 1, 0))


class Keeper(Server):
    """An origin that keeps its connections. `acts` says by the path's first word what becomes of a request: a function of the visit and of
    the path's further words, which answers False where the connection has to end; another path is answered by as many bytes as its
    last word says. `asked` has each request, `ended` the numbers of the connections that the other side has ended, and `wrong` what no
    proxy may do."""

    def __init__(self, acts=None, address="127.0.0.1"):
        self.acts = dict(acts or {})
        self.asked, self.ended, self.wrong = [], [], []
        self.release = threading.Event()
        super().__init__(self.serve_on, address)

    def serve_on(self, conn, number):
        visit = Visit(conn, number)
        while self.request(visit):
            pass

    def request(self, visit):
        """Reads a request, and answers it. Whether there may be a further one."""
        try:
            head = visit.reader.head()
        except socket.timeout:
            return False
        except (Closed, OSError):
            self.ended.append(visit.number)
            return False
        fields = fields_of(head)
        visit.method, path = fields[""].split(" ")[:2]
        body = read_body(visit.reader, fields, False)
        visit.place += 1
        self.see(visit, path, head, body)
        first, *words = path.strip("/").split("/")
        if first in self.acts:
            return self.acts[first](visit, *words) is not False
        visit.put(body if first == "echo" else body_of(int(words[-1])))
        return True

    def see(self, visit, path, head, body):
        asked = Asked(visit.number, visit.place, visit.method, path, head, body)
        with self.lock:
            self.asked.append(asked)
            if visit.place > 1 and (visit.method not in REPEATABLE or body):
                self.wrong.append("on a kept connection: %r" % (asked,))
            if visit.reader.raw:
                self.wrong.append("before its answer: %r, %r" % (asked, visit.reader.raw))

    def last(self):
        """The newest request."""
        return self.asked[-1]

    def open(self):
        """How many connections the other side hasn't ended."""
        with self.lock:
            return len(self.inside)


def says(text, more=True):
    """Answers with this text, whatever it is. The connection stays where `more` is true."""
    def act(visit, *_words):
        visit.send(text)
        return more
    return act


def waits(keeper):
    """Answers once the origin is released."""
    def act(visit, *words):
        keeper.release.wait(PATIENCE)
        visit.put(body_of(int(words[-1]) if words else 3))
    return act


def ending(after=None, asked=None):
    """Answers a connection's first request, and then has it end. `after`: seconds after the answer, where no request comes before; `asked`:
    how the second request is met. Both are words of `ENDS`."""
    def act(visit, *words):
        if visit.place > 1 and asked:
            return ENDS[asked](visit)
        visit.put(body_of(int(words[-1])))
        if asked == "unread" and visit.hears(PATIENCE):
            visit.break_off()
            return False
        if after is None or visit.hears(after[1]):
            return True
        return ENDS[after[0]](visit)
    return act


def half(visit):
    """Says that no byte more will come, and hears on."""
    visit.conn.shutdown(socket.SHUT_WR)
    visit.hears(PATIENCE)
    return False


def reset(visit):
    visit.break_off()
    return False


ENDS = {"end": lambda visit: False, "reset": reset, "half": half, "unread": lambda visit: False}
# Ways in which a connection ends between two requests, or as the second one comes.
LEAVING = {"at-once": ending(("end", 0)), "reset-at-once": ending(("reset", 0)), "half-at-once": ending(("half", 0)),
           "after-20-ms": ending(("end", 0.02)), "reset-after-20-ms": ending(("reset", 0.02)), "half-after-20-ms": ending(("half", 0.02)),
           "as-it-is-asked": ending(None, "end"), "reset-as-it-is-asked": ending(None, "reset"), "unread": ending(None, "unread")}


def counts(proxy):
    """What `stats` says of connections to origins: opened, reused, begun anew, idle."""
    found = stats(proxy)
    return tuple(found[name] for name in COUNTS.values())


def are_idle(proxy, number):
    """So many connections to origins lie idle in the end."""
    name = COUNTS["idle"]
    try:
        comes("idle", lambda: stats(proxy)[name] == number)
    except AssertionError:
        same("idle connections", stats(proxy)[name], number)


def all_is_over(origin, *proxies):
    """No connection was used by whom it mustn't be, and nothing is out."""
    for proxy in proxies:
        book = settled(proxy)
        same("book", book[:24], "rows 0 held 0 claimed 0 ")
        same("audit", proxy.stop(), IDLE)
    same("at the origin", origin.wrong, [])
