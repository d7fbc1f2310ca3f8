"""Times in all: of a request's head, and of a connection that nobody takes."""
import select
import socket
import threading
import time

from serve_lab.cases import IDLE, at_once, case, get, refusal, same
from serve_lab.loopback import Icap, Reader, Server, User, ask, body_of

BLOCKED = b"ICAP/1.0 200 OK\r\nMethods: REQMOD, RESPMOD\r\nISTag: \"t-1\"\r\nConnection: close\r\nEncapsulated: null-body=0\r\n\r\n"


def drips(user, text, pause):
    """Says a byte after each pause until the other side ends the connection: what it said, and after how many seconds that was."""
    begun = time.time()
    for byte in text:
        user.send(bytes([byte]))
        if select.select([user.sock], [], [], pause)[0]:
            break
    said = user.reader.to_end()
    return said, time.time() - begun


@case
def a_head_has_a_time_in_all(bench):
    """A user that drips its head is let go as a silent one is, two to three seconds after its first byte; whoever is silent between two
    requests isn't, and each head has its own time."""
    origin = bench.origin()
    proxy = bench.proxy(origin, "deadline = 20\nhead_deadline = 2")
    patient = bench.proxy(origin, "deadline = 20")
    slow = get("/bytes/3", "X-Slow: %s\r\n" % ("x" * 100))
    found = {}

    def first(name):
        user = User(proxy.port)
        if name == "later":
            time.sleep(1.5)
        found[name] = drips(user, slow, 0.1)
        user.close()

    def kept(name):
        user = User(proxy.port)
        same("an answer", user.ask(get("/bytes/5")).body, body_of(5))
        time.sleep(4)
        same("after a silence", user.ask(get("/bytes/6")).body, body_of(6))
        found[name] = drips(user, slow, 0.1)
        user.close()

    def joined(name):
        user = User(proxy.port)
        user.send(get("/bytes/5") + slow[:20])
        same("an answer", user.answer().body, body_of(5))
        found[name] = drips(user, slow[20:], 0.1)
        user.close()

    def quick(_name):
        user = User(proxy.port)
        for size in range(4):
            time.sleep(0.9)
            user.send(slow[:30])
            time.sleep(0.9)
            user.send(slow[30:])
            same("a head within its time", user.answer().body, body_of(3))
        user.close()

    def unbounded(_name):
        user = User(patient.port)
        for at in range(0, len(slow), 20):
            user.send(slow[at:at + 20])
            time.sleep(0.5)
        same("without the key", user.answer().body, body_of(3))
        user.close()
    names = [(first, "first"), (first, "later"), (kept, "kept"), (joined, "joined"), (quick, ""), (unbounded, "")]
    at_once(len(names), lambda number: names[number][0](names[number][1]))
    for name, (said, seconds) in found.items():
        same(name + " gets no answer", said, b"")
        same("%s is let go after %.1f s" % (name, seconds), 1.9 < seconds < 4.5, True)
    same("users", sorted(found), ["first", "joined", "kept", "later"])
    for one in (proxy, patient):
        same("audit", one.stop(), IDLE)


class Full:
    """A port whose queue of connections is full, so that the system drops each further one; before that it serves `count` connections
    by `serve(connection)`, where there is one."""

    def __init__(self, serve=None):
        self.sock = socket.socket()
        self.sock.bind(("127.0.0.1", 0))
        self.sock.listen(0)
        self.port = self.sock.getsockname()[1]
        self.queued = []
        if serve:
            threading.Thread(target=self.one, args=(serve,), daemon=True).start()
        else:
            self.fill()

    def fill(self):
        for _ in range(8):
            one = socket.socket()
            one.setblocking(False)
            one.connect_ex(("127.0.0.1", self.port))
            self.queued.append(one)
        time.sleep(0.1)

    def one(self, serve):
        conn, _ = self.sock.accept()
        head = Reader(conn).head()
        self.fill()
        serve(conn, head)
        conn.close()

    def close(self):
        for one in self.queued + [self.sock]:
            one.close()


@case
def a_connection_that_nobody_takes_fails_early(bench):
    """An origin's, a service's that is asked for its options, a service's for a message, and one for a retry: 504 after
    `connect_deadline`. Who has taken a connection has the whole `deadline`."""
    origin = bench.origin()

    def late(conn, _number):
        Reader(conn).head()
        time.sleep(4)
        conn.sendall(b"HTTP/1.1 200 OK\r\nContent-Length: 4\r\n\r\nlate")
    slow = bench.keep(Server(late))
    times = "deadline = 20\nconnect_deadline = 1\n"
    full = bench.keep(Full())
    hosts = '"full.test" = "127.0.0.1:%d"\n"slow.test" = "127.0.0.1:%d"' % (full.port, slow.port)
    proxy = bench.proxy(origin, times, hosts=hosts)
    proxies = [proxy]

    def refused(what, one, request, before=0.0):
        user, begun = User(one.port), time.time()
        user.send(request)
        same(what, user.reader.to_end(), refusal(504))
        seconds = time.time() - begun - before
        same("%s: after %.1f s" % (what, seconds), 0.9 < seconds < 3.5, True)
        user.close()

    def decides_late(conn, reader, head, count):
        time.sleep(2.5)
        return scanner.no_modification(conn, reader, head, count)
    scanner = bench.icap(decides_late)

    def breaks(conn, _head):
        """Says its options, takes a message, and ends where the next one comes."""
        reader = Reader(conn)
        conn.sendall(BLOCKED.replace(b"Connection: close\r\n", b""))
        Icap.rest(reader, reader.head())
        conn.sendall(Icap.NO_MODIFICATION)
        reader.head()

    def asks(number):
        if number == 0:
            refused("an origin", proxy, get("/").replace(b"o.test", b"full.test"))
        elif number == 1:
            user = User(proxy.port)
            same("a slow origin", user.ask(get("/").replace(b"o.test", b"slow.test")).body, b"late")
            user.close()
        elif number == 2:
            user = User(proxy.port)
            user.send(get("/echo", "Content-Length: 8\r\n", "POST").replace(b"o.test", b"full.test"))
            begun = time.time()
            while not select.select([user.sock], [], [], 0.3)[0] and time.time() < begun + 4:
                user.send(b"x")
            same("a body that comes byte by byte", user.reader.to_end(), refusal(504))
            user.close()
        elif number == 7:
            one = bench.proxy(origin, times + 'dial = "late"\n', [("reqmod", scanner.port, "/reqmod/x")], hosts)
            proxies.append(one)
            refused("an origin that is dialled late", one, get("/").replace(b"o.test", b"full.test"), 2.5)
        elif number == 8:
            one = bench.proxy(origin, times + "shards = 1\n", [("respmod", bench.keep(Full(breaks)).port, "/x")])
            proxies.append(one)
            same("the first message", ask(one.port, get("/bytes/3")).body, body_of(3))
            refused("a retry", one, get("/bytes/3"))
        else:
            point = ("reqmod", "respmod")[number % 2]
            service = bench.keep(Full((lambda conn, _head: conn.sendall(BLOCKED)) if number > 4 else None))
            one = bench.proxy(origin, times, [(point, service.port, "/x")])
            proxies.append(one)
            refused("a service at %s, %d" % (point, number), one, get("/bytes/3"))
    at_once(9, asks)
    for one in proxies:
        same("audit", one.stop(), IDLE)
