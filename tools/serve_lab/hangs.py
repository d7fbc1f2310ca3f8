"""The commonest hangs, as docs/RUNNING.md walks through them: each is a proxy with exchanges that stand still, and what lets them go on."""
import socket
import threading

from serve_lab.cases import comes, get
from serve_lab.loopback import PATIENCE, Reader, Server, User, body_of


class Site(Server):
    """An origin of a few pages. Of each a part comes, and the rest once `release` says so; /login has no answer before."""

    PAGES = {"/report.pdf": (100000, 100000), "/film.mp4": (20000000, 20000000), "/news.html": (2000, 2000), "/list.csv": (100000, 30000)}

    def __init__(self):
        self.release = threading.Event()
        super().__init__(self.exchange)

    def exchange(self, conn, _number):
        path = Reader(conn).head().split(b" ")[1].decode()
        if path not in self.PAGES:
            self.release.wait(PATIENCE)
        size, sent = self.PAGES.get(path, (3, 3))
        conn.sendall(b"HTTP/1.1 200 OK\r\nContent-Length: %d\r\n\r\n" % size + body_of(size)[:sent])
        if sent < size:
            self.release.wait(PATIENCE)
            conn.sendall(body_of(size)[sent:])


def silent_service(bench, options=(), narrow=False):
    """A service that reads what was there at its first look, and no more; it answers nothing until `release`."""
    def reply(_conn, _reader, _head, _count):
        service.release.wait(PATIENCE)
        return False
    service = bench.icap(reply, options)
    if narrow:
        service.sock.setsockopt(socket.SOL_SOCKET, socket.SO_RCVBUF, 4096)
    return service


PREVIEW = [b"Preview: 1024", b"Transfer-Preview: *"]


def drained(user, begins=None):
    """Reads whatever comes to a user, or to whoever has a socket `sock`, once it may begin."""
    try:
        if begins:
            begins.wait(PATIENCE)
        while user.sock.recv(1 << 20):
            pass
    except OSError:
        pass  # The connection was closed, here or there.


def asks(bench, proxy, target, narrow=False):
    user = bench.keep(User(proxy.port, narrow=narrow))
    user.send(get(target))
    return user


def hanging(bench, origin, service, text=""):
    return bench.proxy(origin, "deadline = 600\n" + text, [("respmod", *service)])


def service_silent_after_a_preview(bench):
    service = silent_service(bench, PREVIEW)
    proxy = hanging(bench, bench.keep(Site()), (service.port, "/respmod/scan"))
    asks(bench, proxy, "/report.pdf")
    return proxy, service.release


def service_without_options(bench):
    service = bench.icap(answer_options=False)
    proxy = hanging(bench, bench.keep(Site()), (service.port, "/respmod/scan"))
    asks(bench, proxy, "/report.pdf")
    return proxy, service.release


def service_that_takes_no_body(bench):
    service = silent_service(bench, narrow=True)
    proxy = hanging(bench, bench.keep(Site()), (service.port, "/respmod/scan"))
    asks(bench, proxy, "/film.mp4")
    return proxy, service.release


def origin_without_an_answer(bench):
    origin = bench.keep(Site())
    proxy = hanging(bench, origin, (bench.icapd(), "/respmod/pass"))
    asks(bench, proxy, "/login")
    return proxy, origin.release


def origin_silent_in_its_body(bench):
    origin = bench.keep(Site())
    proxy = hanging(bench, origin, (bench.icapd(), "/respmod/pass"))
    threading.Thread(target=drained, args=(asks(bench, proxy, "/list.csv"),), daemon=True).start()
    return proxy, origin.release


def user_that_reads_nothing(bench):
    proxy = hanging(bench, bench.keep(Site()), (bench.icapd(), "/respmod/pass"))
    user, release = asks(bench, proxy, "/film.mp4", narrow=True), threading.Event()
    threading.Thread(target=drained, args=(user, release), daemon=True).start()
    return proxy, release


def nobody_gives_a_connection_back(bench):
    service = silent_service(bench, PREVIEW)
    proxy = hanging(bench, bench.keep(Site()), (service.port, "/respmod/scan", 1), "wait = 600\nshards = 1")
    asks(bench, proxy, "/report.pdf")
    comes("the first message", lambda: len(service.requests) == 1)
    asks(bench, proxy, "/news.html")
    return proxy, service.release


HANGS = ((service_silent_after_a_preview, ["service-reply"]), (service_that_takes_no_body, ["service-takes"]),
         (service_without_options, ["service-options"]), (origin_without_an_answer, ["origin-answer"]),
         (origin_silent_in_its_body, ["origin-body"]), (user_that_reads_nothing, ["user-takes"]),
         (nobody_gives_a_connection_back, ["service-reply", "service-connection"]))
