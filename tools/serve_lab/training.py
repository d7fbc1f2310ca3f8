"""What `adaptproxy` is asked while it counts itself, for tools/tune_program: users at once, who ask for what users mostly ask for. Each
scene is a run of the program. The shares decide what is compiled as often used; the bytes are checked, so that nothing broken is
counted."""
import os
import threading

from serve_lab.loopback import Icap, Origin, Proxy, Reader, User, body_of, fields_of

USERS = 16
PREVIEW = [b"Preview: 1024", b"Transfer-Preview: *"]
WIDER = "turn = 16384\nwindow = 32768\n"
KEPT = "keep_origins = 64\n"


class KeptOrigin(Origin):
    """An origin that keeps its connections."""

    def exchange(self, conn, _number):
        reader = Reader(conn)
        while self.one_of(conn, reader):
            pass


def get(path):
    return b"GET http://o.test%s HTTP/1.1\r\nHost: o.test\r\nUser-Agent: a user\r\nAccept: */*\r\n\r\n" % path.encode()


def post(path, body):
    return b"POST http://o.test%s HTTP/1.1\r\nHost: o.test\r\nContent-Length: %d\r\n\r\n%s" % (path.encode(), len(body), body)


def same(conn, reader, head, _count):
    """The service answers with the message as it came, after the whole of it."""
    heads, body, last = Icap.rest(reader, head)
    fields = fields_of(head)
    if "preview" in fields and b"ieof" not in last:
        conn.sendall(b"ICAP/1.0 100 Continue\r\n\r\n")
        body += reader.chunked()[0]
    Icap.same(conn, fields, heads, body, last)


def ask_at_once(port, request, body, count):
    """As many users ask for the same at once, so many times each on its own connection, and get this body."""
    faults = []

    def ask():
        try:
            user = User(port)
            for _ in range(count):
                answer = user.ask(request)
                if (answer.status, answer.body) != (200, body):
                    raise AssertionError("status %d, %d bytes" % (answer.status, len(answer.body)))
            user.close()
        except Exception as fault:  # a broken answer ends in many ways, as where its status is no number
            faults.append(fault)

    users = [threading.Thread(target=ask, daemon=True) for _ in range(USERS)]
    for user in users:
        user.start()
    for user in users:
        user.join()
    if faults:
        raise faults[0]


class Runs:
    """Runs of a program, each of which writes what it counted to a file of its own."""

    def __init__(self, path, folder):
        self.path, self.folder, self.files = path, folder, []

    def proxy(self, origin, text="", services=()):
        self.files.append(os.path.join(self.folder, "run%d" % len(self.files)))
        os.environ["PROFILE"] = self.files[-1]
        return Proxy(self.path, origin.port, "shards = 1\n" + text, services)


def train(runs):
    """Short answers most of all: with a service that leaves them as they are, and with none."""
    fresh, kept = Origin(), KeptOrigin()
    leaves, changes = Icap(options=PREVIEW), Icap(same, PREVIEW)
    respmod = [("respmod", leaves.port, "/respmod", USERS)]
    both = [(point, changes.port, "/" + point, USERS) for point in ("reqmod", "respmod")]
    short, page, long = body_of(1000), body_of(20_000), body_of(64_000)
    for origin, text, services, request, body, count in (
            (fresh, "", respmod, get("/bytes/1000"), short, 100),
            (kept, KEPT, respmod, get("/bytes/1000"), short, 100),
            (fresh, "", (), get("/bytes/1000"), short, 60),
            (kept, KEPT, respmod, get("/chunked/20000"), page, 20),
            (fresh, "", both, post("/echo", page), page, 10),
            (fresh, WIDER, (), get("/bytes/64000"), long, 20),
            (kept, KEPT + WIDER, respmod, get("/bytes/64000"), long, 20)):
        proxy = runs.proxy(origin, text, services)
        try:
            ask_at_once(proxy.port, request, body, count)
            said = proxy.stop()
        finally:
            proxy.kill()
        if said.startswith("status"):
            raise AssertionError(said)
    for server in (fresh, kept, leaves, changes):
        server.close()
