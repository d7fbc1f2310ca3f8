"""Messages within others: requests in bodies, answers after answers, and what a service says that nobody asked for."""
import time

from serve_lab.cases import IDLE, case, get, refusal, same
from serve_lab.loopback import Icap, Reader, Server, User

WITHIN = b"GET http://o.test/within HTTP/1.1\r\nHost: o.test\r\n\r\n"
CHUNKED = b"Transfer-Encoding: chunked\r\n"


def posted(fields, body):
    return b"POST http://o.test/outer HTTP/1.1\r\nHost: o.test\r\n" + fields + b"\r\n" + body


# Heads of which two readers may think differently where their bodies end, each with a body that hides a request from one of them.
DOUBTFUL = [(posted(fields, b"0\r\n\r\n" + WITHIN), status) for fields, status in (
    (b"Content-Length: 5\r\n" + CHUNKED, 400), (CHUNKED + b"Content-Length: 60\r\n", 400), (b"Transfer-Encoding: xchunked\r\n", 501),
    (b"Transfer-Encoding: chunked, chunked\r\n", 501), (b"Transfer-Encoding: identity, chunked\r\n", 501), (CHUNKED + CHUNKED, 501),
    (CHUNKED + b"Transfer-Encoding: identity\r\n", 501), (b"Transfer-Encoding: \"chunked\"\r\n", 501), (b"Transfer-Encoding: \r\n", 501),
    (b"Transfer-Encoding : chunked\r\n", 400), (b"Transfer-Encoding:\x0bchunked\r\n", 400), (b"Transfer-Encoding:\r\n chunked\r\n", 400),
    (b" " + CHUNKED, 400), (b"X: a\rTransfer-Encoding: chunked\r\n", 400), (b"Content-Length: +5\r\n", 400), (b"Content-Length: -5\r\n", 400),
    (b"Content-Length: 5, 5\r\n", 400), (b"Content-Length: 0x5\r\n", 400), (b"Content-Length: 5\r\nContent-Length: 60\r\n", 400),
    (b"Content-Length: \r\n", 400), (b"Content-Length: 5\0\r\n", 400), (b"Content-Length: 18446744073709551621\r\n", 400))]
# Chunks of which two readers may think differently where they end.
BROKEN = (b"0x3\r\nabc\r\n0\r\n\r\n", b"+3\r\nabc\r\n0\r\n\r\n", b"-3\r\nabc\r\n0\r\n\r\n", b" 3\r\nabc\r\n0\r\n\r\n", b"3\nabc\r\n0\r\n\r\n",
          b"3\r\nabc\n0\r\n\r\n", b"3\r\nabcd\r\n0\r\n\r\n", b"3;a=\rb\r\nabc\r\n0\r\n\r\n", b"3;a=\nb\r\nabc\r\n0\r\n\r\n", b"3_\r\nabc\r\n0\r\n\r\n",
          b"10000000000000003\r\nabc\r\n0\r\n\r\n", b"3\r\nabc\r\n0\r\nX: y\n\r\n", b"3\r\nabc\r\n0\r\n\n", b"0" * 257 + b"3\r\nabc\r\n0\r\n\r\n")


@case
def requests_within_bodies_are_not_heard(bench):
    origin = bench.origin()
    proxy = bench.proxy(origin, "deadline = 3")
    for text, status in DOUBTFUL + [(posted(CHUNKED, chunks + WITHIN), 400) for chunks in BROKEN]:
        user = User(proxy.port)
        user.send(text)
        same(text[40:120], user.reader.to_end(), refusal(status))
        user.close()
    # One body of each framing that ends where all think it does: what follows is a request.
    for fields, body in ((b"Content-Length: 5\r\n", b"abcde"), (CHUNKED, b"3;x\r\nabc\r\n0;y\r\nContent-Length: 9\r\n\r\n")):
        user = User(proxy.port)
        user.send(posted(fields, body) + WITHIN)
        same("both", [user.answer().status, user.answer().status], [200, 200])
        user.close()
    same("heard", sum(b"/within" in head for head in origin.heads), 2)
    same("audit", proxy.stop(), IDLE)


@case
def answers_after_answers_are_not_told(bench):
    """An origin, or a service, that says more than one answer: the next request of the user's gets its own."""
    more = b"HTTP/1.1 200 OK\r\nContent-Length: 4\r\n\r\nmore"
    rows = {b"/length": (b"HTTP/1.1 200 OK\r\nContent-Length: 3\r\n\r\nabc", b"abc"),
            b"/chunks": (b"HTTP/1.1 200 OK\r\nContent-Length: 99\r\n" + CHUNKED + b"\r\n3\r\nabc\r\n0\r\n\r\n", b"abc"),
            b"/none": (b"HTTP/1.1 204 No\r\nContent-Length: %d\r\n\r\n" % len(more), b""),
            b"/same": (b"HTTP/1.1 304 Same\r\n" + CHUNKED + b"\r\n", b""),
            b"/head": (b"HTTP/1.1 200 OK\r\nContent-Length: %d\r\n\r\n" % len(more), b""),
            b"/interim": (b"HTTP/1.1 100 On\r\n\r\nHTTP/1.1 103 On\r\nContent-Length: 3\r\n\r\nHTTP/1.1 200 OK\r\nContent-Length: 3\r\n\r\nabc", b"abc")}

    def exchange(conn, _number):
        head = Reader(conn).head()
        conn.sendall(rows[head.split(b" ")[1]][0] + more)
    service = bench.icap(options=[b"Preview: 4", b"Transfer-Preview: *"])
    for services in ([], [("respmod", service.port, "/respmod/x")]):
        proxy = bench.proxy(bench.keep(Server(exchange)), "", services)
        user = User(proxy.port)
        for _ in range(2):
            for path, (text, body) in rows.items():
                method = "HEAD" if path == b"/head" else "GET"
                answer = user.ask(get(path.decode(), method=method), method == "HEAD")
                same(path, (answer.status, answer.body), (int(text[9:12]) if path != b"/interim" else 200, body))
        time.sleep(0.1)
        same("nothing after it", user.reader.raw, b"")
        user.close()
        same("audit", proxy.stop(), IDLE)


@case
def what_a_service_says_unasked_is_no_answer(bench):
    """A second reply after a 204, at once and while the connection lies idle: the next message gets its own reply, on another one."""
    evil = (b"ICAP/1.0 200 OK\r\nISTag: \"t-1\"\r\nEncapsulated: res-hdr=0, res-body=19\r\n\r\nHTTP/1.1 200 OK\r\n\r\n4\r\nevil\r\n0\r\n\r\n")
    for pause in (0, 0.1):
        def reply(conn, reader, head, _count, pause=pause):
            _heads, _body, _last = Icap.rest(reader, head)
            conn.sendall(Icap.NO_MODIFICATION + (b"" if pause else evil))
            if pause:
                time.sleep(pause)
                conn.sendall(evil)
        service = bench.icap(reply, [b"Preview: 4", b"Transfer-Preview: *"])
        proxy = bench.proxy(bench.origin(), "shards = 1", [("respmod", service.port, "/respmod/x")])
        user = User(proxy.port)
        for size in (3, 300, 3000):
            answer = user.ask(get("/bytes/%d" % size))
            same("its own, %s" % pause, (answer.status, len(answer.body), b"evil" in answer.body), (200, size, False))
            time.sleep(3 * pause)
        same("connections", service.count, 3)
        user.close()
        same("audit", proxy.stop(), IDLE)
