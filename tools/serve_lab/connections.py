"""Connections over time: how long those to services lie idle, when those to origins are opened, and how long options hold."""
import socket
import time

from serve_lab.cases import IDLE, case, comes, get, is_refused, needs, post, same
from serve_lab.loopback import KEPT, Icap, Reader, Server, User, ask, body_of, fields_of, free_port, read_body
from serve_lab.operators import stats

FORBIDDEN = (b"ICAP/1.0 200 OK\r\nISTag: \"t-1\"\r\nEncapsulated: res-hdr=0, res-body=45\r\n\r\n"
             b"HTTP/1.1 403 Forbidden\r\nContent-Length: 2\r\n\r\n2\r\nno\r\n0\r\n\r\n")


def idle(proxy, point="respmod"):
    """How many connections lie idle, as the counters say."""
    return stats(proxy)['adaptproxy_service_connections{point="%s",state="idle"}' % point]


@case
def an_idle_connection_to_a_service_has_an_age(bench):
    """The service's network forgets flows of two seconds: what comes on one is never answered."""
    heard = {}

    def reply(conn, reader, head, count):
        late = time.time() - heard.get(conn, time.time()) > 2
        if late:
            time.sleep(10)
        heard[conn] = time.time()
        return service.no_modification(conn, reader, head, count)
    service = bench.icap(reply)
    proxy = bench.proxy(bench.origin(), "shards = 2\ndeadline = 4\nservice_idle = 2", [("respmod", service.port, "/respmod/x")])
    same("at first", [ask(proxy.port, get("/bytes/3")).status for _ in range(3)], [200] * 3)
    same("one serves all", service.count, 1)
    time.sleep(2.2)
    begin = time.time()
    same("after a pause", ask(proxy.port, get("/bytes/3")).body, body_of(3))
    same("at once", time.time() - begin < 1, True)
    same("on another connection", service.count, 2)
    comes("closed by the clock", lambda: idle(proxy) == 0 and not service.inside)
    same("audit", proxy.stop(), IDLE)


@case
def the_youngest_idle_connection_is_lent(bench):
    """The others grow old meanwhile, and are closed."""
    def reply(conn, reader, head, count):
        time.sleep(0.3 if count <= 3 else 0)
        return service.no_modification(conn, reader, head, count)
    service = bench.icap(reply)
    proxy = bench.proxy(bench.origin(), "shards = 1\nservice_idle = 2", [("respmod", service.port, "/respmod/x")])
    users = [User(proxy.port) for _ in range(3)]
    for user in users:
        user.send(get("/bytes/3"))
    same("three at once", [user.answer().status for user in users], [200] * 3)
    comes("all idle", lambda: idle(proxy) == 3)
    end = time.time() + 4
    while time.time() < end:
        same("again", ask(proxy.port, get("/bytes/3")).status, 200)
        time.sleep(0.5)
    same("one is left", (len(service.inside), service.count), (1, 3))
    same("audit", proxy.stop(), IDLE)


@case
def no_connection_is_kept_where_none_may_lie_idle(bench):
    service = bench.icap()
    proxy = bench.proxy(bench.origin(), "service_idle = 0", [("respmod", service.port, "/respmod/x")])
    same("answers", [ask(proxy.port, get("/bytes/3")).status for _ in range(5)], [200] * 5)
    comes("none is open", lambda: not service.inside)
    same("each had its own", service.count >= 5, True)
    same("audit", proxy.stop(), IDLE)


@case
def a_connection_that_its_service_closed_isnt_idle(bench):
    """It is counted no more, and its descriptor goes, though nobody asks for it."""
    needs("no KEPT", not KEPT)
    def reply(conn, reader, head, count):
        service.no_modification(conn, reader, head, count)
        time.sleep(0.3)
        return False
    service = bench.icap(reply)
    proxy = bench.proxy(bench.origin(), "", [("respmod", service.port, "/respmod/x")])
    proxy.say("book")
    time.sleep(0.1)
    before = proxy.descriptors()
    same("answers", [ask(proxy.port, get("/bytes/3")).status for _ in range(5)], [200] * 5)
    comes("it is counted idle", lambda: idle(proxy) > 0)
    comes("and then no more", lambda: idle(proxy) == 0, 2.5)
    comes("its descriptor goes", lambda: proxy.descriptors() <= before, 1)
    same("audit", proxy.stop(), IDLE)


def final_service(bench):
    """A service whose first options say that it wants nothing, and for ever."""
    service = bench.icap()
    service.extra = b"Transfer-Ignore: *\r\n"
    return service


@case
def options_that_are_final_are_asked_for_again_at_refresh(bench):
    service = final_service(bench)
    proxy = bench.proxy(bench.origin(), "shards = 2", [("respmod", service.port, "/respmod/x")])
    users = [User(proxy.port) for _ in range(4)]
    same("unscanned", [user.ask(get("/bytes/3")).status for user in users], [200] * 4)
    service.extra = b"Preview: 4\r\nTransfer-Preview: *\r\n"
    same("for ever", [user.ask(get("/bytes/3")).status for user in users], [200] * 4)
    same("each thread asked once", (service.asked, len(service.requests)), (2, 0))
    same("the word", proxy.say("refresh"), "ok")
    same("after it", [user.ask(get("/bytes/3")).status for user in users], [200] * 4)
    same("all are scanned", (service.asked, len(service.requests)), (4, 4))
    same("audit", proxy.stop(), IDLE)


@case
def options_that_say_no_time_hold_as_long_as_is_configured(bench):
    service = final_service(bench)
    proxy = bench.proxy(bench.origin(), "shards = 1\noptions_ttl = 2", [("respmod", service.port, "/respmod/x")])
    same("unscanned", ask(proxy.port, get("/bytes/3")).status, 200)
    service.extra = b"Transfer-Preview: *\r\n"
    same("for a while", ask(proxy.port, get("/bytes/3")).status, 200)
    same("asked once", (service.asked, len(service.requests)), (1, 0))
    time.sleep(2.2)
    same("then scanned", ask(proxy.port, get("/bytes/3")).status, 200)
    same("asked again", (service.asked, len(service.requests)), (2, 1))
    same("audit", proxy.stop(), IDLE)


@case
def an_origin_is_dialled_first_or_late(bench):
    """A request that its service answers itself, and one whose scan takes longer than the origin waits for a head."""
    def once(conn, _number):
        conn.settimeout(2)
        reader = Reader(conn)
        try:
            head = reader.head()
        except socket.timeout:
            return
        conn.settimeout(20)
        body = read_body(reader, fields_of(head), False)
        conn.sendall(b"HTTP/1.1 200 OK\r\nContent-Length: %d\r\n\r\n%s" % (len(body), body))

    def reply(conn, reader, head, _count):
        heads, body, last = Icap.rest(reader, head)
        if b"/forbidden" in heads:
            conn.sendall(FORBIDDEN)
            return
        time.sleep(3)
        Icap.same(conn, fields_of(head), heads, body, last)
    upload = body_of(300000)
    for dial, forbidden, scanned in (("first", 1, 502), ("late", 0, 200)):
        service, origin = bench.icap(reply), bench.keep(Server(once))
        proxy = bench.proxy(origin, 'dial = "%s"' % dial, [("reqmod", service.port, "/reqmod/x")])
        same("forbidden", ask(proxy.port, get("/forbidden")).status, 403)
        time.sleep(0.1)
        same("connections of " + dial, origin.count, forbidden)
        answer = ask(proxy.port, post("/echo", upload))
        same("an upload with " + dial, answer.status, scanned)
        if scanned == 200:
            same("its body", answer.body, upload)
        same("audit", proxy.stop(), IDLE)


@case
def a_late_dial_finds_what_an_early_one_does(bench):
    service = bench.icap()
    hosts = '"gone.test" = "127.0.0.1:%d"' % free_port()
    for services in ([], [("reqmod", service.port, "/reqmod/x")]):
        proxy = bench.proxy(bench.origin(), 'dial = "late"', services, hosts)
        is_refused("an unknown host", proxy.port, get("/bytes/3").replace(b"o.test", b"x.test"), 502)
        if services:
            same("before its service is asked", (service.asked, len(service.requests)), (0, 0))
        is_refused("refused", proxy.port, get("/bytes/3").replace(b"o.test", b"gone.test"), 502)
        user = User(proxy.port)
        for size in (0, 1, 5000, 100000):
            same("a body", user.ask(post("/echo", body_of(size))).body, body_of(size))
            same("an answer", user.ask(get("/chunked/%d" % size)).body, body_of(size))
        user.close()
        same("audit", proxy.stop(), IDLE)
