"""Services that break, say how many connections they take, change their minds, or never answer."""
import socket
import threading
import time

from serve_lab.cases import IDLE, case, get, is_refused, needs, post, refusal, same, settled
from serve_lab.loopback import KEPT, PATIENCE, Icap, Reader, Server, User, ask, body_of, fields_of, free_port


WORKED = b"GET http://o.test/a.txt HTTP/1.1\r\nHost: o.test\r\n\r\n"
FINAL = (b"ICAP/1.0 200 OK\r\nISTag: \"adapt-1\"\r\nEncapsulated: res-hdr=0, res-body=38\r\n\r\n"
         b"HTTP/1.1 200 OK\r\nContent-Length: 6\r\n\r\n6\r\nABCDEF\r\n0\r\n\r\n")


@case
def the_worked_exchange(bench):
    needs("no KEPT", not KEPT)
    seen = []

    def reply(conn, reader, head, _count):
        seen.append(head + reader.exactly(88) + reader.exactly(14))
        conn.sendall(b"ICAP/1.0 100 Continue\r\n\r\n")
        seen.append(reader.exactly(12))
        conn.sendall(FINAL)

    def exchange(conn, _number):
        heads.append(Reader(conn).head())
        conn.sendall(b"HTTP/1.1 200 OK\r\nContent-Length: 6\r\n\r\nabcdef")

    heads = []
    service = bench.icap(reply, [b"Preview: 4", b"Transfer-Preview: *"])
    origin = bench.keep(Server(exchange))
    proxy = bench.proxy(origin, "allow_limit = 0", [("respmod", service.port, "/respmod/upper")])
    user = User(proxy.port)
    user.send(WORKED)
    answer = b"HTTP/1.1 200 OK\r\nContent-Length: 6\r\nVia: 1.1 adaptproxy\r\n\r\nABCDEF"
    same("to the user", user.reader.exactly(len(answer)), answer)
    same("to the origin", heads,
         [b"GET /a.txt HTTP/1.1\r\nHost: o.test\r\nConnection: close\r\nVia: 1.1 adaptproxy\r\n\r\n"])
    host = b"127.0.0.1:%d" % service.port
    same("to the service", seen[0],
         b"RESPMOD icap://%s/respmod/upper ICAP/1.0\r\nHost: %s\r\nPreview: 4\r\n" % (host, host)
         + b"Encapsulated: req-hdr=0, res-hdr=50, res-body=88\r\n\r\n" + WORKED
         + b"HTTP/1.1 200 OK\r\nContent-Length: 6\r\n\r\n4\r\nabcd\r\n0\r\n\r\n")
    same("after the 100", seen[1], b"2\r\nef\r\n0\r\n\r\n")
    user.send(WORKED)
    same("again", user.reader.exactly(len(answer)), answer)
    same("audit", proxy.stop(), IDLE)
    same("the service's connections", service.count, 1)


@case
def faulty_services_are_refused(bench):
    origin = bench.origin()
    tag = b"ISTag: \"t-1\"\r\n"
    null = b"Encapsulated: null-body=0\r\n\r\n"
    replies = [b"ICAP/1.0 500 Oops\r\n" + tag + null, b"ICAP/1.0 206 Part\r\n" + tag + null, b"what\r\n\r\n", b"",
               b"ICAP/1.0 100 Continue\r\n\r\n", b"ICAP/1.0 200 OK\r\n" + tag + b"Encapsulated: res-body=0\r\n\r\n0\r\n\r\n",
               b"ICAP/1.0 200 OK\r\n" + tag + null]
    for text in replies:
        def reply(conn, reader, head, _count, text=text):
            Icap.rest(reader, head)
            conn.sendall(text)
            return False
        service = bench.icap(reply)
        proxy = bench.proxy(origin, "", [("respmod", service.port, "/respmod/x")])
        is_refused(text, proxy.port, get("/chunked/20"), 502)
        same("audit", proxy.stop(), IDLE)
    for options in ([b"Max-Connections: 0"], [b"Preview: x"], [b"Methods: REQMOD"]):
        service = bench.icap(options=options)
        proxy = bench.proxy(origin, "", [("respmod", service.port, "/respmod/x")])
        if options != [b"Methods: REQMOD"]:
            is_refused(options[0], proxy.port, get("/bytes/20"), 502)
        same("audit", proxy.stop(), IDLE)
    proxy = bench.proxy(origin, "", [("respmod", free_port(), "/respmod/x")])
    is_refused("no service", proxy.port, get("/bytes/20"), 502)
    same("audit", proxy.stop(), IDLE)


@case
def one_connection_at_most(bench):
    origin = bench.origin()
    held = threading.Event()

    def reply(conn, reader, head, count):
        heads, body, last = Icap.rest(reader, head)
        if count == 1:
            held.wait(PATIENCE)
        Icap.same(conn, fields_of(head), heads, body, last)

    for closes in ([], [b"Connection: close"]):
        held.clear()
        service = bench.icap(reply, [b"Max-Connections: 1"] + closes)
        proxy = bench.proxy(origin, "shards = 2", [("respmod", service.port, "/respmod/x")])
        first = User(proxy.port)
        first.send(get("/chunked/3"))
        while not service.requests:
            time.sleep(0.01)
        is_refused("the second user", proxy.port, get("/bytes/3"), 503)
        held.set()
        same("the first user", first.answer().body, body_of(3))
        third = None
        for _ in range(1000):
            third = ask(proxy.port, get("/bytes/3"))
            if third.status != 503:
                break
        same("the third user", third.body, body_of(3))
        same("at most", service.most, 1)
        same("connections", service.count >= (2 if closes else 1), True)
        same("audit", proxy.stop(), IDLE)


@case
def deadlines_pass(bench):
    origin = bench.origin()
    proxy = bench.proxy(origin, "deadline = 1")
    user = User(proxy.port)
    user.send(b"GET http://o.test/ HT")
    same("a request head", user.reader.to_end(), b"")
    is_refused("an origin's head", proxy.port, get("/mute"), 504)
    same("audit", proxy.stop(), IDLE)
    silent = bench.icap(answer_options=False)
    proxy = bench.proxy(origin, "deadline = 1", [("respmod", silent.port, "/respmod/x")])
    is_refused("OPTIONS", proxy.port, get("/bytes/3"), 504)
    same("audit", proxy.stop(), IDLE)

    def never(_conn, _reader, _head, _count):
        time.sleep(5)
    slow = bench.icap(never)
    for point, request in (("respmod", get("/bytes/3")), ("reqmod", post("/echo", b"abc"))):
        proxy = bench.proxy(origin, "deadline = 1", [(point, slow.port, "/%s/x" % point)])
        is_refused("a service's reply", proxy.port, request, 504)
        same("audit", proxy.stop(), IDLE)


@case
def a_broken_idle_connection_is_replaced(bench):
    origin = bench.origin()

    def reply(conn, reader, head, count):
        Icap.no_modification(service, conn, reader, head, count)
        time.sleep(0.05)
        return False
    service = bench.icap(reply, [b"Preview: 4", b"Transfer-Preview: *"])
    for retry in ("true", "false"):
        proxy = bench.proxy(origin, "shards = 1\nretry = %s" % retry, [("respmod", service.port, "/respmod/x")])
        found = set()
        for _ in range(4):
            found.add(ask(proxy.port, get("/bytes/30")).status)
            time.sleep(0.3)
        same("retry = %s" % retry, found, {200})
        same("audit", proxy.stop(), IDLE)


@case
def a_connection_that_broke_after_its_options_is_replaced(bench):
    """The first message on a connection that was opened to ask for options: its service may close it just then."""
    for point in ("reqmod", "respmod"):
        def reply(conn, reader, head, count):
            if count == 1:
                Icap.rest(reader, head)
                return False
            return service.no_modification(conn, reader, head, count)
        service = bench.icap(reply)
        proxy = bench.proxy(bench.origin(), "shards = 1", [(point, service.port, "/%s/x" % point)])
        same(point, [ask(proxy.port, get("/bytes/3")).status for _ in range(2)], [200, 200])
        same("audit", proxy.stop(), IDLE)


@case
def options_on_a_connection_that_ends_are_asked_anew_where_a_retry_may_be(bench):
    """Its service reads the second OPTIONS on a connection, and closes it."""
    def once(conn, _number):
        reader, asked = Reader(conn), 0
        while True:
            head = reader.head()
            if not head.startswith(b"OPTIONS"):
                Icap.rest(reader, head)
                conn.sendall(Icap.NO_MODIFICATION)
                continue
            asked += 1
            if asked == 2:
                return
            conn.sendall(b"ICAP/1.0 200 OK\r\nMethods: RESPMOD\r\nISTag: \"t-1\"\r\nAllow: 204\r\nOptions-TTL: 0\r\n"
                         b"Encapsulated: null-body=0\r\n\r\n")
    for retry, wanted, connections in (("true", 200, 2), ("false", 502, 1)):
        service = bench.keep(Server(once))
        proxy = bench.proxy(bench.origin(), "shards = 1\nretry = %s" % retry, [("respmod", service.port, "/respmod/x")])
        same("the first", ask(proxy.port, get("/bytes/3")).status, 200)
        same("book", settled(proxy)[:24], "rows 0 held 0 claimed 0 ")
        same("retry = %s" % retry, ask(proxy.port, get("/bytes/3")).status, wanted)
        same("connections", service.count, connections)
        same("audit", proxy.stop(), IDLE)


@case
def a_stop_refuses_what_is_under_way(bench):
    origin = bench.origin()

    def never(_conn, reader, head, _count):
        Icap.rest(reader, head)
        time.sleep(5)
    service = bench.icap(never)
    proxy = bench.proxy(origin, "", [("respmod", service.port, "/respmod/x")])
    users = [User(proxy.port) for _ in range(5)]
    for user in users:
        user.send(get("/bytes/3000"))
    while len(service.requests) < 5:
        time.sleep(0.01)
    same("held", proxy.say("book").split(" claimed")[0], "rows 5 held 15000")
    idle = User(proxy.port)
    same("audit", proxy.stop(), IDLE)
    same("refused", [user.reader.to_end() for user in users], [refusal(503)] * 5)
    same("idle", idle.reader.to_end(), b"")


@case
def options_are_asked_again(bench):
    origin = bench.origin()
    tags = [b"t-1"]

    def reply(conn, reader, head, _count):
        Icap.rest(reader, head)
        conn.sendall(Icap.NO_MODIFICATION.replace(b"t-1", tags[0]))
    service = bench.icap(reply, [b"Preview: 0", b"Transfer-Preview: *", b"Options-TTL: 2"])
    proxy = bench.proxy(origin, "shards = 1", [("respmod", service.port, "/respmod/x")])
    asked = []
    for tag, pause in ((b"t-1", 0), (b"t-1", 0), (b"t-2", 0), (b"t-1", 0), (b"t-1", 3), (b"t-1", 0)):
        time.sleep(pause)
        tags[0] = tag
        same("body", ask(proxy.port, get("/bytes/30")).body, body_of(30))
        asked.append(service.asked)
    same("asked", asked, [1, 1, 1, 2, 3, 3])
    same("audit", proxy.stop(), IDLE)


@case
def adapted_messages_are_checked(bench):
    origin = bench.origin()
    tag = b"ISTag: \"t-1\"\r\n"

    def text(head, body, part=b"res"):
        return b"ICAP/1.0 200 OK\r\n%sEncapsulated: %s-hdr=0, %s-body=%d\r\n\r\n%s%s" % (tag, part, part, len(head), head, body)
    ok = b"HTTP/1.1 200 OK\r\n"
    rows = [(text(ok + b"Content-Length: 3\r\n\r\n", b"5\r\nabcde\r\n0\r\n\r\n"), None),
            (text(ok + b"\r\n", b"5\r\nabcde\r\n0\r\n\r\n"), b"abcde"),
            (text(ok + b"Content-Length: 5\r\n\r\n", b"2\r\nab\r\n3\r\ncde\r\n0\r\n\r\n"), b"abcde"),
            (text(b"HTTP/1.1 100 Continue\r\n\r\n", b"0\r\n\r\n"), 502), (text(ok + b"Content-Length: x\r\n\r\n", b"0\r\n\r\n"), 502),
            (text(ok + b"\r\n", b"4000000000000000\r\n"), None)]
    for answer, wanted in rows:
        def reply(conn, reader, head, _count, answer=answer):
            Icap.rest(reader, head)
            conn.sendall(answer)
        service = bench.icap(reply, [b"Preview: 1", b"Transfer-Preview: *"])
        proxy = bench.proxy(origin, "", [("respmod", service.port, "/respmod/x")])
        if wanted == 502:
            is_refused(answer, proxy.port, get("/bytes/20"), 502)
        elif wanted is None:
            user = User(proxy.port)
            user.send(get("/bytes/20"))
            found = user.reader.to_end()
            same("cut or refused", found == refusal(502) or found.startswith(ok) and not found.endswith(b"0\r\n\r\n"), True)
        else:
            same("body", ask(proxy.port, get("/bytes/20")).body, wanted)
        same("audit", proxy.stop(), IDLE)
    for extra in (b"/changed", b""):
        def change(conn, reader, head, _count, extra=extra):
            heads, body, last = Icap.rest(reader, head)
            heads = heads.replace(b"/echo", b"/echo" + extra).replace(b"Content-Length: 3\r\n", b"Content-Length: 4\r\n")
            Icap.same(conn, fields_of(head), heads, body + b"!", last)
        service = bench.icap(change)
        proxy = bench.proxy(origin, "", [("reqmod", service.port, "/reqmod/x")])
        same("request", ask(proxy.port, post("/echo", b"abc")).body, b"abc!")
        same("path", origin.heads[-1].split(b" ")[1], b"/echo" + extra)
        same("audit", proxy.stop(), IDLE)


def others_are_served(proxy, what):
    """A hundred further requests, one after the other, are answered while some go on that the service is done with."""
    begin = time.time()
    found = [ask(proxy.port, get("/bytes/1000")).status for _ in range(100)]
    print("      %s: %d of 100 further requests answered 200 in %.1f s" % (what, found.count(200), time.time() - begin))
    same("further requests", found, [200] * 100)
    end = time.time() + 5
    while proxy.say("book").split()[:2] != ["rows", "4"] and time.time() < end:
        time.sleep(0.01)
    same("those before them", proxy.say("book").split()[:2], ["rows", "4"])


@case
def a_service_is_free_while_users_read_slowly(bench):
    origin = bench.origin()
    proxy = bench.proxy(origin, "shards = 2", [("respmod", bench.icapd("max = 4"), "/respmod/pass")])
    ends = threading.Event()

    def slowly(user):
        while not ends.wait(1):
            user.reader.exactly(1024)
    users = [User(proxy.port, narrow=True) for _ in range(4)]
    for user in users:
        user.send(get("/bytes/20000000"))
        user.reader.head()
        threading.Thread(target=slowly, args=(user,), daemon=True).start()
    others_are_served(proxy, "four users at 1 KB/s")
    ends.set()
    for user in users:
        user.reset()
    same("book", settled(proxy)[:24], "rows 0 held 0 claimed 0 ")
    same("audit", proxy.stop(), IDLE)


@case
def a_service_is_free_while_an_origin_cant_be_reached(bench):
    deaf = bench.keep(socket.socket())
    deaf.bind(("127.0.0.1", 0))
    deaf.listen(0)
    for _ in range(3):
        full = bench.keep(socket.socket())
        full.setblocking(False)
        full.connect_ex(deaf.getsockname())
    services = [("reqmod", bench.icapd("max = 4"), "/reqmod/pass")]
    proxy = bench.proxy(bench.origin(), "shards = 2", services, '"deaf.test" = "127.0.0.1:%d"' % deaf.getsockname()[1])
    users = [User(proxy.port) for _ in range(4)]
    for number, user in enumerate(users):
        user.send(get("/bytes/3").replace(b"o.test", b"deaf.test"))
        while proxy.say("book").split()[1] != str(number + 1):
            time.sleep(0.01)
    time.sleep(0.2)
    others_are_served(proxy, "an origin that four requests can't reach")
    for user in users:
        user.reset()
    same("book", settled(proxy)[:24], "rows 0 held 0 claimed 0 ")
    same("audit", proxy.stop(), IDLE)
