"""Configurations, heads, users that do as they like, and the administrator."""
import socket
import threading
import time

from serve_lab.cases import ADAPTPROXY, IDLE, at_once, case, get, is_refused, needs, post, refusal, same, settled
from serve_lab.loopback import KEPT, Program, Reader, Server, User, ask, body_of, fields_of, free_port


@case
def configurations_are_refused_in_order(bench):
    least = 'listen = "127.0.0.1:%d"\nadmin = "127.0.0.1:%d"\n' % (free_port(), free_port())
    origin = bench.origin()
    taken = 'listen = "127.0.0.1:%d"\nadmin = "127.0.0.1:%d"\n' % (origin.port, free_port())
    rows = [("", "config listen", 2), ("x", "config", 2), ("\xff", None, 2), ('listen = "127.0.0.1:1"', "config admin", 2),
            (least + "shards = 0\ncapacity = 0", "config shards", 2), (least + "capacity = 1099511627777", "config capacity", 2),
            (least + "rows = 4097", "config rows", 2), (least + "journal = 0", "config journal", 2),
            (least + "deadline = 3601", "config deadline", 2), (least + "preview_limit = 65537", "config preview_limit", 2),
            (least + "allow_limit = 1048577", "config allow_limit", 2), (least + "window = 0", "config window", 2),
            (least + "turn = 4097", "config turn", 2), (least + "window = 8191\nturn = 8192", "config turn", 2),
            (least + "retry = 1", "config retry", 2), (least + 'hosts = 1', "config hosts", 2),
            (least + '[hosts]\n"a" = "b"', "config hosts.a", 2), (least + "[reqmod]", "config reqmod.host", 2),
            (least + '[respmod]\nhost = "127.0.0.1"\npath = "x"', "config respmod.path", 2),
            (least + "zebra = 1\nant = 1", "config ant", 2), (taken, "cannot listen: 127.0.0.1:%d" % origin.port, 1)]
    for text, error, status in rows:
        program = bench.keep(Program(ADAPTPROXY, text))
        if error is not None:
            same(text, (program.first,) + program.ended(), (b"", b"", b"adaptproxy: %s\n" % error.encode(), status))


@case
def connections_are_kept(bench):
    port = bench.icapd()
    origin = bench.origin()
    proxy = bench.proxy(origin, "", [("reqmod", port, "/reqmod/pass"), ("respmod", port, "/respmod/upper")])
    user = User(proxy.port)
    for size in (5, 0, 70000, 1):
        answer = user.ask(get("/bytes/%d" % size))
        same("kept", (answer.body, answer.fields.get("connection")), (body_of(size).upper(), None))
        answer = user.ask(post("/echo", body_of(size)))
        same("kept", answer.body, body_of(size).upper())
    for path in ("/status/204", "/status/304"):
        same(path, user.ask(get(path)).status, int(path[-3:]))
    same("HEAD", user.ask(get("/bytes/7", method="HEAD"), True).fields["content-length"], "7")
    same("chunked", user.ask(get("/chunked/9000")).body, body_of(9000).upper())
    user.send(get("/bytes/3") + get("/bytes/4") + post("/echo", b"abc") + get("/bytes/5"))
    same("pipelined", [user.answer().body for _ in range(4)], [b"THE", b"THE ", b"ABC", b"THE Q"])
    answer = user.ask(get("/bytes/2", "Connection: close\r\n"))
    same("close", (answer.body, answer.fields.get("connection")), (b"TH", "close"))
    same("ended", user.is_ended(), True)
    old = User(proxy.port)
    old.send(get("/chunked/100", version="1.0"))
    answer = old.answer()
    same("1.0", (answer.fields[""], answer.body, old.is_ended()), ("HTTP/1.1 200 OK", body_of(100).upper(), True))
    same("audit", proxy.stop(), IDLE)


@case
def expect_is_answered(bench):
    origin = bench.origin()
    proxy = bench.proxy(origin, "", [("reqmod", bench.icapd(), "/reqmod/upper")])
    user = User(proxy.port)
    for _ in range(2):
        user.send(get("/echo", "Content-Length: 5\r\nExpect: 100-continue\r\n", "POST"))
        same("interim", user.reader.head(), b"HTTP/1.1 100 Continue\r\n\r\n")
        user.send(b"hello")
        same("body", user.answer().body, b"HELLO")
        same("not passed on", "expect" in fields_of(origin.heads[-1]), False)
    user.send(get("/bytes/3", "Expect: 100-continue\r\n"))
    same("no body", user.reader.head()[:15], b"HTTP/1.1 200 Fi")
    same("audit", proxy.stop(), IDLE)


@case
def expect_is_answered_to_users_that_read_slowly(bench):
    """The interim answer may not fit into the user's socket, whole or in part: it is said once there is room."""
    origin = bench.origin()
    proxy = bench.proxy(origin, "deadline = 600")
    count = 800

    def one(number):
        user = User(proxy.port, narrow=True)
        body = b"x" * (number + 1)
        requests = 3 * get("/bytes/25000") + count * post("/echo", body, "Expect: 100-continue\r\n")
        threading.Thread(target=user.send, args=(requests,), daemon=True).start()
        seen = -1
        while seen != origin.count:
            seen = origin.count
            time.sleep(0.5)
        for _ in range(3):
            same("filled", user.answer().body, body_of(25000))
        for _ in range(count):
            same("interim", user.reader.head(), b"HTTP/1.1 100 Continue\r\n\r\n")
            answer = user.answer()
            same("body", (answer.status, answer.body), (200, body))
        user.close()

    at_once(6, one)
    same("audit", proxy.stop(), IDLE)


@case
def users_that_end_inside_a_head_get_no_answer(bench):
    origin = bench.origin()
    proxy = bench.proxy(origin)
    for before in (b"", get("/bytes/3")):
        for text in (b"", b"G", get("/bytes/3")[:-2]):
            user = User(proxy.port)
            user.send(before)
            if before:
                same("the first", user.answer().body, b"the")
            user.send(text)
            user.sock.shutdown(socket.SHUT_WR)
            same(text, user.reader.to_end(), b"")
    same("audit", proxy.stop(), IDLE)


@case
def faulty_requests_are_refused(bench):
    origin = bench.origin()
    closed = free_port()
    proxy = bench.proxy(origin, "deadline = 2", hosts='"gone.test" = "127.0.0.1:%d"' % closed)
    both = "Content-Length: 3\r\nTransfer-Encoding: chunked\r\n"
    rows = [(b"what is this\r\n\r\n", 400), (get("/a", both, "POST"), 400), (b"GET http://o.test/ HTTP/1.1\r\n\r\n", 400),
            (b"CONNECT o.test:443 HTTP/1.1\r\nHost: o.test\r\n\r\n", 501), (get("/a", "Transfer-Encoding: gzip\r\n", "POST"), 501),
            (b"GET / HTTP/1.1\r\nHost: o.test\r\n\r\n", 400), (get("/a", "Content-Length: x\r\n", "POST"), 400),
            (get("/a", "Content-Length: 1\r\nContent-Length: 2\r\n", "POST"), 400),
            (b"GET http://unknown.test/ HTTP/1.1\r\nHost: unknown.test\r\n\r\n", 502),
            (b"GET http://gone.test/ HTTP/1.1\r\nHost: gone.test\r\n\r\n", 502),
            (b"GET http://127.0.0.1:%d/ HTTP/1.1\r\nHost: x\r\n\r\n" % closed, 502),
            (get("/x", "A: " + "b" * 16384 + "\r\n"), 400), (get("/x", "A: b\r\n" * 101), 400),
            (get("/garbage"), 502), (get("/switch"), 502), (get("/mute"), 504)]
    for request, status in rows:
        is_refused(request[:60], proxy.port, request, status)
    same("interim answers", ask(proxy.port, get("/interim")).body, b"after interim")
    origin.release.set()
    user = User(proxy.port)
    user.send(get("/a", "Transfer-Encoding: chunked\r\n", "POST") + b"xyz\r\n")
    same("a broken chunk", user.reader.to_end(), refusal(400))
    user = User(proxy.port)
    user.send(get("/cut/100"))
    head = user.reader.head()
    same("a cut answer", (head[:12], len(user.reader.to_end())), (b"HTTP/1.1 200", 50))
    same("audit", proxy.stop(), IDLE)


@case
def capacity_changes_while_it_runs(bench):
    origin = bench.origin()
    proxy = bench.proxy(origin)
    same("idle", proxy.say("capacity 4096", "book", "capacity 0", "capacity 1099511627777", "x", "book "),
         ["ok", "rows 0 held 0 claimed 0 capacity 4096", "bad", "bad", "bad", "bad"])
    is_refused("a full bank", proxy.port, get("/bytes/3"), 503)
    same("raised", proxy.say("capacity 20000", "book"), ["ok", "rows 0 held 0 claimed 0 capacity 20000"])
    user = User(proxy.port)
    user.send(get("/mute"))
    while not origin.heads:
        time.sleep(0.01)
    same("within", ask(proxy.port, get("/bytes/3")).body, body_of(3))
    origin.release.set()
    user.reader.to_end()
    same("audit", proxy.stop(), IDLE)


@case
def users_that_misbehave(bench):
    port = bench.icapd()
    origin = bench.origin()
    proxy = bench.proxy(origin, "deadline = 5", [("reqmod", port, "/reqmod/upper"), ("respmod", port, "/respmod/upper")])
    User(proxy.port).close()
    for text in (get("/bytes/100000"), post("/echo", body_of(50000))[:30000], get("/chunked/1000000")):
        for end in ("close", "reset"):
            user = User(proxy.port)
            user.send(text)
            getattr(user, end)()
    half = User(proxy.port)
    half.send(post("/echo", b"abc"))
    half.sock.shutdown(socket.SHUT_WR)
    same("half-closed", half.answer().body, b"ABC")
    slow = User(proxy.port)
    for byte in post("/echo", b"abcdef"):
        slow.send(bytes([byte]))
        time.sleep(0.001)
    same("byte by byte", slow.answer().body, b"ABCDEF")
    early = User(proxy.port)
    early.send(get("/early", "Content-Length: 3000000\r\n", "POST"))
    same("audit line comes", ask(proxy.port, get("/bytes/3")).body, b"THE")
    early.close()
    same("book", settled(proxy).split(" claimed")[0], "rows 0 held 0")
    same("audit", proxy.stop(), IDLE)


@case
def want_of_descriptors_is_survived(bench):
    origin = bench.origin()
    proxy = bench.proxy(origin, "deadline = 2", descriptors=30)
    users = [User(proxy.port) for _ in range(60)]
    for user in users[40:]:
        user.close()
    for user in users[:40]:
        user.close()
    time.sleep(0.5)
    same("after it", ask(proxy.port, get("/bytes/3")).body, body_of(3))
    same("audit", proxy.stop(), IDLE)


@case
def heads_are_forwarded_as_the_rules_say(bench):
    def exchange(conn, _number):
        heads.append(Reader(conn).head())
        conn.sendall(b"HTTP/1.0 200 Very  Fine\r\nServer:  x \r\nKeep-Alive: 5\r\nConnection: X-Hop\r\nX-Hop: 1\r\nContent-Length: 3\r\n"
                     b"Transfer-Encoding: chunked\r\nTrailer: T\r\n\r\n3\r\nabc\r\n0\r\nT: 1\r\n\r\nand more")

    needs("no KEPT", not KEPT)
    heads = []
    origin = bench.keep(Server(exchange))
    proxy = bench.proxy(origin)
    user = User(proxy.port)
    user.send(b"\r\nGET HTTP://o.test/p?q=1#f HTTP/1.1\r\nAccept:\t*/*  \r\nProxy-Connection: keep-alive\r\nTE: trailers\r\nHost: other\r\n"
              b"Upgrade: h2c\r\nConnection: Upgrade, X-Own\r\nX-Own: 1\r\nProxy-Authorization: Basic x\r\nVia: 1.0 before\r\n\r\n")
    answer = user.answer()
    same("to the origin", heads, [b"GET /p?q=1 HTTP/1.1\r\nAccept: */*\r\nHost: o.test\r\nVia: 1.0 before\r\nConnection: close\r\n"
                                  b"Via: 1.1 adaptproxy\r\n\r\n"])
    same("to the user", (answer.head, answer.body),
         (b"HTTP/1.1 200 Very  Fine\r\nServer: x\r\nTransfer-Encoding: chunked\r\nVia: 1.0 adaptproxy\r\n\r\n", b"abc"))
    same("kept", user.ask(get("/again")).body, b"abc")
    same("audit", proxy.stop(), IDLE)


@case
def a_slow_user_holds_no_more_than_its_window(bench):
    origin = bench.origin()
    proxy = bench.proxy(origin, "", [("respmod", bench.icapd(), "/respmod/pass")])
    user = User(proxy.port)
    user.send(get("/bytes/10000000"))
    time.sleep(1)
    rows, held = (int(word) for word in proxy.say("book").split()[1:4:2])
    same("rows and held", (rows, held <= 16384), (1, True))
    answer = user.answer()
    same("body", answer.body == body_of(10_000_000), True)
    same("audit", proxy.stop(), IDLE)
