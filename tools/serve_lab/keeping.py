"""Connections to origins that are kept between exchanges (`keep_origins`): what keeps one, and who may use it."""
import random
import subprocess

from serve_lab.cases import ADAPTPROXY, case, comes, get, is_refused, needs, post, post_chunked, same
from serve_lab.keeper import CHUNKED, WHOLE, Keeper, all_is_over, are_idle, counts, says
from serve_lab.loopback import KEPT, PATIENCE, Icap, Program, User, ask, body_of, free_port

# The head that goes to an origin, on a connection of its own and on one that may be kept.
OWN = "%s %s HTTP/1.1\r\nHost: o.test\r\nConnection: close\r\nVia: 1.1 adaptproxy\r\n\r\n"
SHARED = OWN.replace("Connection: close\r\n", "")


def saying(text, field):
    """An answer with a field more."""
    return text.replace(b"\r\n", b"\r\n" + field + b"\r\n", 1)


@case
def the_keys_of_kept_origins_are_checked(bench):
    least = 'listen = "127.0.0.1:%d"\nadmin = "127.0.0.1:%d"\n' % (free_port(), free_port())
    rows = [("keep_origins = 1025", "keep_origins"), ("keep_origins = -1", "keep_origins"), ("keep_origins = true", "keep_origins"),
            ("origin_idle = 0", "origin_idle"), ("origin_idle = 3601", "origin_idle"), ('origin_idle = "1"', "origin_idle"),
            ("dial = 1\norigin_idle = 0\nkeep_origins = 2000", "keep_origins"), ("dial = 1\norigin_idle = 0", "origin_idle"),
            ("keep_origins = 2000\nhead_deadline = -1\nmetrics = 1", "metrics"), ("service_idle = -1\norigin_idle = 0", "origin_idle")]
    for text, key in rows:
        program = bench.keep(Program(ADAPTPROXY, least + text + "\n"))
        same(text, (program.first,) + program.ended(), (b"", b"", b"adaptproxy: config %s\n" % key.encode(), 2))
    for text in ("keep_origins = 0\norigin_idle = 1", "keep_origins = 1024\norigin_idle = 3600", "keep_origins = 1", "origin_idle = 5"):
        ended = subprocess.run([ADAPTPROXY, "check"], input=(least + text).encode(), stdout=subprocess.PIPE, timeout=20)
        same(text, (ended.stdout, ended.returncode), (b"ok\n", 0))


@case
def nothing_is_kept_by_default(bench):
    """Without the key, and with 0: each exchange has a connection of its own, says so, and ends it after its answer."""
    needs("no KEPT", not KEPT)
    for text in ("", "keep_origins = 0\norigin_idle = 5\n"):
        origin = bench.keep(Keeper())
        proxy = bench.proxy(origin, text + "shards = 1")
        user = User(proxy.port)
        for place, (method, path) in enumerate((("GET", "/bytes/5"), ("HEAD", "/bytes/7"), ("OPTIONS", "/bytes/0"), ("GET", "/bytes/4097"))):
            answer = user.ask(get(path, method=method), method == "HEAD")
            wanted = b"" if method == "HEAD" else body_of(int(path[7:]))
            same(path, (answer.status, answer.body, answer.fields.get("connection")), (200, wanted, None))
            same("its head", origin.last().head.decode(), OWN % (method, path))
            comes("its end", lambda: origin.ended == list(range(1, place + 2)))
        same("connections", (origin.count, origin.open()), (4, 0))
        same("counted", counts(proxy), (4, 0, 0, 0))
        all_is_over(origin, proxy)


@case
def connections_to_origins_are_kept(bench):
    """Twenty requests of a user go over one connection, whatever the services make of them; and so do those of users one after another."""
    icapd = bench.icapd()
    both = [("reqmod", icapd, "/reqmod/pass"), ("respmod", icapd, "/respmod/upper")]
    for services, dial in (([], "first"), ([], "late"), (both[1:], "late"), (both, "first"), (both, "late")):
        origin = bench.keep(Keeper())
        proxy = bench.proxy(origin, 'shards = 1\nkeep_origins = 4\ndial = "%s"' % dial, services)
        user = User(proxy.port)
        for size in (5, 0, 1, 4095, 4096, 4097, 100000, 1, 8192, 30000) * 2:
            wanted = body_of(size)
            same("an answer", user.ask(get("/bytes/%d" % size)).body, wanted.upper() if services else wanted)
        same("connections of a user", [(each.number, each.place) for each in origin.asked], [(1, place) for place in range(1, 21)])
        if not services:
            same("their heads", {each.head.decode() for each in origin.asked[::10]}, {SHARED % ("GET", "/bytes/5")})
        for _ in range(20):
            ask(proxy.port, get("/bytes/5"))
        # One user may come before the answer of the one before it is over for the proxy.
        same("connections of all", 1 <= origin.count <= 3, True)
        are_idle(proxy, origin.count)
        same("counted", counts(proxy), (origin.count, 40 - origin.count, 0, origin.count))
        same("they stay", (origin.ended, origin.open()), ([], origin.count))
        user.close()
        all_is_over(origin, proxy)
        comes("their end", lambda: len(origin.ended) == origin.count)


@case
def a_user_that_closes_ends_no_connection_to_an_origin(bench):
    """What a user says of its own connection is no word about the origin's."""
    origin = bench.keep(Keeper())
    proxy = bench.proxy(origin, "shards = 1\nkeep_origins = 4")
    for extra, version in (("Connection: close\r\n", "1.1"), ("Proxy-Connection: close\r\n", "1.1"), ("", "1.0"),
                           ("Connection: keep-alive\r\n", "1.0"), ("Connection: close, X-A\r\nX-A: 1\r\nKeep-Alive: 3\r\n", "1.1")):
        answer = ask(proxy.port, get("/bytes/5", extra, version=version))
        same("an answer", answer.body, body_of(5))
        same("its head", origin.last().head.decode(), (SHARED % ("GET", "/bytes/5")).replace("Via: 1.1", "Via: " + version))
        are_idle(proxy, 1)
    same("connections", origin.count, 1)
    all_is_over(origin, proxy)


# Answers by whether their connection is kept.
KEEPING = {
    "a length": WHOLE, "chunks": CHUNKED, "a trailer": CHUNKED[:-2] + b"T: 1\r\nU: 2\r\n\r\n",
    "no byte": b"HTTP/1.1 200 OK\r\nContent-Length: 0\r\n\r\n", "no chunk": CHUNKED[:CHUNKED.index(b"2\r\nab")] + b"0\r\n\r\n",
    "204": b"HTTP/1.1 204 No\r\n\r\n", "304": b"HTTP/1.1 304 No\r\nContent-Length: 5\r\n\r\n", "404": WHOLE.replace(b"200", b"404"),
    "500": WHOLE.replace(b"200", b"500"), "an interim head": b"HTTP/1.1 103 Hints\r\nLink: x\r\n\r\n" + WHOLE,
    "interim heads": 32 * b"HTTP/1.1 100 Continue\r\n\r\n" + CHUNKED, "keep-alive": saying(WHOLE, b"Connection: keep-alive"),
    "a time": saying(WHOLE, b"Keep-Alive: timeout=5, max=100"), "another option": saying(WHOLE, b"Connection: closed, x-close"),
    "close elsewhere": saying(WHOLE, b"X: close\r\nProxy-Connection: close"),
}
ENDING = {
    "close": saying(WHOLE, b"Connection: close"), "CLOSE": saying(WHOLE, b"CONNECTION: CLOSE"),
    "close, last": saying(WHOLE, b"Connection: keep-alive ,\tclose"), "close, first": saying(WHOLE, b"Connection: close, keep-alive"),
    "close, in a second field": saying(WHOLE, b"Connection: keep-alive\r\nX: y\r\nConnection: close"),
    "close, chunked": saying(CHUNKED, b"Connection: close"), "close, no body": b"HTTP/1.1 204 No\r\nConnection: close\r\n\r\n",
    "1.0": WHOLE.replace(b"1.1", b"1.0"), "1.0, keep-alive": saying(WHOLE.replace(b"1.1", b"1.0"), b"Connection: keep-alive"),
    "1.0, chunked": CHUNKED.replace(b"1.1", b"1.0"), "a byte more": WHOLE + b"x", "a line more": WHOLE + b"\r\n",
    "two answers": WHOLE + WHOLE.replace(b"abcde", b"fghij"), "an interim head more": WHOLE + b"HTTP/1.1 100 Continue\r\n\r\n",
    "a byte after chunks": CHUNKED + b"x", "an answer after chunks": CHUNKED + WHOLE, "a body of 204": b"HTTP/1.1 204 No\r\n\r\nabcde",
    "a body of 304": b"HTTP/1.1 304 No\r\nContent-Length: 5\r\n\r\nabcde",
    "both lengths": saying(CHUNKED, b"Content-Length: 5"),
    "both lengths, the coding first": CHUNKED.replace(b"\r\n\r\n", b"\r\nContent-Length: 40\r\n\r\n", 1),
    "more than a read": WHOLE + 40000 * b"x", "an answer after 204": b"HTTP/1.1 204 No\r\n\r\n" + WHOLE,
}


def is_empty(name):
    """Whether this one of the answers has no byte, though its status lets it have some."""
    return name in ("no byte", "no chunk")


def status_of(text):
    return int(text[text.rindex(b"HTTP/1.1 ") if text.startswith(b"HTTP/1.1 10") else 0:][9:12])


@case
def a_connection_is_kept_only_after_a_whole_answer(bench):
    """The framing, the version, `close`, and that nothing is left over: each decides, both ways; and whatever is left comes to nobody."""
    acts = {"k%d" % place: says(text) for place, text in enumerate(KEEPING.values())}
    acts.update({"e%d" % place: says(text) for place, text in enumerate(ENDING.values())})
    icapd = bench.icapd()
    for text, services in (("", []), ('dial = "late"\n', []), ("", [("respmod", icapd, "/respmod/upper")])):
        origin = bench.keep(Keeper(acts))
        proxy = bench.proxy(origin, text + "shards = 1\nkeep_origins = 4", services)
        user = User(proxy.port)

        def put(what, path, answer):
            found = user.ask(get(path))
            body = b"" if is_empty(what) or found.status in (204, 304) else b"ABCDE" if services else b"abcde"
            same(what, (found.status, found.body, found.fields.get("connection")), (status_of(answer), body, None))
            return origin.last().number
        number = put("at first", "/k0", WHOLE)
        for place, (name, answer) in enumerate(KEEPING.items()):
            same(name, put(name, "/k%d" % place, answer), number)
        same("one connection", origin.count, 1)
        for place, (name, answer) in enumerate(ENDING.items()):
            put(name, "/e%d" % place, answer)
            comes("the end after " + name, lambda: origin.last().number in origin.ended)
            same("none of it is left to the next one", put(name, "/k0", WHOLE) == origin.asked[-2].number, False)
        are_idle(proxy, 1)
        all_is_over(origin, proxy)


@case
def an_answer_that_the_close_ends_keeps_nothing(bench):
    origin = bench.keep(Keeper({"framed": says(b"HTTP/1.1 200 OK\r\n\r\nabcde", False), "cut": says(WHOLE[:-1], False),
                                "chunk": says(CHUNKED[:-1], False), "head": says(b"HTTP/1.1 200 OK\r\n", False)}))
    proxy = bench.proxy(origin, "shards = 1\nkeep_origins = 4")
    same("framed by close", ask(proxy.port, get("/framed")).body, b"abcde")
    for path, wanted in (("/cut", b"abcd"), ("/chunk", b"ab")):
        user = User(proxy.port)
        user.send(get(path))
        same(path, wanted in user.reader.to_end(), True)
        user.close()
    is_refused("a head", proxy.port, get("/head"), 502)
    comes("their ends", lambda: origin.open() == 0)
    are_idle(proxy, 0)
    same("counted", counts(proxy), (4, 0, 0, 0))
    all_is_over(origin, proxy)


@case
def a_byte_after_an_answer_is_seen_wherever_a_read_ends(bench):
    """An answer and one more byte, or a whole further answer, come at once; the answer ends where a read of the proxy may, or near it."""
    after = b"HTTP/1.1 200 OK\r\nContent-Length: 9\r\nX-Alien: 1\r\n\r\nsmuggled!"

    def act(visit, total, more):
        head = b"HTTP/1.1 200 OK\r\nContent-Length: %05d\r\n\r\n"
        size = int(total) - len(head % 0)
        visit.send(head % size + body_of(size) + after[:int(more)])
    origin = bench.keep(Keeper({"at": act}))
    for turn in ("", "turn = 16384\nwindow = 32768\n"):
        if turn and not is_taken(turn):
            continue
        proxy = bench.proxy(origin, turn + "shards = 1\nkeep_origins = 4")
        user = User(proxy.port)
        totals = [edge + near for edge in (4096, 8192, 12288, 16384, 20480, 32768) for near in range(-3, 4)]
        for total in totals + [random.Random(turn).randrange(42, 60000) for _ in range(200)]:
            for more in (1, len(after)):
                user.send(get("/at/%d/%d" % (total, more)) + get("/bytes/5"))
                same("an answer of %d bytes" % total, user.answer().body == body_of(total - 42), True)
                same("the next one's, after %d bytes" % total, user.answer().body, body_of(5))
                same("its connection, after %d bytes" % total, origin.last().number > origin.asked[-2].number, True)
        all_is_over(origin, proxy)


def is_taken(text):
    """Whether the program knows the keys of this text."""
    least = 'listen = "127.0.0.1:1"\nadmin = "127.0.0.1:2"\n'
    return subprocess.run([ADAPTPROXY, "check"], input=(least + text).encode(), stdout=subprocess.PIPE, stderr=subprocess.PIPE).returncode == 0


@case
def a_head_that_is_answered_with_a_body_keeps_nothing(bench):
    """HEAD keeps its connection, and one that gets a body doesn't: that body is nobody's answer."""
    origin = bench.keep(Keeper({"body": says(WHOLE), "chunks": says(CHUNKED), "answer": says(WHOLE[:-5] + WHOLE),
                                "none": says(WHOLE[:-5]), "unframed": says(b"HTTP/1.1 200 OK\r\n\r\n")}))
    proxy = bench.proxy(origin, "shards = 1\nkeep_origins = 4")
    user = User(proxy.port)
    for path, is_kept in (("/none", True), ("/bytes/7", True), ("/unframed", True), ("/body", False), ("/chunks", False), ("/answer", False)):
        answer = user.ask(get(path, method="HEAD"), True)
        same(path, answer.status, 200)
        number = origin.last().number
        same("the next answer", user.ask(get("/bytes/3")).body, b"the")
        same("kept after " + path, origin.last().number == number, is_kept)
    all_is_over(origin, proxy)


@case
def only_what_may_be_sent_again_goes_out_on_a_kept_connection(bench):
    """Every other request gets a fresh connection, which may be kept after it."""
    origin = bench.keep(Keeper())
    for dial in ("first", "late"):
        proxy = bench.proxy(origin, 'shards = 1\nkeep_origins = 8\ndial = "%s"' % dial)
        user = User(proxy.port)

        def place_of(request, to_head=False):
            user.ask(get("/bytes/3"))
            same("an answer", user.ask(request, to_head).status, 200)
            return origin.last().place
        for method in ("GET", "HEAD", "OPTIONS", "TRACE"):
            for extra in ("", "Content-Length: 0\r\n", "Connection: close\r\n")[:2]:
                same(method, place_of(get("/bytes/3", extra, method), method == "HEAD") > 1, True)
        for method in ("POST", "PUT", "PATCH", "DELETE", "LOCK", "get", "GETS"):
            same(method, place_of(get("/bytes/3", "Content-Length: 0\r\n", method)), 1)
        for method in ("GET", "OPTIONS", "POST", "PUT"):
            same(method + " with a body", place_of(post("/bytes/3", b"abc").replace(b"POST", method.encode(), 1)), 1)
            same(method + " with chunks", place_of(post_chunked("/bytes/3", b"abc", 2).replace(b"POST", method.encode(), 1)), 1)
            same(method + " with no chunk", place_of(post_chunked("/bytes/3", b"", 2).replace(b"POST", method.encode(), 1)), 1)
        same("HEAD with a body", place_of(post("/bytes/3", b"abc").replace(b"POST", b"HEAD", 1), True), 1)
        user.close()
        other = bench.proxy(origin, 'shards = 1\nkeep_origins = 8\ndial = "%s"' % dial)
        user = User(other.port)
        user.ask(post("/echo", body_of(100000)))
        number = origin.last().number
        same("kept after a body", (user.ask(get("/bytes/3")).status, origin.last().number, origin.last().place), (200, number, 2))
        user.close()
        all_is_over(origin, proxy, other)


def making(change):
    """A service of requests that makes something else of them: `change` of the heads and the body answers the new heads and body."""
    def reply(conn, reader, head, _count):
        heads, body, _last = Icap.rest(reader, head)
        heads, body = change(heads, body)
        if body is None:
            text, rest = b"null-body", b""
        else:
            text, rest = b"req-body", (b"%x\r\n%s\r\n" % (len(body), body) if body else b"") + b"0\r\n\r\n"
        conn.sendall(b"ICAP/1.0 200 OK\r\nISTag: \"t-1\"\r\nEncapsulated: req-hdr=0, %s=%d\r\n\r\n" % (text, len(heads)) + heads + rest)
        return True
    return reply


@case
def a_request_that_its_service_changes_is_judged_as_it_goes_out(bench):
    """A GET of which the service of requests makes a POST, or one with a body, never goes out on a kept connection."""
    def change(heads, body):
        word = heads.split(b" ")[1].split(b"/")[3]
        if word == b"post":
            return heads.replace(b"GET", b"POST", 1), None
        if word == b"body":
            return heads[:-2] + b"Content-Length: 3\r\n\r\n", b"abc"
        if word == b"chunks":
            return heads, b"abc"
        if word == b"empty":
            return heads, b""
        if word == b"get":
            return b"GET" + heads[4:].replace(b"Content-Length: 3\r\n", b""), None
        if word == b"head":
            return heads.replace(b"\r\n", b"\r\nX-A: 1\r\n", 1), None if body == b"" else body
        return heads, None
    for dial in ("first", "late"):
        service, origin = bench.icap(making(change)), bench.keep(Keeper())
        proxy = bench.proxy(origin, 'shards = 1\nkeep_origins = 8\ndial = "%s"' % dial, [("reqmod", service.port, "/reqmod/x", 2)])
        user = User(proxy.port)
        for path, method, body in (("/post/3", "POST", b""), ("/body/3", "GET", b"abc"), ("/chunks/3", "GET", b"abc")):
            user.ask(get("/as/it/is/3"))
            answer = user.ask(get(path))
            last = origin.last()
            same(path, (answer.status, answer.body, last.method, last.body, last.place), (200, b"the", method, body, 1))
        user.ask(get("/as/it/is/3"))
        same("with a field more", (user.ask(get("/head/3")).status, origin.last().place > 1), (200, True))
        same("with an empty body", user.ask(get("/empty/3")).body, b"the")
        same("a POST that becomes a GET", (user.ask(post("/get/3", b"abc")).body, origin.last().method), (b"the", "GET"))
        user.close()
        all_is_over(origin, proxy)


@case
def a_service_that_answers_itself_takes_no_connection_for_good(bench):
    """A request that its service answers: an origin's connection that was taken for it got no byte, and nobody sees bytes of another."""
    def reply(conn, reader, head, count):
        heads, _body, _last = Icap.rest(reader, head)
        if b"/page" not in heads:
            return service.no_modification_of(conn)
        conn.sendall(b"ICAP/1.0 200 OK\r\nISTag: \"t-1\"\r\nEncapsulated: res-hdr=0, res-body=45\r\n\r\n"
                     b"HTTP/1.1 403 Forbidden\r\nContent-Length: 4\r\n\r\n4\r\npage\r\n0\r\n\r\n")
        return True
    for dial in ("first", "late"):
        service, origin = bench.icap(reply), bench.keep(Keeper())
        service.no_modification_of = lambda conn: conn.sendall(Icap.NO_MODIFICATION)
        proxy = bench.proxy(origin, 'shards = 1\nkeep_origins = 8\ndial = "%s"' % dial, [("reqmod", service.port, "/reqmod/x", 2)])
        user = User(proxy.port)
        for _ in range(5):
            same("an answer", user.ask(get("/bytes/5")).body, body_of(5))
            answer = user.ask(get("/page/1"))
            same("a page", (answer.status, answer.body), (403, b"page"))
        same("the origin was asked", [each.path for each in origin.asked], 5 * ["/bytes/5"])
        user.close()
        all_is_over(origin, proxy)


@case
def a_connection_that_fails_in_mid_answer_is_not_kept(bench):
    """Users that leave, services that break, and deadlines that pass: the origin's connection ends with its exchange."""
    def slowly(visit, *_words):
        visit.send(b"HTTP/1.1 200 OK\r\nContent-Length: 100000\r\n\r\n" + body_of(1000))
        origin.release.wait(PATIENCE)
        visit.send(body_of(99000))
    origin = bench.keep(Keeper({"slow": slowly}))
    proxy = bench.proxy(origin, "shards = 1\nkeep_origins = 4\ndeadline = 2")
    for end in ("reset", "close"):
        user = User(proxy.port)
        user.send(get("/slow"))
        user.reader.until(b"quick")
        getattr(user, end)()
    late = User(proxy.port)
    late.send(get("/slow"))
    same("cut at the deadline", len(late.reader.to_end()) < 2000, True)
    origin.release.set()
    comes("their ends", lambda: origin.open() == 0)
    same("none is kept", counts(proxy), (3, 0, 0, 0))
    all_is_over(origin, proxy)

    def breaks(conn, reader, head, _count):
        Icap.rest(reader, head)
        return False
    service, origin = bench.icap(breaks), bench.keep(Keeper())
    proxy = bench.proxy(origin, "shards = 1\nkeep_origins = 4\nretry = false", [("respmod", service.port, "/respmod/x")])
    is_refused("a service that breaks off", proxy.port, get("/bytes/50000"), 502)
    comes("its end", lambda: origin.open() == 0)
    all_is_over(origin, proxy)


@case
def an_answer_that_its_service_replaces_keeps_nothing_of_the_rest(bench):
    """A service that answers before it has read the response: where the origin's answer wasn't read whole, its connection isn't kept."""
    def reply(conn, reader, head, _count):
        text = b"HTTP/1.1 403 Forbidden\r\nContent-Length: 4\r\n\r\n"
        if b"Preview:" in head:
            Icap.rest(reader, head)
        conn.sendall(b"ICAP/1.0 200 OK\r\nISTag: \"t-1\"\r\nEncapsulated: res-hdr=0, res-body=%d\r\n\r\n%s4\r\npage\r\n0\r\n\r\n" % (len(text), text))
        if b"Preview:" not in head:
            Icap.rest(reader, head)
        return True

    def halting(visit, *words):
        visit.send(b"HTTP/1.1 200 OK\r\nContent-Length: %s\r\n\r\n" % words[-1].encode() + body_of(int(words[-1])))
    for options in ([], [b"Preview: 0", b"Transfer-Preview: *"]):
        service, origin = bench.icap(reply, options), bench.keep(Keeper({"page": halting}))
        proxy = bench.proxy(origin, "shards = 1\nkeep_origins = 4", [("respmod", service.port, "/respmod/x")])
        user = User(proxy.port)
        for size in (3, 5000, 500000, 3):
            answer = user.ask(get("/page/%d" % size))
            same("a page", (answer.status, answer.body), (403, b"page"))
            if answer.fields.get("connection") == "close":
                user = User(proxy.port)
        all_is_over(origin, proxy)
