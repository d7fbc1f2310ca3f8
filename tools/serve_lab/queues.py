"""Exchanges that wait for a connection to a service, and what becomes of the connections that are given back."""
import random
import socket
import threading
import time

from serve_lab.cases import ICAPD, IDLE, at_once, called_at_once, case, comes, get, is_refused, post, refusal, same, settled, statuses_of
from serve_lab.loopback import PATIENCE, Icap, Program, Reader, Server, User, ask, body_of, free_port


def kept_users(proxy, count, requests, path="/bytes/1000"):
    """`count` users, each with `requests` requests on connections that are kept where the proxy keeps them: how many answers have
    which status, and the longest wait for one."""
    found, longest, lock = {}, [0.0], threading.Lock()

    def one(_number):
        user = None
        for _ in range(requests):
            user = user or User(proxy.port)
            begin = time.time()
            answer = user.ask(get(path))
            late = time.time() - begin
            with lock:
                found[answer.status] = found.get(answer.status, 0) + 1
                longest[0] = max(longest[0], late)
            if answer.fields.get("connection") == "close":
                user.close()
                user = None
        if user:
            user.close()
    at_once(count, one)
    return found, longest[0]


def waiting(proxy):
    """How many exchanges wait at both points together, by the counters."""
    with socket.create_connection(("127.0.0.1", proxy.admin), PATIENCE) as sock:
        sock.sendall(b"stats\n")
        text = Reader(sock).until(b"# EOF\n")
    return sum(int(line.split()[-1]) for line in text.splitlines() if line.startswith(b"adaptproxy_waiting{"))


def wait_for(proxy, count, patience=5.0):
    """Waits until that many users wait."""
    end = time.time() + patience
    while waiting(proxy) != count:
        if time.time() > end:
            raise AssertionError("%d wait, never %d" % (waiting(proxy), count))
        time.sleep(0.02)


@case
def the_defaults_of_both_programs_keep_nobody_hanging(bench):
    """Forty users on kept connections, both points at one icapd: answered at once where none waits, and all where they may."""
    for text, wanted in (("", None), ("wait = 5", {200: 400})):
        origin = bench.origin()
        port = bench.icapd()
        proxy = bench.proxy(origin, text, [("reqmod", port, "/reqmod/pass"), ("respmod", port, "/respmod/pass")])
        begin = time.time()
        found, longest = kept_users(proxy, 40, 10)
        print("      %s: %s in %.1f s, the longest wait %.2f s" % (text or "wait = 0", found, time.time() - begin, longest))
        same("answers", sum(found.values()), 400)
        same("statuses", set(found) <= {200, 503}, True)
        if wanted:
            same("all are served", found, wanted)
        else:
            same("no wait above two seconds", longest <= 2.0, True)
        same("book", settled(proxy)[:24], "rows 0 held 0 claimed 0 ")
        same("audit", proxy.stop(), IDLE)


@case
def two_connections_serve_sixty_four_users_in_turn(bench):
    origin = bench.origin()

    def reply(conn, reader, head, count):
        time.sleep(0.05)
        return service.no_modification(conn, reader, head, count)
    service = bench.icap(reply, [b"Max-Connections: 2"])
    proxy = bench.proxy(origin, "wait = 10\nshards = 4", [("respmod", service.port, "/respmod/x", 2)])
    begin = time.time()
    found, longest = kept_users(proxy, 64, 1)
    late = time.time() - begin
    print("      %s in %.2f s, the longest wait %.2f s; at most %d connections" % (found, late, longest, service.most))
    same("all are served", found, {200: 64})
    same("within four seconds", late <= 4.0, True)
    same("at most", service.most <= 2, True)
    same("book", settled(proxy)[:24], "rows 0 held 0 claimed 0 ")
    same("audit", proxy.stop(), IDLE)


def one_held(bench, text, sizes=None, moves=False, point="respmod", origin=None):
    """A proxy with one connection to its service, which a first user holds until `held` is set. Where it `moves`, the service
    answers a byte at a time meanwhile, so that no deadline of the first user passes."""
    origin = origin or bench.origin()
    held = threading.Event()

    def reply(conn, reader, head, count):
        sent = 0
        while count == 1 and moves and not held.wait(0.2):
            conn.sendall(Icap.NO_MODIFICATION[sent:sent + 1])
            sent += 1
        if count == 1:
            held.wait(PATIENCE)
        _heads, body, _last = Icap.rest(reader, head)
        if sizes is not None:
            sizes.append(len(body))
        conn.sendall(Icap.NO_MODIFICATION[sent:])
    service = bench.icap(reply, [b"Max-Connections: 1"])
    proxy = bench.proxy(origin, text, [(point, service.port, "/%s/x" % point, 1)])
    first = User(proxy.port)
    first.send(get("/bytes/3"))
    while not service.requests:
        time.sleep(0.01)
    return service, proxy, first, held


@case
def exchanges_wait_in_the_order_of_arrival(bench):
    sizes = []
    service, proxy, first, held = one_held(bench, "wait = 10\nshards = 4", sizes)
    users = []
    for number in range(1, 13):
        user = User(proxy.port)
        user.send(get("/bytes/%d" % number))
        users.append(user)
        wait_for(proxy, number)
    for gone in (0, 5, 11):
        users[gone].reset()
    wait_for(proxy, 9)
    held.set()
    same("the first user", first.answer().body, body_of(3))
    for number, user in enumerate(users):
        if number not in (0, 5, 11):
            same("user %d" % number, user.answer().body, body_of(number + 1))
    same("in the order of arrival", sizes, [3, 2, 3, 4, 5, 7, 8, 9, 10, 11])
    same("connections", service.count, 1)
    same("book", settled(proxy)[:24], "rows 0 held 0 claimed 0 ")
    same("audit", proxy.stop(), IDLE)


@case
def users_that_close_leave_the_queue(bench):
    """Also where only their sending half is closed, before they wait or while they do. Who closes it while nobody waits is answered."""
    for point, wanted in (("reqmod", [0, 2, 4, 5, 0]), ("respmod", [3, 2, 4, 5, 3])):
        sizes, origin = [], bench.origin()
        _service, proxy, first, held = one_held(bench, "wait = 30\nshards = 4", sizes, point=point, origin=origin)
        users = []
        for number in range(1, 7):
            user = User(proxy.port)
            user.send(post("/echo", body_of(number)))
            users.append(user)
            wait_for(proxy, number)
        users[0].close()
        users[2].sock.shutdown(socket.SHUT_WR)
        users[5].close()
        wait_for(proxy, 3)
        same("half closed", users[2].is_ended(), True)
        early = User(proxy.port)
        early.send(post("/echo", body_of(7)))
        early.sock.shutdown(socket.SHUT_WR)
        same("half closed before it waits", early.is_ended(), True)
        wait_for(proxy, 3)
        held.set()
        same("the first user", first.answer().body, body_of(3))
        for number in (1, 3, 4):
            same("user %d" % number, users[number].answer().body, body_of(number + 1))
        last = User(proxy.port)
        last.send(get("/bytes/3"))
        last.sock.shutdown(socket.SHUT_WR)
        same("half closed where nobody waits", last.answer().body, body_of(3))
        same("what the service got", sizes, wanted)
        same("what the origin was asked", len(origin.heads), 5 if point == "reqmod" else 9)
        same("book", settled(proxy)[:24], "rows 0 held 0 claimed 0 ")
        same("audit", proxy.stop(), IDLE)


def wait_beside_users_that_end(proxy, service, count, ends_first):
    """So many users of one thread have all connections to a service, which says nothing to them, and end their bytes: before as many of the
    other thread begin to wait at once, or then. How long the last of these waits."""
    # Users are handed to the threads in turn; two of them ask for nothing.
    users = [User(proxy.port) for _ in range(2 * count + 2)]
    ended, waiting = users[0:2 * count:2], users[1:2 * count:2]
    for user in ended:
        before = len(service.requests)
        user.send(get("/bytes/3"))
        comes("a message at the service", lambda: len(service.requests) > before)
    if not ends_first:
        for user in waiting:
            user.send(get("/bytes/4"))
        wait_for(proxy, count)
    begun = time.time()
    for user in ended:
        user.sock.shutdown(socket.SHUT_WR)
    if ends_first:
        # Until their thread has heard of it.
        time.sleep(0.1)
        begun = time.time()
        for user in waiting:
            user.send(get("/bytes/4"))
    for user in waiting:
        same("who waits", user.answer().body, body_of(4))
    late = time.time() - begun
    for user in ended:
        same("who has ended", user.is_ended(), True)
    for user in users:
        user.close()
    same("book", settled(proxy)[:24], "rows 0 held 0 claimed 0 ")
    return late


@case
def connections_to_a_service_are_taken_from_users_that_have_ended_in_another_thread(bench):
    """Also where their bytes had ended before somebody began to wait: its thread has others look then."""
    def reply(conn, reader, head, count):
        if count % 2 == 0:
            return service.no_modification(conn, reader, head, count)
        Icap.rest(reader, head)
        reader.to_end()
        return False
    service = bench.icap(reply, [b"Max-Connections: 1"])
    proxy = bench.proxy(bench.origin(), "shards = 2\nwait = 8", [("respmod", service.port, "/respmod/x", 1)])
    for thread in ("one thread", "the other one"):
        called_at_once("a user of %s has ended" % thread, lambda: wait_beside_users_that_end(proxy, service, 1, False),
                       lambda: wait_beside_users_that_end(proxy, service, 1, True))
        # One more, so that the next is the other thread's.
        User(proxy.port).close()
    same("audit", proxy.stop(), IDLE)


@case
def connections_to_a_service_are_taken_from_several_users_that_have_ended(bench):
    """Each of those who wait gets one, also where the first has taken hers before the thread with such users has looked for the second."""
    def reply(conn, reader, head, count):
        if count % 4 == 3:
            # The first of the two that wait has her connection until the second has one too.
            end, seen = time.time() + PATIENCE, len(service.requests)
            while len(service.requests) == seen and time.time() < end:
                time.sleep(0.005)
        if count % 4 in (3, 0):
            return service.no_modification(conn, reader, head, count)
        Icap.rest(reader, head)
        reader.to_end()
        return False
    service = bench.icap(reply, [b"Max-Connections: 2"])
    proxy = bench.proxy(bench.origin(), "shards = 2\nwait = 8", [("respmod", service.port, "/respmod/x", 2)])
    called_at_once("two that wait", lambda: wait_beside_users_that_end(proxy, service, 2, False),
                   lambda: wait_beside_users_that_end(proxy, service, 2, True))
    same("audit", proxy.stop(), IDLE)


@case
def options_that_never_stay_fresh_are_asked_once_a_message(bench):
    """Also where the connection that was asked can't be used for the message, and others wait: each would ask until its wait ends."""
    def slowly(conn, reader, head, count):
        time.sleep(0.1)
        return service.no_modification(conn, reader, head, count)
    origin = bench.origin()
    for more in ([], [b"Connection: close"]):
        service = bench.icap(slowly, [b"Max-Connections: 1", b"Options-TTL: 0", *more])
        proxy = bench.proxy(origin, "shards = 2\nwait = 10", [("reqmod", service.port, "/reqmod/x", 1)])
        found = []

        def one(_number):
            found.append(ask(proxy.port, get("/bytes/3")).status)
        at_once(6, one)
        same("all are served", found, [200] * 6)
        same("asked", service.asked, 6)
        user = User(proxy.port)
        user.send(post("/echo", b"abc", "Expect: 100-continue\r\n"))
        same("interim", user.reader.head(), b"HTTP/1.1 100 Continue\r\n\r\n")
        same("served", user.answer().status, 200)
        same("asked", service.asked, 7)
        user.close()
        same("audit", proxy.stop(), IDLE)


@case
def a_wait_ends_with_a_refusal(bench):
    """By its own seconds, by the deadline, by the bound of the queue, and by a stop."""
    _service, proxy, _first, held = one_held(bench, "wait = 1\nshards = 2\nrows = 3")
    begin = time.time()
    users = [User(proxy.port) for _ in range(3)]
    for count, user in enumerate(users, 1):
        # One after another: each request has a row until it is out, and the first user has one.
        user.send(get("/bytes/3"))
        wait_for(proxy, count)
    is_refused("one too many", proxy.port, get("/bytes/3"), 503)
    same("that one at once", time.time() - begin < 1.0, True)
    same("refused", [user.reader.to_end() for user in users], [refusal(503)] * 3)
    late = time.time() - begin
    print("      wait = 1: refused after %.2f s" % late)
    same("within its seconds", 1.0 <= late <= 2.3, True)
    held.set()
    same("audit", proxy.stop(), IDLE)
    _service, proxy, first, held = one_held(bench, "wait = 10\ndeadline = 1\nshards = 2", moves=True)
    is_refused("the deadline comes first", proxy.port, get("/bytes/3"), 504)
    held.set()
    first.close()
    same("audit", proxy.stop(), IDLE)
    _service, proxy, first, held = one_held(bench, "wait = 10\nshards = 2")
    user = User(proxy.port)
    user.send(get("/bytes/3"))
    wait_for(proxy, 1)
    same("audit", proxy.stop(), IDLE)
    same("a stop", user.reader.to_end(), refusal(503))
    held.set()
    first.close()


@case
def waits_that_end_anyhow_leave_nothing_behind(bench):
    """Users that wait, give up and reset at random, and a service that closes now and then: nobody hangs, and nothing is left."""
    origin = bench.origin()
    chance = random.Random(33)

    class Closing:
        """A connection whose next answer says that it is the last one."""

        def __init__(self, conn):
            self.conn = conn

        def sendall(self, text):
            self.conn.sendall(text.replace(b"ISTag", b"Connection: close\r\nISTag", 1))

    def reply(conn, reader, head, count):
        time.sleep(0.003)
        last = count % 7 == 0
        service.no_modification(Closing(conn) if last else conn, reader, head, count)
        return not last
    service = bench.icap(reply, [b"Max-Connections: 3"])
    proxy = bench.proxy(origin, "wait = 2\nshards = 4", [("respmod", service.port, "/respmod/x", 3), ("reqmod", service.port, "/reqmod/x", 3)])
    seeds = [chance.random() for _ in range(48)]
    found, lock = {}, threading.Lock()

    def one(number):
        own = random.Random(seeds[number])
        for _ in range(20):
            user = User(proxy.port)
            user.send(get("/chunked/%d" % own.randrange(1, 3000)))
            if own.random() < 0.4:
                time.sleep(own.random() * 0.15)
                user.reset()
                continue
            status = user.answer().status
            user.close()
            with lock:
                found[status] = found.get(status, 0) + 1
    begin = time.time()
    at_once(48, one)
    print("      %s in %.1f s on %d connections" % (found, time.time() - begin, service.count))
    same("statuses", set(found) <= {200, 503}, True)
    same("most are served", found[200] > 400, True)
    same("book", settled(proxy)[:24], "rows 0 held 0 claimed 0 ")
    wait_for(proxy, 0)
    begin = time.time()
    same("one more", ask(proxy.port, get("/bytes/3")).body, body_of(3))
    same("at once", time.time() - begin < 0.5, True)
    same("audit", proxy.stop(), IDLE)


def open_connections(port):
    """How many connections of this machine's are open to a port of it."""
    wanted = "0100007F:%04X" % port
    with open("/proc/net/tcp") as lines:
        rows = [line.split() for line in lines]
    return sum(row[2] == wanted and row[3] == "01" for row in rows[1:])


@case
def a_restart_of_the_service_is_not_seen(bench):
    """Eight connections lie idle when the service ends and comes again: no answer is lost, of those that can't be retried."""
    together = threading.Barrier(8)

    def exchange(conn, _number):
        """The head, and the body once eight are asked for theirs: so each has a connection to the service meanwhile."""
        body = body_of(int(Reader(conn).head().split(b" ")[1].split(b"/")[2]))
        chunked = len(body) == 20000
        conn.sendall(b"HTTP/1.1 200 OK\r\n" + (b"Transfer-Encoding: chunked\r\n\r\n" if chunked else b"Content-Length: %d\r\n\r\n" % len(body)))
        together.wait(PATIENCE)
        time.sleep(0.1)
        conn.sendall(b"%x\r\n%s\r\n0\r\n\r\n" % (len(body), body) if chunked else body)
    port = free_port()

    def begin():
        program = bench.keep(Program(ICAPD, 'listen = "127.0.0.1:%d"\nmax = 16\n' % port))
        same("icapd", program.first, b"listening\n")
        return program
    service = begin()
    proxy = bench.proxy(bench.keep(Server(exchange)), "shards = 2", [("respmod", port, "/respmod/pass", 8)])
    for turn in range(4):
        found = statuses_of(proxy, 8, ("/chunked/20000", "/bytes/300000"))
        same("book", settled(proxy)[:24], "rows 0 held 0 claimed 0 ")
        idle = open_connections(port)
        print("      turn %d: %d of 16 answered 200, and %d connections lie idle" % (turn, found.count(200), idle))
        same("all are served", found, [200] * 16)
        same("idle", idle, 8)
        service.kill()
        service = begin()
        time.sleep(0.1)
    same("audit", proxy.stop(), IDLE)


@case
def a_connection_that_ends_too_early_isnt_put_back(bench):
    """A 204 after 3 of 8 body bytes that were offered whole: the rest isn't sent, and the connection serves no more."""
    origin = bench.origin()
    seen = []

    def reply(conn, reader, head, _count):
        fields = head.decode("latin-1").lower()
        same("whole, with Allow", ("preview" not in fields, "allow: 204" in fields), (True, True))
        offset = int(fields.split("req-body=")[1].split()[0])
        reader.exactly(offset)
        same("a first chunk", reader.exactly(8), b"3\r\nabc\r\n")
        conn.sendall(Icap.NO_MODIFICATION)
        seen.append(reader.to_end())
        return False
    service = bench.icap(reply)
    proxy = bench.proxy(origin, "", [("reqmod", service.port, "/reqmod/x")])
    for number in (1, 2):
        user = User(proxy.port)
        user.send(post("/echo", b"abcdefgh")[:-5])
        time.sleep(0.3)
        user.send(b"defgh")
        same("the request", user.answer().body, b"abcdefgh")
        end = time.time() + 5
        while len(seen) < number and time.time() < end:
            time.sleep(0.01)
        same("the rest that the service got, before its connection was closed", seen[number - 1], b"")
        same("connections", service.count, number)
        user.close()
    same("audit", proxy.stop(), IDLE)
