"""Cases of tools/try_serve: what the administrator asks for while the proxy runs."""
import os
import random
import re
import resource
import signal
import socket
import subprocess
import tempfile
import threading
import time

from serve_lab.cases import ADAPTPROXY, IDLE, case, comes, get, lent, needs, needs_tools, post, same
from serve_lab.lines import LINE
from serve_lab.loopback import PATIENCE, TOP, Closed, Icap, Program, Reader, Server, User, ask, body_of, free_port


def is_closed(port):
    """Whether the system refuses a connection to this port."""
    with socket.socket() as sock:
        return sock.connect_ex(("127.0.0.1", port)) != 0


@case
def a_drain_lets_users_go(bench):
    origin = bench.origin()
    proxy = bench.proxy(origin, "deadline = 20")
    idle, silent, half, busy = [User(proxy.port) for _ in range(4)]
    answer = idle.ask(get("/bytes/3"))
    same("kept", (answer.status, answer.fields.get("connection")), (200, None))
    busy.send(get("/mute"))
    half.send(get("/bytes/5")[:-2])
    comes("the exchange", lambda: len(origin.heads) == 2)
    same("drain", proxy.say("drain", "book")[0], "ok")
    comes("the closed port", lambda: is_closed(proxy.port))
    begun = time.time()
    same("between requests", idle.is_ended(), True)
    same("silent", silent.is_ended(), True)
    same("within three seconds", time.time() - begun < 3.5, True)
    half.send(b"\r\n")
    answer = half.answer()
    same("begun before", (answer.body, answer.fields.get("connection")), (body_of(5), "close"))
    same("it ends", half.is_ended(), True)
    half.close()
    same("again", proxy.say("drain"), "ok")
    same("it serves on", proxy.process.poll(), None)
    origin.release.set()
    busy.sock.settimeout(PATIENCE)
    same("under way", busy.reader.to_end()[:12], b"HTTP/1.1 502")
    for user in (idle, silent, busy):
        user.close()
    printed, errors, status = proxy.ended()
    same("ended", (printed.decode().strip(), errors, status), (IDLE, b"", 0))


@case
def a_drain_ends_an_idle_proxy_at_once(bench):
    proxy = bench.proxy(bench.origin())
    same("drain", proxy.say("drain"), "ok")
    same("ended", proxy.ended(3), ((IDLE + "\n").encode(), b"", 0))


@case
def a_drain_answers_all_who_have_connected(bench):
    """More of them wait in the port's queue than are accepted in two turns: the port is closed, and none of them is reset."""
    needs("4,096 descriptors", resource.getrlimit(resource.RLIMIT_NOFILE)[1] >= 4096)
    proxy = bench.proxy(bench.origin(), "shards = 1\nrows = 1024", descriptors=4096)
    proxy.halt()
    users = [User(proxy.port) for _ in range(800)]
    for user in users:
        user.send(b"GET http://x.test/ HTTP/1.1\r\nHost: x.test\r\n\r\n")
    with socket.create_connection(("127.0.0.1", proxy.admin), PATIENCE) as sock:
        sock.sendall(b"drain\n")
        proxy.go_on()
        same("answers", {user.answer().status for user in users}, {502})
    for user in users:
        user.close()
    same("ended", proxy.ended(), ((IDLE + "\n").encode(), b"", 0))


@case
def a_stop_ends_a_drain(bench):
    origin = bench.origin()
    proxy = bench.proxy(origin, "deadline = 60")
    user = User(proxy.port)
    user.send(get("/mute"))
    comes("the exchange", lambda: len(origin.heads) == 1)
    same("drain", proxy.say("drain"), "ok")
    time.sleep(0.5)
    same("it goes on", proxy.process.poll(), None)
    same("audit", proxy.stop(), IDLE)
    same("refused", user.reader.to_end()[:12], b"HTTP/1.1 503")


@case
def a_drain_says_close_and_loses_no_user(bench):
    origin = bench.origin()
    proxy = bench.proxy(origin, "shards = 3\nrows = 64")
    wrong, closes, ends = [], [], threading.Event()

    def user(number):
        while not ends.is_set():
            try:
                one = User(proxy.port)
            except OSError:
                return
            try:
                while not ends.is_set():
                    answer = one.ask(get("/bytes/3000"))
                    if answer.status != 200 or answer.body != body_of(3000):
                        wrong.append((number, answer.status))
                    if answer.fields.get("connection") == "close":
                        closes.append(number)
                        break
            except Exception as error:  # noqa: BLE001
                wrong.append((number, type(error).__name__, str(error)))
                return
            finally:
                one.close()
    users = [threading.Thread(target=user, args=(number,), daemon=True) for number in range(8)]
    for one in users:
        one.start()
    time.sleep(1)
    same("drain", proxy.say("drain"), "ok")
    printed = proxy.ended()
    ends.set()
    for one in users:
        one.join(PATIENCE)
    same("ended", printed, ((IDLE + "\n").encode(), b"", 0))
    refused = [one for one in wrong if one[1] not in ("ConnectionRefusedError", "ConnectionResetError", "Closed")]
    same("wrong", refused, [])
    print("      %d users were told to close; %d had a connection that ended between two requests" % (len(closes), len(wrong)))


class Restless:
    """A user that asks again and again on one connection, after pauses of up to a tenth of a second, until an answer says `close`."""

    def __init__(self, port, number):
        self.user, self.number = User(port), number
        self.answers, self.lost = 0, None
        self.thread = threading.Thread(target=self.run, daemon=True)
        self.thread.start()

    def run(self):
        chance, answered = random.Random(self.number), time.time()
        while True:
            time.sleep(chance.uniform(0, 0.1))
            silent = time.time() - answered
            try:
                answer = self.user.ask(get("/bytes/300"))
            except (Closed, OSError) as error:
                # The proxy lets a user go that says nothing for a second, as one may on a busy machine.
                if silent < 0.9:
                    self.lost = "request %d, after %.3f s: %r" % (self.answers + 1, silent, error)
                break
            answered = time.time()
            self.answers += 1
            if (answer.status, answer.body) != (200, body_of(300)):
                self.lost = "answer %d: %d" % (self.answers, answer.status)
            if answer.fields.get("connection") == "close":
                break
        self.user.close()


@case
def a_drain_loses_no_request(bench):
    """Two hundred users with random pauses, both points, ten drains: a connection ends after an answer that says so, and no other way
    for a user that asks."""
    origin, port = bench.origin(), bench.icapd("max = 64")
    services = [("reqmod", port, "/reqmod/pass"), ("respmod", port, "/respmod/pass")]
    chance, answers, lost = random.Random(101), 0, []
    for drain in range(10):
        proxy = bench.proxy(origin, "wait = 60\nrows = 512\nshards = 2", services)
        users = [Restless(proxy.port, 1000 * drain + number) for number in range(200)]
        comes("an answer for each", lambda: all(user.answers for user in users), PATIENCE)
        time.sleep(chance.uniform(0, 0.3))
        same("drain", proxy.say("drain"), "ok")
        same("ended", proxy.ended(), ((IDLE + "\n").encode(), b"", 0))
        for user in users:
            user.thread.join(PATIENCE)
            answers += user.answers
            lost += ["drain %d, user %d, %s" % (drain + 1, user.number, user.lost)] if user.lost else []
    print("      %d answers, %d requests lost" % (answers, len(lost)))
    same("lost", lost, [])


@case
def a_port_that_systemd_holds_refuses_nobody(bench):
    """A port that is handed over stays open while one process ends and the next begins: who connects meanwhile waits. It has to be that
    of `listen`."""
    origin, port, admin = bench.origin(), free_port(), free_port()
    text = 'listen = "127.0.0.1:%%d"\nadmin = "127.0.0.1:%d"\n[hosts]\n"o.test" = "127.0.0.1:%d"\n' % (admin, origin.port)
    with socket.create_server(("127.0.0.1", port), backlog=1024) as handed:
        other = bench.keep(Program(ADAPTPROXY, text % free_port(), handed=handed))
        out, _errors, status = other.ended()
        same("another address", (other.first + out, status), (b"", 1))
        kept = None
        for _ in range(3):
            program = bench.keep(Program(ADAPTPROXY, text % port, handed=handed))
            same("listening", program.first, b"listening\n")
            if kept:
                same("one who came between", kept.answer().body, b"the")
            users = [User(port) for _ in range(20)]
            for user in users:
                same("a user", user.ask(get("/bytes/4")).body, b"the ")
            with socket.create_connection(("127.0.0.1", admin), PATIENCE) as sock:
                sock.sendall(b"drain\n")
                same("drain", Reader(sock).to_end(), b"ok\n")
            same("the end", program.ended(), ((IDLE + "\n").encode(), b"", 0))
            kept = User(port)
            kept.send(get("/bytes/3"))
    same("one whom nobody serves", kept.reader.to_end(), b"")


@case
def the_launcher_drains_and_stops(bench):
    origin = bench.origin()
    port, admin = free_port(), free_port()
    with tempfile.NamedTemporaryFile("w", suffix=".toml") as text:
        text.write('listen = "127.0.0.1:%d"\nadmin = "127.0.0.1:%d"\n[hosts]\n"o.test" = "127.0.0.1:%d"\n' % (
            port, admin, origin.port))
        text.flush()
        for signals, seconds, wanted in (((signal.SIGTERM,), "1", 503), ((signal.SIGINT, signal.SIGTERM), "30", 503)):
            launcher = subprocess.Popen(
                ["sh", os.path.join(TOP, "packaging", "run"), text.name], stdout=subprocess.PIPE, stderr=subprocess.PIPE,
                stdin=subprocess.DEVNULL, env={**os.environ, "ADAPTPROXY": ADAPTPROXY, "DRAIN": seconds},
                # A shell heeds no signal that was ignored when it began, as SIGINT is where this runs in the background.
                preexec_fn=lambda: signal.signal(signal.SIGINT, signal.SIG_DFL))
            same("listens", launcher.stdout.readline(), b"listening\n")
            user, heads = User(port), len(origin.heads)
            user.send(get("/mute"))
            comes("the exchange", lambda: len(origin.heads) > heads)
            for number in signals:
                launcher.send_signal(number)
                comes("the closed port", lambda: is_closed(port))
            same("refused", user.reader.to_end()[:12], b"HTTP/1.1 %d" % wanted)
            same("ended", (launcher.wait(PATIENCE), launcher.stdout.read()), (0, (IDLE + "\n").encode()))
            user.close()


def waits_beside(proxy, user, ends):
    """How long each request took that was made until `ends` says so: by turns on a kept connection and on a fresh one."""
    waits = []
    while not ends():
        before = time.time()
        text = ask(proxy.port, get("/bytes/3")).body if len(waits) % 2 else user.ask(get("/bytes/3")).body
        same("meanwhile", text, b"the")
        waits.append(time.time() - before)
    return waits


def parts_of_a_resize(proxy, user, size):
    """What part of the time in which the capacity goes over to this size the longest request lasts for: meanwhile, and in as much time
    after it."""
    answers = []
    asker = threading.Thread(target=lambda: answers.append(proxy.say("capacity %d" % size, patience=10 * PATIENCE)))
    begun = time.time()
    asker.start()
    longest = max(waits_beside(proxy, user, lambda: not asker.is_alive()))
    passed = time.time() - begun
    same("answer", answers, ["ok"])
    until = time.time() + passed
    return longest / passed, max(waits_beside(proxy, user, lambda: time.time() > until)) / passed


@case
def capacity_keeps_nobody_waiting(bench):
    """While a capacity goes up by a GiB, and down again, no request lasts for more than a small part of that time. A machine with much
    else to do may let one wait for its processor: as long as the longest does in as much time without a change. Each is tried until it does
    well. Were all pages to go in one step, a request would wait for about half of that time: none may for more than a quarter."""
    origin = bench.origin()
    proxy = bench.proxy(origin, "shards = 1")
    user, tries, parts = User(proxy.port), 0, {"up": (1, 0), "down": (1, 0)}

    def does_well(way):
        part, usual = parts[way]
        return part <= min(0.25, 0.1 + usual)
    while tries < 12 and not (does_well("up") and does_well("down")):
        tries += 1
        for way, size in (("up", 1 << 30), ("down", 1 << 24)):
            found = parts_of_a_resize(proxy, user, size)
            parts[way] = parts[way] if does_well(way) else found
    shown = ["%s %.3f of that time, and usually %.3f" % (way, *pair) for way, pair in parts.items()]
    print("      the longest request beside a GiB, in %d tries: %s" % (tries, "; ".join(shown)))
    same("the longest request: " + "; ".join(shown), (does_well("up"), does_well("down")), (True, True))
    same("a new user", ask(proxy.port, get("/bytes/4")).body, b"the ")
    same("odd", proxy.say("capacity %d" % (4096 * 77), "book"), ["ok", "rows 0 held 0 claimed 0 capacity 315392"])
    same("audit", proxy.stop(), IDLE)


@case
def a_capacity_that_is_refused_stays(bench):
    origin = bench.origin()
    proxy = bench.proxy(origin, "capacity = 268435456\ndeadline = 600")
    user = User(proxy.port)
    request = post("/echo", body_of(100))
    user.send(request[:-10])
    comes("the reservation", lambda: proxy.say("book").startswith("rows 1 held 0 "))
    book = proxy.say("book")
    claimed = int(book.split()[5])
    same("reserved", (claimed > 1, book.split()[7]), (True, "268435456"))
    same("too low", proxy.say("capacity %d" % (claimed - 1), "book"), ["refused %d" % claimed, book])
    same("just so low", proxy.say("capacity %d" % claimed, "capacity 268435456", "book"), ["ok", "ok", book])
    # Memory for another 128 MiB, and no more: the growth stops half way, and goes back.
    lent(proxy, 1 << 27)
    same("too high", proxy.say("capacity %d" % (1 << 30), "book"), ["out of memory", book])
    lent(proxy, None)
    same("with memory", proxy.say("capacity %d" % (1 << 29)), "ok")
    user.send(request[-10:])
    same("it goes on", user.answer().body, body_of(100))
    same("audit", proxy.stop(), IDLE)


class Log:
    """A log's file, in a folder of its own."""

    def __init__(self, folder=None):
        self.folder = tempfile.TemporaryDirectory(dir=folder)
        self.path = os.path.join(self.folder.name, "access.log")
        self.seen = 0
        self.key = 'log = "%s"\n' % self.path

    def text(self):
        with open(self.path, "rb") as text:
            return text.read()

    def next(self, count=1, patience=PATIENCE):
        """The next lines, each as the groups of LINE; just so many."""
        end = time.time() + patience
        while True:
            lines = self.text().split(b"\n")
            if len(lines) - 1 >= self.seen + count or time.time() > end:
                break
            time.sleep(0.02)
        time.sleep(0.12)
        lines = self.text().split(b"\n")
        same("the last line's end", lines[-1], b"")
        found = lines[self.seen:-1]
        self.seen = len(lines) - 1
        same("lines", len(found), count)
        rows = []
        for line in found:
            row = LINE.fullmatch(line.decode("ascii"))
            if row is None:
                raise AssertionError("no line: %r" % line)
            rows.append(row.groups())
        return rows

    def close(self):
        self.folder.cleanup()


def told(row):
    """Of a line: whose answer, its status, method, target, where it went, and the first three fields of ours."""
    return (row[3][4:], int(row[4]), row[6], row[7], row[8].split("/")[0][5:], row[10], row[11], row[12])


@case
def a_line_an_exchange_says_what_became_of_it(bench):
    origin = bench.origin()
    log = bench.keep(Log())
    service = bench.icap()
    proxy = bench.proxy(origin, log.key, [("reqmod", service.port, "/reqmod"), ("respmod", service.port, "/respmod")])
    begun = time.time()
    user = User(proxy.port)
    answer = user.ask(get("/bytes/3000"))
    row = log.next()[0]
    same("served", told(row), ("MISS", 200, "GET", "http://o.test/bytes/3000", "DIRECT", "204", "204", "-"))
    same("the moment", begun - 0.01 <= float(row[0]) <= time.time(), True)
    same("elapsed", int(row[1]) <= 1000 * (time.time() - begun) + 1, True)
    same("user, bytes, type", (row[2], int(row[5]), row[9]), ("127.0.0.1", len(answer.head) + len(answer.body), "-"))
    user.ask(post("/echo", b"x" * 5000))
    same("on the same connection", told(log.next()[0])[1:4], (200, "POST", "http://o.test/echo"))
    user.ask(get("/status/304", method="HEAD"), to_head=True)
    same("without a body", told(log.next()[0])[1:3], (304, "HEAD"))
    user.close()
    same("audit", proxy.stop(), IDLE)


@case
def a_refused_head_has_a_line_of_its_own(bench):
    """A further request on a connection: its line repeats nothing of the request before it."""
    log = bench.keep(Log())
    proxy = bench.proxy(bench.origin(), log.key)
    for text, status, why, method, target in (
            (b"what\r\n\r\n", 400, "bad-request", "what", "-"), (b"\0\r\n\r\n", 400, "bad-request", "-", "-"),
            (b"CONNECT o.test:443 HTTP/1.1\r\nHost: o.test\r\n\r\n", 501, "not-served", "CONNECT", "o.test:443")):
        user = User(proxy.port)
        user.ask(get("/bytes/3000?secret=1"))
        same("the request before", told(log.next()[0])[1], 200)
        user.send(text)
        user.reader.to_end()
        user.close()
        row = log.next()[0]
        same("refused", told(row), ("DENIED", status, method, target, "NONE", "-", "-", why))
        same("elapsed", int(row[1]) < 1000, True)
    same("audit", proxy.stop(), IDLE)


@case
def a_line_has_the_status_of_a_cut_answer(bench):
    """A service's own answer that breaks in its middle: the user got its head."""
    def breaks(conn, reader, head, _count):
        Icap.rest(reader, head)
        text = b"HTTP/1.1 403 No\r\nContent-Length: 5000\r\n\r\n"
        conn.sendall(b"ICAP/1.0 200 OK\r\nISTag: \"t-1\"\r\nEncapsulated: res-hdr=0, res-body=%d\r\n\r\n" % len(text) + text
                     + b"3e8\r\n" + b"x" * 1000 + b"\r\n")
        time.sleep(0.2)
        return False
    log = bench.keep(Log())
    service = bench.icap(breaks)
    for point in ("reqmod", "respmod"):
        proxy = bench.proxy(bench.origin(), log.key, [(point, service.port, "/%s/x" % point)])
        user = User(proxy.port)
        user.send(get("/bytes/3000"))
        same(point + ": cut", user.reader.to_end()[:12], b"HTTP/1.1 403")
        user.close()
        row = told(log.next()[0])
        same(point, (row[0], row[1], row[7]), ("MISS", 403, "service-broken"))
        same("audit", proxy.stop(), IDLE)


@case
def a_line_has_one_line_whatever_the_target(bench):
    origin = bench.origin()
    log = bench.keep(Log())
    proxy = bench.proxy(origin, log.key)
    same("long", ask(proxy.port, get("/bytes/3?" + "x" * 4000)).status, 200)
    target = log.next()[0][7]
    same("cut", (target[:25], len(target)), ("http://o.test/bytes/3?xxx", 2048))
    for number, wild in enumerate([b"/a\x01b", b"/a\x7f\xff", b'/a"b', b"/a\rb", b"/a b", b"/a\tb", b"/%0d%0a",
                                   b'/bytes/3?"%0d%0a' + b'"\'' * 2000, b'/bytes/3?"\r\n' + b'"\'' * 2000, b'/a\n1.2 3 evil "' + b'\r"' * 2000]):
        user = User(proxy.port)
        user.send(b"GET http://o.test" + wild + b" HTTP/1.1\r\nHost: o.test\r\n\r\n")
        user.answer()
        user.close()
        row = log.next()[0]
        same("a word %d" % number, re.fullmatch(r'[!#-~]+', row[7]) is not None, True)
    user = User(proxy.port)
    user.send(b"GET http://o.test/a\nHost: x\n1.2 3 evil TCP_MISS/200 HTTP/1.1\r\n\r\n" + b'" ' * 2000)
    user.reader.to_end()
    user.close()
    same("lines in it", told(log.next()[0])[:2], ("DENIED", 400))
    same("audit", proxy.stop(), IDLE)


def refused(bench, log, what, text, services, request, wanted, prepare=None):
    """A request of which the log says this: status, why."""
    origin = bench.origin()
    proxy = bench.proxy(origin, log.key + text, services)
    if prepare:
        prepare(proxy, origin)
    user = User(proxy.port)
    user.send(request)
    try:
        user.reader.to_end()
    except TimeoutError:
        raise AssertionError(what + ": no answer") from None
    user.close()
    row = told(log.next()[0])
    same(what, (row[0], row[1], row[7]), wanted)
    same(what + ": audit", proxy.stop()[:11], "audit rows ")


@case
def a_line_says_why_the_proxy_refused(bench):
    log = bench.keep(Log())
    closed = free_port()

    def status(conn, reader, head, _count):
        Icap.rest(reader, head)
        conn.sendall(b"ICAP/1.0 500 No\r\nISTag: \"t-1\"\r\nEncapsulated: null-body=0\r\n\r\n")

    def broken(conn, reader, head, _count):
        Icap.rest(reader, head)
        return False

    def silent(_conn, reader, head, _count):
        Icap.rest(reader, head)
        time.sleep(5)
        return False

    def at(reply, **words):
        return [("respmod", bench.icap(reply, **words).port, "/respmod")]
    page = get("/bytes/3")
    refused(bench, log, "no HTTP", "", [], b"what\r\n\r\n", ("DENIED", 400, "bad-request"))
    refused(bench, log, "CONNECT", "", [], b"CONNECT o.test:443 HTTP/1.1\r\nHost: o.test\r\n\r\n", ("DENIED", 501, "not-served"))
    refused(bench, log, "unknown host", "", [], b"GET http://x.test/ HTTP/1.1\r\nHost: x.test\r\n\r\n",
            ("DENIED", 502, "unknown-host"))
    refused(bench, log, "no origin", "", [], b"GET http://127.0.0.1:%d/ HTTP/1.1\r\nHost: x\r\n\r\n" % closed,
            ("DENIED", 502, "origin-refused"))
    refused(bench, log, "no HTTP of the origin", "", [], get("/garbage"), ("DENIED", 502, "origin-broken"))
    refused(bench, log, "a silent origin", "deadline = 1\n", [], get("/mute"), ("DENIED", 504, "origin-deadline"))
    refused(bench, log, "no service", "", [("respmod", closed, "/respmod")], page, ("DENIED", 502, "service-refused"))
    refused(bench, log, "a status", "", at(status), page, ("DENIED", 502, "service-status"))
    refused(bench, log, "a service that breaks off", "", at(broken), page, ("DENIED", 502, "service-broken"))
    refused(bench, log, "a silent service", "deadline = 1\n", at(silent), page, ("DENIED", 504, "service-deadline"))
    refused(bench, log, "silent at OPTIONS", "deadline = 1\n", at(None, answer_options=False), page,
            ("DENIED", 504, "service-deadline"))
    refused(bench, log, "no capacity", "capacity = 100\n", [], page, ("DENIED", 503, "full"))
    refused(bench, log, "a broken body", "", at(None), get("/echo", "Transfer-Encoding: chunked\r\n", "POST") + b"zz\r\n",
            ("DENIED", 400, "request-broken"))
    refused(bench, log, "a silent user", "deadline = 1\n", [("reqmod", bench.icap().port, "/reqmod")],
            get("/echo", "Content-Length: 10\r\n", "POST") + b"abc", ("DENIED", 504, "user-deadline"))
    refused(bench, log, "a cut answer", "", [], get("/cut/100000"), ("MISS", 200, "origin-broken"))

    def busy(proxy, origin):
        one = User(proxy.port)
        one.send(get("/bytes/3"))
        comes("the other", lambda: len(origin.heads) == 1)
        time.sleep(0.3)
        bench.keep(one)
    slow = bench.icap(silent)
    refused(bench, log, "busy", "", [("respmod", slow.port, "/respmod", 1)], page, ("DENIED", 503, "busy"), busy)
    log.next(1)

    def taken(proxy, origin):
        one = User(proxy.port)
        one.send(get("/mute"))
        comes("the other", lambda: len(origin.heads) == 1)
        bench.keep(one)
    refused(bench, log, "no row", "shards = 2\nrows = 1\n", [("respmod", slow.port, "/respmod")], page,
            ("DENIED", 503, "no-row"), busy)
    log.next(1)
    refused(bench, log, "no seat", "shards = 1\nrows = 1\n", [], page, ("DENIED", 503, "no-seat"), taken)
    same("stopped", told(log.next()[0])[7], "stopping")


@case
def a_line_says_that_a_user_has_gone(bench):
    origin = bench.origin()
    log = bench.keep(Log())
    proxy = bench.proxy(origin, log.key)
    user = User(proxy.port)
    user.send(get("/mute"))
    comes("the exchange", lambda: len(origin.heads) == 1)
    user.reset()
    row = told(log.next()[0])
    same("gone", (row[0], row[1], row[7]), ("MISS", 499, "user-gone"))
    same("audit", proxy.stop(), IDLE)


@case
def a_line_says_who_let_a_deadline_pass(bench):
    """A user that takes nothing of a long answer, and an origin that takes nothing of a long request. Nobody else may be late for as
    long, on a busy machine."""
    origin = bench.origin()
    log = bench.keep(Log())
    previews = bench.icap(options=(b"Preview: 4", b"Transfer-Preview: *"))
    for what, services in (("not offered", []), ("204", [("respmod", previews.port, "/respmod")]),
                           ("200", [("respmod", bench.icap().port, "/respmod")])):
        proxy = bench.proxy(origin, log.key + "deadline = 3\n", services)
        user = User(proxy.port, narrow=True)
        user.send(get("/bytes/20000000"))
        row = told(log.next()[0])
        same(what, (row[0], row[1], row[7]), ("MISS", 200, "user-deadline"))
        user.close()
        same("audit", proxy.stop(), IDLE)

    def blocks(conn, reader, head, _count):
        Icap.rest(reader, head)
        text, page = b"HTTP/1.1 403 No\r\n\r\n", body_of(1 << 20)
        conn.sendall(b"ICAP/1.0 200 OK\r\nISTag: \"t-1\"\r\nEncapsulated: res-hdr=0, res-body=%d\r\n\r\n" % len(text) + text)
        for _ in range(8):
            conn.sendall(b"%x\r\n%s\r\n" % (len(page), page))
        conn.sendall(b"0\r\n\r\n")
    proxy = bench.proxy(origin, log.key + "deadline = 3\n", [("reqmod", bench.icap(blocks).port, "/reqmod")])
    user = User(proxy.port, narrow=True)
    user.send(get("/bytes/3"))
    row = told(log.next()[0])
    same("a service's own answer", (row[0], row[1], row[5], row[7]), ("MISS", 403, "200", "user-deadline"))
    user.close()
    same("audit", proxy.stop(), IDLE)

    def deaf(conn, _number):
        Reader(conn).head()
        time.sleep(PATIENCE)
    proxy = bench.proxy(bench.keep(Server(deaf)), log.key + "deadline = 3\n")
    user = User(proxy.port)
    try:
        user.send(post("/upload", body_of(20000000)))
    except OSError:
        pass
    row = told(log.next()[0])
    same("a request", (row[0], row[1], row[7]), ("DENIED", 504, "origin-deadline"))
    user.close()
    same("audit", proxy.stop(), IDLE)


@case
def a_log_is_opened_anew(bench):
    origin = bench.origin()
    log = bench.keep(Log())
    proxy = bench.proxy(origin, log.key)
    ask(proxy.port, get("/bytes/1"))
    log.next()
    os.rename(log.path, log.path + ".1")
    ask(proxy.port, get("/bytes/2"))
    time.sleep(0.3)
    same("no new file", os.path.exists(log.path), False)
    same("reopen", proxy.say("reopen"), "ok")
    log.seen = 0
    ask(proxy.port, get("/bytes/3"))
    same("the new file", told(log.next()[0])[3], "http://o.test/bytes/3")
    with open(log.path + ".1") as old:
        same("the old one", len(old.readlines()), 2)
    os.remove(log.path)
    os.mkdir(log.path)
    same("a folder", proxy.say("reopen"), "cannot open")
    os.rmdir(log.path)
    ask(proxy.port, get("/bytes/4"))
    same("audit", proxy.stop(), IDLE)
    plain = bench.proxy(origin, logged=False)
    same("without a log", plain.say("reopen"), "cannot open")
    same("audit", plain.stop(), IDLE)


@case
def a_log_that_cant_be_opened_ends_the_program(bench):
    text = 'listen = "127.0.0.1:%d"\nadmin = "127.0.0.1:%d"\nlog = "/nowhere/access.log"\n' % (free_port(), free_port())
    program = bench.keep(Program(ADAPTPROXY, text))
    same("ended", (program.first, program.ended()), (b"", (b"", b"adaptproxy: config log\n", 2)))


# What may stand after the name of a family of this kind.
ENDINGS = {"counter": ("_total",), "gauge": ("",), "histogram": ("_bucket", "_count", "_sum")}


def stats_text(proxy):
    """The answer to `stats`."""
    with socket.create_connection(("127.0.0.1", proxy.admin), PATIENCE) as sock:
        sock.sendall(b"stats\n")
        text = b""
        while not text.endswith(b"# EOF\n"):
            piece = sock.recv(65536)
            if not piece:
                raise AssertionError("no end: %r" % text[-100:])
            text += piece
    return text.decode()


def stats(proxy):
    """The numbers of `stats` by their names and labels, and that the text is OpenMetrics."""
    numbers, family, kind = {}, None, None
    for line in stats_text(proxy).splitlines()[:-1]:
        words = line.split(" ", 3)
        if words[:2] == ["#", "TYPE"]:
            same("one family once", words[2] in [name.split("{")[0] for name in numbers], False)
            family, kind = words[2:]
        elif words[:2] == ["#", "HELP"]:
            same("help", words[2], family)
        else:
            name, value = line.rsplit(" ", 1)
            same("of its family", name.split("{")[0] in [family + ending for ending in ENDINGS[kind]], True)
            numbers[name] = float(value) if name.endswith("_seconds_sum") else int(value)
    return numbers


@case
def the_counters_count(bench):
    origin = bench.origin()
    service = bench.icap()
    proxy = bench.proxy(origin, "rows = 8\nshards = 3\n", [("respmod", service.port, "/respmod", 5)])
    user = User(proxy.port)
    heads = 0
    for _ in range(5):
        answer = user.ask(get("/bytes/1000"))
        heads += len(answer.head) + len(answer.body)
    same("unknown", ask(proxy.port, b"GET http://x.test/ HTTP/1.1\r\nHost: x.test\r\n\r\n").status, 502)
    comes("the refused one's end", lambda: stats(proxy)["adaptproxy_requests_total"] == 6)
    comes("the idle connection", lambda: stats(proxy)['adaptproxy_service_connections{point="respmod",state="idle"}'] == 1)
    comes("the refused one's leave", lambda: stats(proxy)["adaptproxy_users"] == 1)
    found = stats(proxy)
    wanted = {
        "adaptproxy_requests_total": 6, 'adaptproxy_answers_total{class="2xx"}': 5,
        'adaptproxy_answers_total{class="5xx"}': 1, 'adaptproxy_refusals_total{point="reqmod",why="unknown-host"}': 1,
        'adaptproxy_refusals_total{point="reqmod",why="busy"}': 0, "adaptproxy_exchange_seconds_count": 6,
        'adaptproxy_exchange_seconds_bucket{le="+Inf"}': 6, 'adaptproxy_messages_total{point="reqmod",outcome="plain"}': 5,
        'adaptproxy_messages_total{point="respmod",outcome="204"}': 5, "adaptproxy_retries_total": 0,
        'adaptproxy_user_bytes_total{direction="out"}': heads + len(b"HTTP/1.1 502 Bad Gateway\r\nContent-Length: 0\r\n"
                                                                    b"Connection: close\r\n\r\n"),
        'adaptproxy_user_bytes_total{direction="in"}': 5 * len(get("/bytes/1000"))
        + len(b"GET http://x.test/ HTTP/1.1\r\nHost: x.test\r\n\r\n"),
        "adaptproxy_users": 1, "adaptproxy_seats": 24, "adaptproxy_users_refused_total": 0,
        "adaptproxy_users_over_limit_total": 0,
        'adaptproxy_service_connections_maximum{point="respmod"}': 5, "adaptproxy_budget_rows": 0,
        "adaptproxy_budget_capacity_bytes": 16777216, "adaptproxy_log_lines_lost_total": 0}
    same("numbers", {name: found.get(name) for name in wanted}, wanted)
    user.close()
    same("audit", proxy.stop(), IDLE)


@case
def goaccess_reads_the_log(bench):
    needs_tools("goaccess")
    origin = bench.origin()
    log = bench.keep(Log())
    proxy = bench.proxy(origin, log.key + "deadline = 1\n")
    user = User(proxy.port)
    for path in ("/bytes/10", "/chunked/5000", "/status/304", "/status/999", "/x?" + "z" * 4000):
        user.ask(get(path))
    user.close()
    for request in (get("/mute"), get("/garbage"), b"GET http://x.test/ HTTP/1.1\r\nHost: x.test\r\n\r\n", b"what\r\n\r\n",
                    b"CONNECT o.test:443 HTTP/1.1\r\nHost: o.test\r\n\r\n", get("/bytes/3", method="BREW")):
        ask(proxy.port, request)
    gone = User(proxy.port)
    gone.send(get("/mute"))
    time.sleep(0.3)
    gone.reset()
    log.next(12)
    same("audit", proxy.stop(), IDLE)
    report = os.path.join(log.folder.name, "report.json")
    subprocess.run(["goaccess", log.path, "--log-format=%x.%^ %~%L %h %^/%s %b %^ %U", "--date-format=%s", "--time-format=%s",
                    "--no-strict-status", "--no-global-config", "--no-progress", "-o", report], check=True,
                   stdout=subprocess.DEVNULL, stderr=subprocess.DEVNULL)
    with open(report) as text:
        general = text.read()
    figures = {name: int(re.search(r'"%s": ?(\d+)' % name, general).group(1)) for name in ("valid_requests", "failed_requests")}
    same("goaccess", figures, {"valid_requests": 12, "failed_requests": 0})


@case
def many_administrators_dont_hold_each_other_up(bench):
    """Fifteen connections that ask for the counters without a pause: others have their answers, and `stop` ends the proxy at once."""
    proxy = bench.proxy(bench.origin())
    with socket.create_connection(("127.0.0.1", proxy.admin), PATIENCE) as sock:
        start = time.time()
        sock.sendall(b"stats\n")
        Reader(sock).until(b"# EOF\n")
        one = time.time() - start
    over, answers = threading.Event(), [0]

    def asks():
        with socket.create_connection(("127.0.0.1", proxy.admin), PATIENCE) as sock:
            reader = Reader(sock)
            try:
                while not over.is_set():
                    sock.sendall(b"stats\n" * 64)
                    for _ in range(64):
                        reader.until(b"# EOF\n")
                        answers[0] += 1
            except (OSError, ValueError, Closed):
                return
    askers = [threading.Thread(target=asks, daemon=True) for _ in range(15)]
    for asker in askers:
        asker.start()
    comes("answers", lambda: answers[0] > 30, PATIENCE)
    slowest = 0
    for _ in range(5):
        start = time.time()
        same("book", proxy.say("book")[:7], "rows 0 ")
        slowest = max(slowest, time.time() - start)
    start = time.time()
    same("audit", proxy.stop(), IDLE)
    late = time.time() - start
    over.set()
    print("      book after %.2f s at most, the end %.2f s after stop, beside %d counts of %.3f s" % (slowest, late, answers[0], one))
    # A turn has a line of each connection at most, so that two have 32 at most.
    same("in time", (slowest < 0.5 + 40 * one, late < 1.5 + 40 * one), (True, True))


def over_http(port, text):
    """The answer to a text that is sent to the port of the counters."""
    with socket.create_connection(("127.0.0.1", port), PATIENCE) as sock:
        sock.sendall(text)
        return Reader(sock).to_end()


@case
def counters_are_read_over_http(bench):
    needs_tools("curl")
    origin = bench.origin()
    port = free_port()
    proxy = bench.proxy(origin, 'metrics = "127.0.0.1:%d"' % port)
    same("served", ask(proxy.port, get("/bytes/3")).body, b"the")
    page = "http://127.0.0.1:%d" % port

    def curl(*words):
        return subprocess.run(["curl", "-sS", "-i", "-m", "10", *words], stdout=subprocess.PIPE, check=True).stdout
    comes("the count", lambda: b"adaptproxy_requests_total 1\n" in curl(page + "/metrics"))
    head, text = curl(page + "/metrics").split(b"\r\n\r\n")
    same("head", head, b"HTTP/1.1 200 OK\r\nContent-Type: application/openmetrics-text; version=1.0.0; charset=utf-8\r\n"
         b"Connection: close\r\nContent-Length: %d" % len(text))
    same("text", (text.startswith(b"# "), text.endswith(b"\n# EOF\n")), (True, True))
    same("with a query", curl(page + "/metrics?x=1")[:15], b"HTTP/1.1 200 OK")
    for words, status in ((["/metric"], 404), (["/metrics/"], 404), (["/"], 404), (["/metrics", "-d", "x"], 405), (["/metrics", "-X", "PUT"], 405),
                          (["/metrics", "-H", "X: " + "x" * 9000], 400), (["/metrics", "-H", "X y: z"], 400)):
        answer = curl(page + words[0], *words[1:])
        same(words, (int(answer[9:12]), answer.endswith(b"\r\n\r\n"), b"\r\nConnection: close\r\n" in answer), (status, True, True))
    for text, wanted in ((b"stop\n", b"HTTP/1.1 400"), (b"GET /metrics HTTP/2.0\r\n\r\n", b"HTTP/1.1 400"),
                         (b"\0\0", b"HTTP/1.1 400"), (b"GET /metrics HTTP/1.0\r\n\r\nGET /x HTTP/1.1\r\n\r\n", b"HTTP/1.1 200")):
        if wanted:
            same(text, over_http(port, text)[:12], wanted)
    # Sixteen at once, and each further one takes the place of that which is silent for longest; none of the users'.
    silent = [socket.create_connection(("127.0.0.1", port), PATIENCE) for _ in range(40)]
    start = time.time()
    same("beside silent ones", curl(page + "/metrics")[:15], b"HTTP/1.1 200 OK")
    same("at once", time.time() - start < 2, True)
    same("descriptors", proxy.descriptors() < 50, True)
    same("the administrator", proxy.say("book")[:7], "rows 0 ")
    for sock in silent:
        sock.close()
    for host in ("127.0.0.1", "127.1.2.3", "0.0.0.0"):
        request = b"GET http://%s:%d/metrics HTTP/1.1\r\nHost: x\r\n\r\n" % (host.encode(), port)
        same("through the proxy", ask(proxy.port, request).status, 502)
    same("audit", proxy.stop(), IDLE)
    same("closed", is_closed(port), True)
    taken = 'listen = "127.0.0.1:%d"\nadmin = "127.0.0.1:%d"\nmetrics = "127.0.0.1:%d"\n' % (free_port(), free_port(), origin.port)
    ended = bench.keep(Program(ADAPTPROXY, taken))
    same("a port that is taken", ended.ended()[2], 1)


@case
def a_proxy_takes_the_place_of_another_without_a_gap(bench):
    """A second process listens on the same port before the first one drains: users find the port open throughout."""
    origin = bench.origin()
    first = bench.proxy(origin, "deadline = 20")
    over, served, wrong = threading.Event(), [0], []

    def users():
        while not over.is_set():
            try:
                same("served", ask(first.port, get("/bytes/3")).body, b"the")
                served[0] += 1
            except (OSError, ValueError, Closed, AssertionError) as error:
                wrong.append(repr(error))
    threads = [threading.Thread(target=users) for _ in range(4)]
    for thread in threads:
        thread.start()
    comes("users", lambda: served[0] > 20)
    text = 'listen = "127.0.0.1:%d"\nadmin = "127.0.0.1:%%d"\n[hosts]\n"o.test" = "127.0.0.1:%d"\n' % (first.port, origin.port)
    _, errors, status = bench.keep(Program(ADAPTPROXY, text % first.admin)).ended()
    same("the same administrator's port", (errors[:25], status), (b"adaptproxy: cannot listen", 1))
    admin = free_port()
    second = bench.keep(Program(ADAPTPROXY, text % admin))
    same("beside it", second.first, b"listening\n")
    before = served[0]
    same("drain", first.say("drain"), "ok")
    same("the first one ends", first.ended()[1:], (b"", 0))
    after = served[0]
    comes("more users", lambda: served[0] > after + 50, PATIENCE)
    over.set()
    for thread in threads:
        thread.join()
    print("      %d served, %d of them during the change; wrong: %s" % (served[0], after - before, wrong[:3]))
    same("wrong", wrong, [])
    with socket.create_connection(("127.0.0.1", admin), PATIENCE) as sock:
        sock.sendall(b"stop\n")
    same("audit", second.ended()[0], (IDLE + "\n").encode())
