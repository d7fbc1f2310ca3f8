"""What any user, any origin and any shortage can do to the proxy: seats, resets, descriptors, threads, ends."""
import collections
import os
import re
import shutil
import socket
import subprocess
import sys
import threading
import time

from serve_lab.cases import (ADAPTPROXY, IDLE, Oversleeping, ahead, at_once, case, comes, get, is_refused, needs, needs_tools, post,
                             refusal, same, settled, statuses_of)
from serve_lab.loopback import PATIENCE, TOP, Closed, Icap, Program, Reader, Server, User, ask, body_of, free_port


def never(_conn, reader, head, _count):
    """A service that hears its request and doesn't answer."""
    Icap.rest(reader, head)
    time.sleep(30)


def is_open(user):
    """Whether the proxy hasn't ended this connection, on which nothing is to come."""
    user.sock.settimeout(0.2)
    try:
        return user.sock.recv(1) != b""
    except socket.timeout:
        return True
    except OSError:
        return False
    finally:
        user.sock.settimeout(20)


@case
def seats_are_taken_from_idle_users_first(bench):
    origin = bench.origin()
    proxy = bench.proxy(origin, "shards = 1\nrows = 4\ndeadline = 600")
    idle = [User(proxy.port) for _ in range(4)]
    for user in idle:
        same("kept", user.ask(get("/bytes/3")).body, b"the")
    again = idle[0].ask(get("/bytes/4"))
    same("used again", again.body, b"the ")
    fifth = User(proxy.port)
    same("the fifth", fifth.ask(get("/bytes/5")).body, body_of(5))
    same("closed is the one that waited longest", [is_open(user) for user in idle], [True, False, True, True])
    for user in idle + [fifth]:
        user.close()


@case
def seats_are_taken_from_unfinished_heads_next(bench):
    origin = bench.origin()
    proxy = bench.proxy(origin, "shards = 1\nrows = 4\ndeadline = 600")
    slow = []
    for number in range(4):
        user = User(proxy.port)
        user.send(get("/bytes/3")[:10 + number])
        slow.append(user)
        time.sleep(0.05)
    # None is spared within 200 ms after it was taken in.
    time.sleep(0.4)
    for number in range(3):
        same("served", ask(proxy.port, get("/bytes/5")).body, body_of(5))
    comes("a free seat", lambda: not is_open(slow[0]))
    same("cut is the oldest alone", [is_open(user) for user in slow], [False, True, True, True])
    slow[3].send(get("/bytes/3")[13:])
    same("a head goes on", slow[3].answer().body, b"the")
    busy = [User(proxy.port) for _ in range(4)]
    for user in busy:
        user.send(get("/mute"))
    comes("four exchanges", lambda: sum(b"/mute" in head for head in origin.heads) == 4)
    is_refused("no seat", proxy.port, get("/bytes/3"), 503)
    origin.release.set()
    for user in busy:
        user.reader.to_end()
    same("audit", proxy.stop(), IDLE)


@case
def a_user_is_spared_where_many_have_just_sent(bench):
    origin = bench.origin()
    proxy = bench.proxy(origin, "shards = 1\nrows = 600\ndeadline = 600", descriptors=4096)
    users = [User(proxy.port) for _ in range(600)]
    for user in users:
        same("kept", user.ask(get("/bytes/3")).body, b"the")
    # The loop sees the further user first, and then 255 of the 300 requests: 45 lie unread on those that have been idle longest.
    proxy.halt()
    further = User(proxy.port)
    further.send(get("/bytes/5"))
    time.sleep(0.1)
    for user in reversed(users[:300]):
        user.send(get("/bytes/4"))
    proxy.go_on()
    same("the further one", further.answer().body, body_of(5))
    same("those that have just sent", {user.answer().body for user in users[:300]}, {b"the "})
    same("closed is the one that waited longest", [is_open(user) for user in users[300:304]], [False, True, True, True])
    for user in users + [further]:
        user.close()
    same("audit", proxy.stop(), IDLE)


@case
def a_crowd_on_a_slow_line_is_served(bench):
    origin = bench.origin()
    proxy = bench.proxy(origin, "shards = 1\nrows = 4\ndeadline = 600")
    def crowd_of(count):
        crowd = [User(proxy.port) for _ in range(count)]
        time.sleep(0.1)
        return crowd

    def statuses(crowd):
        for user in crowd:
            user.send(get("/bytes/5"))
        return [user.answer().status for user in crowd]
    busy = [User(proxy.port) for _ in range(2)]
    for user in busy:
        user.send(get("/mute"))
    comes("two exchanges", lambda: sum(b"/mute" in head for head in origin.heads) == 2)
    idle = User(proxy.port)
    same("kept", idle.ask(get("/bytes/3")).body, b"the")
    # Five users are taken in before a byte of their heads comes: the idle one goes for them, and none of them for another, since they
    # have half of the seats.
    crowd = crowd_of(5)
    same("the crowd", statuses(crowd), [200] * 2 + [503] * 3)
    same("closed is the idle one", is_open(idle), False)
    for user in crowd + busy:
        user.close()
    origin.release.set()
    comes("free seats", lambda: ask(proxy.port, get("/bytes/5")).status == 200)
    # Where they have more than half of the seats, the oldest go for the others.
    crowd = crowd_of(7)
    same("closed are the oldest", [is_open(user) for user in crowd], [False] * 3 + [True] * 4)
    same("the crowd", statuses(crowd[3:]), [200] * 4)
    # Later they are spared as any other is that hasn't sent its head.
    for user in crowd:
        user.close()
    comes("free seats", lambda: ask(proxy.port, get("/bytes/5")).status == 200)
    silent = [User(proxy.port) for _ in range(4)]
    time.sleep(0.4)
    same("a further one", ask(proxy.port, get("/bytes/5")).body, body_of(5))
    same("closed is the oldest", [is_open(user) for user in silent], [False, True, True, True])
    for user in silent:
        user.close()
    same("audit", proxy.stop(), IDLE)


@case
def a_user_that_resets_ends_its_exchange(bench):
    origin = bench.origin()
    service = bench.icap(never)
    for services, request in (([], get("/mute")), ([("respmod", service.port, "/respmod/x")], get("/bytes/3000")),
                              ([("reqmod", service.port, "/reqmod/x")], post("/echo", body_of(3000))),
                              ([], post("/echo", body_of(3000))[:2000])):
        proxy = bench.proxy(origin, "deadline = 600", services)
        heads = len(origin.heads) + len(service.requests)
        user = User(proxy.port)
        user.send(request)
        if b"Content-Length: 3000\r\n" in request and not services:
            time.sleep(0.3)
        else:
            comes("the exchange", lambda: len(origin.heads) + len(service.requests) > heads)
        before = time.time()
        user.reset()
        comes("its end", lambda: settled(proxy, 0).startswith("rows 0 ") and proxy.descriptors() <= 15, 3)
        print("      ended %.0f ms after the reset" % (1000 * (time.time() - before)))
        same("audit", proxy.stop(), IDLE)
    # One that closes its sending half alone is answered, as long as nobody wants what it has.
    proxy = bench.proxy(origin, "deadline = 600", [("respmod", service.port, "/respmod/x")])
    half = User(proxy.port)
    heads = len(service.requests)
    half.send(get("/bytes/3000"))
    comes("the exchange", lambda: len(service.requests) > heads)
    half.sock.shutdown(socket.SHUT_WR)
    time.sleep(0.5)
    same("half-closed", proxy.say("book").split(" claimed")[0], "rows 1 held 3000")


def ended_users(proxy, origin, count):
    """Users that have asked an origin which says nothing, and have closed their connections."""
    before = len(origin.heads)
    for _ in range(count):
        user = User(proxy.port)
        user.send(get("/mute"))
        user.close()
    comes("%d exchanges" % count, lambda: len(origin.heads) >= before + min(count, 512))


@case
def seats_are_taken_from_users_that_have_ended_first(bench):
    origin = bench.origin()
    proxy = bench.proxy(origin, "shards = 1\nrows = 512\ndeadline = 600", descriptors=4096)
    ended_users(proxy, origin, 520)
    same("no transaction", proxy.say("book")[:7], "rows 0 ")
    same("the others", statuses_of(proxy, 20, ["/bytes/3", "/bytes/5"]), [200] * 40)
    origin.release.set()
    same("audit", proxy.stop(), IDLE)


@case
def users_that_have_ended_go_before_idle_ones(bench):
    origin = bench.origin()
    proxy = bench.proxy(origin, "shards = 1\nrows = 4\ndeadline = 600")
    idle = [User(proxy.port) for _ in range(2)]
    for user in idle:
        same("kept", user.ask(get("/bytes/3")).body, b"the")
    halves = [User(proxy.port) for _ in range(2)]
    for number, user in enumerate(halves):
        user.send(get("/mute"))
        comes("an exchange", lambda: sum(b"/mute" in head for head in origin.heads) == number + 1)
        user.sock.shutdown(socket.SHUT_WR)
    time.sleep(0.1)
    further = User(proxy.port)
    same("a further one", further.ask(get("/bytes/5")).body, body_of(5))
    same("idle ones stay", [is_open(user) for user in idle], [True, True])
    same("closed is the one that ended first", is_open(halves[0]), False)
    origin.release.set()
    # The other isn't in the way: it gets its answer, which is that the origin said nothing.
    same("answered", halves[1].answer().status, 502)
    same("audit", proxy.stop(), IDLE)


@case
def descriptors_are_taken_from_users_that_have_ended_first(bench):
    origin = bench.origin()
    proxy = bench.proxy(origin, "shards = 1\nrows = 512\ndeadline = 600", descriptors=120)
    most = 30
    ended_users(proxy, origin, most)
    start = time.time()
    same("the others", statuses_of(proxy, 8, ["/bytes/3", "/bytes/5"]), [200] * 16)
    same("at once", time.time() - start < 5, True)
    origin.release.set()
    same("audit", proxy.stop(), IDLE)


@case
def descriptors_are_taken_from_users_that_have_ended_in_another_thread(bench):
    """One thread has idle users alone, and the other those that have ended: none of the first goes while one of these is there."""
    origin = bench.origin()
    proxy = bench.proxy(origin, "shards = 2\nrows = 512\ndeadline = 600", descriptors=100)
    idle, ended, further = [], [], []
    for number in range(20):
        user = User(proxy.port)
        if number % 2:
            same("kept", user.ask(get("/bytes/3")).body, b"the")
            idle.append(user)
        else:
            heads = len(origin.heads)
            user.send(get("/mute"))
            comes("an exchange", lambda: len(origin.heads) > heads)
            user.sock.shutdown(socket.SHUT_WR)
            ended.append(user)
    for _ in range(10):
        further.append(User(proxy.port))
        same("a further one", further[-1].ask(get("/bytes/5")).body, body_of(5))
    same("some have gone", sum(is_open(user) for user in ended) < 10, True)
    same("idle ones stay", sum(is_open(user) for user in idle), 10)
    origin.release.set()
    for user in idle + ended + further:
        user.close()
    same("audit", proxy.stop(), IDLE)


@case
def connections_to_a_service_are_taken_from_users_that_have_ended(bench):
    """Sixteen users have the connections to a service that hears them and says nothing, and close theirs."""
    def reply(conn, reader, head, count):
        if count > 16:
            return service.no_modification(conn, reader, head, count)
        return never(conn, reader, head, count)
    for text, point in (("", "reqmod"), ("wait = 5", "reqmod"), ("", "respmod"), ("wait = 5", "respmod")):
        origin = bench.origin()
        service = bench.icap(reply, [b"Max-Connections: 16"])
        proxy = bench.proxy(origin, "shards = 1\ndeadline = 600\n" + text, [(point, service.port, "/%s/x" % point, 16)])
        users = [User(proxy.port) for _ in range(16)]
        for number, user in enumerate(users):
            user.send(get("/bytes/3"))
            comes("a message at the service", lambda: len(service.requests) == number + 1)
        if not text:
            same("all are leased", ask(proxy.port, get("/bytes/3")).status, 503)
        waiter = User(proxy.port)
        if text:
            waiter.send(get("/bytes/4"))
            time.sleep(0.2)
        for user in users[:8]:
            user.sock.shutdown(socket.SHUT_WR)
        start = time.time()
        if not text:
            time.sleep(0.1)
            waiter.send(get("/bytes/4"))
        same("one who wants a connection", waiter.answer().body, b"the ")
        print("      %s, %s: served after %.2f s" % (point, text or "wait = 0", time.time() - start))
        same("served in time", time.time() - start < 1.5, True)
        same("one that isn't in the way stays", sum(is_open(user) for user in users[:8]), 7)
        same("the others", statuses_of(proxy, 4, ["/bytes/3", "/bytes/5"]), [200] * 8)
        same("nobody else goes", all(is_open(user) for user in users[8:]), True)
        for user in users:
            user.reset()
        same("audit", proxy.stop(), IDLE)


@case
def a_user_goes_to_a_thread_that_has_a_seat(bench):
    """Users are handed to the threads in turn: where both seats of one are taken, the other takes its users too."""
    origin = bench.origin()
    proxy = bench.proxy(origin, "shards = 2\nrows = 8\ndeadline = 600")
    busy, number = [], 0

    def hold():
        busy.append(User(proxy.port))
        busy[-1].send(get("/mute"))
        comes("an exchange", lambda: sum(b"/mute" in head for head in origin.heads) == len(busy))
    for _ in range(8):
        hold()
        same("in between", ask(proxy.port, get("/bytes/3")).status, 200)
    same("beside a full thread", [ask(proxy.port, get("/bytes/3")).status for _ in range(40)], [200] * 40)
    for _ in range(8):
        hold()
    for _ in range(4):
        is_refused("no seat in either", proxy.port, get("/bytes/3"), 503)
    origin.release.set()
    for user in busy:
        user.reader.to_end()
    same("audit", proxy.stop(), IDLE)


@case
def no_head_is_cut_where_another_thread_has_a_seat(bench):
    """Both threads get every second user: those of one send the beginning of a head, and those of the other go."""
    proxy = bench.proxy(bench.origin(), "shards = 2\nrows = 4\ndeadline = 600")
    slow = []
    for number in range(8):
        user = User(proxy.port)
        if number % 2:
            user.close()
        else:
            user.send(get("/bytes/3")[:10])
            slow.append(user)
        time.sleep(0.05)
    time.sleep(0.4)
    same("served", [ask(proxy.port, get("/bytes/5")).status for _ in range(4)], [200] * 4)
    same("heads stay", [is_open(user) for user in slow], [True] * 4)
    for user in slow:
        user.close()
    same("audit", proxy.stop(), IDLE)


@case
def whole_requests_are_served_beside_a_flood_of_silent_connections(bench):
    """600 connections a second that say nothing, and 64 seats."""
    origin = bench.origin()
    proxy = bench.proxy(origin, "shards = 1\nrows = 64\ndeadline = 600", descriptors=2048)
    over, flood, opened = threading.Event(), collections.deque(), [0]

    def silent():
        while not over.is_set():
            flood.append(User(proxy.port))
            opened[0] += 1
            if len(flood) > 400:
                flood.popleft().close()
            time.sleep(1 / 700)
    thread = threading.Thread(target=silent)
    thread.start()
    comes("a flood", lambda: len(flood) > 200)
    start, before, statuses = time.time(), opened[0], []
    for _ in range(60):
        statuses.append(ask(proxy.port, get("/bytes/3")).status)
        time.sleep(0.05)
    rate = (opened[0] - before) / (time.time() - start)
    over.set()
    thread.join()
    for user in flood:
        user.close()
    print("      %d of 60 were served beside %.0f connections a second" % (statuses.count(200), rate))
    same("statuses", (set(statuses), rate > 300), ({200}, True))
    same("audit", proxy.stop(), IDLE)


def processor_time(program):
    """Seconds of a processor that a program has had."""
    with open("/proc/%d/stat" % program.process.pid) as text:
        words = text.read().rsplit(")", 1)[1].split()
    return (int(words[11]) + int(words[12])) / os.sysconf("SC_CLK_TCK")


@case
def a_user_that_waits_for_descriptors_keeps_no_processor_busy(bench):
    for shards in (1, 2):
        origin = bench.origin()
        proxy = bench.proxy(origin, "shards = %d\nrows = 64\ndeadline = 600" % shards, descriptors=120 + 3 * (shards - 1))
        busy = [User(proxy.port) for _ in range(30)]
        for number, user in enumerate(busy):
            user.send(get("/mute"))
            comes("an exchange", lambda: len(origin.heads) == number + 1)
        waiting = User(proxy.port)
        waiting.send(get("/bytes/3"))
        time.sleep(0.2)
        before = processor_time(proxy)
        time.sleep(2)
        late = processor_time(proxy) - before
        print("      shards = %d: %.2f s of a processor in 2 s" % (shards, late))
        same("busy", late < 0.5, True)
        busy[0].reset()
        start = time.time()
        same("served", waiting.answer().body, b"the")
        same("soon", time.time() - start < 1, True)
        origin.release.set()
        for user in busy:
            user.close()
        same("audit", proxy.stop(), IDLE)


@case
def threads_that_the_system_refuses_end_the_proxy(bench):
    needs("root", os.geteuid() == 0)
    needs_tools("setpriv", "prlimit")
    setpriv = shutil.which("setpriv")
    text = 'listen = "127.0.0.1:%d"\nadmin = "127.0.0.1:%d"\nshards = 4\n' % (free_port(), free_port())
    limited = bench.keep(Program(ADAPTPROXY, text, before=[setpriv, "--reuid=64001", "--regid=64001", "--clear-groups",
                                                           "prlimit", "--nproc=2"]))
    before = time.time()
    out, errors, status = limited.ended(15)
    print("      ended after %.1f s" % (time.time() - before))
    same("ended", (limited.first, out, errors, status),
         (b"listening\n", IDLE.encode() + b"\n", b"adaptproxy: cannot listen\n", 1))


@case
def threads_have_names(bench):
    proxy = bench.proxy(bench.origin(), "shards = 12")
    same("served", ask(proxy.port, get("/bytes/3")).body, b"the")
    task = "/proc/%d/task" % proxy.process.pid
    own = open("/proc/%d/comm" % proxy.process.pid).read().strip()

    def names():
        return sorted(open("%s/%s/comm" % (task, thread)).read().strip() for thread in os.listdir(task))
    wanted = sorted(["shard-%d" % number for number in range(12)] + [own])
    comes("the last thread", lambda: names() == wanted)
    same("names", names(), wanted)
    same("the program's", own.startswith("shard"), False)
    same("audit", proxy.stop(), IDLE)


@case
def bulk_doesnt_hold_up_others(bench):
    """Between two waits of its thread an exchange moves at most 8 rounds of turns, so it reads its origin's answer at most 8 times."""
    needs_tools("strace")
    asked, told = threading.Event(), threading.Event()

    def exchange(conn, _number):
        Reader(conn).head()
        asked.set()
        told.wait(PATIENCE)
        conn.sendall(b"HTTP/1.1 200 OK\r\nContent-Length: 3000000\r\n\r\n" + body_of(3_000_000))
    proxy = bench.proxy(bench.keep(Server(exchange)), "shards = 1\nwindow = 65536")
    user = User(proxy.port)
    user.sock.settimeout(90)
    user.send(get("/bytes/3000000"))
    same("asked", asked.wait(PATIENCE), True)
    trace = subprocess.Popen(["strace", "-f", "-qq", "-e", "trace=read,recvfrom,epoll_wait,epoll_pwait", "-o", "|cat", "-p",
                              str(proxy.process.pid)], stdout=subprocess.PIPE, stderr=subprocess.DEVNULL)
    time.sleep(1)
    told.set()
    same("the answer", user.answer().body == body_of(3_000_000), True)
    time.sleep(0.3)
    trace.terminate()
    most = reads = 0
    for line in trace.stdout.read().decode("latin-1").split("\n"):
        if "epoll_" in line:
            reads = 0
        elif re.search(r"(read|recvfrom)\(.* = [1-9]\d\d+$", line):
            reads += 1
            most = max(most, reads)
    print("      at most %d reads of an answer between two waits" % most)
    same("reads", (most > 0, most <= 8), (True, True))
    same("audit", proxy.stop(), IDLE)


class Crowd:
    """Users who ask for this path again and again; `statuses` are those of their answers."""

    def __init__(self, proxy, path, count):
        self.proxy, self.path, self.ends, self.statuses = proxy, path, False, []
        self.threads = [threading.Thread(target=self.run, daemon=True) for _ in range(count)]
        for thread in self.threads:
            thread.start()

    def run(self):
        while not self.ends:
            try:
                self.statuses.append(ask(self.proxy.port, get(self.path)).status)
            except (Closed, OSError) as error:
                self.statuses.append(repr(error))

    def end(self):
        self.ends = True
        for thread in self.threads:
            thread.join(PATIENCE)


def wait_of_others(proxy, seconds=2):
    """The median of the seconds that one more user of the thread waits for a small answer."""
    waits, end = [], time.time() + seconds
    while time.time() < end:
        start = time.time()
        same("another's answer", ask(proxy.port, get("/bytes/5")).status, 200)
        waits.append(time.time() - start)
    return sorted(waits)[len(waits) // 2]


@case
def interim_responses_without_end_are_refused(bench):
    """An origin that sends interim responses without end: after 32 of them the next one is a fault, and others hardly wait for that.
    They put off no deadline."""
    def exchange(conn, _number):
        path = Reader(conn).head().split(b" ")[1]
        while path == b"/storm":
            conn.sendall(b"HTTP/1.1 100 Continue\r\n\r\n" * 1000)
        while path == b"/drip":
            conn.sendall(b"HTTP/1.1 100 Continue\r\n\r\n")
            time.sleep(0.3)
        while path == b"/halves":
            for half in (b"HTTP/1.1 100 Con", b"tinue\r\n\r\n"):
                conn.sendall(half)
                time.sleep(0.3)
        if path.startswith(b"/few/"):
            conn.sendall(b"HTTP/1.1 103 Hints\r\nLink: x\r\n\r\n" * int(path[5:]))
        conn.sendall(b"HTTP/1.1 200 OK\r\nContent-Length: 5\r\n\r\nhello")
    proxy = bench.proxy(bench.keep(Server(exchange)), "shards = 1\ndeadline = 3")
    for count in (1, 8):
        crowd = Crowd(proxy, "/storm", count)
        wait = wait_of_others(proxy)
        crowd.end()
        print("      others wait %.0f ms beside %d" % (1000 * wait, count))
        same("statuses", set(crowd.statuses), {502})
        same("others wait %.3f s" % wait, wait < 0.1 * PATIENCE / 20, True)
    same("as many as are read", ask(proxy.port, get("/few/32")).body, b"hello")
    same("one more", ask(proxy.port, get("/few/33")).status, 502)
    for path in ("/drip", "/halves"):
        start = time.time()
        same("the deadline", ask(proxy.port, get(path)).status, 504)
        took = time.time() - start
        same("%s: after %.1f s" % (path, took), 3 <= took < 3 + PATIENCE / 5, True)
    same("audit", proxy.stop(), IDLE)


class Downloads:
    """Users who read an answer without end."""

    def __init__(self, proxy, path, count):
        self.users = [User(proxy.port) for _ in range(count)]
        for user in self.users:
            user.send(get(path))
            threading.Thread(target=self.read, args=(user,), daemon=True).start()

    def read(self, user):
        try:
            while user.sock.recv(1 << 18):
                pass
        except OSError:
            pass

    def end(self):
        for user in self.users:
            user.sock.shutdown(socket.SHUT_RDWR)
            user.close()


@case
def framing_counts_as_work(bench):
    """Others wait no more than twice as long beside downloads in small chunks, or with long size lines, as beside as many ordinary ones:
    the medians of rounds that alternate. They are sixteen, since beside four a busy machine's own waits are as long, and all go
    before what else it does."""
    kinds = {"/ordinary": b"1000\r\n" + b"a" * 4096 + b"\r\n", "/single": b"1\r\na\r\n", "/sixteen": b"10\r\n" + b"a" * 16 + b"\r\n",
             "/padded": b"0" * 249 + b"1\r\na\r\n", "/extended": b"1;x=\"" + b";" * 244 + b"\"\r\na\r\n"}

    def exchange(conn, _number):
        path = Reader(conn).head().decode().split(" ")[1]
        if path in kinds:
            conn.sendall(b"HTTP/1.1 200 OK\r\nTransfer-Encoding: chunked\r\n\r\n")
            piece = kinds[path] * (65536 // len(kinds[path]))
            while True:
                conn.sendall(piece)
        conn.sendall(b"HTTP/1.1 200 OK\r\nContent-Length: 5\r\n\r\nhello")
    waits = {path: [] for path in kinds}
    with ahead():
        proxy = bench.proxy(bench.keep(Server(exchange)), "shards = 1")
        for _ in range(3):
            for path in kinds:
                downloads = Downloads(proxy, path, 16)
                time.sleep(0.2)
                waits[path].append(wait_of_others(proxy, 0.5))
                downloads.end()
                settled(proxy)
    medians = {path: sorted(each)[1] for path, each in waits.items()}
    print("      others wait " + ", ".join("%.1f ms beside %s" % (1000 * wait, path) for path, wait in medians.items()))
    for path, wait in medians.items():
        same("%s: %.4f s, beside ordinary ones %.4f" % (path, wait, medians["/ordinary"]),
             wait <= 2 * PATIENCE / 20 * medians["/ordinary"], True)
    same("audit", proxy.stop(), IDLE)


@case
def answers_that_are_cut_are_seen_to_be(bench):
    def exchange(conn, _number):
        head = Reader(conn).head()
        conn.sendall(b"HTTP/1.1 200 OK\r\nTransfer-Encoding: chunked\r\n\r\n5\r\nabcde\r\n")
        if not services:
            seen.wait(PATIENCE)
        if b"/whole" in head or services:
            conn.sendall(b"0\r\n\r\n")
        elif b"/mid" in head:
            conn.sendall(b"9\r\nabc")

    def cut_by_the_service(conn, reader, head, _count):
        Icap.rest(reader, head)
        conn.sendall(b"ICAP/1.0 200 OK\r\nISTag: \"t-1\"\r\nEncapsulated: res-hdr=0, res-body=19\r\n\r\n"
                     b"HTTP/1.1 200 OK\r\n\r\n5\r\nabcde\r\n")
        seen.wait(PATIENCE)
        return False

    def read(user):
        text = b""
        try:
            while True:
                piece = user.sock.recv(65536)
                if not piece:
                    return text, "end"
                text += piece
                if b"abcde" in text:
                    seen.set()
        except ConnectionResetError:
            return text, "reset"
    seen = threading.Event()
    origin = bench.keep(Server(exchange))
    service = bench.icap(cut_by_the_service)
    for services in ([], [("respmod", service.port, "/respmod/x")], [("reqmod", service.port, "/reqmod/x")]):
        proxy = bench.proxy(origin, "", services)
        for path in ("/whole", "/between", "/mid"):
            seen.clear()
            user = User(proxy.port)
            user.send(get(path, version="1.0"))
            text, end = read(user)
            cut = bool(services) or path != "/whole"
            same("%s through %d" % (path, len(services)), (b"abcde" in text, end), (True, "reset" if cut else "end"))
        seen.clear()
        user = User(proxy.port)
        user.send(get("/between"))
        text, end = read(user)
        same("chunked", (b"abcde" in text, text.endswith(b"0\r\n\r\n"), end), (True, False, "end"))
        same("audit", proxy.stop(), IDLE)


def asked_again(port):
    """The status of an answer to a user who asks anew where it is closed: a head that isn't there yet gives way to one who
    waits."""
    for _ in range(20):
        try:
            return ask(port, get("/bytes/3")).status
        except (Closed, OSError):
            time.sleep(0.05)
    raise AssertionError("closed each time")


@case
def descriptors_are_shared_by_those_who_are_let_in(bench):
    origin = bench.origin()
    proxy = bench.proxy(origin, "deadline = 20", descriptors=54)
    statuses = []

    def one(_number):
        statuses.append(asked_again(proxy.port))
    at_once(150, one)
    same("each is served", (len(statuses), set(statuses)), (150, {200}))
    idle = [User(proxy.port) for _ in range(30)]
    for user in idle:
        user.send(b"GET")
    same("beside unfinished heads", ask(proxy.port, get("/bytes/3")).body, b"the")
    for user in idle:
        user.close()
    same("audit", proxy.stop(), IDLE)


@case
def idle_connections_take_no_descriptor_of_a_user(bench):
    """A service that allows more connections than the key says: users that were let in always find descriptors."""
    def slowly(conn, reader, head, count):
        time.sleep(0.03)
        return service.no_modification(conn, reader, head, count)
    origin = bench.origin()
    service = bench.icap(slowly, options=[b"Max-Connections: 500", b"Preview: 0", b"Transfer-Preview: *"])
    services = [("reqmod", service.port, "/reqmod/x", 8), ("respmod", service.port, "/respmod/x", 8)]
    proxy = bench.proxy(origin, "deadline = 20\nwait = 20", services, descriptors=200)
    statuses, most = [], []

    def kept(_number):
        user = User(proxy.port)
        for _ in range(8):
            try:
                answer = user.ask(get("/bytes/3"))
            except (Closed, OSError):
                # Between two requests, or before the first one, it may be closed for one who waits.
                break
            statuses.append(answer.status)
            if answer.fields.get("connection") == "close":
                break
        user.close()

    def fresh(_number):
        statuses.append(asked_again(proxy.port))
    for users, one in ((50, kept), (150, fresh), (50, kept)):
        time.sleep(0.3)
        at_once(users, one)
        same("each is served", (set(statuses), len(statuses) >= users), ({200}, True))
        most.append(proxy.descriptors())
    print("      descriptors afterwards: %s; %d connections were opened to the service" % (most, service.count))
    same("audit", proxy.stop(), IDLE)


@case
def a_head_that_goes_on_is_not_cut(bench):
    """A byte of a head now and then: where seats are free, it goes on for longer than the deadline, and is answered."""
    proxy = bench.proxy(bench.origin(), "deadline = 2\nrows = 4")
    user, text = User(proxy.port), get("/bytes/3")
    for at in range(12):
        user.send(text[at:at + 1])
        time.sleep(0.4)
    same("answered", user.ask(text[12:]).body, b"the")
    same("audit", proxy.stop(), IDLE)


@case
def deadlines_come_never_early(bench):
    def exchange(conn, _number):
        head = Reader(conn).head()
        time.sleep(int(head.split(b" ")[1].strip(b"/")) / 1000)
        conn.sendall(b"HTTP/1.1 200 OK\r\nContent-Length: 3\r\n\r\nabc")
    origin = bench.keep(Server(exchange))
    proxy = bench.proxy(origin, "deadline = 1\nshards = 1")
    late, others = [], Oversleeping()

    def one(number):
        time.sleep(number * 0.07)
        for pause in (300, 900):
            same("within %d ms" % pause, ask(proxy.port, get("/%d" % pause)).status, 200)
        before = time.time()
        is_refused("too late", proxy.port, get("/5000"), 504)
        late.append(time.time() - before)
        before = time.time()
        user = User(proxy.port)
        user.send(b"GET http://o.test/")
        same("a head", user.reader.to_end(), b"")
        late.append(time.time() - before)
    at_once(15, one)
    most = others.end()
    print("      deadlines of 1 s came after %.2f to %.2f s; a sleep came up to %.2f s late" % (min(late), max(late), most))
    same("never early, and a second late at most", (min(late) >= 1, max(late) < 2.2 + 3 * most), (True, True))
    same("audit", proxy.stop(), IDLE)


@case
def unknown_hosts_are_refused_before_a_service_is_asked(bench):
    origin = bench.origin()
    service = bench.icap(options=[b"Preview: 4"])
    proxy = bench.proxy(origin, "", [("reqmod", service.port, "/reqmod/x")])
    is_refused("unknown", proxy.port, b"GET http://no.test/ HTTP/1.1\r\nHost: no.test\r\n\r\n", 502)
    same("asked", (service.asked, service.count), (0, 0))
    same("audit", proxy.stop(), IDLE)


@case
def a_stop_reaches_users_that_are_sending(bench):
    origin = bench.origin()
    service = bench.icap(never)
    proxy = bench.proxy(origin, "", [("reqmod", service.port, "/reqmod/x")])
    users = [User(proxy.port) for _ in range(8)]
    found = []

    def one(user):
        user.send(post("/echo", body_of(3_000_000))[:200_000])
        time.sleep(1)
        try:
            for _ in range(30):
                user.send(b"x" * 10000)
                time.sleep(0.01)
        except OSError:
            pass
        found.append(user.reader.to_end())
    threads = [threading.Thread(target=one, args=(user,)) for user in users]
    for thread in threads:
        thread.start()
    time.sleep(1.05)
    same("audit", proxy.stop(), IDLE)
    for thread in threads:
        thread.join()
    same("refused", found, [refusal(503)] * 8)


@case
def a_page_cant_speak_to_the_administrator(bench):
    origin = bench.origin()
    proxy = bench.proxy(origin)
    for text in (b"POST / HTTP/1.1\r\nHost: x\r\nContent-Length: 5\r\n\r\nstop\n", b"Host: x\nstop\n", b"hOST:\nstop\n",
                 b"GET /\nstop\n", b"PROPFIND x\nstop\n", b"book\nPUT / HTTP/1.0\nstop\n"):
        with socket.create_connection(("127.0.0.1", proxy.admin), PATIENCE) as sock:
            sock.sendall(text)
            answer = Reader(sock).to_end()
            same(text, answer.split(b"\n")[-2:], [b"bad", b""])
    same("no line of HTTP", proxy.say("stop it", "Stop", "capacity", "book now"), ["bad"] * 4)
    same("it goes on", ask(proxy.port, get("/bytes/3")).body, b"the")
    same("audit", proxy.stop(), IDLE)


@case
def want_of_ports_is_want_of_room(bench):
    """With a late dial it is found only at the first byte for the origin, which can't be reached then."""
    dial = os.environ.get("SCENE", "")
    if dial not in ("first", "late"):
        needs("root", os.geteuid() == 0)
        needs_tools("unshare", "ip")
        for dial in ("first", "late"):
            scene = ("ip link set lo up && sysctl -qw net.ipv4.ip_local_port_range='40000 40029' && SCENE=%s exec %s %s %s"
                     % (dial, sys.executable, os.path.join(TOP, "tools", "try_serve"), "want_of_ports_is_want_of_room"))
            run = subprocess.run(["unshare", "-n", "sh", "-c", scene], stdout=subprocess.PIPE, check=False)
            same("the scene", (run.returncode, run.stdout.decode()[-300:] if run.returncode else ""), (0, ""))
        return
    origin = bench.origin()
    proxy = bench.proxy(origin, 'dial = "%s"\n' % dial)
    users = []
    for number in range(60):
        user = User(proxy.port, source="127.0.1.%d" % (number + 1))
        user.send(get("/mute"))
        users.append(user)
    comes("an origin without a port", lambda: len(origin.heads) >= 20)
    found = []
    for user in users:
        user.sock.settimeout(0.3)
        try:
            found.append(user.sock.recv(12))
        except socket.timeout:
            pass
    same("refused", (len(found) > 10, set(found)), (True, {b"HTTP/1.1 503" if dial == "first" else b"HTTP/1.1 502"}))
    origin.release.set()
    for user in users:
        user.close()
    same("audit", proxy.stop()[:11], "audit rows ")


@case
def connections_that_a_service_has_closed_are_not_used(bench):
    origin = bench.origin()
    opened = []

    def reply(conn, reader, head, count):
        opened.append(conn)
        return Icap.no_modification(service, conn, reader, head, count)
    service = bench.icap(reply, [b"Max-Connections: 8", b"Options-TTL: 3600"])
    proxy = bench.proxy(origin, "shards = 2", [("respmod", service.port, "/respmod/x")])
    for turn in range(3):
        found = statuses_of(proxy, 6, ("/chunked/20000", "/bytes/300000"))
        same("all are served, %d" % turn, found, [200] * 12)
        comes("idle connections", lambda: settled(proxy, 0).startswith("rows 0 "))
        for conn in set(opened):
            try:
                conn.shutdown(socket.SHUT_RDWR)
            except OSError:
                pass
        del opened[:]
        time.sleep(0.2)
    same("at most", service.most <= 8, True)
    same("audit", proxy.stop(), IDLE)
