"""What the system does to the proxy: calls that it refuses or answers late, by strace, and memory that it doesn't give: by a bound
of it, or call by call."""
import os
import re
import resource
import subprocess
import tempfile
import threading
import time

from serve_lab.cases import IDLE, Oversleeping, at_once, case, comes, get, lent, needs, needs_tools, post, refusal, same, settled
from serve_lab.descriptors import connections_of
from serve_lab.loopback import KEPT, Closed, Icap, User, ask, body_of
from serve_lab.memory import Refusals, compiler
from serve_lab.operators import stats


class Strace:
    """strace on each thread of a program, with its words; what it saw comes at the end. None of it where it isn't there."""

    def __init__(self, program, *words):
        self.file = tempfile.NamedTemporaryFile()
        self.process = subprocess.Popen(["strace", "-f", "-qq", "-o", self.file.name, *words, "-p", str(program.process.pid)],
                                        stdout=subprocess.DEVNULL, stderr=subprocess.DEVNULL)
        task = "/proc/%d/task" % program.process.pid
        end = time.time() + 5
        while time.time() < end and any(self.tracer(task, thread) != self.process.pid for thread in os.listdir(task)):
            time.sleep(0.02)
        time.sleep(0.2)

    @staticmethod
    def tracer(task, thread):
        with open("%s/%s/status" % (task, thread)) as lines:
            return next(int(line.split()[1]) for line in lines if line.startswith("TracerPid:"))

    def close(self):
        """What it saw, a line for each call."""
        self.process.terminate()
        self.process.wait()
        with open(self.file.name, errors="replace") as lines:
            return lines.read().split("\n")


@case
def a_dial_for_which_there_is_no_room_is_503(bench):
    """Of the errors of a dial, want of a descriptor or of a port is want of room; all others say that the origin can't be had."""
    needs_tools("strace")
    origin = bench.origin()
    proxy = bench.proxy(origin, "shards = 1")
    for call, error, status in (("socket", "EMFILE", 503), ("socket", "ENFILE", 503), ("socket", "ENOBUFS", 503),
                                ("connect", "EADDRNOTAVAIL", 503), ("connect", "ECONNREFUSED", 502), ("connect", "ENETUNREACH", 502)):
        trace = Strace(proxy, "-e", "trace=%s" % call, "-e", "inject=%s:error=%s" % (call, error))
        user = User(proxy.port)
        user.send(get("/bytes/3"))
        same(error, user.reader.to_end(), refusal(status))
        user.close()
        same("the call failed", any("INJECTED" in line for line in trace.close()), True)
    same("after them", ask(proxy.port, get("/bytes/3")).body, b"the")
    same("audit", proxy.stop(), IDLE)


@case
def a_retry_closes_the_broken_connection_first(bench):
    """So it needs no descriptor beside those that were counted for its user; where the system has no room for a fresh connection, that
    is 503."""
    needs_tools("strace")
    needs("no KEPT", not KEPT)
    origin = bench.origin()

    def reply(conn, reader, head, count):
        if count % 3 == 2:
            Icap.rest(reader, head)
            return False
        return service.no_modification(conn, reader, head, count)
    for point in ("reqmod", "respmod"):
        service = bench.icap(reply)
        proxy = bench.proxy(origin, "shards = 1", [(point, service.port, "/%s/x" % point)])
        same("before it", ask(proxy.port, get("/bytes/3")).body, b"the")
        comes("its end", lambda: set(connections_of(proxy, {service.port: "service"})) <= {"service"})
        trace = Strace(proxy, "-e", "trace=socket,close")
        same("retried", ask(proxy.port, get("/bytes/3")).body, b"the")
        calls = [re.search(r"(socket|close)\(", line) for line in trace.close()]
        names = [call.group(1) for call in calls if call]
        same(point, names[:3], ["socket", "close", "socket"])
        same("between them", ask(proxy.port, get("/bytes/3")).body, b"the")
        trace = Strace(proxy, "-e", "trace=socket", "-e", "inject=socket:error=EMFILE:when=2+")
        user = User(proxy.port)
        user.send(get("/bytes/3"))
        same("without room", user.reader.to_end(), refusal(503))
        user.close()
        same("the call failed", any("INJECTED" in line for line in trace.close()), True)
        comes("counted", lambda: stats(proxy)['adaptproxy_refusals_total{point="%s",why="no-memory"}' % point] == 1)
        same("after it", ask(proxy.port, get("/bytes/3")).body, b"the")
        same("requests", len(service.requests), 6)
        same("audit", proxy.stop(), IDLE)


def waits_after_accepts(lines):
    """The milliseconds that each wait right after an accepted connection may last. A call may end on a line of its own."""
    found, accepted = [], {}
    for line in lines:
        thread = line.split(" ")[0]
        if "accept4" in line and " = " in line:
            accepted[thread] = re.search(r" = \d+$", line) is not None
        elif "epoll_wait" in line and " = " in line and accepted.get(thread):
            found.append(int(re.search(r", 256, (-?\d+)\) += ", line).group(1)))
    return found


@case
def many_accepts_in_a_row_are_no_pause(bench):
    """256 connections are accepted in a turn, and the loop does not wait after that: it asks its poll with no patience."""
    needs_tools("strace")
    needs("4,096 descriptors", resource.getrlimit(resource.RLIMIT_NOFILE)[1] >= 4096)
    proxy = bench.proxy(bench.origin(), "shards = 1\nrows = 4096", descriptors=4096)
    proxy.halt()
    users = [User(proxy.port) for _ in range(600)]
    trace = Strace(proxy, "-e", "trace=accept4,epoll_wait")
    proxy.go_on()
    same("the last", users[-1].ask(get("/bytes/3")).body, b"the")
    waits = waits_after_accepts(trace.close())
    print("      waits within the accepted ones: %s ms" % waits)
    same("waits", (len(waits) >= 1, set(waits)), (True, {0}))
    for user in users:
        user.close()
    same("audit", proxy.stop(), IDLE)


@case
def a_connection_that_is_gone_before_it_is_taken_is_no_pause(bench):
    """Where the system says ECONNABORTED, the next one is asked for at once."""
    needs_tools("strace")
    proxy = bench.proxy(bench.origin(), "shards = 1")
    trace = Strace(proxy, "-e", "trace=accept4,epoll_wait", "-e", "inject=accept4:error=ECONNABORTED:when=1")
    same("served", ask(proxy.port, get("/bytes/3")).body, b"the")
    lines = trace.close()
    thread = next(line.split(" ")[0] for line in lines if "ECONNABORTED" in line)
    calls = [line for line in lines if line.startswith(thread + " ")]
    gone = next(at for at, line in enumerate(calls) if "ECONNABORTED" in line)
    same("the next call", " accept4(" in calls[gone + 1], True)
    same("audit", proxy.stop(), IDLE)


@case
def a_refusal_at_the_stop_is_tried_again(bench):
    """A connection that takes nothing when the proxy stops gets its refusal a little later, when an event says so."""
    needs_tools("strace")
    origin = bench.origin()
    proxy = bench.proxy(origin, "shards = 1")
    user = User(proxy.port)
    user.send(get("/mute"))
    comes("the exchange", lambda: origin.heads)
    trace = Strace(proxy, "-e", "trace=sendto", "-e", "inject=sendto:error=EAGAIN:when=1..3")
    stop = threading.Thread(target=lambda: audits.append(proxy.stop()))
    audits = []
    stop.start()
    while stop.is_alive():
        time.sleep(0.05)
        try:
            user.send(b"x")
        except OSError:
            break
    stop.join()
    tried = sum("sendto" in line and " = " in line for line in trace.close())
    print("      it was tried %d times" % tried)
    same("the refusal", user.reader.to_end(), refusal(503))
    same("audit", audits, [IDLE])


@case
def a_stop_waits_for_no_idle_user(bench):
    """At a stop a user between two requests is closed at once, and holds nobody up; one with a half head gets 503."""
    proxy = bench.proxy(bench.origin())
    idle, served = User(proxy.port), User(proxy.port)
    same("before it", served.ask(get("/bytes/3")).body, b"the")
    start, others = time.monotonic(), Oversleeping()
    same("audit", proxy.stop(), IDLE)
    seconds, most = time.monotonic() - start, others.end()
    print("      it took %.2f s; a sleep came up to %.2f s late" % (seconds, most))
    same("at once", seconds < 0.8 + 3 * most, True)
    same("closed", [user.reader.to_end() for user in (idle, served)], [b"", b""])
    proxy = bench.proxy(bench.origin())
    half = User(proxy.port)
    half.send(get("/bytes/3")[:20])
    time.sleep(0.3)
    same("audit", proxy.stop(), IDLE)
    same("the refusal", half.reader.to_end(), refusal(503))


@case
def a_refusal_and_its_close_share_a_deadline(bench):
    """A refusal that can't be written for a while leaves less of the deadline to the close after it."""
    needs_tools("strace")
    proxy = bench.proxy(bench.origin(), "shards = 1\ndeadline = 3", logged=False)
    user = User(proxy.port)
    time.sleep(0.2)
    trace = Strace(proxy, "-e", "trace=sendto,shutdown,close", "-e", "inject=sendto:error=EAGAIN:when=1")
    before = time.time()
    user.send(b"what is this\r\n\r\n")
    time.sleep(2)
    user.send(b"x")
    same("the refusal", user.reader.to_end(), refusal(400))
    written = time.time() - before
    end = before + 12
    while proxy.descriptors() > 11 and time.time() < end:
        time.sleep(0.01)
    passed = time.time() - before
    trace.close()
    print("      the refusal came after %.2f s, the connection was closed after %.2f s" % (written, passed))
    same("in a deadline, and a second late at most", (2 <= written, 3 <= passed <= 4.5), (True, True))
    user.close()
    same("audit", proxy.stop(), IDLE)


def processor_time(program):
    """The seconds of user time that a program has used."""
    with open("/proc/%d/stat" % program.process.pid) as text:
        return int(text.read().rsplit(") ", 1)[1].split()[11]) / os.sysconf("SC_CLK_TCK")


@case
def a_long_table_of_hosts_is_not_searched_from_the_front(bench):
    origin = bench.origin()
    used = []
    for count in (2, 30000):
        hosts = "".join('"h%05d.t"="127.0.0.1:%d"\n' % (number, origin.port) for number in range(count))
        proxy = bench.proxy(origin, "shards = 1", hosts=hosts)
        user = User(proxy.port)
        last = get("/bytes/3").replace(b"o.test", b"h%05d.t" % (count - 1))
        same("the last", user.ask(last).body, b"the")
        before = processor_time(proxy)
        for _ in range(2000):
            user.ask(last)
        used.append(processor_time(proxy) - before)
        user.close()
        same("audit", proxy.stop(), IDLE)
    print("      2,000 requests took %.2f s of a processor with 2 names, %.2f s with 30,000" % tuple(used))
    same("as fast", used[1] <= 2 * used[0] + 0.1, True)


def begun(port, part):
    """A user who has sent a part of a request. None where it was closed before."""
    try:
        user = User(port)
        user.send(part)
        return user
    except OSError:
        return None


def word_of(user, rest):
    """The status that the user gets once it has sent the rest, or that it was closed."""
    if user is None:
        return "closed"
    try:
        return user.ask(rest).status
    except (Closed, OSError, ValueError):
        return "closed"
    finally:
        user.close()


@case
def want_of_memory_ends_no_thread(bench):
    """No memory is found for a while, at once or in the midst of exchanges: who comes gets 503 or is closed, and it goes on."""
    origin = bench.origin()
    services = [("respmod", bench.icapd("max = 128"), "/respmod/pass", 128)]
    proxy = bench.proxy(origin, "shards = 2\nrows = 400\nallow_limit = 0", services)
    same("before it", ask(proxy.port, get("/bytes/3")).body, b"the")

    def one(number):
        for turn in range(4):
            request = get("/chunked/%d" % (20000 * ((number + turn) % 8)))
            user = begun(proxy.port, request[:9])
            # so that all have unfinished heads at once, whose room nobody gives back
            together.wait(30)
            word = word_of(user, request[9:])
            with lock:
                found[word] = found.get(word, 0) + 1
    lock, together, refused = threading.Lock(), threading.Barrier(100), 0
    for pages in (0, 8, 32, 128):
        found = {}
        lent(proxy, 4096 * pages)
        at_once(100, one)
        lent(proxy, None)
        print("      with %d pages more: %s" % (pages, found))
        refused += sum(found.values()) - found.get(200, 0)
        same("it goes on", proxy.process.poll(), None)
        same("statuses", set(found) <= {200, 503, "closed"}, True)
        same("book", settled(proxy)[:24], "rows 0 held 0 claimed 0 ")
        same("after it", ask(proxy.port, get("/chunked/100000")).body, body_of(100000))
    same("memory was short", refused > 0, True)
    same("audit", proxy.stop(), IDLE)


def outcome_of(user, wanted):
    """What a user gets, in a word: the whole answer (its body, or all of it), the refusal, or an answer that is cut after its head."""
    text = user.reader.to_end()
    head, _, rest = text.partition(b"\r\n\r\n")
    if text in (wanted, refusal(503)):
        return "whole" if text == wanted else "503"
    if head.startswith(b"HTTP/1.1 200 ") and rest == wanted:
        return "whole"
    return "cut" if head.startswith(b"HTTP/1.1 200 ") and wanted.startswith(rest) else repr(text[:100])


def outcome_but(refusals, calls, proxy, request, wanted):
    """What a user gets where the call for memory after so many ones is refused, counted from its request on, which lies there whole
    when it is read. The user has its seat by then."""
    user, asked = User(proxy.port), -1
    comes("a seat", lambda: stats(proxy)["adaptproxy_users"] == 1)
    while asked != refusals.asked():
        asked = refusals.asked()
        time.sleep(0.02)
    proxy.halt()
    refusals.next_but(calls)
    user.send(request)
    proxy.go_on()
    outcome = outcome_of(user, wanted)
    refusals.none()
    user.close()
    return outcome


@case
def each_call_for_memory_may_be_refused(bench):
    """Of each kind of exchange each call for memory is refused in its turn: the user gets the answer, the proxy's 503, or a beginning
    of the answer. No thread ends, and nothing is held after it."""
    needs("a C compiler", compiler())
    origin, refusals = bench.origin(), bench.keep(Refusals())
    service = bench.icap(options=[b"Options-TTL: 0", b"Preview: 4", b"Transfer-Preview: *"])
    respmod, reqmod = [("respmod", service.port, "/respmod/x")], [("reqmod", service.port, "/reqmod/x")]
    ends = "Connection: close\r\n"
    rows = [("bulk", [], get("/close/400000", ends, version="1.0"), body_of(400000)), ("plain", [], get("/bytes/300", ends), body_of(300)),
            ("REQMOD", reqmod, post("/echo", body_of(3000), ends), body_of(3000)),
            ("RESPMOD", respmod, get("/bytes/30000", ends), body_of(30000)), ("both", reqmod + respmod, post("/echo", b"abc", ends), b"abc"),
            ("much after a fault", [], b"what is this\r\n\r\n" + bytes(300000), refusal(400))]
    for word, services, request, wanted in rows:
        proxy = bench.proxy(origin, "shards = 1", services, logged=False, before=refusals.before)
        usual = ask(proxy.port, request).status
        same("before it", usual, 400 if wanted == refusal(400) else 200)
        found, at, beyond = {}, 0, 0
        while beyond < 5:
            before = refusals.refused()
            outcome = outcome_but(refusals, at, proxy, request, wanted)
            found[outcome] = found.get(outcome, 0) + 1
            beyond = 0 if refusals.refused() > before else beyond + 1
            at += 1
            same("it goes on after call %d of %s" % (at, word), proxy.process.poll(), None)
        print("      %s: of %d calls: %s" % (word, at - 5, found))
        same(word, (set(found) <= {"whole", "503", "cut"}, found.get("503", 0) > 0), (True, True))
        same("book", settled(proxy)[:24], "rows 0 held 0 claimed 0 ")
        same("after it", ask(proxy.port, request).status, usual)
        same("audit", proxy.stop(), IDLE)


@case
def a_loop_needs_no_memory_to_go_on(bench):
    """Users that were refused send so much that their turns are cut short: that takes no memory, and there is none."""
    needs("a C compiler", compiler())
    refusals = bench.keep(Refusals())
    proxy = bench.proxy(bench.origin(), "shards = 1", logged=False, before=refusals.before)
    users = [User(proxy.port) for _ in range(16)]
    for user in users:
        user.send(b"what is this\r\n\r\n")
        same("refused", user.answer().status, 400)
    time.sleep(0.1)
    before = refusals.asked()
    refusals.one_of(1)

    def one(number):
        try:
            users[number].send(bytes(32 << 20))
        except OSError:
            pass  # That is seen below.
    at_once(4, one)
    refusals.none()
    print("      %d calls for memory in turns over 128 MiB" % (refusals.asked() - before))
    same("it goes on", (proxy.process.poll(), refusals.asked() - before), (None, 0))
    same("after it", ask(proxy.port, get("/bytes/3")).body, b"the")
    for user in users:
        user.close()
    same("audit", proxy.stop(), IDLE)


@case
def refused_memory_ends_no_thread(bench):
    """Sixty-four users ask for answers that take many turns, while one of so many calls for memory is refused, and then each one."""
    needs("a C compiler", compiler())
    origin, refusals = bench.origin(), bench.keep(Refusals())
    service = bench.icap(options=[b"Options-TTL: 0", b"Preview: 4", b"Transfer-Preview: *"])
    proxy = bench.proxy(origin, "shards = 2", [("respmod", service.port, "/respmod/x", 64)], logged=False, before=refusals.before)
    same("before it", ask(proxy.port, get("/bytes/3")).body, b"the")

    def one(number):
        for _ in range(4):
            try:
                user = User(proxy.port)
                size = 3 + number % 4 * 300000
                user.send(get("/close/%d" % size, "Connection: close\r\n", version="1.0"))
                word = outcome_of(user, body_of(size))
                user.close()
            except OSError:
                word = "closed"
            with lock:
                found[word] = found.get(word, 0) + 1
    lock = threading.Lock()
    for one_of in (500, 50, 5, 1):
        found, before = {}, refusals.refused()
        refusals.one_of(one_of)
        at_once(64, one)
        refusals.none()
        print("      one of %d refused, %d in all: %s" % (one_of, refusals.refused() - before, found))
        same("it goes on", proxy.process.poll(), None)
        same("answers", set(found) <= {"whole", "503", "cut", "closed", "b''"}, True)
        same("refused", refusals.refused() > before, True)
        same("book", settled(proxy)[:24], "rows 0 held 0 claimed 0 ")
        same("after it", ask(proxy.port, get("/chunked/100000")).body, body_of(100000))
    same("audit", proxy.stop(), IDLE)
