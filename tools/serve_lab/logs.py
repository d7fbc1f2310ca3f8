"""Cases of tools/try_serve: what becomes of lines when nobody takes them, and of messages whose user has gone."""
import os
import subprocess
import tempfile
import threading
import time

from serve_lab.cases import IDLE, Oversleeping, ahead, at_once, case, comes, get, needs, needs_tools, post, same, settled
from serve_lab.lines import LINE
from serve_lab.loopback import Icap, Reader, Server, User, ask, body_of, fields_of, free_port
from serve_lab.operators import Log, stats, told

# A target that fills a line: 2,048 bytes of it are written.
LONG = "/bytes/3/" + "y" * 2100
LOST = "adaptproxy_log_lines_lost_total"


def until_lines_are_lost(proxy, most=8000):
    """How many exchanges there were, once lines are lost."""
    user = User(proxy.port)
    for number in range(1, most + 1):
        same("served %d" % number, user.ask(get(LONG)).body, b"the")
        if number % 50 == 0 and stats(proxy)[LOST] > 0:
            user.close()
            return number
    raise AssertionError("no line is lost")


@case
def a_pipe_that_nobody_reads_keeps_nobody_waiting(bench):
    with tempfile.TemporaryDirectory() as folder:
        path = os.path.join(folder, "log.pipe")
        os.mkfifo(path)
        proxy = bench.proxy(bench.origin(), 'log = "%s"\nshards = 1\n' % path)
        count = until_lines_are_lost(proxy)
        begun = time.time()
        same("book", settled(proxy).split()[:2], ["rows", "0"])
        same("reopen", proxy.say("reopen"), "ok")
        same("at once", time.time() - begun < 1, True)
        taken = bytearray()

        def reads():
            with open(path, "rb", buffering=0) as pipe:
                while piece := pipe.read(65536):
                    taken.extend(piece)
        reader = threading.Thread(target=reads)
        reader.start()
        # A pipe takes 64 KB at a time, and 8 MB wait.
        comes("what waits", lambda: bytes(taken[-1:]) == b"\n" and taken.count(b"\n") + stats(proxy)[LOST] == count, 40)
        ask(proxy.port, get("/bytes/5"))
        time.sleep(1)
        lost = stats(proxy)[LOST]
        same("audit", proxy.stop(), IDLE)
        reader.join()
        lines = bytes(taken).split(b"\n")
        same("the last line's end", lines.pop(), b"")
        whole = [line for line in lines if LINE.fullmatch(line.decode("ascii"))]
        same("each is whole", [line for line in lines if line not in whole], [])
        same("written and lost", len(whole) + lost, count + 1)
        same("it goes on", lines[-1].count(b"bytes/5"), 1)
        print("      %d lines, %d of them lost" % (count + 1, lost))


@case
def a_stop_waits_for_no_reader(bench):
    with tempfile.TemporaryDirectory() as folder:
        path = os.path.join(folder, "log.pipe")
        os.mkfifo(path)
        proxy = bench.proxy(bench.origin(), 'log = "%s"\nshards = 1\n' % path)
        until_lines_are_lost(proxy)
        begun, others = time.time(), Oversleeping()
        same("audit", proxy.stop(), IDLE)
        seconds, most = time.time() - begun, others.end()
        same("at once, after %.2f s" % seconds, seconds < 2 + 3 * most, True)


@case
def a_full_disk_keeps_lines_until_it_has_room(bench):
    needs("root", os.geteuid() == 0)
    needs_tools("mount", "umount")
    with tempfile.TemporaryDirectory() as folder:
        mount = subprocess.run(["mount", "-t", "tmpfs", "-o", "size=16k", "tmpfs", folder], stderr=subprocess.DEVNULL)
        needs("a tmpfs that may be mounted", mount.returncode == 0)
        try:
            path = os.path.join(folder, "access.log")
            proxy = bench.proxy(bench.origin(), 'log = "%s"\nshards = 1\n' % path)
            count = until_lines_are_lost(proxy)
            same("full", os.path.getsize(path), 16384)
            subprocess.run(["mount", "-o", "remount,size=64m", folder], check=True)
            time.sleep(0.3)
            ask(proxy.port, get("/bytes/5"))
            lost = stats(proxy)[LOST]
            same("audit", proxy.stop(), IDLE)
            with open(path, "rb") as text:
                lines = text.read().split(b"\n")
            same("the last line's end", lines.pop(), b"")
            same("each is whole", [line for line in lines if not LINE.fullmatch(line.decode("ascii"))], [])
            same("written and lost", len(lines) + lost, count + 1)
            same("in their order", [float(line.split()[0]) for line in lines], sorted(float(line.split()[0]) for line in lines))
        finally:
            subprocess.run(["umount", "-l", folder], check=False)


def goes_on(_conn, reader, head, _count):
    """The rest of the message is asked for, and then the service is silent."""
    heads = int(head.split(b"-body=")[1].split(b"\r\n")[0])
    reader.exactly(heads)
    reader.chunked()
    _conn.sendall(b"ICAP/1.0 100 Continue\r\n\r\n")
    time.sleep(5)
    return False


def breaks_and_halts(conn, reader, head, _count):
    """Another message, of which a part comes."""
    Icap.rest(reader, head)
    text = b"HTTP/1.1 200 Fine\r\nContent-Length: 5000\r\n\r\n"
    conn.sendall(b"ICAP/1.0 200 OK\r\nISTag: \"t-1\"\r\nEncapsulated: res-hdr=0, res-body=%d\r\n\r\n" % len(text) + text
                 + b"3e8\r\n" + body_of(1000) + b"\r\n")
    time.sleep(5)
    return False


@case
def a_message_whose_user_has_gone_is_in_its_line(bench):
    log = bench.keep(Log())
    service = bench.icap(goes_on, options=(b"Preview: 4", b"Transfer-Preview: *"))
    proxy = bench.proxy(bench.origin(), log.key, [("reqmod", service.port, "/reqmod")])
    user = User(proxy.port)
    user.send(post("/echo", body_of(100)))
    comes("the request", lambda: service.requests)
    time.sleep(0.3)
    user.reset()
    row = told(log.next()[0])
    same("asked for more", (row[0], row[1], row[5], row[6], row[7]), ("MISS", 499, "100+-", "-", "user-gone"))
    found = stats(proxy)
    same("counted", (found['adaptproxy_messages_total{point="reqmod",outcome="failed"}'], found["adaptproxy_requests_total"]), (1, 1))
    same("audit", proxy.stop(), IDLE)

    service = bench.icap(breaks_and_halts)
    proxy = bench.proxy(bench.origin(), log.key, [("respmod", service.port, "/respmod")])
    user = User(proxy.port)
    user.send(get("/bytes/3000"))
    same("a part", user.reader.until(b"\r\n\r\n")[:12], b"HTTP/1.1 200")
    user.reset()
    row = told(log.next()[0])
    same("replaced", (row[5], row[6], row[7]), ("plain", "200", "user-gone"))
    found = stats(proxy)
    same("counted", [found['adaptproxy_messages_total{point="%s",outcome="%s"}' % words] for words in (
        ("reqmod", "plain"), ("respmod", "200"), ("respmod", "failed"))], [1, 1, 0])
    same("audit", proxy.stop(), IDLE)


@case
def what_a_service_said_is_in_the_line(bench):
    """Sent anew, asked for more than the preview, and the reply; and the media type of the answer."""
    def page(conn, _number):
        reader = Reader(conn)
        while True:
            reader.head()
            conn.sendall(b"HTTP/1.1 200 OK\r\nContent-Type: text/html; charset=utf-8\r\nContent-Length: 100\r\n\r\n" + body_of(100))

    def reply(conn, reader, head, count):
        heads, body, _last = Icap.rest(reader, head)
        if count == 2:
            return False
        if count == 4:
            conn.sendall(b"ICAP/1.0 100 Continue\r\n\r\n")
            body += reader.chunked()[0]
        if count in (1, 3):
            conn.sendall(Icap.NO_MODIFICATION)
        else:
            Icap.same(conn, fields_of(head), heads, body, b"0")
        return True
    log = bench.keep(Log())
    service = bench.icap(reply, options=(b"Preview: 4", b"Transfer-Preview: *"))
    proxy = bench.proxy(bench.keep(Server(page)), log.key + "shards = 1\n", [("respmod", service.port, "/respmod")])
    for wanted in ("204", "retry+204", "100+200"):
        same(wanted, ask(proxy.port, get("/page")).body, body_of(100))
        row = log.next()[0]
        same(wanted, (row[4], row[9], row[10], row[11], row[12]), ("200", "text/html", "plain", wanted, "-"))
    found = stats(proxy)
    same("counted", [found["adaptproxy_retries_total"]] + [found['adaptproxy_messages_total{point="respmod",outcome="%s"}' % word]
                                                           for word in ("204", "200", "failed")], [1, 2, 1, 0])
    same("audit", proxy.stop(), IDLE)


@case
def a_status_has_three_digits_and_a_class(bench):
    """Statuses of no class of HTTP's (RFC 9110, section 15) are counted as another one."""
    def odd(conn, _number):
        reader = Reader(conn)
        while True:
            status = reader.head().split(b" ")[1].rsplit(b"/", 1)[1]
            conn.sendall(b"HTTP/1.1 %s Odd\r\nContent-Length: 0\r\n\r\n" % status)
    log = bench.keep(Log())
    proxy = bench.proxy(bench.keep(Server(odd)), log.key)
    wanted = {"1xx": 0, "2xx": 1, "3xx": 0, "4xx": 0, "5xx": 0, "other": 0}
    for status in ("007", "099", "600", "999", "200"):
        answer = ask(proxy.port, get("/" + status))
        row = log.next()[0]
        same("status " + status, (row[4], "%03d" % answer.status), (status, status) if answer.status != 502 else ("502", "502"))
        if answer.status == 502:
            wanted["5xx"] += 1
        elif status != "200":
            wanted["other"] += 1
    found = stats(proxy)
    same("classes", {name: found['adaptproxy_answers_total{class="%s"}' % name] for name in wanted}, wanted)
    same("all of them", (sum(wanted.values()), wanted["other"] > 0), (found["adaptproxy_requests_total"], True))
    same("audit", proxy.stop(), IDLE)


def page(conn, extra, count, status=b"403 Forbidden"):
    """A page in place of the message, with these fields in its ICAP head."""
    text, body = b"HTTP/1.1 %s\r\nContent-Type: text/html\r\nContent-Length: %d\r\n\r\n" % (status, count), body_of(count)
    conn.sendall(b"ICAP/1.0 200 OK\r\nISTag: \"t-1\"\r\n%sEncapsulated: res-hdr=0, res-body=%d\r\n\r\n" % (extra, len(text)) + text
                 + b"%x\r\n%s\r\n0\r\n\r\n" % (count, body))


@case
def a_request_that_a_service_blocks_went_to_no_origin(bench):
    """And the bytes of the request's body that came, also of one of which only a part did."""
    def blocks(conn, reader, head, _count):
        Icap.rest(reader, head)
        page(conn, b"", 100)
    origin, log = bench.origin(), bench.keep(Log())
    service = bench.icap(blocks, options=(b"Preview: 4", b"Transfer-Preview: *"))
    for dial, connections in (("first", 3), ("late", 0)):
        proxy = bench.proxy(origin, log.key + 'dial = "%s"\n' % dial, [("reqmod", service.port, "/reqmod")])
        before = origin.count
        for size in (0, 4, 5000):
            user = User(proxy.port)
            user.send(post("/echo", body_of(size)))
            same("blocked", user.answer().status, 403)
            user.close()
            row = log.next()[0]
            same("its line", (told(row), row[9]), (("MISS", 403, "POST", "http://o.test/echo", "NONE", "200", "-", "-"), "text/html"))
            same("in", (int(row[14]) <= size, int(row[14]) >= min(size, 4)), (True, True))
        same("no request", (origin.heads, origin.count - before), ([], connections))
        same("audit", proxy.stop(), IDLE)


@case
def an_origin_that_got_a_byte_is_in_the_line(bench):
    """And one that got none isn't: its connection was refused."""
    log, closed = bench.keep(Log()), free_port()
    for dial in ("first", "late"):
        proxy = bench.proxy(bench.origin(), log.key + 'dial = "%s"\n' % dial)
        ask(proxy.port, get("/bytes/3"))
        same("served", log.next()[0][8], "HIER_DIRECT/127.0.0.1")
        ask(proxy.port, get("/garbage"))
        same("no HTTP", log.next()[0][8], "HIER_DIRECT/127.0.0.1")
        ask(proxy.port, b"GET http://127.0.0.1:%d/ HTTP/1.1\r\nHost: x\r\n\r\n" % closed)
        row = log.next()[0]
        same("refused", (row[8], row[12]), ("HIER_NONE/-", "origin-refused"))
        same("audit", proxy.stop(), IDLE)


@case
def a_refused_head_has_its_method_and_target(bench):
    """Also where the head comes in pieces, and without its query where that is wanted. A head that never ends has no line."""
    log = bench.keep(Log())
    proxy = bench.proxy(bench.origin(), log.key + "deadline = 1\nlog_query = false\n")
    for line, coding, status, method, target in (
            (b"CONNECT o.test:443 HTTP/1.1", b"", 501, "CONNECT", "o.test:443"),
            (b"GET https://o.test/a?b HTTP/1.1", b"", 400, "GET", "https://o.test/a?"),
            (b"GET ftp://o.test/a HTTP/1.1", b"", 400, "GET", "ftp://o.test/a"),
            (b"POST http://o.test/a HTTP/1.1", b"Transfer-Encoding: gzip\r\n", 501, "POST", "http://o.test/a"),
            (b"GET /\"\xff HTTP/1.1", b"Host: p.test\r\n", 400, "GET", "/%22%FF"),
            (b"one", b"", 400, "one", "-"),
            (b"one two three four", b"", 400, "one", "two")):
        text = line + b"\r\nHost: o.test\r\n" + coding + b"\r\n"
        for empty, at in ((b"", 0), (b"", 3), (b"", len(line)), (b"\r\n", 0), (b"\n\n\r\n", 2), (b"", len(line) + 1), (b"", len(text) - 1)):
            user = User(proxy.port)
            user.send((empty + text)[:at])
            time.sleep(0.02)
            user.send((empty + text)[at:])
            answer = user.answer()
            user.close()
            row = log.next()[0]
            same("%s at %d" % (line, at), (row[6], row[7], row[8]), (method, target, "HIER_NONE/-"))
            same("status", (answer.status, row[3], row[4]), (status, "TCP_DENIED", str(status)))
    user = User(proxy.port)
    user.send(b"CONNECT o.test:443")
    same("too late", user.reader.to_end(), b"")
    user.close()
    same("half a head", log.next(0, 0.2), [])
    same("audit", proxy.stop(), IDLE)


@case
def the_line_says_what_a_service_found(bench):
    """The name in X-Infection-Found, or X-Virus-ID, of the request's service or of the response's, also where the field is folded."""
    field = []

    def blocks(conn, reader, head, _count):
        Icap.rest(reader, head)
        page(conn, field[0], 100)
    log, service = bench.keep(Log()), bench.icap(blocks)
    for point in ("reqmod", "respmod"):
        proxy = bench.proxy(bench.origin(), log.key, [(point, service.port, "/" + point)])
        for text, wanted in (
                (b"X-Infection-Found: Type=0; Resolution=2; Threat=Eicar;\r\n", "Eicar"),
                (b"X-Virus-ID: Some Virus\r\n", "Some%20Virus"),
                (b"X-Virus-ID: B\r\nx-infection-found: Type=0;\r\n\tThreat=A\r\n", "A"),
                (b"X-Infection-Found: what is it\r\n", "-"), (b"X-Infection-Found: Type=2; Threat=\r\n", "-"),
                (b"X-Infection-Found: Type=2; Resolution=0;\r\nX-Virus-ID: Real.Name\r\n", "Real.Name"),
                (b"X-Infection-Found:\r\nX-Virus-ID: C\r\n", "C"), (b"X-Virus-ID: D\r\nX-Infection-Found: THREAT = E\r\n", "D"),
                (b"X-Virus-ID: " + b"v" * 300 + b"\r\n", "v" * 128),
                (b"X-Virus-ID:\r\n", "-"), (b"X-Violations-Found: 1\r\n\tC\r\n", "-"), (b"", "-")):
            field[:] = [text]
            same("blocked", ask(proxy.port, get("/bytes/3")).status, 403)
            same("%s at %s" % (text, point), log.next()[0][13], wanted)
        same("audit", proxy.stop(), IDLE)


@case
def no_line_of_a_fast_thread_is_lost(bench):
    """A thread whose room is half full has its lines written at once. Each line takes 6 KB here, so half of the room is full after some
    20 ms. A machine with much else to do may let the writer wait for its processor longer: so this goes before all else where it may,
    and it is tried again. Where lines were written every 50 ms alone, some would be lost each time."""
    users, count = 8, 1500
    service, text, found = bench.icapd("max = 64"), get("/" + '"' * 2040) * count, []

    def asks(port):
        user = User(port)
        sends = threading.Thread(target=user.send, args=(text,))
        sends.start()
        same("blocked", sum(user.answer().status == 403 for _ in range(count)), count)
        sends.join()
        user.close()
    while len(found) < 5 and 0 not in found:
        log = bench.keep(Log())
        with ahead():
            proxy = bench.proxy(bench.origin(), log.key + "shards = 1\n", [("reqmod", service, "/reqmod/block")])
            begun = time.time()
            at_once(users, lambda _number: asks(proxy.port))
            rate = users * count / (time.time() - begun)
        numbers = stats(proxy)
        same("requests", numbers["adaptproxy_requests_total"], users * count)
        found.append(numbers[LOST])
        same("audit", proxy.stop(), IDLE)
        os.remove(log.path)
        print("      %d requests/s; %d lines lost" % (rate, found[-1]))
    same("lost", found[-1], 0)


@case
def the_bytes_of_a_body_are_in_the_line(bench):
    log = bench.keep(Log())
    proxy = bench.proxy(bench.origin(), log.key)
    user = User(proxy.port)
    for size in (0, 1, 70000):
        same("echo", user.ask(post("/echo", body_of(size))).body, body_of(size))
        same("in", log.next()[0][14], str(size))
    user.ask(get("/bytes/3"))
    same("none", log.next()[0][14], "0")
    user.close()
    same("audit", proxy.stop(), IDLE)


@case
def a_log_without_queries_says_no_secret(bench):
    """`log_query = false` cuts a target after its question mark."""
    for key, wanted in (("", "?secret=1"), ("log_query = true\n", "?secret=1"), ("log_query = false\n", "?")):
        log = bench.keep(Log())
        proxy = bench.proxy(bench.origin(), log.key + key)
        ask(proxy.port, get("/bytes/3?secret=1"))
        same("served", log.next()[0][7], "http://o.test/bytes/3" + wanted)
        ask(proxy.port, get("/bytes/3"))
        same("without", log.next()[0][7], "http://o.test/bytes/3")
        same("audit", proxy.stop(), IDLE)


@case
def a_quote_and_its_escape_differ_in_the_line(bench):
    log = bench.keep(Log())
    proxy = bench.proxy(bench.origin(), log.key)
    for text, wanted in ((b'/"', "/%22"), (b"/%22", "/%2522"), (b"/%2522", "/%252522")):
        ask(proxy.port, b"GET http://o.test" + text + b" HTTP/1.1\r\nHost: o.test\r\n\r\n")
        same("target", log.next()[0][7], "http://o.test" + wanted)
    same("audit", proxy.stop(), IDLE)


@case
def a_service_that_hangs_before_its_options_has_failed(bench):
    """Each message that it kept from its final reply counts, at its point."""
    closed = free_port()
    silent = bench.icap(answer_options=False)
    for point in ("reqmod", "respmod"):
        for port, why in ((silent.port, "service-deadline"), (closed, "service-refused")):
            proxy = bench.proxy(bench.origin(), "deadline = 1\n", [(point, port, "/" + point)])
            ask(proxy.port, get("/bytes/3"))
            comes("its end", lambda: stats(proxy)["adaptproxy_requests_total"] == 1)
            found = stats(proxy)
            same("%s at %s" % (why, point), [
                found['adaptproxy_messages_total{point="%s",outcome="failed"}' % point],
                found['adaptproxy_refusals_total{point="%s",why="%s"}' % (point, why)],
                sum(number for name, number in found.items() if name.startswith("adaptproxy_refusals_total"))], [1, 1, 1])
            same("audit", proxy.stop(), IDLE)


@case
def failures_have_a_point_and_a_reason(bench):
    """An answer that breaks off, and users that leave before theirs: no refusal counts."""
    origin = bench.origin()
    proxy = bench.proxy(origin, "")
    user = User(proxy.port)
    user.send(get("/cut/100000"))
    user.reader.to_end()
    user.close()
    gone = User(proxy.port)
    gone.send(get("/mute"))
    comes("the exchange", lambda: len(origin.heads) == 2)
    gone.reset()
    comes("both ends", lambda: stats(proxy)["adaptproxy_requests_total"] == 2)
    found = stats(proxy)
    same("counted", {name: number for name, number in found.items() if number and name.startswith(("adaptproxy_failures", "adaptproxy_refusals"))},
         {'adaptproxy_failures_total{point="respmod",why="origin-broken"}': 1, 'adaptproxy_failures_total{point="respmod",why="user-gone"}': 1})
    same("audit", proxy.stop(), IDLE)


@case
def the_histogram_counts_how_long_exchanges_took(bench):
    def slow(conn, _number):
        reader = Reader(conn)
        while True:
            time.sleep(float(reader.head().split(b" ")[1].rsplit(b"/", 1)[1]))
            conn.sendall(b"HTTP/1.1 200 OK\r\nContent-Length: 2\r\n\r\nok")
    proxy = bench.proxy(bench.keep(Server(slow)))
    user = User(proxy.port)
    for seconds in ("0", "0.3", "1.2"):
        same("served", user.ask(get("/" + seconds)).body, b"ok")
    same("refused", ask(proxy.port, b"what\r\n\r\n").status, 400)
    comes("all", lambda: stats(proxy)["adaptproxy_requests_total"] == 4)
    found = stats(proxy)
    bounds = [(float(name.split('"')[1]), number) for name, number in found.items() if name.startswith("adaptproxy_exchange_seconds_bucket")]
    same("bounds", [bound for bound, _ in bounds], [.005, .01, .025, .05, .1, .25, .5, 1, 2.5, 5, 10, float("inf")])
    same("they rise", [number for _, number in bounds], sorted(number for _, number in bounds))
    count = dict(bounds)
    same("counted", (count[.25], count[.5] in (2, 3), count[1], count[2.5], count[float("inf")]), (2, True, 3, 4, 4))
    same("all of them", found["adaptproxy_exchange_seconds_count"], 4)
    same("seconds", 1.5 <= found["adaptproxy_exchange_seconds_sum"] < 3, True)
    user.close()
    same("audit", proxy.stop(), IDLE)
