"""The proxy's own addresses, the commands beside `serve`, and how icapd gives its connections away."""
import os
import re
import shutil
import socket
import subprocess
import tempfile
import threading
import time

from serve_lab.cases import ADAPTPROXY, ICAPD, IDLE, case, get, is_refused, same
from serve_lab.loopback import TOP, Program, Reader, User, ask, free_port


@case
def no_target_is_the_proxy_itself(bench):
    """Neither the administrator's port nor the users' is dialled, by whatever name: 502. All others are."""
    origin = bench.origin()
    hosts = '"me.test" = "127.0.0.1:1"\n"zero.test" = "0.0.0.0:1"\n"near.test" = "127.9.8.7:1"'
    proxy = bench.proxy(origin, "", hosts=hosts)
    for port in (proxy.admin, proxy.port):
        for host in ("127.0.0.1", "0.0.0.0", "127.1.2.3", "me.test", "ZERO.test", "near.test"):
            target = "http://%s:%d/" % (host, port)
            request = "POST %s HTTP/1.1\r\nHost: x\r\nContent-Length: 5\r\n\r\nstop\n" % target
            is_refused(target, proxy.port, request.encode(), 502)
        # Other spellings of the address, as some resolvers take them, are names that nobody knows.
        for host in ("127.1", "2130706433", "0x7f000001", "0x7f.0.0.1", "0177.0.0.1", "127.000.000.001", "127.0.0.1.", "localhost", "0",
                     "[::1]", "[::ffff:127.0.0.1]", "[::]", "[127.0.0.1]", "255.255.255.255"):
            request = "POST http://%s:%d/ HTTP/1.1\r\nHost: x\r\nContent-Length: 5\r\n\r\nstop\n" % (host, port)
            is_refused(host, proxy.port, request.encode(), 502)
    port, admin = free_port(), free_port()
    everywhere = bench.keep(Program(ADAPTPROXY, 'listen = "127.0.0.1:%d"\nadmin = "0.0.0.0:%d"\n[hosts]\n"a.test" = "127.0.0.1:%d"\n'
                                    '"o.test" = "127.0.0.1:%d"\n' % (port, admin, admin, origin.port)))
    same("an administrator's port on each address", everywhere.first, b"listening\n")
    for target in ("a.test", "127.0.0.1:%d" % admin, "127.3.2.1:%d" % admin, "0.0.0.0:%d" % admin):
        request = "POST http://%s/ HTTP/1.1\r\nHost: x\r\nContent-Length: 5\r\n\r\nstop\n" % target
        is_refused(target, port, request.encode(), 502)
    for port in (proxy.port, port):
        same("an origin", ask(port, get("/bytes/3")).body, b"the")
        literal = b"GET http://127.0.0.1:%d/bytes/4 HTTP/1.1\r\nHost: x\r\n\r\n" % origin.port
        same("an origin by its address", ask(port, literal).body, b"the ")
    same("audit", proxy.stop(), IDLE)


@case
def a_line_of_http_ends_its_admin_connection(bench):
    """What a page has a browser say to the administrator's port is bad, and nothing after its first line is read."""
    origin = bench.origin()
    proxy = bench.proxy(origin)
    for first in (b"POST / HTTP/1.1\r\n", b"GET / HTTP/1.1\r\n", b"M-SEARCH * HTTP/1.1\r\n", b"hoST: 127.0.0.1\r\n"):
        with socket.create_connection(("127.0.0.1", proxy.admin), 5) as sock:
            sock.sendall(first + b"Content-Length: 5\r\n\r\nstop\n")
            same(first, Reader(sock).to_end(), b"bad\n")
    same("others stay", proxy.say("Book", "book now", "POST", " GET /", "host", "book"),
         ["bad"] * 5 + ["rows 0 held 0 claimed 0 capacity 16777216"])
    same("audit", proxy.stop(), IDLE)


def run(program, word, text=""):
    """Standard output, standard error and the status of a command, whose further words stand after a space each."""
    ended = subprocess.run([program] + word.split(" "), input=text.encode(), stdout=subprocess.PIPE, stderr=subprocess.PIPE, timeout=20)
    return ended.stdout, ended.stderr, ended.returncode


@case
def configurations_are_checked_without_a_port(bench):
    origin = bench.origin()
    taken = 'listen = "127.0.0.1:%d"\n' % origin.port
    least = taken + 'admin = "127.0.0.1:%d"\nrows = 4\n' % free_port()
    rows = [(ADAPTPROXY, "adaptproxy", least, "config shards", "shards = 0"), (ADAPTPROXY, "adaptproxy", least, "config", "x"),
            (ADAPTPROXY, "adaptproxy", least, "config wait", "wait = -1"), (ADAPTPROXY, "adaptproxy", least, "config wait", "wait = 3601"),
            (ADAPTPROXY, "adaptproxy", least, "config retry", "retry = 1\nwait = -1"),
            (ADAPTPROXY, "adaptproxy", least, "config wait", 'wait = 1.0\nlog = ""'), (ADAPTPROXY, "adaptproxy", least, "config log", 'log = ""'),
            (ADAPTPROXY, "adaptproxy", least, "config log", 'log = "a\\u0000b"'), (ADAPTPROXY, "adaptproxy", least, "config log", "log = true"),
            (ADAPTPROXY, "adaptproxy", least, "config log", 'log = "%s"\nhosts = 1' % ("x" * 4097)),
            (ICAPD, "icapd", taken, "config deadline", "deadline = 0"), (ICAPD, "icapd", taken, "config deadline", "deadline = 3601"),
            (ICAPD, "icapd", taken, "config preview", "preview = -1\ndeadline = 0")]
    for program, name, front, error, line in rows:
        wanted = (b"", ("%s: %s\n" % (name, error)).encode(), 2)
        same(line, run(program, "serve", front + line), wanted)
        out, errors, status = run(program, "check", front + line)
        same(line, (out, errors.splitlines(True)[:1], status), (b"", [wanted[1]], 2))
    longest = 'wait = 3600\nlog = "%s"\n' % ("x" * 4096)
    same("the longest path", run(ADAPTPROXY, "check", least + longest), (b"ok\n", b"", 0))
    for program, front in ((ADAPTPROXY, least), (ICAPD, taken)):
        same("ok", run(program, "check", front), (b"ok\n", b"", 0))
        wanted = b"icapd: cannot listen\n" if program == ICAPD else b"adaptproxy: cannot listen: 127.0.0.1:%d\n" % origin.port
        same("cannot listen", run(program, "serve", front)[1:], (wanted, 1))
    taken = 'listen = "127.0.0.1:%d"\nadmin = "127.0.0.1:%d"\n' % (free_port(), origin.port)
    same("the administrator's", run(ADAPTPROXY, "serve", taken)[1], b"adaptproxy: cannot listen: 127.0.0.1:%d\n" % origin.port)
    few = subprocess.run(["prlimit", "--nofile=100", ADAPTPROXY, "check"], input=least.replace("rows = 4", "rows = 40").encode(),
                         stdout=subprocess.PIPE, stderr=subprocess.PIPE, timeout=20)
    same("a warning", (few.stdout, few.stderr, few.returncode),
         (b"ok\n", b"adaptproxy: 303 descriptors may be needed, and the limit is 100\n", 0))


LEAST = 'listen = "127.0.0.1:1"\nadmin = "127.0.0.1:2"\n'


@case
def a_check_says_where_and_what(bench):
    rows = [("shards = 65", "shards: 1 to 64 threads (default 2)"), ("shard = 2", "shard: there is no such key"),
            ('[hosts]\no.test = "127.0.0.1:80"', 'hosts.o: an IPv4 address and a port, as "192.0.2.1:80", for a name in quotation marks'
             ' that stands once in any case of letters'),
            ('[reqmod]\nhost = "::1"', 'reqmod.host: an IPv4 address, as "127.0.0.1"')]
    for text, words in rows:
        key = words[:words.index(":")]
        wanted = (b"", ("adaptproxy: config %s\nadaptproxy: %s\n" % (key, words)).encode(), 2)
        same(text, run(ADAPTPROXY, "check", LEAST + text), wanted)
    out, errors, status = run(ADAPTPROXY, "check", LEAST + "rows = 4\nrows = 5\n")
    same("no document", (out, errors.splitlines()[:2], status),
         (b"", [b"adaptproxy: config", b"adaptproxy: TOML parse error at line 4, column 1"], 2))
    hosts = "".join('"%s" = "127.0.0.1:80"\n' % name for name in ("*.test", "", "o test", "o.test:8080", "o.test", "192.0.2.7"))
    wanted = "".join('adaptproxy: hosts: no request is for "%s"\n' % name for name in ("", "*.test", "192.0.2.7", "o test", "o.test:8080"))
    same("hosts", run(ADAPTPROXY, "check", LEAST + "[hosts]\n" + hosts), (b"ok\n", wanted.encode(), 0))
    for port in ("127.0.0.1:1", "0.0.0.0:1"):
        text = 'listen = "127.0.0.1:1"\nadmin = "%s"\n' % port
        same("one port", run(ADAPTPROXY, "serve", text), (b"", b"adaptproxy: config admin\n", 2))
    same("of the counters", run(ADAPTPROXY, "serve", LEAST + 'metrics = "127.0.0.1:2"\n'), (b"", b"adaptproxy: config metrics\n", 2))


@case
def more_memory_than_the_machine_has_ends_it_before_it_listens(bench):
    text = 'listen = "127.0.0.1:%d"\nadmin = "127.0.0.1:%d"\ncapacity = 1099511627776\n' % (free_port(), free_port())
    with open("/proc/meminfo") as lines:
        total = int(lines.readline().split()[1]) * 1024
    same("serve", run(ADAPTPROXY, "serve", text), (b"", b"adaptproxy: out of memory\n", 1))
    warning = "adaptproxy: 1099515822080 bytes are needed for capacity and rows, and the machine has %d\n" % total
    same("check", run(ADAPTPROXY, "check", text), (b"ok\n", warning.encode(), 0))


@case
def twenty_thousand_hosts_are_read_at_once(bench):
    """The processor time of 20,000 hosts is no more than eight times that of 5,000: a quadratic reading takes sixteen. Of a program
    without checks at run time it is less than a second."""
    def seconds(count):
        text = LEAST + "[hosts]\n" + "".join('"h%d.test" = "127.0.0.1:80"\n' % (n * 7919 % count) for n in range(count))
        before = os.times()
        ended = subprocess.run([ADAPTPROXY, "check"], input=text.encode(), stdout=subprocess.PIPE, timeout=200)
        same("ok", ended.stdout, b"ok\n")
        after = os.times()
        return after.children_user + after.children_system - before.children_user - before.children_system
    few, many = seconds(5000), seconds(20000)
    print("      %.2f s of processor time" % many)
    same("in proportion", many < 8 * few + 0.2, True)
    same("within a second", many < 1 or ADAPTPROXY.endswith(".checked"), True)


def both_configurations():
    """The two columns of the configuration in docs/FROM-SQUID.md: Squid's, and ours."""
    with open(os.path.join(TOP, "docs", "FROM-SQUID.md")) as page:
        lines = re.search(r"^```text\n(# squid.conf .*?)^```", page.read(), re.M | re.S).group(1).splitlines()
    at = lines[0].index("# proxy.toml")
    ours = ["" if line[at - 1:at].strip() else line[at:] for line in lines]
    return ["\n".join(texts) + "\n" for texts in ([line.removesuffix(own) for line, own in zip(lines, ours)], ours)]


@case
def the_page_for_squid_has_a_configuration_for_both(bench):
    """`check` takes ours, and Squid its own where it is installed. The page has what administrators of Squid look for."""
    squids, ours = both_configurations()
    same("ours", run(ADAPTPROXY, "check", ours), (b"ok\n", b"", 0))
    for word in ("wait = ", "dial = ", "deadline = ", "connect_deadline = ", "head_deadline = ", "options_ttl = ", "log_query = "):
        same(word, "\n" + word in ours, True)
    with open(os.path.join(TOP, "docs", "FROM-SQUID.md")) as page:
        text = page.read()
    for word in ("proxy_protocol_access allow balancer", "client_ip_max_connections", "strip_query_terms", "error_directory", "umask"):
        same(word, "`" + word in text, True)
    if shutil.which("squid"):
        with tempfile.NamedTemporaryFile("w", suffix=".conf") as file:
            file.write(squids)
            file.flush()
            ended = subprocess.run(["squid", "-k", "parse", "-f", file.name], stdout=subprocess.PIPE, stderr=subprocess.STDOUT)
        same("Squid's", (ended.returncode, b"ERROR" in ended.stdout), (0, False))


@case
def tell_says_a_line_to_the_admin_port(bench):
    proxy = bench.proxy(bench.origin())
    text = 'listen = "127.0.0.1:1"\nadmin = "127.0.0.1:%d"\n' % proxy.admin
    same("book", run(ADAPTPROXY, "tell book", text), (b"rows 0 held 0 claimed 0 capacity 16777216\n", b"", 0))
    same("capacity", run(ADAPTPROXY, "tell capacity 33554432", text), (b"ok\n", b"", 0))
    same("reopen", run(ADAPTPROXY, "tell reopen", text) in ((b"ok\n", b"", 0), (b"cannot open\n", b"", 1)), True)
    same("bad", run(ADAPTPROXY, "tell Book", text), (b"bad\n", b"", 2))
    out, errors, status = run(ADAPTPROXY, "tell stats", text)
    same("stats", (out[:2], out[-6:], errors, status), (b"# ", b"# EOF\n", b"", 0))
    same("no word", run(ADAPTPROXY, "tell", text), (b"", b"adaptproxy: usage\n", 2))
    same("a fault", run(ADAPTPROXY, "tell book", "x = 1\n"), (b"", b"adaptproxy: config listen\n", 2))
    same("stop", run(ADAPTPROXY, "tell stop", text), (b"", b"", 0))
    same("audit", proxy.ended()[2], 0)
    same("no answer", run(ADAPTPROXY, "tell book", text), (b"", b"adaptproxy: no answer\n", 1))
    with socket.create_server(("127.0.0.1", 0)) as silent:
        text = 'listen = "127.0.0.1:1"\nadmin = "127.0.0.1:%d"\n' % silent.getsockname()[1]
        begun = time.time()
        same("silence", run(ADAPTPROXY, "tell book", text), (b"", b"adaptproxy: no answer\n", 1))
        same("ten seconds", 9 < time.time() - begun < 15, True)


@case
def programs_say_what_they_are(bench):
    kit = subprocess.run(["rt", "version"], stdout=subprocess.PIPE, check=True).stdout.strip()
    for program, name in ((ADAPTPROXY, b"adaptproxy"), (ICAPD, b"icapd")):
        out, errors, status = run(program, "--help")
        # The commands, a line each; what is said of all of them stands below.
        same("help", (all(line.startswith(name + b" ") for line in out.split(b"\n\n")[0].splitlines()), errors, status), (True, b"", 0))
        out, errors, status = run(program, "--version")
        same("version", (out.startswith(name + b" 0."), out.endswith(b"(" + kit + b")\n"), errors, status), (True, True, b"", 0))
        for word in ("help", "-h", "--Help", "Check", ""):
            same(word, run(program, word), (b"", name + b": usage\n", 2))


OPTIONS = b"OPTIONS icap://h/respmod/pass ICAP/1.0\r\nHost: h\r\n\r\n"


def offers(user):
    """Sends OPTIONS, and says after how many seconds they were answered."""
    start = time.time()
    user.send(OPTIONS)
    same("options", user.reader.head()[:15], b"ICAP/1.0 200 OK")
    return time.time() - start


def icapd(bench, extra):
    port = free_port()
    program = bench.keep(Program(ICAPD, 'listen = "127.0.0.1:%d"\n%s\n' % (port, extra)))
    same("icapd", program.first, b"listening\n")
    return port, program


@case
def icapd_serves_whoever_has_something_to_say(bench):
    """Where all connections are taken, one that waits for a request is closed for a further one: that which waits longest."""
    port, _program = icapd(bench, "max = 2")
    first, second = User(port), User(port)
    for user in (first, second, first):
        offers(user)
        # A connection waits from the moment when its thread does, which may come after the answer.
        time.sleep(0.1)
    third = User(port)
    late = offers(third)
    print("      max = 2, two idle: a third is answered after %.3f s" % late)
    same("a third at once", late < 0.5, True)
    same("the second was closed", second.is_ended(), True)
    offers(first)
    third.send(OPTIONS[:20])
    time.sleep(0.3)
    fourth = User(port)
    late = offers(fourth)
    same("a fourth at once, after %.3f s" % late, late < 0.5, True)
    same("the first was closed, and not the third, which is within a request", first.is_ended(), True)
    third.send(OPTIONS[20:])
    same("the third", third.reader.head()[:15], b"ICAP/1.0 200 OK")
    port, _program = icapd(bench, "max = 16")
    silent = [User(port) for _ in range(16)]
    time.sleep(0.1)
    late = offers(User(port))
    print("      max = 16, sixteen silent: a further one is answered after %.3f s" % late)
    same("past sixteen silent ones", late < 1.0, True)
    same("the first of them was closed", silent[0].is_ended(), True)


@case
def icapd_closes_connections_that_say_nothing(bench):
    port, _program = icapd(bench, "deadline = 1")
    start = time.time()
    silent, within, kept = User(port), User(port), User(port)
    within.send(OPTIONS[:20])
    offers(kept)
    for user in (silent, within, kept):
        same("closed", user.is_ended(), True)
    same("not before its deadline, %.2f s" % (time.time() - start), 0.9 < time.time() - start < 3, True)


def drips(user, text, pause):
    """Sends a byte after another, and says after how many seconds the connection was ended; None if all of them were sent."""
    start = time.time()
    for at in range(len(text)):
        try:
            user.send(text[at:at + 1])
        except OSError:
            return time.time() - start
        time.sleep(pause)
    return None


@case
def icapd_ends_a_connection_that_drips_after_an_error(bench):
    """It has the deadline in all after its error answer, and is the first to go where another waits."""
    port, _program = icapd(bench, "deadline = 2")
    user = User(port)
    user.send(b"x\r\n")
    same("the error", user.reader.to_end()[:24], b"ICAP/1.0 400 Bad Request")
    took = drips(user, b"x" * 40, 0.2)
    same("ended after its deadline, after %r s" % took, took is not None and 1.8 < took < 3.5, True)
    port, _program = icapd(bench, "max = 2\ndeadline = 30")
    idle, wrong = User(port), User(port)
    offers(idle)
    wrong.send(b"x\r\n")
    same("the error", wrong.reader.to_end()[:24], b"ICAP/1.0 400 Bad Request")
    dripping = threading.Thread(target=drips, args=(wrong, b"x" * 20, 0.2))
    dripping.start()
    time.sleep(0.5)
    late = offers(User(port))
    print("      max = 2, one dripping after an error: a third is answered after %.3f s" % late)
    same("a third at once", late < 0.5, True)
    offers(idle)
    dripping.join()


@case
def icapd_gives_the_heads_of_a_request_its_deadline(bench):
    """The ICAP head and the encapsulated ones have the deadline in all; a body has it for each piece, and each request anew."""
    port, _program = icapd(bench, "deadline = 2\nmax = 2")
    request = b"GET http://o.test/ HTTP/1.1\r\nHost: o.test\r\n\r\n"
    front = b"REQMOD icap://h/reqmod/block ICAP/1.0\r\nHost: h\r\nEncapsulated: req-hdr=0, %s=%d\r\n\r\n"
    whole = front % (b"null-body", len(request)) + request
    users = [User(port), User(port)]
    users[1].send(whole[:-len(request)])
    took = [None, None]

    def drip(number):
        took[number] = drips(users[number], (whole, request)[number], 0.2)
    dripping = [threading.Thread(target=drip, args=(number,)) for number in range(2)]
    for thread in dripping:
        thread.start()
    time.sleep(0.3)
    late = offers(User(port))
    for thread in dripping:
        thread.join()
    print("      two drip a head at deadline 2: a third is answered after %.3f s" % late)
    same("a third once the first is ended", late < 3.5, True)
    same("each after its deadline, after %r s" % took, all(it is not None and 1.8 < it < 3.5 for it in took), True)
    port, _program = icapd(bench, "deadline = 2")
    slow = User(port)
    slow.send(front % (b"req-body", len(request)) + request)
    same("a body that drips longer", drips(slow, b"c\r\n" + b"x" * 12 + b"\r\n0\r\n\r\n", 0.15), None)
    same("its answer", slow.reader.head()[:15], b"ICAP/1.0 200 OK")
    many, text = User(port), OPTIONS * 4
    for at in range(0, len(text), 20):
        many.send(text[at:at + 20])
        time.sleep(0.3)
    for _ in range(4):
        same("each has its own time", many.reader.head()[:15], b"ICAP/1.0 200 OK")


@case
def icapd_serves_many_connections_by_few_threads(bench):
    port, program = icapd(bench, "max = 8")
    for _ in range(200):
        user = User(port)
        offers(user)
        user.close()
    same("threads", program.figure("Threads") <= 9, True)
    users = [User(port) for _ in range(8)]
    for _ in range(3):
        for user in users:
            offers(user)
    same("threads", program.figure("Threads") <= 9, True)
