"""A parent proxy (`[parent]`): what goes to it, what goes straight, and what it may do wrong; and networks to which nothing is sent
(`denied`)."""
import os
import threading

from serve_lab.cases import IDLE, at_once, case, get, is_refused, needs_tools, same
from serve_lab.keeper import counts
from serve_lab.loopback import KEPT, PATIENCE, Origin, Reader, Server, User, ask, body_of, fields_of, free_port, read_body
from serve_lab.operators import Log, stats
from serve_lab.real_origins import Site, asked_about_the_second
from serve_lab.servers import SQUID_ALONE

NAMES = ("a.test", "B.Test:80", "c.test:8080", "192.0.2.7", "198.51.100.1:81", "[2001:db8::1]")
# A Squid as a parent: it knows names, and asks their origins itself.
SQUID = "http_port 127.0.0.1:%(port)d\nhosts_file %(dir)s/hosts\n" + SQUID_ALONE + """
max_filedescriptors 4096
server_persistent_connections off
dns_nameservers 127.0.0.1
dns_timeout 1 second
client_idle_pconn_timeout %(idle)d seconds
"""


class Parent(Server):
    """A parent proxy that answers each request itself, over connections that it keeps where it may. `heads` has what it was asked, and
    `wrong` what no proxy may ask of it. A path's first word says what it does."""

    def __init__(self, address="127.0.0.1"):
        self.heads, self.wrong = [], []
        self.release = threading.Event()
        super().__init__(self.serve_on, address)

    def serve_on(self, conn, _number):
        reader = Reader(conn)
        while self.request(conn, reader):
            pass

    def request(self, conn, reader):
        head = reader.head()
        fields = fields_of(head)
        target = fields[""].split(" ")[1]
        body = read_body(reader, fields, False)
        authority, _, path = target[len("http://"):].partition("/")
        with self.lock:
            self.heads.append(head)
            if not target.startswith("http://") or fields.get("host") != authority:
                self.wrong.append(head)
        kind, *words = path.split("/")
        if kind == "mute":
            self.release.wait(PATIENCE)
        elif kind == "garbage":
            conn.sendall(b"what is this\r\n\r\n")
        elif kind == "cut":
            conn.sendall(b"HTTP/1.1 200 OK\r\nContent-Length: 9\r\n\r\nabc")
        elif kind not in ("end", "mute"):
            body = body_of(int(words[0])) if kind == "bytes" else body if kind == "echo" else authority.encode()
            conn.sendall(b"HTTP/1.1 200 OK\r\nContent-Length: %d\r\n\r\n%s" % (len(body), body))
            return fields.get("connection", "").lower() != "close"
        return False

    def address(self):
        return self.sock.getsockname()

    def table(self):
        return '[parent]\nhost = "%s"\nport = %d\n' % self.address()


class Everywhere(Origin):
    """An origin on each address of the machine."""

    def __init__(self):
        self.heads, self.bodies, self.release = [], [], threading.Event()
        Server.__init__(self, self.exchange, "0.0.0.0")


def to(authority, path, method="GET", extra="", body=b""):
    """A request for a target of this authority."""
    return ("%s http://%s%s HTTP/1.1\r\nHost: x\r\n%s\r\n" % (method, authority, path, extra)).encode() + body


def posted(authority, path, body, chunked):
    if not chunked:
        return to(authority, path, "POST", "Content-Length: %d\r\n" % len(body), body)
    chunks = b"".join(b"%x\r\n%s\r\n" % (len(body[at:at + 700]), body[at:at + 700]) for at in range(0, len(body), 700))
    return to(authority, path, "POST", "Transfer-Encoding: chunked\r\n", chunks + b"0\r\n\r\n")


def both_points(bench):
    icapd = bench.icapd()
    return [("reqmod", icapd, "/reqmod/pass"), ("respmod", icapd, "/respmod/pass")]


@case
def a_parent_gets_what_the_table_of_hosts_lacks(bench):
    """A host of the table goes straight, in origin form; all else to the parent, in absolute form as the user wrote it."""
    for services, text in (([], "keep_origins = 0\n"), ([], "keep_origins = 4\n"), (both_points(bench), 'keep_origins = 0\ndial = "late"\n')):
        origin, parent = bench.origin(), bench.keep(Parent())
        proxy = bench.proxy(origin, text + "shards = 1", services, parent.table())
        close = "Connection: close\r\n" if "keep_origins = 0" in text else ""
        user = User(proxy.port)
        for place, name in enumerate(NAMES):
            same(name, user.ask(to(name, "/name")).body, name.encode())
            same("its head", parent.heads[-1].decode(),
                 "GET http://%s/name HTTP/1.1\r\nHost: %s\r\n%sVia: 1.1 adaptproxy\r\n\r\n" % (name, name, close))
            same("straight", user.ask(get("/bytes/%d" % place)).body, body_of(place))
            same("its head", origin.heads[-1].decode(),
                 "GET /bytes/%d HTTP/1.1\r\nHost: o.test\r\n%sVia: 1.1 adaptproxy\r\n\r\n" % (place, close))
        user.ask(b"GET HTTP://A.test:?q#f HTTP/1.0\r\nProxy-Connection: keep-alive\r\nConnection: X\r\nX: 1\r\n\r\n")
        same("its head", parent.heads[-1].decode(),
             "GET http://A.test:/?q HTTP/1.1\r\nHost: A.test:\r\n%sVia: 1.0 adaptproxy\r\n\r\n" % close)
        same("how often each was asked", (len(parent.heads), len(origin.heads)), (len(NAMES) + 1, len(NAMES)))
        same("what no parent is asked", parent.wrong, [])
        user.close()
        same("audit", proxy.stop(), IDLE)


def asked_a_thousand_times(proxy, names):
    """Ten users that keep their connections ask a hundred times each, of several names, every third time with a body."""
    def one(number):
        user = User(proxy.port)
        for place in range(100):
            name = names[(number + place) % len(names)]
            if place % 3 == 0:
                body = body_of((0, 1, 4096, 30000)[place // 3 % 4])
                same("a body", user.ask(posted(name, "/echo", body, place % 2 == 0)).body, body)
            else:
                size = (0, 5, 4097, 20000)[place % 4]
                same("an answer", user.ask(to(name, "/bytes/%d" % size)).body, body_of(size))
        user.close()
    at_once(10, one)


@case
def a_parent_gets_a_thousand_requests(bench):
    """With both points on, and with kept connections to the parent or without."""
    services = both_points(bench)
    for text in ("keep_origins = 0\n", 'keep_origins = 64\ndial = "late"\n'):
        origin, parent = bench.origin(), bench.keep(Parent())
        proxy = bench.proxy(origin, text + "shards = 2\nwait = 5\n", services, parent.table())
        asked_a_thousand_times(proxy, NAMES)
        opened, reused, _anew, _idle = counts(proxy)
        same("requests", (len(parent.heads), parent.wrong, len(origin.heads)), (1000, [], 0))
        same("connections", (opened + reused, reused > 500), (1000, "64" in text))
        same("audit", proxy.stop(), IDLE)


def squid_as_parent(site, names, idle=120):
    """A Squid that finds these names on this machine, and ends a user's connection that was idle for so many seconds: the table that has
    it as the parent."""
    port = free_port()
    for file, lines in (("hosts", "".join("127.0.0.1 %s\n" % name for name in names)),
                        ("parent.conf", SQUID % {"dir": site.dir, "port": port, "idle": idle})):
        with open(os.path.join(site.dir, file), "w") as out:
            out.write(lines)
    site.start(["squid", "-N", "-f", site.dir + "/parent.conf"], port)
    return '[parent]\nhost = "127.0.0.1"\nport = %d\n' % port


@case
def a_squid_as_parent_gets_a_thousand_requests(bench):
    """A real parent asks the origins of three names itself, which it finds; the proxy asks services at both points."""
    needs_tools("squid")
    services, site = both_points(bench), bench.keep(Site())
    for text in ("keep_origins = 0\n", "keep_origins = 64\n"):
        origin, other = bench.origin(), bench.keep(Origin())
        names = ("a.test", "b.test", "c.test")
        proxy = bench.proxy(origin, text + "shards = 2\nwait = 5\n", services, squid_as_parent(site, names))
        asked_a_thousand_times(proxy, ["%s:%d" % (name, other.port) for name in names])
        same("what the origins were asked", (len(other.heads), len(origin.heads)), (1000, 0))
        same("by both proxies", all(b"\r\nVia: 1.1 adaptproxy, 1.1 " in head for head in other.heads), True)
        same("straight", ask(proxy.port, get("/bytes/5")).body, body_of(5))
        same("an unknown name is the parent's to refuse", ask(proxy.port, to("z.invalid", "/")).status in (502, 503, 504), True)
        same("audit", proxy.stop(), IDLE)


@case
def a_squid_as_parent_keeps_connections_for_a_second(bench):
    needs_tools("squid", "nginx")
    site = bench.keep(Site())
    port = site.nginx()
    asked_about_the_second(bench, "Squid as a parent", free_port(), squid_as_parent(site, ["site.test"], 1), b"site.test:%d" % port)


@case
def a_parent_that_fails_is_told_as_an_origin(bench):
    """It refuses connections, breaks off, answers no HTTP, or nothing: 502, or 504 at the deadline; or the answer is cut."""
    log = bench.keep(Log())
    origin, parent = bench.origin(), bench.keep(Parent())
    there = "FIRSTUP_PARENT/127.0.0.1"
    proxy = bench.proxy(origin, log.key + "deadline = 1\nshards = 1", hosts=parent.table())
    rows = [("/name", 200, "-"), ("/garbage", 502, "origin-broken"), ("/end", 502, "origin-broken"), ("/mute", 504, "origin-deadline")]
    for path, status, why in rows:
        user = User(proxy.port)
        same(path, user.ask(to("a.test", path)).status, status)
        user.close()
        row = log.next()[0]
        same("its line", (row[3], row[4], row[8], row[12]), ("TCP_MISS" if status == 200 else "TCP_DENIED", str(status), there, why))
    user = User(proxy.port)
    user.send(to("a.test", "/cut"))
    same("a cut answer", user.reader.to_end().endswith(b"abc"), True)
    same("its line", log.next()[0][8:13:4], (there, "origin-broken"))
    same("straight", ask(proxy.port, get("/bytes/5")).body, body_of(5))
    same("its line", log.next()[0][8], "HIER_DIRECT/127.0.0.1")
    same("audit", proxy.stop(), IDLE)
    for dial in ("first", "late"):
        nobody = '[parent]\nhost = "127.0.0.1"\nport = %d\n' % free_port()
        proxy = bench.proxy(origin, log.key + 'shards = 1\ndial = "%s"' % dial, hosts=nobody)
        is_refused("nobody is there", proxy.port, to("a.test", "/name"), 502)
        same("its line", log.next()[0][8:13:4], ("HIER_NONE/-", "origin-refused"))
        same("audit", proxy.stop(), IDLE)


@case
def connections_to_a_parent_are_kept(bench):
    """Requests of several names go over one connection; one that has ended is replaced, and its request begun anew."""
    origin, parent = bench.origin(), bench.keep(Parent())
    proxy = bench.proxy(origin, "keep_origins = 4\nshards = 1", hosts=parent.table())
    user = User(proxy.port)
    for name in NAMES * 4:
        same(name, user.ask(to(name, "/name")).body, name.encode())
    same("connections", (parent.count, counts(proxy)[:2]), (1, (1, 4 * len(NAMES) - 1)))
    for conn in list(parent.inside):
        conn.shutdown(2)
    same("after its end", user.ask(to("a.test", "/name")).body, b"a.test")
    same("connections", parent.count, 2)
    user.close()
    same("audit", proxy.stop(), IDLE)


@case
def no_target_is_the_proxy_itself_with_a_parent(bench):
    """Its ports are refused by address and by a name of the table, and the parent isn't asked."""
    origin, parent = bench.origin(), bench.keep(Parent())
    proxy = bench.proxy(origin, "shards = 1", hosts=parent.table())
    for port in (proxy.port, proxy.admin):
        for host in ("127.0.0.1", "127.9.8.7", "0.0.0.0", "o.test"):
            is_refused("%s:%d" % (host, port), proxy.port, to("%s:%d" % (host, port), "/name"), 502)
    same("requests", (parent.heads, origin.heads), ([], []))
    same("audit", proxy.stop(), IDLE)


@case
def no_request_goes_to_a_denied_network(bench):
    """The first and the last address of a network are refused, and those beside it are not; by address and by name, parent or not. A
    parent's own address isn't judged."""
    origin = bench.keep(Origin())
    everywhere = bench.keep(Everywhere())
    names = "".join('"n%d.test" = "127.0.1.%d:%d"\n' % (last, last, everywhere.port) for last in (3, 4, 7, 8))
    denied = 'denied = ["127.0.1.4/30", "127.0.2.9"]\nshards = 1\n'
    parent = bench.keep(Parent("127.0.1.6"))
    addresses = [("127.0.1.3", True), ("127.0.1.4", False), ("127.0.1.5", False), ("127.0.1.7", False), ("127.0.1.8", True),
                 ("127.0.2.8", True), ("127.0.2.9", False), ("127.0.2.10", True)]
    for table in ("", parent.table()):
        log = bench.keep(Log())
        proxy = bench.proxy(origin, log.key + denied, hosts=names + table)
        rows = addresses + [("n%d.test" % last, last in (3, 8)) for last in (3, 4, 7, 8)]
        before = len(parent.heads)
        for host, goes in rows:
            authority = host if host.startswith("n") else "%s:%d" % (host, everywhere.port)
            if goes:
                same(host, ask(proxy.port, to(authority, "/bytes/3")).body, body_of(3))
                where = "127.0.1.%s" % host[1] if host.startswith("n") else "127.0.1.6" if table else host
                hierarchy = "FIRSTUP_PARENT/" if table and not host.startswith("n") else "HIER_DIRECT/"
                same("its line", log.next()[0][8:13:4], (hierarchy + where, "-"))
            else:
                is_refused(host, proxy.port, to(authority, "/bytes/3"), 502)
                row = log.next()[0]
                same("its line", (row[3], row[4], row[8], row[12]), ("TCP_DENIED", "502", "HIER_NONE/-", "denied"))
        same("what the parent was asked", len(parent.heads) - before, 4 if table else 0)
        if table:
            same("a name that only the parent knows", ask(proxy.port, to("127.0.1.5.test", "/name")).body, b"127.0.1.5.test")
        same("counted", stats(proxy)['adaptproxy_refusals_total{point="reqmod",why="denied"}'], 6)
        same("audit", proxy.stop(), IDLE)
