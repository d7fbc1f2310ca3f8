"""The admin word `reload`: a new configuration without a stop. What can change is taken over as a whole or not at all, and an exchange goes
on by what stood when it began."""
import os
import random
import re
import shlex
import signal
import subprocess
import threading
import time

from serve_lab.admission import serves
from serve_lab.cases import ADAPTPROXY, IDLE, at_once, called_at_once, case, comes, get, is_refused, post, same, settled
from serve_lab.host_files import Where, found_at, key
from serve_lab.loopback import KEPT, PATIENCE, TOP, Icap, Origin, User, ask, body_of, fields_of, free_port, write
from serve_lab.operators import Log, stats
from serve_lab.parents import to
from serve_lab.queues import wait_for


class Later(Origin):
    """An origin that answers `/late/N` once it is released."""

    def respond(self, conn, method, words, body):
        if words[0] == "late":
            self.release.wait(PATIENCE)
            words = ["bytes", words[1]]
        super().respond(conn, method, words, body)


def begun(proxy, origin, path="/late/5", source=None):
    """A user whose request the origin has."""
    user, heads = User(proxy.port, source=source), len(origin.heads)
    user.send(get(path))
    comes("the exchange", lambda: len(origin.heads) > heads)
    return user


# A request whose last bytes come later: until then something is reserved for it.
UPLOAD = post("/echo", body_of(100))


def half_sent(proxy):
    user = User(proxy.port)
    user.send(UPLOAD[:-9])
    comes("the reservation", lambda: proxy.say("book").startswith("rows 1 "))
    return user


def by_file(bench, origin, text="", **words):
    """A proxy whose configuration is a file."""
    return bench.proxy(origin, text, config=bench.folder().path("proxy.toml"), **words)


@case
def a_reload_says_who_may_use_it(bench):
    """New connections are judged by the new networks; one that is open goes on."""
    origin = bench.origin()
    proxy = by_file(bench, origin)
    stays = User(proxy.port, source="127.0.0.2")
    same("before", stays.ask(get("/bytes/1")).body, body_of(1))
    rows = [('users = ["127.0.0.1", "127.0.4.0/30"]\n', (True, False, False, True, False)), ("users = []\n", 5 * (False,)),
            ('users = ["127.0.0.2"]\n', (False, True, False, False, False)), ("", 5 * (True,))]
    refused = 0
    for text, served in rows:
        same(text, proxy.reload(text), "ok")
        for source, wanted in zip(("127.0.0.1", "127.0.0.2", "127.0.3.255", "127.0.4.3", "127.0.4.4"), served):
            same(text + source, serves(proxy, source), wanted)
            refused += not wanted
        same("one that is open", stays.ask(get("/bytes/3")).body, body_of(3))
    same("counted", stats(proxy)["adaptproxy_users_refused_total"], refused)
    stays.close()
    same("audit", proxy.stop(), IDLE)


@case
def a_reload_says_where_requests_may_go(bench):
    """`denied` and `[hosts]`, on a connection that is kept too."""
    where, log = bench.keep(Where()), bench.keep(Log())
    proxy = by_file(bench, bench.origin(), log.key)
    user = User(proxy.port)

    def goes(target):
        answer = ask(proxy.port, to("%s:%d" % (target, where.port), "/"))
        row = log.next()[0]
        return answer.body.decode() if answer.status == 200 else row[12]
    rows = [("", "", ("127.0.5.1", "unknown-host")), ('denied = ["127.0.5.0/24"]\n', "", ("denied", "unknown-host")),
            ('denied = ["127.0.6.0/24"]\n', '"n.test" = "127.0.5.7:9"\n', ("127.0.5.1", "127.0.5.7")),
            ('denied = ["127.0.5.2/31", "127.0.5.7"]\n', '"n.test" = "127.0.5.7:9"\n', ("127.0.5.1", "denied")),
            ("", '"n.test" = "127.0.5.8:9"\n"p.test" = "127.0.5.9:9"\n', ("127.0.5.1", "127.0.5.8"))]
    for text, hosts, wanted in rows:
        same(text + hosts, proxy.reload(log.key + text, hosts), "ok")
        same(text + hosts, tuple(goes(target) for target in ("127.0.5.1", "n.test")), wanted)
        same("on a kept connection", user.ask(get("/bytes/4")).body, body_of(4))
        log.next()
    user.close()
    same("audit", proxy.stop(), IDLE)


@case
def an_exchange_goes_on_by_the_deadline_that_stood(bench):
    """A shorter one doesn't end an exchange that began before it, and a longer one doesn't spare it."""
    origin = bench.keep(Later())
    proxy = by_file(bench, origin, "deadline = 30\n")
    old = begun(proxy, origin, "/late/7")
    same("shorter", proxy.reload("deadline = 1\n"), "ok")
    before = time.time()
    is_refused("a new one", proxy.port, get("/late/3"), 504)
    same("its deadline", 1 <= time.time() - before < 5, True)
    time.sleep(1.5)
    middle = begun(proxy, origin, "/late/3")
    before = time.time()
    same("longer", proxy.reload("deadline = 30\n"), "ok")
    same("one that began between", middle.answer().status, 504)
    same("its deadline", time.time() - before < 5, True)
    new = begun(proxy, origin, "/late/9")
    time.sleep(2.5)
    origin.release.set()
    same("the first", old.answer().body, body_of(7))
    same("the last", new.answer().body, body_of(9))
    for user in (old, middle, new):
        user.close()
    same("audit", proxy.stop(), IDLE)


@case
def an_exchange_goes_on_by_what_services_were_told(bench):
    """`client_ip`: a message of an exchange that began before says of its user what the first one said."""
    origin, service = bench.keep(Later()), bench.icap()
    proxy = by_file(bench, origin, services=[("reqmod", service.port, "/reqmod"), ("respmod", service.port, "/respmod")])

    def told():
        return [fields_of(head).get("x-client-ip") for head in service.requests]
    user = User(proxy.port, source="127.0.0.9")
    user.ask(get("/bytes/2"))
    user.send(get("/late/3"))
    comes("the exchange", lambda: len(origin.heads) == 2)
    same("reload", proxy.reload("client_ip = true\n"), "ok")
    origin.release.set()
    same("answer", user.answer().body, body_of(3))
    same("before", told(), 4 * [None])
    same("the next", user.ask(get("/bytes/4")).body, body_of(4))
    # A request that is begun anew, as its kept connection had ended, is offered twice.
    count = len(told())
    same("after", (count > 5, set(told()[4:])), (True, {"127.0.0.9"}))
    same("reload", proxy.reload(), "ok")
    same("the next", user.ask(get("/bytes/4")).body, body_of(4))
    same("as at first", (len(told()) > count + 1, set(told()[count:])), (True, {None}))
    user.close()
    same("audit", proxy.stop(), IDLE)


@case
def a_reload_says_how_long_messages_wait(bench):
    """With `wait = 0` a message that finds no connection to its service is refused; after a reload the next one waits."""
    held = threading.Event()

    def reply(conn, reader, head, count):
        Icap.rest(reader, head)
        if count == 1:
            held.wait(PATIENCE)
        conn.sendall(Icap.NO_MODIFICATION)
        return True
    service = bench.icap(reply, [b"Max-Connections: 1", b"Preview: 0", b"Transfer-Preview: *"])
    proxy = by_file(bench, bench.origin(), "shards = 1\n", services=[("respmod", service.port, "/respmod", 1)])
    first = User(proxy.port)
    first.send(get("/bytes/3"))
    comes("the first", lambda: len(service.requests) == 1)
    is_refused("busy", proxy.port, get("/bytes/3"), 503)
    same("reload", proxy.reload("shards = 1\nwait = 30\n"), "ok")
    second = User(proxy.port)
    second.send(get("/bytes/4"))
    comes("it waits", lambda: stats(proxy)['adaptproxy_waiting{point="respmod"}'] == 1)
    held.set()
    same("both", (first.answer().body, second.answer().body), (body_of(3), body_of(4)))
    first.close()
    second.close()
    same("audit", proxy.stop(), IDLE)


class Halves(Origin):
    """An origin whose answer to `/halves/N` comes in two, the second half once it is released."""

    def respond(self, conn, method, words, body):
        if words[0] != "halves":
            super().respond(conn, method, words, body)
            return
        text = body_of(int(words[1]))
        conn.sendall(b"HTTP/1.1 200 OK\r\nContent-Length: %d\r\n\r\n" % len(text) + text[:len(text) // 2])
        self.release.wait(PATIENCE)
        conn.sendall(text[len(text) // 2:])


class Handed:
    """A service of one connection, which answers every other message, from the first on, once it is `free`."""

    def __init__(self, bench, shards):
        self.free, self.origin, self.text = threading.Event(), bench.keep(Halves()), "shards = %d\nwait = %%d\ndeadline = %%d\n" % shards
        self.service = bench.icap(self.reply, [b"Max-Connections: 1", b"Preview: 0", b"Transfer-Preview: *"])
        self.proxy = by_file(bench, self.origin, self.text % (8, 60), services=[("respmod", self.service.port, "/respmod", 1)])

    def reply(self, conn, reader, head, count):
        Icap.rest(reader, head)
        if count % 2:
            self.free.wait(PATIENCE)
            self.free.clear()
        conn.sendall(Icap.NO_MODIFICATION)

    def reload(self, wait, deadline):
        same("reload", self.proxy.reload(self.text % (wait, deadline)), "ok")

    def late(self, before, after, path="/bytes/10"):
        """How long somebody waits on once the connection is free that a first user has, where `wait` goes over to another number meanwhile."""
        first, second, count = User(self.proxy.port), User(self.proxy.port), len(self.service.requests)
        self.reload(before, 60)
        first.send(get(path))
        comes("a message at the service", lambda: len(self.service.requests) > count)
        if not before:
            self.reload(after, 50)
        second.send(get("/bytes/4"))
        wait_for(self.proxy, 1)
        if before:
            self.reload(after, 50)
        if not after:
            is_refused("a new one", self.proxy.port, get("/bytes/5"), 503)
        begun = time.time()
        self.free.set()
        same("the second", second.answer().body, body_of(4))
        late = time.time() - begun
        self.origin.release.set()
        same("the first", first.answer().body, body_of(10))
        self.origin.release.clear()
        first.close()
        second.close()
        same("book", settled(self.proxy)[:24], "rows 0 held 0 claimed 0 ")
        return late


@case
def a_reload_loses_nobody_who_waits(bench):
    """Who waits for a connection is called once it is free, also by one that goes by `wait = 0`: since the message is over only after the
    reload, or since it goes on in an exchange that began before."""
    for shards in (1, 2):
        handed = Handed(bench, shards)
        for before, after, path in ((8, 0, "/bytes/10"), (0, 8, "/halves/10")):
            what = "shards = %d, wait = %d and then %d" % (shards, before, after)
            called_at_once(what, lambda: handed.late(8, 8), lambda: handed.late(before, after, path))
        same("audit", handed.proxy.stop(), IDLE)


@case
def a_reload_changes_the_capacity(bench):
    """Where more is reserved it is refused, and nothing else of the new configuration is taken."""
    proxy = by_file(bench, bench.origin())
    same("grows", (proxy.reload("capacity = 33554432\n"), proxy.say("book").split()[7]), ("ok", "33554432"))
    user = half_sent(proxy)
    claimed = int(proxy.say("book").split()[5])
    same("reserved", claimed > 1, True)
    same("too low", proxy.reload("capacity = %d\nusers = []\n" % (claimed - 1)), "refused %d" % claimed)
    same("as before", (proxy.say("book").split()[7], serves(proxy, "127.0.0.2")), ("33554432", True))
    same("just so low", proxy.reload("capacity = %d\n" % claimed), "ok")
    same("it is full", User(proxy.port).ask(get("/bytes/3")).status, 503)
    same("back", (proxy.reload(), proxy.say("book").split()[7]), ("ok", "16777216"))
    user.send(UPLOAD[-9:])
    same("answer", user.answer().body, body_of(100))
    user.close()
    same("audit", proxy.stop(), IDLE)


@case
def what_an_administrator_set_outlives_a_reload(bench):
    """`capacity N` stays where the key `capacity` is as it was, though more is reserved than the key says; where the key changes it goes by it."""
    folder, where = bench.folder(), bench.keep(Where())
    text = "capacity = 8192\n" + key(folder.write("hosts", "127.0.7.1 n.test\n"))
    proxy = bench.proxy(bench.origin(), text, config=folder.path("proxy.toml"))

    def capacity():
        return int(proxy.say("book").split()[7])
    same("raised", (proxy.say("capacity 33554432"), capacity()), ("ok", 33554432))
    folder.write("hosts", "127.0.7.2 n.test\n127.0.7.3 m.test\n")
    same("other names", (proxy.say("reload"), capacity(), found_at(proxy, "n.test", where.port)), ("ok 2", 33554432, "127.0.7.2"))
    users = [User(proxy.port) for _ in range(3)]
    for user in users:
        user.send(UPLOAD[:-9])
    comes("the reservations", lambda: proxy.say("book").startswith("rows 3 "))
    same("more than the key says", int(proxy.say("book").split()[5]) > 8192, True)
    folder.write("hosts", "127.0.7.4 n.test\n")
    same("other names", (proxy.say("reload"), capacity(), found_at(proxy, "n.test", where.port)), ("ok 1", 33554432, "127.0.7.4"))
    same("another key", (proxy.reload(text + "deadline = 50\n"), capacity()), ("ok 1", 33554432))
    for user in users:
        user.send(UPLOAD[-9:])
        same("answer", user.answer().body, body_of(100))
        user.close()
    same("its own key", (proxy.reload(text.replace("8192", "81920")), capacity()), ("ok 1", 81920))
    same("lowered", (proxy.say("capacity 8192"), proxy.say("reload"), capacity()), ("ok", "ok 1", 8192))
    same("the first key", (proxy.reload(text), capacity()), ("ok 1", 8192))
    same("audit", proxy.stop(), IDLE)


@case
def a_reload_moves_the_log(bench):
    """To another path. One that can't be opened changes nothing; that a log begins or ends needs a start. Where the capacity is refused there
    is no new file either."""
    old, new, origin = bench.keep(Log()), bench.keep(Log()), bench.origin()
    proxy = by_file(bench, origin, old.key)
    ask(proxy.port, get("/bytes/1"))
    old.next()
    same("another path", proxy.reload(new.key), "ok")
    ask(proxy.port, get("/bytes/2"))
    same("there", new.next()[0][7], "http://o.test/bytes/2")
    same("no path", proxy.reload('log = "/nowhere/access.log"\nusers = []\n'), "config log")
    ask(proxy.port, get("/bytes/3"))
    same("as before", new.next()[0][7], "http://o.test/bytes/3")
    same("no log", proxy.reload(), "restart log")
    ask(proxy.port, get("/bytes/4"))
    same("as before", new.next()[0][7], "http://o.test/bytes/4")
    os.rename(new.path, new.path + ".1")
    new.seen = 0
    same("opened anew", proxy.say("reopen"), "ok")
    ask(proxy.port, get("/bytes/5"))
    same("there", new.next()[0][7], "http://o.test/bytes/5")
    same("the old one has no more", len(old.text().splitlines()), 1)
    user = half_sent(proxy)
    refused = proxy.reload('log = "%s"\ncapacity = 1\n' % (new.path + ".2"))
    same("too low a capacity", refused, "refused " + proxy.say("book").split()[5])
    same("no file", os.path.exists(new.path + ".2"), False)
    user.send(UPLOAD[-9:])
    same("answer", user.answer().body, body_of(100))
    same("as before", new.next()[0][7], "http://o.test/echo")
    user.close()
    same("audit", proxy.stop(), IDLE)
    plain = by_file(bench, origin, logged=False)
    same("a log that begins", plain.reload(new.key), "restart log")
    same("audit", plain.stop(), IDLE)


def fixed_numbers():
    """The keys of the program's tables whose numbers can't change while it runs."""
    with open(os.path.join(TOP, "crates", "proxy_config", "src", "config.rt")) as file:
        return re.findall(r'number_key!\(fixed "(\w+)"', file.read())


@case
def a_key_that_needs_a_start_is_named(bench):
    """Each of them, and of several the first; nothing has changed then."""
    origin, service = bench.origin(), bench.icap()
    proxy = by_file(bench, origin, logged=False)
    address = '"127.0.0.1:%d"' % free_port()
    numbers = [(name, 9) for name in fixed_numbers()] + [("turn", 8192)]
    words = [("retry", "false"), ("log_query", "false"), ("metrics", address), ("carry", '["X-A"]'), ("proxy_protocol", "true"), ("dial", '"late"')]
    rows = [(name, "%s = %s\n" % (name, value), "", ()) for name, value in numbers + words if not (KEPT and name == "keep_origins")]
    rows += [("reqmod", "", "", [("reqmod", service.port, "/x")]), ("respmod", "", "", [("respmod", service.port, "/x")]),
             ("parent", "", '[parent]\nhost = "127.0.0.1"\nport = %d\n' % free_port(), ()),
             ("rows", "dial = \"late\"\nrows = 99\nservice_idle = 9\n", "", ()), ("carry", 'carry = ["X-A"]\n', "", [("reqmod", service.port, "/x")])]
    for name, text, hosts, services in rows:
        same(name, proxy.reload(text + "users = []\n", hosts, services), "restart " + name)
    whole = proxy.configuration("users = []\n")
    for name, port in (("listen", proxy.port), ("admin", proxy.admin)):
        write(proxy.config, whole.replace('%s = "127.0.0.1:%d"' % (name, port), '%s = "127.0.0.1:%d"' % (name, free_port())))
        same(name, proxy.say("reload"), "restart " + name)
    same("as before", serves(proxy, "127.0.0.2"), True)
    same("what can change", proxy.reload("deadline = 9\nwait = 9\ncapacity = 8192000\nclient_ip = true\ndenied = []\nusers = [\"127.0.0.0/8\"]\n"), "ok")
    same("audit", proxy.stop(), IDLE)


class Faulty:
    """Ways to a configuration that can't be taken, each with what is answered; all that could change would refuse everyone."""
    NOBODY = 'users = []\ndenied = ["0.0.0.0/0"]\ndeadline = 1\n'

    def __init__(self, proxy, folder, text):
        self.proxy, self.folder, self.text = proxy, folder, text

    def ways(self):
        claimed = self.proxy.say("book").split()[5]
        return [(self.of("x\n"), "config"), (self.of("shards = 0\n"), "config shards"), (self.of("zebra = 1\n"), "config zebra"),
                (self.of('users = ["10.0.0.0/33"]\n', nobody="deadline = 1\n"), "config users"), (self.of("shards = 1\n"), "restart shards"),
                (self.of("capacity = 1\n"), "refused " + claimed), (self.of('refusal_pages = "%s"\n' % self.folder.path("long")), "config refusal_pages"),
                (self.of("", hosts="127.0.0.1 a.test\n127.0.0.1\n"), "bad line 2"), (self.of("", hosts=None), "cannot open"),
                (lambda: os.remove(self.proxy.config), "cannot open")]

    def of(self, text, nobody=NOBODY, hosts="127.0.7.7 n.test\n"):
        def put():
            write(self.proxy.config, self.proxy.configuration(self.text + nobody + text))
            path = self.folder.path("hosts")
            if hosts is None:
                os.path.exists(path) and os.remove(path)
            else:
                self.folder.write("hosts", hosts)
        return put


@case
def fifty_faulty_reloads_change_nothing(bench):
    """Each of ten faults five times: what stood still stands, whole, and an exchange that is open goes on."""
    origin, where, folder = bench.origin(), bench.keep(Where()), bench.folder()
    os.mkdir(folder.path("long"))
    folder.write("long/502.html", "x" * 16385)
    text = key(folder.write("hosts", "127.0.7.1 n.test\n"))
    proxy = bench.proxy(origin, text, config=folder.path("proxy.toml"))
    held, stays = half_sent(proxy), User(proxy.port, source="127.0.0.3")
    same("before", stays.ask(get("/bytes/2")).body, body_of(2))
    comes("the end of that", lambda: proxy.say("book").startswith("rows 1 "))
    book, count = proxy.say("book"), 0
    faulty = Faulty(proxy, folder, text)
    for _turn in range(5):
        for put, answer in faulty.ways():
            put()
            same("reload", proxy.say("reload"), answer)
            same("a new user", serves(proxy, "127.0.0.2"), True)
            same("the file's name", found_at(proxy, "n.test", where.port), "127.0.7.1")
            same("one that is open", stays.ask(get("/bytes/6")).body, body_of(6))
            comes("the book", lambda: proxy.say("book") == book)
            count += 1
    same("reloads", count, 50)
    time.sleep(1.5)
    folder.write("hosts", "127.0.7.2 n.test\n")
    same("a sound one", (proxy.reload(text), found_at(proxy, "n.test", where.port)), ("ok 1", "127.0.7.2"))
    held.send(UPLOAD[-9:])
    same("the exchange that was open", held.answer().body, body_of(100))
    for user in (held, stays):
        user.close()
    same("audit", proxy.stop(), IDLE)


class Tables:
    """A proxy whose names are at other addresses after each reload: by the hosts file, and by `[hosts]`."""
    NAMES = ("n.test", "m.test", "t.test")

    def __init__(self, bench, origin, services):
        self.where, self.folder, self.number = bench.keep(Where()), bench.folder(), 0
        # When each table was asked for, and when it stood for certain.
        self.asked, self.stood = {0: 0.0}, {0: time.time()}
        text, hosts = self.texts()
        self.proxy = bench.proxy(origin, text, services, hosts, config=self.folder.path("proxy.toml"))

    def texts(self):
        third = self.number + 1
        self.folder.write("hosts", "127.0.%d.1 n.test\n127.0.%d.2 m.test\n" % (third, third))
        text = key(self.folder.path("hosts")) + 'shards = 3\ndeadline = %d\nwait = %d\ndenied = ["10.%d.0.0/16"]\nusers = ["127.%d.0.1/8"]\n' % (
            30 + self.number % 7, 20 + self.number % 5, self.number, self.number)
        return text, '"t.test" = "127.0.%d.3:%d"\n' % (third, self.where.port)

    def renew(self):
        """The next table."""
        self.number += 1
        self.asked[self.number] = time.time()
        same("reload %d" % self.number, self.proxy.reload(*self.texts()), "ok 2")
        self.stood[self.number] = time.time()

    def judged(self, name, address, begun_at, ended_at):
        """Whether an answer of this address may come to a request of these moments: by the table that stood, or one that came meanwhile."""
        words = address.split(".")
        number = int(words[2]) - 1
        right = words[3] == str(1 + self.NAMES.index(name)) and number in self.asked
        return right and self.asked[number] <= ended_at and begun_at <= self.stood.get(number + 1, ended_at)


class Busy:
    """A user that asks again and again until it is told to end: names whose addresses change, small bodies and large ones."""

    def __init__(self, tables, number):
        self.tables, self.own, self.number = tables, random.Random(number), number
        self.user, self.answers = None, []
        self.served = 0

    def run(self, ends):
        while not ends.is_set():
            self.user = self.user or User(self.tables.proxy.port)
            if self.number % 8 == 0:
                size = self.own.choice((0, 5000, 400000))
                request = self.own.choice((get("/bytes/%d" % size), post("/echo", body_of(size))))
                answer = self.user.ask(request)
                same("a body", (answer.status, answer.body == body_of(size)), (200, True))
            else:
                name = self.own.choice(Tables.NAMES)
                before = time.time()
                answer = self.user.ask(to("%s:%d" % (name, self.tables.where.port), "/"))
                same(name, answer.status, 200)
                self.answers.append((name, answer.body.decode(), before, time.time()))
            self.served += 1
            if self.own.random() < 0.1:
                self.user.close()
                self.user = None
            time.sleep(self.own.random() * 0.02)
        if self.user:
            self.user.close()


@case
def a_reload_under_load_refuses_nobody(bench):
    """64 users at both points, and forty reloads, each with other addresses for the names: no request is refused or cut, and each answer is
    from where the table says that stood, or one that came meanwhile."""
    icapd = bench.icapd("max = 256")
    tables = Tables(bench, bench.origin(), [("reqmod", icapd, "/reqmod/pass", 128), ("respmod", icapd, "/respmod/pass", 128)])
    users, ends = [Busy(tables, number) for number in range(64)], threading.Event()

    def renews():
        try:
            for _ in range(40):
                time.sleep(0.1)
                tables.renew()
        finally:
            ends.set()

    def one(number):
        if number == 64:
            renews()
        else:
            users[number].run(ends)
    at_once(65, one)
    answers = [answer for user in users for answer in user.answers]
    wrong = [answer for answer in answers if not tables.judged(*answer)]
    print("      %d answers beside %d reloads, of %d tables; a reload took %.3f s at most" % (
        sum(user.served for user in users), tables.number, len({answer[1].split(".")[2] for answer in answers}),
        max(tables.stood[n] - tables.asked[n] for n in range(1, tables.number + 1))))
    same("by no table that stood", wrong[:3], [])
    same("each was served", min(user.served for user in users) > 0, True)
    same("audit", tables.proxy.stop(), IDLE)


@case
def the_launcher_reloads(bench):
    """SIGHUP has the proxy read its file again, and the answer stands on standard error."""
    origin, folder, port = bench.origin(), bench.folder(), free_port()
    text = 'listen = "127.0.0.1:%d"\nadmin = "127.0.0.1:%d"\n%%s\n[hosts]\n"o.test" = "127.0.0.1:%d"\n' % (port, free_port(), origin.port)
    path = folder.write("proxy.toml", text % "")
    launcher = subprocess.Popen(["sh", os.path.join(TOP, "packaging", "run"), path], stdout=subprocess.PIPE, stderr=subprocess.PIPE,
                                stdin=subprocess.DEVNULL, env={**os.environ, "ADAPTPROXY": ADAPTPROXY},
                                # A shell heeds no signal that was ignored when it began, as SIGHUP is after `nohup`.
                                preexec_fn=lambda: signal.signal(signal.SIGHUP, signal.SIG_DFL))
    same("listens", launcher.stdout.readline(), b"listening\n")
    for key_of, answer, status in (("deadline = 5", b"ok\n", 200), ("shards = 0", b"config shards\n", 200),
                                   ('denied = ["127.0.0.0/8"]', b"ok\n", 502), ("rows = 9", b"restart rows\n", 502), ("", b"ok\n", 200)):
        folder.write("proxy.toml", text % key_of)
        launcher.send_signal(signal.SIGHUP)
        same(key_of, (launcher.stderr.readline(), ask(port, get("/bytes/1")).status), (answer, status))
    launcher.send_signal(signal.SIGTERM)
    same("ended", (launcher.wait(PATIENCE), launcher.stdout.read()), (0, (IDLE + "\n").encode()))


def reload_command(folder):
    """What the systemd unit runs at a reload, with the files of this folder in place of its own."""
    with open(os.path.join(TOP, "examples", "adaptproxy.service")) as unit:
        line = next(line for line in unit if line.startswith("ExecReload="))
    for old, new in (("%t/adaptproxy/", folder.path("run/")), ("/usr/local/etc/adaptproxy/proxy.toml", folder.path("proxy.toml")),
                     ("/usr/local/bin/adaptproxy", os.path.abspath(ADAPTPROXY))):
        same(old, old in line, True)
        line = line.replace(old, new)
    return shlex.split(line.split("=", 1)[1])


@case
def the_units_reload_leaves_a_copy_of_what_runs(bench):
    """By the command of the systemd unit: where the answer isn't `ok`, or a copy can't be written, the copy is as it was, and no older one
    stands in its place."""
    folder = bench.folder()
    os.mkdir(folder.path("run"))
    proxy = bench.proxy(bench.origin(), config=folder.path("proxy.toml"))
    command, texts = reload_command(folder), [proxy.configuration("deadline = %d\n" % (30 + n)) for n in range(3)]

    def copies():
        found = {}
        for name in os.listdir(folder.path("run")):
            with open(folder.path("run/" + name)) as text:
                found[name] = text.read()
        return found

    def tries(what, text, status, says, stands, most=None):
        """The file has this text, and no file that the command writes may be longer than `most`."""
        folder.write("proxy.toml", text)
        limit = [] if most is None else ["prlimit", "--fsize=%d" % most]
        ended = subprocess.run(limit + command, capture_output=True, timeout=PATIENCE)
        same(what, (ended.returncode, ended.stdout.decode(), copies()), (status, says, {"running.toml": stands}))
    folder.write("run/running.toml", proxy.configuration())
    tries("a sound one", texts[0], 0, "ok\n", texts[0])
    tries("a fault", proxy.configuration("shards = 0\n"), 1, "config shards\n", texts[0])
    tries("a key that needs a start", proxy.configuration("rows = 9\n"), 1, "restart rows\n", texts[0])
    tries("the next", texts[1], 0, "ok\n", texts[1])
    folder.write("run/before.toml", texts[0])
    tries("the first copy fails", texts[2], 1, "", texts[1], most=0)
    tries("the second copy fails", texts[2] + "# longer\n", 1, "", texts[1], most=len(texts[1]))
    tries("the last", texts[2], 0, "ok\n", texts[2])
    os.remove(folder.path("proxy.toml"))
    ended = subprocess.run(command, capture_output=True, timeout=PATIENCE)
    same("no file", (ended.returncode, ended.stdout, copies()), (1, b"", {"running.toml": texts[2]}))
    same("audit", proxy.stop(), IDLE)


@case
def commands_read_the_file_that_is_named(bench):
    """`check`, `serve` and `tell` with `--config`: standard input isn't read. A file that isn't there, or no path, is an error."""
    origin = bench.origin()
    proxy = by_file(bench, origin)

    def run(*words):
        ended = subprocess.run([ADAPTPROXY, *words], input=b"zebra", capture_output=True, timeout=PATIENCE)
        return ended.returncode, ended.stdout.decode().strip(), ended.stderr.decode().split("\n")[0]
    named = ("--config", proxy.config)
    same("check", run("check", *named), (0, "ok", ""))
    same("tell", run("tell", *named, "book"), (0, "rows 0 held 0 claimed 0 capacity 16777216", ""))
    same("reload", run("tell", *named, "reload"), (0, "ok", ""))
    hosts = bench.folder()
    for text, status, answer in ((key(hosts.write("a", "127.0.0.1 a b\n")), 0, "ok 2"), (key(hosts.write("b", "x\n")), 1, "bad line 1"),
                                 (key(hosts.path("none")), 1, "cannot open"), ("rows = 9\n", 1, "restart rows"), ("", 0, "ok")):
        write(proxy.config, proxy.configuration(text))
        same(text, run("tell", *named, "reload"), (status, answer, ""))
    for words in (("check", "--config"), ("check", *named, "x"), ("serve", "--config"), ("check", "--konfig", proxy.config), ("tell", *named)):
        same(words, run(*words), (2, "", "adaptproxy: usage"))
    for word in (("check",), ("serve",), ("tell",)):
        more = ("book",) if word == ("tell",) else ()
        status, said, error = run(*word, "--config", proxy.config + ".none", *more)
        same("no file", (status, said, error), (1, "", "adaptproxy: cannot read: %s.none" % proxy.config))
    write(proxy.config, proxy.configuration("shards = 0\n"))
    same("check", run("check", *named), (2, "", "adaptproxy: config shards"))
    same("serve", run("serve", *named), (2, "", "adaptproxy: config shards"))
    same("audit", proxy.stop(), IDLE)
