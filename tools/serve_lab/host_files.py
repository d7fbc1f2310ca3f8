"""A hosts file (`hosts_file`): names and addresses in the form of hosts(5), read at the start and at `reload`."""
import os
import statistics
import subprocess
import threading
import time

from serve_lab.cases import ADAPTPROXY, IDLE, case, get, is_refused, needs, same
from serve_lab.loopback import Program, Reader, Server, User, ask, body_of, fields_of, free_port
from serve_lab.operators import Log, stats, waits_beside
from serve_lab.parents import Parent, to


class Where(Server):
    """An origin on each address of the loopback, or on one: it answers with the address that it was asked at."""

    def __init__(self, address="0.0.0.0", port=0):
        super().__init__(self.serve_on, address, port)

    def serve_on(self, conn, _number):
        reader, body = Reader(conn), conn.getsockname()[0].encode()
        while True:
            closes = fields_of(reader.head()).get("connection", "").lower() == "close"
            conn.sendall(b"HTTP/1.1 200 OK\r\nContent-Length: %d\r\n\r\n%s" % (len(body), body))
            if closes:
                return


def key(path):
    return 'hosts_file = "%s"\n' % path


def found_at(proxy, name, port):
    """The address at which the origin of this name was asked; None where the name isn't known."""
    user = User(proxy.port)
    answer = user.ask(to("%s:%d" % (name, port), "/"))
    user.close()
    same(name, answer.status in (200, 502), True)
    return answer.body.decode() if answer.status == 200 else None


# In the form of hosts(5), and what it names.
FORM = """# a comment
127.0.1.1 a.test
127.0.1.2\tb.test   c.test\td.test  # and another one

  127.0.1.3 \t E.Test f.test#g.test
::1 localhost ip6-localhost
fe80::1%eth0 h.test
#127.0.1.4 i.test
127.0.1.5 o.test
127.0.1.6 last.test"""
NAMED = {"a.test": "127.0.1.1", "b.test": "127.0.1.2", "c.test": "127.0.1.2", "d.test": "127.0.1.2", "e.test": "127.0.1.3",
         "F.TEST": "127.0.1.3", "last.test": "127.0.1.6"}
NOT_NAMED = ("g.test", "h.test", "i.test", "ip6-localhost", "another", "and", "a", "test", "a.test.")


@case
def a_hosts_file_names_hosts(bench):
    """By its form alone; a name of `[hosts]` goes before that of the file."""
    where, origin, folder = bench.keep(Where()), bench.origin(), bench.folder()
    proxy = bench.proxy(origin, key(folder.write("hosts", FORM)))
    for name, address in NAMED.items():
        same(name, found_at(proxy, name, where.port), address)
    for name in NOT_NAMED:
        same(name, found_at(proxy, name, where.port), None)
    same("a name of the table", ask(proxy.port, get("/bytes/5")).body, body_of(5))
    same("audit", proxy.stop(), IDLE)


@case
def a_name_of_a_hosts_file_has_port_80(bench):
    """And that of the target, where it has one."""
    needs("root, who may listen on port 80", os.geteuid() == 0)
    bench.keep(Where("127.0.91.80", 80))
    where, folder = bench.keep(Where()), bench.folder()
    proxy = bench.proxy(bench.origin(), key(folder.write("hosts", "127.0.91.80 a.test\n")))
    for target in ("a.test", "a.test:80", "a.test:%d" % where.port):
        same(target, ask(proxy.port, to(target, "/")).body, b"127.0.91.80")
    same("audit", proxy.stop(), IDLE)


@case
def a_hosts_file_stands_beside_a_parent_and_denied_networks(bench):
    """What it names goes straight, and what it doesn't to the parent; nothing goes to a denied address that it names."""
    where, parent, folder, log = bench.keep(Where()), bench.keep(Parent()), bench.folder(), bench.keep(Log())
    path = folder.write("hosts", "127.0.1.1 a.test\n127.0.9.4 b.test\n")
    proxy = bench.proxy(bench.origin(), log.key + key(path) + 'denied = ["127.0.9.0/24"]\nshards = 1\n', hosts=parent.table())
    same("named", found_at(proxy, "a.test", where.port), "127.0.1.1")
    same("its line", log.next()[0][8:13:4], ("HIER_DIRECT/127.0.1.1", "-"))
    same("not named", ask(proxy.port, to("z.test", "/name")).body, b"z.test")
    same("its line", log.next()[0][8:13:4], ("FIRSTUP_PARENT/127.0.0.1", "-"))
    is_refused("denied", proxy.port, to("b.test:%d" % where.port, "/"), 502)
    same("its line", log.next()[0][8:13:4], ("HIER_NONE/-", "denied"))
    same("what the parent was asked", len(parent.heads), 1)
    same("audit", proxy.stop(), IDLE)


# Files with a fault, and its line.
FAULTY = [("x", 1), ("127.0.0.1\n", 1), ("127.0.0.1 # a.test\n", 1), ("127.0.0.1 a.test\n127.0.0.256 b.test\n", 2),
          ("# 1\n\n127.0.0 a.test\n", 3), ("127.0.0.1 a.test\na.test 127.0.0.1\n127.0.0.1\n", 2), ("127.0.1.1:8080 a.test\n", 1),
          ("127.0.1.1: a.test\n", 1), ("::1 localhost\nfoo: a.test\n", 2), (":: a\n: a.test\n", 2), ("fe80::1% a\nfe80:1%eth0 a.test\n", 2)]


def said(words, text):
    """What a program of these words says first on standard error, and its status."""
    ended = subprocess.run([ADAPTPROXY] + words, input=text.encode(), capture_output=True, timeout=60)
    return ended.stderr.split(b"\n")[0].decode(), ended.returncode, ended.stdout


@case
def a_hosts_file_with_a_fault_is_named_by_its_line(bench):
    """By `serve` and `check`, and nothing listens; so where it can't be opened."""
    folder = bench.folder()
    least = 'listen = "127.0.0.1:%d"\nadmin = "127.0.0.1:%d"\n' % (free_port(), free_port())
    rows = [(key(folder.write("hosts%d" % place, text)), "config hosts_file line %d" % line) for place, (text, line) in enumerate(FAULTY)]
    os.mkdir(folder.path("folder"))
    rows += [(key(folder.path(name)), "config hosts_file") for name in ("none", "folder")] + [
        ('hosts_file = ""', "config hosts_file"), ("hosts_file = 1", "config hosts_file"),
        ('hosts_file = "a\\u0000b"', "config hosts_file"), ('hosts_file = "%s"' % ("x" * 4097), "config hosts_file")]
    for text, error in rows:
        same(text, said(["check"], least + text), ("adaptproxy: " + error, 2, b""))
        program = bench.keep(Program(ADAPTPROXY, least + text))
        same(text, (program.first,) + program.ended(), (b"", b"", b"adaptproxy: %s\n" % error.encode(), 2))
    sound = key(folder.write("sound", FORM))
    same("a sound one", said(["check"], least + sound)[1:], (0, b"ok\n"))


@case
def a_reload_reads_the_hosts_file_again(bench):
    """Whether the configuration came by standard input or is a file. A faulty file, or one that isn't there, leaves the names as they were."""
    where, origin = bench.keep(Where()), bench.origin()
    for named in (False, True):
        folder = bench.folder()
        path = folder.write("hosts", "127.0.1.1 a.test\n")
        proxy = bench.proxy(origin, key(path), config=folder.path("proxy.toml") if named else None)

        def names():
            return [found_at(proxy, name, where.port) for name in ("a.test", "b.test")]
        same("at first", names(), ["127.0.1.1", None])
        user = User(proxy.port)
        same("on a kept connection", user.ask(to("a.test:%d" % where.port, "/")).body, b"127.0.1.1")
        folder.write("hosts", "127.0.1.7 a.test\n127.0.1.8 b.test c.test\n")
        same("not yet", names(), ["127.0.1.1", None])
        same("reload", proxy.say("reload"), "ok 3")
        same("now", names(), ["127.0.1.7", "127.0.1.8"])
        same("on a kept connection", user.ask(to("a.test:%d" % where.port, "/")).body, b"127.0.1.7")
        for text, line in FAULTY:
            folder.write("hosts", text)
            same("a fault", proxy.say("reload"), "bad line %d" % line)
        os.remove(path)
        same("no file", proxy.say("reload"), "cannot open")
        same("as before", names(), ["127.0.1.7", "127.0.1.8"])
        folder.write("hosts", "# nothing\n")
        same("reload", proxy.say("reload"), "ok 0")
        same("none", names(), [None, None])
        same("the table", ask(proxy.port, get("/bytes/5")).body, body_of(5))
        user.close()
        same("audit", proxy.stop(), IDLE)


MANY = 100_000
# The seconds of a reload, what part of it a request may last for, and the seconds beyond the usual that a thread's first request after it,
# and each other one, may take.
WITHIN = (1, 0.25, 0.015, 0.05)


def waits_in_turn(proxy, users, seconds):
    """How long each request takes that is made one after another for so many seconds: by each of these users, and then by as many new ones."""
    end, waits = time.time() + seconds, []
    while len(waits) < 2 * len(users) or time.time() < end:
        number, before = len(waits) % (2 * len(users)), time.time()
        answer = users[number].ask(get("/bytes/3")) if number < len(users) else ask(proxy.port, get("/bytes/3"))
        waits.append(time.time() - before)
        same("answer", answer.body, b"the")
    return waits


class Many:
    """A proxy of two threads whose hosts file has a hundred thousand names, all at other addresses after each reload."""

    def __init__(self, bench):
        self.folder, self.third = bench.folder(), 0
        self.renew()
        begun = time.time()
        self.proxy = bench.proxy(bench.origin(), key(self.folder.path("hosts")) + "shards = 2\n")
        self.started = time.time() - begun
        # Users are handed to the threads in turn: one each.
        self.users = [User(self.proxy.port), User(self.proxy.port)]

    def renew(self):
        self.third += 1
        self.folder.write("hosts", "".join("127.%d.%d.%d host%d.school.test\n" % (self.third, n >> 8 & 255, n & 255, n) for n in range(MANY)))

    def reload_beside(self):
        """Has the names renewed while users ask: the seconds that it takes, and what part of it the longest request lasts for."""
        self.renew()
        answers = []
        asker = threading.Thread(target=lambda: answers.append(self.proxy.say("reload")))
        begun = time.time()
        asker.start()
        waits = waits_beside(self.proxy, self.users[0], lambda: not asker.is_alive())
        passed = time.time() - begun
        same("reload", answers, ["ok %d" % MANY])
        return passed, max(waits) / passed

    def reload_before(self):
        """Has them renewed while nobody asks: how many seconds beyond the usual the first request of a thread takes after that, and the longest of
        two seconds."""
        usual = statistics.median(waits_in_turn(self.proxy, self.users, 0.2))
        self.renew()
        same("reload", self.proxy.say("reload"), "ok %d" % MANY)
        waits = waits_in_turn(self.proxy, self.users, 2)
        return max(waits[:2 * len(self.users)]) - usual, max(waits) - usual


@case
def a_hundred_thousand_names_are_read_in_a_second(bench):
    """And no user waits for them: the longest request meanwhile lasts for a small part of that time. Nor does one wait for the names that stood
    to go: after the answer no request takes 50 ms beyond the usual, and neither thread's first one 15. A machine with much else to do may let
    one wait for its processor, so it is tried until that doesn't happen."""
    where, many = bench.keep(Where()), Many(bench)
    best = [9, 1, 1, 1]
    for _ in range(10):
        best = [min(pair) for pair in zip(best, many.reload_beside() + many.reload_before())]
        if all(one < most for one, most in zip(best, WITHIN)):
            break
    print("      %d names: listening after %.2f s, read again in %.2f s; the longest request meanwhile: %.3f of that time" % (
        MANY, many.started, best[0], best[1]))
    print("      beyond the usual: a thread's first request after the answer %.1f ms, the longest in two seconds %.1f ms" % (
        1000 * best[2], 1000 * best[3]))
    for what, one, most in zip(("the seconds", "the longest request meanwhile", "a thread's first one after it", "the longest one after it"), best, WITHIN):
        same(what, one < most, True)
    for n in (0, 1, 49_999, MANY - 1):
        same("name %d" % n, found_at(many.proxy, "host%d.school.test" % n, where.port), "127.%d.%d.%d" % (many.third, n >> 8 & 255, n & 255))
    same("none", found_at(many.proxy, "host%d.school.test" % MANY, where.port), None)
    same("users", stats(many.proxy)["adaptproxy_users"] >= 2, True)
    for user in many.users:
        user.close()
    same("audit", many.proxy.stop(), IDLE)


@case
def names_that_nobody_goes_by_are_freed(bench):
    """Twenty tables of a hundred thousand names, 7 MB each: the process has a few of them at once."""
    many = Many(bench)
    least = many.proxy.figure("VmRSS")
    for _ in range(20):
        many.renew()
        same("reload", many.proxy.say("reload"), "ok %d" % MANY)
        waits_in_turn(many.proxy, many.users, 0)
    time.sleep(2.5)
    grown = (many.proxy.figure("VmRSS") - least) / 1024
    print("      %.1f MB at first, and %.1f more after twenty tables" % (least / 1024, grown))
    same("more", grown < 100, True)
    for user in many.users:
        user.close()
    same("audit", many.proxy.stop(), IDLE)
