"""A thousand exchanges that are caught in mid-course, and the script that the proxy gives of each."""
import collections
import random
import socket
import threading
import time

from serve_lab.asking import Asker, is_script_of
from serve_lab.cases import IDLE, case, comes, get, same, settled
from serve_lab.hangs import drained
from serve_lab.loopback import PATIENCE, Closed, Icap, Reader, Server, User, body_of, fields_of

PREVIEW = 1024
SIZES = (0, 1, 1000, 1023, 1024, 1025, 3000, 5000, 20000, 60000, 300000)
# More than all sockets on its way hold.
LARGE = 8000000
# What a service does of a message before it stands still; the target says it, with sizes.
MODES = ("silent", "100", "200", "100+200", "204", "more", "100+more")
# A target: the mode, the bytes of the body, how many of them come, and how many bytes of another body the service gives.
Course = collections.namedtuple("Course", "mode size came given")


def course_of(text):
    """The course that a head's target says, or None."""
    for word in text.split(b"\r\n")[0].split(b" "):
        if b"/course/" in word:
            mode, *sizes = word.decode().split("/course/")[1].split("/")[:4]
            return Course(mode, *map(int, sizes))
    return None


class Halting(Server):
    """An origin of which a part of the body comes, by its length or in chunks, and no more until `release`."""

    def __init__(self):
        self.release = threading.Event()
        super().__init__(self.exchange)

    def exchange(self, conn, _number):
        reader = Reader(conn)
        head = reader.head()
        course = course_of(head)
        if not course:
            conn.sendall(b"HTTP/1.1 200 OK\r\nContent-Length: 3000\r\nConnection: close\r\n\r\n" + body_of(3000))
            return
        if head.startswith(b"POST"):
            self.release.wait(PATIENCE)
            return
        framing = b"Content-Length: %d" % course.size if course.size % 2 else b"Transfer-Encoding: chunked"
        came = body_of(course.came)
        text = came if course.size % 2 else b"".join(b"%x\r\n%s\r\n" % (len(came[at:at + 700]), came[at:at + 700]) for at in range(0, len(came), 700))
        if course.came == course.size and not course.size % 2:
            text += b"0\r\n\r\n"
        conn.sendall(b"HTTP/1.1 200 OK\r\n%s\r\n\r\n%s" % (framing, text))
        self.release.wait(PATIENCE)


class Halted(Icap):
    """A service that goes so far with each message as its target says, and then nothing until `release`. Every other message is left as
    it is."""

    def __init__(self, kind, options=()):
        self.kind = kind
        super().__init__(self.go, options)

    def adapted(self, course, heads):
        """A 200 with the beginning of another body."""
        lines = [line for line in heads.split(b"\r\n\r\n")[0].split(b"\r\n") if not line.lower().startswith(b"content-length")]
        head = b"HTTP/1.1 200 OK\r\nX: y\r\n\r\n" if self.kind == b"res" else b"\r\n".join(lines) + b"\r\n\r\n"
        text = b"ICAP/1.0 200 OK\r\nISTag: \"t-1\"\r\nEncapsulated: %s-hdr=0, %s-body=%d\r\n\r\n%s" % (self.kind, self.kind, len(head), head)
        return text + (b"%x\r\n%s\r\n" % (course.given, body_of(course.given)) if course.given else b"")

    def go(self, conn, reader, head, _count):
        fields = fields_of(head)
        name, offset = fields["encapsulated"].split(",")[-1].strip().split("=")
        heads = reader.exactly(int(offset))
        course = course_of(heads)
        if not course or name == "null-body":
            if name != "null-body":
                reader.chunked()
            conn.sendall(self.NO_MODIFICATION)
            return True
        ieof = "preview" in fields and b"ieof" in reader.chunked()[1]
        if course.mode.startswith("100") and "preview" in fields and not ieof:
            conn.sendall(b"ICAP/1.0 100 Continue\r\n\r\n")
            if course.came > PREVIEW:
                reader.exactly(10)
        if course.mode.endswith("200"):
            conn.sendall(self.adapted(course, heads))
        if course.mode == "204" and ("preview" in fields or "204" in fields.get("allow", "")):
            conn.sendall(self.NO_MODIFICATION)
        if course.mode.endswith("more"):
            threading.Thread(target=drained, args=(reader,), daemon=True).start()
        self.release.wait(PATIENCE)
        # Another thread may be reading from it.
        conn.shutdown(socket.SHUT_RDWR)
        return False


class Working(threading.Thread):
    """Users who work beside all this, one request after another."""

    def __init__(self, port):
        super().__init__(daemon=True)
        self.port, self.over, self.served, self.wrong = port, threading.Event(), 0, []
        self.start()

    def run(self):
        while not self.over.is_set():
            user = User(self.port)
            try:
                same("served", user.ask(get("/any")).body, body_of(3000))
                self.served += 1
            except (OSError, Closed, AssertionError) as error:
                self.wrong.append(repr(error))
            user.close()
            time.sleep(0.01)


def begun(proxy, chance):
    """A user whose exchange goes as far as chance has it; some of them read what comes."""
    size = LARGE if chance.random() < 0.05 else chance.choice(SIZES)
    came = size if chance.random() < 0.3 else chance.randint(0, size)
    modes, given = (("silent", "204", "200"), (LARGE,)) if size == LARGE else (MODES, (0, 1, 700, 6000, 50000))
    target = "/course/%s/%d/%d/%d/" % (chance.choice(modes), size, came, chance.choice(given))
    user = User(proxy.port, narrow=chance.random() < 0.5)
    if chance.random() < 0.4:
        user.send(get(target, "Content-Length: %d\r\n" % size, "POST"))
        try:
            user.sock.settimeout(0.05)
            user.send(body_of(size)[:came])
        except OSError:
            pass  # The proxy takes no more of it.
        user.sock.settimeout(PATIENCE)
    else:
        user.send(get(target))
    if chance.random() < 0.3:
        threading.Thread(target=drained, args=(user,), daemon=True).start()
    return user


def leave(user):
    """Ends a user's connection at once, though another thread may be reading from it."""
    try:
        user.sock.shutdown(socket.SHUT_RDWR)
    except OSError:
        pass  # The proxy has ended it.
    user.close()


def still(asker, patience=PATIENCE):
    """Two answers between which nothing has moved of most exchanges, and the scripts in between, by their ids: of each that is in both, and
    has the same numbers in both, how it stands."""
    end, before = time.time() + patience, None
    while True:
        found = {one.id: one for one in asker.exchanges().all if "/course/" in one.target}
        if before == {name: one._replace(age=0, still=0) for name, one in found.items()} or time.time() > end:
            break
        before = {name: one._replace(age=0, still=0) for name, one in found.items()}
        time.sleep(0.5)
    scripts = {name: asker.answer("trace " + name) for name in found}
    after = {one.id: one._replace(age=0, still=0) for one in asker.exchanges().all}
    return [(one, scripts[name]) for name, one in found.items() if after.get(name) == one._replace(age=0, still=0)]


@case
def the_scripts_of_a_thousand_exchanges_say_what_they_hold(bench):
    """Caught in mid-course beside users who work: `trace` of each script ends with the intervals that `exchanges` shows."""
    chance, words, compared, without = random.Random(60), collections.Counter(), 0, 0
    origin = bench.keep(Halting())
    services = [bench.keep(Halted(b"req")), bench.keep(Halted(b"res", [b"Preview: %d" % PREVIEW, b"Transfer-Preview: *"]))]
    proxy = bench.proxy(origin, "shards = 4\nrows = 512\ndeadline = 600\ncapacity = 268435456",
                        [("reqmod", services[0].port, "/reqmod/x", 512), ("respmod", services[1].port, "/respmod/x", 512)])
    workers = [Working(proxy.port) for _ in range(4)]
    while compared < 1000:
        for halted in (origin, *services):
            halted.release.clear()
        users = [begun(proxy, chance) for _ in range(250)]
        asker = Asker(proxy)
        found = still(asker)
        for one, script in found:
            words[one.word] += 1
            if script.startswith("none "):
                without += 1
                same("between messages", script, "none %s waits-for %s\n" % (one.point, one.word))
                continue
            is_script_of(one, script)
            compared += 1
        same("most stand still", len(found) > 150, True)
        asker.close()
        for halted in (origin, *services):
            halted.release.set()
        for user in users:
            leave(user)
        comes("their ends", lambda: int(proxy.say("book").split()[1]) <= len(workers), PATIENCE)
    for worker in workers:
        worker.over.set()
        worker.join(PATIENCE)
    print("      %d scripts, 0 differ; %d exchanges without one; beside %d requests; they wait for %s" % (
        compared, without, sum(worker.served for worker in workers), ", ".join("%s %d" % pair for pair in sorted(words.items()))))
    same("wrong", [worker.wrong[:3] for worker in workers if worker.wrong], [])
    same("words", {"service-reply", "service-body", "user-takes", "user-body", "origin-body", "origin-answer"} <= set(words), True)
    same("book", settled(proxy)[:24], "rows 0 held 0 claimed 0 ")
    same("audit", proxy.stop(), IDLE)
