"""What the cases of tools/try_serve share: their list, the programs, requests, and what a refusal is."""
import collections
import contextlib
import os
import shutil
import subprocess
import tempfile
import threading
import time

from serve_lab.lines import Lines, wanted_rows, wrong_counts
from serve_lab.loopback import KEPT, PATIENCE, TOP, Icap, Origin, Program, Proxy, User, free_port, write

ADAPTPROXY = os.environ.get("ADAPTPROXY", os.path.join(TOP, "bin", "adaptproxy"))
ICAPD = os.environ.get("ICAPD", os.path.join(TOP, "bin", "icapd"))
# Whether each proxy keeps a log.
LOGGED = bool(os.environ.get("LOGGED"))
CASES = []


def case(function):
    CASES.append(function)
    return function


class LeftOut(Exception):
    """A case can't be tried on this machine."""


def needs(what, is_there):
    """Leaves the case out where something isn't there."""
    if not is_there:
        raise LeftOut(what)


def needs_tools(*names):
    for name in names:
        needs(name, shutil.which(name))


def same(what, found, wanted):
    if found != wanted:
        def short(x):
            text = repr(x)
            return text if len(text) < 700 else text[:350] + " .. " + text[-350:]
        raise AssertionError("%s: found %s, wanted %s" % (what, short(found), short(wanted)))


class Folder:
    """A folder for the files of a case."""

    def __init__(self):
        self.folder = tempfile.TemporaryDirectory()

    def path(self, name):
        return os.path.join(self.folder.name, name)

    def write(self, name, text):
        """The path of a file of this text."""
        return write(self.path(name), text)

    def close(self):
        self.folder.cleanup()


class Bench:
    """An origin, icapd, and a proxy: all that a case makes is ended after it."""

    def __init__(self):
        self.all = []
        self.logs = []

    def keep(self, thing):
        self.all.append(thing)
        return thing

    def origin(self):
        return self.keep(Origin())

    def icap(self, *args, **words):
        return self.keep(Icap(*args, **words))

    def icapd(self, extra=""):
        port = free_port()
        program = self.keep(Program(ICAPD, 'listen = "127.0.0.1:%d"\n%s\n' % (port, extra)))
        same("icapd", program.first, b"listening\n")
        return port

    def folder(self):
        return self.keep(Folder())

    def proxy(self, origin, text="", services=(), hosts="", descriptors=None, logged=LOGGED, before=(), config=None):
        always = "keep_origins = 64\n" if KEPT and "keep_origins" not in text else ""
        lines = Lines() if logged and "log =" not in text else None
        always += lines.key if lines else ""
        proxy = self.keep(Proxy(ADAPTPROXY, origin.port, text, services, hosts, descriptors, before, config, always))
        if lines:
            self.logs.append((proxy, lines))
        return proxy

    def end(self, name):
        """Ends all that the case of this name made. Answers what is wrong in the logs of its proxies; of a case that failed, whose
        name is None, how many lines there are isn't judged."""
        for proxy, _lines in self.logs:
            if proxy.process.poll() is None:
                try:
                    proxy.stop()
                except (OSError, subprocess.TimeoutExpired):
                    pass
        for thing in reversed(self.all):
            (thing.kill if isinstance(thing, Program) else thing.close)()
        wrong, logged, seen = [], collections.Counter(), collections.Counter()
        for proxy, lines in self.logs:
            if proxy.process.returncode != 0:
                wrong.append("a proxy ended with status %r" % proxy.process.returncode)
            counted, answers, more = lines.read(proxy.port)
            logged.update(counted)
            seen.update(answers)
            wrong += more
            lines.close()
        return wrong + (wrong_counts(wanted_rows(name), logged, seen) if name and self.logs else [])


def lent(proxy, bytes_more):
    """Lets the program have `bytes_more` of memory beside what it has; all that it wants where that is None."""
    most = "unlimited" if bytes_more is None else str(1024 * proxy.figure("VmData") + bytes_more)
    subprocess.run(["prlimit", "--pid", str(proxy.process.pid), "--data=%s:" % most], check=True)


def get(path, extra="", method="GET", version="1.1"):
    return ("%s http://o.test%s HTTP/%s\r\nHost: o.test\r\n%s\r\n" % (method, path, version, extra)).encode()


def post(path, body, extra=""):
    return get(path, "Content-Length: %d\r\n%s" % (len(body), extra), "POST") + body


def post_chunked(path, body, size, extra=""):
    pieces = [body[at:at + size] for at in range(0, len(body), size)]
    chunks = b"".join(b"%x\r\n%s\r\n" % (len(piece), piece) for piece in pieces)
    return get(path, "Transfer-Encoding: chunked\r\n" + extra, "POST") + chunks + b"0\r\nX-T: 1\r\n\r\n"


REFUSALS = {400: b"Bad Request", 501: b"Not Implemented", 502: b"Bad Gateway", 503: b"Service Unavailable",
            504: b"Gateway Timeout"}


def refusal(status):
    return b"HTTP/1.1 %d %s\r\nContent-Length: 0\r\nConnection: close\r\n\r\n" % (status, REFUSALS[status])


def is_refused(what, port, request, status):
    """The whole answer is the proxy's own refusal, and the connection ends."""
    user = User(port)
    user.send(request)
    same(what, user.reader.to_end(), refusal(status))
    user.close()


def at_once(count, one):
    """Users in threads of their own: `one(number)` each."""
    wrong = []

    def guarded(number):
        try:
            one(number)
        except Exception as error:  # noqa: BLE001
            wrong.append("%s %s" % (type(error).__name__, error))
    users = [threading.Thread(target=guarded, args=(number,)) for number in range(count)]
    for user in users:
        user.start()
    for user in users:
        user.join()
    same("users that failed", wrong, [])


def comes(what, true, patience=PATIENCE / 4):
    """It becomes true in time."""
    end = time.time() + patience
    while not true():
        if time.time() > end:
            raise AssertionError("%s doesn't come" % what)
        time.sleep(0.01)


@contextlib.contextmanager
def ahead():
    """What is begun within, threads and programs, goes before all else that the machine does, where that is allowed."""
    try:
        os.sched_setscheduler(0, os.SCHED_FIFO, os.sched_param(5))
    except PermissionError:
        pass
    try:
        yield
    finally:
        os.sched_setscheduler(0, os.SCHED_OTHER, os.sched_param(0))


class Oversleeping:
    """How much later than it asks for a thread of this machine runs on, at most: what a busy machine adds to each wait."""

    def __init__(self):
        self.most, self.ends = 0, False
        self.thread = threading.Thread(target=self.run, daemon=True)
        self.thread.start()

    def run(self):
        while not self.ends:
            before = time.time()
            time.sleep(0.02)
            self.most = max(self.most, time.time() - before - 0.02)

    def end(self):
        self.ends = True
        self.thread.join()
        return self.most


def called_at_once(what, usual, tried, rounds=4):
    """Each of the two answers how many seconds somebody waited who is to be called at once, and they go by turns. One whom nobody calls is
    found as the next second of its loop's clock begins, when all exchanges are driven. What is tried next begins just after that, so it
    waits for most of a second, whenever the first one began. What the machine adds, the usual waits have too."""
    waits = [(tried(), usual()) for _ in range(rounds)]
    longest, beside = [max(column) for column in zip(*waits)]
    print("      %s: called after %.3f s at most, usually %.3f" % (what, longest, beside))
    same("%s: at once, %.3f s" % (what, longest), longest < 0.5 + 2 * beside, True)


def statuses_of(proxy, users, paths):
    """The statuses that these users get at once, each for all paths on one connection."""
    found = []

    def one(_number):
        user = User(proxy.port)
        for path in paths:
            found.append(user.ask(get(path)).status)
        user.close()
    at_once(users, one)
    return found


def settled(proxy, patience=PATIENCE / 4):
    """What `book` says once no transaction is open: a thread may be on its way from the last byte to the end."""
    end = time.time() + patience
    while True:
        book = proxy.say("book")
        if book.startswith("rows 0 held 0 claimed 0 ") or time.time() > end:
            return book
        time.sleep(0.02)


IDLE = "audit rows 0 held 0 leased 0"
SIZES = (0, 1, 4095, 4096, 4097, 65536)
