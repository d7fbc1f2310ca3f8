"""What the administrator is told of exchanges that are under way: `exchanges`, `exchanges waiting` and `trace`."""
import ctypes
import os
import re
import subprocess
import sys
import threading
import time

from serve_lab.asking import LINE, Asker, answer_to, is_script_of, stand_still, told
from serve_lab.cases import ADAPTPROXY, ICAPD, IDLE, at_once, case, comes, get, needs, same, settled
from serve_lab.hangs import HANGS, PREVIEW, Site, asks, service_without_options, silent_service
from serve_lab.loopback import PATIENCE, TOP, Closed, Reader, Server, User


def page(name):
    """The text of a page."""
    with open(os.path.join(TOP, "docs", name), encoding="utf-8") as file:
        return file.read()


def is_on_page(one, text):
    """An exchange stands on the page with the same words and numbers. Of /film.mp4 the sockets take what they have room for, so its numbers
    aren't compared."""
    lines = [found for found in map(LINE.fullmatch, text.splitlines()) if found and found[15] == one.target]
    words = [(found[3], found[4]) for found in lines]
    same("on the page, " + one.target, (one.point, one.word) in words, True)
    if not one.target.endswith("/film.mp4"):
        numbers = [found.groups()[5:12] for found in lines if found[4] == one.word]
        same("its numbers, " + one.target, set(numbers), {tuple(str(number) for number in one[5:12])})


def let_go(origin, users):
    """Has the origin end its answers; the users read them to their end, and leave."""
    origin.release.set()
    for user in users:
        user.reader.to_end()
        user.close()


@case
def each_word_that_is_waited_for_is_on_its_pages(bench):
    with open(os.path.join(TOP, "crates", "exchange_report", "src", "awaited.rt"), encoding="utf-8") as file:
        words = sorted(re.findall(r'Awaited::\w+ => b"([a-z-]+)"', file.read()))
    same("twelve", len(set(words)), 12)
    glossary = page("GLOSSARY.md").split("## What an exchange waits for")[1].split("\n## ")[0]
    manual = page("man/adaptproxy.8").split(".Ss What an exchange waits for")[1].split(".El")[0]
    same("docs/GLOSSARY.md", sorted(re.findall(r"^\| `([a-z-]+)` \|", glossary, re.M)), words)
    same("docs/man/adaptproxy.8", sorted(re.findall(r"^\.It Cm ([a-z-]+)$", manual, re.M)), words)


@case
def a_hang_has_the_word_that_the_page_has(bench):
    """The commonest hangs. Once what was missing comes, nothing waits any more."""
    text = page("RUNNING.md").split("\n## A page hangs: why?")[1].split("\n## ")[0]
    seen = set()
    for scene, words in HANGS:
        proxy, release = scene(bench)
        found = stand_still(proxy, *words)
        print("      %s: %s" % (scene.__name__, ", ".join("%s waits-for %s" % (one.point, one.word) for one in found)))
        same("points", {one.point for one in found}, {"respmod"})
        same("the longest first", [one.still for one in found], sorted((one.still for one in found), reverse=True))
        for one in found:
            if scene != service_without_options:
                is_on_page(one, text)
                seen.add((one.word, one.target))
            answer = answer_to(proxy, "trace " + one.id)
            if one.word in ("origin-answer", "service-connection", "service-options"):
                same("no transaction", answer, "none respmod waits-for %s\n" % one.word)
            else:
                is_script_of(one, answer)
        release.set()
        comes("answers", lambda: not told(proxy).all)
        for user in [thing for thing in bench.all if isinstance(thing, User)]:
            user.close()
        same("book", settled(proxy)[:24], "rows 0 held 0 claimed 0 ")
        same("audit", proxy.stop(), IDLE)
    same("all of the page", {(found[4], found[15]) for found in map(LINE.fullmatch, text.splitlines()) if found}, seen)


@case
def an_id_is_of_one_exchange_alone(bench):
    """One that is over is gone, also where its connection has another one now; what is no id is bad."""
    origin = bench.origin()
    proxy = bench.proxy(origin, "shards = 2\nrows = 16", [("respmod", bench.icapd(), "/respmod/pass")])
    user, ids = User(proxy.port), []
    for turn in range(3):
        user.send(get("/mute/%d" % turn))
        comes("the exchange", lambda: [one.target for one in told(proxy).all] == ["http://o.test/mute/%d" % turn])
        one = told(proxy).all[0]
        same("between messages", answer_to(proxy, "trace " + one.id), "none respmod waits-for origin-answer\n")
        for before in ids:
            same("over", answer_to(proxy, "trace " + before), "gone\n")
        ids.append(one.id)
        origin.release.set()
        user.reader.to_end()
        user.close()
        comes("its end", lambda: not told(proxy).all)
        origin.release.clear()
        user = User(proxy.port)
    same("each has its own", len(set(ids)), 3)
    thread, key, number = ids[-1].split("-")
    for line in ("trace %s" % ids[-1], "trace 7-%s-%s" % (key, number), "trace %s-99-%s" % (thread, number), "trace %s-%s-0" % (thread, key),
                 "trace 18446744073709551615-18446744073709551615-18446744073709551615"):
        same(line, answer_to(proxy, line), "gone\n")
    for line in ("trace", "trace ", "trace 0", "trace 0-1", "trace 0-1-", "trace 0-1-2-3", "trace -1-2-3", "trace 0-1-x", "trace 0-1-2 ",
                 "trace  0-1-2", "trace 0 1 2", "trace 0-1-18446744073709551616", "Trace 0-1-2", "exchanges ", "exchanges  waiting",
                 "exchanges waiting ", "exchanges now", "exchange", "waiting"):
        same(line, answer_to(proxy, line), "bad\n")
    user.close()
    same("audit", proxy.stop(), IDLE)


@case
def only_those_that_stand_still_are_said_to_wait(bench):
    """The longest first; one of which a byte moves now and then isn't among them, and who is between two requests is idle."""
    over = threading.Event()

    def exchange(conn, _number):
        head = Reader(conn).head()
        if b"/moves" not in head:
            over.wait(PATIENCE)
            return
        conn.sendall(b"HTTP/1.1 200 OK\r\nContent-Length: 1000\r\n\r\n")
        while not over.wait(0.1):
            conn.sendall(b"x")
    proxy = bench.proxy(bench.keep(Server(exchange)), "shards = 3")
    idle = [User(proxy.port) for _ in range(5)]
    asks(bench, proxy, "/moves")
    for turn in range(4):
        asks(bench, proxy, "/waits?%d" % turn)
        time.sleep(1.1)
    time.sleep(1)
    found, waiting = told(proxy), told(proxy, " waiting")
    same("all", sorted(one.target[13:] for one in found.all), ["/moves"] + ["/waits?%d" % turn for turn in range(4)])
    same("they wait", [one.target[13:] for one in waiting.all], ["/waits?%d" % turn for turn in range(4)])
    same("how long", all(one.still >= 1 and one.still <= one.age for one in waiting.all), True)
    same("idle", (found.idle, waiting.idle), (5, 5))
    over.set()
    comes("their ends", lambda: not told(proxy).all)
    for user in idle:
        user.close()
    same("audit", proxy.stop(), IDLE)


@case
def lines_without_room_are_counted(bench):
    """Each thread has 64 KiB for its lines, here of more than 2,000 bytes: those that fit are whole, and the others are counted."""
    origin = bench.origin()
    proxy = bench.proxy(origin, "shards = 2")
    users = [asks(bench, proxy, "/mute/%d?%s" % (number, "x" * 2000)) for number in range(100)]
    comes("their exchanges", lambda: len(told(proxy).all) + told(proxy).left_out == 100)
    found = told(proxy)
    print("      %d lines, %d left out" % (len(found.all), found.left_out))
    same("all", (len(found.all) + found.left_out, found.idle), (100, 0))
    same("as many as fit", (len(found.all) >= 50, found.left_out >= 20), (True, True))
    same("each once", len({one.id for one in found.all}), len(found.all))
    let_go(origin, users)
    same("book", settled(proxy)[:24], "rows 0 held 0 claimed 0 ")
    same("audit", proxy.stop(), IDLE)


@case
def seventy_administrators_ask_at_once(bench):
    """The admin port has sixteen seats: whoever loses one asks again. Each has a whole answer in the end, and users are served."""
    origin = bench.origin()
    proxy = bench.proxy(origin, "shards = 2")
    users = [asks(bench, proxy, "/mute/%d" % number) for number in range(20)]
    comes("their exchanges", lambda: len(told(proxy).all) == 20)
    answers, lost, together = [], [], threading.Barrier(70)

    def asked(number):
        """Whether this one has an answer; those that have none ask again one after another."""
        asker = Asker(proxy)
        try:
            if number not in lost:
                together.wait(PATIENCE)
            found = asker.exchanges((" waiting", "")[number % 2])
            answers.append((number % 2, len(found.all), found.silent))
            return True
        except (OSError, Closed):
            lost.append(number)
            return False
        finally:
            asker.close()

    def one(number):
        end = time.time() + PATIENCE
        while not asked(number):
            same("in time", time.time() < end, True)
            time.sleep(0.01 * (number % 10))
    begun = time.time()
    at_once(70, one)
    print("      70 answers in %.1f s, %d asked again" % (time.time() - begun, len(lost)))
    same("answers", len(answers), 70)
    same("all of them", {count for all_of, count, _ in answers if all_of}, {20})
    same("no silent thread", [silent for *_, silent in answers if silent], [])
    let_go(origin, users)
    same("audit", proxy.stop(), IDLE)


@case
def tell_prints_the_whole_answer(bench):
    """Of no exchange, of many, and of a script; `trace` reads what it prints."""
    service = silent_service(bench, PREVIEW)
    proxy = bench.proxy(bench.keep(Site()), "shards = 1\ndeadline = 600", [("respmod", service.port, "/respmod/scan", 256)])
    config = bench.folder().write("proxy.toml", 'listen = "127.0.0.1:%d"\nadmin = "127.0.0.1:%d"\n' % (proxy.port, proxy.admin))

    def tell(*words):
        begun = time.time()
        ended = subprocess.run([ADAPTPROXY, "tell", "--config", config, *words], stdout=subprocess.PIPE, stderr=subprocess.PIPE, timeout=PATIENCE)
        same("at once: %s" % (words,), (ended.stderr, time.time() - begun < 5), (b"", True))
        return ended.stdout.decode(), ended.returncode
    for words in (("exchanges",), ("exchanges", "waiting")):
        same(words, tell(*words), ("# 0 exchanges, 0 idle\n", 0))
    same("over", tell("trace", "0-0-0"), ("gone\n", 0))
    same("bad", tell("trace", "0"), ("bad\n", 2))
    for _ in range(200):
        asks(bench, proxy, "/report.pdf")
    found = stand_still(proxy, *["service-reply"] * 200)
    for _ in range(20):
        lines = tell("exchanges")[0].splitlines()
        same("all", (len(lines), lines[-1]), (201, "# 200 exchanges, 0 idle"))
    script, status = tell("trace", found[0].id)
    is_script_of(found[0], script)
    same("status", status, 0)
    service.release.set()
    for user in [thing for thing in bench.all if isinstance(thing, User)]:
        user.close()
    same("book", settled(proxy)[:24], "rows 0 held 0 claimed 0 ")
    same("audit", proxy.stop(), IDLE)


class Stopped:
    """A thread of a program, by its name, that is stopped alone, as a debugger does it."""

    SEIZE, INTERRUPT, DETACH = 0x4206, 0x4207, 17

    def __init__(self, program, name):
        folder = "/proc/%d/task" % program.process.pid
        named = [int(tid) for tid in os.listdir(folder) if open(os.path.join(folder, tid, "comm")).read().strip() == name]
        same("the thread " + name, len(named), 1)
        self.tid = named[0]
        libc = ctypes.CDLL(None, use_errno=True)
        libc.ptrace.restype = ctypes.c_long
        libc.ptrace.argtypes = [ctypes.c_long, ctypes.c_long, ctypes.c_void_p, ctypes.c_void_p]
        self.ptrace = libc.ptrace
        needs("ptrace", self.ptrace(self.SEIZE, self.tid, None, None) == 0)
        same("interrupted", self.ptrace(self.INTERRUPT, self.tid, None, None), 0)
        os.waitpid(self.tid, 0x40000000)  # __WALL

    def go_on(self):
        same("goes on", self.ptrace(self.DETACH, self.tid, None, None), 0)


@case
def a_thread_that_stands_still_is_named(bench):
    """Within two seconds, and at the next question at once; the others answer, and so does it once it goes on."""
    origin = bench.origin()
    proxy = bench.proxy(origin, "shards = 2")
    users = [asks(bench, proxy, "/mute/%d" % number) for number in range(8)]
    comes("their exchanges", lambda: len(told(proxy).all) == 8)
    found = told(proxy).all
    same("threads", {one.id.split("-")[0] for one in found}, {"0", "1"})
    of_other = sorted(one.id for one in found if one.id.startswith("0-"))
    stopped = Stopped(proxy, "shard-1")
    try:
        begun = time.time()
        first = told(proxy)
        late = time.time() - begun
        begun = time.time()
        second = told(proxy, " waiting")
        silent = answer_to(proxy, "trace " + [one.id for one in found if one.id.startswith("1-")][0])
        again = time.time() - begun
        spoken = answer_to(proxy, "trace " + of_other[0])
        same("book", proxy.say("book")[:5], "rows ")
    finally:
        stopped.go_on()
    print("      named after %.2f s, and then after %.2f s" % (late, again))
    same("named", (first.silent, second.silent, silent), (["# thread 1: no answer"],) * 2 + ("# thread 1: no answer\n# EOF\n",))
    same("the others", sorted(one.id for one in first.all), of_other)
    same("of another thread", spoken, "none respmod waits-for origin-answer\n")
    same("in time", (1.5 < late < 3.5, again < 0.5), (True, True))
    comes("it answers again", lambda: sorted(one.id for one in told(proxy).all) == sorted(one.id for one in found))
    same("nobody is silent", told(proxy).silent, [])
    let_go(origin, users)
    same("audit", proxy.stop(), IDLE)


@case
def questions_in_a_row_cost_users_nothing(bench):
    """99 of 100 answers come as soon beside questions without a pause. The limit is generous: the machine may have much else to do."""
    words = ["asked", "--seconds", "3", "--rounds", "3", "--workers", "24", "--limit", "5"]
    ended = subprocess.run([sys.executable, os.path.join(TOP, "tools", "load_serve"), *words], stdout=subprocess.PIPE, stderr=subprocess.STDOUT,
                           env={**os.environ, "ADAPTPROXY": ADAPTPROXY, "ICAPD": ICAPD}, timeout=20 * PATIENCE)
    print("".join("      %s\n" % line for line in ended.stdout.decode().splitlines()), end="")
    same("load_serve", ended.returncode, 0)
