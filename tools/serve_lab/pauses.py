"""Services that fail so often in a row that they are paused."""
import threading
import time

from serve_lab.cases import IDLE, at_once, case, get, is_refused, refusal, same, settled
from serve_lab.loopback import PATIENCE, Icap, Server, User, ask, body_of, free_port
from serve_lab.operators import stats
from serve_lab.queues import wait_for

PAGE = get("/bytes/3")
PAUSE = 2.0


def is_paused(proxy, point="respmod"):
    return stats(proxy)['adaptproxy_service_paused{point="%s"}' % point]


def paused_refusals(proxy, point="respmod"):
    return stats(proxy)['adaptproxy_refusals_total{point="%s",why="service-paused"}' % point]


def at_once_refused(what, proxy, status=502, request=PAGE):
    begun = time.time()
    is_refused(what, proxy.port, request, status)
    same("%s: at once, %.2f s" % (what, time.time() - begun), time.time() - begun < 0.5, True)


class Moody(Icap):
    """A service that, as `mood` says, serves, is silent, or breaks off."""

    def __init__(self, mood="serves", **words):
        self.mood = mood
        super().__init__(self.answer, **words)

    def answer(self, conn, reader, head, count):
        mood = self.mood
        if mood == "serves":
            return self.no_modification(conn, reader, head, count)
        self.rest(reader, head)
        if mood == "is silent":
            self.release.wait(PATIENCE)
        return False


@case
def a_service_that_refuses_is_paused(bench):
    """Its port is closed: three users are refused for that, and each further one for the pause. Once it is over one tries the service,
    and where that listens again everyone is served."""
    origin = bench.origin()
    port = free_port()
    proxy = bench.proxy(origin, "service_failures = 3\nservice_pause = %d\n" % PAUSE, [("respmod", port, "/respmod")])
    for number in range(3):
        same("not paused", (number, is_paused(proxy)), (number, 0))
        is_refused("refused", proxy.port, PAGE, 502)
    begun = time.time()
    same("paused", (is_paused(proxy), paused_refusals(proxy)), (1, 0))
    for _ in range(20):
        at_once_refused("paused", proxy)
    same("counted", paused_refusals(proxy), 20)
    time.sleep(max(0.0, begun + PAUSE + 1.1 - time.time()))
    is_refused("still refused", proxy.port, PAGE, 502)
    same("tried once", (is_paused(proxy), paused_refusals(proxy)), (1, 20))
    at_once_refused("paused again", proxy)
    same("counted again", paused_refusals(proxy), 21)
    bench.icap(port=port)
    time.sleep(PAUSE + 1.1)
    for _ in range(5):
        same("served", ask(proxy.port, PAGE).body, body_of(3))
    same("no pause", is_paused(proxy), 0)
    same("book", settled(proxy)[:24], "rows 0 held 0 claimed 0 ")
    same("audit", proxy.stop(), IDLE)


@case
def a_silent_service_costs_few_users_a_deadline(bench):
    """Two users wait for the deadline; whoever comes then is refused at once. Under load one alone tries the service after each pause, and
    its answer ends the pause for all."""
    origin = bench.origin()
    service = bench.keep(Moody("is silent"))
    proxy = bench.proxy(origin, "shards = 2\ndeadline = 1\nretry = false\nservice_failures = 2\nservice_pause = %d\n" % PAUSE,
                        [("respmod", service.port, "/respmod", 64)])
    for _ in range(2):
        is_refused("late", proxy.port, PAGE, 504)
    begun, asked = time.time(), len(service.requests)
    at_once_refused("paused", proxy)
    time.sleep(max(0.0, begun + PAUSE + 1.1 - time.time()))
    found = crowd(proxy, 32)
    same("one is late, the others are refused", sorted(found), [502] * 31 + [504])
    same("the service was tried once", len(service.requests) - asked, 1)
    at_once_refused("another pause", proxy)
    service.mood = "serves"
    at_once_refused("it isn't over", proxy)
    time.sleep(PAUSE + 1.1)
    found = crowd(proxy, 32)
    same("some are served", set(found) <= {200, 502} and 200 in found, True)
    same("then all are", crowd(proxy, 32), [200] * 32)
    same("no pause", is_paused(proxy), 0)
    same("book", settled(proxy)[:24], "rows 0 held 0 claimed 0 ")
    same("audit", proxy.stop(), IDLE)


def crowd(proxy, count):
    """The statuses that so many users get at once."""
    found, lock = [], threading.Lock()

    def one(_number):
        user = User(proxy.port)
        answer = user.ask(PAGE)
        with lock:
            found.append(answer.status)
        user.close()
    at_once(count, one)
    return found


@case
def each_point_is_paused_apart(bench):
    """The service of responses breaks off. That of requests goes on, and the other way round."""
    origin = bench.origin()
    text = "retry = false\nservice_failures = 2\nservice_pause = 60\n"
    for bad, good in (("respmod", "reqmod"), ("reqmod", "respmod")):
        broken, sound = bench.keep(Moody("breaks")), bench.keep(Moody())
        proxy = bench.proxy(origin, text, [(bad, broken.port, "/" + bad), (good, sound.port, "/" + good)])
        for _ in range(2):
            is_refused("broken", proxy.port, PAGE, 502)
        asked, tried = len(sound.requests), len(broken.requests)
        for _ in range(3):
            at_once_refused("paused", proxy)
        same("the paused one isn't asked", len(broken.requests), tried)
        same("the other one is, where its turn comes", len(sound.requests) - asked, 3 if good == "reqmod" else 0)
        same("by the counters", (is_paused(proxy, bad), is_paused(proxy, good)), (1, 0))
        same("reasons", (paused_refusals(proxy, bad), paused_refusals(proxy, good)), (3, 0))
        same("audit", proxy.stop(), IDLE)


@case
def questions_for_options_that_fail_count(bench):
    """A service that is silent at OPTIONS, and one that breaks off there. A status that isn't taken is an answer: it never pauses."""
    origin = bench.origin()
    text = "deadline = 1\nretry = false\nservice_failures = 2\nservice_pause = 60\n"
    silent = bench.icap(None, answer_options=False)
    ends = bench.keep(Server(lambda conn, _number: conn.recv(4096)))
    says = bench.keep(Server(lambda conn, _number: (conn.recv(4096), conn.sendall(
        b"ICAP/1.0 404 No\r\nISTag: \"t\"\r\nEncapsulated: null-body=0\r\nConnection: close\r\n\r\n"))))
    for service, status, pauses in ((silent, 504, True), (ends, 502, True), (says, 502, False)):
        proxy = bench.proxy(origin, text, [("respmod", service.port, "/respmod")])
        for _ in range(2):
            is_refused("fails", proxy.port, PAGE, status)
        same("paused", is_paused(proxy), int(pauses))
        for _ in range(3):
            at_once_refused("refused", proxy)
        same("for the pause", paused_refusals(proxy), 3 if pauses else 0)
        same("audit", proxy.stop(), IDLE)


@case
def those_who_wait_are_refused_when_a_pause_begins(bench):
    """One connection, on which the service is silent for a first user: the others wait for it until the service breaks off."""
    origin = bench.origin()
    service = bench.keep(Moody("is silent", options=[b"Max-Connections: 1"]))
    proxy = bench.proxy(origin, "shards = 2\ndeadline = 60\nwait = 60\nretry = false\nservice_failures = 1\nservice_pause = 60\n",
                        [("respmod", service.port, "/respmod", 1)])
    first = User(proxy.port)
    first.send(PAGE)
    while not service.requests:
        time.sleep(0.01)
    users = [User(proxy.port) for _ in range(12)]
    for user in users:
        user.send(PAGE)
    wait_for(proxy, 12)
    service.release.set()
    same("the first one", first.reader.to_end(), refusal(502))
    begun = time.time()
    for user in users:
        same("one that waits", user.reader.to_end(), refusal(502))
    same("at once", time.time() - begun < 0.5, True)
    same("for the pause", paused_refusals(proxy), 12)
    same("one request", len(service.requests), 1)
    same("book", settled(proxy)[:24], "rows 0 held 0 claimed 0 ")
    same("audit", proxy.stop(), IDLE)


@case
def a_user_that_leaves_while_it_tries_leaves_the_try_to_the_next(bench):
    """The one that tries a silent service is gone before it says anything: the next one tries it at once."""
    origin = bench.origin()
    service = bench.keep(Moody("breaks"))
    proxy = bench.proxy(origin, "deadline = 5\nretry = false\nservice_failures = 1\nservice_pause = 1\n", [("respmod", service.port, "/respmod")])
    is_refused("broken", proxy.port, PAGE, 502)
    time.sleep(2.1)
    service.mood = "is silent"
    asked = len(service.requests)
    user = User(proxy.port)
    user.send(PAGE)
    while len(service.requests) == asked:
        time.sleep(0.01)
    at_once_refused("while it is tried", proxy)
    service.mood = "serves"
    user.reset()
    end = time.time() + 0.8
    while ask(proxy.port, PAGE).status != 200:
        same("within a pause", time.time() < end, True)
        time.sleep(0.02)
    same("no pause", is_paused(proxy), 0)
    same("audit", proxy.stop(), IDLE)
