"""Requests whose kept connection to the origin has just ended: they are begun anew, and nobody sees it."""
import random
import socket
import threading
import time

from serve_lab.cases import IDLE, at_once, case, comes, get, is_refused, post, same
from serve_lab.keeper import ENDS, LEAVING, WHOLE, Keeper, all_is_over, are_idle, counts, ending, reset
from serve_lab.loopback import PATIENCE, Closed, User, ask, body_of
from serve_lab.operators import stats


@case
def nobody_sees_that_an_idle_connection_has_just_ended(bench):
    """Origins that end a connection at once, after 20 ms, or just when the next request comes: each user gets its answers, in order."""
    icapd = bench.icapd("max = 256")
    both = [("reqmod", icapd, "/reqmod/pass", 64), ("respmod", icapd, "/respmod/upper", 64)]

    def slowly(conn, reader, head, count):
        time.sleep(0.03)
        return service.no_modification(conn, reader, head, count)
    service = bench.icap(slowly)
    slow = [("reqmod", service.port, "/reqmod/x", 64), both[1]]
    few = [("reqmod", icapd, "/reqmod/pass", 1), ("respmod", icapd, "/respmod/upper", 2)]
    for services, dial in (([], "first"), ([], "late"), (both[1:], "first"), (both, "late"), (both, "first"), (slow, "first"), (slow, "late"),
                           (few, "first"), (few, "late")):
        origin = bench.keep(Keeper(LEAVING))
        proxy = bench.proxy(origin, 'shards = 2\nkeep_origins = 8\nwait = 20\ndial = "%s"' % dial, services)
        names, rounds = list(LEAVING), 12

        def one(number):
            own, user = random.Random(number), User(proxy.port)
            for _ in range(rounds):
                asked, sent = [], b""
                for _ in range(own.choice((1, 1, 1, 4))):
                    size = own.choice((0, 5, 5000))
                    body = body_of(own.choice((3, 9000))) if own.random() < 0.2 else None
                    method = own.choice(("GET", "GET", "HEAD", "OPTIONS"))
                    path = "/%s/%d" % (own.choice(names), size)
                    sent += get(path, method=method) if body is None else post(path, body)
                    asked.append((path, body_of(size), method == "HEAD" and body is None))
                user.send(sent)
                for path, wanted, to_head in asked:
                    answer = user.answer(to_head)
                    same(path, (answer.status, answer.body),
                         (200, b"" if to_head else wanted.upper() if services else wanted))
                time.sleep(own.choice((0, 0, 0.001, 0.019, 0.02, 0.021, 0.05)))
            user.close()
        at_once(8, one)
        opened, reused, anew, _idle = counts(proxy)
        print("      %d requests, dial %s, %d services: %d opened, %d reused, %d begun anew"
              % (len(origin.asked), dial, len(services), opened, reused, anew))
        same("some were kept, and some begun anew", (reused > 0, anew > 0), (True, True))
        all_is_over(origin, proxy)


@case
def a_request_is_begun_anew_once_at_most(bench):
    """One whose kept connection ended with no byte of an answer is begun anew, on a fresh connection. One that meets the same there, that
    has heard a byte of an answer, or that has a body isn't; nor is one whose origin is silent."""
    def first_well(then):
        """Answers the first request of the first connection; what comes then is met by `then`."""
        def act(visit, *_words):
            if not seen.setdefault(visit.number, len(seen)):
                if visit.place == 1:
                    return visit.put(b"well")
            return then(visit)
        return act

    def partly(text):
        def act(visit):
            visit.send(text)
            time.sleep(0.05)
            return False
        return act
    service = bench.icap()
    rows = [("its end", lambda visit: False, 502, 2), ("a reset", reset, 502, 2), ("a byte", partly(b"H"), 502, 1),
            ("a head's part", partly(WHOLE[:30]), 502, 1), ("an interim head", partly(b"HTTP/1.1 100 Continue\r\n\r\n"), 502, 1),
            ("an interim head's part", partly(b"HTTP/1.1 103 Hints\r\nLi"), 502, 1), ("an empty line", partly(b"\r\n"), 502, 1),
            ("no HTTP", partly(b"what is this\r\n\r\n"), 502, 1), ("silence", lambda visit: visit.hears(PATIENCE) and False, 504, 1)]
    for services in ([], [("reqmod", service.port, "/reqmod/x", 4)]):
        for dial in ("first", "late"):
            for name, then, status, times in rows:
                seen = {}
                origin = bench.keep(Keeper({"then": first_well(then)}))
                proxy = bench.proxy(origin, 'shards = 1\nkeep_origins = 4\ndeadline = 2\ndial = "%s"' % dial, services)
                same("well", ask(proxy.port, get("/then")).body, b"well")
                are_idle(proxy, 1)
                offered = len(service.requests)
                is_refused(name, proxy.port, get("/then"), status)
                same("how often, after " + name, [each.place for each in origin.asked], [1, 2, 1][:1 + times])
                same("counted, after " + name, counts(proxy)[:3], (times, 1, times - 1))
                if services:
                    same("offered, after " + name, len(service.requests) - offered, times)
                all_is_over(origin, proxy)


@case
def a_request_meets_a_connection_that_has_just_been_reset(bench):
    """The user's request and what became of the kept connection lie ready at once, the request first: a write that fails is begun anew too."""
    icapd = bench.icapd()
    both = [("reqmod", icapd, "/reqmod/pass"), ("respmod", icapd, "/respmod/upper")]
    for services, dial in (([], "first"), ([], "late"), (both, "first"), (both, "late")):
        for how in ("end", "reset", "half", "byte", "answer"):
            def act(visit, how=how):
                visit.put(b"well")
                if visit.number > 1:
                    return True
                origin.release.wait(PATIENCE)
                if how in ("byte", "answer"):
                    return visit.send(b"x" if how == "byte" else WHOLE)
                return ENDS[how](visit)
            origin = bench.keep(Keeper({"then": act}))
            proxy = bench.proxy(origin, 'shards = 1\nkeep_origins = 4\ndial = "%s"' % dial, services)
            user = User(proxy.port)
            wanted = b"WELL" if services else b"well"
            same("at first", user.ask(get("/then")).body, wanted)
            are_idle(proxy, 1)
            proxy.halt()
            user.send(get("/then"))
            time.sleep(0.02)
            origin.release.set()
            time.sleep(0.05)
            proxy.go_on()
            answer = user.answer()
            same("after %s, dial %s, %d services" % (how, dial, len(services)), (answer.status, answer.body), (200, wanted))
            all_is_over(origin, proxy)


@case
def a_request_that_is_begun_anew_needs_no_more_than_before(bench):
    """All that it held goes back first: with one row, room for one message, and one connection to its service it is served."""
    service = bench.icap(options=[b"Max-Connections: 1", b"Options-TTL: 0", b"Preview: 0", b"Transfer-Preview: *"])
    both = [("reqmod", service.port, "/reqmod/x", 1), ("respmod", service.port, "/respmod/x", 1)]
    for dial in ("first", "late"):
        for services, capacity in (([], 8192), (both[:1], 16384), (both[1:], 16384), (both, 16384)):
            origin = bench.keep(Keeper({"asked": ending(None, "end"), "reset": ending(None, "reset")}))
            text = 'shards = 1\nrows = 1\nkeep_origins = 2\ncapacity = %d\nwindow = 8192\ndial = "%s"' % (capacity, dial)
            proxy = bench.proxy(origin, text, services, descriptors=38)
            user = User(proxy.port)
            for turn in range(12):
                path = ("/asked/5", "/reset/5")[turn % 2]
                answer = user.ask(get(path))
                same("%s, dial %s, %d services" % (path, dial, len(services)), (answer.status, answer.body), (200, body_of(5)))
            same("begun anew", counts(proxy)[2] > 5, True)
            user.close()
            all_is_over(origin, proxy)


@case
def a_request_that_is_begun_anew_is_the_same(bench):
    """Its head, what the service of requests is offered, and what comes after it on its connection: a piped request, or the end."""
    stamp = bench.icapd()
    for services, dial in (([], "first"), ([], "late"), ([("reqmod", stamp, "/reqmod/stamp")], "first")):
        origin = bench.keep(Keeper({"unread": ending(None, "unread"), "asked": ending(None, "reset")}))
        proxy = bench.proxy(origin, 'shards = 1\nkeep_origins = 4\ndial = "%s"' % dial, services)
        for kind in ("unread", "asked"):
            long = "X-Long: %s\r\nCookie: a=%s\r\n" % ("y" * 9000, kind)
            user = User(proxy.port)
            user.send(get("/%s/7" % kind, long) + get("/%s/6" % kind, long) + post("/bytes/5", b"abc") + get("/%s/4" % kind, long))
            same("in order", [user.answer().body for _ in range(4)], [body_of(size) for size in (7, 6, 5, 4)])
            heads = [each.head for each in origin.asked if each.path == "/%s/6" % kind]
            same("heads", {b"y" * 9000 in head for head in heads}, {True})
            same("the same head", len(set(heads)), 1)
            user.send(get("/%s/3" % kind, "Connection: close\r\n"))
            same("the last one", (user.answer().body, user.is_ended()), (b"the", True))
            ended = User(proxy.port)
            ended.send(get("/%s/3" % kind))
            ended.sock.shutdown(socket.SHUT_WR)
            same("a user that has ended its side", ended.answer().body, b"the")
        same("begun anew", counts(proxy)[2] > 0, True)
        all_is_over(origin, proxy)


@case
def users_that_leave_while_they_are_begun_anew_leave_nothing(bench):
    origin = bench.keep(Keeper(LEAVING))
    service = bench.icap()
    for services in ([], [("reqmod", service.port, "/reqmod/x", 64)]):
        proxy = bench.proxy(origin, "shards = 2\nkeep_origins = 8\nwait = 5", services)

        def one(number):
            own = random.Random(number)
            for _ in range(60):
                user = User(proxy.port)
                user.send(get("/%s/%d" % (own.choice(("unread", "as-it-is-asked", "reset-as-it-is-asked", "after-20-ms")), own.choice((3, 90000)))))
                if own.random() < 0.3:
                    same("one that stays", user.answer().status, 200)
                else:
                    time.sleep(own.choice((0, 0, 0.001, 0.003)))
                (user.reset if own.random() < 0.5 else user.close)()
        at_once(8, one)
        comes("their leave", lambda: stats(proxy)["adaptproxy_users"] == 0)
        all_is_over(origin, proxy)


@case
def a_stop_and_a_drain_amid_requests_that_are_begun_anew_leave_nothing(bench):
    """At any moment of them: a drain loses no request, and the audit finds nothing out."""
    icapd = bench.icapd("max = 256")
    both = [("reqmod", icapd, "/reqmod/pass", 32), ("respmod", icapd, "/respmod/pass", 32)]
    names = list(LEAVING)
    for turn in range(16):
        word = ("stop", "drain")[turn % 2]
        origin = bench.keep(Keeper(LEAVING))
        proxy = bench.proxy(origin, "shards = 2\nkeep_origins = 8\nwait = 5", both if turn % 4 > 1 else [])
        wrong = []

        def one(number):
            own = random.Random("%d %d" % (turn, number))
            user = User(proxy.port)
            while True:
                path = "/%s/%d" % (own.choice(names), own.choice((0, 5, 5000)))
                try:
                    answer = user.ask(get(path))
                except (Closed, OSError):
                    # Closed between two requests: of a drain only where it said so, or was silent.
                    return user.close()
                if answer.status != 200 and word == "drain":
                    wrong.append((path, answer.status))
                if answer.fields.get("connection") == "close":
                    return user.close()
        users = [threading.Thread(target=one, args=(number,)) for number in range(8)]
        for user in users:
            user.start()
        time.sleep(0.1 + 0.037 * turn)
        if word == "drain":
            same("drain", proxy.say("drain"), "ok")
            printed, errors, status = proxy.ended()
            same("ended", (printed.decode().strip(), errors, status), (IDLE, b"", 0))
        else:
            same("audit", proxy.stop(), IDLE)
        for user in users:
            user.join()
        same("refused at a drain", wrong, [])
        same("at the origin", origin.wrong, [])
