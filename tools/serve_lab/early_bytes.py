"""Bytes and ends that come on a kept connection before the next request goes out on it: they answer nothing, and nobody gets them."""
import socket
import threading
import time

from serve_lab.cases import case, comes, get, same
from serve_lab.keeper import Keeper, all_is_over, are_idle, counts
from serve_lab.loopback import Icap, User
from serve_lab.operators import stats

ALIEN = b"HTTP/1.1 200 OK\r\nContent-Length: 9\r\nX-Alien: 1\r\n\r\nsmuggled!"
LATE = b"HTTP/1.1 408 Request Time-out\r\nContent-Length: 0\r\nConnection: close\r\n\r\n"
# How many users send a byte at once: fewer events than a poll of the proxy reports, and more.
CROWDS = (10, 300, 600)


def slowly(slow):
    """A service of requests that answers the path /slow after this time only."""
    def answer(conn, reader, head, _count):
        heads, _body, _last = Icap.rest(reader, head)
        if b"/slow" in heads:
            time.sleep(slow)
        conn.sendall(Icap.NO_MODIFICATION)
        return True
    return answer


def waiting_user(proxy, path, others):
    """A user whose request comes at once with a byte of each of the others."""
    proxy.halt()
    user = User(proxy.port)
    user.send(get(path))
    for other in others:
        other.send(b"G")
    time.sleep(0.2)
    return user


@case
def what_came_while_a_service_was_asked_answers_nothing(bench):
    """A request has its kept connection before its service is asked. What the origin sends meanwhile isn't its answer."""
    service = bench.icap(slowly(0.6))
    for dial in ("first", "late"):
        for name, extra, ends in (("an answer", ALIEN, False), ("a timeout", LATE, True), ("a timeout, open", LATE, False), ("an end", b"", True),
                                  ("a byte", b"x", False)):
            def act(visit, *_words, extra=extra, ends=ends):
                def later():
                    if extra:
                        visit.send(extra)
                    if ends:
                        visit.conn.shutdown(socket.SHUT_RDWR)
                visit.put(b"right" if visit.number > 1 else b"first")
                if visit.number == 1:
                    threading.Timer(0.2, later).start()
            origin = bench.keep(Keeper({"first": act, "slow": act}))
            proxy = bench.proxy(origin, 'shards = 1\nkeep_origins = 4\ndial = "%s"' % dial, [("reqmod", service.port, "/reqmod/x", 4)])
            user = User(proxy.port)
            same("at first", user.ask(get("/first")).body, b"first")
            answer = user.ask(get("/slow"))
            same("after " + name, (answer.status, answer.body, answer.fields.get("x-alien")), (200, b"right", None))
            same("asked", [(each.number, each.path) for each in origin.asked], [(1, "/first"), (2, "/slow")])
            same("counted", counts(proxy)[2], 1)
            all_is_over(origin, proxy)


@case
def a_crowd_of_events_hides_no_byte_of_an_origin(bench):
    """Where more is reported than a poll has room for, an idle connection of which it said nothing is looked at before it is used."""
    for many in CROWDS:
        visits = []

        def act(visit, *_words):
            visits.append(visit)
            visit.put(b"right" if visit.number > 1 else b"first")
        origin = bench.keep(Keeper({"first": act}))
        proxy = bench.proxy(origin, "shards = 1\nrows = 1024\nkeep_origins = 4", descriptors=8000)
        others = [User(proxy.port) for _ in range(many)]
        comes("users", lambda: stats(proxy)["adaptproxy_users"] == many)
        same("at first", others[0].ask(get("/first")).body, b"first")
        are_idle(proxy, 1)
        user = waiting_user(proxy, "/first", others[1:])
        visits[0].send(ALIEN)
        time.sleep(0.2)
        proxy.go_on()
        answer = user.answer()
        same("beside %d" % many, (answer.status, answer.body, answer.fields.get("x-alien")), (200, b"right", None))
        for other in others:
            other.close()
        user.close()
        all_is_over(origin, proxy)


@case
def a_crowd_of_events_hides_no_end_of_a_service(bench):
    """A service's idle connection that has ended isn't used either, though a message may not be sent again."""
    for many in CROWDS:
        conns = []

        def reply(conn, reader, head, _count):
            conns.append(conn)
            Icap.rest(reader, head)
            conn.sendall(Icap.NO_MODIFICATION)
            return True
        service, origin = bench.icap(reply), bench.keep(Keeper())
        proxy = bench.proxy(origin, "shards = 1\nrows = 1024\nretry = false", [("reqmod", service.port, "/reqmod/x", 4)], descriptors=8000)
        others = [User(proxy.port) for _ in range(many)]
        comes("users", lambda: stats(proxy)["adaptproxy_users"] == many)
        same("at first", others[0].ask(get("/bytes/3")).status, 200)
        time.sleep(1.1)
        user = waiting_user(proxy, "/bytes/3", others[1:])
        conns[-1].shutdown(socket.SHUT_RDWR)
        time.sleep(0.2)
        proxy.go_on()
        same("beside %d" % many, user.answer().status, 200)
        for other in others:
            other.close()
        user.close()
        all_is_over(origin, proxy)
