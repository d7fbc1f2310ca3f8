"""Who may use the proxy, by the address of a connection, and how many connections one address has."""
import socket
import threading

from serve_lab.cases import IDLE, at_once, case, comes, get, refusal, same
from serve_lab.descriptors import connections_of
from serve_lab.loopback import KEPT, PATIENCE, Closed, User, body_of
from serve_lab.operators import stats


def serves(proxy, source):
    """Whether a user of this address is answered. One that isn't gets no byte, and its connection ends."""
    user = User(proxy.port, source=source)
    try:
        user.sock.sendall(get("/bytes/3"))
        answer = user.answer()
        same("an answer to " + source, (answer.status, answer.body), (200, b"the"))
        return True
    except Closed as error:
        same("before the end, to " + source, error.args[0], b"")
        return False
    except (BrokenPipeError, ConnectionResetError):
        return False
    finally:
        user.close()


@case
def users_come_from_their_networks_alone(bench):
    """The first and the last address of each network, and those beside them."""
    origin = bench.origin()
    users = 'users = ["127.0.0.8/30", "127.1.0.1", "127.64.3.2/10", "127.2.0.0/31"]\n'
    proxy = bench.proxy(origin, "rows = 8\n" + users)
    served = ("127.0.0.8", "127.0.0.11", "127.1.0.1", "127.64.0.0", "127.127.255.254", "127.2.0.0", "127.2.0.1")
    refused = ("127.0.0.1", "127.0.0.7", "127.0.0.12", "127.1.0.0", "127.1.0.2", "127.63.255.255", "127.128.0.0", "127.1.255.255",
               "127.2.0.2")
    for source in served + refused:
        same(source, serves(proxy, source), source in served)
    same("who came", len(origin.heads), len(served))
    same("counted", stats(proxy)["adaptproxy_users_refused_total"], len(refused))
    same("audit", proxy.stop(), IDLE)


@case
def nobody_and_everybody_may_use_it(bench):
    origin = bench.origin()
    for users, count in ((b"users = []\n", 4), (b'users = ["127.0.0.1/0"]\n', 0), (b"", 0)):
        proxy = bench.proxy(origin, users.decode())
        found = [serves(proxy, source) for source in ("127.0.0.1", "127.0.0.2", "127.255.255.254", "127.128.0.1")]
        same(users, found, 4 * [count == 0])
        same("counted", stats(proxy)["adaptproxy_users_refused_total"], count)
        same("audit", proxy.stop(), IDLE)


@case
def connections_from_elsewhere_cost_others_nothing(bench):
    """With two seats and descriptors for few users, those from elsewhere take neither. Each descriptor is explained once those that are being
    closed are gone: there are two seconds for that."""
    origin = bench.origin()
    proxy = bench.proxy(origin, 'rows = 2\nshards = 1\nusers = ["127.0.0.1"]\n', descriptors=64)
    stays = User(proxy.port)
    kept = {"user": 1, "origin": 1} if KEPT else {"user": 1}

    def is_alone():
        return connections_of(proxy, {origin.port: "origin"}) == kept
    same("before", stays.ask(get("/bytes/5")).body, body_of(5))
    comes("one connection alone", is_alone, PATIENCE / 10)
    before = proxy.descriptors()

    def one(number):
        for turn in range(25):
            user = User(proxy.port, source="127.3.%d.%d" % (number, turn + 1))
            same("no byte", user.is_ended(), True)
            user.close()
    at_once(16, one)
    same("meanwhile", stays.ask(get("/bytes/7")).body, body_of(7))
    found = stats(proxy)
    same("counted", (found["adaptproxy_users_refused_total"], found["adaptproxy_users"]), (400, 1))
    comes("one connection alone again", is_alone, PATIENCE / 10)
    same("descriptors", proxy.descriptors(), before)
    stays.close()
    same("audit", proxy.stop(), IDLE)


class Download:
    """A user of an address that has asked for much and takes little of it."""

    def __init__(self, proxy, source):
        self.user = User(proxy.port, narrow=True, source=source)
        self.user.send(get("/bytes/8000000"))
        self.begun = self.user.reader.exactly(12)

    def close(self):
        self.user.close()


def over(what, proxy, source):
    """A further user of the address is refused, and its connection ends."""
    user = User(proxy.port, source=source)
    user.send(get("/bytes/1"))
    same(what, user.reader.to_end(), refusal(503))
    user.close()


@case
def one_address_doesnt_take_all(bench):
    """Eight slow downloads of one address, which wants more: everyone else is served."""
    origin = bench.origin()
    proxy = bench.proxy(origin, "rows = 12\nshards = 1\nuser_connections = 8\n")
    slow = [Download(proxy, "127.0.0.2") for _ in range(8)]
    same("begun", [one.begun for one in slow], 8 * [b"HTTP/1.1 200"])
    for _ in range(12):
        over("a ninth", proxy, "127.0.0.2")
    for source in ("127.0.0.1", "127.0.0.3", "127.0.0.4"):
        same(source, serves(proxy, source), True)
    same("counted", stats(proxy)["adaptproxy_users_over_limit_total"], 12)
    same("as before", [one.user.reader.exactly(1000)[:0] for one in slow], 8 * [b""])
    slow.pop().close()
    comes("one that has left", lambda: stats(proxy)["adaptproxy_users"] == 7)
    same("in its place", serves(proxy, "127.0.0.2"), True)
    for one in slow:
        one.close()
    same("audit", proxy.stop(), IDLE)


@case
def the_limit_of_an_address_holds_over_all_threads(bench):
    """Of the users that come at once, of two addresses and over four threads, just so many are served at a time."""
    origin = bench.origin()
    proxy = bench.proxy(origin, "rows = 64\nshards = 4\nuser_connections = 6\n")
    found, held, lock = {"127.0.0.2": [], "127.0.0.3": []}, [], threading.Lock()

    def one(number):
        source = "127.0.0.%d" % (2 + number % 2)
        user = User(proxy.port, source=source)
        user.send(get("/bytes/9"))
        status = user.answer().status
        with lock:
            found[source].append(status)
            held.append(user)
    at_once(40, one)
    for source, statuses in found.items():
        same(source, sorted(statuses), 6 * [200] + 14 * [503])
    same("counted", stats(proxy)["adaptproxy_users_over_limit_total"], 28)
    for user in held:
        user.close()
    comes("their leave", lambda: stats(proxy)["adaptproxy_users"] == 0)
    same("again", [serves(proxy, source) for source in found], [True, True])
    same("audit", proxy.stop(), IDLE)


@case
def addresses_that_left_are_forgotten(bench):
    """Many addresses come and go, with one connection each: none of them is refused, and memory stays."""
    origin = bench.origin()
    proxy = bench.proxy(origin, "rows = 64\nshards = 2\nuser_connections = 1\n")
    stays = User(proxy.port, source="127.0.0.9")
    stays.ask(get("/bytes/1"))

    def one(number):
        for turn in range(120):
            source = "127.%d.%d.1" % (10 + number, turn)
            user = User(proxy.port, source=source)
            same(source, user.ask(get("/bytes/2", "Connection: close\r\n")).status, 200)
            same("its end", user.is_ended(), True)
            user.close()
    at_once(8, one)
    over("a second one", proxy, "127.0.0.9")
    same("the first one", stays.ask(get("/bytes/4")).body, body_of(4))
    stays.sock.shutdown(socket.SHUT_RDWR)
    stays.close()
    same("audit", proxy.stop(), IDLE)
