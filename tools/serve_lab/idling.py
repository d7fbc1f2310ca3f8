"""Connections to origins that lie idle: what comes on them, how long they stay, how many, and to whom they give way."""
import collections
import random
import select
import socket
import threading
import time

from serve_lab.cases import IDLE, at_once, case, comes, get, is_refused, post, same, statuses_of
from serve_lab.descriptors import connections_of
from serve_lab.keeper import CHUNKED, COUNTS, LEAVING, WHOLE, Keeper, all_is_over, are_idle, counts, ending, says, waits
from serve_lab.loopback import PATIENCE, Icap, User, ask, body_of, fields_of
from serve_lab.operators import stats
from serve_lab.shortages import processor_time


@case
def a_connection_that_ends_with_its_answer_is_not_kept(bench):
    """What came with the answer, or right after it, is known by the next request: it needn't be begun anew."""
    for how in ("end", "reset", "half"):
        for size in (0, 5, 4052, 4053, 4054, 5000, 100000):
            origin = bench.keep(Keeper({"left": ending((how, 0))}))
            proxy = bench.proxy(origin, "shards = 1\nkeep_origins = 4")
            user = User(proxy.port)
            for _ in range(4):
                same("an answer", user.ask(get("/left/%d" % size)).body == body_of(size), True)
                time.sleep(0.05)
            opened, reused, anew, _idle = counts(proxy)
            same("%s after %d bytes" % (how, size), (opened, reused, anew), (4, 0, 0))
            all_is_over(origin, proxy)


@case
def what_comes_while_a_service_has_the_answer_is_seen(bench):
    """The origin's answer was read whole, and its service takes its time; meanwhile the origin says more, ends, or breaks off."""
    def slowly(conn, reader, head, count):
        parts = Icap.rest(reader, head)
        time.sleep(0.2)
        if count % 2:
            conn.sendall(Icap.NO_MODIFICATION)
        else:
            Icap.same(conn, fields_of(head), *parts)
        return True

    def more(text):
        def act(visit, *words):
            visit.put(body_of(int(words[-1])))
            if visit.place == 1 and not visit.hears(0.1):
                visit.send(text)
        return act
    acts = {"byte": more(b"x"), "line": more(b"\r\n"), "answer": more(WHOLE), "end": ending(("end", 0.1)), "half": ending(("half", 0.1)),
            "reset": ending(("reset", 0.1))}
    service = bench.icap(slowly)
    for name in acts:
        origin = bench.keep(Keeper(acts))
        proxy = bench.proxy(origin, "shards = 1\nkeep_origins = 4", [("respmod", service.port, "/respmod/x")])
        user = User(proxy.port)
        for size in (5, 3000, 5, 20000):
            same(name, user.ask(get("/%s/%d" % (name, size))).body == body_of(size), True)
        same("fresh ones, of " + name, ({each.place for each in origin.asked}, counts(proxy)[1:3]), ({1}, (0, 0)))
        all_is_over(origin, proxy)


@case
def an_idle_connection_on_which_a_byte_comes_is_closed(bench):
    """Bytes that come on an idle connection, an answer too: it is closed, and nobody reads them."""
    for text in (b"x", b"\r\n", WHOLE, CHUNKED, b"HTTP/1.1 408 Request Timeout\r\nContent-Length: 0\r\nConnection: close\r\n\r\n", 30000 * b"y"):
        said = threading.Event()

        def act(visit, text=text, said=said):
            visit.put(b"first")
            if visit.number == 1:
                said.wait(PATIENCE)
                visit.send(text)
        origin = bench.keep(Keeper({"then": act}))
        proxy = bench.proxy(origin, "shards = 1\nkeep_origins = 4")
        user = User(proxy.port)
        same("the first", user.ask(get("/then")).body, b"first")
        are_idle(proxy, 1)
        said.set()
        # It is looked at once a second at the latest.
        comes("its end", lambda: origin.ended == [1])
        are_idle(proxy, 0)
        same("the next one", (user.ask(get("/then")).body, origin.last().number), (b"first", 2))
        same("the one after it", (user.ask(get("/then")).body, origin.last().number), (b"first", 2))
        all_is_over(origin, proxy)


@case
def an_idle_connection_that_spoke_is_never_used(bench):
    """The next request comes as soon as the origin has said more: 50 ms after that, no byte of it may come to anybody."""
    def act(visit, *words):
        visit.put(body_of(int(words[-1])))
        visit.send(WHOLE)
        visit.hears(0.05)
    origin = bench.keep(Keeper({"late": act}))
    proxy = bench.proxy(origin, "shards = 1\nkeep_origins = 16")
    user = User(proxy.port)
    for turn in range(40):
        path = "/late/%d" % (3, 4000, 30000)[turn % 3]
        same("an answer", user.ask(get(path)).body == body_of(int(path[6:])), True)
        time.sleep(0.05)
    same("never twice", {each.place for each in origin.asked}, {1})
    all_is_over(origin, proxy)


@case
def an_idle_connection_is_closed_in_time(bench):
    """`origin_idle` seconds after its last answer, and at most a second early or late, since moments are whole seconds; before that it
    serves."""
    origin = bench.keep(Keeper())
    brief = bench.proxy(origin, "shards = 2\nkeep_origins = 8\norigin_idle = 2")
    user = User(brief.port)
    user.ask(get("/bytes/3"))
    for _ in range(3):
        time.sleep(1)
        same("it serves", (user.ask(get("/bytes/3")).body, origin.last().number), (b"the", 1))
    begun = time.time()
    time.sleep(0.9)
    same("not early", origin.ended, [])
    comes("its end", lambda: origin.ended == [1])
    print("      closed after %.2f s" % (time.time() - begun))
    same("in time", time.time() - begun < 3.6, True)
    are_idle(brief, 0)
    same("a fresh one", (user.ask(get("/bytes/3")).body, origin.last().number), (b"the", 2))
    patient = bench.proxy(origin, "shards = 2\nkeep_origins = 8\norigin_idle = 3600")
    same("an answer", ask(patient.port, get("/bytes/3")).body, b"the")
    number = origin.last().number
    time.sleep(4)
    same("it stays", (number in origin.ended, counts(patient)[3]), (False, 1))
    all_is_over(origin, brief, patient)


@case
def no_more_lie_idle_than_the_key_says(bench):
    """With room for three, ten connections that come back leave the three youngest; and the youngest serves first."""
    origin = bench.keep(Keeper())
    origin.acts["wait"] = waits(origin)
    proxy = bench.proxy(origin, "shards = 1\nkeep_origins = 3\nrows = 64")
    turns = {number: threading.Event() for number in range(1, 11)}

    def in_turn(visit, *_words):
        turns[visit.number].wait(PATIENCE)
        visit.put(b"the")
    origin.acts["turn"] = in_turn
    users = [User(proxy.port) for _ in range(10)]
    for place, user in enumerate(users):
        user.send(get("/turn/3"))
        comes("an exchange", lambda: len(origin.asked) == place + 1)
    for number, user in enumerate(users, 1):
        turns[number].set()
        same("an answer", user.answer().body, b"the")
        time.sleep(0.02)
    are_idle(proxy, 3)
    comes("the oldest go", lambda: sorted(origin.ended) == list(range(1, 8)))
    # One that was laid down just now gives way to one of which it is known that nothing came on it: its thread looks once a second.
    time.sleep(2.5)
    same("the youngest", (users[0].ask(get("/bytes/3")).body, origin.last().number), (b"the", 10))
    time.sleep(2.5)
    blocked = [User(proxy.port) for _ in range(3)]
    for place, user in enumerate(blocked):
        user.send(get("/wait/3"))
        comes("an exchange", lambda: origin.last().path == "/wait/3" and len(origin.asked) == 12 + place)
    same("the youngest first", [each.number for each in origin.asked[-3:]], [10, 9, 8])
    same("then a fresh one", (users[0].ask(get("/bytes/3")).body, origin.last().number), (b"the", 11))
    origin.release.set()
    same("all are answered", [user.answer().body for user in blocked], 3 * [b"the"])
    are_idle(proxy, 3)
    all_is_over(origin, proxy)


@case
def a_connection_serves_its_own_address_and_port_alone(bench):
    """Forty origins of one port, at forty addresses, and one more port: no request comes to another one than its own."""
    origin, other = bench.keep(Keeper(address="0.0.0.0")), bench.keep(Keeper())
    proxy = bench.proxy(origin, "shards = 2\nkeep_origins = 64", hosts='"also.test" = "127.0.0.1:%d"' % origin.port)
    wrong = []

    def act(visit, *words):
        name, port = visit.conn.getsockname()
        if words[0] != name:
            wrong.append((words, name, port))
        visit.put(name.encode())
    origin.acts["at"] = act

    def one(number):
        own, user = random.Random(number), User(proxy.port)
        for _ in range(60):
            name = "127.0.1.%d" % own.randrange(1, 41)
            target = b"http://%s:%d/at/%s" % (name.encode(), origin.port, name.encode())
            same(name, user.ask(b"GET %s HTTP/1.1\r\nHost: x\r\n\r\n" % target).body, name.encode())
        user.close()
    at_once(8, one)
    same("no other one", wrong, [])
    same("some were reused", counts(proxy)[1] > 0, True)
    literal = b"GET http://127.0.0.1:%d/bytes/4 HTTP/1.1\r\nHost: x\r\n\r\n"
    for port, one_of in ((origin.port, origin), (other.port, other), (origin.port, origin)):
        same("by its port", (ask(proxy.port, literal % port).body, one_of.last().path), (b"the ", "/bytes/4"))
    user = User(proxy.port)
    numbers = []
    for host in ("o.test", "also.test", "O.TEST"):
        same(host, user.ask(get("/bytes/3").replace(b"o.test", host.encode())).body, b"the")
        numbers.append((origin.last().number, b"\r\nHost: %s\r\n" % host.encode() in origin.last().head))
    same("two names of one address", numbers, 3 * [(numbers[0][0], True)])
    user.close()
    all_is_over(origin, proxy)
    same("at the other one", other.wrong, [])


def several_idle(proxy, origin, number):
    """Has so many connections to an origin lie idle, each of an address of its own, in all threads; and lets the users go."""
    users = [User(proxy.port) for _ in range(4)]
    for place in range(number):
        request = b"GET http://127.0.2.%d:%d/bytes/3 HTTP/1.1\r\nHost: x\r\n\r\n" % (place + 1, origin.port)
        same("an answer", users[place % 4].ask(request).body, b"the")
    for user in users:
        user.close()
    are_idle(proxy, number)


@case
def idle_connections_to_origins_go_at_a_drain_and_at_a_stop(bench):
    for word in ("drain", "stop"):
        origin = bench.keep(Keeper(address="0.0.0.0"))
        origin.acts["wait"] = waits(origin)
        proxy = bench.proxy(origin, "shards = 2\nkeep_origins = 16")
        several_idle(proxy, origin, 12)
        busy = User(proxy.port)
        busy.send(get("/wait/3"))
        comes("the exchange", lambda: origin.last().path == "/wait/3")
        with socket.create_connection(("127.0.0.1", proxy.admin), PATIENCE) as sock:
            sock.sendall(word.encode() + b"\n")
            comes("their ends", lambda: len(origin.ended) == 12)
        if word == "drain":
            same("it serves on", (proxy.process.poll(), counts(proxy)[3]), (None, 0))
            origin.release.set()
            last = busy.answer()
            same("under way", (last.body, last.fields.get("connection"), busy.is_ended()), (b"the", "close", True))
            busy.close()
        origin.release.set()
        comes("no connection", lambda: origin.open() == 0)
        same("ended", proxy.ended(), ((IDLE + "\n").encode(), b"", 0))
        same("at the origin", origin.wrong, [])


@case
def users_get_descriptors_before_idle_connections_to_origins(bench):
    """Forty idle connections of few descriptors: users that come are all served, and none is refused or let go for want of one."""
    for shards in (1, 2):
        origin = bench.keep(Keeper(address="0.0.0.0"))
        proxy = bench.proxy(origin, "shards = %d\nrows = 512\nkeep_origins = 64\norigin_idle = 600\ndeadline = 600" % shards, descriptors=250 + 3 * shards)
        several_idle(proxy, origin, 40)
        # Each keeps its connection: what they need has to come from those that lie idle.
        users = [User(proxy.port) for _ in range(70)]
        for place, user in enumerate(users):
            same("user %d" % place, user.ask(get("/bytes/3")).body, b"the")
        still = [place for place, user in enumerate(users) if not select.select([user.sock], [], [], 0)[0]]
        print("      %d threads: %d descriptors at the end, %d of them idle connections; %d of 70 users stay"
              % (shards, proxy.descriptors(), counts(proxy)[3], len(still)))
        same("all stay", len(still), 70)
        for user in users:
            user.close()
        comes("their leave", lambda: stats(proxy)["adaptproxy_users"] == 0)
        same("after them", statuses_of(proxy, 30, ["/bytes/3", "/bytes/5"]), 60 * [200])
        all_is_over(origin, proxy)


@case
def many_idle_connections_make_no_exchange_slower(bench):
    """A thousand idle connections to other addresses cost an exchange no processor time worth speaking of."""
    origin = bench.keep(Keeper(address="0.0.0.0"))
    hosts = ["127.0.%d.%d" % (3 + place // 250, 1 + place % 250) for place in range(1000)]
    times = []
    for count in (0, 1000):
        proxy = bench.proxy(origin, "shards = 1\nrows = 64\nkeep_origins = 1024\norigin_idle = 600")
        user = User(proxy.port)
        for host in hosts[:count]:
            same(host, user.ask(b"GET http://%s:%d/bytes/3 HTTP/1.1\r\nHost: x\r\n\r\n" % (host.encode(), origin.port)).body, b"the")
        are_idle(proxy, count)
        for _ in range(3):
            before = processor_time(proxy)
            for _ in range(1000):
                user.ask(get("/bytes/3"))
            times.append(processor_time(proxy) - before)
        user.close()
        all_is_over(origin, proxy)
    print("      processor time of 1,000 exchanges: %s" % ", ".join("%.2f s" % each for each in times))
    same("no more", min(times[3:]) < 1.5 * min(times[:3]) + 0.03, True)


@case
def nothing_is_left_of_connections_that_were_kept(bench):
    """Thousands of connections that are kept, used, closed by either side, and left: descriptors and memory are as before."""
    origin = bench.keep(Keeper(LEAVING))
    service = bench.icap()
    proxy = bench.proxy(origin, "shards = 2\nkeep_origins = 8\norigin_idle = 1", [("respmod", service.port, "/respmod/x", 16)])
    names = list(LEAVING) + ["bytes"]

    def one(number):
        own, user = random.Random(number), User(proxy.port)
        for _ in range(150):
            path = "/%s/%d" % (own.choice(names), own.choice((0, 5, 5000)))
            same(path, user.ask(own.choice((get(path), get(path), post(path, b"abc")))).status, 200)
        user.close()

    def left():
        return {name: many for name, many in connections_of(proxy, {origin.port: "origin", service.port: "service"}).items()
                if not name.startswith("service")}
    memory = []
    for _ in range(3):
        at_once(8, one)
        comes("idle ones go", lambda: left() == {})
        memory.append((proxy.figure("VmRSS"), proxy.descriptors() - sum(connections_of(proxy).values())))
    print("      VmRSS and descriptors beside connections: %s; %s" % (memory, counts(proxy)))
    same("descriptors", len({others for _, others in memory}), 1)
    same("memory", memory[2][0] < memory[1][0] + 1024, True)
    all_is_over(origin, proxy)


@case
def the_counters_count_connections_to_origins(bench):
    origin = bench.keep(Keeper({"asked": ending(None, "end"), "left": ending(("end", 0.05))}))
    proxy = bench.proxy(origin, "shards = 1\nkeep_origins = 4")
    found = stats(proxy)
    same("there from the first", {name: found.get(name) for name in COUNTS.values()}, dict.fromkeys(COUNTS.values(), 0))
    user = User(proxy.port)
    rows = [(get("/bytes/3"), (1, 0, 0, 1)), (get("/bytes/3"), (1, 1, 0, 1)), (post("/bytes/3", b"a"), (2, 1, 0, 2)),
            (get("/asked/3"), (3, 2, 1, 2)), (get("/left/3"), (3, 3, 1, 1)), (get("/bytes/3"), (3, 4, 1, 1))]
    for request, wanted in rows:
        same("an answer", user.ask(request).body, b"the")
        if counts(proxy) != wanted:
            time.sleep(2)
        same("counted", counts(proxy), wanted)
    same("begun anew", ([each.place > 1 for each in origin.asked[3:]], origin.asked[4].number), ([True, False, True, True], 3))
    is_refused("nobody's host", proxy.port, get("/bytes/3").replace(b"o.test", b"x.test"), 502)
    same("no connection", counts(proxy), (3, 4, 1, 1))
    all_is_over(origin, proxy)


@case
def kept_connections_stay_apart_under_load(bench):
    """Users at once, each with answers that name it: of an origin whose connections end as they like, nobody reads another's."""
    def act(visit, *words):
        visit.put(b"<%s>" % words[-1].encode() * 50)
        return random.random() < 0.9
    origin = bench.keep(Keeper({"name": act}))
    icapd = bench.icapd("max = 256")
    proxy = bench.proxy(origin, "shards = 2\nkeep_origins = 8", [("respmod", icapd, "/respmod/pass", 64)])
    places = collections.Counter()

    def one(number):
        user = User(proxy.port)
        for turn in range(100):
            name = "%d-%d" % (number, turn)
            same("an answer", user.ask(get("/name/" + name)).body, b"<%s>" % name.encode() * 50)
        user.close()
    at_once(16, one)
    for each in origin.asked:
        places[min(each.place, 5)] += 1
    print("      requests by their place on a connection: %s" % dict(sorted(places.items())))
    all_is_over(origin, proxy)
