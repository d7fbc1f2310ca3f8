"""Bodies of all sizes and framings, through no service and through several, and many users at once."""
import random
import time

from serve_lab.cases import IDLE, SIZES, at_once, case, get, post, post_chunked, same, settled
from serve_lab.loopback import User, ask, body_of, fields_of


def all_bodies(bench, services, changed=bytes, sizes=SIZES, keys=""):
    """Answers of each size and framing, and uploads, come through as `changed` says."""
    origin = bench.origin()
    proxy = bench.proxy(origin, keys, services)
    for size in sizes:
        for kind in ("bytes", "chunked", "close"):
            answer = ask(proxy.port, get("/%s/%d" % (kind, size)))
            same("%s of %d" % (kind, size), (answer.status, answer.body), (200, changed(body_of(size))))
        for request in (post("/echo", body_of(size)), post_chunked("/echo", body_of(size), 1000)):
            answer = ask(proxy.port, request)
            same("upload of %d" % size, (answer.status, answer.body), (200, changed(body_of(size))))
        head = ask(proxy.port, get("/bytes/%d" % size, method="HEAD"), True)
        same("HEAD of %d" % size, (head.status, head.fields.get("content-length")), (200, str(size)))
    same("book", settled(proxy), "rows 0 held 0 claimed 0 capacity 16777216")
    same("audit", proxy.stop(), IDLE)


@case
def bodies_without_a_service(bench):
    all_bodies(bench, [], sizes=SIZES + (10_000_000,))


@case
def bodies_through_pass(bench):
    port = bench.icapd()
    all_bodies(bench, [("reqmod", port, "/reqmod/pass"), ("respmod", port, "/respmod/pass")])


@case
def large_answer_through_pass(bench):
    origin = bench.origin()
    proxy = bench.proxy(origin, "", [("respmod", bench.icapd(), "/respmod/pass")])
    for kind in ("bytes", "chunked", "close"):
        answer = ask(proxy.port, get("/%s/10000000" % kind))
        same(kind, (answer.status, answer.body == body_of(10_000_000)), (200, True))
    same("audit", proxy.stop(), IDLE)


@case
def bodies_through_upper(bench):
    port = bench.icapd()
    all_bodies(bench, [("reqmod", port, "/reqmod/upper"), ("respmod", port, "/respmod/upper")], bytes.upper)


@case
def bodies_through_a_service_without_previews(bench):
    service = bench.icap()
    all_bodies(bench, [("reqmod", service.port, "/reqmod/x"), ("respmod", service.port, "/respmod/x")])


@case
def bodies_by_larger_turns(bench):
    """Bodies that end where a turn does, or near it, and ones of several turns."""
    port = bench.icapd()
    for turn, window in ((16384, 32768), (65536, 65536)):
        keys = "turn = %d\nwindow = %d" % (turn, window)
        sizes = [edge + near for edge in (4096, turn, 2 * turn) for near in (-1, 0, 1)] + [0, 1, 1_000_000]
        all_bodies(bench, [], sizes=sizes, keys=keys)
        all_bodies(bench, [("reqmod", port, "/reqmod/upper"), ("respmod", port, "/respmod/upper")], bytes.upper, sizes, keys)
        all_bodies(bench, [("reqmod", port, "/reqmod/pass"), ("respmod", port, "/respmod/pass")], sizes=sizes, keys=keys)


@case
def requests_are_stamped(bench):
    origin = bench.origin()
    proxy = bench.proxy(origin, "", [("reqmod", bench.icapd(), "/reqmod/stamp")])
    for request in (get("/bytes/3"), post("/echo", b"abc"), post_chunked("/echo", body_of(9000), 4096)):
        answer = ask(proxy.port, request)
        same("status", answer.status, 200)
        same("field", fields_of(origin.heads[-1]).get("x-adapted"), "stamp")
    same("body", origin.bodies[-1], body_of(9000))
    same("audit", proxy.stop(), IDLE)


@case
def requests_and_answers_are_blocked(bench):
    origin = bench.origin()
    port = bench.icapd()
    for services in ([("reqmod", port, "/reqmod/block")], [("respmod", port, "/respmod/block")]):
        proxy = bench.proxy(origin, "", services)
        before = len(origin.heads)
        for request in (get("/bytes/70000"), post("/echo", body_of(70000))):
            answer = ask(proxy.port, request)
            same("answer", (answer.status, answer.body), (403, b"blocked\n"))
        same("asked", len(origin.heads) - before, 0 if services[0][0] == "reqmod" else 2)
        same("audit", proxy.stop(), IDLE)


@case
def sixty_four_users_on_a_small_bank(bench):
    port = bench.icapd("max = 1024")
    origin = bench.origin()
    services = [("respmod", port, "/respmod/upper")]
    proxy = bench.proxy(origin, "shards = 4\ncapacity = 20000\nallow_limit = 0", services)
    found, wrong = {}, []

    def one(_number):
        for _ in range(5):
            answer = ask(proxy.port, get("/bytes/6000"))
            found[answer.status] = found.get(answer.status, 0) + 1
            if answer.status == 200 and answer.body != body_of(6000).upper():
                wrong.append(answer.body)
            if answer.status not in (200, 503):
                wrong.append(answer.head)
    at_once(64, one)
    same("wrong answers", wrong, [])
    same("some are served", found.get(200, 0) > 0, True)
    same("book", settled(proxy), "rows 0 held 0 claimed 0 capacity 20000")
    same("audit", proxy.stop(), IDLE)


@case
def pieces_and_pauses_change_nothing(bench):
    port = bench.icapd("preview = 100\nmax = 1024")
    origin = bench.origin()
    proxy = bench.proxy(origin, "window = 3000", [("reqmod", port, "/reqmod/upper", 64), ("respmod", port, "/respmod/stamp", 64)])
    wrong = []

    def one(seed):
        own = random.Random(seed)
        user = User(proxy.port)
        for _ in range(6):
            size = own.choice((0, 1, 99, 100, 101, 3000, 20000))
            body = body_of(size)
            text = own.choice((post("/echo", body), post_chunked("/echo", body, own.randrange(1, 5000)))) if size < 9000 else post("/echo", body)
            at = 0
            while at < len(text):
                cut = at + own.choice((1, 7, 50, 1000, 9000))
                user.send(text[at:cut])
                at = cut
                if own.random() < 0.1:
                    time.sleep(0.002)
            answer = user.answer()
            if (answer.status, answer.body, answer.fields.get("x-adapted")) != (200, body.upper(), "stamp"):
                wrong.append((seed, size, answer.head, len(answer.body)))
        user.close()
    at_once(24, one)
    same("wrong answers", wrong, [])
    same("audit", proxy.stop(), IDLE)


@case
def many_at_once_leave_nothing_behind(bench):
    port = bench.icapd("max = 1024")
    origin = bench.origin()
    proxy = bench.proxy(origin, "rows = 1024", [("respmod", port, "/respmod/pass")])
    same("first", ask(proxy.port, get("/bytes/1000")).status, 200)
    before = (proxy.descriptors(), proxy.figure("VmRSS"))
    statuses = []

    def one(_number):
        user = User(proxy.port)
        statuses.extend(user.ask(get("/bytes/1000")).status for _ in range(3))
        user.close()
    at_once(256, one)
    same("statuses", (len(statuses), set(statuses)), (768, {200}))
    time.sleep(0.5)
    print("      descriptors %d, then %d; VmRSS %d kB, then %d kB"
          % (before[0], proxy.descriptors(), before[1], proxy.figure("VmRSS")))
    same("audit", proxy.stop(), IDLE)
