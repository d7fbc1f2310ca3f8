"""What a service is told of the user whose message it gets."""

from serve_lab.cases import IDLE, at_once, case, get, post, same
from serve_lab.loopback import Icap, User, body_of, fields_of
from serve_lab.scanners import c_icap_echo

SOURCES = ["127.0.0.1", "127.0.0.2", "127.1.2.3", "127.10.200.30", "127.255.255.254"]
# c-icap's log: the method, and the address of the HTTP client.
TOLD = """LogFormat told "%%im %%>a %%huo"
AccessLog %(dir)s/access.log told
"""


def told(head):
    """The lines of a head that say the user's address, and the line before the first."""
    lines = head.decode().split("\r\n")
    found = [line for line in lines if line.lower().startswith("x-client-ip")]
    return found, lines[lines.index(found[0]) - 1].split(":")[0] if found else None


class Asked:
    """A service of both points, which notes of each message who asked for what, and what the head says."""

    def __init__(self, bench, breaks=False):
        self.seen, self.breaks = [], breaks
        self.service = bench.icap(self.reply, [b"Preview: 16", b"Transfer-Preview: *"])
        self.services = [("reqmod", self.service.port, "/reqmod/x"), ("respmod", self.service.port, "/respmod/x")]

    def reply(self, conn, reader, head, count):
        heads, body, last = Icap.rest(reader, head)
        self.seen.append((head.split(b" ")[0].decode(), fields_of(heads)[""].split(" ")[1], told(head), head))
        if self.breaks and count == 2:
            return False
        fields = fields_of(head)
        if "preview" in fields or "204" in fields.get("allow", ""):
            conn.sendall(Icap.NO_MODIFICATION)
        else:
            Icap.same(conn, fields, heads, body, last)
        return True


@case
def both_services_are_told_who_asked(bench):
    """Users of several addresses, over four threads and on connections that they keep: each message says its own user's address, once,
    right after Host, and no question for options does."""
    origin, asked = bench.origin(), Asked(bench)
    proxy = bench.proxy(origin, "client_ip = true\nshards = 4\nwait = 20\n", asked.services)

    def one(number):
        source = SOURCES[number % len(SOURCES)]
        user = User(proxy.port, source=source)
        for turn in range(4):
            path = "/bytes/%d%04d" % (1 + number % len(SOURCES), turn)
            answer = user.ask(get(path))
            same(source, (answer.status, answer.body), (200, body_of(int(path[7:]))))
            same(source, user.ask(post("/post/%d" % (number % len(SOURCES)), b"x" * 40)).status, 200)
        user.close()
    at_once(40, one)
    same("messages", len(asked.seen), 40 * 4 * 2 * 2)
    for method, target, found, _head in asked.seen:
        number = int(target.split("/")[-1][0]) - ("/bytes/" in target)
        same(method + " " + target, found, (["X-Client-IP: " + SOURCES[number]], "Host"))
    same("points", {method for method, *_ in asked.seen}, {"REQMOD", "RESPMOD"})
    same("options", {told(head)[1] for head in asked.service.questions}, {None})
    same("audit", proxy.stop(), IDLE)


@case
def a_message_that_begins_anew_says_the_same(bench):
    """A kept connection breaks once it has the second request: on a fresh one the service gets the very same head."""
    origin, asked = bench.origin(), Asked(bench, breaks=True)
    proxy = bench.proxy(origin, "client_ip = true\nshards = 1\n", asked.services[:1])
    user = User(proxy.port, source="127.0.0.9")
    for path in ("/bytes/5", "/bytes/6"):
        same(path, user.ask(get(path)).body, body_of(int(path[7:])))
    heads = [head for *_, head in asked.seen]
    same("heads", (len(heads), heads[1] == heads[2], told(heads[2])), (3, True, (["X-Client-IP: 127.0.0.9"], "Host")))
    user.close()
    same("audit", proxy.stop(), IDLE)


@case
def no_service_is_told_who_asked_unless_it_is_to_be(bench):
    """Without the key, and where it is false, no head has the field. What a user writes itself stays in its own head."""
    origin = bench.origin()
    for key in ("", "client_ip = false\n"):
        asked = Asked(bench)
        proxy = bench.proxy(origin, key, asked.services)
        user = User(proxy.port, source="127.0.0.2")
        same("answer", user.ask(get("/bytes/3", "X-Client-IP: 192.0.2.1\r\n")).body, body_of(3))
        same("told", [found for _method, _target, found, _head in asked.seen], 2 * [([], None)])
        user.close()
        same("audit", proxy.stop(), IDLE)


@case
def c_icap_knows_who_asked(bench):
    """c-icap's log has the user's address where its format asks for that of the HTTP client."""
    servers, port = c_icap_echo(bench, TOLD)
    proxy = bench.proxy(bench.origin(), "client_ip = true\n", [("reqmod", port, "/echo"), ("respmod", port, "/echo")])
    for number, source in enumerate(SOURCES):
        user = User(proxy.port, source=source)
        same(source, user.ask(get("/bytes/%d" % number)).body, body_of(number))
        user.close()
    same("audit", proxy.stop(), IDLE)
    servers.end()
    with open(servers.dir + "/access.log") as file:
        lines = [line.split() for line in file if "MOD" in line.split()[0]]
    same("in its log", {(words[0], words[1]) for words in lines},
             {(method, source) for method in ("REQMOD", "RESPMOD") for source in SOURCES})
