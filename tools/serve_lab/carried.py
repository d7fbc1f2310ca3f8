"""Fields of the answer to a request that its service wants to see with the response: `carry`."""
import os
import shutil
import time

from serve_lab.cases import IDLE, at_once, case, get, needs, needs_tools, post, same
from serve_lab.loopback import Icap, Reader, Server, User, body_of, fields_of, free_port, read_body
from serve_lab.servers import Servers

CARRY = 'carry = ["X-ICAP-E2G", "X-Group"]\n'


def lines_of(head, *names):
    """The lines of a head that have one of these names, in lower case, and the name of the line before the first."""
    lines = head.decode().split("\r\n")
    found = [line for line in lines if line.split(":")[0].lower() in names]
    return found, lines[lines.index(found[0]) - 1].split(":")[0] if found else None


class Joined:
    """A service of both points, whose answer to a request has fields that it wants with the response, as e2guardian does."""

    def __init__(self, bench, breaks=()):
        self.seen, self.wrong, self.breaks = [], [], breaks
        self.service = bench.icap(self.reply, [b"Preview: 16", b"Transfer-Preview: *"])
        self.services = [("reqmod", self.service.port, "/reqmod/x"), ("respmod", self.service.port, "/respmod/x")]

    @staticmethod
    def marks(target):
        """What an answer says: of an odd target two fields, and of an even one the same field twice."""
        if target[-1] in "13579":
            return ["x-icap-e2g: t=%s; a b" % target, "X-Group: "]
        return ["X-ICAP-E2G: t=%s" % target, "X-ICAP-E2G: again"]

    def reply(self, conn, reader, head, count):
        heads, body, last = Icap.rest(reader, head)
        target = fields_of(heads)[""].split(" ")[1]
        found, before = lines_of(head, "x-icap-e2g", "x-group", "x-other")
        self.seen.append((head.split(b" ")[0].decode(), target, found, before, head))
        if count in self.breaks:
            return False
        if head.startswith(b"RESPMOD") and found != self.marks(target):
            conn.sendall(b"ICAP/1.0 418 Bad composition - X-ICAP-E2G header not present\r\nISTag: \"t-1\"\r\nEncapsulated: null-body=0\r\n\r\n")
            return True
        fields = fields_of(head)
        marks = "".join(line + "\r\n" for line in self.marks(target)).encode() if head.startswith(b"REQMOD") else b"X-ICAP-E2G: late\r\n"
        answer = _Marked(conn, marks + b"X-Other: no\r\n")
        if "preview" in fields or "204" in fields.get("allow", ""):
            answer.sendall(Icap.NO_MODIFICATION)
        else:
            Icap.same(answer, fields, heads, body, last)
        return True


class _Marked:
    """A connection whose ICAP heads get further lines."""

    def __init__(self, conn, lines):
        self.conn, self.lines = conn, lines

    def sendall(self, text):
        if text.startswith(b"ICAP/1.0 "):
            text = text.replace(b"ISTag:", self.lines + b"ISTag:", 1)
        self.conn.sendall(text)


@case
def fields_of_the_answer_to_a_request_go_on_with_its_response(bench):
    """Users over four threads and on connections that they keep: each response has the fields of the answer to its own request, as they
    came, in their order, right after the user's address; a request has none."""
    origin, joined = bench.origin(), Joined(bench)
    proxy = bench.proxy(origin, CARRY + "client_ip = true\nshards = 4\nwait = 20\n", joined.services)

    def one(number):
        user = User(proxy.port)
        for turn in range(6):
            path = "/bytes/%d" % (100 * (number + 1) + turn)
            answer = user.ask(get(path))
            same(path, (answer.status, answer.body), (200, body_of(int(path[7:]))))
            same(path, user.ask(post("/post/%d" % (10 * number + turn), b"x" * 40)).status, 200)
        user.close()
    at_once(40, one)
    same("messages", len(joined.seen), 40 * 6 * 2 * 2)
    for method, target, found, before, _head in joined.seen:
        wanted = ([], None) if method == "REQMOD" else (Joined.marks(target), "X-Client-IP")
        same(method + " " + target, (found, before), wanted)
    same("audit", proxy.stop(), IDLE)


@case
def a_response_that_begins_anew_has_the_same_fields(bench):
    """The kept connection breaks once it has the second response: on a fresh one the service gets the very same head."""
    origin, joined = bench.origin(), Joined(bench, breaks=(4,))
    proxy = bench.proxy(origin, CARRY + "shards = 1\nallow_limit = 4096\n", joined.services)
    user = User(proxy.port)
    for path in ("/bytes/5", "/bytes/6"):
        same(path, user.ask(get(path)).body, body_of(int(path[7:])))
    heads = [head for *_, head in joined.seen]
    same("heads", (len(heads), heads[3] == heads[4]), (5, True))
    same("fields", lines_of(heads[4], "x-icap-e2g"), (Joined.marks("http://o.test/bytes/6"), "Host"))
    user.close()
    same("audit", proxy.stop(), IDLE)


@case
def no_field_goes_on_unless_it_is_named(bench):
    """Without the key the service misses its field, and the user is refused; so where another one is named."""
    origin = bench.origin()
    for key in ("", 'carry = ["X-Other-2"]\n'):
        joined = Joined(bench)
        proxy = bench.proxy(origin, key, joined.services)
        user = User(proxy.port)
        same("answer", user.ask(get("/bytes/3")).status, 502)
        same("fields", [found for _method, _target, found, *_ in joined.seen], [[], []])
        user.close()
        same("audit", proxy.stop(), IDLE)


# A site that isn't to be asked, and what no page may say.
BANNED_SITE, BANNED_PHRASE = "banned.test", b"no pupil may read this"
# A worker of e2guardian 5.3.5 mixes up what it answers one after another, on whatever connections: once it has answered a request with its
# own page, each later request without a body gets a false list (`res-body` for `null-body`), and one that has just answered at one point
# may give a false list at the other. So each point has an e2guardian of its own; it has 500 workers, and after a rest it has another one
# take the next connection.
REST = 0.05
E2GUARDIAN = {
    "icapport": "%(port)d",
    "filterip": "127.0.0.1",
    "filterports": "%(unused)d",
    "transparenthttpsport": "",
    "checkip": "127.0.0.9",
    "nodaemon": "on",
    "filecachedir": "'%(dir)s'",
    "loglocation": "'%(dir)s/access.log'",
    "pidfilename": "'%(dir)s/e2guardian.pid'",
    "daemonuser": "'root'",
    "daemongroup": "'root'",
}


def e2guardian(bench):
    """The port of an e2guardian of its own, by Debian's configuration, with its lists of sites and phrases replaced."""
    needs_tools("e2guardian")
    needs("root, who may start e2guardian", os.geteuid() == 0 and os.path.exists("/etc/e2guardian/e2guardian.conf"))
    servers, port = bench.keep(Servers("e2guardian", {})), free_port()
    shutil.copytree("/etc/e2guardian", servers.dir + "/etc")
    for folder, _folders, files in os.walk(servers.dir + "/etc"):
        for file in files:
            path = os.path.join(folder, file)
            with open(path, errors="surrogateescape") as text:
                lines = text.read().replace("/etc/e2guardian", servers.dir + "/etc")
            with open(path, "w", errors="surrogateescape") as text:
                text.write(lines)
    lists = {"bannedsitelist": BANNED_SITE, "localbannedsitelist": "", "weightedphraselist": "", "exceptionphraselist": "",
             "bannedphraselist": "<%s>" % BANNED_PHRASE.decode()}
    for name, text in lists.items():
        servers.write("etc/lists/" + name, text + "\n")
    with open(servers.dir + "/etc/e2guardian.conf", errors="surrogateescape") as text:
        kept = [line for line in text if line.split("=")[0].strip() not in E2GUARDIAN]
    words = {"dir": servers.dir, "port": port, "unused": free_port()}
    with open(servers.dir + "/etc/e2guardian.conf", "w", errors="surrogateescape") as text:
        text.writelines(kept + ["%s = %s\n" % (key, value % words) for key, value in E2GUARDIAN.items() if value])
    servers.start(["e2guardian", "-N", "-c", servers.dir + "/etc/e2guardian.conf"], port)
    return port


@case
def e2guardian_filters_both_points(bench):
    """Twenty times in a row, at both points: a page goes on as it is, a site that is banned is answered by e2guardian's page, a phrase that
    is banned too, and a body that is sent reaches its origin. No connection to the service is kept (`service_idle = 0`)."""
    ports = e2guardian(bench), e2guardian(bench)
    pages = {b"/clean": b"<html><body>" + body_of(5000).hex().encode() + b"</body></html>",
             b"/phrase": b"<html><body>Here is what " + BANNED_PHRASE + b".</body></html>"}
    bodies = []

    def answer(conn, _number):
        reader = Reader(conn)
        head = reader.head()
        bodies.append((head.split(b" ")[1], read_body(reader, fields_of(head), False)))
        page = pages.get(head.split(b" ")[1], b"<html><body>thanks</body></html>")
        conn.sendall(b"HTTP/1.1 200 OK\r\nContent-Type: text/html\r\nContent-Length: %d\r\n\r\n" % len(page) + page)
    origin = bench.keep(Server(answer))
    services = [("reqmod", ports[0], "/request"), ("respmod", ports[1], "/response")]
    proxy = bench.proxy(origin, CARRY + "client_ip = true\nservice_idle = 0\nshards = 2\n", services,
                        '"%s" = "127.0.0.1:%d"\n' % (BANNED_SITE, origin.port))

    def asked(request):
        time.sleep(REST)
        user = User(proxy.port)
        reply = user.ask(request)
        user.close()
        return reply
    for turn in range(20):
        clean = asked(get("/clean"))
        same("clean %d" % turn, (clean.status, clean.body), (200, pages[b"/clean"]))
        phrase = asked(get("/phrase"))
        same("phrase %d" % turn, (BANNED_PHRASE in phrase.body, len(phrase.body) > 10000), (False, True))
        form = b"name=value&turn=%d" % turn
        sent = asked(post("/form", form, "Content-Type: application/x-www-form-urlencoded\r\n"))
        same("form %d" % turn, (sent.status, sent.body, bodies[-1]), (200, b"<html><body>thanks</body></html>", (b"/form", form)))
        banned = asked(get("/").replace(b"o.test", BANNED_SITE.encode()))
        same("banned %d" % turn, (banned.status, b"<html" in banned.body.lower(), len(banned.body) > 10000), (200, True, True))
    same("what reached the origin", {path for path, _body in bodies}, {b"/clean", b"/phrase", b"/form"})
    same("audit", proxy.stop(), IDLE)
