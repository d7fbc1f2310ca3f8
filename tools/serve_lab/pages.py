"""Pages in place of the proxy's own texts (`refusal_pages`): what a user sees, and the number by which the log's line is found."""
import os
import re

from serve_lab.admission import Download
from serve_lab.cases import IDLE, REFUSALS, case, comes, get, is_refused, post, refusal, same
from serve_lab.loopback import User, ask, body_of, free_port
from serve_lab.operators import Log, stats
from serve_lab.parents import to

PAGE = "<!doctype html>\n<title>%s</title>\n<p>Not this: %%w. Say %%i to whoever helps.</p>\n<p>100%% of %%x, %%%%w, %%</p>%%"


def filled(status, word, number):
    return (PAGE % status).replace("%w", word).replace("%i", str(number)).encode()


class Pages:
    """A folder with pages, and a log."""

    def __init__(self, bench, statuses):
        self.folder, self.log = bench.folder(), bench.keep(Log())
        os.mkdir(self.folder.path("pages"))
        for status in statuses:
            self.folder.write("pages/%d.html" % status, PAGE % status)
        self.key = 'refusal_pages = "%s"\n' % self.folder.path("pages")

    def is_refused(self, proxy, request, status, word, page=None, to_head=False):
        """The whole answer has the page, the word and the number of its line, and the connection ends. The number."""
        user = User(proxy.port)
        user.send(request)
        answer = user.reader.to_end()
        row = self.log.next()[0]
        same(word, (row[3], row[4], row[12]), ("TCP_DENIED", str(status), word))
        same("a number", row[15] is not None, True)
        body = filled(status, word, row[15]) if page is None else page.replace(b"%i", row[15].encode())
        head = b"HTTP/1.1 %d %s\r\nContent-Type: text/html\r\nContent-Length: %d\r\nConnection: close\r\n\r\n" % (
            status, REFUSALS[status], len(body))
        same(word, answer, head + (b"" if to_head else body))
        same("bytes", int(row[5]), len(answer))
        user.close()
        return int(row[15])


@case
def a_refusal_has_the_page_of_its_status(bench):
    """For each status, with the word and the number of its line, which no other line has; to HEAD its head alone. A status without a page has
    its plain text, and its line no number."""
    pages, origin = Pages(bench, (400, 501, 502, 504)), bench.origin()
    closed = free_port()
    proxy = bench.proxy(origin, pages.key + pages.log.key + "deadline = 1\n", hosts='"gone.test" = "127.0.0.1:%d"\n' % closed)
    rows = [(b"what is this\r\n\r\n", 400, "bad-request"), (b"CONNECT o.test:443 HTTP/1.1\r\nHost: o.test\r\n\r\n", 501, "not-served"),
            (to("x.test", "/"), 502, "unknown-host"), (to("gone.test", "/"), 502, "origin-refused"), (get("/garbage"), 502, "origin-broken"),
            (get("/mute"), 504, "origin-deadline"), (post("/x", b"", "Transfer-Encoding: chunked\r\n"), 400, "bad-request"),
            (to("x.test", "/", method="POST", extra="Content-Length: 3\r\n", body=b"abc"), 502, "unknown-host")]
    numbers = [pages.is_refused(proxy, *row) for row in rows]
    numbers.append(pages.is_refused(proxy, to("x.test", "/", method="HEAD"), 502, "unknown-host", to_head=True))
    same("each number once", len(set(numbers)), len(rows) + 1)
    same("a page of an origin", ask(proxy.port, get("/bytes/9")).body, body_of(9))
    same("its line", pages.log.next()[0][15], None)
    same("full", proxy.say("capacity 1"), "ok")
    is_refused("no page for 503", proxy.port, get("/bytes/9"), 503)
    same("its line", pages.log.next()[0][12:16:3], ("full", None))
    origin.release.set()
    same("audit", proxy.stop(), IDLE)


@case
def a_reload_takes_new_pages(bench):
    """A page that changed, one that is there now, and one that isn't any more. One that is too long, or no file, changes nothing."""
    pages = Pages(bench, (502,))
    proxy = bench.proxy(bench.origin(), pages.key + pages.log.key)
    unknown = (to("x.test", "/"), 502, "unknown-host")
    pages.is_refused(proxy, *unknown)
    for text in ("", "<p>%i</p>", "%w%w", "x" * 16384):
        pages.folder.write("pages/502.html", text)
        same("reload", proxy.say("reload"), "ok")
        pages.is_refused(proxy, *unknown, page=text.replace("%w", "unknown-host").encode())
    pages.folder.write("pages/502.html", "y" * 16385)
    same("too long", proxy.say("reload"), "config refusal_pages")
    pages.is_refused(proxy, *unknown, page=b"x" * 16384)
    os.remove(pages.folder.path("pages/502.html"))
    os.mkdir(pages.folder.path("pages/502.html"))
    same("a folder", proxy.say("reload"), "config refusal_pages")
    pages.is_refused(proxy, *unknown, page=b"x" * 16384)
    os.rmdir(pages.folder.path("pages/502.html"))
    pages.folder.write("pages/400.html", "<p>%w %i</p>")
    same("reload", proxy.say("reload"), "ok")
    is_refused("no page any more", proxy.port, unknown[0], 502)
    same("its line", pages.log.next()[0][15], None)
    pages.is_refused(proxy, b"x\r\n\r\n", 400, "bad-request", page=b"<p>bad-request %i</p>")
    same("audit", proxy.stop(), IDLE)


@case
def a_reload_takes_the_folder_of_pages(bench):
    """Where the key begins, and where it ends; an exchange has the page that stood when it began."""
    pages, origin = Pages(bench, (502,)), bench.origin()
    proxy = bench.proxy(origin, pages.log.key, config=bench.folder().path("proxy.toml"))
    is_refused("no key", proxy.port, to("x.test", "/"), 502)
    pages.log.next()
    user = User(proxy.port)
    user.send(get("/mute"))
    comes("the exchange", lambda: len(origin.heads) == 1)
    same("reload", proxy.reload(pages.log.key + pages.key), "ok")
    pages.is_refused(proxy, to("x.test", "/"), 502, "unknown-host")
    origin.release.set()
    same("one that began before", user.reader.to_end(), refusal(502))
    same("its line", pages.log.next()[0][12:16:3], ("origin-broken", None))
    same("reload", proxy.reload(pages.log.key), "ok")
    is_refused("no key", proxy.port, to("x.test", "/"), 502)
    same("its line", pages.log.next()[0][15], None)
    user.close()
    same("audit", proxy.stop(), IDLE)


@case
def a_crowd_gets_pages_with_numbers_of_their_own(bench):
    """Over four threads each refusal has a number that no other has, and a user for whom there is no seat gets its page too."""
    pages, origin = Pages(bench, (502, 503)), bench.origin()
    proxy = bench.proxy(origin, pages.key + pages.log.key + "shards = 4\nuser_connections = 1\n")
    numbers = []
    for source in range(40):
        user = User(proxy.port, source="127.0.8.%d" % (source + 1))
        user.send(to("x.test", "/"))
        numbers.append(re.search(rb"Say (\d+) to", user.reader.to_end())[1])
        user.close()
    rows = pages.log.next(40)
    same("numbers", (len(set(numbers)), sorted(row[15].encode() for row in rows)), (40, sorted(numbers)))
    slow = Download(proxy, "127.0.9.1")
    user = User(proxy.port, source="127.0.9.1")
    user.send(get("/bytes/1"))
    answer = user.reader.to_end()
    row = pages.log.next()[0]
    same("no seat", (row[12], answer.endswith(filled(503, "no-seat", row[15]))), ("no-seat", True))
    same("counted", stats(proxy)["adaptproxy_users_over_limit_total"], 1)
    slow.close()
    user.close()
    same("audit", proxy.stop(), IDLE)
