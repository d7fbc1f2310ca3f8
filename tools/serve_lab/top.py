"""Cases of tools/try_serve: the view `adaptproxy-top`, before an admin port that says what a case wants, and before the proxy's own."""
import fcntl
import os
import pty
import re
import select
import struct
import subprocess
import sys
import termios
import time

from serve_lab.cases import IDLE, case, comes, get, same
from serve_lab.loopback import TOP, PATIENCE, Reader, Server, User, free_port, write

VIEW = os.path.join(TOP, "packaging", "adaptproxy-top")
COUNTERS = """# TYPE adaptproxy_requests counter
adaptproxy_requests_total %(requests)d
adaptproxy_answers_total{class="2xx"} %(requests)d
adaptproxy_refusals_total{point="respmod",why="busy"} %(requests)d
adaptproxy_failures_total{point="respmod",why="user-gone"} 0
adaptproxy_exchange_seconds_bucket{le="0.005"} %(requests)d
adaptproxy_exchange_seconds_bucket{le="0.01"} %(requests)d
adaptproxy_exchange_seconds_bucket{le="+Inf"} %(requests)d
adaptproxy_messages_total{point="respmod",outcome="204"} %(requests)d
adaptproxy_user_bytes_total{direction="out"} %(bytes)d
adaptproxy_users 7
adaptproxy_seats 512
adaptproxy_service_connections{point="respmod",state="leased"} 2
adaptproxy_service_connections_maximum{point="respmod"} 8
adaptproxy_waiting{point="respmod"} 3
adaptproxy_service_paused{point="reqmod"} 1
adaptproxy_uptime_seconds %(uptime)d
# EOF
"""
TWO = """0-17-4 14s respmod waits-for service-reply 12s held 0..1024 adapted 0..0 in 1024 svc 1024 ad 0 usr 0 claim 16384 127.0.0.1 GET \
http://o.test/x
1-3-99 70s respmod waits-for user-takes 5s held 0..0 adapted 100000..124576 in 5 svc 5 ad 124576 usr 100000 claim 24576 - GET http://o.test/%20
# 2 exchanges, 5 idle
"""


class Admin(Server):
    """An admin port whose answer to `exchanges waiting` the case says. Each count of the counters has grown by 100, and the bytes by
    2,000,000, since the one before."""

    def __init__(self, waiting=TWO, book="rows 2 held 25600 claimed 40960 capacity 16777216"):
        self.waiting, self.book, self.turn = waiting, book, 0
        super().__init__(self.one_asker)

    def one_asker(self, conn, _number):
        reader = Reader(conn)
        while True:
            line = reader.until(b"\n")
            if line == b"book\n":
                conn.sendall(self.book.encode() + b"\n")
            elif line == b"stats\n":
                self.turn += 1
                conn.sendall((COUNTERS % {"requests": 100 * self.turn, "bytes": 2000000 * self.turn, "uptime": 3700 + self.turn}).encode())
            else:
                conn.sendall(self.waiting if isinstance(self.waiting, bytes) else self.waiting.encode())


def view(*words, before=(VIEW,), stdin=subprocess.DEVNULL):
    """What it prints, on standard error too, and its status."""
    ended = subprocess.run([*before, *words], stdin=stdin, stdout=subprocess.PIPE, stderr=subprocess.PIPE, timeout=2 * PATIENCE)
    return ended.stdout.decode(), ended.stderr.decode(), ended.returncode


@case
def a_view_has_what_waits_and_the_rates(bench):
    admin = bench.keep(Admin())
    begun = time.time()
    out, errors, status = view("--admin", "127.0.0.1:%d" % admin.port, "--once")
    same("after a second", 0.9 < time.time() - begun < 5, True)
    same("status", (errors, status), ("", 0))
    # The rates are of what the machine took for a second, so their digits aren't looked at.
    text = re.sub(r"\b(requests  |2xx |204 |busy |out )([0-9.]+)(M?)", lambda found: found[1] + ("N" if float(found[2]) else "0") + found[3], out)
    same("the view", text.splitlines(), [
        "adaptproxy 127.0.0.1:%d up 1:01:42; users 7 of 512, 5 idle" % admin.port,
        "budget    rows 2, held 25.6k, claimed 41.0k of 16.8M (0 %)",
        "requests  N /s: 2xx N, 3xx 0, 4xx 0, 5xx 0; half within 0.005 s, 99 of 100 within 0.005 s",
        "bytes     in 0, out NM /s",
        "reqmod    plain 0, 204 0, 200 0, failed 0 /s; connections 0 leased, 0 idle of 0; 0 wait; PAUSED",
        "respmod   plain 0, 204 N, 200 0, failed 0 /s; connections 2 leased, 0 idle of 8; 3 wait",
        "origins   opened 0, reused 0, begun anew 0 /s; 0 idle",
        "refused   respmod busy N /s",
        "",
        "2 exchanges wait",
        "ID     AGE STILL POINT   WAITS-FOR     HELD  IN   SVC  AD   USR  CLAIM USER      REQUEST",
        "0-17-4 14s 12s   respmod service-reply 1024  1024 1024 0    0    16.4k 127.0.0.1 GET http://o.test/x",
        "1-3-99 70s 5s    respmod user-takes    24.6k 5    5    125k 100k 24.6k -         GET http://o.test/%20"])


@case
def a_view_finds_the_admin_port_in_a_configuration(bench):
    """With python's reader of TOML, and without it."""
    admin, folder = bench.keep(Admin("# 0 exchanges, 0 idle\n")), bench.folder()
    least = 'listen = "127.0.0.1:%d"\n' % free_port()
    good = ('%sadmin = "127.0.0.1:%d" # here\n[hosts]\nadmin = "1.2.3.4:5"\n' % (least, admin.port),
            "%s'admin'='127.0.0.1:%d'" % (least, admin.port))
    bad = [(text, "config admin", 2) for text in ("", least, "admin = 3129\n", '[hosts]\nadmin = "127.0.0.1:1"\n', 'admin = "127.0.0.1:0"\n',
                                                  'admin = "::1:3129"\n', 'admin = "127.0.0.256:1"\n')]
    bad += (('admin = "127.0.0.1:%d"\n' % free_port(), "no answer", 1), (b"\xff\n", "config", 2), ("#" * 1048577, "input too long", 2))
    without = (sys.executable, "-c", "import runpy, sys; sys.modules['tomllib'] = None; sys.argv = sys.argv[1:]; "
               "runpy.run_path(sys.argv[0], run_name='__main__')", VIEW)
    for before in ((VIEW,), without):
        for text in good:
            out, errors, status = view("--config", folder.write("good", text), "--once", "--interval", "0.1", before=before)
            same("good", (errors, status, out.splitlines()[-1]), ("", 0, "0 exchanges wait"))
        for text, error, status in bad:
            same(error, view("--config", folder.write("bad", text), "--once", before=before), ("", "adaptproxy-top: %s\n" % error, status))
    same("no TOML", view("--config", folder.write("bad", "admin\n")), ("", "adaptproxy-top: config\n", 2))
    for path in (folder.path("none"), folder.folder.name):
        same("no file", view("--config", path), ("", "adaptproxy-top: cannot read: %s\n" % path, 1))


@case
def a_view_ends_with_one_line_where_it_cant_go_on(bench):
    address = "127.0.0.1:%d" % free_port()
    for words in ((), ("--once",), ("--admin",), ("--admin", "127.0.0.1"), ("--admin", "localhost:3129"), ("--admin", address, "--config", "x"),
                  ("--admin", address, "--interval"), ("--admin", address, "--interval", "0"), ("--admin", address, "--interval", "x"),
                  ("--admin", address, "--interval", "3601"), ("--admin", address, "--once", "--once"), ("--admin", address, "more"), ("--Help",)):
        same(words, view(*words), ("", "adaptproxy-top: usage\n", 2))
    same("help", view("--help")[1:], ("", 0))
    same("nobody", view("--admin", address), ("", "adaptproxy-top: no answer\n", 1))
    book = "rows 0 held 0 claimed 0 capacity 1"
    for waiting, book in (("bad\n", book), (TWO, "bad"), (TWO, "220 mail.test"), (b"x" * 200000, book)):
        admin = bench.keep(Admin(waiting, book))
        same(book, view("--admin", "127.0.0.1:%d" % admin.port), ("", "adaptproxy-top: no answer\n", 1))
    closes = bench.keep(Server(lambda conn, _number: conn.sendall(b"rows 0 held 0 claimed 0 capacity 1\n")))
    same("an end", view("--admin", "127.0.0.1:%d" % closes.port), ("", "adaptproxy-top: no answer\n", 1))
    silent = bench.keep(Server(lambda conn, _number: conn.recv(1000) and time.sleep(30)))
    begun = time.time()
    same("silence", view("--admin", "127.0.0.1:%d" % silent.port), ("", "adaptproxy-top: no answer\n", 1))
    same("after ten seconds", 9 < time.time() - begun < 15, True)
    admin = bench.keep(Admin())
    with open("/dev/full", "w") as full:
        ended = subprocess.run([VIEW, "--admin", "127.0.0.1:%d" % admin.port, "--once"], stdout=full, stderr=subprocess.PIPE, timeout=PATIENCE)
    same("a full disk", (ended.stderr, ended.returncode), (b"adaptproxy-top: write failed\n", 1))


class Terminal:
    """A terminal of this size, in which the view runs."""

    def __init__(self, columns, lines, *words):
        self.out, inner = pty.openpty()
        fcntl.ioctl(inner, termios.TIOCSWINSZ, struct.pack("HHHH", lines, columns, 0, 0))
        self.before = termios.tcgetattr(inner)
        self.inner, self.text = inner, b""
        self.process = subprocess.Popen([VIEW, *words], stdin=inner, stdout=inner, stderr=inner, env={**os.environ, "TERM": "xterm"},
                                        start_new_session=True, preexec_fn=lambda: fcntl.ioctl(0, termios.TIOCSCTTY, 0))

    def read(self, until, patience=PATIENCE):
        """All that came, once it has this many frames or the view has ended."""
        end = time.time() + patience
        while time.time() < end and self.text.count(b"\x1b[H") < until and self.process.poll() is None:
            if select.select([self.out], [], [], 0.1)[0]:
                self.text += os.read(self.out, 65536)
        return self.text

    def end(self, key=b"q"):
        """Its status after a key, and whether the terminal is again as it was."""
        os.write(self.out, key)
        status = self.process.wait(PATIENCE)
        while select.select([self.out], [], [], 0.1)[0]:
            self.text += os.read(self.out, 65536)
        return status, termios.tcgetattr(self.inner)[3] == self.before[3], self.text.endswith(b"\x1b[?25h\x1b[?1049l")

    def close(self):
        if self.process.poll() is None:
            self.process.kill()
            self.process.wait()
        os.close(self.out)
        os.close(self.inner)


@case
def a_view_lets_no_control_byte_reach_the_terminal(bench):
    """Whatever the admin port says, a terminal gets printable bytes, the view's own control sequences, and no line that is too long."""
    evil = bytes(byte for byte in range(256) if byte != 10)
    line = TWO.encode().splitlines()[0]
    admin = bench.keep(Admin(line.replace(b"/x", b"/" + evil) + b"\n" + b"# thread 1: \x1b[2Jno answer\n" + (line + b"y" * 300 + b"\n") * 40
                             + b"# 41 exchanges, 5 idle, 3 left out\n"))
    for columns, lines in ((40, 8), (80, 24), (132, 60)):
        terminal = bench.keep(Terminal(columns, lines, "--admin", "127.0.0.1:%d" % admin.port, "--interval", "0.2"))
        text = terminal.read(3)
        same("it ends", terminal.end(), (0, True, True))
        frames = terminal.text.split(b"\x1b[H")
        same("its own screen", frames[0], b"\x1b[?1049h\x1b[?25l")
        same("frames", len(frames) > 3, True)
        for frame in frames[1:-1]:
            # A terminal makes LF CR LF.
            rows = frame.removesuffix(b"\x1b[J").split(b"\r\r\n")
            same("ends of lines", all(row.endswith(b"\x1b[K") for row in rows), True)
            rows = [row[:-3] for row in rows]
            same("printable", re.fullmatch(rb"[ -~]*", b"".join(rows)) is not None, True)
            same("size", (max(map(len, rows)) <= columns, len(rows) <= lines), (True, True))
        same("rows", (b"lines more" in text) == (lines < 60), True)
        same("who doesn't answer", b"# thread 1: ?[2Jno answer" in text, lines > 8)
    out, _errors, status = view("--admin", "127.0.0.1:%d" % admin.port, "--once", "--interval", "0.1")
    same("once", (status, re.fullmatch(r"[ -~\n]*", out) is not None), (0, True))
    same("left out", "41 exchanges wait, and there is no room for 3 more\n" in out, True)


@case
def a_view_outlives_its_proxy(bench):
    """Where the proxy ends, the view says so, and goes on once there is one again. Ctrl-C ends it."""
    admin, folder = bench.keep(Admin()), bench.folder()
    path = write(folder.path("x.toml"), 'admin = "127.0.0.1:%d"\n' % admin.port)
    terminal = bench.keep(Terminal(100, 30, "--config", path, "--interval", "0.1"))
    same("at first", b"2 exchanges wait" in terminal.read(2), True)
    admin.waiting = b"bad\n"
    comes("that nobody answers", lambda: b": no answer" in terminal.read(terminal.text.count(b"\x1b[H") + 1))
    admin.waiting = "# 0 exchanges, 9 idle\n"
    comes("the next", lambda: b"0 exchanges wait" in terminal.read(terminal.text.count(b"\x1b[H") + 1))
    same("it ends", terminal.end(b"\x03"), (0, True, True))


@case
def a_view_of_a_proxy_that_runs(bench):
    origin = bench.origin()
    proxy = bench.proxy(origin, "shards = 1")
    quiet, muted = User(proxy.port), User(proxy.port)
    quiet.ask(get("/bytes/3"))
    muted.send(get("/mute"))
    comes("the exchange", lambda: any(b"/mute" in head for head in origin.heads))
    time.sleep(2.1)
    out, errors, status = view("--admin", "127.0.0.1:%d" % proxy.admin, "--once")
    same("status", (errors, status), ("", 0))
    rows = out.splitlines()
    same("users", rows[0].endswith("; users 2 of 256, 1 idle"), True)
    same("waits", (rows[-3], re.sub(r"\d+-\d+-\d+ +\d+s +\d+s +", "", rows[-1]).split()),
         ("1 exchanges wait", "respmod origin-answer 0 0 0 0 0 0 127.0.0.1 GET http://o.test/mute".split()))
    origin.release.set()
    muted.reader.to_end()
    for user in (quiet, muted):
        user.close()
    same("audit", proxy.stop(), IDLE)
