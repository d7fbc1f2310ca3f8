"""Parts for trying `adaptproxy serve` over loopback: the programs, an origin, an ICAP service and a client."""
import collections
import os
import random
import signal
import socket
import struct
import subprocess
import threading
import time

TOP = os.path.dirname(os.path.dirname(os.path.dirname(os.path.abspath(__file__))))
# Seconds that an answer may take; a machine with much else to do may need more.
PATIENCE = float(os.environ.get("PATIENCE", "20"))
# Whether proxies and origins keep the connections between them, also where a case doesn't ask for it.
KEPT = bool(os.environ.get("KEPT"))
# The statuses of the answers that users have read, by the port.
SEEN = collections.defaultdict(collections.Counter)


def body_of(count):
    """So many bytes, the same each time."""
    text = b"the quick brown fox jumps over the lazy dog, 0123456789\n"
    return (text * (count // len(text) + 1))[:count]


def write(path, text):
    """Has a file say this, from one moment to the next: whoever reads it meanwhile has the old text or the new one."""
    with open(path + ".new", "wb") as out:
        out.write(text if isinstance(text, bytes) else text.encode())
    os.replace(path + ".new", path)
    return path


def free_port():
    """A port that nobody listens on, and that the system gives to no connection of its own accord: those lie above 32,767."""
    while True:
        with socket.socket() as s:
            try:
                s.bind(("127.0.0.1", random.randrange(20000, 32768)))
                return s.getsockname()[1]
            except OSError:
                pass  # Another one, then.


class Closed(Exception):
    """The other side ended its bytes before the message was whole."""


class Reader:
    """Reads messages off a socket; a user's answers are counted under its port."""

    def __init__(self, sock, port=None):
        self.sock = sock
        self.raw = b""
        self.port = port

    def more(self):
        piece = self.sock.recv(65536)
        if not piece:
            raise Closed(self.raw)
        self.raw += piece

    def until(self, mark):
        while mark not in self.raw:
            self.more()
        at = self.raw.index(mark) + len(mark)
        out, self.raw = self.raw[:at], self.raw[at:]
        return out

    def exactly(self, count):
        while len(self.raw) < count:
            self.more()
        out, self.raw = self.raw[:count], self.raw[count:]
        return out

    def to_end(self):
        try:
            while True:
                self.more()
        except (Closed, ConnectionResetError):
            out, self.raw = self.raw, b""
            self.count(out)
            return out

    def count(self, head):
        """Counts an answer of which so much was read."""
        status = head[9:12]
        if self.port is not None and head.startswith(b"HTTP/1.1 ") and b"\r\n" in head and status.isdigit() and status[:1] != b"1":
            SEEN[self.port][int(status)] += 1

    def head(self):
        return self.until(b"\r\n\r\n")

    def chunked(self):
        """A chunked body: its bytes, and the last chunk's line."""
        body = []
        while True:
            line = self.until(b"\r\n")
            size = int(line.split(b";")[0], 16)
            if size == 0:
                while self.until(b"\r\n") != b"\r\n":
                    pass
                return b"".join(body), line
            body.append(self.exactly(size))
            if self.exactly(2) != b"\r\n":
                raise Closed("a chunk without its end")


def fields_of(head):
    """The fields of a head, their names in lower case; the start line under the empty name."""
    lines = head.decode("latin-1").split("\r\n")
    fields = {"": lines[0]}
    for line in lines[1:]:
        if ":" in line:
            name, value = line.split(":", 1)
            fields[name.strip().lower()] = value.strip()
    return fields


def read_body(reader, fields, bodyless):
    """The body of an HTTP message."""
    if bodyless:
        return b""
    if fields.get("transfer-encoding", "").lower() == "chunked":
        return reader.chunked()[0]
    if "content-length" in fields:
        return reader.exactly(int(fields["content-length"]))
    return reader.to_end() if fields[""].startswith("HTTP/") else b""


class Answer:
    """An HTTP answer as it was read."""

    def __init__(self, reader, to_head=False):
        self.head = reader.head()
        while self.head.startswith(b"HTTP/1.1 100"):
            self.head = reader.head()
        reader.count(self.head)
        self.fields = fields_of(self.head)
        self.status = int(self.fields[""].split(" ")[1])
        bodyless = to_head or self.status in (204, 304)
        self.body = read_body(reader, self.fields, bodyless)


class User:
    """A connection to the proxy, from an address of the loopback where one is named; a narrow one takes a few kilobytes
    before they are read."""

    def __init__(self, port, narrow=False, source=None):
        self.sock = socket.socket()
        self.sock.settimeout(PATIENCE)
        if narrow:
            self.sock.setsockopt(socket.IPPROTO_TCP, socket.TCP_MAXSEG, 536)
            self.sock.setsockopt(socket.SOL_SOCKET, socket.SO_RCVBUF, 4096)
        if source:
            self.sock.setsockopt(socket.IPPROTO_IP, 24, 1)  # IP_BIND_ADDRESS_NO_PORT
            self.sock.bind((source, 0))
        self.sock.connect(("127.0.0.1", port))
        self.sock.setsockopt(socket.IPPROTO_TCP, socket.TCP_NODELAY, 1)
        self.reader = Reader(self.sock, port)

    def send(self, data):
        self.sock.sendall(data)

    def answer(self, to_head=False):
        return Answer(self.reader, to_head)

    def ask(self, request, to_head=False):
        self.send(request)
        return self.answer(to_head)

    def is_ended(self):
        """Whether the proxy ends the connection, with nothing more before it."""
        return self.reader.to_end() == b""

    def reset(self):
        self.sock.setsockopt(socket.SOL_SOCKET, socket.SO_LINGER, struct.pack("ii", 1, 0))
        self.sock.close()

    def close(self):
        self.sock.close()


def ask(port, request, to_head=False):
    """One answer, on a connection of its own."""
    user = User(port)
    try:
        return user.ask(request, to_head)
    finally:
        user.close()


class Server:
    """A server of threads: `serve(connection, number)` for each connection."""

    def __init__(self, serve, address="127.0.0.1", port=0):
        self.serve = serve
        self.count = 0
        self.inside = set()
        self.most = 0
        self.lock = threading.Lock()
        self.sock = socket.socket()
        self.sock.setsockopt(socket.SOL_SOCKET, socket.SO_REUSEADDR, 1)
        self.sock.bind((address, port))
        self.sock.listen(1024)
        self.port = self.sock.getsockname()[1]
        threading.Thread(target=self.run, daemon=True).start()

    def run(self):
        while True:
            try:
                conn, _ = self.sock.accept()
            except OSError:
                return
            with self.lock:
                self.count += 1
                number = self.count
            threading.Thread(target=self.one, args=(conn, number), daemon=True).start()

    def one(self, conn, number):
        with self.lock:
            self.inside.add(conn)
            self.most = max(self.most, len(self.inside))
        try:
            conn.settimeout(PATIENCE)
            conn.setsockopt(socket.IPPROTO_TCP, socket.TCP_NODELAY, 1)
            self.serve(conn, number)
        except (Closed, OSError, ValueError):
            pass
        finally:
            self.leave(conn)
            conn.close()

    def leave(self, conn):
        """Counts a connection no more. Before the other side is told that it ends, since that may open the next one at once."""
        with self.lock:
            self.inside.discard(conn)

    def close(self):
        try:
            self.sock.shutdown(socket.SHUT_RDWR)
        except OSError:
            pass
        self.sock.close()


class Origin(Server):
    """An origin whose answers the path says. `heads` and `bodies` keep what it was asked. A connection has one exchange, or with KEPT as
    many as there are before one whose answer its end ends, or that breaks."""

    def __init__(self):
        self.heads = []
        self.bodies = []
        self.release = threading.Event()
        super().__init__(self.exchange)

    def exchange(self, conn, _number):
        reader = Reader(conn)
        while self.one_of(conn, reader) and KEPT:
            pass

    def one_of(self, conn, reader):
        """Reads a request and answers it. Whether the answer is one after which the connection may serve."""
        head = reader.head()
        fields = fields_of(head)
        method, path = fields[""].split(" ")[:2]
        words = path.strip("/").split("/")
        if words[0] == "early":
            self.put(conn, 200, b"early")
            time.sleep(0.2)
            return False
        body = read_body(reader, fields, False)
        self.heads.append(head)
        self.bodies.append(body)
        self.respond(conn, method, words, body)
        return words[0] in ("chunked", "interim", "echo", "worked", "bytes") or path in ("/status/204", "/status/304")

    @staticmethod
    def put(conn, status, body, extra=b"", to_head=False):
        head = b"HTTP/1.1 %d Fine\r\nContent-Length: %d\r\n%s\r\n" % (status, len(body), extra)
        conn.sendall(head + (b"" if to_head else body))

    def respond(self, conn, method, words, body):
        kind = words[0]
        count = int(words[1]) if len(words) > 1 and words[1].isdigit() else 0
        to_head = method == "HEAD"
        if kind == "chunked":
            conn.sendall(b"HTTP/1.1 200 OK\r\nTransfer-Encoding: chunked\r\n\r\n")
            if not to_head:
                data = body_of(count)
                for at in range(0, len(data), 5000):
                    piece = data[at:at + 5000]
                    conn.sendall(b"%x\r\n%s\r\n" % (len(piece), piece))
                conn.sendall(b"0\r\nX-Trailer: dropped\r\n\r\n")
        elif kind == "close":
            conn.sendall(b"HTTP/1.0 200 OK\r\n\r\n" + (b"" if to_head else body_of(count)))
        elif kind == "status":
            conn.sendall(b"HTTP/1.1 %d Fine\r\n\r\n" % count)
        elif kind == "cut":
            conn.sendall(b"HTTP/1.1 200 OK\r\nContent-Length: %d\r\n\r\n" % count + body_of(count // 2))
        elif kind == "interim":
            conn.sendall(b"HTTP/1.1 100 Continue\r\n\r\nHTTP/1.1 103 Hints\r\nLink: x\r\n\r\n")
            self.put(conn, 200, b"after interim")
        elif kind == "switch":
            conn.sendall(b"HTTP/1.1 101 Switching\r\nUpgrade: x\r\n\r\n")
        elif kind == "garbage":
            conn.sendall(b"what is this\r\n\r\n")
        elif kind == "mute":
            self.release.wait(PATIENCE)
        elif kind == "echo":
            self.put(conn, 200, body)
        elif kind == "worked":
            conn.sendall(b"HTTP/1.1 200 OK\r\nContent-Length: 6\r\n\r\nabcdef")
        else:
            self.put(conn, 200, body_of(count), to_head=to_head)


class Icap(Server):
    """An ICAP service of RESPMOD and REQMOD. `options` is its OPTIONS head without the empty line; `reply(conn, reader,
    head, count)` answers the request of this number, from 1, whose head was read."""

    def __init__(self, reply=None, options=(), answer_options=True, port=0):
        self.reply = reply or self.no_modification
        self.extra = b"".join(line + b"\r\n" for line in options)
        self.answer_options = answer_options
        self.requests, self.questions = [], []
        self.release = threading.Event()
        self.asked = 0
        super().__init__(self.session, port=port)

    def session(self, conn, number):
        reader = Reader(conn)
        while True:
            head = reader.head()
            if head.startswith(b"OPTIONS"):
                self.asked += 1
                self.questions.append(head)
                if not self.answer_options:
                    self.release.wait(PATIENCE)
                    return
                method = b"REQMOD" if b"/reqmod" in head.split(b"\r\n")[0] else b"RESPMOD"
                if b"Connection: close" in self.extra:
                    self.leave(conn)
                conn.sendall(b"ICAP/1.0 200 OK\r\nMethods: " + method + b"\r\nISTag: \"t-1\"\r\nAllow: 204\r\n"
                             + self.extra + b"Encapsulated: null-body=0\r\n\r\n")
                if b"Connection: close" in self.extra:
                    return
                continue
            with self.lock:
                self.requests.append(head)
                count = len(self.requests)
            if self.reply(conn, reader, head, count) is False:
                return

    @staticmethod
    def rest(reader, head):
        """The encapsulated heads, the body and the last chunk's line (None for null-body)."""
        parts = fields_of(head)["encapsulated"].split(",")
        name, offset = parts[-1].strip().split("=")
        heads = reader.exactly(int(offset))
        if name == "null-body":
            return heads, b"", None
        body, last = reader.chunked()
        return heads, body, last

    NO_MODIFICATION = b"ICAP/1.0 204 No Modifications\r\nISTag: \"t-1\"\r\nEncapsulated: null-body=0\r\n\r\n"

    def no_modification(self, conn, reader, head, _count):
        """204 where it may be, else the message as it came."""
        heads, body, last = self.rest(reader, head)
        fields = fields_of(head)
        if "preview" in fields or "204" in fields.get("allow", ""):
            conn.sendall(self.NO_MODIFICATION)
            return True
        self.same(conn, fields, heads, body, last)
        return True

    @staticmethod
    def same(conn, fields, heads, body, last):
        names = [p.strip().split("=") for p in fields["encapsulated"].split(",")]
        if fields[""].startswith("RESPMOD") and names[0][0] == "req-hdr":
            heads = heads[int(names[1][1]):]
        kind = "req" if fields[""].startswith("REQMOD") else "res"
        part = "null-body" if last is None else kind + "-body"
        text = b"ICAP/1.0 200 OK\r\nISTag: \"t-1\"\r\nEncapsulated: %s-hdr=0, %s=%d\r\n\r\n" % (
            kind.encode(), part.encode(), len(heads))
        chunk = b"" if not body else b"%x\r\n%s\r\n" % (len(body), body)
        conn.sendall(text + heads + (b"" if last is None else chunk + b"0\r\n\r\n"))


class Program:
    """A program that serves until it is ended, its configuration on standard input, or in the file `config` where one is named; `before`
    is the command that runs it, and `handed` a listening socket that is handed over as systemd does."""

    def __init__(self, path, text, descriptors=None, before=(), handed=None, config=None):
        limit = list(before) + ([] if descriptors is None else ["prlimit", "--nofile=%d" % descriptors])
        words = [path, "serve"]
        if config:
            write(config, text)
            words += ["--config", config]
        if handed:
            limit += ["bash", "-c", 'exec env LISTEN_FDS=1 LISTEN_PID=$$ "$0" "$@" 3<&%d' % handed.fileno()]
        self.process = subprocess.Popen(limit + words, stdin=subprocess.PIPE, stdout=subprocess.PIPE, stderr=subprocess.PIPE,
                                        pass_fds=[handed.fileno()] if handed else [])
        self.process.stdin.write(b"" if config else text.encode())
        self.process.stdin.close()
        self.first = self.process.stdout.readline()

    def ended(self, patience=PATIENCE):
        """What it printed after its first line, on standard error, and its status."""
        status = self.process.wait(patience)
        return self.process.stdout.read(), self.process.stderr.read(), status

    def figure(self, name):
        """A number of /proc/PID/status, as VmRSS in kB."""
        with open("/proc/%d/status" % self.process.pid) as lines:
            for line in lines:
                if line.startswith(name + ":"):
                    return int(line.split()[1])
        return 0

    def descriptors(self):
        return len(os.listdir("/proc/%d/fd" % self.process.pid))

    def halt(self):
        """Keeps each of its threads from running on: the one that hears of it first may be late to tell the others."""
        self.process.send_signal(signal.SIGSTOP)
        os.waitpid(self.process.pid, os.WUNTRACED)

    def go_on(self):
        self.process.send_signal(signal.SIGCONT)

    def kill(self):
        if self.process.poll() is None:
            self.process.kill()
            self.process.wait()


class Proxy(Program):
    """adaptproxy: `text` is its configuration without its addresses; a service is (point, port, path), and the number of
    its connections where it isn't the default. `always` are lines of each configuration that it gets, and `config` the file that has
    it, where it isn't read from standard input."""

    def __init__(self, path, origin, text="", services=(), hosts="", descriptors=None, before=(), config=None, always=""):
        self.port, self.admin = free_port(), free_port()
        while self.admin == self.port:
            self.admin = free_port()
        SEEN.pop(self.port, None)
        self.origin, self.services, self.config, self.always = origin, services, config, always
        super().__init__(path, self.configuration(text, hosts), descriptors, before, config=config)
        if self.first != b"listening\n":
            raise AssertionError("not listening: %r" % (self.ended(),))

    def configuration(self, text="", hosts="", services=None):
        """The whole of it."""
        lines = 'listen = "127.0.0.1:%d"\nadmin = "127.0.0.1:%d"\n%s%s\n[hosts]\n"o.test" = "127.0.0.1:%d"\n%s\n' % (
            self.port, self.admin, self.always, text, self.origin, hosts)
        for point, port, where, *connections in self.services if services is None else services:
            lines += '[%s]\nhost = "127.0.0.1"\nport = %d\npath = "%s"\n' % (point, port, where)
            lines += "".join("connections = %d\n" % n for n in connections)
        return lines

    def reload(self, text="", hosts="", services=None):
        """Has its file say this, and be read again: the answer."""
        write(self.config, self.configuration(text, hosts, services))
        return self.say("reload")

    def say(self, *lines, patience=PATIENCE):
        """The answers of the admin port to these lines."""
        with socket.create_connection(("127.0.0.1", self.admin), patience) as sock:
            reader = Reader(sock)
            answers = []
            for line in lines:
                sock.sendall(line.encode() + b"\n")
                answers.append(reader.until(b"\n").decode().strip())
            return answers if len(answers) > 1 else answers[0]

    def stop(self):
        """Stops it: the audit's line."""
        with socket.create_connection(("127.0.0.1", self.admin), PATIENCE) as sock:
            sock.sendall(b"stop\n")
            printed, errors, status = self.ended()
        if status != 0:
            return "status %d, %r" % (status, errors)
        return printed.decode().strip()
