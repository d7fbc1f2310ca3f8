"""The speed of programs under load: wrk and an ICAP client before them, nginx as the origin, Squid and c-icap beside them."""
import collections
import os
import re
import select
import socket
import subprocess
import time

from .floor import Floor
from .loopback import Program, Proxy, free_port
from .servers import NGINX_FOLDERS, SQUID_ALONE, Servers

TICKS = os.sysconf("SC_CLK_TCK")

NGINX = """daemon off; worker_processes 1; pid %(dir)s/nginx.pid; error_log %(dir)s/nginx.err;
events { worker_connections 4096; }
http { access_log off; keepalive_requests 1000000000;
""" + NGINX_FOLDERS + """
server { listen 127.0.0.1:%(port)d; root %(dir)s/www; } }
"""

C_ICAP = """PidFile %(dir)s/c-icap.pid
CommandsSocket %(dir)s/c-icap.ctl
Timeout 300
MaxKeepAliveRequests 1000000000
KeepAliveTimeout 600
StartServers 2
MaxServers 4
MinSpareThreads 32
MaxSpareThreads 256
ThreadsPerChild 128
MaxRequestsPerChild 0
Port 127.0.0.1:%(port)d
ServerAdmin a@b
ServerName bench
TmpDir %(dir)s
MaxMemObject 131072
DebugLevel 0
Pipelining on
ModulesDir %(modules)s
ServicesDir %(modules)s
LoadMagicFile /etc/c-icap/c-icap.magic
ServerLog %(dir)s/c-icap.log
AccessLog /dev/null
Service echo srv_echo.so
"""

SQUID = """http_port 127.0.0.1:%(port)d
""" + SQUID_ALONE + """
cache_mem 8 MB
max_filedescriptors 8192
icap_persistent_connections on
icap_preview_enable on
icap_preview_size 1024
"""

ICAP = """icap_enable on
icap_service s respmod_precache bypass=off icap://127.0.0.1:%d%s
adaptation_access s allow all
"""


# Its `done` prints how many answers took how many microseconds.
SCRIPT = """wrk.headers["Host"] = "127.0.0.1:%(origin)d"
%(closing)s
%(pausing)s
request = function() return wrk.format("GET", "http://127.0.0.1:%(origin)d/%(path)s") end
done = function(summary, latency)
  print("took", summary.duration, summary.requests)
  for at = 1, #latency do print("each", latency(at)) end
end
"""

SIZES = {"1k": 1024, "64k": 65536, "1m": 1 << 20, "4m": 4 << 20}


def processor_time(pid):
    """Seconds of processor time of a process, to the nanosecond, while it runs."""
    return time.clock_gettime(~pid << 3 | 2)


def children(pid):
    """The process and all below it."""
    found = [pid]
    try:
        with open("/proc/%d/task/%d/children" % (pid, pid)) as text:
            for child in text.read().split():
                found += children(int(child))
    except OSError:
        pass
    return found


def times(pid):
    """User and system seconds of a process and of all below it."""
    user = system = 0
    for each in children(pid):
        try:
            with open("/proc/%d/stat" % each) as text:
                words = text.read().rsplit(")", 1)[1].split()
            user, system = user + int(words[11]), system + int(words[12])
        except OSError:
            pass
    return user / TICKS, system / TICKS


def resident(pid):
    """VmRSS of a process and of all below it, in bytes."""
    sum_of = 0
    for each in children(pid):
        with open("/proc/%d/status" % each) as lines:
            sum_of += sum(int(line.split()[1]) * 1024 for line in lines if line.startswith("VmRSS:"))
    return sum_of


def uncorrected(counts, between):
    """How many answers took how many microseconds, as wrk measured it. What it prints has more of them: an answer that took `n` times
    as long as the requests of a connection are apart, by the mean, is counted for the requests of these too."""
    measured, more = {}, collections.Counter()
    for time_of in sorted(counts, reverse=True):
        count = counts[time_of] - more[time_of]
        if count > 0:
            measured[time_of] = count
        if count > 0 and time_of >= 2 * between:
            for earlier in range(time_of - between, between, -between):
                more[earlier] += count
    return measured


def within(measured, part):
    """The microseconds within which this part of the answers came."""
    left = sum(measured.values()) * (1 - part)
    for time_of in sorted(measured, reverse=True):
        left -= measured[time_of]
        if left < 0:
            return time_of
    return 0


def delayed_acks():
    """How many ACKs of this machine a timer has sent, 40 ms after the bytes came: those on which nobody waited too."""
    with open("/proc/net/netstat") as lines:
        names, figures = (line.split() for line in lines if line.startswith("TcpExt:"))
    return int(figures[names.index("DelayedACKs")])


class Loaded:
    """What a program did under load: requests/s, user and system microseconds a request, the milliseconds within which 99 of 100 and
    all answers came, the ACKs that were delayed, and how many requests there were."""
    PARTS = ("rate", "user", "system", "slow", "slowest", "delayed")

    def __init__(self, rate, user, system, slow=0.0, slowest=0.0, delayed=0, errors=(), count=0):
        self.rate, self.user, self.system, self.errors = rate, user, system, list(errors)
        self.slow, self.slowest, self.delayed, self.count = slow, slowest, delayed, count
        self.cpu = user + system


class Lab(Servers):
    """An origin, and the programs that are measured."""

    def __init__(self, adaptproxy, icapd):
        super().__init__("bench_serve", {name: b"a" * size for name, size in SIZES.items()})
        self.adaptproxy_path, self.icapd_path = adaptproxy, icapd
        self.programs, self.compiled = [], None
        self.origin = free_port()
        self.origin_pid = self.start(["nginx", "-c", self.write("nginx.conf", NGINX, port=self.origin)], self.origin)

    def icapd(self):
        """The port and the process of an icapd."""
        port = free_port()
        self.programs.append(Program(self.icapd_path, 'listen = "127.0.0.1:%d"\nmax = 1024\n' % port))
        return port, self.programs[-1].process.pid

    def c_icap(self):
        port, modules = free_port(), "/usr/lib/x86_64-linux-gnu/c_icap"
        return port, self.start(["c-icap", "-N", "-f", self.write("c-icap.conf", C_ICAP, port=port, modules=modules)], port)

    def squid(self, service=None):
        """The port and the process of a Squid; a service is (port, path)."""
        port = free_port()
        text = SQUID + ("" if service is None else (ICAP % service).replace("%", "%%"))
        return port, self.start(["squid", "-N", "-f", self.write("squid.%d.conf" % port, text, port=port)], port)

    def adaptproxy(self, shards, service=None, text="", hosts=""):
        services = [] if service is None else [("respmod",) + service + (1024,)]
        proxy = Proxy(self.adaptproxy_path, self.origin, "shards = %d\nrows = 1024\n%s" % (shards, text), services, hosts)
        self.programs.append(proxy)
        return proxy.port, proxy.process.pid

    def floor(self, threads, service=None, **settings):
        """The port and the process of a floor."""
        self.compiled, port = self.compiled or Floor(), free_port()
        return port, self.start(self.compiled.command(port, self.origin, service, threads=threads, **settings), port)

    def close(self):
        for program in self.programs:
            program.kill()
        super().close()
        if self.compiled:
            self.compiled.close()

    def load(self, program, path, connections, seconds, closing=False, pause=0, script=SCRIPT):
        """wrk's requests for a file, over this many connections, to a program's port; the times are those of its process. Each connection
        pauses so many milliseconds before each request. `script` may ask for other targets."""
        port, pid = program
        closes = 'wrk.headers["Connection"] = "close"' if closing else ""
        pauses = "delay = function() return %d end" % pause if pause else ""
        script = self.write("wrk.lua", script, origin=self.origin, path=path, closing=closes, pausing=pauses)
        before, delayed = times(pid), delayed_acks()
        out = subprocess.run(["wrk", "-t1", "-c%d" % connections, "-d%ds" % seconds, "--latency", "-s", script,
                              "http://127.0.0.1:%d/" % port], capture_output=True, text=True, check=True).stdout
        after, delayed = times(pid), delayed_acks() - delayed
        duration, count = (int(word) for word in re.search(r"^took\t(\d+)\t(\d+)$", out, re.M).groups())
        counts = {int(time_of): int(number) for time_of, number in re.findall(r"^each\t(\d+)\t(\d+)$", out, re.M)}
        measured = uncorrected(counts, duration // max(count // connections, 1))
        errors = [line.strip() for line in out.splitlines() if "Non-2xx" in line or "Socket errors" in line]
        each = max(count, 1) / 1e6
        return Loaded(count * 1e6 / duration, (after[0] - before[0]) / each, (after[1] - before[1]) / each, within(measured, 0.99) / 1000,
                      within(measured, 1) / 1000, delayed, errors, count)

    def calls(self, program, path, connections, seconds):
        """System calls a request under wrk's load, by their names, as strace counts them."""
        text = os.path.join(self.dir, "strace")
        tracer = subprocess.Popen(["strace", "-c", "-f", "-o", text, "-p", str(program[1])], stderr=subprocess.DEVNULL)
        time.sleep(1)
        found = self.load(program, path, connections, seconds)
        tracer.send_signal(2)
        tracer.wait()
        counts = {}
        with open(text) as lines:
            for line in lines:
                words = line.split()
                if len(words) >= 5 and words[3].isdigit() and words[-1] != "total":
                    counts[words[-1]] = int(words[3]) / (found.rate * seconds)
        return dict(sorted(counts.items(), key=lambda pair: -pair[1]))

    def stalled(self, program, count, patience=20):
        """Resident bytes for each of so many users who ask for 1 MB through the program, and take nothing of it."""
        port, pid = program
        self.load(program, "1k", 16, 1)
        before, users = resident(pid), []
        text = b"GET http://127.0.0.1:%d/1m HTTP/1.1\r\nHost: 127.0.0.1:%d\r\n\r\n" % (self.origin, self.origin)
        try:
            for _ in range(count):
                user = socket.socket()
                user.setsockopt(socket.SOL_SOCKET, socket.SO_RCVBUF, 4096)
                user.connect(("127.0.0.1", port))
                user.sendall(text)
                users.append(user)
            last, end = -1, time.time() + patience
            while last != resident(pid) and time.time() < end:
                last = resident(pid)
                time.sleep(2)
            return (resident(pid) - before) / count
        finally:
            for user in users:
                user.close()

    def profile(self, program, path, connections, seconds, count=5):
        """The first rows of a profile of a program's user time."""
        data = os.path.join(self.dir, "perf")
        # All of its threads run then, so that each is seen.
        self.load(program, path, connections, 1)
        tracer = subprocess.Popen(["perf", "record", "-q", "-e", "cpu-clock:u", "-o", data, "-p", str(program[1]), "--", "sleep",
                                   str(seconds)], stderr=subprocess.DEVNULL)
        while tracer.poll() is None:
            self.load(program, path, connections, 1)
        out = subprocess.run(["perf", "report", "-i", data, "--no-children", "--stdio", "--sort", "symbol"], capture_output=True,
                             text=True).stdout
        rows = re.findall(r"^ +([\d.]+%) +\[.\] ([^\s<]+)", out, re.M)
        return ["%s %s" % (part, name.rstrip(":")) for part, name in rows[:count]]


def icap_request(port, path):
    """A RESPMOD request of a page of 1 KB, all of it in the preview. `pass` of icapd answers by 204; `echo` of c-icap by 204 and
    by 200 in turn."""
    asked = b"GET http://o.test/ HTTP/1.1\r\nHost: o.test\r\n\r\n"
    head = b"HTTP/1.1 200 OK\r\nContent-Type: text/html\r\nContent-Length: 1024\r\n\r\n"
    return (b"RESPMOD icap://127.0.0.1:%d%s ICAP/1.0\r\nHost: 127.0.0.1:%d\r\nAllow: 204\r\nPreview: 1024\r\n"
            b"Encapsulated: req-hdr=0, res-hdr=%d, res-body=%d\r\n\r\n" % (port, path.encode(), port, len(asked), len(asked) + len(head))
            + asked + head + b"400\r\n" + b"a" * 1024 + b"\r\n0; ieof\r\n\r\n")


def icap_answers(port, path, connections, seconds):
    """How many requests are answered over these connections, each of which asks again once it has its answer."""
    text, poll, users, count = icap_request(port, path), select.epoll(), {}, 0
    for _ in range(connections):
        user = socket.create_connection(("127.0.0.1", port), 5)
        user.setsockopt(socket.IPPROTO_TCP, socket.TCP_NODELAY, 1)
        users[user.fileno()] = user
        poll.register(user.fileno(), select.EPOLLIN)
        user.sendall(text)
    end, answers = time.time() + seconds, {key: b"" for key in users}
    while time.time() < end:
        for key, _ in poll.poll(1):
            answer = answers[key] + users[key].recv(65536)
            if answer.startswith(b"ICAP/1.0 204") or answer.endswith(b"\r\n0\r\n\r\n"):
                count, answer = count + 1, b""
                users[key].sendall(text)
            answers[key] = answer
    for user in users.values():
        user.close()
    return count


def icap_load(server, path, connections, seconds, clients=2):
    """The load of ICAP clients, each a process with its own connections."""
    port, pid = server
    before, ends = times(pid), []
    for _ in range(clients):
        reads, writes = os.pipe()
        if os.fork() == 0:
            os.write(writes, b"%d" % icap_answers(port, path, connections // clients, seconds))
            os._exit(0)
        os.close(writes)
        ends.append(reads)
    count = 0
    for reads in ends:
        with os.fdopen(reads) as text:
            count += int(text.read() or 0)
        os.wait()
    after, each = times(pid), max(count, 1) / 1e6
    return Loaded(count / seconds, (after[0] - before[0]) / each, (after[1] - before[1]) / each)
