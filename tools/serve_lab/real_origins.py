"""Real origins that keep their connections for a second, behind a proxy that does so for longer: users who ask again just about then."""
import asyncio
import os
import random
import sys

from serve_lab.cases import IDLE, case, get, needs_tools, post, same
from serve_lab.fuzzing.wires import Ended, Reset, Wire, fields_of
from serve_lab.keeper import counts
from serve_lab.loopback import PATIENCE, body_of, free_port
from serve_lab.servers import NGINX_FOLDERS, SQUID_ALONE, Servers

# How often all users ask at once, and how many they are.
ROUNDS, USERS = int(os.environ.get("ROUNDS", "10")), 200
SIZES = (0, 1, 1000, 4096, 5000, 100000)

NGINX = """daemon off; worker_processes 2; pid %(dir)s/nginx.pid; error_log %(dir)s/nginx.err;
events { worker_connections 4096; }
http { access_log off; keepalive_timeout 1s;
""" + NGINX_FOLDERS + """
server { listen 127.0.0.1:%(port)d backlog=1024; root %(dir)s/www; } }
"""
APACHE = """ServerRoot %(dir)s
ServerName o.test
Listen 127.0.0.1:%(port)d
User www-data
Group www-data
PidFile %(dir)s/apache.pid
ErrorLog %(dir)s/apache.err
LoadModule mpm_event_module /usr/lib/apache2/modules/mod_mpm_event.so
LoadModule authz_core_module /usr/lib/apache2/modules/mod_authz_core.so
DocumentRoot %(dir)s/www
KeepAlive On
KeepAliveTimeout 1
MaxKeepAliveRequests 20
ThreadsPerChild 64
MaxRequestWorkers 512
ServerLimit 8
StartServers 4
"""
# python3 -m http.server, in HTTP/1.1 and with a bound of silence.
PYTHON = """
import http.server, os, sys
os.chdir(sys.argv[2])
class Handler(http.server.SimpleHTTPRequestHandler):
    protocol_version, timeout = "HTTP/1.1", 1
    def log_message(self, *_):
        pass
class Server(http.server.ThreadingHTTPServer):
    request_queue_size = 1024
Server(("127.0.0.1", int(sys.argv[1])), Handler).serve_forever()
"""
SQUID = """http_port 127.0.0.1:%(port)d accel vhost defaultsite=o.test
cache_peer 127.0.0.1 parent %(behind)d 0 no-query originserver
""" + SQUID_ALONE + """
max_filedescriptors 4096
client_idle_pconn_timeout 1 second
server_idle_pconn_timeout 1 second
"""


class Site(Servers):
    """Servers of a folder of files, whose names say their sizes: each answers its port."""

    def __init__(self):
        super().__init__("real_origins", {str(size): body_of(size) for size in SIZES})

    def begin(self, command, port):
        self.start(command, port)
        return port

    def nginx(self):
        port = free_port()
        return self.begin(["nginx", "-c", self.write("nginx.conf", NGINX, port=port)], port)

    def apache(self):
        port = free_port()
        return self.begin(["apache2", "-DFOREGROUND", "-f", self.write("apache.conf", APACHE, port=port)], port)

    def python(self):
        port = free_port()
        return self.begin([sys.executable, "-c", PYTHON, str(port), self.dir + "/www"], port)

    def squid(self, behind):
        port = free_port()
        return self.begin(["squid", "-N", "-f", self.write("squid.conf", SQUID, port=port, behind=behind)], port)


class Asker:
    """A user of a kept connection: what went wrong for it."""

    def __init__(self, number, port, authority):
        self.own, self.port, self.authority, self.wire, self.wrong, self.made = random.Random(number), port, authority, None, [], 0

    def chosen(self):
        """A request, its method, and what has to come: a status, and a body where it is known."""
        size, kind = self.own.choice(SIZES), self.own.random()
        if kind < 0.8:
            return get("/%d" % size), "GET", 200, body_of(size)
        if kind < 0.9:
            return get("/%d" % size, method="HEAD"), "HEAD", 200, b""
        if kind < 0.95:
            return get("/none"), "GET", 404, None
        return post("/%d" % size, body_of(self.own.choice((0, 10, 3000)))), "POST", None, None

    async def ask(self):
        request, method, status, body = self.chosen()
        request = request.replace(b"o.test", self.authority, 2)
        self.made += 1
        try:
            async with asyncio.timeout(PATIENCE):
                if self.wire is None or self.wire.ended:
                    self.wire = Wire()
                    await asyncio.get_running_loop().create_connection(lambda: self.wire, "127.0.0.1", self.port)
                self.wire.write(request)
                head = await self.wire.head()
                fields, found = fields_of(head), bytearray()
                await self.wire.message(found, fields, method == "HEAD")
        except (Ended, Reset, TimeoutError, OSError) as error:
            self.wrong.append("%s: %s" % (request.split(b"\r\n")[0], type(error).__name__))
            self.wire = None
            return
        answered = int(fields[b""].split(b" ")[1])
        if status not in (None, answered) or answered in (502, 503, 504) or body is not None and bytes(found) != body:
            self.wrong.append("%s: %s, %d bytes" % (request.split(b"\r\n")[0], fields[b""], len(found)))
        if fields.get(b"connection", b"").lower() == b"close":
            self.wire.close()
            self.wire = None


async def ask_in_bursts(port, own, authority):
    """Has all users ask at once, again and again, with a pause of about a second: what went wrong."""
    users = [Asker(number, port, authority) for number in range(USERS)]
    for _ in range(ROUNDS):
        await asyncio.gather(*(user.ask() for user in users))
        # The first of a burst has been idle for longer than the last one.
        await asyncio.sleep(own.choice((own.uniform(0.95, 1.05), own.uniform(0.8, 1))))
    for user in users:
        if user.wire:
            user.wire.close()
    return sum(user.made for user in users), sum((user.wrong for user in users), [])


def asked_about_the_second(bench, name, port, hosts="", authority=b"o.test"):
    """No request fails, though its origin, or the parent, ends idle connections after a second, just when the next ones come."""
    class Behind:
        pass
    origin = Behind()
    origin.port = port
    proxy = bench.proxy(origin, "shards = 2\nrows = 512\nkeep_origins = 1024\norigin_idle = 30", hosts=hosts)
    made, wrong = asyncio.run(ask_in_bursts(proxy.port, random.Random(name), authority))
    opened, reused, anew, _idle = counts(proxy)
    print("      %s: %d requests, %d wrong; %d connections opened, %d reused, %d begun anew" % (name, made, len(wrong), opened, reused, anew))
    same("wrong", wrong[:5], [])
    same("some were kept", reused > 0, True)
    same("audit", proxy.stop(), IDLE)


@case
def nginx_keeps_connections_for_a_second(bench):
    needs_tools("nginx")
    asked_about_the_second(bench, "nginx", bench.keep(Site()).nginx())


@case
def apache_keeps_connections_for_a_second(bench):
    needs_tools("apache2")
    asked_about_the_second(bench, "Apache", bench.keep(Site()).apache())


@case
def python_keeps_connections_for_a_second(bench):
    asked_about_the_second(bench, "http.server", bench.keep(Site()).python())


@case
def squid_keeps_connections_for_a_second(bench):
    needs_tools("squid", "nginx")
    site = bench.keep(Site())
    asked_about_the_second(bench, "Squid", site.squid(site.nginx()))
