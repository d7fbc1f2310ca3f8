"""The section "In front of a school" of docs/RUNNING.md, by its configurations as they stand, but for addresses and folders: users, the proxy
with a virus scanner, and a Squid that caches."""
import os
import re
import subprocess
from email.utils import formatdate

from serve_lab.admission import serves
from serve_lab.cases import IDLE, case, comes, needs_tools, same
from serve_lab.loopback import TOP, Reader, Server, User, body_of, fields_of, free_port, read_body
from serve_lab.operators import Log
from serve_lab.parents import to
from serve_lab.scanners import EICAR, Scanner
from serve_lab.servers import Servers

# What the section leaves to the system.
ALONE = """hosts_file %(dir)s/names
cache_log %(dir)s/squid.log
cache_store_log none
pid_filename none
coredump_dir %(dir)s
shutdown_lifetime 1 seconds
pinger_enable off
"""


def section():
    """Its configurations: the proxy's, the hosts file, and Squid's."""
    with open(os.path.join(TOP, "docs", "RUNNING.md")) as text:
        page = text.read()
    blocks = re.findall(r"^```(\w+)\n(.*?)^```", page[page.index("\n## In front of a school\n"):], re.S | re.M)
    same("its blocks", [kind for kind, _text in blocks[:4]], ["text", "toml", "text", "text"])
    return [text for _kind, text in blocks[1:4]]


def replaced(text, *pairs):
    for old, new in pairs:
        same("it says " + old, old in text, True)
        text = text.replace(old, new)
    return text


class Web(Server):
    """What pupils ask for: a lesson that may be kept, a virus, and a form."""

    def __init__(self):
        self.asked = []
        super().__init__(self.exchange, "0.0.0.0")

    def exchange(self, conn, _number):
        reader = Reader(conn)
        while True:
            head = reader.head()
            fields = fields_of(head)
            read_body(reader, fields, False)
            path = fields[""].split(" ")[1]
            self.asked.append((path, fields))
            body = EICAR if path == "/eicar.com" else body_of(3000)
            conn.sendall(b"HTTP/1.1 200 OK\r\nDate: %s\r\nCache-Control: max-age=3600\r\nContent-Type: text/html\r\nContent-Length: %d\r\n\r\n%s"
                         % (formatdate(usegmt=True).encode(), len(body), body))


class School(Servers):
    """The programs of the section."""

    def __init__(self, bench, web):
        super().__init__("school", {})
        bench.keep(self)
        settings, names, squid = section()
        # Here all is on the loopback: its first half is the pupils' and the web, the other one is what nobody may reach.
        self.web, self.log, parent, service = web, bench.keep(Log()), free_port(), bench.keep(Scanner()).c_icap()
        self.write("names", "127.0.0.1 www.example.org\n127.0.0.201 inside.example.org\n")
        squid = replaced(squid, ("127.0.0.1:3130", "127.0.0.1:%d" % parent), ("127.0.0.0/8", "127.0.0.128/25"), ("8080", "8080 %d" % web.port),
                         ("/var/spool/squid", self.dir + "/cache"), ("/var/log/squid", self.dir)).replace("%", "%%")
        path = self.write("squid.conf", squid + ALONE)
        os.mkdir(self.dir + "/cache")
        os.chmod(self.dir + "/cache", 0o777)
        subprocess.run(["squid", "-z", "-N", "-f", path], stdout=subprocess.DEVNULL, stderr=subprocess.DEVNULL, check=True)
        self.start(["squid", "-N", "-f", path], parent)
        hosts = self.write("hosts", replaced(names, ("10.0.0.7", "127.0.0.7")))
        keys = replaced(settings[:settings.index("[reqmod]")], ('listen = "10.0.0.1:3128"\nadmin = "127.0.0.1:3129"\n', ""),
                        ("/var/log/adaptproxy/access.log", self.log.path), ("10.0.0.0/8", "127.0.0.0/25"), ("127.0.0.0/8", "127.0.0.128/25"),
                        ("/etc/adaptproxy/hosts", hosts), ("/usr/share/adaptproxy/", TOP + "/"))
        table = replaced(settings[settings.index("[parent]"):], ("3130", str(parent)))
        services = [(point, service, "/virus_scan", 64) for point in ("reqmod", "respmod")]
        same("its tables", settings[settings.index("[reqmod]"):settings.index("[parent]")].count('path = "/virus_scan"'), 2)
        self.proxy = bench.proxy(web, keys, services, table, config=self.dir + "/proxy.toml")

    def asks(self, host, path, **words):
        """What a pupil gets, and the log's line."""
        user = User(self.proxy.port, source="127.0.0.9")
        answer = user.ask(to("%s:%d" % (host, self.web.port), path, **words))
        user.close()
        return answer, self.log.next()[0]

    def squid_had(self, what, count):
        """What Squid says of so many requests, which are all that it had: the tag and the status of each. A connection on which nothing
        came, as when its start is waited for, is none."""
        def lines():
            with open(self.dir + "/access.log") as text:
                return [line for line in text if " NONE_NONE/" not in line]
        comes(what, lambda: len(lines()) >= count)
        same(what, len(lines()), count)
        return [line.split()[3] for line in lines()]


@case
def a_school_has_a_scanner_and_a_cache(bench):
    needs_tools("squid", "c-icap", "clamd")
    web = bench.keep(Web())
    school = School(bench, web)
    for _turn in range(2):
        answer, row = school.asks("www.example.org", "/lesson.html")
        same("a lesson", (answer.status, answer.body, row[8]), (200, body_of(3000), "FIRSTUP_PARENT/127.0.0.1"))
        same("who asked, and the scanner", (row[2], row[10][-3:], row[11][-3:]), ("127.0.0.9", "204", "204"))
    same("its cache", school.squid_had("two lessons", 2), ["TCP_MISS/200", "TCP_MEM_HIT/200"])
    same("the web was asked once", [path for path, _fields in web.asked], ["/lesson.html"])
    same("of nobody", [name for name in ("x-forwarded-for", "x-client-ip") if name in web.asked[0][1]], [])
    for _turn in range(2):
        answer, row = school.asks("www.example.org", "/eicar.com")
        same("a virus", (answer.status, b"VIRUS FOUND" in answer.body, "Eicar-Test-Signature" in row[13]), (403, True, True))
    asked = len(web.asked)
    answer, row = school.asks("www.example.org", "/form", method="POST", extra="Content-Length: %d\r\n" % len(EICAR), body=EICAR)
    same("one that is sent", (answer.status, row[8], len(web.asked)), (403, "HIER_NONE/-", asked))
    for name in ("intranet.example", "timetable.example"):
        answer, row = school.asks(name, "/")
        same(name, (answer.status, row[8]), (200, "HIER_DIRECT/127.0.0.7"))
    answer, row = school.asks("inside.example.org", "/")
    same("a name that Squid finds inside", (answer.status, row[3]), (403, "TCP_MISS"))
    same("all that Squid had", school.squid_had("all", 5)[2:], ["TCP_MISS/200", "TCP_MEM_HIT/200", "TCP_DENIED/403"])
    answer, row = school.asks("127.0.0.200", "/")
    same("an address inside", (answer.status, row[12], b"denied</b>, number <b>%s<" % (row[15] or "").encode() in answer.body), (502, "denied", True))
    same("nobody else may use it", serves(school.proxy, "127.0.0.130"), False)
    same("audit", school.proxy.stop(), IDLE)
