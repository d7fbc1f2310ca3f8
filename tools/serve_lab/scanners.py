"""A real scanner: c-icap with its virus_scan service, and ClamAV's clamd, whose one signature is that of EICAR."""
import glob
import io
import os
import shutil
import socket
import subprocess
import tempfile
import zipfile

from serve_lab.cases import IDLE, case, comes, get, needs, needs_tools, post, post_chunked, same
from serve_lab.loopback import Reader, Server, User, body_of, fields_of, free_port, read_body
from serve_lab.operators import Log
from serve_lab.servers import Servers

# The test file that every scanner takes for a virus, in two halves: so this file isn't one.
EICAR = rb"X5O!P%@AP[4\PZX54(P^)7CC)7}$EICAR" + rb"-STANDARD-ANTIVIRUS-TEST-FILE!$H+H*"
CLAMD = """LocalSocket {0}/clamd.sock
DatabaseDirectory {0}/signatures
TemporaryDirectory {0}
Foreground yes
StreamMaxLength 100M
MaxScanSize 100M
MaxFileSize 100M
"""
C_ICAP = """Port 127.0.0.1:{port}
PidFile {0}/{port}.pid
CommandsSocket {0}/{port}.ctl
ServerLog {0}/{port}.log
AccessLog {0}/{port}.access
TmpDir {0}
ServerName scanner.test
StartServers 1
MaxServers 2
ThreadsPerChild 16
MinSpareThreads 4
MaxSpareThreads 64
ModulesDir {modules}
ServicesDir {modules}
TemplateDir /usr/share/c_icap/templates/
LoadMagicFile /etc/c-icap/c-icap.magic
Module common clamd_mod.so
clamd_mod.ClamdSocket {0}/clamd.sock
Service virus_scan virus_scan.so
virus_scan.ScanFileTypes TEXT DATA EXECUTABLE ARCHIVE GIF JPEG MSOFFICE
virus_scan.SendPercentData 0
virus_scan.StartSendPercentDataAfter 100M
virus_scan.MaxObjectSize 100M
{more}
"""


C_ICAP_ECHO = """Port 127.0.0.1:%(port)d
PidFile %(dir)s/c-icap.pid
CommandsSocket %(dir)s/c-icap.ctl
ServerLog %(dir)s/c-icap.log
TmpDir %(dir)s
StartServers 1
MaxServers 2
ThreadsPerChild 8
MinSpareThreads 2
MaxSpareThreads 8
ModulesDir %(modules)s
ServicesDir %(modules)s
LoadMagicFile /etc/c-icap/c-icap.magic
Service echo srv_echo.so
"""


def c_icap_echo(bench, more=""):
    """A c-icap with its echo service at /echo, in a folder of its own, and its port. `more` are further lines of its configuration."""
    needs_tools("c-icap")
    modules = glob.glob("/usr/lib/*/c_icap/srv_echo.so")
    needs("c-icap's modules", modules and os.path.exists("/etc/c-icap/c-icap.magic"))
    servers, port = bench.keep(Servers("c-icap", {})), free_port()
    settings = servers.write("c-icap.conf", C_ICAP_ECHO + more, port=port, modules=os.path.dirname(modules[0]))
    servers.start(["c-icap", "-N", "-f", settings], port)
    return servers, port


class Scanner:
    """clamd, and c-icap with previews and one without."""

    def __init__(self):
        needs_tools("c-icap", "clamd")
        modules = glob.glob("/usr/lib/*/c_icap/virus_scan.so")
        needs("libc-icap-mod-virus-scan", modules and os.path.exists("/etc/c-icap/c-icap.magic"))
        self.modules = os.path.dirname(modules[0])
        self.folder, self.programs = tempfile.mkdtemp(), []
        os.mkdir(self.folder + "/signatures")
        with open(self.folder + "/signatures/eicar.ndb", "w") as text:
            text.write("Eicar-Test-Signature:0:*:%s\n" % EICAR.hex())
        self.start(["clamd", "--config-file"], "clamd.conf", CLAMD.format(self.folder))
        comes("clamd", lambda: os.path.exists(self.folder + "/clamd.sock"))

    def start(self, words, name, text):
        path = os.path.join(self.folder, name)
        with open(path, "w") as file:
            file.write(text)
        self.programs.append(subprocess.Popen(words[:-1] + ([words[-1] + "=" + path] if words[-1].startswith("--") else [words[-1], path]),
                                              stdin=subprocess.DEVNULL, stdout=subprocess.DEVNULL, stderr=subprocess.DEVNULL))

    def c_icap(self, more=""):
        """The port of one more c-icap."""
        port = free_port()
        self.start(["c-icap", "-N", "-f"], "%d.conf" % port, C_ICAP.format(self.folder, port=port, modules=self.modules, more=more))

        def listens():
            with socket.socket() as sock:
                return sock.connect_ex(("127.0.0.1", port)) == 0
        comes("c-icap", listens)
        return port

    def close(self):
        for program in reversed(self.programs):
            program.terminate()
            try:
                program.wait(10)
            except subprocess.TimeoutExpired:
                program.kill()
                program.wait()
        shutil.rmtree(self.folder, ignore_errors=True)


def zipped(body):
    out = io.BytesIO()
    with zipfile.ZipFile(out, "w", zipfile.ZIP_DEFLATED) as archive:
        archive.writestr("a.txt", body)
    return out.getvalue()


@case
def c_icap_with_clamav_blocks_a_virus_with_its_page(bench):
    """c-icap folds the field X-Violations-Found of each virus that it finds."""
    scanner = bench.keep(Scanner())
    files = {}
    for name, body in (("virus", EICAR), ("clean", EICAR.swapcase())):
        files.update({"/file/" + name: body, "/zip/" + name: zipped(body), "/late/" + name: body_of(6_000_000) + body})

    def serve(conn, _number):
        reader = Reader(conn)
        head = reader.head()
        fields = fields_of(head)
        path = fields[""].split(" ")[1]
        body = read_body(reader, fields, False) if fields[""].startswith("POST") else files[path]
        conn.sendall(b"HTTP/1.1 200 OK\r\nContent-Type: application/octet-stream\r\nContent-Length: %d\r\n\r\n" % len(body) + body)
    origin = bench.keep(Server(serve))
    for preview, more in (("on", ""), ("off", "virus_scan.TransferComplete *\nvirus_scan.TransferPreview none")):
        port = scanner.c_icap(more)
        log = bench.keep(Log())
        proxy = bench.proxy(origin, log.key, [("reqmod", port, "/virus_scan"), ("respmod", port, "/virus_scan")])
        user = User(proxy.port)
        for path, body in files.items():
            asked = [("down", get(path)), ("up", post(path, body)), ("up in chunks", post_chunked(path, body, 5000))]
            for way, request in asked:
                what = "%s %s, preview %s" % (path, way, preview)
                answer = user.ask(request)
                found = log.next()[0][13]
                same(what, "Eicar-Test-Signature" in found, path.endswith("virus"))
                if path.endswith("virus"):
                    same(what, (answer.status, b"VIRUS FOUND" in answer.body, b"Eicar-Test-Signature" in answer.body), (403, True, True))
                else:
                    same(what, (answer.status, answer.body == body), (200, True))
                if answer.fields.get("connection", "").lower() == "close":
                    user = User(proxy.port)
        same("audit", proxy.stop(), IDLE)
