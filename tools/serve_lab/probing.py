"""`adaptproxy probe`: what it says of icapd, of other servers, and of services that break a rule."""
import re
import subprocess
import time

from serve_lab.cases import ADAPTPROXY, case, same
from serve_lab.loopback import Reader, Server, fields_of, free_port
from serve_lab.scanners import EICAR, Scanner, c_icap_echo

NAMES = ("no-body", "below", "below-allow", "preview", "preview-allow", "above", "above-allow", "million", "million-allow", "chunked",
         "eicar")
SIZES = (0, 1023, 1023, 1024, 1024, 1025, 1025, 1000000, 1000000, 10000, 68)


def configuration(*services, more=""):
    """One whose own ports nobody can have: a probe opens none. A service is (point, port, path)."""
    text = 'listen = "127.0.0.1:1"\nadmin = "127.0.0.1:2"\n' + more
    for point, port, path in services:
        text += '[%s]\nhost = "127.0.0.1"\nport = %d\npath = "%s"\n' % (point, port, path)
    return text


def probe(text, *words, patience=60):
    """The lines, with T for each time; standard error; and the status."""
    ended = subprocess.run([ADAPTPROXY, "probe"] + list(words), input=text.encode(), stdout=subprocess.PIPE, stderr=subprocess.PIPE,
                           timeout=patience)
    said = re.sub(r"\d+\.\d{3} ms", "T", ended.stdout.decode())
    return said.splitlines(), ended.stderr.decode(), ended.returncode


def counted(size):
    return "1 byte" if size == 1 else "%d bytes" % size


def wanted_lines(way, came):
    """A line for each sample: what came of it is a function of its name and its size."""
    return ["  %s %s (%s): %s; T; serves again" % (way, name, counted(size), came(name, size)) for name, size in zip(NAMES, SIZES)]


ICAPD = ["  Service adaptproxy icapd", '  ISTag "adapt-1"', "  Options-TTL 3600 seconds", "  Max-Connections 16", "  Preview 1024 bytes",
         "  Transfer-Preview *", "  204 within a preview, and outside one"]


def echoed(name, size):
    """What Stamp and Upper answer: they want the whole body."""
    return "200%s with %s" % (" after 100" if size > 1024 else "", counted(size))


@case
def a_probe_says_what_icapd_answers(bench):
    port = bench.icapd()
    answers = {"pass": lambda name, size: "204", "stamp": echoed, "upper": echoed,
               "block": lambda name, size: "403 with a page of 8 bytes"}
    for service, came in answers.items():
        text = configuration(("reqmod", port, "/reqmod/" + service), ("respmod", port, "/respmod/" + service))
        wanted = []
        for point in ("reqmod", "respmod"):
            wanted += ["%s icap://127.0.0.1:%d/%s/%s" % (point, port, point, service), "  fresh options: 200; T; serves again",
                       "  Methods " + point.upper()] + ICAPD + wanted_lines("kept", came) + wanted_lines("fresh", came)
        wanted.append("46 answers, of which 0 broke a rule")
        same(service, probe(text), (wanted, "", 0))


@case
def a_probe_takes_a_sample_and_a_count(bench):
    port = bench.icapd()
    text = configuration(("respmod", port, "/respmod/upper"))
    lines, errors, status = probe(text, "--count", "50", "--only", "above-allow")
    same("lines", lines[10:], [
        "  kept above-allow (1025 bytes): 200 after 100 with 1025 bytes; T; serves again",
        "    of 50: least T, half within T, nine tenths within T, most T",
        "  fresh above-allow (1025 bytes): 200 after 100 with 1025 bytes; T; serves again",
        "    of 50: least T, half within T, nine tenths within T, most T", "101 answers, of which 0 broke a rule"])
    same("the rest", (errors, status), ("", 0))
    for words in (("--only",), ("--only", "x"), ("--count", "0"), ("--count", "100001"), ("--count", "x"), ("x", "y"), ("--only", "eicar", "x")):
        same(words, probe(text, *words), ([], "adaptproxy: usage\n", 2))
    same("no service", probe(configuration()), (["0 answers, of which 0 broke a rule"], "", 1))
    same("no configuration", probe("x"), ([], "adaptproxy: config\n", 2))
    lines, errors, status = probe(configuration(("respmod", free_port(), "/x")))
    same("nobody listens", (lines[1:], errors, status), (["  fresh options: fault Refused: no connection can be had, at octet 0; T; doesn't serve again",
                                                          "1 answers, of which 1 broke a rule"], "", 1))


@case
def no_program_holds_the_test_text(bench):
    with open(ADAPTPROXY, "rb") as program:
        same("the test text of EICAR", EICAR in program.read(), False)


OPTIONS = (b"ICAP/1.0 200 OK\r\n", b"Methods: RESPMOD\r\n", b"ISTag: \"t-1\"\r\n", b"Preview: 1024\r\n", b"Encapsulated: null-body=0\r\n")
NO_CHANGE = b"ICAP/1.0 204 No Modifications\r\nISTag: \"t-1\"\r\nEncapsulated: null-body=0\r\n\r\n"
GO_ON = b"ICAP/1.0 100 Continue\r\n\r\n"
HTTP = b"HTTP/1.1 200 OK\r\nContent-Length: 5\r\n\r\n"
CHANGED = b"ICAP/1.0 200 OK\r\nISTag: \"t-1\"\r\nEncapsulated: res-hdr=0, res-body=%d\r\n\r\n" % len(HTTP) + HTTP


class Rude(Server):
    """A service of RESPMOD with a preview. `options` is its answer to OPTIONS, `answers` what it says after the preview, and after the rest
    where its first answer is 100; then it ends the connection, or says nothing for a while."""

    def __init__(self, options=None, answers=(NO_CHANGE,), pause=0.0):
        self.options, self.answers, self.pause = options or b"".join(OPTIONS) + b"\r\n", answers, pause
        super().__init__(self.session)

    def session(self, conn, _number):
        reader = Reader(conn)
        while True:
            head = reader.head()
            if head.startswith(b"OPTIONS"):
                conn.sendall(self.options)
                continue
            name, offset = fields_of(head)["encapsulated"].split(",")[-1].strip().split("=")
            reader.exactly(int(offset))
            if name != "null-body":
                last = reader.chunked()[1]
            for number, answer in enumerate(self.answers):
                if number == 1 and b"ieof" not in last:
                    reader.chunked()
                conn.sendall(answer)
            time.sleep(self.pause)
            return


def without(name):
    return b"".join(line for line in OPTIONS if not line.startswith(name)) + b"\r\n"


def instead(name, line):
    return b"".join(line if old.startswith(name) else old for old in OPTIONS) + b"\r\n"


# A rule, how a service breaks it, with which sample that shows, and what is said of it.
RUDE = (
    ("OPTIONS has status 200", {"options": b"ICAP/1.0 404 Not Found\r\nISTag: \"t-1\"\r\n\r\n"}, "options",
     'Status: a status that isn\'t taken, at octet 0 "ICAP/1.0 404 Not Found\\r\\nISTag: \\"t-1\\"\\r'),
    ("OPTIONS names the method", {"options": instead(b"Methods", b"Methods: REQMOD\r\n")}, "options",
     'NoMethods: Methods is missing, or lacks the method, at octet 17 "Methods: REQMOD\\r\\n'),
    ("OPTIONS has a tag", {"options": without(b"ISTag")}, "options", 'NoTag: ISTag is missing, empty or too long, at octet 0 "ICAP/1.0 200 OK'),
    ("a preview is a number", {"options": instead(b"Preview", b"Preview: many\r\n")}, "options",
     'Number: Preview, Max-Connections or Options-TTL is no good number, at octet 49 "Preview: many\\r\\n'),
    ("OPTIONS has no message", {"options": instead(b"Encapsulated", b"Encapsulated: res-hdr=0, null-body=5\r\n")}, "options",
     "Layout: the Encapsulated list, or a part that it names, is broken, at octet 0"),
    ("a head is of ICAP/1.0", {"options": instead(b"ICAP", b"ICAP/1.1 200 OK\r\n")}, "options", 'Head: no ICAP head, at octet 0 "ICAP/1.1 200'),
    ("a status is one of three", {"answers": (b"ICAP/1.0 500 Server Error\r\n\r\n",)}, "preview",
     'Status: a status that isn\'t taken, at octet 0 "ICAP/1.0 500 Server Error\\r\\n\\r\\n"'),
    ("204 after 100 wants Allow", {"answers": (GO_ON, NO_CHANGE)}, "above",
     'NotLegal: a reply that may not come there, at octet 25 "ICAP/1.0 204 No Modifications'),
    ("nothing comes after ieof", {"answers": (GO_ON,)}, "preview", 'NotLegal: a reply that may not come there, at octet 0 "ICAP/1.0 100 Continue'),
    ("a head has no bytes of its own", {"answers": (b"ICAP/1.0 200 OK\r\nEncapsulated: res-hdr=0, res-body=0\r\n\r\n",)}, "preview",
     'Layout: the Encapsulated list, or a part that it names, is broken, at octet 0 "ICAP/1.0 200 OK'),
    ("a field has a colon", {"answers": (b"ICAP/1.0 204 Fine\r\nISTag: \"t-1\"\r\nwhat is this\r\n\r\n",)}, "preview",
     'Head: no ICAP head, at octet 33 "what is this\\r\\n'),
    ("a chunk's size is a number", {"answers": (CHANGED + b"5\r\nabcde\r\nzz\r\n",)}, "preview",
     'Chunk: a broken chunk, at octet %d "zz\\r\\n"' % (len(CHANGED) + 10)),
    ("a chunk ends where it says", {"answers": (CHANGED + b"5\r\nabcdef\r\n0\r\n\r\n",)}, "preview", "Chunk: a broken chunk, at octet "),
    ("a reply is whole", {"answers": (CHANGED + b"5\r\nabc",)}, "preview",
     "Closed: the connection ended before the reply was whole, at octet %d;" % (len(CHANGED) + 6)),
    ("a service says something", {"answers": (), "pause": 4}, "preview", "Deadline: nothing moved for too long, at octet 0;"),
    ("an adapted head is one of HTTP", {"answers": (CHANGED.replace(b"HTTP/1.1 200 OK", b"HTTP 1.1 200 OK") + b"5\r\nabcde\r\n0\r\n\r\n",)}, "preview",
     'Message: the adapted message\'s head is none of HTTP, at octet %d "HTTP 1.1 200 OK\\r\\n' % (len(CHANGED) - len(HTTP))),
    ("an answer is one", {"answers": (NO_CHANGE + b"x y",), "pause": 0.2}, "preview", 'LeftOver: bytes after the reply, that no request asked for, at octet %d' % len(NO_CHANGE)),
)


@case
def a_probe_names_the_rule_that_a_service_breaks(bench):
    for rule, words, sample, fault in RUDE:
        service = bench.keep(Rude(**words))
        text = configuration(("respmod", service.port, "/x"), more="deadline = 1\n")
        only = () if sample == "options" else ("--only", sample)
        lines, errors, status = probe(text, *only)
        front = "  fresh options: fault " if sample == "options" else "  kept %s (" % sample
        found = [line for line in lines if line.startswith(front)]
        same(rule + ", lines", len(found), 1)
        same("%s: %s" % (rule, found[0]), ("fault " + fault in found[0], found[0].endswith("; T; doesn't serve again")), (True, True))
        broken = 1 if sample == "options" else 2
        same(rule, (lines[-1], errors, status), ("%d answers, of which %d broke a rule" % (2 * broken - 1, broken), "", 1))


@case
def a_probe_of_c_icap_finds_nothing(bench):
    _, port = c_icap_echo(bench)
    lines, errors, status = probe(configuration(("reqmod", port, "/echo"), ("respmod", port, "/echo")))
    print("      " + "\n      ".join(line for line in lines if "fault" in line or line.startswith("  kept")))
    same("c-icap's echo", (lines[-1], errors, status), ("46 answers, of which 0 broke a rule", "", 0))


@case
def a_probe_of_a_scanner_gets_its_page(bench):
    port = bench.keep(Scanner()).c_icap()
    lines, errors, status = probe(configuration(("respmod", port, "/virus_scan")), "--only", "eicar")
    pages = [re.fullmatch(r"  (kept|fresh) eicar \(68 bytes\): 403 with a page of \d+ bytes; T; .*", line) for line in lines]
    same("pages", (len([page for page in pages if page]), errors, status), (2, "", 0))
