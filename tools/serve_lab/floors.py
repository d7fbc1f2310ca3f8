"""The floor that tools/bench_serve measures by: its bodies are right with all of its settings."""
import hashlib
import itertools
import random

from serve_lab.cases import at_once, case, get, needs, same
from serve_lab.floor import Floor
from serve_lab.loopback import Reader, Server, User, fields_of, free_port
from serve_lab.memory import compiler
from serve_lab.servers import Servers

BODIES = {size: random.Random(size).randbytes(size) for size in (0, 1, 1023, 1024, 1025, 4096, 65535, 65536, 1_000_000)}
SUMS = {size: hashlib.sha256(body).hexdigest() for size, body in BODIES.items()}
# The bytes that the origin sends at a time: all at once, or few of them at first.
CUTS = (None, 37, 1000)
SETTINGS = [dict(zip(("origin", "service", "turn", "threads"), values))
            for values in itertools.product(("fresh", "kept"), ("kept", "moved", None), (4096, 16384, 65536), (1, 2))]


def answer_bodies(conn, _number):
    """An origin: the path says the size of the body, and how the first 4,000 bytes of the answer are cut."""
    reader = Reader(conn)
    while True:
        fields = fields_of(reader.head())
        size, cut = fields[""].split(" ")[1].strip("/").split("/")
        text = b"HTTP/1.1 200 Fine\r\nContent-Length: %d\r\n\r\n" % int(size) + BODIES[int(size)]
        whole = 4000 if cut.isdigit() else 0
        for at in range(0, whole, int(cut) if whole else 1):
            conn.sendall(text[at:min(at + int(cut), whole)])
        conn.sendall(text[whole:])
        if fields.get("connection") == "close":
            return


def asked_for_all(bench, floor, origin, icapd, settings):
    """Users ask for all bodies, each in an order of its own; the last request of each ends its connection."""
    words = {name: value for name, value in settings.items() if value is not None}
    port = free_port()
    bench.keep(Servers("floor", {})).start(floor.command(port, origin, icapd if settings["service"] else None, **words), port)

    def one(number):
        asked = [(size, cut) for size in SUMS for cut in CUTS]
        random.Random(number).shuffle(asked)
        user = User(port)
        for size, cut in asked:
            last = (size, cut) == asked[-1]
            answer = user.ask(get("/%d/%s" % (size, cut), "Connection: close\r\n" if last else ""))
            same("%r of %d bytes, cut by %s" % (settings, size, cut), (answer.status, hashlib.sha256(answer.body).hexdigest()),
                 (200, SUMS[size]))
        same("%r: the end" % settings, user.is_ended(), True)
    at_once(3, one)


@case
def bodies_through_the_floor(bench):
    needs("a C compiler", compiler())
    floor, origin, icapd = bench.keep(Floor()), bench.keep(Server(answer_bodies)), (bench.icapd("max = 64"), "/respmod/pass")
    for settings in SETTINGS:
        asked_for_all(bench, floor, origin.port, icapd, settings)
