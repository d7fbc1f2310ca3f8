"""What the administrator is told of exchanges: how it is asked for, and whether a script is that of its exchange."""
import collections
import re
import socket
import subprocess
import time

from serve_lab.cases import ADAPTPROXY, same
from serve_lab.loopback import PATIENCE, Reader

LINE = re.compile(r"(\d+-\d+-\d+) (\d+)s (reqmod|respmod) waits-for ([a-z-]+) (\d+)s held (\d+\.\.\d+) adapted (\d+\.\.\d+) "
                  r"in (\d+) svc (\d+) ad (\d+) usr (\d+) claim (\d+) ([0-9.]+|-) (\S+) (\S+)")
LAST = re.compile(r"# (\d+) exchanges, (\d+) idle(?:, (\d+) left out)?")
Exchange = collections.namedtuple("Exchange", "id age point word still held adapted received sent adapted_received delivered claim user "
                                              "method target")
# Of `exchanges`: the exchanges, how many users are idle, how many lines had no room, and the lines that name a silent thread.
Told = collections.namedtuple("Told", "all idle left_out silent")


class Asker:
    """A connection to the admin port."""

    def __init__(self, proxy):
        self.sock = socket.create_connection(("127.0.0.1", proxy.admin), PATIENCE)
        self.reader = Reader(self.sock)

    def exchanges(self, word=""):
        """What `exchanges`, or `exchanges waiting`, answers."""
        self.sock.sendall(("exchanges" + word).encode() + b"\n")
        found, silent = [], []
        while True:
            line = self.reader.until(b"\n")[:-1].decode("ascii")
            last = LAST.fullmatch(line)
            if last:
                same("the count", int(last[1]), len(found))
                return Told(found, int(last[2]), int(last[3] or 0), silent)
            if line.startswith("# "):
                silent.append(line)
            else:
                one = LINE.fullmatch(line)
                same("a line: " + line[:300], one is not None, True)
                found.append(Exchange(*[int(word) if word.isdigit() else word for word in one.groups()]))

    def answer(self, line):
        """The whole answer to a line; it ends where that to `book` begins."""
        self.sock.sendall(line.encode() + b"\nbook\n")
        text = self.reader.until(b" capacity ")
        self.reader.until(b"\n")
        return text[:text.rindex(b"rows ")].decode("ascii")

    def close(self):
        self.sock.close()


def told(proxy, word=""):
    """What `exchanges` answers on a connection of its own."""
    asker = Asker(proxy)
    try:
        return asker.exchanges(word)
    finally:
        asker.close()


def answer_to(proxy, line):
    asker = Asker(proxy)
    try:
        return asker.answer(line)
    finally:
        asker.close()


def traced(script):
    """What `adaptproxy trace` answers to a script: its lines."""
    ended = subprocess.run([ADAPTPROXY, "trace"], input=script.encode(), stdout=subprocess.PIPE, stderr=subprocess.PIPE, timeout=PATIENCE)
    same("trace", (ended.stderr, ended.returncode), (b"", 0))
    return ended.stdout.decode().splitlines()


def stand_still(proxy, *words, patience=PATIENCE):
    """Waits until these words are what the exchanges wait for, for a second or more. Answers what `exchanges waiting` says."""
    end = time.time() + patience
    while True:
        found = told(proxy, " waiting")
        if sorted(one.word for one in found.all) == sorted(words):
            return found.all
        if time.time() > end:
            raise AssertionError("they wait for %s, wanted %s" % ([one.word for one in found.all], list(words)))
        time.sleep(0.1)


def is_script_of(one, script):
    """The script of an exchange that stands still is this one's, and ends with its intervals; each byte that it asks for has a way out."""
    lines = script.splitlines()
    same("whose", (lines[0], lines[2], lines[-1]), ("# exchange " + one.id, "# %s %s %s" % (one.point, one.method, one.target), "# EOF"))
    same("when", re.fullmatch(r"# at \d+\.\d{3}", lines[1]) is not None, True)
    answers = traced(script)
    held = [line for line in answers if line.startswith("held ")] or ["held 0..0"]
    original, adapted = (re.fullmatch(r"held (\S+)(?: adapted (\S+))?", held[-1]).groups())
    same("held " + one.id, (original, adapted or "0..0"), (one.held, one.adapted))
    # What a service got before a retry isn't counted.
    since = lines[lines.index("retry"):] if "retry" in lines else lines
    sums = {word: sum(int(line.split()[1]) for line in (since if word == "svc" else lines) if line.split()[0] == word)
            for word in ("in", "svc", "ad", "usr")}
    same("sums", sums, {"in": one.received, "svc": one.sent, "ad": one.adapted_received, "usr": one.delivered})
    wanted = []
    for body, interval in (("original", one.held), ("adapted", one.adapted)):
        begin, end = map(int, interval.split(".."))
        wanted += ["need %s %d" % (body, place) for place in sorted({begin, end - 1}) if begin < end]
    same("needs", [line for line in lines if line.startswith("need ")], wanted)
    same("scripts", [line.split()[0] for line in answers[-len(wanted):]] if wanted else [], ["script"] * len(wanted))
