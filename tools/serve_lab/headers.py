"""The header of the PROXY protocol that a user's connection begins with, where the key `proxy_protocol` says so (proxy-protocol.txt,
sections 2.1 and 2.2)."""
import collections
import ipaddress
import os
import random
import re
import socket
import struct
import subprocess
import tempfile
import time

from serve_lab.cases import IDLE, at_once, case, comes, get, needs_tools, refusal, same
from serve_lab.loopback import User, body_of, free_port
from serve_lab.operators import stats
from serve_lab.told import Asked

SIGNATURE = b"\r\n\r\n\0\r\nQUIT\n"
KEY = "proxy_protocol = true\n"


def first(source, target="192.0.2.1", ports=(56324, 3128)):
    """A header of version 1."""
    return b"PROXY TCP4 %s %s %d %d\r\n" % (source.encode(), target.encode(), *ports)


def block(command, family, behind):
    return SIGNATURE + struct.pack("!BBH", command, family, len(behind)) + behind


def second(source, more=b""):
    """A header of version 2, with TLVs."""
    return block(0x21, 0x11, socket.inet_aton(source) + socket.inet_aton("192.0.2.1") + struct.pack("!HH", 56324, 3128) + more)


def tlv(kind, size):
    return struct.pack("!BH", kind, size) + b"x" * size


LONGEST = first("255.255.255.255", "255.255.255.255", (65535, 65535))
UNKNOWN = b"PROXY UNKNOWN\r\n"
# Whole headers, and the address that each says; None where it is the connection's own.
WHOLE = [
    (first("10.1.2.3"), "10.1.2.3"), (LONGEST, "255.255.255.255"), (first("0.0.0.0", ports=(0, 0)), "0.0.0.0"),
    (UNKNOWN, None), (b"PROXY UNKNOWN ffff::1 ffff::2 65535 65535\r\n", None), (b"PROXY UNKNOWN " + b"x" * 91 + b"\r\n", None),
    (second("10.4.5.6"), "10.4.5.6"), (second("10.4.5.7", tlv(4, 10) + tlv(0xea, 0)), "10.4.5.7"),
    (second("10.4.5.8", tlv(4, 505)), "10.4.5.8"),
    (block(0x20, 0, b""), None), (block(0x20, 0x11, b"\x0a" * 12), None), (block(0x20, 0x21, b"x" * 36 + tlv(4, 481)), None),
    (block(0x21, 0, b""), None), (block(0x21, 0, tlv(4, 517)), None),
]
# What is no header.
WRONG = [
    b"GET http://o.test/ HTTP/1.1\r\n\r\n", b"\r\n", b"\0", b"proxy tcp4 10.0.0.1 192.0.2.1 1 2\r\n", b"PROXY\tTCP4 10.0.0.1 192.0.2.1 1 2\r\n",
    b"PROXY TCP6 ::1 ::2 1 2\r\n", b"PROXY  TCP4 10.0.0.1 192.0.2.1 1 2\r\n", b"PROXY TCP4  10.0.0.1 192.0.2.1 1 2\r\n",
    b"PROXY TCP4 10.0.0.1 192.0.2.1 1 2 \r\n", b"PROXY TCP4 10.0.0.1 192.0.2.1 1 2\n", b"PROXY TCP4 10.0.0.1 192.0.2.1 1\r\n",
    b"PROXY TCP4 10.0.0.1 192.0.2.1 1 2 3\r\n", b"PROXY TCP4 10.0.0.01 192.0.2.1 1 2\r\n", b"PROXY TCP4 10.0.0.256 192.0.2.1 1 2\r\n",
    b"PROXY TCP4 10.0.0 192.0.2.1 1 2\r\n", b"PROXY TCP4 10.0.0.1 192.0.2 1 2\r\n", b"PROXY TCP4 10.0.0.1 192.0.2.1 01 2\r\n",
    b"PROXY TCP4 10.0.0.1 192.0.2.1 1 65536\r\n", b"PROXY TCP4 10.0.0.1 192.0.2.1 -1 2\r\n", b"PROXY TCP4 10.0.0.1 192.0.2.1 1 \r\n",
    b"PROXY UNKNOW\r\n", b"PROXY UNKNOWN " + b"x" * 92 + b"\r\n", b"PROXY UNKNOWN " + b"x" * 93,
    SIGNATURE + b"\x11\x11\0\x0c" + b"x" * 12, SIGNATURE + b"\x22\x11\0\x0c" + b"x" * 12, SIGNATURE + b"\x21\x12\0\x0c" + b"x" * 12,
    SIGNATURE + b"\x21\x21\0\x24" + b"x" * 36, SIGNATURE + b"\x21\x31\0\xd8" + b"x" * 216, SIGNATURE + b"\x21\x01\0\x0c" + b"x" * 12,
    SIGNATURE + b"\x21\x11\0\x0b" + b"x" * 11, SIGNATURE + b"\x21\x11\0\0", SIGNATURE + b"\x21\x11\2\x09", SIGNATURE + b"\x20\0\xff\xff",
    b"\r\n\r\n\0\r\nQUIT\r" + b"\x20\0\0\0",
]


def said_by(text, own="127.0.0.1"):
    """The address that the header says which a text begins with; None where it begins with none."""
    line = re.match(rb"PROXY (UNKNOWN[^\n]*|TCP4 ([0-9.]+) ([0-9.]+) (\d+) (\d+))\r\n", text)
    if line and line.end() <= 107:
        if line[2] is None:
            return own
        try:
            addresses = [str(ipaddress.IPv4Address(word.decode())) for word in (line[2], line[3])]
        except ValueError:
            return None
        ports = [str(min(int(word), 65535)).encode() for word in (line[4], line[5])]
        return addresses[0] if ports == [line[4], line[5]] else None
    if not text.startswith(SIGNATURE) or len(text) < 16:
        return None
    command, family, length = struct.unpack("!BBH", text[12:16])
    if length > 520 or len(text) < 16 + length or command not in (0x20, 0x21):
        return None
    if command == 0x20 or family == 0:
        return own
    return socket.inet_ntoa(text[16:20]) if family == 0x11 and length >= 12 else None


class Log:
    """The log of a proxy, by the addresses of its lines."""

    def __init__(self):
        self.path = os.path.join(tempfile.mkdtemp(), "access.log")
        self.key = 'log = "%s"\n' % self.path

    def lines(self):
        if not os.path.exists(self.path):
            return []
        with open(self.path) as file:
            return [line.split() for line in file]

    def addresses(self):
        return [words[2] for words in self.lines()]


def answers(what, proxy, pieces, path="/bytes/5", source=None):
    """A user that sends these pieces is answered."""
    user = User(proxy.port, source=source)
    for piece in pieces:
        user.send(piece)
        if len(pieces) > 1:
            time.sleep(0.0005)
    answer = user.answer()
    same(what, (answer.status, answer.body), (200, body_of(int(path[7:]))))
    return user


def is_closed(what, proxy, sent, source=None):
    """A user that sends this gets no byte, and its connection ends."""
    user = User(proxy.port, source=source)
    try:
        user.send(sent)
        same(what, user.reader.to_end(), b"")
    except (BrokenPipeError, ConnectionResetError):
        pass
    user.close()


@case
def a_header_says_where_a_user_comes_from(bench):
    """Both versions, to the log and to the service; of one that says no address, or for which the load balancer itself speaks, the
    connection's own address stands there. What comes behind it is the first request, and others follow."""
    origin, asked, log = bench.origin(), Asked(bench), Log()
    proxy = bench.proxy(origin, KEY + log.key + "client_ip = true\nshards = 2\n", asked.services)
    wanted = []
    for number, (header, address) in enumerate(WHOLE):
        source = "127.0.3.%d" % number
        user = answers(header, proxy, [header + get("/bytes/5")], source=source)
        same("a second one", user.ask(get("/bytes/6")).body, body_of(6))
        user.close()
        user = answers(header, proxy, [header, get("/bytes/5")], source=source)
        user.close()
        wanted += 3 * [address or source]
    same("told", [found for _method, _target, found, _head in asked.seen],
         [(["X-Client-IP: " + address], "Host") for address in wanted for _point in "QP"])
    comes("lines", lambda: len(log.lines()) == len(wanted))
    same("logged", sorted(log.addresses()), sorted(wanted))
    same("closed for it", stats(proxy)["adaptproxy_users_unannounced_total"], 0)
    same("audit", proxy.stop(), IDLE)


@case
def a_header_comes_byte_by_byte(bench):
    origin, log = bench.origin(), Log()
    proxy = bench.proxy(origin, KEY + log.key)
    headers = [first("10.1.2.3"), UNKNOWN, second("10.4.5.6", tlv(4, 10)), block(0x20, 0, b"")]

    def one(number):
        whole = headers[number] + get("/bytes/5")
        answers(whole, proxy, [bytes([byte]) for byte in whole]).close()
    at_once(len(headers), one)
    for header in headers:
        for at in range(1, len(header)):
            answers((header, at), proxy, [header[:at], header[at:] + get("/bytes/5")]).close()
    count = len(headers) + sum(len(header) - 1 for header in headers)
    comes("lines", lambda: len(log.lines()) == count)
    same("logged", set(log.addresses()), {"10.1.2.3", "10.4.5.6", "127.0.0.1"})
    same("audit", proxy.stop(), IDLE)


@case
def a_connection_without_a_header_is_closed(bench):
    """One that begins otherwise at once, one that ends within its header then, and one that waits at the deadline."""
    origin, log = bench.origin(), Log()
    proxy = bench.proxy(origin, KEY + log.key + "deadline = 2\n")
    for sent in WRONG:
        is_closed(sent, proxy, sent)
    ended = [header[:at] for header, _address in WHOLE[:8:3] for at in (0, 1, len(header) - 1)]
    for sent in ended:
        user = User(proxy.port)
        user.send(sent)
        user.sock.shutdown(socket.SHUT_WR)
        same(sent, user.is_ended(), True)
        user.close()
    waiting = [User(proxy.port) for _ in ended]
    start = time.time()
    for user, sent in zip(waiting, ended):
        user.send(sent)
    for user in waiting:
        same("no byte", user.is_ended(), True)
        user.close()
    took = time.time() - start
    same("in time, not %.1f s" % took, 1.5 < took < 6, True)
    same("counted", stats(proxy)["adaptproxy_users_unannounced_total"], len(WRONG) + 2 * len(ended))
    comes("their leave", lambda: stats(proxy)["adaptproxy_users"] == 0)
    same("requests", (len(origin.heads), log.lines()), (0, []))
    answers("after them", proxy, [first("10.0.0.1") + get("/bytes/5")]).close()
    same("audit", proxy.stop(), IDLE)


@case
def ten_thousand_random_headers_hang_nobody(bench):
    """Whole ones, cut ones, ones with a byte changed, and bytes at random, each before a request: whoever is served is in the log with the
    address that the header says."""
    origin, log, wrong, served, said = bench.origin(), Log(), [], [], []
    proxy = bench.proxy(origin, KEY + log.key + "shards = 2\nrows = 64\ndeadline = 1\n")

    def changed(rng, header):
        place = rng.randrange(len(header))
        return header[:place] + bytes([rng.randrange(256)]) + header[place + 1:]

    def one(number):
        rng = random.Random(number)
        for turn in range(625):
            address = "10.%d.%d.%d" % (number, turn // 256, turn % 256)
            header = rng.choice([first(address), second(address), second(address, tlv(4, rng.randrange(60)))])
            begun = rng.choice([lambda: header, lambda: header[:rng.randrange(len(header))], lambda: changed(rng, header),
                                lambda: bytes(rng.randrange(256) for _ in range(rng.randrange(1, 80)))])()
            sent = begun + get("/bytes/5", "Connection: close\r\n")
            wanted = said_by(sent)
            user = User(proxy.port)
            try:
                user.send(sent)
                found = user.reader.to_end()
            except TimeoutError as error:
                wrong.append((sent, error))
                found = b""
            except OSError:  # It was reset.
                found = b""
            user.close()
            if wanted:
                said.append(wanted)
            if found.startswith(b"HTTP/1.1 200"):
                served.append(wanted)
            elif begun == header or found and not wanted:
                wrong.append((sent, found))
    at_once(16, one)
    same("wrong answers", wrong[:3], [])
    same("some were served", 2000 < len(served) < 8000, True)
    comes("their leave", lambda: stats(proxy)["adaptproxy_users"] == 0)
    comes("their lines", lambda: not collections.Counter(served) - collections.Counter(log.addresses()))
    same("with another address", collections.Counter(log.addresses()) - collections.Counter(said), collections.Counter())
    same("audit", proxy.stop(), IDLE)


@case
def users_are_judged_by_the_address_of_their_header(bench):
    """`users` and `user_connections` heed it, and not the load balancer's."""
    origin, log = bench.origin(), Log()
    proxy = bench.proxy(origin, KEY + log.key + 'shards = 4\nrows = 16\nuser_connections = 2\nusers = ["10.0.0.0/8", "127.0.0.7"]\n')
    for header, is_served in ((first("10.0.0.0"), True), (second("10.255.255.255"), True), (first("9.255.255.255"), False),
                              (second("11.0.0.0"), False), (first("127.0.0.1"), False), (UNKNOWN, False)):
        if is_served:
            answers(header, proxy, [header + get("/bytes/5")]).close()
        else:
            is_closed(header, proxy, header + get("/bytes/5"))
    answers("the own address", proxy, [UNKNOWN + get("/bytes/5")], source="127.0.0.7").close()
    same("refused", stats(proxy)["adaptproxy_users_refused_total"], 4)
    held = [answers("held", proxy, [make(address) + get("/bytes/5")])
            for address in ("10.1.1.1", "10.1.1.2") for make in (first, second)]
    for make in (first, second, first):
        user = User(proxy.port)
        user.send(make("10.1.1.1") + get("/bytes/1"))
        same("a third", user.reader.to_end(), refusal(503))
        user.close()
    same("counted", stats(proxy)["adaptproxy_users_over_limit_total"], 3)
    held.pop(0).close()
    comes("one that has left", lambda: stats(proxy)["adaptproxy_users"] == 3)
    answers("in its place", proxy, [second("10.1.1.1") + get("/bytes/5")]).close()
    for user in held:
        user.close()
    comes("refusals", lambda: sum(words[3].endswith("/503") for words in log.lines()) == 3)
    same("addresses of refusals", {words[2] for words in log.lines() if words[3].endswith("/503")}, {"10.1.1.1"})
    same("nobody else", "127.0.0.1" in log.addresses(), False)
    same("audit", proxy.stop(), IDLE)


@case
def unheard_users_give_way_and_end(bench):
    """Connections whose header doesn't come leave their seats to others, and keep neither a drain nor a stop waiting."""
    origin = bench.origin()
    for word in ("drain", "stop"):
        proxy = bench.proxy(origin, KEY + "shards = 1\nrows = 4\n")
        mute = [User(proxy.port) for _ in range(40)]
        for number in range(6):
            answers(number, proxy, [first("10.0.0.%d" % number) + get("/bytes/5")]).close()
        start = time.time()
        if word == "drain":
            same("drain", proxy.say("drain"), "ok")
            same("audit", proxy.ended()[0].decode().strip(), IDLE)
        else:
            same("audit", proxy.stop(), IDLE)
        same("in time", time.time() - start < 8, True)
        for user in mute:
            user.close()


@case
def without_the_key_a_header_is_a_bad_request(bench):
    origin = bench.origin()
    for key in ("", "proxy_protocol = false\n"):
        proxy = bench.proxy(origin, key)
        user = User(proxy.port)
        user.send(first("10.0.0.1") + get("/bytes/5"))
        same("answer", user.reader.to_end(), refusal(400))
        user.close()
        same("audit", proxy.stop(), IDLE)


@case
def haproxy_says_where_users_come_from(bench):
    """HAProxy itself, with both versions, for users of several addresses at once."""
    needs_tools("haproxy")
    origin = bench.origin()
    for word in ("send-proxy", "send-proxy-v2"):
        log, port, folder = Log(), free_port(), tempfile.mkdtemp()
        proxy = bench.proxy(origin, KEY + log.key + "shards = 2\nuser_connections = 5\n")
        path = os.path.join(folder, "haproxy.cfg")
        with open(path, "w") as text:
            text.write("defaults\n    mode tcp\n    timeout connect 5s\n    timeout client 30s\n    timeout server 30s\n"
                       "listen proxies\n    bind 127.0.0.1:%d\n    server proxy1 127.0.0.1:%d %s\n" % (port, proxy.port, word))
        with open(os.path.join(folder, "log"), "wb") as told:
            balancer = subprocess.Popen(["haproxy", "-db", "-f", path], stdout=told, stderr=told)
        try:
            comes("haproxy", lambda: not socket.socket().connect_ex(("127.0.0.1", port)))
            sources = ["127.0.%d.%d" % (4 + number // 4, 1 + number % 4) for number in range(16)]

            def one(number):
                for _turn in range(8):
                    user = User(port, source=sources[number])
                    same(sources[number], user.ask(get("/bytes/7")).body, body_of(7))
                    user.close()
            at_once(16, one)
            comes("lines", lambda: len(log.lines()) >= 16 * 8)
            same("logged", sorted(log.addresses()), sorted(8 * sources))
            held = [User(port, source="127.0.9.9") for _ in range(5)]
            for user in held:
                user.ask(get("/bytes/1"))
            user = User(port, source="127.0.9.9")
            user.send(get("/bytes/1"))
            same("a sixth", user.reader.to_end(), refusal(503))
            for user in held + [user]:
                user.close()
        finally:
            balancer.terminate()
            balancer.wait()
        same("audit", proxy.stop(), IDLE)
