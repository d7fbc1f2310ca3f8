"""The origin and the service of the fuzz: what they read has to be of one exchange, and what they answer is that one's."""
import asyncio
import random
import time

from serve_lab.fuzzing.plans import TOKEN, aliens, changed, chosen, chunks, filled, garbage, plan_by
from serve_lab.fuzzing.wires import Ended, Reset, Wire, fields_of

PATIENCE = 25.0


def plan_of_target(seed, line):
    """The plan that the target of a request line names, and its identity. None for each that isn't there."""
    words = line.split(b" ")
    parts = words[1].split(b"/") if len(words) == 3 else []
    mark = next((part for part in parts if part.count(b".") == 2 and part[:1].isdigit()), None)
    return (plan_by(seed, mark) if mark else None), mark


class Peer:
    """A server whose connections are tasks."""

    def __init__(self, seed, found):
        self.seed, self.found = seed, found
        self.count = 0
        self.port = None

    async def listen(self):
        server = await asyncio.get_running_loop().create_server(lambda: Wire(self.one), "127.0.0.1", 0, backlog=4096)
        self.port = server.sockets[0].getsockname()[1]
        return self

    async def one(self, wire):
        self.count += 1
        own = random.Random("%s %s %d" % (self.seed, type(self).__name__, self.count))
        try:
            await self.serve(own, wire)
        except (Ended, Reset, TimeoutError, ValueError, KeyError, IndexError):
            pass  # A message that breaks is no fault of this side.
        if wire.breaks and own.random() < 0.4:
            wire.reset()
        else:
            wire.close()

    def wrong(self, text, *values):
        self.found.wrong("%s: %s" % (type(self).__name__, text % values))

    def wrong_of(self, mark, text, *values):
        self.found.wrong_of(mark, "%s: %s" % (type(self).__name__, text % values))

    def own(self, plan, word):
        return random.Random("%s %s %s" % (self.seed, plan.mark, word))


INTERIM = (b"HTTP/1.1 103 Hints\r\nLink: x\r\n\r\n", b"HTTP/1.1 100 Continue\r\n\r\n", b"HTTP/1.1 102 Processing\r\nX: %s\r\n\r\n" % (b"y" * 500))


# The methods of a request that may be sent again without harm (RFC 9110, section 9.2.1).
REPEATABLE = (b"GET", b"HEAD", b"OPTIONS", b"TRACE")


class Line:
    """An origin's connection: how many requests have come on it, and why no further one may. `since`: when the bytes that say so were out;
    None where the answer itself says it. `is_blank`: these are empty lines, which may stand before the head of an answer."""

    def __init__(self, wire):
        self.wire, self.place, self.last, self.since, self.is_blank = wire, 0, None, None, False

    async def says(self, last, more):
        """Bytes that answer nothing were sent: once they are out, the proxy's poll reports them."""
        await self.wire.is_out()
        self.is_blank = more == b"\r\n" and (self.since is None or self.is_blank)
        self.last, self.since = last, time.monotonic()

    def has_no_answer(self):
        """A request gets no answer. Where bytes that answer nothing met it, the proxy may have taken them for one, and the connection for
        idle: what further requests get is anybody's guess. Else none may come."""
        self.last = self.last or "one without an answer"
        self.since = self.since and float("inf")

    async def has_raced(self, is_answered):
        """A request met them. Its own answer belongs to nobody, but where nothing stood before it; where it has none, nobody can know of
        anything wrong."""
        if not is_answered:
            self.since = float("inf")
        elif self.is_blank:
            self.last = self.since = None
        else:
            await self.says(self.last, b"")


class FuzzOrigin(Peer):
    """Answers what the target's identity asks for, whole or broken. One that keeps its connections reads on after its answer, and ends
    them as the plan says; bytes that it sends after an answer may come to nobody."""

    def __init__(self, seed, found, keeps=False):
        super().__init__(seed, found)
        self.keeps = keeps
        # Requests that came on a connection that had served one before.
        self.kept = 0

    async def serve(self, own, wire):
        line, goes_on = Line(wire), True
        while goes_on:
            async with asyncio.timeout(PATIENCE):
                since, sent = line.since, wire.sent
                goes_on = await self.exchange(line)
                if since and line.since == since:
                    await line.has_raced(wire.sent > sent)
        if line.since:
            async with asyncio.timeout(0.1):
                await self.see_others(line)

    async def exchange(self, line):
        """Reads a request and answers it. Whether a further one may come."""
        wire = line.wire
        head = await wire.head()
        fields = fields_of(head)
        plan, mark = plan_of_target(self.seed, fields[b""])
        line.place += 1
        self.see_kept(line, mark, head, fields)
        if plan is None:
            self.found.count("origin: requests without an identity")
            await wire.message(bytearray(), fields, False)
            wire.write(b"HTTP/1.1 200 OK\r\nContent-Length: 0\r\n\r\n")
            return self.keeps
        own = self.own(plan, "origin")
        wire.breaks = plan.origin in ("refuses", "cut", "early", "changed", "garbage")
        if plan.origin == "refuses":
            return False
        if line.place > 1 and plan.on_kept == "ends":
            self.found.count("origin: kept connections that end as they are asked")
            wire.breaks = True
            return False
        if plan.origin != "early":
            body = bytearray()
            await wire.message(body, fields, False)
            self.judge(plan, head, fields, bytes(body))
            if wire.raw and plan.mark not in self.found.raced:
                self.wrong("%r has %d bytes after its request: %r", plan.mark, len(wire.raw), bytes(wire.raw[:200]))
        if plan.origin == "mute":
            line.has_no_answer()
            await self.see_others(line)
        text = self.answer(own, plan)
        if plan.origin in ("changed", "cut", "trailing", "garbage", "early"):
            return await self.break_answer(own, line, plan, text)
        if not self.keeps:
            await wire.write_in_pieces(own, text)
            return False
        return await self.keep(own, line, plan, text)

    async def see_others(self, line):
        """Looks at the requests that are on their way to a connection that is to end."""
        while True:
            head = await line.wire.head()
            fields = fields_of(head)
            line.place += 1
            self.see_kept(line, plan_of_target(self.seed, fields[b""])[1], head, fields)

    def see_kept(self, line, mark, head, fields):
        """A connection that was used again has to be one that may be, and the request one that may be sent again."""
        if line.place == 1:
            return
        self.kept += 1
        self.found.count("origin: requests on a kept connection")
        method = fields[b""].split(b" ")[0]
        if method not in REPEATABLE or fields.get(b"content-length", b"0") != b"0" or b"transfer-encoding" in fields:
            self.wrong("%r came on a kept connection: %r", mark, head)
        if not line.last:
            return
        if line.since and not self.found.is_caused_after(mark, line.since):
            # Nobody could know of the bytes when the poll reported what brought the request: they may be taken for its answer.
            self.found.has_raced(mark if plan_by(self.seed, mark or b"") else None)
            return
        self.wrong("%r came on a connection that had served request %d, after %s", mark, line.place - 1, line.last)

    async def break_answer(self, own, line, plan, text):
        """A broken answer. Of an origin that keeps its connections it goes out at once, so that bytes after its end are there with it; then
        the connection stays for a while, now and then. Whether further requests are looked for: after bytes that answer nothing."""
        if plan.origin == "changed":
            text = changed(own, text)
        elif plan.origin == "cut":
            text = text[:own.randrange(len(text))]
        elif plan.origin == "trailing":
            more = own.choice((b"x", text, b"\r\n", b"HTTP/1.1 200 OK\r\nContent-Length: 3\r\n\r\nabc"))
            text += more
        elif plan.origin == "garbage":
            text = garbage(own)
        if not self.keeps or plan.origin in ("cut", "early"):
            await line.wire.write_in_pieces(own, text)
            if plan.origin == "early":
                await asyncio.sleep(own.choice((0, 0, 0.01)))
            return False
        line.wire.write(text)
        if plan.origin == "trailing":
            await line.says("an answer that had bytes after it", more)
            return True
        if own.random() < 0.5:
            await self.hears(line, 0.3)
        return False

    async def hears(self, line, seconds):
        """Whether bytes come within this time. Where the other side ends, that is raised."""
        try:
            async with asyncio.timeout(seconds):
                while not line.wire.raw:
                    await line.wire.more()
        except TimeoutError:
            pass
        return bool(line.wire.raw)

    async def keep(self, own, line, plan, text):
        """Answers, and keeps the connection as the plan says. Whether a further request may come."""
        wire, after = line.wire, plan.after
        if line.place > 1 and plan.on_kept == "cut":
            self.found.count("origin: answers that are cut on a kept connection")
            wire.breaks = True
            await wire.write_in_pieces(own, text[:own.randrange(len(text))])
            return False
        if text.rindex(b"HTTP/1.") == text.rfind(b"HTTP/1.0"):
            line.last = "an answer of HTTP/1.0"
        if after == "says close":
            at = text.rindex(b"X-Mark: ", 0, text.index(b"<r%s>" % plan.mark))
            text, line.last = text[:at] + own.choice((b"Connection: close\r\n", b"connection: X-Hop ,CLOSE\r\n")) + text[at:], "close"
            self.found.count("origin: answers that say close, and go on")
        more = b""
        if after == "byte":
            more = own.choice((b"x", b"\r\n", b"H"))
        elif after == "twice":
            more = text
        elif after == "body" and plan.bodiless():
            more = own.choice((b"", b"HTTP/1.1 200 OK\r\nContent-Length: 100\r\n\r\n")) + filled(b"r", plan.mark, 100)
        if more and (plan.framing != "close" or plan.bodiless()):
            self.found.count("origin: answers with bytes after them: " + after)
            wire.write(text + more)
            await line.says("an answer and %d bytes more" % len(more), more)
            return True
        await wire.write_in_pieces(own, text)
        if plan.framing == "close" and not plan.bodiless():
            return False
        if after == "late":
            return await self.say_more(own, line, plan, text)
        if after in ("ends", "half") and not await self.hears(line, plan.idle):
            self.found.count("origin: idle connections that end")
            wire.breaks = after == "ends"
            if after == "half":
                wire.end_writing()
                await self.hears(line, 0.2)
            return False
        return True

    async def say_more(self, own, line, plan, text):
        """Bytes after an answer, by themselves. A request that was on its way to this connection just then can't be told that they answer
        nothing; one that comes of what its user, or the service of requests, said after that does wrong."""
        await asyncio.sleep(own.choice((0, 0, 0.001, 0.005)))
        more = own.choice((b"x", text, b"\r\n", b"HTTP/1.1 408 Late\r\nContent-Length: 0\r\n\r\n"))
        line.wire.write(more)
        self.found.count("origin: bytes on an idle connection")
        await line.says("bytes on it", more)
        return True

    def judge(self, plan, head, fields, body):
        """A whole request that was read has to be the user's, or the one that the service made of it."""
        others = aliens(self.seed, head, plan.mark)
        self.found.count("origin: whole requests")
        if others:
            self.wrong("%r has a head with %r: %r", plan.mark, others, head)
        if not plan.is_sound() or plan.reqmod.fault == "changed":
            if body and aliens(self.seed, body, plan.mark):
                self.wrong("%r has a body with %r", plan.mark, aliens(self.seed, body, plan.mark))
            return
        adapted = fields.get(b"x-adapted")
        if fields.get(b"x-mark") != b"<q%s>" % plan.mark or adapted not in (None, b"<Q%s>" % plan.mark):
            self.wrong("%r has other fields: %r", plan.mark, head)
        if body != plan.request_body(adapted is not None):
            self.wrong("%r has another body: %s", plan.mark, shown(body, plan.request_body(adapted is not None)))

    @staticmethod
    def answer(own, plan):
        count = own.choice((33, 34, 500)) if plan.origin == "storm" else plan.interim
        interim = b"".join(own.choice(INTERIM) for _ in range(count))
        extra = b"X-Mark: <r%s>\r\n" % plan.mark + own.choice((b"", b"", b"Server:  x \r\n", b"Connection: keep-alive\r\n"))
        body = filled(b"r", plan.mark, plan.answer_size)
        has_body = not plan.bodiless()
        if plan.framing == "chunked":
            text = b"HTTP/1.1 %d Fine\r\n%sTransfer-Encoding: chunked\r\n\r\n" % (plan.status, extra)
            return interim + text + (chunks(own, body) if has_body else b"")
        length = b"" if plan.framing == "close" else b"Content-Length: %d\r\n" % len(body)
        text = b"HTTP/1.%d %d Fine\r\n%s%s\r\n" % (own.choice((0, 1, 1)), plan.status, extra, length)
        return interim + text + (body if has_body else b"")


def shown(found, wanted):
    """How two bodies differ."""
    at = next((at for at, (a, b) in enumerate(zip(found, wanted)) if a != b), min(len(found), len(wanted)))
    near = slice(max(0, at - 30), at + 60)
    return "%d bytes of %d, the first other one at %d: %r, not %r" % (len(found), len(wanted), at, found[near], wanted[near])


# Answers to OPTIONS that are faults.
BROKEN_OPTIONS = (b"ICAP/1.0 404 No\r\nISTag: \"f-1\"\r\nEncapsulated: null-body=0\r\n\r\n",
                  b"ICAP/1.0 200 OK\r\nMethods: FOO\r\nISTag: \"f-1\"\r\nEncapsulated: null-body=0\r\n\r\n",
                  b"ICAP/1.0 200 OK\r\nMethods: REQMOD, RESPMOD\r\nEncapsulated: null-body=0\r\n\r\n", b"ICAP/1.0 200 O", b"what\r\n\r\n")


def folded(own, text):
    """An ICAP head, now and then with a field that goes on over further lines, as c-icap's X-Violations-Found does, and with fields
    that are folded after their colon."""
    kind = own.random() if b"\r\n" in text else 1
    if kind < 0.15:
        line, rest = text.split(b"\r\n", 1)
        fold = own.choice((b"\r\n\t", b"\r\n ", b"\n\t", b"\r\n \t "))
        field = b"X-Violations-Found: 1" + fold + fold.join((b"-", b"Eicar-Test-Signature.UNOFFICIAL", b"0", b"0")) + b"\r\n"
        return line + b"\r\n" + (field + rest if kind < 0.1 else rest[:-2] + field + rest[-2:])
    if kind < 0.25:
        line, rest = text.split(b"\r\n", 1)
        return line + b"\r\n" + rest.replace(b": ", own.choice((b":\r\n\t", b": \r\n ", b":\n  ")))
    return text


class FuzzService(Peer):
    """An ICAP service for both points: gives messages back, adapts them, answers 204 or by itself, or breaks."""

    def __init__(self, seed, found):
        super().__init__(seed, found)
        self.asked = {}

    def tag(self):
        """Its state, of which messages have to tell: it changes every hundred messages, and those that bring a new one have the proxy
        ask for options again."""
        return b"\"f-%d\"" % (len(self.asked) // 100)

    async def serve(self, own, wire):
        while True:
            head = await wire.head()
            if head.startswith(b"OPTIONS"):
                wire.write(folded(own, self.options(own, head)))
                continue
            async with asyncio.timeout(PATIENCE):
                if not await self.reply(own, wire, head):
                    return

    def options(self, own, head):
        method = b"REQMOD" if b"/reqmod" in head.split(b"\r\n")[0] else b"RESPMOD"
        if own.random() < 0.01:
            return own.choice(BROKEN_OPTIONS)
        return (b"ICAP/1.0 200 OK\r\nMethods: %s\r\nISTag: %s\r\n%sMax-Connections: %d\r\nPreview: %d\r\nTransfer-Preview: *\r\n"
                b"Transfer-Ignore: gif\r\nTransfer-Complete: exe\r\nOptions-TTL: %d\r\nEncapsulated: null-body=0\r\n\r\n"
                % (method, self.tag(), own.choice((b"", b"Allow: 204\r\n")), 2 if b"/few" in head else 200, own.choice((0, 4, 1024)),
                   own.choice((0, 2, 3600))))

    async def reply(self, own, wire, head):
        """Reads a message and answers it. False where the connection has to end."""
        fields = fields_of(head)
        names = [part.strip().split(b"=") for part in fields[b"encapsulated"].split(b",")]
        heads = await wire.exactly(int(names[-1][1]))
        plan, _mark = plan_of_target(self.seed, heads.split(b"\r\n")[0])
        if plan is None:
            self.found.count("service: messages without an identity")
            return False
        offer = Offer(self, plan, fields, names, heads)
        if offer.has_body and not offer.is_preview and offer.may_be_hasty():
            return await self.answer_first(own, wire, offer)
        if offer.has_body:
            await offer.read(wire)
        turn = self.asked[plan.mark, offer.is_request] = self.asked.get((plan.mark, offer.is_request), 0) + 1
        own = self.own(plan, "service %s %d" % (offer.is_request, turn))
        fault = offer.verdict.fault
        wire.breaks = fault in ("closes", "cut", "changed")
        if fault == "closes" and turn == 1:
            return False
        if offer.is_open and (offer.verdict.continues or offer.word == "same" and own.random() < 0.3):
            wire.write(folded(own, b"ICAP/1.0 100 Continue\r\n" + own.choice((b"", b"X: y\r\n")) + b"\r\n"))
            offer.is_preview = False
            if offer.may_be_hasty():
                return await self.answer_first(own, wire, offer)
            await offer.read(wire)
        text = offer.answer(own)
        if fault == "changed":
            text = changed(own, text)
        elif fault == "cut":
            text = text[:own.randrange(len(text))]
        elif fault == "trailing":
            text += own.choice((b"x", b"\r\n", b"ICAP/1.0 "))
        offer.is_answered()
        await wire.write_in_pieces(own, text)
        return fault not in ("changed", "cut", "leaves")

    async def answer_first(self, own, wire, offer):
        """Answers before the rest of the message has come. What comes then is that rest, and nothing else, or the connection ends."""
        self.found.count("service: answers before the message was read")
        text = offer.answer(own)
        offer.is_answered()
        wire.write(text)
        await asyncio.sleep(own.choice((0, 0, 0.002)))
        try:
            await offer.read(wire)
        except ValueError:
            self.wrong("%r is followed by other bytes before its end: %r", offer.plan.mark, bytes(wire.raw[:200]))
        return True


class Offer:
    """A message that a service is offered."""

    def __init__(self, service, plan, fields, names, heads):
        self.service, self.plan, self.names, self.heads = service, plan, names, heads
        self.is_request = fields[b""].startswith(b"REQMOD")
        self.verdict = plan.reqmod if self.is_request else plan.respmod
        self.word = plan.verdict(True, self.is_request)
        self.is_allowed = b"204" in fields.get(b"allow", b"")
        self.is_preview = b"preview" in fields
        self.has_body = names[-1][0] != b"null-body"
        self.body = bytearray()
        # Whether there may be more after a preview.
        self.is_open = False

    def is_answered(self):
        """Its answer goes out now: before that no byte of the request has gone to its origin."""
        if self.is_request:
            self.service.found.cause(self.plan.mark)

    def may_be_hasty(self):
        return self.verdict.is_hasty and not self.verdict.fault and (self.word != "same" or self.is_allowed)

    async def read(self, wire):
        """Reads a body up to its last chunk, or that of its preview, and judges it."""
        try:
            last = await wire.chunked(self.body)
        finally:
            self.judge(False)
        self.is_open = self.is_preview and b"ieof" not in last
        self.judge(not self.is_open)

    def wrong(self, text, *values):
        point = "REQMOD" if self.is_request else "RESPMOD"
        self.service.wrong_of(self.plan.mark, "%r, %s, " + text, self.plan.mark, point, *values)

    def judge(self, is_whole):
        """What was offered has to be of one exchange; where its sides are sound, just their bytes."""
        plan, body = self.plan, bytes(self.body)
        self.service.found.count("service: messages")
        others = aliens(self.service.seed, self.heads, plan.mark)
        if others:
            self.wrong("has heads with %r: %r", others, self.heads)
        if not plan.is_sound() or not self.is_request and (plan.origin in ("changed", "garbage") or plan.reqmod.fault == "changed"):
            others = aliens(self.service.seed, body, plan.mark)
            if others:
                self.wrong("has a body with %r", others)
            return
        wanted = plan.request_body(False) if self.is_request else plan.answer_body(False)
        if is_whole and body != wanted or not wanted.startswith(body):
            self.wrong("has another body: %s", shown(body, wanted))
        kinds = set(token[0] for token in TOKEN.findall(self.heads))
        if kinds != ({b"q"} if self.is_request else {b"q", b"r"}):
            self.wrong("has other heads: %r", self.heads)

    def answer(self, own):
        """A 204 where it may be; else a 200 with the message as it came, with another one, or with an answer of the service's own."""
        tag = self.service.tag()
        if self.word == "same" and (self.is_open or (self.is_preview or self.is_allowed) and own.random() < 0.8
                                    or self.verdict.is_hasty and self.is_allowed):
            return folded(own, b"ICAP/1.0 204 No Modifications\r\nISTag: %s\r\nEncapsulated: null-body=0\r\n\r\n" % tag)
        kind, heads, has_body, body = self.message(own)
        part = kind if has_body else b"null"
        comma = own.choice((b", ", b",", b" ,\t"))
        text = b"ICAP/1.0 200 OK\r\nISTag: %s\r\nEncapsulated: %s-hdr=0%s%s-body=%d\r\n\r\n" % (tag, kind, comma, part, len(heads))
        return folded(own, text) + heads + (chunks(own, body) if has_body else b"")

    def message(self, own):
        """The message of a 200: which kind, its head, whether it has a body, and the body."""
        plan, heads = self.plan, self.heads
        if self.word == "page":
            heads = b"HTTP/1.1 403 No\r\nX-Mark: <p%s>\r\n\r\n" % plan.mark
            return b"res", heads, plan.method != "HEAD", filled(b"p", plan.mark, self.verdict.size)
        kind, letter = (b"req", b"Q") if self.is_request else (b"res", b"R")
        if not self.is_request and self.names[0][0] == b"req-hdr":
            heads = heads[int(self.names[1][1]):]
        if self.word == "same":
            return kind, heads, self.has_body, bytes(self.body)
        has_body = self.has_body or not self.is_request and not plan.bodiless()
        body = filled(letter, plan.mark, self.verdict.size) if has_body else b""
        lines = [line for line in heads.split(b"\r\n")[:-2] if not line.lower().startswith(b"content-length:")]
        lines.append(b"X-Adapted: <%s%s>" % (letter, plan.mark))
        if has_body and own.random() < 0.5:
            lines.append(b"Content-Length: %d" % len(body))
        return kind, b"\r\n".join(lines) + b"\r\n\r\n", has_body, body
