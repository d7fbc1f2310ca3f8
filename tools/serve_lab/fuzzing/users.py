"""The users of the fuzz: what they send, and what of it must come back."""
import asyncio
import random

from serve_lab.fuzzing.peers import shown
from serve_lab.fuzzing.plans import aliens, changed, chunks, garbage, length_of, plan_of, refusal
from serve_lab.fuzzing.wires import Ended, Reset, Wire, fields_of

PATIENCE = 30.0
STATUSES = (400, 501, 502, 503, 504)


class Cut(Exception):
    """The connection ended within an answer."""


class GivenUp(Exception):
    """The connection was reset after its last answer, where there are too few places."""


def request(own, plan):
    """The head and the body that the user of a plan sends, broken where it breaks them."""
    mark = plan.mark.decode()
    extra = own.choice(("", "", "", "Accept: */*\r\nCookie: a=b\r\n", "X: %s\r\n" % ("y" * 3000), "Connection: X-Own\r\nX-Own: 1\r\n"))
    body = plan.request_body(False)
    if plan.asks_close:
        extra += "Connection: close\r\n"
    if plan.expects:
        extra += "Expect: 100-continue\r\n"
    if plan.is_chunked:
        extra += "Transfer-Encoding: chunked\r\n"
        body = chunks(own, body)
    elif plan.has_body:
        extra += "Content-Length: %d\r\n" % len(body)
    head = ("%s http://o.test/%s/a%s HTTP/%s\r\nHost: o.test\r\nX-Mark: <q%s>\r\n%s\r\n" % (
        plan.method, mark, plan.end, plan.version, mark, extra)).encode()
    if plan.fault == "changed":
        text = changed(own, head + body)
        return text[:len(head)], text[len(head):]
    if plan.fault == "cut":
        text = (head + body)[:own.randrange(len(head) + len(body))]
        return text[:len(head)], text[len(head):]
    if plan.fault == "garbage":
        return garbage(own), b""
    return head, body


class FuzzUser:
    """The exchanges of one connection."""

    def __init__(self, seed, number, port, points, seats, keeps, found):
        self.seed, self.number, self.port, self.points, self.seats, self.found = seed, number, port, points, seats, found
        self.keeps = keeps
        self.own = random.Random("%s user %d" % (seed, number))
        self.wire = Wire()
        self.made = 0

    def wrong(self, text, *values):
        self.found.wrong("connection %d: %s" % (self.number, text % values))

    def wrong_of(self, plan, text, *values):
        self.found.wrong_of(plan.mark, "connection %d: %s" % (self.number, text % ((plan.mark,) + values)), plan.fault == "changed")

    async def run(self):
        """How many exchanges there were."""
        plans = []
        for at in range(length_of(self.seed, self.number)):
            plans.append(plan_of(self.seed, self.number, at))
            if plans[-1].fault:
                break
        # The first request may be read as soon as its user is let in, and no poll need report it.
        self.found.cause(plans[0].mark)
        try:
            await asyncio.get_running_loop().create_connection(lambda: self.wire, "127.0.0.1", self.port)
        except OSError:
            self.found.count("no connection")
            return 1
        try:
            if await self.converse(plans) and self.own.random() < 0.5:
                await self.see_the_end()
        finally:
            if self.own.random() < 0.3:
                self.wire.reset()
            else:
                self.wire.close()
        return self.made

    async def converse(self, plans):
        """Asks for all, at once or one after another. Whether the last answer was read, and no further one is due."""
        texts = [request(self.own, plan) for plan in plans]
        piped = self.own.random() < 0.4
        sender = None
        if piped:
            for plan in plans[1:]:
                self.found.cause(plan.mark)
            text = b"".join(head + body for head, body in texts)
            sender = asyncio.create_task(self.wire.write_in_pieces(self.own, text))
        for plan, (head, body) in zip(plans, texts):
            self.made += 1
            if not piped:
                await self.send(plan, head, body)
            if plan.fault == "gone":
                await asyncio.sleep(self.own.choice((0, 0, 0.001, 0.003, 0.02)))
                self.wire.reset()
                self.found.count("user went away")
                return False
            if plan.fault and not self.waits_on(plan):
                return False
            if not await self.hear(plan, plan.at == 0):
                return False
        if sender:
            await sender
        # A request that was changed may be two of them.
        return plans[-1].is_sound()

    async def send(self, plan, head, body):
        if plan.at:
            self.found.cause(plan.mark)
        if plan.expects and not plan.fault and self.own.random() < 0.7:
            self.wire.write(head)
            self.body = body
            return
        await self.wire.write_in_pieces(self.own, head + body)

    body = b""

    def waits_on(self, plan):
        """What a user does whose request is broken: mostly it ends its bytes, so that nobody waits for more. Whether it reads on."""
        kind = self.own.random()
        if kind < 0.25:
            self.found.count("user broke off")
            return False
        if kind < 0.9:
            self.wire.end_writing()
        return True

    async def hear(self, plan, is_first):
        """Reads an answer and judges it. Whether the next one may follow."""
        strength = plan.strength(self.points, self.keeps)
        try:
            async with asyncio.timeout(PATIENCE if plan.is_sound() else 3):
                return await self.read(plan, strength)
        except GivenUp:
            self.found.count("sound ones whose connection was reset after their last answer, for want of a seat")
        except (Ended, Reset, Cut) as error:
            word = "cut within an answer" if isinstance(error, Cut) else "closed before an answer"
            if strength == 3 and is_first and not self.seats and not isinstance(error, Cut):
                word = "closed at once for want of a seat"
            if strength == 3 and isinstance(error, Cut) and not self.found.is_late():
                self.wrong_of(plan, "%r was %s: %s", word, error)
            self.found.count("%s %s%s" % ("sound ones" if strength == 3 else "others", word, "" if is_first else " to a later request"))
            if strength == 3 and is_first and self.seats and not self.found.is_late():
                self.wrong_of(plan, "%r is sound, and %s: %s", word, type(error).__name__)
        except (ValueError, KeyError, IndexError) as error:
            if strength > 1:
                self.wrong_of(plan, "%r has no answer: %s, before %r", error, bytes(self.wire.raw[:100]))
            self.found.count("an answer that can't be read")
        except TimeoutError:
            if plan.is_sound() and not self.found.is_late():
                self.wrong_of(plan, "%r hangs, in state %s", self.wire.ended)
            self.found.count("broken, and not ended by the proxy within 3 s")
        return False

    async def final_head(self, plan):
        while True:
            head = await self.wire.head()
            if not head.startswith(b"HTTP/1.1 1"):
                return head
            if head != b"HTTP/1.1 100 Continue\r\n\r\n" or not plan.expects and plan.is_sound():
                self.wrong("%r has an interim answer: %r", plan.mark, head)
            body, self.body = self.body, b""
            await self.wire.write_in_pieces(self.own, body)

    async def read(self, plan, strength):
        head = await self.final_head(plan)
        withheld, self.body = self.body, b""
        fields = fields_of(head)
        status = int(fields[b""].split(b" ")[1])
        body = bytearray()
        to_head = plan.method == "HEAD"
        try:
            await self.wire.message(body, fields, to_head or status in (204, 304))
        except (Ended, Reset) as error:
            self.judge_bytes(plan, head, body)
            if strength == 3 and not self.seats and isinstance(error, Reset) and fields.get(b"connection", b"").lower() == b"close":
                # All was said to it, and bytes of its further requests are dropped: the place of one that is at its end is given to
                # another user. Its bytes that weren't read yet go on as a reset.
                raise GivenUp from error
            raise Cut("%s after %d bytes of %r" % (type(error).__name__, len(body), head[:120])) from error
        self.found.count("answered %d" % status)
        is_refusal = status in STATUSES and head == refusal(status)
        if is_refusal:
            self.found.count("%s refused by %d" % ("sound ones" if strength == 3 else "others", status))
            others = (502, 504) if any(self.points) else ({"refuses": 502, "storm": 502, "mute": 504}.get(plan.origin),)
            if strength == 3 and status != 503 and status not in others and not (status == 504 and self.found.is_late()):
                self.wrong_of(plan, "%r is sound, and refused by %d", status)
        elif strength == 1:
            self.judge_bytes(plan, head, body)
        else:
            self.judge_answer(plan, fields, status, bytes(body), head)
        return not is_refusal and fields.get(b"connection", b"").lower() != b"close" and not withheld

    def judge_bytes(self, plan, head, body):
        """No byte is of another exchange."""
        others = aliens(self.seed, bytes(head) + bytes(body), plan.mark)
        if others:
            self.wrong_of(plan, "%r has an answer with %r: %r", others, head)

    def judge_answer(self, plan, fields, status, body, head):
        wanted = plan.answer(self.points)
        self.found.count("answers that are known to the byte")
        if plan.origin == "storm" and plan.verdict(self.points[0], True) != "page":
            self.wrong_of(plan, "%r has the answer of an origin that sends too many interim heads: %r", head)
        if (status, fields.get(b"x-mark"), fields.get(b"x-adapted")) != wanted[:3]:
            self.wrong_of(plan, "%r has another head: %r, wanted %r", head, wanted[:3])
        elif body != wanted[3]:
            self.wrong_of(plan, "%r has another body: %s", shown(body, wanted[3]))

    async def see_the_end(self):
        """After its last answer no further byte comes."""
        self.wire.end_writing()
        try:
            async with asyncio.timeout(PATIENCE):
                await self.wire.more()
        except (Ended, Reset):
            return
        except TimeoutError:
            self.wrong("it isn't closed after it ended its bytes")
        else:
            self.wrong("it has bytes after its last answer: %r", bytes(self.wire.raw[:200]))
