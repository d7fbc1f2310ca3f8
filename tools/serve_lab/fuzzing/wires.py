"""Connections of the fuzz, and how messages are read off them."""
import asyncio
import socket
import struct


class Ended(Exception):
    """The other side ended its bytes."""


class Reset(Exception):
    """The other side reset the connection."""


class Wire(asyncio.Protocol):
    """A connection; `serve(wire)` runs for one that was accepted."""

    def __init__(self, serve=None):
        self.serve = serve
        self.raw = bytearray()
        self.ended = False
        self.said_all = False
        # How many bytes were written.
        self.sent = 0
        self.fault = None
        self.waiter = None
        self.transport = None
        self.task = None
        # Whether it may be reset at its end.
        self.breaks = False

    def connection_made(self, transport):
        self.transport = transport
        if self.serve:
            self.task = asyncio.get_running_loop().create_task(self.serve(self))

    def wake(self):
        if self.waiter and not self.waiter.done():
            self.waiter.set_result(None)

    def data_received(self, data):
        self.raw += data
        self.wake()

    def eof_received(self):
        self.ended = True
        self.wake()
        return True

    def connection_lost(self, exc):
        self.ended = True
        self.fault = self.fault or exc
        self.wake()

    async def more(self):
        """Waits for further bytes."""
        size = len(self.raw)
        while len(self.raw) == size:
            if self.ended:
                raise Reset if self.fault else Ended
            self.waiter = asyncio.get_running_loop().create_future()
            await self.waiter

    def write(self, data):
        if not self.transport.is_closing() and not self.said_all:
            self.transport.write(data)
            self.sent += len(data)

    async def is_out(self):
        """Waits until all that was written is with the system, or can't go there any more."""
        while self.transport.get_write_buffer_size() and not self.transport.is_closing() and not self.ended:
            await asyncio.sleep(0.001)

    async def write_in_pieces(self, own, text):
        """Sends a text, in pieces now and then: a dozen of them on average, however long it is, since each takes a turn of this process."""
        if own.random() < 0.85:
            self.write(text)
            return
        at, times = 0, 1 + len(text) // 65536
        while at < len(text):
            end = at + own.choice((1, 3, 50, 1000, 5000, 30000)) * times
            self.write(text[at:end])
            at = end
            await asyncio.sleep(0)

    def end_writing(self):
        self.said_all = True
        try:
            self.transport.write_eof()
        except OSError:
            pass  # The other side has gone.

    def close(self):
        self.transport.close()

    def reset(self):
        sock = self.transport.get_extra_info("socket")
        if sock is not None and not self.transport.is_closing():
            sock.setsockopt(socket.SOL_SOCKET, socket.SO_LINGER, struct.pack("ii", 1, 0))
        self.transport.abort()

    def take(self, count):
        out = bytes(self.raw[:count])
        del self.raw[:count]
        return out

    async def until(self, mark):
        at = self.raw.find(mark)
        while at < 0:
            seen = len(self.raw)
            await self.more()
            at = self.raw.find(mark, max(0, seen - len(mark)))
        return self.take(at + len(mark))

    async def exactly(self, count):
        while len(self.raw) < count:
            await self.more()
        return self.take(count)

    async def head(self):
        return await self.until(b"\r\n\r\n")

    async def counted(self, out, count):
        """So many bytes are added to `out`, as they come."""
        while count:
            if not self.raw:
                await self.more()
            piece = self.take(min(count, len(self.raw)))
            out += piece
            count -= len(piece)

    async def chunked(self, out):
        """A chunked body is added to `out`: its last chunk's line."""
        while True:
            line = await self.until(b"\r\n")
            size = int(line.split(b";")[0], 16)
            if size == 0:
                while await self.until(b"\r\n") != b"\r\n":
                    pass
                return line
            await self.counted(out, size)
            if await self.exactly(2) != b"\r\n":
                raise ValueError("a chunk without its end")

    async def message(self, out, fields, bodiless):
        """The body of an HTTP message is added to `out`. A response without a length ends with the connection."""
        if bodiless:
            return
        if fields.get(b"transfer-encoding", b"").lower() == b"chunked":
            await self.chunked(out)
        elif b"content-length" in fields:
            await self.counted(out, int(fields[b"content-length"]))
        elif fields[b""].startswith(b"HTTP/"):
            try:
                while True:
                    out += self.take(len(self.raw))
                    await self.more()
            except Ended:
                pass


def fields_of(head):
    """The fields of a head, their names in lower case; the start line under the empty name."""
    lines = head.split(b"\r\n")
    fields = {b"": lines[0]}
    for line in lines[1:]:
        name, colon, value = line.partition(b":")
        if colon:
            fields[name.strip().lower()] = value.strip()
    return fields
