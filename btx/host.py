"""A small host for trying terminals: a test bench, and no service. It has the stored pages of a folder: *12# shows 12.btx, # the next part,
12b.btx, and *0# the first page, which each guest sees at first. Bytes go out at the speed of a line. Guests that send nonsense or nothing
are dropped after a time. With --web the line is a WebSocket, for the viewer in a browser."""
import argparse
import asyncio
import socket
import time
from collections.abc import Coroutine
from typing import Any, Protocol, TypeVar

from btx import debian, guest, messages, numbers, program, recording, say, web, wire
from btx.statuses import NOT_THERE

SUMMARY = "a small host for trying terminals, with the pages of a folder"
HERE = "127.0.0.1"
# Where this machine reaches what listens for all addresses.
NEAR = {"0.0.0.0": HERE, "::": "::1"}
BITS, PATIENCE, GUESTS = 1200, 300, 100
# What goes out at once goes out so often a second, at most.
PIECES = 50
# So many bytes at most are handed over at once, and the system keeps four times as many that a guest hasn't taken.
MOST_AT_ONCE = 2**14
# So many bytes of a guest are kept while a page goes out.
MOST_TYPED = 64
Made = TypeVar("Made")


def arguments(parser: argparse.ArgumentParser) -> None:
    parser.add_argument("folder", metavar="FOLDER")
    parser.add_argument("--port", type=numbers.whole("a port", 0, 65535), required=True, metavar="N", help="the port; 0 takes one that is free, and says which")
    parser.add_argument("--bits", type=numbers.whole("a speed", 0), default=BITS, metavar="BITS",
                        help=f"how many bits a second; 0 is at once, and without it {BITS}")
    parser.add_argument("--bind", type=numbers.named("the address"), default=HERE, metavar="ADDRESS",
                        help="for which address it listens; without it this machine alone")
    parser.add_argument("--patience", type=numbers.whole("a time", 1), default=PATIENCE, metavar="SECONDS",
                        help=f"after how long a guest is dropped who asks for nothing; without it {PATIENCE}")
    parser.add_argument("--guests", type=numbers.whole("their number", 1), default=GUESTS, metavar="N",
                        help=f"how many there may be at once; without it {GUESTS}")
    parser.add_argument("--web", action="store_true", help="the line is a WebSocket, for the viewer; takes python3-websockets")


class Line(Protocol):
    """The line of a guest."""

    name: str
    transport: asyncio.WriteTransport

    async def read(self) -> bytes:
        """What the guest sends; empty bytes at the end."""

    async def write(self, data: bytes) -> None:
        """Sends bytes, once the line takes them."""

    async def close(self) -> None:
        """Ends the line."""


class Stream:
    """The line of a guest by TCP."""

    def __init__(self, reader: asyncio.StreamReader, writer: asyncio.StreamWriter) -> None:
        self.reader, self.writer, self.transport = reader, writer, writer.transport
        self.name = "{}:{}".format(*writer.get_extra_info("peername")[:2])

    async def read(self) -> bytes:
        """What the guest sends; empty bytes at the end."""
        return await self.reader.read(MOST_TYPED)

    async def write(self, data: bytes) -> None:
        self.writer.write(data)
        await self.writer.drain()

    async def close(self) -> None:
        """Ends the line once what waits has gone out, for which nobody waits."""
        self.writer.close()


async def within(seconds: float, act: Coroutine[Any, Any, Made]) -> Made:
    """What is awaited, for some seconds at most. It ends with the run at any time, which asyncio.wait_for may fail to do."""
    task = asyncio.create_task(act)
    if not (await asyncio.wait({task}, timeout=seconds))[0]:
        task.cancel()
        raise asyncio.TimeoutError
    return task.result()


def keep_little(transport: asyncio.WriteTransport) -> None:
    """Has few bytes wait to go out, so that it is seen whether a guest takes any."""
    if not transport.is_closing():
        transport.set_write_buffer_limits(MOST_AT_ONCE)
        transport.get_extra_info("socket").setsockopt(socket.SOL_SOCKET, socket.SO_SNDBUF, 4 * MOST_AT_ONCE)


class Host:
    """The guests of a folder of pages."""

    def __init__(self, options: argparse.Namespace) -> None:
        self.options, self.guests = options, 0
        self.speed = recording.Speed(options.bits) if options.bits else None

    async def taken(self, line: Line, data: bytes) -> None:
        """Sends bytes at once, to a guest who takes them."""
        try:
            await within(self.options.patience, line.write(data))
        except asyncio.TimeoutError:
            line.transport.abort()
            raise OSError(0, f"it took nothing for {self.options.patience} seconds") from None

    async def put(self, line: Line, data: bytes) -> None:
        """Sends bytes at the speed of the line."""
        begun, at = time.monotonic(), 0
        while at < len(data):
            end = min(len(data), at + MOST_AT_ONCE)
            if self.speed:
                end = min(end, int((time.monotonic() - begun) * self.options.bits / recording.BITS_OF_A_BYTE))
            if end > at:
                await self.taken(line, data[at:end])
                at = end
            if self.speed and at < len(data):
                await asyncio.sleep(max(1 / PIECES, begun + self.speed.when(at + 1) - time.monotonic()))

    async def serve(self, line: Line) -> None:
        """Serves a guest until it goes; why it is dropped is raised."""
        here = guest.Guest(guest.Pages(self.options.folder))
        await self.put(line, here.shown())
        until = time.monotonic() + self.options.patience
        while True:
            typed = await within(max(0, until - time.monotonic()), line.read())
            if not typed:
                return
            for byte in typed:
                data, is_page = here.take(byte)
                await self.put(line, data)
                if is_page:
                    until = time.monotonic() + self.options.patience

    async def welcome(self, line: Line) -> None:
        """Has a guest served, where there is room for one."""
        self.guests += 1
        try:
            if self.guests > self.options.guests:
                say(f"host: {line.name} is sent away: {self.options.guests} guests are there")
                return
            keep_little(line.transport)
            await self.serve(line)
        except asyncio.TimeoutError:
            say(f"host: {line.name} is dropped: it asked for no page within {self.options.patience} seconds")
        except ConnectionError:
            # The guest left while bytes went out to it, as others do who end their line.
            return
        except OSError as fault:
            say("host: " + ": ".join(filter(None, [f"{line.name} is dropped", fault.filename, messages.why(fault)])))
        except asyncio.CancelledError:
            # The run ends, and all lines with it.
            return
        finally:
            self.guests -= 1
            await line.close()


def named(address: str, chosen: int) -> str:
    """Address and port as a line has them."""
    return f"[{address}]:{chosen}" if ":" in address else f"{address}:{chosen}"


async def server_of(host: Host, options: argparse.Namespace) -> Any:
    """A server whose guests the host welcomes."""
    try:
        if options.web:
            return await web.serve(host.welcome, options.bind, options.port)
        return await asyncio.start_server(lambda *streams: host.welcome(Stream(*streams)), options.bind, options.port)
    except UnicodeError:
        raise OSError(*wire.UNKNOWN) from None


async def listen(options: argparse.Namespace, pages: guest.Pages) -> None:
    """Serves guests until the run is ended."""
    server = await server_of(Host(options), options)
    for line in pages.listed():
        say(f"host: {line}")
    address, chosen = server.sockets[0].getsockname()[:2]
    speed = f"{options.bits} bit/s" if options.bits else "at once"
    where, near = named(address, chosen), named(NEAR.get(address, address), chosen)
    guest_of = web.shown_at(near) if options.web else f"a guest: {program.command()} line {near}"
    say(f"host: {'ws://' if options.web else ''}{where}, {speed}; a test bench, and no service; {guest_of}")
    await asyncio.Event().wait()


def run(_: object, options: argparse.Namespace) -> int:
    pages = guest.Pages(options.folder)
    try:
        asyncio.run(listen(options, pages))
    except debian.Missing as fault:
        say(f"host: {fault}")
        return NOT_THERE
    return 0
