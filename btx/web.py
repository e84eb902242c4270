"""The line of a guest as a WebSocket, by the library of Python that Debian has; and the viewer for a browser that asks the same port for a
page."""
import asyncio
import http
import os
from collections.abc import Awaitable, Callable, Mapping
from types import ModuleType
from typing import Any

from btx import debian, viewer

NAME, PACKAGE = "websockets", "python3-websockets"
MOST_MESSAGE = 1024
# A status, headers and a body.
Answer = tuple[http.HTTPStatus, list[tuple[str, str]], bytes]
# The names by which this machine alone reaches itself.
HERE = ("127.0.0.1", "localhost", "::1", "[::1]")
# The port that browsers leave out where they name a document's origin.
USUAL_PORT = 80
ABSENT = "This port is a WebSocket. There is no viewer for it, since {}\n"


def library(module: str) -> ModuleType:
    return debian.module(module, NAME, PACKAGE)


class Socket:
    """The line of a guest."""

    def __init__(self, connection: Any) -> None:
        self.connection, self.closed = connection, library("websockets.exceptions").ConnectionClosed
        self.transport: asyncio.WriteTransport = connection.transport
        self.name = "{}:{}".format(*connection.remote_address[:2])

    async def read(self) -> bytes:
        """What the guest sends; empty bytes at the end. A message that is empty is none."""
        data: bytes | str = b""
        try:
            while not data:
                data = await self.connection.recv()
        except self.closed:
            return b""
        return data if isinstance(data, bytes) else data.encode("utf-8")

    async def write(self, data: bytes) -> None:
        try:
            await self.connection.send(data)
        except self.closed:
            raise ConnectionResetError(0, "it has gone") from None

    async def close(self) -> None:
        await self.connection.close()


def document() -> bytes | None:
    """The viewer with the decoder's module, or None where that isn't there."""
    if not os.path.exists(viewer.MODULE):
        return None
    with open(viewer.MODULE, "rb") as file:
        return viewer.html_with(file.read()).encode("utf-8")


def shown_at(near: str) -> str:
    """Where a browser shows the line, or why it can't."""
    return f"a browser shows it at http://{near}/, by Watch" if document() else f"no browser shows it, since {viewer.missing()}"


def page() -> Answer:
    """What a browser gets that asks for a page, and not for a WebSocket."""
    found = document()
    kind = "text/html" if found else "text/plain"
    status = http.HTTPStatus.OK if found else http.HTTPStatus.NOT_FOUND
    return status, [("Content-Type", f"{kind}; charset=utf-8")], found or ABSENT.format(viewer.missing()).encode("utf-8", "replace")


def is_open_to(headers: Mapping[str, str], address: str, port: int) -> bool:
    """Whether a document may open the line: a file of a machine, and what this port serves itself. Other websites may not, but for what
    they show in a frame without an origin, which can't be told from a file. Of the names that this machine has in a network only who asks
    knows."""
    ends = (f":{port}", "") if port == USUAL_PORT else (f":{port}",)
    origin, own = headers.get("Origin", "null"), [f"http://{name}{end}" for name in (*HERE, address) for end in ends]
    if address not in HERE:
        own.append(f"http://{headers.get('Host')}")
    return origin in ("null", "file://", *own)


async def serve(welcome: Callable[[Socket], Awaitable[None]], address: str, port: int) -> Any:
    """A server whose guests are welcomed."""
    legacy = library("websockets.legacy.server")
    ports: list[int] = []

    async def begin(connection: Any, _: Any = None) -> None:
        await welcome(Socket(connection))

    async def answer(_: str, headers: Mapping[str, str]) -> Answer | None:
        if "Upgrade" not in headers:
            return page()
        if not is_open_to(headers, address, *ports):
            return http.HTTPStatus.FORBIDDEN, [], b"Another website may not open this line.\n"
        return None

    server = await legacy.serve(begin, address, port, max_size=MOST_MESSAGE, process_request=answer, compression=None)
    ports.append(server.sockets[0].getsockname()[1])
    return server
