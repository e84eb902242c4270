"""Lines over which bytes come: to a host by TCP, over a serial device, or from standard input."""
import errno
import os
import re
import socket
import termios
import tty
from typing import Protocol

from btx import files

PIECE = 2**16
SERIAL = re.compile(r"serial:(.+):(\d+)")
HOST = re.compile(r"(?:\[([^\]]+)\]|([^:]+)):(\d{1,5})")
MOST_PORT = 65535
# How long a host is waited for until it answers, in seconds.
ANSWERS_IN = 20
# What the system says of a name that no host has. It isn't asked for one with an empty part, or with one of more than 63 letters.
UNKNOWN = (socket.EAI_NONAME, "Name or service not known")


# The speeds that the system's terminals know, in bits a second; 0 would hang up.
SPEEDS = sorted(int(name[1:]) for name in dir(termios) if re.fullmatch("B[1-9][0-9]*", name))


class OtherSpeed(ValueError):
    """A serial line is named with a speed that the system doesn't know; the text is the speed."""


class Line(Protocol):
    """A line that is open."""

    sends: bool

    def fileno(self) -> int:
        """Its number, for the system."""

    def read(self) -> bytes:
        """What has come; empty bytes at the end of the line."""

    def send(self, data: bytes) -> int:
        """Sends what the line takes now, and answers how much that is."""

    def close(self) -> None:
        """Ends the line."""


class Name:
    """A line as it is named: HOST:PORT, serial:DEVICE:BITS, or -."""

    def __init__(self, text: str) -> None:
        self.text = text
        self.serial, self.host = SERIAL.fullmatch(text), HOST.fullmatch(text)
        if self.serial and self.serial[2] not in map(str, SPEEDS):
            raise OtherSpeed(self.serial[2])
        if text != files.STANDARD and not self.serial and not self.is_host():
            raise ValueError(text)

    def is_host(self) -> bool:
        return self.host is not None and not self.text.startswith("serial:") and 0 < int(self.host[3]) <= MOST_PORT

    def open(self) -> Line:
        """Opens the line; why that fails is raised with its name."""
        try:
            return self.opened()
        except UnicodeError:
            raise OSError(*UNKNOWN, self.text) from None
        except OSError as fault:
            raise OSError(fault.errno, fault.strerror or str(fault), self.text) from None

    def opened(self) -> Line:
        if self.text == files.STANDARD:
            return Standard()
        if self.serial:
            return Serial(self.serial[1], getattr(termios, f"B{self.serial[2]}"))
        assert self.host is not None, "a line with another name is refused as it is named"
        return Socket(self.host[1] or self.host[2], int(self.host[3]))


class Socket:
    """A line to a host."""

    sends = True

    def __init__(self, host: str, port: int) -> None:
        self.socket = socket.create_connection((host, port), ANSWERS_IN)
        self.socket.setsockopt(socket.IPPROTO_TCP, socket.TCP_NODELAY, 1)
        self.socket.setblocking(False)

    def fileno(self) -> int:
        return self.socket.fileno()

    def read(self) -> bytes:
        """What has come; empty bytes at the end of the line."""
        return self.socket.recv(PIECE)

    def send(self, data: bytes) -> int:
        """Sends what the line takes now, and answers how much that is."""
        return self.socket.send(data)

    def close(self) -> None:
        self.socket.close()


def why_unset(number: int, device: str) -> str:
    """Why a device can't be set as a serial line, by the number of the system's error."""
    if number == errno.ENOTTY:
        return f"{device} is no serial device, as /dev/ttyS0 is; a host is named HOST:PORT"
    return os.strerror(number).lower()


class Serial:
    """A line over a device: eight bits without parity, and no control of its flow. It is left as it was."""

    sends = True

    def __init__(self, device: str, speed: int) -> None:
        self.file = os.open(device, os.O_RDWR | os.O_NOCTTY | os.O_NONBLOCK)
        try:
            self.kept = termios.tcgetattr(self.file)
            self.set(speed)
        except termios.error as fault:
            os.close(self.file)
            raise OSError(fault.args[0], why_unset(fault.args[0], device), device) from None

    def set(self, speed: int) -> None:
        tty.setraw(self.file, termios.TCSANOW)
        words = termios.tcgetattr(self.file)
        # Bytes are neither changed nor left out as they come and go; before Python 3.12 some of these flags would stay.
        words[0] = words[1] = 0
        words[2] |= termios.CLOCAL | termios.CREAD
        words[2] &= ~(termios.CSTOPB | getattr(termios, "CRTSCTS", 0))
        words[4] = words[5] = speed
        termios.tcsetattr(self.file, termios.TCSANOW, words)

    def fileno(self) -> int:
        return self.file

    def read(self) -> bytes:
        return os.read(self.file, PIECE)

    def send(self, data: bytes) -> int:
        return os.write(self.file, data)

    def close(self) -> None:
        try:
            termios.tcsetattr(self.file, termios.TCSANOW, self.kept)
        except termios.error:
            # The device is gone.
            pass
        os.close(self.file)


class Standard:
    """Standard input: bytes come, and none can be sent."""

    sends = False

    def fileno(self) -> int:
        return files.INPUT

    def read(self) -> bytes:
        return os.read(files.INPUT, PIECE)

    def send(self, data: bytes) -> int:
        return 0

    def close(self) -> None:
        pass
