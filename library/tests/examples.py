"""The examples in C over the library, and what the shared library exports."""
import os
import pty
import re
import signal
import socket
import subprocess
import sys
import tempfile
import termios
import threading
import unicodedata

from calls import ROOT, answer, read

import absent

sys.path.append(ROOT)
from btx import canvas, looks, program as runs  # noqa: E402
from building import module, shared  # noqa: E402

COLUMNS = 40


def pages():
    folder = os.path.join(ROOT, "pages")
    return sorted(os.path.join(folder, name) for name in os.listdir(folder) if name.endswith(".btx"))


def feeds(program, tool):
    """Whether the example says of the worked page of cept_tool(1) what that page says there."""
    said = subprocess.run([tool], input=b"\x9B1\rB", stdout=subprocess.PIPE).stdout
    if said != b"2 bytes are refused\nrow 1, column 1: sign 42 of set 0\n":
        print(f"example_feed says {said!r}")
        return False
    return True


def dots_are_right(program, tool):
    """Whether the picture of dots of each page is the one that btx paints."""
    wrong = 0
    for path in pages():
        board = canvas.Canvas(False)
        numbers = board.screen(looks.cells_of(runs.text_put(program, "cells", path)))
        colours = [bytes(board.palette.colours()[3 * number : 3 * number + 3]) for number in range(len(board.palette.numbers))]
        want = b"P6\n480 240\n255\n" + b"".join(colours[number] for number in numbers)
        found = subprocess.run([tool], input=read(path), stdout=subprocess.PIPE).stdout
        if found != want:
            wrong += 1
            differ = sum(found[at : at + 3] != want[at : at + 3] for at in range(15, len(want), 3))
            print(f"example_dots: {os.path.basename(path)}: {differ} dots differ")
    print(f"library/test: {len(pages())} pages in dots, {wrong} differ from those of btx")
    return wrong == 0


def screen_of(output):
    """The screen that a terminal shows of an output, by pyte: its lines, and the colours of each place."""
    import pyte

    screen = pyte.Screen(80, 30)
    pyte.ByteStream(screen).feed(output)
    return screen


def rows_of(text):
    """The signs of each row of a text of `show`, with their accents."""
    return [re.findall(".[\u0300-\u036f]*", line) for line in text.splitlines()]


def faults_on(screen, program, path):
    """The places of a terminal's screen that aren't as the page has them: colours everywhere, signs where the text has them."""
    text = rows_of(answer(program, ["show", path], ROOT)[1].decode())
    cells = looks.cells_of(answer(program, ["cells", path], ROOT)[1].decode())
    for row in range(1, len(text) + 1):
        for column in range(1, COLUMNS + 1):
            look, shown = cells.get((row, column), looks.BLANK), screen.buffer[row - 1][column - 1]
            paints = [None if paint == looks.VIDEO else "".join(2 * digit for digit in paint).lower() for paint in (look.fore, look.back)]
            if any(want and want != found for want, found in zip(paints, (shown.fg, shown.bg))):
                yield row, column, look, shown
            sign = text[row - 1][column - 1]
            is_letter = look.shape[0] in "PS" and not look.concealed and not (look.down or look.right)
            if is_letter and unicodedata.normalize("NFC", shown.data) != unicodedata.normalize("NFC", sign):
                yield row, column, look, shown


def over_a_port(tool, page, typed):
    """The output of the terminal for a page that comes in pieces over a port of this machine, and what it sent there."""
    with socket.create_server(("127.0.0.1", 0)) as server:
        sent: list[bytes] = []

        def serve():
            line, _ = server.accept()
            with line:
                while b"".join(sent) != typed:
                    sent.append(line.recv(100))
                for at in range(0, len(page), 7):
                    line.sendall(page[at : at + 7])

        thread = threading.Thread(target=serve)
        thread.start()
        done = subprocess.run([tool, str(server.getsockname()[1])], input=typed, stdout=subprocess.PIPE)
        thread.join()
    return done.stdout, b"".join(sent)


def terminal_is_right(program, tool):
    """Whether the terminal shows each page, over a pipe and over a port, and sends what is typed."""
    if not absent.has_library("pyte"):
        absent.left_out("library/test: the terminal", "pyte")
        return True
    wrong = 0
    for path in pages():
        piped = subprocess.run([tool], input=read(path), stdout=subprocess.PIPE).stdout
        sent, heard = over_a_port(tool, read(path), b"*0#")
        for output in (piped, sent):
            faults = list(faults_on(screen_of(output), program, path))
            wrong += bool(faults)
            for fault in faults[:3]:
                print(f"example_live: {os.path.basename(path)}: {fault}")
        wrong += heard != b"*0#"
    print(f"library/test: {len(pages())} pages in the terminal, over a pipe and over a port, {wrong} differ")
    return wrong == 0


def an_absent_host_is_told(tool):
    """Whether the terminal says what has to run, where nothing listens at a port, and where it is given a page in place of one."""
    with socket.create_server(("127.0.0.1", 0)) as server:
        port = str(server.getsockname()[1])
    right = True
    for word in (port, pages()[0], "70000", f"{port}x", ""):
        done = subprocess.run([tool, word], input=b"", stdout=subprocess.PIPE, stderr=subprocess.PIPE)
        said = done.stderr.decode()
        if done.returncode != 1 or not said.startswith(f"{word} is no port") or "btx host" not in said:
            print(f"example_live {word} says {said!r}")
            right = False
    return right


def faults_are_told(tools):
    """Whether the examples say that what they are given can't be read, or is too long, and end with status 1: of a folder and of 2^24 bytes."""
    right = True
    with tempfile.TemporaryDirectory(prefix="examples-") as folder:
        longest, longer = (os.path.join(folder, name) for name in ("longest", "longer"))
        for path, length in ((longest, 1 << 24), (longer, (1 << 24) + 1)):
            with open(path, "wb") as file:
                file.truncate(length)
        for name, tool in tools.items():
            for path, status in ((folder, 1), *(((longest, 0), (longer, 1)) if name == "example" else ())):
                words, given = [tool, path] if name == "example" else [tool], os.open(path, os.O_RDONLY)
                done = subprocess.run(words, stdin=given, stdout=subprocess.PIPE, stderr=subprocess.PIPE)
                os.close(given)
                if done.returncode != status or bool(done.stderr) != bool(status):
                    print(f"{name} of {os.path.basename(path)}: status {done.returncode}, {done.stderr!r}")
                    right = False
    return right


def full_outputs_are_told(tools):
    """Whether the examples say that what they write can't be written, and end with status 1."""
    right, page = True, os.path.join(ROOT, "pages", "title.btx")
    for name in sorted(tools):
        words = [tools[name], page] if name == "example" else [tools[name]]
        with open(page, "rb") as given, open("/dev/full", "wb") as full:
            done = subprocess.run(words, stdin=given, stdout=full, stderr=subprocess.PIPE)
        if done.returncode != 1 or not done.stderr.decode().startswith(f"{name}: "):
            print(f"{name} into a full output: status {done.returncode}, {done.stderr!r}")
            right = False
    return right


def terminal_is_put_back(tool):
    """Whether a terminal has echo, lines and its cursor after the end of the line, Ctrl C and a signal; and return is sent as 0D, and Ctrl S
    and Ctrl \\ as 13 and 1C."""
    right = True
    typed = b"*\r\x13\x1c"
    signals = {one.name: one for one in (signal.SIGTERM, signal.SIGQUIT, signal.SIGHUP)}
    for way in ("end", "key", *signals):
        with socket.create_server(("127.0.0.1", 0)) as server:
            child, keys = pty.fork()
            if child == 0:
                os.execv(tool, [tool, str(server.getsockname()[1])])
            line, _ = server.accept()
            with line:
                line.sendall(b"A")
                output = read_until(keys, b"A")
                flags = [termios.tcgetattr(keys)[3] & (termios.ECHO | termios.ICANON)]
                os.write(keys, typed)
                heard = typed if way == "end" else line.recv(len(typed), socket.MSG_WAITALL)
                if way == "key":
                    os.write(keys, b"\x03")
                elif way == "end":
                    line.shutdown(socket.SHUT_WR)
                else:
                    os.kill(child, signals[way])
                output += read_until(keys, b"\x1b[?25h")
                status = os.waitstatus_to_exitcode(os.waitpid(child, 0)[1])
            flags.append(termios.tcgetattr(keys)[3] & (termios.ECHO | termios.ICANON))
            os.close(keys)
            if status != 0 or flags != [0, termios.ECHO | termios.ICANON] or heard != typed:
                print(f"example_live, {way}: status {status}, flags {flags}, sent {heard!r}, {output[-40:]!r}")
                right = False
    return right


def read_until(terminal, end):
    """What comes from a terminal up to these bytes."""
    output = b""
    while end not in output:
        output += os.read(terminal, 1000)
    return output


def exports_are_right(library):
    """Whether the shared library exports what the header names in its version, and nothing else, and asks for nothing but a C library."""
    found = absent.needed("library/test: what the shared library exports", "readelf")
    if not found:
        return True
    path = os.path.join(library, shared.NAME)
    said = subprocess.run([found[0], "--dyn-syms", "-d", "-W", path], stdout=subprocess.PIPE, text=True, check=True).stdout
    exported = re.findall(r" (?:GLOBAL|WEAK) +DEFAULT +\d+ (\S+)", said)
    want = sorted(f"{name}@@{shared.VERSION}" for name in module.exports())
    needed = re.findall(r"\(NEEDED\).*\[(.*)\]", said)
    soname = re.findall(r"\(SONAME\).*\[(.*)\]", said)
    good = sorted(exported) == want and needed == ["libc.so.6"] and soname == [shared.NAME]
    if not good:
        print(f"{shared.NAME} exports {exported}, needs {needed}, and is called {soname}")
    return good


def are_right(program, library, build):
    """Whether the examples do what they say; `build` makes one of them by its name."""
    tools = {name: build(name) for name in ("example", "example_feed", "example_live", "example_dots")}
    good = [
        feeds(program, tools["example_feed"]), dots_are_right(program, tools["example_dots"]), terminal_is_right(program, tools["example_live"]),
        an_absent_host_is_told(tools["example_live"]), faults_are_told(tools), full_outputs_are_told(tools),
        terminal_is_put_back(tools["example_live"]), exports_are_right(library),
    ]
    return all(good)
