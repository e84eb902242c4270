"""A headless Chromium, driven over its debugging pipe: one tab, messages in JSON with a zero byte after each."""
import base64
import contextlib
import fcntl
import json
import os
import select
import subprocess
import tempfile
import time

import absent


def text_of(name):
    with open(os.path.join(os.path.dirname(os.path.abspath(__file__)), name), encoding="utf-8") as file:
        return file.read()


# What runs before the scripts of a document: counts of what these do, and a clock that a test turns.
WORK, CLOCK = text_of("work.js"), text_of("clock.js")
# In seconds: after so long a browser hangs, however much else the machine has to do.
WAIT = 180


class BrowserFault(Exception):
    pass


class PageLeft(BrowserFault):
    """The page in which a script ran was left for another before it ended."""


def found():
    """The browser of this machine, or None."""
    return absent.found("chromium")


def is_right(case, tab, *given):
    """Whether a case holds, and the page tells no fault; what doesn't is printed."""
    begun = time.monotonic()
    try:
        case(*given)
        faults = tab.faults[:]
    except (AssertionError, BrowserFault) as fault:
        faults = [str(fault)] + tab.faults
    tab.faults.clear()
    print(f"{'ok  ' if not faults else 'FAIL'} {case.__name__.replace('_', ' ')} ({time.monotonic() - begun:.1f} s)", flush=True)
    for one in faults[:8]:
        print(f"     {one[:2000]}")
    return not faults


def suite(name, cases, tab, *given):
    """Runs cases and prints how many hold. Answers whether all do."""
    results = [is_right(case, tab, *given) for case in cases]
    print(f"{name}: {results.count(True)} passed, {results.count(False)} failed")
    return all(results)


@contextlib.contextmanager
def opened(what):
    """A browser, which is closed at the end; None where this machine has none, which is said of what so is left out."""
    program = absent.needed(what, "chromium")
    tab = Browser(program[0]) if program else None
    try:
        yield tab
    finally:
        if tab:
            tab.close()


class Browser:
    """A browser that stands by itself; `opened` has one as long as it is needed."""

    def __init__(self, program):
        self.profile = tempfile.TemporaryDirectory()
        out_read, self.writing = (fcntl.fcntl(end, fcntl.F_DUPFD, 20) for end in os.pipe())
        self.reading, in_write = (fcntl.fcntl(end, fcntl.F_DUPFD, 20) for end in os.pipe())
        options = (
            "--headless=new --no-sandbox --disable-gpu --disable-dev-shm-usage --no-first-run --disable-extensions "
            "--disable-background-networking --disable-component-update --force-device-scale-factor=1 --hide-scrollbars --accept-lang=en "
            "--remote-debugging-pipe"
        ).split()

        def own_pipes():
            os.dup2(out_read, 3)
            os.dup2(in_write, 4)

        self.process = subprocess.Popen(
            [program, *options, f"--user-data-dir={self.profile.name}", "about:blank"],
            stdin=subprocess.DEVNULL, stdout=subprocess.DEVNULL, stderr=subprocess.DEVNULL,
            preexec_fn=own_pipes, pass_fds=(3, 4), start_new_session=True,
        )
        os.close(out_read)
        os.close(in_write)
        self.waiting = b""
        self.number = 0
        self.session = None
        self.faults = []
        self.downloads = {}
        self.attach()

    def attach(self):
        pages = [target for target in self.call("Target.getTargets")["targetInfos"] if target["type"] == "page"]
        target = pages[0]["targetId"] if pages else self.call("Target.createTarget", url="about:blank")["targetId"]
        self.join(target)

    def join(self, target):
        self.session = self.call("Target.attachToTarget", targetId=target, flatten=True)["sessionId"]
        for domain in ("Page", "Runtime", "Log", "DOM", "Accessibility", "Inspector"):
            self.call(domain + ".enable")

    def message(self):
        """The next message of the browser."""
        deadline = time.monotonic() + WAIT
        while b"\0" not in self.waiting:
            ready, _, _ = select.select([self.reading], [], [], max(0, deadline - time.monotonic()))
            piece = os.read(self.reading, 1 << 20) if ready else b""
            if not piece:
                raise BrowserFault("the browser says nothing more")
            self.waiting += piece
        text, self.waiting = self.waiting.split(b"\0", 1)
        return json.loads(text)

    def call(self, method, **params):
        """The answer to a command. Faults that the page tells meanwhile are kept."""
        self.number += 1
        command = {"id": self.number, "method": method, "params": params}
        if self.session:
            command["sessionId"] = self.session
        text = json.dumps(command).encode() + b"\0"
        while text:
            text = text[os.write(self.writing, text) :]
        while True:
            message = self.message()
            if message.get("id") == self.number:
                if "error" in message:
                    left = "navigated" in message["error"].get("message", "")
                    raise (PageLeft if left else BrowserFault)(f"{method}: {message['error']}")
                return message["result"]
            self.note(message)

    def note(self, message):
        if message.get("method") == "Runtime.exceptionThrown":
            self.faults.append(json.dumps(message["params"]["exceptionDetails"])[:600])
        if message.get("method") == "Log.entryAdded" and message["params"]["entry"]["level"] == "error":
            self.faults.append(message["params"]["entry"]["text"])
        if message.get("method") in ("Browser.downloadWillBegin", "Browser.downloadProgress"):
            self.downloads.setdefault(message["params"]["guid"], {}).update(message["params"])

    def value(self, script):
        """The value of a script, which may be a promise."""
        done = self.call("Runtime.evaluate", expression=script, awaitPromise=True, returnByValue=True, userGesture=True)
        if "exceptionDetails" in done:
            raise BrowserFault(json.dumps(done["exceptionDetails"])[:600])
        return done["result"].get("value")

    @contextlib.contextmanager
    def beforehand(self, script):
        """Has a script run in each document before the scripts of that."""
        script = self.call("Page.addScriptToEvaluateOnNewDocument", source=script)["identifier"]
        try:
            yield
        finally:
            self.call("Page.removeScriptToEvaluateOnNewDocument", identifier=script)

    def saved(self, act):
        """The name and the bytes of the file that an act saves."""
        self.downloads.clear()
        with tempfile.TemporaryDirectory() as folder:
            session, self.session = self.session, None
            self.call("Browser.setDownloadBehavior", behavior="allowAndName", downloadPath=folder, eventsEnabled=True)
            self.session = session
            act()
            while not any(one.get("state") in ("completed", "canceled") for one in self.downloads.values()):
                self.note(self.message())
            (guid, download), = self.downloads.items()
            with open(os.path.join(folder, guid), "rb") as file:
                return download["suggestedFilename"], file.read()

    def open(self, path, whole="viewer"):
        """Opens a file, and waits until the name under which it has joined its parts is there."""
        self.call("Page.navigate", url="about:blank")
        self.until("location.href === 'about:blank'")
        self.call("Page.navigate", url="file://" + os.path.abspath(path))
        self.until(f"document.readyState === 'complete' && window.Tamligub !== undefined && Tamligub.{whole} !== undefined")

    def crash(self):
        """Ends the process of the page, as a crash does, and takes another tab."""
        targets = [target["targetId"] for target in self.call("Target.getTargets")["targetInfos"] if target["type"] == "page"]
        self.number += 1
        text = json.dumps({"id": self.number, "method": "Page.crash", "params": {}, "sessionId": self.session}).encode() + b"\0"
        os.write(self.writing, text)
        while self.message().get("method") != "Inspector.targetCrashed":
            pass
        self.session = None
        target = self.call("Target.createTarget", url="about:blank")["targetId"]
        for old in targets:
            # One that crashed may be gone by itself.
            with contextlib.suppress(BrowserFault):
                self.call("Target.closeTarget", targetId=old)
        self.join(target)

    def holds(self, condition):
        """Whether the condition is true; not while one page is left for another."""
        try:
            return self.value(condition)
        except PageLeft:
            return False

    def until(self, condition):
        deadline = time.monotonic() + WAIT
        while not self.holds(condition):
            if time.monotonic() > deadline:
                raise BrowserFault(f"never true: {condition}")
            time.sleep(0.05)

    def size(self, width, height, ratio=1):
        self.call("Emulation.setDeviceMetricsOverride", width=width, height=height, deviceScaleFactor=ratio, mobile=False)

    def key(self, key, code=0):
        """Presses a key: a letter by itself, another by its name and number."""
        text = {"text": key} if len(key) == 1 else {}
        for kind in ("keyDown", "keyUp"):
            self.call("Input.dispatchKeyEvent", type=kind, key=key, windowsVirtualKeyCode=code, **(text if kind == "keyDown" else {}))

    def picture(self, path, clip=None):
        area = {"clip": {**clip, "scale": 1}} if clip else {}
        data = self.call("Page.captureScreenshot", format="png", **area)["data"]
        with open(path, "wb") as file:
            file.write(base64.b64decode(data))

    def close(self):
        self.session = None
        try:
            self.call("Browser.close")
            self.process.wait(10)
        except (BrowserFault, OSError, subprocess.TimeoutExpired):
            self.process.kill()
            self.process.wait()
        os.close(self.writing)
        os.close(self.reading)
        try:
            self.profile.cleanup()
        except OSError:
            pass
