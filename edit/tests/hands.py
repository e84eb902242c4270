"""A person at the editor: hands on keys and mouse, files, and the program to compare with."""
import contextlib
import json
import os
import subprocess

ROOT = os.path.dirname(os.path.dirname(os.path.dirname(os.path.abspath(__file__))))
CODES = {
    "ArrowLeft": 37, "ArrowUp": 38, "ArrowRight": 39, "ArrowDown": 40, "Enter": 13, "Backspace": 8, "Delete": 46, "Home": 36, "End": 35,
    "Tab": 9, "Escape": 27, " ": 32,
}
TYPED = {"Enter": "\r", " ": " "}
CONTROL, SHIFT = 2, 8
BLANK = "- 11.00 FFF 000 S---"


class Hands:
    def __init__(self, tab, program, path, place):
        self.tab, self.program, self.path, self.folder = tab, program, path, place

    # The editor.

    def fresh(self, *files, size=(1024, 700), language="de"):
        """The editor anew, with nothing kept, and files opened in it."""
        self.tab.size(*size)
        self.leave()
        self.tab.open(self.path, "editor")
        self.tab.value("localStorage.clear()")
        self.leave()
        self.tab.open(self.path, "editor")
        self.choose("#language", language)
        if files:
            self.open(*files)

    def leave(self):
        """Lets the page go without asking."""
        self.tab.value("window.Tamligub && Tamligub.editor && (Tamligub.editor.keep.isUnsaved = () => false), 0")

    def open(self, *files):
        self.tab.value("window.opened = Tamligub.editor.sheet.first; 0")
        root = self.tab.call("DOM.getDocument")["root"]["nodeId"]
        node = self.tab.call("DOM.querySelector", nodeId=root, selector="#file")["nodeId"]
        self.tab.call("DOM.setFileInputFiles", nodeId=node, files=list(files))
        self.tab.until("window.opened !== Tamligub.editor.sheet.first || Tamligub.part('fault').textContent !== ''")

    def script(self):
        return self.tab.value("Tamligub.editor.sheet.script()")

    def shown_script(self):
        self.settle()
        return self.tab.value("Tamligub.part('script').value")

    def lines(self):
        """The lines of the script that are edits."""
        return [line for line in self.script().split("\n") if line and not line.startswith("#")]

    def text(self, name):
        return self.tab.value(f"Tamligub.part({json.dumps(name)}).textContent")

    def caret(self):
        return tuple(self.tab.value("[Tamligub.editor.typing.row, Tamligub.editor.typing.column]"))

    def looks(self):
        """The looks that the screen shows, cell by cell, as they were painted last."""
        return self.tab.value("Array.from(Tamligub.editor.screen.shown, (number) => Tamligub.editor.screen.looks[number].text)")

    def outlined(self):
        return set(self.tab.value("Tamligub.editor.script.outlined()"))

    def settle(self):
        """Waits until what comes after a pause is done."""
        self.tab.until("Tamligub.editor.waiting === 0")

    # Hands.

    def type(self, text):
        for sign in text:
            self.tab.call("Input.insertText", text=sign)

    def key(self, key, times=1, held=0):
        text = {} if held & CONTROL else {"text": key if len(key) == 1 else TYPED.get(key, "")}
        for _ in range(times):
            for kind in ("keyDown", "keyUp"):
                more = text if kind == "keyDown" and text.get("text") else {}
                code = CODES.get(key, ord(key.upper()[0]))
                self.tab.call("Input.dispatchKeyEvent", type=kind, key=key, windowsVirtualKeyCode=code, modifiers=held, **more)

    def middle(self, selector, number=0):
        script = """((one) => { if (!one) return null; one.scrollIntoView({ block: "nearest" });
          const box = one.getBoundingClientRect(); return [box.left + box.width / 2, box.top + box.height / 2]; })"""
        found = self.tab.value(f"{script}(document.querySelectorAll({json.dumps(selector)})[{number}])")
        assert found, f"{selector} isn't there"
        return found

    def mouse(self, kind, x, y):
        buttons = 0 if kind == "mouseReleased" else 1
        self.tab.call("Input.dispatchMouseEvent", type=kind, x=x, y=y, button="left", buttons=buttons, clickCount=1)

    def hover(self, x, y):
        self.tab.call("Input.dispatchMouseEvent", type="mouseMoved", x=x, y=y)

    def press(self, x, y):
        self.mouse("mousePressed", x, y)
        self.mouse("mouseReleased", x, y)

    def click(self, selector, number=0):
        self.press(*self.middle(selector, number))

    def choose(self, selector, value, number=0):
        """Another choice of a list."""
        script = """(one, value) => { one.value = value; const now = one.value;
          one.dispatchEvent(new Event('change', { bubbles: true })); return now; }"""
        found = self.tab.value(f"({script})(document.querySelectorAll({json.dumps(selector)})[{number}], {json.dumps(value)})")
        assert found == value, f"{selector} has no {value}"

    def fill(self, selector, value, number=0):
        script = "(one, value) => { one.value = value; one.dispatchEvent(new Event('input', { bubbles: true })); }"
        self.tab.value(f"({script})(document.querySelectorAll({json.dumps(selector)})[{number}], {json.dumps(value)}), 0")

    def place(self, x, y, wide, tall, canvas="page"):
        """Where a part of a canvas is, which is parted so often."""
        script = "((box) => [box.left, box.top, box.width, box.height])"
        left, top, width, height = self.tab.value(f"{script}(Tamligub.part('{canvas}').getBoundingClientRect())")
        return left + (x + 0.5) * width / wide, top + (y + 0.5) * height / tall

    def cell(self, row, column):
        self.press(*self.place(column - 1, row - 1, 40, 24))

    def drag(self, start, end, wide=80, tall=72, canvas="page", steps=10):
        (x, y), (to_x, to_y) = (self.place(across, down, wide, tall, canvas) for across, down in (start, end))
        self.mouse("mousePressed", x, y)
        for step in range(1, steps + 1):
            self.mouse("mouseMoved", x + (to_x - x) * step / steps, y + (to_y - y) * step / steps)
        self.mouse("mouseReleased", to_x, to_y)

    def tab_of(self, name):
        self.click(f"#tab-{name}")

    def write_script(self, text):
        """Writes the script anew by hand."""
        self.tab.value("Tamligub.part('script').focus(), Tamligub.part('script').select()")
        self.tab.call("Input.insertText", text=text)

    def go_to(self, selector):
        """Goes to a control by Tab."""
        for _ in range(250):
            self.key("Tab")
            if self.tab.value(f"document.activeElement.matches({json.dumps(selector)})"):
                return
        raise AssertionError(f"{selector} isn't reached by Tab")

    def crash(self):
        """The page's process dies, and the file is opened again."""
        self.tab.crash()
        self.tab.open(self.path, "editor")

    @contextlib.contextmanager
    def another(self):
        """Another tab with an editor, which is closed at the end."""
        session, self.tab.session = self.tab.session, None
        target = self.tab.call("Target.createTarget", url="about:blank")["targetId"]
        self.tab.join(target)
        self.tab.open(self.path, "editor")
        yield
        self.tab.session = None
        self.tab.call("Target.closeTarget", targetId=target)
        self.tab.session = session
        self.tab.call("Page.bringToFront")

    # Files and the program.

    def written(self, name, data):
        path = os.path.join(self.folder, name)
        with open(path, "wb") as file:
            file.write(data)
        return path

    def kept(self, selector):
        """What a click keeps: the name and the bytes of the file."""
        return self.tab.saved(lambda: self.click(selector))

    def put(self, word, *paths, wanted=(0, 1)):
        done = subprocess.run([self.program, word, *paths], stdout=subprocess.PIPE)
        assert done.returncode in wanted, f"{word}: status {done.returncode}"
        return done.stdout

    def looks_of(self, page):
        """The looks of all cells of a stored page, by the program's `cells`."""
        looks = [BLANK] * 960
        for line in self.put("cells", page).decode().splitlines():
            row, column, look = line.split(" ", 2)
            looks[(int(row) - 1) * 40 + int(column) - 1] = look
        return looks

    def edited(self, script=None, page=b""):
        """The bytes that the program puts for a page and the script of the editor."""
        stored, text = self.written("stored.btx", page), self.written("lines.txt", (script if script is not None else self.script()).encode())
        return self.put("edit", stored, text)

    def is_other(self, data):
        return self.looks() != self.looks_of(self.written("other.btx", data))

    def is_true(self, page=b""):
        """Whether the screen shows what the program says of page and script; answers the edited page."""
        data = self.edited(page=page)
        shown, want = self.looks(), self.looks_of(self.written("edited.btx", data))
        other = [at for at in range(960) if shown[at] != want[at]]
        assert not other, f"cell {other[0]} shows {shown[other[0]]}, not {want[other[0]]}; the script is {self.script()!r}"
        return data
