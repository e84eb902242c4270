"""Keys of a terminal, and the bytes that they send. A table of one's own has a line for each key: its name or its sign, and bytes in two
digits each, `nothing`, or `leave`."""
import codecs
import re

from btx import letters, near

# What a key sends that leaves.
LEAVE = "leave"
# A key's sequence, after ESC where Alt is struck with it; a sign with Alt; and what is broken off.
SEQUENCE = re.compile(
    r"\x1b?\x1b(?:\[\[[A-E]|\[\d+\$|\[[0-?]*[ -/]*[@-~]|O\d*[ -/:-~])|\x1b[^[O\x1b]|\x1b(?:\[[0-?]*[ -/]*|O\d*)?", re.DOTALL
)
# The end of what was read that may be the front of a longer sequence, of which none is that long.
UNFINISHED = re.compile(r"\x1b?\x1b(?:\[(?!\d+\$)(?:\[|[0-?]{0,32}[ -/]{0,4})|O\d{0,4})?\Z")
ARROWS = {"A": "up", "B": "down", "C": "right", "D": "left", "H": "home", "F": "end", "P": "f1", "Q": "f2", "R": "f3", "S": "f4"}
NUMBERED = {
    1: "home", 2: "insert", 3: "delete", 4: "end", 5: "pageup", 6: "pagedown", 7: "home", 8: "end", 11: "f1", 12: "f2", 13: "f3", 14: "f4",
    15: "f5", 17: "f6", 18: "f7", 19: "f8", 20: "f9", 21: "f10", 23: "f11", 24: "f12",
}
# The keys that the console of Linux sends by these and a letter.
OF_CONSOLE = "\x1b[["
CONSOLE = {"A": "f1", "B": "f2", "C": "f3", "D": "f4", "E": "f5"}
CONTROLS = {"\r": "return", "\n": "return", "\t": "tab", "\x08": "backspace", "\x7f": "backspace", "\x1b": "escape"}
# Names of signs that a table can't have as they are.
SIGNS = {"space": " ", "hash": "#"}
# By each letter with control what a terminal sends for it, and the names of those that it sends for another key.
LETTERS = {f"ctrl-{chr(code + 0x60)}": chr(code) for code in range(1, 27)}
SHARED = {key: CONTROLS[sign] for key, sign in LETTERS.items() if sign in CONTROLS}
NAMES = sorted({*ARROWS.values(), *NUMBERED.values(), *CONTROLS.values(), *SIGNS, *(LETTERS.keys() - SHARED.keys())})
# What a key sends: bytes, or LEAVE; and that of each key by its name or its sign.
Sent = bytes | str
Table = dict[str, Sent]
# What the keys send of which the sign doesn't say it: the two that begin and end a request, and those that move the position.
USUAL: Table = {
    "*": b"\x13", "#": b"\x1c", "return": b"\x0d", "backspace": b"\x08", "left": b"\x08", "right": b"\x09", "down": b"\x0a", "up": b"\x0b",
    "home": b"\x1e", "ctrl-c": LEAVE,
}
BYTES = re.compile(r"(?:[0-9A-Fa-f]{2} ?)+")


def named(sequence: str) -> str:
    """The name of a key that a terminal sends as a sequence, or an empty one of a sequence that isn't known."""
    if len(sequence) == 1:
        return CONTROLS[sequence]
    number = re.fullmatch(r"\x1b\[(\d{1,3})~", sequence)
    if number:
        return NUMBERED.get(int(number[1]), "")
    if sequence.startswith(OF_CONSOLE):
        return CONSOLE.get(sequence[-1], "")
    return ARROWS.get(sequence[-1], "") if len(sequence) == 3 else ""


def of_sign(sign: str) -> str:
    """The name of a key that sends a sign, or the sign itself."""
    if sign in CONTROLS:
        return CONTROLS[sign]
    return f"ctrl-{chr(ord(sign) + 0x60)}" if len(sign) == 1 and 0 < ord(sign) < 27 else sign


def keys_in(text: str) -> list[str]:
    """The keys of a text, each by its name or its sign."""
    at = 0
    keys: list[str] = []
    while at < len(text):
        found = SEQUENCE.match(text, at)
        if found:
            keys.append(named(found[0]))
        end = found.end() if found else text.find("\x1b", at) if "\x1b" in text[at:] else len(text)
        keys += [] if found else map(of_sign, letters.signs_in(text[at:end]))
        at = end
    return keys


def bytes_in(words: str) -> Sent | None:
    """What a line of a table has a key send, or None where that can't be read."""
    if words in (LEAVE, "nothing"):
        return LEAVE if words == LEAVE else b""
    return bytes.fromhex(words) if BYTES.fullmatch(words) else None


def entry(line: str) -> tuple[str, Sent]:
    """The key and the bytes of a line of a table, or why it is none."""
    key, _, words = line.partition(" ")
    key = SIGNS.get(key, key)
    if key in SHARED:
        raise ValueError(f"{key} comes as {SHARED[key]}, which is its name here")
    if len(letters.signs_in(key)) > 1 and key not in NAMES:
        nearest = near.nearest(key, NAMES)
        raise ValueError(f"{key} is no key" + (f"; the nearest is {nearest}" if nearest else ""))
    sent = bytes_in(words.strip())
    if sent is None:
        raise ValueError(f"after {key} stand its bytes, two digits each, nothing, or leave")
    return key, sent


def table_in(text: str, path: str) -> Table:
    """The table of a text: the usual one with what its lines say."""
    table = dict(USUAL)
    for number, line in enumerate(text.splitlines(), 1):
        words = " ".join(line.split())
        if not words or words.startswith("#"):
            continue
        try:
            key, sent = entry(words)
        except ValueError as fault:
            raise OSError(0, f"line {number}: {fault}", path) from None
        table[key] = sent
    if LEAVE not in table.values():
        raise OSError(0, "no key leaves", path)
    return table


def table_of(path: str | None) -> Table:
    """The table of a file, or the usual one where none is named."""
    if path is None:
        return USUAL
    with open(path, encoding="utf-8-sig", errors="replace") as file:
        return table_in(file.read(), path)


class Keyboard:
    """Reads what a terminal sends for keys, in any pieces. What may be the front of a key is held until more comes or it is let go."""

    def __init__(self, table: Table) -> None:
        self.table, self.held = table, ""
        self.decoder = codecs.getincrementaldecoder("utf-8")("ignore")

    def of_key(self, key: str) -> Sent:
        """What a key sends: as the table says, or else the bytes of its sign."""
        if key in self.table:
            return self.table[key]
        return b"" if key == "" or key in NAMES else letters.bytes_of(key) or b""

    def sent(self, data: bytes) -> list[Sent]:
        """What the keys of some bytes send, one by one: bytes, or LEAVE."""
        text = self.held + self.decoder.decode(data)
        front = UNFINISHED.search(text)
        self.held = front[0] if front else ""
        return self.of_keys(text.removesuffix(self.held))

    def let_go(self) -> list[Sent]:
        """What is sent by the front of a key that nothing followed."""
        text, self.held = self.held, ""
        return self.of_keys(text)

    def of_keys(self, text: str) -> list[Sent]:
        return [sent for sent in map(self.of_key, keys_in(text)) if sent]
