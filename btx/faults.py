"""What is wrong with a line of a script or a drawing, told so that it can be mended."""
import codecs
import string
import unicodedata
from collections.abc import Sequence

from btx import files, grammar, letters, near, program, typed
from btx.statuses import Status

# What each reason for which an item is refused means, as the man page of cept_tool has it.
REASONS = {
    1: "a control code that means nothing here",
    2: "an escape sequence that isn't in the profile",
    3: "a control sequence that isn't in the profile",
    4: "a unit from US that isn't in the profile",
    5: "a unit with a byte that is out of its range",
    6: "a unit that another byte broke off",
    7: "a unit that the end of the bytes broke off",
}
NO_PAGE = "/dev/null"
LONGEST = 60
# What is said where each line is one of the other kind.
OTHERS = {
    "script": ("drawing", "it looks like a drawing: plot takes it, and check-script --drawing checks it"),
    "drawing": ("script", "it looks like a script: edit takes it, and check-script without --drawing checks it"),
}


def named(sign: str) -> str:
    """A sign with its number and its name in Unicode, as far as it can be seen and has one."""
    if sign == "\t":
        return "a tab"
    number = " ".join(f"U+{ord(point):04X}" for point in sign)
    name = " ".join(filter(None, [number, unicodedata.name(sign[0], "")]))
    return f"{sign} ({name})" if sign.isprintable() and not sign.isspace() else name


def of_sign(place: int, sign: str) -> str:
    if typed.is_byte(sign[0]):
        return f"sign {place} is the byte {ord(sign[0]) & 0xFF:02X}, which is no UTF-8"
    return f"sign {place} is {named(sign)}, which no set has"


def of_signs(line: str) -> str:
    """Which signs of a line's text no set has, each with its place in the line, or nothing."""
    text = typed.text_of(typed.spaced(line)) or ""
    before = len(line) - len(text)
    return "; ".join(of_sign(before + place, sign) for place, sign in letters.unknown_in(text))


def short(text: str) -> str:
    """A text as it is shown, or the beginning of a long one."""
    shown = typed.shown(text)
    return shown if len(shown) <= LONGEST else shown[:LONGEST] + "…"


def of_word(word: str, kind: str) -> str:
    other, _ = OTHERS[kind]
    if word in grammar.WORDS[other]:
        return f"{word} is no word of {kind}s, but of {other}s"
    near_one = near.nearest(word, grammar.WORDS[kind])
    return f"{short(word)} is no word of {kind}s" + (f"; the nearest is {near_one}" if near_one else "")


def of_count(word: str, values: Sequence[str], kind: str) -> str:
    names = grammar.names_after(word, kind)
    count = len(names.split())
    takes = f"{count} word{'s' if count > 1 else ''} after it, {names}" if count else "no word after it"
    return f"{word} takes {takes}, and not {len(values)}"


def of_number(number: grammar.Number, value: str) -> str:
    """What is wrong with a number, or nothing."""
    taken = grammar.range_of(number)
    if not (value.isascii() and value.isdigit() and len(value) <= 2):
        return f"{number.name} is {short(value)}, and takes a number of one or two digits, {taken}"
    good = number.least <= int(value) <= number.most and int(value) not in number.without
    return "" if good else f"{number.name} is {value}, and takes {taken}"


def of_numbers(wanted: Sequence[grammar.Number], values: Sequence[str]) -> str:
    """What is wrong with the numbers of a line."""
    found = list(filter(None, map(of_number, wanted, values)))
    if not found and wanted == grammar.AREA and int(values[0]) > int(values[1]):
        found = [f"A is {values[0]} and B {values[1]}, and A is at most B"]
    return "; ".join(found)


def of_digits(digits: str, before: int) -> str:
    """What is wrong with the digits of bytes, of which so many signs stand before them."""
    other = next((place for place, digit in enumerate(digits, 1) if digit not in string.hexdigits), None)
    if other:
        return f"sign {before + other} is {typed.shown(digits[other - 1])}, which is no hexadecimal digit"
    return f"raw takes two digits for each byte, and here it has {len(digits)}" if len(digits) % 2 else ""


def of_bytes(path: program.Runner, digits: str) -> str:
    """Which items of bytes are refused, and why, as the program says."""
    data = bytes.fromhex(digits)
    with files.copy_of(data) as page:
        output, _ = program.put(path, "check", page)
    refused = [line.split(" ")[1:] for line in output.decode("ascii").splitlines() if line.startswith("!")]
    return "; ".join(of_item(data, int(place), int(length), int(number), name) for place, length, number, name in refused)


def of_item(data: bytes, place: int, length: int, number: int, name: str) -> str:
    item = data[place : place + length].hex(" ").upper()
    which = f"byte {place + 1}, {item}, is" if length == 1 else f"bytes {place + 1} to {place + length}, {item}, are"
    return f"{which} refused: {number} {name}, {REASONS[number]}"


def of_line(line: str, kind: str) -> str:
    """What is wrong with a line as far as its own words tell, or nothing."""
    own = typed.spaced(line)
    if not own or own.startswith("#"):
        return ""
    word, _, rest = own.partition(" ")
    if word not in grammar.WORDS[kind]:
        return of_word(word, kind)
    wanted = grammar.WORDS[kind][word]
    if wanted == grammar.TEXT:
        return of_signs(line) if rest else f"{word} takes {grammar.TEXT} after it, at least one"
    values = rest.split(" ") if rest else []
    if len(values) != (1 if isinstance(wanted, str) else len(wanted)):
        return of_count(word, values, kind)
    if isinstance(wanted, str):
        return of_digits(rest, len(line.rstrip(typed.BLANKS)) - len(rest))
    return of_numbers(wanted, values)


def first_of(path: program.Runner, lines: Sequence[str], kind: str) -> tuple[int, int] | None:
    """The number of the first line that the program refuses, and the number of its reason; or None."""
    with files.copy_of(typed.bytes_in(lines)) as script:
        output, status = program.put(path, grammar.TAKEN_BY[kind], NO_PAGE, script)
    if status != Status.BAD_SCRIPT:
        return None
    head, _, reason = output.decode("ascii").partition(": ")
    return int(head.rsplit(" ", 1)[-1]), int(reason.split(" ")[0])


def all_of(path: program.Runner, data: bytes, kind: str) -> list[tuple[int, str, str]]:
    """Each line that the program refuses, by its number, and what is wrong with it. What the words of a line don't tell the program is
    asked, for the first such line and, without that, for the next."""
    lines = typed.lines_of(data)
    found = {number: fault for number, line in enumerate(lines, 1) for fault in [of_line(line, kind)] if fault}
    own = ["" if number in found else typed.in_grammar(line) for number, line in enumerate(lines, 1)]
    while True:
        bad = first_of(path, own, kind)
        if bad is None:
            return [(number, found[number], lines[number - 1]) for number in sorted(found)]
        number, reason = bad
        digits = own[number - 1].partition(" ")[2]
        found[number] = of_bytes(path, digits) if reason == grammar.BAD_BYTES else f"the program refuses it for reason {reason}"
        own[number - 1] = ""


def told(path: program.Runner, name: str, data: bytes, kind: str) -> list[str]:
    """A sentence for each line that the program refuses: its number, what is wrong with it, and its beginning."""
    sentences = []
    for number, fault, line in all_of(path, data, kind):
        sentences.append(f"{typed.shown(name)}, line {number}: {fault}: {short(line)}")
    return sentences


def hint(name: str, data: bytes, kind: str) -> list[str]:
    """A sentence, where it begins as UTF-16 does, has a US, which begins units of a page, or all its lines begin with words of the other kind;
    else none."""
    if data.startswith((codecs.BOM_UTF16_LE, codecs.BOM_UTF16_BE)):
        return [f"{typed.shown(name)}: it looks like UTF-16, and a {kind} is UTF-8: save it as that"]
    if b"\x1f" in data:
        word = grammar.TAKEN_BY[kind]
        return [f"{typed.shown(name)}: it looks like a page: check checks it, and {word} takes a page first, and then a {kind}"]
    other, said = OTHERS[kind]
    lines = [line for line in map(typed.spaced, typed.lines_of(data)) if line and not line.startswith("#")]
    is_other = all(line.partition(" ")[0] in grammar.WORDS[other] for line in lines)
    return [f"{typed.shown(name)}: {said}"] if lines and is_other else []
