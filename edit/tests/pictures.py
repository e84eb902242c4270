"""The screenshots that the README and docs show: a page is made as a person makes one."""
import os

from hands import CONTROL

HOURS = (
    ("Montag", "14 - 18 Uhr"), ("Dienstag", "10 - 18 Uhr"), ("Mittwoch", "geschlossen"), ("Donnerstag", "10 - 20 Uhr"),
    ("Freitag", "10 - 18 Uhr"),
)
# A lighthouse on its rock, by rows of blocks: the column of the first, and the codes of the signs of the set M.
LIGHT = (
    (33, "30 7F 7F 60"), (33, "35 7F 7F 6A"), (33, "22 7F 7F 21"), (34, "7F 7F"), (34, "7F 7F"), (34, "7F 7F"), (33, "6A 7F 7F 35"),
    (33, "7F 7F 7F 7F"),
)
# A life buoy, line by line; a dot is two parts wide and three high.
BUOY = (
    "000000000000", "000111111000", "011111111110", "111100001111", "111000000111", "111000000111", "111100001111", "011111111110",
    "000111111000", "000000000000",
)


def colours(hand, fore=None, back=None, size="normal"):
    hand.tab_of("pen")
    hand.click("#pen-plain")
    if size != "normal":
        hand.click(f'[data-size="{size}"]')
    for kind, colour in (("fore", fore), ("back", back)):
        if colour is not None:
            hand.click(f'.swatch[data-kind="{kind}"]', colour)


def row(hand, number, ground):
    hand.cell(number, 1)
    hand.choose('[data-kind="row"]', str(ground), 0)
    hand.click('[data-apply="row"]')


def write(hand, folder):
    os.makedirs(folder, exist_ok=True)
    hand.fresh(size=(1100, 780))
    hand.click("#flash")
    hand.tab_of("colours")
    hand.click("#entries .swatch", 12)
    for number, level in enumerate((1, 3, 8)):
        hand.fill("#colours .level input", str(level), number)
    hand.click("#colours button.main")
    hand.tab_of("sheet")
    for number in (1, 2, 3, 4):
        row(hand, number, 12)
    row(hand, 23, 12)
    colours(hand, 3, size="both")
    hand.cell(2, 3)
    hand.type("Bücherei am Hafen")
    colours(hand, 6)
    hand.cell(6, 3)
    hand.type("Geöffnet")
    for at, (day, hours) in enumerate(HOURS):
        colours(hand, 7 if hours != "geschlossen" else 1)
        hand.cell(8 + at, 3)
        hand.type(f"{day:<12}{hours}")
    colours(hand, 2)
    hand.cell(15, 3)
    hand.type("Neu im Regal")
    for at, title in enumerate(("· Seefahrt für Anfänger", "· Leuchttürme der Ostsee", "· Möwen bestimmen")):
        colours(hand)
        hand.cell(17 + at, 3)
        hand.type(title)
    colours(hand, 6)
    hand.cell(23, 2)
    hand.type("0 zurück")
    hand.cell(23, 29)
    hand.type("# Ausleihe")
    draw_light(hand)
    define_buoy(hand)
    hand.settle()
    hand.tab.value("document.activeElement.blur(), Tamligub.part('typing').focus()")
    colours(hand, 6)
    hand.cell(21, 3)
    hand.type("Lesung am 3. Mai")
    hand.settle()
    hand.tab.picture(os.path.join(folder, "editor.png"))
    hand.tab_of("pattern")
    hand.choose("#pattern-code", "33")
    hand.settle()
    hand.tab.picture(os.path.join(folder, "editor_pattern.png"))
    hand.key("z", 1, held=CONTROL)


def draw_light(hand):
    """The tower in white and red, by signs of the palette."""
    order = [*range(0x21, 0x40), *range(0x60, 0x80)]
    for at, (column, codes) in enumerate(LIGHT):
        colours(hand, 3 if at == 1 else 1 if at % 2 else 7)
        hand.tab_of("mosaic")
        hand.cell(10 + at, column)
        for code in codes.split():
            hand.click("button.sign", order.index(int(code, 16)))


def define_buoy(hand):
    """A downloaded sign, painted pixel by pixel, and written in a row."""
    hand.tab_of("pattern")
    for line, pixels in enumerate(BUOY):
        for column, pixel in enumerate(pixels):
            if pixel == "1":
                hand.press(*hand.place(column, line, 12, 10, "pixels"))
    hand.click("#pattern button.main")
    colours(hand, 3)
    hand.tab_of("pattern")
    for column in (32, 34, 36):
        hand.cell(21, column)
        hand.click('#pattern [data-word="patternWrite"]')
