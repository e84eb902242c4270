"""The pages of this folder, each a function that gives its bytes. What a page shows is said in README.md."""
from codes import *  # noqa: F403 -- the drawings take every code by its name


def title():
    page = FULL_DEFAULTS_PARALLEL + at(1, 2) + fore(CYAN) + words("Tamligub") + at(1, 32) + fore(CYAN) + words("Seite 0a")
    for row in range(2, 6):
        page += at(row, 1) + of_row(back(BLUE))
    page += at(3, 7) + fore(YELLOW) + BOTH + words("BILDSCHIRMTEXT")
    page += at(6, 3)
    for colour in (RED, YELLOW, GREEN, CYAN, BLUE, MAGENTA):
        page += fore(colour) + blocks("=") + repeat(5)
    page += at(8, 3) + HIGH + words("Guten Tag!")
    page += at(11, 3) + words("Diese Seite zeigt")
    for row, text in enumerate(
        (
            "Schrift in doppelter Größe",
            "Zeilen, die ganz gefärbt sind",
            "Mosaikzeichen in sechs Farben",
            "Umlaute: ä ö ü Ä Ö Ü ß",
        )
    ):
        page += at(13 + row, 3) + fore(YELLOW) + words("·") + fore(WHITE) + words(" " + text)
    page += at(18, 3) + fore(GREEN) + WIDE + words("Wählen Sie")
    page += at(20, 3) + words("1 Fahrplan    2 Rätsel    3 Segelboot")
    page += at(24, 2) + words("0 zurück") + at(24, 32) + words("# weiter") + at(24, 1) + of_row(back(RED))
    return page


def timetable():
    page = FULL_DEFAULTS_PARALLEL + at(1, 2) + fore(YELLOW) + HIGH + words("Abfahrt in Ulm")
    page += at(4, 1) + lines("┌──────┬───────┬─────────────────┬─────┐")
    page += at(5, 1) + lines("│") + LINED + words(" Zeit ") + UNLINED + lines("│") + LINED + words(" Zug   ") + UNLINED
    page += lines("│") + LINED + words(" Nach            ") + UNLINED + lines("│") + LINED + words(" Gl. ") + UNLINED + lines("│")
    page += at(6, 1) + lines("├──────┼───────┼─────────────────┼─────┤")
    trains = (
        (" 8.05", "E  3021", "Friedrichshafen", " 4"),
        (" 8.41", "IC  611", "München", " 1"),
        (" 9.17", "D  1283", "Köln", " 2"),
        ("10.02", "S     7", "Laupheim", "28"),
        ("10.42", "IC  513", "Straßburg", " 3"),
        ("11.30", "E  3025", "Göppingen", " 5"),
    )
    for row, (time, train, to, track) in enumerate(trains):
        page += at(7 + row, 1) + lines(f"│{time:>5} │{train}│ {to:<16}│ {track}  │")
    page += at(13, 1) + lines("└──────┴───────┴─────────────────┴─────┘")
    page += at(15, 2) + fore(RED) + FLASH + words("S 7 nach Laupheim: 20 Minuten später")
    page += at(17, 2) + words("Erwachsene   12,50 DM") + at(18, 2) + words("Kinder        6,25 DM")
    page += at(19, 2) + INVERTED + words("zusammen     18,75 DM")
    return page


HOUSE = (
    # row, column of the first block, colour, picture
    (2, 31, YELLOW, "/##\\"),
    (3, 31, YELLOW, "####"),
    (4, 31, YELLOW, "L##J"),
    (5, 14, RED, "/\\"),
    (6, 13, RED, "/##\\"),
    (7, 12, RED, "/####\\"),
    (8, 11, RED, "/######\\"),
    (8, 27, GREEN, "/##\\"),
    (9, 10, RED, "/########\\"),
    (9, 26, GREEN, "/####\\"),
    (10, 11, WHITE, "########"),
    (10, 26, GREEN, "L####J"),
    (11, 11, WHITE, "#[.]#[.]"),
    (11, 27, GREEN, "L##J"),
    (12, 11, WHITE, "#[.]#[.]"),
    (12, 28, MAGENTA, "##"),
    (13, 11, WHITE, "###..###"),
    (13, 28, MAGENTA, "##"),
    (14, 11, WHITE, "###..###"),
    (14, 28, MAGENTA, "##"),
    (15, 3, GREEN, "#" * 36),
    (16, 3, GREEN, "x" * 36),
)


def house():
    page = FULL_DEFAULTS_SERIAL + at(1, 2) + words("Haus mit Baum")
    for row, column, colour, picture in HOUSE:
        page += at(row, column - 1) + mosaic_colour(colour) + block_codes(picture)
    page += at(18, 2) + fore(CYAN) + words("Jede Farbe steht als Marke in einer")
    page += at(19, 2) + fore(CYAN) + words("Zelle für sich: Zwischen zwei Farben")
    page += at(20, 2) + fore(CYAN) + words("bleibt darum eine Lücke.")
    page += at(22, 2) + fore(CYAN) + words("Getrennt: ") + LINED + mosaic_colour(YELLOW) + block_codes("#######/##\\#L##J")
    return page


def boat():
    page = FULL_DEFAULTS_PARALLEL + at(1, 2) + words("Segelboot")
    for row in range(2, 14):
        page += at(row, 1) + back(CYAN) + words(" ") + repeat(39)
    for row, picture in ((3, "/##\\"), (4, "####"), (5, "L##J")):
        page += at(row, 31) + back(CYAN) + fore(YELLOW) + blocks(picture)
    for row in range(4, 12):
        page += at(row, 21) + back(CYAN) + fore(BLACK) + lines("│")
    for row in range(5, 11):
        page += at(row, 25 - row) + back(CYAN) + fore(WHITE) + smooth_low(LOWER_RIGHT) + blocks("#" * (row - 5))
    for row in range(7, 11):
        page += at(row, 22) + back(CYAN) + fore(RED) + blocks("#" * (row - 7)) + smooth_low(LOWER_LEFT)
    page += at(12, 13) + back(CYAN) + fore(MAGENTA) + smooth_high(UPPER_RIGHT) + blocks("#" * 15) + smooth_high(UPPER_LEFT)
    page += at(13, 14) + back(CYAN) + fore(MAGENTA) + smooth_high(UPPER_RIGHT) + blocks("#" * 13) + smooth_high(UPPER_LEFT)
    page += at(14, 1) + back(CYAN) + fore(BLUE) + smooth_low((LOWER_RIGHT + LOWER_LEFT) * 20)
    for row in (15, 16, 17):
        page += at(row, 1) + back(BLUE) + fore(CYAN) + words(" ") + repeat(39)
    for column in (4, 16, 27, 35):
        page += at(15, column) + back(BLUE) + fore(CYAN) + blocks("_^_")
    for column in (9, 22, 31):
        page += at(16, column) + back(BLUE) + fore(CYAN) + blocks("_^_")
    page += at(19, 2) + words("Jede Zelle hat ihre zwei Farben selbst:")
    page += at(20, 2) + words("keine Lücken, glatte Kanten.")
    return page


def hold():
    runs = ((GREEN, "####"), (YELLOW, "/##\\"), (CYAN, "xxxx"))
    page = FULL_DEFAULTS_SERIAL + at(1, 2) + words("Halten")
    page += at(4, 2) + words("ohne") + at(4, 8) + mosaic_colour(RED) + RELEASE + block_codes("####")
    for colour, picture in runs:
        page += mosaic_colour(colour) + block_codes(picture)
    page += at(7, 2) + words("mit") + at(7, 8) + mosaic_colour(RED) + HOLD + block_codes("####")
    for colour, picture in runs:
        page += mosaic_colour(colour) + block_codes(picture)
    page += RELEASE + mosaic_colour(MAGENTA) + block_codes("##")
    page += at(10, 2) + words("hoch") + at(10, 8) + mosaic_colour(RED) + HOLD + block_codes("####")
    page += HIGH + mosaic_colour(GREEN) + block_codes("####")
    page += at(14, 2) + fore(CYAN) + words("Eine Marke zeigt sonst eine Lücke.")
    page += at(15, 2) + fore(CYAN) + words("Mit Halten zeigt sie das Mosaik, das")
    page += at(16, 2) + fore(CYAN) + words("vor ihr steht, in seiner Farbe: bis")
    page += at(17, 2) + fore(CYAN) + words("zum Ende des Haltens oder bis zu")
    page += at(18, 2) + fore(CYAN) + words("einer neuen Größe.")
    return page


SMILE = (
    "000111111000",
    "001000000100",
    "010000000010",
    "010110011010",
    "010000000010",
    "010000000010",
    "010100001010",
    "010011110010",
    "001000000100",
    "000111111000",
)
ARROW = ("000000", "001000", "001100", "111110", "111111", "111111", "111110", "001100", "001000", "000000", "111111", "111111")
CHECK = ("111000", "111000", "000111", "000111", "111111")
APPLE = (
    "000000220000",
    "000002200000",
    "000022000000",
    "001111111100",
    "011113111110",
    "011131111110",
    "011131111110",
    "011111111110",
    "011111111110",
    "001111111100",
    "000111111000",
    "000010010000",
)
FLOWER = ("011110", "133331", "132231", "132231", "133331", "011110")
RAINBOW = tuple("".join("%X" % ((column + line) % 16) for column in range(12)) for line in range(10))
SQUARES = tuple("".join("%X" % (line // 3 * 4 + column // 3) for column in range(12)) for line in range(12))


def patterns():
    page = FULL_DEFAULTS_PARALLEL
    page += download(0x21, 1, SMILE) + download(0x22, 1, ARROW) + download(0x23, 1, CHECK)
    page += download(0x24, 2, APPLE) + download(0x25, 2, FLOWER) + download(0x26, 4, RAINBOW) + download(0x27, 4, SQUARES)
    page += dclut((0, 1, 2, 7))
    page += entries(16, ("900", "B30", "D60", "F90", "FC0", "FF0", "AF0", "3E0"))
    page += entries(25, ("0C6", "0AA", "08D", "06F", "32E", "60C", "909"))
    page += at(1, 2) + words("Geladene Zeichen")
    for row, label, code in (
        (3, "12×10, eine Ebene", b"\x21"),
        (5, "6×12, eine Ebene", b"\x22"),
        (7, "6×5, eine Ebene", b"\x23"),
        (9, "12×12, zwei Ebenen", b"\x24"),
        (11, "6×6, zwei Ebenen", b"\x25"),
        (13, "12×10, vier Ebenen", b"\x26"),
        (15, "12×12, vier Ebenen", b"\x27"),
    ):
        page += at(row, 2) + words(label) + at(row, 23) + fore(YELLOW) + downloaded(code * 3)
        page += at(row, 28) + back(BLUE) + HIGH + downloaded(code) + at(row, 30) + WIDE + downloaded(code)
        page += at(row, 34) + fore(GREEN) + BOTH + downloaded(code)
    page += at(19, 2) + words("Ohne Muster bleibt der Code: ") + downloaded(b"\x7e")
    page += at(21, 2) + words("Durch die Farbe 8 der vier Ebenen")
    page += at(22, 2) + words("scheint das Bild dahinter.")
    return page


def colours():
    page = FULL_DEFAULTS_PARALLEL + at(1, 2) + words("32 Farben in vier Tabellen")
    for number in range(4):
        page += at(3 + 4 * number, 2) + words(f"Tabelle {number}")
        for row in (4 + 4 * number, 5 + 4 * number):
            page += at(row, 2) + table(number)
            for colour in range(8):
                page += back(colour) + words("    ")
    page += at(20, 2) + table(0) + words("Tabelle 2 wird neu geladen")
    page += entries(16, ("000", "222", "444", "666", "999", "BBB", "DDD", "FFF"))
    page += entries(24, ("F80", "F90", "FA0", "FB0", "FC0", "FD0", "FE0", "FF4"))
    page += at(22, 2) + words("und Tabelle 3 auch: Zwei mal acht")
    page += at(23, 2) + words("Felder ändern sich, sonst nichts.")
    return page


def ticker():
    page = FULL_DEFAULTS_PARALLEL + at(1, 2) + fore(YELLOW) + HIGH + words("Kurz gemeldet")
    page += at(5, 1) + of_row(back(BLUE)) + words("Neues von heute") + at(12, 1) + of_row(back(BLUE))
    page += at(12, 1) + words("Alle Angaben ohne Gewähr")
    page += area(6, 11) + IMPLICIT + at(6, 1)
    news = (
        "06.10 Nebel an der Donau",
        "06.45 Markt in Ulm beginnt",
        "07.20 Stau bei Günzburg",
        "08.00 Brücke ist wieder frei",
        "08.15 Zug nach Köln wartet",
        "09.30 Sonne am Bodensee, 21°",
        "10.00 Schachspiel: Weiß gewinnt",
        "11.11 Fasnet in Rottweil",
        "12.00 Glocken vom Münster",
    )
    for line in news:
        page += fore(CYAN) + words(line[:5]) + fore(WHITE) + words(line[5:]) + RETURN + DOWN
    page += EXPLICIT + at(14, 2) + words("Neun Meldungen in sechs Zeilen: Unten")
    page += at(15, 2) + words("kommt eine neu, oben geht eine fort.")
    page += at(17, 2) + words("Die Zeilen darum bleiben stehen.")
    return page


def board():
    def train(time, name, to, track):
        return words(f" {time:>5}  {name:<7}  {to:<16} {track:>2}")

    late = of_row(back(YELLOW)) + of_row(fore(BLACK))
    fails = of_row(back(RED)) + of_row(HIGH)
    page = FULL_DEFAULTS_PARALLEL + SECOND_REVISION + at(1, 2) + fore(YELLOW) + HIGH + words("Anzeigetafel")
    page += at(4, 1) + of_row(back(BLUE)) + HIGH + words(" Zeit   Zug      Nach           Gleis")
    page += at(13, 1) + of_row(back(BLUE)) + words(" Gelb: später    Rot: fällt aus")
    page += area(5, 12) + IMPLICIT + at(5, 1)
    page += train("9.48", "E  3019", "Aalen", "5") + RETURN + DOWN
    page += fails + words(" IC 509 nach Köln fällt aus") + RETURN + DOWN + DOWN
    page += train("10.02", "S     7", "Laupheim", "28") + RETURN + DOWN
    page += late + train("10.10", "E  3023", "Sigmaringen", "4") + RETURN + DOWN
    page += train("10.42", "IC  513", "Straßburg", "3") + RETURN + DOWN
    page += late + train("10.55", "D  1285", "Nürnberg", "2") + RETURN + DOWN
    page += fails + words(" IC 611 nach München fällt aus") + RETURN + DOWN + DOWN
    page += train("11.30", "E  3025", "Göppingen", "5") + RETURN + DOWN
    page += fails + words(" S 9 nach Blaubeuren fällt aus")
    page += EXPLICIT + at(15, 2) + words("Jede Zeile nimmt ihre Farbe mit, wenn")
    page += at(16, 2) + words("die Tafel rollt. Über ihren Rand geht")
    page += at(17, 2) + words("keine hohe Schrift: Der Kopf und die")
    page += at(18, 2) + words("letzte Zeile bleiben niedrig.")
    return page


def form():
    page = FULL_DEFAULTS_PARALLEL + at(1, 2) + fore(YELLOW) + HIGH + words("Bestellung")
    for row, label in ((4, "Name:"), (6, "Straße:"), (8, "Ort:"), (10, "Menge:")):
        page += at(row, 1) + of_row(back(BLUE)) + PROTECT + fore(CYAN) + words(f" {label:<10}") + UNPROTECT
    for row in (4, 6, 8, 10):
        page += at(row, 1) + words(".") + repeat(39)
    page += at(4, 1) + words("Jemand von Ulm, Erika")
    page += at(4, 12) + ERASE + words("Erika Mustermann")
    page += at(6, 12) + ERASE + words("Münstergasse 7")
    page += at(8, 12) + ERASE + words("89073 Ulm")
    page += at(10, 12) + words("12")
    page += at(13, 2) + words("Die Namen der Felder sind geschützt:")
    page += at(14, 2) + words("Was darüber geschrieben wird, bleibt")
    page += at(15, 2) + words("fort, und Löschen lässt sie stehen.")
    return page


def rows():
    page = FULL_DEFAULTS_PARALLEL + at(1, 1) + table(1) + of_screen(back(0)) + table(0)
    page += at(2, 3) + fore(YELLOW) + BOTH + words("Durchsicht")
    page += at(5, 3) + words("Der Schirm hat keine Farbe: Hinter ihm")
    page += at(6, 3) + words("scheint ein Bild durch.")
    for row, colour in ((8, RED), (9, YELLOW), (10, GREEN), (11, CYAN), (12, BLUE), (13, MAGENTA)):
        page += at(row, 1) + of_row(back(colour)) + at(row, 3) + fore(BLACK) + words("Zeile in voller Breite")
    page += at(15, 1) + of_row(back(WHITE)) + of_row(fore(BLACK)) + words("Auch die Schrift folgt der Zeile")
    page += at(17, 1) + of_row(back(BLUE)) + of_row(HIGH) + words("und die Größe: hoch") + at(18, 1) + of_row(back(BLUE))
    page += at(20, 3) + back(BLACK) + words("Diese Zellen haben eine Farbe selbst.")
    return page


def answers():
    page = FULL_DEFAULTS_PARALLEL + at(1, 2) + fore(YELLOW) + HIGH + words("Rätsel")
    riddles = (
        (4, "Welcher Fluss fließt durch Ulm?", "Die Donau"),
        (7, "Wie viele Zellen hat der Schirm?", "960"),
        (10, "Was ist halb so hoch wie breit?", "Ein breites Zeichen"),
    )
    for row, question, answer in riddles:
        page += at(row, 2) + words(question) + at(row + 1, 4) + fore(GREEN) + words("→ ") + CONCEALED + words(answer)
    page += at(14, 2) + words("Ein Bild dazu:")
    for row, picture in ((15, "/####\\"), (16, "#.##.#"), (17, "L####J")):
        page += at(row, 4) + fore(RED) + CONCEALED + back(BLUE) + blocks(picture)
    page += at(20, 2) + fore(CYAN) + words("Verdeckt, bis man sie aufdeckt.")
    return page


def service():
    page = TWENTY_ROWS + at(1, 2) + fore(YELLOW) + HIGH + words("Zwanzig Zeilen")
    page += at(4, 2) + words("Diese Seite hat das Format mit 20")
    page += at(5, 2) + words("Zeilen. In der letzten meldet sich")
    page += at(6, 2) + words("der Dienst, mitten im grünen Wort:")
    page += at(8, 2) + fore(GREEN) + WIDE + words("DONAU")
    page += service_break(20) + INVERTED + words(" Seite wird geladen ") + SERVICE_END
    page += words("DAMPFSCHIFF")
    page += at(10, 2) + words("Danach geht es weiter, an derselben")
    page += at(11, 2) + words("Stelle, in Grün und breit.")
    return page


def flashing():
    page = FULL_DEFAULTS_PARALLEL + at(1, 2) + words("Blinken und andere Arten")
    for row, label, code in (
        (3, "einfach", FLASH),
        (4, "umgekehrt", flash_mode(0)),
        (5, "schwächer", flash_mode(1)),
        (6, "schnell 1", flash_mode(2)),
        (7, "schnell 2", flash_mode(3)),
        (8, "schnell 3", flash_mode(4)),
    ):
        page += at(row, 2) + words(label) + at(row, 14) + fore(YELLOW) + back(BLUE) + code + words("Achtung ") + blocks("####")
    page += at(10, 2) + words("Lauflicht") + at(10, 14) + fore(RED)
    page += (flash_mode(5) + blocks("#")) * 18
    page += at(12, 2) + words("mit Linie") + at(12, 14) + LINED + words("unterstrichen ") + blocks("####/\\")
    page += at(14, 2) + words("im Kasten") + at(14, 14) + fore(CYAN) + BOXED + words("sieben") + BOTH + words("groß")
    page += at(17, 2) + words("umgekehrt") + at(17, 14) + fore(GREEN) + INVERTED + words("Grund und Schrift")
    page += UPRIGHT + words(" wie sonst")
    page += at(19, 2) + words("blinkt") + at(19, 14) + fore(MAGENTA) + FLASH + INVERTED + LINED + BOXED + words("alles auf einmal")
    page += at(21, 2) + words("Größen") + at(21, 14) + words("a") + HIGH + words("b") + WIDE + words("c") + BOTH + words("d") + blocks("/")
    page += LINED + blocks("#") + smooth_low(LOWER_LEFT)
    return page


def signs():
    def run(first):
        return bytes(range(first, first + 0x20))

    def right(first, count=0x20):
        return bytes(range(first, first + count))

    page = FULL_DEFAULTS_PARALLEL + at(1, 2) + fore(YELLOW) + words("Zeichen der fünf Vorräte")
    for row, first in ((3, 0x20), (4, 0x40), (5, 0x60)):
        page += at(row, 2) + words("P") + at(row, 5) + run(first)
    for row, codes in ((7, right(0xA0)), (8, right(0xD0, 0x10)), (9, right(0xE0))):
        page += at(row, 2) + words("S") + at(row, 5) + codes
    for row, first in ((11, 0x20), (12, 0x40), (13, 0x60)):
        page += at(row, 2) + words("M") + at(row, 5) + b"\x0e" + run(first) + b"\x0f"
    for row, first in ((15, 0x20), (16, 0x40), (17, 0x60)):
        page += at(row, 2) + words("N") + at(row, 5) + b"\x1b\x6f" + run(first) + b"\x0f"
    page += at(19, 2) + words("D") + at(19, 5) + downloaded(b"\x21\x22\x23")
    page += at(21, 2) + words("Akzente") + at(21, 11)
    for accent in range(0xC0, 0xD0):
        page += bytes([accent]) + (b"e" if accent % 2 else b"O")
    page += at(22, 11)
    for accent in range(0xC0, 0xD0):
        page += bytes([accent]) + (b"i" if accent % 2 else b"Z")
    page += at(23, 2) + words("getrennt") + at(23, 11) + LINED + b"\x0e" + bytes(range(0x61, 0x7A)) + b"\x0f"
    return page


def refused():
    page = FULL_DEFAULTS_PARALLEL + at(1, 2) + fore(YELLOW) + words("Eine gestörte Übertragung")
    broken = (
        ("ein Zeichen, das keines ist", b"\x07"),
        ("eine unbekannte Folge", b"\x1b\x22\x55"),
        ("eine unbekannte Steuerung", b"\x9b\x39\x40"),
        ("eine unbekannte Einheit", b"\x1f\x31" + b"verloren"),
        ("eine Zeile, die es nicht gibt", b"\x1f\x7a\x41"),
        ("eine Folge, die abbricht", b"\x9b\x31" + at(13, 26)),
    )
    for row, (text, piece) in enumerate(broken):
        page += at(3 + 2 * row, 2) + words(text) + piece + fore(GREEN) + words(" ok")
    page += at(16, 2) + fore(RED) + words("<b>kein Markup</b> & \"kein\" 'Skript'")
    page += at(17, 2) + words("</script><script>alert(1)</script>")
    page += at(19, 2) + words("und ein Ende mitten in einer Einheit") + b"\x1b"
    return page


def weather():
    page = FULL_DEFAULTS_PARALLEL + at(1, 2) + fore(YELLOW) + HIGH + words("Das Wetter in Ulm")
    page += at(4, 2) + words("Regen, Liter je Quadratmeter")
    for row in range(5, 18):
        page += at(row, 1) + of_row(fore(CYAN))
    for row, litres in ((7, 120), (10, 80), (13, 40), (16, 0)):
        page += at(row, 2) + fore(WHITE) + words(f"{litres:>3}")
    for month, letter in enumerate("JFMAMJJASOND"):
        page += at(18, (15 + 5 * month) // 2 + 1) + words(letter)
    page += at(19, 2) + words("Wärme, Grad")
    for row in range(20, 25):
        page += at(row, 1) + of_row(fore(YELLOW))
    for row, degrees in ((20, 20), (23, 0)):
        page += at(row, 2) + fore(WHITE) + words(f"{degrees:>3}")
    return page


PAGES = (
    title, timetable, house, boat, hold, patterns, colours, ticker, board, form, rows, answers, service, flashing, signs, refused,
    weather,
)
