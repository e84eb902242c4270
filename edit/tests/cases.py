"""The cases of edit/test: each takes the hands, and fails by an assertion."""
import base64
import json
import os
import random
import subprocess
import unicodedata

import access
from btx import grammar
from hands import BLANK, CONTROL, ROOT, SHIFT

PAGES = os.path.join(ROOT, "pages")


def page(name):
    return os.path.join(PAGES, name + ".btx")


def read(path):
    with open(path, "rb") as file:
        return file.read()


def btx(hand, *words):
    command, environment = os.path.join(ROOT, "bin", "btx"), {**os.environ, "BTX_PROGRAM": hand.program}
    done = subprocess.run([command, *words], stdout=subprocess.PIPE, env=environment)
    assert done.returncode == 0, f"btx {words}: status {done.returncode}"
    return done.stdout


def still(hand):
    """Without the flash, so that the screen shows the looks."""
    if hand.tab.value("Tamligub.part('flash').checked"):
        hand.click("#flash")


def draw_a_page(hand):
    """A title in double size, a coloured row, mosaics, a drawing, a downloaded sign, an area."""
    hand.cell(2, 5)
    hand.click('[data-size="both"]')
    hand.click('.swatch[data-kind="fore"]', 3)
    hand.type("Grüße aus Ulm")
    hand.tab_of("sheet")
    hand.cell(5, 1)
    hand.choose('[data-kind="row"]', "4")
    hand.click('[data-apply="row"]')
    hand.tab_of("pen")
    hand.click('[data-size="normal"]')
    hand.click('.swatch[data-kind="fore"]', 7)
    hand.cell(5, 3)
    hand.type("Zeile in Blau")
    hand.tab_of("mosaic")
    hand.cell(8, 10)
    for number in (2, 30, 62, 5):
        hand.click("button.sign", number)
    hand.tab_of("draw")
    hand.click('[data-tool="box"]')
    hand.drag((30, 30), (60, 50))
    hand.click('[data-tool="line"]')
    hand.drag((30, 30), (60, 50))
    hand.click("#draw button.main")
    hand.tab_of("pattern")
    hand.drag((0, 0), (11, 9), 12, 10, "pixels", 12)
    hand.drag((11, 0), (0, 9), 12, 10, "pixels", 12)
    hand.click("#pattern button.main")
    hand.cell(8, 20)
    hand.click('#pattern [data-word="patternWrite"]')
    hand.tab_of("sheet")
    hand.fill('#sheet input[type="number"]', "18", 0)
    hand.fill('#sheet input[type="number"]', "22", 1)
    hand.click('#sheet [data-word="areaMake"]')


def a_page_is_drawn_undone_made_again_and_kept(hand):
    hand.fresh()
    still(hand)
    draw_a_page(hand)
    lines = hand.lines()
    for line in ("c1 15", "row 20", "area 18 22"):
        assert line in lines, f"no {line} in {lines}"
    assert any(line.startswith("raw 1F23") for line in lines), "no pattern"
    whole = hand.is_true()
    shown = hand.looks()
    assert [look[:2] for look in shown[44:46]] == ["P4", "P4"], shown[44:46]
    assert hand.shown_script() == hand.script(), "the script isn't shown"
    steps = 0
    while not hand.text("note"):
        hand.key("z", held=CONTROL)
        steps += 1
        assert steps < 40, "undo doesn't end"
    assert hand.looks() == [BLANK] * 960, "undone to the start the screen isn't blank"
    assert hand.is_true() == hand.edited(""), "undone to the start the page isn't the first"
    hand.settle()
    hand.key("z", held=CONTROL | SHIFT)
    for _ in range(steps):
        hand.key("y", held=CONTROL)
    assert hand.looks() == shown and hand.is_true() == whole, "made again it is another"
    name, data = hand.kept("#keep-page")
    assert name.endswith(".btx") and data == whole, "another page is kept"
    saved = hand.written("saved.btx", data)
    assert hand.looks_of(saved) == shown, "the kept page shows something else"
    assert "G r u\u0308 ß e" in hand.put("show", saved).decode(), "the title isn't there"
    assert hand.put("check", saved).endswith(b" refused 0\n"), "something is refused"
    hand.settle()
    assert hand.tab.value("Tamligub.part('report-page').dataset.same") == "true", hand.text("report-page")
    print(f"     {len(lines)} lines, {steps - 1} actions, {len(data)} bytes")


def typing_is_lines(hand):
    hand.fresh()
    hand.cell(3, 5)
    hand.type("Hallo")
    assert hand.lines() == ["at 3 5", "text Hallo"], hand.script()
    assert hand.caret() == (3, 10)
    hand.key("Backspace")
    hand.type("ß")
    assert "# Hallß" in hand.script().split("\n") and len(hand.lines()) == 2, hand.script()
    hand.key("Backspace", 5)
    assert hand.lines() == [] and hand.caret() == (3, 5), hand.script()
    hand.type("ab")
    hand.key("Enter")
    hand.type("c")
    assert hand.lines() == ["at 3 5", "text ab", "return", "down", "text c"] and hand.caret() == (4, 2), hand.script()
    hand.key("ArrowRight", 3)
    hand.key("ArrowUp")
    assert hand.caret() == (3, 5), hand.caret()
    hand.key("Delete")
    assert hand.lines()[-2:] == ["at 3 5", "text  "] and hand.caret() == (3, 5), hand.script()
    hand.key("End")
    assert hand.caret() == (3, 40)
    hand.key("Home")
    assert hand.caret() == (3, 1)
    hand.type("xy")
    hand.key("ArrowLeft")
    hand.key("Backspace")
    assert hand.caret() == (3, 1) and hand.lines()[-2:] == ["at 3 1", "text  "], hand.script()
    before = hand.is_true()
    # An action is undone as a whole, and made again as a whole.
    hand.click('.swatch[data-kind="fore"]', 2)
    hand.cell(9, 9)
    hand.type("bunt")
    after = hand.is_true()
    assert hand.lines()[-3:] == ["at 9 9", "c1 2", "text bunt"], hand.script()
    hand.key("z", held=CONTROL)
    assert hand.lines()[-3:] == ["undo"] * 3 and hand.is_true() == before, hand.script()
    hand.key("y", held=CONTROL)
    assert hand.lines()[-3:] == ["redo"] * 3 and hand.is_true() == after, hand.script()


def an_undo_leads_to_where_the_action_began(hand):
    for stored in (b"", b"\x1f\x45\x41Seite"):
        hand.fresh(hand.written("stored.btx", stored))
        hand.cell(3, 3)
        hand.type("Hallo")
        hand.cell(10, 10)
        hand.type("Wlet")
        hand.key("z", held=CONTROL)
        assert hand.caret() == (10, 10), hand.caret()
        hand.type("Welt")
        assert hand.lines()[-2:] == ["at 10 10", "text Welt"], hand.script()
        hand.key("z", 2, held=CONTROL)
        assert hand.caret() == (3, 3), hand.caret()
        hand.key("y", held=CONTROL)
        assert hand.caret() == (3, 8), hand.caret()
        hand.is_true(stored)


def a_page_keeps_what_is_not_touched(hand):
    """What the editor adds before a sign on a stored page, to know where it stands, changes nothing else: nor does undo."""
    # One with an area that scrolls at its edges, beside those of the folder.
    rolling = hand.written("rolling.btx", b"\x9b05;10U\x9b2\x60\x1f\x46\x41rollt")
    for path in [rolling, *sorted(os.path.join(PAGES, name) for name in os.listdir(PAGES) if name.endswith(".btx"))]:
        name, stored = os.path.basename(path), read(path)
        hand.fresh(path)
        still(hand)
        hand.cell(20, 7)
        hand.type("x")
        assert hand.is_true(stored) == hand.edited("parallel\nat 20 7\ntext x\n", stored), f"{name} is another by a sign"
        hand.key("z", held=CONTROL)
        assert hand.is_true(stored) == hand.put("write", path), f"{name} is another after undo"


def signs_of_all_sets_are_typed(hand):
    hand.fresh()
    signs = "ÄÖÜäöüßéèêçñå§½¼«»¿¡æøœłđ£¥→↑―Ω"
    hand.cell(2, 2)
    hand.type(signs)
    data = hand.is_true()
    shown = unicodedata.normalize("NFC", hand.put("show", hand.written("signs.btx", data)).decode()).split("\n")[1]
    assert shown[1:].rstrip() == unicodedata.normalize("NFC", signs), shown
    hand.type("中")
    assert "中" in hand.text("note"), hand.text("note")
    hand.is_true()
    # Of what is pasted all is told that is left out, each once; a tab is spaces.
    hand.cell(6, 1)
    hand.tab.call("Input.insertText", text="a€\tb中\n€c")
    assert hand.text("note").startswith("3 Zeichen sind ausgelassen") and hand.text("note").endswith("(€ 中)."), hand.text("note")
    assert [hand.looks()[cell][:3] for cell in (200, 208, 240)] == ["P61", "P62", "P63"], hand.script()
    hand.is_true()


def past_the_last_row_it_goes_on_in_the_first(hand):
    """Which is said, by letters and by Return."""
    hand.fresh()
    hand.cell(24, 40)
    hand.type("x")
    assert hand.caret() == (1, 1) and hand.text("note").endswith("in der ersten."), hand.text("note")
    hand.type("yz")
    assert hand.text("note").endswith("in der ersten."), "the warning is gone with the next key"
    hand.cell(24, 3)
    hand.key("Enter")
    assert hand.caret() == (1, 1) and hand.text("note").endswith("in der ersten."), hand.text("note")
    hand.cell(3, 3)
    hand.key("Enter")
    assert hand.text("note") == "", hand.text("note")


def an_undo_that_reaches_no_further_says_why(hand):
    """Where the program keeps fewer edits than an action has, and where there is nothing."""
    hand.fresh()
    hand.key("z", held=CONTROL)
    assert hand.text("note") == "Nichts mehr rückgängig zu machen.", hand.text("note")
    hand.write_script("".join(f"text {at % 10}\n" for at in range(70)))
    hand.cell(9, 9)
    hand.key("z", held=CONTROL)
    assert "letzten 64 der 70" in hand.text("note") and hand.lines()[70:] == ["undo"] * 64, hand.text("note")
    hand.key("z", held=CONTROL)
    assert hand.text("note").startswith("Weiter zurück") and len(hand.lines()) == 134, hand.text("note")
    hand.is_true()
    # What is pasted is one action.
    hand.fresh()
    hand.tab.call("Input.insertText", text="\n".join(["Zeile"] * 23))
    assert hand.text("note").startswith("Das sind 68 Änderungen"), hand.text("note")
    hand.fresh()
    hand.cell(3, 3)
    hand.tab.call("Input.insertText", text="eins\nzwei\ndrei")
    hand.key("z", held=CONTROL)
    assert hand.lines()[7:] == ["text drei"] + ["undo"] * 8 and hand.caret() == (3, 3), hand.script()


def scripts_are_typed(hand):
    """Lines as people write them: the screen shows what btx makes of the same script, and lines and edits are counted as the program's."""
    hand.fresh()
    text = "# Größe\n  at  2\t2\ntext Größe e\u0301 ■\n\nTAB\tundo \nredo\n".replace("TAB", "\t")
    hand.write_script(text)
    assert hand.text("script-fault") == "" and hand.script() == text, hand.text("script-fault")
    data = btx(hand, "edit", hand.written("stored.btx", b""), hand.written("typed.txt", text.encode()))
    assert not hand.is_other(data), hand.looks()[40:60]
    assert hand.tab.value("Tamligub.editor.sheet.kept()") == [1, 2]
    name, kept = hand.kept("#keep-script")
    assert name.endswith(".txt") and kept.decode() == text, kept
    assert hand.kept("#keep-page")[1] == data


# The text of the script's field, and where its cursor is.
WRITTEN = "((field) => [field.value, field.selectionEnd])(Tamligub.part('script'))"


def a_script_is_typed_key_by_key(hand):
    """At the end of the script too, where the last line has no line feed yet: the cursor stays where it is, and what is typed is the script."""
    hand.fresh()
    hand.click("#script")
    for key in "at 3 5":
        hand.key(key)
        hand.settle()
    hand.key("Enter")
    for key in "text ab":
        hand.key(key)
    hand.settle()
    assert hand.tab.value(WRITTEN) == ["at 3 5\ntext ab", 14], hand.tab.value(WRITTEN)
    hand.key("Backspace")
    hand.settle()
    assert hand.tab.value(WRITTEN) == ["at 3 5\ntext a", 13] and hand.script() == "at 3 5\ntext a\n", hand.tab.value(WRITTEN)
    # Behind lines that were made on the screen.
    hand.cell(9, 9)
    hand.type("Hallo")
    hand.tab.value("Tamligub.part('script').focus(), Tamligub.part('script').setSelectionRange(1000, 1000)")
    for key in "row 4":
        hand.key(key)
        hand.settle()
    assert hand.lines() == ["at 3 5", "text a", "at 9 9", "text Hallo", "row 4"], hand.script()
    assert hand.tab.value(WRITTEN) == [hand.script()[:-1], len(hand.script()) - 1], hand.tab.value(WRITTEN)
    hand.is_true()
    # On a long page what is typed waits for a pause, and stays though all is shown anew before.
    hand.fresh(hand.written("long.btx", b" " * 20001))
    hand.tab.value("Tamligub.part('script').focus()")
    hand.tab.value("document.execCommand('insertText', false, 'at 3 5'), Tamligub.editor.painted()")
    assert hand.tab.value(WRITTEN)[0] == "at 3 5", hand.tab.value(WRITTEN)
    hand.key("s", held=CONTROL)
    assert hand.lines() == ["at 3 5"] and not hand.text("name").endswith("●"), hand.script()


def what_was_written_in_the_script_is_undone_there(hand):
    """Before what was done on the screen, step by step, and the cursor stays in the script; so does the undo of the browser's menu."""
    hand.fresh()
    hand.cell(3, 3)
    hand.type("Hallo")
    made = hand.script()
    hand.tab.value("Tamligub.part('script').focus(), Tamligub.part('script').setSelectionRange(1000, 1000)")
    for key in ("row 4", ("Enter",), "at 5 5", ("Backspace",), ("Backspace",)):
        for one in key:
            hand.key(one)
    hand.settle()
    assert hand.tab.value(WRITTEN) == [f"{made}row 4\nat 5", len(made) + 10], hand.tab.value(WRITTEN)
    texts = [f"{made}row 4\nat 5 5", f"{made}row 4\n", f"{made}row 4", made]
    for number, text in enumerate(texts):
        if number:
            hand.key("z", held=CONTROL)
        else:
            hand.tab.call("Input.dispatchKeyEvent", type="keyDown", key="F13", commands=["undo"])
        hand.settle()
        assert hand.tab.value(WRITTEN) == [text, len(text)], hand.tab.value(WRITTEN)
    for text in texts[2::-1]:
        hand.key("y", held=CONTROL)
        assert hand.tab.value(WRITTEN) == [text, len(text)], hand.tab.value(WRITTEN)
    hand.key("z", 3, held=CONTROL)
    assert hand.tab.value(WRITTEN)[0] == made, hand.tab.value(WRITTEN)
    # The buttons do the same, and the focus stays.
    hand.key("y", 2, held=CONTROL)
    for button, text in (("#undo", texts[2]), ("#undo", made), ("#redo", texts[2]), ("#undo", made)):
        hand.click(button)
        assert hand.tab.value(WRITTEN) == [text, len(text)], hand.tab.value(WRITTEN)
        assert hand.tab.value("document.activeElement.id") == "script"
    # Then what was done on the screen, by lines as there.
    hand.key("z", held=CONTROL)
    assert hand.shown_script() == f"{made}\nundo\nundo\n" and hand.looks() == [BLANK] * 960, hand.shown_script()
    hand.key("y", held=CONTROL)
    assert hand.shown_script() == f"{made}\nundo\nundo\n\nredo\nredo\n", hand.shown_script()
    assert hand.tab.value("document.activeElement.id") == "script"
    # A script that was thrown away comes back, and one that is wrong is mended.
    whole = hand.script()
    hand.write_script("no such line")
    hand.key("z", held=CONTROL)
    assert hand.script() == whole and hand.text("script-fault") == "", hand.script()
    hand.is_true()
    # On another page there is nothing of it.
    hand.leave()
    hand.open(page("title"))
    hand.tab.value("Tamligub.part('script').focus()")
    hand.key("z", held=CONTROL)
    assert hand.script() == "" and hand.text("note"), hand.script()


def signs_are_composed(hand):
    """By dead keys and on a screen's keyboard: what is composed is seen from the first key on, and replaced until it is done."""
    hand.fresh()
    hand.cell(3, 3)
    hand.type("a")
    for text in ("W", "Wo", "Wor", "Wort"):
        hand.tab.call("Input.imeSetComposition", text=text, selectionStart=len(text), selectionEnd=len(text))
        assert hand.lines() == ["at 3 3", f"text a{text}"], hand.script()
    hand.tab.call("Input.insertText", text="Worte")
    assert hand.lines() == ["at 3 3", "text aWorte"], hand.script()
    hand.tab.call("Input.imeSetComposition", text="´", selectionStart=1, selectionEnd=1)
    hand.tab.call("Input.insertText", text="é")
    assert "# aWorteé" in hand.script().split("\n") and len(hand.lines()) == 2, hand.script()
    hand.tab.call("Input.imeSetComposition", text="x", selectionStart=1, selectionEnd=1)
    hand.tab.call("Input.imeSetComposition", text="", selectionStart=0, selectionEnd=0)
    assert "# aWorteé" in hand.script().split("\n"), hand.script()
    hand.is_true()


def what_is_protected_stays_and_that_is_told(hand):
    hand.fresh()
    hand.write_script("protect\nat 3 3\ntext fest\nunprotect\n")
    hand.cell(3, 5)
    hand.type("x")
    assert "geschützt" in hand.text("note") and hand.looks()[2 * 40 + 4].startswith("P73"), hand.text("note")
    hand.is_true()
    hand.cell(3, 7)
    hand.type("y")
    assert hand.text("note") == "", hand.text("note")
    hand.cell(3, 5)
    hand.key("Delete")
    assert "geschützt" in hand.text("note"), hand.text("note")


def each_attribute_is_a_line(hand):
    """Each choice of the panels, by a click: its line is there, and what is shown is what the program says."""
    hand.fresh()
    still(hand)
    for kind, names in (("size", ("high", "wide", "both")), ("on", ("lined", "boxed", "conceal", "invert", "transparent"))):
        for name in names:
            hand.cell(4, 4)
            before = len(hand.lines())
            hand.click(f'[data-{kind}="{name}"]')
            hand.type("Ab")
            lines = hand.lines()[before:]
            assert len(lines) == 3 and lines[1].startswith("c1 "), f"{name}: {lines}"
            hand.is_true()
            hand.click("#pen button[data-size=normal]")
            hand.click('#pen-plain')
    for flash in ("flash", "inverted", "reduced", "fast1", "fast2", "fast3", "next", "previous"):
        hand.cell(6, 6)
        hand.choose("#pen select", flash)
        hand.type("Cd")
        hand.is_true()
    hand.click('#pen-plain')
    for table in (3, 1, 0):
        hand.click(f'[data-table="{table}"]')
        hand.click('.swatch[data-kind="back"]', 2)
        hand.click('.swatch[data-kind="fore"]', 5)
        hand.cell(7, 3 + table)
        hand.type("Z")
        hand.is_true()
    assert "table 3" in hand.lines() and "c1 18" in hand.lines(), hand.lines()


def serial_attributes_are_markers(hand):
    hand.fresh()
    still(hand)
    hand.cell(10, 1)
    hand.click('[data-set="serial"]')
    hand.click('.swatch[data-kind="fore"]', 1)
    assert hand.lines() == ["serial", "at 10 1", "c1 1"] and hand.caret() == (10, 2), hand.script()
    hand.type("rot")
    hand.is_true()
    count = hand.tab.value("document.querySelectorAll('[data-marker]').length")
    for number in range(count):
        hand.click("[data-marker]", number)
        hand.type("x")
        hand.is_true()
    hand.click('.swatch[data-kind="back"]', 4)
    hand.tab_of("mosaic")
    hand.click("button.sign", 7)
    hand.is_true()
    hand.tab_of("pen")
    hand.click('[data-set="parallel"]')
    hand.cell(12, 1)
    hand.type("neu")
    assert hand.lines()[-3:] == ["parallel", "at 12 1", "text neu"], hand.lines()[-4:]
    hand.is_true()


def keys_reach_the_colours_of_both_sets(hand):
    """The serial one has no button for no colour, and Tab leads to the first swatch of each group."""
    hand.fresh()
    still(hand)
    hand.cell(10, 1)
    hand.go_to('[data-set="parallel"]')
    hand.key("ArrowRight")
    hand.key(" ")
    hand.go_to('.swatch[data-kind="fore"]')
    hand.key("ArrowRight")
    hand.key(" ")
    hand.go_to('.swatch[data-kind="back"]')
    hand.key(" ")
    assert hand.lines() == ["serial", "at 10 1", "c1 1", "c1 16"], hand.script()
    access.the_focus_goes_through_all(hand.tab)
    hand.go_to('[data-set="serial"]')
    hand.key("ArrowLeft")
    hand.key(" ")
    hand.go_to('.swatch[data-kind="fore"]')
    hand.key("ArrowLeft", 2)
    assert hand.tab.value("document.activeElement.dataset.none") == "fore", hand.tab.value("document.activeElement.outerHTML")


FORMATS = """["format", "wrap"].map((name) => document.querySelector(`#sheet select[data-name="${name}Part"]`).value)"""


def rows_screen_area_format_and_colours_are_lines(hand):
    hand.fresh()
    still(hand)
    hand.cell(6, 9)
    hand.type("Text")
    hand.tab_of("sheet")
    hand.choose('[data-kind="row"]', "9", 0)
    hand.click('[data-apply="row"]')
    assert hand.lines()[-3:] == ["at 6 13", "table 1", "row 17"], hand.lines()
    hand.choose('[data-kind="screen"]', "4", 0)
    hand.click('[data-apply="screen"]')
    assert hand.lines()[-2:] == ["table 0", "screen 20"], hand.lines()
    for number, kind in enumerate(("row", "screen")):
        hand.choose(f'[data-kind="{kind}"]', "17", 0)
        hand.choose(f'[data-kind="{kind}"]', "2", 1)
        hand.choose('#sheet select[data-name="attribute"]', "lined", number)
        hand.click(f'[data-apply="{kind}"]')
        assert hand.lines()[-5:] == ["table 2", f"{kind} 17", "table 0", f"{kind} 2", f"{kind} 26"], hand.lines()
    hand.is_true()
    # What is refused stays chosen.
    script = hand.script()
    hand.write_script(script + "frob\n")
    hand.choose('[data-kind="row"]', "3", 0)
    hand.click('[data-apply="row"]')
    chosen = hand.tab.value("document.querySelector('[data-kind=row]').value")
    assert chosen == "3" and "berichtigen" in hand.text("fault"), (chosen, hand.text("fault"))
    hand.write_script(script)
    hand.choose('[data-kind="row"]', "", 0)
    for number in range(6):
        hand.click('#sheet [data-name="areaPart"] button', number)
        hand.is_true()
    for number in (2, 1):
        hand.click(f'#sheet [data-word="revision{number}"]')
        assert hand.lines()[-1] == f"revision {number}", hand.lines()
        hand.is_true()
        hand.settle()
        assert hand.tab.value("[1, 2].filter((number) => document.querySelector(`#sheet [data-word=revision${number}]`).ariaPressed === 'true')") == [number]
    hand.click('#sheet [data-word="protect"]')
    hand.cell(9, 3)
    hand.type("bleibt")
    hand.click('#sheet [data-word="unprotect"]')
    hand.cell(9, 1)
    hand.click('#sheet [data-word="erase"]')
    assert any("P62" in look for look in hand.looks()[320:360]), "what is protected is gone"
    hand.is_true()
    hand.type("-")
    hand.click('#sheet [data-word="repeat"]')
    assert hand.lines()[-1] == "repeat 10", hand.lines()
    hand.is_true()
    # Numbers that a script wouldn't take are refused, and it is said why.
    lines = hand.lines()
    hand.fill('#sheet input[data-name="repeatCount"]', "64")
    hand.click('#sheet [data-word="repeat"]')
    assert hand.text("fault") == "„repeat 64“ geht nicht: N ist 64, erlaubt ist 0 bis 63.", hand.text("fault")
    refused = ("0", "25", "A ist 0, erlaubt ist 1 bis 24; B ist 25"), ("9", "3", "A ist 9 und B 3"), ("", "3", "gehören 2 Angaben, A B; hier steht eine")
    for first, last, why in refused:
        hand.fill('#sheet input[data-name="areaFrom"]', first)
        hand.fill('#sheet input[data-name="areaTo"]', last)
        hand.click('#sheet [data-word="areaMake"]')
        assert why in hand.text("fault") and hand.lines() == lines, hand.text("fault")
    hand.fill('#sheet input[data-name="areaFrom"]', "2")
    hand.click('#sheet [data-word="areaMake"]')
    assert hand.lines()[-1] == "area 2 3" and hand.text("fault") == "", hand.lines()
    hand.click('#sheet [data-word="areaDrop"]')
    hand.tab_of("colours")
    hand.click("#entries .swatch", 4)
    for number, level in enumerate(("15", "8", "1")):
        hand.fill("#colours .level input", level, number)
    hand.click("#colours button.main")
    assert hand.lines()[-1] == "colour 4 15 8 1", hand.lines()
    hand.is_true()
    hand.settle()
    assert "F81" in hand.tab.value("document.querySelectorAll('#entries .swatch')[4].getAttribute('aria-label')")
    hand.fill('#colours input[type="color"]', "#336699")
    hand.click("#colours button.main")
    assert hand.lines()[-1] == "colour 4 3 6 9", hand.lines()
    hand.click('#colours [data-word="colourReset"]')
    hand.is_true()
    hand.tab_of("sheet")
    hand.choose('#sheet select[data-name="formatPart"]', "20")
    hand.click('[data-apply="format"]')
    assert hand.lines()[-1] == "raw 1F2D4270", hand.lines()
    # The format in force is shown, also of a page that is opened.
    hand.choose('#sheet select[data-name="wrapPart"]', "noWrap")
    hand.click('[data-apply="format"]')
    assert hand.lines()[-1] == "raw 1F2D4271", hand.lines()
    hand.key("z", held=CONTROL)
    hand.settle()
    assert hand.tab.value(FORMATS) == ["20", "wrap"], hand.tab.value(FORMATS)
    hand.click('#sheet [data-word="clear"]')
    assert hand.lines()[-1] == "clear", hand.lines()


# How much of the screen's height is shaded from above on, or null.
SHADED = """((one, screen) => one.hidden ? null : (one.getBoundingClientRect().top - screen.top) / screen.height)(
  Tamligub.part("beyond"), Tamligub.part("page").getBoundingClientRect())"""


def keys_tell_the_caret_where_the_pointer_rests(hand):
    """What it points at is told again once it moves."""
    hand.fresh()
    hand.cell(10, 10)
    hand.type("A")
    hand.hover(*hand.place(11, 11, 40, 24))
    hand.cell(12, 12)
    assert hand.text("where").startswith("Zeile 12, Spalte 12: "), hand.text("where")
    for key in ("ArrowUp", "ArrowUp", "ArrowLeft", "ArrowLeft"):
        hand.key(key)
    told = "Schreibmarke in Zeile 10, Spalte 10"
    assert (hand.text("where"), hand.text("state")) == (told, f"{told}: A"), (hand.text("where"), hand.text("state"))
    hand.hover(*hand.place(11, 10, 40, 24))
    assert hand.text("where").startswith("Zeile 11, Spalte 12: "), hand.text("where")


def the_format_bounds_caret_and_drawing(hand):
    """Of 20 rows the others are shaded: neither mouse nor keys lead there, and a box ends above them."""
    hand.fresh()
    still(hand)
    assert hand.tab.value(SHADED) is None, "rows of the format are shaded"
    hand.cell(23, 5)
    assert hand.caret() == (23, 5), hand.caret()
    hand.tab_of("sheet")
    hand.choose('#sheet select[data-name="formatPart"]', "20")
    hand.click('[data-apply="format"]')
    assert hand.caret()[0] <= 20 and abs(hand.tab.value(SHADED) - 20 / 24) < 0.01, (hand.caret(), hand.tab.value(SHADED))
    hand.cell(22, 9)
    assert hand.caret() == (20, 5) and hand.text("note") == "Unter dem Format von 20 Zeilen wird nicht geschrieben.", hand.text("note")
    hand.hover(*hand.place(4, 21, 40, 24))
    assert hand.text("where") == "Zeile 22, Spalte 5: unter dem Format von 20 Zeilen", hand.text("where")
    hand.hover(5, 5)
    hand.key("PageDown")
    hand.key("ArrowDown")
    assert hand.caret() == (20, 5), hand.caret()
    hand.type("unten")
    assert hand.lines()[-2:] == ["at 20 5", "text unten"], hand.lines()
    hand.is_true()
    hand.tab_of("draw")
    hand.click('[data-tool="box"]')
    hand.fill("#drawing", "plot 3 3\nplot 4 60\nbox 4 50 40 71\n")
    assert "Format von 20 Zeilen" in hand.text("draw-fault") and hand.text("draw-fault").endswith(": 2, 3."), hand.text("draw-fault")
    hand.click('#draw [data-word="drawDrop"]')
    assert hand.text("draw-fault") == "", hand.text("draw-fault")
    hand.drag((4, 50), (40, 71))
    assert hand.tab.value("Tamligub.part('drawing').value") == "box 4 50 40 59"
    hand.key("ArrowDown", 3)
    assert hand.text("draw-where") == "Punkt 40, 59", hand.text("draw-where")
    hand.click("#draw button.main")
    hand.is_true()
    # With 24 rows by hand, and with 20 once more while the caret is below these.
    hand.tab_of("pen")
    hand.write_script("at 2 2\n")
    hand.cell(24, 3)
    assert hand.caret() == (24, 3) and hand.tab.value(SHADED) is None, hand.caret()
    hand.write_script("raw 1F2D4270\n")
    assert hand.caret() == (20, 3) and hand.tab.value(SHADED) is not None, hand.caret()


# The entries of the four inks.
INKS = "[...document.querySelectorAll('#colours select')].map((one) => one.value)"


def patterns_have_inks(hand):
    """A sign of each form and depth, painted with its inks, defined and written; taken again it has the same pixels."""
    hand.fresh()
    still(hand)
    hand.tab_of("pattern")
    for at, (size, planes) in enumerate((("12x10", "1"), ("12x12", "2"), ("6x5", "4"), ("6x10", "2"), ("6x12", "1"), ("6x6", "4"))):
        width, height = map(int, size.split("x"))
        hand.choose("#pattern-code", str(0x30 + at))
        hand.choose("#pattern-size", size)
        hand.choose("#pattern-planes", planes)
        hand.click('#pattern [data-word="patternClear"]')
        for ink in range(1, (2, 4, 16)[(1, 2, 4).index(int(planes))]):
            hand.click("#inks .swatch", ink)
            hand.press(*hand.place(ink % width, (ink * 2 + at) % height, width, height, "pixels"))
        pixels = hand.tab.value("Tamligub.editor.pattern.pixels.join('')")
        hand.click("#pattern button.main")
        hand.cell(3 + 2 * at, 5)
        hand.click('#pattern [data-word="patternWrite"]')
        hand.is_true()
        look = hand.looks()[(2 + 2 * at) * 40 + 4]
        assert look.startswith(f"%{size}x{planes}/"), look
        hand.choose("#pattern-code", "126")
        hand.choose("#pattern-code", str(0x30 + at))
        assert hand.tab.value("Tamligub.editor.pattern.pixels.join('')") == pixels, f"{size}, {planes} planes"
    hand.tab_of("colours")
    for number, entry in enumerate(("9", "10", "11", "12")):
        hand.choose("#colours select", entry, number)
    hand.click('#colours [data-word="dclutSet"]')
    assert hand.lines()[-1] == "raw 1F2620221F263030494A4B4C", hand.lines()[-1]
    hand.is_true()
    # Those in force are shown, once they are others; what is chosen and isn't set stays.
    for script, inks in (("raw 1F2620221F26303045464748\n", ["5", "6", "7", "8"]), ("# none\n", ["0", "1", "2", "3"])):
        hand.write_script(script)
        hand.settle()
        assert hand.tab.value(INKS) == inks, hand.tab.value(INKS)
    hand.choose("#colours select", "31", 3)
    hand.write_script("at 3 3\n")
    hand.settle()
    assert hand.tab.value(INKS) == ["0", "1", "2", "31"], hand.tab.value(INKS)


def a_sign_that_is_written_is_defined_before(hand):
    hand.fresh()
    still(hand)
    hand.cell(4, 4)
    hand.tab_of("pattern")
    hand.drag((0, 0), (11, 9), 12, 10, "pixels", 12)
    hand.click('#pattern [data-word="patternWrite"]')
    assert hand.looks()[3 * 40 + 3].startswith("%12x10x1/"), hand.looks()[3 * 40 + 3]
    assert "2/1" in hand.text("note"), hand.text("note")
    lines = hand.lines()
    assert len(lines) == 3 and lines[0].startswith("raw 1F23"), lines
    hand.is_true()
    # Once it is defined it is written alone.
    hand.click('#pattern [data-word="patternWrite"]')
    assert len(hand.lines()) == 3 and hand.text("note") == "", (hand.lines(), hand.text("note"))
    assert hand.looks()[3 * 40 + 4].startswith("%12x10x1/"), hand.looks()[3 * 40 + 4]
    hand.is_true()


def a_painted_sign_is_kept_where_another_is_taken(hand):
    """One that wasn't defined yet is defined before, which is said; while a line of the script is wrong it stays."""
    hand.fresh()
    hand.tab_of("pattern")
    hand.drag((0, 0), (11, 9), 12, 10, "pixels", 12)
    hand.click("#pattern button.main")
    one = hand.tab.value(PIXELS)
    # A code without a pattern takes what is painted.
    hand.choose("#pattern-code", "48")
    assert hand.tab.value(PIXELS) == one and len(hand.lines()) == 1, hand.script()
    hand.press(*hand.place(3, 7, 12, 10, "pixels"))
    other = hand.tab.value(PIXELS)
    script = hand.script()
    hand.write_script(script + "frob\n")
    hand.choose("#pattern-code", "33")
    assert hand.tab.value(PIXELS) == other and hand.tab.value("Tamligub.part('pattern-code').value") == "48", hand.tab.value(PIXELS)
    assert "berichtigen" in hand.text("fault"), hand.text("fault")
    hand.write_script(script)
    hand.choose("#pattern-code", "33")
    assert hand.tab.value(PIXELS) == one and hand.text("note") == "Zeichen 3/0 ist nun so belegt, wie es gemalt war.", hand.text("note")
    assert len(hand.lines()) == 2 and other != one, hand.script()
    hand.choose("#pattern-code", "48")
    assert hand.tab.value(PIXELS) == other and len(hand.lines()) == 2, hand.script()
    hand.is_true()


# The lines of the drawing.
DRAWN = "Tamligub.part('drawing').value"


def drawings_are_seen_before_they_are_kept(hand):
    hand.fresh()
    still(hand)
    hand.cell(4, 4)
    hand.type("unter der Zeichnung")
    # A drawing has no size.
    hand.click('[data-size="both"]')
    hand.tab_of("draw")
    for tool, start, end in (("box", (4, 3), (40, 30)), ("line", (0, 71), (79, 0)), ("point", (50, 50), (60, 60)), ("wipe", (10, 10), (20, 20))):
        hand.click(f'[data-tool="{tool}"]')
        hand.drag(start, end)
    drawing = hand.written("drawing.txt", (hand.tab.value("Tamligub.part('drawing').value") + "\n").encode())
    shown, before = hand.looks(), hand.edited()
    plotted = hand.looks_of(hand.written("plotted.btx", hand.put("plot", hand.written("before.btx", before), drawing)))
    assert [look.split(" ")[0] for look in shown] == [look.split(" ")[0] for look in plotted], "seen is something else than plot says"
    assert hand.is_other(before), "nothing was drawn"
    plotted = read(hand.written("plotted.btx", hand.put("plot", hand.written("before.btx", before), drawing)))
    hand.fill("#drawing", "plot 1 1\n\nbox 1 1 90 1\n")
    assert hand.text("draw-fault").startswith("Zeile 3 der Zeichnung: 3 BadNumber"), hand.text("draw-fault")
    for language, said in (("en", "Line 3 of the drawing: 3 BadNumber"), ("de", "Zeile 3 der Zeichnung: 3 BadNumber")):
        hand.choose("#language", language)
        assert hand.text("draw-fault").startswith(said), hand.text("draw-fault")
    hand.fill("#drawing", read(drawing).decode())
    hand.click("#draw button.main")
    assert hand.looks() == shown, "kept is something else than was seen"
    assert hand.is_true() == plotted, "kept are other bytes than those of plot"
    hand.key("z", held=CONTROL)
    assert hand.is_true() == before, "a drawing isn't undone"
    # By the keys alone: a line from a point to another.
    hand.tab.value("Tamligub.part('typing').focus()")
    hand.click('[data-tool="line"]')
    hand.key(" ")
    hand.key("ArrowRight", 5)
    hand.key("ArrowDown", 3)
    hand.key(" ")
    assert hand.tab.value("Tamligub.part('drawing').value").startswith("line "), "no line"
    hand.key("Enter")
    hand.is_true()
    assert hand.lines()[-1].startswith("raw 1F2F44"), hand.lines()[-1]


def a_drawing_is_undone_figure_by_figure(hand):
    """And drawn again: by the keys, by the buttons, and among the lines. Once nothing is drawn actions are undone."""
    hand.fresh()
    still(hand)
    hand.cell(4, 4)
    hand.type("unter der Zeichnung")
    script = hand.script()
    hand.tab_of("draw")
    for tool, start, end in (("box", (4, 3), (40, 30)), ("point", (50, 50), (60, 60)), ("line", (0, 71), (79, 0))):
        hand.click(f'[data-tool="{tool}"]')
        hand.drag(start, end)
    whole = hand.tab.value(DRAWN).split("\n")
    assert len(whole) > 5, whole
    hand.key("z", held=CONTROL)
    assert hand.tab.value(DRAWN).split("\n") == whole[:-1], hand.tab.value(DRAWN)
    # A line of points by hand is one figure.
    hand.click("#undo")
    assert hand.tab.value(DRAWN) == whole[0] and hand.script() == script, hand.tab.value(DRAWN)
    hand.key("y", held=CONTROL)
    hand.click("#redo")
    assert hand.tab.value(DRAWN).split("\n") == whole, hand.tab.value(DRAWN)
    hand.tab.value("Tamligub.part('drawing').focus(), Tamligub.part('drawing').setSelectionRange(1000, 1000)")
    for line in ("plot 7 7", "plot 70 7"):
        hand.key("Enter")
        for key in line:
            hand.key(key)
    shown = hand.looks()
    hand.key("z", held=CONTROL)
    assert hand.tab.value(DRAWN).split("\n") == [*whole, "plot 7 7"] and hand.looks() != shown, hand.tab.value(DRAWN)
    hand.key("z", held=CONTROL)
    assert hand.tab.value(DRAWN).split("\n") == whole, hand.tab.value(DRAWN)
    hand.key("Escape", 2)
    assert hand.tab.value(DRAWN) == "", hand.tab.value(DRAWN)
    hand.key("z", held=CONTROL)
    assert hand.tab.value(DRAWN).split("\n") == whole, "what was given up isn't taken back"
    # One that was stored is undone line by line.
    hand.settle()
    hand.crash()
    still(hand)
    hand.key("z", held=CONTROL)
    assert hand.tab.value(DRAWN).split("\n") == whole[:-1], hand.tab.value(DRAWN)
    hand.key("z", len(whole) - 1, held=CONTROL)
    assert hand.tab.value(DRAWN) == "" and hand.script() == script, hand.script()
    hand.key("z", held=CONTROL)
    assert hand.lines()[-2:] == ["undo", "undo"] and hand.looks() == [BLANK] * 960, hand.script()
    # The figure that is begun is given up before.
    hand.click('[data-tool="line"]')
    hand.key(" ")
    hand.key("ArrowRight", 5)
    hand.key("z", held=CONTROL)
    hand.key(" ")
    assert hand.tab.value(DRAWN) == "" and hand.lines()[-2:] == ["undo", "undo"], hand.script()


def while_drawing_nothing_is_written(hand):
    """Nor does another key do anything at the caret, which isn't seen."""
    hand.fresh()
    still(hand)
    hand.cell(4, 4)
    hand.type("abc")
    script = hand.script()
    hand.tab_of("draw")
    hand.tab.value("Tamligub.part('typing').focus()")
    for act in (lambda: hand.type("x"), lambda: hand.key("Backspace"), lambda: hand.key("Delete")):
        hand.tab.value("Tamligub.editor.tell('')")
        act()
        assert hand.script() == script and "Zeichnen" in hand.text("note"), hand.script()
    hand.tab.call("Input.imeSetComposition", text="´", selectionStart=1, selectionEnd=1)
    hand.tab.call("Input.insertText", text="é")
    for key in ("Home", "PageUp"):
        hand.key(key)
    hand.key(" ")
    hand.key("End")
    hand.key("PageDown")
    hand.key(" ")
    assert hand.tab.value(DRAWN).split("\n")[0] == "plot 0 0" and "79 71" in hand.tab.value(DRAWN), hand.tab.value(DRAWN)
    hand.key("Escape")
    assert hand.script() == script and hand.caret() == (4, 7), hand.script()
    hand.tab_of("pen")
    hand.type("d")
    assert hand.lines()[-1] == "text d" and hand.is_true(), hand.script()


def a_drawing_that_changes_nothing_is_told_and_stays(hand):
    """Where all that it reaches is protected: by its button and where the page is saved. One that reaches another cell is kept."""
    hand.fresh()
    still(hand)
    hand.write_script("protect\nat 3 3\ntext fest\nunprotect\n")
    script, data = hand.script(), hand.is_true()
    hand.tab_of("draw")
    hand.fill("#drawing", "box 4 6 11 8")
    for act in (lambda: None, lambda: hand.click("#draw button.main")):
        act()
        assert hand.text("draw-fault").startswith("Die Zeichnung ändert keine Zelle"), hand.text("draw-fault")
        assert hand.tab.value(DRAWN) == "box 4 6 11 8" and hand.script() == script, hand.script()
    assert hand.kept("#keep-page")[1] == data and "aber ohne" in hand.text("note"), hand.text("note")
    assert hand.tab.value(DRAWN) == "box 4 6 11 8" and hand.text("name").endswith("●"), hand.text("name")
    hand.fill("#drawing", "box 4 6 12 8")
    assert hand.text("draw-fault") == "", hand.text("draw-fault")
    hand.click("#draw button.main")
    assert hand.tab.value(DRAWN) == "" and hand.lines()[-1].startswith("raw 1F2F44"), hand.script()
    assert hand.looks()[2 * 40 + 6].startswith("M"), hand.looks()[2 * 40 + 6]
    hand.is_true()


def another_page_has_no_drawing(hand):
    """What was drawn on the page before is gone with it: its lines, also where the cursor is among them, and what is seen of it."""
    hand.fresh()
    still(hand)
    hand.tab_of("draw")
    hand.click('[data-tool="box"]')
    hand.drag((4, 3), (40, 30))
    hand.click("#drawing")
    hand.leave()
    hand.open(page("title"))
    assert hand.tab.value("Tamligub.part('drawing').value") == "", "the lines are there"
    assert hand.tab.value("document.querySelector('#draw button.main').disabled"), "there is a drawing to keep"
    assert hand.looks() == hand.looks_of(page("title"))


# A module that has no word `plot`: it answers with the status of a word that isn't known.
NO_PLOT = """window.Tamligub = new Proxy({}, { set(target, name, value) {
  const run = (module, word, things) => (word === "plot" ? { status: 2, text: new Uint8Array() } : value(module, word, things));
  target[name] = name === "run" ? run : value;
  return true;
} })"""


def without_plot_only_drawing_is_absent(hand):
    with hand.tab.beforehand(NO_PLOT):
        hand.fresh()
    hand.tab_of("draw")
    assert "plot" in hand.text("draw-hint"), hand.text("draw-hint")
    assert hand.tab.value("[...document.querySelectorAll('[data-tool]')].every((tool) => tool.disabled)"), "a tool can be taken"
    hand.cell(3, 3)
    hand.type("ohne")
    hand.is_true()


def a_bad_line_is_told(hand):
    hand.fresh()
    hand.write_script("at 1 1\ntext A\n\nat 25 1\ntext B\n")
    assert hand.text("script-fault") == "Zeile 4: 3 BadNumber – ROW ist 25, erlaubt ist 1 bis 24", hand.text("script-fault")
    assert hand.looks()[0].startswith("P41") and hand.looks()[1] == BLANK
    assert not hand.tab.value("document.getElementById('band-fault').hidden")
    reasons = (("frob", "1 UnknownWord"), ("at 1", "2 WrongCount"), ("text ö„", "4 BadText"), ("raw 1", "5 BadHex"), ("raw 1C", "6 BadBytes"))
    for bad, said in ((f"{line}\n", f"1: {reason}") for line, reason in reasons):
        hand.write_script(bad)
        assert hand.text("script-fault").startswith(f"Zeile {said}"), hand.text("script-fault")
        files = hand.written("stored.btx", b""), hand.written("bad.txt", bad.encode())
        assert hand.put("edit", *files, wanted=(3,)).decode() == f"script line {said}\n"
    hand.write_script("text ö„\n")
    assert hand.text("script-fault").endswith("„„“ an Stelle 7 gibt es in den Zeichensätzen nicht, aber „\"“"), hand.text("script-fault")
    hand.write_script("raw 1C\n")
    # Nothing is added after a bad line.
    hand.tab.value("Tamligub.part('typing').focus()")
    hand.type("x")
    assert hand.script() == "raw 1C\n" and "berichtigen" in hand.text("fault"), hand.text("fault")
    hand.write_script("at 2 2\ntext gut\n")
    assert hand.text("script-fault") == "" and hand.text("fault") == ""
    hand.is_true()


def as_lists(words):
    """What each word takes, as the editor has it."""
    return {
        name: wanted if isinstance(wanted, str) else [{**number._asdict(), "without": list(number.without)} for number in wanted]
        for name, wanted in words.items()
    }


def the_grammar_is_that_of_btx(hand):
    hand.fresh()
    for kind, words in grammar.WORDS.items():
        assert hand.tab.value(f"Object.fromEntries(Tamligub.GRAMMAR.{kind})") == as_lists(words), kind


def lines_are_stepped_and_pointed_at(hand):
    hand.fresh()
    still(hand)
    script = "at 1 1\ntext AB\n\n# a comment\nrow 4\nat 2 3\nc1 13\ntext C\nundo\nredo\n"
    hand.write_script(script)
    assert hand.shown_script() == script, hand.shown_script()
    changed: dict[int, set[int]] = {}
    for line in hand.put("trace", hand.written("stored.btx", b""), hand.written("lines.txt", script.encode())).decode().splitlines():
        number, row, column, _ = line.split(" ", 3)
        changed.setdefault(int(number), set()).add((int(row) - 1) * 40 + int(column) - 1)
    lines = script.split("\n")[:-1]
    hand.click("#first")
    assert hand.looks() == [BLANK] * 960
    for number, line in enumerate(lines, 1):
        if not line or line.startswith("#"):
            continue
        hand.click("#forward")
        part = hand.written("part.btx", hand.edited("".join(one + "\n" for one in lines[:number])))
        assert hand.looks() == hand.looks_of(part), f"after line {number} something else is shown"
        if number < len(lines):
            assert hand.outlined() == changed.get(number, set()), f"line {number} outlines {hand.outlined()}"
    hand.click("#back")
    assert f"{len(lines) - 1}" in hand.text("script-line"), hand.text("script-line")
    hand.click("#last")
    hand.is_true()
    # The mouse points at a line.
    box = hand.tab.value("(({ left, top }) => [left, top])(Tamligub.part('script').getBoundingClientRect())")
    height = hand.tab.value("Tamligub.editor.script.height()")
    for number in (2, 5, 8):
        hand.hover(box[0] + 20, box[1] + (number - 0.5) * height)
        assert hand.outlined() == changed[number], f"line {number} pointed at"
        assert str(len(changed[number])) in hand.text("script-line") or len(changed[number]) == 1, hand.text("script-line")
    hand.hover(5, 5)
    assert hand.outlined() == set()


def items_of(hand, path):
    """The lines of `list`, and where the bytes of each item end."""
    lines = hand.put("list", path).decode().splitlines()
    return lines, [sum(map(int, line.split(" ", 2)[:2])) for line in lines]


CHOSEN = "document.querySelector('#items [aria-selected=true]').textContent"
MADE = "(document.querySelector('#items [aria-current=true]') || {}).textContent"


def the_items_of_a_page_are_stepped_and_marked(hand):
    """The screen after each is that of the bytes up to its end; the one that made a cell is marked, and none where a line of the script did."""
    stored = read(page("title"))
    hand.fresh(page("title"))
    still(hand)
    lines, ends = items_of(hand, page("title"))
    hand.click("#items-part summary")
    hand.tab.until(f"Tamligub.part('items-count').textContent.endsWith(': {len(lines)}')")
    hand.tab.value("Tamligub.part('items').focus()")
    for number in range(1, 13):
        hand.key("ArrowDown")
        assert hand.tab.value(CHOSEN) == lines[number - 1] == hand.tab.value(MADE), hand.tab.value(CHOSEN)
        assert hand.looks() == hand.looks_of(hand.written("part.btx", stored[: ends[number - 1]])), f"after item {number} something else is shown"
    hand.key("ArrowUp")
    assert hand.tab.value(CHOSEN) == lines[10] and lines[10] in hand.text("items-words"), hand.text("items-words")
    hand.key("Home")
    assert hand.looks() == [BLANK] * 960, "before the first item the screen isn't blank"
    hand.key("End")
    assert hand.looks() == hand.looks_of(page("title")) and hand.tab.value(CHOSEN) == lines[-1], hand.tab.value(CHOSEN)
    made = {}
    for line in hand.put("changes", page("title")).decode().splitlines():
        place, row, column, _ = line.split(" ", 3)
        made[int(row), int(column)] = next(line for line in lines if line.startswith(f"{place} "))
    for row, column in list(made)[:: max(1, len(made) // 9)]:
        hand.cell(row, column)
        assert hand.tab.value(MADE) == made[row, column], f"row {row}, column {column}: {hand.tab.value(MADE)}"
    row, column = min(made)
    hand.cell(row, column)
    hand.type("x")
    hand.cell(row, column)
    assert hand.tab.value(MADE) is None, hand.tab.value(MADE)
    hand.is_true(stored)


def a_page_is_cut_and_made_lines(hand):
    """After an item the page ends, or lines of the script do the same as those behind; both are undone and made again, and outlast a crash."""
    stored = read(page("title"))
    lines, ends = items_of(hand, page("title"))
    number = len(lines) // 2

    def choose(at):
        hand.tab.value(f"Tamligub.part('items-part').open = true, Tamligub.editor.listing.go({at})")

    hand.fresh(page("title"))
    still(hand)
    hand.cell(24, 3)
    hand.type("dazu")
    script, shown = hand.script(), hand.looks()
    choose(number)
    hand.click("#lines-here")
    made = [line for line in hand.script()[: -len(script)].split("\n") if line]
    assert len(made) > 3 and any(line.startswith("at ") for line in made) and hand.script().endswith("\n\n" + script), hand.script()
    assert hand.looks() == shown and str(len(made)) in hand.text("note"), hand.text("note")
    kept = hand.tab.value("Tamligub.editor.sheet.page.length")
    assert kept <= ends[number - 1] and hand.tab.value("Tamligub.editor.keep.isUnsaved()"), kept
    whole = hand.is_true(stored[:kept])
    assert hand.looks_of(hand.written("whole.btx", whole)) == shown, "kept is something else"
    # A line of the old page is changed where it was made.
    other = hand.script().replace(made[-1] + "\n", "", 1)
    hand.write_script(other)
    hand.is_true(stored[:kept])
    hand.write_script("\n".join(made) + "\n\n" + script)
    hand.tab.value("Tamligub.part('typing').focus()")
    hand.key("z", held=CONTROL)
    assert hand.script() == script and hand.tab.value("Tamligub.editor.sheet.page.length") == len(stored), hand.script()
    hand.is_true(stored)
    hand.key("y", held=CONTROL)
    assert hand.tab.value("Tamligub.editor.sheet.page.length") == kept and hand.looks() == shown, hand.script()
    hand.is_true(stored[:kept])
    # The page ends after an item, and the script goes on there.
    hand.fresh(page("title"))
    still(hand)
    choose(number)
    hand.click("#cut-here")
    assert hand.script() == "" and hand.looks() == hand.looks_of(hand.written("cut.btx", stored[: ends[number - 1]])), "the cut shows something else"
    assert hand.text("name").endswith("●"), "a page that was cut is saved"
    hand.kept("#keep-script")
    assert hand.tab.value("Tamligub.editor.keep.isUnsaved()"), "a page that was cut is saved with the script"
    hand.cell(24, 3)
    hand.type("neu")
    hand.is_true(stored[: ends[number - 1]])
    hand.crash()
    still(hand)
    assert hand.lines()[-1] == "text neu"
    hand.is_true(stored[: ends[number - 1]])
    for _ in range(2):
        hand.key("z", held=CONTROL)
    assert hand.script() == "" and hand.looks() == hand.looks_of(page("title")), "a cut isn't undone after a crash"
    hand.is_true(stored)


def lines_that_find_no_room_leave_the_page(hand):
    """Where items would become more lines than a script may have that is told, and the screen shows the page on."""
    stored = read(page("title"))
    hand.fresh(page("title"), hand.written("own.txt", (b"#" * 1023 + b"\n") * 1024))
    still(hand)
    lines, _ = items_of(hand, page("title"))
    hand.tab.value(f"Tamligub.part('items-part').open = true, Tamligub.editor.listing.go({len(lines) // 2})")
    hand.click("#lines-here")
    assert "zu lang" in hand.text("fault"), hand.text("fault")
    assert hand.looks() == hand.looks_of(page("title")), "another page is shown"
    hand.fill("#script", "at 3 3\ntext X\n")
    hand.tab.value("Tamligub.editor.script.settle()")
    assert hand.lines() == ["at 3 3", "text X"] and hand.text("fault") == "", hand.text("fault")
    hand.is_true(stored)


def a_crash_loses_nothing(hand):
    hand.fresh(page("boat"))
    still(hand)
    hand.cell(3, 3)
    hand.type("vor dem Absturz")
    script, shown = hand.script(), hand.looks()
    hand.crash()
    assert hand.script() == script and "boat" in hand.text("name"), hand.script()
    still(hand)
    assert hand.looks() == shown, "after a crash something else is shown"
    assert "Wiederhergestellt" in hand.text("note") or "Restored" in hand.text("note"), hand.text("note")
    hand.is_true(read(page("boat")))
    # A page that was kept isn't restored.
    hand.kept("#keep-page")
    hand.crash()
    assert hand.script() == "", hand.script()
    # One that was left while another editor was open neither.
    hand.type("im ersten")
    with hand.another():
        assert hand.script() == "", "the page of another editor that is open is taken"
        hand.type("im zweiten")
    assert hand.lines()[-1] == "text im ersten"
    hand.crash()
    assert hand.lines()[-1] == "text im zweiten", hand.script()


# A storage without room while `full` is true, and locks that are refused, as a browser refuses them where a document has no origin.
REFUSED = """(() => {
  const { setItem } = Storage.prototype;
  window.full = true;
  Storage.prototype.setItem = function put(...given) {
    if (window.full) throw new DOMException("full", "QuotaExceededError");
    setItem.apply(this, given);
  };
  if (!window.LockManager) return;
  const refuses = () => Promise.reject(new DOMException("refused", "SecurityError"));
  Object.assign(LockManager.prototype, { query: refuses, request: refuses });
})()"""


def what_the_browser_does_not_keep_is_told(hand):
    """At the start and for some keys, and anew where there is no room once more."""
    hand.fresh()
    hand.leave()
    with hand.tab.beforehand(REFUSED):
        hand.tab.open(hand.path, "editor")
    assert "nicht aufheben" in hand.text("note"), hand.text("note")
    hand.type("ab")
    assert "nicht aufheben" in hand.text("note"), "the warning is gone with the next key"
    hand.cell(3, 3)
    hand.type("c")
    hand.settle()
    assert hand.text("note") == "", hand.text("note")
    for full, said in (("false", ""), ("true", "Der Browser kann diese Seite nicht aufheben; bitte öfter sichern.")):
        hand.tab.value(f"window.full = {full}")
        hand.type("d")
        hand.settle()
        assert hand.text("note") == said, hand.text("note")


def a_script_that_ends_without_a_line_feed_is_saved(hand):
    hand.fresh(page("boat"), hand.written("own.txt", b"at 3 3\ntext X"))
    assert hand.lines() == ["at 3 3", "text X"] and hand.text("name") == "boat.btx", hand.text("name")
    assert hand.tab.value(IS_LEFT), "what was opened is asked about"
    hand.crash()
    assert hand.script() == "" and hand.text("name") == "neue Seite", hand.text("name")


# Whether the page may be left without a question.
IS_LEFT = """(() => { const event = new Event('beforeunload', { cancelable: true });
  window.dispatchEvent(event); return !event.defaultPrevented; })()"""


def an_unsaved_page_is_asked_about(hand):
    hand.fresh(page("title"))
    hand.click("#new")
    assert not hand.tab.value("Tamligub.part('unsaved').open") and hand.tab.value("Tamligub.editor.sheet.page.length") == 0
    hand.open(page("title"))
    hand.cell(24, 1)
    hand.type("x")
    assert hand.text("name").endswith("●"), hand.text("name")
    hand.click("#new")
    hand.tab.until("Tamligub.part('unsaved').open")
    hand.click("#unsaved-stay")
    assert hand.tab.value("Tamligub.editor.sheet.page.length") > 0 and hand.lines()[-1] == "text x"
    assert not hand.tab.value(IS_LEFT), "an unsaved page is left without a word"
    hand.kept("#keep-page")
    assert hand.tab.value(IS_LEFT) and not hand.text("name").endswith("●")
    hand.cell(24, 1)
    hand.type("y")
    hand.click("#new")
    hand.tab.until("Tamligub.part('unsaved').open")
    hand.click("#unsaved-leave")
    hand.tab.until("Tamligub.editor.sheet.page.length === 0")
    assert hand.script() == ""


PIXELS = "Tamligub.editor.pattern.pixels.join('')"


def a_drawing_is_asked_about_and_outlasts_a_crash(hand):
    """A drawing that isn't kept yet counts as unsaved; saving the page keeps it first, or says that it isn't in the page."""
    hand.fresh()
    still(hand)
    hand.tab_of("draw")
    hand.click('[data-tool="box"]')
    hand.drag((4, 3), (40, 30))
    assert hand.text("name").endswith("●") and not hand.tab.value(IS_LEFT), "a drawing is left without a word"
    hand.click("#new")
    hand.tab.until("Tamligub.part('unsaved').open")
    hand.click("#unsaved-stay")
    hand.settle()
    lines, shown = hand.tab.value("Tamligub.part('drawing').value"), hand.looks()
    hand.crash()
    still(hand)
    assert lines and hand.tab.value("Tamligub.part('drawing').value") == lines and hand.looks() == shown, "the drawing is lost by a crash"
    assert not hand.tab.value("Tamligub.part('draw').hidden"), "it isn't seen that something is drawn"
    assert hand.tab.value("document.documentElement.lang + Tamligub.part('language').value") == "dede", "another language than the one chosen"
    data = hand.kept("#keep-page")[1]
    assert data == hand.edited() and hand.looks_of(hand.written("drawn.btx", data)) == shown, "the drawing isn't in the page"
    assert not hand.text("name").endswith("●") and hand.text("note") == "seite.btx ist gesichert.", hand.text("note")
    # Lines of which one is wrong stay, and are told.
    hand.fill("#drawing", "plot 1 1\nbox 1 1 90 1\n")
    assert hand.kept("#keep-page")[1] == data and "aber ohne" in hand.text("note"), hand.text("note")
    hand.click("#draw button.main")
    assert hand.text("name").endswith("●") and hand.tab.value("Tamligub.part('drawing').value").startswith("plot 1 1"), hand.text("name")
    for number, selector in enumerate(("#keep-script", "#keep-picture", "#keep-html")):
        hand.fill("#drawing", f"plot 9 {number}\n")
        hand.kept(selector)
        assert hand.lines()[-1].startswith("raw 1F2F44") and hand.tab.value("Tamligub.part('drawing').value") == "", f"{selector} keeps no drawing"
    # While a line of the script is wrong nothing drawn becomes lines: script and picture are kept without it, which is said.
    script = hand.script()
    hand.write_script(script + "textt x\n")
    hand.fill("#drawing", "plot 3 3\n")
    for selector in ("#keep-script", "#keep-picture"):
        hand.kept(selector)
        assert "aber ohne" in hand.text("note"), (selector, hand.text("note"), hand.text("fault"))
    hand.write_script(script)
    hand.click('#draw [data-word="drawDrop"]')
    hand.kept("#keep-page")
    assert hand.tab.value(IS_LEFT), "what was thrown away is asked about"


def a_painted_sign_is_asked_about_and_outlasts_a_crash(hand):
    hand.fresh()
    hand.tab_of("pattern")
    hand.choose("#pattern-size", "6x10")
    assert hand.tab.value(IS_LEFT), "nothing was painted"
    hand.choose("#pattern-code", "80")
    hand.press(*hand.place(2, 3, 6, 10, "pixels"))
    hand.settle()
    pixels = hand.tab.value(PIXELS)
    assert hand.text("name").endswith("●") and not hand.tab.value(IS_LEFT), "a sign is left without a word"
    hand.crash()
    assert hand.tab.value(PIXELS) == pixels and "1" in pixels, "the sign is lost by a crash"
    assert hand.tab.value("[Tamligub.part('pattern-code').value, Tamligub.part('pattern-size').value]") == ["80", "6x10"]
    data = hand.kept("#keep-page")[1]
    assert hand.lines()[-1].startswith("raw 1F23") and data == hand.edited(), hand.script()
    assert not hand.text("name").endswith("●") and hand.tab.value(IS_LEFT), "what was saved is asked about"


def a_sign_is_cleared_beyond_its_form(hand):
    hand.fresh()
    hand.tab_of("pattern")
    hand.choose("#pattern-size", "12x12")
    hand.press(*hand.place(10, 10, 12, 12, "pixels"))
    hand.choose("#pattern-size", "6x5")
    assert not hand.tab.value(IS_LEFT), "a sign is left without a word"
    hand.click('#pattern [data-word="patternClear"]')
    assert hand.tab.value(IS_LEFT) and not hand.text("name").endswith("●"), "what was cleared is asked about"
    hand.kept("#keep-page")
    assert hand.lines() == [], hand.script()


def refused_items_are_told(hand):
    hand.fresh(page("refused"))
    want = [line.split(" ")[1:] for line in hand.put("check", page("refused")).decode().splitlines() if line.startswith("!")]
    said = hand.tab.value("[...document.querySelectorAll('#refusals li')].map((one) => one.textContent)")
    assert said == [f"Byte {place}, Länge {length}: {number} {name}" for place, length, number, name in want], said
    hand.open(page("title"))
    assert hand.tab.value("Tamligub.part('refusals-part').hidden")
    longer = hand.written("longer.btx", bytes((1 << 24) + 1))
    hand.open(longer)
    assert "zu lang" in hand.text("fault"), hand.text("fault")
    os.remove(longer)
    hand.open(hand.written("latin.txt", "at 1 1\ntext Größe\n".encode("latin-1")))
    hand.tab.until("Tamligub.part('fault').textContent.startsWith('latin.txt ist nicht in UTF-8')")
    assert hand.lines() == [], hand.lines()
    hand.fill("#script", "at 1 1\n")
    assert hand.text("fault") == "" and hand.lines() == ["at 1 1"]
    hand.fill("#script", "#" * (1 << 20) + "\n")
    assert hand.text("fault").startswith("Skript ist zu lang"), hand.text("fault")
    assert hand.tab.value("Tamligub.part('script').value") == "at 1 1\n", "another script is seen than is there"
    hand.write_script("# a comment\n" * 5 + "#" * (1 << 20))
    assert hand.text("fault").startswith("Skript ist zu lang") and hand.lines() == ["at 1 1"], hand.text("fault")
    hand.fill("#script", "at 1 2\n")
    assert hand.text("fault") == "" and hand.lines() == ["at 1 2"]


def a_script_that_is_too_long_is_not_opened(hand):
    """Page and script that are open stay, and are kept."""
    stored, script = read(page("boat")), "at 3 3\ntext X\n"
    hand.fresh(page("boat"), hand.written("own.txt", script.encode()))
    still(hand)
    longer = hand.written("longer.script", b"#" * (1 << 20))
    for files in ([longer], [longer, page("title")]):
        hand.tab.value("Tamligub.editor.tell('')")
        hand.open(*files)
        assert hand.text("fault").startswith("longer.script ist zu lang"), hand.text("fault")
        assert hand.script() == hand.shown_script() == script and hand.text("name") == "boat.btx", (hand.text("name"), hand.script())
        whole = hand.is_true(stored)
    assert hand.kept("#keep-page") == ("boat.btx", whole), "another page is kept"


def a_long_drawing_is_opened_and_undone(hand):
    """Line by line; after a crash too."""
    lines = [f"{word} {x} {y}" for word in ("plot", "unplot", "plot") for x in range(80) for y in range(72)]
    hand.fresh(page("boat"))
    still(hand)
    choose_file(hand, hand.written("long.drawing", "\n".join(lines).encode()))
    hand.tab.until(f"Tamligub.part('drawing').value.length === {len(chr(10).join(lines))}")
    hand.key("z", 2, held=CONTROL)
    assert hand.tab.value(DRAWN).split("\n") == lines[:-2], "not the last lines are undone"
    hand.settle()
    hand.crash()
    still(hand)
    hand.key("z", held=CONTROL)
    assert hand.tab.value(DRAWN).split("\n") == lines[:-3], "not the last line is undone after a crash"


def a_drawing_that_is_too_long_is_told(hand):
    """It isn't opened, and what is drawn stays; written by hand it is told, and all that is kept is without it."""
    hand.fresh(page("boat"))
    still(hand)
    hand.tab_of("draw")
    hand.fill("#drawing", "plot 3 3")
    longer = hand.written("longer.drawing", b"plot 1 1\nplot 1 2\n" * 59000)
    for files in ([longer], [longer, page("title")]):
        hand.tab.value("Tamligub.editor.tell('')")
        hand.open(*files)
        assert hand.text("fault").startswith("longer.drawing ist zu lang"), hand.text("fault")
        assert hand.tab.value(DRAWN) == "plot 3 3" and hand.text("name") == "boat.btx ●", hand.text("name")
    hand.fill("#drawing", "#" * (1 << 20))
    assert hand.text("draw-fault").startswith("Die Zeichnung ist zu lang"), hand.text("draw-fault")
    for selector in ("#keep-page", "#keep-script", "#keep-picture", "#keep-html"):
        hand.kept(selector)
        assert "aber ohne" in hand.text("note"), (selector, hand.text("note"), hand.text("fault"))
    hand.click('#draw [data-word="drawDrop"]')
    assert hand.text("draw-fault") == "", hand.text("draw-fault")
    # One that finds no room in the script stays as it is.
    hand.fill("#drawing", "#" * ((1 << 20) - 10) + "\nplot 3 3")
    shown = hand.looks()
    hand.click("#draw button.main")
    assert "zu lang" in hand.text("draw-fault") and hand.lines() == [], hand.text("draw-fault")
    assert hand.tab.value(DRAWN).endswith("#\nplot 3 3") and hand.looks() == shown, "the drawing is lost"


def what_ends_in_a_question_is_told(hand):
    """Where the page can't be saved that is asked about."""
    hand.fresh(page("title"))
    hand.cell(24, 1)
    hand.type("x")
    hand.tab.value("Tamligub.editor.keep.keepPage = () => { throw new Tamligub.AskFault('edit', 7); }, 0")
    hand.click("#new")
    hand.tab.until("Tamligub.part('unsaved').open")
    hand.click("#unsaved-keep")
    hand.tab.until("Tamligub.part('fault').textContent.startsWith('Skript ist zu lang')")
    assert hand.lines()[-1] == "text x", hand.script()


# Whether the browser does by itself what it does with what is dragged over a field: a file, or a text.
DRAGGED = """['file', 'text'].map((kind) => {
  const dataTransfer = new DataTransfer();
  if (kind === 'file') dataTransfer.items.add(new File([], 'none.png'));
  else dataTransfer.setData('text/plain', 'text X');
  const event = new DragEvent('dragover', { bubbles: true, cancelable: true, dataTransfer });
  return Tamligub.part('script').dispatchEvent(event);
})"""


def texts_are_dragged_in_fields(hand):
    hand.fresh()
    assert hand.tab.value(DRAGGED) == [False, True], hand.tab.value(DRAGGED)


def a_message_ends_with_its_page(hand):
    """What was told of one page isn't told of the next, nor in another language."""
    hand.fresh()
    hand.click("#tidy")
    assert hand.text("note"), "nothing is told"
    hand.open(page("title"))
    assert hand.text("note") == hand.text("state") == "", hand.text("note")
    longer = hand.written("longer.script", b"#" * (1 << 20) + b"\n")
    hand.open(longer)
    assert "zu lang" in hand.text("fault"), hand.text("fault")
    hand.click("#new")
    hand.tab.until("Tamligub.editor.sheet.page.length === 0")
    assert hand.text("fault") == "", hand.text("fault")
    hand.click("#tidy")
    hand.choose("#language", "en")
    assert hand.text("note") == "", hand.text("note")


SAME_PICTURE = """async (pictures) => {
  const [one, other] = await Promise.all(pictures.map(async (data) => {
    const image = new Image();
    image.src = "data:image/png;base64," + data;
    await image.decode();
    const canvas = document.createElement("canvas");
    [canvas.width, canvas.height] = [image.naturalWidth, image.naturalHeight];
    canvas.getContext("2d").drawImage(image, 0, 0);
    return canvas.getContext("2d").getImageData(0, 0, canvas.width, canvas.height).data;
  }));
  return one.length === other.length && one.every((byte, at) => byte === other[at]);
}"""


def what_is_kept(hand):
    """Page, script, picture and HTML; a page and its script are opened again."""
    stored = read(page("flashing"))
    hand.fresh(page("flashing"))
    still(hand)
    hand.cell(22, 3)
    hand.type("für Ülk <script>")
    shown = hand.looks()
    (name, data), (script_name, script) = hand.kept("#keep-page"), hand.kept("#keep-script")
    assert (name, script_name) == ("flashing.btx", "flashing.txt") and script.decode() == hand.script()
    assert data == hand.edited(page=stored), "another page is kept"
    picture_name, picture = hand.kept("#keep-picture")
    html_name, html = hand.kept("#keep-html")
    kept = hand.written("flashing.btx", data)
    pictures = [base64.b64encode(one).decode() for one in (picture, btx(hand, "png", kept))]
    assert picture_name == "flashing.png" and hand.tab.value(f"({SAME_PICTURE})({json.dumps(pictures)})"), "the picture isn't that of btx png"
    assert html_name == "flashing.html" and html == btx(hand, "html", kept), "the HTML isn't that of btx html"
    hand.fresh(page("flashing"), hand.written("flashing.txt", script))
    still(hand)
    assert hand.looks() == shown and hand.script() == script.decode(), "page and script opened again show something else"


def the_picture_reveals_what_is_revealed(hand):
    hand.fresh()
    hand.write_script("at 3 3\nc1 24\ntext geheim\n")
    kept = hand.written("concealed.btx", hand.edited())
    for words in ((), ("--reveal",)):
        pictures = [base64.b64encode(one).decode() for one in (hand.kept("#keep-picture")[1], btx(hand, "png", *words, kept))]
        assert hand.tab.value(f"({SAME_PICTURE})({json.dumps(pictures)})"), f"the picture isn't that of btx png {words}"
        hand.click("#reveal")


def what_is_not_opened_is_told(hand):
    """One of two pages, and what is no page by its name."""
    hand.fresh(page("title"), page("boat"))
    assert hand.text("name") == "title.btx" and "Nicht geöffnet: boat.btx;" in hand.text("note"), hand.text("note")
    hand.open(hand.written("README.md", b"# A"))
    assert hand.text("name") == "README.md" and hand.text("note").startswith("README.md ist als Seite geöffnet"), hand.text("note")
    # A script that isn't in UTF-8 keeps nothing else closed.
    hand.open(hand.written("latin.txt", "at 3 3\ntext Größe\n".encode("latin-1")), page("boat"))
    hand.tab.until("Tamligub.part('name').textContent === 'boat.btx'")
    assert hand.text("fault").startswith("latin.txt ist nicht in UTF-8") and hand.looks() == hand.looks_of(page("boat")), hand.text("fault")


def a_drawing_is_opened(hand):
    """It goes into the field of the tab Draw, behind what is drawn there; kept, the page shows what `plot` makes of it. So does one that is named
    as a script, by its first word."""
    drawing = os.path.join(PAGES, "weather.drawing")
    opens_a_drawing(hand, drawing)
    opens_a_drawing(hand, hand.written("weather.txt", b"# clouds\n" + read(drawing)))
    # A page, a script and a drawing that is named as one, at once and in any order.
    named = hand.written("box.txt", b"box 0 0 9 9\n")
    hand.fresh(named, hand.written("own.txt", b"at 3 3\ntext X\n"), page("boat"))
    assert hand.lines() == ["at 3 3", "text X"] and hand.tab.value("Tamligub.part('drawing').value") == "box 0 0 9 9", hand.text("note")
    assert hand.text("name") == "boat.btx ●", hand.text("name")


def choose_file(hand, path):
    root = hand.tab.call("DOM.getDocument")["root"]["nodeId"]
    node = hand.tab.call("DOM.querySelector", nodeId=root, selector="#file")["nodeId"]
    hand.tab.call("DOM.setFileInputFiles", nodeId=node, files=[path])


def opens_a_drawing(hand, drawing):
    lines = [line for line in read(drawing).decode().split("\n") if line]
    hand.fresh(page("weather"))
    hand.tab_of("draw")
    hand.fill("#drawing", "plot 79 71")
    hand.tab_of("pen")
    choose_file(hand, drawing)
    hand.tab.until(f"Tamligub.part('drawing').value.split('\\n').length > {len(lines)}")
    assert hand.tab.value("Tamligub.part('drawing').value").split("\n") == ["plot 79 71", *lines]
    assert hand.text("name") == "weather.btx ●" and hand.tab.value("Tamligub.part('draw').hidden") is False, hand.text("name")
    hand.click("#draw button.main")
    hand.is_true(read(page("weather")))
    drawn = hand.put("plot", page("weather"), hand.written("all.drawing", b"plot 79 71\n" + read(drawing)))
    shapes = [[look.split(" ")[0] for look in looks] for looks in (hand.looks(), hand.looks_of(hand.written("drawn.btx", drawn)))]
    assert shapes[0] == shapes[1], "the drawing shows something else"


# What is seen after each of two rounds of turns.
SAMPLES = """new Promise((done) => {
  const { editor } = Tamligub;
  const samples = [];
  const seeGrid = editor.seeGrid;
  editor.seeGrid = (grid) => {
    seeGrid.call(editor, grid);
    samples.push(Array.from(editor.screen.shown, (number) => editor.screen.looks[number].text));
    if (samples.length < 12) return;
    delete editor.seeGrid;
    done(samples);
  };
})"""


def what_flashes_is_that_of_flash(hand):
    """Each of six phases is shown in turn, and nothing else; without the flash all signs are seen."""
    hand.fresh(page("flashing"))
    if not hand.tab.value("Tamligub.part('flash').checked"):
        hand.click("#flash")
    hand.cell(24, 1)
    hand.type("x")
    hand.settle()
    kept = hand.written("edited.btx", hand.edited(page=read(page("flashing"))))
    phases = [[BLANK] * 960]
    for line in hand.put("flash", kept, "5").decode().splitlines():
        turn, row, column, look = line.split(" ", 3)
        while len(phases) <= int(turn):
            phases.append(phases[-1][:])
        phases[int(turn)][(int(row) - 1) * 40 + int(column) - 1] = look
    phases += [phases[-1]] * (6 - len(phases))
    shown = hand.tab.value(SAMPLES)
    rounds = [[phases[(first + at) % 6] for at in range(12)] for first in range(6)]
    assert shown in rounds, "other phases than those of flash are shown, or in another order"
    still(hand)
    hand.is_true(read(page("flashing")))
    assert hand.tab.value("Tamligub.editor.screen.looks.every((look) => look.flash === 'S')"), "a sign is hidden"


# A number for each cell, by the colours of its pixels.
CELLS_SEEN = """(() => {
  const { page, cellWidth, cellHeight } = Tamligub.editor.screen;
  const brush = page.getContext("2d");
  return Array.from({ length: 960 }, (_, cell) => {
    const [x, y] = [(cell % 40) * cellWidth, Math.floor(cell / 40) * cellHeight];
    const words = new Uint32Array(brush.getImageData(x, y, cellWidth, cellHeight).data.buffer);
    return words.reduce((sum, word) => Math.imul(sum ^ word, 16777619), 2166136261) >>> 0;
  });
})()"""


def letters_of_the_browsers_font_take_the_place_of_dots(hand):
    """Where they are asked for each letter is another picture in its cell, what is written then too; mosaics, patterns and what is kept stay."""
    hand.fresh(page("title"))
    still(hand)
    hand.cell(24, 3)
    hand.type("Gr")
    dots = hand.tab.value(CELLS_SEEN)
    hand.click("#font")
    hand.cell(24, 5)
    hand.type("oß")
    looks, seen = hand.looks(), hand.tab.value(CELLS_SEEN)
    blank = seen[looks.index(BLANK)]
    for cell, look in enumerate(looks):
        at = f"{look} at row {cell // 40 + 1}, column {cell % 40 + 1}"
        # Of a letter of double size a part may be empty in both.
        if look[0] in "PS" and look.split(" ")[1] == "11.00":
            assert seen[cell] not in (dots[cell], blank), f"{at} isn't a letter of the font"
        elif look[0] not in "PS":
            assert seen[cell] == dots[cell], f"{at} is another"
    assert sum(look[0] in "PS" for look in looks) > 40 and sum(look[0] in "MN" for look in looks) > 10, "the page has no letters and mosaics"
    picture = hand.kept("#keep-picture")[1]
    kept = hand.written("lettered.btx", hand.edited(page=read(page("title"))))
    pictures = [base64.b64encode(one).decode() for one in (picture, btx(hand, "png", kept))]
    assert hand.tab.value(f"({SAME_PICTURE})({json.dumps(pictures)})"), "the picture that is kept isn't that of btx png"
    hand.click("#font")
    back = hand.tab.value(CELLS_SEEN)
    assert [cell for cell in range(960) if back[cell] != dots[cell]] == [23 * 40 + 4, 23 * 40 + 5], "the dots aren't as before"


def tidying_takes_undone_lines_out(hand):
    hand.fresh()
    still(hand)
    hand.cell(2, 2)
    hand.type("bleibt")
    hand.cell(3, 3)
    hand.type("gehört weg")
    hand.key("z", held=CONTROL)
    hand.cell(4, 4)
    hand.type("bleibt auch")
    before, script = hand.is_true(), hand.script()
    hand.click("#tidy")
    assert hand.script() == "at 2 2\ntext bleibt\n\nat 4 4\ntext bleibt auch\n", hand.script()
    assert hand.text("note") == "Das Skript ist aufgeräumt.", hand.text("note")
    hand.click("#tidy")
    assert hand.text("note") == "Im Skript ist nichts aufzuräumen.", hand.text("note")
    assert hand.is_true() == before
    # What was taken out comes back, by a key or the button, on the screen and in the script.
    tidy = hand.script()
    hand.key("z", held=CONTROL)
    assert hand.script() == script and hand.shown_script() == script, hand.script()
    hand.click("#tidy")
    hand.click("#undo")
    assert hand.script() == script and hand.is_true() == before, hand.script()
    hand.click("#tidy")
    hand.tab.value("Tamligub.part('script').focus()")
    for key, text in (("z", script), ("y", tidy), ("z", script), ("y", tidy)):
        hand.key(key, held=CONTROL)
        assert hand.script() == text, hand.script()
    hand.key("Escape")
    hand.key("z", held=CONTROL)
    assert hand.lines()[-2:] == ["undo"] * 2, hand.script()
    hand.key("y", held=CONTROL)
    assert hand.is_true() == before


def the_keyboard_alone_does_all(hand):
    """Text in colour, a mosaic, a pattern, a line of the script; and each control is reached by Tab or by the arrow keys."""
    hand.fresh()
    still(hand)
    hand.tab.value("document.activeElement.blur(), document.body.focus()")
    reached = set()
    for _ in range(200):
        hand.key("Tab")
        reached.add(hand.tab.value("document.activeElement.id || document.activeElement.dataset.word || document.activeElement.tagName"))
    for name in ("new", "open", "keep-page", "keep-script", "keep-picture", "keep-html", "undo", "redo", "language", "typing", "reveal", "flash",
                 "font", "tab-pen", "first", "back", "step", "forward", "last", "tidy", "script"):
        assert name in reached, f"{name} isn't reached by Tab: {sorted(reached)}"
    hand.go_to("#typing")
    hand.key("ArrowDown", 4)
    hand.key("ArrowRight", 2)
    hand.go_to('[data-none="fore"]')
    hand.key("ArrowRight", 3)
    hand.key(" ")
    hand.key("Escape")
    hand.type("Gruen")
    assert hand.lines() == ["at 5 3", "c1 2", "text Gruen"], hand.script()
    hand.go_to("#tab-pen")
    hand.key("ArrowRight")
    hand.key("Enter")
    hand.go_to("button.sign")
    hand.key("ArrowDown")
    hand.key("Enter")
    assert hand.lines()[-1].startswith("raw 0E"), hand.script()
    hand.go_to("#tab-mosaic")
    hand.key("ArrowRight", 2)
    hand.key("Enter")
    hand.go_to("#pixels")
    for _ in range(4):
        hand.key(" ")
        hand.key("ArrowRight")
        hand.key("ArrowDown")
    hand.go_to("#pattern button.main")
    hand.key("Enter")
    hand.go_to('#pattern [data-word="patternWrite"]')
    hand.key("Enter")
    assert any(look.startswith("%12x10x1/") for look in hand.looks()), "no pattern is shown"
    hand.go_to("#script")
    hand.key("End", held=CONTROL)
    hand.tab.call("Input.insertText", text="at 9 9\ntext von Hand\n")
    assert hand.lines()[-1] == "text von Hand"
    hand.key("Escape")
    hand.key("z", held=CONTROL)
    hand.is_true()
    hand.key("s", held=CONTROL)
    hand.tab.until("!Tamligub.editor.keep.isUnsaved()")


def every_control_has_a_name_in_both_languages(hand):
    hand.fresh()
    same = hand.tab.value("JSON.stringify(Object.keys(Tamligub.TABLES.de)) === JSON.stringify(Object.keys(Tamligub.TABLES.en))")
    assert same, "the two tables have other keys"
    names = """[...document.querySelectorAll("button, input:not([hidden]), select, textarea, canvas[tabindex]")].map((one) => {
      const label = one.labels && one.labels.length ? one.labels[0].textContent.trim() : "";
      return [one.outerHTML.slice(0, 120), one.getAttribute("aria-label") || label || one.textContent.trim()];
    })"""
    # Who says what stands on a control means that one.
    others = """[...document.querySelectorAll("button[data-word][aria-label]")].map((one) => [one.textContent, one.getAttribute("aria-label")])
      .filter(([seen, name]) => !name.includes(seen))"""
    seen = {}
    for language in ("de", "en"):
        hand.choose("#language", language)
        assert hand.tab.value(others) == [], hand.tab.value(others)
        assert hand.tab.value("document.documentElement.lang") == language
        assert hand.text("pixel-words").startswith({"de": "Punkt 1, 1: ", "en": "Pixel 1, 1: "}[language]), hand.text("pixel-words")
        found = hand.tab.value(names)
        assert len(found) > 150, len(found)
        bad = [one for one in found if not one[1] or "undefined" in one[1] or "{" in one[1]]
        assert not bad, bad[:3]
        seen[language] = [name for _, name in found]
    other = sum(one != two for one, two in zip(seen["de"], seen["en"]))
    assert other > 80, f"only {other} names differ between the languages"
    access.all_is_named(hand.tab, 25)


# How far the screen begins below a note.
BELOW = "Tamligub.part('screen').getBoundingClientRect().top - Tamligub.part('note').getBoundingClientRect().bottom"
# Where the tools and the screen are.
PLACES = """["tools", "screen"].map((id) => {
  const box = Tamligub.part(id).getBoundingClientRect();
  return [box.left, box.top, box.height];
})"""


def nothing_moves_under_the_pointer(hand):
    """Neither where a cell is told nor by a note: both have room of their own, and a place is told whole in the title."""
    for language in ("de", "en"):
        for size in ((1024, 700), (1280, 900), (1366, 768), (1440, 900)):
            hand.fresh(size=size, language=language)
            hand.hover(5, 5)
            hand.tab.value("Tamligub.editor.tell(''), 0")
            before = hand.tab.value(PLACES)
            hand.cell(24, 40)
            hand.type("xy")
            hand.type("\u201eFr\u00fchling\u201c \u2013 5 \u20ac \u2026 \u201aab\u2018 Mai \u2014 Tel. \u260e 0731 \u2713 \u201cneu\u201d")
            assert hand.text("note") and hand.tab.value("Tamligub.part('note').title") == hand.text("note"), "nothing is told"
            assert hand.tab.value(BELOW) >= 0, "a note lies over the screen"
            hand.hover(*hand.place(39, 23, 40, 24))
            assert "78" in hand.text("where") and hand.tab.value("Tamligub.part('where').title") == hand.text("where"), hand.text("where")
            assert hand.tab.value(PLACES) == before, f"{language}, {size}: {before} has become {hand.tab.value(PLACES)}"
            hand.write_script("no such line\n")
            hand.cell(3, 3)
            hand.type("x")
            assert hand.text("fault"), "no fault is told"
            assert hand.tab.value(PLACES) == before, f"{language}, {size}: {before} has become {hand.tab.value(PLACES)}"
            assert hand.caret() == (3, 3), hand.caret()


def it_fits_small_screens(hand):
    hand.fresh(page("title"))
    for width, height in ((1024, 700), (1280, 800), (768, 1024), (820, 1180), (320, 640)):
        access.laid_out(hand.tab, width, height)
        for panel in PANELS:
            hand.tab.value(f"Tamligub.part('tab-{panel}').click()")
            wide, high = hand.tab.value("[document.documentElement.scrollWidth, document.documentElement.scrollHeight]")
            assert wide <= width, f"{panel} is wider than {width}: {wide}"
            assert (width, height) != (1024, 700) or high <= 712, f"{panel} at 1024 by 700 is {high} high"
    access.laid_out(hand.tab, 768, 1024)
    hand.cell(5, 5)
    hand.type("x")
    hand.is_true(read(page("title")))


PANELS = ("pen", "mosaic", "draw", "pattern", "sheet", "colours")


def each_panel_serves_a_person_without_a_mouse(hand):
    """Names, contrast, the way of the focus, and twice as large, over a page with refused items and a script with a bad line; and the help."""
    hand.fresh(page("refused"), hand.written("bad.txt", b"at 3 4\ntext abc\nno such line\n"))
    assert hand.text("script-fault"), "the bad line isn't told"
    hand.tab.value("Tamligub.part('items-part').open = true")
    hand.tab.until("document.querySelectorAll('#items [role=option]').length > 3")
    for panel in PANELS:
        hand.tab_of(panel)
        access.all_is_named(hand.tab, 25)
        access.all_has_contrast(hand.tab)
        access.the_focus_goes_through_all(hand.tab)
        access.nothing_is_lost_twice_as_large(hand.tab)
    hand.tab.value("Tamligub.part('help').click()")
    access.all_has_contrast(hand.tab)
    hand.tab.value("Tamligub.part('help-close').click()")


def with_less_motion_nothing_moves(hand):
    access.media(hand.tab, prefers_reduced_motion="reduce")
    try:
        hand.fresh(page("flashing"))
        assert not hand.tab.value("Tamligub.part('flash').checked"), "it flashes"
        hand.tab.value("Tamligub.part('typing').focus()")
        access.nothing_moves(hand.tab)
    finally:
        access.media(hand.tab)


def a_finger_places_the_caret(hand):
    hand.fresh(size=(820, 1180))
    x, y = hand.place(6, 7, 40, 24)
    hand.tab.call("Input.dispatchTouchEvent", type="touchStart", touchPoints=[{"x": x, "y": y}])
    hand.tab.call("Input.dispatchTouchEvent", type="touchEnd", touchPoints=[])
    assert hand.caret() == (8, 7), hand.caret()
    hand.type("Ton")
    assert hand.lines() == ["at 8 7", "text Ton"], hand.script()


def random_actions_show_what_the_program_says(hand):
    """Actions in any order, on a blank page and on stored ones; undo and redo among them."""
    draws = random.Random(7)
    for name in (None, "boat", "house", "service", "form"):
        hand.fresh(*([page(name)] if name else []))
        still(hand)
        stored = read(page(name)) if name else b""
        for _ in range(40):
            act = draws.randrange(12)
            if act < 3:
                hand.cell(draws.randint(1, 24), draws.randint(1, 40))
            elif act < 6:
                hand.type(draws.choice(["Abc", "größer", "x y", "Ä"]))
            elif act == 6:
                hand.click("#pen [data-set], #pen .swatch, #pen-parallel button", draws.randrange(26))
            elif act == 7:
                hand.key(draws.choice(["Enter", "Backspace", "Delete"]))
            elif act == 8:
                hand.key("z", draws.randint(1, 3), held=CONTROL)
            elif act == 9:
                hand.key("y", held=CONTROL)
            elif act == 10:
                hand.key(draws.choice(["ArrowUp", "ArrowRight"]), 2)
            else:
                hand.click("#undo" if draws.random() < 0.5 else "#redo")
            hand.is_true(stored) if draws.random() < 0.3 else None
        hand.is_true(stored)


def lines_end_a_break_of_the_page(hand):
    """A long page that ends in a service's break: a line by hand ends it, and what the service kept comes back."""
    stored = b"\x1f\x45\x45" + bytes(0x21 + at % 94 for at in range(5000)) + b"\x1f\x2f\x40\x58"
    hand.fresh(hand.written("break.btx", stored))
    hand.settle()
    hand.cell(3, 3)
    hand.type("a")
    hand.fill("#script", hand.script() + "raw 1F2F4F\ntext B\n")
    hand.settle()
    assert hand.tab.value("Tamligub.part('report-page').dataset.same") == "true", hand.text("report-page")
    hand.is_true(stored)
    hand.cell(4, 4)
    hand.type("c")
    hand.is_true(stored)


def no_other_script_runs(hand):
    hand.fresh()
    assert hand.tab.value("(() => { const one = document.createElement('script'); one.textContent = 'window.other = 1';"
                          " document.body.appendChild(one); return window.other === undefined; })()"), "another script runs"
    said = hand.tab.faults[:]
    hand.tab.faults.clear()
    assert said and all("Content Security Policy" in fault for fault in said), said


CASES = (
    a_page_is_drawn_undone_made_again_and_kept, typing_is_lines, a_page_keeps_what_is_not_touched, signs_of_all_sets_are_typed,
    past_the_last_row_it_goes_on_in_the_first, an_undo_that_reaches_no_further_says_why,
    scripts_are_typed, signs_are_composed, what_is_protected_stays_and_that_is_told,
    each_attribute_is_a_line, serial_attributes_are_markers, keys_reach_the_colours_of_both_sets,
    rows_screen_area_format_and_colours_are_lines, the_format_bounds_caret_and_drawing, keys_tell_the_caret_where_the_pointer_rests,
    patterns_have_inks, a_sign_that_is_written_is_defined_before, a_painted_sign_is_kept_where_another_is_taken,
    drawings_are_seen_before_they_are_kept, without_plot_only_drawing_is_absent, a_bad_line_is_told, the_grammar_is_that_of_btx,
    a_drawing_is_asked_about_and_outlasts_a_crash, a_painted_sign_is_asked_about_and_outlasts_a_crash,
    a_script_is_typed_key_by_key, what_was_written_in_the_script_is_undone_there, an_undo_leads_to_where_the_action_began,
    a_drawing_is_undone_figure_by_figure, while_drawing_nothing_is_written, another_page_has_no_drawing, a_message_ends_with_its_page,
    a_drawing_that_changes_nothing_is_told_and_stays, a_script_that_is_too_long_is_not_opened, lines_that_find_no_room_leave_the_page,
    what_the_browser_does_not_keep_is_told, a_script_that_ends_without_a_line_feed_is_saved,
    lines_are_stepped_and_pointed_at, the_items_of_a_page_are_stepped_and_marked, a_page_is_cut_and_made_lines,
    a_crash_loses_nothing, an_unsaved_page_is_asked_about, refused_items_are_told, what_is_kept,
    the_picture_reveals_what_is_revealed, what_is_not_opened_is_told, a_drawing_is_opened,
    what_flashes_is_that_of_flash, letters_of_the_browsers_font_take_the_place_of_dots, tidying_takes_undone_lines_out,
    the_keyboard_alone_does_all, every_control_has_a_name_in_both_languages, nothing_moves_under_the_pointer, it_fits_small_screens,
    a_finger_places_the_caret, a_long_drawing_is_opened_and_undone, a_drawing_that_is_too_long_is_told, what_ends_in_a_question_is_told,
    texts_are_dragged_in_fields, a_sign_is_cleared_beyond_its_form,
    each_panel_serves_a_person_without_a_mouse, with_less_motion_nothing_moves,
    random_actions_show_what_the_program_says, lines_end_a_break_of_the_page, no_other_script_runs,
)
