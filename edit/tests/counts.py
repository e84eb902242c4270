"""The cases of edit/test that count what is done, whatever time it takes: runs of the program, lines that are made on the page under way,
cells painted, and lines laid out."""
import json

import browser
from cases import still

# What is done at each of some acts, before anything else can be: runs of the program, lines made, cells painted and cells that look otherwise
# by it, and lines of the script that are gone through to be laid out.
WORK = """((acts) => acts.map((act) => {
  const shown = () => Array.from(Tamligub.editor.screen.shown, (number) => Tamligub.editor.screen.looks[number].text);
  const before = shown();
  work.forget();
  act();
  const after = shown();
  const [painted, laid, lines] = ["Painter.cell", "Making.cellsOf", "Live.line"].map((name) => work.of(name).count);
  return { runs: work.runs(), painted, laid, lines, other: before.filter((look, cell) => look !== after[cell]).length };
}))"""
KEYS = f"""{WORK}(Array.from(%s, (sign) => () => {{
  const field = Tamligub.part("typing");
  field.value = sign;
  field.dispatchEvent(new InputEvent("input", {{ data: sign }}));
}}))"""
TURNS = f"""{WORK}(%s.map((word) => () => Tamligub.editor.undoRedo(word)))"""
# Lines that a key makes: the line of what is typed in the place of the one before, which is taken back; and the lines before the first.
MOST_LINES = 4
# A longer script is laid out after a pause.
MOST_LAID = 250


def opened_and_counted(hand, *files):
    """Opens files in a document whose work is counted. Answers the runs of the program up to the end of the pause."""
    with hand.tab.beforehand(browser.WORK):
        hand.fresh()
    still(hand)
    hand.settle()
    hand.tab.value("work.forget()")
    hand.open(*files)
    hand.settle()
    return hand.tab.value("work.runs()")


def is_short(acts, most=MOST_LINES):
    """Whether each act makes few lines, runs the program not at all, and paints the cells that change."""
    for act in acts:
        assert act["runs"] == [] and act["lines"] <= most and act["painted"] == act["other"] and act["laid"] <= MOST_LAID, act
    assert sum(act["other"] for act in acts) > 0, "nothing is shown"


def long_pages(hand):
    """Pages of 50,000 bytes: one that repaints much, and one of plain signs."""
    return {"made": hand.put("gen", "0")[:50000], "plain": bytes(0x21 + at % 94 for at in range(50000))}


def a_key_makes_what_is_new_alone(hand):
    """On a page of 50,000 bytes with a script of 300 lines: neither is gone through again at a key, and what is seen is what the whole gives."""
    script = "".join(f"at {1 + at % 24} {1 + at % 30}\nc1 {at % 8}\ntext Zeile {at}\n" for at in range(100))
    for name, data in long_pages(hand).items():
        path = hand.written(f"{name}.btx", data)
        runs = opened_and_counted(hand, path, hand.written("lines.txt", script.encode()))
        whole = sorted((run["word"], run["lines"]) for run in runs if run["page"] == len(data))
        # What is refused in it, and what `edit` puts once the keys rest.
        assert whole == [("check", 0), ("edit", script.count("\n"))], f"{name} is opened by {whole}"
        hand.cell(12, 5)
        is_short(hand.tab.value(KEYS % json.dumps("Dies ist ein Satz, der getippt wird.")))
        hand.is_true(data)
        is_short(hand.tab.value(TURNS % json.dumps(["undo"] * 3 + ["redo"] * 3)), 64)
        hand.is_true(data)
        hand.cell(14, 5)
        is_short(hand.tab.value(KEYS % json.dumps("Und noch einer.")))
        hand.is_true(data)


def an_undo_makes_its_lines_alone(hand):
    """Of what was begun in the editor on a page of 50,000 bytes: an undo or a redo is one line for each edit of an action."""
    for name, data in long_pages(hand).items():
        runs = opened_and_counted(hand, hand.written(f"{name}.btx", data))
        whole = sorted(run["word"] for run in runs if run["page"] == len(data))
        assert whole == ["check", "edit"], f"{name} is opened by {whole}"
        for row in range(3):
            hand.cell(2 + row, 5)
            hand.type("Zeile")
        acts = hand.tab.value(TURNS % json.dumps(["undo"] * 4 + ["redo"] * 3))
        # An empty line, and of the first action one for each of `raw`, `parallel`, `at` and `text`.
        is_short(acts, 5)
        assert [act["other"] > 0 for act in acts] == [True] * 3 + [False] + [True] * 3, [act["other"] for act in acts]
        hand.is_true(data)


def a_key_after_a_long_script_makes_little(hand):
    script = "".join(f"at {1 + at % 24} {1 + at % 30}\ntext Zeile {at}\n" for at in range(2000))
    opened_and_counted(hand, hand.written("lines.txt", script.encode()))
    hand.cell(12, 5)
    is_short(hand.tab.value(KEYS % json.dumps("Dies ist ein Satz.")))
    hand.settle()
    hand.is_true()


CASES = (a_key_makes_what_is_new_alone, an_undo_makes_its_lines_alone, a_key_after_a_long_script_makes_little)
