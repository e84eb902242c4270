"""The cases of view/test that are about what is opened and dropped: each takes the browser's tab and the stand, and fails by an assertion."""
import json
import os

import cases


# Drops files, each a name and a text.
DROP = """(() => {
  const data = new DataTransfer();
  for (const [name, text] of %s) data.items.add(new File([text], name));
  document.dispatchEvent(new DragEvent("drop", { dataTransfer: data, cancelable: true }));
})()"""
FAULT = "Tamligub.part('fault').textContent"
SHOW = "document.querySelector('#open button').click()"
# How many pages there are, whether their index is away, and which page is open by its name and by the index.
THERE = """(({ viewer, part }) => [
  viewer.pages.length, part("index").hidden, viewer.page.name, document.querySelector("#index [aria-current] span").textContent,
])(Tamligub)"""


def choose(tab, paths):
    """Chooses files in the form by the names of their fields."""
    root = tab.call("DOM.getDocument")["root"]["nodeId"]
    for name, path in paths.items():
        node = tab.call("DOM.querySelector", nodeId=root, selector="#" + name)["nodeId"]
        tab.call("DOM.setFileInputFiles", nodeId=node, files=[path])


def without_a_text_of_changes_nothing_is_shown(tab, stand):
    """Neither where the form is empty, nor where it has another text alone; an empty text is that of a page that changes nothing."""
    tab.open(stand.bare)
    for paths in ({}, {"file-check": stand.kept("one.check", "items 0 refused 0\n")}):
        choose(tab, paths)
        tab.value(f"{FAULT} = ''; {SHOW}")
        tab.until(f"{FAULT} === \"The text of changes isn't there.\"")
        assert tab.value("[Tamligub.viewer.film(), Tamligub.viewer.pages.length]") == [None, 0], "a page is shown"
    choose(tab, {"file-changes": stand.kept("empty.changes", "")})
    tab.value(SHOW)
    tab.until("Tamligub.viewer.film() !== null")
    assert tab.value(f"[Tamligub.viewer.page.name, {FAULT}]") == ["empty.changes", ""]


def a_wrong_file_leaves_the_pages_that_are_there(tab, stand):
    """With their index, and links to what is refused: no text of changes, a text of flash of another page, and no text of check."""
    cases.opened(tab, stand)
    cases.go_to(tab, stand, "refused")
    good, here = "0 1 1 P41 11.00 FFF 000 S---\n", [len(stand.names), False, "refused", "refused"]
    changes, flash = ("one.changes", good), ("two.flash", "0 1 2 P41 11.00 FFF 000 S---\n")
    for files, said in (([("wrong", "hello\n")], "wrong: Line 1 is not understood"), ([changes, flash], "one.changes: The text of flash is of ano")):
        tab.value(f"{FAULT} = ''; {DROP % json.dumps(files)}")
        tab.until(f"{FAULT}.startsWith({json.dumps(said)})")
        assert tab.value(THERE) == here, f"{said}: {tab.value(THERE)}"
    parts = {"name": "one", "changes": good, "check": "items\n", "page": None, "flash": None}
    tab.value(f"Tamligub.viewer.takeParts({json.dumps(parts)})")
    assert tab.value(FAULT).startswith("one: Line 1 is not understood as a check line"), tab.value(FAULT)
    assert tab.value(THERE) == here, f"check: {tab.value(THERE)}"
    place = int(stand.put("check", "refused").split(" ")[1])
    tab.value("document.querySelector('#refusals a').click()")
    tab.until(f"Tamligub.viewer.player.come === {place + 1}")
    tab.value(DROP % json.dumps([changes]))
    tab.until("Tamligub.viewer.page.name === 'one.changes'")
    assert tab.value(f"[Tamligub.part('index').hidden, {FAULT}]") == [True, ""], "a good text isn't taken"


def text_that_is_no_changes_names_its_line(tab, stand):
    tab.open(stand.bare)
    good = "0 1 1 P41 11.00 FFF 000 S---\n"
    for text, number in (
        ("<b>hello</b>\n", 1),
        (good + "1 1 2 P42 11.00 FFF 000 S--\n", 2),
        (good + good.replace("0 1 1", "0 25 1"), 2),
        (good + "3 1 1 %12x10x1/FF 11.00 FFF 000 S---\n", 2),
        ("5 1 1 P41 11.00 FFF 000 S---\n" + good, 2),
        (good + "! 4 2 6 Interrupted\n\n5 1 1 - 11.00 FFF 000 S---\n", 3),
        ("items 3 refused 0\n", 1),
    ):
        tab.value(f"Tamligub.part('paste').value = {json.dumps(text)}; document.querySelector('#open button').click()")
        tab.until(f"Tamligub.part('fault').textContent.includes('Line {number} is not understood')")
        tab.value("Tamligub.part('fault').textContent = ''")
    tab.value(f"Tamligub.part('paste').value = {json.dumps(good)}; document.querySelector('#open button').click()")
    tab.until("Tamligub.viewer.film() !== null")
    assert tab.value("Tamligub.part('fault').textContent") == "", "a good text is refused"
    assert tab.value("document.querySelectorAll('b').length") == 0, "a text became markup"


def files_are_opened_and_dropped(tab, stand):
    tab.open(stand.bare)
    tab.value(cases.PROBES)
    paths = {
        "file-changes": stand.kept("refused.changes", stand.put("changes", "refused")),
        "file-page": stand.path("refused"),
        "file-check": stand.kept("refused.check", stand.put("check", "refused")),
    }
    choose(tab, paths)
    tab.value(SHOW)
    tab.until("Tamligub.viewer.film() !== null")
    cases.compare(tab, cases.looks_at_end(stand, "refused"), 0, False, "opened")
    assert "items are refused" in tab.value("Tamligub.part('refusals-count').textContent"), "check isn't taken"
    script = """(async () => {
      const data = new DataTransfer();
      const names = ["file-check", "file-page", "file-changes"];
      for (const name of names) data.items.add(Tamligub.part(name).files[0]);
      Tamligub.viewer.player.film = null;
      document.dispatchEvent(new DragEvent("drop", { dataTransfer: data, cancelable: true }));
    })()"""
    tab.value(script)
    tab.until("Tamligub.viewer.film() !== null")
    size = os.path.getsize(stand.path("refused"))
    assert tab.value("Tamligub.viewer.film().bytes.length") == size, "the dropped page isn't told from the texts"
    cases.compare(tab, cases.looks_at_end(stand, "refused"), 0, False, "dropped")
    tab.value("""(() => {
      const data = new DataTransfer();
      data.items.add(Tamligub.part("file-page").files[0]);
      document.dispatchEvent(new DragEvent("drop", { dataTransfer: data, cancelable: true }));
    })()""")
    tab.until("Tamligub.part('fault').textContent.startsWith('refused.btx: this is no text of changes; a stored page')")


def the_text_of_flash_is_opened_and_dropped(tab, stand):
    tab.open(stand.bare)
    paths = {
        "file-changes": stand.kept("flashing.changes", stand.put("changes", "flashing")),
        "file-page": stand.path("flashing"),
        "file-check": stand.kept("flashing.check", stand.put("check", "flashing")),
        "file-flash": stand.kept("flashing.flash", stand.put("flash", "flashing", "6")),
    }
    choose(tab, paths)
    tab.value(SHOW)
    tab.until("Tamligub.viewer.film() !== null && Tamligub.viewer.film().isTold()")
    drop = """(() => {
      const data = new DataTransfer();
      for (const name of %s) data.items.add(Tamligub.part(name).files[0]);
      document.dispatchEvent(new DragEvent("drop", { dataTransfer: data, cancelable: true }));
    })()"""
    for names, told in ((["file-flash", "file-check", "file-page", "file-changes"], True), (["file-changes", "file-flash"], True),
                        (["file-page", "file-changes"], False)):
        tab.value("Tamligub.viewer.player.film = null;" + drop % json.dumps(names))
        tab.until("Tamligub.viewer.film() !== null")
        assert tab.value("Tamligub.viewer.film().isTold()") is told, names
        assert tab.value("Tamligub.viewer.page.name") == "flashing.changes", names
    tab.value(drop % '["file-flash"]')
    tab.until("Tamligub.part('fault').textContent === \"The text of changes isn't there.\"")


def a_file_that_cannot_be_read_is_named(tab, stand):
    """One that was written anew since it was chosen, and one that is dropped, as a folder; the page that is there stays."""
    tab.open(stand.bare)
    path, line = stand.kept("again.changes", "0 1 1 P41 11.00 FFF 000 S---\n"), "1 1 2 P42 11.00 FFF 000 S---\n"
    choose(tab, {"file-changes": path})
    tab.value(SHOW)
    tab.until("Tamligub.viewer.film() !== null")
    stand.kept("again.changes", line)
    os.utime(path, (1, 1))
    drop = "File.prototype.arrayBuffer = () => Promise.reject(new DOMException('a folder', 'NotFoundError')); " + DROP % '[["folder", ""]]'
    for act, name in ((SHOW, "again.changes"), (drop, "folder")):
        tab.value(f"{FAULT} = ''; {act}")
        tab.until(f"{FAULT} === '{name}: it could not be read to its end'")
    assert tab.value("[Tamligub.viewer.page.name, Tamligub.viewer.film().moments.length]") == ["again.changes", 1]


CASES = (
    without_a_text_of_changes_nothing_is_shown, a_wrong_file_leaves_the_pages_that_are_there, text_that_is_no_changes_names_its_line,
    files_are_opened_and_dropped, the_text_of_flash_is_opened_and_dropped, a_file_that_cannot_be_read_is_named,
)
