"""The cases of view/test that are about the viewer's two languages: each takes the browser's tab and the stand, and fails by an assertion."""
import re

import cases

# What is seen, heard or read out: texts of elements that have no elements in them, and names.
SEEN = """(() => {
  const named = [...document.querySelectorAll("body [aria-label], body [aria-roledescription], body [placeholder]")];
  const texts = [...document.querySelectorAll("title, body :not(script, style, option[lang], pre)")].filter((one) => !one.children.length);
  return [...texts.map((one) => one.textContent.trim()), ...named.map((one) => one.getAttribute("aria-label"))].filter((one) => one);
})()"""
# What needs no translation: signs, numbers, names of keys, pages and texts.
SAME = re.compile(r"[^A-Za-z]*|[a-z]|Bytes|Tamligub|title|refused")


def choose(tab, language):
    tab.value(f"((list) => {{ list.value = {language!r}; list.dispatchEvent(new Event('change')); }})(Tamligub.part('language'))")


def text(tab, part):
    return tab.value(f"Tamligub.part({part!r}).textContent")


def all_that_is_said_changes_with_the_language(tab, stand):
    """In a file of pages and in the viewer without one, which names each control in both."""
    for document in (stand.written("two.html", [stand.path("refused"), stand.path("title")]), stand.bare):
        tab.open(document)
        seen = {}
        for language in ("en", "de"):
            choose(tab, language)
            assert tab.value("document.documentElement.lang") == language
            seen[language] = tab.value(SEEN)
            bad = [one for one in seen[language] if "undefined" in one or "{" in one]
            assert not bad, bad
        both = list(zip(seen["en"], seen["de"]))
        assert len(seen["en"]) == len(seen["de"]) and len(both) > 50, (len(seen["en"]), len(seen["de"]))
        same = [one for one, other in both if one == other and not SAME.fullmatch(one)]
        assert not same, f"said alike in both languages: {same}"
    choose(tab, "en")


def what_is_told_of_a_page_is_told_anew(tab, stand):
    cases.opened(tab, stand)
    cases.go_to(tab, stand, "refused")
    tab.value("Tamligub.viewer.player.toBytes(1); Tamligub.viewer.point(0)")
    refused = stand.put("check", "refused").splitlines()
    items, count = refused[-1].split(" ")[1::2]
    place, length, name = (refused[0].split(" ")[at] for at in (1, 2, 4))
    for language, total, first, of, play in (
        ("de", f"{count} von {items} Elementen sind abgewiesen.", f"Byte {place}: {name}, Länge {length}", "von", "Abspielen"),
        ("en", f"{count} of {items} items are refused.", f"byte {place}: {name}, length {length}", "of", "Play"),
    ):
        choose(tab, language)
        assert text(tab, "refusals-count") == total, text(tab, "refusals-count")
        assert tab.value("document.querySelector('#refusals a').textContent") == first
        assert text(tab, "count-bytes").split(" ")[:2] == ["1", of], text(tab, "count-bytes")
        assert text(tab, "play-word") == play
        assert text(tab, "cell-line").startswith("Zeile 1, Spalte 1: " if language == "de" else "Row 1, column 1: "), text(tab, "cell-line")
        assert text(tab, "name") == "refused"


def faults_are_told_anew(tab, stand):
    """But for the name of what was pasted, which it has from then on."""
    tab.open(stand.bare)
    tab.value("Tamligub.part('paste').value = 'hello\\n'; document.querySelector('#open button').click()")
    tab.until("Tamligub.part('fault').textContent !== ''")
    for language, said in (
        ("de", "pasted text: Zeile 1 ist keine Zeile von changes: „hello“"),
        ("en", "pasted text: Line 1 is not understood as a change line or a refusal: “hello”"),
    ):
        choose(tab, language)
        assert text(tab, "fault") == said, text(tab, "fault")


def the_language_is_kept(tab, stand):
    """A viewer speaks as the last one did, and else as the browser does."""
    cases.opened(tab, stand)
    choose(tab, "de")
    cases.opened(tab, stand)
    assert tab.value("Tamligub.spoken()") == "de" and text(tab, "play-word") == "Abspielen", "it isn't kept"
    tab.value("localStorage.clear()")
    for language, spoken in (("de-AT", "de"), ("fr", "en")):
        with tab.beforehand(f"Object.defineProperty(navigator, 'language', {{ get: () => {language!r} }})"):
            tab.open(stand.html)
        assert tab.value("[Tamligub.spoken(), localStorage.length]") == [spoken, 0], f"{language}, or one that nobody chose is kept"
        tab.value("localStorage.clear()")


CASES = (
    all_that_is_said_changes_with_the_language, what_is_told_of_a_page_is_told_anew, faults_are_told_anew,
    the_language_is_kept,
)
