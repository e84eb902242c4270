"""What a person without a mouse, or one who sees little, needs of a document: names, roles, contrast, where the focus is, still pictures, and
all of it twice as large. Each check takes the browser's tab and fails by an assertion."""
import os
import re
import time

HERE = os.path.dirname(os.path.abspath(__file__))
# Roles of what is operated, as a browser tells them to a reader of the screen.
OPERATED = {
    "button", "checkbox", "combobox", "slider", "textbox", "searchbox", "spinbutton", "link", "tab", "application", "DisclosureTriangle", "ColorWell",
    "listbox", "radio",
}
SCHEMES = ("light", "dark")
MOST_STOPS = 400
# In seconds: how long a browser may take until it tells what it has built, and what isn't so by then is a fault.
PATIENCE = 20
# What has been laid out and painted since.
FRAMES = "new Promise((done) => requestAnimationFrame(() => requestAnimationFrame(() => done(0))))"

with open(os.path.join(HERE, "access.js"), encoding="utf-8") as script:
    SCRIPT = script.read()


def asked(tab, what):
    tab.value(f"window.access === undefined && (() => {{ {SCRIPT} }})(), 0")
    return tab.value(f"access.{what}()")


def settled(ask, right):
    """An answer that is right and comes twice, of a question asked again and again; the last one where there is none in time."""
    end, before, answer = time.monotonic() + PATIENCE, None, ask()
    while (answer != before or not right(answer)) and time.monotonic() < end:
        time.sleep(0.05)
        before, answer = answer, ask()
    return answer


def laid_out(tab, width, height, ratio=1):
    """A window of this size, once the document has been laid out in it."""
    tab.size(width, height, ratio)
    tab.until(f"window.innerWidth === {width} && window.innerHeight === {height} && window.devicePixelRatio === {ratio}")
    tab.value(FRAMES)


def media(tab, **features):
    """Has the browser ask for this, as for a dark ground or less motion, and for nothing else; once the document knows."""
    features = {name.replace("_", "-"): value for name, value in features.items()}
    tab.call("Emulation.setEmulatedMedia", features=[{"name": name, "value": value} for name, value in features.items()])
    for name, value in features.items():
        tab.until(f"window.matchMedia('({name}: {value})').matches")


def operated(tab):
    """Role and name of all that is operated, as the browser's tree for a reader of the screen has them."""
    nodes = [node for node in tab.call("Accessibility.getFullAXTree")["nodes"] if not node.get("ignored")]
    found = [(node.get("role", {}).get("value"), node.get("name", {}).get("value", "").strip()) for node in nodes]
    return [(role, name) for role, name in found if role in OPERATED]


def all_is_named(tab, least):
    """All that is operated has a name and a role, and what one part says of another is there. The browser builds the tree after the page."""
    found = settled(lambda: operated(tab), lambda found: len(found) >= least and all(name for _, name in found))
    bare = [role for role, name in found if not name]
    assert len(found) >= least and not bare, f"{len(found)} are operated, without a name: {bare}"
    faults = asked(tab, "structure")
    assert not faults, faults


def all_has_contrast(tab):
    """4.5 to 1 for text and 3 to 1 for the edges of controls, on light and on dark ground."""
    try:
        for scheme in SCHEMES:
            media(tab, prefers_color_scheme=scheme)
            ground = tab.value("getComputedStyle(document.body).backgroundColor")
            assert (int(re.findall(r"\d+", ground)[0]) > 127) is (scheme == "light"), f"{scheme}: the ground is {ground}"
            for what in ("lowTexts", "lowControls"):
                low = settled(lambda: asked(tab, what), lambda low: not low)
                assert not low, f"{scheme}: {what}: {low[:12]}"
    finally:
        media(tab)


def the_focus_goes_through_all(tab):
    """Tab reaches all in the order of the document, each time in sight and with a mark, and comes out at the end; back goes the same way."""
    def stop():
        """Where the focus is now, in sight and with its mark, or as it is then."""
        found = asked(tab, "focused")
        if found is None or (found["inSight"] and found["mark"] == "seen"):
            return found
        return settled(lambda: asked(tab, "focused"), lambda found: found is None or (found["inSight"] and found["mark"] == "seen"))

    # From the body on Tab goes to the first.
    tab.value("document.body.tabIndex = -1; document.body.focus(); document.body.removeAttribute('tabindex'); window.scrollTo(0, 0); 0")
    wanted = {place: name for place, name in asked(tab, "reachable")}
    stops: list[dict] = []
    for _ in range(MOST_STOPS):
        tab.key("Tab", 9)
        found = stop()
        if found is None or (stops and found["place"] == stops[0]["place"]):
            break
        stops.append(found)
    else:
        raise AssertionError(f"Tab comes to no end: {[stop['name'] for stop in stops[-5:]]}")
    places = [stop["place"] for stop in stops]
    missed = [name for place, name in wanted.items() if place not in places]
    assert not missed, f"Tab doesn't reach {missed}"
    assert places == sorted(places), f"another order: {[stop['name'] for stop in stops]}"
    hidden = [stop["name"] for stop in stops if not stop["inSight"]]
    assert not hidden, f"out of sight: {hidden}"
    unmarked = [(stop["name"], stop["mark"]) for stop in stops if stop["mark"] != "seen"]
    assert not unmarked, f"the focus isn't seen: {unmarked}"
    return [stop["name"] for stop in stops]


def nothing_is_lost_twice_as_large(tab, width=1280, height=1024):
    """A window of this size at 200 percent: as one of half the width and height."""
    laid_out(tab, width // 2, height // 2, 2)
    try:
        faults = settled(lambda: asked(tab, "lost"), lambda faults: not faults)
        assert not faults, faults[:12]
    finally:
        laid_out(tab, width, height)


def nothing_moves(tab):
    faults = asked(tab, "moving")
    assert not faults, f"moving by itself: {faults}"
