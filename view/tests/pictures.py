"""The screenshots that the README and docs show."""
import os

# A picture's name, its page (with the drawing on it that stands beside it, if one does), the byte up to which the page has come (None is
# its end), and whether all of the viewer is shown.
PICTURES: tuple[tuple[str, str, int | None, bool], ...] = (
    ("viewer.png", "title", None, True),
    ("patterns.png", "patterns", None, False),
    ("boat.png", "boat", None, False),
    ("weather.png", "weather", None, False),
)


def write(tab, stand, folder):
    os.makedirs(folder, exist_ok=True)
    for name, page, bytes_come, whole in PICTURES:
        tab.size(1000 if whole else 760, 760 if whole else 900)
        tab.open(stand.written("picture.html", [stand.drawn(page)]))
        tab.value("Tamligub.part('flash').checked && Tamligub.part('flash').click()")
        if whole:
            tab.value("Tamligub.part('outline').click()")
        if bytes_come is not None:
            tab.value(f"Tamligub.viewer.player.toBytes({bytes_come})")
        tab.value("window.scrollTo(0, 0)")
        tab.picture(os.path.join(folder, name), None if whole else box_of(tab))


def box_of(tab):
    script = "(({x, y, width, height}) => ({x, y, width, height}))(Tamligub.part('page').getBoundingClientRect())"
    return tab.value(script)
