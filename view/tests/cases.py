"""The cases of view/test: each takes the browser's tab and the stand, and fails by an assertion."""
import json
import os
import re
import subprocess

import access
import browser
from looks import want_of

HERE = os.path.dirname(os.path.abspath(__file__))
VIEW = os.path.dirname(HERE)

PAGES = os.path.join(os.path.dirname(VIEW), "pages")
BLANK = "- 11.00 FFF 000 S---"
# In milliseconds: a phase of the flash, of which a second has six, and the time from one picture of a display to the next.
PHASE, FRAME = 1000 / 6, 1000 / 60

# Colours at points of the canvas, and how many pixels of some cells differ from the one in a corner of the cell.
PROBES = """
window.probe = {
  data() {
    const page = Tamligub.viewer.screen.page;
    return page.getContext("2d").getImageData(0, 0, page.width, page.height);
  },
  colours(points) {
    const image = probe.data();
    const { cellWidth, cellHeight } = Tamligub.viewer.screen;
    const hex = (byte) => byte.toString(16).toUpperCase().padStart(2, "0");
    return points.map(([cell, x, y]) => {
      const left = (cell % 40) * cellWidth + Math.min(cellWidth - 1, Math.floor(x * cellWidth));
      const top = Math.floor(cell / 40) * cellHeight + Math.min(cellHeight - 1, Math.floor(y * cellHeight));
      const at = 4 * (top * image.width + left);
      return hex(image.data[at]) + hex(image.data[at + 1]) + hex(image.data[at + 2]);
    });
  },
  inked(cells) {
    const image = probe.data();
    const { cellWidth, cellHeight } = Tamligub.viewer.screen;
    return cells.map((cell) => {
      const [left, top] = [(cell % 40) * cellWidth, Math.floor(cell / 40) * cellHeight];
      const first = 4 * (top * image.width + left);
      let count = 0;
      for (let y = top; y < top + cellHeight; y++)
        for (let x = left; x < left + cellWidth; x++) {
          const at = 4 * (y * image.width + x);
          if ([0, 1, 2].some((part) => image.data[at + part] !== image.data[first + part])) count++;
        }
      return count;
    });
  },
  sum() {
    const words = new Uint32Array(probe.data().data.buffer);
    let sum = 2166136261;
    for (const word of words) sum = Math.imul(sum ^ word, 16777619);
    return sum >>> 0;
  },
};
"""


class Stand:
    """The repository's pages, what the program puts for each, and the file that btx html writes of them."""

    def __init__(self, program, place):
        self.program = program
        self.place = place
        self.paths = [os.path.join(PAGES, file) for file in sorted(os.listdir(PAGES)) if file.endswith(".btx")]
        self.names = [os.path.basename(path)[: -len(".btx")] for path in self.paths]
        self.html = self.written("pages.html", self.paths)
        self.bare = self.written("bare.html", [])

    def path(self, name):
        return os.path.join(PAGES, name + ".btx")

    def put(self, word, name, *after):
        done = subprocess.run([self.program, word, self.path(name), *after], stdout=subprocess.PIPE, timeout=600)
        assert done.returncode in (0, 1), f"{word} {name}: status {done.returncode}"
        return done.stdout.decode("utf-8")

    def drawn(self, name):
        """The path of a page, with the drawing that stands beside it, if one does, on it."""
        drawing = os.path.join(PAGES, name + ".drawing")
        if not os.path.exists(drawing):
            return self.path(name)
        path = os.path.join(self.place, name + ".drawn.btx")
        with open(path, "wb") as file:
            subprocess.run([self.program, "plot", self.path(name), drawing], stdout=file, check=True, timeout=600)
        return path

    def written(self, name, paths):
        path = os.path.join(self.place, name)
        with open(path, "wb") as file:
            words = [os.path.join(VIEW, "../bin/btx"), "html", "--", *paths]
            env = {**os.environ, "BTX_PROGRAM": os.path.abspath(self.program)}
            subprocess.run(words, stdout=file, check=True, timeout=600, env=env)
        return path

    def timed(self, name, recording):
        """The file that btx writes of a recording with its times."""
        path = os.path.join(self.place, name)
        words = [os.path.join(VIEW, "../bin/btx"), "html", "--times", recording, "-o", path]
        subprocess.run(words, check=True, timeout=600, env={**os.environ, "BTX_PROGRAM": os.path.abspath(self.program)})
        return path

    def kept(self, name, text):
        path = os.path.join(self.place, name)
        with open(path, "w", encoding="utf-8", newline="") as file:
            file.write(text)
        return path


def opened(tab, stand):
    """The file of all pages, with the flash's clock stopped in the first phase."""
    tab.size(1280, 1000)
    tab.open(stand.html)
    tab.value(PROBES)
    tab.value("Tamligub.part('flash').checked && Tamligub.part('flash').click()")
    tab.value("Tamligub.viewer.turn(0)")


def opened_by_a_clock(tab, stand):
    """The same in a document whose time goes on by `clock.turn` alone."""
    with tab.beforehand(browser.CLOCK):
        opened(tab, stand)


def go_to(tab, stand, name):
    tab.value(f"Tamligub.viewer.open({stand.names.index(name)})")


def moments_of(changes):
    """Place, number of lines, and whether it is refused, of each command that changes cells and each refusal."""
    moments: list[list[int]] = []
    for line in changes.splitlines():
        refused = line[0] == "!"
        place = int(line.split(" ")[1 if refused else 0])
        if not moments or moments[-1][0] != place:
            moments.append([place, 0, refused])
        moments[-1][1] += not refused
    return moments


def compare(tab, looks, phase, revealed, where):
    """Compares the canvas with what 960 looks have to show in a phase, or each in one of its own."""
    points, colours, inked = [], [], []
    for cell, look in enumerate(looks):
        want = want_of(look, phase(look) if callable(phase) else phase, revealed)
        for x, y, right in want.points:
            points.append((cell, round(x, 4), round(y, 4)))
            colours.append(right)
        if want.inked:
            inked.append(cell)
    found = tab.value(f"probe.colours({json.dumps(points)})")
    wrong = [(point, seen, right) for point, seen, right in zip(points, found, colours) if seen not in right]
    told = [f"row {p[0] // 40 + 1}, column {p[0] % 40 + 1} ({looks[p[0]]}) at {p[1:]}: {s}, not {r}" for p, s, r in wrong[:3]]
    assert not wrong, f"{where}: {len(wrong)} of {len(points)} points are wrong: {'; '.join(told)}"
    empty = [cell for cell, count in zip(inked, tab.value(f"probe.inked({json.dumps(inked)})")) if count < 4]
    assert not empty, f"{where}: no sign is seen in {[(cell // 40 + 1, cell % 40 + 1, looks[cell]) for cell in empty[:3]]}"
    return len(points)


def looks_at_end(stand, name):
    looks = [BLANK] * 960
    for line in stand.put("cells", name).splitlines():
        row, column, look = line.split(" ", 2)
        looks[(int(row) - 1) * 40 + int(column) - 1] = look
    return looks


def the_canvas_shows_the_cells(tab, stand):
    opened(tab, stand)
    for name in stand.names:
        go_to(tab, stand, name)
        compare(tab, looks_at_end(stand, name), 0, False, name)


def taken(tab, stand, name, flash):
    """A page with the text of flash, or without, by the way of one that is opened; the flash's clock is stopped."""
    parts = {"name": name, "changes": stand.put("changes", name), "check": None, "page": None, "flash": flash}
    tab.value(f"Tamligub.viewer.takeParts({json.dumps(parts)})")
    assert tab.value("Tamligub.part('fault').textContent") == "", tab.value("Tamligub.part('fault').textContent")


def letters_of_a_font_stand_in_their_cells(tab, stand):
    """Where they are asked for they take the place of dots, and mosaics stay; taken back all is as before."""
    opened(tab, stand)
    go_to(tab, stand, "title")
    before = tab.value("probe.sum()")
    tab.value("Tamligub.part('font').click()")
    compare(tab, looks_at_end(stand, "title"), 0, False, "letters of a font")
    assert tab.value("probe.sum()") != before, "letters are still in dots"
    tab.value("Tamligub.part('font').click()")
    assert tab.value("probe.sum()") == before, "the dots aren't as before"


def flash_has_six_phases(tab, stand):
    opened(tab, stand)
    for name in ("flashing", "timetable"):
        looks = looks_at_end(stand, name)
        for flash in (None, stand.put("flash", name, "6")):
            taken(tab, stand, name, flash)
            assert tab.value("Tamligub.viewer.film().isTold()") is (flash is not None), "the lines of flash aren't taken"
            for phase in (1, 2, 3, 4, 5, 0):
                tab.value(f"Tamligub.viewer.turn({phase})")
                compare(tab, looks, phase, False, f"{name}, phase {phase}")


def phases_by_the_lines_of_flash_are_those_of_the_looks(tab, stand):
    """Pixel by pixel, hidden and revealed; a turn paints the cells of its lines alone, and back from the end none is painted twice."""
    opened(tab, stand)
    script = """[false, true].flatMap((revealed) => [1, 2, 3, 4, 5, 0, 1, 2].map((phase) => {
      const { viewer } = Tamligub;
      Tamligub.part("reveal").checked = revealed;
      viewer.turn(viewer.screen.phase);
      const before = viewer.screen.painted;
      viewer.turn(phase);
      return [viewer.screen.painted - before, probe.sum()];
    }))"""
    for name in ("flashing", "timetable", "answers"):
        flash = stand.put("flash", name, "6")
        taken(tab, stand, name, None)
        own = tab.value(script)
        taken(tab, stand, name, flash)
        told = tab.value(script)
        assert [one[1] for one in told] == [one[1] for one in own], f"{name}: other pixels"
        if name == "answers":
            continue
        lines = [sum(line.startswith(f"{turn} ") for line in flash.splitlines()) for turn in range(7)]
        assert [one[0] for one in told[1:6]] == [lines[turn] for turn in (2, 3, 4, 5, 6)], f"{name}: {told} of {lines}"
        assert len({one[1] for one in told}) > 1, f"{name} doesn't flash"
        count = "(() => { const s = Tamligub.viewer.screen; const b = s.painted; %s; return s.painted - b; })()"
        last = moments_of(stand.put("changes", name))[-1][1]
        for phase in range(6):
            tab.value(f"Tamligub.viewer.turn({phase})")
            assert tab.value(count % "Tamligub.viewer.player.step(-1)") == last, f"{name}: a step back from phase {phase}"
            assert tab.value(count % "Tamligub.viewer.player.step(1)") == last, f"{name}: a step to phase {phase}"


def lines_of_flash_are_what_is_shown(tab, stand):
    """Lines that tell something else than the looks mean are shown, at the end alone; the clock runs where they change something."""
    opened_by_a_clock(tab, stand)
    steady, turned = "P7F 11.00 F00 000 S---", "P7F 11.00 0F0 000 S---"
    flash = f"0 1 1 {steady}\n4 1 1 {turned}\n6 1 1 {steady}\n"
    parts = {"name": "one", "changes": "0 1 1 P7F 11.00 00F 000 F---\n", "check": None, "page": None, "flash": flash}
    tab.value(f"Tamligub.viewer.takeParts({json.dumps(parts)})")
    assert tab.value("probe.colours([[0, 0.5, 0.5]])") == ["FF0000"], "as it is opened"
    for phase in range(6):
        for act in (f"turn({phase})", "player.step(-1); Tamligub.viewer.player.step(1)"):
            tab.value(f"Tamligub.viewer.{act}")
            assert tab.value("probe.colours([[0, 0.5, 0.5]])") == ["FF0000" if phase < 4 else "00FF00"], f"phase {phase}: {act}"
    tab.value("Tamligub.viewer.turn(0); Tamligub.viewer.player.step(-1)")
    assert tab.value("probe.colours([[0, 0.5, 0.5]])") == ["000000"], "before the end"
    tab.value("Tamligub.viewer.player.step(1); Tamligub.part('flash').click()")
    here = tab.value(f"clock.turn({4 * PHASE}), [Tamligub.viewer.screen.phase, ...probe.colours([[0, 0.5, 0.5]])]")
    assert here == [4, "00FF00"], f"after four turns {here}"
    tab.value("Tamligub.part('flash').click()")
    assert tab.value("[clock.waiting(), Tamligub.viewer.screen.phase]") == [0, None], "the clock goes on"
    parts["flash"] = f"0 1 1 {steady}\n"
    tab.value(f"Tamligub.viewer.takeParts({json.dumps(parts)}); Tamligub.part('flash').click()")
    assert tab.value("clock.waiting()") == 0, "a clock runs where no turn changes anything"
    for text, said in ((flash.replace("6 1 1", "7 1 1"), "doesn't lead back"), ("0 1 2 " + steady, "of another page"), ("x", "Line 1 ")):
        parts["flash"] = text
        tab.value(f"Tamligub.viewer.takeParts({json.dumps(parts)})")
        assert said in tab.value("Tamligub.part('fault').textContent"), f"{text} isn't told"


def without_the_flash_each_sign_is_seen(tab, stand):
    """Those too that the first phase doesn't show; with it the first phase comes first."""
    opened_by_a_clock(tab, stand)
    seen = {"F": 0, "I": 3, "R": 0, "1": 0, "2": 2, "3": 4, "S": 0}
    for name in ("flashing", "timetable"):
        looks = looks_at_end(stand, name)
        for flash in (None, stand.put("flash", name, "6")):
            taken(tab, stand, name, flash)
            tab.value("Tamligub.viewer.rest()")
            assert tab.value("[clock.waiting(), Tamligub.viewer.screen.phase]") == [0, None], f"{name} flashes"
            compare(tab, looks, lambda look: seen[look.split(" ")[4][0]], False, f"{name} at rest")
            tab.value("Tamligub.part('flash').click()")
            compare(tab, looks, 0, False, f"{name} as it begins to flash")
            tab.value("Tamligub.part('flash').click()")
            compare(tab, looks, lambda look: seen[look.split(" ")[4][0]], False, f"{name} at rest again")


def files_have_the_lines_of_flash_where_a_page_flashes(tab, stand):
    opened(tab, stand)
    found = tab.value("Tamligub.viewer.pages.map((page) => page.flash ?? null)")
    for name, flash in zip(stand.names, found):
        want = stand.put("flash", name, "6")
        assert flash == (want if re.search("^[1-6] ", want, re.MULTILINE) else None), name


def the_flash_runs_only_where_something_flashes(tab, stand):
    """Six turns in a second; on a page that is steady no timer waits."""
    opened_by_a_clock(tab, stand)
    tab.value("Tamligub.part('flash').click()")
    go_to(tab, stand, "title")
    assert tab.value("clock.waiting()") == 0, "a timer waits on a steady page"
    go_to(tab, stand, "flashing")
    turned = tab.value(f"[1, 2, 3, 4, 5, 6].map(() => [clock.turn({PHASE}), Tamligub.viewer.screen.phase])")
    assert turned == [[1, phase] for phase in (1, 2, 3, 4, 5, 0)], f"a second has other turns: {turned}"
    go_to(tab, stand, "title")
    assert tab.value("clock.waiting()") == 0, "the flash goes on"


def what_flashes_does_so_while_a_page_plays(tab, stand):
    """From its start, at which nothing flashes: from the first sign on that does."""
    opened_by_a_clock(tab, stand)
    tab.value("Tamligub.part('flash').click()")
    go_to(tab, stand, "flashing")
    tab.value("Tamligub.part('play').click()")
    assert tab.value("clock.waiting()") == 1, "more waits than the next command"
    tab.value("while (Tamligub.viewer.player.playing() && !Tamligub.viewer.screen.flashes()) clock.turn(1)")
    phases = tab.value(f"[1, 2, 3].map(() => {{ clock.turn({PHASE}); return Tamligub.viewer.screen.phase; }})")
    assert tab.value("Tamligub.viewer.player.playing()") and phases == [1, 2, 3], f"other phases while it plays: {phases}"


def concealed_cells_show_when_revealed(tab, stand):
    opened(tab, stand)
    go_to(tab, stand, "answers")
    looks = looks_at_end(stand, "answers")
    tab.value("Tamligub.part('reveal').click()")
    compare(tab, looks, 0, True, "revealed")
    tab.value("Tamligub.part('reveal').click()")
    compare(tab, looks, 0, False, "concealed again")


def double_density_is_sharp(tab, stand):
    """With two pixels of the display to one of the page the points are right too, and every row of blocks has two colours."""
    opened(tab, stand)
    tab.size(1290, 1000, 2)
    tab.until("Tamligub.viewer.screen.page.width > 1500")
    for name in ("house", "patterns"):
        go_to(tab, stand, name)
        compare(tab, looks_at_end(stand, name), 0, False, f"{name}, double density")
    go_to(tab, stand, "house")
    points = [(15 * 40 + column, n / 90, 0.1) for column in range(40) for n in range(90)]
    seen = set(tab.value(f"probe.colours({json.dumps(points)})"))
    assert seen == {"000000", "00FF00"}, f"the edges of blocks are blurred: {seen}"
    wide = tab.value("[Tamligub.viewer.screen.page.width, Tamligub.viewer.screen.page.getBoundingClientRect().width]")
    assert abs(wide[0] - 2 * wide[1]) < 0.01, f"canvas and page differ: {wide}"
    tab.size(1280, 1000)


def the_slider_shows_what_has_come(tab, stand):
    """After so many bytes exactly the commands have come whose place is less."""
    opened(tab, stand)
    script = """(() => {
      const { player } = Tamligub.viewer;
      const bytes = [...Array(player.film.length + 1).keys()];
      return bytes.map((come) => {
        player.toBytes(come);
        return player.film.moment;
      });
    })()"""
    for name in ("title", "refused"):
        go_to(tab, stand, name)
        places = [moment[0] for moment in moments_of(stand.put("changes", name))]
        want = [sum(place < come for place in places) for come in range(os.path.getsize(stand.path(name)) + 1)]
        assert tab.value(script) == want, f"{name}: other moments have come"
    tab.value("window.location.hash = '#title@7'")
    tab.until("Tamligub.viewer.page.name === 'title' && Tamligub.viewer.player.come === 8")
    tab.value("window.location.hash = '#refused@99999'")
    length = os.path.getsize(stand.path("refused"))
    tab.until(f"Tamligub.viewer.page.name === 'refused' && Tamligub.viewer.player.come === {length}")


# Plays from the start at a speed, by a clock that goes on a millisecond at a time: how many moments have come after each, and how many
# timers were due in all.
PLAYED = """((bits, most) => {
  const { player } = Tamligub.viewer;
  const come = [];
  let due = 0;
  player.toStart();
  Tamligub.part("speed").value = String(bits);
  Tamligub.part("speed").dispatchEvent(new Event("change"));
  Tamligub.part("play").click();
  while (player.playing() && come.length < most) {
    due += clock.turn(1);
    come.push(player.film.moment);
  }
  return { come, due, bytes: player.come };
})"""


def a_recording_plays_in_its_own_time(tab, stand):
    """Ten bytes in three pieces, and one of which no time is known, which comes with the last. A page without times has none to choose."""
    recording, plain = stand.kept("timed.btx", "ABCDEFGHIJK"), stand.kept("plain.btx", "A")
    stand.kept("timed.btx.times", "40 3\n60 0\n300 2\n1000 5\n")
    with tab.beforehand(browser.CLOCK):
        tab.open(stand.timed("timed.html", recording))
    speed = "[Tamligub.part('speed').value, Tamligub.part('own-time').hidden, Tamligub.viewer.player.speed]"
    assert tab.value(speed) == ["-1", False, -1], tab.value(speed)
    played = tab.value(f"{PLAYED}(-1, 100000)")
    turns = {moment: played["come"].index(moment) + 1 for moment in sorted({*played["come"]}) if moment}
    assert [*turns] == [3, 5, 11], turns
    for turn, due in zip(turns.values(), (40, 300, 1000)):
        assert due <= turn <= due + FRAME, turns
    # One timer for each piece.
    assert (played["bytes"], played["due"]) == (11, 3), (played["bytes"], played["due"])
    # From the middle it goes on from the time at which what is shown had come.
    tab.value("Tamligub.viewer.player.toBytes(5); Tamligub.part('play').click()")
    assert tab.value("clock.turn(690), Tamligub.viewer.film().moment") == 5, "it goes on too soon"
    assert tab.value(f"clock.turn({10 + FRAME}), Tamligub.viewer.film().moment") == 11, "it doesn't go on"
    tab.value("Tamligub.viewer.player.toStart(); Tamligub.part('speed').value = '0'; Tamligub.part('speed').dispatchEvent(new Event('change'))")
    tab.value("Tamligub.part('play').click()")
    assert tab.value(f"clock.turn({FRAME}), Tamligub.viewer.film().moment") == 11, "it doesn't come at once"
    with tab.beforehand(browser.CLOCK):
        tab.open(stand.written("plain.html", [plain]))
    assert tab.value(speed) == ["1200", True, 1200], tab.value(speed)


def keys_do_what_buttons_do(tab, stand):
    opened(tab, stand)
    go_to(tab, stand, "title")
    moments = len(moments_of(stand.put("changes", "title")))
    tab.value("document.activeElement.blur()")

    def moment():
        return tab.value("Tamligub.viewer.film().moment")

    tab.key("Home", 36)
    assert moment() == 0, "Home"
    tab.key(".")
    tab.key(".")
    tab.key(".")
    tab.key(",")
    assert moment() == 2, "steps"
    tab.key("End", 35)
    assert moment() == moments, "End"
    for key, box in (("o", "outline"), ("r", "reveal"), ("f", "flash")):
        before = tab.value(f"Tamligub.part('{box}').checked")
        tab.key(key)
        assert tab.value(f"Tamligub.part('{box}').checked") is not before, f"{key} doesn't switch {box}"
    tab.key("9")
    tab.key("p")
    assert tab.value("[Tamligub.viewer.player.speed, Tamligub.part('play-word').textContent]") == [9600, "Pause"], "speed and play"
    tab.key("p")
    assert tab.value("Tamligub.part('play-word').textContent") == "Play", "pause"
    tab.key("End", 35)
    tab.value("Tamligub.part('letters').click(); document.activeElement.blur()")
    tab.key(",")
    assert moment() == moments, "letter keys are off, and one acted"
    tab.value("Tamligub.part('bytes').focus()")
    tab.key("Home", 36)
    assert moment() == 0, "the slider by keys"
    tab.value("Tamligub.part('screen').focus()")
    for key, code in (("ArrowDown", 40), ("ArrowDown", 40), ("ArrowRight", 39)):
        tab.key(key, code)
    assert tab.value("Tamligub.part('cell-line').textContent").startswith("Row 2, column 2: "), "arrow keys"


def opened_for_access(tab, stand):
    """The page with refusals, and all that can be folded open."""
    opened(tab, stand)
    go_to(tab, stand, "refused")
    tab.value("document.querySelectorAll('details').forEach((one) => { one.open = true; })")


def all_controls_have_names_and_are_reached(tab, stand):
    opened_for_access(tab, stand)
    access.all_is_named(tab, 20)
    reached = access.the_focus_goes_through_all(tab)
    wanted = (
        "screen bytes first back play forward last speed outline reveal font flash copy save paste letters text "
        "file-changes file-page file-check file-flash"
    )
    missed = [name for name in wanted.split() if f"#{name}" not in reached]
    assert not missed, f"Tab doesn't reach {missed}"


def text_and_controls_have_contrast(tab, stand):
    opened_for_access(tab, stand)
    access.all_has_contrast(tab)


def nothing_is_lost_at_200_percent(tab, stand):
    opened_for_access(tab, stand)
    access.nothing_is_lost_twice_as_large(tab)


def with_less_motion_nothing_moves(tab, stand):
    """A page that flashes is shown at rest, each sign as it is seen, until the flash is asked for."""
    tab.size(1280, 1000)
    access.media(tab, prefers_reduced_motion="reduce")
    try:
        with tab.beforehand(browser.CLOCK):
            tab.open(stand.html)
        go_to(tab, stand, "flashing")
        assert tab.value("[Tamligub.part('flash').checked, clock.waiting(), Tamligub.viewer.screen.phase]") == [False, 0, None], "it flashes"
        access.nothing_moves(tab)
        tab.value("Tamligub.part('flash').click()")
        assert tab.value("clock.waiting()") == 1, "the flash that is asked for doesn't come"
    finally:
        access.media(tab)


def refusals_are_listed_and_lead_to_their_moments(tab, stand):
    opened(tab, stand)
    go_to(tab, stand, "refused")
    refusals = [line.split(" ") for line in stand.put("check", "refused").splitlines() if line[0] == "!"]
    found = tab.value("[...document.querySelectorAll('#refusals a')].map((link) => link.textContent)")
    assert found == [f"byte {r[1]}: {r[4]}, length {r[2]}" for r in refusals], found
    items = stand.put("check", "refused").splitlines()[-1].split(" ")
    assert tab.value("Tamligub.part('refusals-count').textContent") == f"{items[3]} of {items[1]} items are refused.", "the count"
    for index, refusal in enumerate(refusals):
        tab.value(f"document.querySelectorAll('#refusals a')[{index}].click()")
        tab.until(f"Tamligub.viewer.player.come === {int(refusal[1]) + 1}")
        assert tab.value("Tamligub.viewer.film().moments[Tamligub.viewer.film().moment - 1].place") == int(refusal[1]), "the moment"
        # The address is that of the link already.
        tab.value(f"Tamligub.viewer.player.toEnd(); document.querySelectorAll('#refusals a')[{index}].click()")
        tab.until(f"Tamligub.viewer.player.come === {int(refusal[1]) + 1}")


def an_address_names_a_page_as_it_is_or_as_addresses_have_it(tab, stand):
    """Also a name that can't stand so in an address: it is followed as the viewer begins, and later."""
    paths = [stand.kept(name, "ABC") for name in ("first.btx", "100%.btx", "ä b.btx", "5% c.btx")]
    html = stand.written("names.html", paths)
    here = "Tamligub.begun.then(() => [Tamligub.viewer.page.name, Tamligub.viewer.player.come])"
    changed = """new Promise((done) => {
      addEventListener("hashchange", ({ newURL }) => newURL.endsWith("%s") && setTimeout(done));
      Object.assign(location, { hash: "%s" });
    })"""
    for end, name in (("#100%@0", "100%"), ("#100%25@0", "100%"), ("#%C3%A4%20b@0", "ä b"), ("#5%%20c@0", "5% c"), ("#%@0", "first")):
        come = 3 if name == "first" else 1
        tab.open(html + end)
        assert tab.value(here) == [name, come], f"{end} at first"
        tab.value("Tamligub.viewer.open(0), 0")
        tab.value(changed % ("#", "#"))
        tab.value(changed % (end, end))
        assert tab.value(here) == [name, come], end
    tab.value(changed % ("#first", "#first"))
    assert tab.value(here) == ["first", 3], "without a byte"
    for end, name in (("#nowhere@0", "nowhere"), ("#first@", "first@")):
        tab.value(changed % (end, end))
        assert tab.value(here) == ["first", 3], end
        assert tab.value("Tamligub.part('fault').textContent").startswith(f"{name}: the address names it"), end


def no_byte_of_a_page_is_markup(tab, stand):
    opened(tab, stand)
    tab.value("window.alerted = 0; window.alert = () => { window.alerted++; }")
    go_to(tab, stand, "refused")
    tab.value("Tamligub.part('text-part').open = true; Tamligub.viewer.text()")
    assert "<script>alert(1)</script>" in tab.value("Tamligub.part('text').textContent"), "the text lacks the signs"
    for cell in range(15 * 40, 17 * 40):
        tab.value(f"Tamligub.viewer.point({cell})")
    assert tab.value("document.querySelectorAll('b, aside script, #below script').length") == 0, "an element was made"
    assert tab.value("window.alerted") == 0, "a script was run"
    evil = [
        stand.kept("evil.btx", "</script><script>window.evil = 1</script><!-- <script>"),
        stand.kept("<!--<script>.btx", "A"),
        stand.kept("<img src=x onerror=window.evil=1>.btx", "\x1b"),
    ]
    tab.open(stand.written("evil.html", evil))
    assert tab.value("window.evil === undefined") and tab.value("Tamligub.viewer.pages.length") == 3, "a page broke out"
    tab.value("Tamligub.viewer.open(2)")
    assert tab.value("document.querySelectorAll('img').length") == 0, "a name became markup"


def a_cell_tells_its_line_and_bytes(tab, stand):
    opened(tab, stand)
    for name in ("house", "title"):
        go_to(tab, stand, name)
        last = {}
        lines = stand.put("changes", name).splitlines()
        for line in lines:
            place, row, column, look = line.split(" ", 3)
            last[(int(row) - 1) * 40 + int(column) - 1] = (line, int(place))
        places = sorted({int(line.split(" ")[0]) for line in lines})
        with open(stand.path(name), "rb") as file:
            page = file.read()
        for cell in list(last)[::7]:
            tab.value(f"Tamligub.viewer.point({cell})")
            line, place = last[cell]
            told = tab.value("[Tamligub.part('cell-line').textContent, Tamligub.part('cell-bytes').textContent]")
            assert told[0].endswith(": " + line), f"{name}: {told[0]}, not {line}"
            end = min([other for other in places if other > place], default=len(page))
            assert page[place : min(end, place + 32)].hex(" ").upper() in told[1], f"{name}: {told[1]}"


def a_pointer_over_the_screen_names_the_cell(tab, stand):
    opened(tab, stand)
    box = tab.value("(({x, y, width, height}) => [x, y, width, height])(Tamligub.part('page').getBoundingClientRect())")
    x, y = box[0] + box[2] * 11.5 / 40, box[1] + box[3] * 2.5 / 24
    tab.call("Input.dispatchMouseEvent", type="mouseMoved", x=x, y=y)
    tab.until("Tamligub.part('cell-line').textContent.startsWith('Row 3, column 12: ')")


def the_index_has_small_pictures(tab, stand):
    opened(tab, stand)
    assert tab.value("[...document.querySelectorAll('#index button')].map((one) => one.textContent)") == stand.names, "the names"
    tab.until("document.querySelector('#index canvas').width === 480")
    script = """[...document.querySelectorAll('#index canvas')].slice(0, 3).every((canvas) =>
      canvas.getContext('2d').getImageData(0, 0, canvas.width, canvas.height).data.some((byte, at) => at % 4 < 3 && byte > 100))"""
    tab.until(script)
    tab.value("document.querySelectorAll('#index button')[3].click()")
    assert tab.value("Tamligub.viewer.page.name") == stand.names[3], "a button opens another page"


def the_picture_and_the_text_can_be_taken(tab, stand):
    opened(tab, stand)
    go_to(tab, stand, "title")
    name, picture = tab.saved(lambda: tab.value("Tamligub.part('save').click()"))
    width = tab.value("Tamligub.viewer.screen.page.width")
    assert name == "title.png", name
    assert picture[:4] == b"\x89PNG" and int.from_bytes(picture[16:20], "big") == width, "the file is no such PNG"
    tab.value("Tamligub.part('copy').click()")
    tab.until("Tamligub.part('state').textContent.length > 0 && Tamligub.part('text').textContent.includes('B I L D')")


def a_text_that_the_browser_does_not_copy_is_marked(tab, stand):
    """Also once the text that was folded is open; what is marked there stays until the text is another."""
    opened(tab, stand)
    go_to(tab, stand, "title")
    tab.value("navigator.clipboard.writeText = () => Promise.reject(new Error('barred')); document.execCommand = () => false; 0")
    copied = "Tamligub.part('text-part').addEventListener('toggle', () => setTimeout(done))"
    tab.value(f"new Promise((done) => {{ {copied}; Tamligub.part('copy').click(); }})")
    tab.until("Tamligub.part('state').textContent.startsWith('The text is selected below')")
    is_marked = "String(getSelection()).includes('B I L D')"
    assert tab.value(is_marked), "nothing is marked"
    tab.value("Tamligub.viewer.rested()")
    assert tab.value(is_marked), "it is marked no longer"
    tab.value("Tamligub.viewer.player.toStart()")
    assert tab.value("Tamligub.part('text').textContent.trim()") == "", "the text of another moment is there"


def a_page_that_is_gone_back_to_does_what_its_controls_say(tab, stand):
    """A browser gives them back as they were left."""
    opened(tab, stand)
    tab.value("(({ part }) => { part('speed').value = '9600'; part('speed').dispatchEvent(new Event('change')); part('font').click(); })(Tamligub)")
    tab.call("Page.navigate", url="file://" + stand.bare)
    tab.until(f"location.pathname === {json.dumps(stand.bare)} && document.readyState === 'complete'")
    tab.value("history.back(), 0")
    tab.until(f"location.pathname === {json.dumps(stand.html)} && document.readyState === 'complete' && window.Tamligub && Tamligub.begun && true")
    here = "Tamligub.begun.then(() => (({ part, viewer }) => [part('speed').value, part('font').checked, viewer.player.speed, viewer.screen.font])(Tamligub))"
    speed, font, *done = tab.value(here)
    assert [int(speed), font] == done, f"{speed} bit/s and {font} are shown, and {done} is done"


def a_big_file_is_read_once(tab, stand):
    """Two pages in a file of btx html, one of 50,000 bytes each of which changes a cell: each text is read once, for its small picture
    and its film, however often its page is opened, and each picture is painted once."""
    page = os.path.join(stand.place, "big.btx")
    with open(page, "wb") as file:
        file.write(bytes(0x21 + n % 94 for n in range(50000)))
    with tab.beforehand(browser.WORK):
        tab.open(stand.written("big.html", [page, stand.path("title")]))
    tab.until("work.of('paintStill').count === 2")
    assert tab.value("Tamligub.viewer.film().changes.count") == 50000, "there are other change lines"

    def of(name):
        return tab.value(f"work.of({json.dumps(name)})")

    def count(*names):
        return [of(name)["count"] for name in names]

    signs, lines = tab.value("[/[^]/g, /\\n/g].map((one) => Tamligub.viewer.pages.map((page) => page.changes.match(one).length))")
    assert of("readChanges") == {"count": 2, "size": sum(signs)}, f"texts of {signs} signs: {of('readChanges')}"
    assert count("embedded", "unpacked", "Film", "readCheck") == [1, 1, 1, 1], "the file is taken several times"
    # Each line's, and the blank look of each text.
    looks, = count("Looks.number")
    assert 0 < looks <= sum(lines) + 2, f"{looks} looks for {lines} lines"
    assert count("Painter.cell") == [3 * 960], f"{count('Painter.cell')} cells were painted for two small pictures and a large one"
    for times, number in enumerate((1, 0, 1, 0), 4):
        tab.value(f"Tamligub.viewer.open({number})")
        assert count("readChanges", "Film") == [2, 2], "a page is read again"
        assert count("Painter.cell") == [times * 960], f"{count('Painter.cell')} cells were painted for {times} pictures"


def a_big_page_is_painted_cell_by_cell(tab, stand):
    """A text of 50,000 change lines that is opened: to its end at once, a step, and to its start."""
    tab.size(1280, 1000)
    with tab.beforehand(browser.WORK):
        tab.open(stand.bare)
    script = """(() => {
      const inks = ["FFF", "F00", "0F0", "FF0", "00F", "F0F", "0FF"];
      const lines = [];
      for (let n = 0; n < 50000; n++) {
        const code = (0x21 + (n * 7) % 0x5d).toString(16).toUpperCase();
        lines.push(`${n} ${1 + Math.floor(n / 40) % 24} ${1 + n % 40} P${code} 11.00 ${inks[Math.floor(n / 960) % 7]} 000 S---`);
      }
      const text = lines.join("\\n") + "\\n";
      const { viewer } = Tamligub;
      const of = (act) => {
        work.forget();
        act();
        return ["readChanges", "Film", "Film.go", "Painter.cell"].map((name) => work.of(name).count);
      };
      return [
        of(() => viewer.take([{ name: "big", changes: text, check: null, page: new Uint8Array(50000) }])),
        of(() => viewer.player.toStart()), of(() => viewer.player.toEnd()), of(() => viewer.player.step(-1)), of(() => viewer.player.step(1)),
      ];
    })()"""
    took, start, end, back, forth = tab.value(script)
    assert took == [1, 1, 1, 960], f"taken by {took} readings, films, motions and cells"
    assert start == [0, 0, 1, 960] and end == [0, 0, 1, 960], f"to its start and its end by {start}, {end}"
    assert back == [0, 0, 1, 1] and forth == [0, 0, 1, 1], f"a step by {back}, {forth}"


CASES = (
    the_canvas_shows_the_cells, letters_of_a_font_stand_in_their_cells,
    flash_has_six_phases, without_the_flash_each_sign_is_seen, phases_by_the_lines_of_flash_are_those_of_the_looks,
    lines_of_flash_are_what_is_shown, files_have_the_lines_of_flash_where_a_page_flashes,
    the_flash_runs_only_where_something_flashes, what_flashes_does_so_while_a_page_plays,
    concealed_cells_show_when_revealed, double_density_is_sharp,
    the_slider_shows_what_has_come,
    a_recording_plays_in_its_own_time,
    keys_do_what_buttons_do, all_controls_have_names_and_are_reached, text_and_controls_have_contrast,
    nothing_is_lost_at_200_percent, with_less_motion_nothing_moves,
    refusals_are_listed_and_lead_to_their_moments, an_address_names_a_page_as_it_is_or_as_addresses_have_it, no_byte_of_a_page_is_markup,
    a_cell_tells_its_line_and_bytes, a_pointer_over_the_screen_names_the_cell,
    the_index_has_small_pictures, the_picture_and_the_text_can_be_taken, a_text_that_the_browser_does_not_copy_is_marked,
    a_page_that_is_gone_back_to_does_what_its_controls_say, a_big_page_is_painted_cell_by_cell,
    a_big_file_is_read_once,
)
