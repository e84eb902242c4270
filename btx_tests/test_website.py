"""The website of an archive in a browser: from page to page, folders, search, what the address keeps, languages, titles, print, phone."""
import functools
import http.server
import os
import shutil
import threading
import urllib.parse

import archives
import stand

import access

NAMES = "[...document.querySelectorAll('#tiles .name')].map((one) => one.textContent).join()"
FOLDERS = "[...document.querySelectorAll('#folders a')].map((one) => one.textContent).join()"
WALK = "[...document.querySelectorAll('#walk a')].map((one) => `${one.rel}:${one.textContent}`).join('|')"
# How many points of the outlines are painted.
OUTLINED = """(() => {
  const canvas = document.getElementById("outlines");
  return canvas.getContext("2d").getImageData(0, 0, canvas.width, canvas.height).data.filter((part) => part).length;
})()"""


class Quiet(http.server.SimpleHTTPRequestHandler):
    """A server of files that tells of no request."""

    def log_message(self, *_):
        pass


class Website(archives.Case):
    def setUp(self):
        super().setUp()
        self.tab = self.browser()
        self.small("boat", "refused")
        os.makedirs(os.path.join(self.source, "alt & neu", "größe"))
        shutil.copy(stand.page("title"), os.path.join(self.source, "alt & neu", "größe", "eins.btx"))
        shutil.copy(stand.page("house"), os.path.join(self.source, "alt & neu", "größe", "zwei.btx"))
        shutil.copy(stand.page("title"), os.path.join(os.fsencode(self.source), b"zu\xdf.btx"))
        self.all = "alt & neu/größe/eins.btx,alt & neu/größe/zwei.btx,boat.btx,refused.btx,zu\\xdf.btx"

    def open(self, name="index.html", *words):
        self.tab.size(1280, 900)
        self.tab.call("Page.navigate", url="about:blank")
        self.tab.call("Page.navigate", url="file://" + urllib.parse.quote(os.path.join(self.out, name)) + "".join(words))
        self.ready("#count" if name == "index.html" else "#walk a")

    def ready(self, part):
        self.tab.until(f"document.readyState === 'complete' && (document.querySelector({part!r}) || {{}}).textContent")

    def choose(self, part, value):
        event = "input" if part == "search" else "change"
        self.tab.value(f"(({part}) => {{ {part}.value = {value!r}; {part}.dispatchEvent(new Event('{event}')); }})(document.getElementById('{part}'))")

    def shows(self, script, wanted):
        self.tab.until(f"{script} === {wanted!r}")

    def click(self, text, where="a"):
        self.tab.value(f"[...document.querySelectorAll({where!r})].find((one) => one.textContent === {text!r}).click()")

    def test_index_and_pages_serve_a_person_without_a_mouse(self):
        """Names, contrast, the way of the focus, twice as large, and nothing that moves."""
        self.archive()
        access.media(self.tab, prefers_reduced_motion="reduce")
        for name, least in (("index.html", 10), ("pages/boat.btx.html", 20)):
            self.open(name)
            if name == "index.html":
                self.tab.until("document.querySelectorAll('#tiles a').length > 3")
            access.all_is_named(self.tab, least)
            access.all_has_contrast(self.tab)
            access.the_focus_goes_through_all(self.tab)
            access.nothing_is_lost_twice_as_large(self.tab)
            access.media(self.tab, prefers_reduced_motion="reduce")
            access.nothing_moves(self.tab)

    def test_a_website_without_its_viewer_says_so(self):
        """In the index and on a page, and nowhere while the viewer is there."""
        self.archive()
        lost = "(({ innerText, offsetHeight }) => offsetHeight ? innerText : '')(document.querySelector('.lost'))"
        for name in ("index.html", "pages/alt & neu/größe/eins.btx.html"):
            self.open(name)
            self.assertEqual(self.tab.value(lost), "")
        shutil.rmtree(os.path.join(self.out, "viewer"))
        for name in ("index.html", "pages/alt & neu/größe/eins.btx.html"):
            self.tab.call("Page.navigate", url="file://" + urllib.parse.quote(os.path.join(self.out, name)))
            self.tab.until("document.readyState === 'complete' && document.querySelector('.lost') !== null")
            said = self.tab.value(lost)
            self.assertTrue(said.startswith("Der Ordner viewer dieser Website fehlt; ") and "The folder viewer of this website is missing; " in said, said)
        self.tab.faults.clear()

    def test_from_page_to_page(self):
        self.archive()
        self.open("pages/boat.btx.html")
        self.shows(WALK, "prev:◀ Haus mit Baum|next:▶ Eine gestörte Übertragung")
        self.click("◀ Haus mit Baum")
        self.ready("#walk a")
        self.shows(WALK, "prev:◀ BILDSCHIRMTEXT|:alt & neu/|:größe/|next:▶ Segelboot")
        self.shows("document.getElementById('name').textContent", "alt & neu/größe/zwei.btx")
        # The first has none before it; the last, whose name is no UTF-8, none after.
        self.click("◀ BILDSCHIRMTEXT")
        self.tab.until("document.title === 'BILDSCHIRMTEXT'")
        self.shows(WALK, ":alt & neu/|:größe/|next:▶ Haus mit Baum")
        self.click("größe/")
        self.ready("#count")
        self.shows(NAMES, "alt & neu/größe/eins.btx,alt & neu/größe/zwei.btx")
        # An address goes to a byte of a page, by its name with the folders and the suffix or without.
        for name in ("alt & neu/größe/eins.btx", "größe/eins.btx", "eins.btx", "eins"):
            self.open("pages/alt & neu/größe/eins.btx.html", urllib.parse.quote(f"#{name}@13", safe="#@/"))
            self.tab.until("Tamligub.viewer.player.come === 14")
        self.open("pages/refused.btx.html")
        self.click("▶ BILDSCHIRMTEXT")
        self.shows(WALK, "prev:◀ Eine gestörte Übertragung")
        self.assertEqual(self.tab.faults, [])

    def test_a_long_page_is_decoded_in_the_browser(self):
        """By the module that all long pages of the website share; a short one doesn't ask for it."""
        self.module()
        path = self.written("collection/lang.btx", stand.put("gen", "1"))
        self.archive()
        self.open("pages/lang.btx.html")
        self.tab.until("Tamligub.viewer.film() !== null")
        looks = self.tab.value("Array.from(Tamligub.viewer.screen.shown, (number) => Tamligub.viewer.screen.looks[number].text)")
        shown = [f"{1 + cell // 40} {1 + cell % 40} {look}" for cell, look in enumerate(looks) if look != "- 11.00 FFF 000 S---"]
        self.assertEqual(shown, stand.put("cells", path).decode().splitlines())
        self.assertEqual(self.tab.value("Tamligub.viewer.film().linesUpTo(Tamligub.viewer.film().moment)"), stand.put("changes", path).count(b"\n"))
        loaded = "[...document.scripts].some((one) => one.src.endsWith('/module.js'))"
        self.assertTrue(self.tab.value(loaded))
        self.open("pages/boat.btx.html")
        self.assertFalse(self.tab.value(loaded))
        self.assertEqual(self.tab.faults, [])

    def test_a_long_page_that_cannot_be_decoded_says_why(self):
        """Where the module was lost, and where the program in it finds no memory."""
        self.module()
        self.written("collection/lang.btx", stand.put("gen", "1"))
        self.archive()
        module = os.path.join(self.out, "viewer", "module.js")
        faults = ("", "Tamligub.run = () => ({ status: 6, text: new Uint8Array() }); Tamligub.calling = '() => ({ run: Tamligub.run })';")
        said = ("what changes on it could not be read here: ", "there is not enough memory; nothing was written")
        with open(module, encoding="utf-8") as file:
            text = file.read()
        for fault, why in zip(faults, said):
            with open(module, "w", encoding="utf-8") as file:
                file.write(text + fault if fault else "")
            self.tab.call("Page.addScriptToEvaluateOnNewDocument", source="window.Worker = undefined; localStorage.setItem('tamligub-language', 'en');")
            self.open("pages/lang.btx.html")
            self.tab.until(f"document.getElementById('fault').textContent.startsWith('lang.btx: {why}')")
            self.tab.until("document.getElementById('name').textContent === 'No page is open.'")

    def test_the_folder_of_any_name_is_found(self):
        """Whatever signs are in its name, the link of a page leads to what the index has in it."""
        for name in (b"a\nb", b"Gr\xc3\xb6\xc3\x9fe \xdf", b"a\\x41", b"{title}"):
            os.mkdir(os.path.join(os.fsencode(self.source), name))
            shutil.copy(stand.page("boat"), os.path.join(os.fsencode(self.source), name, b"one.btx"))
        self.archive()
        for folder in ("a%0Ab", "Gr%C3%B6%C3%9Fe%20%DF", "a%5Cx41", "%7Btitle%7D"):
            self.open("pages/", f"{folder}/one.btx.html")
            self.tab.value("[...document.querySelectorAll('#walk a')].find((one) => !one.rel).click()")
            self.ready("#count")
            self.tab.until("document.querySelectorAll('#tiles .name').length === 1")

    def test_the_index_of_a_served_website_is_found_as_it_was_left(self):
        self.archive()
        server = http.server.ThreadingHTTPServer(("127.0.0.1", 0), functools.partial(Quiet, directory=self.out))
        threading.Thread(target=server.serve_forever, daemon=True).start()
        self.addCleanup(server.server_close)
        self.addCleanup(server.shutdown)
        self.tab.call("Page.navigate", url=f"http://127.0.0.1:{server.server_port}/")
        self.ready("#count")
        self.choose("filter", "refused")
        self.shows(NAMES, "refused.btx")
        self.tab.value("document.querySelector('#tiles a').click()")
        self.ready("#walk a")
        self.tab.value("document.querySelector('h1 a').click()")
        self.tab.until("document.getElementById('filter') !== null && document.getElementById('filter').value === 'refused'")

    def test_the_way_stays_right_where_a_page_is_gone(self):
        self.archive()
        os.remove(os.path.join(self.source, "boat.btx"))
        self.archive()
        self.open("pages/refused.btx.html")
        self.shows(WALK, "prev:◀ Haus mit Baum|next:▶ BILDSCHIRMTEXT")
        self.assertEqual(sum(len(files) for _, _, files in os.walk(os.path.join(self.out, "walk"))), 4)

    def test_folders(self):
        self.archive()
        self.open()
        self.shows(FOLDERS, self.tab.value("Tamligub.word('allFolders')") + ",alt & neu/")
        self.click("alt & neu/")
        self.tab.until(f"{FOLDERS}.endsWith(',alt & neu/,größe/')")
        self.click("größe/")
        self.shows(NAMES, "alt & neu/größe/eins.btx,alt & neu/größe/zwei.btx")
        self.tab.value("history.back()")
        self.tab.until(f"{FOLDERS}.endsWith(',alt & neu/,größe/')")

    def test_search_without_accents(self):
        self.archive()
        self.open()
        for search, wanted in (
            ("grosse", "alt & neu/größe/eins.btx,alt & neu/größe/zwei.btx,zu\\xdf.btx"),
            ("GRÖSSE", "alt & neu/größe/eins.btx,alt & neu/größe/zwei.btx,zu\\xdf.btx"),
            ("gestorte", "refused.btx"), ("Übertragung", "refused.btx"), ("xdf", "zu\\xdf.btx"), (" ", self.all),
            # No page has a word of them.
            ("#", ""), ("☎", ""), ("", self.all),
        ):
            self.choose("search", search)
            self.shows(NAMES, wanted)

    def test_search_and_filters_are_kept(self):
        self.archive()
        self.open()
        self.choose("search", "nicht & grosse")
        self.choose("search", "grosse haus")
        self.choose("order", "bytes")
        self.choose("filter", "whole")
        self.shows(NAMES, "alt & neu/größe/zwei.btx")
        address = self.tab.value("location.href")
        self.tab.value("document.querySelector('#tiles a').click()")
        self.ready("#walk a")
        # Back by the browser, by the heading, and by the address alone.
        for back in ("history.back()", "document.querySelector('h1 a').click()"):
            self.tab.value(back)
            self.tab.until("document.getElementById('filter') !== null && document.getElementById('filter').value === 'whole'")
            self.shows(NAMES, "alt & neu/größe/zwei.btx")
            self.tab.value("document.querySelector('#tiles a').click()")
            self.ready("#walk a")
        self.open("index.html", "#" + address.partition("#")[2])
        self.shows(NAMES, "alt & neu/größe/zwei.btx")
        self.assertEqual(self.tab.value("['search', 'filter', 'order'].map((id) => document.getElementById(id).value).join()"), "grosse haus,whole,bytes")

    def test_screens_that_are_the_same(self):
        self.archive()
        self.open()
        self.choose("filter", "alike")
        self.shows(NAMES, "alt & neu/größe/eins.btx,zu\\xdf.btx")
        self.choose("language", "en")
        self.tab.until("document.querySelectorAll('#tiles .facts')[1].textContent.includes('screen as alt & neu/größe/eins.btx')")

    def test_german_and_english(self):
        self.archive()
        self.open()
        for language, label, title, count in (
            ("en", "Search", "Archive of Bildschirmtext pages", "5 of 5 pages"), ("de", "Suchen", "Archiv von Bildschirmtext-Seiten", "5 von 5 Seiten"),
        ):
            self.choose("language", language)
            self.shows("document.querySelector('label').textContent", label)
            self.shows("`${document.documentElement.lang} ${document.title} ${document.getElementById('count').textContent}`", f"{language} {title} {count}")
        # A page speaks as the index did last.
        self.open("pages/boat.btx.html")
        self.shows("document.querySelector('#walk [rel=next]').title", "nächste Seite")
        self.shows("document.querySelector('h1').textContent", "Archiv von Bildschirmtext-Seiten")
        self.shows("document.getElementById('save').textContent", "PNG sichern")
        # And the index as the page did last; the title of a page is its own in any language.
        self.choose("language", "en")
        self.shows("document.querySelector('#walk [rel=next]').title", "next page")
        self.shows("document.getElementById('save').textContent", "Save PNG")
        self.shows("document.title", "Segelboot")
        self.open()
        self.shows("document.getElementById('language').value", "en")

    def test_titles(self):
        self.archive()
        self.archive("--title", "Mein <b>Archiv</b>")
        self.open()
        self.shows("`${document.title}|${document.querySelector('h1').textContent}`", "Mein <b>Archiv</b>|Mein <b>Archiv</b>")
        self.shows("[...document.querySelectorAll('#tiles .title')].map((one) => one.textContent).join()",
                   "BILDSCHIRMTEXT,Haus mit Baum,Segelboot,Eine gestörte Übertragung,BILDSCHIRMTEXT")
        self.open("pages/boat.btx.html")
        self.shows("`${document.title}|${document.querySelector('h1').textContent}`", "Segelboot|Mein <b>Archiv</b>")

    def test_outlines_are_off_until_asked_for_and_print_has_the_screen_alone(self):
        self.archive()
        self.open("pages/boat.btx.html")
        self.tab.until("Tamligub.viewer.film() !== null")
        self.assertEqual(self.tab.value(OUTLINED), 0)
        self.tab.value("document.getElementById('outline').click()")
        self.assertGreater(self.tab.value(OUTLINED), 0)
        seen = "['outlines', 'page', 'walk', 'bytes', 'text-part'].filter((id) => document.getElementById(id).getClientRects().length).join()"
        self.tab.call("Emulation.setEmulatedMedia", media="print")
        self.shows(seen, "page")
        self.tab.call("Emulation.setEmulatedMedia", media="screen")
        self.shows(seen, "outlines,page,walk,bytes,text-part")

    def test_a_phone_has_the_whole_page_in_its_width(self):
        self.archive()
        self.open("pages/alt%20&%20neu/größe/eins.btx.html".replace("%20", " "))
        access.laid_out(self.tab, 360, 740, 2)
        self.tab.until("document.getElementById('page').getBoundingClientRect().width <= 360")
        self.assertLessEqual(self.tab.value("document.documentElement.scrollWidth"), 360)
        self.assertEqual(self.tab.value(OUTLINED), 0)
        self.open()
        access.laid_out(self.tab, 360, 740, 2)
        self.assertLessEqual(self.tab.value("document.documentElement.scrollWidth"), 360)
