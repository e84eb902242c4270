"""Files for a browser. What a file holds is compared with what the program puts."""
import base64
import json
import os
import re

import stand


class Html(stand.Case):
    def data_in(self, document):
        return json.loads(re.search(rb'<script type="application/json" id="pages">(.*?)</script>', document, re.DOTALL)[1])

    def test_the_file_holds_what_the_program_puts(self):
        names = ["title", "refused"]
        path = self.path("out.html")
        done = stand.btx("html", *map(stand.page, names), "-o", path)
        self.assertEqual((done.returncode, done.stdout, done.stderr), (0, b"", b""))
        with open(path, "rb") as file:
            pages = self.data_in(file.read())
        self.assertEqual([page["name"] for page in pages], names)
        for page in pages:
            for word in ("changes", "check"):
                self.assertEqual(page[word].encode(), stand.put(word, stand.page(page["name"])))
            with open(stand.page(page["name"]), "rb") as file:
                self.assertEqual(base64.b64decode(page["page"]), file.read())

    def test_a_page_that_flashes_has_what_each_turn_changes(self):
        names = ["flashing", "title"]
        pages = self.data_in(stand.btx("html", *map(stand.page, names)).stdout)
        self.assertEqual([page.get("flash") for page in pages], [stand.put("flash", stand.page("flashing"), "6").decode(), None])

    def test_without_a_page_it_is_the_viewer_alone(self):
        done = stand.btx("html")
        self.assertEqual((done.returncode, done.stderr, self.data_in(done.stdout)), (0, b"", []))
        self.assertEqual(re.findall(rb"<script[^>]+(?:src|module)", done.stdout), [])

    def test_nothing_is_fetched(self):
        document = stand.btx("html", stand.page("title")).stdout
        self.assertEqual(re.findall(rb'(?:src|href)="(?!#)([^"]*)"', document), [])
        self.assertIn(b"default-src 'none'", document)

    def test_no_name_is_markup(self):
        os.mkdir(self.path("<"))
        name = "<\u002fscript><b>bold.btx"
        with open(self.path(*name.split("/")), "wb") as file:
            file.write(b"A")
        document = stand.btx("html", name, name, cwd=self.folder).stdout
        self.assertNotIn(b"script><b>", document)
        self.assertEqual([page["name"] for page in self.data_in(document)], [name, name])

    def test_pages_that_cannot_be_read_are_told_and_the_others_are_in_the_file(self):
        path, lost = self.path("out.html"), self.path("lost.btx")
        done = stand.btx("html", lost, stand.page("title"), self.folder, stand.page("boat"), "-o", path)
        archive = "btx archive takes a folder and makes its pages a website"
        said = f"btx: html: {lost}: no such file\nbtx: html: {self.folder}: is a directory; {archive}\n"
        self.assertEqual((done.returncode, done.stdout, done.stderr.decode()), (4, b"", said))
        with open(path, "rb") as file:
            self.assertEqual([page["name"] for page in self.data_in(file.read())], ["title", "boat"])

    def test_where_no_page_can_be_read_the_file_stays_as_it_was(self):
        path = self.written("out.html", b"before")
        for words in (["nowhere"], ["nowhere", "nowhere"], ["nowhere", "-o", path]):
            done = stand.btx("html", *words, cwd=self.folder)
            said = b"btx: html: nowhere: no such file\n" * words.count("nowhere")
            self.assertEqual((done.returncode, done.stdout, done.stderr), (4, b"", said))
        with open(path, "rb") as file:
            self.assertEqual(file.read(), b"before")
