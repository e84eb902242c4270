"""The file with the viewer and the decoder in it. That it decodes is tested by view/test_decoder."""
import base64
import json
import os
import re

import stand


class Viewer(stand.Case):
    def document(self, *words, **more):
        self.module()
        done = stand.btx("viewer", *words, **more)
        self.assertEqual((done.returncode, done.stderr), (0, b""))
        return done.stdout

    def test_the_module_is_inside(self):
        found = re.search(rb'<script type="application/wasm-base64" id="module">([^<]*)</script>', self.document())
        with open(self.module(), "rb") as file:
            self.assertEqual(base64.b64decode(found[1]), file.read())

    def test_nothing_is_fetched(self):
        document = self.document()
        self.assertEqual(re.findall(rb'(?:src|href)="(?!#)([^"]*)"', document), [])
        self.assertIn(b"default-src 'none'", document)

    def test_pages_to_look_at_are_inside(self):
        found = re.search(rb'<script type="application/json" id="examples">([^<]*)</script>', self.document())
        stored = {one["name"]: base64.b64decode(one["page"]) for one in json.loads(found[1])}
        self.assertEqual(list(stored), ["welcome", *stand.all_pages()])
        for name in stand.all_pages():
            with open(stand.page(name), "rb") as file:
                self.assertEqual(stored[name], file.read())

    def test_the_page_that_says_how_one_is_opened_is_that_of_its_script(self):
        view = os.path.join(stand.ROOT, "view")
        done = stand.btx("edit", self.written("empty", b""), os.path.join(view, "welcome.script"))
        with open(os.path.join(view, "welcome.btx"), "rb") as file:
            self.assertEqual((done.returncode, done.stdout), (0, file.read()))

    def test_output_and_module_can_be_named(self):
        whole = self.document()
        self.assertEqual(self.document("-o", self.path("viewer.html"), "--module", self.module()), b"")
        with open(self.path("viewer.html"), "rb") as file:
            self.assertEqual(file.read(), whole)

    def test_it_does_without_the_program(self):
        self.assertIn(b"<canvas", self.document(env=stand.environment(BTX_PROGRAM="nowhere")))

    def test_a_module_that_is_not_there(self):
        done = stand.btx("viewer", "--module", "nowhere", cwd=self.folder)
        self.assertEqual((done.returncode, done.stdout, done.stderr), (4, b"", b"btx: viewer: nowhere: no such file or directory\n"))

    def test_a_file_that_is_no_module(self):
        for word in ("viewer", "editor"):
            done = stand.btx(word, "--module", self.written("page", b"A"), "-o", self.path("out.html"))
            said = f"btx: {word}: {self.path('page')}: this is no module of WebAssembly\n"
            self.assertEqual((done.returncode, done.stderr.decode(), os.path.exists(self.path("out.html"))), (4, said, False))
