"""The file with the page editor and the decoder in it. What it does is tested by edit/test."""
import base64
import json
import re

import stand

KEPT = rb'<script type="application/%s" id="%s">([^<]*)</script>'


class Editor(stand.Case):
    def document(self, *words, **more):
        self.module()
        done = stand.btx("editor", *words, **more)
        self.assertEqual((done.returncode, done.stderr), (0, b""))
        return done.stdout

    def test_the_module_is_inside(self):
        found = re.search(KEPT % (b"wasm-base64", b"module"), self.document())
        with open(self.module(), "rb") as file:
            self.assertEqual(base64.b64decode(found[1]), file.read())

    def test_the_viewer_is_inside(self):
        """In two parts, between which the pages of `btx html` stand."""
        head, tail = json.loads(re.search(KEPT % (b"json", b"viewer"), self.document())[1])
        html = stand.btx("html", stand.page("title")).stdout.decode()
        self.assertTrue(html.startswith(head) and html.endswith(tail))

    def test_nothing_is_fetched(self):
        document = self.document()
        self.assertEqual(re.findall(rb'(?:src|href)="(?!#)([^"]*)"', document), [])
        self.assertIn(b"default-src 'none'", document)

    def test_output_and_module_can_be_named(self):
        whole = self.document()
        self.assertEqual(self.document("-o", self.path("editor.html"), "--module", self.module()), b"")
        with open(self.path("editor.html"), "rb") as file:
            self.assertEqual(file.read(), whole)

    def test_it_does_without_the_program(self):
        self.assertIn(b"<canvas", self.document(env=stand.environment(BTX_PROGRAM="nowhere")))

    def test_a_module_that_is_not_there(self):
        done = stand.btx("editor", "--module", "nowhere", cwd=self.folder)
        self.assertEqual((done.returncode, done.stdout, done.stderr), (4, b"", b"btx: editor: nowhere: no such file or directory\n"))
