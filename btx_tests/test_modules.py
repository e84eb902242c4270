"""Scripts that are made of modules. What is wanted is what the text of a module says, and what Node makes of the scripts."""
import json
import os
import re
import subprocess

import stand
from btx import editor, html_file, modules, viewer, website

BASE = 'export const BASE = 7;\nexport function twice(number) {\n  return 2 * number;\n}\n'
NAMES = (
    'import { BASE, twice } from "./base.js";\n\nconst secret = twice(BASE);\nexport const told = () => secret;\n'
    "export async function later() {\n  return secret;\n}\n"
)
ENTRY = (
    '// Begins.\nimport {\n  later, told,\n} from "./names.js";\nimport { BASE } from "./base.js";\n\n'
    "export class Sum {\n  of() {\n    return told() + BASE;\n  }\n}\n"
)


class Modules(stand.Case):
    def folder_of(self, **texts):
        for name, text in texts.items():
            self.written(f"{name}.js", text.encode())
        return self.folder

    def ran(self, scripts, ends):
        """What scripts put by which a document runs them one after the other."""
        node, = self.needs("node")
        whole = "".join(f"({json.dumps(script)}),\n" for script in scripts)
        text = f"globalThis.window = globalThis; const vm = require('vm');\nfor (const one of [{whole}]) vm.runInThisContext(one);\n{ends}"
        done = subprocess.run([node, "-e", text], stdout=subprocess.PIPE, text=True, timeout=stand.LONG, check=True)
        return done.stdout

    def test_each_module_stands_after_those_that_it_needs(self):
        found = modules.modules_of(self.folder_of(base=BASE, names=NAMES, entry=ENTRY), "entry.js")
        self.assertEqual([one.name for one in found], ["base.js", "names.js", "entry.js"])
        self.assertEqual([one.exports for one in found], [["BASE", "twice"], ["told", "later"], ["Sum"]])

    def test_a_script_says_what_its_module_says(self):
        self.folder_of(base=BASE, names=NAMES)
        wanted = (
            '(function (tamligub) {\n"use strict";\nconst { BASE, twice } = tamligub;\n\nconst secret = twice(BASE);\nconst told = () => secret;\n'
            'async function later() {\n  return secret;\n}\n\nObject.assign(tamligub, { told, later });\n'
            '})((window.Tamligub = window.Tamligub || {}));\n'
        )
        self.assertEqual(modules.scripts_of(self.folder, "names.js")[1], wanted)

    def test_scripts_run_as_the_modules_would(self):
        scripts = modules.scripts_of(self.folder_of(base=BASE, names=NAMES, entry=ENTRY), "entry.js")
        ends = "Tamligub.later().then((one) => console.log(new Tamligub.Sum().of(), one, Object.keys(Tamligub).join(), typeof secret))"
        self.assertEqual(self.ran(scripts, ends), "21 14 BASE,twice,told,later,Sum undefined\n")

    def test_what_says_types_stands_in_no_script(self):
        typed = (
            "/** @typedef {number} Count */\n\n/**\n * Twice.\n * @param {Count} one\n */\n"
            "export function twice(one) {\n  return 2 * /** @type {any} */ (one);\n}\n"
        )
        script, = modules.scripts_of(self.folder_of(entry=typed), "entry.js")
        self.assertIn("\n\nfunction twice(one) {\n  return 2 * /** @type {any} */ (one);\n}\n", script)
        self.assertNotIn("Count", script)

    def test_scripts_of_several_leave_out_what_is_there(self):
        folder = self.folder_of(base=BASE, names=NAMES, entry=ENTRY)
        scripts = modules.scripts_of(folder, "names.js", "entry.js", without=["base.js"])
        self.assertEqual(scripts, modules.scripts_of(folder, "entry.js")[1:])

    def test_what_stands_before_is_taken_and_not_made(self):
        self.folder_of(shared="export const { run } = globalThis.Tamligub;\n", entry='import { run } from "./shared.js";\nexport const ran = run();\n')
        scripts = modules.scripts_of(self.folder, "entry.js")
        self.assertEqual(self.ran(["var Tamligub = { run: () => 3 };", *scripts], "console.log(Tamligub.ran)"), "3\n")

    def refuses(self, said, **texts):
        with self.assertRaises(modules.BadModule) as raised:
            modules.scripts_of(self.folder_of(**texts), "entry.js")
        self.assertIn(said, str(raised.exception))

    def test_forms_that_are_not_known_are_refused(self):
        forms = ('import all from "./base.js";', 'import * as all from "./base.js";', 'import "./base.js";', 'import { one } from "other";')
        for form in (*forms, "export default 3;", "export { one };", "export let one = 3;", 'export * from "./base.js";'):
            self.refuses("entry.js: a form that isn't known: ", base=BASE, entry=f"{form}\n")
        self.refuses("entry.js: a form that isn't known: BASE as other", base=BASE, entry='import { BASE as other } from "./base.js";\n')

    def test_names_that_do_not_fit_are_refused(self):
        self.refuses("entry.js: base.js exports no other", base=BASE, entry='import { BASE, other } from "./base.js";\n')
        self.refuses("BASE is exported twice", base=BASE, entry='import { twice } from "./base.js";\nexport const BASE = twice(1);\n')
        one, other = ('import {{ {0} }} from "./{1}.js";\nexport const {2} = 1;\n'.format(*names) for names in (("b", "entry", "a"), ("a", "names", "b")))
        self.refuses("entry.js: it needs itself, over names.js", names=one, entry=other)

    def test_the_editor_leaves_no_module_out(self):
        """All but what is there for Node and the types stands in the page, each once."""
        names = [one.name for one in modules.modules_of(editor.EDIT, "editor.js")]
        wanted = {name for name in os.listdir(editor.EDIT) if name.endswith(".js")} - {modules.SHARED, "types.js"}
        self.assertEqual(sorted(names), sorted(wanted))

    def test_the_viewer_and_an_archive_leave_no_module_out(self):
        """All but what is there for the types stands in the viewer or in an archive; and what an archive's pages have is there before it is
        taken, each once."""
        wanted = {name for name in os.listdir(html_file.VIEW) if name.endswith(".js")} - {"types.js"}
        found = {one.name for one in modules.modules_of(html_file.VIEW, html_file.ENTRY, *viewer.OWN, *website.SCRIPTS)}
        self.assertEqual(sorted(found), sorted(wanted))
        made = website.scripts_of()
        for files in (("words.js", "viewer.js", "walk.js"), ("words.js", "archive.js")):
            scripts = "".join(script for file in files for script in made[file])
            given = [one for names in re.findall(r"Object\.assign\(tamligub, \{ (.*) \}\);\n\}\)", scripts) for one in names.split(", ")]
            self.assertEqual(len(given), len(set(given)), files)
            taken = {one for names in re.findall(r"^const \{ (.*) \} = tamligub;$", scripts, re.MULTILINE) for one in names.split(", ")}
            self.assertLessEqual(taken, set(given), files)
