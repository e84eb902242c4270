"""The package for npm: the 32-bit module with `library/tamligub.js`, once as an ES module and once for CommonJS, and its types."""
import json
import os
import shutil

from building import ROOT, Stop

SOURCE = os.path.join(ROOT, "library", "npm")
SCRIPT = os.path.join(ROOT, "library", "tamligub.js")
FOLDER = "npm"
EXPORTS = 'if (typeof exports !== "undefined") Object.assign(exports, { run, Decoder, BadLine, Closed, NoMemory, NoSnapshot, TooLong });\n'
# The last lines of each script: where its module stands, and what it exports.
LAST = {
    "tamligub.mjs": """
// The module of this package, or of another source.
const load = (source = new URL("tamligub.wasm", import.meta.url)) => compiled(source);

export { BadLine, Closed, Decoder, NoMemory, NoSnapshot, TooLong, load, run };
""",
    "tamligub.cjs": """
// The module of this package, or of another source.
const load = (source = require("node:url").pathToFileURL(require("node:path").join(__dirname, "tamligub.wasm"))) => compiled(source);

module.exports = { BadLine, Closed, Decoder, NoMemory, NoSnapshot, TooLong, load, run };
""",
}
COPIED = ("package.json", "README.md", "example.html", "tamligub.d.ts")
# Where a name is required the types have a name of their own.
TYPES = ("tamligub.d.ts", "tamligub.d.cts")


def text_of(path):
    with open(path, encoding="utf-8") as file:
        return file.read()


def scripts():
    """The text of each script by its name."""
    body, ends, rest = text_of(SCRIPT).partition(EXPORTS)
    if not ends or rest:
        raise ValueError(f"{SCRIPT} doesn't end with its exports")
    return {name: body + text_of(os.path.join(SOURCE, "load.js")) + last for name, last in LAST.items()}


def is_own(folder):
    """Whether a folder is a package that was made by `make`."""
    try:
        with open(os.path.join(folder, "package.json"), encoding="utf-8") as file:
            return json.load(file)["name"] == "tamligub" and not os.path.samefile(folder, SOURCE)
    except (OSError, ValueError, TypeError, KeyError):
        return False


def check(out):
    """Ends where the package's place in a folder has something else in it."""
    folder = os.path.join(out, FOLDER)
    is_empty = os.path.isdir(folder) and not os.listdir(folder)
    if os.path.islink(folder) or os.path.lexists(folder) and not is_empty and not is_own(folder):
        raise Stop(f"{folder}: it is no package that was made here, and stays; the library needs another folder")


def make(module, out):
    """Puts the package of a module into a folder of `out`, in place of an earlier one. Answers its path."""
    folder = os.path.join(out, FOLDER)
    shutil.rmtree(folder, ignore_errors=True)
    os.makedirs(folder)
    for name in COPIED:
        shutil.copyfile(os.path.join(SOURCE, name), os.path.join(folder, name))
    shutil.copyfile(os.path.join(SOURCE, TYPES[0]), os.path.join(folder, TYPES[1]))
    shutil.copyfile(module, os.path.join(folder, "tamligub.wasm"))
    for name, text in scripts().items():
        with open(os.path.join(folder, name), "w", encoding="utf-8") as file:
            file.write(text)
    return folder
