"""Makes scripts of the modules of JavaScript that a page is written in. A browser loads no module from a file system, so each becomes a
script of its own, a function that takes what it imports from the one name Tamligub, and adds to that what it exports."""
import os
import re
from collections.abc import Collection

IMPORT = re.compile(r'^import \{\s*([^{}]+?),?\s*\} from "\./([\w.]+)";\n', re.MULTILINE)
EXPORT = re.compile(r"^export (?=(?:async )?(?:class|const|function) (\w+)\b)", re.MULTILINE)
# What says types stands in no script.
TYPES = re.compile(r"^ *\/\*\*.*?\*\/\n", re.MULTILINE | re.DOTALL)
OTHER = re.compile(r"^(?:import|export)\b.*", re.MULTILINE)
NAMES = re.compile(r",\s*")
NAME = re.compile(r"\w+")
# The module of what scripts before have added: Node and the types take it, and in a page it has nothing to do.
SHARED = "shared.js"


class BadModule(Exception):
    """A module that no script can be made of; the text says why."""


class Module:
    """A module: its text without imports and exports, the names that it imports with their modules, and those that it exports."""

    def __init__(self, name: str, text: str) -> None:
        self.name = name
        self.imports: list[tuple[str, list[str]]] = [(one, NAMES.split(names)) for names, one in IMPORT.findall(text)]
        self.exports: list[str] = EXPORT.findall(text)
        self.text = EXPORT.sub("", IMPORT.sub("", text))
        other = OTHER.search(self.text)
        strange = [one for one in self.imported() if not NAME.fullmatch(one)]
        if other or strange:
            raise BadModule(f"{name}: a form that isn't known: {other[0] if other else strange[0]}")

    def imported(self) -> list[str]:
        """The names that are imported."""
        return [one for _, names in self.imports for one in names]

    def script(self) -> str:
        """The module as a script."""
        taken = f"const {{ {', '.join(self.imported())} }} = tamligub;\n" if self.imports else ""
        given = f"\nObject.assign(tamligub, {{ {', '.join(self.exports)} }});\n" if self.exports else ""
        text = TYPES.sub("", self.text)
        return f'(function (tamligub) {{\n"use strict";\n{taken}{text}{given}}})((window.Tamligub = window.Tamligub || {{}}));\n'


def modules_of(folder: str, *entries: str) -> list[Module]:
    """The modules that some need, each after those that it imports."""
    found: dict[str, Module] = {}
    open_ones: list[str] = []

    def take(name: str) -> None:
        if name in open_ones:
            raise BadModule(f"{name}: it needs itself, over {', '.join(open_ones[open_ones.index(name) + 1 :])}")
        if name in found or name == SHARED:
            return
        open_ones.append(name)
        with open(os.path.join(folder, name), encoding="utf-8") as file:
            module = Module(name, file.read())
        for other, names in module.imports:
            take(other)
            missing = [one for one in names if other in found and one not in found[other].exports]
            if missing:
                raise BadModule(f"{name}: {other} exports no {', '.join(missing)}")
        found[open_ones.pop()] = module

    for entry in entries:
        take(entry)
    return list(found.values())


def scripts_of(folder: str, *entries: str, without: Collection[str] = ()) -> list[str]:
    """The scripts of modules and of all that they need, in their order; not of those that stand in the page already."""
    modules = [one for one in modules_of(folder, *entries) if one.name not in without]
    names = [name for module in modules for name in module.exports]
    twice = sorted({name for name in names if names.count(name) > 1})
    if twice:
        raise BadModule(f"{', '.join(entries)}: {', '.join(twice)} is exported twice")
    return [module.script() for module in modules]
