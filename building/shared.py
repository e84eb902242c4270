"""The shared library, made of the static one: the kit's linker puts all of it into one file, which names its version and exports the
functions of the header alone."""
import os
import re

from building import Stop, kit, module, running

NAME = "libtamligub.so.1"
# What programs that are built against it look for.
LINK = "libtamligub.so"
# The version of every function that the header has. A function that a later version adds has one of its own.
VERSION = "TAMLIGUB_1"
C_LIBRARY = re.compile(r" (/\S*/libc\.so\.6)$", re.MULTILINE)
RELOCATED = ["-z", "now", "-z", "relro", "-z", "noexecstack", "-z", "defs", "--build-id=sha1", "--gc-sections"]
PKG_CONFIG = """prefix={prefix}
libdir={libdir}
includedir={includedir}

Name: tamligub
Description: proved decoder and page editor for Bildschirmtext
Version: {version}
Libs: -L"${{libdir}}" {path}-ltamligub
Cflags: -I"${{includedir}}"
"""


def pkg_config(prefix, libdir, includedir, version, is_searched):
    """What pkg-config reads. Of a folder that the system doesn't search for libraries, programs are told where it is."""
    # A comma parts what -Wl hands to a linker.
    way = "-Xlinker -rpath=" if "," in prefix else "-Wl,-rpath,"
    path = "" if is_searched else way + '"${libdir}" '
    # Else it takes the sign for the beginning of a comment, or the end of what is quoted.
    escaped = re.sub(r'([#"\\])', r"\\\1", prefix)
    return PKG_CONFIG.format(prefix=escaped, libdir=libdir, includedir=includedir, version=version, path=path)


def version():
    """The version that the header says."""
    with open(module.HEADER, encoding="utf-8") as file:
        said, = re.findall(r'^#define TAMLIGUB_VERSION "(.*)"$', file.read(), re.MULTILINE)
    return said


def c_library():
    """The C library of this machine, as this very process has it."""
    with open("/proc/self/maps", encoding="utf-8") as file:
        found = C_LIBRARY.search(file.read())
    if not found:
        raise Stop("this machine's C library isn't libc.so.6, against which the shared library is linked")
    return found[1]


def version_script():
    """What the linker exports, and under which version."""
    return f"{VERSION} {{\n  global:\n" + "".join(f"    {name};\n" for name in sorted(module.exports())) + "  local: *;\n};\n"


def make(archive, work):
    """Makes the shared library of the static one. Answers its path."""
    path, script = os.path.join(work, NAME), os.path.join(work, "exports.map")
    with open(script, "w", encoding="ascii") as file:
        file.write(version_script())
    linker = os.path.join(kit.found(), "toolchain", "bin", "ld.lld")
    roots = [f"--undefined={name}" for name in sorted(module.exports())]
    words = ["-shared", "-soname", NAME, "--version-script", script, *RELOCATED, *roots, "-o", path, archive, "--as-needed", c_library()]
    running.do(linker, *words, cwd=work)
    os.chmod(path, 0o644)
    return path
