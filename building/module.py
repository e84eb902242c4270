"""The module for the web, made of the bitcode of the library. The kit proves the crate for WebAssembly, and builds no module that has a
heap: so its own clang and linker make one of the bitcode of the very code that was proved and built for x86-64, and of `library/heap.c`."""
import os
import re
import shutil

from building import ROOT, Stop, kit, running

HEADER = os.path.join(ROOT, "library", "tamligub.h")
HEAP = os.path.join(ROOT, "library", "heap.c")
TARGET = ["--target=wasm64-unknown-unknown", "-mcpu=lime1"]
LAYOUT = "e-m:e-p:64:64-p10:8:8-p20:8:8-i64:64-i128:128-n32:64-S128-ni:1:10:20"
BUILTINS = '"no-builtin-bcmp" "no-builtin-memcmp" "no-builtin-strlen" "target-cpu"="lime1"'
# What the code asks of LLVM and of a processor, and what of that means the same on both.
ASKED = re.compile(r'@llvm\.[a-z0-9.]*| asm |x86[_a-z0-9-]*|"target-features"[^ ]*')
SAME = re.compile(r"@llvm\.(memmove\.p0\.p0\.i64|memset\.p0\.i64|trap|cttz\.i64)")
DEFINED = re.compile(r"^define (?!internal |private )[^@\n]*@(tamligub_\w+)\(.*\{$", re.MULTILINE)
# As the kit compiles for wasm64.
COMPILES = (
    "-mllvm -expand-div-rem-bits=64 -mllvm -expand-fp-convert-bits=64 -ffunction-sections -fdata-sections -mllvm -trap-unreachable "
    "-mllvm -disable-machine-licm -mllvm -disable-postra-machine-licm -mllvm -sink-common-insts=false --no-default-config "
    "-no-canonical-prefixes -fintegrated-cc1 -fno-crash-diagnostics -Werror -O3"
).split()
LOWERS = (
    "--enable-memory64 --enable-bulk-memory --enable-mutable-globals --enable-sign-ext --enable-nontrapping-float-to-int "
    "--memory64-lowering"
).split()
STACK = 2097152


def lacking():
    """What of this machine keeps a module from being made, or None."""
    clang = os.path.join(kit.found(), "toolchain", "bin", "clang")
    if "wasm64" not in running.put([clang, "--print-targets"])[1]:
        return "the clang of the kit has no WebAssembly on this machine, so no module is made"
    if not shutil.which("wasm-opt"):
        said = "so no tamligub.wasm is made, which browsers and npm take, only tamligub64.wasm"
        return f"there is no wasm-opt on this machine (Debian: apt-get install binaryen), {said}"
    return None


def exports():
    """The functions that the header declares."""
    with open(HEADER, encoding="utf-8") as file:
        return set(re.findall(r"\b(tamligub_\w+)\(", re.sub(r"/\*.*?\*/", "", file.read(), flags=re.DOTALL)))


def for_wasm(code):
    """The code with another target. x86-64 and wasm64 agree in the size and alignment of every type that it has, and what it asks of LLVM
    is memmove, memset, trap and the count of a number's last zeros, which mean the same on both; so only what names the processor, its
    builtins and the exports is changed. Anything else stops here."""
    code = re.sub(r'^target datalayout = .*', f'target datalayout = "{LAYOUT}"', code, flags=re.MULTILINE)
    code = re.sub(r'^target triple = .*', 'target triple = "wasm64-unknown-unknown"', code, flags=re.MULTILINE)
    code = code.replace('"target-cpu"="x86-64-v2"', BUILTINS)
    found, wanted = set(DEFINED.findall(code)), exports()
    if found != wanted:
        exported, declared = (", ".join(sorted(names)) or "nothing" for names in (found, wanted))
        raise Stop(f"the library exports {exported}, and its header has {declared}")
    code = DEFINED.sub(lambda it: f'{it[0][:-1]}"wasm-export-name"="{it[1]}" {{', code)
    other = sorted({asked for asked in ASKED.findall(code) if not SAME.fullmatch(asked)})
    if other:
        raise Stop(f"the code asks for what may differ by processor: {', '.join(other)}")
    return code


def make(bitcode, work):
    """Makes the modules of the bitcode as far as the machine can: with a 64-bit memory, importing nothing, and the same with a 32-bit one,
    for browsers and `library/tamligub.js`. Answers their paths."""
    folder, paths = kit.found(), [os.path.join(work, name) for name in ("tamligub64.wasm", "tamligub.wasm")]
    clang, archiver = (os.path.join(folder, "toolchain", "bin", name) for name in ("clang", "llvm-ar"))
    if "wasm64" not in running.put([clang, "--print-targets"])[1]:
        return []
    running.do(clang, "-S", "-emit-llvm", "-Xclang", "-disable-llvm-passes", "-x", "ir", bitcode, "-o", "x64.ll", cwd=work)
    with open(os.path.join(work, "x64.ll"), encoding="utf-8") as file:
        code = for_wasm(file.read())
    with open(os.path.join(work, "w64.ll"), "w", encoding="utf-8") as file:
        file.write(code)
    running.do(clang, *TARGET, *COMPILES, "-c", "-x", "ir", "w64.ll", "-o", "run.o", cwd=work)
    running.do(clang, *TARGET, "-O2", "-ffreestanding", "-nostdinc", "-Wall", "-Wextra", "-Werror", "-c", HEAP, "-o", "heap.o", cwd=work)
    running.do(archiver, "--format=gnu", "rc", "both.a", "run.o", "heap.o", cwd=work)
    where = ["--target", "wasm64-unknown-unknown", "--toolchain", os.path.join(folder, "toolchain"), "--stack", str(STACK)]
    running.do(os.path.join(folder, "bin", "rattle-link"), *where, "-o", paths[0], "both.a", cwd=work)
    if not shutil.which("wasm-opt"):
        return paths[:1]
    running.do("wasm-opt", *LOWERS, paths[0], "-o", paths[1], cwd=work)
    return paths
