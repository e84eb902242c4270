"""A kit that proves nothing, in which each tool only leaves the files that the kit's own would: for tests of what stands around it."""
import os
import sys

RT = r"""#!PYTHON
import os, subprocess, sys, tempfile
KIT = os.path.dirname(os.path.dirname(os.path.realpath(__file__)))
def put(path, text, mode=0o644):
    os.makedirs(os.path.dirname(path), exist_ok=True)
    with open(path, "w") as file:
        file.write(text)
    os.chmod(path, mode)
if sys.argv[1] == "try":
    sys.stderr.write("run=ended status=0 proved=no\n")
    with tempfile.TemporaryDirectory() as folder:
        if "lost" not in os.environ["STUB"]:
            subprocess.run([KIT + "/toolchain/bin/ld.lld", "-m", "elf", "-o", folder + "/program", "input"], check=True)
    sys.stdout.write("ANOTHER\n" if "other" in os.environ["STUB"] else "PAGE\n")
    sys.exit(0)
put(os.environ["SEEN"], "".join(sorted(os.path.join(at, name) + "\n" for at, _, names in os.walk(".") for name in names)))
failed = 0
for name in [line.split(":")[0].split()[0] for line in open("crates.txt")]:
    if f"hang {name}" in os.environ["STUB"]:
        child = subprocess.Popen(["sleep", "1000"])
        put(os.environ["SEEN"] + ".pid", f"{os.getpid()} {child.pid}")
        child.wait()
    how = "NOT PROVED" if f"fail {name}" in os.environ["STUB"] else "proved"
    failed += how != "proved"
    put(f"crates/{name}/out/rlib/{name}.rlib/format", name)
    put(f"crates/{name}/out/{name}", "#!/bin/sh\necho PAGE\n", 0o755)
    kept = f"kept {name}" in os.environ["STUB"]
    said = "is kept: an earlier run" if kept else how
    print(f"== {name}\nsaid of {name}\nrt: {name} {said}", flush=True)
print("1 passed, %d failed" % failed)
sys.exit(1 if failed else 0)
"""
RATTLE = r"""#!PYTHON
import os, subprocess, sys, tempfile
words = sys.argv[1:]
with open(os.environ["SEEN"] + ".words", "w") as file:
    file.write("\n".join(words))
for name in [word.partition("=")[2] for word in words if word.startswith("dependency=") and "rlibs" not in word]:
    assert os.listdir(name), name
with tempfile.TemporaryDirectory() as folder:
    open(folder + "/module.bc", "w").close()
    clang = words[words.index("--toolchain") + 1] + "/bin/clang"
    subprocess.run([clang, "-c", "module.bc", "-o", "module.o"], cwd=folder, check=True)
with open(words[words.index("-o") + 1], "w") as file:
    file.write("archive")
print("logic=proved functions=1 native=nat")
"""
# A library with one export, and its header.
HEADER = "#define TAMLIGUB_VERSION \"0.1\"\nuint32_t tamligub_run(const uint8_t *word, size_t word_length);\n"
CODE = r"""target datalayout = "e-m:e"
target triple = "x86_64-unknown-linux-gnu"
define internal i32 @tamligub_inner(i64 %0) #0 {
define i32 @tamligub_run(ptr %0, i64 %1) #0 {
  call void @llvm.trap()
attributes #0 = { nounwind "target-cpu"="x86-64-v2" }
"""
CLANG = r"""#!/bin/sh
case " $* " in
    *--print-targets*) echo "  $TARGETS" ;;
    *" -S "*) cp "CODE" x64.ll ;;
    *) for word; do [ "$before" != -o ] || echo made > "$word"; before=$word; done ;;
esac
"""
# Makes an executable that is named after -o: a program that shows the page.
LINKER = r"""#!/bin/sh
for word; do
    [ "$before" != -o ] || { printf '#!/bin/sh\necho PAGE\n' > "$word"; chmod +x "$word"; }
    before=$word
done
"""
MAKES = r"""#!/bin/sh
for word; do [ "$before" != -o ] || echo module > "$word"; before=$word; done
"""
# As the kit's own, it takes its words in this order alone.
ORDER = '"--target wasm64-unknown-unknown --toolchain "*" --stack "*" -o "*" "*'
MODULE_LINKER = MAKES.replace("\n", f'\ncase "$*" in {ORDER}) ;; *) exit 2 ;; esac\n', 1)
ARCHIVER = '#!/bin/sh\n[ "$1" != x ] || : > heap.pic.o\n'


def made(folder):
    """The stub in a folder. Answers the folder of its commands."""
    texts = {"bin/rt": RT, "bin/rattle": RATTLE, "bin/rattle-link": MODULE_LINKER, "toolchain/bin/clang": CLANG,
             "toolchain/bin/ld.lld": LINKER, "toolchain/bin/llvm-ar": ARCHIVER, "code.ll": CODE, "tools/wasm-opt": MAKES,
             "rlibs/std.rlib/format": ""}
    for place, text in texts.items():
        path = os.path.join(folder, place)
        os.makedirs(os.path.dirname(path), exist_ok=True)
        with open(path, "w", encoding="utf-8") as file:
            file.write(text.replace("PYTHON", sys.executable).replace('"CODE"', f'"{folder}/code.ll"'))
        os.chmod(path, 0o755)
    return os.path.join(folder, "bin")
