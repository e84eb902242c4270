"""The kit for Rattle on this machine, and shadows of it, in which one tool of its compiler is another."""
import os
import shlex
import shutil

from building import Stop

# In a shadow `rt` and its modules are copies, since they find the kit by the place where they stand.
OWN = (".py",)


def found():
    """The folder of the kit whose `rt` is on the PATH."""
    command = shutil.which("rt")
    if not command:
        raise Stop("the Rattle kit isn't on this machine: its command rt isn't on the PATH")
    folder = os.path.dirname(os.path.dirname(os.path.realpath(command)))
    if not os.path.isdir(os.path.join(folder, "toolchain")):
        raise Stop(f"the command rt on the PATH, {command}, isn't that of the Rattle kit: {folder} has no toolchain")
    return folder


def linked(folder, to, without):
    """A folder with a link for each name of another but one."""
    os.makedirs(to, exist_ok=True)
    for name in os.listdir(folder):
        if name != without:
            os.symlink(os.path.join(folder, name), os.path.join(to, name))
    return to


def toolchain(kit, work, name, script):
    """A folder like the kit's compiler, in which a shell's script stands for the tool of this name. Its word TOOL is the tool itself."""
    folder = linked(os.path.join(kit, "toolchain"), os.path.join(work, "toolchain"), "bin")
    linked(os.path.join(kit, "toolchain", "bin"), os.path.join(folder, "bin"), name)
    path = os.path.join(folder, "bin", name)
    with open(path, "w", encoding="utf-8") as file:
        file.write("#!/bin/sh\n" + script.replace("TOOL", shlex.quote(os.path.join(kit, "toolchain", "bin", name))))
    os.chmod(path, 0o755)
    return folder


def shadow(kit, work, name, script):
    """The path of an `rt` that takes that compiler in the place of the kit's."""
    folder = linked(kit, os.path.join(work, "kit"), "bin")
    os.remove(os.path.join(folder, "toolchain"))
    toolchain(kit, folder, name, script)
    commands = os.path.join(folder, "bin")
    os.mkdir(commands)
    for one in os.listdir(os.path.join(kit, "bin")):
        source = os.path.join(kit, "bin", one)
        if one == "rt" or one.endswith(OWN):
            shutil.copy2(source, os.path.join(commands, one))
        else:
            os.symlink(source, os.path.join(commands, one))
    return os.path.join(commands, "rt")
