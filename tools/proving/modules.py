"""Makes a folder of modules that a check begins with, of what a crate's own proof has checked and its library holds;
and reads from such modules which functions call which."""
import io
import os
import re
from collections import namedtuple

Member = namedtuple("Member", "name data")


class NoModules(Exception):
    """The library holds its statements alone, or nothing that was checked."""


def unpack_modules(crate, folder):
    """Writes the checked modules of the crate's library into a folder, as `rattle check --incremental` keeps them."""
    with open(f"{crate.rlib}/toolchain/checked.a", "rb") as it:
        members = members_of(it.read())
        modules = [member for member in members if member.name.endswith(".oantt") and "/" not in member.name]
    if not any(it.name.startswith(f"Rattle-{crate.name}-proofs.") for it in modules):
        raise NoModules(crate.name)
    inside = f"{folder}/{build_of(modules[0].data)}"
    os.makedirs(inside)
    longest = os.pathconf(inside, "PC_NAME_MAX")
    for module in modules:
        # A module of too long a name is checked again.
        if len(module.name.encode()) <= longest:
            with open(f"{inside}/{module.name}", "wb") as it:
                it.write(module.data)


def save_nothing_of(functions, crate, folder):
    """Has the next check over a folder of modules save none of the modules of these functions' code: a folder takes
    each one's place. A check that can't save all prints no files to start proofs from. For these it would go once more
    through each function that isn't proved. It decides and prints the same otherwise."""
    inside = f"{folder}/{os.listdir(folder)[0]}"
    longest = os.pathconf(inside, "PC_NAME_MAX")
    for name in functions:
        file = f"Rattle-{crate.name}-proofs.{'.'.join(name.split('::')[1:])}.Code.oantt"
        if len(file.encode()) <= longest:
            if os.path.isfile(f"{inside}/{file}"):
                os.remove(f"{inside}/{file}")
            os.mkdir(f"{inside}/{file}")


def calls_in(crate):
    """Returns for each function that the crate's own proof has checked which of these it calls or passes on, by
    rattle's names: those of whose modules its code imports one. A function in a cycle of calls, whose name begins with
    `+`, imports the code of the cycle: it calls itself."""
    code, imports = re.compile(rf"Rattle-{crate.name}-proofs\.(.+)\.Code(\.Mir)?\.oantt"), {}
    with open(f"{crate.rlib}/toolchain/checked.a", "rb") as it:
        for member in members_of(it.read()):
            found = code.fullmatch(member.name)
            if found:
                imports.setdefault(found[1], set()).update(imports_of(member.data, f"Rattle-{crate.name}-proofs."))
    name_of = lambda path: f"{crate.name}::{path.replace('.', '::')}"
    is_in_cycle = lambda found: any(it.rpartition(".")[2].startswith("+") for it in found)
    others = lambda path, found: {it for it in imports if it in found and it != path}
    called = lambda path, found: others(path, found) | ({path} if is_in_cycle(found) else set())
    return {name_of(path): set(map(name_of, called(path, found))) for path, found in imports.items()}


def imports_of(data, prefix):
    """Returns the paths behind a prefix of the modules that a checked module imports, and of all that these are in. Its
    first lines name them."""
    found = set()
    for line in io.BytesIO(data):
        if not line.startswith(b"--@ "):
            break
        words = line.decode(errors="replace").split()
        if words[1] == "import" and words[2].startswith(prefix):
            parts = words[2][len(prefix) :].split(".")
            found.update(".".join(parts[:end]) for end in range(1, len(parts) + 1))
    return found


def build_of(data):
    """Returns the name that a folder of modules gives the build of rattle, from a module that this build has
    checked."""
    line = next(it for it in data.split(b"\n", 5) if it.startswith(b"--@ kernel "))
    return line.split()[2].decode().replace("/", "_")


def members_of(data):
    """Yields the members of an archive of `ar`: a head of 60 bytes before each one; long names are in a member `//`."""
    names, at = b"", 8
    while data[:8] == b"!<arch>\n" and at + 60 <= len(data):
        name, size = data[at : at + 16].decode().strip(), int(data[at + 48 : at + 58])
        body = data[at + 60 : at + 60 + size]
        at += 60 + size + size % 2
        if name == "//":
            names = body
        elif re.fullmatch(r"/\d+", name):
            yield Member(names[int(name[1:]) :].split(b"/\n", 1)[0].decode(), body)
        else:
            yield Member(name.rstrip("/"), body)
