"""The folder of what was fetched: for each part a link to the folder of its version."""
import contextlib
import fcntl
import os
import shutil
import tempfile

from .apt import Apt, run

# How the name of a folder begins that isn't whole yet.
NEW = ".new-"
# What was merged into /usr: files of old packages still name these folders.
MERGED = ("bin", "sbin", "lib", "lib64")


def tools_folder():
    """Returns the folder: SABSIM_TOOLS, or one in the user's own folder for what can be made anew."""
    cache = os.environ.get("XDG_CACHE_HOME", "")
    cache = cache if os.path.isabs(cache) else os.path.expanduser("~/.cache")
    return os.path.abspath(os.environ.get("SABSIM_TOOLS") or f"{cache}/sabsim-tools")


def version_of(name):
    """Returns the version of a part that is there, or nothing."""
    link = f"{tools_folder()}/{name}"
    return os.readlink(link).removeprefix(f"{name}-") if os.path.isdir(link) else ""


def remove(path):
    """Removes a folder with all that is in it, or a link."""
    if os.path.islink(path):
        os.remove(path)
    else:
        shutil.rmtree(path)


@contextlib.contextmanager
def room_in(folder):
    """Gives a room in a folder while no other command fetches there. What was broken off before is removed."""
    os.makedirs(folder, exist_ok=True)
    with open(f"{folder}/.lock", "w", encoding="utf8") as lock:
        fcntl.flock(lock, fcntl.LOCK_EX)
        for name in os.listdir(folder):
            if name.startswith(NEW):
                remove(f"{folder}/{name}")
        with tempfile.TemporaryDirectory(prefix=NEW, dir=folder) as room:
            yield room


def unpack(archives, root):
    """Unpacks the packages of a folder into one folder, as if they were installed there."""
    for name in MERGED:
        os.makedirs(f"{root}/usr/{name}")
        os.symlink(f"usr/{name}", f"{root}/{name}")
    for name in sorted(os.listdir(archives)):
        run(["dpkg-deb", "--extract", f"{archives}/{name}", root])


def fetch_anew(part, packages, apt, room):
    """Fetches the packages of a part into a folder of a room, whose name it returns."""
    root, archives = f"{room}/root", f"{room}/archives"
    os.makedirs(root)
    apt.download(packages, archives)
    unpack(archives, root)
    if part.finish:
        part.finish(root)
    with open(f"{root}/versions", "w", encoding="utf8") as file:
        file.writelines(f"{it.name} {it.version}\n" for it in packages)
    return root


def replace_link(folder, name, target):
    """Makes a link lead to a folder beside it, in one step."""
    os.symlink(target, f"{folder}/{NEW}{name}")
    os.rename(f"{folder}/{NEW}{name}", f"{folder}/{name}")


def fetch(name, part, room, apts):
    """Fetches a part, unless its newest version is there, and returns the version and whether it was fetched.

    Of a part that is installed on this machine, nothing is fetched, and the version is empty.
    """
    folder, key = tools_folder(), (part.suite, part.over)
    if key not in apts:
        apts[key] = Apt(f"{room}/apt-{len(apts)}", *key)
    packages = [it for it in apts[key].lacking(part.packages) if it.architecture == "all" or not part.only_javascript]
    versions = {it.name: it.version.replace(":", "-") for it in packages}
    version = next((versions[package] for package in part.packages if package in versions), "")
    if not version:
        return "", False
    whole = f"{folder}/{name}-{version}"
    is_new = not os.path.isdir(whole)
    if is_new:
        os.makedirs(f"{room}/{name}")
        os.rename(fetch_anew(part, packages, apts[key], f"{room}/{name}"), whole)
    before = version_of(name)
    replace_link(folder, name, f"{name}-{version}")
    if before not in ("", version):
        shutil.rmtree(f"{folder}/{name}-{before}")
    return version, is_new
