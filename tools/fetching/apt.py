"""Debian's packages, by apt-get with lists and archives in a folder of their own. Nothing of this machine is changed,
and nobody has to be root."""
import os
import re
import shutil
import subprocess
from dataclasses import dataclass
from urllib.parse import unquote

KEYS = "/usr/share/keyrings/debian-archive-keyring.gpg"
INSTALLED = "/var/lib/dpkg/status"
# A line of apt-get --print-uris: the address, the name of the file, its bytes.
FILE = re.compile(r"'[^']*' (?P<name>[^_ ]+)_(?P<version>[^_ ]+)_(?P<architecture>[^_ ]+)\.deb ")


@dataclass(frozen=True)
class Package:
    """A package of Debian's, in one version."""

    name: str
    version: str
    architecture: str


class NotFetched(Exception):
    """A part can't be fetched on this machine as it is. The message says why, for people."""


def run(words, **how):
    """Runs a command, and returns what it printed and what it complained of."""
    try:
        made = subprocess.run(words, stdin=subprocess.DEVNULL, capture_output=True, text=True, check=False, **how)
    except FileNotFoundError:
        raise NotFetched(f"there is no {words[0]} on this machine, and the tools come from Debian") from None
    if made.returncode != 0:
        raise NotFetched(f"{' '.join(words)}: {made.stderr.strip()}")
    return made.stdout, made.stderr.strip()


def debian_sources():
    """Returns this machine's own sources that are Debian's, as (address, suite, component). They need no lists yet."""
    form = "$(REPO_URI) $(RELEASE) $(COMPONENT)"
    said, _ = run(["apt-get", "indextargets", "--no-release-info", "--format", form, "Created-By: Packages"])
    found = [tuple(line.split()) for line in dict.fromkeys(said.splitlines())]
    sources = [source for source in found if re.search(r"/debian(-security)?/?$", source[0])]
    if not sources:
        raise NotFetched("apt-get knows no source of Debian's on this machine")
    return sources


def lines_of(suite):
    """Returns the lines of a list of sources: this machine's, or that of one suite at the same address."""
    sources = debian_sources()
    if suite:
        # Security updates have an address of their own, without this suite.
        address = next((source[0] for source in sources if "-security" not in source[0]), sources[0][0])
        sources = [(address, suite, "main")]
    signed = f"[signed-by={KEYS}] " if os.path.exists(KEYS) else ""
    return [f"deb {signed}{' '.join(source)}\n" for source in sources]


class Apt:
    """apt-get in a folder. `is_over` says that this machine's packages count as installed; else none is."""

    def __init__(self, room, suite, is_over):
        self.room = room
        for folder in ("lists/partial", "cache"):
            os.makedirs(f"{room}/{folder}", exist_ok=True)
        with open(f"{room}/sources.list", "w", encoding="utf8") as file:
            file.writelines(lines_of(suite))
        shutil.copyfile(INSTALLED if is_over else os.devnull, f"{room}/status")
        settings = {
            "Dir::Etc::SourceList": "sources.list", "Dir::Etc::SourceParts": "none", "Dir::State": "",
            "Dir::State::Lists": "lists", "Dir::State::status": "status", "Dir::Cache": "cache",
        }
        self.words = [word for name, path in settings.items() for word in ("-o", f"{name}={room}/{path}")]
        self.words += ["-o", "Acquire::Languages=none", "-o", "APT::Sandbox::User=root", "-q"]
        _, self.complaint = run(["apt-get", *self.words, "update"])

    def ask(self, words, **how):
        """Runs apt-get here, and returns what it printed. If it fails, what `update` complained of says why."""
        try:
            return run(["apt-get", *self.words, *words], **how)[0]
        except NotFetched as problem:
            raise NotFetched("\n".join(filter(None, [self.complaint, str(problem)]))) from None

    def lacking(self, names):
        """Returns packages that aren't installed: those with these names, and all that they need."""
        said = self.ask(["install", "-y", "--no-install-recommends", "--print-uris", *names])
        return [Package(it["name"], unquote(it["version"]), it["architecture"]) for it in FILE.finditer(said)]

    def download(self, packages, into):
        """Downloads packages into a folder."""
        os.makedirs(into)
        self.ask(["download", *(f"{it.name}={it.version}" for it in packages)], cwd=into)
