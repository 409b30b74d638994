"""Builds the native program, and runs commands to compare what they write and to measure what they take."""
import os
import re
import shutil
import statistics
import subprocess
import sys
import time
from itertools import zip_longest

BENCH = os.path.dirname(os.path.realpath(__file__))
REGISTRY = "/usr/share/cargo/registry"
PACKAGES = {
    "serde": "librust-serde-dev",
    "serde_derive": "librust-serde-derive-dev",
    "serde_json": "librust-serde-json-dev",
    "itoa": "librust-itoa-dev",
}
# The statuses of a run that is done: without races, and with some.
GOOD = (0, 5)
# A program reads its environment when it starts, so counted runs have the same one each time.
ENVIRONMENT = {"LC_ALL": "C", "PATH": os.environ.get("PATH", os.defpath)}


def stop(why):
    print(f"bench: {why}", file=sys.stderr)
    sys.exit(2)


def need(program, package):
    if not shutil.which(program):
        stop(f"there is no {program} on this machine; Debian has it in the package {package}")


def build_native():
    """Builds the native program with the crates that Debian packages, and returns its path."""
    need("cargo", "cargo")
    names = {re.sub(r"-[0-9.]+$", "", name) for name in os.listdir(REGISTRY)} if os.path.isdir(REGISTRY) else set()
    missing = [package for crate, package in PACKAGES.items() if crate not in names]
    if missing:
        stop(f"crates are missing that Debian packages: apt-get install {' '.join(missing)}")
    target = os.path.join(BENCH, "out", "native")
    words = ["cargo", "build", "--release", "--offline", "--quiet", "--target-dir", target]
    for line in ('source.crates-io.replace-with="debian"', f'source.debian.directory="{REGISTRY}"'):
        words += ["--config", line]
    if subprocess.call(words, cwd=os.path.join(BENCH, "native")):
        stop("the native program can't be built")
    return os.path.join(target, "release", "native")


def outcome(command):
    """Returns the status and the output of a command."""
    ran = subprocess.run(command, capture_output=True, check=False)
    return ran.returncode, ran.stdout


def fault(sabsim, native):
    """Says why two outcomes can't be compared, or where they differ. Returns nothing if they are good and the same."""
    if sabsim[0] != native[0]:
        return f"sabsim ends with status {sabsim[0]}, and the native program with {native[0]}"
    if sabsim[0] not in GOOD:
        return f"both end with status {sabsim[0]}"
    lines = zip_longest(sabsim[1].splitlines(True), native[1].splitlines(True), fillvalue=b"")
    for number, (ours, other) in enumerate(lines, 1):
        if ours != other:
            return f"line {number} is {ours!r}, and of the native program {other!r}"
    return ""


def instructions(command):
    """Returns how many instructions a command takes."""
    words = ["valgrind", "--tool=callgrind", "--callgrind-out-file=/dev/null", *command]
    ran = subprocess.run(words, env=ENVIRONMENT, stdout=subprocess.DEVNULL, stderr=subprocess.PIPE, check=False)
    found = re.search(rb"Collected : (\d+)", ran.stderr)
    return int(found.group(1)) if found else stop(f"valgrind counts nothing: {ran.stderr.decode(errors='replace')}")


def kilobytes(command):
    """Returns how much memory a command has at its peak."""
    with subprocess.Popen(command, stdout=subprocess.DEVNULL, env=ENVIRONMENT) as process:
        return os.wait4(process.pid, 0)[2].ru_maxrss


def microseconds(commands, runs):
    """Returns the median wall time of each command; the commands take turns."""
    taken = [[] for _ in commands]
    for _ in range(runs):
        for command, times in zip(commands, taken):
            begun = time.perf_counter()
            subprocess.run(command, stdout=subprocess.DEVNULL, check=False)
            times.append(time.perf_counter() - begun)
    return [round(statistics.median(times) * 1e6) for times in taken]
