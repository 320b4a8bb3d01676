"""What the scripts of the benchmark share: commands, the library, and the first lines of a run."""

import hashlib
import os
import platform
import re
import shutil
import subprocess
import sys
from pathlib import Path

HERE = Path(__file__).resolve().parent
ROOT = HERE.parent
BUILD = ROOT / "target" / "bench"
WARN = ["-std=gnu11", "-Wall", "-Wextra"]


def say(text):
    print(text, file=sys.stderr, flush=True)


def call(command, **options):
    """Runs a command, or ends with what it said."""
    done = subprocess.run([str(part) for part in command], capture_output=True, text=True, **options)
    if done.returncode != 0:
        sys.exit(f"{' '.join(str(part) for part in command)}\n{done.stdout}{done.stderr}")
    return done.stdout


def first_line(command):
    return call(command).splitlines()[0]


def library(given):
    """The static library: the one given, or this repository's, built when the kit is there."""
    if given:
        return Path(given).resolve()
    if not shutil.which("rt"):
        say("No `rt` on the path: there is no library to measure.")
        return None
    say("tools/build ronchhek")
    call([ROOT / "tools" / "build", "ronchhek"])
    return ROOT / "target" / "staticlib" / "libronchhek.a"


def machine():
    model = re.search(r"model name\s*: (.*)", open("/proc/cpuinfo").read())
    return f"{model.group(1) if model else platform.machine()}, {os.cpu_count()} cores, {platform.system()}"


def heading(tools, libraries):
    """The first lines of a run: the machine and its load, the tools' versions, and each library by its digest."""
    print(f"machine: {machine()}; load before the run {os.getloadavg()[0]:.1f}")
    print("; ".join(tools))
    for name, file in libraries:
        if file:
            print(f"{name}: {file.name}, SHA-256 {hashlib.sha256(file.read_bytes()).hexdigest()[:16]}")


def gcc():
    return f"gcc: {first_line(['gcc', '--version'])}"


def ruler(names):
    """A head line of these columns, and the line below it."""
    return "| " + " | ".join(names) + " |\n|" + "|".join("-" * (len(name) + 2) for name in names) + "|"
