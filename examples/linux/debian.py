"""Debian's packages: downloaded and unpacked where they aren't there yet."""
import glob
import os
import re
import shutil
import subprocess

PATIENCE = 600                              # seconds that a command may take
NEEDED = ("--recurse", "--no-recommends", "--no-suggests", "--no-conflicts", "--no-breaks", "--no-replaces", "--no-enhances")


class Missing(Exception):
    """Something isn't there that a recording needs; its text says what, and how one gets it."""


def said(*words: str, folder: str | None = None) -> str:
    """What a command prints; Missing where it fails."""
    try:
        done = subprocess.run(words, stdin=subprocess.DEVNULL, stdout=subprocess.PIPE, stderr=subprocess.PIPE, cwd=folder, timeout=PATIENCE)
    except subprocess.TimeoutExpired:
        raise Missing(f"{' '.join(words[:3])} doesn't end in {PATIENCE} seconds") from None
    if done.returncode:
        raise Missing(f"{' '.join(words[:3])}: {done.stderr.decode(errors='replace').strip()}")
    return done.stdout.decode(errors="replace")


def depends(package: str, *options: str) -> str:
    """What apt says of it."""
    try:
        return said("apt-cache", "depends", *options, package)
    except Missing as why:
        raise Missing(f"{why}: apt-get update, on Debian 12") from None


def needed(package: str) -> list[str]:
    """The package, and all that it depends on."""
    return sorted(re.findall(r"^[a-z0-9].*$", depends(package, *NEEDED), re.M))


def unpack(packages: list[str], folder: str) -> None:
    """Downloads packages, and unpacks them into one folder."""
    if os.path.isdir(folder):
        return
    print(f"downloading {len(packages)} of Debian's packages: {' '.join(packages)}", flush=True)
    shutil.rmtree(f"{folder}.part", ignore_errors=True)
    os.makedirs(f"{folder}.part")
    said("apt-get", "download", "-q", *packages, folder=f"{folder}.part")
    for archive in glob.glob(f"{folder}.part/*.deb"):
        said("dpkg-deb", "-x", archive, f"{folder}.part")
        os.remove(archive)
    os.rename(f"{folder}.part", folder)
