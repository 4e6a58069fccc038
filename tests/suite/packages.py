"""Commands that tests need and the program doesn't: where one is not there, a package of Debian brings it, if that can be had."""
import os
import shutil
import subprocess

# How many seconds each step of installing a package may take.
SECONDS = 300


def command_of(package, *names):
    """The path of the first of these commands that is there, and None where there is none. Where none was there the package is installed before."""
    path = first_of(names)
    if path is None and os.geteuid() == 0 and shutil.which("apt-get"):
        try:
            for words in (["update", "-qq"], ["install", "-y", "-qq", "--no-install-recommends", package]):
                subprocess.run(["apt-get", *words], capture_output=True, timeout=SECONDS, check=False)
        except subprocess.TimeoutExpired:
            pass
        path = first_of(names)
    return path


def first_of(names):
    """The path of the first of these commands that is on the PATH."""
    return next(filter(None, map(shutil.which, names)), None)
