"""The shared object, made from the static library of a checkout: `tools/build.sh` proves and writes
the archive, `cc` makes a shared object of it."""

from __future__ import annotations

import os
import sys

ARCHIVE = os.path.join("target", "staticlib", "libhogzelt.a")
SHARED = os.path.join("target", "shared", "libhogzelt.so")
BUILD = os.path.join("tools", "build.sh")


class NoLibrary(Exception):
    """The shared object is missing and cannot be made; the message says what to do."""


def checkout() -> str | None:
    """The top of the repository that this package stands in; none where it is installed."""
    here = os.path.dirname(os.path.realpath(__file__))
    top = os.path.dirname(os.path.dirname(os.path.dirname(here)))
    return top if os.path.isfile(os.path.join(top, "crates.txt")) else None


def shared_object(top: str) -> str:
    """The path of a checkout's shared object, which is made where it is missing or was made from
    another archive than the one that is there."""
    archive, shared = os.path.join(top, ARCHIVE), os.path.join(top, SHARED)
    if not os.path.isfile(archive):
        prove_archive(top)
    note_newer_sources(top, archive)
    if read_stamp(shared) != stamp_of(archive) or not os.path.isfile(shared):
        link(archive, shared)
    return shared


def stamp_of(archive: str) -> str:
    """What tells one archive from another: its size and its time in nanoseconds."""
    stat = os.stat(archive)
    return f"{stat.st_size} {stat.st_mtime_ns}\n"


def read_stamp(shared: str) -> str | None:
    """The stamp of the archive that a shared object was made from."""
    try:
        with open(shared + ".from", encoding="ascii") as source:
            return source.read()
    except OSError:
        return None


def prove_archive(top: str) -> None:
    import shutil  # these two are slow to load, and seldom needed
    import subprocess

    if not shutil.which("rt"):
        raise NoLibrary(f"{ARCHIVE} is missing, and so is rt, the Rattle toolchain, which builds"
                        " it; HOGZELT_SO can name a shared object that is elsewhere")
    say(f"{ARCHIVE} is missing; {BUILD} proves and builds it, which takes long the first"
        " time and prints what is proved of each crate:")
    status = subprocess.run([os.path.join(top, BUILD)], cwd=top, stdout=sys.stderr).returncode
    if status:
        raise NoLibrary(f"{BUILD} ended with status {status}")
    if not os.path.isfile(os.path.join(top, ARCHIVE)):
        raise NoLibrary(f"{BUILD} made no {ARCHIVE}")


def link(archive: str, shared: str) -> None:
    """Makes the shared object beside its place and then gives it its name, so that a process that
    looks for it finds a whole one."""
    import shutil
    import subprocess

    if not shutil.which("cc"):
        raise NoLibrary("cc, a C compiler, is missing; it makes a shared object of the archive")
    os.makedirs(os.path.dirname(shared), exist_ok=True)
    stamp = stamp_of(archive)
    made = f"{shared}.{os.getpid()}"
    words = ["cc", "-shared", "-o", made, "-Wl,-soname,libhogzelt.so.1", "-Wl,--whole-archive",
             archive, "-Wl,--no-whole-archive"]
    done = subprocess.run(words, stderr=subprocess.PIPE)
    if done.returncode:
        raise NoLibrary(f"cc ended with status {done.returncode}: {done.stderr.decode().strip()}")
    with open(made + ".from", "w", encoding="ascii") as out:
        out.write(stamp)
    os.replace(made, shared)
    os.replace(made + ".from", shared + ".from")


def note_newer_sources(top: str, archive: str) -> None:
    """An archive that is older than the code is used, but not in silence."""
    built = os.stat(archive).st_mtime_ns
    crates = os.path.join(top, "crates")
    for crate in sorted(os.listdir(crates)):
        source = os.path.join(crates, crate, "src")
        if not os.path.isdir(source):
            continue
        for entry in os.scandir(source):
            if entry.name.endswith(".rt") and entry.stat().st_mtime_ns > built:
                say(f"crates/{crate}/src/{entry.name} is newer than {ARCHIVE};"
                    f" {BUILD} builds it again")
                return


def say(message: str) -> None:
    sys.stderr.write(f"hogzelt: {message}\n")
    sys.stderr.flush()
