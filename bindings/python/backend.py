"""The build backend that pip calls (PEP 517): a wheel of the package with the shared object in it.

The shared object is the one that the package would load: that of HOGZELT_SO, or that of the
checkout, which is made first where it is missing."""

from __future__ import annotations

import base64
import hashlib
import os
import sys
import tarfile
import zipfile

HERE = os.path.dirname(os.path.realpath(__file__))
NAME = "hogzelt"
sys.path.insert(0, HERE)

from hogzelt import __version__
from hogzelt.library import find

FOLDER = f"{NAME}-{__version__}.dist-info"
METADATA = f"""\
Metadata-Version: 2.1
Name: {NAME}
Version: {__version__}
Summary: Mixed Boolean-arithmetic expressions as short sums of weighted bitwise atoms
License: Apache-2.0
Requires-Python: >=3.9
"""
WHEEL = """\
Wheel-Version: 1.0
Generator: hogzelt
Root-Is-Purelib: false
Tag: {tag}
"""
ENTRY_POINTS = f"""\
[console_scripts]
{NAME} = {NAME}.command.main:entry
"""


def tag() -> str:
    """Any Python 3, this system: the shared object is for it alone."""
    machine = os.uname()
    return f"py3-none-{machine.sysname.lower()}_{machine.machine}"


def sources() -> list[str]:
    """The files of the package, from this folder."""
    found = []
    for folder, folders, files in os.walk(os.path.join(HERE, NAME)):
        folders[:] = sorted(name for name in folders if name != "__pycache__")
        found += [os.path.relpath(os.path.join(folder, name), HERE)
                  for name in sorted(files) if name.endswith((".py", ".typed"))]
    return found


def build_wheel(
    wheel_directory: str, config_settings: object = None, metadata_directory: object = None
) -> str:
    files = {name: read(os.path.join(HERE, name)) for name in sources()}
    files[f"{NAME}/libhogzelt.so"] = read(find())
    files[f"{FOLDER}/METADATA"] = METADATA.encode()
    files[f"{FOLDER}/WHEEL"] = WHEEL.format(tag=tag()).encode()
    files[f"{FOLDER}/entry_points.txt"] = ENTRY_POINTS.encode()
    record = "".join(f"{name},sha256={digest(data)},{len(data)}\n" for name, data in files.items())
    files[f"{FOLDER}/RECORD"] = f"{record}{FOLDER}/RECORD,,\n".encode()
    wheel = f"{NAME}-{__version__}-{tag()}.whl"
    with zipfile.ZipFile(os.path.join(wheel_directory, wheel), "w", zipfile.ZIP_DEFLATED) as out:
        for name, data in files.items():
            out.writestr(name, data)
    return wheel


def build_sdist(sdist_directory: str, config_settings: object = None) -> str:
    """The sources alone; a wheel is built from them where HOGZELT_SO names a shared object."""
    top = f"{NAME}-{__version__}"
    with tarfile.open(os.path.join(sdist_directory, f"{top}.tar.gz"), "w:gz") as out:
        for name in ("pyproject.toml", "backend.py", *sources()):
            out.add(os.path.join(HERE, name), os.path.join(top, name))
    return f"{top}.tar.gz"


def read(path: str) -> bytes:
    with open(path, "rb") as source:
        return source.read()


def digest(data: bytes) -> str:
    return base64.urlsafe_b64encode(hashlib.sha256(data).digest()).rstrip(b"=").decode()
