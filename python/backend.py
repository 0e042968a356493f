"""Builds the wheel, the source archive, and the editable wheel for `pip install -e`. Needs Python, and no network.

The wheel and the source archive contain the shared object. It is the file that CONSTRICTION_LIBRARY names. Otherwise it
is the file in the package, or else build/libconstriction.so of the repository. If that file doesn't exist,
tools/library builds it. The metadata is in pyproject.toml, and the version is in constriction/_version.py.
"""

from __future__ import annotations

import base64
import hashlib
import io
import os
import re
import subprocess
import sysconfig
import tarfile
import zipfile
from pathlib import Path

HERE = Path(__file__).resolve().parent
PROJECT = (HERE / "pyproject.toml").read_text()
NAME = "constriction_proved"
LIBRARY = "constriction/libconstriction.so"
MACHINES = {62: "x86_64", 183: "aarch64"}  # by their numbers in an ELF header


def _said(pattern: str, text: str) -> str:
    found = re.search(pattern, text, re.MULTILINE)
    if found is None:
        raise SystemExit(f"nothing fits {pattern}")
    return found.group(1)


VERSION = _said(r'^VERSION = "(.*)"$', (HERE / "constriction/_version.py").read_text())
INFO = f"{NAME}-{VERSION}.dist-info"


def _metadata() -> bytes:
    """Returns the metadata of pyproject.toml in the format of a wheel."""
    lists = {name: _said(rf"(?s)^{name} = \[(.*?)\]", PROJECT) for name in ("keywords", "classifiers")}
    urls = re.findall(r'^"(.*)" = "(.*)"$', PROJECT.split("[project.urls]")[1], re.MULTILINE)
    lines = ["Metadata-Version: 2.1", "Name: constriction-proved", f"Version: {VERSION}"]
    lines += [
        "Summary: " + _said(r'^description = "(.*)"$', PROJECT),
        "Keywords: " + ",".join(re.findall('"(.*?)"', lists["keywords"])),
        "Author-email: {} <{}>".format(
            *(_said(rf'^authors = .*{key} = "(.*?)"', PROJECT) for key in ("name", "email"))
        ),
    ]
    lines += [f"Project-URL: {name}, {url}" for name, url in urls]
    lines += [f"Classifier: {it}" for it in re.findall('"(.*?)"', lists["classifiers"])]
    lines += [
        "Requires-Python: " + _said(r'^requires-python = "(.*)"$', PROJECT),
        "Description-Content-Type: text/markdown",
        "",
        "",
    ]
    return "\n".join(lines).encode() + (HERE / "README.md").read_bytes()


def _library() -> bytes:
    said = os.environ.get("CONSTRICTION_LIBRARY")
    path = Path(said).absolute() if said else HERE / LIBRARY
    if not said and not path.is_file():
        path = HERE.parent / "build" / "libconstriction.so"
        if not path.is_file():
            subprocess.run([HERE.parent / "tools" / "library"], check=True)
    if not path.is_file():
        raise SystemExit(f"there is no {path}")
    return path.read_bytes()


def _tag(library: bytes) -> str:
    """Returns the wheel's tag: any Python 3 on this system.

    On Linux the tag names the shared object's machine, and the oldest C library that it allows.
    """
    system = sysconfig.get_platform().replace("-", "_").replace(".", "_")
    if system.startswith("linux_") and library.startswith(b"\x7fELF"):
        machine = int.from_bytes(library[18:20], "little")
        system = f"linux_{MACHINES[machine]}" if machine in MACHINES else system
    asked = [(int(a), int(b)) for a, b in re.findall(rb"GLIBC_(\d+)\.(\d+)", library)]
    if system.startswith("linux_") and asked:
        least = (2, 5) if system == "linux_x86_64" else (2, 17)  # There is no tag for older C libraries.
        system = "manylinux_{}_{}_".format(*max(least, *asked)) + system[len("linux_") :]
    return f"py3-none-{system}"


def _sources() -> dict[str, bytes]:
    """Returns the package's files."""
    names = sorted(it for it in (HERE / "constriction").rglob("*") if it.suffix == ".py" or it.name == "py.typed")
    return {it.relative_to(HERE).as_posix(): it.read_bytes() for it in names}


def _wheel(folder: str, tag: str, files: dict[str, bytes]) -> str:
    """Writes a wheel with these files to ``folder``, and returns the wheel's name."""
    files[f"{INFO}/METADATA"] = _metadata()
    files[f"{INFO}/WHEEL"] = f"Wheel-Version: 1.0\nGenerator: backend\nRoot-Is-Purelib: false\nTag: {tag}\n".encode()
    record = ""
    for name, data in files.items():
        checksum = base64.urlsafe_b64encode(hashlib.sha256(data).digest()).rstrip(b"=").decode()
        record += f"{name},sha256={checksum},{len(data)}\n"
    files[f"{INFO}/RECORD"] = (record + f"{INFO}/RECORD,,\n").encode()
    wheel = f"{NAME}-{VERSION}-{tag}.whl"
    with zipfile.ZipFile(Path(folder) / wheel, "w", zipfile.ZIP_DEFLATED) as archive:
        for name, data in files.items():
            archive.writestr(zipfile.ZipInfo(name, (2020, 1, 1, 0, 0, 0)), data, zipfile.ZIP_DEFLATED)
    return wheel


def build_wheel(wheel_directory: str, config_settings: object = None, metadata_directory: str | None = None) -> str:
    """Writes the wheel to ``wheel_directory``, and returns the wheel's name."""
    library = _library()
    return _wheel(wheel_directory, _tag(library), {**_sources(), LIBRARY: library})


def build_editable(wheel_directory: str, config_settings: object = None, metadata_directory: str | None = None) -> str:
    """Writes the wheel for `pip install -e`, and returns the wheel's name.

    The wheel contains the path of this folder. The library is in build/ or in the package.
    """
    _library()
    return _wheel(wheel_directory, "py3-none-any", {f"{NAME}.pth": f"{HERE}\n".encode()})


def build_sdist(sdist_directory: str, config_settings: object = None) -> str:
    """Writes the source archive to ``sdist_directory``, and returns the archive's name.

    The archive contains the built library, because only the toolchain can build it.
    """
    top = f"{NAME}-{VERSION}"
    files = {**_sources(), LIBRARY: _library(), "PKG-INFO": _metadata()}
    files.update({name: (HERE / name).read_bytes() for name in ("README.md", "backend.py", "pyproject.toml")})
    with tarfile.open(Path(sdist_directory) / f"{top}.tar.gz", "w:gz", format=tarfile.PAX_FORMAT) as archive:
        for name, data in files.items():
            it = tarfile.TarInfo(f"{top}/{name}")
            it.size, it.mtime = len(data), 1577836800
            archive.addfile(it, io.BytesIO(data))
    return f"{top}.tar.gz"


if __name__ == "__main__":
    import sys

    print(build_wheel(sys.argv[1]))
