"""How this package is built: a backend of PEP 517 and PEP 660 over the standard library alone.

It asks for nothing, so that `pip install ./clients/python` needs no network. The same sources make the same bytes. The
programs of `release/` go into the wheel, which is then one for Linux on x86-64 with the glibc that the release's manifest
names; on another machine, or without a release beside it, the wheel is plain Python.
"""

from __future__ import annotations

import base64
import gzip
import hashlib
import io
import platform
import re
import stat
import tarfile
import zipfile
from pathlib import Path
from typing import Dict, Iterator, List, Optional, Tuple, Union

TOP = Path(__file__).resolve().parent.parent
NAME = "jasminedome"
TAG = "py3-none-any"
PROGRAMS = ("catalogue", "catalogue_check")

_DATE = (2020, 1, 1, 0, 0, 0)  # of every file, since a wheel of the same sources is to have the same bytes
_RELEASES = (TOP / "release", TOP.parent.parent / "release")  # of a package of sources, and of the repository
_SOURCES = ("pyproject.toml", "README.md", NAME, "backend", "tests")
_Settings = Optional[Dict[str, Union[str, List[str]]]]


def version() -> str:
    """The version that the package tells of itself."""
    found = re.search(r'^__version__ = "([^"]+)"$', (TOP / NAME / "version.py").read_text(encoding="utf-8"), re.MULTILINE)
    assert found is not None, "version.py has no version"
    return found.group(1)


def release() -> Optional[Path]:
    """The folder of the release, where one is there."""
    return next((folder for folder in _RELEASES if (folder / "manifest.txt").is_file()), None)


def runs_here() -> bool:
    """Whether this machine can run the released programs."""
    return (platform.system(), platform.machine()) == ("Linux", "x86_64")


def programs(folder: Path) -> Iterator[Tuple[str, bytes]]:
    """The names of the released programs, and their bytes.

    Raises ValueError where they aren't those of the manifest, or this is of another version than the package.
    """
    told = manifest(folder)
    if told["version"] != version():
        raise ValueError(f"the package is {version()}, and the release beside it {told['version']}")
    for name in PROGRAMS:
        data = gzip.decompress((folder / f"{name}.gz").read_bytes())
        if hashlib.sha256(data).hexdigest() != told.get(name):
            raise ValueError(f"{folder / name}.gz isn't the program that {folder / 'manifest.txt'} names")
        yield name, data


def manifest(folder: Path) -> Dict[str, str]:
    """What the manifest of a release tells: for each word that a line begins with, the rest of the line."""
    lines = (folder / "manifest.txt").read_text(encoding="utf-8").splitlines()
    parted = (line.partition(" ") for line in lines)
    return {word: rest for word, _, rest in parted}


def tag(folder: Optional[Path]) -> str:
    """For which machines the wheel is, with the programs of this release or with none."""
    if folder is None:
        return TAG
    major, minor = manifest(folder)["glibc"].split(".")
    return f"py3-none-manylinux_{major}_{minor}_x86_64"


def metadata() -> str:
    """What is told of the package to whoever installs it."""
    lines = [
        "Metadata-Version: 2.1",
        f"Name: {NAME}",
        f"Version: {version()}",
        "Summary: Client of Jasminedome, search over a catalogue whose views hold still",
        "Requires-Python: >=3.9",
        *(f"Provides-Extra: {extra}" for extra in extras()),
        *(f"Requires-Dist: {each}; extra == '{extra}'" for extra, needed in extras().items() for each in needed),
        "Description-Content-Type: text/markdown",
    ]
    return "\n".join(lines) + "\n\n" + (TOP / "README.md").read_text(encoding="utf-8")


def extras() -> Dict[str, List[str]]:
    """What pyproject.toml says that each extra needs, a line each. Python reads such files by itself from 3.11 on alone."""
    text = (TOP / "pyproject.toml").read_text(encoding="utf-8")
    section = text.partition("[project.optional-dependencies]\n")[2].partition("\n[")[0]
    found = re.findall(r"^(\w+) = \[(.*)\]$", section, re.MULTILINE)
    return {name: re.findall(r'"([^"]+)"', needed) for name, needed in found}


class Wheel:
    """A wheel in the making: files go in, and `end` adds what is told of them."""

    def __init__(self, folder: Union[str, Path], tag: str = TAG) -> None:
        self._tag = tag
        self._info = f"{NAME}-{version()}.dist-info"
        self.name = f"{NAME}-{version()}-{tag}.whl"
        self._zip = zipfile.ZipFile(Path(folder, self.name), "w", zipfile.ZIP_DEFLATED)
        self._record: List[str] = []

    def add(self, name: str, data: bytes, mode: int = 0o644) -> None:
        """A file by its name in the wheel, with what may be done with it."""
        told = base64.urlsafe_b64encode(hashlib.sha256(data).digest()).rstrip(b"=").decode()
        self._record.append(f"{name},sha256={told},{len(data)}")
        self._write(name, data, mode)

    def end(self) -> str:
        """Makes it whole; answers its name."""
        is_pure = "true" if self._tag == TAG else "false"
        about = f"Wheel-Version: 1.0\nGenerator: {Path(__file__).stem}\nRoot-Is-Purelib: {is_pure}\nTag: {self._tag}\n"
        self.add(f"{self._info}/METADATA", metadata().encode())
        self.add(f"{self._info}/WHEEL", about.encode())
        self.add(f"{self._info}/entry_points.txt", f"[console_scripts]\n{NAME} = {NAME}.__main__:main\n".encode())
        record = f"{self._info}/RECORD"
        self._write(record, "\n".join([*self._record, f"{record},,"]).encode() + b"\n")
        self._zip.close()
        return self.name

    def _write(self, name: str, data: bytes, mode: int = 0o644) -> None:
        info = zipfile.ZipInfo(name, _DATE)
        info.external_attr = (stat.S_IFREG | mode) << 16
        info.compress_type = zipfile.ZIP_DEFLATED
        self._zip.writestr(info, data)


def build_wheel(wheel_directory: str, config_settings: _Settings = None, metadata_directory: Optional[str] = None) -> str:
    """The package as a wheel, with the released programs where they are there."""
    released = release() if runs_here() else None
    wheel = Wheel(wheel_directory, tag(released))
    for path in sorted((TOP / NAME).rglob("*")):
        if path.suffix in (".py", ".sql") or path.name == "py.typed":
            wheel.add(path.relative_to(TOP).as_posix(), path.read_bytes())
    for name, data in programs(released) if released is not None else ():
        wheel.add(f"{NAME}/bin/{name}", data, 0o755)
    return wheel.end()


def build_editable(wheel_directory: str, config_settings: _Settings = None, metadata_directory: Optional[str] = None) -> str:
    """A wheel that leads to this folder."""
    wheel = Wheel(wheel_directory)
    wheel.add(f"_{NAME}.pth", f"{TOP}\n".encode())
    return wheel.end()


def build_sdist(sdist_directory: str, config_settings: _Settings = None) -> str:
    """The sources, as a package of their own."""
    whole = f"{NAME}-{version()}"
    told = metadata().encode()
    info = tarfile.TarInfo(f"{whole}/PKG-INFO")
    info.size = len(told)
    with tarfile.open(Path(sdist_directory, f"{whole}.tar.gz"), "w:gz") as out:
        for each in _SOURCES:
            out.add(TOP / each, f"{whole}/{each}", filter=_without_caches)
        released = release()
        if released is not None:
            for each in ("manifest.txt", *(f"{name}.gz" for name in PROGRAMS)):
                out.add(released / each, f"{whole}/release/{each}")
        out.addfile(info, io.BytesIO(told))
    return f"{whole}.tar.gz"


def _without_caches(info: tarfile.TarInfo) -> Optional[tarfile.TarInfo]:
    return None if "__pycache__" in info.name else info
