"""Makes the package's wheel and source archive by Python alone, so that pip needs neither a network nor setuptools.

pyproject.toml names this module, and pip calls ``build_wheel``, ``build_editable`` and ``build_sdist``. What they say of the package is read
from there. Where there is a C compiler (``CC`` with ``CFLAGS``, or the system's), the wheel has the shared library, compiled from the C file
for this machine; where there is none, or ``CC`` is empty, it is Python alone, and the library has to be the system's or named.

By hand: ``python3 make_wheel.py FOLDER`` writes wheel and source archive into a folder.
"""
from __future__ import annotations

import base64
import gzip
import hashlib
import io
import os
import pathlib
import re
import shlex
import shutil
import subprocess
import sys
import sysconfig
import tarfile
import tempfile
import zipfile
from typing import Dict, List, Optional

HERE = pathlib.Path(__file__).resolve().parent
PACKAGE = "pandoricchia"
# Where the C file and its header are: in a source archive, and in the tree.
SOURCES = [(HERE / "c/pandoricchia.c", HERE / "c/pandoricchia.h"), (HERE / "../portable/pandoricchia.c", HERE / "../include/pandoricchia.h")]
# The earliest time that every archiver knows, for what has none.
TIME = 315532800


def told() -> Dict[str, str]:
    """The texts of pyproject.toml by their names. Before 3.11 Python has no reader of such files, and these are plain."""
    return dict(re.findall(r'^([\w-]+) = "(.*)"$', (HERE / "pyproject.toml").read_text(encoding="utf-8"), re.M))


def soname() -> str:
    """The library's name in the package's folder, where ``pandoricchia._library`` looks first."""
    return "libpandoricchia.so." + told()["version"].split(".", maxsplit=1)[0]


def compiler() -> List[str]:
    """The C compiler's words; none where there is none."""
    if "CC" in os.environ:
        return shlex.split(os.environ["CC"])
    return [path for path in map(shutil.which, ("cc", "gcc", "clang")) if path][:1]


def library() -> Optional[bytes]:
    """The shared library, compiled for this machine; None where there is no compiler, or no C file."""
    words, there = compiler(), [pair for pair in SOURCES if all(path.exists() for path in pair)]
    if not words or not there:
        return None
    source, header = there[0]
    linking = ["-s", f"-Wl,-soname,{soname()}"] if sys.platform.startswith("linux") else []
    with tempfile.TemporaryDirectory() as place:
        out = pathlib.Path(place) / soname()
        flags = ["-std=c99", *shlex.split(os.environ.get("CFLAGS", "-O3")), "-fPIC", "-shared", *linking, "-I", str(header.parent)]
        command = [*words, *flags, "-o", str(out), str(source)]
        ran = subprocess.run(command, stdout=subprocess.PIPE, stderr=subprocess.STDOUT, text=True, check=False)
        if ran.returncode:
            raise RuntimeError(f"the shared library can't be compiled; CC= as an empty text installs without it:\n{shlex.join(command)}\n{ran.stdout}")
        return out.read_bytes()


def package() -> Dict[str, bytes]:
    """The package's files by name."""
    paths = sorted(path for path in (HERE / PACKAGE).rglob("*") if path.suffix == ".py" or path.name == "py.typed")
    return {path.relative_to(HERE).as_posix(): path.read_bytes() for path in paths}


def metadata() -> bytes:
    about = told()
    said = {"Name": PACKAGE, "Version": about["version"], "Summary": about["description"], "Requires-Python": about["requires-python"]}
    return ("\n".join(["Metadata-Version: 2.1", *(f"{name}: {value}" for name, value in said.items())]) + "\n").encode()


def record(found: Dict[str, bytes], name: str) -> bytes:
    """The list of the files with their hashes, which names itself without one."""
    hashes = {path: base64.urlsafe_b64encode(hashlib.sha256(octets).digest()).rstrip(b"=").decode() for path, octets in found.items()}
    lines = [f"{path},sha256={hashes[path]},{len(octets)}" for path, octets in found.items()]
    return "\n".join([*lines, f"{name},,", ""]).encode()


def write_wheel(folder: str, found: Dict[str, bytes], machine: bool) -> str:
    """The wheel of some files and of what is said of them, for this machine or for any. The same files give the same wheel."""
    whole = f"{PACKAGE}-{told()['version']}"
    tag = "py3-none-" + (re.sub(r"[-.]", "_", sysconfig.get_platform()) if machine else "any")
    about = f"{whole}.dist-info"
    found[f"{about}/METADATA"] = metadata()
    found[f"{about}/WHEEL"] = (
        f"Wheel-Version: 1.0\nGenerator: make_wheel\nRoot-Is-Purelib: {'false' if machine else 'true'}\nTag: {tag}\n".encode()
    )
    found[f"{about}/entry_points.txt"] = f"[console_scripts]\n{PACKAGE} = {told()[PACKAGE]}\n".encode()
    found[f"{about}/RECORD"] = record(found, f"{about}/RECORD")
    name = f"{whole}-{tag}.whl"
    with zipfile.ZipFile(pathlib.Path(folder) / name, "w", zipfile.ZIP_DEFLATED) as wheel:
        for path, octets in found.items():
            entry = zipfile.ZipInfo(path)
            entry.external_attr = 0o100644 << 16
            wheel.writestr(entry, octets, zipfile.ZIP_DEFLATED)
    return name


def build_wheel(wheel_directory: str, config_settings: Optional[object] = None, metadata_directory: Optional[str] = None) -> str:
    """What pip calls: the wheel goes to a folder, and its name is given back."""
    found, compiled = package(), library()
    if compiled is not None:
        found[f"{PACKAGE}/{soname()}"] = compiled
    return write_wheel(wheel_directory, found, compiled is not None)


def build_editable(wheel_directory: str, config_settings: Optional[object] = None, metadata_directory: Optional[str] = None) -> str:
    """What ``pip install -e`` calls: a wheel that names this folder, where the package stays; the library goes there too."""
    compiled = library()
    if compiled is not None:
        (HERE / PACKAGE / soname()).write_bytes(compiled)
    return write_wheel(wheel_directory, {f"{PACKAGE}.pth": f"{HERE}\n".encode()}, compiled is not None)


def build_sdist(sdist_directory: str, config_settings: Optional[object] = None) -> str:
    """What is asked for a source archive: the package, this module and, where they are at hand, the C file and its header."""
    whole = f"{PACKAGE}-{told()['version']}"
    found = {**package(), "PKG-INFO": metadata()}
    found.update({name: (HERE / name).read_bytes() for name in ("pyproject.toml", "make_wheel.py")})
    for pair in SOURCES[::-1]:
        found.update({f"c/{path.name}": path.read_bytes() for path in pair if path.exists()})
    held = io.BytesIO()
    with tarfile.open(fileobj=held, mode="w", format=tarfile.PAX_FORMAT) as archive:
        for name, octets in sorted(found.items()):
            entry = tarfile.TarInfo(f"{whole}/{name}")
            entry.size, entry.mtime, entry.mode = len(octets), TIME, 0o644
            archive.addfile(entry, io.BytesIO(octets))
    name = f"{whole}.tar.gz"
    (pathlib.Path(sdist_directory) / name).write_bytes(gzip.compress(held.getvalue(), mtime=TIME))
    return name


def main(folder: str) -> None:
    os.makedirs(folder, exist_ok=True)
    for name in (build_wheel(folder), build_sdist(folder)):
        print(os.path.join(folder, name))


if __name__ == "__main__":
    if len(sys.argv) != 2:
        sys.exit("usage: make_wheel.py FOLDER")
    main(sys.argv[1])
