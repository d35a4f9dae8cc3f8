"""How the shared library is found, the package installed, and README's example."""
from __future__ import annotations

import base64
import builtins
import doctest
import hashlib
import importlib.util
import os
import pathlib
import pydoc
import shutil
import subprocess
import sys
import tempfile
import unittest
import zipfile
from typing import Dict, Optional, Set

import pandoricchia
from pandoricchia import _library

from .command import SAMPLES
from .judge import TOP

ASK = "import pandoricchia; print(pandoricchia.__file__, pandoricchia.word_octets(5))"


def files(folder: pathlib.Path) -> Set[str]:
    """The files under a folder, by their names there."""
    return {str(path.relative_to(folder)) for path in folder.rglob("*") if path.is_file() and path.parent.name != "__pycache__"}


class Package(unittest.TestCase):
    def setUp(self) -> None:
        self.place = pathlib.Path(tempfile.mkdtemp())
        self.addCleanup(shutil.rmtree, self.place)
        self.library = pathlib.Path(os.environ[_library.ENVIRONMENT]).resolve()

    def run_python(self, path: pathlib.Path, library: Optional[str] = None, **more: str) -> subprocess.CompletedProcess[str]:
        """Imports the package from a path, in an environment of its own."""
        environment: Dict[str, str] = {"PATH": os.environ.get("PATH", ""), "PYTHONPATH": str(path), **more}
        if library is not None:
            environment[_library.ENVIRONMENT] = library
        return subprocess.run(
            [sys.executable, "-c", ASK], env=environment, cwd=self.place, capture_output=True, text=True, check=False
        )

    def test_named(self) -> None:
        self.assertEqual(self.run_python(TOP / "python", str(self.library)).stdout.split()[-1:], ["1020"])

    def test_in_the_folder(self) -> None:
        shutil.copytree(TOP / "python/pandoricchia", self.place / "pandoricchia")
        shutil.copy(self.library, self.place / "pandoricchia" / _library.SONAME)
        self.assertEqual(self.run_python(self.place).stdout.split()[-1:], ["1020"])

    def test_by_the_loader(self) -> None:
        shutil.copy(self.library, self.place / _library.SONAME)
        found = self.run_python(TOP / "python", LD_LIBRARY_PATH=str(self.place))
        self.assertEqual(found.stdout.split()[-1:], ["1020"])

    def test_not_there(self) -> None:
        found = self.run_python(TOP / "python", str(self.place / "none.so"))
        self.assertIn("ImportError: the shared library of pandoricchia can't be loaded", found.stderr)
        self.assertIn(_library.ENVIRONMENT, found.stderr)

    def test_another_library(self) -> None:
        found = self.run_python(TOP / "python", os.environ["PANDORICCHIA_JUDGE"])
        self.assertIn(f"is no library of version {_library.VERSION}: it does not tell its version", found.stderr)
        self.assertIn("ImportError", found.stderr)

    def test_other_records(self) -> None:
        """A library of another major number, or one that lacks a call: a line, and status 2, before any record is read."""
        cc = next(filter(None, map(shutil.which, ("cc", "gcc", "clang"))), None)
        if not cc:
            self.skipTest("another library needs a C compiler")
        major, minor, _ = map(int, _library.VERSION.split("."))
        for number, wrong in (
            ((major + 1) << 16, f"it is {major + 1}.0.0, whose records are others"),
            (major << 16 | minor << 8 | 7, f"it is {major}.{minor}.7, and has no call word_octets"),
        ):
            source, library = self.place / "other.c", self.place / f"other{number}.so"
            source.write_text(f"unsigned pandoricchia_version(void) {{ return {number}; }}\n", encoding="ascii")
            subprocess.run([cc, "-shared", "-fPIC", "-o", str(library), str(source)], check=True)
            said = f"{library} is no library of version {_library.VERSION}: {wrong}\n"
            found = self.run_python(TOP / "python", str(library))
            self.assertIn(f"ImportError: {said}", found.stderr)
            environment = {**os.environ, _library.ENVIRONMENT: str(library), "PYTHONPATH": str(TOP / "python")}
            for words, label in ((["correct", str(SAMPLES / "code1.bin")], "pandoricchia correct"), (["--version"], "pandoricchia")):
                given = [sys.executable, "-m", "pandoricchia", *words]
                ran = subprocess.run(given, env=environment, capture_output=True, text=True, check=False)
                self.assertEqual((ran.returncode, ran.stderr), (2, f"{label}: {said}"))

    def test_identity(self) -> None:
        """--version says which library is taken: its version, its file, and the file's hash."""
        shutil.copy(self.library, self.place / _library.SONAME)
        digest = hashlib.sha256(self.library.read_bytes()).hexdigest()
        for named in ({_library.ENVIRONMENT: str(self.library)}, {"LD_LIBRARY_PATH": str(self.place)}):
            environment = {"PATH": os.environ.get("PATH", ""), "PYTHONPATH": str(TOP / "python"), **named}
            given = [sys.executable, "-m", "pandoricchia", "--version"]
            ran = subprocess.run(given, env=environment, capture_output=True, text=True, check=False)
            file = self.library if _library.ENVIRONMENT in named else self.place / _library.SONAME
            wanted = [f"pandoricchia {_library.VERSION}", f"library {_library.VERSION}, {file}", f"SHA-256 {digest}"]
            self.assertEqual((ran.returncode, ran.stdout.splitlines(), ran.stderr), (0, wanted, ""))

    def test_help(self) -> None:
        """help() lists every call; what Python has a name for itself is named there, and is not brought by a star."""
        page = pydoc.plain(pydoc.render_doc(pandoricchia))
        for name in (*_library.CALLS, "Reader", "Taker", "Refused", "Number"):
            self.assertRegex(page, rf"(?m)^ +(class )?{name}\(|^ +{name} ", name)
        brought: Dict[str, object] = {}
        exec("from pandoricchia import *", brought)  # pylint: disable=exec-used
        del brought["__builtins__"]
        self.assertEqual(set(brought) & set(vars(builtins)), set())
        self.assertLess(set(_library.CALLS) - {"open", "list"}, set(brought))
        for name in ("open", "list"):
            self.assertIn(f"    {name}(", pandoricchia.__doc__ or "")

    def test_installed(self) -> None:
        """By pip, without a network and without setuptools; all of the package is there, and the command."""
        if not importlib.util.find_spec("pip"):
            self.skipTest("installing needs pip")
        source, target = self.place / "source", self.place / "target"
        shutil.copytree(TOP / "python", source, ignore=shutil.ignore_patterns("__pycache__", "tests"))
        command = [sys.executable, "-m", "pip", "install", "--quiet", "--no-index", "--no-compile", "--disable-pip-version-check"]
        done = subprocess.run([*command, "--target", str(target), str(source)], capture_output=True, text=True, check=False)
        self.assertEqual(done.returncode, 0, done.stderr)
        self.assertEqual(files(target / "pandoricchia"), files(TOP / "python/pandoricchia"))
        found = self.run_python(target, str(self.library))
        self.assertEqual(found.stdout.split(), [str(target / "pandoricchia/__init__.py"), "1020"], found.stderr)
        environment = {"PATH": os.environ.get("PATH", ""), "PYTHONPATH": str(target), _library.ENVIRONMENT: str(self.library)}
        ran = subprocess.run([target / "bin/pandoricchia", "--version"], env=environment, capture_output=True, text=True, check=False)
        self.assertEqual((ran.returncode, ran.stdout.splitlines()[0]), (0, f"pandoricchia {_library.VERSION}"), ran.stderr)

    def test_wheel(self) -> None:
        """The wheel's list has every file with its hash and its length, and is the same when it is made again."""
        sys.path.insert(0, str(TOP / "python"))
        self.addCleanup(sys.path.remove, str(TOP / "python"))
        import make_wheel  # as pip finds it

        wheel = self.place / make_wheel.build_wheel(str(self.place))
        first = wheel.read_bytes()
        make_wheel.build_wheel(str(self.place))
        self.assertEqual(wheel.read_bytes(), first)
        with zipfile.ZipFile(wheel) as held:
            names = held.namelist()
            listed = [line.split(",") for line in held.read(names[-1]).decode().splitlines()]
            self.assertEqual([path for path, _, _ in listed], names)
            for path, kind, length in listed[:-1]:
                digest = base64.urlsafe_b64encode(hashlib.sha256(held.read(path)).digest()).decode().rstrip("=")
                self.assertEqual((kind, int(length)), ("sha256=" + digest, len(held.read(path))))

    def test_readme(self) -> None:
        failed, tried = doctest.testfile(str(TOP / "README.md"), module_relative=False, verbose=False)
        self.assertGreater(tried, 4)
        self.assertEqual(failed, 0)
