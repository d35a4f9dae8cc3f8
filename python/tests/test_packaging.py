"""Wheel, source archive and editable install, each with the library that is compiled from the C file; and a library for another machine."""
from __future__ import annotations

import array
import importlib.util
import os
import pathlib
import shutil
import subprocess
import sys
import tarfile
import tempfile
import unittest
import unittest.mock
import zipfile
from typing import List

from pandoricchia import _library, _machine
from pandoricchia.command import samples

from .command import SAMPLES
from .judge import TOP

#: Where the package is, the file of the library that it takes, and an answer of it.
ASK = (
    "import pandoricchia; from pandoricchia import _library;"
    "print(pandoricchia.__file__, _library.file_of(_library.load()), pandoricchia.word_octets(5))"
)
ANY, NAME = "py3-none-any.whl", "pandoricchia-" + _library.VERSION


class Packaging(unittest.TestCase):
    def setUp(self) -> None:
        self.place = pathlib.Path(tempfile.mkdtemp()).resolve()
        self.addCleanup(shutil.rmtree, self.place)
        self.tree = self.place / "tree"
        ignored = shutil.ignore_patterns("__pycache__", "tests", "libpandoricchia*")
        shutil.copytree(TOP / "python", self.tree / "python", ignore=ignored)
        for name in ("portable/pandoricchia.c", "include/pandoricchia.h"):
            (self.tree / name).parent.mkdir()
            shutil.copy(TOP / name, self.tree / name)

    def environment(self, **more: str) -> dict[str, str]:
        """Without the variable that names a library, and without anything else that is not said."""
        return {"PATH": os.environ.get("PATH", ""), "CFLAGS": "-O0", "PYTHONDONTWRITEBYTECODE": "1", "PIP_ROOT_USER_ACTION": "ignore", **more}

    def run_python(self, *words: str, **more: str) -> List[str]:
        ran = subprocess.run(
            [sys.executable, *words], env=self.environment(**more), cwd=self.place, capture_output=True, text=True, check=False
        )
        self.assertEqual((ran.returncode, ran.stderr), (0, ""))
        return ran.stdout.split()

    def made(self, folder: pathlib.Path, call: str, out: str, **more: str) -> pathlib.Path:
        """What a call of make_wheel in a folder makes, in a new folder."""
        (self.place / out).mkdir()
        told = self.run_python("-c", f"import make_wheel; print(make_wheel.{call}({str(self.place / out)!r}))", PYTHONPATH=str(folder), **more)
        return self.place / out / told[0]

    def unpacked(self, wheel: pathlib.Path) -> pathlib.Path:
        with zipfile.ZipFile(wheel) as held:
            held.extractall(wheel.parent / "unpacked")
        return wheel.parent / "unpacked"

    def test_with_the_library(self) -> None:
        """The wheel is this machine's, and what it has is all that is needed."""
        wheel = self.made(self.tree / "python", "build_wheel", "wheel")
        self.assertNotIn("none-any", wheel.name)
        folder = self.unpacked(wheel)
        library = folder / "pandoricchia" / _library.SONAME
        self.assertEqual(self.run_python("-c", ASK, PYTHONPATH=str(folder)), [str(folder / "pandoricchia/__init__.py"), str(library), "1020"])
        again = self.made(self.tree / "python", "build_wheel", "again")
        self.assertEqual(again.read_bytes(), wheel.read_bytes())

    def test_without_a_compiler(self) -> None:
        """Where there is none, and where none is wanted: a wheel for any machine, without the library."""
        for out, more in (("none", {"PATH": str(self.place)}), ("unwanted", {"CC": ""})):
            wheel = self.made(self.tree / "python", "build_wheel", out, **more)
            self.assertEqual(wheel.name, f"{NAME}-{ANY}")
            self.assertFalse((self.unpacked(wheel) / "pandoricchia" / _library.SONAME).exists())

    def test_a_compiler_that_fails(self) -> None:
        ran = subprocess.run(
            [sys.executable, "-c", "import make_wheel; make_wheel.build_wheel('.')"],
            env=self.environment(PYTHONPATH=str(self.tree / "python"), CC="false"), cwd=self.place, capture_output=True, text=True, check=False,
        )
        self.assertIn("the shared library can't be compiled; CC= as an empty text installs without it", ran.stderr)

    def test_source_archive(self) -> None:
        """It has the C file, is the same when it is made again, and gives the wheel of the tree."""
        archive = self.made(self.tree / "python", "build_sdist", "sdist")
        self.assertEqual(archive.name, f"{NAME}.tar.gz")
        self.assertEqual(self.made(self.tree / "python", "build_sdist", "again").read_bytes(), archive.read_bytes())
        with tarfile.open(archive) as held:
            held.extractall(self.place / "from")
        folder = self.place / "from" / NAME
        self.assertEqual((folder / "c/pandoricchia.c").read_bytes(), (TOP / "portable/pandoricchia.c").read_bytes())
        wheel = self.made(folder, "build_wheel", "wheel")
        self.assertEqual(wheel.read_bytes(), self.made(self.tree / "python", "build_wheel", "tree_wheel").read_bytes())
        self.assertEqual(self.made(folder, "build_sdist", "its").read_bytes(), archive.read_bytes())

    def test_editable(self) -> None:
        """The package stays where it is, and the library comes beside it."""
        folder = self.unpacked(self.made(self.tree / "python", "build_editable", "editable"))
        ask = f"import site; site.addsitedir({str(folder)!r}); {ASK}"
        package = self.tree / "python/pandoricchia"
        self.assertEqual(self.run_python("-c", ask), [str(package / "__init__.py"), str(package / _library.SONAME), "1020"])

    def test_by_pip(self) -> None:
        """From the source archive: package, library and command."""
        if not importlib.util.find_spec("pip"):
            self.skipTest("installing needs pip")
        archive, target = self.made(self.tree / "python", "build_sdist", "sdist"), self.place / "target"
        told = ["install", "--quiet", "--no-index", "--no-compile", "--disable-pip-version-check", "--target", str(target), str(archive)]
        self.run_python("-m", "pip", *told)
        words = [target / "bin/pandoricchia", "correct", SAMPLES / "code5.bin"]
        ran = subprocess.run(words, env=self.environment(PYTHONPATH=str(target)), capture_output=True, check=False)
        self.assertEqual((ran.stdout, ran.stderr), ((SAMPLES / "code5.log").read_bytes(), b""))


class Machines(unittest.TestCase):
    def test_another_machine(self) -> None:
        """The loader says that such a file is missing; here it is told whose it is."""
        with open(os.environ[_library.ENVIRONMENT], "rb") as file:
            octets = bytearray(file.read())
        order, place = "little" if octets[5] == 1 else "big", slice(18, 20)
        number = 183 if int.from_bytes(octets[place], order) == 22 else 22
        octets[place] = number.to_bytes(2, order)
        with tempfile.TemporaryDirectory() as folder:
            path = os.path.join(folder, "other.so")
            with open(path, "wb") as file:
                file.write(octets)
            with unittest.mock.patch.dict(os.environ, {_library.ENVIRONMENT: path}):
                with self.assertRaises(ImportError) as raised:
                    _library.load()
        self.assertIn(f"can't be loaded: {path} is for another machine: it is for {_machine.MACHINES[number]}, ", str(raised.exception))
        self.assertIn("from the C file", str(raised.exception))

    def test_machine(self) -> None:
        self.assertNotEqual(_machine.machine(os.environ[_library.ENVIRONMENT]), "")
        self.assertEqual(_machine.other_machine(os.environ[_library.ENVIRONMENT]), "")
        self.assertEqual((_machine.machine(__file__), _machine.machine("/none")), ("", ""))

    def test_order_of_octets(self) -> None:
        """Samples in a file are little-endian on every machine."""
        for order, wanted in ((sys.byteorder, [1.0, -2.5]), ("big" if sys.byteorder == "little" else "little", None)):
            with unittest.mock.patch.object(samples.sys, "byteorder", order):
                made = samples.little(array.array("f", [1.0, -2.5]))
                self.assertEqual(made.tolist() == wanted, wanted is not None)
                self.assertEqual(samples.little(made).tolist(), [1.0, -2.5])


if __name__ == "__main__":
    unittest.main()
