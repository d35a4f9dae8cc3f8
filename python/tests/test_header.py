"""What the package declares is what the header declares."""
from __future__ import annotations

import ctypes
import re
import unittest

import pandoricchia
from pandoricchia import _library, results

from .judge import TOP

KINDS = {
    "uint8_t": ctypes.c_uint8,
    "uint16_t": ctypes.c_uint16,
    "uint32_t": ctypes.c_uint32,
    "int8_t": ctypes.c_int8,
    "bool": ctypes.c_bool,
    "size_t": ctypes.c_size_t,
}


def kind(name: str) -> object:
    """ctypes's type for a type of the header."""
    if name.startswith("pandoricchia_"):
        return getattr(_library, name[len("pandoricchia_"):].capitalize() + "Record")
    return KINDS[name]


class Header(unittest.TestCase):
    def setUp(self) -> None:
        self.whole = (TOP / "include/pandoricchia.h").read_text(encoding="utf-8")
        self.text = re.sub(r"/\*.*?\*/", "", self.whole, flags=re.S)

    def test_numbers(self) -> None:
        found = {name: int(number) for name, number in re.findall(r"PANDORICCHIA_(\w+) = (\d+)", self.text)}
        self.assertEqual(len(found), 24)
        self.assertEqual({number.name: number.value for number in pandoricchia.Number}, found)

    def test_texts(self) -> None:
        found = dict(re.findall(r'case PANDORICCHIA_(\w+):\s*return "([^"]*)";', self.text))
        self.assertEqual({number.name: number.text for number in pandoricchia.Number}, found)
        self.assertEqual({number.name: pandoricchia.text(int(number)) for number in pandoricchia.Number}, found)
        default = re.findall(r'default:\s*return "([^"]*)";', self.text)
        self.assertEqual([pandoricchia.text(24)], default)
        self.assertEqual([pandoricchia.text(255)], default)

    def test_version(self) -> None:
        version = re.findall(r'#define PANDORICCHIA_VERSION "([^"]*)"', self.text)
        project = (TOP / "python/pyproject.toml").read_text(encoding="utf-8")
        self.assertEqual(version, [pandoricchia.VERSION])
        self.assertEqual(version, [pandoricchia.__version__])
        self.assertEqual(version, re.findall(r'^version = "([^"]*)"$', project, re.M))
        self.assertEqual(version, [_library.written(pandoricchia.version())])
        number = re.findall(r"#define PANDORICCHIA_VERSION_NUMBER (\w+)", self.text)
        self.assertEqual([pandoricchia.version()], [int(text, 16) for text in number])

    def test_records(self) -> None:
        found = re.findall(r"typedef struct pandoricchia_(\w+) \{([^}]*)\} pandoricchia_\1;", self.text)
        self.assertEqual(len(found), 15)
        for name, body in found:
            with self.subTest(record=name):
                fields = re.findall(r"(\w+) (\w+)(?:\[(\d+)\])?;", body)
                declared = [(field, kind(type_) * int(many) if many else kind(type_)) for type_, field, many in fields]
                self.assertEqual(kind("pandoricchia_" + name)._fields_, declared)
                given = getattr(results, "FlipRecord" if name == "fliprecord" else name.capitalize())
                self.assertEqual(list(given._fields), [field for field, _ in declared])

    def test_calls(self) -> None:
        found = re.findall(r"^(\w+) pandoricchia_(\w+)\(([^)]*)\);", self.text, re.M)
        declared = {
            name: (kind(gives), [ctypes.c_void_p if "*" in part else kind(part.split()[0]) for part in takes.split(",") if part != "void"])
            for gives, name, takes in found
        }
        self.assertEqual(_library.CALLS, declared)
        for name in list(declared) + ["text"]:
            self.assertTrue(callable(getattr(pandoricchia, name)), name)

    def test_codes(self) -> None:
        rows = re.findall(r"^ \*     (\d .*|code .*)$", self.whole, re.M)
        self.assertEqual(len(rows), 6)
        for row in rows:
            self.assertIn("    " + row, pandoricchia.__doc__ or "")
        for code in range(256):
            for call, kind_ in ((pandoricchia.word_octets, "WORD"), (pandoricchia.information_octets, "INFORMATION")):
                said = re.findall(rf"#define PANDORICCHIA_{kind_}_OCTETS_{code} (\d+)", self.text)
                self.assertEqual([call(code)], [int(octets) for octets in said] or [0])

    def test_documented(self) -> None:
        for name in [*_library.CALLS, "text", "Reader", "Taker", "Number", "Refused", "flip_table", "flip_records"]:
            self.assertTrue(getattr(pandoricchia, name).__doc__, name)
