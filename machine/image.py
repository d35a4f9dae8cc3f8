"""A library as the loader lays it out: octets at addresses, entry points, and what it asks of others.

An archive is linked into a shared object first; another link, into a program, fills in the same places with other addresses.
"""
import os
import shutil
import struct
import subprocess
import tempfile

BASE = 0x400000000000
IMPORTS = 0x7E0000000000  # where the functions stand that it asks for; no octets are there


def linker():
    """A linker for x86-64, or None."""
    names = ["x86_64-linux-gnu-ld"] + (["ld"] if os.uname().machine == "x86_64" else [])
    return next(filter(None, map(shutil.which, names)), None)


def linked(archive):
    """The octets of a shared object with all that is in the archive."""
    with tempfile.TemporaryDirectory() as folder:
        out = os.path.join(folder, "linked.so")
        subprocess.run([linker(), "-shared", "--whole-archive", archive, "-o", out], check=True)
        with open(out, "rb") as file:
            return file.read()


class Image:
    def __init__(self, octets, base=BASE):
        if octets[:6] != b"\x7fELF\2\1" or struct.unpack_from("<H", octets, 18)[0] != 62:
            raise ValueError("not an x86-64 object")
        self.octets, self.base = octets, base
        programs, sections = struct.unpack_from("<QQ", octets, 32)
        program_count, section_count = struct.unpack_from("<H", octets, 56)[0], struct.unpack_from("<H", octets, 60)[0]
        self.segments = []  # address, octets, may be written, may be executed
        for n in range(program_count):
            kind, flags, at, address, _, stored, size, _ = struct.unpack_from("<IIQQQQQQ", octets, programs + 56 * n)
            if kind == 1:
                held = bytearray(octets[at:at + stored] + bytes(size - stored))
                self.segments.append((base + address, held, bool(flags & 2), bool(flags & 1)))
        self.sections = [struct.unpack_from("<IIQQQQIIQQ", octets, sections + 64 * n) for n in range(section_count)]
        self.symbols, functions = {}, set()
        for section in self.sections:
            if section[1] in (2, 11):  # symbols, all or those for the loader
                for name, kind, value in self.symbols_of(section):
                    if name and value:
                        self.symbols[name] = base + value
                        if kind == 2:
                            functions.add((base + value, name))
        self.functions = sorted(functions)
        self.imports = {}  # address: name
        self.slots = []  # address of a place that holds an import's address, and its name
        self.pointers = []  # address of a place that holds an address in the image, and that address
        for section in self.sections:
            if section[1] == 4 and section[2] & 2:
                self.relocate(section)
        self.meanings = {}  # address: what the instruction there does, once it is decoded

    def symbols_of(self, section):
        names = self.sections[section[6]][4]
        for at in range(section[4], section[4] + section[5], 24):
            name, info, _, _, value, _ = struct.unpack_from("<IBBHQQ", self.octets, at)
            end = self.octets.index(b"\0", names + name)
            yield self.octets[names + name:end].decode(), info & 15, value

    def relocate(self, section):
        symbols = list(self.symbols_of(self.sections[section[6]])) if section[6] else []
        for at in range(section[4], section[4] + section[5], 24):
            place, info, addend = struct.unpack_from("<QQq", self.octets, at)
            kind, symbol = info & 0xFFFFFFFF, info >> 32
            if kind == 8:  # relative
                value, name = addend, None
            elif kind in (1, 6, 7):  # a symbol's address: with an addend, and in the tables of addresses
                name, _, value = symbols[symbol]
                value += addend if kind == 1 else 0
            else:
                raise ValueError("a relocation of kind %d" % kind)
            if value:
                target = self.base + value
                self.pointers.append((self.base + place, target))
            else:
                target = IMPORTS + 16 * len(self.imports)
                self.imports[target] = name
                self.slots.append((self.base + place, name))
            start, held = self.segment(self.base + place)
            struct.pack_into("<Q", held, self.base + place - start, target)

    def segment(self, address):
        """Where the segment of an address begins, and its octets."""
        for start, held, _, _ in self.segments:
            if start <= address < start + len(held):
                return start, held
        raise ValueError("no segment has 0x%x" % address)

    def name(self, address):
        """The function that an address is in, and how far."""
        found = "0x%x" % (address - self.base)
        for start, name in self.functions:
            if start > address:
                break
            found = "%s+0x%x" % (name, address - start)
        return found

    def flip(self, address, bit):
        """Flips a bit of an octet; what was decoded there is forgotten."""
        start, held = self.segment(address)
        held[address - start] ^= 1 << bit
        for near in range(address - 15, address + 1):
            self.meanings.pop(near, None)
