"""The C header, read: its records and its functions, which the translated code is to have."""
import re

from mir import Refused

WIDTHS = {"uint8_t": 8, "uint16_t": 16, "uint32_t": 32, "uint64_t": 64, "int8_t": 8, "int16_t": 16, "int32_t": 32, "int64_t": 64}


class Header:
    def __init__(self, path):
        with open(path, encoding="utf-8") as file:
            text = re.sub(r"/\*.*?\*/", "", file.read(), flags=re.S)
        self.records, self.functions = {}, {}
        for body, name in re.findall(r"typedef struct \w+ \{(.*?)\} (\w+);", text, re.S):
            self.records[name] = [self.field(name, line) for line in body.split(";") if line.strip()]
        text = re.sub(r"static inline.*?\n\}\n", "", text, flags=re.S)
        for result, name, params in re.findall(r"^(\w+) (pandoricchia_\w+)\(([^()]*)\);", text, re.M):
            self.functions[name] = (result, [self.param(name, p) for p in params.split(",") if params.strip() != "void"])

    def field(self, record, line):
        match = re.fullmatch(r"(\w+) (\w+)(?:\[(\d+)\])?", line.strip())
        if not match:
            raise Refused("the header's record %s: %s" % (record, line.strip()))
        return match.group(2), match.group(1), int(match.group(3)) if match.group(3) else None

    def param(self, function, text):
        match = re.fullmatch(r"(?:(const) )?(\w+) (\*?)(\w+)", " ".join(text.split()))
        if not match:
            raise Refused("the header's %s: %s" % (function, text.strip()))
        return match.group(4), match.group(2), bool(match.group(3)), bool(match.group(1))


class Boundary:
    """Which of the header's records is which of the library's, by the types of the functions; and that all else agrees. Floats that the
    header lends may be numbers of 32 bits in the library, which are their patterns."""

    def __init__(self, header, reader, crate, names):
        """`names` are the crate's functions."""
        self.header, self.reader, self.crate, self.records, self.patterns = header, reader, crate, {}, set()
        if names != sorted(crate + "::" + name for name in header.functions):
            raise Refused("the header's functions are not those of %s" % crate)
        for name in names:
            try:
                self.function(reader.functions[name], *header.functions[name[len(crate) + 2:]])
            except Refused as refusal:
                raise Refused("%s: %s" % (name, refusal)) from None

    def function(self, function, result, params):
        self.same(function.result, result)
        params = list(params)
        for at, ty in enumerate(function.locals[1:function.params + 1]):
            name, kind, pointer, const = params.pop(0)
            if ty[0] == "slice":
                if not pointer or const == ty[1] or params.pop(0) != (name + "_len", "size_t", False, False):
                    raise Refused("%s is no slice in the header" % name)
                if ty == ("slice", False, ("int", 32)) and kind == "float":
                    self.patterns.add((function.name, at))
                else:
                    self.same(ty[2], kind)
            elif pointer:
                raise Refused("%s is a pointer in the header" % name)
            else:
                self.same(ty, kind)
        if params:
            raise Refused("the header has more parameters")

    def same(self, ty, kind):
        """A type of the library's and one of the header's."""
        if ty[0] == "named":
            if kind not in self.header.records or self.records.setdefault(ty[1], kind) != kind:
                raise Refused("%s is %s in the header" % (ty[1], kind))
            fields = self.reader.fields(ty)
            if len(fields) != len(self.header.records[kind]):
                raise Refused("%s has other fields in the header" % ty[1])
            for field, (_, inner, length) in zip(fields, self.header.records[kind]):
                if length is not None:
                    if field[0] != "array" or field[2] != length:
                        raise Refused("%s has another array in the header" % ty[1])
                    field = field[1]
                self.same(field, inner)
        elif not (ty == ("int", WIDTHS.get(kind)) or ty == ("int", 64) and kind == "size_t" or ty == ("bool",) and kind == "bool"
                  or ty == ("float", 32) and kind == "float"):
            raise Refused("%s is %s in the header" % (ty, kind))
