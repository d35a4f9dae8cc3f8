"""C99 from shaped functions.

What C leaves open or undefined is kept away from: numbers are unsigned, and signed ones made by functions that say how; a shift's left
side has its full width; pointers have the type of what they point to, count in its size, and are never compared; nothing is written twice
or read and written between two sequence points. Arrays of arrays lie flat.
"""
import re
import struct

from mir import (COMPARISONS, AddrOf, Aggregate, Assign, Block, Call, Const, Deref, Exit, Field, FloatConst, If, Loop, NoElements, Op1, Op2, Refused,
                 Repeat, Return, Stuck, Switch, Truth, Use, Variant, UNIT, BOOL)
from shape import And, Compute, While, all_statements, all_values, base_of, count, ends, flat, lists_in, settled, uses_of, values_in, within

WIDTH = 120
KEYWORDS = set("""auto break case char const continue default do double else enum extern float for goto if inline int long register restrict
return short signed sizeof static struct switch typedef union unsigned void volatile while bool true false NULL memcpy memset asm typeof
size_t""".split())

# The search whose two calls the source keeps apart, so that the more frequent one has a loop of its own. gcc at -O2 makes one loop for both, in
# which correct of codes 4 and 5 takes up to a quarter more.
OWN_LOOPS = {"flipping::bounds::Bounds::first_in_block"}

# By how C binds: the higher, the tighter.
COMMA, LOGOR, LOGAND, BITOR, BITXOR, BITAND, EQUALITY, RELATION, SHIFT, SUM, PRODUCT, UNARY, POSTFIX = range(13)
BINARY = {"Add": ("+", SUM), "Sub": ("-", SUM), "Mul": ("*", PRODUCT), "Div": ("/", PRODUCT), "Rem": ("%", PRODUCT), "And": ("&", BITAND),
          "Or": ("|", BITOR), "Xor": ("^", BITXOR), "Shl": ("<<", SHIFT), "Shr": (">>", SHIFT), "Eq": ("==", EQUALITY),
          "Ne": ("!=", EQUALITY), "Lt": ("<", RELATION), "Le": ("<=", RELATION), "FloatEq": ("==", EQUALITY), "FloatNe": ("!=", EQUALITY),
          "FloatLt": ("<", RELATION), "FloatLe": ("<=", RELATION)}
WRAPPED = {"WrapAdd": "+", "WrapSub": "-", "WrapMul": "*"}
OPPOSITE = {"Eq": "!=", "Ne": "==", "Lt": ">=", "Le": ">"}
SIGNED_RANGE = {8: 128, 16: 32768, 32: 1 << 31, 64: 1 << 63}

HELPERS = {
    "leading_zeros64": """/* How many zeros are before the first one. */
static inline uint32_t leading_zeros64(uint64_t x)
{
    uint32_t n = 0;
    if (x == 0) {
        return 64;
    }
    if (x >> 32 == 0) {
        n += 32;
        x <<= 32;
    }
    if (x >> 48 == 0) {
        n += 16;
        x <<= 16;
    }
    if (x >> 56 == 0) {
        n += 8;
        x <<= 8;
    }
    if (x >> 60 == 0) {
        n += 4;
        x <<= 4;
    }
    if (x >> 62 == 0) {
        n += 2;
        x <<= 2;
    }
    return n + (uint32_t)(x >> 63 == 0);
}
""",
    "trailing_zeros64": """/* How many zeros are behind the last one. */
static inline uint32_t trailing_zeros64(uint64_t x)
{
    return x == 0 ? 64 : 63 - leading_zeros64(x & (~x + 1));
}
""",
    "count_ones64": """/* How many ones there are. */
static inline uint32_t count_ones64(uint64_t x)
{
    x -= x >> 1 & UINT64_C(0x5555555555555555);
    x = (x & UINT64_C(0x3333333333333333)) + (x >> 2 & UINT64_C(0x3333333333333333));
    x = (x + (x >> 4)) & UINT64_C(0x0f0f0f0f0f0f0f0f);
    return (uint32_t)(x * UINT64_C(0x0101010101010101) >> 56);
}
""",
    "float_from_bits": """/* The float of a pattern of bits, and the other way round. */
static inline float float_from_bits(uint32_t bits)
{
    float x;
    memcpy(&x, &bits, sizeof x);
    return x;
}
""",
    "float_to_bits": """/* The pattern of bits of a float. */
static inline uint32_t float_to_bits(float x)
{
    uint32_t bits;
    memcpy(&bits, &x, sizeof bits);
    return bits;
}
""",
    "pattern_of": """/* The pattern of bits of a float that is lent; it is not read as a float, which some machines change. */
static inline uint32_t pattern_of(const float *x)
{
    uint32_t bits;
    memcpy(&bits, x, sizeof bits);
    return bits;
}
""",
    "narrowed": """/* A length for the caller; 0 where no object is that long. */
static inline size_t narrowed(uint64_t length)
{
    size_t n = (size_t)length;
    return n == length ? n : 0;
}
""",
}
for _bits in (8, 16, 32, 64):
    HELPERS["signed%d" % _bits] = """/* The number that bits have if the first of them is a sign. */
static inline int%(b)d_t signed%(b)d(uint%(b)d_t x)
{
    return x <= INT%(b)d_MAX ? (int%(b)d_t)x : (int%(b)d_t)(-(int%(b)d_t)(UINT%(b)d_MAX - x) - 1);
}
""" % {"b": _bits}
    HELPERS["shift_right_signed%d" % _bits] = """/* Halves so many times, towards minus infinity. */
static inline uint%(b)d_t shift_right_signed%(b)d(uint%(b)d_t x, uint%(b)d_t n)
{
    return (uint%(b)d_t)(x <= INT%(b)d_MAX ? x >> n : ~((uint%(b)d_t)~x >> n));
}
""" % {"b": _bits}
NEEDS = {"trailing_zeros64": ["leading_zeros64"]}
HELPER_ORDER = (["narrowed"] + ["signed%d" % b for b in (8, 16, 32, 64)] + ["shift_right_signed%d" % b for b in (8, 16, 32, 64)]
                + ["leading_zeros64", "trailing_zeros64", "count_ones64", "float_from_bits", "float_to_bits", "pattern_of"])


def c_name(symbol):
    return re.sub(r"::|\W", "_", symbol)


def base_type(ty):
    """What an array of arrays is flat, and how many of it; anything else is one of itself."""
    n = 1
    while ty[0] == "array":
        n *= ty[2]
        ty = ty[1]
    return ty, n


class Value:
    """C for a value: its text, how tightly it binds, and the type that C gives it. `lit` is a number without a type of its own, `int` the
    result of an operation on less than 32 bits."""

    def __init__(self, text, binds, kind):
        self.text, self.binds, self.kind = text, binds, kind

    def at(self, binds):
        return self.text if self.binds >= binds else "(" + self.text + ")"


def kind_of(ty):
    return "u%d" % ty[1] if ty[0] == "int" else ty[0]


class Writer:
    """Everything that functions have in common: types, names, tables, and how each function is called."""

    def __init__(self, reader, source, effects, boundary=None, header=None, exported=(), large=128):
        self.reader, self.source, self.effects, self.large = reader, source, effects, large
        self.records, self.header, self.exported = boundary.records if boundary else {}, header, set(exported)
        self.patterns = set(boundary.patterns) if boundary else set()
        self.helpers, self.tables, self.slices, self.shapes, self.lengths, self.nothings = set(), {}, {}, {}, {}, set()
        self.table_names, self.of_values = {}, {}
        for name, (_, tokens) in source.consts.items():
            numbers = self.constant(name, tokens)
            if numbers is not None and len(numbers) > 1:
                self.of_values.setdefault(tuple(numbers), []).append(name)

    # -- constants and tables

    def constant(self, name, tokens):
        """The numbers of a constant array of the source, flat; None if it has anything else in it."""
        made, path = [], name.rpartition("::")[0]
        for word in tokens:
            if word in "[],":
                continue
            if re.fullmatch(r"0x[0-9A-Fa-f_]+?(?:[ui](?:8|16|32|64|size))?|\d[\d_]*(?:[ui]\w+)?", word):
                digits = re.sub(r"(?<!^0x)[ui](8|16|32|64|size)$", "", word).replace("_", "")
                made.append(int(digits, 0) if digits.startswith("0x") else int(digits))
                continue
            known = self.source.consts.get(path + "::" + word)
            if known is None:
                return None
            inner = self.constant(path + "::" + word, known[1])
            if inner is None:
                return None
            made += inner
        return made

    def table(self, crate, function, literal, ty):
        """The name of a constant table."""
        base, _ = base_type(ty)
        key = (tuple(flat(literal)), base)
        if key not in self.tables:
            names = self.of_values.get(key[0], [])
            own = [n for n in names if n.startswith(crate + "::")] or names
            name = c_name(own[0]) if own else c_name(function) + "_table"
            taken = {t[0] for t in self.tables.values()}
            more = 2
            while name in taken:
                name, more = "%s%d" % (name.rstrip("0123456789") if more > 2 else name + "_", more), more + 1
            self.tables[key] = (name, ty, own[0].split("::")[0] if own else crate, self.source.consts[own[0]][0] if own else "")
        return self.tables[key][0]

    # -- types

    def scalar(self, ty):
        if ty[0] == "int":
            return "uint%d_t" % ty[1]
        if ty[0] == "float":
            return "float"
        if ty == BOOL:
            return "bool"
        if ty[0] == "named":
            return c_name(ty[1])
        if ty[0] == "slice":
            return self.slice_name(ty)
        if ty[0] == "ref":
            return self.pointer(base_type(ty[2])[0], ty[1], "")
        raise Refused("no C type for %s" % (ty,))

    def slice_name(self, ty):
        base, _ = base_type(ty[2])
        name = ("lent_mut_" if ty[1] else "lent_") + re.sub(r"\W+", "_", self.scalar(base))
        self.slices[name] = (ty[1], base)
        return name

    def pointer(self, base, mutable, name, restrict=False):
        if base[0] == "ref":
            return "%s%s*%s%s" % (self.scalar(base), "" if mutable else "const ", "restrict " if restrict else "", name)
        return "%s%s *%s%s" % ("" if mutable else "const ", self.scalar(base), "restrict " if restrict else "", name)

    def declared(self, ty, name):
        if ty[0] == "array":
            base, n = base_type(ty)
            return "%s %s[%d]" % (self.scalar(base), name, max(n, 1))
        if ty[0] == "ref":
            return self.pointer(base_type(ty[2])[0], ty[1], name)
        return "%s %s" % (self.scalar(ty), name)

    def field_names(self, name):
        """Of a struct."""
        types = self.reader.shapes[name][1]
        if name in self.records:
            return [field for field, _, _ in self.header.records[self.records[name]]]
        known = self.source.types.get(name)
        if known and known[1] == "struct" and len(known[2]) == len(types):
            return [self.safe(field) for field, _ in known[2]]
        return ["field%d" % i for i in range(len(types))]

    def variant_names(self, name):
        known = self.source.types.get(name)
        variants = self.reader.shapes[name][1]
        if known and known[1] == "enum" and len(known[2]) == len(variants):
            return [variant for variant, _ in known[2]]
        return ["variant%d" % i for i in range(len(variants))]

    def field_kind(self, name, index):
        """The C type of a struct's number: the header's records have signs and sizes."""
        ty = self.reader.shapes[name][1][index]
        if name in self.records:
            c = self.header.records[self.records[name]][index][1]
            if c == "size_t":
                return "size"
            if c.startswith("int"):
                return "i" + c[3:-2]
        return kind_of(base_type(ty)[0])

    def has_array(self, ty):
        """Whether a struct or an enum has an array inside."""
        if ty[0] != "named":
            return False
        kind, parts = self.reader.shapes[ty[1]]
        return any(t[0] == "array" or self.has_array(t) for fields in ([parts] if kind == "struct" else parts) for t in fields)

    def by_parts(self, value):
        """Whether a struct, or a variant of an enum, is made by its fields one by one, since an array is among them."""
        if not isinstance(value, Aggregate) or not self.has_array(value.ty):
            return False
        kind, parts = self.reader.shapes[value.ty[1]]
        return any(ty[0] == "array" or self.has_array(ty) for ty in (parts if kind == "struct" else parts[value.items[0].value]))

    def bulky(self, ty):
        """Whether a value is handed over by its address."""
        return ty[0] == "array" or ty[0] == "named" and (self.reader.size(ty) > self.large or self.has_array(ty))

    def filled(self, ty):
        """Whether a function of the library writes its result where its caller wants it: C returns no array, and of a large struct with one
        inside a compiler keeps two."""
        return ty[0] == "array" or ty[0] == "named" and self.has_array(ty) and self.reader.size(ty) > self.large

    def empty(self, types):
        """Whether fields of some types have nothing in them."""
        return all(ty == UNIT for ty in types)

    def safe(self, name):
        return name + "_" if name in KEYWORDS else name

    def type_text(self, name):
        """The definition of a declared type."""
        kind, parts = self.reader.shapes[name]
        comment = self.source.types.get(name, ("",))[0]
        c = c_name(name)
        lines = comment_lines(comment)
        if name in self.records:
            return lines + ["typedef %s %s;" % (self.records[name], c), ""]
        if kind == "struct":
            lines.append("typedef struct %s {" % c)
            for field, ty in zip(self.field_names(name), parts):
                if ty != UNIT:
                    lines.append("    %s;" % self.declared(ty, field))
            if self.empty(parts):
                lines.append("    uint8_t nothing; /* it has no fields, but C asks for one */")
            return lines + ["} %s;" % c, ""]
        variants = self.variant_names(name)
        if variants:
            lines += wrap("enum { %s };" % ", ".join("%s_%s = %d" % (c, v, i) for i, v in enumerate(variants)))
        lines.append("typedef struct %s {" % c)
        lines.append("    uint8_t tag;")
        if not all(self.empty(types) for types in parts):
            lines.append("    union {")
            for variant, types in zip(variants, parts):
                if not self.empty(types):
                    inside = " ".join(self.declared(ty, "field%d" % i) + ";" for i, ty in enumerate(types) if ty != UNIT)
                    lines.append("        struct { %s } %s;" % (inside, variant))
            lines.append("    } as;")
        return lines + ["} %s;" % c, ""]

    # -- functions

    def add(self, function, body, item):
        """A shaped function, before any is written."""
        self.shapes[function.name] = Routine(self, function, body, item)

    def settle(self):
        """Which lengths of slices are used, by any function that they are handed on to; what is computed for others is dropped."""
        self.spread_patterns()
        self.use_lengths()
        while any([routine.prune() for routine in self.shapes.values()]):
            self.use_lengths()

    def spread_patterns(self):
        """Where floats whose patterns are read are handed on to or kept: variables, and the fields of structs. A slice there is one of floats,
        since no number of C's may be read through a pointer to another type."""
        found = {self.shapes[name].params[at] for name, at in self.patterns}
        flows = [flow for routine in self.shapes.values() for flow in routine.flows()]
        grown = bool(found)
        while grown:
            more = {to for origin, to, _ in flows if origin in found} - found
            grown, found = bool(more), found | more
        for origin, to, where in flows:
            if to in found and origin not in found and origin is not NONE:
                raise Refused("%s is handed floats, and numbers that are none" % where)
        if NOWHERE in found:
            raise Refused("floats whose patterns are read are kept where no slice of floats can be")
        for to in found:
            if isinstance(to, tuple):
                name, index = to
                kind, parts = self.reader.shapes[name]
                self.reader.shapes[name] = (kind, [of_floats(ty) if i == index else ty for i, ty in enumerate(parts)])
            else:
                to.ty = of_floats(to.ty)
        for routine in self.shapes.values() if found else []:
            routine.retype(found)

    def use_lengths(self):
        for name, routine in self.shapes.items():
            self.lengths[name] = {i for i, var in enumerate(routine.params) if var.ty[0] == "slice"} if name in self.exported else set()
        changed = True
        while changed:
            changed = False
            for name, routine in self.shapes.items():
                more = routine.lengths_used()
                if not more <= self.lengths[name]:
                    self.lengths[name] |= more
                    changed = True


def comment_lines(text, indent=""):
    """A comment, wrapped."""
    if not text:
        return []
    if "*/" in text:
        raise Refused("a comment that would end too soon: %s" % text)
    lines, line = [], indent + "/*"
    for word in text.split():
        if len(line) + 1 + len(word) > WIDTH - 3:
            lines.append(line)
            line = indent + " *"
        line += " " + word
    return lines + [line + " */"]


NONE, NOWHERE, LENDING = "of no elements", "nowhere", ("slice", "ref", "ptr")


def of_floats(ty):
    """The type of a slice or a pointer, to floats."""
    if ty[0] not in ("slice", "ref"):
        raise Refused("floats whose patterns are read are kept by %s" % (ty,))
    return ty[:2] + (("float", 32),)


def without_elements(arg):
    """Whether a slice is one of no elements."""
    first = arg.items[0] if isinstance(arg, Aggregate) and arg.ty[0] == "slice" else None
    return isinstance(first, AddrOf) and isinstance(first.of, NoElements)


class Routine:
    """One function, as C."""

    def __init__(self, writer, function, body, item):
        self.writer, self.function, self.body, self.item = writer, function, body, item
        self.crate = function.name.split("::")[0]
        self.params, self.out, self.depth, self.labels, self.breaks, self.declared_at = function.param_vars, [], 1, {}, [], {}
        self.exported = function.name in writer.exported
        self.fills = not self.exported and writer.filled(function.result)

    # -- names

    def name_all(self):
        taken = set(KEYWORDS)
        self.given_back = self.one_result() if self.fills and self.function.result[0] == "named" else None
        if self.given_back:
            self.given_back.name = "result"
        if self.fills:
            taken.add("result")
        order = list(self.params)
        for e in all_values(self.body):
            for use in uses_of(e):
                if use.var not in order:
                    order.append(use.var)
        given = self.item.params if self.item and len(self.item.params) == len(self.params) else ["p%d" % i for i in range(len(self.params))]
        for var, name in zip(self.params, given):
            self.take(var, name, taken)
            if var.ty[0] == "slice":
                taken.add(var.name + "_len")
        for var in order:
            if var.name is None and var.table is None and var.given is not None:
                self.take(var, var.given, taken)
        for var in order:
            if var.name is None and var.table is None:
                self.take(var, "result" if var.local == 0 else "t", taken)
        self.taken = taken
        for var in order:
            var.by_address = False
        if self.given_back:
            self.given_back.by_address = True
        for var in self.params:
            var.by_address = var.ty[0] == "array" or not self.exported and self.writer.bulky(var.ty) and not var.assigned and not var.addressed
            var.kind = "size" if self.exported and var.ty == ("int", 64) else kind_of(var.ty)

    def one_result(self):
        """The variable that is given back at each end, if there is one: it is made where the caller wants it."""
        given = [s.value.var if isinstance(s.value, Use) else None for s in all_statements(self.body) if isinstance(s, Return)]
        return given[0] if given and given[0] and all(var is given[0] for var in given) and not given[0].param else None

    def take(self, var, name, taken):
        made, more = self.writer.safe(name), 2
        while made in taken or c_name(made) in self.writer.table_names:
            made, more = "%s%d" % (name, more), more + 1
        var.name = made
        taken.add(made)

    def fresh(self, name):
        made, more = name, 2
        while made in self.taken:
            made, more = "%s%d" % (name, more), more + 1
        self.taken.add(made)
        return made

    # -- patterns

    def origin(self, e):
        """What a slice or a pointer comes from: a variable, the field of a struct (its name and the field's number), NONE where it has no
        elements, or None."""
        if isinstance(e, Aggregate):
            return self.origin(e.items[0])
        e = self.counted(e)[0]
        if isinstance(e, AddrOf):
            return NONE if isinstance(e.of, NoElements) or base_type(e.of.ty)[1] == 0 else None
        if isinstance(e, Field) and e.of.ty[0] == "slice":
            e = e.of
        if isinstance(e, Field) and e.of.ty[0] == "named" and not isinstance(e.of, Variant):
            return e.of.ty[1], e.index
        return e.var if isinstance(e, Use) else None

    def flows(self):
        """From where to where slices and pointers go, and in which function: to a parameter, a variable, a struct's field, or NOWHERE."""
        for statement in all_statements(self.body):
            for value in values_in(statement):
                for e in within(value):
                    if isinstance(e, Call):
                        for arg, var in zip(e.args, self.writer.shapes[e.name].params):
                            if arg.ty[0] in LENDING:
                                yield self.origin(arg), var, e.name
                    elif isinstance(e, Aggregate) and e.ty[0] == "named":
                        struct = self.writer.reader.shapes[e.ty[1]][0] == "struct"
                        for i, part in enumerate(e.items):
                            if part.ty[0] in LENDING:
                                yield self.origin(part), (e.ty[1], i) if struct else NOWHERE, self.function.name
            if isinstance(statement, (Assign, Return)) and statement.value is not None and statement.value.ty[0] in LENDING:
                to = self.origin(statement.place) if isinstance(statement, Assign) else None
                yield self.origin(statement.value), to or NOWHERE, self.function.name

    def retype(self, found):
        """Slices and pointers of what was found are to floats, and so are those without elements that go there."""
        for value in all_values(self.body):
            for e in within(value):
                if isinstance(e, (Use, Field, Aggregate)) and e.ty[0] in LENDING and self.origin(e) in found:
                    e.ty = of_floats(e.ty)
        for statement in all_statements(self.body):
            for value in values_in(statement):
                for e in within(value):
                    if isinstance(e, Aggregate) and e.ty[0] == "named":
                        for part, ty in zip(e.items, self.writer.reader.shapes[e.ty[1]][1]):
                            if without_elements(part) and ty[0] == "slice":
                                part.ty, part.items[0].of.ty = ty, ("array", ty[2], 0)

    # -- lengths

    def lengths_used(self):
        used = set()
        for e in all_values(self.body):
            self.look(e, used)
        return used

    def look(self, e, used):
        if isinstance(e, Call):
            callee = self.writer.shapes.get(e.name)
            for i, arg in enumerate(e.args):
                if arg.ty[0] == "slice" and callee and i not in self.writer.lengths[e.name]:
                    if isinstance(arg, Use):
                        continue
                    if isinstance(arg, Aggregate):
                        self.look(arg.items[0], used)
                        continue
                self.look(arg, used)
            return
        if isinstance(e, Use) and e.ty[0] == "slice" and e.var in self.params:
            used.add(self.params.index(e.var))
        if isinstance(e, Field) and isinstance(e.of, Use) and e.of.ty[0] == "slice" and e.index == 0:
            return
        for part in ([e.of] if isinstance(e, (Field, Variant, Deref, AddrOf)) else
                     [e.a] if isinstance(e, Op1) else [e.a, e.b] if isinstance(e, (Op2, And)) else
                     e.items if isinstance(e, Aggregate) else [e.item] if isinstance(e, Repeat) else []):
            self.look(part, used)

    def prune(self):
        """Drops lengths that no one uses from calls, and what was computed for them alone. Whether there were any."""
        found = False
        for value in all_values(self.body):
            for e in within(value):
                if isinstance(e, Call):
                    for i, arg in enumerate(e.args):
                        if isinstance(arg, Aggregate) and arg.ty[0] == "slice" and i not in self.writer.lengths[e.name]:
                            if not isinstance(arg.items[1], Const):
                                arg.items[1], found = Const(64, 0), True
        if found:
            count(self.body)
            self.body = settled(self.body, self.writer.effects)
        return found

    # -- the head

    def head(self):
        w, function = self.writer, self.function
        if self.exported:
            return self.exported_head()
        params = []
        for i, var in enumerate(self.params):
            if var.ty[0] == "slice":
                params.append(w.pointer(base_type(var.ty[2])[0], var.ty[1], var.name, var.ty[1]))
                if i in w.lengths[function.name]:
                    params.append("uint64_t %s_len" % var.name)
            elif var.ty[0] == "ref":
                params.append(w.pointer(base_type(var.ty[2])[0], var.ty[1], var.name, var.ty[1]))
            elif var.by_address:
                params.append(w.pointer(base_type(var.ty)[0], False, var.name))
            elif var.ty != UNIT:
                params.append(w.declared(var.ty, var.name))
        result = "void" if function.result == UNIT else None
        if self.fills:
            params.append(w.pointer(base_type(function.result)[0], True, "result", True))
            result = "void"
        result = result or ("%s" % w.declared(function.result, "").strip())
        name = "%s(%s)" % (c_name(function.name), ", ".join(params) or "void")
        kind = "static OWN_LOOP" if function.name in OWN_LOOPS else "static inline"
        made = wrap("%s %s%s%s" % (kind, result, "" if result.endswith("*") else " ", name))
        return made if len(made[0]) <= WIDTH else ["%s %s" % (kind, result)] + wrap(name)

    def exported_head(self):
        name = self.function.name.split("::")[-1]
        result, params = self.writer.header.functions[name]
        texts = []
        for param, kind, pointer, const in params:
            texts.append("%s%s %s%s" % ("const " if const else "", kind, "*" if pointer and const else "*restrict " if pointer else "", param))
        return wrap("%s %s(%s)" % (result, name, ", ".join(texts) or "void"))

    # -- places

    def is_pointer(self, e):
        """Whether a place is reached through a pointer that has a plain name, so that its fields are written with an arrow."""
        if isinstance(e, Use):
            return e.var.by_address and e.ty[0] != "array"
        if not isinstance(e, Deref) or isinstance(e.of, Op2):
            return False
        start, n = self.counted(e.of)
        return n is None and self.through(start) is None

    def through(self, e):
        """The place whose address a pointer's value is, if it is one."""
        return e.of if isinstance(e, AddrOf) else None

    def counted(self, e):
        """A pointer's value as another one and a count of what that points to, or None for 0."""
        if isinstance(e, AddrOf):
            base = e.of
            if isinstance(base, Deref):
                return self.counted(base.of)
            return e, None
        if isinstance(e, Op2) and e.op == "Offset":
            start, n = self.counted(e.a)
            more = self.scaled(e.b, self.writer.reader.size(self.pointee(start)))
            if more is None or n is None:
                return start, n if more is None else more
            return start, Op2("Add", "Unsigned", n, more, ("int", 64))
        return e, None

    def scaled(self, e, size):
        """How many of a size a number of octets is; None for 0."""
        if isinstance(e, Const) and e.value % size == 0:
            return Const(64, e.value // size) if e.value else None
        if isinstance(e, Op2) and e.op == "Mul":
            for a, b in ((e.a, e.b), (e.b, e.a)):
                if isinstance(b, Const) and b.value % size == 0 and b.value:
                    return a if b.value == size else Op2("Mul", "Unsigned", Const(64, b.value // size), a, ("int", 64))
        if size == 1:
            return e
        if isinstance(e, Use):
            return Op2("Div", "Unsigned", e, Const(64, size), ("int", 64))
        raise Refused("an offset that is no multiple of what is pointed to")

    def pointee(self, e):
        """What a pointer's value points to, flat."""
        if isinstance(e, AddrOf):
            return base_type(e.of.ty)[0]
        if isinstance(e, Op2) and e.op == "Offset":
            return self.pointee(e.a)
        if e.ty[0] == "ref":
            return base_type(e.ty[2])[0]
        if isinstance(e, Use) and e.var.value is not None:
            return self.pointee(e.var.value)
        raise Refused("a pointer to nothing known")

    def place(self, e):
        w = self.writer
        if isinstance(e, Use):
            if e.var.table is not None:
                return Value(w.table(self.crate, self.function.name, e.var.table, e.ty), POSTFIX, "array")
            if e.var.by_address and e.ty[0] != "array":
                return Value("*" + e.var.name, UNARY, "named")
            if e.var.param and e.ty[0] == "slice":
                return Value("(%s){%s, %s_len}" % (w.scalar(e.ty), e.var.name, e.var.name), POSTFIX, "slice")
            return Value(e.var.name, POSTFIX, getattr(e.var, "kind", None) or kind_of(e.ty))
        if isinstance(e, Field):
            return self.field(e)
        if isinstance(e, Call):
            return self.call(e)
        if isinstance(e, Aggregate):
            return self.aggregate(e)
        if isinstance(e, Deref):
            start, n = self.counted(e.of)
            element = isinstance(e.of, Op2) and n is None
            want = base_type(e.ty)[0]
            if self.pointee(start) == ("float", 32) and want == ("int", 32):
                self.writer.helpers.add("pattern_of")
                return Value("pattern_of(%s)" % self.address(e.of).text, POSTFIX, "u32")
            if self.pointee(start) != want:
                raise Refused("a pointer to %s is read as one to %s" % (self.pointee(start), want))
            inner = self.through(start)
            if inner is not None and n is None and inner.ty == e.ty:
                return self.place(inner)
            if n is None and inner is None and e.ty[0] != "array" and not element:
                return Value("*" + self.address(start).at(UNARY), UNARY, kind_of(e.ty))
            if e.ty[0] == "array":
                return self.address(e.of)
            index = self.value(n).text if n is not None else "0"
            return Value("%s[%s]" % (self.address(start).at(POSTFIX), index), POSTFIX, kind_of(e.ty))
        raise Refused("no place: %s" % type(e).__name__)

    def field(self, e):
        w = self.writer
        if isinstance(e.of, Variant):
            name = e.of.ty[1]
            inner = e.of.of
            text = (self.arrow(inner) + "->") if self.is_pointer(inner) else self.place(inner).at(POSTFIX) + "."
            if e.index == 0:
                return Value(text + "tag", POSTFIX, "u8")
            return Value("%sas.%s.field%d" % (text, w.variant_names(name)[e.of.index], e.index - 1), POSTFIX, kind_of(e.ty))
        if e.of.ty[0] == "slice":
            return self.slice_part(e.of, e.index)
        name = e.of.ty[1]
        field = w.field_names(name)[e.index]
        kind = w.field_kind(name, e.index) if e.ty[0] in ("int", "array") else kind_of(e.ty)
        if self.is_pointer(e.of):
            return Value("%s->%s" % (self.arrow(e.of), field), POSTFIX, kind)
        return Value("%s.%s" % (self.place(e.of).at(POSTFIX), field), POSTFIX, kind)

    def where(self, e):
        """The address of a place that is no array."""
        if self.is_pointer(e):
            return Value(self.arrow(e), POSTFIX, "ptr")
        return Value("&" + self.place(e).at(UNARY), UNARY, "ptr")

    def arrow(self, e):
        if isinstance(e, Use):
            return e.var.name
        return self.address(self.counted(e.of)[0]).at(POSTFIX)

    def slice_part(self, e, index):
        if isinstance(e, Use) and e.var.param:
            if index == 0:
                return Value(e.var.name, POSTFIX, "ptr")
            return Value(e.var.name + "_len", POSTFIX, "size" if self.exported else "u64")
        if isinstance(e, Aggregate):
            return self.value(e.items[index])
        return Value("%s.%s" % (self.place(e).at(POSTFIX), ("at", "len")[index]), POSTFIX, ("ptr", "u64")[index])

    def address(self, e):
        """C for a pointer's value."""
        start, n = self.counted(e)
        if n is not None:
            return Value("%s + %s" % (self.address(start).at(SUM), self.value(n).at(SUM + 1)), SUM, "ptr")
        if isinstance(start, AddrOf) and isinstance(start.of, NoElements):
            base = base_type(start.of.ty)[0]
            if base[0] not in ("int", "bool", "float"):
                raise Refused("no elements of %s are lent" % (base,))
            name = self.writer.scalar(base)
            self.writer.nothings.add(name)
            return Value("(%s *)no_%s" % (name, name), UNARY, "ptr")
        if isinstance(start, AddrOf):
            if start.of.ty[0] != "array":
                return self.where(start.of)
            made = self.place(start.of)
            return Value(made.text, made.binds, "ptr")
        if isinstance(start, (Use, Field)):
            return self.place(start)
        if isinstance(start, Deref):
            return self.place(start)
        if isinstance(start, Call):
            return self.call(start)
        raise Refused("no address: %s" % type(start).__name__)

    # -- values

    def number(self, e, typed):
        """A constant."""
        bits, value = e.ty[1], e.value
        text = "%d" % value if value < 1 << 16 else ("0x%X" % value)
        if typed and bits >= 32:
            return Value("UINT%d_C(%s)" % (bits, text), POSTFIX, "u%d" % bits)
        if value >= 1 << 31:
            return Value("UINT%d_C(%s)" % (bits, text), POSTFIX, "u%d" % bits)
        return Value(text, POSTFIX, "lit")

    def value(self, e, typed=False):
        """C for a value that is a number, a truth, a float, a pointer or a struct."""
        if isinstance(e, Const):
            return self.number(e, typed)
        if isinstance(e, Truth):
            return Value("true" if e.value else "false", POSTFIX, "bool")
        if isinstance(e, FloatConst):
            return self.float(e)
        if isinstance(e, (Use, Field, Deref)):
            if e.ty[0] in ("ref", "ptr"):
                return self.address(e)
            return self.place(e)
        if isinstance(e, AddrOf):
            return self.address(e)
        if isinstance(e, Op1):
            return self.op1(e)
        if isinstance(e, Op2):
            return self.address(e) if e.op == "Offset" else self.op2(e)
        if isinstance(e, And):
            binds = LOGAND if e.word == "&&" else LOGOR
            texts = [self.within_logic(part, e.word, binds) for part in (e.a, e.b)]
            return Value((" %s " % e.word).join(texts), binds, "bool")
        if isinstance(e, Call):
            return self.call(e)
        if isinstance(e, Aggregate):
            return self.aggregate(e)
        raise Refused("no value: %s" % type(e).__name__)

    def float(self, e):
        number = struct.unpack(">f", struct.pack(">I", e.pattern))[0]
        if number in (0.0, 1.0) and e.pattern >> 31 == 0:
            return Value("%.1ff" % number, POSTFIX, "float")
        self.writer.helpers.add("float_from_bits")
        return Value("float_from_bits(UINT32_C(0x%08X))" % e.pattern, POSTFIX, "float")

    def within_logic(self, e, word, binds):
        made = self.value(e)
        if isinstance(e, And) and e.word != word:
            return "(" + made.text + ")"
        return made.at(binds)

    def wide(self, e, typed=False):
        """The same, as a number of its full width: a size_t is widened, the header's signed fields go back to bits."""
        made = self.value(e, typed)
        if made.kind == "size":
            return Value("(uint64_t)" + made.at(UNARY), UNARY, "u64")
        if made.kind[0] == "i" and made.kind[1:].isdigit():
            return Value("(uint%s_t)%s" % (made.kind[1:], made.at(UNARY)), UNARY, "u" + made.kind[1:])
        return made

    def as_type(self, e, ty, kind=None):
        """A value where C wants that type: an argument, an assignment, a result."""
        kind = kind or kind_of(ty)
        if kind == "size":
            made = self.value(e)
            if made.kind in ("lit", "size"):
                return made
            return Value("(size_t)" + self.wide(e).at(UNARY), UNARY, "size")
        if kind[0] == "i" and kind[1:].isdigit():
            made = self.value(e)
            if made.kind == kind:
                return made
            bits = int(kind[1:])
            if isinstance(e, Const):
                return Value(str(e.value - (1 << bits) if e.value >= SIGNED_RANGE[bits] else e.value), UNARY, kind)
            self.writer.helpers.add("signed%d" % bits)
            return Value("signed%d(%s)" % (bits, self.as_type(e, ty).text), POSTFIX, kind)
        if isinstance(e, Op1) and e.op == "Cast" and e.sign == "Unsigned" and e.a.ty[0] == "int" and e.a.ty[1] < e.ty[1]:
            inner = self.wide(e.a)
            if inner.kind != "int":
                return inner
        made = self.value(e)
        if made.kind == "size" and kind == "u64":
            return made
        made = self.wide(e)
        if made.kind == "int" and kind in ("u8", "u16"):
            return Value("(uint%s_t)%s" % (kind[1:], made.at(UNARY)), UNARY, kind)
        return made

    def op1(self, e):
        w = self.writer
        if e.op == "Not":
            if e.ty == BOOL:
                if isinstance(e.a, Op2) and e.a.op in OPPOSITE:
                    return self.op2(e.a, OPPOSITE[e.a.op])
                return Value("!" + self.value(e.a).at(UNARY), UNARY, "bool")
            made = Value("~" + self.wide(e.a, True).at(UNARY), UNARY, kind_of(e.ty))
            return made if e.ty[1] >= 32 else Value("(uint%d_t)%s" % (e.ty[1], made.text), UNARY, kind_of(e.ty))
        if e.op in ("LeadingZeros", "TrailingZeros", "CountOnes"):
            return self.counts(e)
        if e.op == "FloatNeg":
            return Value("-" + self.value(e.a).at(UNARY), UNARY, "float")
        if e.op in ("FloatFromBits", "FloatToBits"):
            name = {"FloatFromBits": "float_from_bits", "FloatToBits": "float_to_bits"}[e.op]
            w.helpers.add(name)
            return Value("%s(%s)" % (name, self.as_type(e.a, e.a.ty).text), POSTFIX, kind_of(e.ty))
        if e.op == "Cast":
            if e.sign == "Signed" and e.a.ty[0] == "int":
                return Value("(uint%d_t)%s" % (e.ty[1], self.signed(e.a).at(UNARY)), UNARY, kind_of(e.ty))
            inner = self.wide(e.a)
            if inner.kind == kind_of(e.ty):
                return inner
            return Value("(uint%d_t)%s" % (e.ty[1], inner.at(UNARY)), UNARY, kind_of(e.ty))
        raise Refused("no C for %s" % e.op)

    def counts(self, e):
        bits = e.a.ty[1]
        name = {"LeadingZeros": "leading_zeros64", "TrailingZeros": "trailing_zeros64", "CountOnes": "count_ones64"}[e.op]
        self.writer.helpers.add(name)
        made = Value("%s(%s)" % (name, self.as_type(e.a, e.a.ty).text), POSTFIX, "u32")
        if bits == 64 or e.op == "CountOnes":
            return made
        if e.op == "LeadingZeros":
            return Value("%s - %d" % (made.text, 64 - bits), SUM, "u32")
        return Value("%s(%s | UINT64_C(0x%X))" % (name, self.wide(e.a).at(BITOR + 1), 1 << bits), POSTFIX, "u32")

    def signed(self, e):
        bits = e.ty[1]
        if isinstance(e, Const):
            value = e.value - (1 << bits) if e.value >= SIGNED_RANGE[bits] else e.value
            if abs(value) < 1 << 31:
                return Value(str(value), UNARY if value < 0 else POSTFIX, "i%d" % bits)
        made = self.value(e)
        if made.kind == "i%d" % bits:
            return made
        self.writer.helpers.add("signed%d" % bits)
        return Value("signed%d(%s)" % (bits, self.as_type(e, e.ty).text), POSTFIX, "i%d" % bits)

    def op2(self, e, word=None):
        if e.sign == "Signed":
            return self.op2_signed(e, word)
        if e.op in WRAPPED:
            left, right = self.wide(e.a, True), self.wide(e.b, True)
            text = "(uint%d_t)%s %s (uint%d_t)%s" % (max(e.ty[1], 32), left.at(UNARY), WRAPPED[e.op], max(e.ty[1], 32), right.at(UNARY))
            return Value("(uint%d_t)(%s)" % (e.ty[1], text), UNARY, kind_of(e.ty))
        op, binds = BINARY[e.op]
        op = word or op
        kind = "bool" if e.ty == BOOL else kind_of(e.ty)
        left = self.wide(e.a, isinstance(e.b, Const) or e.op in ("Shl", "Shr"))
        right = self.wide(e.b)
        if e.op == "Shl" and e.ty[1] < 32:
            return Value("(uint%d_t)((uint32_t)%s << %s)" % (e.ty[1], left.at(UNARY), right.at(SHIFT + 1)), UNARY, kind)
        if e.a.ty == BOOL and e.op in ("And", "Or", "Xor"):
            kind = "bool"
            if e.op != "Xor" and any(isinstance(part, Call) for part in within(e.b)):  # clang would rather have the second call left out
                left = Value("(int)" + left.at(UNARY), UNARY, "bool")
        elif kind in ("u8", "u16"):
            kind = "int"
        return Value("%s %s %s" % (self.side(left, e.op, binds, False), op, self.side(right, e.op, binds, True)), binds, kind)

    def side(self, made, op, binds, right):
        """One side of an operation, in brackets wherever a reader would have to think."""
        if op in ("And", "Or", "Xor", "Shl", "Shr"):
            same = op in ("And", "Or", "Xor") and made.binds == binds and not right
            return made.text if same else made.at(UNARY)
        if op in ("Div", "Rem"):
            return made.at(UNARY)
        if op in COMPARISONS:
            return made.at(SUM)
        return made.at(binds + 1 if right else binds)

    def op2_signed(self, e, word):
        bits = e.a.ty[1]
        if e.op == "Shr":
            name = "shift_right_signed%d" % bits
            self.writer.helpers.add(name)
            return Value("%s(%s, %s)" % (name, self.as_type(e.a, e.a.ty).text, self.as_type(e.b, e.b.ty).text), POSTFIX, kind_of(e.ty))
        op, binds = BINARY[e.op]
        text = "%s %s %s" % (self.signed(e.a).at(binds), word or op, self.signed(e.b).at(binds + 1))
        if e.ty == BOOL:
            return Value(text, binds, "bool")
        return Value("(uint%d_t)(%s)" % (bits, text), UNARY, kind_of(e.ty))

    # -- calls and structs

    def call(self, e, into=None):
        if self.fills_struct(e) and into is None:
            raise Refused("a large struct is made where it has no place")
        return Value("%s(%s)" % (c_name(e.name), ", ".join(self.arguments(e) + ([into] if into else []))), POSTFIX, kind_of(e.ty))

    def fills_struct(self, e):
        """Whether a value is a struct that a call fills."""
        return isinstance(e, Call) and e.ty[0] == "named" and self.writer.shapes[e.name].fills

    def arguments(self, e):
        w = self.writer
        callee = w.shapes[e.name]
        made = []
        for i, (arg, var) in enumerate(zip(e.args, callee.params)):
            if var.ty[0] == "slice":
                made.append(self.lent_elements(arg, var))
                if i in w.lengths[e.name]:
                    made.append(self.as_type_length(arg))
            elif var.by_address:
                made.append(self.lent(arg, e))
            elif var.ty != UNIT:
                made.append(self.as_type(arg, var.ty).text)
        return made

    def lent_elements(self, arg, var):
        if base_type(var.ty[2])[0] == ("float", 32) and self.origin(arg) is NONE:
            self.writer.nothings.add("float")
            return "no_float"
        return self.slice_part(arg, 0).text

    def as_type_length(self, arg):
        if isinstance(arg, Aggregate):
            return self.as_type(arg.items[1], ("int", 64)).text
        return self.slice_part(arg, 1).text

    def lent(self, arg, call):
        """The address of a value that is handed over by it: of a place that the call can't write, or of a copy."""
        if isinstance(arg, (Use, Field, Deref)):
            if self.writer.effects.writes(call.name) and self.writer.effects.reads_memory(arg):
                raise Refused("a copy of %s is needed" % self.place(arg).text)
            return self.place(arg).text if arg.ty[0] == "array" else self.where(arg).text
        if isinstance(arg, Aggregate):
            return "&" + self.aggregate(arg).text
        raise Refused("a value that has no address is handed over by it")

    def aggregate(self, e):
        w = self.writer
        if e.ty[0] == "slice":
            return Value("(%s){%s, %s}" % (w.scalar(e.ty), self.value(e.items[0]).text, self.as_type(e.items[1], ("int", 64)).text), POSTFIX, "slice")
        if e.ty[0] != "named":
            raise Refused("an array where C has none")
        name = e.ty[1]
        kind, parts = w.reader.shapes[name]
        if kind == "struct":
            inside = []
            for i, (item, field) in enumerate(zip(e.items, w.field_names(name))):
                if parts[i][0] == "array":
                    raise Refused("a struct with an array inside is assigned by its fields")
                if parts[i] != UNIT:
                    inside.append(".%s = %s" % (field, self.as_type(item, parts[i], w.field_kind(name, i) if parts[i][0] == "int" else None).text))
            return Value("(%s){%s}" % (c_name(name), ", ".join(inside) or "0"), POSTFIX, "named")
        tag = e.items[0].value
        variant = w.variant_names(name)[tag]
        text = ".tag = %s_%s" % (c_name(name), variant)
        if not w.empty(parts[tag]):
            if any(ty[0] == "array" or w.has_array(ty) and not isinstance(item, (Use, Field, Deref)) for item, ty in zip(e.items[1:], parts[tag])):
                raise Refused("an enum with an array inside")
            inside = [".field%d = %s" % (i, self.as_type(item, ty).text) for i, (item, ty) in enumerate(zip(e.items[1:], parts[tag])) if ty != UNIT]
            text += ", .as.%s = {%s}" % (variant, ", ".join(inside))
        return Value("(%s){%s}" % (c_name(name), text), POSTFIX, "named")

    # -- statements

    def line(self, text):
        for part in wrap("    " * self.depth + text):
            self.out.append(part)

    def write(self):
        self.out = []
        self.place_declarations(self.body, set(self.params + ([self.given_back] if self.given_back else [])))
        for var in self.params:
            if var.ty != UNIT and not self.pointed(var):
                self.line("(void)%s;" % var.name)
            if self.exported and var.ty[0] == "slice":
                self.not_null(var)
        self.statements(self.body)
        while self.out and self.out[-1].strip() == "return;" and self.depth == 1 and self.out[-1] == "    return;":
            self.out.pop()
        if not self.out:
            self.out = []
        return comment_lines(self.item.comment if self.item else "") + self.head() + ["{"] + self.out + ["}", ""]

    def not_null(self, var):
        """Where the caller hands over no elements the pointer may be NULL, from which C must not count on."""
        base = base_type(var.ty[2])[0]
        name = "no_%s" % self.writer.scalar(base)
        if var.ty[1]:
            name = self.fresh("nothing")
            self.line("%s %s[1] = {%s};" % (self.writer.scalar(base), name, "{0}" if base[0] == "named" else "0"))
        else:
            self.writer.nothings.add(self.writer.scalar(base))
        self.line("if (%s_len == 0) {" % var.name)
        self.line("    %s = %s;" % (var.name, name))
        self.line("}")

    def pointed(self, var):
        """Whether a parameter is used; of a slice, more than its length."""
        for value in all_values(self.body):
            parts = list(within(value))
            lengths = [e.of for e in parts if isinstance(e, Field) and e.of.ty[0] == "slice" and e.index == 1]
            if any(isinstance(e, Use) and e.var is var and not any(e is n for n in lengths) for e in parts):
                return True
        return False

    def refs(self, statement):
        for e in values_in(statement):
            for use in uses_of(e):
                yield use.var
        for inner in lists_in(statement):
            for s in inner:
                yield from self.refs(s)

    def place_declarations(self, body, known):
        """Where each variable is declared: at its first assignment, if that is before all else in the innermost list that has it all."""
        refs = [set(self.refs(s)) for s in body]
        known = set(known)
        for at, statement in enumerate(body):
            own = {use.var for e in values_in(statement) for use in uses_of(e)}
            inner = lists_in(statement)
            for var in sorted(refs[at] - known, key=lambda v: v.name or ""):
                if var.table is not None or var.ty == UNIT:
                    continue
                later = any(var in r for r in refs[at + 1:])
                holders = [i for i in inner if any(var in set(self.refs(s)) for s in i)]
                if not later and var not in own and len(holders) == 1:
                    continue
                known.add(var)
                if isinstance(statement, Assign) and isinstance(statement.place, Use) and statement.place.var is var and not any(
                        use.var is var for use in uses_of(statement.value)):
                    self.declared_at[id(statement)] = (statement, var, True)
                else:
                    self.declared_at.setdefault(("before", id(statement)), []).append(var)
            for i in inner:
                self.place_declarations(i, known)

    def statements(self, body):
        for statement in body:
            for var in self.declared_at.get(("before", id(statement)), []):
                self.line(self.writer.declared(self.var_type(var), var.name) + ";")
            self.statement(statement)

    def var_type(self, var):
        """A raw pointer's variable has the type of what it points to."""
        if var.ty[0] == "ptr":
            use = Use(var.local, var.ty)
            use.var = var
            return ("ref", self.writable(use), self.pointee(use))
        return var.ty

    def writable(self, e):
        """Whether what a pointer points to may be written."""
        if isinstance(e, AddrOf):
            base = base_of(e.of)
            return base.var.table is None if isinstance(base, Use) else isinstance(base, NoElements) or self.writable(base.of)
        if isinstance(e, Op2):
            return self.writable(e.a)
        if e.ty[0] == "ref":
            return e.ty[1]
        return isinstance(e, Use) and e.var.value is not None and self.writable(e.var.value)

    def statement(self, s):
        if isinstance(s, Assign):
            self.assign(s)
        elif isinstance(s, Compute):
            value = s.value
            if value.ty[0] == "array":
                raise Refused("an array is made and not used")
            if self.fills_struct(value):
                self.made_apart("t", value)
            else:
                self.line(self.call(value).text + ";")
        elif isinstance(s, Return):
            self.returns(s)
        elif isinstance(s, If):
            self.branch(s, "")
        elif isinstance(s, Switch):
            self.switch(s)
        elif isinstance(s, Block):
            self.block(s)
        elif isinstance(s, (Loop, While)):
            self.loop(s, None)
        elif isinstance(s, Exit):
            self.exit(s)
        elif isinstance(s, Stuck):
            raise Refused("a way that is not gone has a jump before its end")
        else:
            raise AssertionError(s)

    def inside(self, body):
        self.depth += 1
        self.statements(body)
        self.depth -= 1

    def branch(self, s, before):
        self.line("%sif (%s) {" % (before, self.value(s.cond).text))
        self.inside(s.then)
        if len(s.other) == 1 and isinstance(s.other[0], If) and not self.declared_at.get(("before", id(s.other[0]))):
            self.branch(s.other[0], "} else ")
            return
        if s.other:
            self.line("} else {")
            self.inside(s.other)
        self.line("}")

    def switch(self, s):
        names = None
        if isinstance(s.on, Field) and isinstance(s.on.of, Variant) and s.on.index == 0:
            names = ["%s_%s" % (c_name(s.on.of.ty[1]), v) for v in self.writer.variant_names(s.on.of.ty[1])]
        self.line("switch (%s) {" % self.wide(s.on).text)
        self.breaks.append(s)
        arms = [(keys, body) for keys, body in s.arms] + ([(None, s.default)] if s.default is not None else [])
        for at, (keys, body) in enumerate(arms):
            for key in keys or []:
                self.line("case %s:" % (names[key] if names else self.number(Const(s.on.ty[1], key), False).text))
            if keys is None or s.default is None and at == len(arms) - 1:
                self.line("default:")
            self.depth += 1
            before = len(self.out)
            self.statements(body)
            if any(id(x) in self.declared_at or ("before", id(x)) in self.declared_at for x in body) or self.declares(before):
                self.out[before - 1] += " {"
                if not (body and ends(body[-1])):
                    self.line("break;")
                self.depth -= 1
                self.line("}")
                continue
            if not (body and ends(body[-1])):
                self.line("break;")
            self.depth -= 1
        self.breaks.pop()
        self.line("}")

    def declares(self, at):
        """Whether one of the lines from a place on declares a variable, beside those that lie deeper."""
        start = re.compile(r" {%d}(?!return|goto)(const )?\w+ \*?\w+(\[\d+\])?( = .*)?;" % (4 * self.depth))
        return any(start.match(line) for line in self.out[at:])

    def block(self, s):
        if len(s.body) == 1 and isinstance(s.body[0], (Loop, While)):
            self.loop(s.body[0], s)
        else:
            self.statements(s.body)
        self.label(s)

    def loop(self, s, block):
        self.line("while (%s) {" % self.value(s.cond).text if isinstance(s, While) else "for (;;) {")
        self.breaks.append((s.loop if isinstance(s, While) else s, block))
        self.inside(s.body)
        self.label(self.breaks.pop()[0])
        self.line("}")

    def label(self, target):
        if target in self.labels:
            self.line("%s:;" % self.labels[target])

    def exit(self, s):
        if isinstance(s.target, Loop):
            loops = [b for b in self.breaks if isinstance(b, tuple)]
            if loops and loops[-1][0] is s.target:
                self.line("continue;")
                return
        elif self.breaks and isinstance(self.breaks[-1], tuple) and self.breaks[-1][1] is s.target:
            self.line("break;")
            return
        if s.target not in self.labels:
            self.labels[s.target] = self.fresh("again" if isinstance(s.target, Loop) else "end")
        self.line("goto %s;" % self.labels[s.target])

    def returns(self, s):
        if s.value is None:
            self.line("return;")
        elif s.value.ty[0] == "array":
            self.fill("result", s.value)
            self.line("return;")
        elif self.fills:
            if isinstance(s.value, Use) and s.value.var is self.given_back:
                pass
            elif self.fills_struct(s.value):
                self.line(self.call(s.value, "result").text + ";")
            elif self.writer.by_parts(s.value):
                self.fill_struct("result->", s.value)
            else:
                self.line("*result = %s;" % self.as_type(s.value, s.value.ty).text)
            self.line("return;")
        elif self.fills_struct(s.value):
            self.line("return %s;" % self.made_apart("result", s.value))
        elif self.writer.by_parts(s.value):
            name = self.fresh("result")
            self.line("%s %s;" % (self.writer.scalar(s.value.ty), name))
            self.fill_struct(name + ".", s.value)
            self.line("return %s;" % name)
        elif self.exported and s.value.ty == ("int", 64):
            made = self.value(s.value)
            self.writer.helpers.add("narrowed")
            self.line("return %s;" % (made.text if made.kind == "lit" else "narrowed(%s)" % made.text))
        else:
            self.line("return %s;" % self.as_type(s.value, s.value.ty).text)

    def assign(self, s):
        w = self.writer
        place, value = s.place, s.value
        if place.ty == UNIT:
            return
        known = self.declared_at.get(id(s))
        if known:
            var = known[1]
            head = w.declared(self.var_type(var), var.name)
            if var.ty[0] == "array":
                self.declare_array(head, var, value)
            elif w.by_parts(value):
                self.line(head + ";")
                self.fill_struct(var.name + ".", value)
            elif self.fills_struct(value):
                self.line(head + ";")
                self.line(self.call(value, "&" + var.name).text + ";")
            else:
                self.line("%s = %s;" % (head, self.as_type(value, place.ty).text))
            return
        made = self.place(place) if not (isinstance(place, Use) and place.ty[0] in ("ref", "ptr")) else Value(place.var.name, POSTFIX, "ptr")
        if place.ty[0] == "array" and isinstance(value, (Aggregate, Repeat)) and self.made_of(place, value):
            name = self.fresh("t")
            self.line(w.declared(place.ty, name) + ";")
            self.fill(name, value)
            self.line("memcpy(%s, %s, sizeof %s);" % (made.text, name, name))
        elif place.ty[0] == "array":
            self.fill(made.at(POSTFIX), value, place)
        elif w.by_parts(value) and self.made_of(place, value):
            name = self.fresh("t")
            self.line(w.declared(place.ty, name) + ";")
            self.fill_struct(name + ".", value)
            self.line("%s = %s;" % (made.text, name))
        elif w.by_parts(value):
            self.fill_struct(self.arrow(place) + "->" if self.is_pointer(place) else made.at(POSTFIX) + ".", value)
        elif self.fills_struct(value) and self.made_of(place, value):
            self.line("%s = %s;" % (made.text, self.made_apart("t", value)))
        elif self.fills_struct(value):
            self.line(self.call(value, self.where(place).text).text + ";")
        else:
            self.store(made, place, value)

    def store(self, made, place, value):
        kind = made.kind if made.kind in ("size", "i8", "i16", "i32", "i64") else None
        if not kind and isinstance(value, Op2) and value.op in BINARY and value.sign != "Signed" and value.ty in (("int", 64), ("int", 32)):
            if isinstance(value.a, (Use, Deref, Field)) and self.place(value.a).text == made.text:
                self.line("%s %s= %s;" % (made.text, BINARY[value.op][0], self.wide(value.b).text))
                return
        self.line("%s = %s;" % (made.text, self.as_type(value, place.ty, kind).text))

    def zero(self, e):
        """Whether a value is 0, or a struct of such."""
        if isinstance(e, Aggregate) and e.ty[0] == "named" and self.writer.reader.shapes[e.ty[1]][0] == "struct":
            return all(self.zero(item) for item in e.items)
        return isinstance(e, Const) and e.value == 0

    def declare_array(self, head, var, value):
        if isinstance(value, Repeat) and self.zero(value.item):
            self.line("%s = {0};" % head)
        elif isinstance(value, Aggregate) and not value.items:
            self.line("%s = {0};" % head)
        elif isinstance(value, Aggregate) and value.ty[1][0] != "array" and not self.writer.has_array(value.ty[1]):
            self.line("%s = {%s};" % (head, ", ".join(self.as_type(item, value.ty[1]).text for item in value.items)))
        else:
            self.line(head + ";")
            self.fill(var.name, value)

    def fill(self, into, value, place=None):
        """The elements of an array. What a call makes goes through a copy if the call could see the place that it is for."""
        w = self.writer
        base, n = base_type(value.ty)
        alone = into[1:-1] if into.startswith("(") else into
        if n == 0:
            self.line("memset(%s, 0, sizeof %s); /* it has no elements, but C asks for one */" % (into, into))
            return
        octets = "%d * sizeof(%s)" % (n, w.scalar(base)) if w.reader.size(base) > 1 else "%d" % n
        if isinstance(value, Call):
            if place is not None and self.made_of(place, value):
                name = self.fresh("t")
                self.line(w.declared(value.ty, name) + ";")
                self.line(self.call(value, name).text + ";")
                self.line("memcpy(%s, %s, %s);" % (alone, name, octets))
            else:
                self.line(self.call(value, alone).text + ";")
        elif isinstance(value, Repeat) and self.zero(value.item):
            self.line("memset(%s, 0, %s);" % (alone, octets))
        elif isinstance(value, Repeat) and value.item.ty[0] == "array":
            i = self.fresh("i")
            self.line("for (size_t %s = 0; %s < %d; %s++) {" % (i, i, value.count, i))
            self.depth += 1
            self.fill("(%s + %s * %d)" % (into, i, base_type(value.item.ty)[1]), value.item)
            self.depth -= 1
            self.line("}")
        elif isinstance(value, Aggregate) and value.ty[1][0] == "array":
            for i, item in enumerate(value.items):
                self.fill("(%s + %d)" % (into, i * base_type(item.ty)[1]), item)
        elif isinstance(value, Repeat) and value.item.ty[0] != "array":
            i = self.fresh("i")
            self.line("for (size_t %s = 0; %s < %d; %s++) {" % (i, i, n, i))
            self.line("    %s[%s] = %s;" % (into, i, self.as_type(value.item, base).text))
            self.line("}")
        elif isinstance(value, Aggregate) and value.ty[1][0] != "array":
            for i, item in enumerate(value.items):
                if w.by_parts(item):
                    self.fill_struct("%s[%d]." % (into, i), item)
                    continue
                self.line("%s[%d] = %s;" % (into, i, self.as_type(item, base).text))
        elif isinstance(value, (Use, Field, Deref)):
            self.line("memcpy(%s, %s, %s);" % (alone, self.place(value).text, octets))
        else:
            raise Refused("an array that is made in a way not known")

    def made_of(self, place, value):
        """Whether a value that is written part by part, or by a call, may read the place that it is for."""
        base = base_of(place)
        if isinstance(base, Use) and any(use.var is base.var for use in uses_of(value)):
            return True
        return (isinstance(base, Deref) or base.var.addressed) and self.writer.effects.reads_memory(value)

    def made_apart(self, name, value):
        """The variable that a struct which a call fills is made in."""
        name = self.fresh(name)
        self.line(self.writer.declared(value.ty, name) + ";")
        self.line(self.call(value, "&" + name).text + ";")
        return name

    def fill_struct(self, into, value):
        """The fields of a struct, behind `name.` or `pointer->`."""
        w = self.writer
        name = value.ty[1]
        kind, parts = w.reader.shapes[name]
        fields, items = w.field_names(name) if kind == "struct" else [], value.items
        if kind == "enum":
            tag, items = items[0].value, items[1:]
            variant, parts = w.variant_names(name)[tag], parts[tag]
            fields = ["as.%s.field%d" % (variant, i) for i in range(len(parts))]
            self.line("%stag = %s_%s;" % (into, c_name(name), variant))
        for i, (field, ty, item) in enumerate(zip(fields, parts, items)):
            if ty[0] == "array":
                self.fill(into + field, item)
            elif w.by_parts(item):
                self.fill_struct("%s%s." % (into, field), item)
            elif self.fills_struct(item):
                self.line(self.call(item, "&%s%s" % (into, field)).text + ";")
            elif ty != UNIT:
                number = w.field_kind(name, i) if ty[0] == "int" and kind == "struct" else None
                self.line("%s%s = %s;" % (into, field, self.as_type(item, ty, number).text))


def wrap(line):
    """A line, or several where it is too long: broken behind a comma, or before an operator, that is least deep in brackets."""
    if len(line) <= WIDTH:
        return [line]
    indent = len(line) - len(line.lstrip())
    best, depth = None, 0
    for at, char in enumerate(line[:WIDTH]):
        if char in "([{":
            depth += 1
        elif char in ")]}":
            depth -= 1
        elif char == " " and at > indent + 20 and (line[at - 1] == "," or re.match(r" (&&|\|\||\^|\||\+|&) ", line[at:])):
            if best is None or depth <= best[0]:
                best = (depth, at)
    if best is None:
        at = line.rfind("(", indent, WIDTH) + 1
        if at <= indent + 20 or line.endswith("{"):
            return [line]
        return [line[:at]] + wrap_rest(" " * (indent + 8) + line[at:], indent + 8)
    at = best[1]
    rest = " " * (indent + (8 if not line.startswith(" " * (indent) + "\0") else 0)) + line[at + 1:]
    return [line[:at]] + wrap_rest(rest, indent + 8)


def wrap_rest(line, indent):
    if len(line) <= WIDTH:
        return [line]
    parts = wrap(line)
    return [parts[0]] + [" " * indent + p.lstrip() for p in parts[1:]]
