"""The MIR of proved functions, read into trees. What is not known here is refused.

The toolchain leaves it as JSON in each library's folder. logic/Mir/Syntax.antt of the toolchain defines the forms, logic/Mir/Val.antt
the operations, logic/Prog/Machine.antt what a machine does with them.
"""
import json


class Refused(Exception):
    """A form that the translator does not know, or a use of one that it can't write as C."""


# Types are tuples: ("int", bits), ("bool",), ("float", bits), ("unit",), ("ptr",), ("ref", mutable, type), ("array", type, length),
# ("slice", mutable, type) and ("named", name). To the machine a number has no sign; operations have.
UNIT, BOOL, PTR = ("unit",), ("bool",), ("ptr",)


def integer(bits):
    return ("int", bits)


WORD = integer(64)
OP2_SIGNED = {"Add", "Sub", "Mul", "Div", "Rem", "Lt", "Le", "Shr"}
OP2_WRAP = {"WrapAdd", "WrapSub", "WrapMul"}
OP2_PLAIN = {"And", "Or", "Xor", "Shl", "Eq", "Ne"}
OP2_FLOAT = {"FloatEq", "FloatNe", "FloatLt", "FloatLe"}
COUNTS = {"LeadingZeros", "TrailingZeros", "CountOnes"}
COMPARISONS = {"Eq", "Ne", "Lt", "Le"} | OP2_FLOAT


class Const:
    """A number, by its bits."""

    def __init__(self, bits, value):
        self.ty, self.value = integer(bits), value


class Truth:
    ty = BOOL

    def __init__(self, value):
        self.value = value


class FloatConst:
    def __init__(self, bits, pattern):
        self.ty, self.pattern = ("float", bits), pattern


class Nothing:
    ty = UNIT


class Use:
    """A local: its number at first, and the variable that it is part of once they are told apart."""

    def __init__(self, local, ty):
        self.local, self.ty, self.var = local, ty, None


class Field:
    def __init__(self, of, index, ty):
        self.of, self.index, self.ty = of, index, ty


class Variant:
    """The same place, as the tag and the fields of one variant of an enum."""

    def __init__(self, of, index):
        self.of, self.index, self.ty = of, index, of.ty


class Deref:
    def __init__(self, of, ty):
        self.of, self.ty = of, ty


class NoElements:
    """An array of no elements, wherever it is: its address is never followed, and may outlive the local that it was taken of."""

    def __init__(self, ty):
        self.ty = ty


class AddrOf:
    ty = PTR

    def __init__(self, of):
        self.of = of


class Op1:
    def __init__(self, op, sign, a, ty):
        self.op, self.sign, self.a, self.ty = op, sign, a, ty


class Op2:
    def __init__(self, op, sign, a, b, ty):
        self.op, self.sign, self.a, self.b, self.ty = op, sign, a, b, ty


class Call:
    def __init__(self, name, args, ty):
        self.name, self.args, self.ty = name, args, ty


class Aggregate:
    """A struct of these fields, an array of these elements, or the variant of an enum that the first number names."""

    def __init__(self, items, ty):
        self.items, self.ty = items, ty


class Repeat:
    def __init__(self, item, count, ty):
        self.item, self.count, self.ty = item, count, ty


class Assign:
    def __init__(self, place, value):
        self.place, self.value = place, value


class If:
    def __init__(self, cond, then, other):
        self.cond, self.then, self.other = cond, then, other


class Switch:
    """Arms are pairs of keys and statements. Where no key fits and there is no default, the machine is stuck."""

    def __init__(self, on, arms, default):
        self.on, self.arms, self.default = on, arms, default


class Block:
    def __init__(self, body):
        self.body = body


class Loop:
    def __init__(self, body):
        self.body = body


class Stuck:
    """Where no run comes: the machine would be stuck, and that it is not is proved."""


class Exit:
    """To the end of a block, or to the next turn of a loop."""

    def __init__(self, target):
        self.target = target


class Return:
    """With the result's local, once it has one."""

    def __init__(self, value):
        self.value = value


class Function:
    def __init__(self, name, params, locals_, memory, body):
        self.name, self.params, self.locals, self.memory, self.body = name, params, locals_, memory, body

    @property
    def result(self):
        return self.locals[0]


def the_only(form, what):
    """The key and the value of a form with one key."""
    if not isinstance(form, dict) or len(form) != 1:
        raise Refused("%s: %s" % (what, json.dumps(form)[:200]))
    return next(iter(form.items()))


def stuck(body):
    """Whether statements are not run: what comes before where the machine would be stuck is not either, unless it jumps."""
    return any(isinstance(s, Stuck) for s in body) and not any(isinstance(s, (Return, Exit, If, Switch, Block, Loop)) for s in body)


class Reader:
    """The functions of some libraries, and the shapes of the types that they name."""

    def __init__(self):
        self.functions, self.shapes, self.declaring = {}, {}, set()

    def add(self, name, form):
        if name in self.functions:
            raise Refused("two functions have the name %s" % name)
        unknown = set(form) - {"lifetimes", "outlives", "params", "generics", "types", "locals", "body"}
        if unknown or any(form["generics"].values()):
            raise Refused("%s: a function with %s" % (name, sorted(unknown) or "generics"))
        for declared in form["types"]:
            self.declare(declared)
        locals_ = [self.type(local["ty"]) for local in form["locals"]]
        memory = [self.home(local["home"]) for local in form["locals"]]
        try:
            body = Body(self, locals_, form["body"]).whole()
        except Refused as refusal:
            raise Refused("%s: %s" % (name, refusal)) from None
        memory += [True] * (len(locals_) - len(memory))
        self.functions[name] = Function(name, form["params"], locals_, memory, body)

    def home(self, form):
        if form not in ("ValueLocal", "MemorySlot"):
            raise Refused("a local's home: %s" % form)
        return form == "MemorySlot"

    def declare(self, form):
        if form["type_params"] or form["const_params"] or form["owns"] or form["is_cell"]:
            raise Refused("%s has parameters, owns memory or is a cell" % form["name"])
        kind, parts = the_only(form["shape"], "a type's shape")
        if kind == "Fields":
            shape = ("struct", [self.type(t) for t in parts])
        elif kind == "Variants":
            shape = ("enum", [[self.type(t) for t in fields] for fields in parts])
        else:
            raise Refused("a type's shape: %s" % kind)
        if self.shapes.setdefault(form["name"], shape) != shape:
            raise Refused("%s has two shapes" % form["name"])

    def type(self, form):
        if form == "Bool":
            return BOOL
        if form == "Unit":
            return UNIT
        if form == "Ptr":
            return PTR
        kind, parts = the_only(form, "a type")
        if kind == "Int" and parts in (8, 16, 32, 64):
            return integer(parts)
        if kind == "Float" and parts == 32:
            return ("float", parts)
        if kind == "Ref" and parts[1] in ("Imm", "Mut"):
            return ("ref", parts[1] == "Mut", self.type(parts[2]))
        if kind == "Array":
            key, length = the_only(parts[1], "an array's length")
            if key == "Lit":
                return ("array", self.type(parts[0]), length)
        if kind == "Struct" and parts[0] == "&[]":
            ref, length = [self.type(t) for t in parts[1]]
            if ref[0] == "ref" and length == WORD:
                return ("slice", ref[1], ref[2])
        if kind == "Named" and not parts[1]:
            return ("named", parts[0]["name"])
        raise Refused("a type: %s" % json.dumps(form)[:200])

    def fields(self, ty, variant=None):
        """The types of a struct's fields, or of the tag and the fields of a variant."""
        if ty[0] == "slice":
            return [("ref", ty[1], ty[2]), WORD]
        if ty[0] == "named":
            kind, parts = self.shapes[ty[1]]
            if kind == "struct" and variant is None:
                return parts
            if kind == "enum" and variant is not None:
                return [integer(8)] + parts[variant]
        raise Refused("fields of %s" % (ty,))

    def single(self, ty):
        """The type of the only field of a struct that has one, which lies where the struct does; None of anything else."""
        kind, parts = self.shapes[ty[1]] if ty[0] == "named" else (None, [])
        return parts[0] if kind == "struct" and len(parts) == 1 else None

    def size_and_alignment(self, ty):
        """In octets, as the machine counts them; a struct lies in the order written."""
        kind = ty[0]
        if kind in ("int", "float"):
            return ty[1] // 8, ty[1] // 8
        if kind == "bool":
            return 1, 1
        if kind == "unit":
            return 0, 1
        if kind in ("ptr", "ref"):
            return 8, 8
        if kind == "slice":
            return 16, 8
        if kind == "array":
            size, align = self.size_and_alignment(ty[1])
            return size * ty[2], align
        shape, parts = self.shapes[ty[1]]
        if shape == "struct":
            return self.laid(parts)
        laid = [self.laid([integer(8)] + fields) for fields in parts]
        align = max([a for _, a in laid], default=1)
        size = max([s for s, _ in laid], default=0)
        return (size + align - 1) // align * align, align

    def laid(self, parts):
        at, most = 0, 1
        for part in parts:
            size, align = self.size_and_alignment(part)
            at, most = (at + align - 1) // align * align + size, max(most, align)
        return (at + most - 1) // most * most, most

    def size(self, ty):
        return self.size_and_alignment(ty)[0]


class Body:
    """Statements from the flat list of forms that the JSON has, each form before its parts."""

    def __init__(self, reader, locals_, forms):
        self.reader, self.locals, self.forms, self.at, self.round = reader, locals_, forms, 0, []
        # By a local that constants are lent to, the local that is made for them; a reference to it that is only followed needs no statement.
        self.lent = {}
        for form in forms:
            if isinstance(form, dict) and "LendStatic" in form:
                self.lend(form["LendStatic"])
        self.followed = [local for local in self.lent if not self.handed_on(forms, local)]

    def lend(self, parts):
        place, ty, _ = parts
        ty = self.reader.type(ty)
        if place["steps"] or place["local"] in self.lent or self.locals[place["local"]] != ("ref", False, ty):
            raise Refused("a constant that is lent: %s" % json.dumps(parts)[:200])
        self.lent[place["local"]] = len(self.locals)
        self.locals.append(ty)

    def handed_on(self, form, local):
        """Whether a form has the local but to follow it, or to lend a constant to it."""
        if isinstance(form, list):
            return any(self.handed_on(part, local) for part in form)
        if not isinstance(form, dict):
            return False
        if set(form) == {"local", "steps"}:
            return form["local"] == local and not (form["steps"] and "Deref" in form["steps"][0])
        return any(key != "LendStatic" and self.handed_on(part, local) for key, part in form.items())

    def whole(self):
        body = self.statements()
        if self.at != len(self.forms):
            raise Refused("forms behind the body's end")
        return body

    def statements(self):
        before = []
        while self.forms[self.at] == "Seq":
            self.at += 1
            before += self.statements()
        return before + self.statement()

    def statement(self):
        form = self.forms[self.at]
        self.at += 1
        if form == "Skip":
            return []
        if form == "Return":
            return [Return(Use(0, self.locals[0]))]
        if form == "Unreachable":
            return [Stuck()]
        if form in ("Block", "Loop"):
            made = Block([]) if form == "Block" else Loop([])
            self.round.append(made)
            made.body = self.statements()
            self.round.pop()
            return [made]
        kind, parts = the_only(form, "a statement")
        if kind in ("Assign", "Call") and parts[0 if kind == "Assign" else 2] in [{"local": local, "steps": []} for local in self.lent]:
            raise Refused("a constant's reference that is written again: %s" % json.dumps(form)[:200])
        if kind == "Assign":
            place = self.place(parts[0])
            value = self.value(parts[1], place.ty)
            while place.ty == PTR and isinstance(value, AddrOf) and self.reader.single(value.of.ty):
                value = AddrOf(Field(value.of, 0, self.reader.single(value.of.ty)))
            return [Assign(place, value)]
        if kind == "Call":
            key, called = the_only(parts[0], "what is called")
            if key == "Fn" and not any(called[1].values()):
                place = self.place(parts[2])
                return [Assign(place, Call(called[0], [self.operand(x) for x in parts[1]], place.ty))]
        if kind == "LendStatic":
            local = parts[0]["local"]
            made = Use(self.lent[local], self.locals[self.lent[local]])
            made = [Assign(made, self.constant(parts[2], made.ty))]
            return made if local in self.followed else made + [Assign(Use(local, self.locals[local]), AddrOf(Use(self.lent[local], made[0].place.ty)))]
        if kind == "If":
            cond = self.operand(parts)
            then, other = self.statements(), self.statements()
            if stuck(then) or stuck(other):
                return other if stuck(then) else then
            return [If(cond, then, other)]
        if kind == "Switch":
            on = self.operand(parts[0])
            arms = [(keys, self.statements()) for keys in parts[1]]
            default = self.statements() if parts[2] else None
            arms = [(keys, body) for keys, body in arms if not stuck(body)]
            default = None if default is not None and stuck(default) else default
            if len(arms) + (default is not None) < 2:
                return arms[0][1] if arms else default if default is not None else [Stuck()]
            return [Switch(on, arms, default)]
        if kind == "Exit" and parts < len(self.round):
            return [Exit(self.round[-1 - parts])]
        raise Refused("a statement: %s" % json.dumps(form)[:200])

    def constant(self, form, ty):
        """The value of a constant, of a type."""
        if form == "Unit" and ty == UNIT:
            return Nothing()
        kind, parts = the_only(form, "a constant")
        if kind == "Ints" and ty == ("array", integer(parts["width"]), len(parts["values"])):
            return Aggregate([Const(parts["width"], n) for n in parts["values"]], ty)
        if kind == "Parts" and ty[0] == "array" and len(parts) == ty[2]:
            return Aggregate([self.constant(part, ty[1]) for part in parts], ty)
        if kind == "Repeat" and ty[0] == "array" and parts[1] == ty[2]:
            return Repeat(self.constant(parts[0], ty[1]), parts[1], ty)
        if kind == "Parts" and ty[0] == "named":
            shape, fields = self.reader.shapes[ty[1]]
            if shape == "enum" and parts:
                tag = self.constant(parts[0], integer(8))
                fields = [integer(8)] + (fields[tag.value] if tag.value < len(fields) else [])
            if len(parts) == len(fields):
                return Aggregate([self.constant(part, field) for part, field in zip(parts, fields)], ty)
        if kind == "Bool" and ty == BOOL:
            return Truth(parts)
        if kind in ("Int", "Float") and ty == (kind.lower(), parts["width"]):
            return self.operand(form)
        raise Refused("a constant: %s" % json.dumps(form)[:200])

    def place(self, form, address=False):
        """A place, or one of which only the address is taken: the first element of an array that is lent is where the array is."""
        made, steps = Use(form["local"], self.locals[form["local"]]), form["steps"]
        if made.local in self.lent and steps and "Deref" in steps[0]:
            to = self.locals[self.lent[made.local]]
            if self.reader.type(steps[0]["Deref"]) == to or address and len(steps) == 1 and to[0] == "array":
                made, steps = Use(self.lent[made.local], to), steps[1:]
            elif made.local in self.followed:
                raise Refused("a constant that is followed as something else: %s" % json.dumps(form)[:200])
        for step in steps:
            kind, part = the_only(step, "a step")
            if kind == "Field":
                of = made.ty if not isinstance(made, Variant) else None
                fields = self.reader.fields(of) if of else self.reader.fields(made.ty, made.index)
                made = Field(made, part, fields[part])
            elif kind == "Variant":
                made = Variant(made, part)
            elif kind == "Deref" and made.ty[0] in ("ref", "ptr"):
                made = Deref(made, self.reader.type(part))
            else:
                raise Refused("a step: %s" % json.dumps(step)[:200])
        return made

    def operand(self, form):
        if form == "True" or form == "False":
            return Truth(form == "True")
        if form == "Unit":
            return Nothing()
        kind, part = the_only(form, "an operand")
        if kind == "Copy":
            return self.place(part)
        if kind == "Int" and part["width"] in (8, 16, 32, 64) and 0 <= part["value"] < 1 << part["width"]:
            return Const(part["width"], part["value"])
        if kind == "Float" and part["width"] == 32:
            return FloatConst(part["width"], part["bits"])
        raise Refused("an operand: %s" % json.dumps(form)[:200])

    def value(self, form, ty):
        kind, parts = the_only(form, "a value")
        if kind == "Opd":
            return self.operand(parts)
        if kind == "AddrOf":
            made = self.place(parts, True)
            none = made.ty[0] == "array" and made.ty[2] == 0 and not any("Deref" in step for step in parts["steps"])
            return AddrOf(NoElements(made.ty) if none else made)
        if kind == "Aggregate":
            return Aggregate([self.operand(x) for x in parts], ty)
        if kind == "Repeat":
            key, length = the_only(parts[1], "how often a value is repeated")
            if key == "Lit" and ty[0] == "array" and ty[2] == length:
                return Repeat(self.operand(parts[0]), length, ty)
        if kind == "Op1":
            return self.op1(parts[0], self.operand(parts[1]))
        if kind == "Op2":
            return self.op2(parts[0], self.operand(parts[1]), self.operand(parts[2]))
        raise Refused("a value: %s" % json.dumps(form)[:200])

    def op1(self, op, a):
        if isinstance(op, dict):
            return self.op1_with(op, a)
        if op == "Not" and a.ty[0] in ("int", "bool"):
            return Op1(op, None, a, a.ty)
        if op in COUNTS and a.ty[0] == "int":
            return Op1(op, None, a, integer(32))
        if op == "FloatNeg" and a.ty[0] == "float":
            return Op1(op, None, a, a.ty)
        if op == "FloatToBits" and a.ty[0] == "float":
            return Op1(op, None, a, integer(a.ty[1]))
        raise Refused("an operation on one value: %s of %s" % (op, a.ty))

    def op1_with(self, op, a):
        kind, parts = the_only(op, "an operation on one value")
        if kind == "Cast" and parts[2] in (8, 16, 32, 64) and (a.ty == BOOL or a.ty[0] == "int" and (parts[0] != parts[1] or parts[2] != a.ty[1])):
            return Op1(kind, parts[0], a, integer(parts[2]))
        if kind == "FloatFromBits" and a.ty == integer(parts) and parts == 32:
            return Op1(kind, None, a, ("float", parts))
        raise Refused("an operation on one value: %s of %s" % (json.dumps(op), a.ty))

    def op2(self, op, a, b):
        if op == "Offset" and a.ty[0] in ("ptr", "ref") and b.ty == WORD:
            return Op2(op, None, a, b, PTR)
        same = a.ty == b.ty
        kind, sign = (op, None) if isinstance(op, str) else the_only(op, "an operation on two values")
        known = OP2_SIGNED if sign in ("Signed", "Unsigned") else OP2_PLAIN if sign is None else ()
        if kind in known and same and (a.ty[0] == "int" or a.ty == BOOL and kind in OP2_PLAIN - {"Shl"}):
            return Op2(kind, sign, a, b, BOOL if kind in COMPARISONS else a.ty)
        if kind in OP2_WRAP and sign is None and same and a.ty[0] == "int":
            return Op2(kind, None, a, b, a.ty)
        if kind in OP2_FLOAT and sign is None and same and a.ty[0] == "float":
            return Op2(kind, None, a, b, BOOL)
        raise Refused("an operation on two values: %s of %s and %s" % (json.dumps(op), a.ty, b.ty))
