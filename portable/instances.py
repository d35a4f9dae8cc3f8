"""Functions and types for one type each, from those for several: what a call names is put in for the parameters, and the dictionary that a
bound stands for says which function a method is. logic/Mir/Inst.antt and MapTy.antt of the toolchain define both.

An instance is made where something that is reached calls it, so little of the toolchain's own library is looked at. A form that is not
known here is left as it is, for the reader to refuse.
"""
import json
import os
import re
import shutil

from mir import Refused, the_only

# The toolchain's own libraries, each before those that use it.
STD = ["core", "io", "libc", "os", "std_heap", "std_alloc", "std_collections", "std_io", "std"]
NO_DROP = "Destruct++none"
NO_ARGUMENTS = {"types": [], "dicts": []}
COUNT = {"width": 64}


def copy(local, *steps):
    return {"Copy": {"local": local, "steps": list(steps)}}


def copied_by_elements():
    """core's copy_from_slice goes through memory that it owns for a moment; what it does is this loop."""
    size, into, at, n, flag = {"SizeOf": {"Param": 0}}, copy(1, {"Field": 0}), copy(4), copy(1, {"Field": 1}), {"local": 5, "steps": []}
    step = {"local": 4, "steps": []}
    locals_ = [{"Int": 64}, {"Int": 64}, "Bool", {"Int": 64}, "Ptr", "Ptr"]
    slices = [{"Struct": ["&[]", [{"Ref": ["Erased", how, {"Param": 0}]}, {"Int": 64}]]} for how in ("Mut", "Imm")]
    body = ["Seq", {"Assign": [step, {"Opd": {"Int": dict(COUNT, value=0)}}]},
            "Seq", "Block", "Loop",
            "Seq", {"Assign": [flag, {"Op2": [{"Lt": "Unsigned"}, at, n]}]},
            "Seq", {"If": copy(5)}, "Skip", {"Exit": 1},
            "Seq", {"Assign": [{"local": 6, "steps": []}, {"Op2": [{"Mul": "Unsigned"}, at, size]}]},
            "Seq", {"Assign": [{"local": 7, "steps": []}, {"Op2": ["Offset", copy(2, {"Field": 0}), copy(6)]}]},
            "Seq", {"Assign": [{"local": 3, "steps": []}, {"Op2": [{"Mul": "Unsigned"}, at, size]}]},
            "Seq", {"Assign": [{"local": 8, "steps": []}, {"Op2": ["Offset", into, copy(3)]}]},
            "Seq", {"Assign": [{"local": 8, "steps": [{"Deref": {"Param": 0}}]}, {"Opd": copy(7, {"Deref": {"Param": 0}})}]},
            {"Assign": [step, {"Op2": [{"Add": "Unsigned"}, at, {"Int": dict(COUNT, value=1)}]}]},
            "Seq", {"Assign": [{"local": 0, "steps": []}, {"Opd": "Unit"}]}, "Return"]
    homes = [{"ty": ty, "home": "ValueLocal"} for ty in ["Unit"] + slices + locals_]
    return {"lifetimes": 0, "outlives": [], "params": 2, "types": [], "locals": homes, "body": body,
            "generics": {"types": [{"is_copy": True, "const_bits": None}], "bounds": [{}], "impls": []}}


INSTEAD = {"core::slice::edits::slice+T::copy_from_slice": copied_by_elements()}


class Instances:
    """The functions of some libraries, and the instances that are made of them."""

    def __init__(self, reader, uses=None):
        """`uses` has the crates that each crate uses."""
        self.reader, self.uses = reader, uses or {}
        self.forms, self.read_crates, self.types, self.impls = dict(INSTEAD), set(), {}, {}
        self.made, self.names, self.of = {}, {}, {}
        self.sources = {}  # what each instance is one of

    def read(self, path):
        """All of a library."""
        with open(path, encoding="utf-8") as file:
            for name, form in json.load(file):
                self.forms.setdefault(name, form)
                self.made.setdefault(name.replace("::", "_"), name)

    def plain(self):
        """The functions that have no parameters for types or traits."""
        return [name for name, form in self.forms.items() if not takes(form)]

    def form(self, name):
        """The form of a function, from the toolchain's library if it is one of those."""
        crate = name.split("::")[0]
        if name not in self.forms and crate not in self.read_crates:
            self.read_crates.add(crate)
            rt = shutil.which("rt")
            kit = os.path.dirname(os.path.dirname(os.path.realpath(rt))) if rt else ""
            path = os.path.join(kit, "rlibs", crate + ".rlib", "toolchain", "mir.json")
            if os.path.exists(path):
                self.read(path)
        if name not in self.forms:
            raise Refused("a function that is not there")
        return self.forms[name]

    def need(self, name):
        """Brings a function to the reader: a plain one by its own name, an instance by the name that it was given."""
        if name not in self.reader.functions:
            symbol, types, dicts = self.of.get(name, (name, [], []))
            form = self.form(symbol)
            if takes(form) != (len(types), len(dicts)) if takes(form) else types or dicts:
                raise Refused("it has parameters for types or traits" if takes(form) else "it takes no types")
            self.reader.add(name, Instance(self, name, form, types, dicts).form())

    # -- names

    def owner(self, symbol, types, asking):
        """The crate that an instance stands in: of its function's and its types' crates that which uses the others."""
        crates = {symbol.split("::")[0] if "::" in symbol else STD[0]} | {crate for ty in types for crate in self.crates_of(ty)}
        for crate in sorted(crates, key=self.floor, reverse=True):
            if crates <= {crate} | self.below(crate):
                return crate
        return asking

    def floor(self, crate):
        return (0, STD.index(crate), crate) if crate in STD else (1, len(self.below(crate)), crate)

    def below(self, crate):
        if crate in STD:
            return set(STD[:STD.index(crate)])
        made = set(STD)
        for other in self.uses.get(crate, []):
            made |= {other} | self.below(other)
        return made

    def crates_of(self, form):
        """The crates whose types a type has in it."""
        if isinstance(form, dict) and "Named" in form and form["Named"][0]["name"] in self.sources:
            yield form["Named"][0]["name"].split("::")[0]
        elif isinstance(form, dict):
            for part in form.values():
                yield from self.crates_of(part)
        elif isinstance(form, list):
            for part in form:
                yield from self.crates_of(part)

    def name(self, kind, symbol, types, dicts, asking):
        """The name of an instance, of a function or of a type."""
        key = json.dumps([kind, symbol, types, dicts])
        if key not in self.names:
            owner = self.owner(symbol, types, asking)
            path = symbol.split("::")
            words = [] if owner in STD or owner != path[0] else path[1:-1]
            if kind == "fn" and len(path) > 2 and path[-2][:1].isupper() and not words:
                words = [path[-2]]
            last = {"(,)": "Pair", "(,,)": "Triple"}.get(path[-1], path[-1])
            text = "::".join([owner] + words[:-1] + ["_".join(words[-1:] + [last] + [word(ty) for ty in types])])
            text = re.sub(r"[^\w:]+", "_", text)
            text = text if len(text) <= 60 else text[:56].rstrip("_:")
            made, more = text, 2
            while made.replace("::", "_") in self.made:
                made, more = "%s_%d" % (text, more), more + 1
            self.made[made.replace("::", "_")] = key
            self.names[key] = made
            self.sources[made] = symbol
            if kind == "fn":
                self.of[made] = (symbol, types, dicts)
        return self.names[key]

    def learn(self, form):
        """What a function says of the types and impls that it names."""
        for declared in form["types"]:
            self.types.setdefault(declared["name"], declared)
        for impl in form["generics"].get("impls", []):
            self.impls.setdefault(impl["name"], impl["methods"])

    # -- types

    def named(self, symbol, types, asking):
        """A declared type at its arguments: its name for the reader, who is told its shape."""
        declared = self.types.get(symbol)
        if declared is None or declared["type_params"] != len(types):
            raise Refused("%s is not declared for %d types" % (symbol, len(types)))
        name = self.name("type", symbol, types, [], asking) if types else symbol
        self.sources.setdefault(name, symbol)
        if name not in self.reader.shapes and name not in self.reader.declaring:
            self.reader.declaring.add(name)
            kind, parts = the_only(declared["shape"], "a type's shape")
            within = Instance(self, name, None, types, [])
            if kind == "Fields":
                parts = [within.type(part) for part in parts]
            elif kind == "Variants":
                parts = [[within.type(part) for part in fields] for fields in parts]
            self.reader.declare(dict(declared, name=name, type_params=0, const_params=[], shape={kind: parts}))
        return name


def takes(form):
    """How many types and dictionaries a function takes; nothing if it takes none."""
    counts = (len(form["generics"].get("types", [])), len(form["generics"].get("bounds", [])))
    return counts if any(counts) else None


def word(ty):
    """A type in a name."""
    if isinstance(ty, str):
        return ty.lower()
    kind, parts = the_only(ty, "a type")
    if kind == "Int":
        return "u%d" % parts
    if kind == "Float":
        return "f%d" % parts
    if kind == "Const":
        return str(parts)
    if kind == "Ref":
        return ("mut_" if parts[1] == "Mut" else "ref_") + word(parts[2])
    if kind == "Array":
        return "%s_%s" % (word(parts[0]), parts[1].get("Lit"))
    if kind == "Struct":
        return ("slice_mut_" if parts[1][0]["Ref"][1] == "Mut" else "slice_") + word(parts[1][0]["Ref"][2]) if parts[0] == "&[]" else "struct"
    if kind == "Named":
        path = parts[0]["name"].split("::")
        last = path[-1].split("+")[0] if path[-1].endswith("+Self") else path[-1]
        return last
    return kind.lower()


class Instance:
    """One function with types and dictionaries put in."""

    def __init__(self, all_, name, form, types, dicts):
        self.all, self.name, self.function, self.types, self.dicts = all_, name, form, types, dicts
        self.crate = name.split("::")[0]

    def form(self):
        form = self.function
        unknown = set(form) - {"lifetimes", "outlives", "params", "generics", "types", "locals", "body"}
        if unknown:
            raise Refused("a function with %s" % sorted(unknown))
        self.all.learn(form)
        return dict(form, generics={}, types=[], locals=[dict(local, ty=self.type(local["ty"])) for local in form["locals"]],
                    body=[self.statement(statement) for statement in form["body"]])

    # -- types

    def type(self, form):
        if isinstance(form, str):
            return form
        kind, parts = the_only(form, "a type")
        if kind == "Param":
            if parts >= len(self.types):
                raise Refused("a type's parameter that is not there")
            return self.types[parts]
        if kind == "Ref":
            return {kind: ["Erased", parts[1], self.type(parts[2])]}
        if kind == "Array":
            return {kind: [self.type(parts[0]), self.length(parts[1])]}
        if kind == "Struct":
            return {kind: [parts[0], [self.type(part) for part in parts[1]]]}
        if kind == "Named":
            return {kind: [{"name": self.all.named(parts[0]["name"], [self.type(part) for part in parts[1]], self.crate), "lifetimes": []}, []]}
        return form

    def length(self, form):
        if isinstance(form, dict) and "Param" in form:
            return {"Lit": self.number(form)}
        return form

    def number(self, form):
        made = self.type(form)
        if not isinstance(made, dict) or "Const" not in made:
            raise Refused("a number's parameter: %s" % json.dumps(made)[:200])
        return made["Const"]

    # -- what is called

    def dict(self, form):
        kind, parts = the_only(form, "a dictionary")
        if kind == "Given" and parts < len(self.dicts):
            return self.dicts[parts]
        if kind == "Impl":
            made = {kind: [parts[0], [self.type(ty) for ty in parts[1]], [self.dict(inner) for inner in parts[2]]]}
            return {kind: [NO_DROP, [], []]} if nothing(made) else made
        raise Refused("a dictionary: %s" % json.dumps(form)[:200])

    def called(self, form):
        """What is called, as a plain function; None if it does nothing."""
        kind, parts = the_only(form, "what is called")
        if kind == "Fn":
            symbol, types, dicts = parts[0], [], []
        elif kind == "Method":
            impl, types, dicts = the_only(self.dict(parts[0]), "a dictionary")[1]
            if impl == NO_DROP:
                return None
            methods = self.all.impls.get(impl)
            if methods is None or parts[1] >= len(methods):
                raise Refused("a method that %s has not" % impl)
            symbol = methods[parts[1]]
        else:
            return form
        if symbol.endswith(NO_DROP + "::drop"):
            return None
        own = parts[-1]
        types, dicts = types + [self.type(ty) for ty in own["types"]], dicts + [self.dict(inner) for inner in own["dicts"]]
        if types or dicts:
            symbol = self.all.name("fn", symbol, types, dicts, self.crate)
        return {"Fn": [symbol, NO_ARGUMENTS]}

    # -- the body

    def statement(self, form):
        if isinstance(form, str):
            return form
        kind, parts = the_only(form, "a statement")
        if kind == "Assign":
            return {kind: [self.place(parts[0]), self.value(parts[1])]}
        if kind == "Call":
            called = self.called(parts[0])
            return {kind: [called, [self.operand(x) for x in parts[1]], self.place(parts[2])]} if called else "Skip"
        if kind == "If":
            return {kind: self.operand(parts)}
        if kind == "Switch":
            return {kind: [self.operand(parts[0])] + parts[1:]}
        if kind == "LendStatic":
            return {kind: [self.place(parts[0]), self.type(parts[1]), parts[2]]}
        return form

    def place(self, form):
        return {"local": form["local"], "steps": [{"Deref": self.type(step["Deref"])} if "Deref" in step else step for step in form["steps"]]}

    def operand(self, form):
        if isinstance(form, str):
            return form
        kind, parts = the_only(form, "an operand")
        if kind == "Copy":
            return {kind: self.place(parts)}
        if kind == "NumOf":
            return {"Int": {"width": parts[0], "value": self.number(parts[1])}}
        if kind in ("SizeOf", "AlignOf"):
            reader = self.all.reader
            return {"Int": {"width": 64, "value": reader.size_and_alignment(reader.type(self.type(parts)))[kind == "AlignOf"]}}
        return form

    def value(self, form):
        kind, parts = the_only(form, "a value")
        if kind == "Opd":
            return {kind: self.operand(parts)}
        if kind == "AddrOf":
            return {kind: self.place(parts)}
        if kind == "Aggregate":
            return {kind: [self.operand(x) for x in parts]}
        if kind in ("Op1", "Op2"):
            return {kind: parts[:1] + [self.operand(x) for x in parts[1:]]}
        if kind == "Repeat":
            return {kind: [self.operand(parts[0]), self.length(parts[1])]}
        return form


def nothing(form):
    """Whether a dictionary says that nothing is done where a value ends."""
    kind, parts = the_only(form, "a dictionary")
    return kind == "Impl" and (parts[0].endswith("::" + NO_DROP) or parts[0] == NO_DROP or
                               parts[0] == "core::Destruct++array" and all(nothing(inner) for inner in parts[2]))
