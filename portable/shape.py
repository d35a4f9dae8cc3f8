"""From the machine's statements to those that a person would write: variables told apart, values put where they are used, tables found.

Nothing is moved over a write that it could see: a value goes to the one place where it is used, if nothing in between writes to what it
reads. What the machine computes once is computed once, and what it does not compute is not computed.
"""
import copy

from mir import (AddrOf, Aggregate, Assign, Block, Call, Const, Deref, Exit, Field, FloatConst, If, Loop, Op1, Op2, Repeat, Return, Stuck,
                 Switch, Use, Variant, BOOL, UNIT)


class Var:
    """What one or more assignments to a local and the reads that they reach have in common."""

    def __init__(self, local, ty, addressed):
        self.local, self.ty, self.addressed = local, ty, addressed
        self.param = False      # the function is called with it
        self.given = None       # its name in the source
        self.name = None        # its name in C
        self.table = None       # the constant that it is, if it is never written again
        self.assigned = 0       # how many assignments
        self.read = 0           # how many reads
        self.partly = False     # a field of it is assigned
        self.value = None       # what is assigned, where that happens once


class And:
    """Both, the second looked at only if the first holds; Or is the same the other way round."""

    def __init__(self, word, a, b):
        self.word, self.a, self.b, self.ty = word, a, b, ("bool",)


class Compute:
    """A call for what it writes."""

    def __init__(self, value):
        self.value = value


class While:
    def __init__(self, cond, body, loop):
        self.cond, self.body, self.loop = cond, body, loop


def parts_of(e):
    """The values that a value is made of."""
    if isinstance(e, (Field, Variant, Deref, AddrOf)):
        return [e.of]
    if isinstance(e, Op1):
        return [e.a]
    if isinstance(e, (Op2, And)):
        return [e.a, e.b]
    if isinstance(e, Call):
        return e.args
    if isinstance(e, Aggregate):
        return e.items
    if isinstance(e, Repeat):
        return [e.item]
    return []


def with_parts(e, parts):
    """The same value of other parts."""
    if isinstance(e, (Field, Variant, Deref, AddrOf)):
        e.of, = parts
    elif isinstance(e, Op1):
        e.a, = parts
    elif isinstance(e, (Op2, And)):
        e.a, e.b = parts
    elif isinstance(e, Call):
        e.args = parts
    elif isinstance(e, Aggregate):
        e.items = parts
    elif isinstance(e, Repeat):
        e.item, = parts
    return e


def uses_of(e):
    if isinstance(e, Use):
        yield e
    for part in parts_of(e):
        yield from uses_of(part)


def base_of(place):
    """The local that a place is in, or the pointer's value that it is behind."""
    while isinstance(place, (Field, Variant)):
        place = place.of
    return place


def lists_in(statement):
    """The lists of statements within a statement."""
    if isinstance(statement, (Block, Loop, While)):
        return [statement.body]
    if isinstance(statement, If):
        return [statement.then, statement.other]
    if isinstance(statement, Switch):
        return [body for _, body in statement.arms] + ([statement.default] if statement.default is not None else [])
    return []


def values_in(statement):
    """The values of a statement, without those of the statements within; the place of an assignment first."""
    if isinstance(statement, Assign):
        return [statement.place, statement.value]
    if isinstance(statement, (If, While)):
        return [statement.cond]
    if isinstance(statement, Switch):
        return [statement.on]
    if isinstance(statement, (Return, Compute)):
        return [statement.value] if statement.value is not None else []
    return []


def all_statements(body):
    for statement in body:
        yield statement
        for inner in lists_in(statement):
            yield from all_statements(inner)


def all_values(body):
    for statement in all_statements(body):
        yield from values_in(statement)


def within(e):
    yield e
    for part in parts_of(e):
        yield from within(part)


# ---- variables


class Apart:
    """Tells the variables of a function apart: two assignments to a local belong together if one read can see both."""

    def __init__(self, function):
        self.function, self.parent, self.local_of, self.uses, self.exits = function, [], [], [], {}
        self.addressed = set()
        for e in all_values(function.body):
            for part in within(e):
                if isinstance(part, AddrOf) and isinstance(base_of(part.of), Use):
                    self.addressed.add(base_of(part.of).local)
        self.whole = {local: self.fresh(local) for local in sorted(self.addressed)}
        state = {local: frozenset([self.whole[local]]) for local in self.whole}
        for local in range(1, function.params + 1):
            state.setdefault(local, frozenset([self.fresh(local)]))
        self.entry = dict(state)
        self.run(function.body, state)
        self.variables = {}
        for use in self.uses:
            use.var = self.variable(use.var)
        self.params = [self.variable(next(iter(self.entry[local]))) for local in range(1, function.params + 1)]
        for var in self.params:
            var.param = True

    def fresh(self, local):
        self.parent.append(len(self.parent))
        self.local_of.append(local)
        return len(self.parent) - 1

    def find(self, d):
        while self.parent[d] != d:
            d = self.parent[d]
        return d

    def variable(self, d):
        d = self.find(d)
        if d not in self.variables:
            local = self.local_of[d]
            self.variables[d] = Var(local, self.function.locals[local], local in self.addressed)
        return self.variables[d]

    def see(self, use, state):
        seen = state.get(use.local)
        if not seen:
            seen = state[use.local] = frozenset([self.fresh(use.local)])
        first = min(seen)
        for d in seen:
            a, b = self.find(first), self.find(d)
            self.parent[max(a, b)] = min(a, b)
        if use.var is None:
            self.uses.append(use)
            use.var = first
        else:
            a, b = self.find(use.var), self.find(first)
            self.parent[max(a, b)] = min(a, b)

    def reads(self, e, state):
        for use in uses_of(e):
            self.see(use, state)

    def assign(self, place, state):
        if isinstance(place, Use) and place.local not in self.addressed:
            if place.var is None:
                place.var = self.fresh(place.local)
                self.uses.append(place)
            state[place.local] = frozenset([place.var])
        else:
            self.reads(place, state)

    def merged(self, a, b):
        if a is None or b is None:
            return dict(a or b) if a is not None or b is not None else None
        return {local: a.get(local, frozenset()) | b.get(local, frozenset()) for local in sorted(set(a) | set(b))}

    def run(self, body, state):
        """The state behind the statements, or None where none is reached."""
        for statement in body:
            if state is None:
                return None
            if isinstance(statement, Assign):
                self.reads(statement.value, state)
                self.assign(statement.place, state)
            elif isinstance(statement, If):
                self.reads(statement.cond, state)
                state = self.merged(self.run(statement.then, dict(state)), self.run(statement.other, dict(state)))
            elif isinstance(statement, Switch):
                self.reads(statement.on, state)
                ends = [self.run(inner, dict(state)) for inner in lists_in(statement)]
                state = None
                for end in ends:
                    state = self.merged(state, end)
            elif isinstance(statement, Block):
                self.exits[statement] = None
                state = self.run(statement.body, dict(state))
                state = self.merged(state, self.exits[statement])
            elif isinstance(statement, Loop):
                while True:
                    self.exits[statement] = None
                    end = self.run(statement.body, dict(state))
                    again = self.merged(self.merged(state, end), self.exits[statement])
                    if again == state:
                        break
                    state = again
                state = None
            elif isinstance(statement, Exit):
                self.exits[statement.target] = self.merged(self.exits[statement.target], state)
                return None
            elif isinstance(statement, Return):
                if statement.value.ty != UNIT:
                    self.reads(statement.value, state)
                return None
            elif isinstance(statement, Stuck):
                return None
            else:
                raise AssertionError(statement)
        return state


def reached(body):
    """The statements that can be reached, without those behind a jump or a loop that is not left."""
    made = []
    for statement in body:
        for inner in lists_in(statement):
            inner[:] = reached(inner)
        made.append(statement)
        if ends(statement):
            break
    return made


def leaves(body, target):
    return any(isinstance(s, Exit) and s.target is target for s in all_statements(body))


def ends(statement):
    """Whether nothing behind a statement is reached from it."""
    if isinstance(statement, (Exit, Return, Loop, Stuck)):
        return True
    if isinstance(statement, Block):
        return bool(statement.body) and ends(statement.body[-1]) and not leaves(statement.body, statement)
    if isinstance(statement, (If, Switch)):
        return all(inner and ends(inner[-1]) for inner in lists_in(statement))
    return False


def count(body):
    """How often each variable is assigned and read, and what is assigned."""
    for e in all_values(body):
        for use in uses_of(e):
            if use.var is not None:
                use.var.assigned = use.var.read = 0
                use.var.value = None
    for statement in all_statements(body):
        values = values_in(statement)
        if isinstance(statement, Assign):
            base = base_of(statement.place)
            if isinstance(statement.place, Use):
                statement.place.var.assigned += 1
                statement.place.var.value = statement.value if statement.place.var.assigned == 1 else None
                values = [statement.value]
            elif isinstance(base, Use):
                base.var.assigned += 1
                base.var.partly = True
                base.var.value = None
        for e in values:
            for use in uses_of(e):
                if use.var is not None:
                    use.var.read += 1


# ---- tables


class Tables:
    """Arrays that are constants: assigned once, from numbers, and never written through a reference."""

    def __init__(self, functions):
        self.functions, self.known = functions, {}

    def of_function(self, name):
        """What a function gives that has no parameters and does nothing but make an array of numbers."""
        if name not in self.known:
            self.known[name] = None
            function = self.functions.get(name)
            if function and function.params == 0 and all(isinstance(s, (Assign, Return)) for s in function.body):
                last = function.body[-1]
                if isinstance(last, Return):
                    self.known[name] = self.literal(last.value)
        return self.known[name]

    def literal(self, e):
        """A number or a list of them, or None."""
        if isinstance(e, Const):
            return e.value
        if isinstance(e, FloatConst):
            return ("float", e.pattern)
        if isinstance(e, Aggregate) and e.ty[0] == "array":
            items = [self.literal(item) for item in e.items]
            return None if any(item is None for item in items) else items
        if isinstance(e, Repeat):
            item = self.literal(e.item)
            return None if item is None else [item] * e.count
        if isinstance(e, Use) and e.ty[0] == "array" and e.var is not None and e.var.value is not None and not e.var.addressed:
            return None if e.var.param or e.var.partly else self.literal(e.var.value)
        if isinstance(e, Call) and e.ty[0] == "array" and not e.args:
            return self.of_function(e.name)
        return None

    def find(self, function):
        for var in {use.var for e in all_values(function.body) for use in uses_of(e) if use.var is not None}:
            if var.ty[0] == "array" and var.value is not None and not var.param and not var.partly:
                if not var.addressed or self.only_read(function, var, set()):
                    literal = self.literal(var.value)
                    if literal is not None and (var.addressed or any(flat(literal))):
                        var.table = literal

    def only_read(self, function, var, seen):
        """Whether no address that is taken of a variable, or counted on from its value, is written through or lent to be written."""
        if var in seen:
            return True
        seen.add(var)
        for statement in all_statements(function.body):
            for e in values_in(statement):
                if not any(use.var is var for use in uses_of(e)):
                    continue
                if isinstance(statement, Assign) and e is statement.place:
                    if not (isinstance(e, Use) and e.var is var):
                        return False
                elif isinstance(e, AddrOf) or isinstance(e, Op2) and e.op == "Offset":
                    to = statement.place
                    if not isinstance(to, Use) or to.var.addressed or to.var.partly:
                        return False
                    if to.ty[0] == "ptr" and not self.only_read(function, to.var, seen):
                        return False
                    if to.ty[0] == "ref" and to.ty[1]:
                        return False
                elif not isinstance(e, Deref) and var.ty[0] != "array":
                    return False
        return True


def flat(literal):
    """The numbers of a table, row after row."""
    if isinstance(literal, list):
        for item in literal:
            yield from flat(item)
    else:
        yield literal


# ---- what a value reads and a statement writes


class Effects:
    """Which functions write what their caller can see: those that are lent something to write, and those that ask the system."""

    def __init__(self, reader, foreign=()):
        self.reader, self.foreign, self.known = reader, set(foreign), {}

    def lends(self, ty):
        if ty[0] in ("ref", "slice"):
            return ty[1]
        if ty[0] == "ptr":
            return True
        if ty[0] == "array":
            return self.lends(ty[1])
        if ty[0] == "named":
            kind, parts = self.reader.shapes[ty[1]]
            return any(self.lends(t) for fields in ([parts] if kind == "struct" else parts) for t in fields)
        return False

    def writes(self, name):
        if self.asks(name):
            return True
        function = self.reader.functions[name]
        return any(self.lends(t) for t in function.locals[1:function.params + 1])

    def asks(self, name):
        """Whether a function asks the system, itself or through others."""
        if name in self.foreign:
            return True
        if name not in self.known:
            self.known[name] = False
            self.known[name] = any(self.asks(e.name) for value in all_values(self.reader.functions[name].body) for e in within(value)
                                   if isinstance(e, Call))
        return self.known[name]

    def value_writes(self, e):
        return any(isinstance(part, Call) and self.writes(part.name) for part in within(e))

    def reads_memory(self, e):
        """Whether a value depends on what lies behind a pointer, or in a variable whose address is taken."""
        if isinstance(e, AddrOf):
            return self.address_reads(e.of)
        if isinstance(e, Use):
            return e.var is not None and e.var.addressed and e.var.table is None
        if isinstance(e, Deref):
            return True
        if isinstance(e, Call) and any(self.points(a.ty) for a in e.args):
            return True
        return any(self.reads_memory(part) for part in parts_of(e))

    def points(self, ty):
        if ty[0] == "named":
            kind, parts = self.reader.shapes[ty[1]]
            return any(self.points(t) for fields in ([parts] if kind == "struct" else parts) for t in fields)
        return ty[0] in ("ref", "ptr", "slice") or ty[0] == "array" and self.points(ty[1])

    def address_reads(self, place):
        base = base_of(place)
        return isinstance(base, Deref) and self.reads_memory(base.of)


# ---- values to where they are used


class Fold:
    """Puts the value of a variable that has no name in the source, is assigned once and read once, where it is read."""

    def __init__(self, effects, bulky):
        self.effects, self.bulky = effects, bulky

    def whole(self, value):
        """Whether a value is made in a place of its own: what is handed over by its address, and a slice that a call gives."""
        if not isinstance(value, (Call, Aggregate, Repeat)):
            return False
        return self.bulky(value.ty) or value.ty[0] == "slice" and isinstance(value, Call)

    def fields(self, value):
        """Where a whole value can stand: as all that is computed, or as a field of a struct that is."""
        yield value
        if isinstance(value, Aggregate) and value.ty[0] == "named":
            for item in value.items:
                yield from self.fields(item)

    def body(self, body):
        made, waiting, hot = [], {}, []

        def out(statement):
            while hot:
                var, value = hot.pop()
                made.append(Assign(self.use(var), value))
            if statement is not None:
                made.append(statement)

        def settle(test):
            for var in [v for v in waiting if test(v, waiting[v])]:
                value = waiting.pop(var)
                out(Assign(self.use(var), value))

        def put(e, top=True):
            """The value with those that wait for it; a whole one that can't stand there is settled before."""
            if top:
                fits = {id(f) for f in self.fields(e)}
                odd = {u.var for u in uses_of(e) if u.var in waiting and self.whole(waiting[u.var]) and id(u) not in fits}
                settle(lambda v, value: v in odd)
            if isinstance(e, Use) and e.var in waiting:
                return waiting.pop(e.var)
            return with_parts(e, [put(part, False) for part in parts_of(e)])

        def is_hot(e):
            return bool(hot) and isinstance(e, Use) and e.var is hot[0][0]

        def cool(e):
            """The value of a call that writes, if it is all that the next statement computes."""
            if is_hot(e):
                return hot.pop()[1]
            if isinstance(e, Op1) and e.op == "Not" and is_hot(e.a):
                return with_parts(e, [hot.pop()[1]])
            out(None)
            return e

        for statement in body:
            if isinstance(statement, Assign):
                if statement.place.ty == UNIT:
                    if isinstance(statement.value, Call):
                        value = put(statement.value)
                        settle(lambda v, e: self.effects.reads_memory(e))
                        out(Compute(value))
                    continue
                place = statement.place if isinstance(statement.place, Use) else put(statement.place)
                if isinstance(place, Use) and place.var.table is not None:
                    continue
                simple = isinstance(place, Use) and not place.var.addressed
                if is_hot(statement.value) and (simple or not self.effects.address_reads(place)):
                    value = hot.pop()[1]
                    settle(lambda v, e: self.effects.reads_memory(e))
                else:
                    value = put(statement.value)
                writes = self.effects.value_writes(value)
                if simple and self.foldable(place.var, value):
                    if writes:
                        settle(lambda v, e: self.effects.reads_memory(e))
                        out(None)
                        hot.append((place.var, value))
                    else:
                        if hot and self.effects.reads_memory(value) or any(is_hot(use) for use in uses_of(value)):
                            out(None)
                        waiting[place.var] = value
                    continue
                base = base_of(place)
                if isinstance(base, Use):
                    settle(lambda v, e: any(use.var is base.var for use in uses_of(e)))
                if writes or isinstance(base, Deref) or base.var.addressed:
                    settle(lambda v, e: self.effects.reads_memory(e))
                out(Assign(place, value))
                continue
            if isinstance(statement, (If, Switch)):
                name = "cond" if isinstance(statement, If) else "on"
                value = cool(put(getattr(statement, name)))
                setattr(statement, name, value)
                settle(lambda v, e: True)
            elif isinstance(statement, Return):
                if statement.value is None or statement.value.ty == UNIT:
                    statement.value = None
                    out(None)
                else:
                    statement.value = cool(put(statement.value))
                settle(lambda v, e: True)
            elif isinstance(statement, Compute):
                statement.value = put(statement.value)
                settle(lambda v, e: self.effects.reads_memory(e))
            elif isinstance(statement, While):
                settle(lambda v, e: True)
            else:
                settle(lambda v, e: True)
            out(None)
            for inner in lists_in(statement):
                inner[:] = self.body(inner)
            out(statement)
        settle(lambda v, e: True)
        out(None)
        return made

    def foldable(self, var, value):
        """What has a name keeps its own variable, but for what is large."""
        return (var.given is None or self.whole(value) and var.ty[0] != "slice") and not var.param and var.assigned == 1 and var.read == 1

    def use(self, var):
        made = Use(var.local, var.ty)
        made.var = var
        return made


def settled(body, effects):
    """Drops assignments to variables that are not read; a call is kept for what it writes."""
    made = []
    for statement in body:
        for inner in lists_in(statement):
            inner[:] = settled(inner, effects)
        if isinstance(statement, Assign) and isinstance(statement.place, Use) and not statement.place.var.addressed:
            if statement.place.var.read == 0:
                if effects.value_writes(statement.value):
                    made.append(Compute(statement.value))
                continue
        made.append(statement)
    return made


# ---- statements as a person writes them


def negated(e):
    if isinstance(e, Op1) and e.op == "Not" and e.ty == BOOL:
        return e.a
    if isinstance(e, And):
        return And("||" if e.word == "&&" else "&&", negated(e.a), negated(e.b))
    return Op1("Not", None, e, BOOL)


def joined(body):
    """`a` and then `b` where `a` holds, both into one variable: a && b, or a || b."""
    made = []
    for statement in body:
        for inner in lists_in(statement):
            inner[:] = joined(inner)
        before = made[-1] if made else None
        if isinstance(statement, If) and isinstance(statement.cond, Use) and isinstance(before, Assign) and isinstance(before.place, Use):
            var = before.place.var
            if statement.cond.var is var and not var.addressed and var.given is None:
                for inner, other, word in ((statement.then, statement.other, "&&"), (statement.other, statement.then, "||")):
                    if not other and len(inner) == 1 and isinstance(inner[0], Assign) and isinstance(inner[0].place, Use):
                        if inner[0].place.var is var and not any(use.var is var for use in uses_of(inner[0].value)):
                            before.value = And(word, before.value, inner[0].value)
                            break
                else:
                    made.append(statement)
                continue
        made.append(statement)
    return made


def sunk(body):
    """Where every way through a statement ends in an assignment to what is then returned, returns there."""
    for statement in body:
        for inner in lists_in(statement):
            inner[:] = sunk(inner)
    if len(body) >= 2 and isinstance(body[-1], Return) and isinstance(body[-1].value, Use):
        var = body[-1].value.var
        if isinstance(body[-2], (If, Switch)) and not var.addressed and not var.param and gives(body[-2], var):
            give(body[-2], var)
            body.pop()
    return body


def gives(statement, var):
    return all(inner and (ends(inner[-1]) or gives_last(inner, var)) for inner in lists_in(statement)) and any(
        gives_last(inner, var) for inner in lists_in(statement))


def gives_last(body, var):
    last = body[-1] if body else None
    if isinstance(last, Assign):
        return isinstance(last.place, Use) and last.place.var is var
    return isinstance(last, (If, Switch)) and gives(last, var)


def give(statement, var):
    for inner in lists_in(statement):
        if not ends(inner[-1]):
            if isinstance(inner[-1], Assign):
                inner[-1] = Return(inner[-1].value)
            else:
                give(inner[-1], var)


def copied(e):
    """The same value once more."""
    if isinstance(e, Use):
        made = Use(e.local, e.ty)
        made.var = e.var
        return made
    return with_parts(copy.copy(e), [copied(part) for part in parts_of(e)])


def updated(body):
    """A pointer that is counted on to one place, which is then read and written at once, is written out in both."""
    made = []
    for statement in body:
        for inner in lists_in(statement):
            inner[:] = updated(inner)
        before = made[-1] if made else None
        if isinstance(statement, Assign) and isinstance(statement.place, Deref) and isinstance(statement.place.of, Use):
            var = statement.place.of.var
            if isinstance(before, Assign) and isinstance(before.place, Use) and before.place.var is var and var.ty[0] == "ptr":
                reads = [e for e in within(statement.value) if isinstance(e, Deref) and isinstance(e.of, Use) and e.of.var is var]
                if var.assigned == 1 and var.read == 2 and len(reads) == 1:
                    statement.place.of = before.value
                    reads[0].of = copied(before.value)
                    made.pop()
        made.append(statement)
    return made


def without_last(body, target):
    """Without jumps to the end of a block from where the end comes anyway."""
    if body and isinstance(body[-1], Exit) and body[-1].target is target:
        body.pop()
    if body and isinstance(body[-1], (If, Switch)):
        for inner in lists_in(body[-1]):
            without_last(inner, target)


def same_jump(a, b):
    """Whether two lists do the same, and no more than jump or nothing."""
    if not a and not b:
        return True
    return len(a) == len(b) == 1 and isinstance(a[0], Exit) and isinstance(b[0], Exit) and a[0].target is b[0].target


def without_skip(body, target):
    """A test that jumps over the rest of a block becomes one of the rest."""
    for at, statement in enumerate(body):
        if isinstance(statement, If):
            for jump, other, cond in ((statement.then, statement.other, negated(statement.cond)), (statement.other, statement.then, statement.cond)):
                if same_jump(jump, [Exit(target)]):
                    rest = without_skip(other + body[at + 1:], target)
                    return body[:at] + [If(cond, rest, [])]
    return body


def straightened(body):
    """Tests within tests become one where they can; blocks that nothing leaves are no blocks."""
    made = []
    for statement in body:
        if isinstance(statement, Block):
            without_last(statement.body, statement)
        for inner in lists_in(statement):
            inner[:] = straightened(inner)
        if isinstance(statement, Block) and not (len(statement.body) == 1 and isinstance(statement.body[0], Loop)):
            without_last(statement.body, statement)
            statement.body = without_skip(statement.body, statement)
        while isinstance(statement, If):
            inner = statement.then[0] if len(statement.then) == 1 else None
            if isinstance(inner, If) and same_jump(inner.other, statement.other):
                statement.cond, statement.then = And("&&", statement.cond, inner.cond), inner.then
                continue
            inner = statement.other[0] if len(statement.other) == 1 else None
            if isinstance(inner, If) and same_jump(inner.then, statement.then):
                statement.cond, statement.other = And("||", statement.cond, inner.cond), inner.other
                continue
            break
        if isinstance(statement, Block) and not leaves(statement.body, statement):
            made += statement.body
        else:
            made.append(statement)
    return made


def turned(body):
    """Loops that begin with a test become while loops; an empty branch goes, and one behind a jump stands behind its statement."""
    made = []
    for statement in body:
        made.append(statement)
        if isinstance(statement, If):
            if not statement.then:
                statement.cond, statement.then, statement.other = negated(statement.cond), statement.other, []
            if statement.then and statement.other and ends(statement.then[-1]):
                made += turned(statement.other)
                statement.other = []
        for inner in lists_in(statement):
            inner[:] = turned(inner)
        if isinstance(statement, Block) and len(statement.body) == 1 and isinstance(statement.body[0], Loop):
            loop = statement.body[0]
            first = loop.body[0] if loop.body else None
            if isinstance(first, If) and not first.other and len(first.then) == 1:
                out = first.then[0]
                if isinstance(out, Exit) and out.target is statement:
                    statement.body[0] = While(negated(first.cond), loop.body[1:], loop)
    return made


def shaped(function, effects, names, bulky):
    """The body of a function, ready to be written. `names` are those of the source for the locals behind the parameters."""
    body = reached(function.body)
    for use in {use for e in all_values(body) for use in uses_of(e)}:
        if use.var is not None and use.local > function.params and use.local - function.params <= len(names):
            use.var.given = names[use.local - function.params - 1]
    fold = Fold(effects, bulky)
    for _ in range(4):
        count(body)
        body = fold.body(settled(body, effects))
        count(body)
        body = joined(body)
    count(body)
    body = sunk(body)
    count(body)
    body = fold.body(body)
    count(body)
    return turned(straightened(reached(updated(body))))
