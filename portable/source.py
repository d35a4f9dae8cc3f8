"""Names and comments from the source that lies beside the MIR, which has none: of parameters, variables, fields, variants and tables.

Nothing here decides what is computed. A name that can't be had is made up.
"""
import os
import re

TOKEN = re.compile(r"//[^\n]*|\"(?:\\.|[^\"\\])*\"|'(?:\\.|[^'\\])'|0x[0-9A-Fa-f_]+(?:[ui]\w+)?|\d[\d_]*(?:[ui]\w+)?|[^\W\d]\w*|::|->|=>|\S")
# The variants of std's enums, whose source does not lie here.
VARIANTS = {"core::option::Option": ["None", "Some"], "core::result::Result": ["Ok", "Err"], "core::cmp::Ordering": ["Less", "Equal", "Greater"],
            "core::ops::ControlFlow": ["Continue", "Break"]}
OPEN, CLOSE = {"(": ")", "[": "]", "{": "}"}, {")", "]", "}"}


class Item:
    """A function: its comment, the names of its parameters, and those that its body binds, in their order."""

    def __init__(self, comment, params, bound):
        self.comment, self.params, self.bound = comment, params, bound


class Each:
    """The names that a loop over elements binds; before their locals it has some without a name."""

    def __init__(self, names, counted):
        self.names, self.counted = names, counted

    def behind(self, types):
        """The names with None for each local before them, by the types of the locals from there on."""
        hidden = 0
        if len(types) > 1 and types[0][0] == "named" and types[0] == types[1]:
            hidden = 3      # the iterator, where it is kept, and what it gives
        else:
            lent = types[0][2] if types and types[0][0] == "ref" else types[0] if types else ("unit",)
            hidden += lent[0] == "array"
            hidden += not self.counted      # the index, which has a name in an enumeration
        return [None] * hidden + self.names


def named_locals(bound, types):
    """The names of the locals behind the parameters, or None, from what a body binds."""
    made = []
    for name in bound:
        made += name.behind(types[len(made):]) if isinstance(name, Each) else [name]
    return made


class Source:
    def __init__(self):
        self.functions, self.types, self.consts, self.crates = {}, {}, {}, {}

    def read(self, crate, folder):
        """All of a crate's source; the comment at its head is the crate's."""
        for name in sorted(os.listdir(folder)):
            if name.endswith(".rt"):
                with open(os.path.join(folder, name), encoding="utf-8") as file:
                    text = file.read()
                inside = crate if name in ("lib.rt", "main.rt") else crate + "::" + name[:-3]
                if inside == crate:
                    head = re.match(r"(?://[^\n]*\n)*", text).group()
                    self.crates[crate] = said(re.findall(r"//[^\n]*", head))
                Scan(self, inside, text).items()

    def function(self, name):
        """What is known of a function. A method may stand in another module than its type: then it is found by the names of both."""
        if name in self.functions:
            return self.functions[name]
        crate, *_, owner, last = name.split("::") if name.count("::") > 1 else [""] * 3
        found = [n for n in self.functions if n.startswith(crate + "::") and n.endswith("::%s::%s" % (owner, last))]
        return self.functions[found[0]] if len(found) == 1 else None

    def spread(self, sources):
        """An instance has the names and the comment of what it is one of."""
        for name, symbol in sources.items():
            if symbol in self.functions:
                self.functions.setdefault(name, self.functions[symbol])
            if symbol in self.types:
                self.types.setdefault(name, self.types[symbol])
            elif symbol in VARIANTS:
                self.types.setdefault(name, ("", "enum", [(variant, []) for variant in VARIANTS[symbol]]))


def said(comments):
    return " ".join(c[2:].strip() for c in comments).strip()


class Scan:
    def __init__(self, source, crate, text):
        self.source, self.crate = source, crate
        self.tokens, self.comments, gap = [], {}, []
        at = 0
        for match in TOKEN.finditer(text):
            word = match.group()
            if word.startswith("//"):
                lines = text.count("\n", at, match.start())
                if lines > 1 or not self.starts_line(text, match.start()):
                    gap = []
                if self.starts_line(text, match.start()):
                    gap.append(word)
            else:
                if gap and text.count("\n", at, match.start()) <= 1:
                    self.comments[len(self.tokens)] = said(gap)
                gap = []
                self.tokens.append(word)
            at = match.end()

    def starts_line(self, text, at):
        return text[text.rfind("\n", 0, at) + 1:at].strip() == ""

    def close(self, at):
        """The place behind the bracket that closes the one at a place."""
        depth = 0
        while True:
            if self.tokens[at] in OPEN:
                depth += 1
            elif self.tokens[at] in CLOSE:
                depth -= 1
                if depth == 0:
                    return at + 1
            at += 1

    def find(self, at, *words):
        """The next place of one of the words, outside brackets."""
        while self.tokens[at] not in words:
            at = self.close(at) if self.tokens[at] in OPEN else at + 1
        return at

    def items(self, at=0, end=None, path=None):
        path, end = path or self.crate, len(self.tokens) if end is None else end
        comment = ""
        while at < end:
            word = self.tokens[at]
            comment = self.comments.get(at, comment)
            if word == "#":
                at = self.close(at + 1)
            elif word in ("pub", "extern", "unsafe") or word.startswith('"'):
                at += 1
            elif word == "(":
                at = self.close(at)
            else:
                at = self.item(word, at, path, comment)
                comment = ""

    def item(self, word, at, path, comment):
        if word == "fn":
            return self.function(at, path, comment)
        if word in ("struct", "enum"):
            return self.type(word, at, path, comment)
        if word == "const":
            end = self.find(at, ";")
            start = self.find(at, "=")
            self.source.consts[path + "::" + self.tokens[at + 1]] = (comment, self.tokens[start + 1:end])
            return end + 1
        if word == "impl":
            start = self.find(at, "{")
            end = self.close(start)
            self.items(start + 1, end - 1, path + "::" + self.implementing(at + 1, start))
            return end
        end = self.find(at, ";", "{")
        return end + 1 if self.tokens[end] == ";" else self.close(end)

    def behind_angles(self, at):
        """The place behind what stands in angle brackets at a place, if something does."""
        if self.tokens[at] != "<":
            return at
        depth = 0
        while True:
            depth += (self.tokens[at] == "<") - (self.tokens[at] == ">")
            at += 1
            if depth == 0:
                return at

    def implementing(self, at, end):
        """What the toolchain puts before the methods of an impl: the type's name, and the trait's behind it if there is one."""
        names, at = [""], self.behind_angles(at)
        while at < end and self.tokens[at] != "where":
            if self.tokens[at] == "<":
                at = self.behind_angles(at)
                continue
            if self.tokens[at] == "for":
                names.append("")
            elif re.fullmatch(r"\w+", self.tokens[at]):
                names[-1] = self.tokens[at]
            at += 1
        return "".join(reversed(names))

    def names_in(self, at, end):
        """The names of fields or parameters between two places: each before a colon, outside brackets. Ghost ones are left out."""
        made = []
        while at < end:
            last = at
            depth = 0
            while last < end and (depth or self.tokens[last] != ","):
                word = self.tokens[last]
                depth += (word in OPEN or word == "<") - (word in CLOSE or word == ">")
                last += 1
            words = self.tokens[at:last]
            while words[:1] == ["#"]:
                words = words[words.index("]") + 1:]
            words = [w for w in words if w not in ("pub", "mut", "&")]
            if words and words[0] != "ghost":
                made.append((words[0], words[words.index(":") + 1:] if ":" in words else []))
            at = last + 1
        return made

    def type(self, word, at, path, comment):
        name = path + "::" + self.tokens[at + 1]
        start = self.find(self.behind_angles(at + 2), "{", "(", ";")
        if self.tokens[start] == ";":
            self.source.types[name] = (comment, word, [])
            return start + 1
        end = self.close(start)
        if word == "struct":
            fields = self.names_in(start + 1, end - 1) if self.tokens[start] == "{" else []
        else:
            fields, here = [], start + 1
            while here < end - 1:
                if self.tokens[here] == "#":
                    here = self.close(here + 1)
                    continue
                fields.append((self.tokens[here], []))
                here = self.find(here, ",") + 1 if "," in self.tokens[here:end - 1] else end
        self.source.types[name] = (comment, word, fields)
        return end + 1 if self.tokens[end:end + 1] == [";"] else end

    def function(self, at, path, comment):
        name = path + "::" + self.tokens[at + 1]
        start = self.find(self.behind_angles(at + 2), "(")
        end = self.close(start)
        params = self.names_in(start + 1, end - 1)
        at = end
        while self.tokens[at] not in ("{", ";"):
            if self.tokens[at] in ("requires", "ensures", "decreases"):
                at = self.close(self.find(at, "{"))
            else:
                at = self.close(at) if self.tokens[at] in OPEN else at + 1
        if self.tokens[at] == ";":
            return at + 1
        end = self.close(at)
        self.source.functions[name] = Item(comment, [p for p, _ in params], self.bound(at, end))
        return end

    def bound(self, at, end):
        """The names that a body binds: by let, for and the patterns of a match, in their order."""
        made = []
        while at < end:
            word = self.tokens[at]
            if word == "ghost":
                at = self.find(at, ";", "{")
                at = self.close(at) if self.tokens[at] == "{" else at + 1
                continue
            if word == "let":
                last = self.find(at + 1, "=", ";", ":") if self.tokens[at + 2] != "::" else self.find(at + 1, "=")
                made += names_of(self.tokens[at + 1:last])
            elif word == "for":
                of = self.find(at, "in")
                names, over = names_of(self.tokens[at + 1:of]), self.tokens[of + 1:self.find(of, "{")]
                made += names if self.counts(of + 1) else [Each(names, "enumerate" in over)]
            elif word == "=>":
                made += names_of(self.tokens[self.before(at):at])
            at += 1
        return made

    def counts(self, at):
        """Whether a loop goes over numbers from one to another, as they are."""
        while self.tokens[at] != "{":
            if self.tokens[at:at + 2] == [".", "."]:
                return True
            at = self.close(at) if self.tokens[at] in OPEN else at + 1
        return False

    def before(self, at):
        """Where the pattern begins that an arrow is behind."""
        at -= 1
        if self.tokens[at] in CLOSE:
            depth = 1
            while depth:
                at -= 1
                depth += (self.tokens[at] in CLOSE) - (self.tokens[at] in OPEN)
            at -= 1
        while self.tokens[at] not in ("{", "}", ",", "=>"):
            at -= 1
        return at + 1


def names_of(pattern):
    """The names that a pattern binds: no paths, no fields that are bound to something else, no numbers."""
    made = []
    for at, word in enumerate(pattern):
        after, before = pattern[at + 1:at + 2], pattern[at - 1:at] if at else []
        if re.fullmatch(r"[a-z]\w*", word) and word not in ("mut", "true", "false") and "::" not in after + before and after != [":"]:
            made.append(word)
    return made
