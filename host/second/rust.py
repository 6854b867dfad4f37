"""A Rattle source file as Rust. Only the forms that the sources use are known here; another one stops it with its file and line."""
import re

import calls

TOKEN = re.compile(r"""(?P<space>\s+|//[^\n]*) | (?P<quoted>b?"(?:\\.|[^"\\])*" | b?'(?:\\.|[^'\\])') | (?P<lifetime>'[a-z_]\w*)
    | (?P<number>\d\w*(?:\.\d\w*)?) | (?P<word>[A-Za-z_]\w*) | (?P<mark>::|->|=>|[!-~])""", re.X | re.A)
CLAUSES = ("requires", "ensures")
# the line of a root file that has the check try its tactics
TACTICS = "#![tactic(auto)]"
KNOWN = set("""as break const continue crate else enum extern false fn for if impl in let loop match mod move mut pub return self struct true type use
    while""".split())
# The other words of Rust, and those that Rattle could have of its own: none of them is known to mean the same in both.
UNKNOWN = set("""Self abstract async await become box decreases do dyn final ghost invariant macro measure override priv proof ref static
    super trait try typeof union unsized virtual where yield""".split())
# The macros of Rattle that are Rust's.
MACROS = ("matches",)
# What stands in an attribute's brackets, and the items that may have it.
ATTRIBUTES = {"repr": "(C)", "derive": "(Clone,Copy)", "unsafe": "(no_mangle)"}
ITEMS = {"": ("mod", "use", "const", "type", "struct", "enum", "impl", "fn"), "repr": ("struct",), "derive": ("struct", "enum"), "unsafe": ("fn",)}
NUMBERS = ("u8", "u16", "u32", "u64", "usize")
VALUES = {"self", "true", "false"}
BITS = ("count_ones", "leading_zeros", "trailing_zeros")


class Token:
    def __init__(self, kind, text, line):
        self.kind, self.text, self.line = kind, text, line
        self.out = text


class File:
    """One source file: its tokens without spaces are `code`; what each token is written as is its `out`."""

    def __init__(self, crate, name, uses):
        self.crate, self.uses = crate, uses
        self.path = "crates/%s/src/%s.rt" % (crate, name)
        self.module = "::".join(["crate", crate] + ([] if name == "lib" else name.split("/")))
        self.functions, self.structs, self.at = [], [], 0
        self.tokens = self.lexed(calls.read(self.path))
        self.code = [token for token in self.tokens if token.kind != "space"]
        self.modules = [b.text for a, b in zip(self.code, self.code[1:]) if a.text == "mod"]
        while self.at < len(self.code):
            self.item()

    def refuse(self, line, why):
        raise SystemExit("%s:%d: %s has no form here" % (self.path, line, why))

    def lexed(self, text):
        """Clauses and `ghost use` items are one token each, since their text is not Rattle's; the line of the tactics goes too."""
        found, at, line = [], 0, 1
        while at < len(text):
            match = TOKEN.match(text, at)
            if not match:
                self.refuse(line, "the character %r" % text[at])
            kind, part = match.lastgroup, match[0]
            if text.startswith(TACTICS, at) and all(token.kind == "space" for token in found):
                kind, part = "space", TACTICS
            elif kind == "word" and part in CLAUSES:
                kind, part = "clause", self.clause(text, at, line)
            elif kind == "word" and part == "ghost":
                kind, part = "space", self.ghost(text, at, line)
                # a ghost field may be public: the word goes with it
                for before in reversed(found):
                    if before.kind != "space":
                        if before.text == "pub":
                            before.kind, before.out = "space", ""
                        break
            elif kind == "word" and part in UNKNOWN:
                self.refuse(line, "the word `%s`" % part)
            found.append(Token(kind, part, line))
            if kind in ("clause", "space") and not part.isspace():
                found[-1].out = "\n" * part.count("\n")
            at, line = at + len(part), line + part.count("\n")
        return found

    def ghost(self, text, start, line):
        """A `ghost use` item, or a ghost field or member with the mark that ends it."""
        use = re.compile(r"ghost use [^;]*;").match(text, start)
        if use:
            return use[0]
        part = self.braced(text, start, line, r"ghost \w+(?::| =) \{", "a ghost item")
        if text[start + len(part)] not in ",;":
            self.refuse(line, "a ghost item without an end")
        return part + text[start + len(part)]

    def clause(self, text, start, line):
        return self.braced(text, start, line, r"\w+(?: \w+)? \{", "a clause")

    def braced(self, text, start, line, head, what):
        opened = re.compile(head).match(text, start)
        if not opened:
            self.refuse(line, what + " without braces")
        at, depth = opened.end(), 1
        while depth and at < len(text):
            depth += {"{": 1, "}": -1}.get(text[at], 0)
            at += 1
        part = text[start:at]
        if depth or '"' in part or "//" in part:
            self.refuse(line, what + " with open braces, a text or a comment")
        return part

    def here(self):
        if self.at == len(self.code):
            self.refuse(self.code[-1].line, "the end of the file")
        return self.code[self.at]

    def take(self, *texts):
        """The next token, which is one of these, or of any text where none is named."""
        token = self.here()
        if texts and token.text not in texts:
            self.refuse(token.line, "`%s`, where `%s` is expected," % (token.text, "` or `".join(texts)))
        if token.kind == "clause":
            self.refuse(token.line, "a clause outside a function's head")
        self.at += 1
        return token

    def attributes(self):
        """The first words of the attributes that stand here."""
        found = []
        while self.here().text == "#":
            if self.code[self.at + 2].text == "tactic":
                self.tactic()
                continue
            self.take("#")
            self.take("[")
            found.append(self.take(*ATTRIBUTES).text)
            for text in re.findall(r"\w+|\W", ATTRIBUTES[found[-1]]):
                self.take(text)
            self.take("]")
        return found

    def tactic(self):
        """The attribute that says how the check proves an item is no Rust."""
        while True:
            token = self.take()
            token.out = ""
            if token.text == "]":
                return

    def item(self):
        start = self.at
        attributes = self.attributes()
        end = self.at
        if self.here().text == "pub":
            self.take("pub")
            if self.here().text == "(":
                self.take("(")
                self.take("crate").out = "in crate::" + self.crate
                self.take(")")
        if "unsafe" in attributes:
            self.exported(self.code[start:end])
        token = self.take(*[it for it in ITEMS[""] if all(it in ITEMS[x] for x in attributes)])
        if token.text in ("struct", "enum"):
            if "repr" in attributes:
                self.structs.append(self.here().text)
            self.through(";", "}")
        elif token.text == "fn":
            self.function()
        elif token.text == "impl":
            self.head()
            if self.here().text == "for":
                self.take("for")
                self.head()
            self.take("{")
            while self.here().text != "}":
                self.item()
            self.take("}")
        else:
            self.through(";")

    def head(self):
        """A type in the head of an `impl`."""
        while self.here().text not in ("for", "{"):
            if self.here().text in ("(", "["):
                self.block()
            else:
                self.word()

    def exported(self, attribute):
        """A call of crate rdram: here a plain function, over which `exports` puts the C call."""
        if self.crate != "rdram":
            self.refuse(self.here().line, "an export of another crate than rdram")
        for token in attribute + [self.take("extern"), self.take('"C"')]:
            token.out = ""

    def function(self):
        name = self.take()
        self.functions.append(name.text)
        while self.here().kind != "clause" and self.here().text != "{":
            if self.here().text in ("(", "["):
                self.block()
            else:
                self.word()
        while self.here().kind == "clause":
            self.at += 1
        if self.here().text != "{":
            self.refuse(self.here().line, "`%s` after the clauses of `%s`" % (self.here().text, name.text))
        self.block()

    def through(self, *ends):
        """Up to the first of these marks that stands outside brackets or closes one."""
        while True:
            token = self.here()
            if token.text in ("(", "[", "{"):
                self.block()
                if token.text == "{" and "}" in ends:
                    return
            else:
                self.word()
                if token.text in ends:
                    return

    def block(self):
        end = {"(": ")", "[": "]", "{": "}"}[self.take("(", "[", "{").text]
        while self.here().text != end:
            if self.here().text in ("(", "[", "{"):
                self.block()
            else:
                self.word()
        self.take(end)

    def word(self):
        """One token of a body, a head or a type, written as Rust has it."""
        token, at = self.take(), self.at - 1
        after = [word.text for word in self.code[self.at:self.at + 4]] + [""] * 4
        if token.text in ("#", "fn", "struct", "enum", "impl", "use", "mod", "extern", "unsafe", ")", "]", "}"):
            self.refuse(token.line, "`%s` inside an item" % token.text)
        if token.kind != "word":
            return
        if after[0] == "!" and after[1] != "=" and token.text not in KNOWN and token.text not in MACROS:
            self.refuse(token.line, "the macro `%s!`" % token.text)
        if token.text == "as":
            self.cast(at)
        elif after[0] == "::" and self.code[at - 1].text not in ("::", "."):
            self.path_start(token, after)

    def path_start(self, token, after):
        if token.text == "crate":
            token.out = "crate::" + self.crate
        elif token.text in self.modules and token.text not in self.uses:
            pass
        elif token.text in self.uses and token.text not in self.modules:
            token.out = "crate::" + token.text
        elif token.text == "std":
            wrapping = re.fullmatch(r"wrapping_(add|sub)_(u\d+|usize)", after[3])
            if after[:3] != ["::", "num", "::"] or not wrapping:
                self.refuse(token.line, "`std%s`" % "".join(after))
            token.out = wrapping[2]
            for i in range(3):
                self.take().out = "::" if i == 0 else ""
            self.take().out = "wrapping_" + wrapping[1]
        elif not (token.text[0].isupper() or token.text in NUMBERS and after[1] in BITS + ("from",)):
            self.refuse(token.line, "a path from `%s`" % token.text)

    def cast(self, at):
        """`x as T` to a call that panics where x has no such value."""
        kind = self.take(*NUMBERS, "f32")
        start = self.operand(at - 1)
        self.code[start].out = "crate::casts::%s(%s" % ("to_f32" if kind.text == "f32" else "to::<%s, _>" % kind.text, self.code[start].out)
        self.code[at].out, kind.out = ")", ""

    def ends_value(self, at):
        token = self.code[at]
        return token.kind == "number" or token.text in (")", "]") or token.kind == "word" and token.text not in KNOWN - VALUES

    def operand(self, at):
        """Where the operand of a cast starts whose last token is at `at`: a name, a number or a bracket, with what it is applied to."""
        while True:
            if not self.ends_value(at):
                self.refuse(self.code[at].line, "a cast of what ends with `%s`" % self.code[at].text)
            bracket = self.code[at].text in (")", "]")
            if bracket:
                at = self.opened(at)
            if bracket and self.ends_value(at - 1):
                at -= 1
            elif self.code[at - 1].text in (".", "::"):
                at -= 2
            else:
                break
        before = self.code[at - 1]
        if before.text in ("!", "as") or before.text in ("*", "&", "-") and not self.ends_value(at - 2):
            self.refuse(before.line, "a cast of what starts with `%s`" % before.text)
        return at

    def opened(self, at):
        """Where the bracket opens that is closed at `at`."""
        depth = 1
        while depth:
            at -= 1
            depth += {")": 1, "]": 1, "}": 1, "(": -1, "[": -1, "{": -1}.get(self.code[at].text, 0)
        return at

    def written(self):
        return "".join(token.out for token in self.tokens)
