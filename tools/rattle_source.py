"""Reads Rattle source as far as a test of it needs: the functions of a module, their signatures and bodies as lists of tokens,
and whom they call. Comments, contracts and `ghost use` lines are left out. What could hide code from it is not read: `Unreadable`."""
import re
from dataclasses import dataclass, field

TOKEN = re.compile(
    r"""(?P<space>\s+|\#!\[tactic\(auto\)\]|\#\[derive\(Clone,\ Copy(?:,\ PartialEq,\ Eq)?\)\])
    |(?P<comment>//[^\n]*)
    |(?P<unread>/\*|--|\{-|["'`#])
    |(?P<number>\d\w*(?:\.\d\w*)?)
    |(?P<word>[^\W\d]\w*)
    |(?P<sign><<=|>>=|\.\.|<<|>>|->|::|&&|\|\||[-+*/%&|^=!<>]=|.)""",
    re.VERBOSE,
)
OPENING = {"(": ")", "[": "]", "{": "}"}
CLAUSES = {"requires", "ensures", "ghost"}
# Words that may stand before a bracket without calling anything.
KEYWORDS = {"if", "else", "return", "match", "let", "in", "as", "while", "loop", "for", "mut"}
# Words that begin an item; inside a body it could give a name another meaning.
ITEMS = {"fn", "use", "mod", "const", "static", "struct", "enum", "impl", "trait", "type", "extern", "unsafe", "ghost"}
WHOLE_TYPES = {f"{sign}{bits}" for sign in "iu" for bits in ("8", "16", "32", "64", "128", "size")}
OTHER_TYPES = {"f32", "f64", "bool"}


class Unreadable(Exception):
    """The source has something that this reader does not follow."""


@dataclass
class Function:
    signature: list
    body: list


@dataclass
class Module:
    functions: dict = field(default_factory=dict)
    imports: dict = field(default_factory=dict)
    constants: dict = field(default_factory=dict)
    modules: dict = field(default_factory=dict)
    types: dict = field(default_factory=dict)


def is_word(token):
    return token[:1].isalpha() or token[:1] == "_"


def tokens_of(text):
    """All tokens but spaces; comments stay, because a contract's text has none."""
    if "\r" in text:
        raise Unreadable("a carriage return is not followed")
    found = []
    for match in TOKEN.finditer(text):
        if match["unread"]:
            raise Unreadable(f"{match.group()} is not followed")
        if not match["space"]:
            found.append(match.group())
    return found


class Reader:
    """Goes through the tokens of one module, item by item."""

    def __init__(self, text):
        self.tokens = tokens_of(text)
        self.at = 0
        self.module = Module()

    def peek(self):
        while self.at < len(self.tokens) and self.tokens[self.at].startswith("//"):
            self.at += 1
        return self.tokens[self.at] if self.at < len(self.tokens) else ""

    def take(self, expected=None):
        token = self.peek()
        if not token or (expected is not None and token != expected):
            raise Unreadable(f"{token or 'the end'} stands where {expected or 'more'} is expected")
        self.at += 1
        return token

    def name(self):
        token = self.take()
        if not is_word(token):
            raise Unreadable(f"{token} is no name")
        return token

    def bracketed(self):
        """The tokens between a bracket and the one that closes it."""
        open_brackets, inside = [OPENING[self.take()]], []
        while True:
            token = self.take()
            if token == open_brackets[-1]:
                open_brackets.pop()
                if not open_brackets:
                    return inside
            elif token in OPENING:
                open_brackets.append(OPENING[token])
            elif token in OPENING.values():
                raise Unreadable(f"{token} closes nothing")
            inside.append(token)

    def until(self, ends):
        """The tokens up to one of these, which is not taken; brackets are taken whole."""
        found = []
        while self.peek() not in ends:
            if self.peek() in OPENING.values():
                raise Unreadable(f"{self.peek()} closes nothing")
            if self.peek() in OPENING:
                opening = self.peek()
                found += [opening, *self.bracketed(), OPENING[opening]]
            else:
                found.append(self.take())
        return found

    def skip(self, taking, where):
        """Leaves out text that is no Rattle: `//` is no comment there, so that one would hide where it ends."""
        start = self.at
        taking()
        if any(token.startswith("//") for token in self.tokens[start : self.at]):
            raise Unreadable(f"// inside {where}")

    def skip_clause(self):
        self.take()
        if self.peek() != "{":
            raise Unreadable("a contract stands in braces")
        self.skip(self.bracketed, "a contract")

    def define(self, table, name, value):
        module = self.module
        if any(name in names for names in vars(module).values()):
            raise Unreadable(f"{name} is named twice")
        if name in WHOLE_TYPES | OTHER_TYPES:
            raise Unreadable(f"{name} is a type of numbers")
        table[name] = value

    def function(self):
        name = self.name()
        if self.peek() != "(":
            raise Unreadable(f"{name} has something before its parameters")
        signature = self.until({"{", *CLAUSES, ""})
        if "{" in signature:
            raise Unreadable(f"{name} has a block in its signature")
        while self.peek() in CLAUSES:
            self.skip_clause()
        if self.peek() != "{":
            raise Unreadable(f"{name} has no body")
        body = self.bracketed()
        if not all(token.isascii() for token in [name, *signature, *body]):
            raise Unreadable(f"{name} has a sign beyond ASCII")
        self.define(self.module.functions, name, Function(signature, body))

    def import_line(self):
        path = self.until({";", ""})
        self.take(";")
        if any(token != "::" and not is_word(token) for token in path) or "as" in path or len(path) < 3:
            raise Unreadable("use with more than one plain path")
        self.define(self.module.imports, path[-1], path)

    def data_type(self):
        name = self.name()
        if self.peek() != "{" or {"{", "="} & set(self.bracketed()):
            raise Unreadable(f"{name} is more than a list of fields")
        self.define(self.module.types, name, None)

    def item(self):
        if self.peek() == "pub":
            self.take()
            if self.peek() == "(":
                self.bracketed()
        kind = self.take()
        if kind == "fn":
            self.function()
        elif kind == "use":
            self.import_line()
        elif kind == "ghost":
            self.take("use")
            self.skip(lambda: self.until({";", ""}), "a ghost use")
            self.take(";")
        elif kind == "mod":
            self.define(self.module.modules, self.name(), None)
            self.take(";")
        elif kind in ("struct", "enum"):
            self.data_type()
        elif kind == "const":
            name = self.name()
            self.define(self.module.constants, name, self.until({";", ""}))
            self.take(";")
        else:
            raise Unreadable(f"{kind} begins no item that is followed")

    def read(self):
        while self.peek():
            self.item()
        return self.module


def module_of(text):
    return Reader(text).read()


def calls_of(body):
    """The paths that a body calls, as lists of names; a method is a path that begins with a dot."""
    found = []
    for at, token in enumerate(body):
        before = body[at - 1] if at else ""
        if token in ITEMS:
            raise Unreadable(f"{token} inside a body")
        if token == "!" and is_word(before) and before not in KEYWORDS:
            raise Unreadable(f"{before}! is not followed")
        if token == "<" and before == "::":
            raise Unreadable("::< is not followed")
        if token != "(" or before in KEYWORDS:
            continue
        if before in {")", "]", "}", "::"}:
            raise Unreadable(f"a call after {before} is not followed")
        if before[:1].isdigit():
            raise Unreadable("a call of a number is not followed")
        if is_word(before):
            path = [before]
            start = at - 1
            while start >= 2 and body[start - 1] == "::":
                path.insert(0, body[start - 2])
                start -= 2
            method = start >= 1 and body[start - 1] in {".", "::"}
            found.append(["." + path[0], *path[1:]] if method else path)
    return found
