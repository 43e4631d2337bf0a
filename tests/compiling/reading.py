"""A reader of the C that is printed, from its text alone: structs, and functions as trees.

A type is a word of SCALARS or `void`, or ("struct", name), ("array", of, count) or ("pointer", to, whether that is const). An expression is
a tuple that begins with its kind: number, true or false ("truth"), name, member, at, deref, address, not, cast, binary, choice, call,
braces, compound. A command is one too: block, declare, assign, call, if, for, return. What isn't one of these is refused, so that nothing
is passed over.
"""
import re
from dataclasses import dataclass, field

SCALARS = {"bool": "bool", "int64_t": "i64", "uint64_t": "u64", "uint32_t": "u32", "uint8_t": "u8", "void": "void"}
LITERALS = {"INT64_C": "i64", "UINT64_C": "u64", "UINT32_C": "u32", "UINT8_C": "u8"}
NAMED = {"INT64_MIN": (-(2**63), "i64")}
TOKEN = re.compile(r"\s*(?:(\d+(?!\w))|([A-Za-z_]\w*)|(->|\+\+|<=|==|&&|\|\||[-+*%<=!&?:;,.(){}\[\]]))")
LEVELS = [["||"], ["&&"], ["=="], ["<", "<="], ["+", "-"], ["*", "%"]]
DEFINED = re.compile(r"#define (\w+)(?:\((\w+)\))?(?: (.*))?")


class Unread(Exception):
    """What this reader doesn't know."""


@dataclass
class Function:
    """A function: what it answers, its parameters as pairs of type and name, and its body."""

    result: object
    parameters: list
    body: tuple


@dataclass
class Program:
    """The structs, each with its members' types by name, the functions, and what the text defines as what, by name: a parameter or None,
    and tokens."""

    structs: dict = field(default_factory=dict)
    functions: dict = field(default_factory=dict)
    defined: dict = field(default_factory=dict)

    def meant(self, name):
        """The name that a defined name stands for."""
        return self.defined[name][1][0]


def tokens_of(text):
    """The words and signs of a text without comments."""
    found, at, text = [], 0, text.rstrip()
    while at < len(text):
        match = TOKEN.match(text, at)
        if not match:
            raise Unread(f"{text[at : at + 40]!r}")
        found.append(match[0].strip())
        at = match.end()
    return found


def preprocessed(text):
    """What a compiler of C sees, which isn't of C++ nor clang's: tokens in which all that is defined has its place, and what is defined."""
    defined, seen, kept = {}, [True], []
    for line in re.sub(r"/\*.*?\*/", " ", text, flags=re.S).splitlines():
        word, _, rest = line.partition(" ")
        if word in ("#ifdef", "#ifndef"):
            seen.append(seen[-1] and (rest in defined) == (word == "#ifdef"))
        elif word == "#else":
            seen.append(not seen.pop() and seen[-1])
        elif word == "#endif":
            seen.pop()
        elif word == "#define" and seen[-1]:
            name, parameter, tokens = DEFINED.fullmatch(line.rstrip()).groups()
            defined[name] = parameter, tokens_of(tokens or "")
        elif seen[-1] and not line.startswith("#"):
            kept.append(line)
    return expanded(tokens_of("\n".join(kept)), defined), defined


def expanded(tokens, defined):
    """The tokens with what is defined in the place of its name."""
    found, at = [], 0
    while at < len(tokens):
        parameter, made = defined.get(tokens[at], (None, None))
        if made is None:
            found.append(tokens[at])
        else:
            if parameter:
                end = closing(tokens, at + 1)
                given = tokens[at + 2 : end]
                made = [one for token in made for one in (given if token == parameter else [token])]
                at = end
            found += expanded(made, defined)
        at += 1
    return found


def closing(tokens, at):
    """Where the parenthesis is closed that stands there."""
    depth = 0
    for end in range(at, len(tokens)):
        depth += {"(": 1, ")": -1}.get(tokens[end], 0)
        if not depth:
            return end
    raise Unread("a parenthesis isn't closed")


class Reader:
    """Reads tokens from the first to the last."""

    def __init__(self, text):
        tokens, defined = preprocessed(text)
        self.tokens, self.at, self.program, self.named = [*tokens, "", ""], 0, Program(defined=defined), dict(SCALARS)

    # ---- tokens

    def next_is(self, *words):
        return self.tokens[self.at] in words

    def take(self):
        self.at += 1
        return self.tokens[self.at - 1]

    def want(self, word):
        if self.take() != word:
            raise Unread(f"{word} is wanted in {' '.join(self.tokens[self.at - 8 : self.at + 8])}")

    def has(self, word):
        if self.next_is(word):
            self.at += 1
            return True
        return False

    def listed(self, read, end):
        """What stands between commas, up to this end."""
        found = []
        while not self.has(end):
            if found:
                self.want(",")
            found.append(read())
        return found

    # ---- types and declarations

    def begins_type(self):
        return self.next_is("const", "struct") or self.tokens[self.at] in self.named

    def base_type(self):
        """A type without stars, and whether it is const."""
        is_const = self.has("const")
        if self.has("struct"):
            return ("struct", self.take()), is_const
        word = self.take()
        if word not in self.named:
            raise Unread(f"the type {word}")
        return self.named[word], is_const

    def declared(self):
        """A type with its stars, and the name behind it with its brackets; of a type alone the name is empty."""
        type_, is_const = self.base_type()
        while self.has("*"):
            type_ = ("pointer", type_, is_const)
            is_const = self.has("const")
        name = "" if self.next_is(")") else self.take()
        counts = []
        while self.has("["):
            counts.append(int(self.take()))
            self.want("]")
        for count in reversed(counts):
            type_ = ("array", type_, count)
        return type_, name

    def whole(self):
        while self.tokens[self.at]:
            self.top_level()
        return self.program

    def top_level(self):
        if self.has("typedef"):
            if self.has("char"):
                self.assertion()
                return
            type_, name = self.declared()
            self.named[name] = type_
            self.want(";")
        elif self.next_is("struct") and self.tokens[self.at + 2] == "{":
            self.at += 1
            name = self.take()
            self.program.structs[name] = self.members()
            self.want(";")
        else:
            self.has("static")
            self.function(*self.declared())

    def assertion(self):
        """An array that has a length if a state has at most so many bytes: here bytes aren't counted."""
        while not self.has(";"):
            self.take()

    def members(self):
        self.want("{")
        found = {}
        while not self.has("}"):
            type_, name = self.declared()
            found[name] = type_
            self.want(";")
        return found

    def function(self, result, name):
        self.want("(")
        parameters = [one for one in self.listed(self.declared, ")") if one != ("void", "")]
        if not self.has(";"):
            self.program.functions[name] = Function(result, parameters, self.block())

    # ---- commands

    def block(self):
        self.want("{")
        found = []
        while not self.has("}"):
            found.append(self.command())
        return ("block", found)

    def command(self):
        if self.next_is("{"):
            return self.block()
        word = self.tokens[self.at]
        if word in ("if", "for", "return"):
            self.at += 1
            return getattr(self, f"{word}_command")()
        made = self.declaration() if self.begins_type() else self.simple()
        self.want(";")
        return made

    def declaration(self):
        type_, name = self.declared()
        return ("declare", type_, name, self.initial() if self.has("=") else None)

    def initial(self):
        return ("braces", self.listed(self.initial, "}")) if self.has("{") else self.expression()

    def simple(self):
        """An assignment, a call, or nothing: what is evaluated to be thrown away."""
        if self.has("("):
            if self.has("void"):
                self.want(")")
                self.expression()
                return ("block", [])
            self.at -= 1
        place = self.prefix()
        if place[0] == "call":
            return place
        if self.has("++"):
            return ("assign", place, ("binary", "+", place, ("number", 1, "int")))
        self.want("=")
        return ("assign", place, self.expression())

    def in_brackets(self):
        self.want("(")
        found = self.expression()
        self.want(")")
        return found

    def if_command(self):
        test, then = self.in_brackets(), self.command()
        return ("if", test, then, self.command() if self.has("else") else ("block", []))

    def for_command(self):
        self.want("(")
        first = self.declaration()
        self.want(";")
        test = self.expression()
        self.want(";")
        after = self.simple()
        self.want(")")
        return ("for", first, test, after, self.command())

    def return_command(self):
        value = None if self.next_is(";") else self.expression()
        self.want(";")
        return ("return", value)

    # ---- expressions

    def expression(self):
        test = self.binary(0)
        if not self.has("?"):
            return test
        then = self.expression()
        self.want(":")
        return ("choice", test, then, self.expression())

    def binary(self, level):
        if level == len(LEVELS):
            return self.prefix()
        found = self.binary(level + 1)
        while self.next_is(*LEVELS[level]):
            found = ("binary", self.take(), found, self.binary(level + 1))
        return found

    def prefix(self):
        for sign, kind in (("!", "not"), ("*", "deref"), ("&", "address")):
            if self.has(sign):
                return (kind, self.prefix())
        if self.next_is("("):
            self.at += 1
            if self.begins_type():
                type_, _ = self.declared()
                self.want(")")
                return ("compound", type_, self.initial()[1]) if self.next_is("{") else ("cast", type_, self.prefix())
            self.at -= 1
        return self.postfix()

    def postfix(self):
        found = self.primary()
        while True:
            if self.has("."):
                found = ("member", found, self.take())
            elif self.has("->"):
                found = ("member", ("deref", found), self.take())
            elif self.has("["):
                found = ("at", found, self.expression())
                self.want("]")
            else:
                return found

    def primary(self):
        if self.next_is("("):
            return self.in_brackets()
        word = self.take()
        if word[:1].isdigit():
            return ("number", int(word), "int")
        if word in ("true", "false"):
            return ("truth", word == "true")
        if word in NAMED:
            return ("number", *NAMED[word])
        if not re.match(r"[A-Za-z_]", word):
            raise Unread(f"{word} in {' '.join(self.tokens[self.at - 8 : self.at + 8])}")
        if not self.has("("):
            return ("name", word)
        if word in LITERALS:
            sign = -1 if self.has("-") else 1
            number = sign * int(self.take())
            self.want(")")
            return ("number", number, LITERALS[word])
        return ("call", word, self.listed(self.expression, ")"))


def read(text):
    """The program of a text."""
    return Reader(text).whole()
