"""Reads a module: its head, its declarations, and all that can't be read of them, each declaration by itself."""
from __future__ import annotations

from front.expressions import ExpressionReader
from front.faults import Fault, Place
from front.fixity import STANDARD, Fixity, declared
from front.layout import Token, tokens_of
from front.patterns import PatternReader
from front.syntax import (
    Alias,
    Bound,
    Clause,
    Data,
    Declaration,
    Function,
    Made,
    Module,
    Node,
    Pattern,
    PatternBinding,
    Signature,
    TypeTree,
    bound_by,
)

NOT_HERE = {
    "class": "classes are not here: hand over the functions that a class would have",
    "instance": "instances are not here: write deriving (Eq, Ord) behind a data, or a function",
    "deriving": "write deriving right behind its data",
    "default": "numbers are Int here, and nothing is defaulted",
    "foreign": "nothing foreign can be called from here",
}
NO_HEAD = "a file begins with module NAME where"


class ModuleReader(ExpressionReader):
    def __init__(self, tokens: list[Token], fixities: dict[str, Fixity]):
        super().__init__(tokens, {**STANDARD, **fixities})
        self.faults: list[Fault] = []
        # The names of what can't be read, and whether a type is among it.
        self.lost: list[str] = []
        self.lost_type = False

    # ---- the head

    def head(self) -> str:
        if not self.at("module"):
            raise Fault(self.here().place, NO_HEAD)
        self.next()
        name = self.next()
        if name.kind != "constructor":
            raise Fault(name.place, "a module's name begins with a capital letter")
        if self.at("("):
            self.skip_brackets()
        self.take("where")
        return name.text

    def skip_brackets(self) -> None:
        deep = 0
        while True:
            token = self.next()
            deep += (token.text == "(") - (token.text == ")")
            if token.kind == "end":
                raise Fault(token.place, "this list is never closed: ) is wanted")
            if not deep:
                return

    def import_(self) -> tuple[str, Place]:
        begun = self.read
        self.next()
        if self.peek().text == "qualified" or self.behind().text == "qualified":
            raise Fault(self.here().place, "imports are not qualified here: all names share one space")
        name = self.next()
        if name.kind != "constructor":
            raise Fault(name.place, "the name of a module is wanted here")
        if self.peek().text == "as":
            raise Fault(self.here().place, "a module has no other name here: all names share one space")
        if self.peek().text == "hiding":
            self.next()
        if self.at("("):
            self.skip_brackets()
        return name.text, self.since(begun)

    # ---- declarations of values

    def declarations(self) -> list[Declaration]:
        return grouped(self.block(self.declaration))

    def declaration(self) -> Declaration:
        if self.at("infixl", "infixr", "infix"):
            raise Fault(self.here().place, "fixities are declared at the top of a module, in lines of their own")
        words = self.signed_words()
        if words:
            return self.signature(words)
        begun = self.read
        found = self.left_side()
        if isinstance(found, tuple):
            word, patterns = found
            rhs = self.rhs("=")
            return Function(self.since(begun), word, [Clause(self.tokens[begun].place, patterns, rhs)])
        if not self.at("=", "|"):
            self.wrong("=")
        rhs = self.rhs("=")
        return PatternBinding(self.since(begun), found, rhs)

    def signed_words(self) -> list[str]:
        """The names before `::`, where a signature stands here."""
        at, words = self.read, []
        while True:
            token = self.tokens[at]
            if token.kind == "variable":
                words.append(token.text)
                at += 1
            elif token.text == "(" and self.tokens[at + 1].kind == "operator" and self.tokens[at + 2].text == ")":
                words.append(self.tokens[at + 1].text)
                at += 3
            else:
                return []
            if self.tokens[at].text == "::":
                return words
            if self.tokens[at].text != ",":
                return []
            at += 1

    def signature(self, words: list[str]) -> Signature:
        begun = self.read
        while not self.at("::"):
            self.next()
        place = self.since(begun)
        self.next()
        if self.at("forall"):
            raise Fault(self.here().place, "forall is not here: type variables stand for any type")
        context = self.context()
        return Signature(place, words, self.type(), context)

    def left_side(self) -> tuple[str, list[Pattern]] | Pattern:
        """What a definition defines: a function with its parameters, or the names of a pattern."""
        begun, token = self.read, self.peek()
        if token.kind == "variable" and token.text != "_" and self.behind().text != "@":
            self.next()
            word, length = self.operator()
            if length and not self.is_bang():
                return self.infix_side(Bound(token.place, token.text), word, length)
            if not self.at(":"):
                return token.text, self.parameters()
            self.read = begun
        if self.at("(") and self.behind().kind == "operator" and self.behind(2).text == ")":
            for _ in range(3):
                self.next()
            return self.tokens[begun + 1].text, self.parameters()
        bracketed = self.bracketed_side() if self.at("(") else None
        if bracketed:
            return bracketed
        pattern = self.pattern()
        word, length = self.operator()
        return self.infix_side(pattern, word, length) if length else pattern

    def infix_side(self, left: Pattern, word: str, length: int) -> tuple[str, list[Pattern]]:
        for _ in range(length):
            self.next()
        return word, [left, self.pattern()]

    def bracketed_side(self) -> tuple[str, list[Pattern]] | None:
        """`(a op b) c`, where that stands here."""
        mark = self.read, self.opened, self.taken
        try:
            self.next()
            left = self.pattern()
            word, length = self.operator()
            if length:
                word, patterns = self.infix_side(left, word, length)
                self.take(")")
                more = self.parameters()
                if more:
                    return word, [*patterns, *more]
        except Fault:
            pass
        self.read, self.opened, self.taken = mark
        return None

    def parameters(self) -> list[Pattern]:
        found = []
        while not self.at("=", "|"):
            if not self.begins_pattern():
                self.wrong("a parameter or =")
            found.append(self.pattern_atom())
        return found

    # ---- declarations of types

    def alias(self) -> Alias:
        begun = self.read
        self.next()
        word, params = self.type_head()
        self.take("=")
        return Alias(self.since(begun), word, params, self.type())

    def type_head(self) -> tuple[str, list[str]]:
        name = self.next()
        if name.kind != "constructor":
            raise Fault(name.place, "a type's name begins with a capital letter")
        params = []
        while self.peek().kind == "variable":
            params.append(self.next().text)
        return name.text, params

    def data(self) -> Data:
        begun = self.read
        self.next()
        word, params = self.type_head()
        place = self.since(begun)
        if self.at("where", "=>"):
            raise Fault(self.here().place, "a data has its constructors behind = here")
        constructors = []
        while self.at("=") and not constructors or self.at("|") and constructors:
            self.next()
            constructors.append(self.constructor())
        if not constructors:
            self.wrong("=")
        derived: list[str] = []
        if self.at("deriving"):
            derived = self.deriving()
        return Data(place, word, params, constructors, derived)

    def deriving(self) -> list[str]:
        self.next()
        if self.peek().kind == "constructor":
            return [self.next().text]
        self.take("(")
        return self.listed(")", lambda: self.next().text)

    def constructor(self) -> Made:
        begun, name = self.read, self.next()
        if name.kind != "constructor":
            raise Fault(name.place, "a constructor's name begins with a capital letter")
        parts: list[tuple[str | None, TypeTree]] = []
        if self.at("{"):
            self.next()
            for words, type_ in self.listed("}", self.fields):
                parts += [(word, type_) for word in words]
        while self.peek().kind in ("constructor", "variable") or self.at("(", "[") or self.is_bang():
            if self.is_bang():
                self.next()
            parts.append((None, self.type_atom()))
        if self.operator()[1]:
            raise Fault(self.here().place, "a constructor stands before its parts here")
        return Made(self.since(begun), name.text, parts)

    def fields(self) -> tuple[list[str], TypeTree]:
        words = [self.next()]
        while self.at(","):
            self.next()
            words.append(self.next())
        for word in words:
            if word.kind != "variable":
                raise Fault(word.place, "the name of a field is wanted here")
        self.take("::")
        if self.is_bang():
            self.next()
        return [word.text for word in words], self.type()

    # ---- the whole

    def top(self) -> Declaration | tuple[str, Place] | None:
        token = self.here()
        if self.at("import"):
            return self.import_()
        if self.at("infixl", "infixr", "infix"):
            self.skip_fixity()
            return None
        if self.at(*NOT_HERE):
            raise Fault(token.place, NOT_HERE[token.text])
        if self.at("type"):
            return self.alias()
        return self.data() if self.at("data", "newtype") else self.declaration()

    def skip_fixity(self) -> None:
        while self.peek().kind not in ("virtual", "end"):
            self.next()

    def guarded_top(self) -> Declaration | tuple[str, Place] | None:
        """A declaration; where it can't be read the fault is kept, and what is left of it is passed over."""
        begun = self.read
        try:
            found = self.top()
            if self.peek().kind not in ("virtual", "end") and not self.at(";"):
                self.wrong()
            return found
        except Fault as fault:
            self.faults.append(fault)
        except RecursionError:
            self.faults.append(Fault(self.tokens[begun].place, "this is nested too deeply to be read"))
        first = self.tokens[begun]
        self.lost += [first.text] if first.kind == "variable" else []
        self.lost_type = self.lost_type or first.kind != "variable"
        self.columns = self.columns[:1]
        self.read += self.read == begun
        while self.here().kind != "end" and not (self.here().first and self.here().column <= self.columns[0]):
            self.read += 1
        self.opened = -1
        return None

    def module(self, file: str, fixities: dict[str, Fixity]) -> Module:
        name = self.head()
        found: list = []
        while self.here().kind != "end":
            begun = self.read
            found += [one for one in self.block(self.guarded_top) if one]
            if self.read == begun:
                self.faults.append(Fault(self.here().place, "this line cannot be read"))
                break
        imports = [one for one in found if isinstance(one, tuple)]
        values = [one for one in found if isinstance(one, Node)]
        defined = {word for one in values for word in bound_by(one)}
        return Module(name, file, imports, grouped(values), fixities, [word for word in self.lost if word not in defined], self.lost_type)


def grouped(declarations: list) -> list[Declaration]:
    """Clauses of one function that follow each other, as one."""
    found: list[Declaration] = []
    for one in declarations:
        before = found[-1] if found else None
        if isinstance(one, Function) and isinstance(before, Function) and before.word == one.word and one.clauses[0].patterns:
            before.clauses += one.clauses
        else:
            found.append(one)
    return found


def imports_of(tokens: list[Token]) -> list[str]:
    """The modules that a file imports, as its first words tell, before its operators' fixities are known."""
    return [after.text for token, after in zip(tokens, tokens[1:]) if token.text == "import" and token.first and after.kind == "constructor"]


def read_module(text: str, file: str, fixities: dict[str, Fixity]) -> tuple[Module, list[Fault]]:
    """The module of a text, and what can't be read of it; the fixities are those that it imports."""
    tokens = tokens_of(text, file)
    own = declared(tokens)
    reader = ModuleReader(tokens, {**fixities, **own})
    module = reader.module(file, own)
    return module, reader.faults


def read_type(text: str) -> tuple[TypeTree, list[tuple[str, str]]]:
    """A type as a signature has it, and its context."""
    reader = PatternReader(tokens_of(text, ""), {})
    context = reader.context()
    return reader.type(), context
