"""Reads expressions and commands."""
from __future__ import annotations

from front.faults import Fault
from front.fixity import Chain, Sign, beyond, operator_of
from front.patterns import NO_TEXTS, PatternReader
from front.syntax import (
    Alternative,
    Apply,
    Bind,
    Bound,
    Branch,
    Case,
    CaseCommand,
    Command,
    Comprehension,
    Condition,
    Constructor,
    Declaration,
    Do,
    Expression,
    Feed,
    FieldOf,
    Generator,
    If,
    IfCommand,
    Lambda,
    Let,
    LetCommand,
    LetStatement,
    ListOf,
    Local,
    Name,
    Number,
    Proc,
    Qualifier,
    Range,
    Rec,
    Record,
    Rhs,
    Statement,
    Tuple,
    Typed,
)

BLANK = " y"


class ExpressionReader(PatternReader):
    """The declarations of `let` and `where` are read by what builds on this."""

    def declarations(self) -> list[Declaration]:
        raise NotImplementedError

    # ---- chains of operators

    def expression(self) -> Expression:
        return self.inside(self.expression_inside)

    def expression_inside(self) -> Expression:
        begun = self.read
        body = self.chained().whole()
        if self.at("::"):
            self.next()
            self.context()
            type_ = self.type()
            return Typed(self.since(begun), body, type_)
        return body

    def operator(self) -> tuple[str, int]:
        """The operator that comes next, if one does, and how many words it takes."""
        token = self.peek()
        if token.kind == "operator":
            return token.text, 1
        if token.kind == "special" and token.text == "`":
            if self.behind().kind not in ("variable", "constructor") or self.behind(2).text != "`":
                raise Fault(token.place, "a name between two backquotes is wanted here")
            return self.behind().text, 3
        return "", 0

    def sign(self, word: str, length: int) -> Sign:
        begun = self.read
        for _ in range(length):
            self.next()
        return Sign(word, self.since(begun))

    def chained(self) -> Chain:
        """Operands and operators, as far as they go; an operator before `)` is left for a section."""
        return self.inside(self.chain_inside)

    def chain_inside(self) -> Chain:
        chain = Chain(self.fixities)
        while True:
            if self.peek().kind == "operator" and self.peek().text == "-":
                chain.items.append(Sign("-", self.next().place, True))
            chain.items.append(self.operand())
            word, length = self.operator()
            if not length or self.behind(length).text == ")":
                return chain
            chain.items.append(self.sign(word, length))

    def operand(self) -> Expression:
        token = self.peek()
        readers = {"\\": self.lambda_, "let": self.let, "if": self.if_, "case": self.case, "proc": self.proc}
        if token.kind == "key" and token.text in readers:
            return readers[token.text]()
        if self.at("do"):
            raise Fault(token.place, "do stands only behind proc .. -> here")
        return self.application()

    def lambda_(self) -> Expression:
        begun = self.read
        self.next()
        if self.at("case"):
            return self.lambda_case(begun)
        patterns = []
        while not self.at("->"):
            patterns.append(self.pattern_atom())
        self.next()
        body = self.expression()
        return Lambda(self.since(begun), patterns, body)

    def lambda_case(self, begun: int) -> Expression:
        """`\\case` with alternatives."""
        place = self.next().place
        alternatives = self.block(lambda: self.alternative(False))
        whole = self.since(begun)
        return Lambda(whole, [Bound(place, BLANK)], Case(whole, Name(place, BLANK), alternatives))

    def let(self) -> Expression:
        begun = self.read
        self.next()
        declarations = self.declarations()
        self.softly("in", begun)
        body = self.expression()
        return Let(self.since(begun), declarations, body)

    def if_(self) -> Expression:
        begun = self.read
        self.next()
        if self.at("|"):
            raise Fault(self.here().place, "an if has one condition here: write guards behind a name, or a case")
        condition = self.expression()
        self.softly("then", begun)
        yes = self.expression()
        self.softly("else", begun)
        no = self.expression()
        return If(self.since(begun), condition, yes, no)

    def case(self) -> Expression:
        begun = self.read
        self.next()
        of = self.expression()
        self.take("of")
        alternatives = self.block(lambda: self.alternative(False))
        return Case(self.since(begun), of, alternatives)

    def proc(self) -> Expression:
        begun = self.read
        self.next()
        pattern = self.pattern_atom()
        self.take("->")
        command = self.command()
        return Proc(self.since(begun), pattern, command)

    def softly(self, word: str, begun: int) -> None:
        """Takes a word that may stand at the column of a new part."""
        if self.peek().kind == "virtual" and self.here().text == word:
            self.opened = self.read
        if self.at(";") and self.behind().text == word:
            self.next()
        if not self.at(word):
            if self.here().kind == "end" or self.peek().kind == "virtual" or self.here().text in (")", "]", "}", ",", "then", "else", "of"):
                raise Fault(self.tokens[begun].place, f"this {self.tokens[begun].text} has no {word}")
            self.wrong(word)
        self.next()

    def alternative(self, commands: bool) -> Alternative:
        begun = self.read
        pattern = self.pattern()
        rhs = self.rhs("->", commands)
        return Alternative(self.since(begun), pattern, rhs)

    # ---- right sides

    def rhs(self, sign: str, commands: bool = False) -> Rhs:
        begun = self.read
        branches = []
        while self.at("|"):
            branches.append(self.guarded(sign, commands))
        if not branches:
            self.take(sign)
            start = self.read
            body = self.command() if commands else self.expression()
            branches.append(Branch(self.since(start), [], body))
        declarations: list[Declaration] = []
        if self.at("where"):
            self.next()
            declarations = self.declarations()
        return Rhs(self.since(begun), branches, declarations)

    def guarded(self, sign: str, commands: bool) -> Branch:
        begun = self.read
        self.next()
        guards = [self.qualifier()]
        while self.at(","):
            self.next()
            guards.append(self.qualifier())
        self.take(sign)
        body = self.command() if commands else self.expression()
        return Branch(self.since(begun), guards, body)

    def qualifier(self) -> Qualifier:
        begun = self.read
        if self.at("let"):
            self.next()
            declarations = self.declarations()
            if not self.at("in"):
                return Local(self.since(begun), declarations)
            self.read = begun
        mark = self.read, self.opened, self.taken
        try:
            pattern = self.pattern()
            generates = self.at("<-")
        except Fault:
            generates = False
        if generates:
            self.next()
            value = self.expression()
            return Generator(self.since(begun), pattern, value)
        self.read, self.opened, self.taken = mark
        value = self.expression()
        return Condition(value.place, value)

    # ---- applications

    def begins_atom(self) -> bool:
        token = self.peek()
        return token.kind in ("variable", "constructor", "number", "fraction", "text", "qualified") or self.at("(", "[")

    def application(self) -> Expression:
        if not self.begins_atom():
            self.wrong("an expression")
        begun = self.read
        made = self.with_fields()
        while self.begins_atom():
            part = self.with_fields()
            made = Apply(self.since(begun), made, part)
        if self.at("\\", "let", "if", "case", "proc") and self.here().kind == "key":
            raise Fault(self.here().place, f"put parentheses around what begins with {self.here().text}, or $ before it")
        return made

    def with_fields(self) -> Expression:
        begun = self.read
        made = self.atom()
        while self.at("{"):
            self.next()
            rest: list = []
            found = [one for one in self.listed("}", lambda: self.field(rest)) if one]
            made = Record(self.since(begun), made, found, bool(rest))
        return made

    def field(self, rest: list) -> FieldOf | None:
        begun = self.read
        if self.at(".."):
            rest.append(self.next())
            return None
        name = self.next()
        if name.kind != "variable":
            raise Fault(name.place, "the name of a field is wanted here")
        if not self.at("="):
            return FieldOf(name.place, name.text, Name(name.place, name.text))
        self.next()
        value = self.expression()
        return FieldOf(self.since(begun), name.text, value)

    def atom(self) -> Expression:
        begun, token = self.read, self.next()
        if token.kind == "number":
            return Number(token.place, int(token.text.replace("0O", "0o"), 0))
        if token.kind == "fraction":
            raise Fault(token.place, f"{token.text} has a fraction, and numbers are whole here: choose a smaller unit")
        if token.kind == "text":
            raise Fault(token.place, NO_TEXTS)
        if token.kind == "variable":
            if token.text == "_":
                raise Fault(token.place, "_ is a pattern, and has no value")
            return Name(token.place, token.text)
        if token.kind == "constructor":
            return Constructor(token.place, token.text)
        if token.text == "(":
            return self.bracketed(begun)
        if token.text == "[":
            return self.list_(begun)
        self.read = begun
        return self.wrong("an expression")

    def bracketed(self, begun: int) -> Expression:
        if self.at(")"):
            self.next()
            return Constructor(self.since(begun), "()")
        if self.at(","):
            return self.pair_maker(begun)
        word, length = self.operator()
        if length and not (word == "-" and self.behind().text != ")"):
            return self.right_section(begun, word, length)
        if self.at("-") and self.behind().text == ")":
            return self.right_section(begun, "-", 1)
        chain = self.chained()
        word, length = self.operator()
        if length:
            sign = self.sign(word, length)
            self.close(")", begun)
            return Apply(self.since(begun), operator_of(sign), chain.section(sign, "l"))
        first = chain.whole()
        if self.at("::"):
            self.next()
            self.context()
            first = Typed(self.since(begun), first, self.type())
        if self.at("-<", "-<<", "|"):
            raise Fault(self.here().place, "a command stands here without do or proc: write proc p -> f -< e")
        parts = [first]
        while self.at(","):
            self.next()
            parts.append(self.expression())
        self.close(")", begun)
        if len(parts) > 1:
            return Tuple(self.since(begun), parts)
        first.place = self.since(begun)
        return first

    def pair_maker(self, begun: int) -> Expression:
        """`(,)`, the function that makes pairs, and those of longer tuples."""
        count = 1
        while self.at(","):
            self.next()
            count += 1
        self.take(")")
        return Constructor(self.since(begun), f"({count})")

    def right_section(self, begun: int, word: str, length: int) -> Expression:
        sign = self.sign(word, length)
        if self.at(")"):
            self.next()
            return Constructor(self.since(begun), ":") if word == ":" else Name(self.since(begun), word)
        right = self.chained().section(sign, "r")
        self.close(")", begun)
        place = self.since(begun)
        return Lambda(place, [Bound(sign.place, BLANK)], Apply(place, Apply(place, operator_of(sign), Name(sign.place, BLANK)), right))

    def list_(self, begun: int) -> Expression:
        if self.at("]"):
            self.next()
            return ListOf(self.since(begun), [])
        parts = [self.expression()]
        if self.at("|"):
            self.next()
            qualifiers = self.listed("]", self.qualifier)
            return Comprehension(self.since(begun), parts[0], qualifiers)
        while self.at(","):
            self.next()
            parts.append(self.expression())
        if self.at("..") and len(parts) <= 2:
            self.next()
            last = None if self.at("]") else self.expression()
            self.close("]", begun)
            return Range(self.since(begun), parts[0], parts[1] if len(parts) == 2 else None, last)
        self.close("]", begun)
        return ListOf(self.since(begun), parts)

    # ---- commands

    def command(self) -> Command:
        return self.inside(self.command_inside)

    def command_inside(self) -> Command:
        token = self.peek()
        readers = {"do": self.do, "if": self.if_command, "case": self.case_command, "let": self.let_command}
        if token.kind == "key" and token.text in readers:
            return readers[token.text]()
        if self.at("\\"):
            raise Fault(token.place, "a command has no parameters here")
        begun = self.read
        if self.at("(") and self.is_bracketed_command():
            self.next()
            inner = self.command()
            self.close(")", begun)
            return inner
        network = self.chained().whole()
        if self.at("-<<"):
            raise Fault(self.here().place, "-<< would make a network at each sample: use -<, or a switch whose event brings the value")
        if not self.at("-<"):
            raise Fault(beyond(self.tokens[begun].place, network.place), "this is no command: write network -< value")
        self.next()
        value = self.expression()
        return Feed(self.since(begun), network, value)

    def is_bracketed_command(self) -> bool:
        """Whether what stands in the parentheses here is a command."""
        if self.behind().text in ("do", "if", "case", "let") and self.behind().kind == "key":
            deep, at = 0, self.read
            while self.tokens[at].kind != "end":
                word = self.tokens[at].text
                deep += (word in ("(", "[")) - (word in (")", "]"))
                if word in ("-<", "-<<") and deep == 1:
                    return True
                if not deep:
                    return False
                at += 1
        return False

    def do(self) -> Command:
        begun = self.read
        self.next()
        statements = self.block(self.statement)
        last = statements.pop() if statements else None
        if not isinstance(last, Bind) or last.pattern is not None:
            raise Fault(self.tokens[begun].place if last is None else last.place, "the last line of a do is a command, such as returnA -< e")
        return Do(self.since(begun), statements, last.command)

    def if_command(self) -> Command:
        begun = self.read
        self.next()
        condition = self.expression()
        self.softly("then", begun)
        yes = self.command()
        self.softly("else", begun)
        no = self.command()
        return IfCommand(self.since(begun), condition, yes, no)

    def case_command(self) -> Command:
        begun = self.read
        self.next()
        of = self.expression()
        self.take("of")
        alternatives = self.block(lambda: self.alternative(True))
        return CaseCommand(self.since(begun), of, alternatives)

    def let_command(self) -> Command:
        begun = self.read
        self.next()
        declarations = self.declarations()
        self.softly("in", begun)
        body = self.command()
        return LetCommand(self.since(begun), declarations, body)

    def statement(self) -> Statement:
        begun = self.read
        if self.at("let"):
            self.next()
            declarations = self.declarations()
            if not self.at("in"):
                return LetStatement(self.since(begun), declarations)
            self.read = begun
            command = self.let_command()
            return Bind(self.since(begun), None, command)
        if self.at("rec"):
            self.next()
            statements = self.block(self.statement)
            return Rec(self.since(begun), statements)
        mark = self.read, self.opened, self.taken
        try:
            pattern = self.pattern()
            binds = self.at("<-")
        except Fault:
            binds = False
        if binds:
            self.next()
            command = self.command()
            return Bind(self.since(begun), pattern, command)
        self.read, self.opened, self.taken = mark
        command = self.command()
        return Bind(self.since(begun), None, command)
