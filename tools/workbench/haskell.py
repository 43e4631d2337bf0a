"""A core network as a file of Haskell of the subset that networks are written in: combinators and lambdas, over Yampa.Whole."""
import re
from dataclasses import dataclass, field
from pathlib import Path
from typing import Callable

from front.prelude import ABSENT, TAKEN
from front.prelude import TYPES as PRELUDE
from front.shapes import Shape
from model.trees import is_form
from workbench.ending import Refused, Words, write
from workbench.origin import Program, read_source
from workbench.program import answered, kept
from workbench.source import plain
from workbench.written import SyntaxFault

WIDTH = 100
# How tightly a text holds together: as an argument, as an application, as an operand of that precedence, or not at all.
ATOM, APPLIED, LOOSE = 11, 10, -1
# The operators: their text, their precedence, and whether they associate to the right, to the left or not.
OPERATORS = {
    ">>>": (">>>", 1, "r"),
    "***": ("***", 3, "r"),
    "&&&": ("&&&", 3, "r"),
    "-->": ("-->", 0, "r"),
    ">--": (">--", 0, "r"),
    "add": ("+", 6, "l"),
    "sub": ("-", 6, "l"),
    "mul": ("*", 7, "l"),
    "less": ("<", 4, ""),
    "atMost": ("<=", 4, ""),
    "more": (">", 4, ""),
    "atLeast": (">=", 4, ""),
    "equal": ("==", 4, ""),
    "unequal": ("/=", 4, ""),
    "and": ("&&", 3, "r"),
    "or": ("||", 2, "r"),
    "lMerge": ("`lMerge`", 6, "l"),
    "gate": ("`gate`", 8, "l"),
    "tag": ("`tag`", 8, "l"),
    "attach": ("`attach`", 8, "l"),
}
WORDS = {"neg": "negate", "len": "length", "event": "Event"}
LITERALS = {"unit": "()", "true": "True", "false": "False"}
KEYWORDS = set("case class data default deriving do else foreign if import in infix infixl infixr instance let module newtype of then type where proc rec forall".split())


@dataclass
class Text:
    """A piece of Haskell: how tightly it holds together, its text in one line, its pieces where it is broken into lines, and
    of an operator that associates to the right its sign and its operands."""

    tightness: int
    flat: str
    broken: Callable[[int], list[str]] | None = None
    sign: str = ""
    operands: tuple = ()


def atom(word: str) -> Text:
    return Text(ATOM, word)


def bracketed(text: Text, tightness: int) -> Text:
    """The text as an operand that must hold together so tightly."""
    if text.tightness >= tightness:
        return text
    return Text(ATOM, f"({text.flat})", lambda indent: behind("(", laid(text, indent + 1), ")"))


def laid(text: Text, indent: int) -> list[str]:
    """The lines of a text that begins at that column; they are without that indentation."""
    if text.broken is None or indent + len(text.flat) <= WIDTH:
        return [text.flat]
    return text.broken(indent)


def behind(front: str, lines: list[str], end: str = "") -> list[str]:
    """Lines that begin behind a front, and end before an end."""
    made = [front + lines[0], *[" " * len(front) + line for line in lines[1:]]]
    return [*made[:-1], made[-1] + end]


def applied(word: str, parts: list[Text]) -> Text:
    """A function applied to its parts."""
    held = [bracketed(part, ATOM) for part in parts]
    flat = " ".join([word, *[part.flat for part in held]])
    return Text(APPLIED, flat, lambda indent: [word, *[line for part in held for line in behind("  ", laid(part, indent + 2))]])


def infix(word: str, left: Text, right: Text) -> Text:
    """An operator between two operands; a chain that nests to the right is broken before each of its operators."""
    sign, level, side = OPERATORS[word]
    left = bracketed(left, level if side == "l" else level + 1)
    right = bracketed(right, level if side == "r" else level + 1)
    operands = (left, *(right.operands if right.sign == sign and side == "r" else (right,)))

    def broken(indent: int) -> list[str]:
        lines = laid(operands[0], indent)
        for operand in operands[1:]:
            lines = [*lines, *behind(f"{sign} ", laid(operand, indent + len(sign) + 1))]
        return lines

    return Text(level, f"{left.flat} {sign} {right.flat}", broken, sign, operands)


def lambda_of(names: list[str], body: Text) -> Text:
    head = "\\" + " ".join(names) + " ->"
    return Text(LOOSE, f"{head} {body.flat}", lambda indent: [head, *behind("  ", laid(body, indent + 2))])


def listed(parts: list[Text]) -> Text:
    def broken(indent: int) -> list[str]:
        lines = [line for number, part in enumerate(parts) for line in behind(", " if number else "[ ", laid(part, indent + 2))]
        return [*lines, "]"]

    return Text(ATOM, "[" + ", ".join(part.flat for part in parts) + "]", broken)


# ---- types


def type_text(tree) -> str:
    if not isinstance(tree, tuple):
        return {"Unit": "()"}.get(tree, tree)
    if tree[0] == "Pair":
        return f"({type_text(tree[1])}, {type_text(tree[2])})"
    if tree[0] == "List":
        return f"[{type_text(tree[1])}]"
    return f"Event {argument_type(tree[1])}"


def argument_type(tree) -> str:
    return f"({type_text(tree)})" if is_form("Event", tree) else type_text(tree)


def typed(word: str, type_: str) -> Text:
    return Text(ATOM, f"({word} :: {type_})")


# ---- expressions


@dataclass(frozen=True)
class Both:
    """An input that is the pair of two others."""

    left: "Input"
    right: "Input"


# What x is called: a name, or the pair of two.
Input = str | Both


@dataclass
class Namer:
    """Gives names that no other one has."""

    given: int = 0

    def fresh(self, front: str) -> str:
        self.given += 1
        return f"{front}{self.given}"


@dataclass
class Writer:
    """Writes expressions and networks."""

    names: Namer = field(default_factory=Namer)

    def input_text(self, given: Input) -> Text:
        if isinstance(given, str):
            return atom(given)
        return Text(ATOM, f"({self.input_text(given.left).flat}, {self.input_text(given.right).flat})")

    def expression(self, tree, given: Input) -> Text:
        """An expression whose input is called so."""
        if isinstance(tree, int):
            return atom(str(tree)) if tree >= 0 else Text(ATOM, f"({tree})")
        if not isinstance(tree, tuple):
            return self.input_text(given) if tree == "x" else atom(LITERALS[tree])
        word, *parts = tree
        if word in ("fst", "snd"):
            return self.side(word, parts[0], given)
        if word == "p":
            return atom(f"p{parts[0]}")
        if word == "none":
            return typed("NoEvent", f"Event {argument_type(parts[0])}")
        if word == "then":
            return self.then(parts, given)
        if word == "on":
            return self.on(parts, given)
        if word == "list":
            return self.list_(parts, given)
        made = [self.expression(part, given) for part in (parts[1:] if word in ("gate", "tag", "attach") else parts)]
        if word == "pair":
            return tupled(made)
        if word == "if":
            return Text(LOOSE, f"if {made[0].flat} then {made[1].flat} else {made[2].flat}", lambda indent: if_lines(made, indent))
        if word in ("add", "sub", "mul", "less", "equal") and isinstance(parts[0], int) and not mentions_any(parts[1]):
            made[0] = typed(str(parts[0]), "Int")
        return infix(word, *made) if word in OPERATORS else applied(WORDS.get(word, word), made)

    def side(self, word: str, part, given: Input) -> Text:
        """A part of a pair; of an input that has two names one of these."""
        way, inner = [word], part
        while isinstance(inner, tuple) and inner[0] in ("fst", "snd"):
            way.append(inner[0])
            inner = inner[1]
        if inner != "x":
            return applied(word, [self.expression(part, given)])
        while way and isinstance(given, Both):
            given = given.left if way.pop() == "fst" else given.right
        made = self.input_text(given)
        for step in reversed(way):
            made = applied(step, [made])
        return made

    def then(self, parts: list, given: Input) -> Text:
        """A pair that is made gets a name for each part of it, so that these can be told apart."""
        bound, inner = self.bound(parts[0], given)
        body = self.expression(parts[1], inner)
        flat = "; ".join(f"{name} = {text.flat}" for name, text in bound)
        if not bound:
            return body

        def broken(indent: int) -> list[str]:
            lines = [line for at, (name, text) in enumerate(bound) for line in behind(f"{'    ' if at else 'let '}{name} = ", laid(text, indent + 7 + len(name)))]
            return [*lines, *behind("in ", laid(body, indent + 3))]

        return Text(LOOSE, f"let {{ {flat} }} in {body.flat}", broken)

    def bound(self, tree, given: Input) -> tuple[list, Input]:
        """Names for what is handed on, with their texts, and the input that they make."""
        if is_form("pair", tree):
            left, one = self.bound(tree[1], given)
            right, other = self.bound(tree[2], given)
            return [*left, *right], Both(one, other)
        if tree == "x":
            return [], given
        name = self.names.fresh("y")
        return [(name, self.expression(tree, given))], name

    def on(self, parts: list, given: Input) -> Text:
        event, absent, present = parts
        name = self.names.fresh("v")
        inner = self.expression(present, Both(given, name))
        return applied("event", [self.expression(absent, given), lambda_of([name], inner), self.expression(event, given)])

    def list_(self, parts: list, given: Input) -> Text:
        if len(parts) == 1:
            return typed("[]", f"[{type_text(parts[0])}]")
        return listed([self.expression(part, given) for part in parts[1:]])

    def function(self, tree) -> Text:
        """An expression as a function of its input."""
        name = self.names.fresh("x")
        return lambda_of([name if mentions_input(tree) else "_"], self.expression(tree, name))

    def constant(self, tree) -> Text:
        return self.expression(tree, "()")

    # ---- networks

    def network(self, tree, scope: "InScope") -> Text:
        if not isinstance(tree, tuple):
            return atom(tree)
        word, *parts = tree
        if word in ("arr", "accumBy", "accumHoldBy"):
            return self.of_function(word, parts)
        if word in ("iPre", "delay", "hold", "after", "repeatedly", "constant", "now"):
            return applied(word, [self.constant(part) for part in parts])
        if word == "never":
            return applied("constant", [typed("NoEvent", f"Event {argument_type(parts[0])}")])
        if word == "parB":
            return applied(word, [listed([self.network(part, scope) for part in parts])])
        if word in ("loopPre", "-->", ">--"):
            made = [self.constant(parts[0]), self.network(parts[1], scope)]
            return infix(word, *made) if word in OPERATORS else applied(word, made)
        if word == "old":
            return atom(f"old{parts[0]}")
        if word in SWITCHES:
            return getattr(self, SWITCHES[word])(word, parts, scope)
        made = [self.network(part, scope) for part in parts]
        return infix(word, *made) if word in OPERATORS else applied(word, made)

    def of_function(self, word: str, parts: list) -> Text:
        if word == "arr":
            return applied(word, [self.function(parts[0])])
        names = [self.names.fresh("a"), self.names.fresh("v")]
        return applied(word, [lambda_of(names, self.expression(parts[0], Both(*names))), self.constant(parts[1])])

    def template(self, tree, scope: "InScope", before: tuple = (), frozen: int = 0) -> Text:
        """A template as a function of what is frozen and of the event's value."""
        return lambda_of([*before, f"p{scope.parameters}"], self.network(tree, InScope(scope.parameters + 1, scope.frozen + frozen)))

    def started(self, word: str, parts: list, scope: "InScope") -> Text:
        return applied(word, [self.network(parts[0], scope), self.template(parts[1], scope)])

    def restarted(self, word: str, parts: list, scope: "InScope") -> Text:
        """The event brings the network that the template makes of its value."""
        brings = applied("fmap", [self.template(parts[1], scope), atom("e")])
        front = applied("arr", [lambda_of(["(x, e)"], tupled([atom("x"), brings]))])
        return infix(">>>", front, applied(word, [self.network(parts[0], scope)]))

    def frozen(self, word: str, parts: list, scope: "InScope") -> Text:
        made = [self.network(part, scope) for part in parts[:2]]
        return applied(word, [*made, self.template(parts[2], scope, (f"old{scope.frozen}",), 1)])

    def frozen_members(self, _word: str, parts: list, scope: "InScope") -> Text:
        route, members, watches, later = parts
        count = len(members) - 1
        names = "[" + ", ".join(f"old{scope.frozen + number}" for number in range(count)) + "]"
        made = [listed([self.network(part, scope) for part in members[1:]]), self.network(watches, scope)]
        made.append(self.template(later, scope, (names,), count))
        if route == ("fst", "x"):
            return applied("pSwitchB", made)
        inputs = f"[{self.expression(route, Both('s', 'k')).flat} | k <- [0 .. {count - 1}]]"
        return applied("pSwitch", [lambda_of(["s", "ms"], Text(APPLIED, f"zip {inputs} ms")), *made])

    def collection(self, word: str, parts: list, scope: "InScope") -> Text:
        """The event brings a function of the members: those that go on, and new ones."""
        inside = self.expression(parts[1], "v")
        chosen = applied("at", [atom("ks"), atom("ms")])
        joined = Text(5, f"{chosen.flat} ++ map ({self.template(parts[2], scope).flat}) vs")
        let = Text(LOOSE, f"let (ks, vs) = {inside.flat} in {joined.flat}")
        brings = applied("fmap", [lambda_of(["v", "ms"], let), atom("e")])
        front = applied("arr", [lambda_of(["(x, e)"], tupled([atom("x"), brings]))])
        return infix(">>>", front, applied(word, [listed([self.network(part, scope) for part in parts[0][1:]])]))


SWITCHES = {
    "switch": "started", "dSwitch": "started", "rSwitch": "restarted", "drSwitch": "restarted", "kSwitch": "frozen",
    "pSwitch": "frozen_members", "rpSwitchB": "collection",
}  # fmt: skip


@dataclass(frozen=True)
class InScope:
    """How many parameters and frozen networks are in scope."""

    parameters: int = 0
    frozen: int = 0


def tupled(parts: list[Text]) -> Text:
    def broken(indent: int) -> list[str]:
        return [*[line for at, part in enumerate(parts) for line in behind(", " if at else "( ", laid(part, indent + 2))], ")"]

    return Text(ATOM, "(" + ", ".join(part.flat for part in parts) + ")", broken)


def if_lines(parts: list[Text], indent: int) -> list[str]:
    words = ("if ", "then ", "else ")
    lines = [behind(word if not at else f"  {word}", laid(part, indent + len(word) + 2 * bool(at))) for at, (word, part) in enumerate(zip(words, parts))]
    return [line for some in lines for line in some]


def mentions_input(tree) -> bool:
    """Whether `x` is the input around it, and not that of a part behind `then` or `on`."""
    if not isinstance(tree, tuple):
        return tree == "x"
    parts = tree[1:-1] if tree[0] == "then" else tree[1:]
    return any(map(mentions_input, parts))


def mentions_any(tree) -> bool:
    """Whether an expression has an input or a parameter, whose types are known."""
    return isinstance(tree, tuple) and (tree[0] == "p" or any(map(mentions_any, tree[1:]))) or tree == "x"


# ---- a program's own types


def taken_apart(shape: Shape, name: Namer) -> tuple[str, str]:
    """A pattern of a type, and the nested pairs that are made of what it binds."""
    if shape.sort in ("tuple", "record"):
        parts = shape.parts if shape.sort == "tuple" else tuple(part for _, part in shape.constructors[0].parts)
        both = [taken_apart(part, name) for part in parts]
        patterns = [one for one, _ in both]
        pattern = f"({', '.join(patterns)})" if shape.sort == "tuple" else "(" + " ".join([shape.constructors[0].name, *patterns]) + ")"
        return pattern, paired([one for _, one in both])
    own = name.fresh("w")
    if shape.sort == "names":
        return own, f"(case {own} of {{ " + "; ".join(f"{one.name} -> {at}" for at, one in enumerate(shape.constructors)) + " })"
    return own, own


def built(shape: Shape, name: Namer) -> tuple[str, str]:
    """A pattern of nested pairs, and the value of a type that is made of what it binds."""
    if shape.sort in ("tuple", "record"):
        parts = shape.parts if shape.sort == "tuple" else tuple(part for _, part in shape.constructors[0].parts)
        both = [built(part, name) for part in parts]
        values = [one for _, one in both]
        made = f"({', '.join(values)})" if shape.sort == "tuple" else "(" + " ".join([shape.constructors[0].name, *values]) + ")"
        return paired([one for one, _ in both]), made
    own = name.fresh("w")
    if shape.sort == "names":
        cases = [f"{at} -> {one.name}" for at, one in enumerate(shape.constructors[:-1])]
        return own, f"(case {own} of {{ " + "; ".join([*cases, f"_ -> {shape.constructors[-1].name}"]) + " })"
    return own, own


def paired(texts: list[str]) -> str:
    """Nested pairs of texts."""
    if not texts:
        return "()"
    made = texts[-1]
    for text in reversed(texts[:-1]):
        made = f"({text}, {made})"
    return made


def is_simple(shape: Shape) -> bool:
    """Whether values of a type can be taken apart here: whether no event, list or constructor with parts holds a type of the program's."""
    if shape.sort in ("tuple", "record"):
        return all(map(is_simple, shape.parts or [part for one in shape.constructors for _, part in one.parts]))
    return shape.sort == "names" or shape.sort in ("Int", "Bool", "Unit") or shape.sort in ("Event", "List") and is_core(shape.parts[0])


def is_core(shape: Shape) -> bool:
    return shape.sort in ("Int", "Bool", "Unit") or shape.sort in ("Event", "List") and is_core(shape.parts[0]) or shape.sort == "tuple" and len(shape.parts) == 2 and all(map(is_core, shape.parts))


def shape_text(shape: Shape) -> str:
    if shape.sort == "tuple":
        return f"({', '.join(map(shape_text, shape.parts))})"
    if shape.sort in ("Event", "Maybe"):
        inner = shape_text(shape.parts[0])
        return f"({shape.sort} {inner})"
    if shape.sort == "List":
        return f"[{shape_text(shape.parts[0])}]"
    return shape.name or {"Unit": "()"}.get(shape.sort, shape.sort)


# ---- modules


def name_of(path):
    """What the network is called: the file's name, or its folder's where that is `net` or `fast`."""
    path = Path(path).resolve()
    word = path.parent.name if path.name in ("net", "fast") else path.stem
    parts = [part for part in re.split(r"[^A-Za-z0-9]+", word) if part] or ["network"]
    name = parts[0][:1].lower() + parts[0][1:] + "".join(part[:1].upper() + part[1:] for part in parts[1:])
    return name if name[0].isalpha() and not is_taken(name) else f"{name}Network" if name[0].isalpha() else f"network{name}"


def is_taken(name: str) -> bool:
    """Whether a name has a meaning in every module."""
    return name in KEYWORDS | TAKEN | set(ABSENT) or re.search(rf"(?m)^(?:.*,)?{name}(?:,.*)? ::", PRELUDE) is not None


def module(name: str, input_type, output_type, tree, types: "Types | None" = None) -> str:
    """The module in which the network is called so."""
    title = name[:1].upper() + name[1:]
    body = Writer().network(tree, InScope())
    own = types.types() if types else (argument_type(input_type), argument_type(output_type))
    if types:
        body = infix(">>>", types.front(), infix(">>>", body, types.back()))
    return "\n".join(
        [
            f"module {title} where",
            "",
            "import Yampa.Whole",
            *([f"import {types.module}"] if types else []),
            "",
            f"{name} :: SF {' '.join(own)}",
            f"{name} =",
            *behind("  ", laid(body, 2)),
            "",
        ]
    )


@dataclass
class Types:
    """The types of a program that a network has the input and the output of."""

    module: str
    input: Shape
    output: Shape

    def types(self) -> tuple[str, str]:
        texts = [shape_text(one) for one in (self.input, self.output)]
        return texts[0], texts[1]

    def front(self) -> Text:
        pattern, made = taken_apart(self.input, Namer())
        return applied("arr", [lambda_of([pattern], atom(made))])

    def back(self) -> Text:
        pattern, made = built(self.output, Namer())
        return applied("arr", [lambda_of([pattern], atom(made))])


def types_of(program: Program, name: str) -> Types:
    """The types of a file of Haskell."""
    if not program.is_haskell:
        raise Refused(f"{name}: this is no file of Haskell, and has no types")
    made = program.translation
    if not is_simple(made.input) or not is_simple(made.output):
        raise Refused(f"{name}: its types are in events, lists or constructors with parts, where they can't be put back: leave --types out")
    return Types(made.module, made.input, made.output)


def module_of(path: str, name: str | None = None, types: str | None = None) -> str:
    """The module of a network."""
    program = read_source(path)
    with kept(program.text) as net:
        arrow = answered(["types", net]).decode().partition("\n")[0]
    given, output = type_tree(program.file.input), parsed_type(arrow.rpartition(" -> ")[2])
    return module(name or name_of(path), given, output, plain(program.file.node), types_of(read_source(types), types) if types else None)


def type_tree(tree):
    """A type without the names of its records."""
    return (tree[0], *map(type_tree, tree[1:])) if isinstance(tree, tuple) else tree


def parsed_type(text: str):
    """The tree of a type as it is printed."""
    tokens = re.findall(r"[()]|[^\s()]+", text)

    def taken():
        word = tokens.pop(0)
        if word != "(":
            return word
        parts = [tokens.pop(0)]
        while tokens[0] != ")":
            parts.append(taken())
        tokens.pop(0)
        return tuple(parts)

    return taken()


ABOUT = """Prints a network as a file of Haskell (docs/HASKELL.md), which every command takes as a network, and GHC
compiles against haskell/Yampa/Whole.hs. The module and its definition are named after the file, or after its folder
if the file's name is net or fast. With --types the network has the types of that file's, which is imported."""


def main():
    words = Words("haskell", ABOUT)
    words.add_argument("net", metavar="NET", help="the network's file; - is standard input")
    words.add_argument("--name", metavar="NAME", help="the network's name")
    words.add_argument("--types", metavar="FILE.hs", help="the file whose types the network has, as one that improve made of it")
    words.add_argument("-o", dest="to", metavar="FILE", help="writes the module there")
    given = words.parse_args()
    if given.name and (not re.fullmatch(r"[a-z][A-Za-z0-9]*", given.name) or is_taken(given.name)):
        raise Refused(f"--name: {given.name} is no name for a network in Haskell", 2)
    try:
        write(given.to, module_of(given.net, given.name, given.types))
    except SyntaxFault as fault:
        raise Refused(f"{given.net}: {fault}") from None
