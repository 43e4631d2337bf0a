"""Random programs: a module with types, operators with fixities, functions with guards, and a network of nested cases, `rec`, switches
in switches and captured wires.

A text is made from patterns. In one `<T>` is an expression of the type T, `<T|$a:U>` one that may also use what `$a` binds, and `<A~B>` a
network from A to B; `$a` is a name of its own.
"""
from __future__ import annotations

import random
import re

Names = list[tuple[str, str]]
HOLE = re.compile(r"<([A-Z]\w*)(~[A-Z]\w*)?((?:\|\$\w+:[A-Z]\w*)*)>")
WIRES = ["Int", "Bool", "E", "R", "S", "M", "Hue"]
FULL = {"E": "(Event Int)", "M": "(Maybe Int)", "Pair": "(Int, Bool)"}

LEAVES = {
    "Int": ["0", "1", "2", "(-3)", "7"],
    "Bool": ["True", "False"],
    "E": ["NoEvent", "(Event 4)"],
    "M": ["Nothing", "(Just 3)"],
    "Hue": ["Red", "Green", "Blue"],
    "R": ["(R 3 Green True)", "R { size = 1, hue = Red, big = False }"],
    "S": ["Dot", "(Line 2)", "Box { wide = 5, tint = Blue }"],
    "P": ["(P (R 2 Blue False) NoEvent)"],
    "L": ["[4, 1, 3]"],
    "Pair": ["(2, True)"],
}
EXPRESSIONS = {
    "Int": [
        "(<Int> + <Int>)", "(<Int> - <Int>)", "(<Int> * <Int>)", "(min <Int> <Int>)", "(max <Int> <Int>)", "(abs <Int>)", "(negate <Int>)",
        "(if <Bool> then <Int> else <Int>)", "(event <Int> (\\$y -> <Int|$y:Int>) <E>)", "(let $y = <Int> in <Int|$y:Int>)",
        "(let { $f $x = <Int|$x:Int>; $y = $f <Int> } in $f $y - <Int|$y:Int>)", "(size <R>)", "(fst <Pair>)", "(maybe <Int> (\\$y -> <Int|$y:Int>) <M>)",
        "(case (<E>, hue <R>) of { (Event 1, Red) -> <Int>; (Event $v, _) | $v > 2 -> <Int|$v:Int>; (NoEvent, Blue) -> <Int>; (_, _) -> <Int> })",
        "(case <S> of { Dot -> <Int>; Line $a | $a > 1, <Bool|$a:Int> -> <Int|$a:Int>; Line _ -> <Int>; Box { wide = $a, tint = $b } -> <Int|$a:Int|$b:Hue> })",
        "(case <P> of { P { inner = $q@R { size = $a }, extra = Event $v } -> <Int|$q:R|$a:Int|$v:Int>; P $q _ -> <Int|$q:R> })",
        "(case <M> of { Just $a | Event $v <- <E|$a:Int>, $v > $a -> <Int|$a:Int|$v:Int>; Just 3 -> <Int>; _ -> <Int> })",
        "(help0 <Int> <R>)", "(help1 <S> <Int>)", "(sum <L>)", "(maximum <L>)", "(foldl (\\$a $b -> <Int|$a:Int|$b:Int>) <Int> <L>)",
        "(foldr (\\$a $b -> <Int|$a:Int|$b:Int>) <Int> <L>)", "(nth <L> <Int> <Int>)", "(sum [<Int|$y:Int> | $y <- <L>, <Bool|$y:Int>])", "(length [() | $y <- <L>, $y > <Int>])",
        "(<Chain>)", "(let ($a, $b) = <Pair> in <Int|$a:Int|$b:Bool>)", "((\\R { size = $a, .. } -> if big then $a else fromEnum hue) <R>)", "(twice (\\$y -> <Int|$y:Int>) <Int>)", "(fromEnum <Hue>)",
    ],
    "Bool": [
        "(<Int> < <Int>)", "(<Int> <= <Int>)", "(<Int> == <Int>)", "(<Int> /= <Int>)", "(<Bool> && <Bool>)", "(<Bool> || <Bool>)", "(not <Bool>)", "(big <R>)", "(snd <Pair>)",
        "(isEvent <E>)", "(<E> == Event <Int>)", "(<S> == <S>)", "(<M> /= Just <Int>)", "(hue <R> >= <Hue>)", "(any (\\$y -> <Bool|$y:Int>) <L>)", "(all (> <Int>) <L>)", "(elem <Int> <L>)",
        "(help2 <M> <Hue>)", "(case <Hue> of { Red -> <Bool>; $h | $h > Green -> <Bool>; _ -> <Bool> })", "(if <Bool> then <Bool> else <Bool>)",
    ],
    "E": [
        "(Event <Int>)", "(gate <E> <Bool>)", "(<E> `tag` <Int>)", "(fmap (\\$y -> <Int|$y:Int>) <E>)", "(lMerge <E> <E>)", "(<E> `rMerge` <E>)", "(mergeBy (\\$a $b -> <Int|$a:Int|$b:Int>) <E> <E>)",
        "(filterE (\\$y -> <Bool|$y:Int>) <E>)", "(if <Bool> then <E> else <E>)", "(fmap (\\($a, $b) -> <Int|$a:Int|$b:Bool>) (<E> `attach` <Bool>))", "(extra <P>)", "(maybeToEvent <M>)",
    ],
    "M": ["(Just <Int>)", "(if <Bool> then <M> else <M>)", "(case <E> of { Event $a -> Just <Int|$a:Int>; NoEvent -> <M> })", "(case <S> of { Line $a -> Just $a; _ -> <M> })"],
    "Hue": ["(hue <R>)", "(turn <Hue>)", "(max <Hue> <Hue>)", "(if <Bool> then <Hue> else <Hue>)", "(case <S> of { Box _ $h -> $h; _ -> <Hue> })"],
    "R": [
        "(R <Int> <Hue> <Bool>)", "R { size = <Int>, hue = <Hue>, big = <Bool> }", "(<R>) { size = <Int> }", "(<R>) { hue = <Hue>, big = <Bool> }", "(if <Bool> then <R> else <R>)", "(inner <P>)",
        "(case <R> of { R { hue = Red, .. } -> R { hue = Blue, .. }; $q -> <R|$q:R> })",
    ],
    "S": ["(Line <Int>)", "(Box <Int> <Hue>)", "Box { wide = <Int>, tint = <Hue> }", "(if <Bool> then <S> else <S>)", "(case <S> of { $q@(Line $a) | $a < 3 -> $q; Dot -> <S>; _ -> Line <Int> })"],
    "P": ["P { inner = <R>, extra = <E> }", "(P <R> <E>)", "(<P>) { inner = <R> }"],
    "L": ["[<Int>, <Int>, <Int>]", "(map (\\$y -> <Int|$y:Int>) <L>)", "(zipWith (-) <L> <L>)", "[<Int|$y:Int> | $y <- <L>]", "(map (`minus` <Int>) <L>)", "(reverse <L>)", "[$y * $k | ($y, $k) <- zip <L> [1 .. 3]]"],
    "Pair": ["(<Int>, <Bool>)", "(if <Bool> then <Pair> else <Pair>)"],
}  # fmt: skip
# Networks, with A and B for what goes in and comes out, and C for what is between.
NETWORKS = [
    "(arr (\\$p -> <{B}|$p:{A}>))", "(arr (\\$p -> <{B}|$p:{A}>))", "(<{A}~{C}> >>> <{C}~{B}>)", "(<{C}~{B}> <<< <{A}~{C}>)", "(<{A}~{C}> >>^ \\$p -> <{B}|$p:{C}>)",
    "(switch (<{A}~{B}> &&& <{A}~E>) (\\$p -> <{A}~{B}|$p:Int>))", "(dSwitch (<{A}~{B}> &&& <{A}~E>) (\\$p -> <{A}~{B}|$p:Int>))", "(<{B}> --> <{A}~{B}>)", "(<{A}> >-- <{A}~{B}>)",
    "(kSwitch <{A}~{B}> (arr fst >>> <{A}~E>) (\\$o $z -> switch (<{A}~{B}|$z:Int> &&& <{A}~E>) (\\_ -> $o)))", "(loopPre <{C}> (arr (\\($p, $q) -> (<{B}|$p:{A}|$q:{C}>, <{C}|$p:{A}|$q:{C}>))))",
    "(proc $p -> do {{ $a <- <{A}~{C}> -< $p; rec {{ $b <- iPre <{B}> -< $c; let {{ $c = <{B}|$a:{C}|$b:{B}|$p:{A}> }} }}; returnA -< <{B}|$a:{C}|$b:{B}|$c:{B}> }})",
]  # fmt: skip
FROM_TO = {
    ("E", "Int"): ["(hold <Int>)", "(accumHoldBy (\\$p $q -> $p - 2 * $q) <Int>)", "(accumBy (\\$p $q -> <Int|$p:Int|$q:Int>) <Int> >>> hold <Int>)", "(arr (fmap (+)) >>> accumHold <Int>)"],
    ("Int", "Int"): ["integral", "time", "(delay 3 <Int>)", "(iPre <Int>)", "(parB [integral, identity, arr (* 2)] >>> arr sum)"],
    ("Bool", "E"): ["(edge >>> arr (`tag` <Int>))", "(edge >>^ fmap (\\() -> <Int>))", "(iEdge False >>^ tagWith <Int>)"],
}  # fmt: skip
SAME = ["(iPre <{A}>)", "(delay 2 <{A}>)", "identity"]
EVENTS = ["(after 3 <Int>)", "(repeatedly 4 <Int>)", "(now <Int>)", "never"]
OPERATORS = [("|+|", "a |+| b = a - 2 * b"), ("<->", "(<->) a b = 3 * a - b"), ("`minus`", "minus a b = a - b - 1"), ("`over`", "a `over` b = if b > 2 then a else 2 * b")]
# The levels at which operators of a side get on with Haskell's own ones and with each other.
LEVELS = [("infixl", 1), ("infixr", 2), ("infixl", 3), ("infixr", 5), ("infixl", 6), ("infixl", 7), ("infixr", 8)]
STATEMENTS = ["let", "bind", "bind", "rec", "switch", "if", "case"]

MODULE = """{{-# LANGUAGE Arrows, RecordWildCards #-}}
module {name} where

import Yampa.Whole

{fixities}

data Hue = Red | Green | Blue deriving (Eq, Ord, Enum)
data R = R {{ size :: Int, hue :: Hue, big :: Bool }} deriving (Eq)
data S = Dot | Line Int | Box {{ wide :: Int, tint :: Hue }} deriving (Eq)
data P = P {{ inner :: R, extra :: Event Int }}

{operators}

turn :: Hue -> Hue
turn Red = Green
turn Green = Blue
turn _ = Red

twice :: (a -> a) -> a -> a
twice f = f . f

{helps}

{network}
"""
HELPS = [
    """help0 :: Int -> R -> Int
help0 $n $q
  | <Bool|$n:Int|$q:R|$w:Int> = <Int|$n:Int|$w:Int>
  | R {{ hue = Blue }} <- $q, Just $z <- <M|$w:Int> = $f <Int|$z:Int|$q:R>
  | hue $q == Green, $n > 3 = $w - $n
  | otherwise = $f $w
  where $w = <Int|$n:Int|$q:R>
        $f $v = <Int|$v:Int|$w:Int>""",
    """help1 :: S -> Int -> Int
help1 Dot $n = <Int|$n:Int>
help1 (Line 2) _ = <Int>
help1 (Line $a) $n | $a > $n, let $m = $a - $n = <Int|$m:Int|$n:Int>
help1 $s@(Box {{ tint = Red, wide = $k }}) $n = $k + <Int|$n:Int|$k:Int|$s:S>
help1 $s $n = case $s of {{ Line $a -> <Int|$a:Int>; _ | <Bool|$n:Int> -> $n; _ -> <Int|$n:Int> }}""",
    """help2 :: Maybe Int -> Hue -> Bool
help2 (Just $a) $h | $a > 2 = <Bool|$a:Int|$h:Hue>
help2 Nothing Red = <Bool>
help2 $m $h = case ($m, $h) of
  (Just 1, _) -> <Bool|$h:Hue>
  (_, Blue)
    | <Bool> -> <Bool|$h:Hue>
    | otherwise -> $g $h
  _ -> <Bool|$m:M>
  where $g $k = $k == <Hue|$k:Hue>""",
]


class Maker:
    def __init__(self, seed: int):
        self.rng, self.count, self.calls = random.Random(seed), 0, 0

    def fresh(self, letter: str = "v") -> str:
        self.count += 1
        return f"{letter}{self.count}"

    def filled(self, pattern: str, names: Names, depth: int) -> str:
        """A pattern with what stands in the place of its holes."""
        own = {word: self.fresh(word[1]) for word in sorted(set(re.findall(r"\$\w+", pattern)))}

        def hole(found: re.Match) -> str:
            kind, to, more = found.groups()
            inner = names + [(own[word], type_) for word, type_ in re.findall(r"\|(\$\w+):(\w+)", more)]
            return self.network(kind, to[1:], inner, depth - 1) if to else self.expression(kind, inner, depth - 1)

        text = HOLE.sub(hole, pattern)
        return re.sub(r"\$\w+", lambda found: own[found[0]], text)

    def expression(self, type_: str, names: Names, depth: int) -> str:
        if type_ == "Chain":
            return self.chain(names)
        known = [name for name, of in names if of == type_]
        if known and (depth <= 0 or self.rng.random() < 0.35):
            return self.rng.choice(known)
        patterns = [one for one in EXPRESSIONS[type_] if all(f"help{number} " not in one for number in range(self.calls, len(HELPS)))]
        return self.rng.choice(LEAVES[type_]) if depth <= 0 else self.filled(self.rng.choice(patterns), names, depth)

    def chain(self, names: Names) -> str:
        """Operands and operators without parentheses."""
        words = [self.expression("Int", names, 0)]
        for _ in range(self.rng.randint(2, 5)):
            words += [self.rng.choice([sign for sign, _ in OPERATORS] + ["+", "*", "-"]), self.expression("Int", names, 0)]
        return " ".join(words)

    def network(self, given: str, output: str, names: Names, depth: int) -> str:
        """A network; the names are known before it runs."""
        own = FROM_TO.get((given, output), []) + (SAME if given == output else []) + (EVENTS if output == "E" else [])
        if own and self.rng.random() < 0.5:
            pattern = self.rng.choice(own)
        else:
            pattern = self.rng.choice(NETWORKS if depth > 0 else NETWORKS[:1])
        return self.filled(pattern.format(A=given, B=output, C=self.rng.choice(WIRES)), names, min(depth, 2))

    # ---- the network of a module

    def statement(self, names: Names) -> list[str]:
        """The lines of a statement, whose names are added."""
        kind, type_, other, new = self.rng.choice(STATEMENTS), self.rng.choice(WIRES), self.rng.choice(WIRES), self.fresh()
        if kind == "let":
            lines = [f"let {new} = {self.expression(type_, names, 3)}"]
        elif kind == "bind":
            lines = [f"{new} <- {self.network(other, type_, [], 2)} -< {self.expression(other, names, 2)}"]
        elif kind == "if":
            yes, no = self.expression(type_, names, 2), self.expression(other, names, 1)
            lines = [f"{new} <- if {self.expression('Bool', names, 2)} then returnA -< {yes} else {self.stateless(other, type_)} -< {no}"]
        elif kind == "case":
            some, none = self.expression(type_, [*names, (f"{new}e", "Int")], 2), self.expression(type_, names, 2)
            lines = [f"{new} <- case {self.expression('E', names, 2)} of {{ Event {new}e -> returnA -< {some}; NoEvent -> returnA -< {none} }}"]
        elif kind == "switch":
            template = self.network(other, type_, [*names, (f"{new}k", "Int")], 1)
            word, event = self.rng.choice(["rSwitch", "drSwitch"]), self.expression("E", names, 1)
            lines = [f"{new} <- {word} {self.network(other, type_, [], 1)} -< ({self.expression(other, names, 2)}, fmap (\\{new}k -> {template}) {event})"]
        else:
            return self.feedback(names, type_, other)
        names.append((new, type_))
        return lines

    def stateless(self, given: str, output: str) -> str:
        return self.filled(NETWORKS[0].format(A=given, B=output, C=given), [], 1)

    def feedback(self, names: Names, type_: str, other: str) -> list[str]:
        """A `rec`: what is fed back comes through a cell, in any order of its lines."""
        before, now_, late = self.fresh("b"), self.fresh("n"), self.fresh("l")
        inner = [*names, (before, type_)]
        lines = [f"let {now_} = {self.expression(type_, inner, 3)}", f"{late} <- {self.network(type_, other, [], 1)} -< {now_}"]
        lines.append(f"{before} <- iPre {self.expression(type_, [], 1)} -< {self.expression(type_, [*inner, (now_, type_), (late, other)], 2)}")
        self.rng.shuffle(lines)
        names += [(before, type_), (now_, type_), (late, other)]
        return [("rec " if number == 0 else "    ") + line for number, line in enumerate(lines)]

    def main(self, name: str) -> str:
        names: Names = [("i", "Int"), ("b", "Bool"), ("e", "E"), ("q", "R"), ("s", "S"), ("m", "M")]
        lines = [line for _ in range(self.rng.randint(3, 7)) for line in self.statement(names)]
        shown = names[-5:]
        types = ", ".join(FULL.get(type_, type_).strip("()") if type_ != "Pair" else FULL[type_] for _, type_ in [("i", "Int"), *shown])
        head = [f"{name} :: SF (Int, Bool, Event Int, R, S, Maybe Int) ({types})", f"{name} = proc (i, b, e, q, s, m) -> do"]
        return "\n".join([*head, *[f"  {line}" for line in lines], f"  returnA -< ({', '.join(['i', *[word for word, _ in shown]])})"])

    def module(self, name: str) -> str:
        fixities, operators, helps = [], [], []
        for (sign, definition), (side, level) in zip(OPERATORS, self.rng.sample(LEVELS, len(OPERATORS))):
            fixities += [f"{side} {level} {sign}"] if self.rng.random() < 0.6 else []
            operators += [f"{sign.strip('`') if sign[0] == '`' else f'({sign})'} :: Int -> Int -> Int", definition, ""]
        for pattern in HELPS:
            helps.append(self.filled(pattern.replace("{{", "{").replace("}}", "}"), [], 3))
            self.calls += 1
        network = self.main(name[0].lower() + name[1:])
        return MODULE.format(name=name, fixities="\n".join(fixities), operators="\n".join(operators), helps="\n\n".join(helps), network=network)
