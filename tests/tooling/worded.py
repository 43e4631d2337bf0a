"""Values in the words of a file of Haskell: spelt and read, in tables, steps, dumps, plots and recordings, and what is refused of them."""
import random
import re

from front import spell
from front.shapes import Made, Shape, core_type
from model.texts import read_value
from model.trees import shown
from tooling.common import EXAMPLES, HASKELL, each, in_files, own_folder, there, texts_of, tool, want
from workbench.streams import Streams, Wishes

INT, BOOL, UNIT = Shape("Int"), Shape("Bool"), Shape("Unit")
HUE = Shape("names", name="Hue", constructors=(Made("Red"), Made("Green"), Made("Blue")))
ROOM = Shape("record", name="Room", constructors=(Made("Room", (("warmth", INT), ("hue", HUE)), True),))
ALONE = Shape("record", name="Alone", constructors=(Made("Alone", (("only", INT),), True),))
PAIR = Shape("record", name="P", constructors=(Made("P", (("1", INT), ("2", Shape("Event", (INT,))))),))
NOTHING_IN = Shape("record", name="Void", constructors=(Made("Void"),))
WHY = Shape("sum", name="Why", constructors=(Made("Dot"), Made("Line", (("1", INT),)), Made("Box", (("wide", INT), ("tint", HUE)), True)))


def of(sort: str, *parts: Shape) -> Shape:
    return Shape(sort, parts)


# A shape, a text in Haskell, and how a stream spells it: worked out by hand from docs/LANGUAGE.md and the table of front/shapes.py.
ROWS = [
    (INT, "-7", "-7"),
    (BOOL, "True", "true"),
    (UNIT, "()", "unit"),
    (HUE, "Blue", "2"),
    (of("Event", INT), "Event (-3)", "(event -3)"),
    (of("Event", HUE), "NoEvent", "none"),
    (of("Maybe", of("Maybe", INT)), "Just (Just 2)", "(event (event 2))"),
    (of("tuple", INT, BOOL, UNIT), "(1, False, ())", "(pair 1 (pair false unit))"),
    (of("List", HUE), "[Red, Blue]", "(list 0 2)"),
    (of("List", INT), "[]", "(list)"),
    (ROOM, "Room {warmth = -1, hue = Green}", "(pair -1 1)"),
    (ALONE, "Alone {only = 4}", "4"),
    (NOTHING_IN, "Void", "unit"),
    (PAIR, "P (-2) (Event 5)", "(pair -2 (event 5))"),
    (of("Event", ROOM), "Event (Room {warmth = 1, hue = Red})", "(event (pair 1 0))"),
    (WHY, "Dot", "(pair 0 (pair 0 (pair 0 0)))"),
    (WHY, "Line 3", "(pair 1 (pair 3 (pair 0 0)))"),
    (WHY, "Box {wide = 3, tint = Blue}", "(pair 2 (pair 0 (pair 3 2)))"),
    (of("List", WHY), "[Line (-3), Dot]", "(list (pair 1 (pair -3 (pair 0 0))) (pair 0 (pair 0 (pair 0 0))))"),
]
# Other texts that mean the same as one of the rows.
ALSO = [(ROOM, " Room { hue = Green , warmth=-1 } ", "(pair -1 1)"), (HUE, "(Blue)", "2"), (of("Event", INT), "(Event (3))", "(event 3)")]
MISSPELT = [
    (INT, "", "a number of 64 bits is wanted where the end stands"),
    (INT, "9223372036854775808", "a number of 64 bits is wanted where 9223372036854775808 stands"),
    (INT, "1 2", "2 stands behind the value"),
    (HUE, "Rad", "Red, Green or Blue is wanted where Rad stands"),
    (ROOM, "Room {warmth = 1}", "Room lacks hue"),
    (ROOM, "Room {warmth = 1, warmth = 2, hue = Red}", "warmth is there twice"),
    (ROOM, "Room {wormth = 1, hue = Red}", "wormth is no field of Room"),
    (of("tuple", INT, INT), "(1, 2, 3)", "2 parts are wanted, and there are more"),
    (of("tuple", INT, INT), "(1)", "2 parts are wanted, and there is 1"),
    (of("List", INT), "[1 2]", ", is wanted where 2 stands"),
    (of("Event", of("Event", INT)), "Event Event 1", "Event with its parts stands in parentheses here"),
    (of("Event", BOOL), "Event", "False or True is wanted where the end stands"),
    (INT, "(" * 5000, "over 100 parentheses are open at once"),
]


def spelt_so(shape: Shape, spelling: str) -> str:
    return spell.spelt(spell.in_json(read_value(spelling.encode(), core_type(shape))), shape)


def values_are_spelt_and_read() -> None:
    for shape, text, spelling in ROWS:
        want(f"spelt: {text}", spelt_so(shape, spelling) == text, spelt_so(shape, spelling))
    for shape, text, spelling in [*ROWS, *ALSO]:
        want(f"read: {text}", spell.read(text, shape) == spelling, spell.read(text, shape))
    for shape, text, why in MISSPELT:
        try:
            found = spell.read(text, shape)
        except spell.Misspelt as misspelt:
            found = str(misspelt)
        want(f"misspelt: {text[:40]}", found == why, found)
    shapes = [of("tuple", WHY, of("List", of("Maybe", ROOM)), PAIR), of("Event", of("List", of("tuple", WHY, ALONE)))]
    for shape in shapes:
        streams = Streams(spell.named(shape), [1, 5], random.Random(1), Wishes())
        for _ in range(200):
            spelling = shown(streams.value(spell.named(shape)))
            want("there and back", spell.read(spelt_so(shape, spelling), shape) == spelling, spelling)


def types_have_columns() -> None:
    def names(shape: Shape) -> list:
        return [name for name, _ in spell.columns(spell.named(shape))]

    want("of a record", names(ROOM) == ["warmth", "hue"])
    want("of one field", names(ALONE) == ["only"])
    want("of a tuple", names(of("tuple", INT, ROOM)) == ["x.1", "x.2.warmth", "x.2.hue"])
    want("of several constructors", names(WHY) == ["x"])
    want("of a type of the core", [name for name, _ in spell.columns(("Pair", "Int", "Bool"))] == ["x.fst", "x.snd"])
    want("names of types", spell.shown_type(spell.named(of("List", of("Event", of("tuple", INT, WHY))))) == "[Event (Int, Why)]")


# ---- the tools

TURNSTILE = """{-# LANGUAGE Arrows #-}
module Turnstile where

import Yampa.Whole

data Way = In | Out deriving (Eq)
data What = Coin Int | Push Way | Idle deriving (Eq)
data Door = Door { open :: Bool, coins :: Int, latest :: What }

turnstile :: SF What Door
turnstile = proc w -> do
  rec let n = case w of { Coin _ -> before + 1; Push In | before > 0 -> before - 1; _ -> before }
      before <- iPre 0 -< n
  returnA -< Door { open = n > 0, coins = n, latest = w }

few :: Guarantee What Door
few = arr (\\(_, d) -> coins d < 2)

known :: Guarantee What Door
known = arr (\\(w, _) -> case w of { Coin n -> n == n; Push w' -> w' == In || w' == Out; Idle -> True })
"""
STREAM = "(pair 0 (pair 5 0))\n+2 (pair 2 (pair 0 0))\n+1 (pair 1 (pair 0 1))\n"
WORDS = "Coin 5\n+2 Idle\n+1 Push Out\n"


def whole(stream: str) -> str:
    """A stream with each value written out."""
    found, value = [], ""
    for line in stream.splitlines():
        step, value_there = re.fullmatch(r"(\+\d+ )?(.*)", line).groups()
        value = value if value_there == "=" else value_there
        found.append(f"{step or ''}{value}\n")
    return "".join(found)


def examples_go_there_and_back() -> None:
    def told(path) -> tuple:
        stream = whole((path.parent / "stream").read_text())
        table = tool("csv", "--back", "--input", path, stream=stream)
        lines = tool("tidy", "--back", "--input", path, stream=stream)
        outputs = tool("tidy", "--back", path, stream=tool("timed", path, stream=stream)[1])
        return stream, tool("csv", path, stream=table[1]), tool("tidy", path, stream=lines[1]), outputs

    for path, (stream, by_table, by_lines, outputs) in each(told, HASKELL):
        good = "".join(stream.splitlines(keepends=True)[: (path.parent / "output").read_text().count("\n")])
        want(f"csv of {path.name} there and back", by_table[1] == stream or good != stream, by_table[2] or by_table[1][:200])
        want(f"tidy of {path.name} there and back", by_lines[1] == stream or good != stream, by_lines[2] or by_lines[1][:200])
        want(f"outputs of {path.name} in words", not outputs[0] or good != stream, outputs)


def tools_tell_words() -> None:
    with own_folder() as room:
        (path, _) = in_files(room, **{"Turnstile.hs": TURNSTILE, "stream": STREAM})
        want("types", tool("csv", "--back", path, stream=tool("timed", path, stream=STREAM)[1])[1] == "time,open,coins,latest\n0,True,1,Coin 5\n2,True,1,Idle\n3,True,1,Push Out\n")
        want("tidy", tool("tidy", path, stream=WORDS)[1] == STREAM)
        want("tidy back", tool("tidy", "--back", "--input", path, stream=STREAM)[1] == WORDS)
        table = tool("csv", path, stream="time,x\n0,Push Inn\n")
        want("a cell that is none", table == (1, "", "yampa csv: row 2, column x: Push Inn is no What: In or Out is wanted where Inn stands\n"), table)
        lines = tool("step", path, room / "stream")[1].splitlines()
        rows = ["1\t0\tinput\tCoin 5", "1\t0\toutput.open\tTrue", "2\t2\tinput\tIdle", "3\t3\toutput.latest\tPush Out"]
        want("step", set(rows) <= set(lines), lines[:12])
        dump = tool("waves", path, room / "stream")[1]
        want("waves", re.search(r"\$var string 1 \S+ input \$end", dump) and "sCoin_5 " in dump and "sPush_Out " in dump, dump[:600])
        if there("matplotlib"):
            texts = texts_of(tool("plot", path, stream=STREAM)[1])
            want("plot", {"Coin 5", "Idle", "Push Out"} <= texts, sorted(texts))
        if there("z3"):
            status, output, _ = tool("prove", "--seconds", "30", path, folder=room)
            found = [line for line in output.splitlines() if line.startswith("  ")]
            told = re.fullmatch(r"  Coin -?\d+\n  \+\d+ Coin -?\d+", "\n".join(found))
            want("a recording that prove finds", status == 1 and told and re.search(r"^holds +known ", output, re.M), output)


def interpreter_agrees() -> None:
    """The network of each example in Haskell outputs what the interpreter does; what isn't Haskell is refused."""
    for path, found in each(lambda path: tool("expand", "--try", path), HASKELL):
        want(f"expand --try {path.name}", found == (0, "the same on 1,000 samples\n", ""), found)
    found = tool("expand", "--try", EXAMPLES[0] / "net")
    want("expand --try of a network", found[0] == 1 and found[2].endswith("net: --try is for a file of Haskell\n"), found)


def try_all() -> None:
    values_are_spelt_and_read()
    types_have_columns()
    examples_go_there_and_back()
    tools_tell_words()
    interpreter_agrees()
