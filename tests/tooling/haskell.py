"""Files of Haskell: what is told of mistakes, that bad files are refused, that sizes are no matter, and that commands take them."""
import os
import subprocess
import time
from pathlib import Path

from front.main import Refused, translated
from front.translation import Translation

from tooling.common import EXAMPLES, TOP, each, in_files, own_folder, tool, want

HEAD = """{-# LANGUAGE Arrows #-}
module T where
import Yampa.Whole
data Mode = Off | On deriving (Eq)
data Car = Car { speed, gear :: Int, brake :: Bool }
data Pump = Pump { flow, load :: Int }
"""
HEAD_LINES = HEAD.count("\n")

# All mistakes of a file with nineteen, by line and column, with what is told.
TOLD = [
    "13:24: there is no limt here",
    "16:22: part 1 of speed must be a Car here, and this is a Pump",
    "19:12: there is no division in the core (div waits for version 4 of the core): multiply by the other side, or use a table (nth)",
    "22:9: Car lacks brake",
    "25:12: this if has no else",
    "28:1: counts uses itself (counts -> counts): definitions are put in where they are used, so none can.",
    "31:9: 0.1 has a fraction, and numbers are whole here: choose a smaller unit",
    "34:11: what stands left of + must be an Int here, and this is Event Int; event gives its value, or another where there is none",
    "37:13: < wants Mode to be of Ord: write deriving (Ord) behind its data",
    "44:13: k is a value of this proc, which changes with each sample, and what stands left of -< is fixed before:",
    "49:11: this cycle has no iPre: a -> b -> a. One of these must be the sample before, by iPre",
    "54:18: the output of late must be an Int here, and this is a Bool; if makes a number of it",
    "54:32: what goes into iPre must be a Bool here, and this is an Int; compare it with a number",
    "67:3: there is no constructor Onn; did you mean On?",
    "75:13: what has flow changed must be a Pump here, and this is a Car",
    "78:18: one ) too many, or something is missing before it",
    "81:13: this ( is never closed: ) is wanted before mistakes in line 83",
    "85:18: what goes into hold must be Event Int here, and this is an Int; Event before it makes an event of it",
    "86:8: what stands left of -< must be a network here, and this is Car -> Bool: arr makes a network of a function",
]

# A mistake by itself, behind HEAD: its line there and its column, and how what is told begins.
ROWS = [
    ("t :: SF Car Int\nt = arr (\\car -> sped car)", "2:18: there is no sped here; did you mean speed?"),
    ("t :: SF Int Int\nt = arr (\\x -> (x + 1)", "2:9: this ( is never closed: ) is wanted before the end of the file"),
    ("t :: SF Int (Event Int)\nt = after () 5", "2:11: part 1 of after must be an Int here, and this is ()"),
    ("t :: SF Int Car\nt = arr (\\x -> Car x 1)", "2:16: what this function gives must be a Car here, and this is Bool -> Car; a part is missing behind it"),
    ("t :: SF Int Int\nt = arr (\\x -> if x > 0 then 1)", "2:16: this if has no else"),
    ("t :: SF Int Int\nt = arr f\nf :: Int -> Int\nf x = f (x - 1)", "4:1: f uses itself (f -> f)"),
    ("t :: SF Int Int\nt = arr (* 0.5)", "2:12: 0.5 has a fraction, and numbers are whole here"),
    ("t :: SF (Event Int) Int\nt = arr (\\e -> e + 1)", "2:16: what stands left of + must be an Int here, and this is Event Int"),
    ("t :: SF Int Int\nt = loopPre False (arr (\\(x, s) -> (x, s + 1)))", "2:40: what stands left of + must be an Int here, and this is a Bool"),
    ("t :: SF Int (Int, Int)\nt = iPre 0 &&& (\\x -> x + 1)", "2:16: what stands right of &&& must be SF Int Int here, and this is Int -> Int; arr makes a network of a function"),
    ("t :: SF Car Int\nt = arr (\\car -> brake car)", "2:18: what this function gives must be an Int here, and this is a Bool"),
    ("t :: SF Int Bool\nt = arr (\\x -> x < 1 < 2)", "2:22: < and < bind alike: put parentheses around one of them"),
    ('t :: SF Int Int\nt = arr (\\x -> "high")', "2:16: there are no texts and no characters here"),
    ("t :: SF Int Int\nt = ((arr (\\x -> x)", "2:6: this ( is never closed"),
    ("t :: SF Int Int\nt = arr (\\x -> x + 1))", "2:22: one ) too many"),
    ("t :: SF Int Int\nt = arr (\\x -> add x 1)", "2:16: add: write +"),
    ("t :: SF Int Int\nt = arr (\\x -> x `div` 2)", "2:18: there is no division in the core"),
    ("t :: SF Int Bool\nt = arr (\\x -> x =< 2)", "2:18: =<: write <="),
    ("t :: SF (Int, Car) Int\nt = arr (\\p -> max (w p) 3)\nw :: (Int, Car) -> Int\nw (k, car) = k * speed k", "4:24: part 1 of speed must be a Car here, and this is an Int"),
    ("t :: SF Pump Int\nt = arr (\\p -> speed p)", "2:22: part 1 of speed must be a Car here, and this is a Pump"),
    ("t :: SF Int Int\nt = proc x -> do\n  n <- time -< ()\n  y <- after n () -< ()\n  returnA -< n", "4:14: n is a value of this proc"),
    ("t :: SF Int Int\nt = wait 0 >>> arr (event 0 id)\nwait :: Int -> SF a (Event Int)\nwait k = repeatedly k k", "4:10: how long repeatedly waits is from 1 to"),
    ("t :: SF Int Int\nt = arr f\nf :: Int -> Int\nf 1 = 2", "4:1: f has no clause for some values"),
    ("t :: SF [Int] Int\nt = arr sum", "2:1: the length of this list is known only to a sample"),
    ("t :: SF Bool Int\nt = proc b -> do\n  v <- if b then time -< () else returnA -< 0\n  returnA -< v", "3:18: what keeps a state can't stand in a branch"),
    ("t :: SF Bool Int\nt = proc b -> do\n  v <- returnA -< b", "3:3: the last line of a do is a command"),
    ("t :: SF Int Int\nt = proc x -> identity -<< x", "2:24: -<< would make a network at each sample"),
    ("t :: SF Int Int\nt = identity\nt = constant 2", "3:1: t is defined twice"),
    ("import Nowhere\nt :: SF Int Int\nt = identity", "1:1: there is no module Nowhere here"),
    ("class Big a where big :: a\nt :: SF Int Int\nt = identity", "1:1: classes are not here"),
    ("t :: SF Int Double\nt = identity", "1:13: numbers are Int here, in a unit that is small enough"),
    ("t :: Num a => SF a a\nt = identity", "1:15: there is no class Num here; numbers are Int here: write Int"),
    ("data Tree = Leaf | Node Tree Tree\nt :: SF Int Int\nt = identity", "1:1: Tree holds itself"),
    ("type X = [X]\nt :: SF Int Int\nt = identity", "1:1: the type X stands for itself"),
    ("t :: SF a a\nt = identity", "2:1: t must be of one type, and is SF a a: write its type"),
    ("max :: Int -> Int\nmax x = x\nt :: SF Int Int\nt = arr max", "2:1: max is a name that every module has already"),
    ("t = ", "1:4: the file ends here, and an expression is wanted"),
    ("t :: SF Int Int\nt = arr (\\x -> case x of\n  1 -> 2\n  _ - 3)", "4:5: `-` is found here, where `->` is wanted"),
    ("t :: SF Int (Int -> Int)\nt = arr (+)", "2:1: a value of a sample holds a function here"),
    ("t :: SF Int Int\nt = arr (\\x -> let tag a b = a + b in x `tag` 1)", "2:20: tag has a precedence of its own"),
    ("f :: a -> a -> Bool\nf x y = x == y\nt :: SF Int Bool\nt = arr (f 1)", "2:11: == wants a to be of Eq: write Eq a => before its type"),
    ("t :: SF Car Bool\nt = arr (\\c -> c == c)", "2:18: == wants Car to be of Eq: write deriving (Eq) behind its data"),
    ("t :: SF Int Int\nt = arr (\\x -> sum [x ..])", "2:20: a list has an end here: write [a .. b]"),
    ("data S = S Int | R deriving (Eq, Enum)\nt :: SF Int Int\nt = identity", "1:10: deriving (Enum) is for a data of names, and S has parts"),
    ("t :: SF Mode Mode\nt = arr succ", "2:9: succ wants Mode to be of Enum: write deriving (Enum) behind its data"),
    ("next :: (Eq a, Bounded a, Enum a) => a -> a\nnext x = if x == maxBound then minBound else succ x\nt :: SF Bool Bool\nt = arr next", "2:18: maxBound is used at any type here, and must know its own"),
    ("t :: SF Int Int\nt = proc x -> do\n  rec let next = x : was\n      was <- iPre [] -< next\n  returnA -< length next", "3:18: the length of this list is known only to a sample"),
    ("t :: SF Int [Int]\nt = pSwitch (\\x -> zip [x]) [identity, identity] never (\\_ () -> arr (\\_ -> []))", "2:1: the route of a pSwitch gives each member its input, in their order"),
    ("f :: Int -> Int\nf x | x = 1\n    | otherwise = True\nt :: SF Int Int\nt = arr f", "2:7: a guard must be a Bool here, and this is an Int"),
    ("f :: Int -> Int\nf x = y where y = not (x > 1)\nt :: SF Int Int\nt = arr f", "2:7: what f gives must be an Int here, and this is a Bool"),
    ("t :: SF Int Int\nt = arr (\\(a, b) -> a)", "2:11: a parameter of this function must be an Int here, and this is (a, b)"),
    ("t :: SF Car Int\nt = arr (\\(Car a b) -> a)", "2:12: Car has 3 parts, and here 2"),
    ("t :: SF Int Int\nt = switch (identity &&& edge) (\\v -> constant v)", "2:26: what stands right of &&& must be SF Int (Event a) here, and this is SF Bool (Event ())"),
    ("t :: SF Int [Int]\nt = parB (identity, identity)", "2:10: part 1 of parB must be [SF Int Int] here, and this is (SF a a, SF b b)"),
    ("t :: SF Car Car\nt = arr (\\c -> c { speed = brake c })", "2:28: the field speed must be an Int here, and this is a Bool"),
    ("t :: SF Mode Int\nt = arr (\\m -> case m of { Off -> 1; 2 -> 3; _ -> 4 })", "2:38: the pattern must be a Mode here, and this is an Int"),
    ("t :: SF Int Int\nt = arr (\\x -> let y = x && True in 1)", "2:24: what stands left of && must be a Bool here, and this is an Int"),
    ("t :: SF Bool Int\nt = proc b -> if b then returnA -< 1 else returnA -< False", "2:43: what follows else must be an Int here, and this is a Bool"),
    ("t :: SF Mode Int\nt = proc m -> case m of { Off -> returnA -< 1; _ -> returnA -< () }", "2:53: this case must be an Int here, and this is ()"),
    ("f :: Int -> Bool -> Int\nf x = x\nt :: SF Int Int\nt = arr (\\x -> f x True)", "2:7: what f gives must be Bool -> Int here, and this is an Int"),
    ("t :: SF Int Bool\nt = arr (\\x -> (x :: Bool))", "2:17: this must be a Bool here, and this is an Int"),
    ("t :: SF (Int, Event Int) [Int]\nt = proc (x, e) -> rpSwitchB [] -< (x, fmap (\\v -> [constant v]) e)", "2:36: what goes into rpSwitchB must be (a, Event ([SF a b] -> [SF a b])) here"),
    ("t :: SF Int Int\nt = arr speed", "2:9: part 1 of arr must be Int -> Int here, and this is Car -> Int"),
]

BAD = {
    b"": "1:1: a file begins with module NAME where",
    b"Dear all,\n": "1:1: a file begins with module NAME where",
    bytes(range(256)): "byte 128 of the file is no UTF-8",
    b"module T where\nt = \0\n": "2:5: the character '\\x00' has no meaning here",
    b"module T where\n-- gr\xf6\n": "byte 20 of the file is no UTF-8",
    b"module T where\n" + b"t = 1\n" * 200_000: "the file has over 1,048,576 bytes",
    b"module T where\nimport Yampa.Whole\nt = " + b"(" * 20_000: "this is nested over 200 levels deep",
    b"module T where\n{- never closed\n": "2:1: this comment is never closed",
}

GOOD = {
    b"module T where\nimport Yampa.Whole\nt :: SF Int Int\nt = arr f\n\twhere f x\n\t\t| x > 1 = 2\n\t\t| otherwise = 3\n": "tabs",
    b"module T where\r\nimport Yampa.Whole\r\nt :: SF Int Int\r\nt = arr (\\x ->\r\n  x + 1)\r\n": "lines that end in CR LF",
    b"\xef\xbb\xbfmodule T where\nimport Yampa.Whole\nt :: SF Int Int\nt = identity\n": "a byte order mark",
}


def told(data: bytes, file: str = "T.hs") -> str:
    """What is told of a file, or nothing where it is right."""
    try:
        translated(file, data)
    except Refused as refused:
        return str(refused)
    return ""


def mistakes_are_told() -> None:
    file = TOP / "tests/tooling/mistakes/Mistakes.hs"
    lines = [line.partition("Mistakes.hs:")[2] for line in told(file.read_bytes(), str(file)).splitlines() if "Mistakes.hs:" in line]
    for number, wanted in enumerate(TOLD):
        want(f"mistake {wanted}", number < len(lines) and lines[number].startswith(wanted), lines[number : number + 1])
    want("as many as there are", len(lines) == len(TOLD), lines[len(TOLD) :])
    for text, wanted in ROWS:
        line, _, rest = wanted.partition(":")
        if text.startswith("import"):
            found = told((HEAD.replace("import Yampa.Whole\n", text.partition("\n")[0] + "\n", 1) + text.partition("\n")[2] + "\n").encode())
            line, shift = "3", 0
        else:
            found, shift = told((HEAD + text + "\n").encode()), HEAD_LINES
        want(wanted, found.startswith(f"T.hs:{int(line) + shift}:{rest}"), found)


def what_is_shown() -> None:
    """The line, a caret below what is meant, and who called."""
    text = HEAD + "t :: SF Int Int\nt = arr (\\x -> x + brake)\n"
    shown = "T.hs:8:20: what stands right of + must be an Int here, and this is Car -> Bool\n    8 | t = arr (\\x -> x + brake)\n      |                    ^^^^^"
    want("the line and the caret", told(text.encode()) == shown, told(text.encode()))
    called = HEAD + "t :: SF Int Int\nt = wait 0 >>> arr (event 0 id)\nwait :: Int -> SF a (Event Int)\nwait k = repeatedly k k\n"
    want("the caller", "\n      in wait, which T.hs:8:5 uses" in told(called.encode()), told(called.encode()))


def bad_files_are_refused() -> None:
    for data, wanted in BAD.items():
        found = told(data)
        want(f"bad file {wanted}", wanted in found and "Traceback" not in found, found[:200])
    for data, name in GOOD.items():
        want(name, told(data) == "", told(data))
    with own_folder() as room:
        in_files(room, **{"A.hs": "module A where\nimport B\na = b\n", "B.hs": "module B where\nimport A\nb = a\n"})
        status, output, error = call(room, "types", "A.hs")
        want("modules that import each other", status == 1 and not output and "these modules import each other" in error, error)
        (room / "Folder.hs").mkdir()
        want("a folder", call(room, "types", "Folder.hs")[0] == 3)
        want("no file", call(room, "types", "None.hs")[0] == 3)


def call(room: Path, *words: str, stream: bytes = b"") -> tuple[int, str, str]:
    """What tools/sourced answers, which the wrapper calls for files of Haskell."""
    ran = subprocess.run([TOP / "tools/sourced", os.environ["YAMPA"], *words], cwd=room, input=stream, capture_output=True, timeout=120, check=False)
    return ran.returncode, ran.stdout.decode(), ran.stderr.decode()


# One of many units of a file, each with a state machine and what goes on over time; and a room of many.
UNIT = """
decide{k} :: Mode -> Car -> Int -> Mode
decide{k} Off u _ | brake u = On
decide{k} On u total
  | total > {k} = Off
  | not (brake u) = Off
decide{k} mode _ _ = mode

unit{k} :: SF Car (Mode, Int, Event Int)
unit{k} = proc u -> do
  rec let next = decide{k} was u total
      was <- iPre Off -< next
      total <- iPre 0 -< min 1000 (total + if next == On then gear u else -1)
  rise <- edge -< next == On
  held <- hold 0 -< rise `tag` total
  count <- accumHoldBy (\\n _ -> n + 1) 0 -< rise
  slow <- integral -< if next == On then speed u else 0
  past <- delay 5 0 -< slow
  tick <- repeatedly {wait} () -< ()
  ticks <- accumHoldBy (\\n _ -> n + {k}) 0 -< tick
  late <- after {k} 1 -< ()
  clock <- time -< ()
  returnA -< (next, slow - past + count + ticks + clock, lMerge (fmap (const held) rise) late)
"""
ROOMS = """
room :: Int -> SF (Event Int, Int) (Bool, Int)
room k = proc (warmth, wish) -> do
  t <- hold 180 -< warmth
  rec let heats = wish > t + total || was && wish > t
      was <- iPre False -< heats
      total <- integral -< if heats then 1 else -1
  failed <- accumHoldBy (\\_ _ -> True) False -< filterE (< -400) warmth
  slow <- delay 60 0 -< t
  returnA -< (heats && not failed, if t < slow - 20 then k else total)

rooms :: SF [(Event Int, Int)] ([Bool], Int)
rooms = proc xs -> do
  outs <- parB [arr (\\xs -> nth xs k (NoEvent, 200)) >>> room k | k <- [0 .. 63]] -< xs
  returnA -< (map fst outs, sum (map snd outs))
"""


def units(count: int) -> str:
    """A file of so many units, each of which goes into the next one."""
    calls = "".join(f"  (m{k}, v{k}, e{k}) <- unit{k} -< Car (a + {k}) {f'v{k - 1}' if k % 3 else 'b'} {f'(m{k - 1} == On)' if k % 2 else 'c'}\n" for k in range(count))
    outs = " + ".join(f"v{k}" for k in range(count)), " `lMerge` ".join(f"e{k}" for k in range(count))
    whole = f"units :: SF (Int, Int, Bool) (Int, Event Int)\nunits = proc (a, b, c) -> do\n{calls}  returnA -< ({outs[0]}, {outs[1]})"
    return "".join(UNIT.format(k=k, wait=k + 1) for k in range(count)) + whole


def sizes_are_no_matter() -> None:
    """Many wires, long chains and long cases, 64 rooms, and a file of 2,000 lines."""
    many = range(150)
    wide = ["wide :: SF Int Int", "wide = proc x -> do", *[f"  a{k} <- integral -< x + {k}" for k in many], *[f"  b{k} <- iPre 0 -< a{149 - k}" for k in many]]
    wide.append("  returnA -< " + " + ".join(f"a{k} * b{k}" for k in many))
    cases = "cases :: SF Int Int\ncases = arr (\\x -> case x of\n" + "".join(f"  {k} -> {k * k}\n" for k in range(300)) + "  _ -> 0)"
    chain = "chain :: SF Int Int\nchain = " + " >>> ".join(["iPre 0"] * 300)
    total = "total :: SF Int Int\ntotal = arr (\\x -> " + " + ".join(f"x * {k}" for k in range(500)) + ")"
    fold = "fold :: SF Int Int\nfold = arr (\\x -> foldl (\\s k -> if s + k > x then s - k else s + x) 0 [1 .. 1000])"
    texts = {"wide": "\n".join(wide), "cases": cases, "chain": chain, "total": total, "fold": fold, "rooms": ROOMS, "units": units(84)}
    for name, text in texts.items():
        began = time.process_time()
        made = made_of(HEAD.replace("module T", f"module {name.capitalize()}") + text + "\n", f"{name.capitalize()}.hs")
        seconds = time.process_time() - began
        want(f"{name}: {len(made.network.text)} bytes in {seconds:.1f} s", len(made.network.text) < 250_000 and seconds < 20)
        with own_folder() as room:
            (net,) = in_files(room, net=made.network.text)
            want(f"{name} is accepted", call(room, "types", str(net))[0] == 0, call(room, "types", str(net)))


def made_of(text: str, file: str) -> Translation:
    return translated(file, text.encode())


def commands_take_files() -> None:
    example = TOP / "examples/cruise"
    stream = (example / "stream").read_bytes()
    want("run", call(example, "run", "Cruise.hs", stream=stream)[:2] == (0, (example / "output").read_text()))
    want("types of another network", call(example, "types", "--of", "smooth", "Cruise.hs")[1].startswith("Int -> Int\n"), call(example, "types", "--of", "smooth", "Cruise.hs"))
    status, output, _ = call(example, "outline", "Cruise.hs")
    want("outline has places", status == 0 and "; Cruise.hs:" in output)
    improved = call(example, "optimise", "Cruise.hs")
    want("optimise prints the core", improved[0] == 0 and improved[1].startswith("yampa 1\ninput "), improved)
    for words in (["expand", "Cruise.hs"], ["explain", "Cruise.hs"], ["draw", "Cruise.hs"], ["timed", "Cruise.hs"]):
        found = tool(*words, stream=stream, folder=example)
        want(" ".join(words), found[0] == 0, found[2])


def networks_go_back() -> None:
    """A core network is printed as a file that means one with the same outputs."""

    def back(example: Path) -> tuple:
        with own_folder() as room:
            made = tool("haskell", str(example / "net"), "--name", "t", "-o", "T.hs", folder=room)
            if made[0]:
                return made[2], ""
            ran = call(room, "run", "T.hs", stream=(example / "stream").read_bytes())
            return ran[1], (example / "output").read_text()

    for example, (found, wanted) in each(back, [example for example in EXAMPLES if example.name != "late"]):
        want(f"{example.name} goes to Haskell and back", found == wanted, found[:300])
    with own_folder() as room:
        in_files(room, **{"Cruise.hs": (TOP / "examples/cruise/Cruise.hs").read_text()})
        in_files(room, core=call(room, "optimise", "Cruise.hs")[1])
        tool("haskell", "core", "--name", "fast", "--types", "Cruise.hs", "-o", "Fast.hs", folder=room)
        ran = call(room, "run", "Fast.hs", stream=(TOP / "examples/cruise/stream").read_bytes())
        want("with the types of a file", ran[1] == (TOP / "examples/cruise/output").read_text(), ran)


def try_all() -> None:
    mistakes_are_told()
    what_is_shown()
    bad_files_are_refused()
    sizes_are_no_matter()
    commands_take_files()
    networks_go_back()
