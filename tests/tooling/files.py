"""Files of networks: core ones as they are laid out, and those of Haskell, which the wrapper sees by how they begin, and which commands and
tools answer in their names and lines."""
import os
import random
import re
import subprocess
from pathlib import Path

from model.texts import read_network
from workbench.origin import read_source
from workbench.program import again, call
from front.spell import columns, shown_type

from tooling.common import EXAMPLES, HASKELL, NUMBERS, TOP, each, in_files, in_folder, own_folder, tool, want

# ---- layout


def networks_are_expanded() -> None:
    for example, (status, output, error) in each(lambda example: tool("expand", "net", folder=example), EXAMPLES):
        same = not status and read_network(output.encode()) == read_network((example / "net").read_bytes())
        want(f"expand {example.name}", same, error or output)
    for path, (laid, flat) in each(lambda path: [tool("expand", *how, path) for how in ([], ["--flat"])], HASKELL):
        same = not laid[0] and not flat[0] and read_network(laid[1].encode()) == read_network(flat[1].encode())
        want(f"expand {path.name} to one network", same and flat[1].count("\n") == 3, laid[2] or flat[2])


def comments_in(data: bytes) -> list[bytes]:
    return sorted(comment.rstrip(b" \t\r") for comment in re.findall(rb";[^\n]*", data))


def files_are_laid_out() -> None:
    def laid_out(path: Path) -> tuple:
        told = tool("fmt", path)
        return told, in_folder(("fmt", "again"), again=told[1])

    paths = [path for name in ("net", "fast") for path in TOP.glob(f"examples/*/{name}") if path.stat().st_size < 20_000]
    for path, ((status, output, error), again_told) in each(laid_out, paths):
        name = f"fmt {path.parent.name}/{path.name}"
        lines = [line.partition(";")[0].rstrip() for line in output.splitlines()]
        want(name, not status and max(map(len, lines)) <= 100, error)
        want(name + " again", again_told[1] == output)
        comments = [comments_in(text) for text in (path.read_bytes(), output.encode())]
        want(name + " keeps comments", comments[0] == comments[1], comments)
        want(name + " keeps the network", read_network(output.encode()) == read_network(path.read_bytes()))


LAID_OUT = """; first
; number
; word
yampa 1
; type
; below
; given
input (Pair Int    ; tenths
            Bool)  ; moves
; net
(>>> (arr x)   ; as it is
     ; next
     (arr (add (fst x)  ; value
               1))
     ; end
)  ; behind
; left
"""
WRITTEN = "; first\nyampa ; number\n1 ; word\ninput ; type\n\n; below\n; given\n(Pair Int ; tenths\nBool) ; moves\n; net\n"
WRITTEN += "(>>> (arr x) ; as it is\n; next\n(arr (add (fst x) ; value\n1))\n; end\n) ; behind\n; left\n"
STRAY = [b" ; c\xc3\xa0\n", b"\n; one\n\n", b"\n\n; two\n;three \xe2\x80\xa6\n", b";\n", b"\r\n;x\r\n"]


def comments_are_kept() -> None:
    """Wherever they stand: each as it is, in a text with the same words, which is laid out as itself."""
    for example in [example for example in EXAMPLES if (example / "net").stat().st_size < 20_000]:
        chance = random.Random(example.name)
        pieces = re.findall(rb";[^\n]*\n|[()]|[^ \t\r\n();]+|[ \t\r\n]+", (example / "net").read_bytes())
        data = b"".join(piece + (chance.choice(STRAY) if chance.random() < 0.05 else b"") for piece in pieces)
        with own_folder() as room:
            in_files(room, net=data)
            told = tool("fmt", "--write", "net", folder=room)
            made = (room / "net").read_bytes()
            tool("fmt", "--write", "net", folder=room)
            want(f"comments of {example.name}", not told[0] and comments_in(made) == comments_in(data), told[2])
            want(f"words of {example.name}", words_in(made) == words_in(data))
            want(f"fmt of what is laid out of {example.name}", (room / "net").read_bytes() == made)
    found = in_folder(("fmt", "net"), net=WRITTEN)[1]
    want("comments in each place", re.sub(r" +;", " ;", found) == re.sub(r" +;", " ;", LAID_OUT), found)


def words_in(data: bytes) -> list[bytes]:
    return re.findall(rb"[()]|[^ \t\r\n();]+", re.sub(rb";[^\n]*", b"", data))


def deep_files_end() -> None:
    """Each within seconds, or with a line of what is wrong."""
    cases = [
        ("fmt", NUMBERS + "(>>> (arr (add x 1)) " * 250 + "time" + ")" * 250, 0),
        ("expand", NUMBERS + "(arr " + "(if (less x 1) 0 " * 250 + "x" + ")" * 251, 0),
        ("fmt", "".join(f"; comment {k}\n" for k in range(40_000)) + NUMBERS + "time", 0),
        ("fmt", NUMBERS + "(parB" + "".join(f" ; member {k}\n(arr {k})" for k in range(20_000)) + ")", 0),
        ("fmt", "yampa 1 input " + "(" * 1_000_000, 1),
    ]
    for (name, net, wanted), (status, _, error) in each(lambda case: quick_in_folder(case[0], case[1]), cases):
        want(f"{name} of {len(net)} bytes", status == wanted and error.count("\n") == status, error[:200])


def quick_in_folder(name: str, net: str) -> tuple:
    with own_folder() as room:
        in_files(room, net=net)
        return quick_tool(name, "net", folder=room)


# As long as a processor may take, however much it does beside.
MOST_SECONDS = 10


def quick_tool(*words: str, folder: Path, stream: bytes = b"") -> tuple[int, str, str]:
    """What a tool tells that may take no longer."""
    command = ["prlimit", f"--cpu={MOST_SECONDS}", str(TOP / "tools/tool"), *words]
    ran = subprocess.run(command, cwd=folder, input=stream, capture_output=True, timeout=600, check=False)
    return ran.returncode, ran.stdout.decode(), ran.stderr.decode()


# ---- files of Haskell where networks stand

CAR = """module Car where
import Yampa.Whole
data Car = Car { speed :: Int, pedal :: Bool }
car :: SF Car Bool
car = arr fast >>> late
fast :: Car -> Bool
fast c = speed c > 10
late :: SF Bool Bool
late = iPre False
"""
LINES = CAR.count("\n")


def call_wrapper(room: Path, *words: str, stream: bytes = b"") -> tuple:
    """What tools/sourced answers, which the wrapper calls for files of Haskell."""
    ran = subprocess.run([TOP / "tools/sourced", os.environ["YAMPA"], *words], cwd=room, input=stream, capture_output=True, timeout=120, check=False)
    return ran.returncode, ran.stdout.decode(), ran.stderr.decode()


def old_files_are_refused() -> None:
    """A version that isn't known is told as the program tells it, with its place by `explain`."""
    old = "yampa source 1\ninput Int\ntime\n"
    with own_folder() as room:
        in_files(room, net=old, stream="5\n")
        for words in (["types", "net"], ["run", "net"], ["check", "net", "net", "net"]):
            found = call_wrapper(room, *words)
            want(f"{words[0]} of an old file", found == (1, "", f"{'source' if words[0] == 'check' else 'network'}: header\n"), found)
        for words in (["fmt", "net"], ["expand", "net"]):
            found = tool(*words, folder=room)
            want(f"{words[0]} of an old file", found == (1, "", f"yampa {words[0]}: net:1:7: behind yampa stands the version, 1 or 2\n"), found)
        found = tool("explain", "net", folder=room)
        want("explain an old file", found[0] == 1 and "net:1:7: behind yampa stands the version, 1 or 2\n" in found[1], found)


# What is stated of the network, and what is told of it.
STATED = [
    ("a :: Guarantee Car Bool\na = arr (\\(c, b) -> c + b)", ":2:21: what stands left of + must be an Int here, and this is a Car"),
    ("a :: Assume Car\na = arr (\\c -> pedal c < 1)", ":2:26: what stands right of < must be a Bool here, and this is an Int"),
    ("a :: Invariant Car Bool\na = arr fst", ":2:9: "),
    ("a :: Guarantee Car Bool\na = arr snd\na :: Guarantee Car Bool\na = arr snd", ":4:1: a is defined twice"),
]


def stated_definitions_are_typed() -> None:
    """What is stated of a network is taken by `types` only where it has its type."""
    with own_folder() as room:
        in_files(room, **{"Car.hs": CAR + "a :: Assume Car\na = arr pedal\nb :: Guarantee Car Bool\nb = arr (\\(c, f) -> f || speed c < 99)\n"})
        found = call_wrapper(room, "types", "Car.hs")
        want("stated definitions", found == (0, "Car -> Bool\nweight 3\nheight 2\n", ""), found)
        for stated, wanted in STATED:
            in_files(room, **{"Car.hs": CAR + stated + "\n"})
            status, output, error = call_wrapper(room, "types", "Car.hs")
            line, place = (int(part) for part in wanted.split(":")[1:3])
            told = f"Car.hs:{LINES + line}:{place}:{wanted.split(':', 3)[3]}"
            want(stated, status == 1 and not output and any(one.startswith(told) for one in error.splitlines()), error)


BEGINNINGS = {
    b"-- A module.\nmodule One where": True,
    b"{-# LANGUAGE Arrows #-}\nmodule One where": True,
    b"\xef\xbb\xbfmodule One where": True,
    b"module One where": True,
    b" " * 60 + b"module One where": True,
    b"\n" * 200 + b"module One where": True,
    b"modules": False,
    b"yampa 1\ninput Int time": False,
    b"; module One where\nyampa 2": False,
    b"yampa source 1\ninput Int time": False,
    b"laws 1\n": False,
    b"\0\xff\xfe": False,
    b"": False,
}


def beginnings_are_seen() -> None:
    """The wrapper looks at a file's beginning alone."""
    wrapper = (TOP / "yampa").read_text(encoding="utf-8")
    script = re.search(r"^needs_front_end\(\) \{\n.*?^\}\n", wrapper, re.M | re.S).group()
    with own_folder() as room:
        for data, wanted in BEGINNINGS.items():
            in_files(room, net=data)
            ran = subprocess.run(["bash", "-c", script + 'needs_front_end "$0"', str(room / "net")], capture_output=True, timeout=60, check=False)
            want(f"the beginning {data[:30]!r}", (ran.returncode == 0) == wanted and not ran.stderr, ran)


def commands_take_files() -> None:
    step = "(step L2 backward (at 1) (>>> (iPre false) (arr x)))"
    with own_folder() as room:
        in_files(room, **{"Car.hs": CAR, "certificate": f"laws 1 {step}"})
        want("run", call_wrapper(room, "run", "Car.hs", stream=b"(pair 11 true)\n+1 (pair 5 true)\n")[:2] == (0, "false\ntrue\n"))
        status, output, _ = call_wrapper(room, "outline", "Car.hs")
        want("outline", not status and re.search(r"^  \(at 0\)\tarr\tBool\t1\t; Car\.hs:7:10$", output, re.M), output)
        status, output, _ = call_wrapper(room, "laws", "Car.hs")
        want("laws", output and not status and all(line.startswith(("- ", "+ ")) or " ; Car.hs:" in line for line in output.splitlines()), output)
        want("certify", call_wrapper(room, "certify", "Car.hs", "Car.hs")[:2] == (0, "laws 1\n"))
        found = call_wrapper(room, "apply", "--steps", "Car.hs", "certificate")
        want("apply", found == (0, f"{step}\n- (iPre false)\n+ (>>> (iPre false) (arr x))\n", ""), found)
        want("no such file", call_wrapper(room, "certify", "Car.hs", "nofile")[0] == 3)


def examples_run() -> None:
    """Each example's file of Haskell runs as its stream and output say, and a network beside it has the same types."""

    def told(path: Path) -> list:
        stream = (path.parent / "stream").read_bytes()
        kept = call(["types", again(str(path))]).output
        return [call_wrapper(path.parent, "run", path.name, stream=stream), kept, call(["types", str(path.parent / "net")]).output]

    for path, (ran, types, others) in each(told, HASKELL):
        want(f"run {path.name}", ran == (0, (path.parent / "output").read_text(), ""), ran[2])
        want(f"types of {path.name}", types.partition(b"\n")[0] == others.partition(b"\n")[0] or not others, types)


def places_are_known() -> None:
    with own_folder() as room:
        (path,) = in_files(room, **{"Car.hs": CAR})
        program = read_source(str(path))
        places = {position: str(program.place_of(position)) for position in [(0,), (1,)]}
        want("places", all(re.fullmatch(r".*Car\.hs:\d+:\d+( \w+)?", place) for place in places.values()), places)
        want("a place in its definition", places[(0,)].endswith("Car.hs:7:10"), places)
        want("the input", shown_type(program.input) == "Car")
        want("columns", [name for name, _ in columns(program.input)] == ["speed", "pedal"])
    want("a plain network", str(read_source(str(TOP / "examples/increment/net")).place_of((1,))).endswith("net:4:22"))


# ---- every tool, on files that are as large as what people write

LARGE = ["cruise", "arcade", "junction", "sensors"]
CALLS = [["expand", "FILE"], ["explain", "FILE", "stream"], ["watch", "FILE", "--at", "0"], ["timed", "FILE"], ["csv", "--back", "--input", "FILE"], ["compare", "FILE", "net"]]


def large_files_end() -> None:
    def told(case: tuple) -> tuple:
        path, words = case
        words = [word.replace("FILE", path.name) for word in words]
        return quick_tool(*words, stream=(path.parent / "stream").read_bytes(), folder=path.parent)

    large = [path for path in HASKELL if path.parent.name in LARGE]
    want("files that are large", len(large) == len(LARGE))
    for (path, words), (status, _, error) in each(told, [(path, words) for path in large for words in CALLS]):
        want(f"{' '.join(words)} of {path.name}", status == 0 and not error, error)


def try_all() -> None:
    networks_are_expanded()
    files_are_laid_out()
    comments_are_kept()
    deep_files_end()
    old_files_are_refused()
    stated_definitions_are_typed()
    beginnings_are_seen()
    commands_take_files()
    examples_run()
    places_are_known()
    large_files_end()
