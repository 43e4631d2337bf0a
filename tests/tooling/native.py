"""Networks run as compiled programs."""
import os
import subprocess
from pathlib import Path

from tooling.common import EXAMPLES, NUMBERS, TOP, each, in_files, own_folder, stream_of, tool, want
from workbench.ending import Refused
from workbench.stacks import deepest

PATH = os.environ["PATH"]
# Lists of lists of numbers, of which each is as large as its room: with 1,000 elements 8,008,008 bytes, more than most limits of a stack.
LISTS = "yampa 1 input (List (List Int)) (arr (if (less 3 (len x)) x (list (List Int) (list Int 5))))"
# What gcc tells of four functions, of which `main` calls all: the frames along its longest chain are 16 + 32 + 40.
GRAPH = r"""graph: { title: "n.c"
node: { title: "n.c:low" label: "low\nn.c:1:1\n40 bytes (static)" }
node: { title: "n.c:left" label: "left\nn.c:2:1\n8 bytes (static)" }
edge: { sourcename: "n.c:left" targetname: "n.c:low" label: "n.c:2:9" }
node: { title: "n.c:right" label: "right\nn.c:3:1\n32 bytes (dynamic,bounded)" }
edge: { sourcename: "n.c:right" targetname: "n.c:low" }
edge: { sourcename: "n.c:right" targetname: "memset" }
node: { title: "memset" label: "__builtin_memset\n<built-in>" shape : ellipse }
node: { title: "main" label: "main\nn.c:4:1\n16 bytes (static)" }
edge: { sourcename: "main" targetname: "n.c:left" label: "n.c:4:9" }
edge: { sourcename: "main" targetname: "n.c:right" label: "n.c:5:9" }
}
"""


def runs_as_the_program(cache: Path) -> None:
    """Each example tells what `run` does, at first compiled and then kept."""
    for _ in range(2):
        told = each(lambda example: tool("native", "net", stream=stream_of(example), folder=example, XDG_CACHE_HOME=str(cache)), EXAMPLES)
        for example, found in told:
            status, error = ((example / name).read_text() if (example / name).exists() else "" for name in ("status", "error"))
            wanted = int(status or 0), (example / "output").read_text(), error
            want(f"native {example.name}", found == wanted, found)
    kept = [path.name for path in (cache / "yampa").iterdir() if path.name.startswith("native-") and not path.suffix]
    want("native keeps a program a network", len(kept) == len(EXAMPLES), kept)


def what_is_refused(folder: Path, cache: Path) -> None:
    net, haskell, lists, wrong = in_files(
        folder,
        net=NUMBERS + "(arr (add x 1))",
        haskell="module One where\nimport Yampa.Whole\none :: SF Int Int\none = arr (+ 1)\n",
        lists="yampa 1 input (List Int) identity",
        wrong=NUMBERS + "(arr (add x true))",
    )
    settings = {"XDG_CACHE_HOME": str(cache)}
    want("native of Haskell", tool("native", haskell, stream="5\n", **settings) == (0, "6\n", ""))
    want("native of a faulty line", tool("native", net, stream="5\n6\n", **settings) == (1, "6\n", "stream: line 2: step\n"))
    want("native of a longer list", tool("native", lists, "--most", 2, stream="(list 1 2 3)\n", **settings)[0] == 1)
    want("native of a wrong network", tool("native", wrong, **settings) == (1, "", "network: mismatch in (at 0)\n"))
    want("native of no file", tool("native", folder / "absent", **settings) == (3, "", "network: cannot be read\n"))
    found = tool("native", net, stream="7\n", XDG_CACHE_HOME=str(folder / "other"), CC="no-such-compiler")
    want("native without a compiler", found[0] == 3 and "no-such-compiler" in found[2] and found[2].count("\n") == 1, found)
    found = tool("native", net, stream="7\n", XDG_CACHE_HOME="/dev/null", PATH=PATH)
    want("native without a cache", found == (0, "8\n", ""), found)


def limited(limit: str, *words: object, **settings: str) -> tuple[int, str, str]:
    """What `native` tells of one sample where the limits of the stack are these, the soft one and the hard one."""
    command = ["prlimit", f"--stack={limit}", TOP / "tools/tool", "native", *words]
    env = {**os.environ, **settings}
    ran = subprocess.run([*map(str, command)], input=b"(list (list 6))\n", capture_output=True, env=env, timeout=120, check=False)
    return ran.returncode, ran.stdout.decode(), ran.stderr.decode()


def counts_the_longest_chain() -> None:
    want("stacks of a graph", deepest(GRAPH) == {"n.c:low": 40, "n.c:left": 48, "n.c:right": 72, "main": 88}, deepest(GRAPH))
    for name, old, new in [("low", '"n.c:left" targetname', '"n.c:low" targetname'), ("right", "dynamic,bounded", "dynamic")]:
        try:
            want(f"stacks of {name}", False, deepest(GRAPH.replace(old, new)))
        except Refused as refused:
            want(f"stacks of {name}", f"n.c:{name}" in str(refused), refused)


def takes_much_stack(folder: Path, cache: Path) -> None:
    """Values that are larger than the stack may be at first: 9 MB each, of which a step holds more than one."""
    net, other = in_files(folder, large=LISTS, other='#!/bin/sh\ncase "$*" in *callgraph*) exit 1 ;; *) exec cc "$@" ;; esac\n')
    other.chmod(0o755)
    settings, soft = {"XDG_CACHE_HOME": str(cache)}, 8 << 20
    status, printed, error = tool("native", "--stack", "--most", 1000, net, **settings)
    rows = dict(line.split() for line in printed.splitlines())
    want("native --stack", (status, list(rows), error) == (0, ["yampa_init", "yampa_step", "main"], ""), (printed, error))
    want("native --stack counts values", int(rows["yampa_init"]) < 1000 < 2 * 8_008_008 < min(int(rows[name]) for name in ["yampa_step", "main"]))
    found = limited(f"{soft}:", "--most", 1000, net, **settings)
    want("native raises the limit", found == (0, "(list (list 5))\n", ""), found)
    found = limited(f"{soft}:{soft}", "--most", 1000, net, **settings)
    want("native over the limit", found[:2] == (3, "") and f"memory: {rows['main']} bytes" in found[2] and found[2].count("\n") == 1, found)
    found = limited(f"{soft}:", "--most", 1000, net, CC=str(other), **settings)
    want("native without a measure", found[:2] == (3, "") and "signal 11" in found[2] and found[2].count("\n") == 1, found)
    found = tool("native", "--most", 20_000, net, **settings)
    want("native of too large values", found[:2] == (3, "") and "--most" in found[2] and found[2].count("\n") == 1, found)
    found = tool("native", "--stack", net, "--most", 2, CC=str(other), **settings)
    want("native --stack without gcc", found[:2] == (3, "") and "gcc" in found[2] and found[2].count("\n") == 1, found)


def at_the_limits(folder: Path, cache: Path) -> None:
    """The longest list of numbers that a line holds, and nearly as large a state as is printed: 31 times 2,163,224 bytes; 32 times is more
    than 64 MiB."""
    zeros = f"(list Int{' 0' * 64})"
    states = {f"state{count}": f"{NUMBERS}(>>> (arr {zeros}) " + f"(>>> (delay 4096 {zeros}) " * count + "identity" + ")" * (count + 1) for count in (31, 32)}
    lists, large, larger = in_files(folder, longest="yampa 1 input (List Int) (iPre (list Int))", **states)
    long, settings = f"(list{' 7' * 32_765})\n", {"XDG_CACHE_HOME": str(cache)}
    found = tool("native", lists, stream=long + "+1 (list)\n", **settings)
    want("native of the longest list", found == (0, "(list)\n" + long, ""), found)
    found = tool("native", large, stream="5\n+1 6\n", **settings)
    want("native of a large state", found == (0, f"(list{' 0' * 64})\n" * 2, ""), found)
    found = tool("native", larger, stream="5\n", **settings)
    want("native of a larger state", found == (1, "", "network: state too large at (at 1)\n"), found)


# What the program that steps Parts by its names prints, worked out by hand from the file's text.
STEPPED = """11111 light 1 of 1 (1 -2) (3 4) perhaps 1 2 shape 2 side 3 at 5 plain 1 12 bell 0 shapes 2 8 before 0 0
00101 light 0 of 1 (1 -2) (3 4) perhaps 0 -1 shape 1 side 0 at 0 plain 1 12 bell 1 shapes 2 8 before 1 2
"""
# Names that gcc defines, or that the first part of a header has.
STRANGE = """module Strange where
import Yampa.Whole
data Mode = STATE_BYTES | Other
data R = R { linux :: Int, unix :: Mode, while :: Bool }
strange :: SF R Mode
strange = arr unix
"""
WARNINGS = "-Wall -Wextra -Wpedantic -Wconversion -Wsign-conversion -Wshadow -Werror".split()


def compiled(*words: object) -> str:
    """The C that the wrapper's call prints."""
    ran = subprocess.run([TOP / "tools/sourced", os.environ["YAMPA"], *map(str, words)], capture_output=True, timeout=120, check=False)
    want(f"{words[0]} {words[-1]}", (ran.returncode, ran.stderr) == (0, b""), ran)
    return ran.stdout.decode()


def names_in_c(folder: Path) -> None:
    """A header of a file of Haskell has its names, by which the network is stepped, and comments say where things come from."""
    parts = Path(__file__).parent / "named"
    header, code = [compiled("compile", option, "--name", "named", "--most", 16, parts / "Parts.hs") for option in ("--header", "--no-main")]
    want("a function's place in C", "Parts.hs:20:12 last_: (Event " in code, code)
    (folder / "named.h").write_text(header)
    (folder / "named.c").write_text(code)
    sources, made = [str(parts / "parts.c"), str(folder / "named.c")], str(folder / "named")
    for way in (["gcc", "-std=c99"], ["g++", "-x", "c++", "-std=c++11"]):
        ran = subprocess.run([*way, *WARNINGS, f"-I{folder}", "-o", made, *sources], capture_output=True, text=True, check=False)
        want(f"names in C by {way[0]}", (ran.returncode, ran.stderr) == (0, ""), ran.stderr)
        ran = subprocess.run([made], capture_output=True, text=True, check=False)
        want(f"steps by names, by {way[0]}", (ran.returncode, ran.stdout) == (0, STEPPED), ran)
    derived_names(folder, parts / "Parts.hs")
    strange, = in_files(folder, **{"Strange.hs": STRANGE})
    (folder / "strange.h").write_text(compiled("compile", "--header", "--name", "strange", strange))
    ran = subprocess.run(["gcc", "-fsyntax-only", *WARNINGS, "-x", "c", folder / "strange.h"], capture_output=True, text=True, check=False)
    want("names that C has", (ran.returncode, ran.stderr) == (0, ""), ran.stderr)
    plain, = in_files(folder, **{"Plain.hs": "module Plain where\nimport Yampa.Whole\nplain :: SF Int Int\nplain = iPre 0\n"})
    want("a header without names", "step_named" not in compiled("compile", "--header", plain))


def derived_names(folder: Path, source: Path) -> None:
    """A target that is no file of Haskell has the names of its source in C, but no places."""
    net = folder / "net"
    net.write_text(tool("expand", "--flat", source)[1])
    target, steps = [subprocess.run([os.environ["YAMPA"], "optimise", net, *words], capture_output=True, check=True).stdout for words in ([], ["--certificate"])]
    made = in_files(folder, target=target, steps=steps)
    header = compiled("compile-checked", "--header", source, *made)
    want("names of a source in its target's C", "yampa_step_named" in header and "Parts.hs:" not in header, header)


def try_all() -> None:
    counts_the_longest_chain()
    with own_folder() as folder:
        cache = folder / "cache"
        runs_as_the_program(cache)
        what_is_refused(folder, cache)
        takes_much_stack(folder, cache)
        at_the_limits(folder, cache)
        names_in_c(folder)
