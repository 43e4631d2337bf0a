"""What isn't compiled is refused by its line and status, and nothing is printed; and what the words choose."""
from pathlib import Path

from compiling.making import Differs

TOP = Path(__file__).resolve().parents[2]
BOILER = TOP / "examples/boiler"
ZEROS = "(list Int" + " 0" * 64 + ")"


def nested(depth):
    """Collections in one another, from `Int` to `Int`: the state of each has room for 128 of what is in it."""
    if not depth:
        return "(delay 4096 0)"
    collection = f"(rpSwitchB (col {nested(depth - 1)}) (pair (list Int) (list Int)) (arr x))"
    return f"(>>> (arr (pair x (none Int))) (>>> {collection} (arr (len x))))"


FILES = {
    "good": "yampa 1 input Int identity",
    "lists": "yampa 1 input (List Int) identity",
    "nested": "yampa 1 input (List (List (List Int))) (iPre (list (List (List Int))))",
    "header": "yampa 3 input Int identity",
    "typed": "yampa 1 input Int (arr (add x true))",
    # A delay of lists of 64 numbers keeps 2,163,224 bytes: 31 have room in 64 MiB, 32 haven't.
    "large": f"yampa 1 input Int (>>> (arr {ZEROS}) " + f"(>>> (delay 4096 {ZEROS}) " * 40 + "identity" + ")" * 41,
    # Each keeps 128 times 16 bytes more than what is in it, and 8: from 65,560 bytes 8,393,736, and then 1,074,400,264.
    "many": "yampa 2 input Int " + nested(2),
    "fewer": "yampa 2 input Int " + nested(1),
    # 31 of those delays and 48,920 bytes: 64 MiB.
    "full": f"yampa 1 input Int (>>> (delay 3056 0) (>>> (arr {ZEROS}) " + f"(>>> (delay 4096 {ZEROS}) " * 31 + "identity" + ")" * 33,
    "square": "yampa 1 input (List (List Int)) (iPre (list (List Int)))",
}
# What is kept has room, and the state has 8 bytes more: 64 MiB; 2,895 lists of 2,895 numbers, each list with 8 bytes more.
FITTING = [(["full"], 67_108_872), (["--most", "2895", "square"], 67_071_376)]
LINES = [
    (["absent"], 3, "network: cannot be read"),
    (["header"], 1, "network: header"),
    (["typed"], 1, "network: mismatch in (at 0)"),
    (["--most", "0", "lists"], 2, "--most: no number"),
    (["--most", "32766", "lists"], 2, "--most: no number"),
    (["--most", "x", "lists"], 2, "--most: no number"),
    (["--name", "", "good"], 2, "--name: no name"),
    (["--name", "7up", "good"], 2, "--name: no name"),
    (["--name", "a-b", "good"], 2, "--name: no name"),
    (["--name", "a" * 33, "good"], 2, "--name: no name"),
    (["large"], 1, "network: state too large at (at" + " 1" * 9 + ")"),
    (["many"], 1, "network: state too large at (at 1 0)"),
    (["nested"], 1, "network: state too large at (at): give --most"),
    (["--most", "2896", "square"], 1, "network: state too large at (at)"),
]
WRONG = [[], ["good", "good"], ["--header"], ["--wrong", "good"], ["--name"], ["--most", "good"], ["--header", "--header", "good"]]


def tried(bench):
    for name, text in FILES.items():
        bench.file(name, text)
    for words, status, line in LINES:
        told = bench.compile(*words)
        if (told.status, told.output, told.error.decode()) != (status, b"", line + "\n"):
            raise Differs(f"compile {' '.join(words)[:200]} tells {told}, not {line}")
        bench.tally["refusals"] += 1
    for words, size in FITTING:
        told = bench.compile("--header", *words)
        if f"_STATE_BYTES {size}\n".encode() not in told.output:
            raise Differs(f"compile --header {' '.join(words)} has no {size}: {told}")
        bench.tally["refusals"] += 1
    for words in WRONG:
        told = bench.compile(*words)
        if told.status != 2 or told.output or not told.error:
            raise Differs(f"compile {' '.join(words)} tells {told}")
        bench.tally["refusals"] += 1
    bench.source("fewer.c", "fewer")
    if bench.compile("--header", "--no-main", "good") != bench.compile("good", "--header"):
        raise Differs("of both flags the declarations alone are printed")
    full = bench.ran(["sh", "-c", f"{bench.compiler} compile good > /dev/full"])
    if (full.error, full.status) != (b"output: cannot be written\n", 3):
        raise Differs(f"compile to /dev/full tells {full}")
    checked(bench)


def checked(bench):
    """`compile-checked` prints what `compile` prints of the second network, or refuses as `check` does."""
    files = [BOILER / name for name in ("net", "fast", "certificate")]
    told = bench.ran([bench.compiler, "compile-checked", *files])
    wanted = bench.compile(files[1])
    if told != wanted:
        raise Differs(f"compile-checked tells {told}, compile {wanted}")
    for wrong in ([files[1], files[0], files[2]], [files[0], files[1], "good"], [files[0], "absent", files[2]]):
        told, wanted = (bench.ran([bench.compiler, command, *wrong]) for command in ("compile-checked", "check"))
        if told != wanted:
            raise Differs(f"compile-checked tells {told}, check {wanted}")
        bench.tally["refusals"] += 1
