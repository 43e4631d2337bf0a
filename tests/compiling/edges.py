"""What random streams don't reach: the limits of lines, odd bytes, and streams that can't be read or written."""
import subprocess

from compiling.making import Differs, Told

NETWORKS = {
    "Int": b"yampa 1 input Int (>>> (arr (add x 1)) (iPre 0))",
    "Pair": b"yampa 1 input (Pair (Event Unit) (List Bool)) identity",
    "Bool": b"yampa 1 input Bool identity",
    "Unit": b"yampa 1 input Unit time",
}
WORDS = """5 -5 0 -0 -- --5 5- 5\r 05 00 -05 5x 5( 5) + = == 9223372036854775807 9223372036854775808 -9223372036854775808
-9223372036854775809 11111111111111111111111111111 11111111111111111111111111111a 00000000000000000000000000000000 unit units Unit
true truex false fals none none) (pair (pairs (pair) ( () ) (event) (event) (list) (list (pair\tnone\t(list)) \x00 \x80 \xff 5\x00 """.split(" ")
VALUES = """(pair none (list))|(pair none(list))|(pair (event unit) (list true false))|(pair (event unitt) (list))|(pair (event  unit) (list))
(pair (event unit) (list true,))|(pair (event unit)  (list))|(pair 5 (list))|(pair none (list 5))|(pair none (list true 99999999999999999999))
(pair none (list))x|(pair none (list)) |(pair none (list) )|(pair none (list |(pair none (list true|(pair none (list true |(pair none
 (pair none (list))|(pair none (list truefalse))|(pair none (list true)|(pair none (list -1))|(pair none (list  true))|(pair none ( list))
5 |6 7| 5|(pair 1 2)|(list 1 2)|false |false\t|true false|unit unit|-9223372036854775808 |(event unit)|(pair (event unit) (list unit))"""
STEPS = "+ ++1 +1 +1\t6|+0 6|+01 6|+1 6|+1  6|+1 =|+1 ==|+1 = |+1|+-1 6|+9223372036854775807 6|+9223372036854775808 6|+99999999999999999999 6|1 6|=|6||+1 "
# Of a stream with a million lines the next begins, and its end doesn't come.
OPEN = "mkfifo open; (cat few; yes '+1 =' | head -999998; printf +; exec sleep 60) > open & timeout 50 {} < open | tail -1; told=$?; kill $!; rm open; exit $told"
COMMANDS = ["{} > /dev/full < few", "{} >&- < few", "{} <&-", "{} < .", "{} < /dev/null", "cat few many | {} | head -1", "{} < many > /dev/full"]


def streams():
    """Streams at limits and with odd bytes."""
    yield from (word.encode("latin-1") for word in WORDS)
    yield from (value.encode() for value in VALUES.replace("\n", "|").split("|"))
    yield from (b"5\n" + step.encode() for step in STEPS.split("|"))
    yield from (b"unit\n+1 =\n" + step.encode() + b"\n+1 =\n" for step in STEPS.split("|"))
    yield from (b"\n", b"5\n\n", b"5\n+1 6", b"5\n+1 =\n+2 =", b"5\n+9223372036854775807 6\n+9223372036854775808 7", b"5\r\n", b"\0\n")
    yield from (b"5" * size + end for size in (65_535, 65_536, 65_537, 300_000) for end in (b"", b"\n", b"\n+1 6\n"))
    yield from (b"5\n+1 " + b"1" * size + b"\n+1 6\n" for size in (65_532, 65_533, 65_534))
    yield b"(pair none (list" + b" true" * 13_103 + b"))\n"


def many():
    """Streams of a million lines, and one more."""
    million = b"0\n" + b"+1 7\n" * 999_999
    return [million, million + b"+1 7\n", million + b"+", million + b"6" * 70_000, million[:-1]]


def tried(bench, name):
    net = bench.file("net", NETWORKS[name])
    built = bench.built("by-gcc", [bench.source("net.c", net, *(["--most", 13_103] if name == "Pair" else []))])
    for stream in [*streams(), *(many() if name == "Int" else [])]:
        bench.same(built, net, stream)
    bench.file("few", b"unit\n+1 =\n")
    bench.file("many", b"+1 =\n" * 400_000)
    for line in [*COMMANDS, *([OPEN] if name == "Unit" else [])]:
        wanted, told = (shell(bench, line.format(command)) for command in (f"{bench.program} run net", built))
        if wanted != told:
            raise Differs(f"`{line.format(built)}` tells {told}, run {wanted}")
        bench.tally["ways of standard streams"] += 1


def shell(bench, line):
    done = subprocess.run(["bash", "-c", f"set -o pipefail; {line}"], cwd=bench.folder, capture_output=True, check=False)
    return Told(done.stdout, done.stderr, done.returncode)
