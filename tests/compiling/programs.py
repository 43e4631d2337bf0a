"""Programs that compiled networks are part of: several networks and instances, in C and C++, and the boiler's plant; and large
networks."""
import re
from pathlib import Path

from compiling.making import COMPILERS, STRICT, Differs, is_here
from searching.families import families

TOP = Path(__file__).resolve().parents[2]
BOILER = TOP / "examples/boiler"
NETWORKS = {
    "sums": b"yampa 1 input Int (loopPre 0 (arr (then (add (fst x) (snd x)) (pair x x))))",
    "held": b"yampa 2 input (Pair Int (Event Int)) (drSwitch integral (>>> (arr (mul x (p 0))) (iPre (p 0))))",
}
SAMPLES, RESTART = 20, 12
# What the compiler itself may call for copies and zeros.
CALLED = {"memcpy", "memset", "memmove", "_GLOBAL_OFFSET_TABLE_", "__stack_chk_fail"}


def sources(bench):
    """The two networks' C and headers, without a filter."""
    found = []
    for name, text in NETWORKS.items():
        net = bench.file(f"{name}-net", text)
        found.append(bench.source(f"{name}.c", "--no-main", "--name", name, net))
        bench.source(f"{name}.h", "--header", "--name", name, net)
    return found


def wanted(bench):
    """What the instances must write, by `run` of each network on each instance's stream."""
    rows = {}
    for i in range(2):
        numbers = [n * (i + 1) - 7 for n in range(SAMPLES)]
        pieces = [numbers] if i == 0 else [numbers[:RESTART], numbers[RESTART:]]
        sums = [line for piece in pieces for line in told(bench, "sums", [(i + 1, n) for n in piece])]
        events = [f"(event {100 * i + n})" if n % (4 + i) == 3 else "none" for n in range(SAMPLES)]
        held = told(bench, "held", [(3 - i, f"(pair {n} {event})") for n, event in enumerate(events)])
        rows[i] = [f"{i} sums {sum_} held {answer}\n" for sum_, answer in zip(sums, held)]
    return "".join(row for pair in zip(rows[0], rows[1]) for row in pair).encode()


def told(bench, name, samples):
    """What `run` outputs on samples, each a step and a value."""
    stream = "".join((f"+{step} " if at else "") + f"{value}\n" for at, (step, value) in enumerate(samples))
    done = bench.run(f"{name}-net", stream.encode())
    if done.status:
        raise Differs(f"run of {name} tells {done}")
    return done.output.decode().split("\n")[:-1]


def writes(bench, built, output):
    done = bench.ran([built])
    if (done.output, done.error, done.status) != (output, b"", 0):
        raise Differs(f"{built.name} tells {done}, not {output}")
    bench.tally["programs"] += 1


def instances(bench):
    """Two instances each of two networks, whose C is compiled by itself, called from C and from C++."""
    found = sources(bench)
    driver = bench.file("instances.c", (TOP / "tests/compiling/instances.c").read_bytes())
    writes(bench, bench.built("in-c", [driver, *found], None, "-I."), wanted(bench))
    if is_here("g++"):
        for source in found:
            bench.built(f"{source.stem}.o", [source], None, "-c")
        objects = ["-x", "none", *[bench.folder / f"{source.stem}.o" for source in found]]
        writes(bench, bench.built("in-c++", [driver, *objects], "g++", "-I."), wanted(bench))


def in_one_file(bench):
    """The same in one file, whose networks have their names alone to themselves; and behind their headers."""
    found = sources(bench)
    driver = (TOP / "tests/compiling/instances.c").read_bytes()
    whole = b"".join(source.read_bytes() for source in found) + b"#define IN_ONE_FILE\n" + driver
    headers = b"".join(source.with_suffix(".h").read_bytes() for source in found)
    for name, text in {"one": whole, "behind": headers + whole}.items():
        for by in COMPILERS:
            if is_here(by):
                writes(bench, bench.built(f"{name}-{by}", [bench.file(f"{name}.c", text)], by), wanted(bench))


def objects(bench):
    """An object file has two functions for others, no variables, and calls nothing but copies of memory."""
    for net in (BOILER / "net", TOP / "examples/invaders/net", TOP / "examples/filters/net"):
        source = bench.source("object.c", "--no-main", "--name", "seen", net)
        bench.built("object.o", [source], None, "-c")
        names = [line.split()[-2:] for line in bench.ran(["nm", "object.o"]).output.decode().splitlines()]
        shared = {re.sub(r"_[0-9a-f]{16}$", "", name) for kind, name in names if kind == "T"}
        variables = {name for kind, name in names if kind in "bBdDC"}
        called = {name for kind, name in names if kind == "U"}
        if shared != {"seen_init", "seen_step"} or variables or called - CALLED:
            raise Differs(f"{net}: an object file has {names}")
        bench.tally["object files"] += 1


def plant(bench):
    """The boiler's plant is built as its file says, writes what stands beside it, and its controller does as `run` does."""
    text = (BOILER / "plant/plant.c").read_text()
    commands = [line.strip() for line in text.split("*/")[0].splitlines() if line.startswith("       ")]
    for line in commands[:-1]:
        line = line.replace("./yampa", str(bench.compiler)).replace("examples/", f"{TOP}/examples/").replace("cc ", f"cc {' '.join(STRICT)} ")
        done = bench.ran(["sh", "-c", line])
        if done.status or done.error:
            raise Differs(f"`{line}` tells {done}")
    output = (BOILER / "plant/output").read_bytes()
    writes(bench, bench.folder / commands[-1][2:], output)
    rows = [re.fullmatch(r" ?\d+: warmth (\d+), pressure (\d+): heat (\d+)(, alarm)?", line).groups() for line in output.decode().splitlines()]
    stream = "".join(("+60 " if at else "") + f"(pair {warmth} {pressure})\n" for at, (warmth, pressure, *_) in enumerate(rows))
    answers = "".join(f"(pair {heat} {'true' if alarm else 'false'})\n" for *_, heat, alarm in rows)
    if bench.run(BOILER / "net", stream.encode()).output.decode() != answers:
        raise Differs("run tells something else of what the plant's sensors tell")


def large(bench):
    """Networks as large as files may hold are compiled, with 8 MiB of stack."""
    for name, text in families().items():
        bench.file("large", text)
        done = bench.ran(["sh", "-c", f"ulimit -s 8192; exec {bench.compiler} compile large > large.c"])
        if done.status or done.error:
            raise Differs(f"compile of {name} tells {done}")
        bench.tally["large networks"] += 1


CASES = [instances, in_one_file, objects, plant, large]
