"""A step refuses what it can't take; a header and a file of C of two networks don't link; and what the first comment says."""
import re
from pathlib import Path

from compiling.making import COMPILERS, SANITIZED, Differs, is_here

TOP = Path(__file__).resolve().parents[2]
DRIVER = TOP / "tests/compiling/checked.c"
NETWORKS = {
    "sums": b"yampa 1 input Int (&&& integral time)",
    # What `lists` answers is how many lists the sample before had, 7 at the first.
    "lists": b"yampa 1 input (List (List Int)) (>>> (arr (len x)) (iPre 7))",
}
# Worked out by hand: `sums` gets fives.
ROWS = b"""first -1 0 0
then 3 15 3
then 0 refused
then -1 refused
then least refused
then 3 30 6
first 0 0 0
then 1 5 1
three at first refused
two 7
three refused
most refused
three in the first refused
three in the second refused
three behind the end 2
none 1
two 0
"""
# Steps of 1, 3, 0 and 3 without tests: at 0 the network starts anew. Then two lists of three, where two have room.
UNCHECKED = b"""
#include <stdio.h>
#include <string.h>
#include "sums.h"
#include "lists.h"

int main(void)
{
    static const int64_t steps[] = {1, 3, 0, 3};
    const sums_input five = 5;
    struct sums_state sum;
    struct lists_state list;
    lists_input input;
    sums_init(&sum);
    lists_init(&list);
    memset(&input, 0, sizeof input);
    input.n = 3;
    for (int i = 0; i < 4; i++) {
        sums_output output;
        sums_step(&sum, steps[i], &five, &output);
        printf("%d %d\\n", (int)output.a, (int)output.b);
    }
    for (int i = 0; i < 2; i++) {
        lists_output output;
        lists_step(&list, 1, &input, &output);
        printf("%d\\n", (int)output);
    }
    return 0;
}
"""
UNTESTED = b"""0 0
15 3
0 0
15 3
7
3
"""
COLUMNS = 100
LONG = "(>>> (arr (add x 1)) " * 40 + "(arr x)" + ")" * 40


def words_of(name, *words):
    return ["--name", name, *(["--most", "2"] if name == "lists" else []), *words]


def sources(bench, *words):
    """The two networks' C and headers."""
    found = []
    for name, text in NETWORKS.items():
        net = bench.file(f"{name}-net", text)
        found.append(bench.source(f"{name}.c", "--no-main", *words_of(name, *words), net))
        bench.source(f"{name}.h", "--header", *words_of(name, *words), net)
    return found


def steps(bench):
    """What each step does and refuses, by each compiler."""
    found = sources(bench)
    driver = bench.file("checked.c", DRIVER.read_bytes())
    for by in [*(name for name in COMPILERS if is_here(name)), SANITIZED]:
        name = by if isinstance(by, str) else "sanitized"
        if name.endswith("++"):
            made = [bench.built(f"{source.stem}-{name}.o", [source], by, "-c") for source in found]
            built = bench.built(f"by-{name}", [driver, "-x", "none", *made], by, "-I.")
        else:
            built = bench.built(f"by-{name}", [driver, *found], by, "-I.")
        told = bench.ran([built])
        if (told.output, told.error, told.status) != (ROWS, b"", 0):
            raise Differs(f"by {name} the steps tell {told.output.decode()}")
        bench.tally["checked steps"] += ROWS.count(b"\n")


def unchecked(bench):
    """With `--unchecked` a step returns nothing, and tests nothing."""
    for words, type_ in (([], "bool"), (["--unchecked"], "void")):
        found = sources(bench, *words)
        text = "#include \"lists.h\"\nextern %s (*pointed)(struct lists_state *, int64_t, const lists_input *, lists_output *);\n" % type_
        text += f"{type_} (*pointed)(struct lists_state *, int64_t, const lists_input *, lists_output *) = lists_step;\n"
        bench.built("step.o", [bench.file("step.c", text)], None, "-c", "-I.")
    told = bench.ran([bench.built("unchecked", [bench.file("unchecked.c", UNCHECKED), *found], None, "-I.")])
    if (told.output, told.error, told.status) != (UNTESTED, b"", 0):
        raise Differs(f"unchecked steps tell {told.output.decode()}")
    bench.tally["unchecked steps"] += UNTESTED.count(b"\n")


def stale(bench):
    """The C doesn't link behind a header of another network or of other options; nor is a larger state taken."""
    sources(bench)
    other, net = bench.file("other-net", b"yampa 1 input Int (&&& integral (>>> time (arr x)))"), bench.folder / "sums-net"
    caller = bench.file("caller.c", '#include "sums.h"\nint main(void) { struct sums_state s; sums_init(&s); return 0; }\n')
    kinds = {"another network": [other], "other lists": ["--most", "3", net], "no tests": ["--unchecked", net], "the same": [net]}
    for name, words in kinds.items():
        source = bench.source("newer.c", "--no-main", "--name", "sums", *words)
        done = bench.ran(["gcc", "-std=c99", "-I.", "-o", "stale", caller, source])
        if (done.status == 0) != (name == "the same") or (done.status and b"undefined reference to `sums_init_" not in done.error):
            raise Differs(f"a header beside {name} tells {done}")
        bench.tally["stale headers"] += done.status != 0
    smaller = re.sub(rb"(_STATE_BYTES) \d+", rb"\1 1", source.read_bytes())
    if bench.ran(["gcc", "-std=c99", "-c", "-o", "small.o", bench.file("small.c", smaller)]).status == 0:
        raise Differs("a state is taken that has more bytes than is told")


def comment(bench):
    """The first comment has at most 100 columns, but for a word that is longer; it has the network, and its sum is in the names."""
    for given, net in {"Int": LONG, f"(List {'(Pair Int ' * 30}Int{')' * 30})": "(arr x)"}.items():
        file = bench.file("net", f"yampa 1\ninput {given}\n{net}\n")
        text = bench.compile("--unchecked", "--name", "told", "--most", "9", file).output.decode()
        about = text[: text.index("*/") + 3]
        sum_ = 14695981039346656037
        for byte in about.encode():
            sum_ = (sum_ ^ byte) * 1099511628211 % 2**64
        if set(re.findall(r"told_(?:init|step)_([0-9a-f]{16})\b", text)) != {f"{sum_:016x}"}:
            raise Differs(f"the names don't have the sum {sum_:016x}")
        if ":\n * `yampa compile --name told --most 9 --unchecked`, of the network\n" not in about:
            raise Differs("the options aren't in the first comment")
        network = about.split("of the network\n *\n * ")[1].split("\n * \n")[0]
        if max(map(len, f" * {network}".split("\n"))) > COLUMNS or network.replace("\n * ", " ") != f"yampa 1 input {given} {net}":
            raise Differs(f"the comment has the network {network}")
        bench.tally["first comments"] += 1


CASES = [steps, unchecked, stale, comment]
