"""Tables become streams and streams tables; outputs become streams; lines are made tidy."""
from workbench.recording import lines_of

from tooling.common import EXAMPLES, NUMBERS, TOP, WHOLE, each, in_files, own_folder, stream_of, tool, want

TABLE_MISTAKES = [
    ("", "the table is empty"),
    ("time,y\n0,5\n", "row 1: the column x is missing"),
    ("time,x.0\n0,5\n", "row 1: the column x is missing"),
    ("time,x\n0,5\n0,6\n", "row 3, column time: times rise, and 0 doesn't"),
    ("time,x\n0,5\nlate,6\n", "row 3, column time: late is no time"),
    ("time,x\n0,5\n1.5,6\n", "row 3, column time: 1.5 is no whole number of ticks"),
    ("time,x\n0,5\n1,a\n", "row 3, column x: a is no Int"),
    ("time,x\n0,5\n1\n", "row 3: it has 1 cells, and the first row 2"),
]


def spelt_out(stream):
    """The stream with each value in the place of `=`."""
    lines, before = stream.decode().splitlines(), ""
    for number, line in enumerate(lines):
        step, _, value = line.partition(" ") if line.startswith("+") else ("", "", line)
        if value == "=":
            lines[number] = f"{step} {before}"
        else:
            before = value
    return "".join(line + "\n" for line in lines)


def tables_go_there_and_back(folder):
    def there_and_back(example):
        there = tool("csv", "--back", "--input", "net", stream=stream_of(example), folder=example)
        return there, tool("csv", "net", stream=there[1], folder=example)

    for example, (there, back) in each(there_and_back, WHOLE):
        want(f"csv {example.name}", back[:2] == (0, spelt_out(stream_of(example))), there[2] + back[1] + back[2])
    (net,) = in_files(folder, net=NUMBERS + "(arr x)")
    for (table, wanted), (status, output, error) in each(lambda bad: tool("csv", net, stream=bad[0]), TABLE_MISTAKES):
        want(f"bad table {wanted}", status == 1 and output in ("", "5\n") and wanted in error and error.count("\n") == 1, error)
    want("ticks", tool("csv", net, "--ticks", "10", stream="time,x\n2,5\n3.5,6\n")[1] == "5\n+15 6\n")
    want("back with a start", tool("csv", "--back", net, "--ticks", "10", "--start", "2", stream="5\n+15 6\n")[1] == "time,x\n2,5\n3.5,6\n")


def untidy(stream):
    return b"\xef\xbb\xbf" + stream.replace(b"\n", b" \r\n\r\n; a comment\n")


def outputs_are_streams():
    for example, (status, output, error) in each(lambda example: tool("timed", "net", stream=stream_of(example), folder=example), EXAMPLES):
        lines = [line.split(" ", 1) if line.startswith("+") else ["", line] for line in output.splitlines()]
        outputs, steps = "".join(value + "\n" for _, value in lines), [step for step, _ in lines]
        asked_for = [line.split(b" ")[0].decode() if number else "" for number, line in enumerate(lines_of(stream_of(example)))]
        want(f"timed {example.name}", outputs == (example / "output").read_text() and steps == asked_for[: len(steps)], error)
    for example, (stream, told) in each(lambda example: (stream_of(example), tool("tidy", stream=untidy(stream_of(example)))), EXAMPLES):
        want(f"tidy {example.name}", told[1].encode() == stream and "comments taken off" in told[2], told)
    increment = TOP / "examples/increment"
    want("timed", tool("timed", "net", stream=(increment / "stream").read_bytes(), folder=increment) == (0, "0\n+1 6\n+1 7\n", ""))
    status, output, error = tool("timed", "net", stream="5\n+1 6\n+0 7\n", folder=increment)
    want("timed up to a fault", (status, output) == (1, "0\n+1 6\n") and "stream: line 3: step" in error, error)
    status, output, error = tool("tidy", stream=b"\xef\xbb\xbf5\r\n\r\n+1 6 ; six\n+1 7  \n")
    want("tidy", output == "5\n+1 6\n+1 7\n" and "carriage returns taken off: 2" in error, error)


def try_all() -> None:
    with own_folder() as folder:
        tables_go_there_and_back(folder)
    outputs_are_streams()
