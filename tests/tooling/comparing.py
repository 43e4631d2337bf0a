"""Two networks are compared on a stream."""
from itertools import count

from tooling.common import EXAMPLES, NUMBERS, WHOLE, each, in_files, own_folder, stream_of, tool, want


def rows_of(depth: int) -> str:
    """A network of 17 to the power of so many different expressions."""
    numbers = count()

    def row(depth: int) -> str:
        return f"(arr (add x {next(numbers)}))" if depth == 0 else f"(parB {' '.join(row(depth - 1) for _ in range(17))})"

    return row(depth)


def runs_are_compared(folder):
    for example, told in each(lambda example: tool("compare", "net", "net", stream=stream_of(example), folder=example), EXAMPLES):
        samples = (example / "output").read_bytes().count(b"\n")
        same = f"the same on {samples} samples"
        fault = "" if example in WHOLE else f"yampa compare: {same}, and then {(example / 'error').read_text()}"
        want(f"compare {example.name}", told == ((1, "", fault) if fault else (0, f"{same}\n", "")), told)
    source, target = in_files(folder, source=NUMBERS + "(delay 3 0)", target=NUMBERS + "(delay 4 0)")
    want("compare", tool("compare", source, target, stream="1\n+1 2\n+3 2\n")[:2] == (1, "line 3: 2 and 1\n"))
    want("compare on no stream", tool("compare", source, source, stream="1\r\n")[:2] == (1, ""))
    (other,) = in_files(folder, other="yampa 1\ninput Bool\n(arr 1)")
    want("compare of other types", "the two networks have other types: Int -> Int and Bool -> Int" in tool("compare", source, other)[2])
    (large,) = in_files(folder, large=NUMBERS + f"(>>> {rows_of(3)} (arr true))")
    want("compare of what can't run", tool("compare", large, large, stream="1\n") == (1, "", f"yampa compare: {large}: table full\n"))
    want("compare the same", tool("compare", source, source, stream="1\n+1 2\n")[:2] == (0, "the same on 2 samples\n"))


def try_all() -> None:
    with own_folder() as folder:
        runs_are_compared(folder)
