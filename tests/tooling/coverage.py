"""Counts of parts that recordings reach; the expected ones are reckoned by hand."""
from tooling.common import NUMBERS, TOP, in_files, own_folder, tool, want

NEEDS = ["z3"]
# A number above 9 starts the template; what is negative is turned round.
SWITCHING = NUMBERS + """(switch (arr (pair (if (less x 0) (neg x) x)
                   (if (less 9 x) (event x) (none Int))))
        (>>> time
             (arr (add x (p 0)))))
"""
COUNTED = """net:
              1  yampa 1
              2  input Int
        3     3  (switch (arr (pair (if (less x 0) (neg x) x)
    never                                          ^^^^^^^
        2     4                     (if (less 9 x) (event x) (none Int))))
        2     5          (>>> time
        2     6               (arr (add x (p 0)))))
21 of 23 parts were run
never: net:3:35
"""

# What is said of a network is counted with it.
SAID = """module Count where

import Yampa.Whole

count :: SF Int Int
count = arr (\\x -> if x < 0 then negate x else x)

small :: Guarantee Int Int
small = arr (\\(x, y) -> if x > 9 then y > 9 else y < 10)
"""


def what_is_said_is_counted(folder):
    in_files(folder, **{"Count.hs": SAID}, few="1\n+1 2\n", more="-1\n+1 10\n")
    told = tool("coverage", "Count.hs", "few", folder=folder)
    want("coverage of a guarantee", told[0] == 0 and told[1].endswith("9 of 11 parts were run\nnever: Count.hs:6:34\nnever: Count.hs:9:39\n"), told)
    told = tool("coverage", "--all", "Count.hs", "few", "more", folder=folder)
    want("coverage of all of a guarantee", told[0] == 0 and told[1].endswith("11 of 11 parts were run\n"), told)


def parts_are_counted(folder):
    in_files(folder, net=SWITCHING, a="1\n+1 10\n", b="-1\n", c="1\n+1 20\n+2 5\n")
    told = tool("coverage", "net", "c", folder=folder)
    want("coverage", told[:2] == (0, COUNTED), told[1])
    want("coverage --all", tool("coverage", "--all", "net", "c", folder=folder)[0] == 1)
    told = tool("coverage", "--all", "net", "a", "b", folder=folder)
    want("coverage of two recordings", told[0] == 0 and "never" not in told[1], told)
    in_files(folder, few="1\n+1 2\n")
    status, _, told_of = tool("draw", "net", "--coverage", "few", "-o", "net.dot", folder=folder)
    dot = (folder / "net.dot").read_text() if status == 0 else told_of
    want("draw --coverage", "2 times" in dot and "time" in dot and "never" in dot and dot.count("#f6e0e0") == 2, dot)
    in_files(folder, long=NUMBERS + "(>>> " * 60 + "(arr (if (less x 0) (neg x) x))" + " (arr (add x 1)))" * 60)
    told = tool("coverage", "long", "few", folder=folder)
    want("coverage of a long line", told[0] == 0 and "    never        column 321: (neg x)\n" in told[1], told)
    in_files(folder, bad="1\n+0 2\n")
    told = tool("coverage", "net", "bad", folder=folder)
    want("coverage of a faulty recording", told[0] == 1 and told[2] == "bad: stream: line 2: step\n" and told[1].endswith("net:5:9\n"), told)


def haskell_is_counted():
    path = TOP / "examples/court/Court.hs"
    told = tool("coverage", path, path.parent / "stream")
    want("coverage of Haskell", told[0] == 0 and f"never: {path}:30:31" in told[1] and "| atRight && not metRight" in told[1], told)


def try_all() -> None:
    for check in (parts_are_counted, what_is_said_is_counted):
        with own_folder() as folder:
            check(folder)
    haskell_is_counted()
