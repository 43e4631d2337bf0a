"""Each fault is explained, at its place, and the tool's reader stops where the program's does."""
import re

from workbench.laws import MEANINGS
from workbench.program import call
from workbench.source import read_file
from workbench.written import SyntaxFault

from tooling.common import EXAMPLES, NUMBERS, TOP, WHOLE, each, in_files, in_folder, own_folder, tool, want


def many(depth):
    """A network from Int to Int in which 64 may run at once, each of which is such a one."""
    inner = "time" if depth == 0 else many(depth - 1)
    return f"(>>> (arr (pair x (none Int))) (>>> (rpSwitchB (col {inner}) (pair (list Int) (list Int)) time) (arr (len x))))"


HEAVY = f"yampa 2 input Int {many(4)}"

# What stands in a network's file, and what is told of it: the place, and words of the reason.
NETWORK_MISTAKES = [
    (NUMBERS + "(accumholdBy x 0)", "net:3:2: unknown word accumholdBy; did you mean accumHoldBy?"),
    (NUMBERS + "(arr (&& x x))", "net:3:7: unknown word &&; did you mean and?"),
    (NUMBERS + "(arr +30)", "net:3:6: a number has no plus sign"),
    (NUMBERS + "(arr 1.5)", "net:3:6: numbers are whole"),
    (NUMBERS + '(arr "a")', "net:3:6: there are no texts"),
    (NUMBERS + "(arr (div x 2))", "net:3:7: unknown word div: there is no division"),
    (NUMBERS + "(add x 1)", "net:3:2: add is an expression, and a network is wanted here"),
    (NUMBERS + "(>>> time time time)", "net:3:16: >>> takes two networks; this is one part more"),
    (NUMBERS + "(integral)", "net:3:2: integral stands without parentheses"),
    (NUMBERS + "(arr none)", "net:3:6: none has parts"),
    (NUMBERS + "time\nyampa 1 input Int time", "net:4:1: a second file begins here"),
    (NUMBERS + "(after (p 0) unit)", "net:3:8: the first part of after is a number that stands in the file"),
    ("yampa 1\ninput Real\ntime", "net:2:7: unknown word Real; did you mean Int?"),
    (NUMBERS + "(>>> time time", "net:3:1: this parenthesis is never closed"),
    (NUMBERS + "(>>> time time))", "net:3:16: one ) too many"),
    ("yampa 1\nInt\ntime", "net:2:1: the word input is missing"),
    (NUMBERS + "(arr 007)", "a number is written without leading zeros"),
    (NUMBERS + "(delay 5000 0)", "net:3:8: this number is from 1 to 4096"),
    (NUMBERS + "x", "net:3:1: x is an expression, and a network is wanted here"),
    (NUMBERS + "(arr time)", "net:3:6: time is a network, and an expression is wanted here"),
    (NUMBERS + "(>>> time)", "net:3:10: >>> takes two networks, and has one only"),
    (NUMBERS + "(pSwitch x (parB time) time time)", "pSwitch wants a list of members here"),
    (NUMBERS + "(--> 7 time)", "net:3:2: --> is a form of version 2"),
    (NUMBERS + "((arr x))", "leave out one pair of parentheses"),
    (NUMBERS + "(>>> " * 601, "the 601st parenthesis"),
    ("yampa 7\ninput Int\ntime", "net:1:7: behind yampa stands the version, 1 or 2\n|a network's file begins with `yampa 1`, then `input` and a type"),
    ("yampa source 1\ninput Int\ntime", "net:1:7: behind yampa stands the version, 1 or 2"),
    ("5\n+1 6\n", "this looks like a stream"),
    ("laws 1\n", "this is a certificate, and a network is wanted"),
    ("", "the file is empty"),
    (b"\xef\xbb\xbfyampa 1 input Int time", "the file begins with a byte order mark"),
    ("yampa 1 input Int time".encode("utf-16"), "the file is written in UTF-16"),
    (
        "yampa 1\ninput (Pair (Pair (Event Unit) Int) (Pair Int Int))\n(arr (add (fst (fst x)) 1))",
        "net:3:11: add wants an Int, but (fst (fst x)) is an (Event Unit)\n|x here is a (Pair (Pair (Event Unit) Int) (Pair Int Int))",
    ),
    (NUMBERS + "(parB time (iPre 0) edge)", "net:3:21: edge takes a Bool, but gets an Int"),
    (NUMBERS + "(switch (arr (pair (less x 1) (event x))) (arr x))", "the branches of switch output one type: the first Bool, the second Int"),
    (NUMBERS + "(hold 0)", "net:3:1: hold takes events"),
    (NUMBERS + "(arr (p 0))", "(p 0): there are none here"),
    (NUMBERS + "(first time)", "first takes a pair"),
    (NUMBERS + "(old 0)", "no network with that number is frozen here"),
    (NUMBERS + "(iPre true)", "the constant of iPre is what goes in first: it is of type Bool, and the input of type Int"),
    (NUMBERS + "(loopPre 0 (arr (fst x)))", "the network of loopPre outputs a pair"),
    (NUMBERS + "(arr (if x 1 2))", "if wants a Bool first, but x is an Int"),
    (NUMBERS + "(arr (equal x true))", "the parts of equal have one type; x is an Int, but true is a Bool"),
    (NUMBERS + "(parB)", "parB takes 1 to 64 members; here are 0"),
    (NUMBERS + "(second time)", "second takes a pair, but gets an Int"),
    (NUMBERS + f"(arr (list Int {'5 ' * 9_999}true))", "each element of this list is an Int, but true is a Bool"),
    ("yampa 2 input (Pair Int (Event Int)) (rpSwitchB (col) (pair (list Int) (list Int)) time)", "rpSwitchB takes 1 to 64 members; here are 0"),
    ("yampa 2 input Int (rpSwitchB (col) (pair (list Int) (list Int)) time)", "rpSwitchB takes 1 to 64 members; here are 0"),
    (NUMBERS + "(pSwitch x (col) time time)", "pSwitch takes 1 to 64 members; here are 0"),
    (NUMBERS + "(arr (list Int 1 true))", "each element of this list is an Int, but true is a Bool"),
    ("yampa 1\ninput Bool\nintegral", "integral takes an Int, but gets a Bool"),
    ("yampa 1\ninput (List Int)\n(arr (nth x 0 true))", "the last part of nth is what it gives outside of the list"),
    (
        NUMBERS + "(kSwitch time (now unit) (>>> (arr true) (old 0)))",
        "net:3:42: (old 0) takes an Int, but gets a Bool\n|(p 0) is a Unit\n|(old 0) is from Int to Int",
    ),
    (NUMBERS + "(kSwitch time time (old 0))", "net:3:15: the second network of kSwitch outputs an event; this one outputs an Int"),
    (
        NUMBERS + "(pSwitch (fst x) (col integral time) (never Bool)\n(switch (arr (pair (list Int) (event true))) (arr (add (p 1) 2))))",
        "net:4:56: add wants an Int, but (p 1) is a Bool\n|x here is an Int\n|(p 0) is a Bool\n|(old 1) is from Int to Int",
    ),
    (NUMBERS + "(pSwitch (fst x) (col integral (arr true)) (never Int) (parB time))", "they output Int at child 1, Bool at child 2"),
    (
        "yampa 2\ninput (Pair Int (Event Bool))\n(rpSwitchB (col time) (pair (list Int 1) x) (parB time))",
        "net:3:23: the expression behind the members of rpSwitchB has the type (Pair (List Int) (List V)); this one is a (Pair (List Int) Bool)",
    ),
    (NUMBERS + "(>>> (arr (event x)) (accumBy (less (fst x) (snd x)) 0))", "it is of type Bool, and the value of type Int\n|it gets an (Event Int)"),
    (NUMBERS + "(arr (on (event true) 1 (then (snd x) (and x (fst x)))))", "net:3:51: fst wants a pair, but x is a Bool\n|x here is a Bool"),
    (NUMBERS + f"(arr {'(neg ' * 256}x{')' * 256})", "over the limits of expressions"),
    (NUMBERS + "(hold" + " " * 1_048_576, "the file has over 1,048,576 bytes"),
    (NUMBERS + "(>>> time " * 256 + "time" + ")" * 256, "the network is too large: its height is over 256"),
    (HEAVY, "the network is too large: its weight is over 1,000,000"),
]

STREAM_MISTAKES = [
    ("Int", b"5\n6\n", "stream:2:1: line 2: a step is missing\n|write +1 6"),
    ("Int", b"5\n\n+1 6\n", "stream:2:1: line 2 is blank"),
    ("Int", b"5\r\n+1 6\r\n", "stream:1:2: line 1 ends in a carriage return"),
    ("(Pair Bool Bool)", b"(pair true)\n", "a space and a further part are missing"),
    ("Int", b"5.5\n", "numbers are whole"),
    ("Int", b"\xef\xbb\xbf5\n", "line 1 begins with a byte order mark"),
    ("Int", b"5 ; five\n", "a stream has no comments"),
    ("Int", b"5  \n", "blanks stand behind the value"),
    ("(Event Int)", b"(none Int)\n", "write none"),
    ("Int", b"5\n+1 true\n", "stream:2:4: true is of another type\n|an Int is wanted: write for instance 5"),
    ("(Pair Int (Event Int))", b"(pair 5 Nothing)\n", "'Nothing' is no value here; did you mean none?\n|an (Event Int) is wanted: write none or (event 5)"),
    ("(Pair Bool (List Int))", b"(pair False (list))\n", "'False' is no value here; did you mean false?\n|a Bool is wanted: write true or false"),
    ("(List (Pair Int Bool))", b"(list (pair 5 true) (pair 6 7))\n", "stream:1:29: 7 is of another type\n|a Bool is wanted"),
    ("Int", b"5\n+0 6\n", "stream:2:2: a step is a number from 1"),
    ("Int", b"5\n+9223372036854775808 6\n", "a step is at most 9223372036854775807"),
    ("Int", b"+1 5\n", "the first line is a value alone"),
    ("Int", b"=\n", "there is none before it that = could repeat"),
    ("Int", b"9223372036854775808\n", "this number is outside of 64 bits"),
    ("Int", b"007\n", "a number is written without leading zeros"),
    ("(List Int)", b"(list" + b" 1" * 32_767 + b")\n", "line 1 has over 65,536 bytes"),
    ("Int", b"5\n" + b"+1 =\n" * 1_000_000, "a run takes 1,000,000 samples"),
]

DOUBLED = NUMBERS + "(>>> (arr (add x 1)) (arr (mul x 2)))"
AT_ONCE = NUMBERS + "(arr (then (add x 1) (mul x 2)))"
CERTIFICATE_MISTAKES = [
    (DOUBLED, AT_ONCE, "laws 1 (step L4 forward (at 5))", "step 1: nothing stands at (at 5): (at) is"),
    (
        DOUBLED,
        AT_ONCE,
        "laws 1 (step L3 forward (at))",
        "step 1: what stands at (at) doesn't have the form of L3's left side\n|the first difference is at (at 0) in it: (>>> f g) is wanted, and (arr (add x 1)) stands",
    ),
    (DOUBLED, AT_ONCE, "laws 1 (step E1 forward (at))", "E1 is a law of expressions, and at (at) stands a network"),
    (DOUBLED, AT_ONCE, "laws 1", "the steps end elsewhere: at (at) they make"),
    (DOUBLED, DOUBLED, "laws 1 (step L1 backward (at) (>>> (arr x) time))", "the first difference is at (at)"),
    (DOUBLED, DOUBLED, "laws 1 (step L1 backward (at))", "a step backward has a tree"),
    (NUMBERS + "(arr x)", NUMBERS + "(arr x)", "laws 1 (step E7 backward (at 0) (fst (pair x (p 0))))", "with E7 backward the network has no type"),
    (NUMBERS + "(arr x)", "yampa 1 input Bool (arr x)", "laws 1", "the inputs differ: Int and Bool"),
    (DOUBLED, AT_ONCE, "laws 1 (L4 forward (at))", "cert:1:9: the word step is missing"),
    (DOUBLED, AT_ONCE, "laws 1 step L4 forward (at))", "cert:1:8: a step begins with a parenthesis"),
    (DOUBLED, AT_ONCE, "laws 1 (step L4 forward (at) time)", "step 1: a step forward has no tree"),
    (DOUBLED, DOUBLED, "laws 1 (step L4 backward (at) (>>> time (arr x)))", "the first difference is at (at 0) in it: (arr f) is wanted, and time stands there"),
    (DOUBLED, AT_ONCE, "laws 1 (step L4 (at))", "behind the law stands forward or backward"),
    (DOUBLED, AT_ONCE, "laws 1 (step L99 forward (at))", "unknown law L99"),
    (DOUBLED, AT_ONCE, "laws 1 (step L43 forward (at))", "L43 is a law of version 2"),
    (DOUBLED, AT_ONCE, "laws 2 (step L47 forward (at))", "L47 is a law of version 3"),
    (DOUBLED, AT_ONCE, "laws 3 (step E27 forward (at))", "E27 is a law of version 4"),
    (DOUBLED, AT_ONCE, "laws 4 (step E49 forward (at 0 0))", "E49: (O .. (if c a b) ..) = (if c (O .. a ..) (O .. b ..)), where O is one of those of E4"),
    (DOUBLED, AT_ONCE, "laws 4 (step L56 forward (at))", "the first difference is at (at 0 0) in it: (pair (then (fst x) h) (snd x)) is wanted, and (add x 1) stands there"),
    (DOUBLED, AT_ONCE, DOUBLED, "this is a network, and a certificate is wanted"),
    (DOUBLED, AT_ONCE, "laws 1 (step L4 forward (at 65536))", "this number is from 0 to 65535"),
    (DOUBLED, AT_ONCE, "laws 1 (step L1 backward (at) " + "(>>> time " * 600, "the 601st parenthesis"),
    (DOUBLED, AT_ONCE, "laws 1" + " " * 1_048_576, "the file has over 1,048,576 bytes"),
    (DOUBLED, AT_ONCE, "laws 1" + " (step E16 forward (at 0 0))" * 10_001, "at most 10,000 steps"),
]

# Lines that no files lead to here, and what is told of them.
OTHER_LINES = {
    "network: no position (at 5)": "net: nothing stands at (at 5): (at) is (arr x), which has 1 parts",
    "network: no event at (at)": "is this the line of another file?",
    "memory": "no more memory",
    "table full": "4,096 different expressions",
    "no row": "a fault of its own",
    "stream: cannot be read": "a read of standard input failed",
    "stream: too many reads": "gave no further line",
    "output: cannot be written": "the disk is full",
    "equal on 1,000 samples; no certificate found": "`yampa differ`",
    "the words are not UTF-8": "in UTF-8",
    "--first: no number": "--first 2",
    "--at: no position": "--at '(at 1 0)'",
    "--name: no name": "--name boiler",
    "--most: no number": "--most 100",
    "network: state too large at (at 1)": "64 MiB",
    "network: state too large at (at): give --most": "--most",
}
# Lines in the place of which the reason is told why a file can't be read.
READ_LINES = {"network: cannot be read", "certificate: cannot be read"}
TOLD_LINES = set()


def kind(line):
    """A fault line with N for its numbers and P for its position."""
    return re.sub(r"\b[NM]\b|\d+", "N", re.sub(r"\(at[ \d]*\)", "P", line))


def each_fault_is_explained():
    """Each line of the pages was told of, and explained, above."""
    pages = (TOP / "docs/FAULTS.md").read_text() + (TOP / "docs/LAWS.md").read_text()
    lines = set(re.findall(r"`((?:network|certificate|stream|output|--first|--at|--name|--most): [^`]+|memory|table full|no row|the words [^`]+)`", pages))
    lines |= {f"network: {fault} at P" for fault in ("types differ", "no old", "no event", "no pair", "members")}
    missing = {kind(line) for line in lines} - TOLD_LINES - READ_LINES
    want("each fault line is explained", len(lines) > 40 and not missing, missing)


def told_as(name, told, wanted, ends=1):
    """That what was told has the wanted words, and ends so; behind a bar stand those of a later line."""
    status, output, error = told
    TOLD_LINES.add(kind(output.split("\n")[0]))
    want(name, status == ends and not error and all(part in output for part in wanted.split("\n|")), output + error)


def laws_are_the_pages() -> None:
    """The tools' table of laws has the sides that the page has, and what it says of the letters and words in them."""
    page = (TOP / "docs/LAWS.md").read_text(encoding="utf-8")
    told = {}
    for names, left, right in re.findall(r"^\| ([EL][0-9, EL]*) \| (.*?) \| (.*?) \|", page, re.M):
        for name, switch in zip(names.split(", "), ("rSwitch", "drSwitch") if names == "L56, L57" else ("switch", "dSwitch")):
            told[name] = [re.sub(r"\bS\b", switch, side.replace("`", "")) for side in (left, right)]
    remarks = dict(re.findall(r"\bIn (E\d+), (.*?)\.", page.replace("`", "")))
    table = [line.split("\t") for line in (TOP / "tools/workbench/laws.tsv").read_text(encoding="utf-8").splitlines()]
    want("the laws of the page", len(told) == 120 and [name for name, *_ in table] == list(told), len(told))
    for name, left, right, *note in table:
        said = [f"{left}, {note[0].replace(' is ', ' ', 1)}" if note and name not in remarks else left, right]
        want(f"{name} of the page", told[name] == said and (name not in remarks or note == [remarks[name]]), (told[name], said))
    meanings = re.findall(r"\b([A-Z_]{2,}(?:\(g\))?)(?: is)? `([^`]+)`", re.search(r"^SWAP is .*$", page, re.M).group())
    want("the words of the page", dict(meanings) == MEANINGS, meanings)


def faults_are_explained():
    cases = [(("explain", "net"), {"net": text}, wanted) for text, wanted in NETWORK_MISTAKES]
    for type_, stream, wanted in STREAM_MISTAKES:
        cases.append((("explain", "net", "stream"), {"net": f"yampa 1\ninput {type_}\n(arr x)", "stream": stream}, wanted))
    for source, target, certificate, wanted in CERTIFICATE_MISTAKES:
        cases.append((("explain", "src", "tgt", "cert"), {"src": source, "tgt": target, "cert": certificate}, wanted))
    cases += [(("explain", "--line", line, "net"), {"net": NUMBERS + "(arr x)"}, wanted) for line, wanted in OTHER_LINES.items()]
    for (words, _, wanted), told in each(lambda case: in_folder(case[0], **case[1]), cases):
        told_as(f"{' '.join(words)} {wanted}", told, wanted)
    right = [TOP / "examples/boiler" / name for name in ("net", "fast", "certificate")]
    told_as("another line", tool("explain", "--line", "certificate: no match at step 3", *right), "is this the line of another file?")
    told_as("no such file", in_folder(("explain", "nofile")), "nofile: no such file", 3)
    told_as("a folder", in_folder(("explain", ".")), "this is a folder", 3)
    laws_are_the_pages()
    each_fault_is_explained()
    for example, told in each(lambda example: tool("explain", "net", "stream", folder=example), EXAMPLES):
        wanted = "nothing is refused\n" if example in WHOLE else (example / "error").read_text()
        want(f"explain {example.name}", told[1].startswith(wanted), told)


def places_agree():
    """The tool's reader stops at the program's byte, on each beginning of a file and with each of its words left out."""
    text = (TOP / "examples/heartbeat/net").read_bytes()
    broken = [text[:at] for at in range(0, len(text), 7)]
    words = list(re.finditer(rb"[()]|[^ \t\r\n();]+", text))
    broken += [text[: word.start()] + text[word.end() :] for word in words[::3]]
    with own_folder() as folder:
        for data in broken:
            (net,) = in_files(folder, net=data)
            fault = call(["types", str(net)]).fault()
            try:
                read_file("net", data)
                mine = ""
            except SyntaxFault as found:
                mine = f"network: {found.kind}" + (f" at byte {found.at}" if found.kind in ("syntax", "number", "nesting") else "")
            want(f"place of {data[-40:]}", mine == fault or not mine and "at (at" in fault, f"{mine} and {fault}")


def try_all() -> None:
    faults_are_explained()
    places_agree()
