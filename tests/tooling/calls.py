"""How tools are called: wrong words and files, missing packages, and the page docs/TOOLS.md."""
import os
import re
import subprocess

from workbench.helping import OPTION

from tooling.common import NUMBERS, TOOLS, TOP, in_files, own_folder, tool, want, with_tools

NEEDS = ["dot", "matplotlib", "jinja2", "z3"]


def page_is_right(folder):
    """What docs/TOOLS.md shows is what its commands print, in a folder with the examples."""
    (folder / "examples").symlink_to(TOP / "examples")
    with_tools(folder, os.environ["YAMPA"])
    for block in re.findall(r"```console\n(.*?)```", (TOP / "docs/TOOLS.md").read_text(), re.S):
        for command, wanted in re.findall(r"^\$ (.*)\n((?:(?!\$ ).*\n)*)", block, re.M):
            ran = subprocess.run(["bash", "-c", command], cwd=folder, stdin=subprocess.DEVNULL, capture_output=True, timeout=60)
            found = (ran.stdout + ran.stderr).decode(errors="replace")
            want(f"docs/TOOLS.md: {command}", re.sub(r" +$", "", found, flags=re.M) == re.sub(r" +$", "", wanted, flags=re.M), found)


# What each tool is called with, where the files are not what it takes.
CALLS = {
    "explain": ["net"],
    "draw": ["net", "-o", "out"],
    "watch": ["net", "-o", "out"],
    "plot": ["net", "-o", "out"],
    "csv": ["net", "-o", "out"],
    "timed": ["net"],
    "expand": ["net", "-o", "out"],
    "fmt": ["--write", "net"],
    "haskell": ["net", "-o", "out"],
    "batch": ["net", "stream", "--out", "out"],
    "coverage": ["net", "stream"],
    "falsify": ["net", "-o", "out"],
    "differ": ["net", "net", "-o", "out"],
    "prove": ["net", "-o", "out"],
    "compare": ["net", "net"],
    "report": ["net", "stream", "-o", "out"],
    "step": ["net", "stream", "-o", "out"],
    "waves": ["net", "stream", "-o", "out"],
}


def spread_options_are_those_of_the_tools() -> None:
    """With --cluster `falsify` and `prove` take what they take without it, but for where one file goes, and for what is printed."""
    for name in ("falsify", "prove"):
        alone = {found[1] for found in OPTION.findall(tool(name, "--help")[1])} - {"--help", "--show", "--certificate"}
        spread = {found[1] for found in OPTION.findall(tool(name, "--cluster", "-", "--help")[1])} - {"--help", "--cluster", "--out", "--seeds"}
        want(f"options of {name} --cluster", spread == alone, spread ^ alone)


def bad_words_and_files(folder):
    for name in TOOLS:
        want(f"{name} --help", tool(name, "--help")[0] == 0)
        want(f"{name} with wrong words", tool(name, "--no-such-flag")[0] == 2)
    for name, words in CALLS.items():
        own = folder / name
        own.mkdir()
        status, output, error = tool(name, *words, folder=own)
        want(f"{name} without its file", status == 3 and (error or output).count("\n") == 1 and not os.listdir(own), error)
        text = NUMBERS + ("(hold 0" if name in ("expand", "fmt") else "(hold 0)")
        in_files(own, net=text, stream="5\n", out="before")
        status, output, error = tool(name, *words, folder=own)
        told, line = (output, "net:3:1: hold takes events") if name == "explain" else (error, "net:3:8: " if name in ("expand", "fmt") else "network: no event at (at)")
        want(f"{name} of a faulty network", status == 1 and line in told and (name == "explain" or told.count("\n") == 1), output + error)
        kept = [(own / file).read_text() for file in ("net", "stream", "out")]
        want(f"{name} leaves nothing half written", kept == [text, "5\n", "before"] and len(os.listdir(own)) == 3, kept)
    want("no such folder", tool("draw", TOP / "examples/increment/net", "-o", "/no/such/folder/a.svg")[0] == 3)


def missing_packages_are_told(folder):
    """In one line, with the package's name."""
    for library in ("matplotlib", "z3"):
        in_files(folder, **{f"{library}.py": f"raise ImportError(name='{library}')"})
    net, stream = in_files(folder, net=NUMBERS + "(arr (equal x x))", stream="5\n")
    calls = {
        "graphviz": tool("draw", net, PATH=""),
        "python3-matplotlib": tool("plot", net, stream="5\n", PYTHONPATH=str(folder)),
        "python3-z3": tool("coverage", net, stream, PYTHONPATH=str(folder)),
    }
    for package, (status, output, error) in calls.items():
        want(f"without {package}", status == 3 and not output and f"install {package}" in error and error.count("\n") == 1, error)


def try_all() -> None:
    spread_options_are_those_of_the_tools()
    for check in (bad_words_and_files, missing_packages_are_told, page_is_right):
        with own_folder() as folder:
            check(folder)
