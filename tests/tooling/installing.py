"""Program and tools are installed into an empty folder, run there from an empty home, and are taken away again."""
import json
import os
import shlex
import shutil
import subprocess
from pathlib import Path

from tooling.common import TOP, own_folder, want

NET = TOP / "examples/increment/net"
STREAM = b"5\n+1 6\n"


def installing(*words: object) -> tuple[int, str, str]:
    ran = subprocess.run([TOP / "tools/install", *map(str, words)], capture_output=True, text=True, timeout=120, check=False)
    return ran.returncode, ran.stdout, ran.stderr


def called(folder: Path, command: list[object], stream: bytes = b"") -> tuple[int, bytes, bytes]:
    """What a command says that runs in a folder, with an empty home."""
    home = {"HOME": str(folder / "home"), "PATH": "/usr/bin:/bin"}
    ran = subprocess.run([*map(str, command)], input=stream, capture_output=True, cwd=folder, env=home, timeout=60, check=False)
    return ran.returncode, ran.stdout, ran.stderr


def is_used(folder: Path, yampa: Path) -> None:
    want("installed run", called(folder, [yampa, "run", NET], STREAM) == (0, b"0\n6\n", b""))
    want("installed tool", called(folder, [yampa, "compare", NET, NET], STREAM)[:2] == (0, b"the same on 2 samples\n"))
    path = TOP / "examples/lift/Lift.hs"
    output = called(folder, [yampa, "run", path], (path.parent / "stream").read_bytes())[1]
    want("installed run of Haskell", output == (path.parent / "output").read_bytes(), output[:200])
    told = called(folder, [yampa, "plt"])
    want("installed, a mistyped command", told[0] == 2 and b"did you mean plot?" in told[2], told)
    told = called(folder, [yampa, "--prove"])
    want("installed, --prove", told == (2, b"", b"yampa: --prove needs the repository, and this is an installed copy\n"), told)
    want("installed help", b"\n  batch " in called(folder, [yampa, "--help"])[1])
    want("installed help of a tool", b"usage: yampa draw" in called(folder, [yampa, "help", "draw"])[1])


def brings_pages(prefix: Path) -> None:
    share = prefix / "share"
    page = (share / "man/man1/yampa.1").read_text()
    want("the man page", "yampa run\\-checked" in page and "yampa falsify" in page)
    want("the TextMate grammar", json.loads((share / "yampa/yampa.tmLanguage.json").read_text())["scopeName"] == "source.yampa")
    want("the tour is of the clone alone", "yampa tour" not in page)
    if shutil.which("vim") and b"+eval" in subprocess.run(["vim", "--version"], capture_output=True, check=False).stdout:
        script = f"set rtp+=vim/vimfiles | filetype on | edit {NET} | exe 'cquit ' . (&ft == 'yampa' ? 7 : 8)"
        ended = subprocess.run(["vim", "-N", "-u", "NONE", "-es", "-c", script], cwd=share, stdin=subprocess.DEVNULL, capture_output=True, check=False)
        want("vim knows a file behind comments", ended.returncode == 7, ended)
    completion = share / "bash-completion/completions/yampa"
    script = f"source {shlex.quote(str(completion))}; COMP_WORDS=(yampa fal); COMP_CWORD=1; _yampa; echo ${{COMPREPLY[*]}}"
    want("completion for bash", subprocess.run(["bash", "-c", script], capture_output=True, text=True, check=False).stdout == "falsify\n")
    for shell, place in [("zsh", "zsh/site-functions/_yampa"), ("fish", "fish/vendor_completions.d/yampa.fish")]:
        if shutil.which(shell):
            want(f"completion for {shell}", subprocess.run([shell, "-n", share / place], capture_output=True, check=False).returncode == 0)


def faults_are_told(folder: Path, program: str) -> None:
    (folder / "file").write_text("")
    for what, words, status, line in [
        ("an unbuilt program", ["--install", "", folder / "at"], 3, "--install: the proved program isn't built, or a source has changed"),
        ("a file as its folder", ["--install", program, folder / "file"], 3, "--install: "),
        ("no prefix", ["--install", program], 2, "usage: "),
        ("nothing there", ["--uninstall", program, folder / "none"], 3, "nothing is installed there"),
    ]:
        told = installing(*words)
        want(f"install, {what}", told[0] == status and line in told[2] and told[2].count("\n") == 1 and not told[1], told)
    want("install, nothing is left", sorted(path.name for path in folder.iterdir()) == ["file"], list(folder.iterdir()))


def try_all() -> None:
    program = os.environ["YAMPA"]
    with own_folder() as folder:
        prefix = folder / "a prefix/it's"
        want("install", installing("--install", program, prefix)[0] == 0)
        want("install again", installing("--install", program, prefix)[0] == 0)
        is_used(folder, prefix / "bin/yampa")
        brings_pages(prefix)
        want("uninstall", installing("--uninstall", program, prefix)[0] == 0)
        shutil.rmtree(folder / "home", ignore_errors=True)
        want("uninstall leaves nothing", not list(prefix.iterdir()), list(prefix.rglob("*"))[:5])
    with own_folder() as folder:
        faults_are_told(folder, program)
