"""Program and tools, installed below a prefix, with a man page, completions and syntax files; all of it can be taken away again."""
import os
import re
import shutil
import sys
import tempfile
from pathlib import Path

from workbench import helping
from workbench.ending import UNREADABLE, WRONG_WORDS, Refused, unreadable
from workbench.proposing import searcher

TOP = Path(__file__).resolve().parents[2]
HOME = Path("lib/yampa")
# What the clone alone needs, or what only this script does.
LEFT_OUT = {"prove", "prove.times", "sources.py", "trial", "trying.py"}
NOT_LISTED = ["tour"]
USAGE = "usage: ./yampa --install PREFIX, or ./yampa --uninstall PREFIX"


def main() -> None:
    """The words are the call's, the program where it is built and no source has changed, and the prefix."""
    if len(sys.argv) != 4 or sys.argv[3].startswith("-"):
        raise Refused(USAGE, WRONG_WORDS)
    asked, program, prefix = sys.argv[1:]
    if asked == "--uninstall":
        uninstall(Path(prefix).resolve())
    elif not program:
        raise Refused("the proved program isn't built, or a source has changed since: `./yampa --prove` builds it", UNREADABLE)
    else:
        install(Path(program), Path(prefix).resolve())


# ---- what is installed


def install(program: Path, prefix: Path) -> None:
    """Puts all files into a folder beside their places, and then into these; what goes wrong on the way leaves nothing."""
    before = folders_above(prefix / HOME)
    try:
        prefix.mkdir(parents=True, exist_ok=True)
        with tempfile.TemporaryDirectory(prefix=".yampa-", dir=prefix) as name:
            made = Path(name)
            stage(program, prefix, made)
            files = sorted(path.relative_to(made) for path in made.rglob("*") if path.is_file())
            (made / HOME / "files").write_text("".join(f"{file}\n" for file in files), encoding="utf-8")
            if (prefix / HOME).exists():
                uninstall(prefix)
            move(made, prefix, [*files, HOME / "files"])
    except OSError as error:
        for folder in before:
            if folder.is_dir() and not any(folder.iterdir()):
                folder.rmdir()
        raise unreadable(error.filename or prefix, error) from None
    print(f"{prefix / 'bin/yampa'}: installed, with {len(files)} files; `./yampa --uninstall {prefix}` takes them away")


def folders_above(path: Path) -> list[Path]:
    """The folders on the way to a path that aren't there yet, the lowest first."""
    return [folder for folder in [path, *path.parents] if not folder.exists()]


def stage(program: Path, prefix: Path, made: Path) -> None:
    """Makes every file below the folder as it will stand below the prefix."""
    home = made / HOME
    shutil.copytree(TOP / "tools", home / "tools", ignore=lambda _, names: [name for name in names if name in LEFT_OUT or name == "__pycache__"])
    rows = (TOP / "tools/list").read_text(encoding="utf-8").splitlines(keepends=True)
    put(home / "tools/list", "".join(row for row in rows if row.split()[0] not in NOT_LISTED).encode())
    put(home / "crates/yampa/out/yampa", program.read_bytes(), runs=True)
    put(home / "search/out/yampa-search", Path(searcher()).read_bytes(), runs=True)
    put(home / "installed", b"")
    wrapper = (TOP / "yampa").read_text(encoding="utf-8")
    put(made / "bin/yampa", with_top(wrapper, prefix / HOME).encode(), runs=True)
    helps = {name: text for name, text in helping.all_helps(program).items() if name not in NOT_LISTED}
    for place, text in helping.pages(helps).items():
        put(made / place, text.encode())


def with_top(wrapper: str, home: Path) -> str:
    """The wrapper, which knows where its folder is, so that nothing is looked for."""
    quoted = "'" + str(home).replace("'", "'\\''") + "'"
    return re.sub(r"^here=.*?^top=[^\n]*$", lambda _: f"top={quoted}", wrapper, flags=re.S | re.M)


def put(path: Path, data: bytes, runs: bool = False) -> None:
    path.parent.mkdir(parents=True, exist_ok=True)
    path.write_bytes(data)
    path.chmod(0o755 if runs else 0o644)


def move(made: Path, prefix: Path, files: list[Path]) -> None:
    """Moves the files into their places; where one can't be moved, those that were are taken back."""
    moved: list[Path] = []
    try:
        for file in files:
            (prefix / file).parent.mkdir(parents=True, exist_ok=True)
            os.replace(made / file, prefix / file)
            moved.append(file)
    except OSError:
        remove(prefix, moved)
        raise


# ---- taken away


def uninstall(prefix: Path) -> None:
    listed = prefix / HOME / "files"
    try:
        files = [Path(line) for line in listed.read_text(encoding="utf-8").splitlines()]
    except OSError as error:
        raise Refused(f"{prefix}: nothing is installed there: {listed}: {(error.strerror or str(error)).lower()}", UNREADABLE) from None
    try:
        remove(prefix, [*files, HOME / "files"])
    except OSError as error:
        raise unreadable(error.filename, error) from None
    print(f"{prefix}: taken away")


def remove(prefix: Path, files: list[Path]) -> None:
    """Removes files, and the folders that are empty then."""
    for file in files:
        (prefix / file).unlink(missing_ok=True)
    shutil.rmtree(prefix / HOME / "tools", ignore_errors=True)
    folders = {prefix / parent for file in files for parent in file.parents if parent != Path(".")}
    for folder in sorted(folders, key=lambda path: len(path.parts), reverse=True):
        if folder.is_dir() and not any(folder.iterdir()):
            folder.rmdir()
