"""Runs of a network as a compiled program: the C that `compile` prints, compiled once by the machine's own compiler."""
import contextlib
import hashlib
import os
import re
import resource
import shlex
import shutil
import signal
import stat
import subprocess
import sys
import tempfile
from collections.abc import Iterator
from pathlib import Path

from workbench.cache import cache_folder, keep
from workbench.ending import UNREADABLE, Refused, Words
from workbench.program import again, call
from workbench.stacks import deepest

NATIVE = """Runs a network on the stream on standard input, as `run` does, but as a compiled program: `compile`
prints the network as C, and `cc -O2` compiles that (another compiler where the variable CC names one).
The program is kept in the cache folder, by a sum of the C. What it prints, and its status, are those
of `run`; but a list of the stream that has more than N elements is refused. A C compiler isn't proved.

Its stack may become as large as the values ask for, where gcc compiles it and the system's hard limit
(`ulimit -Hs`) allows it. `--stack` prints these bytes, of the longest chain of calls, and runs nothing:
for yampa_init and yampa_step without main, and for main, to which some kilobytes of the C library's own
come. CC may name another gcc with its flags, `CC="arm-none-eabi-gcc -mcpu=cortex-m4 -Os"`: it has only to
compile, without a C library."""

UNWRITTEN = b"output: cannot be written\n"
# What the stack has room for besides: the words of the call, the variables of the environment, the C library.
BESIDE = 1 << 20
TOLD = ["yampa_init", "yampa_step", "main"]
# What the names of functions have behind them that others may call.
SUM = re.compile(r"_[0-9a-f]{16}$")
# What compiler and linker say of values that no program holds.
TOO_LARGE = [b"relocation truncated", b"exceeds maximum", b"too large"]
SHORTER = "--most makes lists shorter"
# What stands before what a compiler says of the text; of its own options it says it otherwise.
OF_TEXT = b"network.c:"
GRAPHS = ["-fcallgraph-info=su"]
# What the C wants of a C library.
STRING_H = "#include <stddef.h>\nvoid *memset(void *to, int byte, size_t count);\nvoid *memcpy(void *to, const void *from, size_t count);\n"


def main() -> None:
    words = Words("native", NATIVE)
    words.add_argument("net", metavar="NET", help="a file with a network")
    words.add_argument("--most", metavar="N", help="how many elements a list of the stream may have (32765)")
    words.add_argument("--stack", action="store_true", help="prints how many bytes of stack it takes, and runs nothing")
    given = words.parse_args()
    if given.stack:
        sys.stdout.write(stack_of(given.net, given.most))
        return
    with program_of(c_of(given.net, given.most)) as (program, stack):
        run(program, room_of(stack))


def c_of(name: str, most: str | None, *options: str) -> bytes:
    """The network as C. What the program refuses is told as it tells it."""
    path = again(name) if os.path.exists(name) else name
    told = call(["compile", *options, *(["--most", most] if most is not None else []), path])
    if told.status:
        print(told.fault(), file=sys.stderr)
        sys.exit(told.status)
    return told.output


def compiler() -> list[str]:
    """The compiler, which optimises where its own flags don't say otherwise."""
    name, *flags = shlex.split(os.environ.get("CC") or "cc") or ["cc"]
    return [name, "-O2", *flags]


@contextlib.contextmanager
def program_of(text: bytes) -> Iterator[tuple[str, str]]:
    """The program of a C text, and what is told of its stack. It is compiled where it isn't kept yet; where there is no cache, it is
    there as long as it is used."""
    command = compiler()
    kept = cache_folder() / f"native-{hashlib.sha256(repr((command, text)).encode()).hexdigest()}"
    beside = kept.with_suffix(".stack")
    if kept.is_file() and beside.is_file():
        with contextlib.suppress(OSError):
            kept.touch()
            beside.touch()
        yield str(kept), beside.read_text()
        return
    with tempfile.TemporaryDirectory(prefix="yampa-") as folder:
        made, stack = compiled(command, text, Path(folder))
        try:
            keep(kept, made.read_bytes())
            kept.chmod(0o755)
            keep(beside, stack.encode())
            made = kept
        except (OSError, Refused):
            pass
        yield str(made), stack


def compiled(command: list[str], text: bytes, folder: Path) -> tuple[Path, str]:
    """The program that a compiler makes of a C text, in this folder, and what it tells of the stack: nothing where it isn't gcc."""
    for more in (GRAPHS, []):
        ran = compile_in(folder, text, [*command, *more])
        if not ran.returncode:
            return folder / "network", rows_of(stacks_in(folder))
    raise not_compiled(command, ran)


def stack_of(name: str, most: str | None) -> str:
    """What gcc tells of the stack: of what a program calls, as it is without `main`; and of `main`, where it finds what that includes."""
    command = compiler()
    told, ran = measured(command, c_of(name, most, "--no-main"))
    if ran.returncode and any(words in ran.stderr for words in [OF_TEXT, *TOO_LARGE]):
        raise not_compiled(command, ran)
    if not told:
        raise Refused(f"{command[0]} tells nothing of the stack: it takes gcc (CC=gcc, Debian: apt-get install gcc)", UNREADABLE)
    whole, _ = measured(command, c_of(name, most))
    return rows_of({**whole, **told})


def measured(command: list[str], text: bytes) -> tuple[dict[str, int], subprocess.CompletedProcess[bytes]]:
    """What a compiler tells of the stack of a C text, of which it makes no program, and what else. A C library isn't wanted."""
    with tempfile.TemporaryDirectory(prefix="yampa-") as folder:
        beside = Path(folder) / "beside"
        beside.mkdir()
        (beside / "string.h").write_text(STRING_H)
        ran = compile_in(Path(folder), text, [*command, *GRAPHS, "-c", "-idirafter", str(beside)])
        return stacks_in(Path(folder)), ran


def compile_in(folder: Path, text: bytes, command: list[str]) -> subprocess.CompletedProcess[bytes]:
    """What a compiler tells of a C text, of which it makes the file `network` of a folder."""
    if not shutil.which(command[0]):
        raise Refused(f"there is no C compiler {command[0]} on the path: install one (Debian: apt-get install gcc)", UNREADABLE)
    source = folder / "network.c"
    source.write_bytes(text)
    return subprocess.run([*command, "-o", str(folder / "network"), str(source)], capture_output=True, check=False)


def not_compiled(command: list[str], ran: subprocess.CompletedProcess[bytes]) -> Refused:
    said = ran.stderr.decode(errors="replace").strip().splitlines() or [f"status {ran.returncode}"]
    why = f"its values are too large ({SHORTER})" if any(words in ran.stderr for words in TOO_LARGE) else next((line for line in said if "error" in line), said[-1])
    return Refused(f"{command[0]} doesn't compile the network: {why}", UNREADABLE)


def stacks_in(folder: Path) -> dict[str, int]:
    """What gcc left in a folder of the stack, by functions."""
    graphs = list(folder.glob("*.ci"))
    return {SUM.sub("", name): size for name, size in (deepest(graphs[0].read_text()) if graphs else {}).items()}


def rows_of(taken: dict[str, int]) -> str:
    return "".join(f"{name} {taken[name]}\n" for name in TOLD if name in taken)


def room_of(stack: str) -> int:
    """The bytes of stack that the whole program takes, of what was told; 0 where nothing was."""
    return int(stack.split()[-1]) if stack else 0


def make_room(stack: int) -> None:
    """Lets the stack of programs that are run from now on become as large as this one asks for."""
    soft, hard = resource.getrlimit(resource.RLIMIT_STACK)
    if soft == resource.RLIM_INFINITY or stack + BESIDE <= soft:
        return
    if hard != resource.RLIM_INFINITY and stack + BESIDE > hard:
        raise Refused(f"memory: {stack} bytes of stack are needed, and {hard} allowed (ulimit -Hs); {SHORTER}", UNREADABLE)
    resource.setrlimit(resource.RLIMIT_STACK, (stack + BESIDE, hard))


def run(program: str, stack: int) -> None:
    """Runs a program on standard input, and ends as it does; where the reader of its output is gone, without a word."""
    make_room(stack)
    ran = subprocess.run([program], stderr=subprocess.PIPE, check=False)
    if ran.returncode == UNREADABLE and ran.stderr == UNWRITTEN and stat.S_ISFIFO(os.fstat(1).st_mode):
        raise BrokenPipeError
    if ran.returncode < 0:
        asked = f": it takes {stack} bytes of stack" if stack else f": it may lack stack (ulimit -s); {SHORTER}"
        is_lack = -ran.returncode in (signal.SIGSEGV, signal.SIGKILL)
        raise Refused(f"the compiled program was ended by signal {-ran.returncode}{asked if is_lack else ''}", UNREADABLE)
    sys.stderr.buffer.write(ran.stderr)
    sys.exit(ran.returncode)
