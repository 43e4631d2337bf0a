"""What the program tells of networks of Haskell, in the words and the lines of their files."""
import os
import subprocess
import sys
import tempfile

from workbench import c_names
from workbench.ending import Refused, ended, write
from workbench.faults import Files, explained
from workbench.origin import PROGRAMS, Program, program_of
from workbench.outline import position_in, read_type
from workbench.program import COPIES, GAIN, again, answered, answering
from front.spell import shown_type
from workbench.translated import taken_of

# The files of each command by their roles, and the options behind which a value stands.
ONE, TWO, THREE, BETWEEN = ["network"], ["source", "target"], ["source", "target", "certificate"], ["source", "between", "target"]
ROLES = dict.fromkeys(["types", "run", "outline", "laws", "optimise", "improve", "compile"], ONE)
ROLES |= {"certify": TWO, "apply": ["source", "certificate"], "check": THREE, "run-checked": THREE, "compile-checked": THREE}
VALUED = ["--at", "--first", "--name", "--most"]


def places_of_files(words: list) -> list:
    """The places of the words that name files."""
    return [i for i in range(1, len(words)) if not words[i].startswith("-") and words[i - 1] not in VALUED]


def files_in(words: list) -> Files:
    """The files of a call by their roles."""
    roles, named_files = ROLES.get(words[0], []) if words else [], [words[place] for place in places_of_files(words)]
    if words and words[0] == "certify" and len(named_files) == len(BETWEEN):
        roles = BETWEEN
    paths = dict(zip(roles, named_files))
    return Files({role: PROGRAMS[name].name if name in PROGRAMS else name for role, name in paths.items()}, paths)


def of_haskell(files: Files) -> dict:
    """The programs of Haskell among the files, by their roles."""
    found = {role: PROGRAMS[name] for role, name in files.paths.items() if name in PROGRAMS}
    return {role: program for role, program in found.items() if program.is_haskell}


def spoken(words: list, line: str) -> str:
    """A fault line of the program; of a network of Haskell where it is in its file, and why."""
    files = files_in(words)
    role, _, fault = line.partition(": ")
    program = of_haskell(files).get(role)
    if program is None:
        return line
    told = explained(line, files, None)
    return told.where() + told.why


# ---- what is printed


def spoken_types(program: Program, output: str) -> str:
    """The lines of `types`, in the words of the file."""
    line, *rest = output.splitlines(keepends=True)
    made = read_type(line.rstrip("\n").split(" -> ")[1])
    return "".join([f"{shown_type(program.input)} -> {shown_type(program.output_type(made))}\n", *rest])


def spoken_outline(program: Program, output: str) -> str:
    """The rows of `outline`, with types in the words of the file and with the place of each part."""
    lines = []
    for line in output.splitlines():
        position, word, type_, *weight = line.split("\t")
        named = shown_type(program.named_type(read_type(type_)))
        lines.append("\t".join([position, word, named, *weight, f"; {program.place_of(position_in(position))}"]) + "\n")
    return "".join(lines)


def spoken_laws(program: Program, output: str) -> str:
    """The steps of `laws`, with the place of each."""
    return "".join(f"{line} ; {program.place_of(position_in(line))}\n" if line.startswith("(step ") else f"{line}\n" for line in output.splitlines())


def spoken_c(program: Program, output: str) -> str:
    """The C of a file of Haskell, with places and names in it."""
    return c_names.with_names(program, c_names.with_origins(program, output))


def spoken_output(command: str, networks: dict, output: str) -> str:
    """What a command printed, in the words of the files of Haskell. The C of a target that is none has the names of its source, whose types
    are the same, but no places."""
    if command == "compile-checked" and "target" not in networks:
        return c_names.with_names(networks["source"], output)
    return SPOKEN[command](networks["target" if command == "compile-checked" else "network"], output)


SPOKEN = {"types": spoken_types, "outline": spoken_outline, "laws": spoken_laws, "compile": spoken_c, "compile-checked": spoken_c}


# ---- the call


def main() -> None:
    """Runs the program, the first word, with the others, of which some name files of Haskell."""
    program, *words = taken_of(sys.argv[1:])

    def work():
        try:
            sys.exit(answer(program, words))
        except Refused as refused:
            print(refused, file=sys.stderr)
            sys.exit(refused.status)

    ended(words[0], work)


def answer(program: str, words: list) -> int:
    """What the program answers, told in the words of the files of Haskell; its status."""
    os.environ["YAMPA"] = program
    words = list(words)
    for place in places_of_files(words):
        words[place] = again(words[place])
    networks = of_haskell(files_in(words))
    is_spoken = bool(networks) and words[0] in SPOKEN
    if networks:
        os.environ[GAIN] = "1"
    with tempfile.TemporaryFile() as output:
        to = output if is_spoken else None
        with subprocess.Popen([answering(words), *words], stdout=to, stderr=subprocess.PIPE, text=True, errors="replace") as run:
            for line in run.stderr or []:
                tell(words, line)
        status = run.returncode
        output.seek(0)
        told = output.read().decode()
    write(None, spoken_output(words[0], networks, told) if is_spoken and not status else told)
    return status if status >= 0 else 128 - status


def tell(words: list, line: str) -> None:
    """Tells a line of standard error, in which files have the names that they were called by; one of the wrapper as it is."""
    for path, name in {**COPIES, **{path: program.name for path, program in PROGRAMS.items()}}.items():
        line = line.replace(f"'{path}'", f"'{name}'")
    print(line.rstrip("\n") if line.startswith("yampa: ") else spoken(words, line.rstrip("\n")), file=sys.stderr, flush=True)


def named_types(net: str) -> tuple:
    """The input type and the output type of a network that the program reads at that path, in the words of its file."""
    line = answered(["types", net]).decode().splitlines()[0]
    program = program_of(net)
    return program.input, program.output_type(read_type(line.split(" -> ")[1]))
