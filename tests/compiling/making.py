"""Makes C of networks and programs of C, runs them, and compares what they tell."""
import os
import re
import select
import shutil
import subprocess
from collections import Counter
from dataclasses import dataclass

STRICT = ["-Wall", "-Wextra", "-Wpedantic", "-Wconversion", "-Wshadow", "-Werror"]
COMPILERS = {
    "gcc": ["gcc", "-std=c99", "-O1", *STRICT],
    "g++": ["g++", "-x", "c++", "-std=c++11", "-O1", *STRICT],
    "clang": ["clang", "-std=c99", "-O1", *STRICT],
    "clang++": ["clang++", "-x", "c++", "-std=c++11", "-O1", *STRICT],
}
# Compilers for processors of 32 bits, and what runs their programs.
ELSEWHERE = {
    "i686": (["i686-linux-gnu-gcc", "-static", "-std=c99", "-O2"], "qemu-i386"),
    "arm": (["arm-linux-gnueabihf-gcc", "-static", "-std=c99", "-O2"], "qemu-arm"),
}
# Debian's packages of all compilers.
PACKAGES = {
    "gcc": ["gcc"],
    "g++": ["g++"],
    "clang": ["clang"],
    "clang++": ["clang"],
    "i686": ["gcc-i686-linux-gnu", "libc6-dev-i386-cross", "qemu-user"],
    "arm": ["gcc-arm-linux-gnueabihf", "libc6-dev-armhf-cross", "qemu-user"],
    "device": ["gcc-arm-none-eabi"],
}
SLOW = ["gcc", "-std=c99", "-O0", *STRICT]
# With this gcc also looks at what is never reached.
QUICK = ["gcc", "-std=c99", "-O3", *STRICT]
SANITIZED = ["gcc", "-std=c99", "-O1", "-g", *STRICT, "-fsanitize=undefined,address", "-fno-sanitize-recover=all"]
SECONDS = 900


class Differs(Exception):
    """A compiled network tells something else than it must."""


@dataclass
class Told:
    """What a command writes, and its exit status."""

    output: bytes
    error: bytes
    status: int

    def __str__(self):
        return f"status {self.status}, {shortened(self.error)}, {len(self.output)} bytes {shortened(self.output)}"


def shortened(text):
    return repr(text if len(text) < 400 else text[:100] + b" .. " + text[-250:])


class Bench:
    """Where a case is tried: the program, what makes the C, a folder, and a tally of what was met."""

    def __init__(self, program, compiler, folder):
        self.program, self.compiler, self.folder, self.tally = program, compiler, folder, Counter()

    def file(self, name, text):
        path = self.folder / name
        path.write_bytes(text if isinstance(text, bytes) else text.encode())
        return path

    def ran(self, command, stream=b""):
        """What a command tells of a stream."""
        given = {"stdin": stream} if not isinstance(stream, bytes) else {"input": stream}
        done = subprocess.run([*map(str, command)], capture_output=True, cwd=self.folder, timeout=SECONDS, check=False, **given)
        return Told(done.stdout, done.stderr, done.returncode)

    def run(self, net, stream):
        """What `run` tells."""
        return self.ran([self.program, "run", net], stream)

    def compile(self, *words):
        """What `compile` tells."""
        return self.ran([self.compiler, "compile", *words])

    def source(self, name, *words):
        """The file of the C that `compile` prints, and of a line that holds its state to the bytes that are told of it."""
        told = self.compile(*words)
        if told.status or told.error or not told.output:
            raise Differs(f"compile {' '.join(map(str, words))} tells {told}")
        return self.file(name, told.output + (b"" if "--header" in words else holding(told.output)))

    def built(self, name, sources, by=None, *words):
        """A program of these sources, by a command of COMPILERS or another one."""
        command = COMPILERS[by or "gcc"] if isinstance(by, (str, type(None))) else by
        done = self.ran([*command, *words, "-o", name, *sources])
        if done.status or done.output or done.error:
            raise Differs(f"{command[0]} tells {done}")
        self.tally[f"by {' '.join(command[:1])}{' with sanitizers' if command is SANITIZED else ''}"] += 1
        return self.folder / name

    def elsewhere(self, processor, sources):
        """A program for another processor of these sources, as a script that runs it."""
        compiler, runner = ELSEWHERE[processor]
        script = self.file(f"by-{processor}", f'#!/bin/sh\nexec {runner} {self.built(f"of-{processor}", sources, compiler)}\n')
        script.chmod(0o755)
        return script

    def same(self, built, net, stream):
        """Holds a compiled network to what `run` tells of a stream."""
        wanted, told = self.run(net, stream), self.ran([built], stream)
        if wanted != told:
            self.file("stream", stream)
            raise Differs(f"{built.name} on the file `stream` tells\n      {told}\n   run\n      {wanted}")
        self.tally[f"streams of status {wanted.status}"] += 1
        self.tally["lines"] += wanted.output.count(b"\n")


def holding(text):
    """A line that no compiler takes unless the state has at most the bytes that are told at the top, and an eighth of them: one byte
    counts as eight at most."""
    told = re.search(rb"The state has at most (\d+) bytes", text)[1]
    state = re.search(rb"#define (\w+_state) ", text)[1]
    return b"typedef char %b_told[(sizeof(struct %b) <= %b && sizeof(struct %b) >= %b / 8) ? 1 : -1];\n" % (state, state, told, state, told)


def is_here(compiler):
    return shutil.which(compiler) is not None


def can_run(processor):
    """Whether there is what compiles for a processor and runs its programs."""
    compiler, runner = ELSEWHERE[processor]
    return is_here(compiler[0]) and is_here(runner)


def live(built, stream):
    """Holds a compiled network to writing each line before it is given the next one."""
    with subprocess.Popen([built], stdin=subprocess.PIPE, stdout=subprocess.PIPE, stderr=subprocess.PIPE) as child:
        for number, line in enumerate(stream.splitlines(True), 1):
            child.stdin.write(line)
            child.stdin.flush()
            if not select.select([child.stdout], [], [], SECONDS)[0]:
                child.kill()
                raise Differs(f"line {number} isn't answered before the next one is given")
            told = os.read(child.stdout.fileno(), 1 << 20)
            if not told:
                break
            if told.count(b"\n") != 1 or not told.endswith(b"\n"):
                child.kill()
                raise Differs(f"line {number} is answered by {shortened(told)}")
        child.stdin.close()
