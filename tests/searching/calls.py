"""Calls of the program, what each takes, and what certificates it finds."""
import os
import re
import resource
import subprocess
import tempfile
from pathlib import Path

from workbench.program import answering
from workbench.proposing import APART as MEANS
from workbench.proposing import searcher

# What a call may take: the aim. A call that wants more than the guard is refused it, and one that works longer is ended, since it hangs.
MEMORY = 200 << 20
GUARD = 3 << 30
HANGS = 900
# What is told as dear, where the seconds are printed: they are no limit.
SECONDS = 2
TIMES = 3
NONE_FOUND = re.compile(r"equal on [\d,]+ samples; no certificate found\n")
DIFFER = re.compile(r"they differ on this recording: line (\d+): (.*) and (.*)\n")
# Why none is found: where two networks differ, with what each has there, the two as they are given where the search gave up; or how long one
# would be.
REASON = re.compile(r"(gave up: \d+ nodes visited\n)?\(at( \d+)*\)\n- .+\n\+ .+\n(the first wire that differs: .+\n)?|too long: \d+ steps, \d+ bytes\n")


class Caller:
    """The program, the folder with the files that it is given, and what its calls took: the command, seconds of a processor, bytes."""

    def __init__(self, program, folder):
        self.program, self.folder, self.count, self.costs = program, Path(folder), 0, []

    def file(self, text):
        """The name of a new file."""
        self.count += 1
        name = self.folder / str(self.count)
        name.write_text(text)
        return str(name)

    def call(self, *words, stream=os.devnull):
        """The status of a call that reads the stream, and what it writes on both."""
        return self.called(answering(words), *words, stream=stream)

    def called(self, program, *words, stream=os.devnull):
        """The same of a call of this program."""
        os.environ["YAMPA"] = str(self.program)
        with open(stream, "rb") as samples, tempfile.TemporaryFile() as output, tempfile.TemporaryFile() as error:
            child = subprocess.Popen([program, *words], stdin=samples, stdout=output, stderr=error)
            _, status, used = os.wait4(child.pid, 0)
            child.returncode = os.waitstatus_to_exitcode(status)
            for file in output, error:
                file.seek(0)
            told = output.read().decode(), error.read().decode(errors="replace")
        self.costs.append((words[0], used.ru_utime + used.ru_stime, used.ru_maxrss << 10))
        return child.returncode, *told

    def certified(self, source, target):
        """How many steps `certify` finds, or why it finds none, and what is wrong with what it prints."""
        status, output, error = self.call("certify", source, target)
        if status == 1 and DIFFER.fullmatch(error):
            return self.apart(source, target, output, DIFFER.fullmatch(error))
        reason = output.removeprefix(MEANS.decode())
        if status == 1 and NONE_FOUND.fullmatch(error) and REASON.fullmatch(reason) and (reason != output) == reason.startswith("(at"):
            return reason_in(reason), None
        if status:
            return None, f"certify: status {status}, {error!r}, {len(output)} bytes printed"
        told = self.call("check", source, target, self.file(output))
        right = (0, f"accepted {steps_in(output)}\n", "")
        return steps_in(output), None if told == right else f"check: {told}"

    def apart(self, source, target, recording, told):
        """Why the search alone finds no certificate between two networks, and what is wrong with how it is told that they differ."""
        outputs = [self.call("run", net, stream=self.file(recording))[1].splitlines() for net in (source, target)]
        number = int(told[1])
        right = number == len(recording.splitlines()) and [lines[-1] for lines in outputs] == [told[2], told[3]] and told[2] != told[3]
        status, reason, _ = self.called(searcher(), "certify", source, target)
        right = right and outputs[0][:-1] == outputs[1][:-1] and status == 1 and REASON.fullmatch(reason)
        return reason_in(reason), None if right else f"certify: {told[0]!r} is told of two networks that output {outputs}"

    def dear(self):
        """The calls that took more memory than is allowed."""
        return [f"{command}: {taken >> 20} MiB" for command, _, taken in self.costs if taken > MEMORY]


def limit():
    """Limits the memory of what this process starts, and ends what hangs."""
    resource.setrlimit(resource.RLIMIT_AS, (GUARD, GUARD))
    resource.setrlimit(resource.RLIMIT_CPU, (HANGS, HANGS))


def reason_in(text):
    """Why none is found, in few words: the first line, and the position before how much was done where the search gave up."""
    first, *more = text.splitlines()
    gave_up, found, nodes = first.partition("gave up: ")
    return f"{found}{more[0]}, {nodes}" if found else gave_up


def steps_in(text):
    """How many steps a certificate has."""
    return text.count("(step ")


def found_within(found, known):
    """Whether so many steps are found, at most `TIMES` as many as are known."""
    return isinstance(found, int) and found <= TIMES * known


def told_of(found):
    """What was found, in a word or two."""
    return str(found) if isinstance(found, int) else "none"
