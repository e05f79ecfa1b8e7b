"""What tools/refuse-each and tools/refuse-program share: a program is run with tools/refuse.c beside it."""
import os
import shlex
import struct
import subprocess
import sys
import tempfile
import time

TOOLS = os.path.dirname(os.path.realpath(__file__))
# What tools/refuse.c counts, in its order.
KINDS = ("allocation", "thread", "read", "write", "take", "message")


def stop(why):
    print(f"{os.path.relpath(sys.argv[0])}: {why}", file=sys.stderr)
    sys.exit(2)


def options(words, usage):
    """The program that the words name, if they do, how many runs stand side by side, and the other words."""
    program, jobs, others = None, 2, []
    words = iter(words)
    for word in words:
        if word == "--program":
            program = os.path.realpath(next(words, ""))
            if not os.access(program, os.X_OK):
                stop(f"{program} is no program")
        elif word == "--jobs":
            number = next(words, "")
            if not number.isdecimal() or number == "0":
                stop(usage)
            jobs = int(number)
        else:
            others.append(word)
    return program, jobs, others


def built(folder, crate, *flags):
    """Builds a crate's program, or its tests, without a proof."""
    file = f"{folder}/{crate}"
    if subprocess.run([f"{TOOLS}/build-unproved", *flags, crate, file], check=False).returncode:
        sys.exit(2)
    return file


class Ran:
    """How a run ended: its status (below 0 that of a signal; None where it had not ended in time), what it wrote, how
    many calls of each kind it made, and how many of them were refused."""

    def __init__(self, status, output, errors, counts, seconds):
        self.status, self.output, self.errors, self.seconds = status, output, errors, seconds
        *calls, self.refused = struct.unpack("7Q", counts[:56])
        self.calls = dict(zip(KINDS, calls))

    def told(self):
        ended = "had not ended in time" if self.status is None else f"ended with {self.status}"
        said = (self.output[-2000:] + self.errors[-2000:]).decode(errors="replace")
        return f"{ended} after {self.seconds:.1f} seconds\n{said}"


class Refuser:
    """Runs programs, each for so many seconds at most, and refuses them what it is asked to."""

    def __init__(self, folder, seconds):
        self.folder, self.seconds = folder, seconds
        self.library = f"{folder}/refuse.so"
        words = ["gcc", "-O2", "-Wall", "-shared", "-fPIC", "-o", self.library, f"{TOOLS}/refuse.c"]
        try:
            failed = subprocess.run(words, check=False).returncode
        except OSError as error:
            stop(f"gcc does not start ({error.strerror})")
        if failed:
            stop("tools/refuse.c was not compiled")

    def variables(self, kind=None, first=1, last=None, short=False):
        """The variables for a run in which calls of a kind are refused, from a first to a last one, or for ever."""
        found = {"LD_PRELOAD": self.library}
        if kind:
            found |= {"REFUSE": kind, "REFUSE_FROM": str(first)}
            found |= {"REFUSE_TO": str(last)} if last else {}
        return found | ({"REFUSE_SHORT": "1"} if short else {})

    def run(self, words, script=None, seconds=None, **refused):
        handle, counts = tempfile.mkstemp(dir=self.folder)
        os.ftruncate(handle, 64)
        begun = time.monotonic()
        how = {"stdout": subprocess.PIPE, "stderr": subprocess.PIPE}
        try:
            with open(script or os.devnull, "rb") as given:
                ran = subprocess.Popen(words, env=self.variables(**refused) | {"REFUSE_COUNTS": counts}, stdin=given, **how)
            try:
                output, errors = ran.communicate(timeout=seconds or self.seconds)
                status = ran.returncode
            except subprocess.TimeoutExpired:
                ran.kill()
                output, errors = ran.communicate()
                status = None
            ran = Ran(status, output, errors, os.pread(handle, 64, 0), time.monotonic() - begun)
            # Whatever runs, it writes.
            if not any(ran.calls.values()):
                stop(f"{words[0]} runs without the library: {ran.told()}")
            return ran
        finally:
            os.close(handle)
            os.remove(counts)

    def line(self, words, script=None, **refused):
        """The line that makes a run again in a shell."""
        given = [f"{name}={value}" for name, value in self.variables(**refused).items()]
        return shlex.join([*given, *words]) + (f" <{shlex.quote(script)}" if script else "")
