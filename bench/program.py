"""The built program, a folder for files, and what a run takes. The benches import it, and by it what checks/ has as modules."""
import os
import pathlib
import resource
import subprocess
import sys
import tempfile
from typing import NamedTuple

TOP = pathlib.Path(__file__).resolve().parent.parent
sys.path.append(str(TOP / "checks"))

PROGRAM = os.path.abspath(os.environ.get("MARKUSH", TOP / "crates/markush/out/markush"))
WORK = tempfile.TemporaryDirectory()
AT = pathlib.Path(WORK.name)


class Run(NamedTuple):
    """CPU seconds, the greatest size in bytes, what was printed, and the status."""

    seconds: float
    size: int
    text: str
    status: int


def fail(said):
    sys.exit(f"bench/{pathlib.Path(sys.argv[0]).name}: {said}")


def run(*words, script="", limit=None):
    """A run in the folder. Where more CPU seconds are used than the limit, a signal ends it."""

    def bound():
        resource.setrlimit(resource.RLIMIT_CORE, (0, 0))
        resource.setrlimit(resource.RLIMIT_CPU, (limit, limit + 1))

    if not os.path.exists(PROGRAM):
        fail("the program isn't built")
    with tempfile.TemporaryFile("w+") as commands, tempfile.TemporaryFile("w+") as out:
        commands.write(script)
        commands.seek(0)
        child = subprocess.Popen([PROGRAM, *map(str, words)], stdin=commands, stdout=out, cwd=AT, preexec_fn=bound if limit else None)
        _, status, used = os.wait4(child.pid, 0)
        child.returncode = os.waitstatus_to_exitcode(status)
        out.seek(0)
        return Run(used.ru_utime + used.ru_stime, 1024 * used.ru_maxrss, out.read(), child.returncode)


def spent(*words, script=""):
    """The CPU seconds of a run that refuses nothing, and what it prints."""
    ran = run(*words, script=script)
    if ran.status or "refused" in ran.text:
        fail(f"status {ran.status}: {ran.text[-300:]}")
    return ran.seconds, ran.text


def write(name, text):
    """Writes a file into the folder, and gives its path."""
    path = AT / name
    with open(path, "w", encoding="ascii") as out:
        out.writelines([text] if isinstance(text, str) else text)
    return path
