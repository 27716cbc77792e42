"""RDKit's process, with limits of time and memory: claims are read there, SMILES drawn, and records laid out."""
from __future__ import annotations

import importlib.util
import json
import os
import select
import signal
import subprocess
import sys
import threading
import time
from pathlib import Path
from typing import Any, Dict, List, Optional

from ..errors import MarkushError, Refused

__all__ = ["Drawer"]

_BEGIN = "import sys; sys.path.insert(0, sys.argv[1]); from markush.serve.child import main; main(float(sys.argv[2]), int(sys.argv[3]))"
_MOST_ANSWER = 256 << 20


class Drawer:
    """A process that is asked one thing after the other; it is started when it is first asked, and again where it ended.

    Parameters
    ----------
    seconds : float
        The processor's time of a question; on the clock it may take twice as long and a few seconds more.
    megabytes : int
        The memory that the process may have.

    Examples
    --------
    >>> with Drawer() as drawer:
    ...     drawer.ask("claim", text="root c1ccccc1[R1]\\nR1 halogen")["codes"]
    '2'
    """

    def __init__(self, seconds: float = 20, megabytes: int = 3072) -> None:
        self.seconds, self.megabytes = seconds, megabytes
        self.lock = threading.Lock()
        self._process: Optional["subprocess.Popen[bytes]"] = None
        self._got = bytearray()

    def __enter__(self) -> "Drawer":
        return self

    def __exit__(self, *_: object) -> None:
        self.close()

    @property
    def has_rdkit(self) -> bool:
        """Whether this Python has RDKit."""
        return importlib.util.find_spec("rdkit") is not None

    def ask(self, do: str, **words: Any) -> Dict[str, Any]:
        """The answer to one question.

        Raises
        ------
        Refused
            What was sent can't be read, or takes more time or memory than it may.
        """
        with self.lock:
            try:
                answer = self._answer(json.dumps({"do": do, **words}).encode("ascii") + b"\n")
            except BaseException:
                self._end()
                raise
        if "fault" in answer:
            raise Refused(str(answer["fault"]), line=answer.get("line"))
        found: Dict[str, Any] = answer["found"]
        return found

    def close(self) -> None:
        """End the process."""
        with self.lock:
            self._end()

    def _start(self) -> "subprocess.Popen[bytes]":
        package = str(Path(__file__).resolve().parents[2])
        words: List[str] = [sys.executable, "-c", _BEGIN, package, str(self.seconds), str(self.megabytes)]
        kept = {name: value for name, value in os.environ.items() if name in ("PATH", "HOME", "LANG", "LC_ALL", "PYTHONPATH", "VIRTUAL_ENV")}
        return subprocess.Popen(
            words, stdin=subprocess.PIPE, stdout=subprocess.PIPE, stderr=subprocess.DEVNULL, cwd="/", env=kept, start_new_session=True
        )

    def _answer(self, line: bytes) -> Dict[str, Any]:
        if self._process is None or self._process.poll() is not None:
            self._end()
            self._process = self._start()
        process = self._process
        assert process.stdin is not None and process.stdout is not None
        end = time.monotonic() + 2 * self.seconds + 10
        feeder = threading.Thread(target=_fed, args=(process.stdin, line), daemon=True)
        feeder.start()
        while b"\n" not in self._got:
            left = end - time.monotonic()
            if left <= 0 or len(self._got) > _MOST_ANSWER:
                self._end()
                return {"fault": f"it took more than {self.seconds:g} seconds to be read and drawn, and was given up"}
            if not select.select([process.stdout], [], [], min(left, 1.0))[0]:
                continue
            piece = os.read(process.stdout.fileno(), 1 << 18)
            if not piece:
                return self._ended(process)
            self._got += piece
        text, _, rest = bytes(self._got).partition(b"\n")
        self._got = bytearray(rest)
        answer = json.loads(text)
        if not isinstance(answer, dict):
            raise MarkushError("RDKit's process wrote no answer")
        return answer

    def _ended(self, process: "subprocess.Popen[bytes]") -> Dict[str, Any]:
        status = process.wait()
        self._end()
        if status == -signal.SIGPROF:
            return {"fault": f"it took more than {self.seconds:g} seconds to be read and drawn, and was given up"}
        return {"fault": f"it couldn't be read and drawn within {self.megabytes} megabytes of memory"}

    def _end(self) -> None:
        process, self._process = self._process, None
        self._got.clear()
        if process is None:
            return
        if process.poll() is None:
            process.kill()
        process.wait()
        for pipe in (process.stdin, process.stdout):
            if pipe is not None:
                try:
                    pipe.close()
                except OSError:
                    continue


def _fed(pipe: Any, line: bytes) -> None:
    try:
        pipe.write(line)
        pipe.flush()
    except (OSError, ValueError):
        return
