"""The program `path_server` as a child process."""

from __future__ import annotations

import ctypes
import os
import shutil
import signal
import subprocess
import sys
import tempfile
import threading
import weakref
from typing import IO, Optional, Sequence, cast

from .faults import NotConnected


def find_program() -> str:
    """The program: that of the environment's PATH_SERVER, or the first `path_server` of its PATH.

    NotConnected: there is none.
    """
    found = os.environ.get("PATH_SERVER") or shutil.which("path_server")
    if not found:
        raise NotConnected("no program path_server: neither PATH_SERVER nor PATH has one")
    return found


_DIE_WITH_PARENT = 1  # PR_SET_PDEATHSIG
_LIBC = ctypes.CDLL(None)


def _die_with_parent() -> None:
    """Has the system end this child with the thread that started it, however that ends. (prctl(2))"""
    _LIBC.prctl(_DIE_WITH_PARENT, signal.SIGKILL)


def _kill(process: subprocess.Popen[bytes]) -> None:
    """Ends a child process where it still runs."""
    if process.poll() is None:
        process.kill()
        process.wait()


class Program:
    """A child process with a pipe for its output, and one for its input where that is asked for. What it says on
    standard error is kept, or goes where this Python's goes. It ends with this Python, or as soon as nothing names it
    any more."""

    def __init__(self, command: Sequence[str], has_input: bool, keeps_stderr: bool = True) -> None:
        """Starts it.

        NotConnected: it could not be started.
        """
        self._told = tempfile.TemporaryFile()
        self._last_words = ""
        given = subprocess.PIPE if has_input else subprocess.DEVNULL
        # a child would end with its thread, so of other threads than the first it has to be asked at the end
        lasts = sys.platform == "linux" and threading.current_thread() is threading.main_thread()
        try:
            self.process = subprocess.Popen(
                list(command),
                bufsize=0,
                stdin=given,
                stdout=subprocess.PIPE,
                stderr=self._told if keeps_stderr else None,
                preexec_fn=_die_with_parent if lasts else None,
            )
        except (OSError, ValueError) as fault:
            self._told.close()
            raise NotConnected("%s could not be started" % command[0]) from fault
        weakref.finalize(self, _kill, self.process)

    @property
    def output(self) -> IO[bytes]:
        """What it writes."""
        return cast("IO[bytes]", self.process.stdout)

    @property
    def input(self) -> IO[bytes]:
        """What it reads, where it was asked for."""
        return cast("IO[bytes]", self.process.stdin)

    def told(self) -> str:
        """What it has said on standard error so far, or up to its end."""
        if not self._told.closed:
            file = self._told.fileno()
            # the child writes at the place that a seek would move
            self._last_words = os.pread(file, os.fstat(file).st_size, 0).decode(errors="replace")
        return self._last_words

    def end(self, patience: float = 0.0) -> None:
        """Closes its pipes and waits so many seconds until it has ended; else it is killed. A second time is no
        fault."""
        for pipe in (self.process.stdin, self.process.stdout):
            if pipe is not None:
                pipe.close()
        status: Optional[int] = self.process.poll()
        if status is None and patience:
            try:
                status = self.process.wait(patience)
            except subprocess.TimeoutExpired:
                pass
        _kill(self.process)
        self.told()
        self._told.close()
