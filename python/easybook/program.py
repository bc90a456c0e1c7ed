"""Finds the program easybook and runs it on a log, with a script or as a conversation; whatever raises, no process stays
behind."""

from __future__ import annotations

import contextlib
import os
import shutil
import stat
import subprocess
import tempfile
import threading
import weakref
from typing import IO, Callable, Iterator, List, Optional, Set

from .errors import EasybookError, Ended, NoProgram, fault
from .reports import Answers
from .swf import Path, opened

_MOST_BYTES_SAID = 65_536


def find(program: Optional[Path] = None) -> str:
    """The program's path: the one given, that of the variable EASYBOOK, the one on the PATH, or the one in whose
    repository this module stands."""
    given = program or os.environ.get("EASYBOOK")
    if given:
        found = shutil.which(os.fspath(given))
    else:
        beside = os.path.join(os.path.dirname(os.path.abspath(__file__)), "..", "..", "easybook")
        found = shutil.which("easybook") or (shutil.which(beside) if os.path.isfile(beside) else None)
    if found is None:
        where = "" if program else ", which EASYBOOK names"
        raise NoProgram(f"there is no program {given}{where}" if given else
                        "the program easybook is not on the PATH: set EASYBOOK to its path, or give --program PATH (in Python "
                        "program=PATH)")
    return os.path.abspath(found)


_ready: Set[str] = set()
_ready_lock = threading.Lock()


def ready(program: Optional[Path] = None) -> str:
    """The program's path, once it has answered for an empty log. What it says meanwhile goes to standard error, since a
    program that is called from its repository for the first time builds itself; no second one is started till then."""
    path = find(program)
    with _ready_lock:
        if path not in _ready:
            try:
                ran = subprocess.run([path, "--procs=1"], stdin=subprocess.DEVNULL, stdout=subprocess.PIPE, check=False)
            except OSError as it:
                raise NoProgram(f"{path} could not be started: {it.strerror}") from None
            if ran.returncode != 0 or ran.stdout != b"schedule base version 0 jobs 0\n":
                raise NoProgram(f"{path} is no easybook: on an empty log it ended with status {ran.returncode}")
            _ready.add(path)
    return path


class Stopper:
    """Ends the programs that were started under it, and lets no other begin."""

    def __init__(self) -> None:
        self._lock = threading.Lock()
        self._running: Set["subprocess.Popen[bytes]"] = set()
        self._is_stopped = False

    @property
    def is_stopped(self) -> bool:
        """Whether all that begins is ended at once."""
        return self._is_stopped

    def add(self, process: "subprocess.Popen[bytes]") -> None:
        """Takes a program that has just been started."""
        with self._lock:
            self._running.add(process)
            if self._is_stopped:
                process.kill()

    def remove(self, process: "subprocess.Popen[bytes]") -> None:
        """Lets go of a program that has ended."""
        with self._lock:
            self._running.discard(process)

    def stop(self) -> None:
        """Ends all of them."""
        with self._lock:
            self._is_stopped = True
            for process in self._running:
                process.kill()


def _why(process: "subprocess.Popen[bytes]", said: IO[bytes]) -> EasybookError:
    """Why a program gave no further answer."""
    status = process.wait()
    said.seek(0)
    told = said.read(_MOST_BYTES_SAID).decode("utf-8", "replace").splitlines()
    line = told[-1] if told else ""
    own = line[len("easybook: ") :] if line.startswith("easybook: ") else line
    found = fault(own[len("line ") :].replace(": ", " ")) if status == 1 and own.startswith("line ") else None
    return found or Ended(status, own)


def _send(process: "subprocess.Popen[bytes]", script: bytes) -> None:
    """Hands a script over; a program that ended before it read all of it says why itself."""
    assert process.stdin is not None
    with contextlib.suppress(BrokenPipeError):
        process.stdin.write(script)
    with contextlib.suppress(BrokenPipeError):
        process.stdin.close()


def _words(program: Optional[Path], log: str, procs: Optional[int], spacing: Optional[int]) -> List[str]:
    # A name that begins with `-` would be read as an option.
    words = [ready(program), log if os.path.isabs(log) else os.path.join(".", log)]
    if procs is not None:
        words.append(f"--procs={procs}")
    if spacing is not None:
        words.append(f"--spacing={spacing}")
    return words


@contextlib.contextmanager
def answers(log: str, script: bytes, procs: Optional[int] = None, spacing: Optional[int] = None,
            program: Optional[Path] = None, stopper: Optional[Stopper] = None) -> Iterator[Answers]:
    """Runs the program on the log in a file with a script, and reads what it answers; at the end it must have ended
    well and said nothing more."""
    words = _words(program, log, procs, spacing)
    with tempfile.TemporaryFile() as said:
        try:
            process = subprocess.Popen(words, stdin=subprocess.PIPE, stdout=subprocess.PIPE, stderr=said)
        except OSError as it:
            raise NoProgram(f"{words[0]} could not be started: {it.strerror}") from None
        with process:
            try:
                if stopper:
                    stopper.add(process)
                _send(process, script)
                assert process.stdout is not None
                told = (line.decode("ascii", "replace") for line in process.stdout)
                yield Answers(told, lambda: _why(process, said))
                if next(told, None) is not None or process.wait() != 0:
                    raise _why(process, said)
            finally:
                process.kill()
                if stopper:
                    stopper.remove(process)


def _finish(process: "subprocess.Popen[bytes]", said: IO[bytes]) -> None:
    """Ends a program, if it hasn't, and lets go of all that belongs to it."""
    process.kill()
    process.wait()
    assert process.stdin is not None and process.stdout is not None
    with contextlib.suppress(OSError):  # a command that it never took
        process.stdin.close()
    process.stdout.close()
    said.close()


class Live:
    """A program that answers each command before it reads the next. It is ended where nothing holds this any more, and
    where Python ends. It has a session of its own, so that an interrupt from the terminal comes to Python alone."""

    def __init__(self, log: str, procs: Optional[int] = None, spacing: Optional[int] = None,
                 program: Optional[Path] = None) -> None:
        words = [*_words(program, log, procs, spacing), "--live"]
        said = tempfile.TemporaryFile()
        try:
            process = subprocess.Popen(words, stdin=subprocess.PIPE, stdout=subprocess.PIPE, stderr=said,
                                       start_new_session=True)
        except BaseException as it:
            said.close()
            if isinstance(it, OSError):
                raise NoProgram(f"{words[0]} could not be started: {it.strerror}") from None
            raise
        self._process = process
        self.end = weakref.finalize(self, _finish, process, said)
        self._why: Callable[[], EasybookError] = lambda: _why(process, said)
        assert process.stdout is not None
        told = (line.decode("ascii", "surrogateescape") for line in process.stdout)
        self.answers = Answers(told, self._why)

    @property
    def status(self) -> int:
        """The exit status, once it is known; 0 before."""
        return self._process.returncode or 0

    def send(self, command: str) -> None:
        """Sends a command, which is ASCII and has no line feed."""
        assert self._process.stdin is not None
        try:
            self._process.stdin.write(command.encode("ascii") + b"\n")
            self._process.stdin.flush()
        except BrokenPipeError:
            raise self._why() from None

    def kill(self) -> None:
        """Kills the program, so that whoever waits for its answer is told of its end."""
        self._process.kill()

    def quit(self) -> None:
        """Has the program end by itself; raises where it doesn't end well."""
        self.send("quit")
        self.answers.words("bye")
        if self._process.wait() != 0:
            raise self._why()


def is_read_once(log: Path) -> bool:
    """Whether a log can be read by its path once alone, or by no other program: a pipe, or what only this process has
    open, such as `/dev/stdin`."""
    path = os.path.abspath(log)
    if path == "/dev/stdin" or path.startswith(("/dev/fd/", "/proc/")):
        return True
    with contextlib.suppress(OSError, ValueError):
        mode = os.stat(path).st_mode
        return not (stat.S_ISREG(mode) or stat.S_ISDIR(mode))
    return False


def _is_utf8(path: str) -> bool:
    """Whether a path is one that the program takes as a word."""
    try:
        os.fsencode(path).decode("utf-8")
    except UnicodeError:
        return False
    return True


def is_copied(log: Path) -> bool:
    """Whether the program reads a copy of a log: its name ends in `.gz`, or is no UTF-8, or it is read once."""
    path = os.fspath(log)
    return path.endswith(".gz") or not _is_utf8(path) or is_read_once(path)


@contextlib.contextmanager
def as_file(log: Path) -> Iterator[str]:
    """The path of a log as the program can read it, as often as it likes: where it is copied that of the copy, unpacked
    if the log's name ends in `.gz`, for as long as this stands."""
    path = os.fspath(log)
    if not is_copied(path):
        yield path
        return
    with opened(path) as file, tempfile.NamedTemporaryFile(prefix="easybook-", suffix=".swf") as copy:
        shutil.copyfileobj(file, copy, 1 << 20)
        copy.flush()
        yield copy.name
